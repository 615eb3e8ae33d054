"""What texts of array statements print and how they end, tuple by tuple, from docs/LANGUAGE.md ("What a program does", "Operators and
their values") and docs/DECISIONS.md ("What a program means"). It shares no line with the program.

Of an array statement all that is evaluated once comes first, from left to right, the left side's before the right side's; then its shapes; then
at each tuple, the first position fastest, the left side's bounds, and the right side's operands from left to right; and when all values are
taken they are stored.
"""
from collections import namedtuple
from functools import reduce
from itertools import product

from strips.reader import read

Answer = namedtuple("Answer", "status out err fault")  # the exit status, what both outputs hold, and the fault or None
LEAST, GREATEST = -2**63, 2**63 - 1


class Fault(Exception):
    """The kind of a fault, its tuple, if there is one, and its line, once that is known."""

    def __init__(self, kind, tuple_=None, line=None):
        super().__init__(kind)
        self.kind, self.tuple, self.line = kind, tuple_, line

    def __str__(self):
        place = f" at ({','.join(map(str, self.tuple))})" if self.tuple is not None else ""
        return f"hpf: line {self.line}: fault {self.kind}{place}\n"


def wrapped(number):
    return (number + 2**63) % 2**64 - 2**63


# ---- operators

def quotient(a, b):
    """Toward zero."""
    if b == 0:
        raise Fault("DivZero")
    return wrapped(abs(a) // abs(b) * (1 if (a < 0) == (b < 0) else -1))


def remainder(a, b):
    """What is left of a, with its sign."""
    if b == 0:
        raise Fault("DivZero")
    return abs(a) % abs(b) * (-1 if a < 0 else 1)


def modulo(a, b):
    if b == 0:
        raise Fault("DivZero")
    return a % b


def power(a, b):
    if b >= 0:
        return wrapped(pow(a, b, 2**64))
    if a == 0:
        raise Fault("DivZero")
    return (1 if a == 1 or b % 2 == 0 else -1) if abs(a) == 1 else 0


ONE = {"-": lambda a: wrapped(-a), "+": lambda a: a, ".NOT.": lambda a: int(a == 0), "ABS": lambda a: wrapped(abs(a)), "NOT": lambda a: ~a}
TWO = {
    "+": lambda a, b: wrapped(a + b), "-": lambda a, b: wrapped(a - b), "*": lambda a, b: wrapped(a * b), "/": quotient, "**": power,
    "==": lambda a, b: int(a == b), "/=": lambda a, b: int(a != b), "<": lambda a, b: int(a < b), "<=": lambda a, b: int(a <= b),
    ">": lambda a, b: int(a > b), ">=": lambda a, b: int(a >= b),
    ".AND.": lambda a, b: a & b, ".OR.": lambda a, b: a | b, ".EQV.": lambda a, b: int(a == b), ".NEQV.": lambda a, b: int(a != b),
    "MOD": remainder, "MODULO": modulo, "IAND": lambda a, b: a & b, "IOR": lambda a, b: a | b, "IEOR": lambda a, b: a ^ b,
    "SIGN": lambda a, b: wrapped(-abs(a) if b < 0 else abs(a)), "DIM": lambda a, b: wrapped(max(a - b, 0)),
}
ANY_NUMBER = {"MAX": max, "MIN": min}
REDUCTIONS = {
    "SUM": lambda values: wrapped(sum(values)), "PRODUCT": lambda values: reduce(lambda a, b: wrapped(a * b), values, 1),
    "MAXVAL": lambda values: max(values, default=LEAST), "MINVAL": lambda values: min(values, default=GREATEST),
    "COUNT": sum, "ANY": lambda values: int(any(values)), "ALL": lambda values: int(all(values)),
}


def operation(sign, values):
    if sign in ANY_NUMBER:
        return ANY_NUMBER[sign](values)
    return (ONE if len(values) == 1 else TWO)[sign](*values)


# ---- arrays and sections

class Array:
    """Bounds, and the elements by their subscripts."""

    def __init__(self, bounds, value):
        self.bounds = bounds
        self.elements = dict.fromkeys(product(*[range(first, last + 1) for first, last in bounds]), value)

    def place(self, subscripts):
        """The place of an element: its subscripts, where they are in bounds."""
        if subscripts not in self.elements:
            raise Fault("Bounds")
        return subscripts


class Section:
    """An array, and for each dimension a subscript or the (first, step, count) of a triplet."""

    def __init__(self, array, selections):
        self.array, self.selections = array, selections
        self.extents = [one[2] for one in selections if isinstance(one, tuple)]

    def place(self, tuple_):
        """The place of the element at a tuple of positions from 1."""
        positions = iter(tuple_)
        return self.array.place(tuple(one[0] + (next(positions) - 1) * one[1] if isinstance(one, tuple) else one for one in self.selections))


def count(first, last, step):
    """How many values there are from a first to a last one."""
    if step == 0:
        raise Fault("ZeroStride")
    return abs(last - first + step) // abs(step) if (last - first + step) * step > 0 else 0


def tuples(extents):
    """All tuples of positions, the first fastest."""
    for one in product(*[range(1, extent + 1) for extent in reversed(extents)]):
        yield one[::-1]


def at_each(space, value):
    """The values at the tuples of a space; a fault has its tuple."""
    values = []
    for one in space:
        try:
            values.append(value(one))
        except Fault as fault:
            raise Fault(fault.kind, one) from None
    return values


class Machine:
    """The scalars and arrays of a text while it runs, and what it has printed."""

    def __init__(self, text):
        self.scalars = dict(text.scalars)
        self.arrays = {name: Array(*declared) for name, declared in text.arrays.items()}
        self.printed = []

    # ---- expressions without sections

    def scalar(self, tree, indices):
        """The value of an expression, operands from left to right."""
        kind = tree[0]
        if kind == "number":
            return tree[1]
        if kind == "name":
            return indices[tree[1]] if tree[1] in indices else self.scalars[tree[1]]
        if kind == "element":
            return self.arrays[tree[1]].elements[self.element(tree, indices)]
        if tree[1] in REDUCTIONS:
            return self.reduction(tree)
        return operation(tree[1], [self.scalar(operand, indices) for operand in tree[2]])

    def element(self, tree, indices):
        """The place of an element, whose subscripts are evaluated before their bounds are tested."""
        return self.arrays[tree[1]].place(tuple(self.scalar(one, indices) for one in tree[2]))

    def reduction(self, tree):
        _, values = self.array_value(tree[2][0])
        return REDUCTIONS[tree[1]](values)

    # ---- array expressions

    def section(self, tree):
        """The section that a variable is, or None where it is no array."""
        name, array = tree[1], self.arrays.get(tree[1])
        if array is None or (tree[0] == "element" and not any(one[0] == "triplet" for one in tree[2])):
            return None
        if tree[0] == "name":
            return Section(array, [(first, 1, max(0, last - first + 1)) for first, last in array.bounds])
        return Section(array, [self.selection(one, *bounds) for one, bounds in zip(tree[2], self.arrays[name].bounds)])

    def selection(self, tree, lower, upper):
        if tree[0] != "triplet":
            return self.scalar(tree, {})
        first, last, step = [default if one is None else self.scalar(one, {}) for one, default in zip(tree[1:], (lower, upper, 1))]
        return (first, step, count(first, last, step))

    def once(self, tree, sections):
        """An array expression once its parts are evaluated: what gives its value at a tuple. Its sections are added to the list."""
        if tree[0] in ("name", "element"):
            section = self.section(tree)
            if section:
                sections.append(section)
                return lambda one: section.array.elements[section.place(one)]
        if tree[0] in ("call", "operator") and tree[1] not in REDUCTIONS:
            operands = [self.once(operand, sections) for operand in tree[2]]
            return lambda one: operation(tree[1], [operand(one) for operand in operands])
        value = self.scalar(tree, {})
        return lambda one: value

    def array_value(self, tree):
        """The extents and the values of an array expression."""
        sections = []
        value = self.once(tree, sections)
        extents = sections[0].extents
        must_conform(extents, sections)
        return extents, at_each(tuples(extents), value)

    # ---- statements

    def assign(self, left, right, extents=None, mask=None):
        """An assignment to a section, in a WHERE with its extents and the tuples at which the mask is true."""
        section, sections = self.section(left), []
        value = self.once(right, sections)
        extents = section.extents if extents is None else extents
        must_conform(extents, [section, *sections])
        chosen = [one for one in tuples(extents) if mask is None or one in mask]
        for place, number in at_each(chosen, lambda one: (section.place(one), value(one))):
            section.array.elements[place] = number

    def run(self, statement):
        kind, line, *parts = statement
        try:
            getattr(self, f"run_{kind}")(*parts)
        except Fault as fault:
            raise Fault(fault.kind, fault.tuple, fault.line or line) from None

    def run_assign(self, left, right):
        if self.section(left):
            self.assign(left, right)
        elif left[0] == "name":
            self.scalars[left[1]] = self.scalar(right, {})
        else:
            place = self.element(left, {})
            self.arrays[left[1]].elements[place] = self.scalar(right, {})

    def run_where(self, mask, body, others):
        extents, values = self.array_value(mask)
        true = {one for one, value in zip(tuples(extents), values) if value}
        for assignments, chosen in ((body, true), (others, set(tuples(extents)) - true)):
            for _, line, left, right in assignments:
                try:
                    self.assign(left, right, extents, chosen)
                except Fault as fault:
                    raise Fault(fault.kind, fault.tuple, line) from None

    def run_forall(self, controls, mask, body):
        """All that stands in it is evaluated at each tuple of index values."""
        names = [name for name, *_ in controls]
        axes = []
        for _, *bounds in controls:
            first, last, step = [self.scalar(one, {}) for one in bounds]
            axes.append([first + place * step for place in range(count(first, last, step))])
        space = [one[::-1] for one in product(*axes[::-1])]
        if mask:
            true = at_each(space, lambda one: self.scalar(mask, dict(zip(names, one))))
            space = [one for one, value in zip(space, true) if value]
        for _, line, left, right in body:
            try:
                stores = at_each(space, lambda one: self.forall_store(left, right, dict(zip(names, one))))
            except Fault as fault:
                raise Fault(fault.kind, fault.tuple, line) from None
            self.arrays[left[1]].elements.update(stores)

    def forall_store(self, left, right, indices):
        place = self.element(left, indices)
        return place, self.scalar(right, indices)

    def run_print(self, items):
        numbers = []
        for item in items:
            section = self.section(item) if item[0] in ("name", "element") else None
            numbers += self.array_value(item)[1] if section else [self.scalar(item, {})]
        self.printed.append(" ".join(map(str, numbers)) + "\n")


def must_conform(extents, sections):
    """All sections of a statement have the extents of its space."""
    if any(section.extents != extents for section in sections):
        raise Fault("Shape")


def answer(lines):
    """How the text of these lines ends."""
    text = read(lines)
    machine = Machine(text)
    for statement in text.statements:
        try:
            machine.run(statement)
        except Fault as fault:
            return Answer(3, "".join(machine.printed), str(fault), fault)
    return Answer(0, "".join(machine.printed), "", None)
