"""Texts whose last array statement faults at a chosen tuple: at the ends of strips, and in their middle."""
from strips.drafts import Draft, triplet

LENGTHS = (1, 7, 8, 255, 256, 300)  # of rows


def places(n):
    """The first, a middle and the last tuple of a row, and those at the ends of strips."""
    return sorted({1, (min(n, 256) + 1) // 2, n, *[end for end in (255, 256, 257) if end <= n]})


class Axis:
    """The bounds of a dimension, and n subscripts in it, of which that of a position is the first out of bounds; None: all are inside."""

    def __init__(self, turn, n, step=1, out=None):
        lower, before, after = turn.next("lower", (1, 0, 1, -3, 1, 5, 1)), turn.next("before", (0, 1, 0, 0, 2)), turn.next("after", (0, 0, 2))
        size = abs(step)
        if out is None:
            inside = before + (n - 1) * size + 1 + after
        elif out > 1:
            inside = before + (out - 2) * size + 1 + turn.next("rest", range(size))
        else:
            inside = max(1, (n - 2) * size + 1) + after
            before = turn.next("alone", (-size, -size, inside))  # the first subscript is outside, or all are
        self.bounds, self.step = (lower, lower + inside - 1), step
        self.first = self.bounds[0] + before if step > 0 else self.bounds[1] - before
        self.section = triplet(self.first, self.at(n), step)
        self.is_whole = (self.first, self.at(n), step) == (*self.bounds, 1)

    def at(self, position):
        return self.first + (position - 1) * self.step


class Sections:
    """A text with sections of arrays A, B, C and D, all of the same extents. What isn't named in a statement isn't declared."""

    def __init__(self, turn, extents, out=None, steps=None):
        """`out` has for an array the dimension and the position from which on it is out of bounds, `steps` the steps of its dimensions."""
        self.turn, self.draft = turn, Draft(turn)
        self.axes = {}
        for name in "ABCD":
            place, position = (out or {}).get(name, (None, None))
            of_name = (steps or {}).get(name, (1,) * len(extents))
            self.axes[name] = [Axis(turn, n, step, position if place == at else None) for at, (n, step) in enumerate(zip(extents, of_name))]

    def declare(self, name):
        self.draft.array(name, *[axis.bounds for axis in self.axes[name]])

    def section(self, name):
        self.declare(name)
        axes = self.axes[name]
        return name if all(axis.is_whole for axis in axes) else f"{name}({','.join(':' if axis.is_whole else axis.section for axis in axes)})"

    def element(self, name, position):
        self.declare(name)
        return f"{name}({','.join(str(axis.at(one)) for axis, one in zip(self.axes[name], position))})"

    def add(self, *forms):
        """Adds lines in which {a} stands for the section of A, and so on."""
        for form in forms:
            self.draft.add(form.format(**{name.lower(): self.section(name) for name in "ABCD" if f"{{{name.lower()}}}" in form}))
        return self

    def fill(self, name, value, *positions, other=0):
        """Gives all of an array a value, and some of its elements another one."""
        self.declare(name)
        self.draft.add(f"{name} = {value}", *[f"{self.element(name, one)} = {other}" for one in positions])
        return self

    def printed(self):
        """In some of the texts something is printed before the fault."""
        line = self.turn.next("printed", (None, None, "PRINT *, 7", None, None, "PRINT *, SUM(A), 8", None))
        if line and "A" in self.draft.arrays:
            self.draft.add(line)


def assignment(turn, extents, form, out=None, zeros=(), steps=None):
    """A text with `{a} = form`, in which the array `out` is out of bounds from a position of a dimension on, and D is 0 at some positions.

    The first fault is that of the earliest tuple and, at one tuple, what stands first: the left side's bounds come before the right side.
    """
    name, *where = out or (None,)
    text = Sections(turn, extents, {name: where} if out else None, steps)
    text.declare("A")
    if zeros:
        text.fill("D", 3, *zeros)
    text.printed()
    text.add("{a} = " + form)
    order = ("{a} = " + form).index
    faults = [(one[::-1], order("{d}"), ("DivZero", one)) for one in zeros]
    if out:
        one = tuple(where[1] if place == where[0] else 1 for place in range(len(extents)))
        faults.append((one[::-1], order(f"{{{name.lower()}}}"), ("Bounds", one)))
    return text.draft.case(min(faults)[2], "differs" if "**" in form else None)  # another compiler takes 0 ** (-1) for 0


# ---- one fault

LEFT = ("{b}", "{b} + 3", "5", "MAX({b}, 2)", "-{b}", "{b} - {b} / 3")
FIRST = ("{c} + {b}", "{c} * 3 - {b}", "MAX({c}, {b})", "IEOR({c}, {b})", "ABS({c})", "{c}", "{c} - 9")
SECOND = ("{b} - {c}", "{b} * 2 + {c}", "MIN({b}, {c})", "IAND({b}, {c} + 1)", "7 - {c}", "ABS({b}) + {c} * {c}")
DIVIDED = ("{b} / {d}", "MOD({b}, {d})", "3 - {b} / {d}", "MODULO({b}, {d})", "{d} ** (-1)", "{b} * 2 + 5 / {d}")


def faulty(turn, extents, kind, position, dimension=0, steps=None):
    """An assignment with one fault, on the left side, in the first or second read, or of a divisor."""
    if kind == "divisor":
        return assignment(turn, extents, turn.next(kind, DIVIDED), zeros=[position], steps=steps)
    name, forms = {"left": ("A", LEFT), "first": ("C", FIRST), "second": ("C", SECOND)}[kind]
    return assignment(turn, extents, turn.next(kind, forms), (name, dimension, position), steps=steps)


def rows(turn):
    for n in LENGTHS:
        for position in places(n):
            for kind in ("left", "first", "second"):
                yield faulty(turn, (n,), kind, position)
            yield faulty(turn, (n,), "divisor", (position,))
    for position in (512, 513):  # the third strip has one tuple
        yield faulty(turn, (513,), turn.next("of three", ("left", "second")), position)
        yield faulty(turn, (513,), "divisor", (position,))


STEPS = ({"B": (2,)}, {"C": (-1,)}, {"A": (2,)}, {"A": (-1,), "B": (-1,)}, {"D": (2,), "C": (2,)}, {"A": (2,), "B": (2,), "C": (2,)}, {"A": (-1,), "C": (-1,), "D": (-1,)})


def rows_with_steps(turn):
    for n, position in ((8, 8), (256, 256), (300, 255), (300, 256), (300, 257)):
        for kind in ("left", "first", "second"):
            yield faulty(turn, (n,), kind, position, steps=turn.next("steps", STEPS))
        yield faulty(turn, (n,), "divisor", (position,), steps=turn.next("steps", STEPS))


def planes(turn):
    ends = {n: places(n)[::-1] for n in (*LENGTHS, 257)}
    for n, m in ((1, 3), (7, 3), (8, 3), (255, 2), (256, 2), (300, 3)):
        for kind in ("left", "first", "second"):
            yield faulty(turn, (n, m), kind, turn.next(f"of {n}", ends[n]), 0)
            yield faulty(turn, (n, m), kind, turn.next(f"row of {m}", (m, 2, 1)), 1)
        yield faulty(turn, (n, m), "divisor", (turn.next(f"of {n}", ends[n]), m))
    for n, m in ((1, 300), (7, 40), (8, 33), (257, 2)):
        yield faulty(turn, (n, m), turn.next("kind", ("left", "first", "second")), m, 1)
        yield faulty(turn, (n, m), "divisor", (n, m))
    for steps in ((2, 1), (-1, 1), (1, 2), (1, -1), (-1, -1)):
        yield faulty(turn, (300, 2), "first", 256, 0, {"B": steps, "C": steps})
        yield faulty(turn, (8, 3), "divisor", (8, 2), steps={"A": steps, "B": steps})


# ---- two faults

TWO = (("A", "{b} / {d}"), ("C", "{c} / {d}"), ("C", "{b} / {d} + {c}"), ("A", "MOD({b}, {d})"), ("C", "MOD({c}, {d}) - {b}"), ("C", "IOR({b} / {d}, {c})"))


def two_in_rows(turn):
    """At neighbouring tuples, at one, and in other strips."""
    for n, position in ((7, 3), (8, 1), (8, 7), (255, 254), (256, 255), (300, 1), (300, 255), (300, 256), (300, 299)):
        for later in ((0, 1), (1, 0), (0, 0)):
            name, form = turn.next(f"two {later}", TWO)
            yield assignment(turn, (n,), form, (name, 0, position + later[0]), [(position + later[1],)])
    for position, zero in ((200, 20), (20, 200), (270, 250), (250, 270), (299, 2), (2, 299)):
        name, form = turn.next("two", TWO)
        yield assignment(turn, (300,), form, (name, 0, position), [(zero,)])


def two_in_planes(turn):
    """A row out of bounds, and a divisor that is 0 in the row before, at its first tuple or behind it."""
    for n, m in ((8, 3), (256, 2), (300, 3)):
        for zero in ((n, m - 1), (1, m), (2, m)):
            for name, form in (TWO[0], turn.next("two of planes", TWO[1:3])):
                yield assignment(turn, (n, m), form, (name, 1, m), [zero])
        yield assignment(turn, (n, m), TWO[0][1], ("A", 0, n), [(n - 1, 1)])
        yield assignment(turn, (n, m), TWO[2][1], ("C", 0, n), [(n, 1)])


def once(turn):
    """Scalar subscripts out of bounds, which are found at the first tuple, and elements, which are evaluated once before it."""
    for n in (8, 256, 300):
        yield Draft(turn, A=[n, 3], V=n).add("V = 2", "A(:,4) = V").case(("Bounds", (1,)))
        yield Draft(turn, A=[n, 3], V=n).add(f"V({n}) = 1", "V = 5 / (V - 1) + A(:,0)").case(("Bounds", (1,)))
        yield Draft(turn, A=[3, n], V=n).add("V = 1", f"V({n}) = 0", "A(2,:) = 6 / V").case(("DivZero", (n,)))
        yield Draft(turn, A=n, B=(0, n)).scalar("K").add(f"K = {n}", f"A = 3 / B(1:{n}) + B(K + 1)").case(("Bounds", None))


# ---- masks

def where_masks(turn):
    out = ("{c} >= 0", "{b} < 1 .OR. {c} > 1", ".NOT. {c} > {b}", "{c} + {b} == 0 .AND. {b} == 0")
    zero = ("{b} / {d} < 1", "{b} >= 0 .OR. 6 / {d} > 1", "MOD(9, {d}) /= {b}")
    for n, position in ((1, 1), (7, 4), (8, 8), (255, 1), (255, 255), (256, 128), (256, 256), (300, 255), (300, 256), (300, 257)):
        text = Sections(turn, (n,), {"C": (0, position)}, turn.next("steps of masks", (None, {"C": (-1,)}, {"B": (2,)})))
        yield text.add(f"WHERE ({turn.next('mask', out)}) {{a}} = 1").draft.case(("Bounds", (position,)))
        text = Sections(turn, (n,)).fill("D", 3, (position,))
        yield text.add(f"WHERE ({turn.next('divided mask', zero)}) {{a}} = 1").draft.case(("DivZero", (position,)))
    for n, position, zero, first in ((256, 256, 255, "DivZero"), (256, 255, 255, "Bounds"), (300, 256, 257, "Bounds"), (300, 257, 256, "DivZero")):
        text = Sections(turn, (n,), {"C": (0, position)}).fill("D", 3, (zero,))
        yield text.add("WHERE ({c} + {b} / {d} >= 0) {a} = 1").draft.case((first, (min(position, zero),)))


def where_bodies(turn):
    """The mask is false at an earlier tuple, which would fault."""
    for n, hidden, position in ((8, 7, 8), (255, 254, 255), (256, 2, 256), (300, 255, 256), (300, 256, 257), (300, 257, 300)):
        text = Sections(turn, (n,)).fill("C", 1, (hidden,)).fill("D", 4, (hidden,), (position,))
        yield text.add("WHERE ({c} > 0) {a} = {b} / {d}").draft.case(("DivZero", (position,)))
        for name, form in (("A", "WHERE ({c} == 1) {a} = 3 - {b}"), ("B", "WHERE ({c} /= 0) {a} = {b} + 2")):
            text = Sections(turn, (n,), {name: (0, hidden)}).fill("C", 0, (position,), other=1)
            yield text.add(form).draft.case(("Bounds", (position,)))
        text = Sections(turn, (n,), {"B": (0, position)}).fill("D", 1, (hidden,))
        yield text.add("WHERE ({d} > 0) {a} = {b} + 8 / {d}").draft.case(("Bounds", (position,)))


def where_blocks(turn):
    """After ELSEWHERE, and of a second assignment; in planes."""
    for n, position in ((8, 7), (255, 255), (256, 256), (300, 256), (300, 257)):
        text = Sections(turn, (n,)).fill("C", 1, (position,)).fill("D", 2, (position,))
        text.add("WHERE ({c} == 1)", "{a} = {b} / {d}", "ELSEWHERE", "{a} = 2", "{a} = {b} - {a} / {d}", "END WHERE")
        yield text.draft.case(("DivZero", (position,)))
        text = Sections(turn, (n,), {"B": (0, position)})
        text.add("WHERE ({c} == 0)", "{c} = {a} + 1", "{a} = {c} - {b}", "ELSEWHERE", "{a} = 1", "END WHERE")
        yield text.draft.case(("Bounds", (position,)))
    for n, m in ((8, 3), (256, 2), (300, 2)):
        text = Sections(turn, (n, m), {"C": (1, m)})
        yield text.add("WHERE ({a} == {c}) {a} = 1").draft.case(("Bounds", (1, m)))
        text = Sections(turn, (n, m)).fill("D", 3, (n, 1), (1, m)).fill("B", 1, (n, 1))
        yield text.add("WHERE ({b} == 1) {a} = 7 / {d}").draft.case(("DivZero", (1, m)))


def forall_masks(turn):
    """A tuple of a FORALL has values of its index."""
    out = ("M({i}) >= 0", "A(I) == 1 .OR. M({i}) == 0")
    zero = ("4 / M({i}) > 1", "MOD(I, M({i})) < 9", "A(I) > 1 .AND. 1 / M({i}) > 0")
    for n, position, step in ((1, 1, 1), (7, 7, 1), (8, 1, -1), (255, 255, 1), (256, 255, 2), (256, 256, 1), (300, 256, 1), (300, 257, -1), (300, 300, 2)):
        for kind, forms, first_out in (("Bounds", out, position), ("DivZero", zero, None)):
            index, row = Axis(turn, n, step), Axis(turn, n, step, first_out)
            text = Draft(turn, A=[index.bounds], M=[row.bounds]).scalar("I")
            if kind == "DivZero":
                text.add("M = 2", f"M({row.at(position)}) = 0")
            mask = turn.next(f"{kind} of FORALL", forms).format(i="I" if row.first == index.first else f"I{row.first - index.first:+}")
            text.add(f"FORALL (I={index.section}, {mask}) A(I) = 1")
            yield text.case((kind, (index.at(position),)), "differs" if "AND" in mask else None)  # another compiler doesn't evaluate all operands


def forall_bodies(turn):
    """Under a mask that is false at an earlier tuple, which would fault; of a second assignment; with two indices."""
    for n, hidden, position in ((8, 7, 8), (255, 128, 255), (256, 255, 256), (300, 255, 256), (300, 256, 257)):
        text = Draft(turn, A=n, D=n, M=n).scalar("I").add("D = 5", f"D({hidden}) = 0", f"D({position}) = 0", f"M({hidden}) = 1")
        yield text.add(f"FORALL (I=1:{n}, M(I) == 0) A(I) = I / D(I)").case(("DivZero", (position,)))
        text = Draft(turn, A=hidden - 1, M=n).scalar("I").add(f"M({position}) = 1")
        yield text.add(f"FORALL (I=1:{n}, M(I) /= 0) A(I) = M(I)").case(("Bounds", (position,)))
        text = Draft(turn, A=n, B=position - 1).scalar("I")
        yield text.add(f"FORALL (I=1:{n})", "A(I) = 3 - I", "A(I) = A(I) + B(I)", "END FORALL").case(("Bounds", (position,)))
        text = Draft(turn, A=position - 1, B=n).scalar("I").add("B = 3", f"B({hidden}) = 0", f"B({n}) = 0")
        yield text.add(f"FORALL (I=1:{n}, I > {hidden}) A(I) = 4 / B(I)").case(("Bounds", (position,)))
    for n, m in ((7, 3), (8, 3), (256, 2), (300, 2)):
        text = Draft(turn, A=[n, m], D=[m, n]).scalar("I", "J").add("D = 4", f"D({m},{n - 1}) = 0", f"D(1,{n}) = 0")
        yield text.add(f"FORALL (I=1:{n}, J=1:{m}, A(I,J) == 0) A(I,J) = I / D(J,I)").case(("DivZero", (n, 1)))
        text = Draft(turn, A=[n, m], B=[(0, n - 1), m]).scalar("I", "J")
        yield text.add(f"FORALL (I=1:{n}, J={m}:1:-1, B(I,J) < 1) A(I,J) = I - J").case(("Bounds", (n, m)))


# ---- reductions, and several statements

def reductions(turn):
    """At their own tuples, also inside an array statement."""
    out = ("PRINT *, SUM({c} * {b})", "K = COUNT({b} > {c})", "PRINT *, 5, MAXVAL({b} - {c})", "{a} = {b} + SUM({c})", "K = PRODUCT({c}) + 1 / K")
    zero = ("PRINT *, COUNT({b} / {d} == 0)", "K = MINVAL({b} / {d})", "{a} = SUM({b} / {d}) - {b}")
    for n, position in ((7, 7), (8, 8), (255, 128), (256, 256), (300, 255), (300, 256), (300, 257)):
        text = Sections(turn, (n,), {"C": (0, position)})
        text.draft.scalar("K")
        yield text.add(turn.next("reduction", out)).draft.case(("Bounds", (position,)))
        text = Sections(turn, (n,)).fill("D", 3, (position,))
        text.draft.scalar("K")
        yield text.add(turn.next("divided reduction", zero)).draft.case(("DivZero", (position,)))


def chains(turn):
    """What was stored before makes a later statement fault."""
    for n in (8, 256, 300):
        text = Draft(turn, A=n, B=n).scalar("I").add(f"FORALL (I=1:{n}) A(I) = I", f"A(2:) = A(:{n - 1}) - 1", f"B({n}:1:-1) = A", f"PRINT *, SUM(A * B), B(1), B({n})")
        yield text.add(f"A = 9 / (B - {n - 2})").case(("DivZero", (1,)))
        text = Draft(turn, A=n, B=n).scalar("I").add(f"FORALL (I=1:{n}) A(I) = I", "B = A * A", f"A(:{n - 1}) = B(2:) - A(2:)", f"PRINT *, SUM(A * B), A({n - 1}:)")
        yield text.add(f"B(2:) = A(:{n - 1}) / (A(2:) - {n})").case(("DivZero", (n - 1,)))
        text = Draft(turn, A=n, B=n).scalar("K").add("A = 2", "K = SUM(A) / 2 + 1", "PRINT *, K")
        yield text.add("B(2:K) = A").case(("Bounds", (n,)))


GROUPS = (
    ("A fault at one tuple of a row: on the left side, in the first or the second read, of a divisor.", rows),
    ("The same where sections have the step 2 or -1.", rows_with_steps),
    ("A fault in a plane of rows.", planes),
    ("Two faults in a row: at neighbouring tuples, at one, and in other strips.", two_in_rows),
    ("Two faults in a plane.", two_in_planes),
    ("Scalar subscripts out of bounds, which are found at the first tuple, and elements, which are evaluated once before it.", once),
    ("Faults of the mask of a WHERE.", where_masks),
    ("Faults under a WHERE, whose mask is false at an earlier tuple that would fault.", where_bodies),
    ("Faults of a second assignment in a WHERE and after ELSEWHERE, and in planes.", where_blocks),
    ("Faults of the mask of a FORALL.", forall_masks),
    ("Faults in the body of a FORALL.", forall_bodies),
    ("Faults of reductions.", reductions),
    ("Faults by what statements before stored.", chains),
)
