"""Texts of array statements as trees: declarations, assignments, WHERE, FORALL and PRINT, a statement a line. Directives are passed over.

An expression is a tuple: ("number", value), ("name", name), ("element", name, subscripts), ("call", procedure, arguments) or
("operator", sign, operands). A subscript is an expression or ("triplet", first, last, step), each of them None where it is left out.
A statement is a tuple of its kind and its line and then

    "assign"   the left side and the right side
    "where"    the mask, the assignments, and those after ELSEWHERE
    "forall"   the controls (name, first, last, step), the mask or None, and the assignments
    "print"    the items
"""
import re
from collections import namedtuple

Text = namedtuple("Text", "scalars arrays statements")  # scalars by name: the value; arrays by name: bounds and the value
TOKEN = re.compile(r" *(\d+|\w+|\.[A-Z]+\.|\*\*|::|==|/=|<=|>=|[-+*/()=<>:,])")
RELATIONS = ("==", "/=", "<", "<=", ">", ">=")
LEVELS = [(".EQV.", ".NEQV."), (".OR.",), (".AND.",)]
PROCEDURES = ("ABS ALL ANY COUNT DIM IAND IEOR IOR MAX MAXVAL MIN MINVAL MOD MODULO NOT PRODUCT SIGN SUM").split()


def tokens_of(line):
    tokens, at = [], 0
    while at < len(line.rstrip()):
        found = TOKEN.match(line, at)
        if not found:
            raise ValueError(f"no token: {line[at:]}")
        tokens.append(found[1])
        at = found.end()
    return tokens


class Line:
    """The tokens of a line, and how many of them are read."""

    def __init__(self, line):
        self.tokens, self.at = tokens_of(line), 0

    def next(self):
        return self.tokens[self.at] if self.at < len(self.tokens) else None

    def take(self):
        self.at += 1
        return self.tokens[self.at - 1]

    def takes(self, *wanted):
        """Whether one of these is next; then it is taken."""
        found = self.next() in wanted
        self.at += found
        return found

    def must(self, wanted):
        if not self.takes(wanted):
            raise ValueError(f"{wanted} is missing in {' '.join(self.tokens)}")

    def listed(self, read):
        """What `read` reads, and again after each comma."""
        items = [read()]
        while self.takes(","):
            items.append(read())
        return items

    # ---- expressions

    def expression(self, level=0):
        """The operators of the levels from the loosest on."""
        if level == len(LEVELS):
            return self.negation()
        left = self.expression(level + 1)
        while self.next() in LEVELS[level]:
            left = ("operator", self.take(), [left, self.expression(level + 1)])
        return left

    def negation(self):
        if self.takes(".NOT."):
            return ("operator", ".NOT.", [self.relation()])
        return self.relation()

    def relation(self):
        left = self.sum()
        if self.next() in RELATIONS:
            return ("operator", self.take(), [left, self.sum()])
        return left

    def sum(self):
        sign = self.take() if self.next() in ("+", "-") else None
        left = self.product()
        if sign:
            left = ("operator", sign, [left])
        while self.next() in ("+", "-"):
            left = ("operator", self.take(), [left, self.product()])
        return left

    def product(self):
        left = self.power()
        while self.next() in ("*", "/"):
            left = ("operator", self.take(), [left, self.power()])
        return left

    def power(self):
        base = self.operand()
        return ("operator", "**", [base, self.power()]) if self.takes("**") else base

    def operand(self):
        if self.takes("("):
            inner = self.expression()
            self.must(")")
            return inner
        token = self.take()
        if token.isdigit():
            return ("number", int(token))
        if not token[0].isalpha():
            raise ValueError(f"{token} is no operand")
        if not self.takes("("):
            return ("name", token)
        parts = self.listed(self.expression if token in PROCEDURES else self.subscript)
        self.must(")")
        return ("call" if token in PROCEDURES else "element", token, parts)

    def subscript(self):
        first = None if self.next() in (":", "::") else self.expression()
        if self.takes("::"):
            return ("triplet", first, None, self.expression())
        if not self.takes(":"):
            return first
        last = None if self.next() in (":", ",", ")") else self.expression()
        return ("triplet", first, last, self.expression() if self.takes(":") else None)

    # ---- statements

    def assignment(self, line):
        left = self.operand()
        self.must("=")
        right = self.expression()
        if self.next():
            raise ValueError(f"{' '.join(self.tokens)} is no statement")
        return ("assign", line, left, right)

    def control(self):
        """A control of a FORALL or, where there is no index, its mask."""
        if self.tokens[self.at + 1] != "=":
            return ("mask", self.expression())
        name = self.take()
        self.must("=")
        first = self.expression()
        self.must(":")
        last = self.expression()
        return (name, first, last, self.expression() if self.takes(":") else ("number", 1))

    def entity(self):
        """A declared name with its bounds, if it has any, and its value."""
        name, bounds = self.take(), None
        if self.takes("("):
            bounds = self.listed(self.bound)
            self.must(")")
        return name, bounds, self.constant() if self.takes("=") else 0

    def bound(self):
        first = self.constant()
        return (first, self.constant()) if self.takes(":") else (1, first)

    def constant(self):
        sign = -1 if self.takes("-") else 1
        return sign * int(self.take())


def read(text):
    """The text of these lines."""
    scalars, arrays, statements, open_block = {}, {}, [], None
    for number, written in enumerate(text, 1):
        if written.lstrip().startswith("!") or not written.strip():
            continue
        line = Line(written)
        if line.takes("INTEGER"):
            line.takes("::")
            for name, bounds, value in line.listed(line.entity):
                if bounds:
                    arrays[name] = (bounds, value)
                else:
                    scalars[name] = value
        elif line.takes("END"):
            if not line.next():
                return Text(scalars, arrays, statements)
            open_block = None
        elif line.takes("ELSEWHERE"):
            open_block = statements[-1][4]
        elif line.takes("PRINT"):
            line.must("*")
            line.must(",")
            statements.append(("print", number, line.listed(line.expression)))
        elif line.next() in ("WHERE", "FORALL"):
            statements.append(masked(line, number))
            open_block = statements[-1][4 if statements[-1][0] == "forall" else 3]
            if line.next():
                open_block.append(line.assignment(number))
                open_block = None
        else:
            (statements if open_block is None else open_block).append(line.assignment(number))
    raise ValueError("END is missing")


def masked(line, number):
    """A WHERE or a FORALL without its assignments."""
    kind = line.take()
    line.must("(")
    if kind == "WHERE":
        mask = line.expression()
        line.must(")")
        return ("where", number, mask, [], [])
    controls = line.listed(line.control)
    line.must(")")
    mask = controls.pop()[1] if controls[-1][0] == "mask" else None
    return ("forall", number, controls, mask, [])
