"""Texts of array statements without a fault, whose values wrap: operators, overlapping sides, planes, masks, sections without an element."""
from random import Random

from strips.drafts import LONGEST, Draft, triplet

LARGE = "B(I) = I * 987654321987654321"  # no two of them are the same, and none is 0
SMALL = "C(I) = MOD(I * 37, 101) * 2 - 101"  # odd numbers
SEED = 256


def filled(turn, n, **more):
    """Rows A, B with large numbers, and C with small ones."""
    return Draft(turn, A=n, B=n, C=n, **more).scalar("I").add(f"FORALL (I=1:{n})", LARGE, SMALL, "END FORALL")


def told(n, *names):
    """A line that tells rows: of each the sum of all elements by weights, and the elements at its ends and at those of its strips."""
    ends = [str(end) for end in (1, 255, 256, 257, n) if end == n or end < min(n, 256) or end < n and n > 256]
    places = ", ".join(dict.fromkeys(ends)).replace("255, 256, 257", "255:257")
    return "PRINT *, " + ", ".join(", ".join([f"SUM({name} * B)", *[f"{name}({place})" for place in places.split(", ")]]) for name in names)


def lengths(turn, name):
    """A length of rows, and every other time a short one beside it."""
    return [turn.next(name, (300, 257, 256)), *turn.next(f"short {name}", ([8], [], [255], [], [7], []))]


# ---- operators

OPERATORS = (
    ("B + C", "B + 9223372036854775807", "5 + B"), ("B - C", "C - 9223372036854775807", "7 - B"), ("B * C", "B * 6364136223846793005", "-3 * B"),
    ("B / C", "B / 1000003", "9223372036854775807 / C"), ("MOD(B, C)", "MOD(B, 257)", "MOD(-1000, C)"), ("MODULO(B, C)", "MODULO(C, -9)", "MODULO(-1000, C)"),
    ("MAX(B, C)", "MAX(C, 3)", "MAX(-4, C)"), ("MIN(B, C)", "MIN(C, 3)", "MIN(-4, C)"), ("IAND(B, C)", "IAND(B, 65535)", "IAND(-256, C)"),
    ("IOR(B, C)", "IOR(B, 65535)", "IOR(-256, C)"), ("IEOR(B, C)", "IEOR(B, -1)", "IEOR(255, C)"), ("SIGN(B, C)", "SIGN(C, -2)", "SIGN(5, C)"),
    ("DIM(C, A)", "DIM(C, 4)", "DIM(4, C)"), ("B ** IAND(C, 7)", "C ** 5", "3 ** IAND(B, 63)"), ("C ** (-C)", "C ** (-1)", "(-1) ** C"),
    ("ABS(B)", "-B", "NOT(C)"), ("+B", "MAX(B, C, 5)", "MIN(7, B, C, -B)"), ("C - (B - C)", "(B + C) * (B - C)", "-(C * C) / 7"),
)


def operators(turn):
    for forms in OPERATORS:
        for n in lengths(turn, "operator"):
            text = filled(turn, n)
            for form in forms:
                text.add(f"A = {form}", told(n, "A"))
            yield text.case()


def extremes(turn):
    for n in (8, 257, 300):
        text = filled(turn, n).scalar("K").add("K = -9223372036854775807 - 1", "C(1) = K", f"C({n}) = K", f"C({n - 1}) = 9223372036854775807")
        for form in ("-C", "ABS(C)", "C - 1", "C + 1", "C * C - K", "MAX(C, K) - MIN(C, K)", "C * (-1)"):
            text.add(f"A = {form}", told(n, "A"))
        yield text.case()
        # the division of other compilers stops there
        text = filled(turn, n).scalar("K").add("K = -9223372036854775807 - 1", f"C({n}) = K", "A = -1", "C = C / A", told(n, "C"))
        yield text.add("A = MOD(C, A) + 1", told(n, "A")).case(other="differs")


# ---- statements that read what they store

OVERLAPS = (
    ("A(2:{n}) = A(1:{p})", "A(1:{p}) = A(2:{n}) + A(1)"), ("A({n}:1:-1) = A", "A(2:) = A(:{p}) - A(2:)"), ("A = A({n}:1:-1)", "A(3:) = A(2:{p}) + A(:{q})"),
    ("A(2::2) = A(1:{p}:2) * 3", "A(:{p}) = A({n}:2:-1)"), ("A = A(1) - A", "A = A({n}) * A + A"), ("A(2:) = A({n}:2:-1) - A(:{p})", "A = A + SUM(A)"),
    ("A({p}:1:-1) = A(2:)", "A(1:{n}:3) = A({n}:1:-3)"), ("A(:{q}) = A(3:) + A(:{q}) + A(2:{p})", "A({n}:3:-1) = A(:{q})"),
)
PIECES = ((300, "A(:44)", "A(257:)"), (300, "A(45:)", "A(:256)"), (513, "A(:257)", "A(257:)"), (512, "A(1:256)", "A(256:511)"), (512, "A(2:257)", "A(256:1:-1)"))


def overlaps(turn):
    for sides in OVERLAPS:
        for n in lengths(turn, "overlap"):
            text = filled(turn, n).add("A = B + C")
            for side in sides:
                text.add(side.format(n=n, p=n - 1, q=n - 2), told(n, "A"))
            yield text.add("C = A - C", "A(:) = C * A", "C = C + A", told(n, "A", "C")).case()
    for n, one, other in PIECES:
        yield filled(turn, n).add("A = C", f"{other} = {one} * 5 - {other}", told(n, "A"), f"{one} = {other}", told(n, "A")).case()


OF_PLANES = (
    ("A(:,2:{m}) = A(:,:{l})", "A(2:,:) = A(:{p},:) + A(2:,:)"), ("A(:,{m}:1:-1) = A", "A({n}:1:-1,:) = A - B"), ("A(:,1) = A(:,{m}) + A(:,2)", "A(1,:) = A({n},:) - 3"),
    ("A(2:{p},2:{l}) = (A(:{q},2:{l}) + A(3:,2:{l}) + A(2:{p},:{k}) + A(2:{p},3:)) / 4", "A = A * B - A"),
    ("V = A(:,2)", "A(:,1) = V * 3 - A(:,1)", "A(:,{m}) = V({n}:1:-1)"), ("W = A(2,:)", "A({n},:) = W({m}:1:-1) - W", "A(:,::2) = A(:,{m}:1:-2)"),
    ("A(::2,:) = B(1::2,:) + 1", "A(2::2,2:) = A(1:{p}:2,:{l})"), ("A(:,:) = MAX(A(1,1), B) - MIN(B, A)",),
)


def planes(turn):
    for sides in OF_PLANES:
        for n, m in (turn.next("plane", ((300, 3), (256, 3), (257, 3))), *turn.next("small plane", ([(8, 5)], [], [(7, 37)], [], [(8, 33)], [], [(255, 3)], []))):
            text = Draft(turn, A=[n, m], B=[n, m]).scalar("I", "J")
            text.add(f"FORALL (I=1:{n}, J=1:{m}) B(I,J) = (J * {n} + I) * 987654321987654321", "A = B / 5 + B")
            for name, extent in (("V", n), ("W", m)):
                if any(name in side for side in sides):
                    text.array(name, extent)
            text.add(*[side.format(n=n, m=m, p=n - 1, q=n - 2, l=m - 1, k=m - 2) for side in sides])
            text.add(f"PRINT *, SUM(A * B), A(1,1), A({n},1), A(1,{m}), A({n},{m})")
            yield text.add(f"PRINT *, SUM(A(:,2) * B(:,1)), SUM(A({n},:)), MAXVAL(A), MINVAL(A(2:,:))").case()


def slices(turn):
    """Rows lie one behind the other or don't."""
    for n, m, l in ((8, 3, 2), (256, 2, 2), (7, 3, 9), (300, 1, 2), (1, 9, 9)):
        for sides in ((f"T(:,:,1) = T(:,:,{l}) - T(:,:,1)", f"A = T(:,{m},:)", f"T(:,1,:) = A * 7 + T(:,{m},:)"),
                      (f"T(:,:,:) = T({n}:1:-1,:,:) + T", f"A(1,:) = T({n},{m},:)", f"T({n},:,1:{l}) = T(1,:,{l}:1:-1) - 1", f"A(:,{l}) = T(:,1,1)")):
            text = Draft(turn, T=[n, m, l], A=[n, l]).scalar("I", "J", "K")
            text.add(f"FORALL (I=1:{n}, J=1:{m}, K=1:{l}) T(I,J,K) = ((K * {m} + J) * {n} + I) * 987654321987654321", *sides)
            yield text.add(f"PRINT *, SUM(T * T), SUM(A * T(:,1,:)), T(1,1,1), T({n},{m},{l}), T({n},1,1), A(1,1), A({n},{l})").case()


# ---- masks

WHERES = (
    ("B > C", "A = B - C", "A = C - B"), ("B >= 0 .AND. C < 9", "A = B / C", "A = -1"), ("C /= 3 .EQV. B <= C", "C = C + A", "C = C - B"),
    ("MOD(C, 3) == 0", "A = C", "A = A + B"), (".NOT. (B < C .OR. C > 50)", "A = A * C", "C = A + 2"), ("B > C .NEQV. C > 0", "C = B", "A = C * C"),
    ("A < B", "A = A({n}:1:-1) + B", "B = A - B"),
)


def wheres(turn):
    for mask, then, otherwise in WHERES:
        for n in lengths(turn, "where"):
            text = filled(turn, n).add("A = C * C + 1", f"WHERE ({mask})", then.format(n=n), "ELSEWHERE", otherwise, "END WHERE", told(n, "A", "C"))
            yield text.add(f"WHERE (A(:{n - 1}) <= A(2:)) A(2:) = A(:{n - 1})", f"PRINT *, COUNT({mask}), COUNT(A == C), SUM(A)").case()


def foralls(turn):
    for n in (8, 255, 256, 300):
        text = filled(turn, n).add("A = B", f"FORALL (I=2:{n}, A(I-1) > 0) A(I) = A(I-1) + C(I)", f"FORALL (I={n}:1:-2) C(I) = A({n + 1}-I) * I")
        yield text.add(told(n, "A", "C")).case()
        text = filled(turn, n).add(f"FORALL (I=1:{n}, MOD(I, 3) /= 0 .AND. C(I) > -50)", f"A(I) = B({n + 1}-I) / C(I)", "C(I) = A(I) - I", "END FORALL")
        yield text.add(told(n, "A", "C")).case()
    for n, m in ((8, 5), (256, 2), (7, 38)):
        text = Draft(turn, A=[n, m], B=[n, m]).scalar("I", "J").add(f"FORALL (I=1:{n}, J=1:{m}) B(I,J) = IEOR(I * 987654321987654321, J)")
        text.add(f"FORALL (I=1:{n}, J=2:{m}, MOD(B(I,J), 3) /= J) A(I,J) = B(I,J-1) - B({n + 1}-I,J)")
        yield text.add(f"PRINT *, SUM(A * B), A({n},{m}), A(1,2), COUNT(A == 0)").case()


def masked_out(turn):
    for n, at in ((8, 8), (255, 255), (256, 256), (300, 256), (300, 257)):
        text = filled(turn, n).add(f"C({at}) = 0", "WHERE (C /= 0) A = B / C", "WHERE (A == 0) C = 9", told(n, "A", "C"))
        yield text.add(f"FORALL (I=1:{n}, I /= {at}) A(I) = A(I) + C(I) / (I - {at})", told(n, "A")).case()
        text = Draft(turn, A=n, B=n, D=at - 1).scalar("I").add(f"FORALL (I=1:{n}) {LARGE}", "D = 4", f"FORALL (I=1:{n}, I < {at}) A(I) = D(I) + B(I)")
        yield text.add(told(n, "A")).case()
        # another compiler that tests bounds stops: the sections are larger than what the mask lets through
        text = filled(turn, n, D=at - 1, E=(2, n)).add("D = 7", "C = 1", f"C({at}:) = 0", f"WHERE (C == 1) A = B - D(1:{n})", "C(1) = 0")
        yield text.add(f"WHERE (C == 1) E(1:{n}) = A * B", told(n, "A"), "PRINT *, SUM(E), MAXVAL(E)").case(other="unchecked")


# ---- no element, and one

def empties(turn):
    for n in (8, 256):
        text = filled(turn, n).add("A = C", f"A({n}:1) = B(400:{399 + n}:-1) / (C(9:8) - C(9:8))", f"A(3:2) = C(2:3:-1) + B({n + 5}:{n + 4})", told(n, "A"))
        yield text.add("FORALL (I=2:1) A(I) = I / (I - I)", "WHERE (A(7:6) / B(9:8) > 0) A(7:6) = 1", "PRINT *, SUM(B(2:1)), MAXVAL(A(1:0)), COUNT(B(3:1) > 1)").case()
        # other compilers evaluate 1 / K before they see that there is no element
        text = filled(turn, n).scalar("K").add("A = C", "A(5:4) = 1 / K", "A(9:8) = MOD(B(2:1), K)", "WHERE (A(7:6) / K > 0) A(7:6) = K / K", told(n, "A"))
        yield text.case(other="differs")
        text = Draft(turn, A=[n, 3], B=[n, 3], E=[0, 3]).scalar("K").add("A = 7", "A(:,3:2) = 2 / K", "A(4:3,:) = B(9:8,:) / K", "E = E / K", "A(:,2:1) = B(:,9:8) + 1")
        yield text.add("PRINT *, SUM(A), E, SUM(E), 3").case(other="differs")


def single(turn):
    for n in (1, 8, 300):
        text = filled(turn, n).add("A = C - B", f"A({n}:{n}) = A(1:1) + 2 * B({n}:{n})", f"A(1:1:1048576) = A({n}:{n}:-1000) - A(1:1)", f"B({n}:1:-{n}) = A({n}:1:-{n}) + 1")
        yield text.add(told(n, "A"), f"PRINT *, SUM(B), SUM(A(1:{n}:{n + 1})), COUNT(B(1:1) == C(1:1)), B({n})").case()


# ---- by chance

FORMS = ("({} + {})", "({} - {})", "({} * {})", "({} / IOR({}, 1))", "MOD({}, IOR({}, 8))", "MODULO({}, IOR({}, 4))", "MAX({}, {})", "MIN({}, {})",
         "IAND({}, {})", "IOR({}, {})", "IEOR({}, {})", "(ABS({}) - {})", "(-{} + {})", "(NOT({}) * {})")


class Chance:
    """Statements over n elements of A, B and C, with numbers and with what is evaluated once."""

    def __init__(self, rng, n):
        self.rng, self.n = rng, n
        self.bounds = {name: (low, low + n - 1 + rng.randint(0, 3)) for name, low in zip("ABC", (rng.choice((1, 0, -2)), 1, 1))}

    def section(self, name=None):
        name = name or self.rng.choice("ABC")
        low, high = self.bounds[name]
        first = self.rng.randint(low, high - self.n + 1)
        last = first + self.n - 1
        return f"{name}({triplet(last, first, -1) if self.rng.randrange(5) == 0 else triplet(first, last)})"

    def operand(self):
        name = self.rng.choice("ABC")
        return self.rng.choice((self.section(), self.section(), self.section(), self.section(), str(self.rng.choice((1, 2, 3, 7, 255, 6364136223846793005))), "K",
                                f"{name}({self.rng.randint(*self.bounds[name])})", f"SUM({self.section()})"))

    def expression(self, depth):
        """One of its two operands at least is an array."""
        if depth == 0:
            return self.section()
        operands = [self.expression(depth - 1), self.expression(depth - 2) if depth > 1 and self.rng.randrange(2) else self.operand()]
        self.rng.shuffle(operands)
        return self.rng.choice(FORMS).format(*operands)

    def statement(self):
        """One that fits a line."""
        written = f"{self.section(self.rng.choice('AAC'))} = {self.expression(self.rng.choice((1, 2, 2, 3)))}"
        if self.rng.randrange(5) == 0:
            written = f"WHERE ({self.section('C')} {self.rng.choice(('<', '>=', '/=', '=='))} {self.operand()}) {written}"
        return written if len(written) <= LONGEST else self.statement()


def by_chance(turn):
    rng = Random(SEED)
    for number in range(24):
        n = (256, 300, 8, 255, 257, 7)[number % 6]
        chance = Chance(rng, n)
        text = Draft(turn, **{name: [one] for name, one in chance.bounds.items()}).scalar("I", "K")
        text.add("K = 12345", *[f"FORALL (I=1:{chance.bounds[name][1]}) {fill}" for name, fill in (("B", LARGE), ("C", SMALL))])
        text.add(*[chance.statement() for _ in range(4)])
        low = chance.bounds["A"][0]
        for name, first in (("A", low), ("C", 1)):
            ends = [f"{name}({first + at})" for at in sorted({0, min(255, n - 1), n - 1})]
            text.add(f"PRINT *, SUM({name}({triplet(first, first + n - 1)}) * B(:{n})), {', '.join(ends)}")
        yield text.case()


GROUPS = (
    ("Operators of two rows, of a row and a number, and of a number and a row; values wrap.", operators),
    ("The least and the greatest number at the ends of rows.", extremes),
    ("Both sides are one array, and statements read what those before them stored.", overlaps),
    ("The same in planes.", planes),
    ("Sections of arrays of three dimensions.", slices),
    ("WHERE with ELSEWHERE.", wheres),
    ("FORALL.", foralls),
    ("Where a mask is false nothing is evaluated.", masked_out),
    ("Without an element nothing is evaluated.", empties),
    ("Sections of one element, also with a large step.", single),
    ("Statements that were made by chance.", by_chance),
)
