"""Texts while they are made: what is declared, mapping directives in turn, and statements."""
from collections import namedtuple

# the lines of a text, the grids on which it is run, whether these have two dimensions, what another compiler does with it ("prints" the
# same, "stops", or "unchecked": prints the same if nobody tests bounds, or "differs"), and the fault that it is made for: its kind and its tuple
Case = namedtuple("Case", "lines grids planes other fault")
LONGEST = 132  # bytes of a line

# formats for rows: those of the first array, and those of the others; None: no directive
ROWS = [("BLOCK", "BLOCK"), ("CYCLIC", "CYCLIC"), ("BLOCK", "CYCLIC(3)"), ("CYCLIC(7)", None), (None, "BLOCK"), ("CYCLIC(64)", "CYCLIC(64)"), ("CYCLIC", "BLOCK")]
# formats for planes, and for rows beside them; those without `*` want a grid of two dimensions
PLANES = [("BLOCK,*", "BLOCK"), ("*,BLOCK", "CYCLIC"), ("CYCLIC(5),BLOCK", None), ("CYCLIC,*", "BLOCK"), ("BLOCK,BLOCK", "BLOCK"), ("*,CYCLIC", None), ("BLOCK,CYCLIC", "CYCLIC(3)")]
# grids: where all arrays are distributed, where some lie on each node, so that 64 would do the same, and where formats want two dimensions
GRIDS = ["2 8x8", "1 4", "3 8x8", "1 2x2", "1 8x8"]
GRIDS_OF_FEW = ["1 4", "2 3", "1 2x2"]
GRIDS_OF_PLANES = ["1x1 2x2", "2x1 8x8", "1x1 3x1"]


class Turn:
    """Gives the things of a list one after the other and again, for each name at its own pace."""

    def __init__(self):
        self.given = {}

    def next(self, name, things):
        at = self.given.get(name, 0)
        self.given[name] = at + 1
        return things[at % len(things)]


def triplet(first, last, step=1):
    return f"{first}:{last}" + (f":{step}" if step != 1 else "")


class Draft:
    """A text without its END: arrays with the bounds of their dimensions, scalars, and statements."""

    def __init__(self, turn, **arrays):
        """An array's bounds are pairs or, where the lower one is 1, numbers."""
        self.turn, self.arrays, self.scalars, self.lines = turn, {}, [], []
        for name, bounds in arrays.items():
            self.array(name, *(bounds if isinstance(bounds, list) else [bounds]))

    def array(self, name, *bounds):
        self.arrays.setdefault(name, [one if isinstance(one, tuple) else (1, one) for one in bounds])

    def scalar(self, *names):
        self.scalars += [name for name in names if name not in self.scalars]
        return self

    def add(self, *lines):
        self.lines += lines
        return self

    def declaration(self):
        shapes = {name: ",".join(str(last) if first == 1 else triplet(first, last) for first, last in bounds) for name, bounds in self.arrays.items()}
        return "INTEGER :: " + ", ".join([f"{name}({shape})" for name, shape in shapes.items()] + self.scalars)

    def formats(self):
        """A format or None for each array, and whether they want a grid of two dimensions."""
        ranks = {name: len(bounds) for name, bounds in self.arrays.items()}
        if max(ranks.values()) == 1:
            first, others = self.turn.next("rows", ROWS)
            return {name: others if at else first for at, name in enumerate(ranks)}, False
        plane, row = self.turn.next("planes", PLANES)
        return {name: {1: row, 2: plane, 3: f"*,{plane}"}[rank] for name, rank in ranks.items()}, "*" not in plane

    def case(self, fault=None, other=None):
        formats, planes = self.formats()
        groups = {}
        for name, form in formats.items():
            groups.setdefault(form, []).append(name)
        directives = [f"!HPF$ DISTRIBUTE ({form}) :: {', '.join(names)}" for form, names in groups.items() if form]
        lines = [self.declaration(), *directives, *self.lines, "END"]
        assert all(len(line) <= LONGEST for line in lines), lines
        kind, all_grids = ("planes", GRIDS_OF_PLANES) if planes else ("few", GRIDS_OF_FEW) if None in groups else ("rows", GRIDS)
        return Case(lines, self.turn.next(f"grids of {kind}", all_grids), planes, other or ("stops" if fault else "prints"), fault)
