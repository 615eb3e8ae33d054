"""Hints of the reasons 6 BadDirective and 9 BadArrangement."""
import re

from explaining.words import DIRECTIVES, INTRINSICS, PASSED
from explaining.text import closing, entities, formats, is_name, objects, outside, parts, spelled, value_or_none
from explaining.common import count, listed, nearest, nodes_in

ONE_ATTRIBUTE = "a directive gives one attribute: write a directive for each"
FORMATS = ("*", "BLOCK", "CYCLIC", "GEN_BLOCK")
THE_FORMATS = "the formats are *, BLOCK and CYCLIC, each with a number where it is needed, and GEN_BLOCK with a size for each processor"


def mapped_before(source, name, line):
    """The line of an earlier DISTRIBUTE or ALIGN of a name."""
    for statement in source.statements:
        if statement.line < line and statement.directive and statement.first in ("DISTRIBUTE", "ALIGN") and name in objects(statement):
            return statement
    return None


def aligned_with(source, name):
    """A name, what that is aligned with, and so on, up to an end or a name that came before."""
    chain = []
    while name and name not in chain:
        chain.append(name)
        align = next((s for s in source.statements if s.directive and s.first == "ALIGN" and name in objects(s) and "WITH" in s.tokens[:-1]), None)
        name = align.tokens[align.tokens.index("WITH") + 1] if align else None
    return chain


def wrong_word(statement):
    """A word of a directive that is no word of directives."""
    tokens, first = statement.tokens, statement.first
    if not tokens:
        yield "the directive is empty"
    elif first not in DIRECTIVES + PASSED:
        meant = nearest(first, DIRECTIVES + PASSED)
        yield f"{first} is no directive: is {meant} meant?" if meant else f"{first} is no directive of this language"
    elif first in ("DISTRIBUTE", "REDISTRIBUTE"):
        for item in formats(statement) or []:
            if item and item[0] not in FORMATS:
                meant = nearest(item[0], FORMATS[1:])
                yield f"{item[0]} is no format: is {meant} meant?" if meant else THE_FORMATS
        for word in tokens[1:]:
            if word in ("TO", "ON", "OVER"):
                yield f"{word} is ONTO in this directive"


def wrong_form(statement):
    """A part of a directive that is missing, or that this language doesn't have."""
    tokens, first = statement.tokens, statement.first
    colons = [at for at, token in outside(tokens) if token == "::"]
    if colons and any(token == "," for at, token in outside(tokens) if at < colons[-1]):
        yield ONE_ATTRIBUTE
    if "ONTO" in tokens and tokens[tokens.index("ONTO") + 2:tokens.index("ONTO") + 3] == ["("]:
        yield "ONTO has the name of an arrangement alone: an object is distributed over the whole of it"
    if first in ("DISTRIBUTE", "REDISTRIBUTE", "ALIGN") and not colons and any(token == "," for _, token in outside(tokens)):
        form = "ALIGN WITH T" if first == "ALIGN" else f"{first} (BLOCK)"
        yield f"several objects stand after two colons: !HPF$ {form} :: A, B"
    if first in ("DISTRIBUTE", "REDISTRIBUTE") and not colons and tokens[1:2] == ["("]:
        yield f"two colons stand before the names: !HPF$ {first} (BLOCK) :: A"
    if first in ("DISTRIBUTE", "REDISTRIBUTE") and formats(statement) is None:
        yield f"{first} has formats in parentheses: !HPF$ {first} A(BLOCK)"
    if first == "ALIGN" and "WITH" not in tokens[:-1]:
        yield "ALIGN says WITH what: !HPF$ ALIGN A(I) WITH T(I)"
    if first in ("PROCESSORS", "TEMPLATE") and any(not entity.bounds for entity in entities(statement)):
        yield f"{'an arrangement' if first == 'PROCESSORS' else 'a template'} has bounds: !HPF$ {first} {tokens[-1]}(4)"


def wrong_place(trouble, statement):
    """A directive that stands where it may not."""
    source, line, first = trouble.source, trouble.line, statement.first
    begun = source.first_statement()
    if first in DIRECTIVES and first not in ("REDISTRIBUTE", "INDEPENDENT") and begun and begun.line < line:
        more = ": REDISTRIBUTE stands among the statements" if first == "DISTRIBUTE" else ""
        yield f"it stands among the declarations, before the statement of line {begun.line}{more}"
    if first == "REDISTRIBUTE" and any(s.is_declaration() and not s.directive and s.line > line for s in source.statements):
        yield "REDISTRIBUTE stands among the statements, after all declarations: DISTRIBUTE says how an array begins"
    if first == "INDEPENDENT":
        after = next((s for s in source.statements if s.line > line and not (s.directive and s.first in PASSED)), None)
        if not after or after.first not in ("DO", "FORALL"):
            yield "INDEPENDENT stands directly before a DO or a FORALL"
        elif after.first == "FORALL" and len(statement.tokens) > 1:
            yield "before a FORALL INDEPENDENT has no NEW and no REDUCTION"
        elif re.search(r"REDUCTION \( [-+*A-Z]+ :", statement.bare):
            yield "REDUCTION lists the variables alone, without an operator: it is that of their statements"
        else:
            yield "the form is !HPF$ INDEPENDENT, NEW(I, T), REDUCTION(S), where each list may be left out"


def wrong_object(trouble, statement, entity):
    """What a directive is about, where it can't be."""
    source, line, first, name = trouble.source, trouble.line, statement.first, entity.name
    dynamic = [s.line for s in source.statements if s.directive and s.first == "DYNAMIC" for each in objects(s) if each == name]
    earlier = mapped_before(source, name, line)
    if entity.kind not in (("array",) if first == "ALIGN" else ("array", "TEMPLATE")):
        yield f"{name} is {entity.what()}: {'only arrays are aligned' if first == 'ALIGN' else 'only arrays and templates are mapped'}"
    elif first == "DYNAMIC" and dynamic[:2] != [line]:
        yield f"{name} is DYNAMIC twice"
    elif first in ("DISTRIBUTE", "ALIGN") and earlier:
        yield f"{name} has a mapping already, by the {earlier.first} of line {earlier.line}"
    elif first == "REDISTRIBUTE" and earlier and earlier.first == "ALIGN":
        yield f"{name} is aligned, in line {earlier.line}, and moves with what it is aligned with"
    elif first == "REDISTRIBUTE" and not dynamic:
        yield f"{name} has no DYNAMIC: write !HPF$ DYNAMIC {name} among the declarations"


def numbers_differ(source, entity, number, what, more):
    yield f"{source.declared(entity)} has {count(len(entity.bounds), 'dimension')}, and here {count(number, what)}: {more}"


def wrong_distribution(trouble, statement, entity):
    """Formats that don't fit the object, or the arrangement."""
    source, tokens, given = trouble.source, statement.tokens, formats(statement)
    if len(given) != len(entity.bounds):
        yield from numbers_differ(source, entity, len(given), "format", "* is the format of a dimension that isn't distributed")
        return
    onto = source.names.get(tokens[tokens.index("ONTO") + 1]) if "ONTO" in tokens[:-1] else None
    dealt = [(item, pair) for item, pair in zip(given, source.values_of(entity)) if item != ["*"]]
    if onto and onto.kind != "PROCESSORS":
        yield f"{onto.name} is {onto.what()}, and ONTO names an arrangement"
        return
    if onto and len(onto.bounds or []) != len(dealt):
        yield f"{source.declared(onto)} has {count(len(onto.bounds or []), 'dimension')}, and {len(dealt)} of the formats are other than *"
        return
    grid = trouble.questions.grid()
    processors = [None if None in pair else pair[1] - pair[0] + 1 for pair in source.values_of(onto)] if onto else \
        [nodes_in(grid)] if len(dealt) == 1 else [int(number) for number in grid.split("x")]
    for (item, pair), number in zip(dealt, processors):
        size = value_or_none(item[2:-1], source.constants) if item[1:2] == ["("] else None
        if size is not None and size < 1:
            yield f"the number after {item[0]} is 1 at least"
        elif size and item[0] == "BLOCK" and None not in pair and number is not None and size * number < pair[1] - pair[0] + 1:
            extent = pair[1] - pair[0] + 1
            yield (f"{entity.name} has {count(extent, 'position')} there, and {count(number, 'block')} of {size} hold {size * number}: "
                   f"write BLOCK({-(-extent // number)}) or BLOCK alone")


def wrong_alignment(source, statement, entity):
    """Entries of an ALIGN that don't fit the object, or what it is aligned with."""
    tokens, name = statement.tokens, entity.name
    at = tokens.index("WITH") + 1
    target = source.names.get(tokens[at])
    if target is None:
        return
    chain = aligned_with(source, target.name)
    if target.kind not in ("array", "TEMPLATE"):
        yield f"{target.name} is {target.what()}, and an array is aligned with an array or a template"
    elif name in chain:
        yield f"{name} is aligned with itself" + (f", over {listed(chain[:chain.index(name)])}" if chain.index(name) else "")
    else:
        targets = parts(tokens[at + 2:closing(tokens, at + 1)]) if tokens[at + 1:at + 2] == ["("] else None
        start = next((place for place in (1, 2) if tokens[place] == "("), None)
        own = parts(tokens[start + 1:closing(tokens, start)]) if start else None
        if own is not None and len(own) != len(entity.bounds):
            yield from numbers_differ(source, entity, len(own), "entry", "* is the entry of a dimension whose elements lie together")
        elif targets is not None and len(targets) != len(target.bounds):
            yield from numbers_differ(source, target, len(targets), "entry", "* or a constant stands for the others")
        else:
            yield from wrong_entries(source, entity, own, target, targets)


def wrong_entries(source, entity, own, target, targets):
    """Entries that are as many as the dimensions, where they aren't of their form or lead outside."""
    name = entity.name
    dummies = [item[0] for item in own or [] if item and is_name(item[0])]
    for dummy in dummies:
        if dummies.count(dummy) > 1:
            yield f"the dummy {dummy} stands in two entries of {name}"
        elif sum(dummy in item for item in targets or []) > 1:
            yield f"the dummy {dummy} stands in two entries of {target.name}"
    for item in targets or []:
        named = [token for token in item if token in dummies]
        if len(set(named)) > 1:
            yield f"the entry {spelled(item)} names two dummies: it is a*i + b in one dummy i"
        elif named and (any(token in ("/", "**") or token in INTRINSICS for token in item) or len(named) > 1 and "*" in item):
            yield f"the entry {spelled(item)} isn't a*i + b in the dummy {named[0]}"
    both = f"{source.declared(entity)} and {source.declared(target)}"
    if own is None and targets is None:
        if len(entity.bounds) != len(target.bounds):
            yield f"{both} have other numbers of dimensions: say which belong together, as in ALIGN A(I) WITH M(I,*)"
        for mine, other in zip(source.values_of(entity), source.values_of(target)):
            if None not in mine + other and mine[1] - mine[0] != other[1] - other[0]:
                yield f"{both} have other extents: say where each element lies, as in ALIGN A(I) WITH T(I)"
    if own is not None and targets is not None and own.count([":"]) != sum(":" in item or "::" in item for item in targets):
        yield f"each : of {name} belongs to a triplet of {target.name}, as in ALIGN {name}(:) WITH {target.name}(:)"
    if own is not None and targets is None and any(item != [":"] for item in own):
        yield f"say where in {target.name} each {own[0][0]} lies: WITH {target.name}({own[0][0]})"
    if own is not None and targets is not None and len(own) == len(targets) == 1:
        pair, ends = source.values_of(entity)[0], source.values_of(target)[0]
        for number in pair if None not in pair + ends else []:
            lies = value_or_none(targets[0], {**source.constants, own[0][0]: number})
            if lies is not None and not ends[0] <= lies <= ends[1]:
                yield f"{name}({number}) would lie on {target.name}({lies}), outside its bounds {ends[0]} to {ends[1]}"


def all_wrong(trouble, statement):
    yield from wrong_word(statement)
    yield from wrong_form(statement)
    yield from wrong_place(trouble, statement)
    if statement.first in ("DISTRIBUTE", "REDISTRIBUTE", "ALIGN", "DYNAMIC"):
        for name in objects(statement):
            entity = trouble.source.names.get(name)
            if entity:
                yield from wrong_object(trouble, statement, entity)
                if statement.first == "ALIGN":
                    yield from wrong_alignment(trouble.source, statement, entity)
                elif statement.first != "DYNAMIC":
                    yield from wrong_distribution(trouble, statement, entity)


def bad_directive(trouble, statement):
    first = next(all_wrong(trouble, statement), None) if statement.directive else None
    return [first] if first else []


def grids_of(number):
    """Grids of a number of nodes: the line, and the squarest of two dimensions."""
    grids = [str(number)]
    side = max((side for side in range(1, int(number ** 0.5) + 1) if number % side == 0), default=1)
    return grids + ([f"{side}x{number // side}"] if side > 1 else [])


def fits(trouble, grids):
    """The grids on which this line isn't refused so, or all where the program is too slow to be asked."""
    found = []
    for grid in dict.fromkeys(grids):
        answer = trouble.questions.check(grid=grid)
        if answer is None or answer.status in (0, 1) and not (answer.reason == 9 and answer.line == trouble.line):
            found.append(grid)
    return found


def bad_arrangement(trouble, statement):
    source, grid = trouble.source, trouble.questions.grid()
    nodes, hints = nodes_in(grid), []
    if statement.first == "PROCESSORS":
        for entity in entities(statement):
            pairs = source.values_of(entity)
            extents = [None if None in pair else pair[1] - pair[0] + 1 for pair in pairs]
            if None in extents or not extents:
                continue
            size = 1
            for extent in extents:
                size *= extent
            if min(extents) < 1:
                hints.append(f"an extent of {source.declared(entity)} is below 1")
            elif size != nodes:
                grids = grids_of(size) if len(extents) == 1 else [str(size), "x".join(map(str, extents))]
                fitting = fits(trouble, grids) if size <= 64 else []
                hints.append(f"{source.declared(entity)} has {count(size, 'processor')}, and --grid {grid} has {count(nodes, 'node')}"
                             + (f": give --grid {' or --grid '.join(fitting)}" if fitting else ""))
        dimensions = [len(entity.bounds or []) for entity in entities(statement)]
        return hints + (["PROCESSORS P(NUMBER_OF_PROCESSORS()) fits every grid"] if dimensions == [1] or not hints else [])
    wanted = sum(item != ["*"] for item in formats(statement) or [])
    if wanted > 1:
        side = max(side for side in range(1, int(nodes ** 0.5) + 1) if nodes % side == 0)
        extents = [side, nodes // side] + [1] * (wanted - 2) if nodes > 1 else [2] * min(wanted, 6) + [1] * (wanted - 6)
        fitting = fits(trouble, ["x".join(map(str, extents))])
        hints.append(f"{wanted} dimensions are distributed, and --grid {grid} has {count(len(grid.split('x')), 'dimension')}: "
                     + (f"give --grid {fitting[0]}, or " if fitting else "") + f"write ONTO with an arrangement of {wanted} dimensions")
    return hints
