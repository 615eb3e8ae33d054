"""Hints after faults."""
import re

from explaining.text import closing, references, spelled, value_or_none
from explaining.common import listed, nest_of


def tuple_of(text):
    return [int(number) for number in re.findall(r"-?\d+", text)]


def at_tuple(trouble):
    """What the tuple of a fault means."""
    found = re.fullmatch(r" at \(([-\d,]+)\)", trouble.answer.place)
    if not found:
        return None
    numbers = tuple_of(found[1])
    for statement in trouble.source.open_before(trouble.line)[::-1] + trouble.statements:
        if statement.first == "FORALL" and len(statement.header()) == len(numbers):
            return ", ".join(f"{name} = {number}" for (name, _), number in zip(statement.header(), numbers))
    return f"element {', '.join(map(str, numbers))} of the array statement, counted from 1"


def arrays_here(trouble):
    names = dict.fromkeys(name for s in trouble.statements for name, _ in references(s.tokens))
    return [trouble.source.names[name] for name in names if name in trouble.source.names and trouble.source.names[name].kind == "array"]


def bounds_fault(trouble):
    place = at_tuple(trouble)
    hints = [f"it comes at {place}"] if place else []
    arrays = arrays_here(trouble)
    return hints + ([f"declared: {', '.join(trouble.source.declared(entity) for entity in arrays)}"] if arrays else [])


def div_zero_fault(trouble):
    place = at_tuple(trouble)
    hints = [f"it comes at {place}"] if place else []
    if any(".OR." in s.tokens or ".AND." in s.tokens for s in trouble.statements):
        return hints + ["both sides of .AND. and .OR. are evaluated: write one IF inside the other"]
    if any(s.first in ("FORALL",) for s in trouble.statements + trouble.source.open_before(trouble.line)):
        return hints + ["a mask leaves indices out: FORALL (I=1:9, B(I) /= 0)"]
    if place and not any(s.first == "WHERE" for s in trouble.statements):
        hints.append("a mask leaves elements out: WHERE (B /= 0) A = A / B")
    return hints


def shape_fault(trouble):
    said = []
    for statement in trouble.statements:
        for name, subscripts in references(statement.tokens):
            entity = trouble.source.names.get(name)
            if not entity or entity.kind != "array":
                continue
            extents = []
            for subscript, (lower, upper) in zip(subscripts or [[":"]] * len(entity.bounds), trouble.source.values_of(entity)):
                pieces = [[]]
                for token in [":" if t == ":" else t for token in subscript for t in ((":", ":") if token == "::" else (token,))]:
                    if token == ":":
                        pieces.append([])
                    else:
                        pieces[-1].append(token)
                if len(pieces) == 1:
                    continue
                first = value_or_none(pieces[0], trouble.source.constants) if pieces[0] else lower
                last = value_or_none(pieces[1], trouble.source.constants) if pieces[1] else upper
                step = value_or_none(pieces[2], trouble.source.constants) if len(pieces) > 2 and pieces[2] else 1
                extents.append(None if None in (first, last, step) or step == 0 else max(0, (last - first + step) // step))
            if extents and None not in extents:
                spelled_out = name + (f"({','.join(spelled(s) for s in subscripts)})" if subscripts else "")
                said.append(f"{spelled_out} has {' by '.join(map(str, extents))}")
    return [f"extents: {', '.join(dict.fromkeys(said))}"] if said else []


def one_to_one_fault(trouble):
    header = next((s.header() for s in trouble.statements + trouble.source.open_before(trouble.line)[::-1] if s.first == "FORALL"), [])
    for statement in trouble.statements:
        sides = statement.assignment()
        missing = [name for name, _ in header if sides and name not in sides[0]]
        if missing:
            return [f"{spelled(sides[0])} doesn't name {listed(missing)}: each index stands on the left side"]
    return []


def zero_stride_fault(trouble):
    return ["the step is evaluated when the statement is reached: a variable that was never assigned is 0"] if any(
        s.first in ("DO", "FORALL") or ":" in s.tokens for s in trouble.statements) else []


def space_limit_fault(trouble):
    _, loops, _ = nest_of(trouble)
    if any(loop.line == trouble.line for loop in loops):
        return ["each statement of a nest has at most 1,048,576 tuples, iterations times the turns of inner loops: take the nest in parts, or leave INDEPENDENT out"]
    return ["an array statement has at most 1,048,576 elements: take it in parts, by a DO"]


def uses(statement, name, element, known):
    """How a statement uses an object under known values: the words to say it, and whether they are sure."""
    found = []
    sides = statement.assignment()
    if sides:
        asked = statement.tokens[2:closing(statement.tokens, 1)] if statement.first == "IF" else []
        pairs = [("assigns", [sides[0]], True), ("reads", [sides[0][1:], sides[1], asked], False)]
    elif statement.first in ("IF", "ELSE", "ELSEIF"):
        pairs = [("reads", [statement.tokens], False)]
    elif statement.first == "DO":
        pairs = [("reads", [tokens for _, tokens in statement.header()], False)]
    else:
        pairs = []
    for verb, bodies, only_first in pairs:
        for body in bodies:
            for number, (found_name, subscripts) in enumerate(references(body)):
                if found_name != name or (only_first and number):
                    continue
                if element is None:
                    found.append((verb, True))
                    continue
                numbers = [value_or_none(subscript, known) for subscript in subscripts or []]
                if len(numbers) != len(element) or any(number is not None and number != wanted for number, wanted in zip(numbers, element)):
                    continue
                found.append((verb, None not in numbers))
    return list(dict.fromkeys(found))


def is_judged_whole(trouble, statement):
    """Whether a statement of a nest has a condition that names an array."""
    if statement.first not in ("IF", "ELSE", "ELSEIF") or "(" not in statement.tokens:
        return False
    at = statement.tokens.index("(")
    entities = [trouble.source.names.get(name) for name, _ in references(statement.tokens[at:closing(statement.tokens, at)])]
    return any(entity and entity.kind == "array" for entity in entities)


def interfere_fault(trouble):
    """The two iterations, and what each does with the object."""
    found = re.fullmatch(r" \(([-\d,]+)\) \(([-\d,]+)\) on ([A-Z0-9_]+)(?:\(([-\d,]+)\))?", trouble.answer.place)
    if not found:
        return []
    name, element = found[3], tuple_of(found[4]) if found[4] else None
    used = name + (f"({found[4]})" if found[4] else "")
    _, loops, body = nest_of(trouble)
    hints, verbs = [], set()
    for iteration in (found[1], found[2]):
        indices = list(zip([loop.header()[0][0] for loop in reversed(loops) if loop.header()], tuple_of(iteration)))
        known = {**trouble.source.constants, **dict(indices)}
        said = ", ".join(f"{index} = {number}" for index, number in indices) or f"({iteration})"
        does = []
        for statement in body:
            for verb, is_sure in uses(statement, name, element, known):
                does.append(f"{verb if is_sure else 'may ' + verb[:-1]} it in line {statement.line}")
                verbs.add(verb)
        hints.append(f"the iteration {said} " + (listed(dict.fromkeys(does)) if does else "uses it").replace(" it ", f" {used} ", 1))
    adds = any(s.assignment() and s.assignment()[0] == [name] and name in s.assignment()[1] for s in body)
    if element is None and adds:
        hints.append(f"REDUCTION({name}) is for a sum, a product, or a greatest or least value, which the iterations join in any order")
    elif element is None:
        hints.append(f"NEW({name}) gives each iteration its own {name}, which it assigns before it reads it")
    else:
        if any(is_judged_whole(trouble, statement) for statement in body):
            hints.append("under a condition that names an array both branches count: put its value in a variable before the loop")
        hints.append("leave INDEPENDENT out, or " + ("read from an array that the loop doesn't assign" if "reads" in verbs else
                                                     "assign each element in one iteration alone"))
    return hints


FAULT_HINTS = {"Bounds": bounds_fault, "DivZero": div_zero_fault, "Shape": shape_fault, "ZeroStride": zero_stride_fault,
               "NotOneToOne": one_to_one_fault, "SpaceLimit": space_limit_fault, "Interfere": interfere_fault}
