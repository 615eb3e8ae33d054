"""Hints of the reasons 7 BadSubscript and 8 BadIndependent."""
import re

from explaining.words import INTRINSICS, REDUCTIONS
from explaining.text import RELATIONS, closing, parts, references, spelled, value_or_none
from explaining.common import indices_round, listed, nest_assigns, nest_lists, nest_of


def bad_subscript(trouble, statement):
    source, tokens = trouble.source, statement.tokens
    indices = indices_round(trouble, statement)
    is_forall = "FORALL" in tokens or any(s.construct() == "FORALL" for s in source.open_before(trouble.line))
    found = next((token for token in tokens if token in REDUCTIONS), None)
    if is_forall and found:
        return [f"{found} can't stand in a FORALL: take its value into a scalar before"]
    if "FORALL" in tokens:
        for _, triplet in statement.header():
            named = next((token for token in triplet if token in [name for name, _ in statement.header()]), None)
            if named:
                return [f"the bounds of a FORALL can't name its index {named}: write a mask, as FORALL (I=1:9, J=1:9, J >= I)"]
    # the references of a list inside parentheses are among those of the statement
    for body in [tokens]:
        for name, subscripts in references(body):
            if name not in source.names or source.names[name].kind != "array":
                continue
            for subscript in subscripts or []:
                said = f"the subscript {spelled(subscript)} of {name}"
                used = [token for token in subscript if token in indices]
                inner = next((token for token in subscript if token in source.names and source.names[token].kind == "array"), None)
                if ":" in subscript or "::" in subscript:
                    return [f"{said} is a section, and here elements are assigned one by one"]
                if any(token in ("/", "**") or token in INTRINSICS for token in subscript):
                    more = f" in the index {used[0]}" if used else ": take its value into a scalar before"
                    return [f"{said} has more than signs, +, - and *{more}"]
                if inner:
                    return [f"{said} names the array {inner}: it is a*x + c in one index x, with scalars and constants"]
                if len(set(used)) > 1:
                    return [f"{said} names two indices, {listed(sorted(set(used)))}: it is a*x + c in one index x"]
                if len(used) > 1 and "*" in subscript:
                    return [f"{said} isn't a*x + c in the index {used[0]}"]
                assigned = nest_assigns(trouble)
                changed = next((token for token in subscript if token in assigned and token not in indices), None)
                if changed:
                    return [f"{said} names {changed}, which the nest assigns"]
    return []


def bad_independent(trouble, statement):
    source, tokens = trouble.source, statement.tokens
    directives, loops, body = nest_of(trouble)
    lists, indices = nest_lists(directives), [name for loop in loops for name, _ in loop.header()]
    if statement.directive:
        for name in lists["NEW"] + lists["REDUCTION"]:
            if name in lists["NEW"] and name in lists["REDUCTION"]:
                return [f"{name} stands in both lists"]
            if name in source.names and source.names[name].kind != "scalar":
                return [f"{name} is {source.names[name].what()}, and the lists have scalar variables"]
            if name in lists["REDUCTION"] and name in indices:
                return [f"{name} is an index of the nest, and none of its REDUCTION variables"]
        return []
    found = next((token for token in tokens if token in REDUCTIONS), None)
    if found:
        return [f"{found} can't stand in a nest: take its value into a scalar before"]
    action = tokens[closing(tokens, 1) + 1:][:1] if statement.first == "IF" and not statement.construct() else [statement.first]
    if action and action[0] in ("PRINT", "STOP", "EXIT", "CYCLE", "WHERE", "FORALL"):
        return [f"{action[0]} can't stand in a nest, only assignments, IF, DO and CONTINUE"]
    if statement.first == "DO":
        if any(s.construct() == "IF" and s in body for s in source.open_before(trouble.line)):
            return ["no DO stands under an IF in a nest: put the IF inside the DO"]
        before = next((s for s in source.statements if s.line < trouble.line and s.last >= trouble.line - 1 and s.directive), None)
        if before and before.first == "INDEPENDENT" and statement not in loops:
            return ["an INDEPENDENT DO inside a nest is all that the loop round it has: leave this INDEPENDENT out"]
        if statement.header():
            bounds = parts(statement.header()[0][1])
            named = next((token for bound in bounds for token in bound if token in indices_round(trouble, statement)[:-1]), None)
            if named:
                return [f"the bounds of an inner loop can't name the index {named}"]
            if len(bounds) > 2 and value_or_none(bounds[2], source.constants) in (None, 0):
                return [f"the step {spelled(bounds[2])} of an inner loop is a constant other than 0"]
            for bound in bounds[:2]:
                changed = next((token for token in bound if token in nest_assigns(trouble)), None)
                if changed:
                    return [f"the bound {spelled(bound)} of an inner loop names {changed}, which the nest assigns"]
                arrays = [token for token in bound if token in source.names and source.names[token].kind == "array"]
                if arrays or any(token in ("/", "**") or token in INTRINSICS for token in bound):
                    return [f"the bound {spelled(bound)} of an inner loop has more than signs, +, - and *: "
                            "take its value into a scalar before the nest"]
    sides = statement.assignment()
    if sides and len(sides[0]) == 1 and sides[0][0] in source.names and source.names[sides[0][0]].kind == "array":
        return [f"{sides[0][0]} is a whole array: assign its elements, in an inner DO"]
    for name in lists["REDUCTION"]:
        if name in tokens:
            if sides and sides[0] == [name]:
                if re.fullmatch(rf"{name} = {name} [+-] .* [+-] .*", " ".join(tokens)) and not any(token in RELATIONS for token in tokens):
                    rest = spelled(sides[1][2:])
                    return [f"{name} {sides[1][1]} .. is done first: write {name} = {name} {sides[1][1]} ({rest})" if sides[1][1] == "+" else
                            f"the rest of the right side stands in parentheses, as in {name} = {name} + (..)"]
                earlier = next((s for s in body if s.line < trouble.line and s.assignment() and s.assignment()[0] == [name]), None)
                if earlier:
                    return [f"{name} has another operator in its first reduction statement, in line {earlier.line}: one variable has one operator"]
                return [f"{name} is a REDUCTION variable: it is assigned as {name} = {name} + e, with another operator, "
                        f"or by MAX({name}, e) and the like"]
            return [f"{name} is a REDUCTION variable: in the nest it stands in its reduction statements alone"]
    for name in lists["NEW"]:
        if name in (sides[1] if sides else tokens) or (sides and name in sides[0][1:]):
            return [f"{name} is NEW, and some path to this line hasn't assigned it in this iteration"]
    inner = [s for s in body if s.construct() == "DO" and s.header()]
    for loop in inner:
        name = loop.header()[0][0]
        if name in tokens and loop is not statement and loop not in source.open_before(trouble.line):
            return [f"{name} is the index of the loop of line {loop.line}, and has no value outside it"]
    return []
