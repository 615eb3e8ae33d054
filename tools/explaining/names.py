"""Hints of the reasons 4 BadName, 5 BadRank and 12 BadConstant."""
from explaining.words import ARGUMENTS, DIRECTIVES, OTHER_INTRINSICS, REDUCTIONS, WORDS_INSIDE
from explaining.text import closing, entities, formats, is_name, parts, references, spelled, value_or_none
from explaining.common import array_names, count, is_logical, listed, nearest
from explaining.statements import condition


def undeclared(trouble, statement):
    """The names of a statement without which it is refused, found by declaring them in front of the text; and those that are declared later."""
    questions, line = trouble.questions, trouble.line

    def is_here(answer):
        return answer.reason == 4 and answer.line == line + 1

    names = dict.fromkeys(token for token in statement.tokens if is_name(token) and token not in DIRECTIVES + WORDS_INSIDE)
    if questions.slow:
        start = statement.tokens.index("(") if statement.first == "ALIGN" and "(" in statement.tokens[:3] else None
        dummies = statement.tokens[start:closing(statement.tokens, start)] if start else []
        return [name for name in names if name not in trouble.source.names and name not in dummies], []
    candidates, later = [], []
    for name in names:
        answer = questions.check(declared=[name])
        if answer.reason == 4 and answer.line is not None and answer.line <= line:
            continue
        entity = trouble.source.names.get(name)
        if entity and entity.line > line:
            later.append(name)
        else:
            candidates.append(name)
    if len(candidates) > 1 and not is_here(questions.check(declared=candidates)):
        candidates = [name for name in candidates if is_here(questions.check(declared=[other for other in candidates if other != name]))]
    elif len(candidates) == 1 and is_here(questions.check(declared=candidates)):
        candidates = []
    return candidates, later


def declare_hint(trouble, statement, names):
    source, hints = trouble.source, []
    for name in [name for name in names if name in OTHER_INTRINSICS]:
        hints.append(f"the procedure {name} of Fortran and HPF isn't in this language")
    names = [name for name in names if name not in OTHER_INTRINSICS]
    if not names:
        return hints
    hints.append(f"every name has to be declared, and this text declares no {', '.join(names)}")
    for name in names:
        meant = nearest(name, source.names)
        if meant:
            hints.append(f"is {meant} meant for {name}, which is declared in line {source.names[meant].line}?")
            continue
        at = statement.tokens.index(name)
        if statement.directive and statement.tokens[at - 1] == "ONTO":
            hints.append(f"an arrangement is declared by !HPF$ PROCESSORS {name}(..)")
        elif statement.directive and statement.tokens[at - 1] == "WITH":
            hints.append(f"declare {name} as an array, or by !HPF$ TEMPLATE {name}(..)")
        elif statement.first == "PARAMETER":
            hints.append(f"write INTEGER, PARAMETER :: {name} = .. in its place")
        else:
            subscripts = next((subscripts for found, subscripts in references(statement.tokens) if found == name and subscripts), None)
            shape = f"({','.join('..' for _ in subscripts)})" if subscripts else ""
            hints.append(f"write INTEGER :: {name}{shape} among the declarations")
    return hints


def bad_name(trouble, statement):
    source, tokens, line = trouble.source, statement.tokens, trouble.line
    for entity, earlier in source.twice:
        if entity.line == line:
            return [f"{entity.name} is declared already in line {earlier.line}"]
    if statement.closes() == "PROGRAM":
        program = next((s.tokens[1] for s in source.statements if s.first == "PROGRAM" and len(s.tokens) > 1), None)
        return [f"the program's name is {program}" if program else "the program has no name: write END"]
    loops = {s.tokens[1]: s.line for s in source.open_before(line) if s.construct() == "DO" and len(s.tokens) > 1}
    sides = statement.assignment()
    target = sides[0][0] if sides else statement.header()[0][0] if statement.first == "DO" and statement.header() else None
    if target in loops:
        return [f"{target} is the index of the DO of line {loops[target]}, which alone changes it there: take another variable"]
    if sides and target in source.names and source.names[target].kind not in ("scalar", "array"):
        return [f"{target} is {source.names[target].what()}, and isn't assigned"]
    indices = [name for name, _ in statement.header()]
    for name in indices:
        if indices.count(name) > 1:
            return [f"the index {name} stands twice in the header"]
        if name in source.names and source.names[name].kind != "scalar":
            return [f"{name} is {source.names[name].what()}, and an index is a scalar variable"]
    if statement.first == "PARAMETER":
        for item in parts(tokens[2:-1]):
            entity = source.names.get(item[0]) if item else None
            if entity and (entity.bounds or entity.line > line):
                return ["PARAMETER makes a constant of a scalar that INTEGER has declared before, without a value"]
    for name, _ in references(tokens):
        if not statement.directive and name in source.names and source.names[name].kind in ("TEMPLATE", "PROCESSORS"):
            return [f"{name} is {source.names[name].what()}, and stands in directives alone"]
    names, later = undeclared(trouble, statement)
    hints = [f"{name} is declared in line {source.names[name].line}, and a declaration names what is declared before it" for name in later
             if not names and not statement.directive]
    return hints + declare_hint(trouble, statement, names) if names or hints else []


def wrong_inquiry(source, word, arguments):
    """What is wrong with the arguments of SIZE, LBOUND or UBOUND, or None."""
    if len(arguments[0]) != 1 or arguments[0][0] not in source.names or source.names[arguments[0][0]].kind != "array":
        return f"{word} takes the name of an array, which {spelled(arguments[0])} isn't"
    number = value_or_none(arguments[1], source.constants) if len(arguments) > 1 else 1
    if number is None:
        return f"the dimension of {word} is a constant, which {spelled(arguments[1])} isn't"
    entity = source.names[arguments[0][0]]
    return None if 1 <= number <= len(entity.bounds) else f"{source.declared(entity)} has {count(len(entity.bounds), 'dimension')}"


def number_among_conditions(source, tokens):
    """An operand of logical operators that is a variable's number, or None."""
    operands = [[]]
    for token in tokens:
        if token in (".AND.", ".OR.", ".EQV.", ".NEQV.", ".NOT."):
            operands.append([])
        else:
            operands[-1].append(token)
    if len(operands) == 1:
        return None
    return next((spelled(some) for some in operands if some and some[0] in source.names and not is_logical(some)
                 and some.count("(") == some.count(")")), None)


def bad_rank(trouble, statement):
    source, tokens = trouble.source, statement.tokens
    if "NUMBER_OF_PROCESSORS" in tokens and not statement.directive:
        return ["NUMBER_OF_PROCESSORS stands in directives alone: what a program prints doesn't depend on the grid"]
    if not statement.directive and not statement.is_declaration():
        for name, subscripts in references(tokens):
            entity = source.names.get(name)
            if entity and subscripts is not None and entity.kind in ("scalar", "constant"):
                return [f"{name} is {entity.what()}, and has no subscripts"]
            if entity and subscripts is not None and entity.kind == "array" and len(subscripts) != len(entity.bounds):
                return [f"{source.declared(entity)} has {count(len(entity.bounds), 'dimension')}, and here {count(len(subscripts), 'subscript')}"]
    for at, token in enumerate(tokens):
        arguments = parts(tokens[at + 2:closing(tokens, at + 1)]) if tokens[at + 1:at + 2] == ["("] else []
        if token in REDUCTIONS and len(arguments) > 1:
            return [f"{token} has one argument, the array: a dimension or a mask is left out"]
        if token in ("MAX", "MIN") and not 2 <= len(arguments) <= 7:
            more = "; the greatest and least element of an array are MAXVAL and MINVAL" if len(arguments) == 1 else ""
            return [f"{token} has two to seven arguments{more}"]
        if token in REDUCTIONS and len(arguments) == 1 and not array_names(source, arguments[0]):
            return [f"{token} takes an array, and {spelled(arguments[0])} is a scalar"]
        if token in ("COUNT", "ANY", "ALL") and len(arguments) == 1 and not is_logical(arguments[0]):
            return [f"{token} takes a logical array: compare, as in {token}({spelled(arguments[0])} /= 0)"]
        if token in ("SUM", "PRODUCT", "MAXVAL", "MINVAL") and len(arguments) == 1 and is_logical(arguments[0]):
            return [f"{token} takes integers: COUNT({spelled(arguments[0])}) is the number of elements for which the condition holds"]
        if token in ("LBOUND", "UBOUND") and len(arguments) == 1:
            return [f"{token} has a dimension: {token}({spelled(arguments[0])},1)"]
        if token in ("SIZE", "LBOUND", "UBOUND") and arguments and arguments[0] and not statement.directive:
            found = wrong_inquiry(source, token, arguments)
            if found:
                return [found]
        if token in ARGUMENTS and len(arguments) != ARGUMENTS[token]:
            return [f"{token} has {count(ARGUMENTS[token], 'argument')}"]
    if "IF" in tokens[:2] or statement.first == "ELSEIF":
        inside = condition(["IF"] + tokens[1 + (statement.first == "ELSE"):])
        number = number_among_conditions(source, inside or [])
        if number:
            return [f"both sides of .AND. and .OR., and what follows .NOT., are logical: compare {number}, as in {number} /= 0"]
        if inside and not is_logical(inside) and not any(word in inside for word in ("ANY", "ALL")):
            return [f"a condition is logical, and {spelled(inside)} is an integer: compare it, as in {spelled(inside)} /= 0"]
        if inside and array_names(source, inside):
            return ["a condition is one value: join the elements by ANY(..) or ALL(..)"]
    if statement.first == "DO":
        arrays = [name for item in parts(tokens[3:]) for name in array_names(source, item)]
        if arrays:
            return [f"the bounds and the step of a DO are single values, and {arrays[0]} is an array"]
    sides = statement.assignment()
    where = next((s for s in [statement, *reversed(source.open_before(trouble.line))] if s.first == "WHERE"), None)
    if statement.first == "WHERE" and not array_names(source, tokens[2:closing(tokens, 1)]):
        return ["the mask of a WHERE is a logical array: for one value write IF"]
    if statement.first == "WHERE" and not is_logical(tokens[2:closing(tokens, 1)]):
        return [f"the mask of a WHERE is logical: compare, as in {spelled(tokens[2:closing(tokens, 1)])} /= 0"]
    if sides:
        left = array_names(source, sides[0])
        if where and not left:
            return ["under a WHERE arrays and sections are assigned, not scalars or single elements"]
        if left and (statement.first == "FORALL" or any(s.construct() == "FORALL" for s in source.open_before(trouble.line))):
            what = "a section" if "(" in sides[0] else "a whole array"
            return [f"in a FORALL elements are assigned, with a subscript for each dimension: {left[0]} is {what}"]
        if not left and sides[0] == sides[0][:1] and statement.first == "FORALL":
            return [f"in a FORALL elements are assigned, and {sides[0][0]} is a scalar: write a DO, or SUM(..) for a sum"]
        if is_logical(sides[1]) or sides[1][0:1] and sides[1][0] in ("ANY", "ALL"):
            return ["there are no logical variables: assign 1 and 0 by IF or WHERE"]
        if not left and array_names(source, sides[1]) and not where:
            return [f"{spelled(sides[0])} is a scalar, and {listed(array_names(source, sides[1]))} on the right an array"]
        whole = [name for name, subscripts in references(tokens) if subscripts is None]
        ranks = {name: len(source.names[name].bounds) for name in left + array_names(source, sides[1]) if name in whole}
        if len(set(ranks.values())) > 1:
            return ["arrays that go together have one rank: " + ", ".join(f"{name} has {rank}" for name, rank in ranks.items())]
    if statement.first == "PRINT":
        for item in parts(tokens[3:]):
            if is_logical(item):
                return ["an item of PRINT is an integer: print COUNT(..) of an array, or print in an IF"]
            if len(item) > 1 and array_names(source, item) and (not is_name(item[0]) or item[1:2] != ["("] or closing(item, 1) < len(item) - 1):
                return ["an item of PRINT is one value, a whole array or a section: assign the array expression to an array first"]
    return []


def bad_constant(trouble, statement):
    source, tokens = trouble.source, statement.tokens
    for at, token in enumerate(tokens):
        if token in ("/", "MOD", "MODULO") and not (token == "/" and tokens[at - 1] == "("):
            divisor = tokens[at + 1:at + 2] if token == "/" else parts(tokens[at + 2:closing(tokens, at + 1)])[-1]
            if divisor == ["("]:
                divisor = tokens[at + 2:closing(tokens, at + 1)]
            if value_or_none(divisor, source.constants) == 0:
                return ["the divisor is 0" if divisor == ["0"] else f"the divisor {spelled(divisor)} is 0"]
    used = [token for entity in entities(statement) for body in [*(entity.bounds or []), entity.start or []] for token in [*body, ","]]
    if statement.first in ("DISTRIBUTE", "REDISTRIBUTE"):
        used = [token for item in formats(statement) or [] for token in [*item[1:], ","]]
    if statement.first == "ALIGN" and "WITH" in tokens:
        used = tokens[tokens.index("WITH") + 2:]
    for name, subscripts in references(used):
        entity = source.names.get(name)
        if entity and entity.kind == "scalar":
            return [f"{name} is a variable: declare it as INTEGER, PARAMETER :: {name} = .., or write a number"]
        if entity and entity.kind == "array" and subscripts and statement.first not in ("DISTRIBUTE", "REDISTRIBUTE", "ALIGN"):
            return [f"an element of {name} isn't constant: declare a scalar constant"]
    found = next((token for token in tokens if token in REDUCTIONS), None)
    if found:
        return [f"{found} isn't constant"]
    if "NUMBER_OF_PROCESSORS" in tokens:
        dimensions = len(trouble.questions.grid().split("x"))
        return ["NUMBER_OF_PROCESSORS() is constant in directives alone" if not statement.directive else
                f"the grid has {count(dimensions, 'dimension')}, by --grid {trouble.questions.grid()}"]
    return []
