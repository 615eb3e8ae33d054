"""What hints of several reasons look for."""
import difflib
import re

from explaining.words import REDUCTIONS
from explaining.text import LOGICAL, RELATIONS, closing, outside, parts


def nearest(word, words):
    found = difflib.get_close_matches(word, list(words), 1, 0.72)
    return found[0] if found else None


def listed(words):
    words = list(words)
    return words[0] if len(words) == 1 else f"{', '.join(words[:-1])} and {words[-1]}"


def count(number, what):
    return f"{number} {what if number == 1 else re.sub('y$', 'ie', what) + 's'}"


def is_logical(tokens):
    return any(token in RELATIONS or token in LOGICAL for _, token in outside(tokens))


def array_names(source, tokens):
    """Whole arrays and sections of some tokens, outside of reductions and of inquiries."""
    found, at = [], 0
    while at < len(tokens):
        token = tokens[at]
        if token in REDUCTIONS + ["SIZE", "LBOUND", "UBOUND"] and tokens[at + 1:at + 2] == ["("]:
            at = closing(tokens, at + 1)
        elif token in source.names and source.names[token].kind == "array":
            subscripts = parts(tokens[at + 2:closing(tokens, at + 1)]) if tokens[at + 1:at + 2] == ["("] else None
            if subscripts is None or any(":" in s or "::" in s for s in subscripts):
                found.append(token)
        at += 1
    return found


def indices_round(trouble, statement):
    """The indices of the FORALL, or of the loops, round a statement."""
    names = [name for s in trouble.source.open_before(trouble.line) for name, _ in s.header()]
    return names + [name for name, _ in statement.header()]


def nest_of(trouble):
    """The INDEPENDENT directives of the nest round the line, its loops, and the statements of its innermost body."""
    statements = trouble.source.statements

    def is_independent(at):
        return statements[at].directive and statements[at].first == "INDEPENDENT" and at + 1 < len(statements) and statements[at + 1].first == "DO"

    for at in range(len(statements)):
        if not is_independent(at) or statements[at].line > trouble.line:
            continue
        end, depth = at + 1, 1
        while depth and end + 1 < len(statements):
            end += 1
            depth += bool(statements[end].construct()) - (statements[end].closes() not in (None, "PROGRAM"))
        if statements[end].last < trouble.line:
            continue
        directives, loops = [], []
        while at < end and is_independent(at):
            directives.append(statements[at])
            loops.append(statements[at + 1])
            at += 2
        return directives, loops, statements[at:end]
    return [], [], []


def nest_assigns(trouble):
    return [s.assignment()[0][0] for s in nest_of(trouble)[2] if s.assignment() and len(s.assignment()[0]) == 1]


def nest_lists(directives):
    lists = {"NEW": [], "REDUCTION": []}
    for directive in directives:
        for at, token in enumerate(directive.tokens):
            if token in lists and directive.tokens[at + 1:at + 2] == ["("]:
                lists[token] += [item[0] for item in parts(directive.tokens[at + 2:closing(directive.tokens, at + 1)]) if item]
    return lists


def nodes_in(grid):
    product = 1
    for number in grid.split("x"):
        product *= int(number)
    return product
