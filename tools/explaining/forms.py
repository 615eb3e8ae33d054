"""Further hints of the reason 2 NotAStatement: forms of other statements, of a later Fortran and of other languages."""
import re

from explaining.text import closing, is_name, outside

ASSIGNS = "="


def is_text(token):
    return token[:1] in "'\""


def is_operand(token):
    return is_text(token) or token.isdigit() or is_name(token)


def one_line(statement):
    """What stands in a line of IF, WHERE or FORALL after the parentheses, where it can't."""
    tokens, first = statement.tokens, statement.first
    after = tokens[closing(tokens, 1) + 1:] if tokens[1:2] == ["("] else []
    if first == "IF" and "ELSE" in after:
        return "an IF in one line has no ELSE: write IF (..) THEN, ELSE and END IF, each in its line"
    if first == "IF" and after and (after[0] in ("GO", "GOTO") or after[0].isdigit()):
        return "there are no labels: write IF (..) THEN with the statements that are jumped to, or EXIT or CYCLE"
    if first == "WHERE" and "ELSEWHERE" in after:
        return "a WHERE in one line has no ELSEWHERE: write WHERE (..), ELSEWHERE and END WHERE, each in its line"
    if first == "FORALL" and after[:1] == ["IF"]:
        return "a mask in the header takes the place of IF: FORALL (I=1:9, A(I) > 0) A(I) = 0"
    if first in ("WHERE", "FORALL") and after and ASSIGNS not in after:
        return f"after the parentheses of a {first} in one line an assignment stands"
    return None


def assigned(statement):
    """What is wrong with an assignment, or with what is meant as one."""
    tokens = statement.tokens
    signs = [at for at, token in outside(tokens) if token == ASSIGNS]
    if not signs:
        compared = [token for _, token in outside(tokens) if token in ("==", ".EQ.")]
        return f"{compared[0]} compares, and = assigns" if compared and is_name(statement.first) else None
    left, right = tokens[:signs[0]], tokens[signs[0] + 1:]
    if signs[1:2] == [signs[0] + 1]:
        return "== is written without a blank, and an assignment has one ="
    if len(signs) > 1:
        return "one variable is assigned in a statement: write a statement for each"
    if not left or not is_name(left[0]):
        return None
    if len(left) > 1 and (left[1] != "(" or closing(left, 1) < len(left) - 1):
        return "at the left of = one variable stands: a name, an element or a section"
    if any(token == "," for _, token in outside(right)):
        return "one expression stands at the right of =: assign the elements one by one, or by FORALL"
    if right and is_text(right[0]):
        return "there are no character variables: a text stands in PRINT alone"
    if right[:1] == ["("] and closing(right, 0) == len(right) - 1 and "," in right:
        return "there are no complex numbers: hold their parts in two variables"
    return None


def further(trouble, statement):
    """A hint that is better than the common ones, or None."""
    tokens, first = statement.tokens, statement.first
    if re.search(r"^[^!'\"]*!=", trouble.raw):
        return "! begins a comment: unequal is /="
    if first == "INTEGER" and "FUNCTION" in tokens[1:3]:
        return "procedures are left out: write the statements where they are called"
    if first == "WHILE":
        return "a loop is DO I = 1, N, with IF (..) EXIT where it ends before"
    if first == "PROGRAM" and len(tokens) != 2:
        return "PROGRAM has one name after it, of letters, digits and _"
    if first == "PRINT" and tokens[1:3] == ["*", ","]:
        beside = [at for at in range(3, len(tokens) - 1) if is_operand(tokens[at]) and is_operand(tokens[at + 1])]
        return f"a comma stands between the items {tokens[beside[0]]} and {tokens[beside[0] + 1]}" if beside else None
    return one_line(statement) or (assigned(statement) if first not in ("IF", "ELSE", "ELSEIF", "DO", "INTEGER", "WHERE", "FORALL", "PARAMETER") else None)
