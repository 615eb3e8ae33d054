"""Hints of the reasons 1 BadLine, 2 NotAStatement, 3 BadNest, 10 Limit and 11 LeftOut."""
import re

from explaining.words import KEYWORDS, LEFT_OUT, RESERVED
from explaining.text import LOGICAL, NAME, RELATIONS, closing, entities, is_hpf, parts, without_comment
from explaining.common import listed, nearest
from explaining.forms import further

NO_REALS = "there are integers alone: a fraction is an integer that counts parts, as in examples/heat.f90"
CONSTRUCTOR = "array constructors are left out: assign the elements one by one, or by FORALL"
NO_NAMES = "constructs have no names: EXIT and CYCLE are of the innermost DO"
NO_LABELS = "statements have no labels: a loop ends with END DO, and EXIT, CYCLE and IF take the place of GO TO"
NO_PROCEDURES = "procedures are left out: write the statements where they are called"
ONE_KIND = "there is one kind of INTEGER, of 64 bits: write INTEGER without a kind"
# first word of a statement that is left out: what to write in its place
INSTEAD = {
    "REAL": NO_REALS, "DOUBLE": NO_REALS, "COMPLEX": NO_REALS,
    "LOGICAL": "there are no logical variables: hold 0 or 1 in an INTEGER and compare it",
    "CHARACTER": "there are no character variables: a text stands in PRINT alone",
    "WRITE": "write PRINT *, and the items",
    "DATA": "initial values stand in the declaration: INTEGER :: X = 1",
    "DIMENSION": "the bounds of an array stand in its INTEGER declaration",
    "GO": "there are no labels: write IF, EXIT or CYCLE", "GOTO": "there are no labels: write IF, EXIT or CYCLE",
    "SELECT": "write IF, ELSE IF and ELSE", "CASE": "write IF, ELSE IF and ELSE",
    **{word: "there are no modules: all declarations stand in the one program" for word in ("USE", "MODULE")},
    "SAVE": "every variable keeps its value to the end: leave the statement out",
    "INCLUDE": "a text is one file: put the lines of the other one here",
    "COMMON": "all variables are those of the one program: leave the statement out",
    **{word: NO_PROCEDURES for word in "CALL CONTAINS ENTRY EXTERNAL FUNCTION INTERFACE INTRINSIC RECURSIVE RETURN SUBROUTINE".split()},
    **{word: "a program reads no data and no files: values stand in its declarations"
       for word in "READ OPEN CLOSE INQUIRE REWIND BACKSPACE NAMELIST FORMAT".split()},
    **{word: "arrays have constant bounds: INTEGER, PARAMETER :: N = 8 and INTEGER :: A(N)"
       for word in "ALLOCATE ALLOCATABLE DEALLOCATE NULLIFY".split()},
}


def is_accepted_otherwise(trouble):
    """Whether the text is accepted in the other source form."""
    answer = trouble.questions.check(other_form=True)
    return answer is not None and answer.status == 0


def looks_fixed(trouble):
    """The hint of a text that is read in free form and looks like fixed form."""
    if is_accepted_otherwise(trouble):
        return "this looks like fixed form: with --fixed the text is accepted"
    return "this looks like fixed form, which --fixed reads: in free form a comment begins with !, and & at the end of a line continues it"


def goes_on(source, line, is_directive):
    """Whether a line follows that a line with & at its end can go on with."""
    after = source.lines[line:line + 1]
    if not is_directive:
        after = [each for each in source.lines[line:] if without_comment(each)[0].strip() or is_hpf(each)]
    return bool(after) and is_hpf(after[0]) == is_directive


def bad_line(trouble):
    line, source = trouble.raw, trouble.source
    is_directive = is_hpf(line)
    content, is_open = without_comment(re.sub(r"^[ \t]*!HPF\$", "", line, flags=re.I) if is_directive else line)
    rest = "".join(without_comment(re.sub(r"^[ \t]*!HPF\$", "", each, flags=re.I))[0] + "\n"
                   for each in source.lines[trouble.line - 1:source.logical_end(trouble.line)])
    rest = re.sub(r"""'[^'\n]*'|"[^"\n]*\"""", "''", rest)
    if len(line) > 132:
        more = ", after !HPF$" if is_directive else ""
        return [f"the line has {len(line)} bytes, and 132 are the most: end it with & and go on in the next line{more}"]
    if is_open:
        return ["a text constant isn't closed on its line; inside ' a ' is written twice"]
    if is_directive and ";" in content:
        return ["a directive has its line for itself, without ;"]
    if re.match(r"     [&+$.>]", line):
        return [looks_fixed(trouble)]
    if re.match(r"[C*]HPF\$", line, re.I):
        return [looks_fixed(trouble) if is_accepted_otherwise(trouble) else "in free form a directive line begins with !HPF$, and a comment with !"]
    if line.startswith("#"):
        return ["no preprocessor is run: a line that begins with # is none of this language"]
    if content.strip() == "&":
        return ["a line with & alone is none: put & at the end of the line that goes on"]
    if re.search(r"[\x00-\x08\x0b-\x1f\x7f]", content):
        return ["a control byte stands in the line"]
    if re.search(r"[\x80-\xff]", rest):
        return ["outside comments and texts the bytes are ASCII: quotes and dashes of a word processor aren't"]
    if content.rstrip().endswith("&") and not goes_on(source, trouble.line, is_directive):
        return ["the line ends with &, and no line follows that goes on with it"]
    return no_token(rest)


def no_token(rest):
    """What is wrong with code, without its comments and with empty texts, of which a piece is no token."""
    if re.search(r"\d\.(?![A-Za-z]+\.)|\.\d", rest):
        return [NO_REALS]
    if re.search(r"\d_[A-Za-z0-9]", rest):
        return ["there is one kind of INTEGER: a number has no kind after _"]
    if re.search(r"\)\s*\[", rest):
        return ["co-arrays are left out: directives say which nodes own each element"]
    if re.search(r"\w\[", rest):
        return ["subscripts stand in parentheses: A(I)"]
    if re.search(r"\[", rest):
        return [CONSTRUCTOR]
    if "&&" in rest or "||" in rest:
        return ["logical operators are .AND., .OR. and .NOT."]
    if re.search(r"[\w)] *\^", rest):
        return ["a power is written A**B"]
    if "%" in rest:
        return ["derived types are left out: hold each component in an array of its own"]
    if "?" in rest or "{" in rest or "\\" in rest:
        return ["a byte of the line begins no token of Fortran"]
    unknown = re.search(r"\.[A-Za-z]*\.?|[#$@^~`_]", rest)
    return [f"{unknown[0]} is no token"] if unknown else []


def names_wanted(statement):
    """The words of a statement that stand where a name must."""
    tokens = statement.tokens
    if statement.first == "PROGRAM":
        return tokens[1:2]
    if statement.first == "INTEGER":
        return [entity.name for entity in entities(statement)]
    if statement.first in ("DO", "FORALL"):
        return [item[0] for item in parts(tokens[1:] if statement.first == "DO" else tokens[2:closing(tokens, 1)]) if item[1:2] == ["="]]
    sides = statement.assignment()
    return sides[0][:1] if sides else []


def condition(tokens):
    """What stands in the parentheses after IF."""
    at = tokens.index("IF") if "IF" in tokens else 0
    return tokens[at + 2:closing(tokens, at + 1)] if tokens[at + 1:at + 2] == ["("] else None


def chains(tokens):
    """Whether two relations stand beside each other with no logical operator between."""
    depth, last = 0, {}
    for token in tokens:
        depth += {"(": 1, ")": -1}.get(token, 0)
        if token in RELATIONS:
            if last.get(depth):
                return True
            last[depth] = True
        elif token in LOGICAL or token in ("(", ")", ","):
            last.pop(depth + (token == ")"), None)
    return False


def not_a_statement(trouble, statement):
    tokens, bare, first = statement.tokens, statement.bare, statement.first
    after = trouble.source.lines[trouble.line:trouble.line + 1]
    if not trouble.fixed and (
            re.match(r"[Cc*]( |$|\W)", trouble.raw) and not statement.assignment() or after and re.match(r"     [1-9&+$]", after[0])):
        return [looks_fixed(trouble)]
    if "!=" in trouble.raw or "FUNCTION" in tokens:
        better = further(trouble, statement)
        if better:
            return [better]
    if first == "INTEGER":
        if re.match(r"INTEGER (\*|\()", bare):
            return [ONE_KIND]
        before = tokens[:tokens.index("::")] if "::" in tokens else []
        attribute = next((word for word in before if word in LEFT_OUT and word != "DIMENSION"), None)
        if attribute:
            return [f"INTEGER has the attributes PARAMETER and DIMENSION, and not {attribute}"]
    if "( /" in bare:
        return [CONSTRUCTOR]
    if first == "IF" and tokens[1:2] == ["("] and tokens[closing(tokens, 1) + 1:][:1] == ["THEN"] and tokens[-1] != "THEN":
        return ["THEN ends its line: leave it out, or write the action in the next line and END IF after it"]
    if "<>" in statement.text:
        return ["unequal is /="]
    taken = [word for word in names_wanted(statement) if word in RESERVED]
    if taken:
        return [f"{listed(taken)} can't be {'a name' if len(taken) == 1 else 'names'} in this language: choose another"]
    if first == "INTEGER":
        if any(bound in ([":"], ["*"]) for entity in entities(statement) for bound in entity.bounds or []):
            return ["an array has constant bounds: give them by a constant, as in A(N) after INTEGER, PARAMETER :: N = 8"]
        if "::" not in tokens and tokens[1:2] == [","]:
            return ["after attributes :: stands before the names"]
        if "::" not in tokens and "=" in tokens:
            return ["an initial value wants :: after INTEGER: INTEGER :: X = 1"]
        if "PARAMETER" in tokens and any(entity.start is None for entity in entities(statement)):
            return ["a named constant has its value there: INTEGER, PARAMETER :: N = 8"]
    if first == "PRINT":
        if tokens[1:2] != ["*"]:
            return ["there are no formats: write PRINT *, and the items"]
        if tokens[2:3] not in ([], [","]):
            return ["a comma stands after PRINT *"]
        if re.search(r"\( .*, (?!DIM |MASK )\w+ = .* , ", bare):
            return ["there is no DO inside PRINT: print a section, as A(1:3)"]
    if first == "STOP":
        return ["STOP has no code: print it before"]
    if first in ("EXIT", "CYCLE") or re.match(r"END ?(DO|IF|WHERE|FORALL) \w", bare):
        return [NO_NAMES]
    if re.match(r"END (SUBROUTINE|FUNCTION|MODULE|INTERFACE)", bare):
        return [NO_PROCEDURES]
    if re.match(r"ELSE ?WHERE \(", bare):
        return ["ELSEWHERE has no mask: write a second WHERE"]
    if first == "IMPLICIT":
        return ["there is IMPLICIT NONE alone: each name is declared"]
    if first in ("IF", "ELSE", "ELSEIF") and "IF" in (first, *tokens[1:2], first[4:]):
        inside = condition(["IF"] + tokens[1 + (first == "ELSE"):])
        if inside is None:
            return ["a condition stands in parentheses: IF (X > 1) THEN"]
        if "=" in inside:
            return ["a condition compares with ==, and = assigns"]
        if first != "IF" and tokens[-1] != "THEN":
            return ["ELSE IF (..) ends with THEN"]
        if first == "IF" and tokens[closing(tokens, 1) + 1:][:1] in (["IF"], ["DO"]):
            return ["an IF in one line has an action after it, no further IF and no DO: write IF (..) THEN and END IF"]
        if first == "IF" and closing(tokens, 1) >= len(tokens) - 1:
            return ["IF (..) has THEN or an action after it"]
    if first == "DO" and tokens[1:2] == ["CONCURRENT"]:
        return ["DO CONCURRENT is of a later Fortran: write FORALL, or DO after !HPF$ INDEPENDENT"]
    if first == "DO":
        return ["a DO has its index, first, last and step like this: DO I = 1, 9, 2"]
    if first == "FORALL" and tokens[1:2] == ["("] and any(":" not in item for _, item in statement.header()):
        return ["an index of a FORALL has a colon between first and last: FORALL (I=1:9)"]
    if re.search(r"[(,] (DIM|MASK) = ", bare):
        return ["reductions have one argument: DIM= and MASK= are left out"]
    if re.search(r"[(,] (\w+) = ", bare) and "FORALL" not in tokens and first != "PARAMETER":
        return ["arguments have no names: give them in order"]
    if "/ /" in bare and "PRINT" in tokens:
        return ["texts aren't joined by //: give PRINT both, with a comma between"]
    if "= >" in bare:
        return ["pointers are left out"]
    if re.search(r"\w (\+|-|\*) = |^(\+ \+|- -) | (\+ \+|- -)$", bare):
        return ["Fortran has no ++ or +=: write X = X + 1"]
    if re.search(r"(\*|/|\*\*|\+|-) (\+|-) ", bare):
        return ["a sign after an operator stands in parentheses: A*(-B)"]
    if ".NOT. .NOT." in bare:
        return [".NOT. stands once before its operand"]
    if chains(tokens):
        return ["relations don't chain: write A < B .AND. B < C"]
    better = further(trouble, statement)
    if better:
        return [better]
    depth = tokens.count("(") - tokens.count(")")
    if depth:
        return ["a parenthesis isn't closed" if depth > 0 else "a parenthesis too many is closed"]
    if first == "ENDPROGRAM":
        return ["END PROGRAM is written in two words"]
    meant = nearest(first, KEYWORDS) if first not in KEYWORDS else None
    if meant and not statement.assignment():
        return [f"{first} is no word of this language: is {meant} meant?"]
    return []


def bad_nest(trouble):
    source, line = trouble.source, trouble.line
    end, before = source.end(), source.open_before(trouble.line)
    opened = before[-1] if before else None
    here = source.at(line)
    if end is None and line >= len(source.lines) and not any(s.closes() and s.closes() != (opened and opened.construct()) for s in here):
        still = source.open_before(len(source.lines) + 1)
        return ["the text has no END" + (f", and the {still[-1].construct()} of line {still[-1].line} isn't closed" if still else "")]
    if end and line > end.line:
        return [f"the program ends with the END of line {end.line}, and nothing stands after it" +
                (": procedures are left out" if any(s.first in ("SUBROUTINE", "FUNCTION", "CONTAINS") for s in here) else "")]
    for statement in here:
        closes = statement.closes()
        if closes == "PROGRAM" and opened:
            return [f"the {opened.construct()} of line {opened.line} isn't closed: it wants END {opened.construct()}"]
        if closes and closes != "PROGRAM":
            return [f"END {closes} closes nothing here" if not opened else
                    f"END {closes} stands where the {opened.construct()} of line {opened.line} is open"]
        if statement.first.startswith("ELSE") and opened and opened.construct() == ("WHERE" if "WHERE" in statement.bare[:11] else "IF"):
            return [f"the {opened.construct()} of line {opened.line} has its ELSE part already"]
        if statement.first.startswith("ELSE"):
            return [f"{statement.first} stands where {'no construct' if not opened else f'the {opened.construct()} of line {opened.line}'} is open"]
        if any(s.construct() in ("WHERE", "FORALL") for s in before):
            inner = next(s for s in reversed(before) if s.construct() in ("WHERE", "FORALL"))
            return [f"inside the {inner.construct()} of line {inner.line} only assignments stand"]
        if statement.first == "PROGRAM":
            return ["PROGRAM is the first statement of a text, and stands once"]
        first = source.first_statement()
        if statement.is_declaration() and first and first.line < line:
            return [f"declarations stand before the first statement, which is that of line {first.line}"]
        if statement.first in ("EXIT", "CYCLE") or any(word in statement.tokens for word in ("EXIT", "CYCLE")):
            return [f"{'EXIT' if 'EXIT' in statement.tokens else 'CYCLE'} stands inside a DO alone"]
    return []


def limit(trouble):
    source, line = trouble.source, trouble.line
    if line == 20001:
        return ["a text has 20,000 lines at most"]
    hints = []
    for statement in trouble.statements:
        for token in statement.tokens:
            if token.isdigit() and int(token) > 9223372036854775807:
                hints.append(f"{token} is beyond 9223372036854775807, the greatest integer")
            elif NAME.match(token) and len(token) > 31:
                hints.append(f"{token} has {len(token)} bytes, and 31 are the most")
        for entity in entities(statement):
            size = 1
            for pair in source.values_of(entity):
                size *= 0 if None in pair else max(0, pair[1] - pair[0] + 1)
            if entity.bounds and len(entity.bounds) > 7:
                hints.append(f"{entity.name} has {len(entity.bounds)} dimensions, and 7 are the most")
            elif entity.kind == "array" and size > 1048576:
                hints.append(f"{source.declared(entity)} has {size} elements, and 1048576 are the most")
        deepest = depth = 0
        for token in statement.tokens:
            depth += {"(": 1, ")": -1}.get(token, 0)
            deepest = max(deepest, depth)
        if not hints and deepest > 100:
            hints.append("an expression is at most 200 deep: take a part of it into a scalar before")
        if not hints and statement.construct() and len(source.open_before(line)) >= 64:
            hints.append("64 constructs stand inside one another at most")
    if not hints and not trouble.fixed and sum(without_comment(each)[0].rstrip().endswith("&") for each in source.lines[max(0, line - 40):line]) >= 39:
        hints.append("39 lines at most continue a line: write shorter statements")
    return hints


def left_out(trouble, statement):
    tokens, first = statement.tokens, statement.first
    if "PROCESSORS_SHAPE" in tokens:
        return ["in directives NUMBER_OF_PROCESSORS(d) is the extent of the grid in dimension d"]
    if first == "REALIGN":
        return ["align with a template, and redistribute that: what is aligned with it moves with it"]
    if statement.directive or first == "DO" and tokens[2:3] == ["="]:
        return []
    if re.match(r"     [1-9]", trouble.raw) and not trouble.fixed:
        return [looks_fixed(trouble)]
    if first.isdigit():
        return [NO_LABELS]
    if first == "DO":
        return ["DO WHILE is left out: write DO I = 1, N with IF (..) EXIT" if tokens[1:2] == ["WHILE"] else
                "a loop ends with END DO and has no label" if tokens[1:2] and tokens[1].isdigit() else
                "a DO has an index and bounds: write DO I = 1, N with IF (..) EXIT"]
    if first in LEFT_OUT and (tokens[1:2] == ["="] or tokens[1:2] == ["("] and tokens[closing(tokens, 1) + 1:][:1] == ["="]):
        return [f"{first} can't be a name in this language: choose another"]
    if tokens[1:3] == [":", "="]:
        return ["an assignment is written with = alone"]
    if tokens[1:2] == [":"]:
        return [NO_NAMES]
    if first == "INTEGER":
        return ["a named constant is a scalar: leave PARAMETER out of the declaration of the array"]
    opened = [s for s in trouble.source.open_before(trouble.line) if s.construct() in ("WHERE", "FORALL")]
    if first in ("WHERE", "FORALL") and opened:
        return [f"{first} can't stand inside the {opened[-1].construct()} of line {opened[-1].line}: " +
                ("write one header with all indices" if first == opened[-1].construct() == "FORALL" else "write them one after the other")]
    return [INSTEAD[first]] if first in INSTEAD else []
