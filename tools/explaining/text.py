"""A text by its lines, its statements and its declarations, as far as hints need it: what breaks the rules is read, too."""
import re

from explaining.words import RESERVED

TOKEN = re.compile(r"""'(?:[^']|'')*'|"(?:[^"]|"")*"|\.[A-Za-z]+\.|[A-Za-z][A-Za-z0-9_]*|[0-9]+|\*\*|::|==|/=|<=|>=|\S""")
NAME = re.compile(r"[A-Z][A-Z0-9_]*\Z")
RELATIONS = {"==", "/=", "<", "<=", ">", ">=", ".EQ.", ".NE.", ".LT.", ".LE.", ".GT.", ".GE."}
LOGICAL = {".AND.", ".OR.", ".NOT.", ".EQV.", ".NEQV.", ".TRUE.", ".FALSE."}


def without_comment(line):
    """A line up to its comment, and whether a text constant is open at its end."""
    quote = None
    for at, char in enumerate(line):
        if quote:
            quote = None if char == quote else quote
        elif char in "'\"":
            quote = char
        elif char == "!":
            return line[:at], False
    return line, quote is not None


def is_hpf(line):
    return bool(re.match(r"[ \t]*!HPF\$", line, re.I))


class FixedLine:
    """A line of fixed form: whether it is passed over or is a directive line, its mark of continuation or nothing, and what stands in columns 7 to 72."""

    def __init__(self, line):
        read = line[:72]
        begin = len(read) - len(read.lstrip(" \t"))
        self.directive = bool(re.match(r"[!C*]HPF\$", line, re.I))
        self.passed = not self.directive and (begin == len(read) or line[0] in "Cc*" or (line[begin] == "!" and begin != 5))
        self.mark = "" if self.passed else line[5:6].strip(" \t0")
        self.content = "" if self.passed else read[6:]


def is_name(token):
    return bool(NAME.match(token)) and token not in RESERVED


def closing(tokens, at):
    """Where the parenthesis at a place is closed, or the number of tokens."""
    depth = 0
    for place in range(at, len(tokens)):
        depth += {"(": 1, ")": -1}.get(tokens[place], 0)
        if depth == 0:
            return place
    return len(tokens)


def outside(tokens):
    """The tokens that stand in no parentheses, with their places."""
    depth = 0
    for at, token in enumerate(tokens):
        depth -= token == ")"
        if depth == 0 and token != ")":
            yield at, token
        depth += token == "("


def parts(tokens):
    """A list at its commas."""
    found, start = [], 0
    for at, token in outside(tokens):
        if token == ",":
            found.append(tokens[start:at])
            start = at + 1
    return found + [tokens[start:]]


def spelled(tokens):
    """Tokens as a text."""
    text = ""
    for before, token in zip([""] + tokens, tokens):
        text += " " if re.match(r"[A-Z0-9]", token) and re.match(r"[A-Z0-9.]", before[-1:] or "(") else ""
        text += token
    return text


class Unknown(Exception):
    """A value that the text alone doesn't tell."""


def value(tokens, known):
    """The value of an expression in integers and the names that are known."""
    tokens, at = list(tokens) + [""], 0

    def primary():
        nonlocal at
        token, at = tokens[at], at + 1
        if token.isdigit():
            return int(token)
        if token in known and tokens[at] != "(":
            return known[token]
        if token != "(":
            raise Unknown
        inner = whole()
        if tokens[at] != ")":
            raise Unknown
        at += 1
        return inner

    def power():
        nonlocal at
        base = primary()
        if tokens[at] != "**":
            return base
        at += 1
        exponent = power()
        if not 0 <= exponent <= 64:
            raise Unknown
        return base ** exponent

    def term():
        nonlocal at
        result = power()
        while tokens[at] in ("*", "/"):
            operator, at = tokens[at], at + 1
            right = power()
            if operator == "/" and right == 0:
                raise Unknown
            result = result * right if operator == "*" else abs(result) // abs(right) * (1 if result * right >= 0 else -1)
        return result

    def whole():
        nonlocal at
        sign = tokens[at] if tokens[at] in ("+", "-") else "+"
        at += tokens[at] in ("+", "-")
        result = term() if sign == "+" else -term()
        while tokens[at] in ("+", "-"):
            operator, at = tokens[at], at + 1
            right = term()
            result = result + right if operator == "+" else result - right
        return result

    result = whole()
    if tokens[at] != "":
        raise Unknown
    return result


def value_or_none(tokens, known):
    try:
        return value(tokens, known)
    except Unknown:
        return None


class Statement:
    """A statement or a directive with the lines that it takes, its tokens in upper case, and its text."""

    def __init__(self, line, last, directive, text):
        self.line, self.last, self.directive, self.text = line, last, directive, text.strip()
        self.tokens = [token if token[0] in "'\"" else token.upper() for token in TOKEN.findall(text)]
        self.first = self.tokens[0] if self.tokens else ""
        # the same with empty texts, and blanks only where they part words
        self.bare = " ".join("''" if token[0] in "'\"" else token for token in self.tokens)

    def construct(self):
        """IF, DO, WHERE or FORALL where it opens that construct."""
        if self.directive:
            return None
        if self.first == "IF":
            return "IF" if self.tokens[-1] == "THEN" else None
        if self.first in ("WHERE", "FORALL"):
            return self.first if self.tokens[1:2] == ["("] and closing(self.tokens, 1) >= len(self.tokens) - 1 else None
        return "DO" if self.first == "DO" else None

    def closes(self):
        """The construct that it closes, or PROGRAM."""
        if self.directive or not self.first.startswith("END"):
            return None
        words = (self.first[3:] or " ".join(self.tokens[1:2]) or "PROGRAM")
        return words if words in ("IF", "DO", "WHERE", "FORALL", "PROGRAM") else None

    def is_declaration(self):
        return self.directive or self.first in ("INTEGER", "PARAMETER", "IMPLICIT", "PROGRAM")

    def header(self):
        """The indices of a FORALL with their triplets, or of a DO with what stands after its equals sign."""
        tokens = self.tokens[closing(self.tokens, 1) + 1:] if self.first == "IF" and self.tokens[1:2] == ["("] else self.tokens
        if tokens[:2] == ["FORALL", "("]:
            items = parts(tokens[2:closing(tokens, 1)])
            return [(item[0], item[2:]) for item in items if len(item) > 2 and item[1] == "=" and is_name(item[0])]
        if self.first == "DO" and self.tokens[2:3] == ["="]:
            return [(self.tokens[1], self.tokens[3:])]
        return []

    def assignment(self):
        """The left and the right side of the assignment that it is or has, or None."""
        tokens = self.tokens
        while tokens[0:1] and tokens[0] in ("IF", "WHERE", "FORALL") and tokens[1:2] == ["("]:
            tokens = tokens[closing(tokens, 1) + 1:]
        for at, token in outside(tokens):
            if token == "=":
                return (tokens[:at], tokens[at + 1:]) if at and NAME.match(tokens[0]) and tokens[0] not in ("DO", "INTEGER", "PARAMETER") else None
        return None


def parted(line, last, directive, text):
    """The statements of a logical line, or its directive."""
    pieces = [text] if directive else re.findall(r"""(?:'(?:[^']|'')*'|"(?:[^"]|"")*"|[^;])+""", text)
    for piece in pieces:
        statement = Statement(line, last, directive, piece)
        if statement.tokens or directive:
            yield statement


class Entity:
    """What a declaration makes: a scalar, a constant, an array, a template or an arrangement."""

    def __init__(self, kind, name, line, bounds, start):
        self.kind, self.name, self.line, self.bounds, self.start = kind, name, line, bounds, start

    def what(self):
        return {"scalar": "a scalar variable", "constant": "a named constant", "array": "an array", "TEMPLATE": "a template",
                "PROCESSORS": "an arrangement"}[self.kind]


class Source:
    """A text by its lines, its statements and its declarations."""

    def __init__(self, data, fixed=False):
        self.fixed = fixed
        self.lines = data.decode("latin-1").split("\n")
        if self.lines[-1] == "":
            self.lines.pop()
        self.lines = [line[:-1] if line.endswith("\r") else line for line in self.lines]
        self.statements = list(self.read_fixed() if fixed else self.read())
        self.names = {}
        self.twice = []
        for statement in self.statements:
            for entity in entities(statement):
                if entity.name in self.names:
                    self.twice.append((entity, self.names[entity.name]))
                else:
                    self.names[entity.name] = entity
            if statement.first == "PARAMETER" and not statement.directive:
                for item in parts(statement.tokens[2:-1]):
                    if item[0:1] and item[0] in self.names and item[1:2] == ["="]:
                        self.names[item[0]].kind, self.names[item[0]].start = "constant", item[2:]
        self.constants = {}
        for entity in self.names.values():
            if entity.kind == "constant" and entity.start is not None:
                number = value_or_none(entity.start, self.constants)
                if number is not None:
                    self.constants[entity.name] = number

    def read(self):
        """The logical lines, each at its semicolons."""
        at = 0
        while at < len(self.lines):
            start, directive = at, is_hpf(self.lines[at])
            text = ""
            while True:
                line = re.sub(r"^[ \t]*!HPF\$", "", self.lines[at], flags=re.I) if directive else self.lines[at]
                line = without_comment(line)[0].strip(" \t")
                at += 1
                continues = line.endswith("&")
                text += " " + re.sub("^&|&$" if text else "&$", "", line)
                if not (continues or (text.strip() and start + 1 < at and not line)) or at == len(self.lines):
                    break
            yield from parted(start + 1, at, directive, text)

    def read_fixed(self):
        """The logical lines of fixed form, each at its semicolons. A line that continues nothing stands alone."""
        groups, passed = [], False
        for number, line in enumerate(map(FixedLine, self.lines), 1):
            if line.passed:
                passed = True
                continue
            code = without_comment(line.content)[0]
            if line.mark and groups and groups[-1][2] == line.directive and not (passed and line.directive):
                groups[-1][1] = number
                groups[-1][3].append(code)
            else:
                groups.append([number, number, line.directive, [code]])
            passed = False
        for first, last, directive, codes in groups:
            yield from parted(first, last, directive, " ".join(codes))

    def at(self, line):
        return [statement for statement in self.statements if statement.line == line]

    def first_statement(self):
        """The first statement that is no declaration and no END."""
        return next((s for s in self.statements if not s.is_declaration() and s.closes() != "PROGRAM"), None)

    def end(self):
        return next((s for s in self.statements if s.closes() == "PROGRAM"), None)

    def open_before(self, line):
        """The constructs that are open before a line, the innermost last."""
        stack = []
        for statement in self.statements:
            if statement.line >= line:
                break
            if statement.construct():
                stack.append(statement)
            elif statement.closes() and stack and stack[-1].construct() == statement.closes():
                stack.pop()
        return stack

    def logical_end(self, line):
        return max([line] + [statement.last for statement in self.at(line)])

    def values_of(self, entity):
        """The bounds of its dimensions as pairs of numbers, where the text tells them."""
        pairs = []
        for bound in entity.bounds or []:
            colon = [at for at, token in outside(bound) if token == ":"]
            lower = value_or_none(bound[:colon[0]], self.constants) if colon else 1
            upper = value_or_none(bound[colon[0] + 1:] if colon else bound, self.constants)
            pairs.append((lower, upper))
        return pairs

    def declared(self, entity):
        return f"{entity.name}({','.join(spelled(bound) for bound in entity.bounds)})" if entity.bounds else entity.name


def entities(statement):
    """What a statement or a directive declares."""
    tokens = statement.tokens
    if statement.directive:
        if statement.first not in ("TEMPLATE", "PROCESSORS"):
            return
        kind, items, common, constant = statement.first, tokens[2 if tokens[1:2] == ["::"] else 1:], None, False
    elif statement.first == "INTEGER":
        colons = next((at for at, token in outside(tokens) if token == "::"), None)
        if colons is None and tokens[1:2] == [","]:
            return
        before = tokens[1:colons] if colons else []
        common = next((parts(item[2:-1]) for item in parts(before) if item[:2] == ["DIMENSION", "("]), None)
        kind, items, constant = "INTEGER", tokens[colons + 1 if colons else 1:], ["PARAMETER"] in parts(before)
    else:
        return
    for item in parts(items):
        if not item or not NAME.match(item[0]):
            continue
        end = closing(item, 1) if item[1:2] == ["("] else 0
        bounds = parts(item[2:end]) if end else common
        start = item[item.index("=") + 1:] if "=" in item else None
        made = kind if kind != "INTEGER" else "constant" if constant else "array" if bounds else "scalar"
        yield Entity(made, item[0], statement.line, bounds, start)


def references(tokens):
    """The names of some tokens that aren't reserved, each with its subscripts or None."""
    for at, token in enumerate(tokens):
        if is_name(token):
            yield token, parts(tokens[at + 2:closing(tokens, at + 1)]) if tokens[at + 1:at + 2] == ["("] else None


def objects(statement):
    """What DISTRIBUTE, REDISTRIBUTE, ALIGN or DYNAMIC is about."""
    tokens = statement.tokens
    colons = [at for at, token in outside(tokens) if token == "::"]
    if colons:
        return [item[0] for item in parts(tokens[colons[-1] + 1:]) if item]
    if statement.first == "DYNAMIC":
        return [item[0] for item in parts(tokens[1:]) if item]
    return tokens[1:2]


def formats(statement):
    at = next((at for at, token in enumerate(statement.tokens) if token == "("), None)
    return parts(statement.tokens[at + 1:closing(statement.tokens, at)]) if at in (1, 2) else None
