"""Hints of texts in fixed form: of the reason 1 BadLine, of lines that continue one, and of what isn't read as it is written."""
import re

from explaining.words import DIRECTIVES, PASSED, RESERVED, WORDS_INSIDE
from explaining.text import FixedLine, without_comment
from explaining.statements import NO_LABELS, is_accepted_otherwise, limit, no_token

OF_STATEMENTS = RESERVED.union(DIRECTIVES, PASSED, WORDS_INSIDE, ["GEN_BLOCK"])
LOOKS_FREE = "this looks like free form: without --fixed the text is accepted"


def goes_past(line):
    """Whether what stands on a line from column 73 on looks like a part of its statement, and not like a number of the line."""
    rest = without_comment(line[6:])[0][66:]
    return bool(rest.strip(" \t")) and (" " not in line[71:73] or re.search(r"[^\w \t]", rest) is not None)


def lines_of(trouble):
    """The lines that the statement at the refused line takes, each with its number; the passed ones apart."""
    source = trouble.source
    found = [(number, source.lines[number - 1]) for number in range(trouble.line, min(source.logical_end(trouble.line), len(source.lines)) + 1)]
    return [(number, line) for number, line in found if not FixedLine(line).passed]


def unread(trouble):
    """The hint of a line that goes past column 72."""
    return [f"line {number} goes past column 72, and what stands from column 73 on isn't read: go on in the next line, with a mark in column 6"
            for number, line in lines_of(trouble) if goes_past(line)][:1]


def apart(trouble):
    """The hint of two words or numbers that stand for one where blanks don't count."""
    before = None
    for _, line in lines_of(trouble):
        code = without_comment(FixedLine(line).content)[0].strip(" \t")
        first, last = re.match(r"\w*", code)[0], re.search(r"\w*\Z", code)[0]
        if FixedLine(line).mark and before and first and not {before.upper(), first.upper()} & OF_STATEMENTS:
            return [f"a token ends on its line, and blanks part tokens: {before} and {first} are two"]
        before = last
    for statement in trouble.statements:
        found = re.search(r"(?<!\w)\d+(?: +\d+)+", re.sub(r"""'[^']*'|"[^"]*\"""", "''", statement.text))
        if found and not statement.first.isdigit():
            return [f"blanks part tokens: {found[0]} isn't one number"]
    return []


def before(trouble):
    """The lines before the refused one, the nearest first."""
    return [FixedLine(line) for line in reversed(trouble.source.lines[:trouble.line - 1])]


def wrong_mark(trouble, line):
    """The hint of a mark in column 6, or None where there is something that the line continues."""
    earlier = before(trouble)
    standing = next((each for each in earlier if not each.passed), None)
    if standing and standing.directive == line.directive and not (line.directive and earlier[0].passed):
        return None
    if not line.directive and standing:
        return "a directive line stands between this line and the statement that it continues: put it in front of the statement"
    if not line.directive:
        return f"{line.mark} in column 6 says that the line continues a statement, and none stands before it: a statement begins in column 7"
    if standing and standing.directive:
        return "a line that continues a directive stands directly behind it: no comment and no blank line stands between"
    return f"{line.mark} in column 6 says that the line continues a directive, and none stands directly before it: column 6 is blank where a directive begins"


def wrong_margin(trouble, whole, line):
    """The hint of what stands in columns 1 to 6, or None."""
    margin = "" if line.directive else whole[:5]
    if "\t" in margin + whole[5:6]:
        return "a tab stands in columns 1 to 6: write blanks in its place"
    if margin.strip(" ") and re.fullmatch(r"[ \d]*", margin):
        return NO_LABELS
    if margin.startswith("#"):
        return "no preprocessor is run: a line that begins with # is none of this language"
    if margin.strip(" "):
        return LOOKS_FREE if is_accepted_otherwise(trouble) else "a statement stands in columns 7 to 72, and columns 1 to 5 before it are blank"
    if re.match(r"[\x00-\x1f\x7f-\xff]", line.mark):
        return "a control byte, or one that isn't ASCII, stands in column 6"
    return wrong_mark(trouble, line) if line.mark else None


def bad_fixed_line(trouble):
    whole = trouble.source.lines[trouble.line - 1] if trouble.line <= len(trouble.source.lines) else ""
    line = FixedLine(whole)
    if len(whole) > 132:
        return [f"the line has {len(whole)} bytes, and 132 are the most, though those from column 73 on aren't read"]
    margin = None if line.passed else wrong_margin(trouble, whole, line)
    if margin:
        return [margin]
    code, is_open = without_comment(line.content)
    bare = re.sub(r"""'[^']*'|"[^"]*\"""", "''", code)
    if is_open and goes_past(whole):
        return ["a text constant goes past column 72, and what stands from column 73 on isn't read"]
    if is_open:
        return ["a text constant isn't closed on its line, and goes over no two lines; inside ' a ' is written twice"]
    if line.directive and ";" in bare:
        return ["a directive has its line for itself, without ;"]
    if "&" in bare:
        return [LOOKS_FREE if is_accepted_otherwise(trouble) else "in fixed form & continues nothing: the line that goes on has a mark in column 6"]
    if re.search(r"[\x00-\x08\x0b-\x1f\x7f]", code):
        return ["a control byte stands in the line"]
    codes = [without_comment(FixedLine(one).content)[0] for _, one in lines_of(trouble)]
    rest = "".join(re.sub(r"""'[^']*'|"[^"]*\"""", "''", one) + "\n" for one in codes)
    if re.search(r"[\x80-\xff]", rest):
        return ["outside comments and texts the bytes are ASCII: quotes and dashes of a word processor aren't"]
    return unread(trouble) or no_token(rest)


def fixed_limit(trouble):
    hints = limit(trouble)
    if not hints and FixedLine(trouble.raw).mark:
        return ["19 lines at most continue a line in fixed form: write shorter statements"]
    return hints
