"""What is said of an answer of the program."""
import re

from explaining.words import FAULTS, FIXED_SECTIONS, REASONS
from explaining.text import Source
from explaining.common import nodes_in
from explaining.program import is_fixed
from explaining.statements import bad_line, bad_nest, left_out, limit, not_a_statement
from explaining.fixed import apart, bad_fixed_line, fixed_limit, unread
from explaining.names import bad_constant, bad_name, bad_rank
from explaining.mappings import bad_arrangement, bad_directive
from explaining.bodies import bad_independent, bad_subscript
from explaining.faults import FAULT_HINTS


class Trouble:
    """A refusal or a fault, with all that a hint may look at."""

    def __init__(self, source, answer, words, questions):
        self.source, self.answer, self.words, self.questions = source, answer, words, questions
        self.line, self.fixed = answer.line, source.fixed
        self.statements = source.at(self.line)
        line = source.lines[self.line - 1] if self.line <= len(source.lines) else ""
        self.raw = line[:72] if self.fixed else line

    def hints(self):
        if self.answer.fault:
            return FAULT_HINTS[self.answer.fault](self)
        found = (unread(self) or apart(self)) if self.fixed and self.answer.reason in (2, 4, 6) else []
        return found or self.hints_by_reason()

    def hints_by_reason(self):
        whole = (WHOLE_FIXED_LINE if self.fixed else WHOLE_LINE).get(self.answer.reason, lambda trouble: [])(self)
        if whole:
            return list(whole)
        for statement in self.statements:
            found = list(BY_STATEMENT.get(self.answer.reason, lambda trouble, statement: [])(self, statement))
            if found:
                return found
        return []


WHOLE_LINE = {1: bad_line, 3: bad_nest, 10: limit}
WHOLE_FIXED_LINE = {1: bad_fixed_line, 3: bad_nest, 10: fixed_limit}
BY_STATEMENT = {2: not_a_statement, 4: bad_name, 5: bad_rank, 6: bad_directive, 7: bad_subscript, 8: bad_independent, 9: bad_arrangement,
                11: left_out, 12: bad_constant}


MOST_SHOWN = 160  # characters of a line


def shown(line):
    """A line of the text for a terminal."""
    text = line.encode("latin-1").decode("utf-8", "backslashreplace")
    text = re.sub(r"[\x00-\x08\x0b-\x1f\x7f-\x9f]", lambda found: f"\\x{ord(found[0]):02x}", text)
    return text if len(text) <= MOST_SHOWN else text[:MOST_SHOWN] + " .."


def usage_hints(words):
    """After words that are no job: what may be meant."""
    files = [word for word in words if re.search(r"\w\.\w+\Z", word)]
    grid = next((word.partition("=")[2] or (words + [""])[at + 1] for at, word in enumerate(words) if word.startswith("--grid")), "1")
    if files:
        return [f"the text is standard input: write < {files[0]}"]
    if "bulk" in words and is_fixed(words):
        return ["bulk reads no text, so --fixed doesn't go with it"]
    if any(word.startswith("--fixed=") for word in words):
        return ["--fixed has no value"]
    if not re.fullmatch(r"\d\d?(x\d\d?){0,6}", grid) or not 1 <= nodes_in(grid) <= 64:
        return ["a grid is 1 to 7 numbers joined by x, as 2x4, with a product of 64 at most"]
    return []


def explanation(source, trouble, form, name):
    """The lines after the program's own one."""
    answer = trouble.answer
    if answer.reason:
        kind, meaning, sections = REASONS[answer.reason]
        sections = FIXED_SECTIONS.get(answer.reason, sections) if source.fixed else sections
        title = f"refused {answer.reason} {kind}"
    else:
        meaning, sections = FAULTS[answer.fault]
        title = f"fault {answer.fault}{answer.place}"
    pages = " and ".join(f'"{section}"' for section in sections)
    hints = trouble.hints()
    if form == "gnu":
        return [f"{name}:{answer.line}: error: {title}: {meaning}"] + [f"{name}:{answer.line}: note: {hint}" for hint in hints]
    lines, first, last = [], answer.line, min(source.logical_end(answer.line), answer.line + 5)
    for number in range(max(1, first - 1), min(len(source.lines), last + 1) + 1):
        lines.append(f"{number:5} {'>' if first <= number <= last else ' '} {shown(source.lines[number - 1])}".rstrip())
    return lines + [f"  {meaning} (docs/LANGUAGE.md, {pages})"] + [f"  hint: {hint}" for hint in hints]


def explained(answer, text, words, questions, form, name):
    """The lines that come after the program's, whatever the answer."""
    if answer.line and (answer.reason in REASONS or answer.fault in FAULTS):
        source = Source(text, is_fixed(words))
        return explanation(source, Trouble(source, answer, words, questions), form, name)
    if answer.status == 2 and form != "gnu":
        return [f"  hint: {hint}" for hint in usage_hints(words)]
    return []
