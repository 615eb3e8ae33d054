"""The cases of tools/explain-cases, and answers that must be passed on unchanged."""
import os
import re
import subprocess
import sys
import tempfile

from explaining.words import FAULTS, FIXED_SECTIONS, REASONS, RESERVED
from explaining.program import Answer, Questions, own_words
from explaining.explanations import explained
from under_test import TOP


class Case:
    """A case of the table: the lines that stand under its title, by their first word."""

    def __init__(self, title):
        self.title, self.words, self.text, self.prints, self.answer = title, None, "", "", None
        self.unless, self.asks, self.hints, self.says, self.slow = [], {}, [], [], False

    def add(self, line):
        key, _, rest = line.partition(" ")
        if key == "words":
            self.words = rest.split()
        elif key in ("text", "prints"):
            rest = re.sub(r"\\x(..)", lambda found: chr(int(found[1], 16)), rest)
            setattr(self, key, re.sub(r"\{(\d+)\*([^}]*)\}", lambda found: found[2] * int(found[1]), rest).replace("|", "\n"))
        elif key in ("answer", "unless"):
            status, _, said = rest.partition(" ")
            answer = (int(status), said)
            self.answer = answer if key == "answer" else self.answer
            self.unless += [answer] if key == "unless" else []
        elif key == "ask":
            change, _, said = rest.partition(": ")
            self.asks[change] = said
        elif line == "slow":
            self.slow = True
        elif key in ("hint", "says"):
            (self.hints if key == "hint" else self.says).append(rest)
        else:
            raise ValueError(f"{self.title}: this is no line of a case: {line}")

    def is_whole(self):
        return self.words is not None and self.answer is not None and bool(self.hints) != bool(self.says)

    def stub(self):
        status, said = self.answer
        return Answer(status, self.prints.encode(), (said + "\n").encode() if said else b"")


def read_cases():
    cases, title = [], ""
    with open(f"{TOP}/tools/explain-cases", encoding="utf-8") as file:
        for line in file.read().splitlines():
            if line.startswith("#"):
                title = line[1:].strip()
            elif line.startswith("words"):
                cases.append(Case(title))
                cases[-1].add(line)
            elif line:
                cases[-1].add(line)
    return cases


class TableQuestions(Questions):
    """Takes the answers of the table; and holds those of a program, where there is one, against them."""

    def __init__(self, program, words, case, wrong):
        super().__init__(program, words, case.text.encode(), case.slow)
        self.case, self.wrong = case, wrong

    def ask(self, change, declared, grid, fixed):
        said = self.case.asks.get(change)
        if said is None:
            self.wrong.append(f"it asks what the table has no answer to: {change}")
            said = "accepted"
        if self.program:
            answer = super().ask(change, declared, grid, fixed)
            found = (answer.out + answer.err).decode("ascii", "replace").strip()
            if found != said:
                self.wrong.append(f"{change}: the program answers: {found}")
        return Answer(0, said.encode(), b"") if said == "accepted" else Answer(1, b"", said.encode() + b"\n")


def try_case(case, program):
    """What is wrong with a case, a list; None where the program isn't asked for it."""
    if not case.is_whole():
        return ["it wants words, an answer, and either hints or all that is said"]
    wrong, answer = [], case.stub()
    form, name, words = own_words(case.words)
    if program:
        answer = program.answer(words, case.text.encode())
        # what ./hpf says of its build is no answer of the program
        said = re.sub(rb"hpf: this build .*\n", b"", answer.err).decode("ascii", "replace").rstrip("\n")
        if (answer.status, said) in case.unless:
            return None
        if (answer.status, said, answer.out) != (*case.answer, case.prints.encode()):
            wrong.append(f"the program answers: {answer.status} {said}" + (f", and prints {answer.out!r}" if answer.out else ""))
            return wrong
    questions = TableQuestions(program, words, case, wrong)
    lines = explained(answer, case.text.encode(), words, questions, form, name)
    wanted = case.says or case.hints
    if not case.says:
        lines = [line[len("  hint: "):] for line in lines if line.startswith("  hint: ")]
    if lines != wanted:
        wrong += [f"it says:  {line}" for line in lines if line not in wanted] + [f"it wants: {line}" for line in wanted if line not in lines]
        wrong += ["it says the same in another order"] if sorted(lines) == sorted(wanted) else []
    wrong += [f"it doesn't ask: {change}" for change in case.asks if change not in questions.known]
    return wrong


def wrong_pages():
    """Sections that the tables of this script name, and words that can't be names, that docs/LANGUAGE.md doesn't have."""
    with open(f"{TOP}/docs/LANGUAGE.md", encoding="utf-8") as file:
        page = file.read()
    headings = set(re.findall(r"^#+ (.*)$", page, re.M))
    named = {section for sections in [*(row[-1] for row in [*REASONS.values(), *FAULTS.values()]), *FIXED_SECTIONS.values()] for section in sections}
    wrong = [f"docs/LANGUAGE.md has no section {section}" for section in sorted(named - headings)]
    rows = {int(number): name for number, name in re.findall(r"^\| (\d+) (\w+) \|", page, re.M)}
    if rows != {number: name for number, (name, _, _) in REASONS.items()}:
        wrong.append("the refusals of docs/LANGUAGE.md are others")
    words = page[page.index("## Words that can't be names"):page.index("## Expressions")]
    if set(re.findall(r"\b[A-Z_]{2,}\b", re.sub(r"\*\*.*?\*\*", "", words[words.index("- **"):]))) != RESERVED:
        wrong.append("the words that can't be names are others in docs/LANGUAGE.md")
    return wrong


STUB = """#!{python}
import sys
text = sys.stdin.buffer.read()
if {expected!r} != (sys.argv[1:], text): sys.exit(99)
sys.stdout.buffer.write({out!r}); sys.stderr.buffer.write({err!r}); sys.exit({status})
"""
EVERY_BYTE = bytes(range(256))
# words, text, and the answer of a program: status, standard output, standard error; and what comes after it on standard error
PASSED_ON = [
    (["run", "--grid", "4"], b"PRINT *, 1\nEND\n", 0, EVERY_BYTE, b"", b""),
    (["check", "--grid=2"], EVERY_BYTE, 1, b"", b"hpf: line 1: refused 1 BadLine\n", b"    1 > \\x00"),
    (["run"], b"", 2, b"", b"hpf: usage: hpf ACTION\n", b""),
    (["serial"], b"A = 1\n", 3, b"1\n2\n", b"hpf: line 1: fault Bounds\n", b"    1 > A = 1\n"),
    (["serial"], b"", 4, b"", b"hpf: read fault\n", b""),
    (["run"], b"END", 5, b"12", b"", b""),
    (["run"], b"END\n", 6, b"", b"hpf: out of memory\n", b""),
    (["map"], b"!" * 2000, 7, b"", b"hpf: source too long\n", b""),
    (["run"], b"END\n", 125, b"", b"hpf: something " + EVERY_BYTE, b""),
    (["check"], b"", 1, b"", b"hpf: line 1: refused 3 BadNest\n", b"  a statement stands"),
    (["check", "--fixed"], b"10    END\n", 1, b"", b"hpf: line 1: refused 1 BadLine\n", b"    1 > 10    END\n"),
    (["serial", "--fixed"], EVERY_BYTE, 1, b"", b"hpf: line 1: refused 1 BadLine\n", b"    1 > \\x00"),
]


def try_passing():
    """What is wrong with how answers are passed on: bytes, statuses, and a program that isn't there."""
    wrong = []
    with tempfile.TemporaryDirectory() as folder:
        for words, text, status, out, err, after in PASSED_ON:
            path = f"{folder}/hpf"
            with open(path, "w", encoding="utf-8") as file:
                file.write(STUB.format(python=sys.executable, expected=(words, text), out=out, err=err, status=status))
            os.chmod(path, 0o755)
            for more in ([], ["--gnu"]):
                done = subprocess.run([sys.executable, f"{TOP}/tools/explain", *more, *words], input=text, capture_output=True, check=False,
                                      env={**os.environ, "HPF": path})
                added = done.stderr[len(err):]
                if (done.returncode, done.stdout, done.stderr[:len(err)]) != (status, out, err):
                    wrong.append(f"the answer {status} to {' '.join(words)} is passed on as {done.returncode} {done.stdout!r} {done.stderr!r}")
                elif not after and added or not added.startswith(b"<stdin>:1: error: " if after and more else after):
                    wrong.append(f"after the answer {status} to {' '.join(words)} comes {added!r}")
            os.remove(path)
        done = subprocess.run([sys.executable, f"{TOP}/tools/explain", "run"], input=b"END", capture_output=True, check=False,
                              env={**os.environ, "HPF": f"{folder}/none"})
        if done.returncode != 125 or not done.stderr.startswith(b"explain: "):
            wrong.append(f"without a program it ends with {done.returncode} {done.stderr!r}")
    return wrong


def test(program):
    passed, failed, left = 0, 0, 0
    checks = [("the pages", wrong_pages), ("answers are passed on", try_passing)]
    checks += [(case.title, lambda case=case: try_case(case, program)) for case in read_cases()]
    for title, check in checks:
        wrong = check()
        if wrong is None:
            left += 1
        elif wrong:
            failed += 1
            print(f"{title}:")
            for line in wrong:
                print(f"    {line}")
        else:
            passed += 1
    print(f"{passed} passed, {failed} failed" + (f", {left} left out since the program runs other texts" if left else ""))
    return 1 if failed else 0
