"""The program hpf: what it answers, and questions to it about a text that is changed a little."""
import re
import subprocess
import sys


class Answer:
    def __init__(self, status, out, err):
        self.status, self.out, self.err = status, out, err
        found = re.findall(rb"^hpf: line (\d+): (?:refused (\d+) \w+|fault (\w+)(.*))$", err, re.M)
        self.line = int(found[-1][0]) if found and status in (1, 3) else None
        self.reason = int(found[-1][1]) if self.line and found[-1][1] else None
        self.fault = found[-1][2].decode() if self.line and found[-1][2] else None
        self.place = found[-1][3].decode() if self.fault else ""


class Program:
    def __init__(self, path):
        self.path = path

    def answer(self, words, text, passed_on=False):
        """What it answers. Where it is passed on, standard output goes where ours goes."""
        try:
            done = subprocess.run([self.path, *words], input=text, stdout=None if passed_on else subprocess.PIPE,
                                  stderr=subprocess.PIPE, check=False)
        except OSError as error:
            print(f"explain: {self.path} can't be run: {error.strerror}", file=sys.stderr)
            sys.exit(125)
        status = done.returncode if done.returncode >= 0 else 128 - done.returncode
        return Answer(status, done.stdout or b"", done.stderr)


def is_fixed(words):
    """Whether these words of a job say that the text is in fixed form."""
    return "--fixed" in words


# a text up to its PROGRAM statement
FREE_FRONT = re.compile(rb"(?:[ \t]*(?:!(?!HPF\$)[^\n]*)?\n)*[ \t]*PROGRAM\b[^\n]*\n", re.I)
FIXED_FRONT = re.compile(rb"(?:(?:[!C*](?!HPF\$)[^\n]*|[ \t]+![^\n]*|[ \t]*)\n)*      [ \t]*PROGRAM\b[^\n]*\n", re.I)


def declarations(names, fixed):
    """Lines that declare names: one, and in fixed form as many as it takes up to column 72."""
    if not fixed:
        return [f"INTEGER :: {', '.join(names)}"]
    lines = []
    for name in names:
        if lines and len(lines[-1]) + 2 + len(name) <= 72:
            lines[-1] += f", {name}"
        else:
            lines.append(f"      INTEGER :: {name}")
    return lines


class Questions:
    """Asks `hpf check` about a text that is changed a little, each change once."""

    def __init__(self, program, words, text, slow=False):
        self.program, self.words, self.text, self.slow, self.known = program, words, text, slow, {}
        self.fixed = is_fixed(words)

    def grid(self):
        for at, word in enumerate(self.words):
            if word.startswith("--grid="):
                return word[7:]
            if word == "--grid":
                return self.words[at + 1]
        return "1"

    def check(self, declared=(), grid=None, other_form=False):
        """The answer for the text with names declared in front, on another grid, or in the other source form; None where it isn't asked. Its line is
        that of a text with one line more, whatever the declarations take."""
        if self.slow:
            return None
        change = ("declared " + " ".join(declared)) if declared else f"grid {grid}" if grid else "form" if other_form else "check"
        if change not in self.known:
            answer = self.ask(change, list(declared), grid or self.grid(), self.fixed != other_form)
            if declared and answer.line:
                answer.line -= len(declarations(declared, self.fixed)) - 1
            self.known[change] = answer
        return self.known[change]

    def ask(self, change, declared, grid, fixed):
        text = self.text
        if declared:
            front = (FIXED_FRONT if fixed else FREE_FRONT).match(text)
            at = front.end() if front else 0
            text = text[:at] + "".join(f"{line}\n" for line in declarations(declared, fixed)).encode() + text[at:]
        return self.program.answer(["check", "--grid", grid] + ["--fixed"] * fixed, text)


def own_words(words):
    """The form and the file's name that the first words say, and the program's words; no words where they say nothing."""
    form, name = "plain", "<stdin>"
    while words[:1] in (["--gnu"], ["--name"]):
        if words[0] == "--gnu":
            form, words = "gnu", words[1:]
        elif len(words) > 1:
            name, words = words[1], words[2:]
        else:
            return form, name, []
    return form, name, words
