"""The sessions of cases/: the program answers each byte for byte as its file says. A module, a part of program.py.

A case is a text file of comments, input lines and answers:

    # What the case shows, in a sentence.
    > mkfs a tmpfs none
    ok 1
    > show 1
    no NoNamespace

An input line begins with `>`:

    > TEXT       TEXT with a line end
    >            the empty line
    >. TEXT      TEXT without a line end: the input ends after it
    >* TEXT      TEXT with a line end, in which {N WORD} stands for WORD written N times
    >*. TEXT     both

A line that begins with `$`, right above the first input line, has further arguments of the program:

    $ --queue 2

Directly under an input line stand its answers, as they come; an input line that the session no
longer reads has none. A comment begins with `#`. It stands above an input line or at the end, and a
case begins with one. No answer of the server is empty or begins with `>`, `#` or `$`, so each line is
of one kind; a case that says otherwise is refused, and so is an answer.
"""
import os
import re
from typing import NamedTuple

from harness.runs import TOP, answer_groups, check, difference, read, run, shown, write

FOLDER = "cases"
INPUT_LINE = re.compile(rb">(?:(\*?)(\.?) (.+))?", re.DOTALL)
# A block that shows a terminal, and what was typed and answered there: checks/readme.py types it again.
ASKED = re.compile(rb"(?m)^<!-- asked -->\n```.*\n((?:(?!```).*\n)*?)```$")
REPEATED = re.compile(rb"\{([1-9][0-9]*) ([^{}]+)\}")


def marked(word):
    """What finds the fenced blocks of a page after `<!-- word: NAME -->`: what opens one, its name, its lines, its end."""
    return re.compile(rb"(?m)^(<!-- %b: (.*) -->\n```.*\n)((?:(?!```).*\n)*?)(```)$" % word)


class Bad(Exception):
    """A text that is no case, or an answer that cannot stand in one."""


class Turn(NamedTuple):
    """An input line as its case has it, with the comments above it and the answers below it."""

    comments: list
    written: bytes
    answers: list

    def sent(self):
        """The bytes that the line sends."""
        many, unended, text = INPUT_LINE.fullmatch(self.written).groups(b"")
        if many:
            text = REPEATED.sub(lambda found: found[2] * int(found[1]), text)
        return text if unended else text + b"\n"


class Case(NamedTuple):
    """A session, the comments at the end of its file, and further arguments of the program."""

    turns: list
    comments: list
    arguments: list

    def requests(self):
        """The input lines without their line ends."""
        return [turn.sent().removesuffix(b"\n") for turn in self.turns]

    def plain_arguments(self):
        """All arguments of the program: `-`, and what the case adds."""
        return [b"-", *self.arguments]

    def input(self):
        return b"".join(turn.sent() for turn in self.turns)

    def output(self):
        return b"".join(line + b"\n" for turn in self.turns for line in turn.answers)

    def text(self, commented=True):
        """The case as its file has it, with its comments or without."""
        lines = []
        for turn in self.turns:
            said = [b"$ " + b" ".join(self.arguments)] if self.arguments and turn is self.turns[0] else []
            lines += [*(turn.comments if commented else []), *said, turn.written, *turn.answers]
        return b"".join(line + b"\n" for line in lines + (self.comments if commented else []))

    def answered(self, output):
        """The case with these answers in the place of its own."""
        if output and not output.endswith(b"\n"):
            raise Bad("the last answer has no line end")
        if output and not self.turns:
            raise Bad("an answer to no input line")
        groups = answer_groups(output, self.requests())
        for line in sum(groups, []):
            refuse_answer(line)
        return self._replace(turns=[turn._replace(answers=group) for turn, group in zip(self.turns, groups)])


def refuse_answer(line):
    """Refuses a line that no answer may have."""
    if line == b"" or line.startswith((b">", b"#", b"$")):
        raise Bad(f"an answer that cannot stand in a case: {shown(line)!r}")


def refuse_line(written, is_last):
    """Refuses what is no input line, or stands where none may."""
    found = INPUT_LINE.fullmatch(written)
    if not found:
        raise Bad(f"no input line: {shown(written)!r}")
    many, unended, text = found.groups(b"")
    if many and (not REPEATED.search(text) or re.search(rb"[{}]", REPEATED.sub(b"", text))):
        raise Bad(f"nothing or no plain WORD is repeated: {shown(written)!r}")
    if unended and not is_last:
        raise Bad(f"input behind a line without end: {shown(written)!r}")


def parse(text):
    """The session that a text says, be it commented or not."""
    *lines, last = text.split(b"\n")
    if last != b"":
        raise Bad("the last line has no end")
    turns, comments, arguments = [], [], []
    for line in lines:
        if line.startswith(b"#") and not (arguments and not turns):
            comments.append(line)
        elif line.startswith(b"$ ") and not turns and not arguments:
            arguments = line[2:].split(b" ")
        elif line.startswith(b">"):
            turns.append(Turn(comments, line, []))
            comments = []
        elif comments or not turns:
            raise Bad(f"an answer under no input line: {shown(line)!r}")
        else:
            refuse_answer(line)
            turns[-1].answers.append(line)
    for at, turn in enumerate(turns):
        refuse_line(turn.written, at == len(turns) - 1)
    if arguments and not turns:
        raise Bad("arguments of no session")
    return Case(turns, comments, arguments)


def parse_case(text):
    """The case that a text says."""
    if not text.startswith(b"#"):
        raise Bad("a case begins with a comment")
    return parse(text)


def names():
    """The cases' names, in order."""
    return sorted(name for name in os.listdir(os.path.join(TOP, FOLDER)) if name != "README.md")


def load(name):
    """The case of this name."""
    try:
        return parse_case(read(FOLDER, name))
    except Bad as bad:
        raise Bad(f"case {name}: {bad}") from None


def answers_of(program, case):
    """The case with the program's answers, and how else than silently with status 0 the session ended."""
    status, output, complaint = run(program, case.input(), *case.plain_arguments())
    ended = "" if (status, complaint) == (0, b"") else f"status {status}, standard error: {shown(complaint)}"
    return case.answered(output), ended


def check_session(name, text, program, parsed=parse):
    """A session is answered as its text says, and ends silently with status 0."""
    try:
        case = parsed(text)
        found, ended = answers_of(program, case)
    except Bad as bad:
        check(name, False, str(bad))
        return
    check(f"end of {name}", ended == "", ended)
    check(name, found.text() == text, difference(text, found.text(), name))


def check_cases(program):
    for name in names():
        check_session(f"case {name}", read(FOLDER, name), program, parse_case)


def update(program):
    """Writes the program's answers into the cases."""
    for name in names():
        found, _ = answers_of(program, load(name))
        write(found.text(), FOLDER, name)


GOOD = b"""# Lines of each kind.
>* x{3 ab}{2 .}
no BadLine
>
no BadLine
# Behind quit nothing is read.
> quit
ok
>*. show {2 1}
# The end.
"""

NO_CASES = [
    b"",
    b"> show 1\nno NoNamespace\n",
    b"# No answer above the first input line.\nok\n",
    b"# An empty line.\n> quit\nok\n\n",
    b"# No line end.\n> quit",
    b"# An answer behind a comment.\n> show 1\n# here\nno NoNamespace\n",
    b"# No space.\n>quit\nok\n",
    b"# Two writings of the empty line.\n> \nno BadLine\n",
    b"# A mark of its own.\n>! quit\nok\n",
    b"# Input behind its end.\n>. show 1\nno BadLine\n> quit\nok\n",
    b"# Arguments behind an input line.\n> quit\n$ --queue 2\nok\n",
    b"# Arguments in the place of an answer.\n> quit\n$ok\n",
    b"# Arguments of no word.\n$\n> quit\nok\n",
    b"# Arguments twice.\n$ --queue 2\n$ --queue 2\n> quit\nok\n",
    b"# Arguments of no session.\n$ --queue 2\n",
    b"# Nothing is repeated.\n>* quit\nok\n",
    b"# A lone brace.\n>* {2 a}}\nno BadLine\n",
]

NO_ANSWERS = [b"> ok\n", b">\n", b"# ok\n", b"$ ok\n", b"$\n", b"\n", b"ok"]


def is_refused(call, *arguments):
    try:
        call(*arguments)
        return False
    except Bad:
        return True


def check_format(_program):
    """The format tells lines of input, answers and comments apart, and what would not be told apart is refused."""
    case = parse(GOOD)
    check("a case's input", case.input() == b"xababab..\n\nquit\nshow 11")
    check("a case's text", case.text() == GOOD and case.answered(case.output()) == case)
    for text in NO_CASES:
        check(f"no case: {shown(text)!r}", is_refused(parse_case, text))
    for line in NO_ANSWERS:
        check(f"no answer in a case: {shown(line)!r}", is_refused(parse(b"# A case.\n> quit\n").answered, line))
