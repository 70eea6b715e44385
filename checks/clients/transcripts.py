"""What `mountctl play` prints of a transcript. A module, a part of server.py.

The cases and the sessions of docs/TOUR.md are answered as they tell, and what is printed is the transcript. Another answer is told
beside the one of the transcript, a text that is no transcript is refused for its line, and at a terminal each further line waits
for a key.
"""
import contextlib
import os
import pty
import re
import select
import subprocess
import tempfile
import tty

from documents import tour
from harness.runs import MOST_SECONDS, check, difference, read, run, shown
from sessions import cases

# How long nothing may come at a terminal until it is taken to wait, in seconds.
PAUSE = 0.5

TAKES = b"mountctl: play takes a file, or - for standard input\n"

# A transcript, of which each line but the second is answered as it tells.
OTHER = b"""# Other answers.
> mkfs a tmpfs none
ok 1
> newns a
ok 2
> show 1
ok 1 1
1 1 0:1 / / rw,relatime - tmpfs none rw
# Behind quit nothing is read.
> quit
ok
> show 1
ok
"""

PLAYED = b"""# Other answers.
> mkfs a tmpfs none
ok 1
> newns a
ok 1
# told: ok 2
> show 1
ok 1 1
1 1 0:1 / / rw,relatime - tmpfs none rw
# Behind quit nothing is read.
> quit
ok
> show 1
# told: ok
# as told: 3 of 5 lines
"""

# Texts that are no transcripts: the line that is refused, and what is said of it.
MISFITS = (
    (b"> quit", 1, "the last line has no end"),
    (b"> quit\nok\n\n> quit\n", 3, "an empty line"),
    (b"\n", 1, "an empty line"),
    (b">quit\n", 1, "no input line: it is > TEXT, >. TEXT, or >* TEXT with {N WORD}"),
    (b"> \n", 1, "no input line: it is > TEXT, >. TEXT, or >* TEXT with {N WORD}"),
    (b">* quit\n", 1, "no input line: it is > TEXT, >. TEXT, or >* TEXT with {N WORD}"),
    (b">* {2 a}}\n", 1, "no input line: it is > TEXT, >. TEXT, or >* TEXT with {N WORD}"),
    (b">* {0 a}\n", 1, "no input line: it is > TEXT, >. TEXT, or >* TEXT with {N WORD}"),
    (b">* {65537 a}\n", 1, "no input line: it is > TEXT, >. TEXT, or >* TEXT with {N WORD}"),
    (b">. quit\n> quit\n", 2, "an input line behind one without end"),
    (b"ok\n> quit\n", 1, "an answer below no input line"),
    (b"> quit\n# a comment\nok\n", 3, "an answer below no input line"),
    (b"$ --sessions 2\n> quit\n", 1, "no arguments of a session: they are --queue N, from 1 to 16384, or --room N, from 1 to 256"),
    (b"$ --queue 16385\n> quit\n", 1, "no arguments of a session: they are --queue N, from 1 to 16384, or --room N, from 1 to 256"),
    (b"$ --room 0\n> quit\n", 1, "no arguments of a session: they are --queue N, from 1 to 16384, or --room N, from 1 to 256"),
    (b"$ --room 257\n> quit\n", 1, "no arguments of a session: they are --queue N, from 1 to 16384, or --room N, from 1 to 256"),
    (b"$ --queue 2\n$ --queue 2\n> quit\n", 1, "arguments that are not right above the first input line"),
    (b"$ --queue 2\n# a comment\n> quit\n", 1, "arguments that are not right above the first input line"),
    (b"> quit\nok\n$ --queue 2\n", 3, "arguments that are not right above the first input line"),
    (b"$ --queue 2\n", 1, "arguments that are not right above the first input line"),
)


def played(mountctl, text):
    """What comes of a text that is played."""
    return run(mountctl, text, "play", "-")


def check_whole(mountctl, name, text):
    """A transcript that tells what is answered: it is printed, and how many lines that are."""
    count = sum(line.startswith(b">") for line in text.split(b"\n"))
    wanted = text + b"# as told: %d of %d lines\n" % (count, count)
    found = played(mountctl, text)
    check(f"{name}, played", (found[0], found[2]) == (0, b""), repr(found[::2]))
    check(f"{name}, as it is printed", found[1] == wanted, difference(wanted, found[1], name))


def check_files(mountctl):
    """A file, and what is no file."""
    path = os.path.join(cases.TOP, cases.FOLDER, "slide")
    check("a file that is played", run(mountctl, b"", "play", path) == played(mountctl, read(cases.FOLDER, "slide")))
    found = run(mountctl, b"", "play", "/nowhere")
    check("no file that is played", found == (2, b"", b"mountctl: /nowhere: no such file or directory\n"), repr(found))
    for words in [], ["a", "b"]:
        found = run(mountctl, b"", "play", *words)
        check(f"play {words}", found == (2, b"", TAKES), repr(found))


def check_misfits(mountctl):
    """Texts that are no transcripts: nothing is sent."""
    for text, number, why in MISFITS:
        found = played(mountctl, text)
        check(f"no transcript: {shown(text)!r}", found == (2, b"", f"mountctl: -: line {number}: {why}\n".encode()), repr(found))
    found = played(mountctl, b"")
    check("a transcript without lines", found == (0, b"# as told: 0 of 0 lines\n", b""), repr(found))


class Terminal:
    """A program at a terminal, on which keys are pressed."""

    def __init__(self, program, *words):
        self.ours, theirs = pty.openpty()
        tty.setraw(theirs)
        self.running = subprocess.Popen([program, *words], stdin=theirs, stdout=theirs, stderr=subprocess.STDOUT)
        os.close(theirs)

    def shows(self, end):
        """What is written, up to this end, behind which nothing comes for a while."""
        text = b""
        with contextlib.suppress(OSError):
            while select.select([self.ours], [], [], PAUSE if text.endswith(end) else MOST_SECONDS)[0]:
                text += os.read(self.ours, 1 << 16)
        return text

    def types(self, text, end):
        """What is written behind this."""
        os.write(self.ours, text)
        return self.shows(end)

    def ends(self):
        """The status at the end."""
        status = self.running.wait(MOST_SECONDS)
        os.close(self.ours)
        return status

    def closes(self):
        """The status at the end, where the terminal is closed before."""
        os.close(self.ours)
        return self.running.wait(MOST_SECONDS)


@contextlib.contextmanager
def file_of(text):
    """The path of a file that has this text."""
    with tempfile.TemporaryDirectory() as folder:
        path = os.path.join(folder, "transcript")
        with open(path, "wb") as file:
            file.write(text)
        yield path


def check_keys(mountctl):
    """At a terminal each further line waits for a key; a transcript that is read there does not."""
    # The comments above a line wait with it.
    first, second, third, fourth, fifth = re.split(rb"(?m)^(?=> newns|> show|# Behind)", PLAYED)
    with file_of(OTHER) as path:
        terminal = Terminal(mountctl, "play", path)
        found = [terminal.shows(first), *(terminal.types(b"\n", part) for part in (second, third, fourth, fifth))]
        check("a transcript at a terminal", (terminal.ends(), found) == (1, [first, second, third, fourth, fifth]), repr(found))
        terminal = Terminal(mountctl, "play", path)
        found = terminal.shows(first)
        status = terminal.closes()
        check("a transcript at a terminal that is closed", (found, status) == (first, 3), f"{status} {found}")


def check_strangers(mountctl):
    """A terminal is given nothing that it obeys, of a transcript or of its path."""
    with file_of(b"# \x1b[2J\n> quit\nok\n") as path:
        found = Terminal(mountctl, "play", path).shows(b"# as told: 1 of 1 lines\n")
    check("an escape in a transcript", found.startswith(b"# ") and b"\x1b" not in found and found.endswith(b"# as told: 1 of 1 lines\n"), repr(found))
    found = run(mountctl, b"", "play", "/no\x1b[2Jwhere")
    check("an escape in the path of a transcript", found[:2] == (2, b"") and found[2] != b"" and b"\x1b" not in found[2], repr(found))


def check_transcripts(_program, mountctl):
    """Transcripts that are played."""
    for name in cases.names():
        check_whole(mountctl, f"case {name}", read(cases.FOLDER, name))
    for name, text in tour.sessions().items():
        check_whole(mountctl, f"session {name} of docs/TOUR.md", text)
    found = played(mountctl, OTHER)
    check("other answers", found == (1, PLAYED, b""), shown(found[1]))
    check("what is played again", played(mountctl, PLAYED.removesuffix(b"# as told: 3 of 5 lines\n"))[0] == 0)
    check_files(mountctl)
    check_misfits(mountctl)
    check_keys(mountctl)
    check_strangers(mountctl)
