"""What `mountctl session` answers. A module, a part of server.py.

In a pipe it answers lines as `mountd -` does, and tells the reasons of refusals that a script tells. At a terminal a prompt stands
in front of each line. Pages of help and trees come in the place of answers.
"""
from clients.played import random_session
from clients.transcripts import Terminal
from harness.runs import check, difference, run, shown
from harness.servers import Server
from sessions import cases

# How many random sessions are compared.
SESSIONS = 10

# The cases whose lines are refused for many reasons.
REFUSED = "refusals-in-order", "move-refusals", "pivot-refusals", "setattr-refusals", "bad-lines", "detach", "rbind-unbindable"

WORLD = b"mkfs a tmpfs none\nmkdir a /m\nnewns a\nsetattr 1 / prop=shared\nmkfs usb vfat /dev/sdb1\nmount 1 usb /m\n"


def lines_of(case):
    """The lines of a case that a script would send."""
    sent = [turn.sent() for turn in cases.load(case).turns]
    return b"".join(line for line in sent if line.endswith(b"\n") and line != b"\n" and not line.startswith(b"#"))


def check_same(program, mountctl, name, lines):
    """The answers of a session of one's own are those of a plain session."""
    wanted, found = run(program, lines), run(mountctl, lines, "session")
    check(f"{name} in a session of one's own", found[:2] == (0, wanted[1]), difference(wanted[1], found[1], name))


def check_reasons(program, mountctl, name, lines):
    """The reasons of a session of one's own are those of a script, without the numbers of its lines: how many there are."""
    with Server(program) as server:
        said = shown(run(mountctl, lines, server.path, "-")[2]).split("\n")
    told = [line.split(": ", 2) for line in said]
    wanted = ["mountctl: " + parts[2] if len(parts) > 2 and parts[1].startswith("line ") else line for parts, line in zip(told, said)]
    # A script tells each refused line too.
    wanted = [line for line in wanted if not line.startswith("mountctl: ") or not is_refusal(line)]
    found = shown(run(mountctl, lines, "session")[2]).split("\n")
    check(f"{name}: the reasons", found == wanted, difference("\n".join(wanted).encode(), "\n".join(found).encode(), name))
    return len(wanted) - 1


def is_refusal(line):
    """Whether a line tells that a line was refused, and no reason."""
    return line.rsplit(": ", 1)[-1].startswith("no ") and " " not in line.rsplit(": no ", 1)[-1]


def check_in_place(program, mountctl):
    """Pages and trees, which are those of a server, and what is said of other words."""
    with Server(program) as server, server.client() as client:
        for line in WORLD.split(b"\n")[:-1]:
            client.ask(line)
        answers = b"ok 1\nok\nok 1\nok\nok 2\nok 2\n"
        for words in ["tree"], ["tree", "1"], ["tree", "all"], ["tree", "--ascii"], ["tree", "1", "/m"], ["tree", "1", "--json"], ["tree", "7"], ["tree", "1", "/none"], ["tree", "7", "/m"]:
            wanted = run(mountctl, b"", server.path, *words)
            found = run(mountctl, WORLD + " ".join(words).encode() + b"\n", "session")
            check(f"{words} in a session of one's own", wanted[1:] != (b"", b"") and found == (0, answers + wanted[1], wanted[2]), f"{wanted}\n{found}")
    for word in b"mount", b"tree", b"what-if":
        check(f"help {shown(word)} in a session", run(mountctl, b"help %b\n" % word, "session")[1] == run(mountctl, b"", "help", word)[1])
    found = run(mountctl, b"help\n", "session")
    check("help in a session", found[1].startswith(b"Lines that change tables:\n  mkfs ") and b"\n  help tree\n" in found[1], shown(found[1]))
    for line, said in (
        (b"help moun", run(mountctl, b"", "help", "moun")[2]),
        (b"help a b", b"mountctl: help takes a word, or none\n"),
        (b"tree x", b"mountctl: tree takes a namespace and a path, all or none, --ascii or --json\n"),
    ):
        found = run(mountctl, line + b"\n", "session")
        check(f"{shown(line)} in a session", found == (0, b"", said), repr(found))


def check_at_terminal(mountctl):
    """A prompt in front of each line, up to the end."""
    terminal = Terminal(mountctl, "session")
    found = [terminal.shows(b"> "), *(terminal.types(line, b"> ") for line in (b"mkfs a tmpfs none\n", b"# a comment\n", b"newns a b\n"))]
    check("a session at a terminal", found[:3] == [b"> ", b"ok 1\n> ", b"> "], repr(found))
    check("a bad line at a terminal", found[3].startswith(b"no BadLine\n") and b"newns FS" in found[3], repr(found[3]))
    found = [terminal.types(line, b"> ") for line in (b"newns a\n", b"tree\n")]
    check("a tree at a terminal", found[0] == b"ok 1\n> " and found[1].startswith(b"namespace 1\n"), repr(found))
    found = terminal.types(b"quit\n", b"ok\n")
    check("the end of a session at a terminal", found == b"ok\n" and terminal.ends() == 0, repr(found))


def check_own_sessions(program, mountctl):
    """Sessions of one's own."""
    for seed in range(SESSIONS):
        check_same(program, mountctl, f"random session {seed}", random_session(program, f"own {seed}"))
    count = 0
    for case in REFUSED:
        check_same(program, mountctl, f"case {case}", lines_of(case))
        count += check_reasons(program, mountctl, f"case {case}", lines_of(case))
    check("reasons that sessions of one's own tell", count > 0)
    found = run(mountctl, b"", "session", "a")
    check("session with a word", found == (2, b"", b"mountctl: session takes no words but --room\n"), repr(found))
    found = run(mountctl, b"x" * 8_193 + b"\nmkfs a b c\nnewns", "session")
    check("long lines, and no line end", found[:2] == (0, b"no TooLong\nok 1\nno BadLine\n"), repr(found))
    check_in_place(program, mountctl)
    check_at_terminal(mountctl)
