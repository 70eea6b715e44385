"""The limits of RULES.md through the whole program, with sessions that are made here. A module, a part of program.py.

The proofs say of each call where its limit is. This says that the program is built with these
limits, that a real machine gets there, and that a refused command leaves the tables and numbers of
all namespaces as they were.
"""
import subprocess
import tempfile

from harness.runs import MOST_SECONDS, answer_groups, check, session, shown
from sessions import cases

FILESYSTEMS = 256
DIRECTORIES = 16_384
DEPTH = 32
NAMESPACES = 64
MOUNTS = 4_096
COMMANDS = 1_048_576
LINES = 16_777_216

# How many answers are compared at once.
BLOCK = 1 << 16


def answers(program, lines, name, *arguments):
    """The answer to each line of a session with further arguments, which has to end well."""
    status, output, complaint = session(program, lines, *arguments)
    check(f"end of the session of {name}", (status, complaint) == (0, b""), f"status {status}: {shown(complaint)}")
    return [b"\n".join(group) for group in answer_groups(output, lines)]


def check_turns(program, turns, name, *arguments):
    """Each line of these pairs has its answer in a session with further arguments."""
    found = answers(program, [line for line, _ in turns], name, *arguments)
    for number, ((line, wanted), answer) in enumerate(zip(turns, found), 1):
        if answer != wanted:
            told = f"line {number}, {shown(line)}: wanted {shown(wanted[:200])}, answered {shown(answer[:200])}"
            check(name, False, told)
            return
    check(name, len(found) == len(turns))


def filesystems(program):
    turns = [(b"mkfs f%d tmpfs none" % n, b"ok %d" % n) for n in range(1, FILESYSTEMS + 1)]
    turns += [
        (b"mkfs more tmpfs none", b"no TooMany"),
        (b"mkfs f1 tmpfs none", b"no FilesystemExists"),
        (b"mkdir f256 /d", b"ok"),
        (b"newns f256", b"ok 1"),
        (b"show 1", b"ok 1 1\n1 1 0:256 / / rw,relatime - tmpfs none rw"),
    ]
    check_turns(program, turns, f"{FILESYSTEMS} filesystems")


def directories(program):
    turns = [(b"mkfs f%d tmpfs none" % n, b"ok %d" % (n + 1)) for n in range(3)]
    made = [b"mkdir f%d /d%d" % (n % 3, n) for n in range(DIRECTORIES - 3)]
    turns += [(line, b"ok") for line in made]
    turns += [
        (b"mkdir f0 /more", b"no TooMany"),
        (made[-1], b"no EntryExists"),
        (b"mkdir f0 /more/below", b"no NoEntry"),
        (b"mkfs more tmpfs none", b"no TooMany"),
        (b"mkfs f2 tmpfs none", b"no FilesystemExists"),
        (b"newns f0", b"ok 1"),
        (b"find 1 /d3", b"ok 1 /d3"),
        (b"find 1 /more", b"no NoEntry"),
    ]
    check_turns(program, turns, f"{DIRECTORIES} directories with the roots")


def depth(program):
    def path(names):
        return b"/d" * names

    turns = [(b"mkfs a tmpfs none", b"ok 1"), (b"newns a", b"ok 1")]
    turns += [(b"mkdir a " + path(names), b"ok") for names in range(1, DEPTH + 1)]
    turns += [
        (b"mkdir a " + path(DEPTH + 1), b"no TooMany"),
        (b"mkdir a " + path(DEPTH + 2), b"no NoEntry"),
        (b"mkdir a " + path(DEPTH), b"no EntryExists"),
        (b"find 1 " + path(DEPTH), b"ok 1 " + path(DEPTH)),
        (b"find 1 " + path(DEPTH + 1), b"no NoEntry"),
    ]
    check_turns(program, turns, f"depth {DEPTH}")


def namespaces(program):
    """All are peers, so one mount comes to each."""
    turns = [
        (b"mkfs a tmpfs none", b"ok 1"),
        (b"mkfs d ext4 /dev/x", b"ok 2"),
        (b"mkdir a /m", b"ok"),
        (b"newns a", b"ok 1"),
        (b"setattr 1 / prop=shared", b"ok"),
    ]
    turns += [(b"copyns %d" % (n - 1), b"ok %d" % n) for n in range(2, NAMESPACES + 1)]
    turns += [
        (b"copyns 1", b"no TooMany"),
        (b"newns a", b"no TooMany"),
        (b"newns more", b"no NoFilesystem"),
        (b"copyns %d" % (NAMESPACES + 1), b"no NoNamespace"),
        (b"mount 1 d /m", b"ok %d" % (NAMESPACES + 1)),
    ]
    for n in range(1, NAMESPACES + 1):
        table = [
            b"ok 2 %d" % (3 if n == 1 else 2),
            b"%d %d 0:1 / / rw,relatime shared:1 - tmpfs none rw" % (n, n),
            b"%d %d 0:2 / /m rw,relatime shared:2 - ext4 /dev/x rw" % (NAMESPACES + n, n),
        ]
        turns.append((b"show %d" % n, b"\n".join(table)))
    turns += [
        (b"dropns 2", b"ok"),
        (b"newns a", b"ok %d" % (NAMESPACES + 1)),
        (b"newns a", b"no TooMany"),
        (b"copyns 2", b"no NoNamespace"),
    ]
    check_turns(program, turns, f"{NAMESPACES} namespaces")


# Three namespaces of which the root mounts are shared, shared and their slave, and a fourth alone. The
# first has a private mount that bears another, which may move to the shared one.
CROWD = [
    (b"mkfs a tmpfs none", b"ok 1"),
    (b"mkfs d ext4 /dev/x", b"ok 2"),
    (b"mkdir a /m", b"ok"),
    (b"mkdir a /k", b"ok"),
    (b"mkdir d /u", b"ok"),
    (b"newns a", b"ok 1"),
    (b"setattr 1 / prop=shared", b"ok"),
    (b"copyns 1", b"ok 2"),
    (b"copyns 1", b"ok 3"),
    (b"setattr 3 / prop=slave", b"ok"),
    (b"newns a", b"ok 4"),
    (b"mount 1 d /k", b"ok 5"),
    (b"setattr 1 /k prop=private", b"ok"),
    (b"mount 1 a /k/u", b"ok 8"),
]

# How many of these mounts are not of the fourth namespace.
ELSEWHERE = 7

# Commands that need room for two mounts or more there, and such that need it for one.
LARGE = [
    b"mount 1 d /m",
    b"mount 2 d /m",
    b"bind 1 /k /m",
    b"rbind 1 /k /m",
    b"rbind 4 / /m",
    b"move 1 /k/u /m",
    b"copyns 1",
    b"copyns 4",
]
SMALL = [b"newns a", b"mount 3 d /m", b"mount 4 d /m", b"bind 4 /k /m"]

# Tables of which the answers are those of before.
SHOWS = [(b"show %d" % space, None) for space in range(1, 6)]


def filling(mounts):
    """Lines that give the fourth namespace, which has one mount, so many, by doubling and adding one."""
    turns, there = [], 1
    for digit in bin(mounts)[3:]:
        turns.append((b"rbind 4 / /m", b"ok %d" % (ELSEWHERE + there + 1)))
        there *= 2
        if digit == "1":
            there += 1
            turns.append((b"mount 4 d /m", b"ok %d" % (ELSEWHERE + there)))
    return turns


def refused(lines):
    """Turns that refuse these lines, each between the tables of all namespaces."""
    turns = list(SHOWS)
    for line in lines:
        turns += [(line, b"no TooMany"), *SHOWS]
    return turns


def mounts(program):
    """A command that finds too little room changes no table, and uses up no number."""
    turns = CROWD + filling(MOUNTS - 1 - ELSEWHERE) + refused(LARGE)
    turns += [(b"newns a", b"ok 5")] + refused(LARGE + SMALL)
    turns += [
        (b"umount 1 /k/u", b"ok"),
        (b"mount 3 d /m", b"ok %d" % (MOUNTS + 1)),
        (b"setattr 5 / prop=shared", b"ok"),
        (b"show 5", b"ok 1 2\n%d %d 0:1 / / rw,relatime shared:3 - tmpfs none rw" % (MOUNTS, MOUNTS)),
    ]
    turns += refused(SMALL)
    found = answers(program, [line for line, _ in turns], f"{MOUNTS} mounts")
    tables = {}
    for (line, wanted), answer in zip(turns, found):
        if wanted is None:
            check(f"{shown(line)} behind a refused command", tables.setdefault(line, answer) == answer)
        else:
            check(f"{shown(line)} at {MOUNTS} mounts", answer == wanted, shown(answer[:200]))
            if answer.startswith(b"ok"):
                tables = {}
    rows = sum(len(answer.split(b"\n")) - 1 for answer in tables.values())
    check(f"{MOUNTS} mounts in all tables", rows == MOUNTS, str(rows))


def peers_at_the_limit(program):
    """What the case of too many mounts refuses, with one place left and with none, changes none of its four tables."""
    shows = [b"show %d" % space for space in range(1, 5)]
    lines, refused, rows = [], [], []
    for turn in cases.load("too-many-mounts").turns:
        is_refused = turn.answers == [b"no TooMany"]
        around = shows if is_refused else []
        if is_refused:
            refused.append(len(lines) + len(around))
        lines += [*around, turn.sent().removesuffix(b"\n"), *around]
    found = answers(program, lines, "too many mounts")
    for at in refused:
        before, behind = found[at - len(shows) : at], found[at + 1 : at + 1 + len(shows)]
        check(f"tables around {shown(lines[at])}, which is refused", before == behind and found[at] == b"no TooMany")
        rows.append(sum(answer.count(b"\n") for answer in behind))
    check("mounts in these tables", rows == [MOUNTS - 1, MOUNTS], str(rows))


def commands(program):
    """Behind the last command each other one is refused as JournalFull before its own refusals; a
    faulty line is refused for its fault, and tables are shown."""
    start = [
        (b"mkfs a tmpfs none", b"ok 1"),
        (b"newns a", b"ok 1"),
        (b"mkfs a tmpfs none", b"no FilesystemExists"),
        (b"setattr 1 /m", b"no NoEntry"),
        (b"mkdir a /m", b"ok"),
    ]
    turns = start + [(b"setattr 1 /", b"ok")] * (COMMANDS - 4) + [(b"mount 1 a /m", b"ok 2")]
    full = [
        b"mkfs a tmpfs none",
        b"mkfs b tmpfs none",
        b"mkdir a /m",
        b"mkdir q /m",
        b"newns q",
        b"copyns 1",
        b"mount 9 q /q",
        b"bind 1 /m /q",
        b"rbind 1 / /",
        b"move 1 /m /m",
        b"umount 1 /m",
        b"setattr 1 /",
        b"setattr 1 /q set=noatime",
    ]
    turns += [(line, b"no JournalFull") for line in full]
    table = b"ok 2 2\n1 1 0:1 / / rw,relatime - tmpfs none rw\n2 1 0:1 / /m rw,relatime - tmpfs none rw"
    turns += [
        (b"setattr 01 /", b"no BadLine"),
        (b"mount 1 a m", b"no BadPath"),
        (b"show 1", table),
        (b"show 2", b"no NoNamespace"),
        (b"find 1 /m", b"ok 2 /"),
        (b"find 1 /q", b"no NoEntry"),
        (b"quit", b"ok"),
    ]
    check_turns(program, turns, f"{COMMANDS} commands")


def lines(program):
    """A session ends after as many lines as it may have, and each of them is answered."""
    block = b"no BadLine\n" * BLOCK
    with tempfile.TemporaryFile() as text, tempfile.TemporaryFile() as output:
        text.write(b"\n" * LINES + b"show 1\nquit\n")
        text.seek(0)
        words, pipe = [program, "-"], subprocess.PIPE
        done = subprocess.run(words, stdin=text, stdout=output, stderr=pipe, timeout=MOST_SECONDS, check=False)
        output.seek(0)
        blocks = sum(output.read(len(block)) == block for _ in range(LINES // BLOCK))
        found = done.returncode, done.stderr, blocks, output.read(100)
    check(f"{LINES} lines", found == (1, b"mountd: too many lines\n", LINES // BLOCK, b""), repr(found))


# A room that is greater than that of a server without the option.
ROOM = 2


def rooms(program):
    """In a greater room there are so many times as many filesystems, directories, namespaces and mounts, and no more; depth is as
    in each room; and the room is no command of the journal."""
    start = [(b"mkfs a tmpfs none", b"ok 1"), (b"newns a", b"ok 1"), (b"mkdir a /m", b"ok")]
    doublings = (ROOM * MOUNTS).bit_length() - 1
    parts = {
        "filesystems": [
            *((b"mkfs f%d tmpfs none" % n, b"ok %d" % n) for n in range(2, ROOM * FILESYSTEMS + 1)),
            (b"mkfs more tmpfs none", b"no TooMany"),
        ],
        "directories": [
            *((b"mkdir a /d%d" % n, b"ok") for n in range(ROOM * DIRECTORIES - 2)),
            (b"mkdir a /more", b"no TooMany"),
        ],
        "namespaces": [
            *((b"newns a", b"ok %d" % n) for n in range(2, ROOM * NAMESPACES + 1)),
            (b"newns a", b"no TooMany"),
        ],
        "mounts": [
            *((b"rbind 1 / /m", b"ok %d" % (2**n + 1)) for n in range(doublings)),
            (b"mount 1 a /m", b"no TooMany"),
        ],
        "depth": [
            *((b"mkdir a " + b"/d" * names, b"ok") for names in range(1, DEPTH + 1)),
            (b"mkdir a " + b"/d" * (DEPTH + 1), b"no TooMany"),
        ],
        "commands": [(b"journal 1 2", b"ok 2\nmkfs a tmpfs none\nnewns a"), (b"journal 4 1", b"ok 0")],
    }
    for name, turns in parts.items():
        check_turns(program, start + turns, f"{name} in a room of {ROOM}", "--room", str(ROOM))


def check_limits(program):
    for limit in (filesystems, directories, depth, namespaces, mounts, peers_at_the_limit, rooms, commands, lines):
        limit(program)
