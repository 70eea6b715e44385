"""What the other program says of a line that is refused, beside its refusal: a module, a part of server.py.

What is wrong with a bad line stands on standard error; the answers are those of the server. Of random lines it is asked that
something is said exactly where the answer is `no BadLine`, and of others only behind their refusals.
"""
import random
import re
import subprocess

from harness import commands
from harness.runs import MOST_SECONDS, check, run, shown
from harness.servers import START, Server

# How many random lines are sent, in one script.
LINES = 4_000

# What is said of a line of a script after its refusal: its number, and the name of the refusal.
SAID = re.compile(rb"mountctl: line (\d+): ([A-Z][A-Za-z]+): (?!no [A-Za-z]+$)")
# What stands below that: the mounts in the way, and what would help.
BELOW = b"    ", b"  to change that: "

USAGE = b"too few words, or too many: "
NUMBER = b": NS is a number, digits without a leading zero, below 18446744073709551616"
SCOPE = b": NS is all, or a number, digits without a leading zero, below 18446744073709551616"
SET_WORDS = b"ro, nosuid, nodev, noexec, nosymfollow, nodiratime, relatime, noatime and strictatime, joined by commas"
CLR_WORDS = b"ro, nosuid, nodev, noexec, nosymfollow, nodiratime and atime, joined by commas"
EMPTY_WORD = b"a word is empty: one space stands between two words, and none at an end"
OPTIONS = b"setattr NS PATH [rec] [set=W,..] [clr=W,..] [prop=KIND]"
TWICE = b"an option is there twice"

# Bad lines, and what is said of each.
BAD = (
    (b"shwo 1", b"shwo: no line begins so; the nearest is show"),
    (b"unmount 1 /m", b"unmount: no line begins so; the nearest is umount"),
    (b"Show 1", b"Show: no line begins so; the nearest is show"),
    (b"x", b"x: no line begins so"),
    (b"\x1bxyz\xff 1", b"\\x1bxyz\\xff: no line begins so"),
    (b"show  1", EMPTY_WORD),
    (b" show 1", EMPTY_WORD),
    (b"show 1 ", EMPTY_WORD),
    (b"show", USAGE + b"show NS"),
    (b"watch", USAGE + b"watch NS"),
    (b"mount 1 a", USAGE + b"mount NS FS PATH [set=W,..]"),
    (b"copyns 1 less lock lock", USAGE + b"copyns NS [less [lock]]"),
    (b"opentree 1", USAGE + b"opentree NS PATH [rec]"),
    (b"movetree 2 /m", USAGE + b"movetree TREE NS PATH"),
    (b"setattr 1", USAGE + OPTIONS),
    (b"quit now", USAGE + b"quit"),
    (b"show 01", b"01" + NUMBER),
    (b"watch any", b"any" + SCOPE),
    (b"find 18446744073709551616 /", b"18446744073709551616" + NUMBER),
    (b"take 0", b"0: K is a number from 1 to 1024"),
    (b"take 1025", b"1025: K is a number from 1 to 1024"),
    (b"follow x", b"x: K is a number from 1 to 1048576"),
    (b"journal 1", USAGE + b"journal FROM K"),
    (b"journal 0 1", b"0: FROM is a number from 1 on, below 18446744073709551616"),
    (b"journal 1 1025", b"1025: K is a number from 1 to 1024"),
    (b"copyns 1 more", b"more: only less may stand there"),
    (b"copyns 1 lock", b"lock: only less may stand there"),
    (b"copyns 1 less less", b"less: only lock may stand there"),
    (b"opentree 1 / less", b"less: only rec may stand there"),
    (b"movetree 2 all /", b"all" + NUMBER),
    (b"mkfs a\0 t s", b"a\\x00: a byte is zero"),
    (b"mkdir a /\\041", b"/\\041: a backslash begins none of \\040, \\011, \\012 and \\134"),
    (b"mount 1 a /m ro", b"ro: only set= with words may stand there"),
    (b"mount 1 a /m set=rw", b"rw: set= takes " + SET_WORDS),
    (b"mount 1 a /m set=", b"an empty word: set= takes " + SET_WORDS),
    (b"mount 1 a /m set=ro set=ro", USAGE + b"mount NS FS PATH [set=W,..]"),
    (b"setattr 1 / rw", b"rw: the options are rec, set=, clr= and prop="),
    (b"setattr 1 / set=ro,atime", b"atime: set= takes " + SET_WORDS),
    (b"setattr 1 / set=", b"an empty word: set= takes " + SET_WORDS),
    (b"setattr 1 / clr=relatime", b"relatime: clr= takes " + CLR_WORDS),
    (b"setattr 1 / prop=share", b"share: prop= takes shared, private, slave or unbindable"),
    (b"setattr 1 / rec set=ro rec", TWICE),
)

# Words of random lines: those that begin one, but for what waits or ends, and others.
BEGINNINGS = [word for word in commands.LINES if word not in (b"follow", *commands.ENDING)]
WORDS = (
    *(b"1", b"2", b"01", b"1025", b"all", b"less", b"lock", b"rec", b"rec", b"set=ro", b"set=", b"set=ro,", b"clr=atime", b"clr=relatime"),
    *(b"prop=slave", b"prop=", b"/", b"/m", b"//", b"m", b"", b"\\040", b"\\", b"a\0", b"\xff", b"x" * 300),
)


def without_reasons(complaint):
    """A complaint without what is said of its lines after their refusals, and that: the lines' numbers and refusals."""
    lines = complaint.splitlines(keepends=True)
    said = [(int(found[1]), found[2]) for found in map(SAID.match, lines) if found]
    return b"".join(line for line in lines if not SAID.match(line) and not line.startswith(BELOW)), said


def check_of_script(server, mountctl, line, said):
    """What is said of a line that stands in a script."""
    found = run(mountctl, b"# none\n" + line + b"\n", server.path, "-")
    shown_line = run(mountctl, line + b"\n", server.path, "-")[2].split(b"\n")[0].split(b": ", 2)[2]
    wanted = b"mountctl: line 2: %b\nmountctl: line 2: BadLine: %b\n" % (shown_line, said)
    check(f"what is said of {line!r} in a script", found == (1, b"no BadLine\n", wanted), repr(found))


def check_by_hand(server, mountctl):
    """Each of these lines, in a script and as words; those of words that no argument can have are in scripts alone."""
    for line, said in BAD:
        check_of_script(server, mountctl, line, said)
        words = line.split(b" ")
        # Backslashes of words are escaped, no word may have a zero byte, and all have to be UTF-8.
        if b"\\" in line or b"\0" in line or b"\xff" in line:
            continue
        found = subprocess.run([mountctl, server.path, *words], input=b"", capture_output=True, timeout=MOST_SECONDS)
        found = found.returncode, found.stdout, found.stderr
        # An empty word in front is no socket, and the program takes it for a word.
        check(f"what is said of the words {line!r}", found == (1, b"no BadLine\n", b"mountctl: BadLine: %b\n" % said), repr(found))


def random_line(author):
    """A line of random words, of which the first may begin a line."""
    words = [author.choice(BEGINNINGS) if author.random() < 0.9 else b"x" * author.randrange(4)]
    return b" ".join([*words, *author.choices(WORDS, k=author.randrange(5))])


def check_random(server, mountctl):
    """Something is said of exactly the lines that are refused as bad, and of others only what they are refused for."""
    author = random.Random(7)
    lines = [line for line in (random_line(author) for _ in range(LINES)) if not line.startswith((b"#", b"watch")) and line]
    found = run(mountctl, b"".join(line + b"\n" for line in lines), server.path, "-")
    refused = re.findall(rb"(?m)^mountctl: line (\d+): .*: no (\w+)$", without_reasons(found[2])[0])
    wanted = [int(number) for number, name in refused if name == b"BadLine"]
    _, said = without_reasons(found[2])
    bad = [number for number, name in said if name == b"BadLine"]
    check("bad lines, and what is said of them", len(wanted) > LINES // 4 and bad == wanted, f"{len(bad)} of {len(wanted)}")
    names = {(int(number), name) for number, name in refused}
    check("nothing is said of other refusals", {*said} <= names, repr([one for one in said if one not in names][:9]))
    print(f"{len(wanted)} of {len(lines)} random lines are bad, and it is said why", flush=True)


def check_reasons(program, mountctl):
    """What is said of refused lines."""
    with Server(program) as server:
        with server.free() as client:
            for line in *START[:5], b"mount 1 d /m":
                client.ask(line)
        check_by_hand(server, mountctl)
        check_random(server, mountctl)
        ended = server.stop()
        check("the server behind bad lines", ended == (0, b""), shown(ended[1]))
