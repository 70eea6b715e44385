"""What the other program gives a terminal of strangers' text, and what it writes elsewhere: a module, a part of server.py.

Names have characters that a terminal obeys: controls, characters that turn the direction of text, separators of lines and
paragraphs, and a byte order mark. On a terminal, which is a pseudo terminal here, none of them comes but the ends of lines,
whatever is asked for. In a pipe the answers of lines are the bytes that came; what is told in words, and JSON, have none of them
there either, and JSON means the same.
"""
import concurrent.futures
import contextlib
import json
import os
import pty
import subprocess
import tempfile
import tty

from clients.mountctl import is_obeyed, printable
from harness.runs import MOST_SECONDS, check, run
from harness.servers import Door, Server

# The characters that are obeyed, but for those that no word has: zero, and those with an escape.
HIDDEN = "".join(map(chr, [0x61C, 0x200E, 0x200F, *range(0x2028, 0x202F), *range(0x2066, 0x206A), 0xFEFF]))
CONTROLS = "".join(map(chr, [*range(1, 9), *range(11, 32), *range(127, 160)]))
NAMES = HIDDEN, CONTROLS, "a\x1b[2Jb", "gpj.\u202eexe", "é日本"

# A world with each name as a directory, a type and a source.
WORLD = [
    "mkfs a tmpfs none",
    "newns a",
    *(f"mkfs {at} {name} {name}" for at, name in enumerate(NAMES)),
    *(f"mkdir a /{name}" for name in NAMES),
    *(f"mount 1 {at} /{name}" for at, name in enumerate(NAMES)),
]

# A row with all of these, what a watcher finds and what is posted then, and tables of which one row is left out.
ROW = "2 1 0:2 / /{0} rw,relatime - {0} {0} rw".format(HIDDEN + CONTROLS).encode()
TOP = b"1 1 0:1 / / rw,relatime - tmpfs none rw"
POSTED = b"\n".join([b"ok 2", b"space 1 0 1", TOP, b"event 1 1 1", b"= " + ROW, b""])
TABLE = b"\n".join([TOP, ROW, ROW.replace(b"2 1 ", b"3 9 "), b""])

# What is asked of the world, and whether what is printed in a pipe has names as they came.
ASKED = (
    (["show", "1"], True),
    (["find", "1", "/" + NAMES[0]], False),
    (["tree"], False),
    (["tree", "--json"], False),
    (["show", "1", "--json"], False),
    (["find", "1", "/" + NAMES[1], "--json"], False),
    (["dot"], False),
)
SCRIPT = f"show 1\nfind 1 /{NAMES[2]}\nwatch 1\nclose\nmkdir a /{NAMES[0]}x\n".encode()


def on_terminal(program, given, *words):
    """Status and what a program writes to a terminal."""
    ours, theirs = pty.openpty()
    tty.setraw(theirs)
    with subprocess.Popen([program, *words], stdin=subprocess.PIPE, stdout=theirs, stderr=subprocess.PIPE) as running:
        os.close(theirs)
        running.stdin.write(given)
        running.stdin.close()
        parts = []
        with contextlib.suppress(OSError):
            while more := os.read(ours, 1 << 16):
                parts.append(more)
        status = running.wait(MOST_SECONDS)
    os.close(ours)
    return status, b"".join(parts)


def obeyed_in(written):
    """The characters of some lines that a terminal obeys, or bytes that are none."""
    return [one for one in written.decode("utf-8", "surrogateescape") if one != "\n" and is_obeyed(one)]


def check_both(name, piped, shown, is_raw):
    """What is written in a pipe, and on a terminal."""
    wanted = b"\n".join(map(printable, piped[1].split(b"\n")))
    check(f"{name} on a terminal", shown == (piped[0], wanted) and not obeyed_in(shown[1]) and wanted, f"{piped}\n{shown}")
    check(f"{name} in a pipe", bool(obeyed_in(piped[1])) == is_raw, repr(piped))


def check_asked(program, mountctl):
    """What is asked of a world."""
    with Server(program) as server, server.client() as client:
        for line in WORLD:
            client.ask(line.encode())
        for words, is_raw in ASKED:
            check_both(words, run(mountctl, b"", server.path, *words), on_terminal(mountctl, b"", server.path, *words), is_raw)
        check_both("a script", run(mountctl, SCRIPT, server.path, "-"), on_terminal(mountctl, SCRIPT.replace(b"x\n", b"y\n"), server.path, "-"), True)
        mounts = json.loads(run(mountctl, b"", server.path, "show", "1", "--json")[1])["filesystems"][1:]
        found = [(mount["target"], mount["fstype"], mount["source"]) for mount in mounts]
        check("names as JSON", found == [("/" + name, name, name) for name in NAMES], repr(found))


def check_posted(mountctl):
    """What is told of a post, and a mirror's table."""
    for words, end, is_raw in (["monitor", "1"], b"no Stopped\n", False), (["monitor", "1", "--json"], b"no Stopped\n", False), (["mirror", "1", "1"], b"ok 1\n", True):
        found = []
        for call in run, lambda program, given, *words: on_terminal(program, given, *words):
            with Door() as door, concurrent.futures.ThreadPoolExecutor(1) as pool:
                running = pool.submit(call, mountctl, b"", door.path, *words)
                door.answers(POSTED + end)
                found.append(running.result())
        check_both(words, found[0][:2], found[1], is_raw)


def check_tables(program, mountctl):
    """A script that is imported, and a question about it."""
    with tempfile.TemporaryDirectory() as folder:
        name = os.path.join(folder, "table")
        with open(name, "wb") as file:
            file.write(TABLE)
        check_both("import", run(mountctl, TABLE, "import"), on_terminal(mountctl, TABLE, "import"), True)
        check_both("import of a file", run(mountctl, b"", "import", name), on_terminal(mountctl, b"", "import", name), True)
        words = ["what-if", name, "--", "setattr", "1", "/", "rec", "set=ro"]
        found = []
        for call in run, on_terminal:
            with Server(program) as server:
                found.append(call(mountctl, b"", server.path, *words))
        check_both("a question", found[0][:2], found[1], False)


def check_terminals(program, mountctl):
    check("names are obeyed", all(map(is_obeyed, HIDDEN + CONTROLS)))
    check_asked(program, mountctl)
    check_posted(mountctl)
    check_tables(program, mountctl)
