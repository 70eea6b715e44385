"""Answers that say more than a server has: the other program takes none of them. A module, a part of server.py.

A door in the place of a server answers so and leaves the connection open, so that a program which waits for what was said does
not end. A server of the greatest room has at most 1,048,576 mounts and 16,384 namespaces, and rows come by rising ID; so a post
has at most 2,097,152 lines after its first one, as many mounts that left and as many rows, and at most 16,384 posts wait.
"""
import subprocess
import tempfile

from harness.runs import check, connection_fault
from harness.servers import Door

# How long a program may take to end, in seconds.
MOST_SECONDS = 10

GREATEST = 2**64 - 1

# What there may be at most: rows, namespaces, lines of an opening, of a post, and of the posts that wait.
ROWS = 1_048_576
SPACES = 16_384
OPENING = ROWS + SPACES
POST = 2 * ROWS
WAITING = 16_384 * (POST + 1)

ROW = b"2 2 0:1 / / rw,relatime - tmpfs none rw\n"
NEXT = b"3 2 0:1 / /m rw,relatime - tmpfs none rw\n"

EMPTY = b"ok 0\n"
ONE = b"ok 2\nspace 1 0 1\n" + ROW
FULL = b"ok %d\nspace 1 0 %d\n" % (ROWS + 1, ROWS) + b"".join(b"%d 2 0:1 / / rw - tmpfs none rw\n" % (i + 1) for i in range(ROWS))


def made(spaces):
    """The posts of namespaces that come later, each with its root mount."""
    return b"".join(b"event %d 1 1\n= " % n + ROW for n in spaces)


def came_and_went(spaces):
    """The posts of namespaces that come later and are dropped again, one after another."""
    return b"".join(b"event %d 1 1\n= " % n + ROW + b"event %d 2 1\n- 2\n" % n for n in spaces)


def left(count):
    """A post of so many mounts that left."""
    return b"event 1 1 %d\n" % count + b"".join(b"- %d\n" % (i + 1) for i in range(count))


# Words, what is answered, how much of that is printed, or None where that is not looked at, and whether it is a fault: else more
# lines are waited for.
ANSWERS = (
    ("show 1", b"ok %d 1\n" % GREATEST, b"", True),
    ("show 1", b"ok %d 1\n" % (ROWS + 1), b"", True),
    ("show 1", b"ok %d 1\n" % ROWS + ROW, b"ok %d 1\n" % ROWS + ROW, False),
    ("show 1", b"ok 3 1\n" + ROW + ROW, b"ok 3 1\n" + ROW, True),
    ("show 1", b"ok 3 1\n" + NEXT + ROW, b"ok 3 1\n" + NEXT, True),
    ("show 1", b"ok 3 1\n" + ROW + NEXT, b"ok 3 1\n" + ROW + NEXT, False),
    ("watch all", b"ok %d\n" % GREATEST, b"", True),
    ("watch all", b"ok %d\n" % (OPENING + 1), b"", True),
    ("watch all", b"ok %d\nspace 1 0 %d\n" % (OPENING, ROWS + 1), b"ok %d\n" % OPENING, True),
    ("watch all", b"ok %d\nspace 1 0 %d\n" % (OPENING, ROWS) + ROW, b"ok %d\nspace 1 0 %d\n" % (OPENING, ROWS) + ROW, False),
    ("watch all", b"ok 4\nspace 1 0 3\n" + ROW + ROW, b"ok 4\nspace 1 0 3\n" + ROW, True),
    ("follow 1", b"event 1 1 %d\n" % GREATEST, b"", True),
    ("follow 1", b"event 1 1 %d\n" % (POST + 1), b"", True),
    ("follow 1", b"event 1 1 %d\n" % POST, b"", False),
    ("follow 1", left(ROWS + 1), b"", True),
    ("follow 1", left(ROWS), left(ROWS), False),
    ("take 8", b"ok %d\n" % GREATEST, b"", True),
    ("take 8", b"ok %d\n" % (WAITING + 1), b"", True),
    ("take 8", b"ok %d\n" % WAITING, b"ok %d\n" % WAITING, False),
    ("take 8", b"ok %d\nevent 1 1 %d\n" % (WAITING, POST + 1), b"ok %d\n" % WAITING, True),
    ("mirror 1 1", ONE + b"event 1 1 %d\n" % (POST + 1), b"", True),
    ("mirror 1 1", ONE + b"event 1 1 %d\n" % POST, b"", False),
    ("mirror 1 2", FULL + b"event 1 1 1\n= 5000000" + ROW[1:], b"", True),
    ("mirror 1 2", FULL + b"event 1 1 2\n- %d\n= 5000000" % ROWS + ROW[1:], b"", False),
    ("monitor all", EMPTY + b"event 1 1 %d\n" % (POST + 1), b"", True),
    ("monitor all", EMPTY + b"event 1 1 %d\n" % POST, b"", False),
    ("monitor all", EMPTY + made(range(1, SPACES + 2)), None, True),
    ("monitor all", EMPTY + made(range(1, SPACES + 1)), None, False),
    ("monitor all", EMPTY + came_and_went(range(1, SPACES + 200)), None, False),
    *(
        (words, b"ok %d\n" % (SPACES + 1) + b"".join(b"space %d 0 0\n" % n for n in range(1, SPACES + 2)), b"", True)
        for words in ("tree", "tree --json", "dot", "monitor all")
    ),
    *(
        (words, answer, b"", is_fault)
        for words in ("tree", "tree --json", "dot", "monitor all", "mirror 1 1")
        for answer, is_fault in (
            (b"ok %d\n" % GREATEST, True),
            (b"ok %d\n" % (OPENING + 1), True),
            (b"ok %d\n" % OPENING, False),
            (b"ok %d\nspace 1 0 %d\n" % (OPENING, GREATEST), True),
            (b"ok %d\nspace 1 0 %d\n" % (OPENING, ROWS + 1), True),
            (b"ok %d\nspace 1 0 %d\n" % (OPENING, ROWS) + ROW + NEXT, False),
            (b"ok %d\nspace 1 0 %d\n" % (OPENING, ROWS) + NEXT + ROW, True),
            (b"ok 4\nspace 1 0 3\n" + ROW + ROW, True),
        )
    ),
)


def ends(client, seconds):
    """Whether a program ends by itself in so many seconds."""
    try:
        client.wait(seconds)
    except subprocess.TimeoutExpired:
        return False
    return True


def answered(mountctl, words, answer, seconds):
    """Whether the program ends by itself in so many seconds, its status, what it prints, which may be much, and what it should complain of."""
    with tempfile.TemporaryFile() as out, tempfile.TemporaryFile() as complaint, Door() as door:
        with subprocess.Popen([mountctl, door.path, *words.split()], stdout=out, stderr=complaint) as client:
            with door.accept() as stream:
                stream.sendall(answer)
                ended = ends(client, seconds)
            client.wait(MOST_SECONDS)
        out.seek(0)
        complaint.seek(0)
        return ended, client.returncode, out.read(), complaint.read(), connection_fault(door.path)


def check_limits(_program, mountctl):
    for words, answer, printed, is_fault in ANSWERS:
        ended, status, text, complaint, wanted = answered(mountctl, words, answer, MOST_SECONDS if is_fault else 0.2)
        good = (ended, status, complaint) == (is_fault, 3, wanted) and printed in (None, text)
        said = f"{ended}, {status}, {text[-200:]}, {complaint}"
        check(f"mountctl {words}, and {answer[:80]!r}, {len(answer):,} bytes without an end", good, said)
