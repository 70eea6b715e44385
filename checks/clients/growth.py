"""How long a drawing of a large table takes, beside another task of the same size: a module, for clients/pictures.py.

A body that looks at all rows for each row takes several times as long. Processor time is compared, of the best of a few runs,
each beside its measure on the same machine. The tree of a stack is the longest text: each of its lines is led to by as many
pieces as mounts stand above it.
"""
import concurrent.futures
import resource

from harness.runs import check, run
from harness.servers import Door

# How many rows there are, and how many runs of each task.
ROWS, RUNS = 4_000, 5


def row_of(at, parent, tags=b""):
    """The row of a mount, of which each number has a path of its own."""
    return b"%d %d 0:1 / /%b rw,relatime%b - tmpfs none rw" % (at, parent, b"%d" % at if at > 1 else b"", tags)


STACK = [row_of(at, max(1, at - 1)) for at in range(1, ROWS + 1)]
WIDE = [row_of(at, 1) for at in range(1, ROWS + 1)]
RING = [row_of(at, at - 1 or ROWS) for at in range(1, ROWS + 1)]
GROUPS = [row_of(at, 1, b" shared:%d" % at) for at in range(1, ROWS + 1)]
SLAVES = [row_of(at, 1, b" shared:%d" % (ROWS + 1 - at) if at > ROWS / 2 else b" master:%d" % at) for at in range(1, ROWS + 1)]

# What is drawn of which rows, what it is measured by, and how many times as long it may take.
DRAWINGS = (
    ("tree", STACK, "dot", WIDE, 20),
    ("tree", WIDE, "dot", WIDE, 3),
    ("tree", RING, "dot", WIDE, 3),
    ("tree --json", STACK, "show 1 --json", WIDE, 1.5),
    ("tree --json", WIDE, "show 1 --json", WIDE, 1.5),
    ("dot", GROUPS, "dot", WIDE, 3),
    ("dot", SLAVES, "dot", WIDE, 3),
    ("dot 1 /", STACK, "dot", WIDE, 3),
    ("tree 1 / --json", WIDE, "show 1 --json", WIDE, 3),
)


def spent():
    """The processor time of the programs that have ended."""
    used = resource.getrusage(resource.RUSAGE_CHILDREN)
    return used.ru_utime + used.ru_stime


def answer_to(words, rows):
    """What a server answers that shows these rows: to a watcher, or to one who asks where a path ends, and then for a table."""
    if "/" in words:
        return b"\n".join([b"ok 1 /", b"ok %d 1" % len(rows), *rows, b""])
    return b"\n".join([b"ok %d" % (len(rows) + 1), b"space 1 0 %d" % len(rows), *rows, b""])


def time_of(mountctl, words, rows):
    """The processor time of one run."""
    with Door() as door, concurrent.futures.ThreadPoolExecutor(1) as pool:
        start = spent()
        running = pool.submit(run, mountctl, b"", door.path, *words.split())
        door.answers(answer_to(words, rows))
        status, text, complaint = running.result()
        check(f"{words} of {len(rows)} rows", (status, complaint) == (0, b"") and len(text) > len(rows), repr((status, complaint)))
        return spent() - start


def check_growth(mountctl):
    """Drawings of large tables take time that grows with the rows and with the text alone."""
    for words, rows, measured_by, others, most in DRAWINGS:
        pairs = [(time_of(mountctl, words, rows), time_of(mountctl, measured_by, others)) for _ in range(RUNS)]
        took, measure = map(min, zip(*pairs))
        told = f"{1000 * took:.1f} ms, {took / measure:.1f} times as long as {measured_by}"
        check(f"{words} of {ROWS} rows in time", took < most * measure, told)
        print(f"{words} of {ROWS} rows: {told}", flush=True)
