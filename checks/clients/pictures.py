"""Pictures of tables, which the other program draws: a module, a part of server.py.

Each world is drawn here as well, of what `show` answers, by what docs/RULES.md says of pictures and by no
other code. Where dot(1) is there, it reads each graph (clients/graphs.py).
"""
import collections
import os
import re
import shutil
import time
from typing import NamedTuple

from clients.graphs import cells_of, check_graph
from clients.growth import check_growth
from documents import tour
from harness import commands
from harness.protocol import row_of, word_of
from harness.runs import TOP, check, difference, is_there, read, run, shown, write
from harness.servers import Server
from sessions import cases

# Worlds of more mounts are left out.
MOST_MOUNTS = 200

# How many paths of a namespace are drawn.
MOST_PATHS = 5

# How many characters wide a column is at most: what is wider pushes the cells after it to the right.
MOST_WIDTH = 60

# How long the largest world may take, in seconds.
MOST_DRAWING = 5

# The graphs in docs/pictures: each is drawn at the end of a session of docs/TOUR.md, or of a case.
DRAWN = {
    "propagation.svg": "cases/three-namespaces",
    "three-namespaces.svg": "three-namespaces",
    "moved-tree.svg": "move",
    "before-the-pivot.svg": "bubblewrap",
    "after-the-pivot.svg": "pivot",
    "after-the-detach.svg": "detach",
}

# What is written in an SVG, beside where.
WRITTEN = re.compile(rb"<(?:title|text)[^>]*>([^<]*)<")

HEADER = b"ID", b"TARGET", b"SOURCE", b"FSTYPE", b"OPTIONS", b"PROPAGATION"


class Pieces(NamedTuple):
    """What stands before a target: for a mount with a next sibling, for a last one, and below each of them."""

    inner: bytes
    last: bytes
    below_inner: bytes
    below_last: bytes


LINES = Pieces("├─".encode(), "└─".encode(), "│ ".encode(), b"  ")
PLAIN = Pieces(b"|-", b"`-", b"| ", b"  ")


def drawn_rows(mounts, pieces):
    """The cells of each mount, in the order of the drawing, each with what stands before its target."""
    ids = {mount.id for mount in mounts}
    below, tops = collections.defaultdict(list), []
    for mount in mounts:
        is_top = mount.parent == mount.id or mount.parent not in ids
        (tops if is_top else below[mount.parent]).append(mount)
    rows, waiting = [], [(mount, b"", b"") for mount in reversed(tops)]
    while waiting:
        mount, before, indent = waiting.pop()
        rows.append(cells_of(mount, before))
        children = below[mount.id]
        for child in reversed(children):
            piece, more = (pieces.last, pieces.below_last) if child is children[-1] else (pieces.inner, pieces.below_inner)
            waiting.append((child, indent + piece, indent + more))
    return rows


def width(cell):
    """How many characters a cell has."""
    return sum(byte & 0xC0 != 0x80 for byte in cell)


def drawn_part(space, mounts, pieces):
    """The tree of one namespace."""
    rows = [HEADER, *drawn_rows(mounts, pieces)]
    widths = [min(MOST_WIDTH, max(map(width, column))) for column in zip(*rows)]
    text = b"namespace %d\n" % space
    for *row, last in rows:
        text += b"".join(cell + b" " * (max(0, most - width(cell)) + 1) for cell, most in zip(row, widths)) + last + b"\n"
    return text


def drawn(tables, pieces=LINES):
    """The trees of these tables, by their namespaces."""
    return b"\n".join(drawn_part(space, mounts, pieces) for space, mounts in tables.items())


def tables_of(client, most):
    """The mounts of each namespace up to this one that is there."""
    answers = {space: client.ask(b"show %d" % space) for space in range(1, most + 1)}
    return {space: list(map(row_of, lines)) for space, (told, *lines) in answers.items() if told.startswith(b"ok")}


def world_of(case):
    """The commands of a case, and how many namespaces they may make."""
    lines = [turn.sent().removesuffix(b"\n") for turn in case.turns if turn.sent().endswith(b"\n")]
    lines = [line for line in lines if word_of(line) in commands.CHANGING]
    return lines, sum(word_of(line) in commands.MAKING_NAMESPACES for line in lines)


def check_drawn(name, mountctl, path, words, wanted):
    """These words draw this."""
    status, found, complaint = run(mountctl, b"", path, *words.split())
    check(f"{name}: mountctl {words}: its end", (status, complaint) == (0, b""), f"{status}, {shown(complaint)}")
    check(f"{name}: mountctl {words}", found == wanted, difference(wanted, found, words))


def check_trees(name, mountctl, path, tables):
    """All namespaces together, and each alone, with both kinds of lines."""
    check_drawn(name, mountctl, path, "tree", drawn(tables))
    check_drawn(name, mountctl, path, "tree --ascii", drawn(tables, PLAIN))
    for space, mounts in tables.items():
        check_drawn(name, mountctl, path, f"tree {space}", drawn({space: mounts}))
        check_drawn(name, mountctl, path, f"tree {space} --ascii", drawn({space: mounts}, PLAIN))


def is_at_or_below(point, path):
    """Whether a mount point is a path, or below it."""
    return path == b"/" or point == path or point.startswith(path + b"/")


def part_of(mounts, top, path):
    """The mount of this number, on which a path ends, and those below it whose mount points are the path or below it."""
    below, waiting = {top}, [top]
    while waiting:
        parent = waiting.pop()
        children = {mount.id for mount in mounts if mount.parent == parent} - below
        below |= children
        waiting += children
    return [mount for mount in mounts if mount.id == top or mount.id in below and is_at_or_below(mount.point, path)]


def paths_of(mounts):
    """Some mount points, and the folders around them, of a case."""
    points = {mount.point for mount in mounts}
    paths = points | {point.rpartition(b"/")[0] or b"/" for point in points}
    return [path for path in sorted(paths) if b"\\" not in path and path.isascii()][:MOST_PATHS]


def check_parts(name, mountctl, path, client, tables):
    """The parts of namespaces to which paths lead, of which one is drawn as a graph too. How many are not all of a namespace."""
    smaller = 0
    for space, mounts in tables.items():
        for place in paths_of(mounts):
            told, *words = client.ask(b"find %d %b" % (space, place))[0].split()
            if told == b"ok":
                part = {space: part_of(mounts, int(words[0]), place)}
                check_drawn(name, mountctl, path, f"tree {space} {place.decode()}", drawn(part))
                if smaller == 0 and len(part[space]) < len(mounts):
                    check_graph(name, mountctl, path, part, str(space), place.decode())
                smaller += len(part[space]) < len(mounts)
    return smaller


def check_cases(program, mountctl):
    """The world that each case leaves is drawn as it is shown."""
    worlds, mounts, parts = 0, 0, 0
    for name in cases.names():
        case = cases.load(name)
        lines, spaces = world_of(case)
        with Server(program, *case.arguments) as server, server.client() as client:
            for line in lines:
                client.ask(line)
            tables = tables_of(client, spaces)
            count = sum(map(len, tables.values()))
            if count <= MOST_MOUNTS:
                check_trees(f"case {name}", mountctl, server.path, tables)
                check_graph(f"case {name}", mountctl, server.path, tables)
                parts += check_parts(f"case {name}", mountctl, server.path, client, tables)
                worlds, mounts = worlds + 1, mounts + count
    check("mounts of cases are drawn", mounts > 0 and parts > 0)
    print(f"{mounts} mounts of {worlds} cases and {parts} parts of their namespaces drawn", flush=True)


# Thirty mounts, each of a group of its own, of which each has a peer in the other namespace.
GROUPS = [
    b"mkfs a tmpfs none",
    *[b"mkdir a /%d" % at for at in range(30)],
    b"newns a",
    *[line for at in range(30) for line in (b"mount 1 a /%d" % at, b"setattr 1 /%d prop=shared" % at)],
    b"copyns 1",
]


def check_colours(program, mountctl):
    """More groups than there are colours."""
    with Server(program) as server, server.client() as client:
        for line in GROUPS:
            client.ask(line)
        tables = tables_of(client, 2)
        check("thirty groups", [len(mounts) for mounts in tables.values()] == [31, 31], repr(tables))
        check_graph("thirty groups", mountctl, server.path, tables)


# A world of some 4,000 mounts: a stack of 62 on each of 64 directories.
LARGE = [
    b"mkfs a tmpfs none",
    *[b"mkdir a /%d" % at for at in range(64)],
    b"newns a",
    *[b"mount 1 a /%d" % at for at in range(64) for _ in range(62)],
]


def check_large(program, mountctl):
    """A large world is drawn in time."""
    with Server(program) as server, server.client() as client:
        for line in LARGE:
            client.ask(line)
        tables = tables_of(client, 1)
        check("a large world", len(tables[1]) == 64 * 62 + 1, str(len(tables[1])))
        for words, wanted in ("tree", drawn(tables)), ("tree 1 --ascii", drawn(tables, PLAIN)):
            start = time.monotonic()
            check_drawn("a large world", mountctl, server.path, words, wanted)
            took = time.monotonic() - start
            check(f"a large world: mountctl {words} in time", took < MOST_DRAWING, f"{took:.1f} s")
            print(f"{len(tables[1])} mounts drawn by {words}: {took:.1f} s", flush=True)


def check_refusals(program, mountctl):
    """A namespace that is not there, and no namespace at all."""
    with Server(program) as server:
        for words in "tree 99", "tree 99 --ascii":
            found = run(mountctl, b"", server.path, *words.split())
            check(f"mountctl {words}", found == (1, b"no NoNamespace\n", b""), repr(found))
        check_trees("no namespace", mountctl, server.path, {})
        check_graph("no namespace", mountctl, server.path, {})


def drawn_session(program, mountctl, name):
    """The graph of the world in which a session ends, as an SVG."""
    folder, _, case = name.rpartition("/")
    requests = (cases.load(case) if folder else cases.parse(tour.sessions()[name])).requests()
    with Server(program) as server, server.client() as client:
        for line in requests:
            client.ask(line)
        graph = run(mountctl, b"", server.path, "dot")[1]
    return run("dot", graph, "-Tsvg")[1]


def check_stored_pictures(program, mountctl):
    """The pictures of the documents have the boxes, mounts and edges of their sessions, wherever dot puts them."""
    for name, session in DRAWN.items():
        stored, found = (WRITTEN.findall(svg) for svg in (read("docs", "pictures", name), drawn_session(program, mountctl, session)))
        check(f"docs/pictures/{name}", stored and sorted(stored) == sorted(found), f"stored {stored}\nfound  {found}")


def written_graphs():
    """The names of the graphs that are written in docs/pictures."""
    return sorted(name.removesuffix(".dot") for name in os.listdir(os.path.join(TOP, "docs", "pictures")) if name.endswith(".dot"))


def drawn_graph(name):
    """The picture of a graph that is written in docs/pictures."""
    return run("dot", read("docs", "pictures", f"{name}.dot"), "-Tsvg")[1]


def check_written_graphs():
    """Each graph that is written in docs/pictures has its picture there, with the same boxes and edges."""
    for name in written_graphs():
        stored, drawn_anew = read("docs", "pictures", f"{name}.svg"), drawn_graph(name)
        check(f"docs/pictures/{name}.svg", sorted(WRITTEN.findall(stored)) == sorted(WRITTEN.findall(drawn_anew)) != [], "draw it again")


def update_pictures(program, mountctl):
    """Draws the pictures of the documents again."""
    for name, session in DRAWN.items():
        write(drawn_session(program, mountctl, session), "docs", "pictures", name)
    for name in written_graphs():
        write(drawn_graph(name), "docs", "pictures", f"{name}.svg")


def check_pictures(program, mountctl):
    """Trees and graphs of worlds, and what is refused."""
    check("dot is there, as CI needs it", is_there("dot", "graphviz") or "CI" not in os.environ)
    check_cases(program, mountctl)
    check_large(program, mountctl)
    check_colours(program, mountctl)
    check_growth(mountctl)
    check_refusals(program, mountctl)
    if shutil.which("dot"):
        check_stored_pictures(program, mountctl)
        check_written_graphs()
    else:
        print("dot (package graphviz) is not there: graphs were skipped", flush=True)
