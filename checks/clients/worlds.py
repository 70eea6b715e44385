"""What `mountctl import FILE..` makes of the tables of several namespaces: one script for all. A module, a part of server.py.

Random worlds are played in a plain session, and the tables of all their namespaces are written to files and imported at
once. The script is sent to a new plain session, which accepts each line; then all namespaces have the tables that were
imported, up to the numbers of mounts, groups, devices and namespaces, which are the same ones in all tables, and without
the mounts that comments tell, each with its row. Some worlds have one table less, and of some rows are changed or gone.
"""
import contextlib
import os
import random
import tempfile
import time

from clients import crowds, mountinfos
from clients.imports import directories, random_command
from clients.mountctl import Asked
from clients.outcomes import MOST_TABLES, check_world, files_of, import_tables
from harness import commands
from harness.allocations import Refusing
from harness.protocol import rows_of, word_of
from harness.runs import Served, answer_groups, check, run, session, shown
from harness.scripts import Author

# How many random worlds there are, how many without one of their tables, and how many of which rows are changed or gone.
WORLDS, LESS, CHANGED = 300, 100, 100

# How many namespaces a world has.
FEWEST, MOST = 2, 5
MOST_ROWS = 200

# How long an import of so many rows may take, in seconds.
LARGE, SECONDS = 4_000, 1


# The worlds.


class Wide(Author):
    """An author who makes more namespaces."""

    def __init__(self, chance):
        super().__init__(chance)
        self.commands["copyns"] = max(4 * self.commands["copyns"], 2)
        self.commands["dropns"] *= 2


def played(program, source):
    """The tables of the namespaces that a script of an author leads to."""
    author, texts = Wide(source), {}
    with contextlib.closing(Served(program)) as server:
        while (line := author.next_line({space: rows_of(text) for space, text in texts.items()})) is not None:
            [[answer, *_]] = server.ask(line)
            if not answer.startswith(b"ok"):
                continue
            if word_of(line) in commands.MAKING_NAMESPACES:
                texts[int(answer.split(b" ")[1])] = b""
            elif line.startswith(b"dropns"):
                del texts[int(line.split(b" ")[1])]
            found = server.ask(*(b"show %d" % space for space in texts))
            texts = {space: b"\n".join(rows) for space, [_, *rows] in zip(texts, found)}
    return [text.split(b"\n") for text in texts.values()]


def any_command(source):
    """A command of those that clients/imports.py has, or of those that it has not."""
    line = random_command(source)
    word, *words = line.split(b" ")
    if word == b"move" and source.random() < 0.5:
        return b" ".join([b"pivot", *words])
    if word == b"umount" and source.random() < 0.5:
        return b" ".join([b"detach", *words])
    return b"dropns %d" % source.randint(1, 5) if source.random() < 0.02 else line


def drawn(program, source):
    """The tables of the namespaces that commands lead to which are drawn without a look at what is there."""
    lines = [*directories(), b"setattr 1 / prop=shared"][: -1 if source.random() < 0.4 else None]
    lines += [any_command(source) for _ in range(source.choice((20, 40, 60)))]
    return shown_tables(program, lines, range(1, MOST_TABLES + 1))


def shown_tables(program, lines, spaces):
    """The tables of those of these namespaces that are there after these lines."""
    asked = lines + [b"show %d" % space for space in spaces]
    groups = answer_groups(session(program, asked)[1], asked)[len(lines) :]
    return [rows for first, *rows in groups if first.startswith(b"ok")]


def worlds(program):
    """The tables of one world after another, each of as many namespaces and rows as a world has."""
    seed = 0
    while True:
        source = random.Random(f"world {seed}")
        tables = (drawn if seed % 3 == 0 else played)(program, source)
        if FEWEST <= len(tables) <= MOST and sum(map(len, tables)) <= MOST_ROWS:
            yield source, tables
        seed += 1


# Rows that tell something else.


def changed(source, tables):
    """Tables of which some rows are gone, and some tell something else in one field."""
    lines = [line.split(b" ") for table in tables for line in table]
    for table in tables:
        rows = [line for line in table if source.random() >= 0.02]
        yield [other(source, line.split(b" "), lines) if source.random() < 0.06 else line for line in rows]


def other(source, words, lines):
    """A row with one field of another row, or one that no row has."""
    words, there = list(words), source.choice(lines)
    dash, others = words.index(b"-"), there.index(b"-")
    at = source.choice([1, 2, 3, 4, 5, "tags", "tags", "tags", "kind", "source"])
    if at == "tags":
        tags = [b"shared:%d", b"master:%d", b"propagate_from:%d"]
        drawn_tag = source.choice([source.choice(tags) % source.randint(1, 6), b"unbindable"])
        words[6:dash] = source.choice([[], there[6:others], [*words[6:dash], drawn_tag], words[6 : dash - 1]])
    elif at in ("kind", "source"):
        words[dash + (1 if at == "kind" else 2)] = source.choice([b"ext4", b"a\\040b", b"#x", b""])
    else:
        odd = {3: [b"/x//deleted", b"net:[4]"], 4: [b"x", b"/x/../y"], 5: [b"ro,rw", b"rw,idmapped", b"ro,noatime,relatime"]}
        words[at] = source.choice([there[at], there[at], *odd.get(at, [])])
    return b" ".join(words)


# The checks.


def check_random(program, mountctl):
    """Worlds are made as they are, and with one table less; of changed rows all is made that is not told."""
    made, lefts = worlds(program), []
    for number in range(WORLDS):
        source, tables = next(made)
        world = check_world(program, mountctl, f"world {number}", tables)
        lefts.append(len(world.left()))
        if number % (WORLDS // LESS) == 0:
            gone = source.randrange(len(tables))
            check_world(program, mountctl, f"world {number} without table {gone + 1}", tables[:gone] + tables[gone + 1 :])
        if number % (WORLDS // CHANGED) == 1:
            check_world(program, mountctl, f"world {number}, changed", list(changed(source, tables)))
    print(f"{WORLDS} worlds imported, {sum(left > 0 for left in lefts)} with mounts left out, {sum(lefts)} of them")


def check_same(program, mountctl):
    """A table that is given twice is made once, and told."""
    table = [line for line in mountinfos.HOST.split(b"\n") if line]
    world = check_world(program, mountctl, "a table given twice", [table, table])
    again = [line for line in world.script if line.startswith(b"# table 2: ")]
    check("a table given twice is told", all(b" is left out: its table is told before: " in line for line in again) and len(again) >= len(table), shown(b"\n".join(again)))


def check_hooked(program, mountctl):
    """Slaves that what is mounted for them comes to are made, and the numbers of their groups are told."""
    world = check_world(program, mountctl, "slaves that a hook comes to", mountinfos.HOOKED)
    world.check("nothing is left out", world.left() == [])


def check_files(mountctl):
    """Files that cannot be read and lines that are none are refused by name, and nothing is printed; so many files may be given."""
    good = b"1 1 0:1 / / rw,relatime - tmpfs none rw"
    with files_of([[good], [good, b"none"], [], [good]]) as names:
        first, second, empty, folder = names
        os.remove(folder)
        for wrong, told in ([first, second], (second, "line 2 is no row of a mountinfo")), ([first, folder], (folder, "no such file or directory")):
            wanted = 1, b"", f"mountctl: {told[0]}: {told[1]}\n".encode()
            for words in wrong, wrong[::-1], [wrong[1]]:
                found = run(mountctl, b"", "import", *words)
                check(f"import {' '.join(words)}", found == wanted, repr(found))
        os.mkdir(folder)
        found = run(mountctl, b"", "import", folder)
        check("import of a folder", found == (1, b"", f"mountctl: {folder}: read fault\n".encode()), repr(found))
        found = run(mountctl, b"", "import", first, empty)
        check("import of an empty file", found[0] == 0 and b"# table 2 has no root mount\n" in found[1] and not found[2], repr(found))
        for count in MOST_TABLES, MOST_TABLES + 1:
            status, script, complaint = run(mountctl, b"", "import", *[first] * count)
            check(f"import of {count} files", (status, script != b"", complaint) == (0, True, b""), shown(complaint))
        for words in ["--room"], ["--room", "0"], ["--room", "257"], ["--room", "x"], ["--room", "2", "--room", "2"]:
            status, script, complaint = run(mountctl, b"", "import", first, *words)
            check(f"import with {' '.join(words)}", (status, script, b"a room is given once" in complaint) == (2, b"", True), shown(complaint))


def check_refused(mountctl):
    """Each allocation of an import of files is refused in turn."""
    with tempfile.TemporaryDirectory() as folder, files_of([mountinfos.HOST.splitlines(), [b"1 1 0:1 / / rw - tmpfs none rw"]]) as names:
        refusing, asked = Refusing(folder), Asked(mountctl, ["import", *names])
        count = refusing.count(asked)
        refusing.each(asked, "an import of files", count)
    print(f"{count} allocations of an import of files refused in turn", flush=True)


def copies(rows, count, field):
    """A table of these rows, and so many copies of it that get from its groups by this field."""
    lines = list(rows)
    yield lines
    for copy in range(1, count + 1):
        table = []
        for line in lines:
            words = line.split(b" ")
            words[0], words[1] = b"%d" % (int(words[0]) + 10_000 * copy), b"%d" % (int(words[1]) + 10_000 * copy)
            table.append(b" ".join(words).replace(b"shared:", field))
        yield table


# Large worlds, by name.
CROWDS = {
    "4,000 mounts in groups of one": [list(crowds.alone(LARGE))],
    "2,000 mounts, and copies of all": list(copies(crowds.alone(2_000), 1, b"shared:")),
    "100 mounts, and slaves of all in 39 tables": list(copies(crowds.alone(100), 39, b"master:")),
    "100 mounts, and copies of all in 39 tables": list(copies(crowds.alone(100), 39, b"shared:")),
    "1,000 mounts of one group": [list(crowds.peers(1_000))],
    "500 mounts of one group, and copies of all": list(copies(crowds.peers(500), 1, b"shared:")),
}


def check_large(program, mountctl):
    """Large worlds are imported in a second each; how long it takes to build them is printed."""
    for name, tables in CROWDS.items():
        start = time.monotonic()
        import_tables(mountctl, tables)
        took = time.monotonic() - start
        check(f"import of {name} in a second", took < SECONDS, f"{took:.1f} s")
        world = check_world(program, mountctl, name, tables)
        start = time.monotonic()
        session(program, world.commands, *world.room)
        built = time.monotonic() - start
        counts = f"{sum(map(len, tables))} rows, {len(world.left())} left out, {len(world.commands)} commands, {len(world.refused)} refused"
        print(f"{name}: imported in {took:.2f} s, built in {built:.2f} s: {counts}", flush=True)


def check_worlds(program, mountctl):
    check_files(mountctl)
    check_refused(mountctl)
    check_same(program, mountctl)
    check_hooked(program, mountctl)
    check_random(program, mountctl)
    check_large(program, mountctl)
