"""What a script that was made of tables tells, and how what it builds differs from them. A module, for clients/imports.py and clients/worlds.py."""
import collections
import contextlib
import os
import re
import tempfile
from typing import NamedTuple

from harness import protocol
from harness.runs import answer_groups, check, run, session, shown

# What stands in a script in the place of a line that no server would read.
UNREAD = b"# a line that the server would not read is left out"

# What a script says of a row: of which table it is where it says that, the number of its mount, what, and the row or as much of it as a comment holds.
OF_ROW = re.compile(
    rb"# (?:table (?P<table>\d+): )?mount (?P<id>\d+) (?P<what>%b): (?P<line>.*)"
    % b"|".join(
        [
            rb"is left out: [^:]+",
            rb"has one more line, which is left out",
            rb"has options that are left out",
            rb"has super options that are left out",
            rb"tells another type or source of its device",
            rb"has a type or source that no filesystem can have",
        ]
    ),
    re.DOTALL,
)
MOST_TOLD = 8_000

# The words of those that are not made.
NOT_MADE = b"is left out", b"has one more line"
OTHER_FILESYSTEM = b"tells another type", b"has a type"

# What a script says of a table, of a namespace, of a filesystem and of a group.
SPACE = re.compile(rb"# table (\d+) is namespace (\d+)")
ROOTLESS = re.compile(rb"# table (\d+) has no root mount")
KEEPER = re.compile(rb"# namespace (\d+) keeps masters of which no table has a mount")
FILESYSTEM = re.compile(rb"# (\d+:\d+) is filesystem (\d+)")
ROOM = re.compile(rb"# for a server with --room (\d+), or more")
GROUP = re.compile(rb"# shared:(\d+) of the tables is shared:(\d+)")

ESCAPE = re.compile(rb"\\([0-3][0-7]{2})")

# The most tables of one import.
MOST_TABLES = 64

OPTIONS = {b"ro", b"nosuid", b"nodev", b"noexec", b"noatime", b"nodiratime", b"relatime", b"nosymfollow"}
EXCLUSIVE = {b"rw", b"ro"}, {b"noatime", b"relatime"}


class Row(NamedTuple):
    """A line of a table; what it has in the place of a number that may be another is apart."""

    id: int
    parent: int
    device: bytes
    point: bytes
    groups: tuple
    rest: tuple


def unescaped(word):
    """The bytes of a word, of which the kernel and the server escape some, and not the same ones."""
    return ESCAPE.sub(lambda found: bytes([int(found[1], 8)]), word)


def row_of(line):
    row = protocol.row_of(line)
    numbers = dict(tag.split(b":") for tag in row.tags if b":" in tag)
    groups = tuple(numbers.get(name) for name in (b"shared", b"master", b"propagate_from"))
    known = OPTIONS & set(row.options.split(b","))
    known = frozenset(known - {b"relatime"} if b"noatime" in known else known)
    rest = row.root, known, b"unbindable" in row.tags, unescaped(row.kind), unescaped(row.source)
    return Row(row.id, row.parent, row.device, row.point, groups, rest)


class Renaming:
    """Numbers of one table and those in their places in another, each in one place alone."""

    def __init__(self):
        self.to, self.back = {}, {}

    def fits(self, old, new):
        if old is None or new is None:
            return old is new
        return self.to.setdefault(old, new) == new and self.back.setdefault(new, old) == old


def told(script, what, table=None):
    """The rows of a table, or of all, of which a script says one of these: as much of them as it has."""
    found = filter(None, map(OF_ROW.match, script))
    return [one["line"] for one in found if one["what"].startswith(what) and table in (None, one["table"])]


def left_out(script, table=None):
    """The rows of a table that a script says are not made."""
    return told(script, NOT_MADE, table)


def room_words(script):
    """The arguments of a server that has the room which a script takes."""
    said = ROOM.fullmatch(script[0]) if script else None
    return ["--room", shown(said[1])] if said else []


def has_other_options(line):
    """Whether a row tells options that no mount has here, or that exclude each other."""
    options = set(line.split(b" ")[5].split(b","))
    return not options <= OPTIONS | {b"rw"} or any(both <= options for both in EXCLUSIVE)


def check_super_options(name, made, script):
    """Of each device of the lines that are made one with super options that are left out is told, or the first one has none."""
    found, others = told(script, b"has super"), [line[:MOST_TOLD] for line in made if not line.endswith(b" rw")]
    devices, some = [line.split(b" ")[2] for line in found], {line.split(b" ")[2] for line in others}
    every = some - {line.split(b" ")[2] for line in made if line.endswith(b" rw")}
    good = len(devices) == len(set(devices)) and every <= set(devices) <= some and set(found) <= set(others)
    check(f"{name}: super options that are left out are told", good, "\n".join(map(shown, script)))


def made_lines(lines, script, table=None):
    """The lines of the mounts that a script does not say are left out, but for those that stand on none of these."""
    left, rows = collections.Counter(left_out(script, table)), []
    # Of a row that is there twice the second is the one that is left out.
    for line in reversed(lines):
        left[line[:MOST_TOLD]] -= 1
        if left[line[:MOST_TOLD]] < 0:
            rows.append((row_of(line), line))
    below, numbers, there = {}, {row_of(line).id for line in lines}, {row.id for row, _ in rows}
    for row, line in reversed(rows):
        is_root = row.parent == row.id or row.parent not in (there if row.point == b"/" else numbers)
        below.setdefault(None if is_root else row.parent, []).append((row, line))
    made, ids, waiting = [], set(), below.get(None, [])
    while waiting:
        row, line = waiting.pop()
        if row.id not in ids:
            made.append(line)
            ids.add(row.id)
            waiting += below.get(row.id, [])
    return made


def kept_rows(name, lines, script, table=None):
    """The rows of the mounts that the script makes, each after the one that it stands on. All others are told."""
    made = made_lines(lines, script, table)
    others = collections.Counter(line[:MOST_TOLD] for line in lines)
    others.subtract(line[:MOST_TOLD] for line in made)
    left = collections.Counter(left_out(script, table))
    check(f"{name}: each row that is left out is told", left == +others, "\n".join(map(shown, script)))
    found = sorted(told(script, b"has options", table))
    others = sorted(line[:MOST_TOLD] for line in made if has_other_options(line))
    check(f"{name}: each row with options that are left out is told", found == others, "\n".join(map(shown, script)))
    return [row_of(line) for line in made]


def groups_in_sight(tables):
    """The rows of tables, each with the nearest group above its master that has a member in its table, if the master has none."""
    masters = {row.groups[0]: row.groups[1] for rows in tables for row in rows if row.groups[0]}
    # What is above a master without a member is known of those that get from it.
    above = {row.groups[1]: row.groups[2] for rows in tables for row in rows if row.groups[1]} | masters
    for rows in tables:
        members = {row.groups[0] for row in rows}
        yield [row._replace(groups=(*row.groups[:2], via_of(row, members, masters, above))) for row in rows]


def via_of(row, members, masters, above):
    """The nearest of these groups above the master of a row, where the master is none of them."""
    _, master, via = row.groups
    if master is None or master in members:
        return None
    seen, via = set(), masters.get(master, via)
    while via and via not in members and via not in seen:
        seen.add(via)
        via = above.get(via)
    return via


class Numbers:
    """The numbers of groups and devices in tables, and those that are in their places."""

    def __init__(self):
        self.devices, self.groups = Renaming(), Renaming()

    def why_other(self, kept, found, are_told=()):
        """How a table differs from the rows that it was made of by more than numbers, or None.

        The rows have the same types and sources, but for those of mounts of which something else is told.
        """
        if len(kept) != len(found):
            return f"{len(kept)} mounts are wanted, and {len(found)} are there"
        mounts, ids = Renaming(), {row.id for row in kept}
        places = {(None if row.parent == row.id else row.parent, row.point): row for row in found}
        for row in kept:
            is_root = row.parent == row.id or row.parent not in ids
            other = places.get((None if is_root else mounts.to.get(row.parent), row.point))
            if other is None:
                return f"no mount stands in the place of {row}"
            same = mounts.fits(row.id, other.id) and self.devices.fits(row.device, other.device)
            same = same and all(self.groups.fits(old, new) for old, new in zip(row.groups, other.groups))
            shown_alike = 3 if row.id in are_told else None
            if not same or row.rest[:shown_alike] != other.rest[:shown_alike]:
                return f"wanted {row}\nfound  {other}"
        return None


@contextlib.contextmanager
def files_of(tables):
    """The names of files that have these tables, until the end of a block."""
    with tempfile.TemporaryDirectory() as folder:
        names = [os.path.join(folder, str(number)) for number, _ in enumerate(tables, 1)]
        for name, table in zip(names, tables):
            with open(name, "wb") as file:
                file.write(b"".join(line + b"\n" for line in table))
        yield names


def import_tables(mountctl, tables):
    """Status, standard output and standard error of an import of these tables, each a file."""
    with files_of(tables) as names:
        return run(mountctl, b"", "import", *names)


class Imported:
    """The script of an import of tables, and what a plain session builds of it, with commands after it."""

    def __init__(self, program, name, tables, script, behind=()):
        self.name, self.tables, self.script, self.numbers = name, tables, script, Numbers()
        self.check("each line is read", UNREAD not in script)
        self.spaces = {found[1]: int(found[2]) for found in map(SPACE.match, script) if found}
        self.commands = [line for line in script if not line.startswith(b"#")] + list(behind)
        self.room = room_words(script)
        # A table may take two numbers.
        asked = self.commands + [b"show %d" % space for space in range(1, 2 * MOST_TABLES + 1)]
        groups = answer_groups(session(program, asked, *self.room)[1], asked)
        answers = zip(self.commands, [b"".join(group[:1]) for group in groups])
        self.refused = [b"%b: %b" % (line, answer) for line, answer in answers if not answer.startswith(b"ok")]
        self.check("each command is accepted", not self.refused, shown(b"\n".join(self.refused[:3])))
        there = enumerate(groups[len(self.commands) :], 1)
        self.found = {space: list(map(row_of, rows)) for space, [first, *rows] in there if first.startswith(b"ok")}

    def check(self, what, good, why=""):
        if not good:
            tables = [line for table in self.tables for line in (b"", *table)]
            check(f"{self.name}: {what}", False, "\n".join([why, *map(shown, tables), "", *map(shown, self.script)]))

    def made(self):
        """The lines of each table whose mounts are made."""
        return [made_lines(table, self.script, b"%d" % number) for number, table in enumerate(self.tables, 1)]

    def check_all(self):
        """All tables are those that were imported, but for what is told."""
        for number, table in enumerate(self.tables, 1):
            kept_rows(f"{self.name}, table {number}", table, self.script, b"%d" % number)
        check_super_options(self.name, sum(self.made(), []), self.script)
        self.check_tables()
        self.check_spaces()
        self.check_numbers()

    def check_tables(self):
        """The tables of all namespaces are those of the rows that are made."""
        kept = [list(map(row_of, lines)) for lines in self.made()]
        for number, rows in enumerate(groups_in_sight(kept), 1):
            self.check_table(b"%d" % number, rows)

    def check_table(self, number, kept):
        others = {row_of(line).id for line in told(self.script, OTHER_FILESYSTEM, number)}
        space = self.spaces.get(number)
        if kept or space:
            why = self.numbers.why_other(kept, self.found.get(space, []), others)
            self.check(f"table {shown(number)} in namespace {space}", why is None, str(why))
        else:
            self.check(f"table {shown(number)} is told", any(found[1] == number for found in map(ROOTLESS.match, self.script) if found))

    def check_spaces(self):
        """Each table is a namespace of its own, and none else is there, but for one that keeps masters that no table has."""
        kept = [list(map(row_of, lines)) for lines in self.made()]
        keepers = [int(found[1]) for found in map(KEEPER.match, self.script) if found]
        members = {row.groups[0] for rows in kept for row in rows}
        hidden = {group for rows in kept for row in rows for group in row.groups[1:] if group} - members
        self.check("masters that no table has are kept", len(keepers) == (hidden > set()), f"{keepers} {hidden}")
        there = sorted([*self.spaces.values(), *keepers])
        rootless = sum(ROOTLESS.match(line) is not None for line in self.script)
        left = sorted(self.found.keys() - set(there))
        self.check("each namespace is told", there == sorted(set(there) & self.found.keys()) and len(left) <= rootless, f"{there} {left}")

    def check_numbers(self):
        """The numbers of filesystems and groups are those that comments tell."""
        pairs = [(b"%b" % found[1], b"0:%b" % found[2]) for found in map(FILESYSTEM.match, self.script) if found]
        devices = self.numbers.devices.to
        self.check("filesystems are told", dict(pairs) == devices and len(pairs) == len(devices), f"{pairs} {devices}")
        pairs = [found.groups() for found in map(GROUP.match, self.script) if found]
        groups = self.numbers.groups.to
        self.check("groups are told", dict(pairs) == groups and len(pairs) == len(groups), f"{pairs} {groups}")

    def left(self):
        return left_out(self.script)


def check_world(program, mountctl, name, tables):
    """Imports tables and builds them: the import."""
    status, text, complaint = import_tables(mountctl, tables)
    check(f"{name}: imported", (status, complaint) == (0, b""), shown(complaint))
    world = Imported(program, name, tables, text.split(b"\n")[:-1])
    if not world.refused:
        world.check_all()
    return world
