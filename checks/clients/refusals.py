"""Why a command is refused, as the other program tells it beside the refusal: a module, a part of server.py.

By hand: each refusal that names mounts, with all that is told of it. In random worlds: the mounts that are named are those that
the tables say are in the way, found here from the rows alone, and each line that would help is tried on the server: a single one
makes the refused command accepted, or the next refusal is another one.
"""
import collections
import random
import re

from harness import commands
from harness.protocol import parts, row_of, word_of
from harness.runs import check, run, shown
from harness.scripts import Author
from harness.servers import Server

# How many random worlds there are, and how many refusals of one name are looked at.
WORLDS, MOST = 150, 60

# The refusals that are told with their mounts, and one that has none.
TOLD = b"NotMountRoot", b"RootPlace", b"Unbindable", b"SharedParent", b"IntoItself", b"UnbindableInside", b"Busy", b"BadAttr", b"Locked", b"LockedInside", b"LockedAttr"

# Lines behind START of the worlds by hand, and refused lines with all that is told of them.
HELP = b"  to change that: "
START = [
    *(b"mkfs a tmpfs none", b"mkfs d ext4 /dev/x", b"mkdir a /m", b"mkdir a /n", b"mkdir a /m\\040m", b"mkdir d /s", b"mkdir d /s/t"),
    *(b"newns a", b"mount 1 d /m", b"mount 1 a /m/s", b"bind 1 /m/s /n"),
]
SHARED = [b"setattr 1 / prop=shared"]
LOCKED = [b"copyns 1 less lock"]
LEAVE = HELP + b"leave it, or mount over it; what is mounted in this namespace itself can go"
KEEP = HELP + b"keep ro, nosuid, nodev and noexec where they are set, and the access times"
LOCKED_BELOW = b", and a mount below that is locked on its place would be left out"
OR_SLAVE = b" (or prop=slave, which still gets what the others mount)"
BY_HAND = (
    ([], b"umount 1 /m", [b"Busy: 1 mount stands on mount 2 at /m", b"    3 /m/s none private", HELP + b"umount 1 /m/s first", HELP + b"detach 1 /m takes all of them"]),
    (
        [b"mount 1 d /m/s/n", b"setattr 1 /m/s prop=shared"],
        b"umount 1 /m",
        [
            b"Busy: 1 mount stands on mount 2 at /m, 2 with those below",
            b"    3 /m/s none shared:1",
            HELP + b"umount what stands on it first, from the top down",
            HELP + b"detach 1 /m takes all of them",
        ],
    ),
    (
        SHARED,
        b"move 1 /n /m/s/m",
        [b"SharedParent: SRC, /n stands on mount 1 at /, which is shared, in group 1", b"    1 / none shared:1", HELP + b"setattr 1 / prop=private" + OR_SLAVE],
    ),
    (
        [*SHARED, b"copyns 1"],
        b"move 1 /n /m/s/m",
        [
            b"SharedParent: SRC, /n stands on mount 1 at /, which is shared, in group 1",
            b"    1 / none shared:1",
            b"    5 / none shared:1 in namespace 2",
            HELP + b"setattr 1 / prop=private" + OR_SLAVE,
        ],
    ),
    (
        [b"setattr 1 /n prop=shared"],
        b"pivot 1 /m /n",
        [b"SharedParent: OLD, /n is on mount 4 at /n, which is shared, in group 1", b"    4 /n none shared:1", HELP + b"setattr 1 /n prop=private" + OR_SLAVE],
    ),
    (
        [],
        b"move 1 /m /m/s/n",
        [
            b"IntoItself: DST, /m/s/n is on mount 3 at /m/s, which stands on mount 2 at /m, which would be moved",
            b"    2 /m /dev/x private",
            b"    3 /m/s none private",
            HELP + b"a place that is neither on mount 2 at /m nor on what stands on it",
        ],
    ),
    (
        [b"mkdir d /u"],
        b"move 1 /m /m/u",
        [
            b"IntoItself: DST, /m/u is on mount 2 at /m, which would be moved",
            b"    2 /m /dev/x private",
            HELP + b"a place that is neither on mount 2 at /m nor on what stands on it",
        ],
    ),
    (
        [],
        b"pivot 1 /m /n",
        [
            b"IntoItself: OLD, /n is on mount 4 at /n, which does not stand on the new root, mount 2 at /m",
            b"    4 /n none private",
            b"    2 /m /dev/x private",
            HELP + b"a directory of mount 2 at /m, or of what stands on it",
        ],
    ),
    (
        [b"setattr 1 /m/s prop=unbindable", b"setattr 1 /n prop=shared"],
        b"move 1 /m /n/m",
        [
            b"UnbindableInside: DST, /n/m is on mount 4 at /n, which is shared, in group 1, and 1 mount is unbindable in the tree of mount 2 at /m",
            b"    3 /m/s none unbindable",
            b"    4 /n none shared:1",
            HELP + b"setattr 1 /m/s prop=private",
            HELP + b"setattr 1 /n prop=private, where it would stand",
        ],
    ),
    (
        [b"setattr 1 /m prop=unbindable"],
        b"bind 1 /m /n/m",
        [b"Unbindable: SRC, /m is on mount 2 at /m, which is unbindable", b"    2 /m /dev/x unbindable", HELP + b"setattr 1 /m prop=private"],
    ),
    ([], b"umount 1 /m/s/n", [b"NotMountRoot: /m/s/n is a directory of mount 3 at /m/s, and no mount", b"    3 /m/s none private", HELP + b"name /m/s, which is its mount"]),
    (
        [b"mount 1 d /n/n"],
        b"move 1 /m\\040m /n/m",
        [
            b"NotMountRoot: SRC, /m\\040m is a directory of mount 1 at /, and no mount",
            b"    1 / none private",
            HELP + b"bind 1 /m\\040m /m\\040m makes it one",
        ],
    ),
    (
        [b"bind 1 /m\\040m /n/m"],
        b"setattr 1 /n/n prop=shared",
        [
            b"NotMountRoot: /n/n is a directory of mount 4 at /n, and no mount",
            b"    4 /n none private",
            HELP + b"bind 1 /n/n /n/n makes it one",
            HELP + b"name /n, which is its mount",
        ],
    ),
    ([], b"umount 1 /", [b"RootPlace: / is the root of the root mount, mount 1 at /", b"    1 / none private", HELP + b"pivot to another root, and then detach this one"]),
    ([], b"bind 1 /n /", [b"RootPlace: DST, / is the root of the root mount, mount 1 at /", b"    1 / none private", HELP + b"another path; only a pivot changes the root"]),
    (
        [],
        b"mount 1 a /m/s/n/x/y",
        [
            b"NoEntry: /m/s/n/x/y is not there: /m/s/n is directory /n of mount 3 at /m/s, and has no x",
            b"    3 /m/s none private",
            HELP + b"mkdir FS /n/x, where FS is the filesystem 0:1",
        ],
    ),
    (
        [],
        b"bind 1 /n /m/t\\040t",
        [
            b"NoEntry: DST, /m/t\\040t is not there: /m is directory / of mount 2 at /m, and has no t\\040t",
            b"    2 /m /dev/x private",
            HELP + b"mkdir FS /t\\040t, where FS is the filesystem 0:2",
        ],
    ),
    ([], b"find 1 /m/t", [b"NoEntry: /m/t is not there: /m is directory / of mount 2 at /m, and has no t", b"    2 /m /dev/x private", HELP + b"mkdir FS /t, where FS is the filesystem 0:2"]),
    ([], b"dropns 7", [b"NoNamespace: namespace 7 is not there", b"    1 / none private in namespace 1"]),
    ([], b"setattr 1 /n set=noatime", [b"BadAttr: set= has two access times, or one without clr=atime", HELP + b"one access time, with clr=atime"]),
    ([], b"mount 1 a /n set=ro,noatime,relatime", [b"BadAttr: set= has two access times", HELP + b"one access time"]),
    (
        [b"setattr 1 /m prop=unbindable"],
        b"opentree 1 /m",
        [b"Unbindable: /m is on mount 2 at /m, which is unbindable", b"    2 /m /dev/x unbindable", HELP + b"setattr 1 /m prop=private"],
    ),
    ([], b"movetree 7 1 /m", [b"NoNamespace: namespace 7 is not there", b"    1 / none private"]),
    ([b"newtree d"], b"movetree 2 1 /", [b"RootPlace: / is the root of the root mount, mount 1 at /", b"    1 / none private", HELP + b"another path; only a pivot changes the root"]),
    (
        [b"opentree 1 /m rec"],
        b"movetree 2 2 /s/n",
        [
            b"IntoItself: /s/n is on mount 6 at /s, which stands on mount 5 at /, which would be moved",
            b"    5 / /dev/x private",
            b"    6 /s none private",
            HELP + b"a place that is neither on mount 5 at / nor on what stands on it",
        ],
    ),
    (
        [b"opentree 1 /m rec", b"setattr 2 /s prop=unbindable", b"setattr 1 /n prop=shared"],
        b"movetree 2 1 /n/m",
        [
            b"UnbindableInside: /n/m is on mount 4 at /n, which is shared, in group 1, and 1 mount is unbindable in the tree of mount 5 at /",
            b"    6 /s none unbindable in namespace 2",
            b"    4 /n none shared:1",
            HELP + b"setattr 2 /s prop=private",
            HELP + b"setattr 1 /n prop=private, where it would stand",
        ],
    ),
    (LOCKED, b"umount 2 /n", [b"Locked: /n is mount 8 at /n, which is locked on its place", b"    8 /n none private", LEAVE]),
    (LOCKED, b"detach 2 /m", [b"Locked: /m is mount 6 at /m, which is locked on its place", b"    6 /m /dev/x private", LEAVE]),
    (LOCKED, b"move 2 /n /m/s/n", [b"Locked: SRC, /n is mount 8 at /n, which is locked on its place", b"    8 /n none private", LEAVE]),
    (
        LOCKED,
        b"bind 2 /m /n/n",
        [
            b"LockedInside: SRC, /m is on mount 6 at /m" + LOCKED_BELOW,
            b"    6 /m /dev/x private",
            b"    7 /m/s none private",
            HELP + b"rbind 2 /m /n/n has all below it too",
        ],
    ),
    (
        LOCKED,
        b"opentree 2 /m",
        [
            b"LockedInside: /m is on mount 6 at /m" + LOCKED_BELOW,
            b"    6 /m /dev/x private",
            b"    7 /m/s none private",
            HELP + b"opentree 2 /m rec has all below it too",
        ],
    ),
    (
        [*LOCKED, b"setattr 2 /m/s prop=unbindable"],
        b"rbind 2 /m /n/n",
        [
            b"LockedInside: SRC, /m is on mount 6 at /m" + LOCKED_BELOW,
            b"    6 /m /dev/x private",
            b"    7 /m/s none unbindable",
            HELP + b"setattr prop=private of each unbindable one below it",
        ],
    ),
    (
        LOCKED,
        b"setattr 2 /m set=noatime clr=atime",
        [b"LockedAttr: /m is mount 6 at /m, of which an attribute is locked that would change", b"    6 /m /dev/x private", KEEP],
    ),
    (
        LOCKED,
        b"setattr 2 / rec set=noatime clr=atime",
        [b"LockedAttr: / is mount 5 at /, in the tree of which an attribute is locked that would change", b"    5 / none private", KEEP],
    ),
)


class World:
    """The rows of all namespaces: what stands where, and where a path ends. Every directory is taken to be there."""

    def __init__(self, tables):
        self.rows = {row.id: row for rows in tables.values() for row in rows}
        self.space = {row.id: space for space, rows in tables.items() for row in rows}
        self.children, self.at, self.root = collections.defaultdict(list), {}, {}
        for row in sorted(self.rows.values()):
            if row.parent == row.id:
                self.root[self.space[row.id]] = row
                continue
            above = self.rows[row.parent]
            self.children[above.id].append(row)
            self.at[above.id, names_of(above.root) + names_of(row.point)[len(names_of(above.point)) :]] = row

    def end(self, space, path):
        """The mount on which a path ends."""
        here = self.root[space]
        at = names_of(here.root)
        for name in names_of(path):
            here, at = self.top(here, (*at, name))
        return here

    def top(self, here, at):
        """The topmost mount of those that stand at a directory of a mount, and the directory there."""
        while (here.id, at) in self.at:
            here = self.at[here.id, at]
            at = names_of(here.root)
        return here, at

    def tree(self, row):
        """A mount and those that stand on it at whatever height, by rising ID."""
        found = [row]
        for one in found:
            found += self.children[one.id]
        return sorted(found)

    def up(self, row):
        """A mount and those that it stands on, upwards."""
        ways = [row]
        while ways[-1].parent != ways[-1].id:
            ways.append(self.rows[ways[-1].parent])
        return ways

    def members(self, row):
        """The members of a mount's peer group, by rising ID."""
        return [other for other in sorted(self.rows.values()) if group_of(other) == group_of(row)]


def names_of(path):
    return tuple(name for name in path.split(b"/") if name)


def group_of(row):
    return dict(row.numbered()).get(b"shared")


def is_unbindable(row):
    return b"unbindable" in row.tags


def in_the_way(world, refusal, line):
    """The mounts that are in the way of a line that is refused so, by their order in what is told."""
    if refusal == b"BadAttr":
        return []
    word, space, *paths = line.split(b" ")
    space = int(space)
    if word == b"mount":
        paths = paths[1:]
    first = world.end(space, paths[0])
    second = world.end(space, paths[1]) if word in (b"bind", b"rbind", b"move", b"pivot") else None
    if refusal == b"Busy":
        return world.children[first.id]
    if refusal == b"Unbindable":
        return [first]
    if refusal == b"RootPlace":
        root = world.root[space]
        return [root, *world.children[root.id][:0], *([world.at[root.id, names_of(root.root)]] if (root.id, names_of(root.root)) in world.at else [])]
    if refusal == b"Locked" and word == b"detach":
        return [world.top(first, names_of(first.root))[0]]
    if refusal in (b"Locked", b"LockedAttr"):
        return [first]
    if refusal in (b"NotMountRoot", b"LockedInside"):
        below = names_of(paths[0])
        return [first, *(row for row in world.children[first.id] if names_of(row.point)[: len(below)] == below)]
    if refusal == b"SharedParent":
        parent = world.rows[first.parent]
        return world.members(parent if group_of(parent) else second)
    if refusal == b"UnbindableInside":
        return [*filter(is_unbindable, world.tree(first)), second]
    if word == b"pivot":
        return [second, first]
    ways = world.up(second)
    return ways[ways.index(first) :: -1]


def tables_of(client):
    """The rows of each namespace."""
    opening = client.ask(b"watch all")
    client.ask(b"close")
    return {head.space: [*map(row_of, rows)] for head, rows in parts(b"space", opening[1:])}


def told_of(server, mountctl, line):
    """What is told of a line that is refused, but for the line that says so."""
    status, _, complaint = run(mountctl, line + b"\n", server.path, "-")
    first, *lines = complaint.splitlines()
    good = status == 1 and first.startswith(b"mountctl: line 1: ") and all(told.startswith(b"    ") or told.startswith(HELP) for told in lines[1:])
    check(f"the form of what is told of {shown(line)}", good, shown(complaint))
    return [told.removeprefix(b"mountctl: line 1: ") for told in lines]


def check_named(name, world, refusal, line, told):
    """The mounts that are named are those in the way."""
    wanted = [row.id for row in in_the_way(world, refusal, line)]
    named = [int(found[1]) for found in (re.match(rb"    (\d+) /", one) for one in told) if found]
    more = [int(found[1]) for found in (re.fullmatch(rb"    and (\d+) more", one) for one in told) if found]
    good = told[:1] != [] and told[0].startswith(refusal + b": ") and named == wanted[:8] and more == ([len(wanted) - 8] if len(wanted) > 8 else [])
    check(f"{name}: the mounts in the way of {shown(line)}", good, shown(b"\n".join([b"%d" % one for one in wanted] + told)))


# What stands behind the line that helps, and how many words the line has.
PLAYED = {b"setattr": 4, b"umount": 3, b"detach": 3, b"bind": 4}


def played_help(author, told):
    """One of the lines that would help, if there are any that can be sent."""
    lines = [one.removeprefix(HELP).replace(b",", b" ").split(b" ") for one in told if one.startswith(HELP)]
    lines = [b" ".join(words[: PLAYED[words[0]]]) for words in lines if words[0] in PLAYED and words[1].isdigit()]
    return author.choice(lines) if lines else None


def check_helps(name, client, refusal, line, told, helping):
    """A line that would help is accepted, and behind it the command is accepted, or refused for another reason."""
    answer = client.ask(helping)
    check(f"{name}: {shown(helping)} against {shown(told[0])}", answer[0].startswith(b"ok"), shown(answer[0]))
    if word_of(helping) == b"detach":
        return False
    again = client.ask(line)[0]
    both = refusal == b"SharedParent" and line.startswith(b"pivot")
    check(f"{name}: {shown(line)} behind {shown(helping)}", both or again != b"no " + refusal, shown(again))
    return again.startswith(b"ok")


def check_world(name, server, mountctl, author, chance, counts):
    """Lines of an author, of which those that are refused are looked at: how many commands were helped."""
    helped, tables = 0, {}
    with server.free() as client:
        while (line := author.next_line(tables)) is not None:
            refusal = client.ask(line)[0].removeprefix(b"no ")
            if refusal in TOLD and word_of(line) in commands.CHANGING and counts[refusal] < MOST:
                counts[refusal] += 1
                told = told_of(server, mountctl, line)
                check_named(name, World(tables_of(client)), refusal, line, told)
                helping = played_help(chance, told)
                if helping is not None:
                    helped += check_helps(name, client, refusal, line, told, helping)
            tables = tables_of(client)
    return helped


def check_random(program, mountctl):
    """Random worlds."""
    counts, helped, chance = collections.Counter(), 0, random.Random(11)
    for number in range(WORLDS):
        with Server(program) as server:
            helped += check_world(f"world {number}", server, mountctl, Author(random.Random(number)), chance, counts)
            server.stop()
    print(f"{sum(counts.values())} refusals told ({', '.join(f'{count} {shown(name)}' for name, count in counts.items())}), {helped} commands helped", flush=True)


def check_by_hand(program, mountctl):
    """All that is told of these lines."""
    for lines, line, wanted in BY_HAND:
        with Server(program) as server:
            with server.free() as client:
                for one in START + lines:
                    check(f"the start {shown(one)}", client.ask(one)[0].startswith(b"ok"))
            told = told_of(server, mountctl, line)
            check(f"what is told of {shown(line)}", told == wanted, shown(b"\n".join(told)))
            server.stop()


def check_refusals(program, mountctl):
    """What is told of refused commands."""
    check_by_hand(program, mountctl)
    check_random(program, mountctl)
