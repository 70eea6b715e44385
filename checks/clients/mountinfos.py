"""Tables that an import is given, written by hand: a host's, those that no kernel prints, and those of which mounts are left out.

A module, a part of clients/imports.py.
"""
# A host's table: a root mount whose parent is not in sight, devices with a major number, and words that the server has not.
HOST = b"""\
29 1 8:2 / / rw,relatime shared:1 - ext4 /dev/sda2 rw,errors=remount-ro
25 29 0:22 / /sys rw,nosuid,nodev,noexec,relatime shared:7 - sysfs sysfs rw
26 29 0:23 / /proc rw,nosuid,nodev,noexec,relatime shared:12 - proc proc rw,hidepid=2
40 29 8:2 /srv/my\\040data /mnt/data rw,idmapped,relatime shared:1 future:9 - ext4 /dev/sda2 rw,errors=remount-ro
41 29 8:2 /gone//deleted /mnt/gone rw,relatime - ext4 /dev/sda2 rw
42 29 0:4 net:[4026532293] /run/netns/x rw shared:30 - nsfs nsfs rw
43 40 0:31 / /mnt/data/t ro,noatime master:3 - tmpfs a\\043b rw,size=4k
44 29 0:31 / /tmp rw - tmpfs  rw
"""

# A table that no kernel prints, and its comments: a second line of a mount, one that stands on no other, and a ring.
ODD = b"""\
1 1 0:1 / / rw - tmpfs none rw
2 1 0:2 / /a rw - tmpfs none rw
2 1 0:3 / /b rw - tmpfs none rw
3 9 0:2 / /c rw - tmpfs none rw
4 3 0:2 / /c/d rw - tmpfs none rw
5 6 0:2 / /e/f rw - tmpfs none rw
6 5 0:2 / /e rw - tmpfs none rw
7 2 0:2 / / rw - tmpfs none rw
8 7 0:2 / /x rw - tmpfs none rw
"""
ODD_COMMENTS = [
    b"# table 1: mount 2 is left out: a line before it tells its mount: 2 1 0:3 / /b rw - tmpfs none rw",
    b"# table 1: mount 3 is left out: it stands on no other: 3 9 0:2 / /c rw - tmpfs none rw",
    b"# table 1: mount 4 is left out: what it stands on is left out: 4 3 0:2 / /c/d rw - tmpfs none rw",
    b"# table 1: mount 5 is left out: its parents go round in a ring: 5 6 0:2 / /e/f rw - tmpfs none rw",
    b"# table 1: mount 6 is left out: its parents go round in a ring: 6 5 0:2 / /e rw - tmpfs none rw",
    b"# table 1: mount 7 is left out: it stands elsewhere than below its parent: 7 2 0:2 / / rw - tmpfs none rw",
    b"# table 1: mount 8 is left out: what it stands on is left out: 8 7 0:2 / /x rw - tmpfs none rw",
]

# Tables of which a mount may be left out, each line that is, and why. Mounts stand on the root of the root mount, unbindable, or one
# on the other; one of them stands on a peer, to which no path leads. Copies of a mount get what is mounted where they stand. Rows tell
# of their peer groups what cannot be: another device or master than one before, a ring of masters, a group above the master that is none
# of those in sight, or a group of a mount that is unbindable. Two rows tell of one place. A name has a zero byte. And a row that is left
# out tells of a group what others do not: these are made, also where it is left out once the group above its master is gone.
AT_ROOT = b"it stands on the root of one that has peers at the root of the namespace"
ON_LEFT, SCRIPT_NAME = b"what it stands on is left out", b"its path has the name that the script uses"
NO_DIRECTORY = b"its root or mount point is no directory"
NO_GROUPS, SAME_PLACE = b"its peer groups cannot be as it tells them", b"another mount stands in its place"
PARTLY = [
    [b"1 1 0:1 / / rw - tmpfs none rw", b"2 1 0:2 / / rw unbindable - tmpfs none rw"],
    [
        b"1 1 0:1 / / rw - tmpfs none rw",
        (b"2 1 0:2 / / rw - tmpfs none rw", SAME_PLACE),
        b"3 1 0:3 / / rw,nosuid - tmpfs none rw",
        (b"4 2 0:3 / /x rw - tmpfs none rw", ON_LEFT),
        b"5 3 0:3 / / rw shared:1 - tmpfs none rw",
        b"6 1 0:3 / /x rw - tmpfs none rw",
        (b"7 6 0:3 / /x/.import rw - tmpfs none rw", SCRIPT_NAME),
    ],
    [
        b"1 1 0:1 / / rw shared:1 - tmpfs none rw",
        (b"2 1 0:1 /a / rw shared:1 - tmpfs none rw", AT_ROOT),
        b"3 1 0:1 /a /b rw shared:1 - tmpfs none rw",
        (b"4 2 0:2 / /c rw - tmpfs none rw", ON_LEFT),
    ],
    [
        b"1 1 0:1 / / rw shared:1 master:3 - tmpfs none rw",
        b"2 1 0:1 /a / rw master:3 - tmpfs none rw",
    ],
    [
        b"1 1 0:1 / / rw - tmpfs none rw",
        b"2 1 0:2 / /a rw shared:1 - tmpfs none rw",
        b"3 1 0:2 / /b rw shared:1 - tmpfs none rw",
        b"4 2 0:2 /p /a/p rw shared:1 - tmpfs none rw",
        b"5 3 0:3 / /b/p rw - tmpfs none rw",
    ],
    [
        b"1 1 0:1 / / rw - tmpfs none rw",
        b"2 1 0:2 / /a rw shared:1 master:2 - tmpfs none rw",
        (b"3 1 0:3 / /b rw shared:1 master:2 - tmpfs none rw", NO_GROUPS),
        (b"4 1 0:2 / /c rw shared:1 - tmpfs none rw", NO_GROUPS),
        (b"5 1 0:2 / /d rw shared:1 master:3 - tmpfs none rw", NO_GROUPS),
        (b"6 1 0:3 / /e rw master:1 - tmpfs none rw", NO_GROUPS),
        (b"7 1 0:2 / /f rw shared:2 master:1 - tmpfs none rw", NO_GROUPS),
        (b"8 1 0:2 / /g rw shared:4 master:4 - tmpfs none rw", NO_GROUPS),
        (b"9 1 0:2 / /h rw master:1 propagate_from:2 - tmpfs none rw", NO_GROUPS),
        (b"10 1 0:2 / /i rw propagate_from:1 - tmpfs none rw", NO_GROUPS),
        (b"11 1 0:2 / /j rw shared:5 unbindable - tmpfs none rw", NO_GROUPS),
        (b"12 1 0:2 / /k rw master:1 unbindable - tmpfs none rw", NO_GROUPS),
        (b"13 12 0:2 / /k/l rw - tmpfs none rw", ON_LEFT),
        b"14 1 0:2 / /m rw shared:1 master:2 - tmpfs none rw",
    ],
    [
        b"1 1 0:1 / / rw shared:1 - tmpfs none rw",
        (b"2 1 0:2 / /a rw - tmpfs none rw", SAME_PLACE),
        b"3 1 0:3 / /a rw - tmpfs none rw",
        (b"4 2 0:3 / /a rw - tmpfs none rw", ON_LEFT),
        b"5 3 0:2 / /a rw - tmpfs none rw",
    ],
    [
        (b"1 1 0:1 / / rw shared:1 unbindable - tmpfs none rw", NO_GROUPS),
        (b"2 1 0:2 / /a rw - tmpfs none rw", ON_LEFT),
    ],
    [
        b"1 1 0:1 / / rw - tmpfs none rw",
        (b"2 1 0:2 / /a\0b rw - tmpfs none rw", NO_DIRECTORY),
        (b"3 1 0:2 /a\0b /c rw - tmpfs none rw", NO_DIRECTORY),
        (b"4 1 0:2 /  rw - tmpfs none rw", SAME_PLACE),
        b"5 1 0:2 / / rw - tmpfs none rw",
    ],
    [
        b"1 1 0:1 / / rw - tmpfs none rw",
        b"2 1 0:2 / /a rw shared:1 - tmpfs none rw",
        b"3 1 0:2 / /b rw shared:1 - tmpfs none rw",
        (b"4 1 0:3 / /c rw shared:9 unbindable - tmpfs none rw", NO_GROUPS),
        (b"5 4 0:2 / /c/d rw shared:1 master:2 - tmpfs none rw", NO_GROUPS),
    ],
    [
        b"1 1 0:1 / / rw - tmpfs none rw",
        b"2 1 0:2 / /a rw shared:1 - tmpfs none rw",
        b"3 2 0:3 / /a/b rw shared:3 - tmpfs none rw",
        (b"4 1 0:4 / /c rw master:7 propagate_from:8 - tmpfs none rw", NO_GROUPS),
        (b"5 4 0:2 / /c/d rw shared:1 master:2 - tmpfs none rw", NO_GROUPS),
        (b"6 1 0:3 / /e rw shared:9 unbindable - tmpfs none rw", NO_GROUPS),
        (b"7 6 0:4 / /e/f rw shared:8 - tmpfs none rw", ON_LEFT),
    ],
]

# Tables of slaves, each alone in a peer group, at the directories that they show: what is mounted for one of them comes to it too,
# and is taken away there. Groups that are made after that show how many groups this took.
HOOKED = [
    [
        b"1 1 0:1 / / rw shared:1 - tmpfs none rw",
        b"2 1 0:2 / /b rw shared:2 - tmpfs none rw",
        b"3 1 0:1 /a/c /a/c rw shared:3 master:1 - tmpfs none rw",
        b"4 1 0:1 /a /a rw shared:4 master:1 - tmpfs none rw",
    ],
    [
        b"5 5 0:1 /a / rw shared:5 master:1 - tmpfs none rw",
        b"6 5 0:1 /a/a /a rw shared:6 master:1 - tmpfs none rw",
        b"7 5 0:3 / /a/b rw shared:7 - tmpfs none rw",
    ],
]

TOO_MANY = b"too many stand below it at the root of the namespace"
TOO_LONG = b"its root is too long for one that has peers at the root of the namespace"

# As many mounts as may stand on the root of a root mount, and as many bytes as the roots of those may have whose groups have others, with
# eight for each mount below it; but no path has more bytes than this.
MOST_AT_ROOT, MOST_ROOT_BYTES, MOST_PATH_BYTES = 32, 4_066, 4_000

# Such mounts: how many, of how many bytes the root of each is, and what the fields of the last one are.
SHARED = b" shared:18446744073709551615"
AT_ROOTS = [(count, MOST_ROOT_BYTES - 8 * count + more, SHARED) for count in (9, 13, MOST_AT_ROOT) for more in (0, 1)]
AT_ROOTS += [(1, MOST_PATH_BYTES, SHARED), (8, MOST_PATH_BYTES, SHARED), (13, 3_985, SHARED)]
AT_ROOTS += [(MOST_AT_ROOT + more, MOST_PATH_BYTES, b"") for more in (0, 1)]


def path_of(size):
    """A path of so many bytes, of few names."""
    return b"".join(b"/" + b"x" * (min(size - start, 250) - 1) for start in range(0, size, 250))


def at_root(count, size, fields):
    """A table of mounts that stand on the root of a root mount, one on the other, with roots of so many bytes, and of one elsewhere: the
    last one and this have these fields. And why the last one is left out, or None."""
    root, tags = path_of(size), [b""] * (count - 1) + [fields]
    lines = [b"%d %d 0:2 %s / rw%s - tmpfs none rw" % (number + 2, number + 1, root, tag) for number, tag in enumerate(tags)]
    is_long = fields and 8 * count + size > MOST_ROOT_BYTES
    why = TOO_MANY if count > MOST_AT_ROOT else TOO_LONG if is_long else None
    return [b"1 1 0:1 / / rw - tmpfs none rw", *lines, b"99 1 0:2 / /x rw%s - tmpfs none rw" % fields], why


# As many groups as may be above one.
MOST_ABOVE = 64


def masters(groups):
    """A table with a mount in each of so many groups, of which each has the next one as its master."""
    yield b"1 1 0:1 / / rw - tmpfs none rw"
    for number in range(groups):
        fields = b" shared:%d" % (number + 1) + (b" master:%d" % number if number else b"")
        yield b"%d 1 0:2 / /%d rw%s - tmpfs none rw" % (number + 2, number, fields)


def any_rows(source):
    """Numbers of mounts, each with that of its parent, one of those before it, and with its point."""
    points = {1: b""}
    yield 1, 1, b"/"
    for number in range(2, source.choice((4, 8, 14)) + 1):
        parent = source.randint(1, number - 1)
        points[number] = points[parent] + source.choice((b"/a", b"/b", b"/c", b"/a/b", b"/c/a"))
        yield number, parent, points[number]


def any_table(source):
    """Lines of mounts of any devices, roots and groups: many of these tables are those of no namespace."""
    devices, groups = source.choice((1, 1, 2, 3)), source.choice((1, 2, 3, 5))
    for number, parent, point in any_rows(source):
        root = source.choice((b"/", b"/", b"/a", b"/a/b")) if number > 1 else b"/"
        fields, device = b"", source.randint(1, devices)
        for chance, field in (0.4, b" shared:%d"), (0.15, b" master:%d"), (0.03, b" propagate_from:%d"):
            if source.random() < chance:
                group = source.randint(1, groups)
                fields, device = fields + field % group, group % devices + 1
        if source.random() < 0.03:
            fields += b" unbindable"
        options = source.choice((b"rw", b"rw", b"ro,nosuid", b"rw,relatime", b"rw,noatime,relatime", b"rw,nodev,idmapped"))
        more = b",size=4k" if device == 2 else b""
        yield b"%d %d 0:%d %s %s %s%s - tmpfs none rw%s" % (number, parent, device, root, point, options, fields, more)


# The table of a process whose root is no mount, and the script that it makes.
ROOTLESS = b"""\
36 35 98:0 /mnt1 /mnt2 rw,noatime master:1 - ext3 /dev/root rw,errors=continue
37 36 0:9 / /mnt2/a rw - tmpfs a: rw
"""
ROOTLESS_SCRIPT = b"""\
# table 1: mount 36 is left out: there is no root mount: 36 35 98:0 /mnt1 /mnt2 rw,noatime master:1 - ext3 /dev/root rw,errors=continue
# table 1: mount 37 is left out: there is no root mount: 37 36 0:9 / /mnt2/a rw - tmpfs a: rw
# table 1 has no root mount
"""

# A row that is longer than a line of a script may be.
LONG = b"90 29 0:9 / /" + b"long/" * 2_000 + b"a rw shared:9 - tmpfs none rw\n"

NO_ROWS = [
    b"",
    b"1 1 0:1 / / rw,relatime tmpfs none rw",
    b"1 1 0:1 / / rw,relatime - tmpfs none",
    b"1 1 0:1 / / rw,relatime - tmpfs none rw more",
    b"1 1 0:1 / / rw,relatime - tmpfs none rw ",
    b"1 1 0 / / rw,relatime - tmpfs none rw",
    b"1 1 0:x / / rw,relatime - tmpfs none rw",
    b"1 1 0:1:2 / / rw,relatime - tmpfs none rw",
    b"x 1 0:1 / / rw,relatime - tmpfs none rw",
    b"1 01 0:1 / / rw,relatime - tmpfs none rw",
    b"1 1 0:1 / / rw,relatime shared:x - tmpfs none rw",
    b"1 1 0:1 / / rw,relatime master: - tmpfs none rw",
]
