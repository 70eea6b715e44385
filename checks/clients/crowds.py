"""Large tables that are imported: each in a second, and as many of the mounts as a server has room for. A module, a part of server.py.

Those after are told in comments, each with its row, and each command of the script is accepted. Where no room is said, the
script says which one it takes, and none is left out.
"""
import time

from clients.imports import check_table, imported
from clients.outcomes import left_out, room_words
from harness.runs import check, shown

NO_ROOM = b"the server has no room for it"


def table(root, rows):
    """The lines of a table: of a root mount, and of mounts that stand on it, by their devices, roots, points and optional fields."""
    yield b"1 1 0:1 / / rw%s - tmpfs none rw" % root
    for number, (device, directory, point, fields) in enumerate(rows):
        yield b"%d 1 0:%d %s %s rw%s - tmpfs none rw" % (number + 2, device, directory, point, fields)


def mounts(count):
    """Mounts of one filesystem in no group, as many as there are directories for."""
    return table(b"", ((2, b"/", b"/%d" % number, b"") for number in range(count)))


def below(count):
    """Mounts that stand six directories below the root each, five of them their own."""
    return table(b"", ((2, b"/", b"/a/%d/b/c/d/e" % number, b"") for number in range(count)))


def filesystems(count):
    """Mounts of a filesystem each, in a peer group each, as a host has them."""
    return table(b" shared:1", ((number + 2, b"/", b"/%d" % number, b" shared:%d" % (number + 2)) for number in range(count)))


def peers(count):
    """Peers of the root mount: each new mount has a copy on each of those that are there."""
    return table(b" shared:1", ((1, b"/", b"/%d" % number, b" shared:1") for number in range(count)))


def pairs(count):
    """Mounts in peer groups of two, of which a third member is staged."""
    return table(b"", ((2, b"/", b"/%d" % number, b" shared:%d" % (number // 2 + 1)) for number in range(count)))


def slaves(count):
    """Slaves of groups that have no member in sight, of which a second namespace has one."""
    return table(b"", ((2, b"/", b"/%d" % number, b" master:%d" % (number + 1)) for number in range(count)))


def alone(count):
    """Mounts that are alone in their peer groups: nothing is staged for them."""
    return table(b" shared:1", ((2, b"/", b"/%d" % number, b" shared:%d" % (number + 2)) for number in range(count)))


# Tables, and how many of their mounts are left out for want of room.
CROWDS = (
    (mounts, 4_088, 0),
    (mounts, 4_500, 412),
    (below, 3_000, 0),
    (below, 4_000, 725),
    (filesystems, 254, 0),
    (filesystems, 300, 46),
    (peers, 1_000, 0),
    (peers, 1_100, 80),
    (pairs, 2_718, 0),
    (pairs, 4_000, 1_281),
    (slaves, 1_358, 0),
    (slaves, 4_000, 2_642),
    (alone, 4_000, 0),
)


def check_roomy(program, mountctl, name, lines):
    """A table for which a room of 1 is too small takes a greater one, the least that does, and is whole there."""
    script = imported(mountctl, b"".join(line + b"\n" for line in lines))[1].split(b"\n")
    said = room_words(script)
    check(f"{name} says its room", said, shown(script[0]))
    if said:
        check(f"{name} in its room", check_table(program, mountctl, name, lines, *said))
        lesser = imported(mountctl, b"".join(line + b"\n" for line in lines), "--room", str(int(said[1]) - 1))[1]
        check(f"{name} in a lesser room", NO_ROOM in lesser)


def check_crowds(program, mountctl):
    for rows, count, left in CROWDS:
        name, lines = f"import of {count} {rows.__name__}", list(rows(count))
        start = time.monotonic()
        script = imported(mountctl, b"".join(line + b"\n" for line in lines), "--room", "1")[1].split(b"\n")
        took = time.monotonic() - start
        check(f"{name} in a second", took < 1, f"{took:.1f} s")
        told = left_out(script)
        found = len(told), sum(NO_ROOM in line for line in script)
        check(f"{name} as far as there is room", found == (left, left), shown(b"\n".join([b"%d %d" % found, *told[:3]])))
        check_table(program, mountctl, name, lines, "--room", "1")
        if left:
            check_roomy(program, mountctl, name, lines)
