"""What `mountctl` says of limits: which one a refused command met, and which room would do. A module, a part of server.py.

Each limit is met once in a session without a server, by lines that are written here, and one of them in a script for a server.
"""
from harness.runs import check, run, shown
from harness.servers import Server

START = [b"mkfs a tmpfs none", b"newns a", b"mkdir a /m"]

# The greatest room, and what a room of 1 has.
GREATEST = 256
SPACES, FILESYSTEMS, DIRECTORIES, DEPTH = 64, 256, 16_384, 32


def spaces(room):
    """Lines of which the last one makes a namespace too many."""
    return [*START, *[b"newns a"] * (SPACES * room)]


def mounts(room):
    """Lines of which the last one makes more copies than there is room for: each makes as many as there are mounts."""
    doublings = (4_096 * room).bit_length() - 1
    return [*START, *[b"rbind 1 / /m"] * (doublings + 1)]


# Lines of which the last one is refused, the arguments, and what is said of it.
MET = (
    (spaces(1), [], b"there are 64 namespaces, and no room for one more: --room 2 has it"),
    (spaces(3), ["--room", "3"], b"there are 192 namespaces, and no room for one more: --room 4 has it"),
    (spaces(GREATEST), ["--room", "256"], b"there are 16384 namespaces, the most that there can be"),
    (mounts(1), [], b"there are 4096 mounts, and no room for all that the line adds: --room 2, or more, has it"),
    (mounts(2), ["--room", "2"], b"there are 8192 mounts, and no room for all that the line adds: --room 3, or more, has it"),
    (
        [*START, *[b"mkfs f%d tmpfs none" % number for number in range(FILESYSTEMS)]],
        [],
        b"there is no room for one more filesystem and its root: a server has 256 filesystems and 16384 directories times its --room",
    ),
    (
        [*START, *[b"mkdir a /d%d" % number for number in range(DIRECTORIES - 1)]],
        [],
        b"there is no room for one more directory: a server has 16384 times its --room",
    ),
    (
        [*START, *[b"mkdir a " + b"/d" * names for names in range(1, DEPTH + 2)]],
        ["--room", "2"],
        b"a path has at most 32 names, whatever the --room is",
    ),
)


def check_rooms(program, mountctl):
    for lines, words, said in MET:
        status, text, complaint = run(mountctl, b"".join(line + b"\n" for line in lines), "session", *words)
        refused = [answer for answer in text.split(b"\n") if answer.startswith(b"no ")]
        good = (status, refused, complaint) == (0, [b"no TooMany"], b"mountctl: TooMany: %b\n" % said)
        check(f"{shown(lines[-1])} as the last of {len(lines)} lines with {words}", good, f"{status} {refused[:3]} {shown(complaint[:300])}")
    with Server(program, "--room", "3") as server:
        found = run(mountctl, b"".join(line + b"\n" for line in spaces(3)), server.path, "-")
        told = b"mountctl: line 195: newns a: no TooMany\nmountctl: line 195: TooMany: %b\n" % MET[1][2]
        check("a limit of a server of room 3", (found[0], found[2]) == (1, told), shown(found[2][:300]))
    for words in ["--room", "0"], ["--room", "257"], ["--room", "x"], ["--room"], ["--room", "2", "--room", "2"]:
        found = run(mountctl, b"", "session", *words)
        check(f"a session with {' '.join(words)}", found == (2, b"", b"mountctl: a room is given once, as --room 2, from 1 to 256\n"), repr(found))
