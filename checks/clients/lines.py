"""Which lines of an answer mountctl takes for rows, posts and tables: a module, a part of server.py.

As in clients/answers.py a door answers in the place of a server. A row or a post is printed as it came, and a line that is
none is a connection fault after the lines before it. A mirror follows posts, and refuses one that its table has no place
for. Here too are the bytes that have an escape, and the words that are none, as the server takes them.
"""
from clients.answers import FOLLOWED, MIRRORED, Exchange, check_exchange
from harness.runs import check, difference, session
from harness.servers import Door

ROWS = rb"""1 1 0:1 / / rw,relatime - tmpfs none rw
2 1 0:2 / /m ro - ext4 /dev/x rw
12 3 0:45 /x /mnt/x ro,nosuid,nodev,noexec,noatime,nodiratime,nosymfollow - ext4 /dev/x rw
12 3 0:45 / /mnt/x ro,nosuid,nodev,noexec,nodiratime,relatime,nosymfollow - ext4 /dev/x rw
4 1 0:2 /x /n rw,relatime shared:7 - ext4 /dev/x rw
4 1 0:2 /x /n rw,relatime shared:2 master:1 - ext4 /dev/x rw
4 1 0:2 /x /n rw,relatime master:105 unbindable - ext4 /dev/x rw
4 1 0:2 /x /n rw,relatime shared:1 master:2 unbindable - ext4 /dev/x rw
4 1 0:2 /x /n rw,relatime master:2 propagate_from:1 - ext4 /dev/x rw
4 1 0:2 /x /n rw,relatime shared:3 master:2 propagate_from:3 unbindable - ext4 /dev/x rw
12 12 0:45 /a\040b/c\134d# / rw,relatime - t\011x \012s\040 rw
18446744073709551615 0 0:0 / / rw - - - rw"""

# The last but one ends with a space, and the last has two in succession; one has a tab in its mount point.
NO_ROWS = rb"""
01 1 0:1 / / rw,relatime - tmpfs none rw
1 1 1:1 / / rw,relatime - tmpfs none rw
18446744073709551616 1 0:1 / / rw - tmpfs none rw
1 1 0:1 / /a\041b rw - tmpfs none rw
1 1 0:1 / /a\04 rw - tmpfs none rw
1 1 0:1 / /a<tab>b rw - tmpfs none rw
1 1 0:1 / /a/ rw - tmpfs none rw
1 1 0:1 / /a/../b rw - tmpfs none rw
1 1 0:1 / a rw - tmpfs none rw
1 1 0:1 / / rw,relatime,noatime - tmpfs none rw
1 1 0:1 / / rw,noatime,relatime - tmpfs none rw
1 1 0:1 / / rw,relatime,nosuid - tmpfs none rw
1 1 0:1 / / rw,relatime, - tmpfs none rw
1 1 0:1 / / relatime - tmpfs none rw
1 1 0:1 / / rw master:1 shared:2 - tmpfs none rw
1 1 0:1 / / rw shared:1 shared:2 - tmpfs none rw
1 1 0:1 / / rw shared: - tmpfs none rw
1 1 0:1 / / rw propagate_from:1 - tmpfs none rw
1 1 0:1 / / rw shared:2 propagate_from:1 - tmpfs none rw
1 1 0:1 / / rw master:1 propagate_from:1 - tmpfs none rw
1 1 0:1 / / rw master:2 propagate_from: - tmpfs none rw
1 1 0:1 / / rw propagate_from:1 master:2 - tmpfs none rw
1 1 0:1 / / rw master:2 unbindable propagate_from:1 - tmpfs none rw
1 1 0:1 / / rw unbindable: - tmpfs none rw
1 1 0:1 / / rw tmpfs none rw
1 1 0:1 / / rw -  none rw
1 1 0:1 / / rw - tmpfs none ro
1 1 0:1 / / rw - tmpfs none rw<space>
1  1 0:1 / / rw - tmpfs none rw""".replace(b"<tab>", b"\t").replace(b"<space>", b" ")

POSTS = (
    b"event 1 1 1\n- 3\n",
    b"event 18446744073709551615 18446744073709551615 3\n- 0\n- 7\n- 18446744073709551615\n",
    b"event 2 5 2\n- 5\n= 3 2 0:2 / /m\\040n ro,nosuid shared:3 master:2 unbindable - ext4 /dev/x rw\n",
    b"event 2 4 2\n= 3 5 0:2 / /m rw,relatime - ext4 /dev/x rw\n= 5 2 0:2 / /m rw,relatime master:2 - ext4 /dev/x rw\n",
)

# Changes: none, fewer and more than the first line says, in another order than that of the mounts, of one mount twice,
# and a row that is none; then first lines and changes that are none.
ROW = b"= 3 2 0:2 / /m rw,relatime - ext4 /dev/x rw\n"
NO_POSTS = (
    b"event 1 1 0\n",
    b"event 1 1 2\n- 3\n",
    b"event 1 1 2\n- 4\n- 3\n",
    b"event 1 1 2\n- 3\n- 3\n",
    b"event 1 1 2\n- 3\n" + ROW,
    b"event 1 1 2\n" + ROW + b"- 4\n",
    b"event 1 1 2\n" + ROW + b"= 2 2 0:1 / / rw,relatime - tmpfs none rw\n",
    b"event 1 1 1\n= 3 2 0:2 / /m rw,noatime,relatime - ext4 /dev/x rw\n",
    b"event 01 1 1\n- 3\n",
    b"event 1 1 1\n- 03\n",
    b"event 1 18446744073709551616 1\n- 3\n",
    b"events 1 1 1\n- 3\n",
    b"event 1 1\n- 3\n",
    b"event 1 1 1 1\n- 3\n",
    b"- 3\n",
    b"event 1 1 1\n+ 3\n",
    b"event 1 1 1\n=\n",
)

OPENING = b"".join(FOLLOWED.splitlines(keepends=True)[:4])
TABLE = b"".join(FOLLOWED.splitlines(keepends=True)[2:4])
COMES = POSTS[3]
GOES = b"event 2 5 2\n- 5\n" + ROW

# Posts in their order; then one that comes early, one of another namespace, one that comes twice, and tables of which
# the rows fall, or one comes twice.
MIRRORS = (
    Exchange("mirror 2 2", b"watch 2\nfollow 2\n", OPENING + COMES + GOES + b"ok 2\n", b"ok 2 5\n" + TABLE, 0),
    Exchange("mirror 2 2", b"watch 2\nfollow 2\n", FOLLOWED, MIRRORED, 0),
    Exchange("mirror 2 1", b"watch 2\nfollow 1\n", OPENING + GOES + b"ok 1\n", b"", 3),
    Exchange("mirror 2 1", b"watch 2\nfollow 1\n", OPENING + b"event 1 4 1\n- 3\nok 1\n", b"", 3),
    Exchange("mirror 2 2", b"watch 2\nfollow 2\n", OPENING + COMES + COMES + b"ok 2\n", b"", 3),
    Exchange("mirror 2 1", b"watch 2\n", b"ok 3\nspace 2 3 2\n" + ROW[2:] + TABLE.splitlines(keepends=True)[0], b"", 3),
    Exchange("mirror 2 1", b"watch 2\n", b"ok 3\nspace 2 3 2\n" + ROW[2:] * 2, b"", 3),
)


def shown_row(row):
    """A table of this row."""
    return Exchange("show 1", b"show 1\n", b"ok 1 1\n" + row + b"\n", b"ok 1 1\n" + row + b"\n", 0)


def refused_row(row):
    return Exchange("show 1", b"show 1\n", b"ok 1 1\n" + row + b"\n", b"ok 1 1\n", 3)


def taken_post(post):
    """An answer that tells this post."""
    first = b"ok %d\n" % post.count(b"\n")
    return Exchange("take 1", b"take 1\n", first + post, first + post, 0)


def refused_post(post):
    first = b"ok %d\n" % post.count(b"\n")
    return Exchange("take 1", b"take 1\n", first + post, first, 3)


# A line after a post that begins none, and a post of which the last line has no end.
BEHIND = Exchange("take 1", b"take 1\n", b"ok 3\n" + POSTS[0] + b"\n", b"ok 3\n" + POSTS[0], 3)
ENDLESS = Exchange("take 1", b"take 1\n", b"ok 2\n" + POSTS[0][:-1], b"ok 2\n", 3)


def check_bytes(program):
    """Each byte but NUL in a source: four of them have an escape, and the others come as they are."""
    escapes = {ord(" "): rb"\040", ord("\t"): rb"\011", ord("\n"): rb"\012", ord("\\"): rb"\134"}
    sources = [b"1" + escapes.get(byte, bytes([byte])) + b"1" for byte in range(1, 256)]
    lines = [b"mkfs root tmpfs none", b"newns root"]
    for number, source in enumerate(sources):
        lines += [b"mkfs %d ext4 %s" % (number, source), b"mkdir root /%d" % number, b"mount 1 %d /%d" % (number, number)]
    rows = [b"1 1 0:1 / / rw,relatime - tmpfs none rw\n"]
    rows += [b"%d 1 0:%d / /%d rw,relatime - ext4 %s rw\n" % (n + 2, n + 2, n, source) for n, source in enumerate(sources)]
    wanted = b"ok 256 256\n" + b"".join(rows)
    status, found, complaint = session(program, lines + [b"show 1"])
    table = found[found.rindex(b"ok 256 ") :] if b"ok 256 " in found else found
    check("each byte in a source", (status, table, complaint) == (0, wanted, b""), difference(wanted, table, "each byte"))


# Words that begin no escape with their backslash, each as a source.
NO_ESCAPES = rb"""\
a\
\0
\04
\041
\057
\777
\n
\\134"""

# A label may be a name that a directory may not have; three dots, and one before others, are a name.
WORDS = (
    (b"mkfs . tmpfs none", b"ok 1"),
    (b"mkfs .. tmpfs none", b"ok 2"),
    (b"mkfs a/b tmpfs none", b"ok 3"),
    (b"mkfs a\0b tmpfs none", b"no BadLine"),
    (b"mkdir a/b /...", b"ok"),
    (b"mkdir a/b /.k", b"ok"),
    (b"mkdir a/b /.", b"no BadPath"),
    (b"mkdir a/b /..", b"no BadPath"),
    (b"mkdir a/b /a\0b", b"no BadLine"),
)


def check_words(program):
    """Words that are no escapes, labels and names, as a session takes them."""
    turns = [(b"mkfs k tmpfs " + word, b"no BadLine") for word in NO_ESCAPES.split(b"\n")] + [*WORDS]
    wanted = b"".join(answer + b"\n" for _, answer in turns)
    found = session(program, [line for line, _ in turns])
    check("escapes, labels and names", found == (0, wanted, b""), difference(wanted, found[1], "words"))


def check_reading(program, mountctl):
    """What a line is read as: by the other program in answers, and by the server."""
    exchanges = [*map(shown_row, ROWS.split(b"\n")), *map(refused_row, NO_ROWS.split(b"\n"))]
    exchanges += [*map(taken_post, POSTS), *map(refused_post, NO_POSTS), BEHIND, ENDLESS, *MIRRORS]
    with Door() as door:
        for exchange in exchanges:
            check_exchange(mountctl, door, exchange)
    check_bytes(program)
    check_words(program)
