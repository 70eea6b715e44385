"""What the other program makes of answers that are written here by hand: a module, a part of server.py.

A door in the place of a server takes one connection after another, and writes a whole answer to it at once. What the
program sends, what it prints and how it ends are compared, for answers of any worth and for such as no server gives; and
what it prints where its request does not go out, since the door is closed before that is read.
"""
import shlex
import subprocess
from typing import NamedTuple

from harness.runs import MOST_SECONDS, check, connection_fault
from harness.servers import Door


class Exchange(NamedTuple):
    """Words as a shell reads them, what they send, what is answered, what is printed, and the status. With 3 a
    connection fault is told, after what is said of the line."""

    words: str
    sent: bytes
    answer: bytes
    printed: bytes
    status: int
    said: bytes = b""


ROWS = b"2 2 0:1 / / rw,relatime master:1 - tmpfs none rw\n5 2 0:2 / /m rw,relatime master:2 - ext4 /dev/x rw\n"
POST = b"event 1 2 1\n- 3\n"

# Requests of one line. What is after an answer is not read, and of one that is none whole lines are printed.
REQUESTS = (
    Exchange("mkdir a '/p q'", b"mkdir a /p\\040q\n", b"ok\nok\n", b"ok\n", 0),
    Exchange("show 9", b"show 9\n", b"no NoNamespace\nok\n", b"no NoNamespace\n", 1),
    Exchange("show 1", b"show 1\n", b"ok 2 7\n" + ROWS + b"three\n", b"ok 2 7\n" + ROWS, 0),
    Exchange("show 1", b"show 1\n", b"ok 3 7\n" + ROWS + b"three\n", b"ok 3 7\n" + ROWS, 3),
    Exchange("show 1", b"show 1\n", b"ok 3 7\n" + ROWS, b"ok 3 7\n" + ROWS, 3),
    Exchange("show 1", b"show 1\n", b"ok 2\n" + ROWS, b"", 3),
    Exchange("show 1", b"show 1\n", b"ok 1 1\nnonsense\n", b"ok 1 1\n", 3),
    Exchange("show 1", b"show 1\n", b"no Such\n", b"", 3),
    Exchange("show 1", b"show 1\n", b"no TooManyOfThem\n", b"", 3),
    Exchange("show 1", b"show 1\n", b"", b"", 3),
    Exchange("newns a", b"newns a\n", b"ok\n", b"", 3),
    Exchange("stop", b"stop\n", b"okay\n", b"", 3),
    Exchange("rm a", b"rm a\n", b"ok\n", b"", 3, b"mountctl: BadLine: rm: no line begins so\n"),
    Exchange("take 1", b"take 1\n", b"ok 2\n" + POST, b"ok 2\n" + POST, 0),
    Exchange("take 1", b"take 1\n", b"ok 1\nnonsense\n", b"ok 1\n", 3),
    Exchange("take 1", b"take 1\n", b"ok 2\nevent 1 1 1\n- 2 2\n", b"ok 2\n", 3),
    Exchange("follow 2", b"follow 2\n", POST + b"ok 1\nno\n", POST + b"ok 1\n", 0),
    Exchange("follow 2", b"follow 2\n", POST + b"ok 2\n", POST, 3),
    Exchange("follow 2", b"follow 2\n", b"event 1 2 2\n- 3\nok 1\n", b"", 3),
)

# What a door answers before it is closed with the request unread, what is printed of it, and the status.
TURNED_AWAY = (
    (b"no TooMany\n", b"no TooMany\n", 1),
    (b"no TooManyOfThem\n", b"", 3),
    (b"ok 0 1\n", b"", 3),
    (b"", b"", 3),
)

# The words of a request that no socket holds unread.
LONG = ["mkfs", *["x" * 100_000] * 3]

# What a watcher of namespace 2 is answered, and the table that the posts lead to.
FOLLOWED = b"""ok 3
space 2 3 2
2 2 0:1 / / rw,relatime master:1 - tmpfs none rw
3 2 0:2 / /m rw,relatime - ext4 /dev/x rw
event 2 4 2
= 3 5 0:2 / /m rw,relatime - ext4 /dev/x rw
= 5 2 0:2 / /m rw,relatime master:2 - ext4 /dev/x rw
event 2 5 1
- 3
ok 2
"""
MIRRORED = b"ok 2 5\n" + ROWS

MIRRORS = (
    Exchange("mirror 2 2", b"watch 2\nfollow 2\n", FOLLOWED, MIRRORED, 0),
    Exchange("mirror 2 2", b"watch 2\n", b"no NoNamespace\n", b"no NoNamespace\n", 1),
    Exchange("mirror 2 2", b"watch 2\n", b"ok 3\nspace 2 3 2\n", b"", 3),
    Exchange("mirror 2 2", b"watch 2\n", b"space 2 3 2\n", b"", 3),
)

# Tables and their trees: two of three mounts; one with a stack at /mnt/a, and a name that is no ASCII; one of mounts
# 3 and 4 that stand on each other, 5 that stands on one of them, and 6, whose parent is not there.
ONE = b"3 3 0:1 / / rw,relatime master:1 - rootfs none rw\n"
TWO = b"1 1 0:1 / / rw,relatime shared:1 - rootfs none rw\n2 1 0:2 / /mnt ro,relatime - ext4 d rw\n"
TREE_OF_ONE = b"""namespace 2
ID TARGET SOURCE FSTYPE OPTIONS     PROPAGATION
3  /      none   rootfs rw,relatime master:1
"""
TREES = b"""namespace 1
ID TARGET SOURCE FSTYPE OPTIONS     PROPAGATION
1  /      none   rootfs rw,relatime shared:1
2  `-/mnt d      ext4   ro,relatime private

""" + TREE_OF_ONE
STACKS = b"""1 1 0:1 / / rw,relatime shared:1 - rootfs none rw
2 1 0:2 / /mnt rw,relatime shared:2 master:1 - ext4 d rw
3 2 0:2 / /mnt/a ro,relatime - ext4 d rw
5 3 0:2 / /mnt/a ro,relatime - ext4 d rw
7 1 0:3 / /proc rw,relatime unbindable - proc p rw
8 1 0:4 / /k\xc3\xa4\\040b rw,relatime - tmpfs none rw
9 3 0:4 / /mnt/a/n rw,relatime - tmpfs none rw
"""
TREE_OF_STACKS = """namespace 1
ID TARGET         SOURCE FSTYPE OPTIONS     PROPAGATION
1  /              none   rootfs rw,relatime shared:1
2  ├─/mnt         d      ext4   rw,relatime shared:2,master:1
3  │ └─/mnt/a     d      ext4   ro,relatime private
5  │   ├─/mnt/a   d      ext4   ro,relatime private
9  │   └─/mnt/a/n none   tmpfs  rw,relatime private
7  ├─/proc        p      proc   rw,relatime unbindable
8  └─/kä\\040b     none   tmpfs  rw,relatime private
""".encode()
# Wide characters, a combining one, and bytes that a terminal obeys or that are no text.
WIDE = b"1 1 0:1 / / rw,relatime - rootfs \xe6\x9c\xa8 rw\n", (
    b"2 2 0:1 / / rw,relatime - rootfs none rw\n3 2 0:2 /\x7f /e\xcc\x81\xe6\x97\xa5\xe6\x9c\xac rw,relatime - e\x1bt \xff\xc2\x9b rw\n"
)
TREES_OF_WIDE = """namespace 1
ID TARGET SOURCE FSTYPE OPTIONS     PROPAGATION
1  /      木     rootfs rw,relatime private

namespace 2
ID TARGET   SOURCE              FSTYPE OPTIONS     PROPAGATION
2  /        none                rootfs rw,relatime private
3  └─/e\u0301日本 \\xff\\xc2\\x9b[/\\x7f] e\\x1bt rw,relatime private
""".encode()
RING = b"""1 1 0:1 / / rw,relatime shared:1 - rootfs none rw
2 1 0:1 / /a rw,relatime - rootfs none rw
3 4 0:1 / /b rw,relatime - rootfs none rw
4 3 0:1 / /b rw,relatime - rootfs none rw
5 4 0:1 / /b/longer rw,relatime - rootfs none rw
6 9 0:1 / /c rw,relatime - rootfs none rw
7 1 0:1 / /d rw,relatime - rootfs none rw
"""
TREE_OF_RING = b"""namespace 1
ID TARGET    SOURCE FSTYPE OPTIONS     PROPAGATION
1  /         none   rootfs rw,relatime shared:1
2  |-/a      none   rootfs rw,relatime private
7  `-/d      none   rootfs rw,relatime private
6  /c        none   rootfs rw,relatime private
not in a tree:
3  /b        none   rootfs rw,relatime private
4  /b        none   rootfs rw,relatime private
5  /b/longer none   rootfs rw,relatime private
"""
# Tables of which each has columns of its own width. One has a mount that shows a directory of its filesystem.
WIDTHS = b"1 1 0:1 / / rw,relatime - rootfs none rw\n", b"200 200 0:1 /a\\040b/c / ro,nosuid,relatime - tmpfs /dev/x rw\n"
TREES_OF_WIDTHS = b"""namespace 1
ID TARGET SOURCE FSTYPE OPTIONS     PROPAGATION
1  /      none   rootfs rw,relatime private

namespace 2
ID  TARGET SOURCE            FSTYPE OPTIONS            PROPAGATION
200 /      /dev/x[/a\\040b/c] tmpfs  ro,nosuid,relatime private
"""
# A target of 61 characters, and one of 60: a column is as wide as the widest cell, but for those of more than 60.
LONG_TARGETS = b"""1 1 0:1 / / rw,relatime - rootfs none rw
2 1 0:1 / /%b rw,relatime - rootfs none rw
3 1 0:1 / /%b rw,relatime - rootfs none rw
""" % (b"m" * 58, b"n" * 57)
TREE_OF_LONG_TARGETS = b"""namespace 1
ID TARGET%b SOURCE FSTYPE OPTIONS     PROPAGATION
1  /%b none   rootfs rw,relatime private
2  |-/%b none   rootfs rw,relatime private
3  `-/%b none   rootfs rw,relatime private
""" % (b" " * 54, b" " * 59, b"m" * 58, b"n" * 57)
NO_TREES = b"""namespace 1
ID TARGET SOURCE FSTYPE OPTIONS PROPAGATION

namespace 2
ID TARGET SOURCE FSTYPE OPTIONS PROPAGATION
"""

# Two tables: three members of group 1, a slave of it, two members of group 9, a slave of a group that is not in sight,
# and a name with a quote, an ampersand and bytes that are no text.
RINGS = b"""1 1 0:1 / / rw,relatime shared:1 - rootfs none rw
2 1 0:2 / /m rw,relatime shared:9 master:1 - ext4 d rw
3 2 0:2 /"a/b /m/"&\xff\x01\\134 ro,relatime shared:1 - ext4 d rw
""", b"""4 4 0:1 / / rw,relatime shared:1 - rootfs none rw
5 4 0:2 / /m rw,relatime shared:9 master:7 propagate_from:1 - ext4 d rw
"""
GRAPH = b"""digraph mounts {
node [shape=box, fontsize=10, height=0];
edge [fontsize=10];
subgraph "cluster_1" {
label="namespace 1";
"1.1" [label="1 /\\nrootfs\\nrw,relatime\\nshared:1", penwidth=2, color=blue3];
"1.2" [label="2 /m\\next4\\nrw,relatime\\nshared:9,master:1", penwidth=2, color=darkorange2];
"1.3" [label="3 /m/\\\\042\\\\046\\\\377\\\\001\\\\134\\next4[/\\\\042a/b]\\nro,relatime\\nshared:1", penwidth=2, color=blue3];
}
subgraph "cluster_2" {
label="namespace 2";
"2.4" [label="4 /\\nrootfs\\nrw,relatime\\nshared:1", penwidth=2, color=blue3];
"2.5" [label="5 /m\\next4\\nrw,relatime\\nshared:9,master:7,propagate_from:1", penwidth=2, color=darkorange2];
}
"1.1" -> "1.2" [arrowhead=none, color=black];
"1.2" -> "1.3" [arrowhead=none, color=black];
"2.4" -> "2.5" [arrowhead=none, color=black];
"1.1" -> "1.3" [dir=none, constraint=false, style=bold, color=blue3];
"1.2" -> "2.5" [dir=none, constraint=false, style=bold, color=darkorange2];
"1.3" -> "2.4" [dir=none, constraint=false, style=bold, color=blue3];
"2.4" -> "1.1" [dir=none, constraint=false, style=bold, color=blue3];
"1.1" -> "1.2" [style=dashed, color=blue3];
"group 7" -> "2.5" [style=dashed, color=green4];
"legend" [shape=plain, label=<<table border="0" cellborder="0">
<tr><td>peer group</td><td>mounts</td></tr>
<tr><td border="2" color="blue3">1</td><td>3</td></tr>
<tr><td border="2" color="green4">7</td><td>0</td></tr>
<tr><td border="2" color="darkorange2">9</td><td>2</td></tr>
</table>>];
}
"""
GRAPH_OF_ONE = b"""digraph mounts {
node [shape=box, fontsize=10, height=0];
edge [fontsize=10];
subgraph "cluster_1" {
label="namespace 1";
"1.3" [label="3 /\\nrootfs\\nrw,relatime\\nmaster:1"];
}
"group 1" -> "1.3" [style=dashed, color=blue3];
"legend" [shape=plain, label=<<table border="0" cellborder="0">
<tr><td>peer group</td><td>mounts</td></tr>
<tr><td border="2" color="blue3">1</td><td>0</td></tr>
</table>>];
}
"""
# One of no group, whose namespace has a name.
ALONE = b"3 3 0:1 / / rw,relatime - rootfs none rw\n"
GRAPH_OF_NAMED = rb"""digraph mounts {
node [shape=box, fontsize=10, height=0];
edge [fontsize=10];
subgraph "cluster_1" {
label="namespace 1 (a\\042\\040b\\303\\244)";
"1.3" [label="3 /\nrootfs\nrw,relatime\nprivate"];
}
}
"""
SPACES = b"namespace 1: 2 mounts\nnamespace 2: 1 mount\nnamespace 3: 0 mounts\n"
NAMED_SPACES = b"namespace 1 (a\\040\\x1bb): 2 mounts\nnamespace 2: 1 mount\nnamespace 3 (x=y): 0 mounts\n"
SPACES_AS_JSON = b"""{"mounts":2,"namespace":1}
{"mounts":1,"name":"w eb","namespace":2}
"""
NAMED_TREES = TREES.replace(b"namespace 1\n", b"namespace 1 (a\\040\\x1bb)\n").replace(b"namespace 2\n", b"namespace 2 (w)\n")
# Where a path leads, and the parts of STACKS to which it does.
PLACED = b"ok %d /\n"
SHOWN = b"ok 7 1\n" + STACKS
PART_OF_STACKS = b"""namespace 1
ID TARGET       SOURCE FSTYPE OPTIONS     PROPAGATION
2  /mnt         d      ext4   rw,relatime shared:2,master:1
3  `-/mnt/a     d      ext4   ro,relatime private
5    |-/mnt/a   d      ext4   ro,relatime private
9    `-/mnt/a/n none   tmpfs  rw,relatime private
"""
PART_OF_TOP = b"""namespace 1
ID TARGET SOURCE FSTYPE OPTIONS     PROPAGATION
5  /mnt/a d      ext4   ro,relatime private
"""


def opening(*tables):
    """The answer to a watcher: namespaces from 1 on with these tables."""
    lines = []
    for space, table in enumerate(tables, 1):
        lines += [b"space %d 0 %d\n" % (space, table.count(b"\n")), table]
    text = b"".join(lines)
    return b"ok %d\n" % text.count(b"\n") + text


ALL = b"watch all\n"
PICTURES = (
    Exchange("tree --ascii", ALL, opening(TWO, ONE), TREES, 0),
    Exchange("tree --ascii", ALL, b"ok 2\nspace 2 0 1\n" + ONE, TREE_OF_ONE, 0),
    Exchange("tree", ALL, opening(STACKS), TREE_OF_STACKS, 0),
    Exchange("tree --ascii", ALL, opening(RING), TREE_OF_RING, 0),
    Exchange("tree", ALL, opening(*WIDTHS), TREES_OF_WIDTHS, 0),
    Exchange("tree", ALL, opening(*WIDE), TREES_OF_WIDE, 0),
    Exchange("tree", ALL, opening(b"", b""), NO_TREES, 0),
    Exchange("tree --ascii", ALL, opening(LONG_TARGETS), TREE_OF_LONG_TARGETS, 0),
    Exchange("dot", ALL, opening(*RINGS), GRAPH, 0),
    Exchange("tree all --ascii", ALL, opening(TWO, ONE), TREES, 0),
    Exchange("dot all", ALL, opening(*RINGS), GRAPH, 0),
    Exchange("dot 1", b"watch 1\n", opening(ONE), GRAPH_OF_ONE, 0),
    Exchange("dot --name '1=a\" bä' 1", b"watch 1\n", opening(ALONE), GRAPH_OF_NAMED, 0),
    Exchange("tree --name 2=w --ascii --name '1=a \x1bb'", ALL, opening(TWO, ONE), NAMED_TREES, 0),
    Exchange("tree 1 /mnt --ascii", b"find 1 /mnt\nshow 1\n", PLACED % 2 + SHOWN, PART_OF_STACKS, 0),
    Exchange("tree 1 --ascii /mnt/a", b"find 1 /mnt/a\nshow 1\n", PLACED % 5 + SHOWN, PART_OF_TOP, 0),
    Exchange("tree 1 /none", b"find 1 /none\n", b"no NoEntry\n", b"no NoEntry\n", 1),
    Exchange("dot 1 /none", b"find 1 /none\n", b"no NoNamespace\n", b"no NoNamespace\n", 1),
    Exchange("tree 1 /none --json", b"find 1 /none\n", b"no NoEntry\n", b'{"refusal":"NoEntry"}\n', 1),
    # A mount that has gone is looked for again.
    Exchange("tree 1 /mnt --ascii", b"find 1 /mnt\nshow 1\n" * 2, PLACED % 99 + SHOWN + PLACED % 2 + SHOWN, PART_OF_STACKS, 0),
    Exchange("tree 1 /mnt", b"find 1 /mnt\n", b"ok\n", b"", 3),
    Exchange("tree 1 /mnt", b"find 1 /mnt\nshow 1\n", PLACED % 2 + b"ok 1 1\nnonsense\n", b"", 3),
    Exchange("spaces --name 3=x=y --name '1=a \x1bb'", ALL, opening(TWO, ONE, b""), NAMED_SPACES, 0),
    Exchange("spaces --name '2=w eb' --json", ALL, opening(TWO, ONE), SPACES_AS_JSON, 0),
    Exchange("spaces --json", ALL, b"no TooManyWatchers\n", b'{"refusal":"TooManyWatchers"}\n', 1),
    Exchange("spaces", ALL, opening(TWO, ONE, b""), SPACES, 0),
    Exchange("spaces", ALL, opening(), b"", 0),
    Exchange("spaces", ALL, b"no TooManyWatchers\n", b"no TooManyWatchers\n", 1),
    Exchange("tree", ALL, b"no TooManyWatchers\n", b"no TooManyWatchers\n", 1),
    Exchange("tree 2 --ascii", b"watch 2\n", b"ok 2\nspace 2 0 1\n" + ONE, TREE_OF_ONE, 0),
    Exchange("tree 2", b"watch 2\n", opening(TWO, ONE), b"", 3),
    Exchange("tree 2", b"watch 2\n", b"ok 0\n", b"", 3),
    Exchange("tree 2", b"watch 2\n", opening(b""), b"", 3),
    # Namespaces that do not rise, two of one number, an answer that ends early, one with fewer lines than it says, and
    # one with more.
    Exchange("tree", ALL, b"ok 4\nspace 2 0 1\n" + ONE + b"space 1 0 1\n" + ONE, b"", 3),
    Exchange("tree", ALL, b"ok 2\nspace 2 0 0\nspace 2 0 0\n", b"", 3),
    Exchange("tree", ALL, b"ok 5\nspace 1 0 2\n" + TWO, b"", 3),
    Exchange("tree", ALL, b"ok 2\nspace 1 0 2\n" + TWO, b"", 3),
    Exchange("tree", ALL, b"ok 3\nspace 2 0 1\n" + ONE + b"no Stopped\n", b"", 3),
    Exchange("tree", ALL, b"ok 2\nspace 1 1 1\nnonsense\n", b"", 3),
    Exchange("dot", ALL, b"ok 2\nspace 1 1 0\n", b"", 3),
)

# A table of namespace 2, and posts of it over that table, each with its words.
BEFORE = b"""ok 6
space 2 8 5
2 2 0:1 / / rw,relatime shared:1 - tmpfs none rw
3 2 0:2 / /a rw,relatime shared:2 master:1 - ext4 /dev/x rw
4 2 0:2 /b /m\\040n ro,nosuid,nodev,noexec,noatime,nodiratime,nosymfollow unbindable - ext4 /dev/x rw
5 4 0:2 / /m\\040n/c rw,relatime - ext4 /dev/x rw
7 2 0:2 / /d rw,relatime master:5 propagate_from:1 - ext4 /dev/x rw
"""
CHANGES = (
    (
        b"""event 2 9 5
- 5
- 6
= 2 2 0:1 / / rw,relatime shared:1 - tmpfs none rw
= 3 2 0:2 / /a ro,relatime shared:2 master:1 - ext4 /dev/x rw
= 8 3 0:3 / /a\\012b\x1b\xc2\x9b\xff\xc3\xa4 rw,relatime - e\\011t\x7f /dev/y rw
""",
        b"""- 5 /m\\040n/c in namespace 2
- 6 in namespace 2
~ 2 / as before in namespace 2
~ 3 /a rw -> ro in namespace 2
+ 8 /a\\012b\\x1b\\xc2\\x9b\\xff\xc3\xa4 e\\011t\\x7f rw,relatime private in namespace 2
""",
    ),
    (
        b"""event 2 9 1
= 4 3 0:2 / /a/n rw shared:4 master:2 propagate_from:1 - ext4 /dev/x rw
""",
        b"~ 4 /m\\040n -> /a/n, parent 2 -> 3, root /b -> /, ro -> rw, nosuid -> suid, nodev -> dev, noexec -> exec, "
        b"nosymfollow -> symfollow, nodiratime -> diratime, noatime -> strictatime, "
        b"unbindable -> shared:4,master:2,propagate_from:1 in namespace 2\n",
    ),
    (
        b"""event 2 9 3
= 3 2 0:2 /b /a rw,nosuid,nodev,noexec,noatime,nodiratime,nosymfollow unbindable - ext4 /dev/x rw
= 4 2 0:2 /b /m\\040n ro,nosuid,nodev,noexec,nodiratime,relatime,nosymfollow unbindable - ext4 /dev/x rw
= 7 2 0:2 / /d rw,relatime master:6 - ext4 /dev/x rw
""",
        b"~ 3 /a root / -> /b, suid -> nosuid, dev -> nodev, exec -> noexec, symfollow -> nosymfollow, "
        b"diratime -> nodiratime, relatime -> noatime, shared:2,master:1 -> unbindable in namespace 2\n"
        b"~ 4 /m\\040n noatime -> relatime in namespace 2\n"
        b"~ 7 /d master:5,propagate_from:1 -> master:6 in namespace 2\n",
    ),
)
STOPPED = b"no Stopped\n"
FOLLOWING = b"watch 2\nfollow 1048576\n"
MONITORS = tuple(Exchange("monitor 2", FOLLOWING, BEFORE + post + STOPPED, told + STOPPED, 1) for post, told in CHANGES)
NAMED_MONITORS = (
    Exchange("monitor 2 --name 2=w", FOLLOWING, BEFORE + post + STOPPED, told.replace(b"namespace 2\n", b"namespace 2 (w)\n") + STOPPED, 1)
    for post, told in CHANGES
)


def check_ended(name, client, path, found, printed, status, said=b""):
    """Whether a program that asked at a path has printed this, said this of its line, and ended so."""
    wanted = (status, (printed, said + (connection_fault(path) if status == 3 else b"")))
    check(name, (client.returncode, found) == wanted, f"wanted {wanted}\nfound  {(client.returncode, found)}")


def check_exchange(mountctl, door, exchange):
    name = f"mountctl {exchange.words}, and {exchange.answer!r}"
    words = [mountctl, door.path, *shlex.split(exchange.words)]
    with subprocess.Popen(words, stdout=subprocess.PIPE, stderr=subprocess.PIPE) as client:
        sent = door.answers(exchange.answer)
        found = client.communicate(timeout=MOST_SECONDS)
    check(f"{name}: what it sends", sent == exchange.sent, repr(sent))
    check_ended(name, client, door.path, found, exchange.printed, exchange.status, exchange.said)


def check_turned_away(mountctl, door, answer, printed, status):
    """A request that does not go out: what was answered before is read."""
    words = [mountctl, door.path, *LONG]
    with subprocess.Popen(words, stdout=subprocess.PIPE, stderr=subprocess.PIPE) as client:
        with door.accept() as stream:
            stream.sendall(answer)
        found = client.communicate(timeout=MOST_SECONDS)
    check_ended(f"mountctl, turned away with {answer!r}", client, door.path, found, printed, status)


def check_answers(_program, mountctl):
    """What the other program makes of each of these answers."""
    with Door() as door:
        for exchange in (*REQUESTS, *MIRRORS, *PICTURES, *MONITORS, *NAMED_MONITORS):
            check_exchange(mountctl, door, exchange)
        for answer, printed, status in TURNED_AWAY:
            check_turned_away(mountctl, door, answer, printed, status)
