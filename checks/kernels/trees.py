"""Detached trees of a script in the running kernel. A module, a part of kernel.py.

A tree is a mount namespace without a name, held by the descriptor that open_tree(2) gave. No call lists its mounts: a copy of it is put
up beside all that is compared, read, made private and taken away. A copy leaves unbindable mounts out, and has IDs of its own. A
process may copy a tree, and mount on it, only where it was opened, or anywhere if it is of a new filesystem (docs/KERNEL.md,
`origin`).
"""
import contextlib
import os
import re
from typing import NamedTuple

from harness.comparison import STAND_IN
from kernels import syscalls
from kernels.syscalls import AT_FDCWD

# Where the copy of a tree is put up, in a namespace that has nothing else.
PLACE = b"/tree"
# The ID and the parent of a line of mountinfo, and its mount point, below that place.
LINE = re.compile(rb"(\d+) (\d+) (\S+ \S+) %b(?:(/\S+)|(?= ))(.*)" % PLACE, re.DOTALL)
MOUNT_ID = re.compile(r"(?m)^mnt_id:\s*(\d+)$")


class Tree(NamedTuple):
    """A detached tree: its descriptor, and the number of the namespace in which it was opened, or 0."""

    fd: int
    origin: int

    def close(self):
        os.close(self.fd)


def path_from(folder, path):
    """A path as it leads from the root mount of a tree, or from a root directory."""
    return path if folder == AT_FDCWD else path.lstrip(b"/")


@contextlib.contextmanager
def standing_in(folder):
    """Stands in a tree, for calls that take no folder: their paths begin there."""
    if folder == AT_FDCWD:
        yield lambda path: path
        return
    os.fchdir(folder)
    try:
        yield lambda path: b"." + path.rstrip(b"/")
    finally:
        os.chdir("/")


def bind(folder, source, path, is_recursive):
    """A bind in a tree: what is copied is attached there. As mount(2) does, it looks up both paths first."""
    for looked_up in source, path:
        syscalls.look_up(looked_up, folder)
    copy = syscalls.open_copy(source, folder, is_recursive)
    try:
        syscalls.attach(copy, path, folder)
    finally:
        os.close(copy)


def put_up(copy, proc):
    """The lines of mountinfo of a copy that is put up, which goes again."""
    syscalls.attach(copy, PLACE)
    try:
        with open(os.open("self/mountinfo", os.O_RDONLY, dir_fd=proc), "rb") as lines:
            return [found.groups(b"") for line in lines if (found := LINE.fullmatch(line))]
    finally:
        # What goes from a private mount goes from no other one. What covers the root mount goes first.
        flags = syscalls.AT_EMPTY_PATH | syscalls.AT_RECURSIVE
        syscalls.mount_setattr(b"", propagation=syscalls.MS_PRIVATE, flags=flags, folder=copy)
        with contextlib.suppress(OSError):
            while True:
                syscalls.umount(PLACE, syscalls.MNT_DETACH)


def root_of(tree, proc):
    """The ID of the root mount of a tree."""
    with open(os.open(f"self/fdinfo/{tree.fd}", os.O_RDONLY, dir_fd=proc)) as lines:
        return int(MOUNT_ID.search(lines.read())[1])


def table_of(tree, copy, proc):
    """The table of a tree, by a copy of it: mount points lead from its root mount, which has its own ID, and the other mounts have
    IDs that stand for theirs."""
    lines = put_up(copy, proc)
    ids = {number: STAND_IN + place for place, (number, *_) in enumerate(lines)}
    if lines:
        ids[lines[0][0]] = root_of(tree, proc)
    rows = [b"%d %d %b %b%b" % (ids[number], ids.get(parent, ids[number]), root, point or b"/", rest) for number, parent, root, point, rest in lines]
    return b"".join(rows)
