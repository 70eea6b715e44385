"""The kernel's calls about mounts and namespaces, each an OSError where it is refused. A module, a part of kernel.py."""
import ctypes
import errno
import functools
import operator
import os

LIBC = ctypes.CDLL(None, use_errno=True)

# Calls that the C library may have no name for: these numbers are those of every architecture.
OPEN_TREE, MOVE_MOUNT, FSOPEN, FSCONFIG, FSMOUNT, MOUNT_SETATTR = 428, 429, 430, 431, 432, 442

CLONE_NEWNS = 0x20000
CLONE_NEWUSER = 0x10000000

AT_FDCWD = -100
AT_EMPTY_PATH = 0x1000
AT_RECURSIVE = 0x8000
OPEN_TREE_CLONE = 1
MOVE_MOUNT_F_EMPTY_PATH = 4
MOVE_MOUNT_T_EMPTY_PATH = 0x40
FSCONFIG_SET_STRING = 1
FSCONFIG_CMD_CREATE = 6
CLOSE_ON_EXEC = 1

MS_RDONLY = 1
MS_NOSUID = 2
MS_NODEV = 4
MS_NOEXEC = 8
MS_REMOUNT = 0x20
MS_BIND = 0x1000
MS_MOVE = 0x2000
MS_REC = 0x4000
MS_PRIVATE = 1 << 18
MS_SLAVE = 1 << 19
MNT_DETACH = 2

# What `prop=K` is in mount_setattr(2).
PROPAGATION = {b"shared": 1 << 20, b"private": MS_PRIVATE, b"slave": MS_SLAVE, b"unbindable": 1 << 17}

# What the words of `set` and `clr` are in mount_setattr(2). `relatime` is the value 0 of the access time.
ATTRIBUTES = {
    b"ro": 0x1,
    b"nosuid": 0x2,
    b"nodev": 0x4,
    b"noexec": 0x8,
    b"atime": 0x70,
    b"relatime": 0,
    b"noatime": 0x10,
    b"strictatime": 0x20,
    b"nodiratime": 0x80,
    b"nosymfollow": 0x200000,
}


class MountAttr(ctypes.Structure):
    """The `struct mount_attr` of mount_setattr(2)."""

    _fields_ = [(name, ctypes.c_uint64) for name in ("attr_set", "attr_clr", "propagation", "userns_fd")]


def checked(result):
    """The result of a call, where it was not refused."""
    if result < 0:
        number = ctypes.get_errno()
        raise OSError(number, os.strerror(number))
    return result


def call(number, *words):
    """A call by its number: the words are numbers, bytes with a zero after them, None, or references."""
    plain = [ctypes.c_long(word) if isinstance(word, int) else word for word in words]
    return checked(LIBC.syscall(ctypes.c_long(number), *plain))


def unshare(flags):
    return checked(LIBC.unshare(flags))


def setns(fd, flags):
    return checked(LIBC.setns(fd, flags))


def pivot_root(new, old):
    return checked(LIBC.pivot_root(new, old))


def mount(source, target, flags, kind=None, data=None):
    """The call that mounts a filesystem of a kind, with data for it, or that changes mounts, by its flags."""
    return checked(LIBC.mount(source, target, kind, ctypes.c_ulong(flags), data))


def umount(target, flags=0):
    return checked(LIBC.umount2(target, flags))


def mount_setattr(path, attr_set=0, attr_clr=0, propagation=0, flags=0, folder=AT_FDCWD):
    attr = MountAttr(attr_set, attr_clr, propagation, 0)
    return call(MOUNT_SETATTR, folder, path, flags, ctypes.byref(attr), ctypes.sizeof(attr))


def new_filesystem(kind, source):
    """A descriptor of the root of a new filesystem, on a mount of it that stands in no namespace."""
    opened = call(FSOPEN, kind, CLOSE_ON_EXEC)
    try:
        call(FSCONFIG, opened, FSCONFIG_SET_STRING, b"source", source, 0)
        call(FSCONFIG, opened, FSCONFIG_CMD_CREATE, None, None, 0)
        return call(FSMOUNT, opened, CLOSE_ON_EXEC, 0)
    finally:
        os.close(opened)


def look_up(path, folder=AT_FDCWD):
    """Looks up a path, which leads from a folder. The empty one is the folder."""
    os.stat(path or b".", dir_fd=None if folder == AT_FDCWD else folder)


def open_copy(path, folder=AT_FDCWD, is_recursive=False):
    """A descriptor of a detached tree: a copy of the mount at a path, or of all mounts below it too."""
    flags = AT_RECURSIVE if is_recursive else 0
    return call(OPEN_TREE, folder, path, OPEN_TREE_CLONE | AT_EMPTY_PATH | flags | os.O_CLOEXEC)


def attach(tree, path, folder=AT_FDCWD):
    """Attaches at a path the mount of a descriptor, with all that stands on it."""
    call(MOVE_MOUNT, tree, b"", folder, path, MOVE_MOUNT_F_EMPTY_PATH | (0 if path else MOVE_MOUNT_T_EMPTY_PATH))


def mount_filesystem(filesystem, path, words=(), folder=AT_FDCWD):
    """Mounts at a path the root of such a filesystem, which is private and stands on top there, with attributes.

    As mount(2) does, it looks up the path first, and no mount is seen without them.
    """
    look_up(path, folder)
    tree = open_copy(b"", filesystem)
    try:
        if words:
            attributes = functools.reduce(operator.or_, (ATTRIBUTES[word] for word in words))
            mount_setattr(b"", attributes, ATTRIBUTES[b"atime"], flags=AT_EMPTY_PATH, folder=tree)
        attach(tree, path, folder)
    finally:
        os.close(tree)


def name_of(number):
    """The name of an errno, or `ok` for none."""
    return errno.errorcode.get(number, str(number)) if number else "ok"
