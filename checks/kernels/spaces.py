"""Commands carried out by the running kernel, in mount namespaces of their own. A module, a part of kernel.py.

A `Worker` is a process with namespaces that nothing else is in: they go with it. It begins in an empty one, which has
nothing of the machine's own mounts. A filesystem of a script is a tmpfs, held by a descriptor: its directories are made
through that, beside all mounts that are compared. A namespace of a script is held by two descriptors, its own and that of
its root directory, and the worker enters it for each command and each reading of its table. So a path begins at the
root of the namespace's root mount, also where something is mounted on that.

A copy with locks belongs to a user namespace of its own, within that of the namespace that is copied; the root user of the
outermost one may enter it. A less privileged copy without locks is a copy in the same one, of which all mounts are made slaves.
A detached tree (trees.py) is entered where it was opened; the paths of its commands lead from its descriptor.
"""
import contextlib
import multiprocessing
import os
import socket
from typing import NamedTuple

from kernels import syscalls, trees
from kernels.syscalls import AT_FDCWD, CLONE_NEWNS, CLONE_NEWUSER
from kernels.trees import Tree, path_from, standing_in

DIRECTORY = os.O_PATH | os.O_DIRECTORY | os.O_CLOEXEC
# What an option of setattr is in mount_setattr(2), but for `rec`.
CHANGES = {b"set": "attr_set", b"clr": "attr_clr", b"prop": "propagation"}
# How long a command may take, in seconds.
MOST_SECONDS = 20
FORKING = multiprocessing.get_context("fork")


class Space(NamedTuple):
    """A mount namespace: descriptors of it, of its root directory, and of the user namespace that it belongs to, or none where
    that is the outermost one."""

    fd: int
    root: int
    user: int | None

    def close(self):
        os.close(self.root)
        os.close(self.fd)


class Silent(Exception):
    """A worker that does not answer."""


class Kernel:
    """The filesystems and namespaces of a script, in the process that carries it out."""

    def __init__(self):
        self.proc = os.open("/proc", DIRECTORY)
        syscalls.unshare(CLONE_NEWNS)
        syscalls.mount(None, b"/", syscalls.MS_REC | syscalls.MS_PRIVATE)
        empty = syscalls.new_filesystem(b"tmpfs", b"empty")
        for name in "root", os.fsdecode(trees.PLACE.lstrip(b"/")):
            os.mkdir(name, dir_fd=empty)
        self.change_root(empty, b"/tmp")
        self.empty = self.here()
        self.inside = self.empty
        self.filesystems = {}
        self.spaces, self.made = {}, 0
        self.told = {}

    @staticmethod
    def change_root(filesystem, path):
        """Makes a filesystem the root mount of this namespace, and takes away what was there."""
        syscalls.mount_filesystem(filesystem, path)
        os.chdir(path)
        syscalls.pivot_root(b".", b".")
        syscalls.umount(b".", syscalls.MNT_DETACH)
        os.chdir("/")

    def here(self):
        """The namespace that this process is in, in which its root directory is that of the root mount."""
        return Space(os.open("self/ns/mnt", os.O_RDONLY, dir_fd=self.proc), os.open("/", DIRECTORY), None)

    def enter(self, space):
        if self.inside is space:
            return
        syscalls.setns(space.fd, CLONE_NEWNS)
        os.fchdir(space.root)
        os.chroot(".")
        self.inside = space

    def enter_for(self, number):
        """Enters a namespace, or the one in which a tree was opened, and answers from which folder its paths lead."""
        place = self.spaces[int(number)]
        if isinstance(place, Tree):
            self.enter(self.spaces.get(place.origin, self.empty))
            return place.fd
        self.enter(place)
        return AT_FDCWD

    def count(self, space):
        """Counts a namespace or a tree."""
        self.made += 1
        self.spaces[self.made] = space

    def add(self, space):
        """Counts a namespace that this process may have made by entering it."""
        self.count(space)
        # Where this process is has no Space that it may be compared with, so the next one is entered in any case.
        self.inside = None

    def beside(self, user, calls, names):
        """Descriptors of files of /proc/PID of a child that has made these calls within a user namespace, or the outermost one."""
        here, there = socket.socketpair()
        child = os.fork()
        if child == 0:
            here.close()
            self.hold(user, calls, there)
        with here:
            there.close()
            refused = here.recv(1)
            if refused != b"\0":
                number = int.from_bytes(refused, "big")
                raise OSError(number, os.strerror(number))
            found = [os.open(f"{child}/{name}", flags, dir_fd=self.proc) for name, flags in names]
        os.waitpid(child, 0)
        return found

    def hold(self, user, calls, there):
        """Makes the calls, tells their errno, and holds what they made until nobody listens. This process ends here."""
        refused = 0
        try:
            if user is not None:
                syscalls.setns(user, CLONE_NEWUSER)
            calls()
        except OSError as error:
            refused = error.errno
        with contextlib.suppress(OSError):
            there.sendall(bytes([refused]))
            there.recv(1)
        os._exit(0)

    def user_within(self, user):
        """Makes a user namespace within another one, in which there is the root user alone."""
        self.enter(self.empty)

        def calls():
            syscalls.unshare(CLONE_NEWUSER)
            for name, text in (("setgroups", b"deny"), ("uid_map", b"0 0 1"), ("gid_map", b"0 0 1")):
                file = os.open(f"self/{name}", os.O_WRONLY, dir_fd=self.proc)
                os.write(file, text)
                os.close(file)

        [made] = self.beside(user, calls, [("ns/user", os.O_RDONLY)])
        return made

    # The commands: each is an OSError where the kernel refuses it.

    def mkfs(self, name, kind, source):
        self.filesystems[name] = syscalls.new_filesystem(kind, source)

    def mkdir(self, name, path):
        os.mkdir(b"." + path, dir_fd=self.filesystems[name])

    def newns(self, name):
        self.enter(self.empty)
        syscalls.unshare(CLONE_NEWNS)
        self.inside = None
        self.change_root(self.filesystems[name], b"/root")
        self.add(self.here())

    def copyns(self, number, less=None, lock=None):
        copied = self.spaces[int(number)]
        user = self.user_within(copied.user) if lock else copied.user
        self.enter(copied)

        def calls():
            syscalls.unshare(CLONE_NEWNS)
            if less and not lock:
                syscalls.mount(None, b"/", syscalls.MS_REC | syscalls.MS_SLAVE)

        if user is None:
            calls()
            self.add(self.here())
            return
        names = [("ns/mnt", os.O_RDONLY), ("root", DIRECTORY)]
        fd, root = self.beside(user, calls, names)
        self.add(Space(fd, root, user))

    def dropns(self, number):
        self.enter(self.empty)
        self.spaces.pop(int(number)).close()

    def mount(self, number, name, path, *options):
        folder = self.enter_for(number)
        words = {word for option in options for word in option.removeprefix(b"set=").split(b",")}
        syscalls.mount_filesystem(self.filesystems[name], path_from(folder, path), words, folder)

    def bind(self, number, source, path, is_recursive=False):
        folder = self.enter_for(number)
        if folder != AT_FDCWD:
            trees.bind(folder, path_from(folder, source), path_from(folder, path), is_recursive)
            return
        syscalls.mount(source, path, syscalls.MS_BIND | (syscalls.MS_REC if is_recursive else 0))

    def rbind(self, number, source, path):
        self.bind(number, source, path, is_recursive=True)

    def move(self, number, source, path):
        with standing_in(self.enter_for(number)) as place:
            syscalls.mount(place(source), place(path), syscalls.MS_MOVE)

    def pivot(self, number, new, old):
        space = self.spaces[int(number)]
        with standing_in(self.enter_for(number)) as place:
            syscalls.pivot_root(place(new), place(old))
        # The root directory of this process is that of the new root mount now.
        os.close(space.root)
        self.inside = self.spaces[int(number)] = space._replace(root=os.open("/", DIRECTORY))

    def umount(self, number, path, flags=0):
        with standing_in(self.enter_for(number)) as place:
            syscalls.umount(place(path), flags)

    def detach(self, number, path):
        self.umount(number, path, syscalls.MNT_DETACH)

    def setattr(self, number, path, *options):
        folder = self.enter_for(number)
        changes = {"flags": syscalls.AT_RECURSIVE if b"rec" in options else 0}
        for option in options:
            name, _, words = option.partition(b"=")
            for word in words.split(b",") if words else []:
                value = (syscalls.PROPAGATION if name == b"prop" else syscalls.ATTRIBUTES)[word]
                changes[CHANGES[name]] = changes.get(CHANGES[name], 0) | value
        if folder == AT_FDCWD:
            syscalls.mount_setattr(path, **changes)
        else:
            self.set_in_tree(folder, path, changes)

    def set_in_tree(self, folder, path, changes):
        """Changes a mount of a tree. Below its root mount mount_setattr(2) changes nothing, and mount(2) the propagation."""
        has_attributes = changes.get("attr_set", 0) or changes.get("attr_clr", 0)
        if path == b"/" or has_attributes or "propagation" not in changes:
            flags = changes.pop("flags") | syscalls.AT_EMPTY_PATH
            syscalls.mount_setattr(path_from(folder, path), **changes, flags=flags, folder=folder)
            return
        flags = changes["propagation"] | (syscalls.MS_REC if changes["flags"] else 0)
        with standing_in(folder) as place:
            syscalls.mount(None, place(path), flags)

    def opentree(self, number, path, *options):
        opened = self.spaces[int(number)]
        folder = self.enter_for(number)
        fd = syscalls.open_copy(path_from(folder, path), folder, is_recursive=b"rec" in options)
        self.count(Tree(fd, opened.origin if isinstance(opened, Tree) else int(number)))

    def newtree(self, name):
        self.enter(self.empty)
        self.count(Tree(syscalls.open_copy(b"", self.filesystems[name]), 0))

    def movetree(self, tree, number, path):
        moved = self.spaces[int(tree)]
        folder = self.enter_for(number)
        syscalls.attach(moved.fd if isinstance(moved, Tree) else moved.root, path_from(folder, path), folder)
        self.spaces.pop(int(tree)).close()

    def carry_out(self, words):
        """Carries out a command, and answers the errno, or 0."""
        try:
            getattr(self, words[0].decode())(*words[1:])
            return 0
        except OSError as error:
            return error.errno

    def table_of_tree(self, number, tree):
        """The table of a tree by its number, if it can be copied: its root mount is not unbindable, and its origin is there."""
        folder = self.enter_for(number)
        try:
            copy = syscalls.open_copy(b"", folder, is_recursive=True)
        except OSError:
            return {}
        self.enter(self.empty)
        try:
            return {number: trees.table_of(tree, copy, self.proc)}
        finally:
            os.close(copy)

    def tables(self):
        """The text of /proc/self/mountinfo in each namespace, or of the like in each tree, in which it is not what was answered before,
        or None."""
        now = {}
        for number, space in self.spaces.items():
            if isinstance(space, Tree):
                now.update(self.table_of_tree(number, space))
                continue
            self.enter(space)
            file = os.open("self/mountinfo", os.O_RDONLY, dir_fd=self.proc)
            with open(file, "rb") as lines:
                now[number] = lines.read()
        changed = {number: text for number, text in now.items() if self.told.get(number) != text}
        changed.update((number, None) for number in self.told if number not in now)
        self.told = now
        return changed


def work(pipe):
    """Carries out the commands that come, until there is no one who asks."""
    try:
        kernel = Kernel()
        pipe.send(None)
        while True:
            words = pipe.recv()
            pipe.send((kernel.carry_out(words), kernel.tables()))
    except EOFError:
        os._exit(0)
    except BaseException as error:
        with contextlib.suppress(OSError):
            pipe.send(error)
        os._exit(1)


class Worker:
    """A process that carries out the commands of one script."""

    def __init__(self):
        self.pipe, theirs = FORKING.Pipe()
        self.process = FORKING.Process(target=self.begin, args=(theirs,), daemon=True)
        self.process.start()
        theirs.close()
        self.tables = {}
        self.answer()

    def begin(self, theirs):
        self.pipe.close()
        work(theirs)

    def answer(self):
        if not self.pipe.poll(MOST_SECONDS):
            raise Silent("the kernel's side does not answer")
        found = self.pipe.recv()
        if isinstance(found, BaseException):
            raise found
        return found

    def run(self, words):
        """Carries out a command: the errno or 0, and whether a table has changed. `tables` has all of them."""
        self.pipe.send(words)
        number, changed = self.answer()
        self.tables = {space: text for space, text in {**self.tables, **changed}.items() if text is not None}
        return number, changed != {}

    def close(self):
        self.pipe.close()
        self.process.kill()
        self.process.join()
