"""What may be at the path of a server's socket: nothing, or with `--replace` a stale socket. All else stays. And how the
socket is made there. A module, for server.py.
"""
import contextlib
import os
import shutil
import socket
import stat
import subprocess
import tempfile
import time

from harness.protocol import Broken
from harness.runs import MOST_SECONDS, check, run
from harness.servers import STOP, Server, crowded, leave_socket, user_of_none
from servers.starts import (
    ABSENT,
    DENIED,
    EMPTY,
    IN_USE,
    LONG,
    NO_SOCKET,
    STARTS,
    UNSERVED,
    connected,
    ended,
    held,
    let_go,
    lock_of,
    refusal,
    started,
    wait_for_hold,
)
from servers.stops import check_stopped

# The mode of a socket, and of another file.
OWN, PLAIN = 0o600, 0o644

# How many descriptors the system needs to load a server, and how many that needs to serve a client; how it ends with fewer.
LEAST_DESCRIPTORS, NEEDED_DESCRIPTORS = 4, 9
TOO_FEW = 1, b"", b"mountd: cannot listen: too few descriptors\n"


def check_refused(name, program, path, reason, *, told=None, starts=STARTS, user=None):
    """A start at a path is refused for this reason, which is told of the path, or of another."""
    for options in starts:
        done = subprocess.run(
            [program, *options, path], stdin=subprocess.DEVNULL, capture_output=True, timeout=MOST_SECONDS, user=user
        )
        found = done.returncode, done.stdout, done.stderr
        check(f"{' '.join(options)} {name}", found == refusal(told or path, reason), repr(found))


def mode_of(path):
    """The mode of a file, no link followed."""
    return stat.S_IMODE(os.lstat(path).st_mode)


def which(path):
    """Which file a path names, and of which kind, no link followed."""
    found = os.lstat(path)
    return found.st_dev, found.st_ino, stat.S_IFMT(found.st_mode)


def check_stays(name, program, path, reason=NO_SOCKET, *, starts=STARTS):
    """A start at a path of something is refused, and it is still there."""
    before = which(path)
    check_refused(name, program, path, reason, starts=starts)
    check(f"{name}: it stays", which(path) == before)


def check_denied(program):
    """A start in a folder in which the user may not write."""
    with tempfile.TemporaryDirectory() as folder:
        copy = shutil.copy(program, folder)
        os.chmod(copy, 0o755)
        os.chmod(folder, 0o555)
        lock = lock_of(path := os.path.join(folder, "socket"))
        check_refused("a folder of somebody else", copy, path, DENIED, told=lock, user=user_of_none())
        check_refused("a file in a folder of somebody else", copy, copy, NO_SOCKET, user=user_of_none())
        os.chmod(folder, 0o755)


def check_crowded(program):
    """A path at which somebody listens is refused also where as many clients wait as may, and at once."""
    with tempfile.TemporaryDirectory() as folder:
        path = os.path.join(folder, "socket")
        with crowded(path):
            check_stays("a path at which many clients wait", program, path, IN_USE)


def check_few_descriptors(program):
    """A server that may have too few descriptors to serve anybody does not start; with one more it serves a client, and is
    stopped by it."""
    with tempfile.TemporaryDirectory() as folder:
        for count in range(LEAST_DESCRIPTORS, NEEDED_DESCRIPTORS):
            found = run("prlimit", b"", f"--nofile={count}:{count}", program, os.path.join(folder, "socket"))
            check(f"a start with {count} descriptors", found == TOO_FEW and not os.listdir(folder), repr(found))
    with Server(program, descriptors=NEEDED_DESCRIPTORS) as server:
        check_stopped("a start with enough descriptors", server)


def check_paths(program):
    with tempfile.TemporaryDirectory() as folder:
        check_refused("a folder that is not there", program, os.path.join(folder, "none", "socket"), ABSENT)
        check_refused("no path", program, "", EMPTY)
        long = os.path.join(folder, "x" * (108 - len(folder) - 1))
        check_refused("a path of 108 bytes", program, long, LONG)
        with Server(program, path=long[:107]) as server:
            check_stopped("a path of 107 bytes", server)
    check_denied(program)
    check_crowded(program)
    check_few_descriptors(program)
    with Server(program) as server:
        check("who may connect", mode_of(server.path) == OWN, oct(mode_of(server.path)))
        check_stays("a path with a server", program, server.path, IN_USE)
        check_stopped("a second start", server)
        with Server(program, path=server.path) as again:
            check_stopped("a second start on the same path", again)
    with Server(program) as server:
        with server.free() as client:
            os.remove(server.path)
            check("a stop without its socket", client.ask(b"stop") == [b"ok"] and server.ends() == (0, b""))
    with Server(program) as server:
        with server.free() as client:
            os.remove(server.path)
            with open(server.path, "w", encoding="ascii"):
                pass
            check("a stop with a strange file", client.ask(b"stop") == [b"ok"] and server.ends() == (0, b""))
            check("the strange file stays", os.path.isfile(server.path))
    with Server(program) as server:
        os.utime(server.path)
        check_stopped("a stop after a touch of its socket", server)


def check_strangers(program):
    """What is no socket stays at a path, though a connection to it is refused as well, and so does a link to a stale one."""
    with tempfile.TemporaryDirectory() as folder:
        paths = {name: os.path.join(folder, name) for name in ("file", "queue", "link", "lost", "stale", "plain")}
        with open(paths["file"], "w", encoding="ascii"):
            pass
        os.mkfifo(paths["queue"])
        os.symlink("stale", paths["link"])
        os.symlink("none", paths["lost"])
        leave_socket(paths["stale"])
        left = which(paths["stale"])
        check_stays("a path with a file", program, paths["file"])
        check_stays("a folder as path", program, folder)
        check_stays("a path with a queue", program, paths["queue"])
        check_stays("a path with a link to a stale socket", program, paths["link"])
        check("the stale socket of a link stays", which(paths["stale"]) == left)
        check_stays("a path with a link to nothing", program, paths["lost"])
        with socket.socket(socket.AF_UNIX, socket.SOCK_DGRAM) as plain:
            plain.bind(paths["plain"])
            check_stays("a path with a socket of another kind", program, paths["plain"], IN_USE)


def check_stale(program):
    """The socket of a server that was killed makes room for the next one where that replaces it."""
    with Server(program) as server:
        server.process.kill()
        server.process.wait(STOP)
        check("a killed server leaves its socket", stat.S_ISSOCK(os.lstat(server.path).st_mode))
        check_stays("a start that replaces nothing", program, server.path, UNSERVED, starts=[()])
        with Server(program, "--replace", path=server.path) as again:
            mode = mode_of(server.path)
            check("who may connect in the place of a killed server", mode == OWN, oct(mode))
            with again.free() as client:
                check("a world of its own", client.ask(b"show 1") == [b"no NoNamespace"])
            check_stays("a third start", program, server.path, IN_USE)
            check_stopped("a start behind a killed server", again)
    check_strangers(program)
    check_second_look(program)


@contextlib.contextmanager
def waiting(program, path):
    """A start that would replace a stale socket, in the moment before it looks once more."""
    with started([program, "--replace", path]) as start:
        wait_for_sleep(start.pid)
        yield start


def wait_for_sleep(number):
    """Waits until a process sleeps, as it does for the first time in that moment."""
    end = time.monotonic() + MOST_SECONDS
    while time.monotonic() < end:
        with open(f"/proc/{number}/stat", "rb") as file:
            if file.read().rsplit(b") ", 1)[1].startswith(b"S"):
                return
    raise Broken("the server does not wait")


def check_second_look(program):
    """A socket at which somebody begins to listen stays, and so does one that has come in the place of a stale one."""
    with tempfile.TemporaryDirectory() as folder:
        path, other = os.path.join(folder, "socket"), os.path.join(folder, "other")
        with socket.socket(socket.AF_UNIX) as late:
            late.bind(path)
            with waiting(program, path) as start:
                late.listen()
                check("a socket that is listened at late", ended(start) == refusal(path, IN_USE))
            with socket.socket(socket.AF_UNIX) as client:
                check("it is still there", client.connect_ex(path) == 0)
        leave_socket(other)
        with waiting(program, path) as start:
            os.rename(other, path)
            found = which(path)
            check("another socket in its place", ended(start) == refusal(path, IN_USE) and which(path) == found)


def check_made(program):
    """In a folder where others may write, a socket is its user's from the beginning, and no path is followed for it.

    Before the server listens, somebody puts a link in the place of the socket. The file that it names stays as it is.
    """
    with tempfile.TemporaryDirectory() as own, tempfile.TemporaryDirectory() as folder:
        os.chmod(folder, 0o777)
        path, moved, victim = (os.path.join(folder, name) for name in ("socket", "moved", "victim"))
        with open(victim, "w", encoding="ascii"):
            os.chmod(victim, PLAIN)
        with held([program, path], "listen", own) as server:
            wait_for_hold(own)
            check("who may connect before it listens", mode_of(path) == OWN, oct(mode_of(path)))
            os.rename(path, moved)
            os.symlink(victim, path)
            let_go(own)
            with connected(moved) as client:
                check("a server whose socket was moved", client.ask(b"stop") == [b"ok"])
            found = ended(server)
            check("its end", found == (0, b"", b""), repr(found))
        check("a file that a link names", mode_of(victim) == PLAIN, oct(mode_of(victim)))
        check("a link in the place of a socket stays", os.path.islink(path))
