"""One server at a path, whatever the time between two of its steps is: starts at once, starts beside one that begins or ends,
and the lock that keeps them apart. A module, a part of server.py.
"""
import concurrent.futures
import contextlib
import fcntl
import os
import socket
import tempfile
import time

from harness.runs import MOST_SECONDS, check
from harness.servers import NOBODY, STOP, Server, leave_socket
from servers.paths import OWN, PLAIN, check_refused, mode_of
from servers.starts import (
    FOREIGN,
    IN_USE,
    NO_FILE,
    STARTS,
    asked,
    client_at,
    comes,
    connected,
    ended,
    held,
    let_go,
    lock_of,
    refusal,
    started,
    wait_for_hold,
)
from servers.stops import check_stopped

# How often two servers start at once, and how many pairs of them at a time.
PAIRS, AT_ONCE = 200, 8

# How often a server starts as soon as another was stopped.
RESTARTS = 100

# How long a start is left alone beside one that is held, in seconds: longer than between its two looks at a stale socket.
BESIDE = 0.3

# How long a start waits for a lock, in seconds, and how long it may take for that.
PATIENCE, MOST_PATIENCE = 15, 60


def check_end(name, path, server):
    """A server is stopped through its path, and leaves nothing there."""
    with connected(path) as client:
        check(f"{name}: stop", client.ask(b"stop") == [b"ok"])
    found = ended(server)
    check(f"{name}: the end", found == (0, b"", b""), repr(found))
    left = [there for there in (path, lock_of(path)) if os.path.lexists(there)]
    check(f"{name}: nothing is left", not left, repr(left))


def check_begins_alone(program, call):
    """A server that is held at a call while it begins in the place of a stale socket has the path, and no other one."""
    name = f"a start beside one before its {call}"
    with tempfile.TemporaryDirectory() as own, tempfile.TemporaryDirectory() as folder:
        path = os.path.join(folder, "socket")
        leave_socket(path)
        words = [program, "--replace", path]
        with held(words, call, own) as first:
            wait_for_hold(own)
            with started(words) as second:
                time.sleep(BESIDE)
                let_go(own)
                over = comes(lambda: second.poll() is not None)
                check(f"{name} ends", over and ended(second) == refusal(path, IN_USE))
                check(f"{name}: the first one stays", first.poll() is None)
                check_end(name, path, first)


def check_ends_alone(program):
    """A server that is held where it removes its socket at its end removes that of no other: the next one waits."""
    name = "a start beside one that ends"
    with tempfile.TemporaryDirectory() as own, tempfile.TemporaryDirectory() as folder:
        path = os.path.join(folder, "socket")
        with held([program, path], "unlink", own) as first:
            with connected(path) as client:
                client.ask(b"stop")
            wait_for_hold(own)
            check_refused(f"{name}, that replaces nothing", program, path, IN_USE, starts=[()])
            with started([program, "--replace", path]) as second:
                time.sleep(BESIDE)
                check(f"{name} waits", second.poll() is None and client_at(path) is None)
                let_go(own)
                found = ended(first)
                check(f"{name}: the end of the first", found == (0, b"", b""), repr(found))
                check(f"{name} has the path", comes(lambda: client_at(path)))
                check_end(name, path, second)


def starts_at_once(words, path):
    """Two servers that start at once, up to the end of one of them, and then of both: how many went on, how the others have
    ended, how many filesystems clients have made meanwhile, the answer to one more, and how those that went on have ended."""
    made = 0
    with started(words) as one, started(words) as other:
        end = time.monotonic() + STOP
        while one.poll() is None and other.poll() is None and time.monotonic() < end:
            made += asked(path, b"mkfs f%d tmpfs none" % made) == [b"ok %d" % (made + 1)]
            time.sleep(0.005)
        alive = [server for server in (one, other) if server.poll() is None]
        refused = [ended(server) for server in (one, other) if server not in alive]
        comes(lambda: asked(path, b"show 1"))
        last = asked(path, b"mkfs last tmpfs none")
        asked(path, b"stop")
        return len(alive), refused, made, last, [ended(server) for server in alive]


def why_not_one(program, options):
    """Of two servers that start at once one goes on, and has all that clients have made: else what was found."""
    with tempfile.TemporaryDirectory() as folder:
        path = os.path.join(folder, "socket")
        if options:
            leave_socket(path)
        alive, refused, made, last, ends = found = starts_at_once([program, *options, path], path)
        left = os.listdir(folder)
        good = alive == 1 and refused == [refusal(path, IN_USE)] and last == [b"ok %d" % (made + 1)]
        return "" if good and ends == [(0, b"", b"")] and not left else f"{found}, {left}"


def check_pairs(program):
    """Pairs of servers that start at once, in turn where there is nothing and at a stale socket."""
    with concurrent.futures.ThreadPoolExecutor(AT_ONCE) as threads:
        turns = [threads.submit(why_not_one, program, STARTS[number % len(STARTS)]) for number in range(PAIRS)]
        bad = [why for turn in turns if (why := turn.result())]
    check("two servers that start at once", not bad, f"{len(bad)} of {PAIRS}, as {bad[:3]}")


def check_restarts(program):
    """A server that may replace a stale socket starts as soon as the one before it was stopped."""
    with tempfile.TemporaryDirectory() as folder, contextlib.ExitStack() as stack:
        path = os.path.join(folder, "socket")
        words, missing = [program, "--replace", path], []
        server = stack.enter_context(started(words))
        for _ in range(RESTARTS):
            with connected(path) as client:
                client.ask(b"stop")
                last, server = server, stack.enter_context(started(words))
            check("the end of a server that was stopped", ended(last) == (0, b"", b""))
            comes(lambda: client_at(path) or server.poll() is not None)
            if server.poll() is not None:
                missing.append(ended(server))
                server = stack.enter_context(started(words))
        check("a start after a stop", not missing, f"{len(missing)} of {RESTARTS} servers did not come: {missing[:3]}")
        check_end("the last start after a stop", path, server)


@contextlib.contextmanager
def locked(path):
    """The lock of a path, held by this program."""
    with open(os.open(lock_of(path), os.O_RDWR | os.O_CREAT, OWN), "wb") as file:
        fcntl.flock(file, fcntl.LOCK_EX)
        yield


def check_waiting(program, options):
    """Where there is nothing at a path, a start waits for its lock."""
    with tempfile.TemporaryDirectory() as folder, contextlib.ExitStack() as stack:
        path = os.path.join(folder, "socket")
        with locked(path):
            start = stack.enter_context(started([program, *options, path]))
            time.sleep(BESIDE)
            check("a start waits for a lock", start.poll() is None and not os.path.exists(path))
        check_end("a start that has waited for a lock", path, start)


def check_removed_lock(program):
    """Who locks a file that was removed meanwhile does not hold the lock: another may have made it anew."""
    with tempfile.TemporaryDirectory() as own, tempfile.TemporaryDirectory() as folder:
        path = os.path.join(folder, "socket")
        with held([program, path], "flock", own) as start:
            wait_for_hold(own)
            os.remove(lock_of(path))
            with locked(path):
                let_go(own)
                time.sleep(BESIDE)
                check("a start whose lock was removed waits", start.poll() is None and not os.path.exists(path))
            check_end("a start whose lock was removed", path, start)


def check_patience(program):
    """A lock is not waited for without an end, nor at all where somebody listens."""
    with tempfile.TemporaryDirectory() as folder, contextlib.ExitStack() as stack:
        path, begun = os.path.join(folder, "socket"), time.monotonic()
        stack.enter_context(locked(path))
        for start in [stack.enter_context(started([program, *options, path])) for options in STARTS]:
            found = start.wait(MOST_SECONDS), start.stdout.read(), start.stderr.read()
            took = time.monotonic() - begun
            check("a start without its lock", found == refusal(path, IN_USE), repr(found))
            check("how long a lock is waited for", PATIENCE <= took < MOST_PATIENCE, f"{took:.1f} s")
        with socket.socket(socket.AF_UNIX) as other:
            other.bind(path)
            other.listen()
            begun = time.monotonic()
            check_refused("a path at which somebody listens, whose lock another holds", program, path, IN_USE)
            check("it is refused at once", time.monotonic() - begun < PATIENCE)
        check("it stays", os.path.exists(path))


def check_lock_files(program):
    """What may lie in the place of a lock: nothing but a plain file of the server's user."""
    with tempfile.TemporaryDirectory() as folder:
        path, lock, victim = (os.path.join(folder, name) for name in ("socket", "socket.lock", "victim"))
        for name, make in ("a link", lambda: os.symlink(victim, lock)), ("a queue", lambda: os.mkfifo(lock)):
            make()
            check_refused(f"{name} in the place of a lock", program, path, NO_FILE, told=lock)
            os.remove(lock)
        check("what a link in the place of a lock names", not os.path.exists(victim))
        os.mkdir(lock)
        check_refused("a folder in the place of a lock", program, path, NO_FILE, told=lock)
        os.rmdir(lock)
        with open(lock, "w", encoding="ascii"):
            os.chmod(lock, PLAIN)
        if os.geteuid() == 0:
            os.chown(lock, NOBODY, NOBODY)
            check_refused("the lock of another user", program, path, FOREIGN, told=lock)
            check("it is still there", os.path.exists(lock))
            os.chown(lock, 0, 0)
        with started([program, path]) as server:
            check_end("a start at a lock that nobody holds", path, server)


def check_lock(program):
    """The lock of a server: its mode, what a killed one leaves, and one that was removed."""
    with Server(program) as server:
        lock = lock_of(server.path)
        check("who may hold a lock", mode_of(lock) == OWN, oct(mode_of(lock)))
        os.remove(lock)
        check_refused("a path whose lock is gone", program, server.path, IN_USE)
        with locked(server.path):
            check_stopped("a server whose lock is gone", server)
            check("the lock of another stays", os.path.exists(lock))
    with Server(program) as server:
        server.process.kill()
        server.process.wait(STOP)
        check("a killed server leaves its lock", os.path.exists(lock_of(server.path)))
        with started([program, "--replace", server.path]) as again:
            check_end("a start after a killed server", server.path, again)


def check_owners(program):
    """One server at a path, and the lock that sees to it. What waits for long is looked at beside the rest."""
    with concurrent.futures.ThreadPoolExecutor() as threads:
        patience = threads.submit(check_patience, program)
        for call in "unlink", "bind", "listen":
            check_begins_alone(program, call)
        check_ends_alone(program)
        check_pairs(program)
        check_restarts(program)
        for options in STARTS:
            check_waiting(program, options)
        check_removed_lock(program)
        check_lock_files(program)
        check_lock(program)
        patience.result()
