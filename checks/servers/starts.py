"""Starts of a server: how they end, and those that are held at a call of the system. A module, for paths.py and owners.py."""
import contextlib
import os
import subprocess
import time

from harness.protocol import Broken, Ended
from harness.runs import MOST_SECONDS, library
from harness.servers import STOP, Client

# Why a start may not have its path.
ABSENT, DENIED, EMPTY = "no such file or directory", "permission denied", "path is empty"
IN_USE, LONG, NO_SOCKET = "address in use", "path too long", "is no socket"
UNSERVED = "nobody listens there; --replace takes it"
NO_FILE, FOREIGN = "is no plain file", "is another user's"

# Ways to start a server.
STARTS = (), ("--replace",)


def lock_of(path):
    """The path of the lock of a socket."""
    return path + ".lock"


def refusal(path, reason):
    """How a start ends that may not have its path."""
    return 1, b"", f"mountd: cannot listen: {path}: {reason}\n".encode()


@contextlib.contextmanager
def started(words, **settings):
    """A start by these words, which does not outlive the block."""
    pipe = subprocess.PIPE
    with subprocess.Popen(words, stdin=subprocess.DEVNULL, stdout=pipe, stderr=pipe, **settings) as start:
        try:
            yield start
        finally:
            start.kill()


def ended(start):
    output, complaint = start.communicate(timeout=STOP)
    return start.returncode, output, complaint


def comes(is_there):
    """Whether something comes to be within the time that a stop may take."""
    end = time.monotonic() + STOP
    while time.monotonic() < end:
        if is_there():
            return True
        time.sleep(0.001)
    return False


@contextlib.contextmanager
def held(words, call, folder):
    """A start by these words, without a umask, which is held where it makes a call of the system. The folder is its own: it
    goes on once it is let go there."""
    settings = {"LD_PRELOAD": library(folder, "hold_call"), "HELD_CALL": call, "HELD_FOLDER": folder}
    with started(words, env=settings, umask=0) as start:
        yield start


def wait_for_hold(folder):
    """Waits until a start is held."""
    if not comes(lambda: os.path.exists(os.path.join(folder, "held"))):
        raise Broken("the server does not make the call")


def let_go(folder):
    """A start that is held goes on."""
    with open(os.path.join(folder, "go"), "w", encoding="ascii"):
        pass


def client_at(path):
    """A client of whoever listens at a path, or none."""
    with contextlib.suppress(ConnectionRefusedError, FileNotFoundError):
        return Client(path)
    return None


def asked(path, line):
    """What whoever listens at a path answers to a line; nothing if nobody does."""
    with contextlib.suppress(ConnectionError, Ended):
        if client := client_at(path):
            with client:
                return client.ask(line)
    return []


def connected(path):
    """A client of the server whose socket is at a path, as soon as it listens."""
    end = time.monotonic() + MOST_SECONDS
    while time.monotonic() < end:
        if client := client_at(path):
            return client
        time.sleep(0.001)
    raise Broken("the server does not listen")
