"""Servers that are started here, and plain clients that speak with them. A module, for parts of server.py."""
import contextlib
import itertools
import os
import re
import shutil
import socket
import subprocess
import tempfile
import time

from harness import protocol
from harness.protocol import Broken, Ended
from harness.runs import MOST_SECONDS, shown

# The most sessions at once.
SESSIONS = 32

# How long a session may be idle after a stop, and how long it may go on, in seconds.
IDLE = 1
LATEST = 10

# How long a stop may take, in seconds: sessions that do not end by themselves are cut off after ten.
STOP = LATEST + 5

# What a client reads that gets no session, since there are too many, or since no descriptor is free yet.
NO_SESSION = [b"no TooMany"], [b"no NoMemory"]

# A user that is not root.
NOBODY = 65_534

# Two namespaces that are peers, so that a command in one posts to both.
START = [
    b"mkfs a tmpfs none",
    b"mkfs d ext4 /dev/x",
    b"mkdir a /m",
    b"mkdir a /n",
    b"newns a",
    b"setattr 1 / prop=shared",
    b"copyns 1",
]


class Client:
    """A connection, and the lines that came over it."""

    def __init__(self, path):
        self.socket = socket.socket(socket.AF_UNIX)
        self.socket.settimeout(MOST_SECONDS)
        self.socket.connect(path)
        self.rest = b""

    def __enter__(self):
        return self

    def __exit__(self, *_):
        self.socket.close()

    def send(self, *lines):
        self.socket.sendall(b"".join(line + b"\n" for line in lines))

    def line(self):
        """The next line without its end, or nothing at the end."""
        while b"\n" not in self.rest:
            more = self.socket.recv(1 << 16)
            if not more:
                if self.rest:
                    raise Broken(f"a line without end: {shown(self.rest[:200])}")
                return None
            self.rest += more
        line, self.rest = self.rest.split(b"\n", 1)
        return line

    def all(self):
        """All that comes up to the end, and whether the end was a plain one."""
        parts = [self.rest]
        try:
            while parts[-1] or len(parts) == 1:
                parts.append(self.socket.recv(1 << 16))
        except ConnectionError:
            return b"".join(parts), False
        return b"".join(parts), True

    def answer(self, request):
        """The lines of the answer to a request that was sent."""
        lines = protocol.answer_to(request, self.line)
        if lines == [None]:
            raise Ended(f"the connection ended in the place of the answer to {shown(request)}")
        if lines[-1] is None:
            raise Broken(f"the connection ended in the answer to {shown(request)}")
        return lines

    def ask(self, request):
        self.send(request)
        return self.answer(request)


def send_input(client, text, rests=False):
    """Sends the whole input and its end, or no end where the session rests; a session may end before."""
    with contextlib.suppress(ConnectionError, OSError):
        client.socket.sendall(text)
        if not rests:
            client.socket.shutdown(socket.SHUT_WR)


def rests(turn):
    """Whether a turn is a `follow` that finds fewer posts than it asks for: on a socket it waits for more."""
    asked = re.fullmatch(rb"follow (\d+)\n", turn.sent())
    told = protocol.told_behind(turn.answers[-1]) if asked and turn.answers else None
    return told is not None and told < int(asked[1])


def until_it_rests(case):
    """The input of a case up to a `follow` that rests on a socket, what answers it, and whether one does.

    In a plain session a `follow` that finds fewer posts than it asks for ends with them. On a socket it
    waits for more, until a stop ends it here.
    """
    for at, turn in enumerate(case.turns):
        if rests(turn):
            begun = case._replace(turns=[*case.turns[:at], turn._replace(answers=turn.answers[:-1])])
            return begun.input(), begun.output(), True
    return case.input(), case.output(), False


def stop_behind(server, lines, output):
    """Stops a server once so many lines of an output have come, and answers them with the rest of it."""
    begun = b"".join(output.readline() for _ in range(lines))
    with server.free() as other:
        other.ask(b"stop")
    return begun + output.read()


class Door:
    """A socket at which this program takes connections itself, in the place of a server."""

    def __enter__(self):
        self.folder = tempfile.mkdtemp()
        self.path = os.path.join(self.folder, "socket")
        self.socket = socket.socket(socket.AF_UNIX)
        self.socket.settimeout(MOST_SECONDS)
        self.socket.bind(self.path)
        self.socket.listen()
        return self

    def __exit__(self, *_):
        self.socket.close()
        shutil.rmtree(self.folder)

    def accept(self):
        """The next connection."""
        stream, _ = self.socket.accept()
        stream.settimeout(MOST_SECONDS)
        return stream

    def answers(self, text):
        """All that comes over the next connection, to which a text is written and then its end."""
        parts = [b""]
        with self.accept() as stream, contextlib.suppress(ConnectionError):
            stream.sendall(text)
            stream.shutdown(socket.SHUT_WR)
            while more := stream.recv(1 << 16):
                parts.append(more)
        return b"".join(parts)


def leave_socket(path, kind=socket.SOCK_STREAM):
    """Leaves a stale socket at a path."""
    with socket.socket(socket.AF_UNIX, kind) as left:
        left.bind(path)


@contextlib.contextmanager
def crowded(path):
    """A socket at a path at which as many clients wait as may, and nobody accepts them; and how many there are."""
    with socket.socket(socket.AF_UNIX) as door, contextlib.ExitStack() as stack:
        door.bind(path)
        door.listen(0)
        for count in itertools.count():
            client = stack.enter_context(socket.socket(socket.AF_UNIX))
            client.setblocking(False)
            try:
                client.connect(path)
            except BlockingIOError:
                yield door, count
                return


def user_of_none():
    """A user who owns nothing here, where this one may become another, and else this one."""
    return NOBODY if os.geteuid() == 0 else None


class Server:
    """A server in a folder of its own, or at a path of another, which ends with the block."""

    def __init__(self, program, *arguments, environment=None, held=(), path=None, descriptors=None, space=None):
        self.folder = tempfile.mkdtemp()
        self.path = path or os.path.join(self.folder, "socket")
        words, pipe = [program, self.path, *arguments], subprocess.PIPE
        if descriptors:
            words = ["prlimit", f"--nofile={descriptors}:{descriptors}", *words]
        # The bytes of its address space.
        if space:
            words = ["prlimit", f"--as={space}:{space}", *words]
        # The descriptors of `held` are the server's too.
        self.process = subprocess.Popen(
            words, stdin=subprocess.DEVNULL, stdout=pipe, stderr=pipe, env=environment, pass_fds=held
        )

    def __enter__(self):
        end = time.monotonic() + MOST_SECONDS
        while time.monotonic() < end and self.process.poll() is None:
            with contextlib.suppress(OSError), Client(self.path):
                return self
            time.sleep(0.005)
        raise Broken("the server does not listen")

    def __exit__(self, *_):
        self.process.kill()
        self.process.communicate()
        shutil.rmtree(self.folder)

    def client(self):
        return Client(self.path)

    def free(self):
        """A client that has a session, as soon as there is one."""
        end = time.monotonic() + MOST_SECONDS
        while time.monotonic() < end:
            client = self.client()
            if client.ask(b"show 64") not in NO_SESSION:
                return client
            client.socket.close()
            time.sleep(0.001)
        raise Broken("no session is free")

    def ends(self):
        """Status and standard error of a server that ends now."""
        _, complaint = self.process.communicate(timeout=STOP)
        return self.process.returncode, complaint

    def stop(self):
        with self.free() as client:
            client.send(b"stop")
            client.all()
        return self.ends()

    def descriptors(self):
        return len(os.listdir(f"/proc/{self.process.pid}/fd"))

    def status(self, word):
        with open(f"/proc/{self.process.pid}/status", encoding="ascii") as file:
            return int(re.search(rf"^{word}:\s*(\d+)", file.read(), re.MULTILINE)[1])

    def rests(self, threads, descriptors=None):
        """Whether the server comes to this: so many threads, and descriptors if they are said."""
        end = time.monotonic() + STOP
        while time.monotonic() < end:
            if self.status("Threads") == threads and descriptors in (None, self.descriptors()):
                return True
            time.sleep(0.01)
        return False
