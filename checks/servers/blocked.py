"""Clients that do not read what they are sent, and how long their sessions last. A module, a part of server.py."""
import concurrent.futures
import contextlib
import time

from harness.runs import check
from harness.servers import START, Server
from servers.stops import check_stopped_by

# How long a session may be idle, in seconds, where that is said.
IDLE_SECONDS = 2

# Within so many seconds a session is over that may be idle for so long.
MOST_BLOCKED = IDLE_SECONDS + 2

# The most sessions at once here.
FEW_SESSIONS = 4

# A table of so many mounts at long names, asked for so often, is more than the system holds for a client.
MOUNTS, NAME = 100, 150
SHOWS = 50

# A slow client reads a portion of so many bytes, so often, with so many seconds between; then all that is left.
PORTION, PORTIONS, REST = 40_000, 12, 0.4

# So many commands post more than the system holds for a client.
COMMANDS = 1_500


def fill(client):
    """Makes a large table, and answers what a client that asks for it so often is sent."""
    for line in START[:-1]:
        client.ask(line)
    for number in range(MOUNTS):
        name = b"%d" % number + b"x" * NAME
        client.ask(b"mkdir a /" + name)
        client.ask(b"mount 1 d /" + name)
    return (b"\n".join(client.ask(b"show 1")) + b"\n") * SHOWS


def read_slowly(client):
    """Reads some portions, and a while passes before each; then all that is left."""
    parts = []
    for _ in range(PORTIONS):
        time.sleep(REST)
        parts.append(client.socket.recv(PORTION))
    return b"".join(parts) + client.all()[0]


def is_free(server):
    """Whether a session is free by the time that one may be blocked."""
    end = time.monotonic() + MOST_BLOCKED
    while time.monotonic() < end:
        with server.client() as client:
            if client.ask(b"show 64") == [b"no NoNamespace"]:
                return True
        time.sleep(0.05)
    return False


def check_blocked(program):
    """A session whose client reads nothing ends once it has been blocked as long as it may be idle; not before."""
    with Server(program) as patient, patient.free() as filler, patient.free() as waiting:
        whole = fill(filler)
        waiting.send(*[b"show 1"] * SHOWS, b"quit")
        begun = time.monotonic()
        check_deaf(program)
        check("a client that reads late, where no time is said", time.monotonic() - begun > 2 * IDLE_SECONDS)
        check("it is sent all", waiting.all() == (whole + b"ok\n", True))
        check_stopped_by("where no time is said", patient, filler)
    check_deaf_follower(program)


def check_deaf(program):
    """Clients that read nothing shut nobody out for long; beside them one that reads slowly is sent all."""
    arguments = ("--idle", str(IDLE_SECONDS), "--sessions", str(FEW_SESSIONS))
    with Server(program, *arguments) as server, contextlib.ExitStack() as stack:
        slow = stack.enter_context(server.free())
        whole = fill(slow)
        deaf = [stack.enter_context(server.free()) for _ in range(FEW_SESSIONS - 1)]
        for client in slow, *deaf:
            client.send(*[b"show 1"] * SHOWS, b"quit")
        reading = stack.enter_context(concurrent.futures.ThreadPoolExecutor()).submit(read_slowly, slow)
        with server.client() as other:
            check("nobody is let in beside clients that do not read", other.all() == (b"no TooMany\n", True))
        check("a session is free once they were blocked", is_free(server))
        for client in deaf:
            found, ended = client.all()
            check("what a client is sent that does not read", ended and 0 < len(found) < len(whole) and whole.startswith(found))
        check("a client that reads slowly is sent all", reading.result() == whole + b"ok\n")
        with server.free() as last:
            check_stopped_by("clients that do not read", server, last)


def check_deaf_follower(program):
    """A session that follows ends too, where its client reads nothing; while it waits for posts it does not."""
    with Server(program, "--idle", str(IDLE_SECONDS)) as server, server.free() as busy, server.free() as follower:
        for line in START:
            busy.ask(line)
        follower.ask(b"watch all")
        follower.send(b"follow 1048576")
        for at in range(COMMANDS):
            busy.ask(b"setattr 1 / set=ro" if at % 2 else b"setattr 1 / clr=ro")
        end = time.monotonic() + MOST_BLOCKED
        while time.monotonic() < end and server.status("Threads") > 2:
            busy.ask(b"find 1 /")
            time.sleep(IDLE_SECONDS / 10)
        check("the session of a follower that does not read is over", server.status("Threads") == 2)
        found, ended = follower.all()
        check("what it is sent", ended and b"\nevent " in found and b"no Lagged" not in found)
        check_stopped_by("a follower that does not read", server, busy)
