"""A stop: sessions that go on, and those that are cut off. A module, a part of server.py."""
import contextlib
import fcntl
import itertools
import os
import struct
import termios
import threading
import time

from harness.protocol import Broken
from harness.runs import check, shown
from harness.servers import IDLE, LATEST, SESSIONS, START, STOP, Server, send_input

# What is asked after a stop: a watcher with two posts that wait for it, and a session that has none.
WATCHED = [
    (b"take 1", [b"ok 2", b"event 1 3 1", b"= 1 1 0:1 / / ro,relatime shared:1 - tmpfs none rw"]),
    (b"close", [b"ok 2", b"event 1 4 1", b"= 1 1 0:1 / / rw,relatime shared:1 - tmpfs none rw"]),
    (b"take 1", [b"no NoWatcher"]),
]
UNWATCHED = [
    (b"mount 1 d /m", [b"no Stopped"]),
    (b"watch all", [b"no Stopped"]),
    (b"frobnicate", [b"no BadLine"]),
    (b"find 1 /m", [b"ok 1 /m"]),
    (b"show 1", [b"ok 1 4", b"1 1 0:1 / / rw,relatime shared:1 - tmpfs none rw"]),
    (b"quit", [b"ok"]),
]

# A question, and its answer.
QUESTION, ANSWER = b"show 64", b"no NoNamespace\n"

# How long an answer may take until it counts as one for which there is no room, in seconds.
WAIT = 0.5

# The latest end of a server after a stop, in seconds.
MOST = 12

FOLLOWED = [(b"take 1", [b"no Stopped"]), (b"close", [b"ok 0"])]


def check_stopped(name, server):
    """A stop ends the server with status 0 and no word, and its socket is gone."""
    ended = server.stop()
    check(f"{name}: the end", ended == (0, b"") and not os.path.exists(server.path), repr(ended))


def check_stopped_by(name, server, client):
    check(f"{name}: stop", client.ask(b"stop") == [b"ok"] and client.line() is None)
    check(f"{name}: the end", server.ends() == (0, b""))


def check_asked(name, client, turns):
    """These requests are answered so."""
    for request, wanted in turns:
        found = client.ask(request)
        check(f"{name}: {shown(request)}", found == wanted, repr(found))


def check_stop(program):
    """A stop ends all sessions once they are idle; until then they are served, and watchers get their posts."""
    with Server(program) as server, contextlib.ExitStack() as stack:
        clients = [stack.enter_context(server.free()) for _ in range(SESSIONS)]
        check("32 sessions", server.status("Threads") == SESSIONS + 1, str(server.status("Threads")))
        for line in START:
            clients[0].ask(line)
        clients[1].ask(b"watch 2")
        clients[1].send(b"follow 8")
        clients[2].send(b"show 1", b"sho")
        check("an answer before a stop", len(clients[2].answer(b"show 1")) == 2)
        clients[3].ask(b"watch all")
        for line in b"setattr 1 / set=ro", b"setattr 1 / clr=ro":
            clients[0].ask(line)
        time.sleep(0.3)
        start = time.monotonic()
        check("a stop", clients[0].ask(b"stop") == [b"ok"] and clients[0].line() is None)
        check_asked("a watcher at a stop", clients[3], WATCHED)
        check_asked("a session at a stop", clients[4], UNWATCHED)
        check("its end", clients[4].line() is None and time.monotonic() - start < IDLE)
        check("a follower at a stop", clients[1].answer(b"follow 8") == [b"no Stopped"])
        check_asked("a follower behind a stop", clients[1], FOLLOWED)
        ended, took = server.ends(), time.monotonic() - start
        check("a stop: the end", ended == (0, b""), repr(ended))
        check("how long a stop takes", IDLE <= took < IDLE + 2, f"{took:.2f} s")
        print(f"a stop with {SESSIONS - 1} sessions that wait: {took:.1f} s", flush=True)
        check("half a line at a stop", clients[2].all() == (b"no BadLine\n", True))
        waited = [clients[1], clients[3], *clients[5:]]
        check("sessions that wait at a stop", {client.all() for client in waited} == {(b"", True)})
        check("the socket is gone", not os.path.exists(server.path))


def asks_on(client):
    """Asks again and again until the connection ends, and answers how often it was answered."""
    answered = 0
    with contextlib.suppress(Broken, ConnectionError):
        while client.ask(b"find 1 /m") == [b"ok 1 /m"]:
            answered += 1
            time.sleep(IDLE / 4)
    return answered


def check_cut_off(program):
    """Sessions that are not idle after a stop, and those that do not read, are cut off after ten seconds."""
    with Server(program) as server, server.free() as first, server.free() as busy, server.free() as other:
        for line in START:
            first.ask(line)
        sender = threading.Thread(target=send_input, args=(other, b"show 1\n" * 500_000))
        sender.start()
        time.sleep(0.3)
        start = time.monotonic()
        check("a stop beside them", first.ask(b"stop") == [b"ok"] and first.line() is None)
        answered, took = asks_on(busy), time.monotonic() - start
        check("how long a session goes on", LATEST - 1 <= took < LATEST + 2, f"{took:.2f} s")
        check("how often it is answered", answered > 2 * LATEST, str(answered))
        check("they are cut off: the end", server.ends() == (0, b""))
        sender.join(STOP)
        check("a client that does not read", not sender.is_alive())
        print(f"a stop with sessions that are not idle: {time.monotonic() - start:.1f} s", flush=True)


def are_held(client, size):
    """Whether so many bytes come to lie unread at a client."""
    end = time.monotonic() + WAIT
    while time.monotonic() < end:
        if struct.unpack("i", fcntl.ioctl(client.socket, termios.FIONREAD, bytes(4)))[0] >= size:
            return True
        time.sleep(0.0005)
    return False


def most_unread(server):
    """For how many answers the system has room where their client reads none."""
    with server.free() as client:
        for count in itertools.count():
            client.send(QUESTION)
            if not are_held(client, (count + 1) * len(ANSWER)):
                return count


def check_unread(program):
    """A stop ends the server also where its client goes, and where there is no room for its answer."""
    with Server(program) as server, server.free() as other:
        start = time.monotonic()
        with server.free() as client:
            client.send(b"stop")
        check("a session beside a stop whose client goes", other.all() == (b"", True))
        check("a stop whose client goes", server.ends() == (0, b"") and time.monotonic() - start < MOST)
        check("its socket is gone", not os.path.exists(server.path))
    with Server(program) as server, server.free() as client:
        count = most_unread(server)
        start = time.monotonic()
        client.send(*[QUESTION] * count, b"stop")
        ended, took = server.ends(), time.monotonic() - start
        check("a stop whose answer has no room", ended == (0, b"") and LATEST - 1 <= took < MOST, f"{ended}, {took:.2f} s")
        check("the answers before it", client.all()[0] == ANSWER * count)
    print(f"a stop behind {count} answers that nobody reads: {took:.1f} s", flush=True)
