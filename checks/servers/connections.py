"""How many connections a server serves, and how long: the limit of sessions, few descriptors, accepts that fail, idle sessions.

A module, a part of server.py.
"""
import contextlib
import errno
import os
import tempfile
import time

from harness.runs import check, library
from harness.servers import START, Server
from servers.stops import check_stopped, check_stopped_by

# How many failed accepts in succession end a server.
MOST_FAILURES = 1_000

# How long a session may send nothing, in seconds, where that is said.
IDLE_SECONDS = 2

# So many clients at a server that may have so many descriptors.
MANY_CLIENTS, FEW_DESCRIPTORS = 40, 16


def check_limit(program):
    """One session more than there may be reads `no TooMany` and its end, whether it sends first or not."""
    with Server(program, "--sessions", "2") as server, server.free() as first, server.free() as second:
        for text in b"", b"show 1\n", b"show 1\n" * 1_000, b"x" * 200_000:
            with server.client() as third:
                with contextlib.suppress(ConnectionError):
                    third.socket.sendall(text)
                found = third.all()
                check(f"a third session that sends {len(text)} bytes", found == (b"no TooMany\n", True), repr(found))
        with contextlib.ExitStack() as stack:
            silent = [stack.enter_context(server.client()) for _ in range(200)]
            start = time.monotonic()
            check("sessions beside those turned away", first.ask(b"show 1") == [b"no NoNamespace"])
            found = {client.all() for client in silent}
            check("many turned away", found == {(b"no TooMany\n", True)}, repr(found))
            check("they do not wait for one another", time.monotonic() - start < 5)
        for _ in range(100):
            check("a session ends", second.ask(b"quit") == [b"ok"] and second.line() is None)
            second.socket.close()
            second = server.client()
            check("its place is free when its client reads the end", second.ask(b"show 1") == [b"no NoNamespace"])
        second.socket.close()
        check_stopped_by("the limit", server, first)


def check_one_session(program):
    """Where one session may be, a second connection is turned away until the first has ended, and served then."""
    with Server(program, "--sessions", "1") as server, server.free() as first:
        with server.client() as second:
            check("a second session", second.all() == (b"no TooMany\n", True))
        check("the first session ends", first.ask(b"quit") == [b"ok"] and first.line() is None)
        with server.client() as second:
            check("a session behind the first", second.ask(b"show 1") == [b"no NoNamespace"])
            check_stopped_by("one session", server, second)


def check_many(program):
    """10,000 connections one after another leave descriptors, threads and memory as they were."""
    with Server(program) as server:

        def connect(count):
            for _ in range(count):
                with server.client() as client:
                    if client.ask(b"show 1") != [b"no NoNamespace"]:
                        check("one of many connections", False)
                        return

        connect(500)
        check("one thread is left", server.rests(1))
        before = server.descriptors(), server.status("VmRSS")
        connect(10_000)
        check("descriptors after 10,000 connections", server.rests(1, before[0]), str(server.descriptors()))
        grown = server.status("VmRSS") - before[1]
        check("memory after 10,000 connections", grown < 4_096, f"{grown} KiB more")
        print(f"10,000 connections: {before[0]} descriptors, {grown} KiB more resident memory", flush=True)
        check_stopped("10,000 connections", server)


def check_accept(program):
    """999 failed accepts in succession are borne, again and again, and the 1,000th ends the server."""
    with tempfile.TemporaryDirectory() as folder:
        preloaded = library(folder, "fail_io")

        def failing(times):
            return {"LD_PRELOAD": preloaded, "FAIL_ACCEPT": f"0 0 {times} {errno.EMFILE} 1"}

        with Server(program, environment=failing(MOST_FAILURES - 1)) as server, server.client() as client:
            check("a session behind 999 failed accepts", client.ask(b"show 1") == [b"no NoNamespace"])
            client.socket.close()
            check_stopped("999 failed accepts", server)
        with Server(program, environment=failing(MOST_FAILURES)) as server:
            ended = server.ends()
            check("1,000 failed accepts", ended == (1, b"mountd: cannot accept\n"), repr(ended))
            check("1,000 failed accepts: the socket is gone", not os.path.exists(server.path))


def answer_to(client):
    """What a client is answered, also one that was refused before it has asked."""
    with contextlib.suppress(BrokenPipeError):
        client.send(b"show 1")
    return client.answer(b"show 1")


def check_descriptors(program):
    """A client for which the system has no descriptor is told so, and all that have a session keep it."""
    with Server(program, descriptors=FEW_DESCRIPTORS) as server, contextlib.ExitStack() as stack:
        clients = [stack.enter_context(server.client()) for _ in range(MANY_CLIENTS)]
        answers = [answer_to(client) for client in clients]
        served = [client for client, answer in zip(clients, answers) if answer == [b"no NoNamespace"]]
        refused = [client for client, answer in zip(clients, answers) if answer == [b"no NoMemory"]]
        check("clients that are served, and those that are not", 0 < len(served) < MANY_CLIENTS == len(served) + len(refused), repr(answers))
        check("the end behind a refusal", {client.line() for client in refused} == {None})
        check("those that are served", {tuple(client.ask(b"show 1")) for client in served} == {(b"no NoNamespace",)})
        served.pop().socket.close()
        with server.free() as client:
            check_stopped_by("few descriptors", server, client)
        print(f"{len(served) + 1} of {MANY_CLIENTS} clients served with {FEW_DESCRIPTORS} descriptors", flush=True)


def check_idle(program):
    """A session that sends nothing for so long ends; one that sends, and one that follows, do not."""
    with Server(program, "--idle", str(IDLE_SECONDS)) as server, server.free() as busy, server.free() as follower:
        for line in START:
            busy.ask(line)
        follower.ask(b"watch 1")
        follower.send(b"follow 2")
        with server.free() as silent, server.free() as half:
            start = time.monotonic()
            half.send(b"show 1", b"")
            half.socket.sendall(b"sho")
            while time.monotonic() - start < 2 * IDLE_SECONDS:
                check("a session that sends", busy.ask(b"show 64") == [b"no NoNamespace"])
                time.sleep(IDLE_SECONDS / 4)
            check("a session that sends nothing", silent.all() == (b"", True))
            check("half a line, and nothing behind it", half.all()[0].endswith(b"\nno BadLine\nno BadLine\n"))
        for line in b"setattr 1 / set=ro", b"setattr 1 / clr=ro":
            busy.ask(line)
        check("a session that follows", len(follower.answer(b"follow 2")) == 5)
        check_stopped_by("idle sessions", server, busy)
