"""Clients that are gone, that do not read, or that close while they are written to. A module, a part of server.py."""
import contextlib
import threading
import time

from harness import protocol
from harness.runs import check, shown
from harness.servers import START, Server, send_input
from servers.stops import check_stopped, check_stopped_by

# What may follow the longest line without a line end.
MOST_SKIPPED = 1_048_576


def check_gone(program):
    """Clients that are gone leave nothing behind, and end no server."""
    with Server(program) as server, server.free() as client:
        for line in START:
            client.ask(line)
        check("one session alone", server.rests(2))
        before = server.status("Threads"), server.descriptors()
        for text in b"sho", b"show 1\n" * 5_000 + b"show", b"watch all\nfollow 4\n", b"x" * 10_000:
            for _ in range(10):
                with server.free() as other:
                    with contextlib.suppress(ConnectionError):
                        other.socket.sendall(text)
            client.ask(b"setattr 1 / set=ro")
            client.ask(b"setattr 1 / clr=ro")
        check("clients that are gone", server.rests(*before), f"{server.descriptors()}, {server.status('Threads')}")
        check("the server goes on", client.ask(b"show 2")[0].startswith(b"ok 1 "))
        with server.free() as other:
            sender = threading.Thread(target=send_input, args=(other, b"x" * 2_000_000))
            sender.start()
            found, _ = other.all()
            sender.join()
            check("2,000,000 bytes without a line end", found == b"", shown(found[:200]))
        with server.free() as other:
            other.send(b"x" * (protocol.LINE + MOST_SKIPPED), b"show 9", b"quit")
            found = other.all()
            check("a line as long as may be", found == (b"no TooLong\nno NoNamespace\nok\n", True), repr(found))
        check("clients that are gone, again", server.rests(*before))
        check_stopped_by("clients that are gone", server, client)


def check_lag(program):
    """A client that reads nothing while 10,000 posts are for it: it lags, and others do not wait."""
    with Server(program, "--queue", "64") as server, server.free() as client, server.free() as other:
        for line in START:
            client.ask(line)
        other.send(b"watch all", b"follow 1048576")
        turns = [b"setattr 1 / set=ro", b"setattr 1 / clr=ro"] * 2_500
        start = time.monotonic()
        for turn in turns:
            if client.ask(turn) != [b"ok"]:
                check("a command beside a client that does not read", False)
        took = time.monotonic() - start
        check("5,000 commands beside it", took < 20, f"{took:.1f} s")
        other.answer(b"watch all")
        posts = other.answer(b"follow 1048576")
        check("a client that does not read lags", posts[-1] == b"no Lagged", shown(posts[-1]))
        check("posts before a lag", are_in_order(posts[:-1]), f"{len(posts)} lines")
        check_stopped_by("a client that does not read", server, client)


def are_in_order(lines):
    """Whether there are posts, and those of each namespace have numbers without gap."""
    last = {}
    for head, _ in protocol.posts_in(lines):
        if last.get(head.space, head.number - 1) != head.number - 1:
            return False
        last[head.space] = head.number
    return last != {}


def check_signals(program):
    """A client that closes while it is written to, again and again, does not end the server."""
    with Server(program) as server:
        for line in START:
            with server.free() as client:
                client.ask(line)
        for _ in range(300):
            with server.free() as client:
                client.send(*[b"show 1"] * 20)
        check("no signal ends the server", server.process.poll() is None)
        check_stopped("no signal", server)
