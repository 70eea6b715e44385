"""Turns at the desk: how long a session waits beside others. A module, a part of server.py.

A recursive change of a chain of deep mounts takes its time while the desk is held, and is answered in one line, so that
the answers that others have meanwhile count the commands that were done before a session's own.
"""
import contextlib
import threading
import time

from harness.runs import check
from harness.servers import Server
from servers.depth import CHAIN, WORLD, chain_from_below, longest_find, make

# How many sessions send changes without waiting for answers, and how many each sends.
PIPELINES = 1, 2
CHANGES = 8

# Posts that a watcher leaves to its close, and the part of that close for which another session may wait.
POSTS = 12
PART = 0.5


def changes(count):
    """Lines that change all mounts, one after another."""
    return [b"setattr 1 / rec " + (b"clr=ro" if at % 2 else b"set=ro") for at in range(count)]


class Pipeline:
    """A session that has sent its lines at once, and counts their answers as they come."""

    def __init__(self, client, lines):
        self.client, self.lines, self.answered = client, lines, 0
        self.reading = threading.Thread(target=self.read)

    def start(self):
        self.client.send(*self.lines)
        self.reading.start()

    def read(self):
        for line in self.lines:
            self.client.answer(line)
            self.answered += 1


def commands_waited_for(client, pipelines):
    """The most commands of others that were done while a session waited for its own, of several."""
    most = 0
    while any(pipeline.reading.is_alive() for pipeline in pipelines):
        before = sum(pipeline.answered for pipeline in pipelines)
        client.ask(b"find 1 /m")
        most = max(most, sum(pipeline.answered for pipeline in pipelines) - before)
        time.sleep(0.02)
    return most


def check_order(program):
    """Who waits longest goes first: beside so many sessions that never pause, a `find` waits for one command of each, and
    for the one that is being done."""
    for sessions in PIPELINES:
        with contextlib.ExitStack() as stack:
            server = stack.enter_context(Server(program))
            other, watcher, *clients = (stack.enter_context(server.free()) for _ in range(sessions + 2))
            make(other, [*WORLD, *chain_from_below()])
            watcher.ask(b"watch 1")
            pipelines = [Pipeline(client, changes(CHANGES)) for client in clients]
            for pipeline in pipelines:
                pipeline.start()
            waited = commands_waited_for(other, pipelines)
            check(f"a find beside {sessions} that never pause", waited <= sessions + 1, f"it waited for {waited} commands")
            print(f"a find beside {sessions} sessions that never pause waits for {waited} commands", flush=True)


def check_close(program):
    """Posts that a close hands out are printed while others are served."""
    with Server(program) as server, server.free() as client, server.free() as other, server.free() as watcher:
        make(client, [*WORLD, *chain_from_below()])
        watcher.ask(b"watch 1")
        make(client, changes(POSTS))
        start, answers = time.monotonic(), []
        waited = longest_find(other, lambda: answers.extend(watcher.ask(b"close")))
        took = time.monotonic() - start
        heads = [line for line in answers if line.startswith(b"event ")]
        check("a close tells its posts", len(heads) == POSTS and answers[0] == b"ok %d" % (len(answers) - 1), repr(answers[:2]))
        check("a find beside a close of deep posts", waited <= PART * took, f"{waited:.2f} of {took:.2f} s")
        print(f"a find beside a close of {POSTS} posts of {CHAIN} deep mounts: {waited:.2f} of {took:.2f} s", flush=True)


def check_turns(program):
    check_order(program)
    check_close(program)
