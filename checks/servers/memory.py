"""A server on a socket with each of its allocations refused in turn. A module, a part of server.py.

In each of these worlds some sessions mount and drop, one watches and takes posts, and a last one asks what there
is. For each allocation of the server either it ends at its start, with status 1 and `mountd: out of memory`; or
one request is answered `no NoMemory`; or one session is refused so, or ends, before it has an answer. A `take` or
a `close` without memory ends its session, since posts are lost. All other answers are those of a server that has
memory, which is not sent this request, or those of this session. Then a stop ends the server. And where two
sessions are served at once, at most one of them is answered so, and the other gets the number that is left.

It needs a C compiler, `cc`.
"""
import concurrent.futures
import functools
import itertools
import os
import tempfile
import time
from typing import NamedTuple

from harness import commands
from harness.protocol import Ended, word_of
from harness.runs import MOST_SECONDS, check, library
from harness.servers import START, Server


class Step(NamedTuple):
    """A request, the session that sends it, and the first line of its answer where there is memory."""

    session: str
    request: bytes
    wanted: bytes


def begun(lines):
    """Steps that send these first lines, which are answered by a number where they give one."""
    numbers = iter((b"ok 1", b"ok 2", b"ok 1", b"ok 2"))
    return [Step("mounting", line, next(numbers) if word_of(line) in commands.NUMBERED else b"ok") for line in lines]


# One namespace alone; one that shares its root mount.
LONE = begun([line for line in START if not line.startswith((b"setattr", b"copyns"))])
SHARED = begun(START[:-1])

RO, RW = b"setattr 1 / set=ro", b"setattr 1 / clr=ro"

# Two namespaces that share their root group, and a watcher of one.
PEERS = [
    *begun(START),
    Step("watching", b"watch 2", b"ok 2"),
    Step("mounting", b"mount 1 d /m", b"ok 3"),
    Step("watching", b"take 8", b"ok 2"),
    Step("mounting", b"umount 1 /m", b"ok"),
    Step("watching", b"take 8", b"ok 2"),
    Step("mounting", b"bind 2 /m /n", b"ok 5"),
    Step("watching", b"close", b"ok 2"),
    Step("watching", b"find 1 /m", b"ok 1 /m"),
    Step("asking", b"show 1", b"ok 2 5"),
    Step("asking", b"show 2", b"ok 2 4"),
    Step("asking", b"find 2 /n", b"ok 5 /m"),
]

# A watcher that lags, for a queue of two; one that takes after each command and does not; and a stop beside it.
LAGGING = [
    *LONE,
    Step("watching", b"watch 1", b"ok 2"),
    *[Step("mounting", line, b"ok") for line in (RO, RW, RO, RW)],
    Step("watching", b"take 8", b"ok 4"),
    Step("watching", b"take 8", b"no Lagged"),
    Step("watching", b"close", b"ok 0"),
    Step("watching", b"take 1", b"no NoWatcher"),
    Step("watching", b"watch 1", b"ok 2"),
    *[step for line in (RO, RW, RO) for step in (Step("mounting", line, b"ok"), Step("watching", b"take 8", b"ok 2"))],
    Step("mounting", RW, b"ok"),
    Step("stopping", b"stop", b"ok"),
    Step("mounting", RO, b"no Stopped"),
    Step("mounting", b"watch 1", b"no Stopped"),
    Step("watching", b"take 8", b"ok 2"),
    Step("watching", b"take 8", b"no Stopped"),
    Step("watching", b"close", b"ok 0"),
    Step("mounting", b"show 1", b"ok 1 9"),
]

# A namespace that is dropped, a slave that it leaves, and a watcher of all.
DROPPED = [
    *SHARED,
    Step("mounting", b"copyns 1", b"ok 2"),
    Step("mounting", b"setattr 1 / prop=slave", b"ok"),
    Step("watching", b"watch all", b"ok 4"),
    Step("dropping", b"dropns 2", b"ok"),
    Step("watching", b"take 8", b"ok 4"),
    Step("asking", b"show 2", b"no NoNamespace"),
    Step("dropping", b"dropns 2", b"no NoNamespace"),
    Step("mounting", b"copyns 1", b"ok 3"),
    Step("watching", b"take 8", b"ok 2"),
    Step("asking", b"show 1", b"ok 1 4"),
    Step("asking", b"show 3", b"ok 1 1"),
]

# These worlds, with further arguments of the server.
WORLDS = {
    "namespaces that share": (PEERS, ()),
    "a watcher that lags": (LAGGING, ("--queue", "2")),
    "a namespace that is dropped": (DROPPED, ()),
}

NO_MEMORY = [b"no NoMemory"]
OUT_OF_MEMORY = 1, b"mountd: out of memory\n"

# How many runs at most look for one that meets none, after the allocations that were counted.
MORE = 50

# How often a server is asked to stop: one of the requests may want memory.
MOST_STOPS = 3

# What two sessions send at once.
AT_ONCE = [b"mkfs a tmpfs none", b"mkfs d ext4 /dev/x"]


class Sessions:
    """The sessions of a server, by their names: what each is answered until it is over."""

    def __init__(self, server):
        self.server, self.clients, self.over = server, {}, set()

    def connect(self):
        """A connection, as soon as the server listens; nothing where it has ended."""
        end = time.monotonic() + MOST_SECONDS
        while time.monotonic() < end and self.server.process.poll() is None:
            try:
                return self.server.client()
            except (ConnectionError, FileNotFoundError):
                time.sleep(0.002)
        raise Ended("the server has ended")

    def send(self, name, request):
        """Sends a request, and says whether its session takes any."""
        if name in self.over:
            return False
        try:
            if name not in self.clients:
                self.clients[name] = self.connect()
            self.clients[name].send(request)
        except (Ended, ConnectionError):
            self.over.add(name)
        return name not in self.over

    def answer(self, name, request):
        """The answer to a request that was sent, or nothing where its session is over."""
        try:
            return self.clients[name].answer(request)
        except (Ended, ConnectionError):
            self.over.add(name)
            return None

    def ask(self, name, request):
        """The answer to a request, or nothing where its session is over."""
        return self.answer(name, request) if self.send(name, request) else None

    def close(self):
        for client in self.clients.values():
            client.socket.close()
        self.clients.clear()

    def stop(self):
        """Ends the server: how many requests and sessions found no memory on the way."""
        for wanting in range(MOST_STOPS):
            self.close()
            if self.ask(f"stop {wanting}", b"stop") == [b"ok"]:
                return wanting
        return MOST_STOPS


class Answers:
    """What a server has answered to these steps, and how it ended."""

    def __init__(self, program, steps, arguments=(), environment=None):
        self.steps = steps
        # Not entered, since that would open a session more.
        server = Server(program, *arguments, environment=environment)
        try:
            sessions = Sessions(server)
            self.answers = [sessions.ask(step.session, step.request) for step in steps]
            is_stopped = (b"stop", [b"ok"]) in zip([step.request for step in steps], self.answers)
            self.stops = 0 if is_stopped else sessions.stop()
            sessions.close()
            self.ended = server.ends()
        finally:
            server.__exit__()

    def sessions(self):
        """The requests of each session with their answers."""
        names = {step.session for step in self.steps}
        return [
            [(step.request, answer) for step, answer in zip(self.steps, self.answers) if step.session == name]
            for name in names
        ]

    def served(self):
        """The places of the steps that were served with memory."""
        return tuple(at for at, answer in enumerate(self.answers) if answer not in (None, NO_MEMORY))


def wants(turns):
    """Whether memory was missing in a session of these requests and answers, once; more than once where it may not be so."""
    wanting = [at for at, (_, answer) in enumerate(turns) if answer in (None, NO_MEMORY)]
    if not wanting:
        return 0
    first = wanting[0]
    request, answer = turns[first]
    behind = [answer for _, answer in turns[first + 1 :]]
    goes_on = not any(answer in (None, NO_MEMORY) for answer in behind)
    is_over = all(answer is None for answer in behind)
    # Posts are lost where a request for them finds no memory, so that its session ends.
    loses = word_of(request) in commands.TAKING
    if first == 0:
        return 1 if is_over or (goes_on and answer) else 2
    return 1 if answer and (is_over if loses else goes_on) else 2


def is_allowed(found, plain):
    """Whether a server may answer so where one allocation was refused."""
    if found.ended == OUT_OF_MEMORY:
        return set(found.answers) == {None}
    served = found.served()
    once = sum(wants(turns) for turns in found.sessions()) + found.stops == 1
    return found.ended == (0, b"") and once and [found.answers[at] for at in served] == plain(served)


class Refusing:
    """Servers of which an allocation is refused, and what is answered with memory."""

    def __init__(self, program, folder, name):
        self.program, self.folder, self.name = program, folder, name
        self.steps, self.arguments = WORLDS[name]
        self.preloaded = library(folder, "refuse_nth")

    def answers(self, nth):
        """What a server answers of which this allocation is refused, and how many it has made."""
        told = os.path.join(self.folder, f"count {nth}")
        words = {"LD_PRELOAD": self.preloaded, "REFUSE_NTH": str(nth), "COUNT_TO": told}
        found = Answers(self.program, self.steps, self.arguments, words)
        with open(told, encoding="ascii") as file:
            return found, int(file.read())

    @functools.lru_cache(None)
    def plain(self, places):
        """What is answered to the steps at these places alone."""
        return Answers(self.program, [self.steps[at] for at in places], self.arguments).answers

    def refuse(self, nth):
        """Refuses an allocation: whether there was one."""
        found, count = self.answers(nth)
        if count >= nth:
            told = f"ended {found.ended}, {found.stops} stops without memory: {found.answers}"
            check(f"allocation {nth} of a server refused, {self.name}", is_allowed(found, self.plain), told)
        return count >= nth


def refuse_each(refuse, count):
    """Refuses each of so many allocations, and those after them until a run meets none: how many there were."""
    with concurrent.futures.ThreadPoolExecutor(os.cpu_count()) as pool:
        met = sum(pool.map(refuse, range(1, count + 1)))
    behind = range(count + 1, count + 1 + MORE)
    more = sum(itertools.takewhile(bool, map(refuse, behind)))
    check("allocations of a server are refused until a run meets none", met > 0 and more < MORE, f"{met} and {more}")
    return met + more


def check_world(program, name):
    """Refuses each allocation of a server with the steps of a world."""
    with tempfile.TemporaryDirectory() as folder:
        refusing = Refusing(program, folder, name)
        whole, count = refusing.answers(0)
        check(f"a server with memory, {name}", (whole.ended, whole.stops) == ((0, b""), 0), repr(whole.ended))
        firsts = [answer and answer[0] for answer in whole.answers]
        check(f"its answers, {name}", firsts == [step.wanted for step in refusing.steps], repr(firsts))
        met = refuse_each(refusing.refuse, count)
    print(f"{met} allocations of a server refused in turn, of {count} that were counted: {name}", flush=True)


class AtOnce:
    """Servers of which an allocation is refused, while two sessions send them a request at once."""

    def __init__(self, program, folder):
        self.program, self.folder = program, folder
        self.preloaded = library(folder, "refuse_nth")

    def serve(self, nth):
        """What a server answers of which this allocation is refused, how it ended, and how many it has made."""
        told = os.path.join(self.folder, f"count {nth}")
        words = {"LD_PRELOAD": self.preloaded, "REFUSE_NTH": str(nth), "COUNT_TO": told}
        server = Server(self.program, environment=words)
        try:
            sessions = Sessions(server)
            sent = [sessions.send(request, request) for request in AT_ONCE]
            answers = [sessions.answer(request, request) if is_sent else None for request, is_sent in zip(AT_ONCE, sent)]
            stops = sessions.stop()
            ended = server.ends()
        finally:
            server.__exit__()
        with open(told, encoding="ascii") as file:
            return answers, stops, ended, int(file.read())

    def refuse(self, nth):
        """Refuses an allocation: whether there was one."""
        answers, stops, ended, count = self.serve(nth)
        served = sorted(answer for answer in answers if answer not in (None, NO_MEMORY))
        numbers = [[b"ok %d" % number] for number in range(1, len(served) + 1)]
        is_ended = ended == OUT_OF_MEMORY and answers == [None, None]
        once = ended == (0, b"") and len(answers) - len(served) + stops == (1 if 0 < nth <= count else 0)
        told = f"ended {ended}, {stops} stops without memory: {answers}"
        check(f"allocation {nth} refused, two sessions at once", is_ended or (once and served == numbers), told)
        return count >= nth


def check_at_once(program):
    """Refuses each allocation of a server that serves two sessions at once."""
    with tempfile.TemporaryDirectory() as folder:
        at_once = AtOnce(program, folder)
        *_, count = at_once.serve(0)
        at_once.refuse(0)
        met = refuse_each(at_once.refuse, count)
    print(f"{met} allocations of a server refused in turn, two sessions at once", flush=True)


def check_wanting(program):
    for name in WORLDS:
        check_world(program, name)
    check_at_once(program)
