"""Many sessions at once: commands, watchers, and mirrors of the other program; and a stop beside them.

A module, a part of server.py.
"""
import contextlib
import random
import re
import subprocess
import threading
import time

from harness import protocol
from harness.protocol import Broken
from harness.runs import MOST_SECONDS, check, shown
from harness.servers import SESSIONS, START, Server

# What a client does, and lines beside it: its namespace and its directory are its own.
PAIRS = [
    ("mount {space} d {path}", "umount {space} {path}"),
    ("bind {space} {path} {path}", "umount {space} {path}"),
    ("setattr {space} / set=ro", "setattr {space} / clr=ro"),
]
LINES = ["show {space}", "find {space} {path}", "mount 9 d {path}", "setattr 2 / set=nosuid", "frobnicate", "take 1", ""]

# How many of the sessions send commands, and how many are mirrors where there is a program for them.
COMMANDS = SESSIONS // 2
MIRRORS = SESSIONS // 4

# How many lines a turn of a client has about, and how many are sent in all at most: the journal holds 1,048,576 commands.
TURN = 4
MOST_SENT = 900_000

# How many posts a last mirror follows, once all commands have come.
LAST_POSTS = 50

# How many posts the queue of a watcher holds: those of all mounts and unmounts beside the stop.
QUEUE = 64

# How much more memory the sessions of a soak may need, in KiB. The journal has 128 bytes for each command that was
# accepted, and is moved where it grows.
MORE = 32 * 1024
JOURNAL_BYTES = 3 * 128

# What watchers ask after the stop, one these requests and another those: each gets all that waits for it.
LAST = [
    [b"close"],
    [b"take 1", b"take 2", b"close"],
    [b"take 1024", b"take 1024", b"close"],
    [b"follow 1048576", b"close"],
]


class Mirror:
    """The tables that a watcher has found, with its posts applied."""

    def __init__(self, opening):
        self.tables, self.numbers = {}, {}
        for head, rows in protocol.tables_in(opening):
            self.numbers[head.space] = head.number
            self.tables[head.space] = {protocol.id_of(row): row for row in rows}

    def apply(self, lines):
        """Applies the posts that these lines are, and answers how many there were."""
        posts = list(protocol.posts_in(lines))
        for head, changes in posts:
            if head.number != self.numbers.get(head.space, 0) + 1:
                raise Broken(f"post {head.number} of namespace {head.space} behind {self.numbers.get(head.space)}")
            self.numbers[head.space] = head.number
            table = self.tables.setdefault(head.space, {})
            for change in changes:
                sign, row = change.split(b" ", 1)
                if sign == b"-":
                    del table[protocol.id_of(row)]
                else:
                    table[protocol.id_of(row)] = row
        return len(posts)

    def shown(self, space):
        """What `show` answers where nothing has come since."""
        table = self.tables[space]
        return [b"ok %d %d" % (len(table), self.numbers[space]), *(table[mount] for mount in sorted(table))]


class Own:
    """What a client has at its own directory of its namespace, where no other client does anything, and so what its lines
    are answered."""

    def __init__(self, space, path):
        self.space, self.path = space, path
        # The mount there, and which directory of its filesystem it shows.
        self.mount = None

    def is_answer(self, line, answer):
        """Whether a line may be answered so, as a whole. A mount that is answered is there from then on."""
        word, *words = line.split(b" ")
        if word in (b"mount", b"bind") and words[0] != b"9":
            found = protocol.ONE_NUMBER.fullmatch(answer[0])
            self.mount = found and (int(found[1]), b"/" if word == b"mount" else self.path)
            return found is not None and len(answer) == 1
        if word == b"umount":
            self.mount = None
        return self.is_table(answer) if word == b"show" else answer == [self.answer(word)]

    def answer(self, word):
        """The one line that answers a line of this first word, but for `show` and for what mounts."""
        if word == b"find":
            return b"ok %d %s" % (self.mount or (self.space, self.path))
        return {b"umount": b"ok", b"setattr": b"ok", b"mount": b"no NoNamespace", b"take": b"no NoWatcher"}.get(word, b"no BadLine")

    def is_table(self, answer):
        """Whether an answer has as many rows as it says, by rising number, and of the own directory those that are there."""
        count, rows = protocol.COUNT_AND_NUMBER.fullmatch(answer[0]), [row.split(b" ") for row in answer[1:]]
        numbers = [int(row[0]) for row in rows]
        here = [(int(row[0]), row[3]) for row in rows if row[4] == self.path]
        rising = all(one < other for one, other in zip(numbers, numbers[1:]))
        return bool(count) and int(count[1]) == len(rows) and rising and here == [self.mount] * bool(self.mount)


class Stop:
    """A stop beside sessions that mount and unmount, and watchers that have not taken yet."""

    def __init__(self, server, stack):
        self.server = server
        self.senders = [stack.enter_context(server.free()) for _ in range(COMMANDS)]
        self.watchers = [stack.enter_context(server.free()) for _ in range(SESSIONS - COMMANDS - 1)]
        self.mirrors = [Mirror(client.ask(b"watch all")[1:]) for client in self.watchers]
        self.taken = [0] * len(self.watchers)
        self.stopped = threading.Event()

    def send(self, number):
        """Mounts in both namespaces, and takes that away again, unless the stop comes first."""
        chance = random.Random(number)
        path = f"/m{number}"
        for line in f"mount 1 d {path}", f"umount 1 {path}":
            time.sleep(chance.uniform(0, 0.01))
            first = self.senders[number].ask(line.encode())[0]
            if not re.match(rb"ok|no Stopped$", first):
                raise Broken(f"beside a stop {line} is answered {shown(first)}")

    def end(self, number):
        """Takes and closes after the stop: then each table is the one that is shown."""
        client, mirror = self.watchers[number], self.mirrors[number]
        self.stopped.wait(MOST_SECONDS)
        for request in LAST[number % len(LAST)]:
            first, *lines = client.ask(request)
            if request.startswith(b"follow"):
                first, lines = [first, *lines][-1], [first, *lines][:-1]
            if not re.match(rb"ok \d+$|no Stopped$", first):
                raise Broken(f"behind a stop {shown(request)} is answered {shown(first)}")
            self.taken[number] += mirror.apply(lines)
        for space in mirror.tables:
            found = client.ask(b"show %d" % space)
            if found != mirror.shown(space):
                raise Broken(f"namespace {space} behind a stop is not as its posts say")

    def run(self):
        self.send(0)
        calls = [(self.send, n) for n in range(1, COMMANDS)] + [(self.end, n) for n in range(len(self.watchers))]
        threads = [threading.Thread(target=guarded, args=("stop", *call)) for call in calls]
        for thread in threads:
            thread.start()
        with self.server.free() as client:
            check("soak: its stop", client.ask(b"stop") == [b"ok"] and client.line() is None)
        self.stopped.set()
        for thread in threads:
            thread.join()


def guarded(name, call, number):
    """Calls, and notes what fails."""
    try:
        call(number)
    except Exception as error:
        check(f"{name}, client {number}", False, repr(error))


class Soak:
    """32 sessions at once, and what they have done."""

    def __init__(self, server, seconds, mountctl):
        self.server, self.end, self.mountctl = server, time.monotonic() + seconds, mountctl
        # How long a client rests after each turn, in seconds: not at all in a short soak.
        self.rest = COMMANDS * TURN * seconds / MOST_SENT if seconds > 60 else 0
        self.counts = {"commands": 0, "posts": 0, "lags": 0, "mirrors": 0, "mirrors compared": 0}
        self.lock = threading.Lock()
        # Set once no client sends a command any more.
        self.quiet, self.running = threading.Event(), COMMANDS
        # The tables that the last mirrors printed, by namespace and number, and those that were shown.
        self.printed, self.shown = [], {}

    def add(self, word, count):
        with self.lock:
            self.counts[word] += count

    def is_over(self):
        return time.monotonic() > self.end

    def command(self, seed):
        """One client of mixed commands, which takes away again what it has mounted."""
        chance = random.Random(seed)
        paths = dict(space=chance.choice("12"), path=f"/m{seed}")
        own = Own(int(paths["space"]), paths["path"].encode())
        pairs = [self.lines(pair, paths) for pair in PAIRS]
        lines = self.lines(LINES, paths)
        with self.server.free() as client:
            while not self.is_over():
                first, last = chance.choice(pairs)
                sent = [first, *(chance.choice(lines) for _ in range(chance.randint(0, 4))), last]
                client.send(*sent)
                for line in sent:
                    answer = client.answer(line)
                    if not own.is_answer(line, answer):
                        raise Broken(f"{shown(line)} is answered {answer}")
                self.add("commands", len(sent))
                time.sleep(self.rest)

    @staticmethod
    def lines(forms, words):
        return [form.format(**words).encode() for form in forms]

    def watch(self, seed):
        """One client that watches, takes or follows, and begins anew where it lags."""
        chance = random.Random(seed)
        with self.server.free() as client:
            while not self.is_over():
                mirror = Mirror(client.ask(b"watch all")[1:])
                while not self.is_over() and self.takes(client, mirror, chance):
                    pass
            self.compare(client, mirror)

    def takes(self, client, mirror, chance):
        """Takes once: whether the watcher goes on."""
        if chance.random() < 0.1:
            time.sleep(0.05 + 10 * self.rest)
        request = chance.choice([b"take 16", b"take 1024"])
        first, *lines = client.ask(request)
        if first == b"no Lagged":
            self.add("lags", 1)
            client.ask(b"close")
            return False
        self.add("posts", mirror.apply(lines))
        return True

    def compare(self, client, mirror):
        """Once no command comes any more, each table is the one that is shown, or the watcher lags."""
        self.quiet.wait(MOST_SECONDS)
        while True:
            first, *lines = client.ask(b"take 1024")
            if first == b"no Lagged":
                self.add("lags", 1)
                client.ask(b"close")
                mirror = Mirror(client.ask(b"watch all")[1:])
            elif first == b"no NoWatcher":
                mirror = Mirror(client.ask(b"watch all")[1:])
            elif first == b"ok 0":
                break
            elif first.startswith(b"ok "):
                self.add("posts", mirror.apply(lines))
            else:
                raise Broken(f"a take is answered {shown(first)}")
        for space in mirror.tables:
            found = client.ask(b"show %d" % space)
            if found != mirror.shown(space):
                raise Broken(f"namespace {space} is not as its posts say")

    def mirrored(self, space, count):
        """The lines of a mirror that follows so many posts, or nothing where it lags or finds no session."""
        words = [self.mountctl, self.server.path, "mirror", space, str(count)]
        done = subprocess.run(words, capture_output=True, timeout=MOST_SECONDS)
        if (done.returncode, done.stdout, done.stderr) in ((1, b"no Lagged\n", b""), (1, b"no TooMany\n", b"")):
            self.add("lags", int(done.stdout == b"no Lagged\n"))
            return None
        lines = done.stdout.removesuffix(b"\n").split(b"\n")
        found = protocol.COUNT_AND_NUMBER.fullmatch(lines[0])
        if (done.returncode, done.stderr) != (0, b"") or not found or int(found[1]) != len(lines) - 1:
            raise Broken(f"a mirror ended with status {done.returncode}: {shown(done.stdout + done.stderr)}")
        self.add("mirrors", 1)
        return lines

    def mirror(self, seed):
        """Mirrors one after another, each in a session of its own, and a last one after all commands."""
        chance = random.Random(seed)
        space = chance.choice("12")
        while not self.is_over():
            self.mirrored(space, chance.randint(1, 64))
        self.quiet.wait(MOST_SECONDS)
        while (lines := self.mirrored(space, LAST_POSTS)) is None:
            pass
        with self.lock:
            self.printed.append((int(space), lines))

    def feed(self, mirrors):
        """Posts to both namespaces while one of these threads waits for posts, and notes what is shown."""
        with self.server.free() as client:
            while any(thread.is_alive() for thread in mirrors):
                for line in b"mount 1 d /n", b"umount 1 /n":
                    client.ask(line)
                    for space in 1, 2:
                        lines = client.ask(b"show %d" % space)
                        self.shown[space, protocol.table_number(lines[0])] = lines

    def compare_mirrors(self):
        """Each last mirror has printed what was shown at its number."""
        for space, lines in self.printed:
            wanted = self.shown.get((space, protocol.table_number(lines[0])))
            check("a mirror's table is the one that was shown", lines == wanted, repr((space, lines, wanted)))
            self.add("mirrors compared", 1)

    def counted(self, seed):
        """Sends commands, and says so when no one does any more."""
        try:
            self.command(seed)
        finally:
            with self.lock:
                self.running -= 1
                if self.running == 0:
                    self.quiet.set()

    def run(self):
        last = COMMANDS + (MIRRORS if self.mountctl else 0)
        calls = [self.counted] * COMMANDS + [self.mirror] * (last - COMMANDS) + [self.watch] * (SESSIONS - last)
        threads = [threading.Thread(target=guarded, args=("soak", call, n)) for n, call in enumerate(calls)]
        for thread in threads:
            thread.start()
        self.quiet.wait()
        for thread in threads[last:]:
            thread.join()
        self.feed(threads[COMMANDS:last])
        for thread in threads:
            thread.join()
        self.compare_mirrors()


def check_soak(program, seconds, mountctl):
    with Server(program, "--queue", str(QUEUE)) as server:
        with server.free() as client:
            for line in START + [b"mkdir a /m%d" % n for n in range(SESSIONS)]:
                client.ask(line)
        before = server.status("VmRSS")
        soak = Soak(server, seconds, mountctl)
        soak.run()
        grown = server.status("VmRSS") - before
        told = ", ".join(f"{count} {word}" for word, count in soak.counts.items())
        print(f"soak of {seconds} s: {told}, {grown} KiB more resident memory", flush=True)
        most = MORE + soak.counts["commands"] * JOURNAL_BYTES // 1024
        check("the memory of a soak is level but for its journal", grown < most, f"{grown} KiB more, of {most}")
        done = {word: count for word, count in soak.counts.items() if word in ("commands", "posts", "lags")}
        check("a soak sends commands, takes posts and lags", min(done.values()) > 0, told)
        compared = soak.counts["mirrors compared"]
        check("mirrors of a soak", compared == (MIRRORS if mountctl else 0), told)
        with contextlib.ExitStack() as stack:
            stop = Stop(server, stack)
            stop.run()
            ended = server.ends()
        check("soak: the end", ended == (0, b""), repr(ended))
        told = ", ".join(str(count) for count in stop.taken)
        print(f"posts taken behind the stop of a soak, by each watcher: {told}", flush=True)
        same = len(set(stop.taken)) == 1 and stop.taken[0] >= 4
        check("each watcher gets all behind a stop", same, told)
