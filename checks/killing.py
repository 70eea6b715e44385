#!/usr/bin/env -S python3 -B
"""Clients that are killed at random moments, and one that stops reading for a minute: by hand, and no part of the gate.

Usage: checks/killing.py MOUNTD MOUNTCTL [--seconds N]

For N seconds, 120 if not said, scripts of MOUNTCTL that watch, follow and change are killed by SIGKILL, on a server
that has all but a few of its 1,024 descriptors in use already. Beside them one client asks and checks each answer,
and one sends requests for a minute and reads nothing. Nothing is lost, nothing is left behind, and memory grows by
the journal alone.
"""
import argparse
import contextlib
import os
import random
import resource
import subprocess
import threading
import time

from harness.protocol import Broken, table_number
from harness.runs import check, failures
from harness.servers import SESSIONS, START, Server

# The descriptors that a server may have, and those that it needs: two a session, and some of its own.
DESCRIPTORS = 1_024
NEEDED = 2 * SESSIONS + 12

# How many clients are killed at once, again and again.
KILLED = 16

# How long the one that does not read waits, in seconds, and what it sends.
SILENT = 60
REQUESTS = 2_000

# How many KiB more a server may have at the end: the journal has 128 bytes for each command, and its table of posts some.
MORE = 4_096

# What a script does that is killed: each watches and makes posts for the others.
SCRIPTS = [
    b"watch all\n" + b"mount 1 d /m\numount 1 /m\n" * 200 + b"follow 1048576\n",
    b"watch 2\nfollow 1048576\n",
    b"show 1\nshow 2\n" * 5_000,
    b"watch all\n" + b"take 16\nclose\nwatch all\n" * 2_000,
]


class Killing:
    """The clients of a server, up to an end."""

    def __init__(self, server, mountctl, seconds):
        self.server, self.mountctl, self.end = server, mountctl, time.monotonic() + seconds
        self.lock, self.killed, self.asked = threading.Lock(), 0, 0

    def is_over(self):
        return time.monotonic() > self.end

    def kill(self, seed):
        """Starts one script after another, and kills it."""
        chance = random.Random(seed)
        while not self.is_over():
            words = [self.mountctl, self.server.path, "-"]
            with subprocess.Popen(words, stdin=subprocess.PIPE, stdout=subprocess.DEVNULL, stderr=subprocess.DEVNULL) as script:
                with contextlib.suppress(BrokenPipeError):
                    script.stdin.write(chance.choice(SCRIPTS))
                    script.stdin.flush()
                time.sleep(chance.uniform(0, 0.2))
                script.kill()
                with contextlib.suppress(BrokenPipeError):
                    script.stdin.close()
            with self.lock:
                self.killed += 1

    def ask(self, client):
        """Asks for what no other client changes, and checks each answer."""
        while not self.is_over():
            for line, wanted in (b"mkdir a /m", b"no EntryExists"), (b"find 1 /own", b"ok 1 /own"), (b"show 9", b"no NoNamespace"):
                found = client.ask(line)
                check("an answer beside clients that are killed", found == [wanted], repr(found))
                self.asked += 1
            time.sleep(0.01)

    def be_silent(self, client):
        """Sends many requests, reads nothing for a minute, and then finds each answer."""
        requests = [b"find 1 /own"] * REQUESTS
        sender = threading.Thread(target=client.send, args=requests)
        sender.start()
        time.sleep(min(SILENT, max(0, self.end - time.monotonic())))
        answers = [client.answer(request) for request in requests]
        sender.join()
        check("the answers to a client that did not read", answers == [[b"ok 1 /own"]] * REQUESTS)

    def run(self, asking, silent):
        calls = [(self.kill, seed) for seed in range(KILLED)] + [(self.ask, asking), (self.be_silent, silent)]
        threads = [threading.Thread(target=call, args=(of,)) for call, of in calls]
        for thread in threads:
            thread.start()
        for thread in threads:
            thread.join()


def check_left(server, asking):
    """No session and no watcher is left behind: all others are to be had."""
    check("one session is left", server.rests(2), str(server.status("Threads")))
    with contextlib.ExitStack() as stack:
        for _ in range(SESSIONS - 1):
            client = stack.enter_context(server.free())
            found = client.ask(b"watch all")
            check("a watcher of each session", found[0].startswith(b"ok "), repr(found[0]))
        found = asking.ask(b"watch all")
        check("a watcher beside them", found[0].startswith(b"ok "), repr(found[0]))


def check_killing(program, mountctl, seconds):
    resource.setrlimit(resource.RLIMIT_NOFILE, (DESCRIPTORS, resource.getrlimit(resource.RLIMIT_NOFILE)[1]))
    with open("/dev/null", "rb") as null:
        held = [os.dup(null.fileno()) for _ in range(DESCRIPTORS - NEEDED - 4 * KILLED - 40)]
    with Server(program, held=held) as server, server.free() as asking, server.free() as silent:
        for line in [*START, b"mkdir a /own"]:
            asking.ask(line)
        before = server.status("VmRSS")
        killing = Killing(server, mountctl, seconds)
        killing.run(asking, silent)
        silent.socket.close()
        check_left(server, asking)
        commands = sum(table_number(asking.ask(b"show %d" % space)[0]) for space in (1, 2))
        grown = server.status("VmRSS") - before
        check("memory behind clients that are killed", grown < MORE + commands, f"{grown} KiB more behind some {commands} posts")
        print(f"{killing.killed} clients killed in {seconds} s, {killing.asked} answers beside them, {len(held)} descriptors held,", end=" ")
        print(f"{commands} posts, {grown} KiB more resident memory")
        with contextlib.suppress(Broken):
            asking.send(b"stop")
            asking.all()
        ended = server.ends()
        check("clients that are killed: the server's end", ended == (0, b""), repr(ended))


def main():
    parser = argparse.ArgumentParser(description=__doc__, formatter_class=argparse.RawDescriptionHelpFormatter)
    parser.add_argument("program", metavar="MOUNTD", type=os.path.abspath)
    parser.add_argument("mountctl", metavar="MOUNTCTL", type=os.path.abspath)
    parser.add_argument("--seconds", type=int, default=120, help="how long clients are killed")
    words = parser.parse_args()
    check_killing(words.program, words.mountctl, words.seconds)
    if failures:
        raise SystemExit(f"failed: {len(failures)}")
    print("clients that are killed leave nothing behind")


if __name__ == "__main__":
    main()
