"""Long paths: what a post of deep mounts and a look at them cost. A module, a part of server.py.

A chain of mounts, each 31 directories below the one before, so that the last one's mount point has 31,000 names. What is
asked of it is that others do not wait for it, and that what is kept of it is little more than its bytes.
"""
import threading
import time

from harness.runs import check
from harness.servers import Server

# The directories of a filesystem that lie below each other, and the way down to the last of them.
DEPTH = 31
DOWN = b"/a" * DEPTH

# Mounts of the chain.
CHAIN = 1_000

# What a post of all mounts of the chain may need, in KiB, and how long another session may wait meanwhile, in seconds.
MOST_OF_A_POST, MOST_OF_A_FIND = 64 << 10, 1

# How often it is tried, so that a moment in which the machine does something else is not the server's.
TRIES = 3

WORLD = [b"mkfs r tmpfs none", b"mkfs d ext4 /dev/x", b"mkdir r /m", b"mkdir r /n", b"newns r"]
WORLD += [b"mkdir d " + b"/a" * depth for depth in range(1, DEPTH + 1)]


def chain_from_below():
    """The lines that make the chain, to whose end no path leads: it is moved onto each further mount."""
    yield b"mount 1 d /m"
    here, there = b"/m", b"/n"
    for _ in range(CHAIN - 1):
        yield b"mount 1 d " + there
        yield b"move 1 " + here + b" " + there + DOWN
        here, there = there, here


def make(client, lines):
    for line in lines:
        answer = client.ask(line)
        check(f"a world of long paths: {line[:60]}", answer[0].startswith(b"ok"), repr(answer))


def longest_find(client, act):
    """How long the longest `find` of another session takes while something is done."""
    waited, done = [], threading.Event()

    def find():
        while not done.is_set():
            start = time.monotonic()
            client.ask(b"find 1 /m")
            waited.append(time.monotonic() - start)

    finding = threading.Thread(target=find)
    finding.start()
    act()
    done.set()
    finding.join()
    return max(waited)


def check_deep(program):
    """A chain of 1,000 mounts: others do not wait long for a watch and a recursive change, whose post is not much."""
    with Server(program) as server, server.free() as client, server.free() as other, server.free() as watcher:
        make(client, [*WORLD, *chain_from_below()])
        watching, changing, kept = [], [], []
        for attempt in range(TRIES):
            watching.append(longest_find(other, lambda: watcher.ask(b"watch 1")))
            before = server.status("VmRSS")
            line = b"setattr 1 / rec " + (b"clr=ro" if attempt % 2 else b"set=ro")
            changing.append(longest_find(other, lambda: client.ask(line)))
            kept.append(server.status("VmRSS") - before)
            found = watcher.ask(b"close")
            check("a post of deep mounts", found[1] == b"event 1 %d %d" % (2 * CHAIN + 1 + attempt, CHAIN + 1), repr(found[1]))
        for name, seconds in ("watch", min(watching)), ("recursive change", min(changing)):
            check(f"a find beside a {name} of deep mounts", seconds <= MOST_OF_A_FIND, f"{seconds:.2f} s")
        check("the memory of a post of deep mounts", max(kept) <= MOST_OF_A_POST, f"{kept} KiB")
        print(f"a find beside a watch of {CHAIN} deep mounts: {min(watching):.2f} s, beside a recursive change", end=" ")
        print(f"{min(changing):.2f} s; its post {max(kept)} KiB", flush=True)
