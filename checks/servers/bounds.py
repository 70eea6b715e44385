"""A server whose memory is bounded, as the units of docs/systemd say. A module, a part of server.py."""
import glob
import os
import re
import time

from harness.runs import check
from harness.servers import Server
from servers.depth import CHAIN, WORLD, chain_from_below, make
from servers.stops import check_stopped_by

UNITS = os.path.join(os.path.dirname(__file__), "..", "..", "docs", "systemd", "*.service")

# The bytes of the address space here, and how many posts of all mounts of the chain surely have no room there.
SPACE, MOST_POSTS = 512 << 20, 20

# How much more memory the server may have after the end of the watcher than before it, in KiB.
MOST_KEPT = 100 << 10

# How long that may take, in seconds.
WAIT = 5


def settings(word):
    """What each unit says under a word, as the lines of one after another."""
    found = []
    for path in sorted(glob.glob(UNITS)):
        with open(path, encoding="ascii") as file:
            found.append(re.findall(rf"^{word}=(.*)", file.read(), re.MULTILINE))
    return found


def environment():
    """The environment of a server that a unit starts."""
    return dict(setting.split("=", 1) for line in settings("Environment")[0] for setting in line.split())


def check_bounded(program):
    """Where its address space is bounded a server refuses what would need more, loses nothing, and goes on."""
    limits = settings("LimitAS")
    check("each unit bounds the address space", len(limits) > 1 and all(len(limit) == 1 for limit in limits), repr(limits))
    said = settings("Environment")
    check("each unit has the same environment", all(unit == said[0] for unit in said), repr(said))
    surroundings = {**os.environ, **environment()}
    with Server(program, environment=surroundings, space=SPACE) as server, server.free() as client, server.free() as other:
        make(client, [*WORLD, *chain_from_below()])
        # What a first table needs stays with the server.
        client.ask(b"show 1")
        before = server.status("VmRSS")
        with server.free() as watcher:
            watcher.ask(b"watch 1")
            accepted = fill(client)
            check("a bound of the address space", 2 < accepted < MOST_POSTS, str(accepted))
            check("another is served there", other.ask(b"find 1 /m")[0].startswith(b"ok "))
        turned, found = until_accepted(client, accepted)
        check("a command after the end of the watcher", turned, repr(found))
        check("nothing is lost that was accepted", found == b"ok %d %d" % (CHAIN + 1, 2 * CHAIN + accepted + 1), repr(found))
        kept = kept_in_time(server, before)
        check("the memory of freed posts goes back to the system", kept < MOST_KEPT, f"{kept} KiB more")
        print(f"{accepted} posts of {CHAIN} deep mounts within {SPACE >> 20} MiB; {kept} KiB more after them", flush=True)
        check_stopped_by("a bound of the address space", server, client)


def line(count):
    """A line that changes all mounts, after so many of them."""
    return b"setattr 1 / rec " + (b"clr=ro" if count % 2 else b"set=ro")


def fill(client):
    """Changes all mounts until that is refused for want of memory: how often it was not."""
    for accepted in range(MOST_POSTS):
        answer = client.ask(line(accepted))
        if answer != [b"ok"]:
            check("a change for which there is no room", answer == [b"no NoMemory"], repr(answer))
            return accepted
    return MOST_POSTS


def kept_in_time(server, before):
    """How much more memory the server has than it had, in KiB, once that is little or its time is over."""
    end = time.monotonic() + WAIT
    while server.status("VmRSS") - before >= MOST_KEPT and time.monotonic() < end:
        time.sleep(0.05)
    return server.status("VmRSS") - before


def until_accepted(client, accepted):
    """Whether a change is accepted again, in time; and the first line of the table after it."""
    end = time.monotonic() + WAIT
    while time.monotonic() < end:
        if client.ask(line(accepted)) == [b"ok"]:
            return True, client.ask(b"show 1")[0]
        time.sleep(0.05)
    return False, b""
