"""How often the other program writes: each request goes out in one write. A module, a part of server.py."""
import concurrent.futures
import os
import shlex
import tempfile

from clients.answers import MIRRORS, MONITORS, PICTURES, REQUESTS
from harness.runs import check, library, run
from harness.servers import Door

# A script, and what it sends and is answered.
SCRIPT = b"# none\nshow 1\nmkfs a tmpfs none\nfind 1 /\n"
SENT, ANSWER = b"show 1\nmkfs a tmpfs none\nfind 1 /\n", b"no NoNamespace\nok 1\nno NoNamespace\n"


def writes_of(mountctl, preloaded, folder, words, given, answer):
    """How many bytes each write of a run took, and what came over the connection."""
    name = os.path.join(folder, "writes")
    settings = {"LD_PRELOAD": preloaded, "WRITES_TO": name}
    with Door() as door, concurrent.futures.ThreadPoolExecutor(1) as pool:
        running = pool.submit(run, mountctl, given, door.path, *words, environment=settings)
        sent = door.answers(answer)
        running.result()
    with open(name, encoding="ascii") as file:
        sizes = [int(line) for line in file]
    os.remove(name)
    return sizes, sent


def check_writes(_program, mountctl):
    """Each line with its line end is one write."""
    exchanges = [(shlex.split(one.words), b"", one.answer, one.sent) for one in (*REQUESTS, *MIRRORS, *PICTURES, *MONITORS)]
    with tempfile.TemporaryDirectory() as folder:
        preloaded = library(folder, "tell_writes")
        for words, given, answer, wanted in (*exchanges, (["-"], SCRIPT, ANSWER, SENT)):
            sizes, sent = writes_of(mountctl, preloaded, folder, words, given, answer)
            good = sent == wanted and sizes == [len(line) for line in wanted.splitlines(keepends=True)]
            check(f"the writes of mountctl {words}", good, f"{sizes}, {sent!r}")
