"""Changes told in words as they come, by the other program: a module, a part of server.py.

What is told is written here by hand, by what docs/RULES.md says of posts in words.
"""
import concurrent.futures
import contextlib
import select
import subprocess
import tempfile
import threading

from clients.mountctl import Asked
from harness.allocations import Refusing
from harness.runs import MOST_SECONDS, check, connection_fault, run, shown
from harness.servers import START, Client, Door, Server

# How long a change may be on its way before another one is made, in seconds.
ON_ITS_WAY = 0.2

# Changes of an attribute that are made until a monitor tells one of them, and the last one, which it tells then.
TRIED = b"setattr 1 / set=nodev", b"setattr 1 / clr=nodev"
MARK = b"setattr 1 / set=noexec", b"~ 1 / exec -> noexec in namespace 1\n"

# What somebody else does, and what a monitor of all namespaces tells of it: namespaces 1 and 2 are peers, and 2 has its
# mount as a slave then.
TOLD = (
    (
        b"mount 1 d /m",
        [b"+ 3 /m ext4 rw,relatime shared:2 in namespace 1\n", b"+ 4 /m ext4 rw,relatime shared:2 in namespace 2\n"],
    ),
    (
        b"setattr 1 /m set=ro,nosuid,noatime clr=atime",
        [b"~ 3 /m rw -> ro, suid -> nosuid, relatime -> noatime in namespace 1\n"],
    ),
    (b"setattr 2 /m prop=slave", [b"~ 4 /m shared:2 -> master:2 in namespace 2\n"]),
    (b"setattr 1 /m clr=ro,nosuid", [b"~ 3 /m ro -> rw, nosuid -> suid in namespace 1\n"]),
    (
        b"copyns 1",
        [b"+ 5 / tmpfs rw,noexec,relatime shared:1 in namespace 3\n", b"+ 6 /m ext4 rw,noatime shared:2 in namespace 3\n"],
    ),
    (b"mkfs e vfat /dev/y", []),
    (b"setattr 1 /m prop=private", [b"~ 3 /m shared:2 -> private in namespace 1\n"]),
    (b"setattr 1 / prop=private", [b"~ 1 / shared:1 -> private in namespace 1\n"]),
    (b"move 1 /m /n", [b"~ 3 /m -> /n in namespace 1\n"]),
    (
        b"mount 3 e /n",
        [b"+ 8 /n vfat rw,relatime shared:3 in namespace 2\n", b"+ 7 /n vfat rw,relatime shared:3 in namespace 3\n"],
    ),
    (b"umount 3 /m", [b"- 4 /m in namespace 2\n", b"- 6 /m in namespace 3\n"]),
    (b"dropns 2", [b"- 2 / in namespace 2\n", b"- 8 /n in namespace 2\n"]),
    (b"stop", [b"no Stopped\n"]),
)

# An opening, two posts, and what is told of them.
OPENING = b"ok 2\nspace 1 3 1\n1 1 0:1 / / rw,relatime - tmpfs none rw\n"
POSTS = b"event 1 4 1\n= 1 1 0:1 / / ro,relatime - tmpfs none rw\nevent 2 1 1\n= 2 2 0:1 / / rw,relatime - tmpfs none rw\n"
WORDS = b"~ 1 / rw -> ro in namespace 1\n+ 2 / tmpfs rw,relatime private in namespace 2\n"

WATCH, FOLLOW = b"watch all\n", b"follow 1048576\n"

# What a server answers to a watch of all namespaces, what it is sent, what is told, and the status. With 3 a connection
# fault is told, or that changes were lost.
ANSWERED = (
    (b"no TooManyWatchers\n", WATCH, b"no TooManyWatchers\n", 1),
    (b"ok 1\n", WATCH, b"", 3),
    (b"ok 2\nspace 2 1 0\nspace 1 1 0\n", WATCH, b"", 3),
    (OPENING + POSTS + b"no Lagged\n", WATCH + FOLLOW, WORDS + b"no Lagged\n", 3),
    (OPENING + POSTS + b"no Stopped\n", WATCH + FOLLOW, WORDS + b"no Stopped\n", 1),
    (OPENING + POSTS, WATCH + FOLLOW, WORDS, 3),
    (OPENING + POSTS + b"event 1 6 1\n- 1\n", WATCH + FOLLOW, WORDS, 3),
    (OPENING + POSTS + b"event 2 2 1\n- 2", WATCH + FOLLOW, WORDS, 3),
    (OPENING + POSTS + b"ok 2\n", WATCH + FOLLOW, WORDS, 3),
)


def until_it_tells(client, output):
    """Makes changes until a monitor tells them, and marks where what it tells is known from."""
    for tries in range(int(MOST_SECONDS / ON_ITS_WAY)):
        client.ask(TRIED[tries % 2])
        if select.select([output], [], [], ON_ITS_WAY)[0]:
            break
    # The attribute is as it was, however many changes were made.
    client.ask(TRIED[1])
    line, mark = MARK
    client.ask(line)
    while (found := output.readline()) not in (mark, b""):
        pass
    check("a monitor tells what it was made to", found == mark)


def check_monitor(program, mountctl):
    """A monitor of all namespaces tells what somebody else does, each change before the next one is made."""
    with Server(program) as server, server.client() as client:
        for line in START:
            client.ask(line)
        words = [mountctl, server.path, "monitor", "all"]
        with subprocess.Popen(words, bufsize=0, stdout=subprocess.PIPE, stderr=subprocess.PIPE) as monitor:
            until_it_tells(client, monitor.stdout)
            for line, wanted in TOLD:
                told = client.ask(line)[0]
                found = [monitor.stdout.readline() for _ in wanted]
                check(f"a monitor beside {shown(line)}", told.startswith(b"ok") and found == wanted, f"{told}, {found}")
            ended = monitor.communicate(timeout=MOST_SECONDS)
        check("the end of a monitor", (monitor.returncode, ended) == (1, (b"", b"")), f"{monitor.returncode}, {ended}")
        check("a monitor: the server's end", server.ends() == (0, b""))


def check_no_namespace(program, mountctl):
    """A namespace that is not there."""
    with Server(program) as server:
        found = run(mountctl, b"", server.path, "monitor", "9")
        check("a monitor of no namespace", found == (1, b"no NoNamespace\n", b""), repr(found))


def check_answered(mountctl):
    """What a server of any worth sends is told up to where it is at fault."""
    with Door() as door, concurrent.futures.ThreadPoolExecutor(1) as pool:
        for answer, sent, told, status in ANSWERED:
            running = pool.submit(run, mountctl, b"", door.path, "monitor", "all")
            found = door.answers(answer)
            check(f"a monitor that is answered {answer!r}: what it sends", found == sent, repr(found))
            found = running.result()
            fault = b"mountctl: %b: changes were lost\n" % door.path.encode() if told.endswith(b"no Lagged\n") else connection_fault(door.path)
            wanted = status, told, fault if status == 3 else b""
            check(f"a monitor that is answered {answer!r}", found == wanted, repr(found))


def answer_all(door, text, ended):
    """Writes a text to each connection in turn, until this has ended."""
    while not ended.is_set():
        with contextlib.suppress(OSError):
            door.answers(text)


def check_memory(mountctl):
    """Each allocation of a monitor is refused in turn."""
    ended = threading.Event()
    with Door() as door, tempfile.TemporaryDirectory() as folder:
        answering = threading.Thread(target=answer_all, args=(door, OPENING + POSTS + b"no Stopped\n", ended))
        answering.start()
        try:
            refusing, monitor = Refusing(folder), Asked(mountctl, [door.path, "monitor", "all"])
            check("a monitor that is answered", monitor.plain == (1, WORDS + b"no Stopped\n", b""), repr(monitor.plain))
            count = refusing.count(monitor)
            refusing.each(monitor, "a monitor", count)
        finally:
            ended.set()
            with Client(door.path):
                pass
            answering.join()
        print(f"{count} allocations of a monitor refused in turn", flush=True)


def check_telling(program, mountctl):
    """What a monitor tells, with a server and with others, and without memory."""
    check_monitor(program, mountctl)
    check_no_namespace(program, mountctl)
    check_answered(mountctl)
    check_memory(mountctl)
