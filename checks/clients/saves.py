"""What `mountctl save` prints: the session that makes the world of a server. A module, a part of server.py.

Each case's world is saved, and the session is played into a new server: that accepts all of it, has the same tables and numbers,
and is saved as the same session. `page --journal` prints the page of that session.
"""
import concurrent.futures
import os
import tempfile

from clients.objects import ODD
from clients.pictures import world_of
from clients.played import printed_page
from harness.protocol import LINE
from harness.runs import check, connection_fault, run, shown
from harness.servers import START, Door, Server
from sessions import cases

# How many commands a server tells at once.
PORTION = 1_024

# Tabs, which may stand for themselves in a line, in one that is as long as may be.
TABS = b"\t" * 255
LONG = [b"mkfs a tmpfs none", *(b"mkdir a " + (b"/" + TABS) * depth for depth in range(1, 16)), b"newns a", b"bind 1 %b %b" % ((b"/" + TABS) * 15, (b"/" + TABS) * 15)]

# Lines that say what they need not: the same more than once, or in another order.
WORDY = [
    *START,
    b"mount 1 d /m set=nosuid,ro,nosuid,ro",
    b"setattr 1 /m prop=slave clr=noexec,ro,ro set=noexec rec",
    b"setattr 1 /m",
    b"setattr 1 /m rec",
    b"setattr 2 / clr=atime set=strictatime",
    *(b"setattr 2 / prop=" + kind for kind in (b"private", b"unbindable", b"slave", b"shared")),
    b"copyns 1 less",
    b"dropns 2",
    b"mkfs \\040\\011\\012\\134 x\\134 \xff",
    b"mkdir \\040\\011\\012\\134 /\\040/",
    b"mkdir \\040\\011\\012\\134 /\\012\\134\t",
]

# Answers that are none, and what is said then.
NO_ANSWERS = (
    (b"no NoMemory\n", (1, b"no NoMemory\n", b"")),
    (b"ok 1025\n", None),
    (b"ok\n", None),
    (b"ok 1\nshow 1\n", None),
    (b"ok 1\nmkfs a b c", None),
    (b"ok 1\n", None),
)


def saved(mountctl, path):
    """The session of the server at a path."""
    status, text, complaint = run(mountctl, b"", path, "save")
    check("how a save ends", (status, complaint) == (0, b""), f"{status}, {shown(complaint)}")
    return text


def check_world(program, mountctl, name, lines):
    """A new server to which the session of a world is sent has this world: how many commands made it."""
    with Server(program) as server, server.client() as client:
        told = [client.ask(line)[0] for line in lines]
        text = saved(mountctl, server.path)
        page, wanted = run(mountctl, b"", server.path, "page", "--journal"), printed_page(mountctl, text)
        check(f"{name}: its page", page == wanted and wanted[0] == 0, repr(page[2]))
        made = client.ask(b"watch all")
    commands = text.split(b"\n")[:-1]
    accepted = [line for line, answer in zip(lines, told) if answer.startswith(b"ok")]
    check(f"{name}: as many commands as were accepted", len(commands) == len(accepted), shown(text))
    longer = [said for said, line in zip(commands, accepted) if len(said) > len(line)]
    check(f"{name}: no line is longer than it came", longer == [], repr(longer[:1]))
    with Server(program) as server, server.client() as client:
        refused = [line for line in commands if not client.ask(line)[0].startswith(b"ok")]
        check(f"{name}: what is refused of its session", refused == [], repr(refused[:3]))
        again = saved(mountctl, server.path)
        found = client.ask(b"watch all")
    check(f"{name}: its world", found == made, f"{made}\n{found}")
    check(f"{name}: its session, saved again", again == text, shown(again))
    return len(commands)


def check_portions(program, mountctl):
    """As many commands as are told at once, one less and one more, and those of a line in between."""
    for count in 0, 1, PORTION - 1, PORTION, PORTION + 1, 2 * PORTION:
        lines = [b"mkfs a tmpfs none", b"newns a", *[b"setattr 1 /"] * count][:count]
        with Server(program) as server, server.client() as client:
            client.send(*lines)
            for line in lines:
                client.answer(line)
            text = saved(mountctl, server.path)
            check(f"{count} commands", text == b"".join(line + b"\n" for line in lines), shown(text[:200]))
            for start, most in (1, 1), (2, PORTION), (count, 2), (0, 1), (count + 1, 1), (2**64 - 1, PORTION):
                part = lines[max(start - 1, 0) :][:most]
                wanted = [b"ok %d" % len(part), *part] if start else [b"no BadLine"]
                found = client.ask(b"journal %d %d" % (start, most))
                check(f"{count} commands from {start} on, {most} at most", found == wanted, repr(found[:3]))


def check_no_answers(mountctl):
    """What is no answer is printed in no part, and a refusal as it came."""
    for answer, wanted in NO_ANSWERS:
        with Door() as door, concurrent.futures.ThreadPoolExecutor(1) as pool:
            running = pool.submit(run, mountctl, b"", door.path, "save")
            sent = door.answers(answer)
            check("what a save asks", sent == b"journal 1 1024\n", shown(sent))
            ended = wanted or (3, b"", connection_fault(door.path))
            check(f"a save, and {answer!r}", running.result() == ended, repr(running.result()))
    with Door() as door, concurrent.futures.ThreadPoolExecutor(1) as pool:
        running = pool.submit(run, mountctl, b"", door.path, "page", "--journal")
        door.answers(b"no NoMemory\n")
        check("a page of a refused journal", running.result() == (1, b"", b"mountctl: no NoMemory\n"), repr(running.result()))


def check_words(mountctl):
    """Words that do not belong there, and no server."""
    environment = {name: value for name, value in os.environ.items() if name != "MOUNTD_SOCKET"}
    for words, complaint in (
        (["none", "save", "all"], b"mountctl: save takes no words\n"),
        (["none", "page", "--journal", "a", "b"], b"mountctl: page takes --journal and a title, or one of them, or no words; where it has no socket also --room\n"),
        (["page", "--journal"], b"mountctl: no SOCKET, and MOUNTD_SOCKET is not set\n"),
    ):
        found = run(mountctl, b"", *words, environment=environment)
        check(f"mountctl {' '.join(words)}", found == (2, b"", complaint), repr(found))
    with tempfile.TemporaryDirectory() as folder:
        path = os.path.join(folder, "none")
        for words in ["save"], ["page", "--journal"]:
            found = run(mountctl, b"", path, *words)
            check(f"{' '.join(words)} of no server", found == (3, b"", connection_fault(path, "no such file or directory")), repr(found))


def check_saves(program, mountctl):
    """Sessions that are saved."""
    assert len(LONG[-1]) <= LINE
    count = sum(check_world(program, mountctl, f"the world of case {name}", world_of(cases.load(name))[0]) for name in cases.names())
    for name, lines in ("odd names", ODD), ("tabs", LONG), ("wordy lines", WORDY):
        count += check_world(program, mountctl, name, lines)
    check("commands of saved sessions", count > 0)
    print(f"{count} commands of saved sessions", flush=True)
    check_portions(program, mountctl)
    check_no_answers(mountctl)
    check_words(mountctl)
