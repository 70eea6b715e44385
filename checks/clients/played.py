"""What `mountctl page` prints: the data of a session in the template. A module, a part of server.py.

The data are made here as well, of what a plain session answers and what a watcher is told, by what mountctl(1) says of them.
"""
import concurrent.futures
import contextlib
import json
import os
import random
import re
import tempfile

from clients.objects import ODD, object_of, text
from harness.protocol import posts_in, row_of, tables_in, word_of
from harness.runs import TOP, Served, check, connection_fault, read, run, shown
from harness.scripts import Author
from harness.servers import START, Door, Server
from sessions import cases

# The pages of docs/pages: the session of each beside it, and its title.
PAGES = {
    "bubblewrap": "A sandbox, as bwrap makes it",
    "leak": "A container that takes away the host's terminals",
    "namespaces": "Three namespaces",
}
TEMPLATE = "docs", "pages", "template.html"

# How many random sessions are compared.
SESSIONS = 20

# How many namespaces there are on a page that has more than posts are taken at once.
SPACES = 1_100

ENDS = b"quit", b"stop"
OWN = b"watch", b"take", b"follow", b"close"

OWN_SAID = b"mountctl: line %d: a page has a watcher of its own\n"

NAMED = re.compile(rb"# namespace (0|[1-9]\d*) is (.+)|# table (\S+) is namespace (0|[1-9]\d*)")


def name_in(line):
    """What a comment calls a namespace, behind its number."""
    found = NAMED.fullmatch(line)
    if not found or not (found[2] or found[3]):
        return None
    number, name = (found[1], found[2]) if found[2] else (found[4], b"table " + found[3])
    return text(number), text(name)


def parted(session):
    """The lines of a session that are sent, each with its note, the names of namespaces, and the note behind them."""
    steps, names, note = [], {}, b""
    for line in session.split(b"\n")[:-1]:
        if line in ENDS:
            break
        if line and not line.startswith(b"#"):
            steps.append((line, note))
            note = b""
        elif named := name_in(line):
            names[named[0]] = named[1]
        else:
            said = line.removeprefix(b"#").removeprefix(b" ") if line.startswith(b"#") else line
            is_new = note in (b"",) or note.endswith(b"\n")
            note += (b"" if is_new else b" ") + said if said else b"" if is_new else b"\n"
    return steps, names, note


def event_of(space, change, rows):
    """The object of a change in a namespace, whose rows it changes."""
    mark, said = change.split(b" ", 1)
    if mark == b"-":
        return {"event": "umount", "namespace": space, **object_of(rows.pop(int(said)))}
    row = row_of(said)
    before = rows.get(row.id)
    rows[row.id] = row
    if before is None:
        return {"event": "mount", "namespace": space, **object_of(row)}
    moved = (before.point, before.parent) != (row.point, row.parent)
    event = "move" if moved else "remount" if before.options != row.options else "change"
    return {"event": event, "namespace": space, **object_of(row), "old": object_of(before)}


def sentence_of(mountctl, answer):
    """What `explain` says first of a refusal."""
    return shown(run(mountctl, b"", "explain", shown(answer[3:]))[1]).split("\n")[0].partition(": ")[2]


def data_of(program, mountctl, session, before=()):
    """The data of the page of a session, which finds what these lines have made."""
    steps, names, end = parted(session)
    with contextlib.closing(Served(program)) as server:
        server.ask(*before)
        [[_, *found]] = server.ask(b"watch all")
        tables = {head.space: {row.id: row for row in map(row_of, rows)} for head, rows in tables_in(found)}
        opening = [{"namespace": space, "filesystems": [*map(object_of, rows.values())]} for space, rows in tables.items()]
        told = []
        for line, note in steps:
            [[answer, *_], [_, *posts]] = server.ask(line, b"take 1024")
            events = [event_of(head.space, change, tables.setdefault(head.space, {})) for head, changes in posts_in(posts) for change in changes]
            step = {"line": text(line), "answer": text(answer), "posts": events}
            if note:
                step["note"] = text(note)
            if answer.startswith(b"no "):
                step["reason"] = sentence_of(mountctl, answer)
            told.append(step)
    if end:
        told.append({"line": "", "answer": "", "note": text(end), "posts": []})
    return {"opening": opening, "steps": told, "names": names}


def data_in(page):
    """The data of a page."""
    front, behind = read(*TEMPLATE).split(b"@SESSION@")
    good = page.startswith(front) and page.endswith(behind) and b"<" not in page[len(front) : len(page) - len(behind)]
    return json.loads(page[len(front) : len(page) - len(behind)]) if good else None


def printed_page(mountctl, session, *words, environment=None):
    """The page of a session, without a server."""
    return run(mountctl, session, "page", *words, environment=environment)


def differing(wanted, found):
    """What differs of two data: the first of their members, and the first step among these."""
    for key in {**wanted, **found}:
        if wanted.get(key) != found.get(key):
            steps = [pair for pair in zip(wanted["steps"], found["steps"]) if pair[0] != pair[1]]
            return f"{key}: wanted {steps[0][0]}\nfound  {steps[0][1]}" if steps else f"wanted {wanted.get(key)}\nfound  {found.get(key)}"
    return ""


def compare(name, found, wanted):
    """A page is that of these data: how many changes it has."""
    status, page, complaint = found
    data = data_in(page)
    check(f"{name}: how it ends", (status, complaint) == (0, b""), f"{status}, {shown(complaint)}")
    check(f"{name}: the page", data == wanted, differing(wanted, data) if data else "its template is another one, or < stands in its data")
    return sum(len(step["posts"]) for step in wanted["steps"])


def random_session(program, seed):
    """A session of an author who sees the tables."""
    author, lines, spaces = Author(random.Random(f"page {seed}")), [], {}
    with contextlib.closing(Served(program)) as server:
        while (line := author.next_line(spaces)) is not None:
            server.ask(line)
            lines.append(line)
            found = server.ask(*(b"show %d" % space for space in range(1, 9)))
            spaces = {space: [*map(row_of, rows)] for space, [first, *rows] in enumerate(found, 1) if first.startswith(b"ok")}
    return b"".join(line + b"\n" for line in lines)


def case_session(name):
    """The lines of a case, but for those of its watcher."""
    lines = [line for turn in cases.load(name).turns for line in [turn.sent()]]
    return b"".join(line for line in lines if word_of(line.rstrip(b"\n")) not in OWN and line.endswith(b"\n"))


def check_random(program, mountctl):
    """Random sessions, without a server and with one that has made something before."""
    count = 0
    for seed in range(SESSIONS):
        session = random_session(program, seed)
        count += compare(f"random session {seed}", printed_page(mountctl, session), data_of(program, mountctl, session))
    check("changes of random sessions", count > 0)
    print(f"{count} changes of {SESSIONS} random sessions on pages", flush=True)


def check_served(program, mountctl):
    """Pages of a server: what was there before, without a line, with lines, and with a title."""
    for session, words in (b"", []), (b"mount 1 d /m\nshow 2\nmount 9 d /m\n", []), (b"umount 1 /m\n# end\n", ["A title <b>"]):
        with Server(program) as server, server.client() as client:
            for line in [*START, b"mount 1 d /n"]:
                client.ask(line)
            wanted = data_of(program, mountctl, session, [*START, b"mount 1 d /n"])
            wanted |= {"title": words[0]} if words else {}
            compare(f"a page of a server, {shown(session)}", run(mountctl, session, server.path, "page", *words), wanted)


def check_odd(program, mountctl):
    """Names of every kind, comments, lines that are too long or have no end, and an end that is not sent."""
    odd = b"".join(line + b"\n" for line in ODD)
    hard = b"# namespace 1 is </script><b>\n# table 2 is namespace 3\n# namespace 01 is none\n#\n# a\n#b\n\n\n# c\nnewns a\n" + b"#" * 9 + b"\nquit now\nquit\nmkfs a b c\n"
    for name, session in ("odd names", odd), ("comments", hard), ("nothing", b""), ("a comment alone", b"# end\n"):
        compare(name, printed_page(mountctl, session), data_of(program, mountctl, session))
    status, page, complaint = printed_page(mountctl, b"x" * 8_193 + b"\nmkfs a b c\nnewns")
    found = [(step["line"], step["answer"], "reason" in step) for step in (data_in(page) or {"steps": []})["steps"]]
    wanted = [("", "no TooLong", True), ("mkfs a b c", "ok 1", False), ("", "no BadLine", True)]
    check("lines that are not sent", (status, complaint, found) == (0, b"", wanted), repr(found))
    environment = dict(os.environ, MOUNTD_SOCKET="/nowhere")
    compare("a page without a server, whatever the environment names", printed_page(mountctl, b"", environment=environment), data_of(program, mountctl, b""))


def check_refused(program, mountctl):
    """Lines about a watcher, too many words, a server that is not there, refuses, is stopped or has lost posts: no page."""
    for word in OWN:
        found = printed_page(mountctl, b"mkfs a b c\n%b 1\nnewns a\n" % word)
        check(f"a page with {shown(word)}", found == (2, b"", OWN_SAID % 2), repr(found))
    found = printed_page(mountctl, b"", "a", "b")
    check("a page with two titles", found == (2, b"", b"mountctl: page takes --journal and a title, or one of them, or no words; where it has no socket also --room\n"), repr(found))
    with tempfile.TemporaryDirectory() as folder:
        path = os.path.join(folder, "none")
        found = run(mountctl, b"", path, "page")
        check("a page of no server", found == (3, b"", connection_fault(path, "no such file or directory")), repr(found))
    for text_of_door, wanted in (
        (b"no TooManyWatchers\n", (1, b"", b"mountctl: no TooManyWatchers\n")),
        (b"ok 0\nok 1\nok 0\nno Lagged\n", (3, b"", b"mountctl: %b: changes were lost\n")),
        (b"ok 0\nok 1\nno Stopped\n", (3, b"", b"mountctl: %b: changes were lost\n")),
        (b"ok 0\nok 1\n", (3, b"", b"mountctl: connection fault: %b: no whole answer\n")),
    ):
        with Door() as door, concurrent.futures.ThreadPoolExecutor(1) as pool:
            running = pool.submit(run, mountctl, b"mkfs a b c\n", door.path, "page")
            door.answers(text_of_door)
            path = door.path.encode()
            said = wanted[2] % path if b"%b" in wanted[2] else wanted[2]
            check(f"a page, and {shown(text_of_door)}", running.result() == (*wanted[:2], said), repr(running.result()))


def check_lag(program, mountctl):
    """A queue that is too short for what a line posts."""
    session = b"".join(line + b"\n" for line in [*START, b"mount 1 d /m"])
    with Server(program, "--queue", "1") as server:
        found = run(mountctl, session, server.path, "page")
        said = b"mountctl: %b: changes were lost\n" % server.path.encode()
        check("a page whose watcher lags", found == (3, b"", said), repr(found))


def check_crowded(mountctl):
    """A line that changes more namespaces than posts are taken at once is told whole, and the one behind it has none of that."""
    session = b"mkfs a tmpfs none\nnewns a\nsetattr 1 / prop=shared\nmkdir a /m\n" + b"copyns 1\n" * (SPACES - 1) + b"mount 1 a /m\nmkdir a /n\n"
    status, page, complaint = printed_page(mountctl, session, "--room", "18")
    counts = [len(step["posts"]) for step in (data_in(page) or {"steps": []})["steps"][-2:]]
    check("a page of more namespaces than posts are taken at once", (status, complaint, counts) == (0, b"", [SPACES, 0]), f"{status} {shown(complaint)} {counts}")
    for words in ["--room", "0"], ["--room", "257"], ["--room", "x"], ["--room"], ["--room", "2", "--room", "2"]:
        found = printed_page(mountctl, b"", *words)
        check(f"a page with {' '.join(words)}", found == (2, b"", b"mountctl: a room is given once, as --room 2, from 1 to 256\n"), repr(found))


def stored_page(mountctl, name):
    """The page that docs/pages has of a session, as it is printed now."""
    return printed_page(mountctl, read("docs", "pages", f"{name}.session"), PAGES[name])[1]


def check_stored(program, mountctl):
    """The pages of docs/pages are printed so, and each has a session."""
    there = sorted(name.removesuffix(".html") for name in os.listdir(os.path.join(TOP, "docs", "pages")) if name.endswith(".html"))
    check("the pages of docs/pages", there == sorted([*PAGES, "template"]), " ".join(there))
    for name in PAGES:
        stored = read("docs", "pages", f"{name}.html")
        check(f"docs/pages/{name}.html", stored == stored_page(mountctl, name), "checks/browser.py MOUNTD MOUNTCTL --update prints it")
        wanted = data_of(program, mountctl, read("docs", "pages", f"{name}.session"))
        compare(f"docs/pages/{name}.html", (0, stored, b""), wanted | {"title": PAGES[name]})


def check_played(program, mountctl):
    """Pages, without a server and with one."""
    check_random(program, mountctl)
    for name in "bubblewrap", "runc", "five-masters", "escapes-in-every-field":
        session = case_session(name)
        compare(f"case {name}", printed_page(mountctl, session), data_of(program, mountctl, session))
    check_served(program, mountctl)
    check_odd(program, mountctl)
    check_refused(program, mountctl)
    check_lag(program, mountctl)
    check_crowded(mountctl)
    check_stored(program, mountctl)
