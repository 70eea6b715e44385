"""What the other program prints as JSON, and when: a module, a part of server.py.

Each object is written here as well, of the rows that `show` answers, by what mountctl(1) says of them. Where findmnt(8) is there,
it finds the same fields in the same rows. The texts are read by the reader of Python.
"""
import collections
import concurrent.futures
import datetime
import json
import os
import random
import select
import shutil
import subprocess
import tempfile

from clients.monitor import ON_ITS_WAY, TRIED
from clients.pictures import LARGE, tables_of, world_of
from harness.protocol import row_of, unescaped
from harness.runs import MOST_SECONDS, check, run, shown
from harness.scripts import Author
from harness.servers import START, Door, Server
from sessions import cases

# How many random worlds are looked at, and up to which number their namespaces.
WORLDS = 20
MOST_NUMBER = 32

# How many generations of mounts stand within each other below a top one.
MOST_GENERATIONS = 100

# As deep as readers of JSON that stop early go, objects and arrays.
MOST_DEPTH = 256

# The columns of findmnt that an object of a mount has under the same name.
COLUMNS = "id", "parent", "maj:min", "fsroot", "target", "options", "propagation", "fstype", "source"

# The members that are groups, by their tags.
GROUPS = b"shared", b"master", b"propagate_from"

# A filesystem, directories and mounts with names of every kind.
ODD_NAMES = (
    *(b'q"uote', b"back\\134slash", b"a\\040space\\011tab", b"new\\012line", b"\x01\x1f\x7f\xc2\x80", "é語😀".encode()),
    *(b"\xff\xfe", b"\xe8\xaa", b"a\xf0\x9f\x98z", b"\xed\xa0\x80", b"<&>"),
)
ODD = [
    b'mkfs a"\xff t\\040y\\134"pe\xfe /dev/\xc3\xa9\\012"',
    *[b'mkdir a"\xff /%b' % name for name in ODD_NAMES],
    b'newns a"\xff',
    *[b'bind 1 /%b /%b' % (name, name) for name in ODD_NAMES],
]

# What somebody else does, and the events of namespace 1 that a monitor tells of it, each with its mount.
CHANGES = (
    (b"mount 1 d /m", [("mount", 3)]),
    (b"setattr 1 /m set=ro,noatime clr=atime", [("remount", 3)]),
    (b"setattr 1 /m prop=slave", [("change", 3)]),
    (b"setattr 1 / prop=private", [("change", 1)]),
    (b"setattr 1 /m set=nosuid prop=private", [("remount", 3)]),
    (b"mount 1 d /m", [("mount", 5)]),
    (b"move 1 /m /n", [("move", 5)]),
    (b"mount 1 a /n", [("mount", 6)]),
    (b"detach 1 /n", [("umount", 6)]),
    (b"umount 1 /n", [("umount", 5)]),
)


def text(name):
    """Bytes as JSON has them: what is no UTF-8 is U+FFFD."""
    return name.decode("utf-8", "replace")


def object_of(row):
    """The object of a mount."""
    tags = dict(row.numbered())
    words = [b"shared" if b"shared" in tags else b"private", *[b"slave"] * (b"master" in tags), *[b"unbindable"] * (b"unbindable" in tags)]
    root = unescaped(row.root)
    return {
        "id": row.id,
        "parent": row.parent,
        "target": text(unescaped(row.point)),
        "source": text(unescaped(row.source) + (b"[" + root + b"]" if root != b"/" else b"")),
        "fstype": text(unescaped(row.kind)),
        "options": text(row.options),
        "propagation": text(b",".join(words)),
        "fsroot": text(root),
        "maj:min": text(row.device),
        **{text(name): tags[name] for name in GROUPS if name in tags},
    }


def nested(rows):
    """The objects of rows, each within that of its parent, but for those that are too deep, in the order of a tree."""
    objects, below, tops, deep = {row.id: object_of(row) for row in rows}, collections.defaultdict(list), [], []
    for row in rows:
        is_top = row.parent == row.id or row.parent not in objects
        (tops if is_top else below[row.parent]).append(objects[row.id])
    left = [(one, 0) for one in reversed(tops)]
    while left:
        one, above = left.pop()
        children = below[one["id"]]
        left += [(child, above + 1) for child in reversed(children)]
        if above > MOST_GENERATIONS:
            deep.append(one)
        elif children and above < MOST_GENERATIONS:
            one["children"] = children
    return tops + deep


def asked(mountctl, path, *words):
    """The objects that these words print, a line each, and how the program ends."""
    status, found, complaint = run(mountctl, b"", path, *words)
    return status, [json.loads(line) for line in found.decode("utf-8").splitlines()], complaint


def found_by_findmnt(rows):
    """The objects that findmnt makes of rows, with the bytes that are no UTF-8 in the same way."""
    with tempfile.NamedTemporaryFile() as file:
        file.write(b"".join(row + b"\n" for row in rows))
        file.flush()
        words = ["findmnt", "--json", "--list", "--tab-file", file.name, "--output", ",".join(COLUMNS)]
        done = subprocess.run(words, capture_output=True, timeout=MOST_SECONDS, check=True)
    return json.loads(text(done.stdout))["filesystems"]


def columns_of(mount):
    """The members of an object that findmnt has too."""
    return {name: mount[name] for name in COLUMNS}


def check_world(name, mountctl, path, tables, rows):
    """The objects of a world: each namespace flat and nested, and all nested."""
    trees = []
    for space, mounts in tables.items():
        flat, tree = ({"namespace": space, "filesystems": all_of} for all_of in ([*map(object_of, mounts)], nested(mounts)))
        trees.append(tree)
        for words, wanted in (["show", str(space), "--json"], flat), (["tree", str(space), "--json"], tree):
            found = asked(mountctl, path, *words)
            check(f"{name}: {words}", found == (0, [wanted], b""), f"wanted {wanted}\nfound  {found}")
        if shutil.which("findmnt") and rows[space]:
            wanted, found = [columns_of(mount) for mount in flat["filesystems"]], found_by_findmnt(rows[space])
            check(f"{name}: findmnt on namespace {space}", found == wanted, f"wanted {wanted}\nfound  {found}")
    found = asked(mountctl, path, "tree", "--json", "all")
    check(f"{name}: tree --json all", found == (0, trees, b""), f"wanted {trees}\nfound  {found}")


def rows_of(client, tables):
    """The rows of each namespace, as they are shown."""
    return {space: client.ask(b"show %d" % space)[1:] for space in tables}


def check_places(name, mountctl, server, client, tables):
    """The mount at each mount point, beside what the line answers."""
    for space, mounts in tables.items():
        objects = {mount.id: object_of(mount) for mount in mounts}
        for point in {mount.point for mount in mounts}:
            answer = client.ask(b"find %d %b" % (space, point))[0].split(b" ")
            try:
                path = unescaped(point).decode()
            except UnicodeDecodeError:
                continue
            found = asked(mountctl, server.path, "find", str(space), path, "--json")
            wanted = (1, [{"refusal": text(answer[1])}], b"")
            if answer[0] == b"ok":
                place = {"namespace": space, "directory": text(unescaped(answer[2])), "filesystems": [objects[int(answer[1])]]}
                wanted = (0, [place], b"")
            check(f"{name}: find {space} {shown(point)} --json", found == wanted, f"wanted {wanted}\nfound  {found}")


def look_at(name, program, mountctl, lines, spaces, places=True, arguments=()):
    """Makes a world, and looks at its objects. How many mounts it has."""
    with Server(program, *arguments) as server, server.client() as client:
        for line in lines:
            client.ask(line)
        tables = tables_of(client, spaces)
        check_world(name, mountctl, server.path, tables, rows_of(client, tables))
        if places:
            check_places(name, mountctl, server, client, tables)
        return sum(map(len, tables.values()))


def check_cases(program, mountctl):
    """The world that each case leaves."""
    mounts = 0
    for name in cases.names():
        case = cases.load(name)
        lines, spaces = world_of(case)
        if len(lines) < 300:
            mounts += look_at(f"case {name}", program, mountctl, lines, spaces, False, case.arguments)
    check("mounts of cases are objects", mounts > 0)
    print(f"{mounts} mounts of cases as JSON", flush=True)


def check_random(program, mountctl):
    """Random worlds, of the scripts of an author who is told what is there."""
    mounts = 0
    for seed in range(WORLDS):
        author, lines, tables = Author(random.Random(seed)), [], {}
        with Server(program) as server, server.client() as client:
            while (line := author.next_line(tables)) is not None:
                client.ask(line)
                lines.append(line)
                tables = tables_of(client, MOST_NUMBER)
        mounts += look_at(f"random world {seed}", program, mountctl, lines, MOST_NUMBER, seed < 3)
    check("mounts of random worlds are objects", mounts > 0)
    print(f"{mounts} mounts of {WORLDS} random worlds as JSON", flush=True)


def check_odd(program, mountctl):
    """Names of every kind, a deep stack of mounts, and no namespace at all."""
    mounts = look_at("odd names", program, mountctl, ODD, 1)
    check("mounts of odd names", mounts == len(ODD_NAMES) + 1, str(mounts))
    look_at("no namespace", program, mountctl, [], 1)
    look_at("a large world", program, mountctl, LARGE, 1, False)
    for words in ["show", "9", "--json"], ["tree", "9", "--json"], ["find", "9", "/", "--json"], ["monitor", "9", "--json"]:
        with Server(program) as server:
            found = asked(mountctl, server.path, *words)
            check(f"{words} without a namespace", found == (1, [{"refusal": "NoNamespace"}], b""), repr(found))


def depth_of(line):
    """How deep the objects and arrays of a text of JSON without such characters in its names are."""
    depth = most = 0
    for one in line:
        depth += (one in b"{[") - (one in b"}]")
        most = max(most, depth)
    return most


def check_deep(mountctl):
    """Mounts that stand on each other, up to as many as there may be: each is there once, no deeper than readers go."""
    for count in MOST_GENERATIONS + 1, MOST_GENERATIONS + 2, 4_096:
        rows = [b"%d %d 0:1 / %b rw,relatime - tmpfs none rw" % (at, max(1, at - 1), b"/m" if at > 1 else b"/") for at in range(1, count + 1)]
        text = b"\n".join([b"ok %d" % (count + 1), b"space 1 0 %d" % count, *rows, b""])
        with Door() as door, concurrent.futures.ThreadPoolExecutor(1) as pool:
            running = pool.submit(run, mountctl, b"", door.path, "tree", "--json")
            door.answers(text)
            status, found, complaint = running.result()
        wanted = [{"namespace": 1, "filesystems": nested([*map(row_of, rows)])}]
        good = (status, complaint) == (0, b"") and depth_of(found) < MOST_DEPTH and [*map(json.loads, found.splitlines())] == wanted
        check(f"{count} mounts on each other as JSON", good, found[:300].decode())


def check_moved(mountctl):
    """A mount that makes way stands on another mount then, at the same path: it has moved."""
    rows = [b"1 1 0:1 / / rw,relatime - tmpfs none rw", b"2 1 0:2 / /m rw,relatime - ext4 d rw"]
    after = [b"2 3 0:2 / /m ro,relatime - ext4 d rw", b"3 1 0:2 / /m rw,relatime - ext4 d rw"]
    text = b"\n".join([b"ok 3", b"space 1 0 2", *rows, b"event 1 1 2", *(b"= " + row for row in after), b"no Stopped", b""])
    with Door() as door, concurrent.futures.ThreadPoolExecutor(1) as pool:
        running = pool.submit(run, mountctl, b"", door.path, "monitor", "1", "--json")
        door.answers(text)
        status, found, complaint = running.result()
    old, moved, new = map(object_of, map(row_of, [rows[1], *after]))
    wanted = [{"event": "move", "namespace": 1, "old": old, **moved}, {"event": "mount", "namespace": 1, **new}, {"refusal": "Stopped"}]
    check("a mount on another parent", (status, [*map(json.loads, found.splitlines())], complaint) == (1, wanted, b""), repr(found))


def is_within(time, begun, ended):
    """Whether a time is one of RFC 3339, in UTC, between two others."""
    told = datetime.datetime.fromisoformat(time.replace("Z", "+00:00"))
    return time.endswith("Z") and begun <= told <= ended


def now():
    """The time, to a thousandth of a second."""
    time = datetime.datetime.now(datetime.timezone.utc)
    return time.replace(microsecond=time.microsecond // 1000 * 1000)


def table_of(client):
    """The objects of namespace 1, by their mounts."""
    return {row.id: object_of(row) for row in map(row_of, client.ask(b"show 1")[1:])}


def wanted_event(event, mount, before, after):
    """The object of an event of a mount."""
    told = {"event": event, "namespace": 1, **(after if mount in after else before)[mount]}
    return {**told, "old": before[mount]} if mount in before and mount in after else told


def until_it_tells(client, output):
    """Makes changes until a monitor tells them, and one more, which it tells last."""
    for tries in range(int(MOST_SECONDS / ON_ITS_WAY)):
        client.ask(TRIED[tries % 2])
        if select.select([output], [], [], ON_ITS_WAY)[0]:
            break
    client.ask(b"setattr 1 / set=noexec")
    while b"noexec" not in (found := output.readline()) and found:
        pass
    check("a monitor tells what it was made to", found != b"")


def check_events(program, mountctl, options):
    """What a monitor tells of each change, and when."""
    is_json, is_timed = "--json" in options, "--time" in options
    with Server(program) as server, server.client() as client:
        for line in START:
            client.ask(line)
        words = [mountctl, server.path, "monitor", "1", *options]
        with subprocess.Popen(words, bufsize=0, stdout=subprocess.PIPE, stderr=subprocess.PIPE) as monitor:
            until_it_tells(client, monitor.stdout)
            before, start = table_of(client), now()
            for line, events in CHANGES:
                answer = client.ask(line)
                after = table_of(client)
                for event, mount in events:
                    found = monitor.stdout.readline().decode("utf-8")
                    time, found = read_event(found, is_json, is_timed)
                    check(f"the time of {shown(line)}", time is None or is_within(time, start, now()), repr(time))
                    if is_json:
                        wanted = wanted_event(event, mount, before, after)
                        check(f"{options} of {shown(line)}", (answer[0][:2], found) == (b"ok", wanted), f"{answer}\nwanted {wanted}\nfound  {found}")
                    else:
                        check(f"{options} of {shown(line)}", found[:1] in "+-~" and f" {mount} " in found, f"{answer}, {found!r}")
                before = after
            client.ask(b"stop")
            ended, complaint = monitor.communicate(timeout=MOST_SECONDS)
        time, last = read_event(ended.decode("utf-8"), is_json, is_timed)
        check(f"{options}: the end", (last, complaint, monitor.returncode) == ({"refusal": "Stopped"} if is_json else "no Stopped\n", b"", 1), f"{ended}")
        check(f"{options}: the time of the end", time is None or is_within(time, start, now()), repr(time))


def read_event(line, is_json, is_timed):
    """The time of a line, if it has one, and the rest of it."""
    if is_json:
        found = json.loads(line)
        return found.pop("time") if is_timed else None, found
    return line.split(" ", 1) if is_timed else (None, line)


def check_objects(program, mountctl):
    """Tables, places and events as JSON."""
    check("findmnt is there, as CI needs it", shutil.which("findmnt") is not None or "CI" not in os.environ)
    check_cases(program, mountctl)
    check_random(program, mountctl)
    check_odd(program, mountctl)
    check_deep(mountctl)
    check_moved(mountctl)
    for options in ["--json"], ["--time"], ["--json", "--time"], ["--time", "--json"]:
        check_events(program, mountctl, options)
