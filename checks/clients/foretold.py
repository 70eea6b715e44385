"""What `mountctl what-if` says with no server is what comes of its lines. A module, a part of server.py.

Random lines are asked about in the namespaces of recorded tables, one question of several lines each. A session is sent the script of an
import of these tables, the directories and filesystems that the answer takes to be there, and the same lines. Its tables are
those that were asked about with the changes of the answer, up to numbers, and what is refused is refused there too.

Then lines of mount(8) are asked about and carried out in a namespace of this machine that is made for it, with copies, where that is allowed.
"""
import contextlib
import json
import os
import random
import shutil
import subprocess
import tempfile

from clients.hosts import PRIVATE, SHARED, SLAVE, Guest
from clients.outcomes import SPACE, Numbers, Row, files_of, import_tables, row_of
from harness.runs import TOP, answer_groups, check, read, run, session, shown

# How many questions are asked about each of the recorded tables, and how many lines one has at most.
QUESTIONS, LINES = 40, 4

# How many lines of mount(8) are carried out, each round of them in namespaces of its own, which ends at so many mounts.
CARRIED_OUT, ROUND, MOST_MOUNTS = 500, 25, 1_500

TABLES = (
    *([("checks", "sessions", "containers", f"{name}.mountinfo")] for name in ("bwrap", "runc", "runc-rshared")),
    [("docs", "tables", "host"), ("docs", "tables", "container")],
)

# Refusals that no rows of tables say more of.
UNEXPLAINED = "TooMany", "NoEntry"

# A line that is refused, of the tables of a host and a container, and what is told of it.
REFUSED = "mount", "--move", "/home", "/run/h"
REFUSED_SAID = b"""1 mount --move /home /run/h
    taken to be there: directory /h of 0:26
  no SharedParent: SRC, /home stands on mount 29 at /, which is shared, in group 1
      29 / /dev/sda2 shared:1
    to change that: setattr 1 / prop=private (or prop=slave, which still gets what the others mount)
elsewhere: nothing changes in 1 other namespace
"""

# A line that takes the host's mount out of its peer group, which is the master of the container's; and a table with one more mount of
# that group, so that it stays the master.
LEFT = "mount", "--make-private", "/home"
LEFT_SAID = b"""1 mount --make-private /home
  host:
    ~ 40 /home shared:30 -> private
  container:
    ~ 311 /home master:30 -> private
    ? 311 /home keeps master:30, if group 30 has a mount in a namespace that was not read
elsewhere: 1 of 1 other namespace changes: container
"""
OTHER = [b"401 400 8:3 / / rw,relatime shared:30 - ext4 /dev/sda3 rw"]
KEPT_SAID = b"""1 mount --make-private /home
  host:
    ~ 40 /home shared:30 -> private
elsewhere: nothing changes in 2 other namespaces
"""

# A line in a namespace that the line before it has made, where each line's changes are told.
EACH = "unshare", "-m", "--", "nsenter", "-t", "new:1", "-m", "mount", "-t", "tmpfs", "none", "/media"
EACH_SAID = b"""1 unshare -m
  new:1:
    + new:1 / ext4 rw,relatime private
    + new:2 /proc proc rw,nosuid,nodev,noexec,relatime private
    + new:3 /run tmpfs rw,nosuid,nodev private
    + new:4 /home ext4 rw,relatime private
2 nsenter -t new:1 -m mount -t tmpfs none /media
    taken to be there: filesystem none
  new:1:
    + new:5 /media tmpfs rw,relatime private
elsewhere: nothing changes in 1 other namespace
"""

# Options of a row that a line sets, and the propagation that it makes.
SETS = b"set=ro", b"set=nosuid,noexec", b"clr=nodev", b"set=noatime clr=atime"
KINDS = b"shared", b"slave", b"private", b"unbindable"


def words_of(path):
    """A path of a table as an argument."""
    return path.decode("utf-8", "surrogateescape")


def random_line(source, points):
    """A line of a session, by the words of it, in one of these namespaces."""
    space = source.choice(sorted(points))
    here, there = (source.choice(points[space]) for _ in range(2))
    below = there.rstrip(b"/") + source.choice((b"", b"/x", b"/x/y")) or b"/"
    number = b"%d" % space
    return source.choice(
        (
            [b"mount", number, b"usb", below],
            [b"bind", number, here, below],
            [b"rbind", number, here, below],
            [b"move", number, here, below],
            [b"umount", number, here],
            [b"detach", number, here],
            [b"setattr", number, here, b"prop=" + source.choice(KINDS)],
            [b"setattr", number, here, b"rec", b"prop=" + source.choice(KINDS)],
            [b"setattr", number, here, *source.choice(SETS).split(b" ")],
            [b"pivot", number, here, below],
            [b"copyns", number],
        )
    )


class Answer:
    """What the program answers to lines in the namespaces of tables."""

    def __init__(self, mountctl, names, lines, *front):
        words = [word for line in lines for word in ("--", *map(words_of, line))]
        self.status, text, self.complaint = run(mountctl, b"", "what-if", "--json", *front, *names, *words)
        self.objects = [json.loads(line) for line in text.decode("utf-8", "surrogateescape").splitlines()]

    def taken(self):
        return [one["taken"].encode("utf-8", "surrogateescape") for one in self.objects if "taken" in one]

    def refusals(self):
        return [one["refusal"] for one in self.objects if "refusal" in one]

    def unexplained(self):
        """The refusals of which nothing more is told."""
        return [one["refusal"] for one in self.objects if "refusal" in one and not one.get("reason", "").startswith(one["refusal"] + ": ")]

    def changes(self, space):
        return [one for one in self.objects if one.get("namespace") == space]


def numbered_devices(tables):
    """The devices of tables, and what an answer calls their filesystems: by their order."""
    devices = dict.fromkeys(row.device for rows in tables for row in rows)
    return {device: b"0:%d" % number for number, device in enumerate(devices, 1)}


def row_told(one):
    """The row of an object."""
    root = one["fsroot"]
    source = one["source"].removesuffix(f"[{root}]") if root != "/" else one["source"]
    options = set(one["options"].split(","))
    known = {b"%b" % word.encode() for word in options - {"rw"}}
    groups = tuple(b"%d" % one[name] if name in one else None for name in ("shared", "master", "propagate_from"))
    rest = root.encode(), frozenset(known), "unbindable" in one["propagation"], one["fstype"].encode(), source.encode()
    return Row(one["id"], one["parent"], one["maj:min"].encode(), one["target"].encode(), groups, rest)


def changed(rows, objects):
    """Rows of a table after changes, each after the one that it stands on."""
    there = {row.id: row for row in rows}
    for one in objects:
        if one["event"] == "umount":
            there.pop(one["id"], None)
        else:
            there[one["id"]] = row_told(one)
    return ordered(there)


def ordered(there):
    below, found = {}, []
    for row in there.values():
        is_root = row.parent == row.id or row.parent not in there
        below.setdefault(None if is_root else row.parent, []).append(row)
    waiting = below.get(None, [])
    while waiting:
        row = waiting.pop(0)
        found.append(row)
        waiting += below.get(row.id, [])
    return found


def rooted(rows):
    """Rows of a table of this machine, each after the one that it stands on: the root mount tells a parent that is not there."""
    there = {row.id: row for row in rows}
    return ordered({row.id: row if row.parent in there else row._replace(parent=row.id) for row in rows})


def needed(taken):
    """The lines of a session that make what is taken to be there."""
    for words in (one.split(b" ") for one in taken):
        if words[0] == b"filesystem":
            yield b"mkfs %b auto %b" % (words[1], words[1])
            continue
        path = b""
        for name in words[1].split(b"/")[1:]:
            path += b"/" + name
            yield b"mkdir %b %b" % (words[3], path)


def on_server(line, spaces):
    """A line with the number that its namespace has on a server."""
    return b" ".join([line[0], b"%d" % spaces[int(line[1])], *line[2:]])


def check_question(program, mountctl, name, lines_of_tables, lines):
    """A question and its answer, beside a session that carries it out."""
    tables = [list(map(row_of, table)) for table in lines_of_tables]
    devices = numbered_devices(tables)
    rows = [[row._replace(device=devices[row.device]) for row in table] for table in tables]
    with files_of(lines_of_tables) as names:
        answer = Answer(mountctl, names, lines)
    script = import_tables(mountctl, lines_of_tables)[1].split(b"\n")[:-1]
    spaces = {int(found[1]): int(found[2]) for found in map(SPACE.match, script) if found}
    commands = [line for line in script if not line.startswith(b"#")]
    asked = [on_server(line, spaces) for line in lines]
    sent = [*commands, *needed(answer.taken()), *asked]
    shows = [b"show %d" % spaces[number] for number in range(1, len(tables) + 1)]
    groups = answer_groups(session(program, sent + shows)[1], sent + shows)
    answers = [group[0] for group in groups[len(sent) - len(asked) : len(sent)]]
    refused = [answer for answer in answers if not answer.startswith(b"ok")]
    said = shown(b"\n".join(b" ".join(line) for line in lines))
    wanted = [shown(refused[0]).removeprefix("no ")] if refused else []
    check(f"{name}: what is refused of\n{said}", answer.refusals() == wanted and answer.status == len(wanted), f"{answer.refusals()} {wanted} {answer.complaint}")
    if refused:
        # What comes after a refused line is not asked.
        check(f"{name}: why that is refused of\n{said}", set(answer.unexplained()) <= set(UNEXPLAINED), str(answer.objects))
        return
    numbers = Numbers()
    for number, (table, group) in enumerate(zip(rows, groups[len(sent) :]), 1):
        why = numbers.why_other(changed(table, answer.changes(number)), list(map(row_of, group[1:])))
        check(f"{name}: table {number} after\n{said}", why is None, str(why))


def check_said(mountctl, name, names, line, wanted):
    """All that is told of a line in the namespaces of the tables of these files."""
    status, text, complaint = run(mountctl, b"", "what-if", *names, "--", *line)
    check(name, (status, text) == wanted, f"{status} {shown(text)} {complaint}")


def check_by_hand(mountctl):
    """A refused line, and which mounts are in its way; a master that may have a mount in a table which is not there; a namespace that
    a line has made."""
    names = [os.path.join(TOP, "docs", "tables", name) for name in ("host", "container")]
    check_said(mountctl, "a refused line with its reason", names, REFUSED, (1, REFUSED_SAID))
    check_said(mountctl, "a master without a mount", names, LEFT, (0, LEFT_SAID))
    check_said(mountctl, "a line in a namespace that one before it made", [*names, "--each"], EACH, (0, EACH_SAID))
    with files_of([OTHER]) as others:
        check_said(mountctl, "a master with a mount in one more table", names + others, LEFT, (0, KEPT_SAID))


def recorded_questions(seed, count):
    """Random questions about each of the recorded tables, so many: a name, the tables, and lines of mount(8)."""
    source = random.Random(seed)
    for parts in TABLES:
        tables = [read(*part).splitlines() for part in parts]
        points = {number: [row_of(line).point for line in table] for number, table in enumerate(tables, 1)}
        for number in range(count):
            lines = [random_line(source, points) for _ in range(source.randint(1, LINES))]
            yield f"question {number} about {parts[0][-1]}", tables, lines


def check_recorded(program, mountctl):
    """Questions about recorded tables."""
    count = 0
    for count, question in enumerate(recorded_questions(83, QUESTIONS), 1):
        check_question(program, mountctl, *question)
    print(f"{count} questions about recorded tables, beside sessions", flush=True)


class Host(Guest):
    """A process in a mount namespace of its own, in which programs are run."""

    def run(self, *words):
        done = subprocess.run(words, capture_output=True, check=False)
        if done.returncode:
            raise OSError(shown(done.stderr))


def random_mount(source, folders, points):
    """A line of mount(8) or umount(8), by the words of it.

    Of several mounts at one path mount(8) merges the options of a remount into those of the last row: it is asked of one alone.
    """
    here, there = (source.choice(folders) for _ in range(2))
    alone = [folder for folder in folders if points.count(folder) == 1]
    remount = [[b"mount", b"-o", b"remount,bind," + source.choice((b"ro", b"rw", b"noexec")), source.choice(alone)]] if alone else []
    return source.choice(
        (
            *remount,
            [b"mount", b"-t", b"tmpfs", b"t%d" % source.randint(1, 10**9), there],
            [b"mount", b"--bind", here, there],
            [b"mount", b"--rbind", here, there],
            [b"mount", b"--move", here, there],
            [b"mount", b"--make-" + source.choice(KINDS), here],
            [b"mount", b"--make-r" + source.choice(KINDS), here],
            [b"mount", b"--bind", b"-o", source.choice((b"ro", b"nosuid,nodev", b"noatime")), here, there],
            [b"umount", here],
            [b"umount", b"-l", here],
        )
    )


def check_carried_out(mountctl, guests, line):
    """A line that is carried out in the first of these namespaces, and what was told of it before."""
    pids = [str(guest.process.pid) for guest in guests]
    before = [list(map(row_of, guest.lines())) for guest in guests]
    answer = Answer(mountctl, pids, [line], "--pid")
    said = shown(b" ".join(line))
    try:
        guests[0].ask("run", *map(words_of, line))
    except OSError as error:
        check(f"{said} is refused", answer.status == 1, f"{error} {answer.objects} {answer.complaint}")
        return False
    devices = numbered_devices(before)
    numbers = Numbers()
    for number, (rows, guest) in enumerate(zip(before, guests), 1):
        table = [row._replace(device=devices[row.device]) for row in rows]
        why = numbers.why_other(changed(table, answer.changes(number)), rooted(list(map(row_of, guest.lines()))))
        check(f"table {number} after {said}", why is None, f"{why} {answer.objects} {answer.complaint}")
    return True


def check_round(mountctl, source, count):
    """So many lines of mount(8) at most, in a namespace of this machine and in copies of it: how many were tried, and how many accepted."""
    with contextlib.ExitStack() as stack:
        folder = os.path.realpath(stack.enter_context(tempfile.TemporaryDirectory())).encode()
        host = stack.enter_context(Host(PRIVATE, SHARED))
        host.ask("mount", b"scratch", folder)
        folders = [folder + b"/%d" % number for number in range(6)]
        for path in folders:
            host.ask("mkdir", path)
            host.ask("run", "mount", "--bind", words_of(path), words_of(path))
        guests = [host, *(stack.enter_context(Host(*how, of=host)) for how in ((), (SLAVE,), (SLAVE, SHARED), (PRIVATE,)))]
        done = 0
        for tried in range(count):
            if sum(len(guest.lines()) for guest in guests) > MOST_MOUNTS:
                return tried, done
            points = [row_of(line).point for line in host.lines()]
            done += check_carried_out(mountctl, guests, random_mount(source, folders, points))
    return count, done


def check_machine(mountctl):
    """Lines of mount(8) in namespaces of this machine."""
    source, tried, done = random.Random(8), 0, 0
    while tried < CARRIED_OUT:
        more, accepted = check_round(mountctl, source, min(ROUND, CARRIED_OUT - tried))
        tried, done = tried + more, done + accepted
    print(f"{tried} lines of mount(8) foretold and carried out, {done} of them accepted", flush=True)


def check_foretold(program, mountctl):
    check_by_hand(mountctl)
    check_recorded(program, mountctl)
    if shutil.which("mount") is None:
        print("there is no mount(8): no line of it is carried out", flush=True)
        return
    try:
        with Guest():
            pass
    except (OSError, EOFError) as error:
        print(f"no line of mount(8) is carried out: {error}", flush=True)
        return
    check_machine(mountctl)
