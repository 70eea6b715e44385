"""What `mountctl trace` plays of recorded runs of container runtimes. A module, a part of server.py.

Each file of checks/traces is a run that strace has recorded: the tables before, the trace, and the tables that the running kernel had at
the end. What is played leads to the same tables up to numbers: mounts by the mount and the directory at which they stand, with one
bijection each of peer groups and of devices over all tables of a run. Of a mount of control groups its directory, and of one of version 2
its source, are not in a trace, and of the file of a namespace its directory and its device are its own.
"""
import collections
import os
import re
import tempfile
from typing import NamedTuple

from harness.runs import TOP, answer_groups, check, run, shown

FOLDER = os.path.join(TOP, "checks", "traces")

SECTION = re.compile(rb"^== (.*)\n", re.M)
PROCESS = re.compile(rb"# process (\d+) in namespace (\d+) root (\d+) (\S+)$")
SPACE = re.compile(rb"# namespace (\d+) \(")
TALLY = re.compile(rb"played: (\d+); not played: (\d+); failed: (\d+); changes elsewhere: (\d+); bad lines: (\d+)")

# Inputs that are no traces, or not whole, and what is said of them.
MISFITS = (
    (b"type=SYSCALL msg=audit(1.2:3): syscall=165\n", b"line 1: a line of the audit system, which has no sources: record with strace -f -y"),
    (b"( 0.1 ms): runc/1 mount(dev_name: 0x55) = 0\n", b"line 1: a line of perf trace, which has no paths: record with strace -f -y"),
    (b"7 mount(\"none\", \"/\0\", NULL, 0, NULL) = 0\n", b"line 1: no text: it has a byte 0"),
    (b"runc: done\n", b"line 1: no line of strace"),
    (b"7 umount2(\"/mnt\"\n", b"line 1: cut off: the end of the call is missing"),
    (b"7 umount2(\"/mnt\", 0) = 0", b"line 1: the last line has no end"),
    (b"7 <... umount2 resumed>) = 0\n", b"line 1: the end of a call that has not begun"),
    (b"7 umount2(\"/mnt\", 0 <unfinished ...>\n", b"process 7: unfinished at the end: umount2(\"/mnt\", 0"),
    (b"7 close(%s) = 0\n" % (b"1" * 70_000), b"line 1: longer than 65,536 bytes"),
    (b"7 close(%s) = 0\n" % (b"1" * 3_000_000), b"line 1: no line end within a mebibyte: no text, and the reading ends"),
)

# Calls that are not played, and why.
UNPLAYED = (
    (b'mount("none", "/mn"..., "tmpfs", 0, NULL) = 0', b"not played: a path is cut off: record with strace -s 4096"),
    (b'mount("none", "/mnt", "tmpfs", 0x40000000, NULL) = 0', b"not played: a flag that is not known"),
    (b"umount2(0x7ffc, 0) = 0", b"not played: strace tells the address of a path alone"),
    (b"setns(5, CLONE_NEWNS) = 0", b"not played: a namespace that is not known"),
    (b'mount("none", "/proc/self/fd/9", "tmpfs", 0, NULL) = 0', b"not played: it is not known what a descriptor leads to"),
    (b'umount2("/nowhere", 0) = -1 EINVAL (Invalid argument)', b"the model: no NotMountRoot"),
    (b'umount2("/", 0) = -1 EPERM (Operation not permitted)', b"the model has another reason: no RootPlace"),
)

# A table of one mount and one below it.
TABLE = b"""1 0 8:1 / / rw,relatime - ext4 /dev/sda1 rw
2 1 0:20 / /proc rw,relatime - proc proc rw
"""

# The runs that do not come to the same tables, and why.
OTHERWISE = {}


class Mount(NamedTuple):
    """A row of a table."""

    id: int
    parent: int
    device: bytes
    root: bytes
    point: bytes
    options: frozenset
    tags: tuple
    kind: bytes
    source: bytes


class Recording(NamedTuple):
    """A run: the tables before with their words, the tables after by namespace or process, and the trace."""

    before: list
    after: list
    trace: bytes


def unescaped(word):
    return re.sub(rb"\\([0-7]{3})", lambda found: bytes([int(found[1], 8)]), word)


def mount_of(line):
    words = line.split(b" ")
    end = words.index(b"-", 6)
    options = frozenset(words[5].split(b",")) - {b"idmapped"}
    kind, source = (unescaped(word) for word in words[end + 1 : end + 3])
    root, point = unescaped(words[3]), unescaped(words[4])
    return Mount(int(words[0]), int(words[1]), words[2], root, point, options, tuple(words[6:end]), kind, source)


def mounts_of(text):
    return [mount_of(line) for line in text.splitlines() if line and not line.startswith(b"#")]


def recording(name):
    with open(os.path.join(FOLDER, name), "rb") as file:
        pieces = SECTION.split(file.read())[1:]
    before, after, trace = [], [], b""
    for title, text in zip(pieces[::2], pieces[1::2]):
        word, *words = title.split(b" ")
        if word == b"before":
            before.append((words, text))
        elif word == b"after":
            after.append((words[0], int(words[1]), text))
        else:
            trace = text
    return Recording(before, after, trace)


class Played(NamedTuple):
    """What was played of a run: the tables at the end by namespace, where processes have their roots, and the status."""

    tables: dict
    roots: dict
    counts: tuple
    status: int
    text: bytes
    complaint: bytes


def trace(mountctl, run_recorded, *options, is_file=True):
    """Status, standard output and standard error of a recorded run that is played, from a file or from standard input."""
    with tempfile.TemporaryDirectory() as folder:
        words, tables = [], []
        for number, (title, text) in enumerate(run_recorded.before, 1):
            path = os.path.join(folder, shown(title[0]))
            with open(path, "wb") as file:
                file.write(text)
            tables.append(path)
            words += ["--ns", f"{number}={shown(title[1])}"] if title[1:] else []
        log = os.path.join(folder, "log")
        with open(log, "wb") as file:
            file.write(run_recorded.trace)
        text, where = (b"", log) if is_file else (run_recorded.trace, "-")
        return run(mountctl, text, "trace", *options, *words, *tables, "--", where)


def play(mountctl, run_recorded):
    """Plays a recorded run."""
    return played_of(*trace(mountctl, run_recorded, "--tables"))


def played_of(status, text, complaint):
    tables, roots, space = {}, {}, None
    found = TALLY.search(text)
    for line in text[found.end() if found else len(text) :].splitlines():
        if begun := SPACE.match(line):
            space = int(begun[1])
            tables[space] = []
        elif root := PROCESS.match(line):
            roots[int(root[1])] = int(root[2]), int(root[3]), unescaped(root[4])
        elif line and space is not None:
            tables[space].append(mount_of(line))
    return Played(tables, roots, found and tuple(map(int, found.groups())), status, text, complaint)


def names(path):
    return [name for name in path.split(b"/") if name]


def place_of(parent, mount):
    """The directory of the parent's filesystem at which a mount stands."""
    return tuple(names(parent.root) + names(mount.point)[len(names(parent.point)) :])


def seen_from(mounts, root, directory):
    """The mounts that a process sees whose root is a directory of one of them, with their mount points from there."""
    by_id = {mount.id: mount for mount in mounts}
    base, above = by_id[root], names(directory)
    children = collections.defaultdict(list)
    for mount in mounts:
        if mount.parent in by_id and mount.parent != mount.id:
            children[mount.parent].append(mount)
    front = len(names(base.point)) + len(above) - len(names(base.root))
    found, left = [base] if above == names(base.root) else [], [base]
    while left:
        parent = left.pop()
        for mount in children[parent.id]:
            if parent is not base or place_of(parent, mount)[: len(above)] == tuple(above):
                found.append(mount)
                left.append(mount)
    return [mount._replace(point=b"/" + b"/".join(names(mount.point)[front:])) for mount in found]


class Bijection:
    """Numbers and their partners."""

    def __init__(self):
        self.there, self.back = {}, {}

    def fits(self, one, another):
        return self.there.setdefault(one, another) == another and self.back.setdefault(another, one) == one


class Comparison:
    """The tables of a run beside those that were played."""

    def __init__(self):
        self.groups, self.devices, self.found = Bijection(), Bijection(), []

    def compare(self, where, real, played):
        self.pair(where, *tops(real), *tops(played))

    def pair(self, where, real, below, played, under):
        partners = collections.defaultdict(lambda: ([], []))
        for side, mounts in enumerate((real, played)):
            for mount in mounts:
                partners[mount.point][side].append(mount)
        for point, (ours, theirs) in sorted(partners.items()):
            if len(ours) != len(theirs):
                self.found.append(f"{where}: {len(ours)} mounts at {shown(point)}, and {len(theirs)} were played")
            for one, another in zip(ours, theirs):
                self.found += [f"{where}: the {what} of {shown(point)}: {one} {another}" for what in self.differing(one, another)]
                self.pair(where, below[one.id], below, under[another.id], under)

    def differing(self, real, played):
        """What of two mounts at one place differs."""
        found = [field for field in ("point", "kind", "options") if getattr(real, field) != getattr(played, field)]
        if real.root.removesuffix(b"//deleted") != played.root and real.kind not in (b"nsfs", b"cgroup", b"cgroup2"):
            found.append("root")
        if real.source.replace(b"\\043", b"#") != played.source and real.kind != b"cgroup2":
            found.append("source")
        if real.kind != b"nsfs" and not self.devices.fits(real.device, played.device):
            found.append("device")
        ours, theirs = ([tag.split(b":") for tag in mount.tags] for mount in (real, played))
        if [tag[0] for tag in ours] != [tag[0] for tag in theirs]:
            return found + ["tags"]
        fit = [self.groups.fits(one[1], another[1]) for one, another in zip(ours, theirs) if len(one) > 1]
        return found if all(fit) else found + ["groups"]


def tops(mounts):
    """The mounts of a table that stand on no other one of it, and those that stand on each."""
    ids = {mount.id for mount in mounts}
    below, found = collections.defaultdict(list), []
    for mount in mounts:
        if mount.parent in ids and mount.parent != mount.id:
            below[mount.parent].append(mount)
        else:
            found.append(mount)
    return found, below


def differences(recorded, played):
    """How the tables of a run differ from those that were played."""
    comparison = Comparison()
    for word, number, text in recorded.after:
        where = f"{shown(word)} {number}"
        if word == b"process" and number not in played.roots:
            comparison.found.append(f"{where}: it was not met")
            continue
        if word == b"process":
            space, root, directory = played.roots[number]
            mounts = played.tables.get(space, [])
            if root not in {mount.id for mount in mounts}:
                comparison.found.append(f"{where}: its root was taken away")
                continue
            comparison.compare(where, mounts_of(text), seen_from(mounts, root, directory))
        else:
            comparison.compare(where, mounts_of(text), played.tables.get(number, []))
    return comparison.found


def check_recording(mountctl, name):
    recorded = recording(name)
    played = play(mountctl, recorded)
    found = differences(recorded, played)
    told = "\n".join([*found[:8], shown(played.complaint)])
    check(f"the trace {name} leads to the tables of the kernel", bool(played.counts) and bool(found) == (name in OTHERWISE), told)
    return played, found


def check_script(mountctl, name):
    """The script of a run is accepted by a new server, and leads there to the tables that it tells at its end."""
    _, script, complaint = trace(mountctl, recording(name), "--script", "--tables")
    told, space = {}, None
    for line in script[script.rindex(b"# played: ") :].splitlines():
        if begun := SPACE.match(line.removeprefix(b"# ")):
            space = int(begun[1])
            told[space] = []
        elif space is not None and not PROCESS.match(line.removeprefix(b"# ")):
            told[space].append(line.removeprefix(b"# "))
    lines = [line for line in script.splitlines() if line and not line.startswith(b"#")]
    asked = [*lines, *(b"show %d" % space for space in told)]
    _, answers, _ = run(mountctl, b"".join(line + b"\n" for line in asked), "session")
    groups = answer_groups(answers, asked)
    refused = [line for line, group in zip(lines, groups) if not group or not group[0].startswith(b"ok")]
    shows = dict(zip(told, (group[1:] for group in groups[len(lines) :])))
    good = bool(told) and not refused and shows == told
    check(f"the script of the trace {name} leads to its tables", good, f"{refused[:3]}\n{shown(complaint)}")


def check_page(mountctl, name):
    """The page of a run is that of its script."""
    status, page, complaint = trace(mountctl, recording(name), "--page", is_file=False)
    _, script, _ = trace(mountctl, recording(name), "--script", is_file=False)
    wanted = run(mountctl, script, "page", "--room", "256")
    good = status in (0, 1) and len(page) > len(script) > 0 and (wanted[0], wanted[1]) == (0, page)
    check(f"the page of the trace {name}", good, f"{status} {len(page)} {wanted[0]} {len(wanted[1])} {shown(complaint)}")


def check_misfits(mountctl):
    """What is no line of a trace, or not whole, is told, and a call that is not played says why."""
    with tempfile.TemporaryDirectory() as folder:
        table = os.path.join(folder, "host")
        with open(table, "wb") as file:
            file.write(TABLE)
        for text, said in MISFITS:
            found = run(mountctl, text, "trace", table, "--", "-")
            good = found[0] == 1 and found[2] == b"mountctl: " + said + b"\n"
            check(f"a trace of {shown(text[:40])}", good, repr((found[0], found[1][-200:], found[2][:300])))
        for call, said in UNPLAYED:
            found = run(mountctl, b"7 " + call + b"\n", "trace", table, "--", "-")
            good = found[0] == 0 and found[1].split(b"\n")[0].endswith(b"  # " + said)
            check(f"a trace of {shown(call)}", good, repr(found))
        calls = run(mountctl, b"", "trace", "--calls")
        check("the calls of a trace", calls[0] == 0 and calls[1].startswith(b"mount,umount,umount2,"), repr(calls))
    print(f"{len(MISFITS) + len(UNPLAYED)} lines that are not played are told", flush=True)


def check_traces(_mountd, mountctl):
    check_misfits(mountctl)
    names_of_runs = sorted(os.listdir(FOLDER))
    for name in names_of_runs:
        check_recording(mountctl, name)
        check_script(mountctl, name)
    check_page(mountctl, names_of_runs[0])
    print(f"{len(names_of_runs)} recorded traces are played", flush=True)
