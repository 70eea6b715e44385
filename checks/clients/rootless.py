"""Tables of other user namespaces, in `mountctl import --pid` and `mountctl what-if --pid`. A module, a part of server.py.

A process is made as `unshare -Urm` makes one, in a copy of the namespace of a host. Lines are asked about there and carried out:
what the kernel refuses for a lock is refused for that lock, with what to do instead, and the rest is accepted by both. The
script of an import locks all mounts of the copy, where its table tells that they came with it, and says so where it does not.

Where the machine allows no such namespaces, this is said, and only the scripts of files are looked at.
"""
import contextlib
import hashlib
import os
import re
import tempfile

from clients.foretold import Answer
from clients.hosts import PRIVATE, SHARED, Guest, own_lines
from clients.mountctl import Asked
from clients.outcomes import Imported, import_tables
from harness.allocations import Refusing
from harness.refusals import TABLE
from harness.runs import answer_groups, check, read, run, session, shown
from harness.servers import Server
from kernels import syscalls

# What a script says of a namespace of which the locks are not known, and what-if on standard error.
LOCKLESS = b" is of another user namespace, and its locks are not known"

# The script of the tables of docs/tables, of which none is of another user namespace: it was so before scripts made locks.
TABLES = "host", "container"
AS_BEFORE = "1b63080b3e5c864b21f3abe05f23d889468e989aeeccb4885adca916e93bf114"

MS_RDONLY, MS_REMOUNT, MS_NOATIME = 1, 32, 1024


class Rootless(Guest):
    """A process in a user namespace of its own, in a mount namespace of that."""

    OWN = syscalls.CLONE_NEWNS | syscalls.CLONE_NEWUSER

    def begin(self):
        maps = ("setgroups", b"deny"), ("uid_map", b"0 %d 1" % os.getuid()), ("gid_map", b"0 %d 1" % os.getgid())
        super().begin()
        for name, text in maps:
            with open(f"/proc/self/{name}", "wb", buffering=0) as file:
                file.write(text)

    def rbind(self, source, path):
        syscalls.mount(source, path, syscalls.MS_BIND | syscalls.MS_REC)

    def move(self, source, path):
        syscalls.mount(source, path, syscalls.MS_MOVE)

    def detach(self, path):
        syscalls.umount(path, syscalls.MNT_DETACH)

    def remount(self, path, flags):
        syscalls.mount(None, path, syscalls.MS_BIND | MS_REMOUNT | flags)


class Host(Guest):
    """A host, of which some mounts are read only."""

    def remount(self, path, flags):
        syscalls.mount(None, path, syscalls.MS_BIND | MS_REMOUNT | flags)


@contextlib.contextmanager
def host():
    """A host whose mounts are all shared, with a folder of its own: mounts at `one`, with one below it, and at `ro`, and directories."""
    with tempfile.TemporaryDirectory() as folder, Host(PRIVATE, SHARED) as made:
        folder = os.path.realpath(folder).encode()
        made.ask("mount", b"scratch", folder)
        for name in b"/one", b"/ro", b"/two", b"/mine":
            made.ask("mkdir", folder + name)
        made.ask("mount", b"first", folder + b"/one")
        made.ask("mkdir", folder + b"/one/below")
        made.ask("mount", b"second", folder + b"/one/below")
        made.ask("mount", b"third", folder + b"/ro")
        made.ask("remount", folder + b"/ro", MS_RDONLY)
        yield made, folder


# The lines.


def refused_lines(folder):
    """Lines that are refused for a lock: the refusal, what mount(8) or its kin is given, and the call."""
    one, two, read_only = folder + b"/one", folder + b"/two", folder + b"/ro"
    yield "Locked", [b"umount", one + b"/below"], ("umount", one + b"/below")
    yield "Locked", [b"umount", b"-l", one], ("detach", one)
    yield "Locked", [b"mount", b"--move", one, two], ("move", one, two)
    yield "LockedInside", [b"mount", b"--bind", one, two], ("bind", one, two)
    yield "LockedInside", [b"mount", b"--bind", folder, two], ("bind", folder, two)
    yield "LockedAttr", [b"mount", b"-o", b"remount,bind,rw", read_only], ("remount", read_only, 0)
    yield "LockedAttr", [b"mount", b"-o", b"remount,bind,noatime", one], ("remount", one, MS_NOATIME)


def accepted_lines(folder):
    """Lines that are accepted one after another, each with its call."""
    one, two, mine = folder + b"/one", folder + b"/two", folder + b"/mine"
    yield [b"mount", b"--rbind", one, two], ("rbind", one, two)
    yield [b"umount", b"-l", two], ("detach", two)
    yield [b"mount", b"--bind", one + b"/below", two], ("bind", one + b"/below", two)
    yield [b"umount", two], ("umount", two)
    yield [b"mount", b"-t", b"tmpfs", b"mine", mine], ("mount", b"mine", mine)
    yield [b"umount", mine], ("umount", mine)
    yield [b"mount", b"-o", b"remount,bind,ro", one], ("remount", one, MS_RDONLY)


def entered(guest, line):
    """A line in the namespaces of a process."""
    return [b"nsenter", b"-t", b"%d" % guest.process.pid, b"-U", b"-m", *line]


def refused(guest, call):
    """The errno for which the kernel refuses a call, or None."""
    try:
        guest.ask(*call)
    except OSError as error:
        return error.errno
    return None


def check_refused(mountctl, guests, folder):
    """What the kernel refuses for a lock is refused for that lock, and it is said why, and what to do instead."""
    pids = [str(guest.process.pid) for guest in guests]
    for refusal, line, call in refused_lines(folder):
        said = shown(b" ".join(line))
        errno = refused(guests[1], call)
        check(f"{said} is refused by the kernel", errno in TABLE[refusal].errnos, str(errno))
        answer = Answer(mountctl, pids, [entered(guests[1], line)], "--pid")
        good = answer.refusals() == [refusal] and answer.unexplained() == [] and answer.complaint == b""
        check(f"{said} is refused as {refusal}", good, f"{answer.objects} {answer.complaint}")
        reasons = [one["reason"] for one in answer.objects if "reason" in one]
        check(f"{said}: what to do instead", all("  to change that: " in reason for reason in reasons), str(reasons))


def check_accepted(mountctl, guests, folder):
    """What the kernel accepts beside that is accepted, all lines in turn."""
    pids = [str(guest.process.pid) for guest in guests]
    lines = [entered(guests[1], line) for line, _ in accepted_lines(folder)]
    answer = Answer(mountctl, pids, lines, "--pid")
    check("what is not locked can be done", answer.refusals() == [] and answer.status == 0, f"{answer.objects} {answer.complaint}")
    for line, call in accepted_lines(folder):
        check(f"{shown(b' '.join(line))} is accepted by the kernel", refused(guests[1], call) is None)


def check_own(mountctl):
    """The mounts of this machine, in a copy of its namespace."""
    with Rootless(PRIVATE) as guest:
        pids = [str(os.getpid()), str(guest.process.pid)]
        check("umount /proc is refused by the kernel", refused(guest, ("umount", b"/proc")) in TABLE["Locked"].errnos)
        answer = Answer(mountctl, pids, [entered(guest, [b"umount", b"/proc"])], "--pid")
        check("umount /proc is refused as Locked", answer.refusals() == ["Locked"], f"{answer.objects} {answer.complaint}")


def check_told(mountctl, guests, folder):
    """All that is told of a line that is refused."""
    pids = [str(guest.process.pid) for guest in guests]
    words = [shown(word) for word in entered(guests[1], [b"umount", folder + b"/ro"])]
    status, text, complaint = run(mountctl, b"", "what-if", "--pid", *pids, "--", *words)
    wanted = rb"""1 nsenter .*
  no Locked: %b/ro is mount (\d+) at %b/ro, which is locked on its place
      \1 %b/ro third \S+
    to change that: leave it, or mount over it; what is mounted in this namespace itself can go
elsewhere: nothing changes in 1 other namespace
""" % ((re.escape(folder),) * 3)
    check("all that is told of a locked mount", status == 1 and complaint == b"" and re.fullmatch(wanted, text) is not None, shown(text + complaint))


# The scripts.


def imported(program, mountctl, name, guests):
    """The import of the tables of processes."""
    status, text, complaint = run(mountctl, b"", "import", "--pid", *(str(guest.process.pid) for guest in guests))
    check(f"{name}: imported", (status, complaint) == (0, b""), shown(complaint))
    world = Imported(program, name, [guest.lines() for guest in guests], text.split(b"\n")[:-1])
    world.check_all()
    return world


def asked(program, world, *lines):
    """The answers to lines behind the script of an import."""
    sent = [*world.commands, *lines]
    return answer_groups(session(program, sent, *world.room)[1], sent)[len(world.commands) :]


def lock_lines(script):
    """The lines of a script that lock something, or end a namespace."""
    return [line for line in script if line.startswith(b"dropns ") or re.match(rb"copyns \d+ .", line)]


def check_locked(program, mountctl, name, guests, folder):
    """The namespace of the second table is one in which all is locked, and has the second number after the last one's."""
    world = imported(program, mountctl, name, guests)
    check(f"{name}: the numbers of the namespaces", world.spaces[b"1"] == 1 and world.spaces[b"2"] == 3, str(world.spaces))
    check(f"{name}: a copy takes the place of the second one", lock_lines(world.script) == [b"copyns 2 less lock", b"dropns 2"], shown(b"\n".join(world.script)))
    rows, locks, *answers = asked(program, world, b"show 3", b"locks 3", b"umount 3 %b/ro" % folder, b"bind 3 %b %b/ro" % (folder, folder), b"locks 1")
    ids = [line.split(b" ")[0] for line in rows[1:]]
    kinds = {line.split(b" ")[0]: line.split(b" ")[1].split(b",") for line in locks[1:]}
    roots = {line.split(b" ")[0] for line in rows[1:] if line.split(b" ")[0] == line.split(b" ")[1]}
    good = sorted(kinds) == sorted(ids) and all(b"atime" in kinds[number] and (b"place" in kinds[number]) == (number not in roots) for number in ids)
    check(f"{name}: all is locked", good, shown(b"\n".join(rows + locks)))
    check(f"{name}: refusals", answers == [[b"no Locked"], [b"no LockedInside"], [b"ok 0"]], repr(answers))
    return world


def check_lockless(program, mountctl, name, guests, folder):
    """The locks of the second table are not known, which is said by an import and by a question."""
    world = imported(program, mountctl, name, guests)
    good = world.script.count(b"# table 2" + LOCKLESS) == 1 and lock_lines(world.script) == []
    check(f"{name}: what the script says", good, shown(b"\n".join(world.script)))
    pids = [str(guest.process.pid) for guest in guests]
    answer = Answer(mountctl, pids, [entered(guests[1], [b"umount", folder + b"/ro"])], "--pid")
    said = re.fullmatch(rb"mountctl: %d \S+%b\n" % (guests[1].process.pid, re.escape(LOCKLESS)), answer.complaint)
    check(f"{name}: what a question says", said is not None and answer.refusals() == [], f"{answer.objects} {answer.complaint}")


def check_server(program, mountctl, guests, folder):
    """A server is asked about the namespace by the number that the script gives it."""
    pids = [str(guest.process.pid) for guest in guests]
    for line, wanted in (["umount", "3", shown(folder + b"/ro")], b"no Locked\n"), (["umount", "2", "/"], b"no NoNamespace\n"):
        with Server(program) as server:
            status, text, complaint = run(mountctl, b"", server.path, "what-if", "--pid", *pids, "--", *line)
            server.stop()
        check(f"a server answers {' '.join(line)}", (status, text) == (1, wanted), shown(text + complaint))


def check_memory(mountctl, guest):
    """Each allocation of an import of a process is refused in turn: want of memory is never taken for a namespace that cannot be read."""
    with tempfile.TemporaryDirectory() as folder:
        refusing = Refusing(folder)
        importing = Asked(mountctl, ["import", "--pid", str(guest.process.pid)])
        count = refusing.count(importing)
        refusing.each(importing, "an import of a process", count)
    print(f"{count} allocations of an import of a process refused in turn", flush=True)


def check_files(mountctl, tables):
    """Tables of files have no user namespace."""
    script = import_tables(mountctl, tables)[1].splitlines()
    good = lock_lines(script) == [] and not any(line.endswith(LOCKLESS) for line in script)
    check("a script of files locks nothing", good, shown(b"\n".join(script)))


def check_as_before(mountctl):
    """A script of tables of which none is of another user namespace."""
    script = import_tables(mountctl, [read("docs", "tables", name).splitlines() for name in TABLES])[1]
    check("a script without locks is as it was", hashlib.sha256(script).hexdigest() == AS_BEFORE, shown(script))


def check_guests(program, mountctl):
    """Processes of user namespaces of their own, in copies of the namespace of a host."""
    with host() as (first, folder), Rootless(PRIVATE, of=first) as guest, Rootless(of=first) as slave, Guest(PRIVATE, of=first) as copy:
        check_refused(mountctl, [first, guest], folder)
        check_told(mountctl, [first, guest], folder)
        check_server(program, mountctl, [first, guest], folder)
        check_memory(mountctl, guest)
        check_locked(program, mountctl, "a private copy", [first, guest], folder)
        check_locked(program, mountctl, "a copy of slaves", [first, slave], folder)
        check_locked(program, mountctl, "a copy of slaves without their masters", [copy, slave], folder)
        world = imported(program, mountctl, "several copies", [first, copy, guest, slave])
        check("the numbers of several namespaces", world.spaces == {b"1": 1, b"2": 2, b"3": 4, b"4": 6}, str(world.spaces))
        check_files(mountctl, [first.lines(), guest.lines()])
        check_accepted(mountctl, [first, guest], folder)
        guest.ask("remount", folder + b"/one", 0)
        guest.ask("setattr", folder + b"/one", b"shared")
        check_lockless(program, mountctl, "a copy with a shared mount", [first, guest], folder)
        slave.ask("mount", b"mine", folder + b"/mine")
        check_lockless(program, mountctl, "a copy with a mount of its own", [first, slave], folder)


def check_rootless(program, mountctl):
    check_as_before(mountctl)
    check_files(mountctl, [own_lines(), own_lines()[:1]])
    try:
        with Guest(), Rootless(PRIVATE):
            pass
    except (OSError, EOFError) as error:
        print(f"no user namespaces of this machine are imported: {error}", flush=True)
        return
    check_own(mountctl)
    check_guests(program, mountctl)
