"""Real tables, imported with `mountctl import FILE..`. A module, a part of server.py.

They are those of sessions/containers/, and those of this machine and of copies of its namespace, made as `unshare -m` makes them.
Then a namespace is made in which all mounts are in peer groups of its own, so that nothing of what is mounted there comes
to the machine, and copies of it; after the import of their tables each command that is carried out there is
carried out by a session too, and leads to the same tables.

Where the machine allows no namespaces, this is said, and its own table is imported alone.
"""
import contextlib
import multiprocessing
import os
import re
import tempfile

from clients.outcomes import Imported, check_world, room_words
from harness.protocol import row_of
from harness.runs import answer_groups, check, read, run, session, shown
from harness.servers import Server
from kernels import syscalls

FORKING = multiprocessing.get_context("fork")

# How long a call may take, in seconds.
MOST_SECONDS = 20

SHARED, SLAVE, PRIVATE = (syscalls.PROPAGATION[name] | syscalls.MS_REC for name in (b"shared", b"slave", b"private"))

CONTAINERS = "bwrap", "runc", "runc-rshared"


class Guest:
    """A process in a mount namespace of its own, a copy of this one's or of another's."""

    # The namespaces of its own that it has.
    OWN = syscalls.CLONE_NEWNS

    def __init__(self, *propagation, of=None):
        self.propagation, self.of = propagation, of

    def __enter__(self):
        self.pipe, theirs = FORKING.Pipe()
        self.process = FORKING.Process(target=self.serve, args=(theirs,), daemon=True)
        self.process.start()
        theirs.close()
        try:
            self.answer()
        except BaseException:
            self.__exit__()
            raise
        return self

    def __exit__(self, *_):
        self.process.kill()
        self.process.join()
        self.pipe.close()

    def begin(self):
        """Enters a namespace and makes all mounts of it what they are to be, one after another."""
        if self.of:
            with open(f"/proc/{self.of.process.pid}/ns/mnt", "rb") as space:
                syscalls.setns(space.fileno(), syscalls.CLONE_NEWNS)
        syscalls.unshare(self.OWN)
        for flags in self.propagation:
            syscalls.mount(None, b"/", flags)

    def serve(self, pipe):
        """Answers each call with nothing, or its error."""
        self.pipe.close()
        with contextlib.suppress(EOFError):
            name, words = "begin", ()
            while True:
                try:
                    getattr(self, name)(*words)
                    pipe.send(None)
                except OSError as error:
                    pipe.send(error)
                name, words = pipe.recv()
        os._exit(0)

    def answer(self):
        if not self.pipe.poll(MOST_SECONDS):
            raise OSError("a process in a namespace of its own does not answer")
        if error := self.pipe.recv():
            raise error

    def ask(self, name, *words):
        self.pipe.send((name, words))
        self.answer()

    def lines(self):
        """The lines of its table."""
        with open(f"/proc/{self.process.pid}/mountinfo", "rb") as file:
            return file.read().splitlines()

    def rows(self):
        return map(row_of, self.lines())

    # The calls, by the names of our commands.

    def mount(self, source, path):
        syscalls.mount_filesystem(syscalls.new_filesystem(b"tmpfs", source), path)

    def bind(self, source, path):
        syscalls.mount(source, path, syscalls.MS_BIND)

    def umount(self, path):
        syscalls.umount(path)

    def setattr(self, path, name):
        syscalls.mount(None, path, syscalls.PROPAGATION[name])

    def mkdir(self, path):
        os.mkdir(path)


def own_lines():
    """The lines of the table of this process."""
    with open("/proc/self/mountinfo", "rb") as file:
        return file.read().splitlines()


def check_containers(program, mountctl):
    """The tables of containers, one by one and all at once."""
    tables = {name: read("checks", "sessions", "containers", f"{name}.mountinfo").splitlines() for name in CONTAINERS}
    for name, table in tables.items():
        world = check_world(program, mountctl, f"the table of {name}", [table])
        world.check("nothing is left out", world.left() == [])
    check_world(program, mountctl, "the tables of containers", list(tables.values()))


def check_machine(program, mountctl):
    """This machine's table with those of copies of its namespace."""
    with contextlib.ExitStack() as stack:
        copies = [stack.enter_context(Guest(*how)) for how in ((), (PRIVATE,), (SLAVE,), (SLAVE, SHARED))]
        tables = [own_lines(), *(copy.lines() for copy in copies)]
        for count in range(1, len(copies) + 1):
            check_world(program, mountctl, f"this machine and a copy of its namespace, {count}", [tables[0], tables[count]])
        world = check_world(program, mountctl, "this machine and copies of its namespace", tables)
        print(f"{len(tables)} tables of this machine imported, {sum(map(len, tables))} rows, {len(world.left())} left out", flush=True)


# What a script says of the process of a table.
PROCESS = re.compile(rb"# table \d+ is that of process (\d+)(?: .*)?")


def space_of(pid):
    return os.stat(f"/proc/{int(pid)}/ns/mnt").st_ino


def check_every_space(program, mountctl):
    """An import of all has each mount namespace of this machine that may be looked at once, and each of its commands is accepted."""
    with contextlib.ExitStack() as stack:
        guests = [stack.enter_context(Guest(*how)).process.pid for how in ((), (PRIVATE,))]
        status, text, complaint = run(mountctl, b"", "import", "--all")
        script = text.split(b"\n")[:-1]
        spaces = [space_of(found[1]) for found in map(PROCESS.fullmatch, script) if found]
        good = len(set(spaces)) == len(spaces) and {*map(space_of, guests)} <= {*spaces}
        check("an import of all has each namespace once", status == 0 and good, f"{status}, {spaces}, {shown(complaint)}")
    commands = [line for line in script if not line.startswith(b"#")]
    answers = answer_groups(session(program, commands, *room_words(script))[1], commands)
    refused = [line for line, answer in zip(commands, answers) if not answer[0].startswith(b"ok")]
    check("each command of an import of all is accepted", commands and not refused, shown(b"\n".join(refused[:3])))


def mounted_steps(folder):
    """What is mounted below a folder in the place of the first namespace, each as a call, and as a command."""
    one, other = folder + b"/one", folder + b"/one/other"
    yield ("mount", b"usb", one), [b"mkfs usb tmpfs usb", b"mkdir usb /other", b"mount 1 usb %b" % one]
    yield ("mkdir", other), []
    yield ("bind", folder, other), [b"bind 1 %b %b" % (folder, other)]
    yield ("setattr", other, b"slave"), [b"setattr 1 %b prop=slave" % other]
    yield ("mount", b"more", other), [b"mkfs more tmpfs more", b"mount 1 more %b" % other]
    yield ("umount", other), [b"umount 1 %b" % other]
    yield ("umount", other), [b"umount 1 %b" % other]
    yield ("umount", one), [b"umount 1 %b" % one]


def check_foretold(program, mountctl, guests, point):
    """What a mount at a directory would do, asked before it is made, is what it does: where mounts come, by the files of the tables."""
    pids = [str(guest.process.pid) for guest in guests]
    with Server(program) as server:
        found = run(mountctl, b"", server.path, "what-if", "--pid", *pids, "--", "mount", "1", "usb", shown(point))
        server.stop()
    told = sorted(re.findall(rb"(?m)^\+ \d+ (\S+) usb rw,relatime \S+ in namespace \d+ \(/proc/(\d+)/mountinfo\)$", found[1]))
    guests[0].ask("mount", b"usb", point)
    usb = b"tmpfs", b"usb"
    fields = [(row.point, pid.encode()) for guest, pid in zip(guests, pids) for row in guest.rows() if (row.kind, row.source) == usb]
    guests[0].ask("umount", point)
    good = found[0] == 0 and told == sorted(fields) and 1 < len(told) < len(guests) and found[1].count(b"\n") == 1 + len(told)
    check("a mount in a host and its copies is foretold", good, f"{shown(found[1] + found[2])}{fields}")


def check_mounted(program, mountctl):
    """What is mounted in a namespace comes in its copies, and in the namespaces that were made of all their tables."""
    with contextlib.ExitStack() as stack:
        folder = os.path.realpath(stack.enter_context(tempfile.TemporaryDirectory())).encode()
        host = stack.enter_context(Guest(PRIVATE, SHARED))
        host.ask("mount", b"scratch", folder)
        host.ask("mkdir", folder + b"/one")
        guests = [host, *(stack.enter_context(Guest(*how, of=host)) for how in ((), (SLAVE,), (SLAVE, SHARED), (PRIVATE,)))]
        check_foretold(program, mountctl, guests, folder + b"/one")
        world = check_world(program, mountctl, "a host and its copies", [guest.lines() for guest in guests])
        [scratch] = {row.device for row in host.rows() if row.point == folder}
        behind = [b"mkdir %b /one" % scratch]
        for step, commands in mounted_steps(folder):
            host.ask(*step)
            behind += commands
            tables = [guest.lines() for guest in guests]
            again = Imported(program, f"{world.name}, behind {len(behind)} commands", tables, world.script, behind)
            again.check_tables()
        counts = [len(world.tables), sum(map(len, world.tables)), len(world.left())]
        print("{} tables of a host and its copies imported, {} rows, {} left out, and followed".format(*counts), flush=True)


def check_hosts(program, mountctl):
    check_containers(program, mountctl)
    check_world(program, mountctl, "this machine", [own_lines()])
    try:
        with Guest():
            pass
    except (OSError, EOFError) as error:
        print(f"no namespaces of this machine are imported: {error}", flush=True)
        return
    check_machine(program, mountctl)
    check_every_space(program, mountctl)
    check_mounted(program, mountctl)
