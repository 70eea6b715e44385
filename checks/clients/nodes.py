"""Nodes of pods with containers, as a kubelet and its runtime leave them, made on the running kernel. A module, a part of server.py.

The host has a peer group of all that the kubelet keeps, and each container a namespace of its own, which gets mounts from there
where its pod asks for that. All mount namespaces of the machine are imported at once, and those of the node are whole; then questions
are asked in all of them, and what was foretold in each namespace of the node is what comes when the same is done there.

Where the machine allows no namespaces, or has no overlay filesystem, this is said, and nothing is checked.
"""
import contextlib
import os
import re
import tempfile
import time

from clients.foretold import Answer, ordered, row_told, rooted
from clients.hosts import PRIVATE, PROCESS, SLAVE, Guest
from clients.outcomes import Imported, Numbers, left_out, room_words, row_of
from harness.runs import answer_groups, check, run, session, shown
from kernels.syscalls import (
    MNT_DETACH,
    MS_BIND,
    MS_NODEV,
    MS_NOEXEC,
    MS_NOSUID,
    MS_RDONLY,
    MS_REC,
    MS_REMOUNT,
    PROPAGATION,
    mount,
    pivot_root,
    umount,
)

# The pods of each node, and the containers of each pod.
NODES = (5, 2), (30, 2)

SAFE = MS_NOSUID | MS_NODEV | MS_NOEXEC

# What a pod is given: its token, its secrets, and its data, which are a directory of the host.
TOKEN, SECRET, DATA = b"token", b"secret", b"data"
NAMES = b"hosts", b"hostname", b"resolv.conf"

# Directories and files of the image of each container.
IMAGE = b"proc", b"sys", b"dev", b"tmp", b"etc", b"token", b"data/new"
READ_ONLY = b"/proc/bus", b"/proc/fs", b"/proc/irq", b"/proc/sys", b"/proc/sysrq-trigger"
HIDDEN = b"/proc/kcore", b"/proc/keys", b"/proc/timer_list"


def folder_at(*parts):
    path = os.path.join(*parts)
    os.makedirs(path, exist_ok=True)
    return path


def file_at(*parts):
    path = os.path.join(*parts)
    with open(path, "ab"):
        return path


def gets_mounts(pod):
    """Whether the data of a pod shows what is mounted there later."""
    return pod % 10 == 0


class Place:
    """Where a node keeps what it has, below one directory of the host."""

    def __init__(self, base):
        self.base, self.image = base, os.path.join(base, b"image")

    def pod(self, pod):
        return os.path.join(self.base, b"pods", b"%d" % pod)

    def volume(self, pod, name):
        return os.path.join(self.pod(pod), name)

    def run(self, pod, *parts):
        return os.path.join(self.base, b"run", b"%d" % pod, *parts)

    def root(self, pod, container):
        return self.run(pod, b"%d" % container, b"root")


class NodeHost(Guest):
    """The host of a node: it mounts what its pods are given."""

    def begin_node(self, base):
        """The directory of all that it keeps, which is a peer group of its own, and the image."""
        mount(b"node", base, 0, b"tmpfs")
        mount(None, base, PROPAGATION[b"shared"])
        for name in IMAGE:
            folder_at(base, b"image", name)
        for name in NAMES:
            file_at(base, b"image/etc", name)

    def begin_pod(self, base, pod, containers):
        """The volumes of a pod, its shared memory, and the roots of its containers."""
        place = Place(base)
        for name in TOKEN, SECRET:
            mount(b"tmpfs", folder_at(place.volume(pod, name)), 0, b"tmpfs", b"size=64k")
        kept = folder_at(base, b"disk", b"%d" % pod)
        folder_at(kept, b"new")
        mount(kept, folder_at(place.volume(pod, DATA)), MS_BIND)
        mount(b"shm", folder_at(place.run(pod, b"shm")), SAFE, b"tmpfs", b"size=64k")
        for name in NAMES:
            file_at(place.pod(pod), name)
        for container in range(containers):
            upper, work = (folder_at(place.run(pod, b"%d" % container, name)) for name in (b"upper", b"work"))
            words = b"lowerdir=%b,upperdir=%b,workdir=%b" % (place.image, upper, work)
            mount(b"overlay", folder_at(place.root(pod, container)), 0, b"overlay", words)

    # The calls, by the names of our commands and as mount(2) has them.

    def detach(self, path):
        umount(path, MNT_DETACH)

    def change(self, source, path, flags):
        mount(source, path, flags)


class Container(NodeHost):
    """A process in the namespace of a container, which was made from that of the host."""

    def begin_container(self, base, pod, container):
        place, root = Place(base), Place(base).root(pod, container)
        mount(root, root, MS_BIND | MS_REC)
        self.mount_systems(root, place.run(pod, b"shm"))
        self.mount_volumes(root, place, pod)
        os.chdir(root)
        pivot_root(b".", b".")
        umount(b".", MNT_DETACH)
        os.chdir(b"/")
        mount(None, b"/", PROPAGATION[b"slave" if gets_mounts(pod) else b"private"])
        self.hide_systems()

    def mount_systems(self, root, memory):
        """What each container has of its own."""
        mount(b"proc", root + b"/proc", SAFE, b"proc")
        mount(b"tmpfs", root + b"/dev", MS_NOSUID, b"tmpfs", b"mode=755,size=64k")
        mount(b"devpts", folder_at(root, b"dev/pts"), MS_NOSUID | MS_NOEXEC, b"devpts", b"newinstance,ptmxmode=0666,mode=0620")
        mount(b"mqueue", folder_at(root, b"dev/mqueue"), SAFE, b"mqueue")
        mount(b"sysfs", root + b"/sys", SAFE | MS_RDONLY, b"sysfs")
        mount(memory, folder_at(root, b"dev/shm"), MS_BIND | MS_REC)

    def mount_volumes(self, root, place, pod):
        """What the pod is given: its data get mounts from the host, or do not."""
        for name in NAMES:
            mount(os.path.join(place.pod(pod), name), os.path.join(root, b"etc", name), MS_BIND)
        mount(os.path.join(place.pod(pod), NAMES[0]), file_at(root, b"dev/log"), MS_BIND)
        mount(place.volume(pod, TOKEN), root + b"/token", MS_BIND | MS_REC)
        mount(None, root + b"/token", MS_BIND | MS_REMOUNT | MS_RDONLY)
        mount(place.volume(pod, DATA), root + b"/data", MS_BIND | MS_REC)
        mount(None, root + b"/data", PROPAGATION[b"slave" if gets_mounts(pod) else b"private"])

    def hide_systems(self):
        """What no container may write, or see."""
        for path in filter(os.path.exists, READ_ONLY):
            mount(path, path, MS_BIND | MS_REC)
            mount(None, path, MS_BIND | MS_REMOUNT | MS_RDONLY | SAFE)
        for path in filter(os.path.exists, HIDDEN):
            mount(b"/dev/log", path, MS_BIND)


class Node:
    """A host with pods: its processes, that of the host first."""

    def __init__(self, stack, pods, containers):
        # The directory stays where the namespaces of the containers show it, until they are gone.
        self.base = os.path.realpath(stack.enter_context(tempfile.TemporaryDirectory())).encode()
        self.host = stack.enter_context(NodeHost(PRIVATE))
        self.host.ask("begin_node", self.base)
        self.containers = {}
        for pod in range(pods):
            self.host.ask("begin_pod", self.base, pod, containers)
            for container in range(containers):
                made = stack.enter_context(Container(SLAVE, of=self.host))
                made.ask("begin_container", self.base, pod, container)
                self.containers[pod, container] = made
        self.guests = [self.host, *self.containers.values()]

    def volume(self, pod, *parts):
        return os.path.join(Place(self.base).volume(pod, DATA), *parts)


def numbers_of_tables(script):
    """The numbers of the tables of an import, by the processes that it says they are of."""
    said = [line for line in script if PROCESS.fullmatch(line)]
    return {int(PROCESS.fullmatch(line)[1]): number for number, line in enumerate(said, 1)}


def check_whole(program, mountctl, name, node):
    """An import of all namespaces of the machine makes each mount of the node, and a server accepts it."""
    status, text, complaint = run(mountctl, b"", "import", "--all")
    script = text.split(b"\n")[:-1]
    numbers = numbers_of_tables(script)
    found = [numbers.get(guest.process.pid) for guest in node.guests]
    check(f"{name}: all namespaces are imported", status == 0 and all(found), f"{status} {found} {shown(complaint)}")
    left = [line for number in found for line in left_out(script, b"%d" % (number or 0))]
    check(f"{name}: no mount is left out", not left, shown(b"\n".join(left[:5])))
    commands = [line for line in script if not line.startswith(b"#")]
    answers = answer_groups(session(program, commands, *room_words(script))[1], commands)
    refused = [line for line, answer in zip(commands, answers) if not b"".join(answer[:1]).startswith(b"ok")]
    check(f"{name}: each command is accepted", not refused, shown(b"\n".join(refused[:5])))


def check_tables(program, mountctl, name, node):
    """What is made of the tables of a node is what they tell."""
    tables = [guest.lines() for guest in node.guests]
    status, text, complaint = run(mountctl, b"", "import", "--pid", *(str(guest.process.pid) for guest in node.guests))
    check(f"{name}: imported", (status, complaint) == (0, b""), shown(complaint))
    world = Imported(program, name, tables, text.split(b"\n")[:-1])
    if not world.refused:
        world.check_all()
    return sum(map(len, tables)), " ".join(world.room) or "--room 1"


def questions(node):
    """Words of mount(8), each with the process in whose namespace it is, and the call that does it."""
    new, other, inner = node.volume(0, b"new"), node.volume(1, b"new"), node.containers[0, 0]
    yield b"mount -t tmpfs usb %b" % new, node.host, ("mount", b"usb", new)
    yield b"mount -t tmpfs own /data/new", inner, ("mount", b"own", b"/data/new")
    yield b"mount --rbind %b %b" % (new, other), node.host, ("change", new, other, MS_BIND | MS_REC)
    yield b"umount -l %b" % new, node.host, ("detach", new)
    yield b"mount --make-rprivate %b" % node.base, node.host, ("change", None, node.base, PRIVATE)


def all_tables(guests):
    return [list(map(row_of, guest.lines())) for guest in guests]


def rows_after(rows, objects, devices):
    """The rows of a table after changes. A filesystem that is there has its device, and a new one another name than all these."""
    there = {row.id: row for row in rows}
    for one in objects:
        if one["event"] == "umount":
            there.pop(one["id"], None)
            continue
        told = row_told(one)
        known = there[told.id].device if told.id in there else devices.get(told.rest[-2:], b"new " + told.device)
        there[told.id] = told._replace(device=known)
    return ordered(there)


def devices_by_source(tables):
    """The devices that alone have their type and source in tables."""
    found = {}
    for row in (row for rows in tables for row in rows):
        found.setdefault(row.rest[-2:], set()).add(row.device)
    return {told: devices.pop() for told, devices in found.items() if len(devices) == 1}


def check_question(mountctl, name, node, words, doer, step):
    """A question in all namespaces of the machine, which is then done: each table of the node is as it was foretold. How many change."""
    before = all_tables(node.guests)
    line = b"nsenter -t %d -m %b" % (doer.process.pid, words)
    answer = Answer(mountctl, ["--all"], [line.split(b" ")])
    doer.ask(*step)
    check(f"{name}: {shown(line)} is answered", answer.status == 0, f"{answer.objects} {answer.complaint}")
    devices, numbers, count = devices_by_source(before), Numbers(), 0
    for guest, rows in zip(node.guests, before):
        mine = [one for one in answer.objects if "event" in one and one["name"].split(" ")[0] == str(guest.process.pid)]
        why = numbers.why_other(rows_after(rows, mine, devices), rooted(list(map(row_of, guest.lines()))))
        check(f"{name}: the table of process {guest.process.pid} after {shown(line)}", why is None, f"{why} {mine}")
        count += bool(mine)
    return count


def check_node(program, mountctl, name, node):
    """What is imported of a node, and what is foretold of it."""
    start = time.monotonic()
    check_whole(program, mountctl, name, node)
    rows, room = check_tables(program, mountctl, name, node)
    changed = [check_question(mountctl, name, node, *question) for question in questions(node)]
    check(f"{name}: questions of which some change containers", len(changed) == 5 and max(changed) > 1, str(changed))
    took = time.monotonic() - start
    print(f"{name}: {len(node.guests)} tables, {rows} rows, {room}; tables that questions change: {changed}; {took:.1f} s", flush=True)


def check_nodes(program, mountctl):
    for pods, containers in NODES:
        with contextlib.ExitStack() as stack:
            try:
                node = Node(stack, pods, containers)
            except (OSError, EOFError) as error:
                print(f"no node is made: {error}", flush=True)
                return
            check_node(program, mountctl, f"a node of {pods} pods", node)
