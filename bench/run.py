#!/usr/bin/env python3
"""Times `mountd -` on made-up sessions, and prints lines per second and the most memory it took.
A program that is called by hand.

Usage: bench/run.py [--program PATH] [--seed N] [--only WORD]

The program is crates/mountd/out/mountd, which `rt run mountd` builds. Nothing is judged.
The same seed makes the same sessions.
"""
import argparse
import os
import random
import subprocess
import tempfile
import threading
import time

HERE = os.path.dirname(os.path.dirname(os.path.abspath(__file__)))


def start():
    """Two filesystems, some directories and a namespace."""
    return ["mkfs a tmpfs none", "mkfs d ext4 /dev/x", "mkdir a /m", "newns a"]


def cheap_commands(rng):
    """Directories until the limit, then refusals: 100,000 lines."""
    lines = start()
    for n in range(100_000):
        lines.append(f"mkdir {rng.choice('ad')} /x{n}")
    return lines


def deep_directories(rng):
    """Chains of 30 directories: 15,000 lines."""
    lines = start()
    for chain in range(500):
        path = ""
        for _ in range(30):
            path += f"/c{chain}"
            lines.append(f"mkdir d {path}")
    return lines


def refused_lines(rng):
    """Lines that are refused as they are read: 200,000 lines."""
    bad = ["", "mount", "mkdir a x", "show 01", "mkdir a /\\041", "frobnicate", "mkfs a x y"]
    return start() + [rng.choice(bad) for _ in range(200_000)]


def stacked_mounts(rng):
    """Mounts at one place until the limit: 4,200 lines."""
    return start() + ["mount 1 d /m"] * 4_200


def wide_mounts(rng):
    """2,000 mounts at places of their own, and their table shown 20 times."""
    lines = start()
    for n in range(2_000):
        lines += [f"mkdir a /w{n}", f"mount 1 d /w{n}"]
    return lines + ["show 1"] * 20


def small_shows(rng):
    """A table of three rows shown 100,000 times."""
    return start() + ["mount 1 d /m", "mount 1 a /m"] + ["show 1"] * 100_000


def small_changes(rng):
    """Attributes of one of three mounts set and taken away 20,000 times."""
    lines = start() + ["mkdir d /u", "mount 1 d /m", "mount 1 a /m/u"]
    for _ in range(10_000):
        path = rng.choice(["/", "/m", "/m/u"])
        lines += [f"setattr 1 {path} set=ro", f"setattr 1 {path} clr=ro"]
    return lines


def wide_changes(rng):
    """1,000 mounts made a group of their own each, and slaves, 10 times at once."""
    lines = start()
    for n in range(1_000):
        lines += [f"mkdir a /w{n}", f"mount 1 d /w{n}"]
    return lines + ["setattr 1 / rec prop=shared", "setattr 1 / rec prop=slave"] * 5


def full_journal(rng):
    """Commands that change nothing until the journal is full, and one more: 1,048,577 lines."""
    lines = start()
    return lines + ["setattr 1 /"] * (1_048_577 - len(lines))


def mixed(rng):
    """200,000 lines of mkdir, mount and show in a namespace of few mounts."""
    lines = start()
    for n in range(64):
        lines.append(f"mkdir a /d{n}")
    for n in range(200_000):
        draw = rng.random()
        if draw < 0.4:
            lines.append(f"mkdir d /n{rng.randrange(2_000)}")
        elif draw < 0.9 or n > 10_000:
            lines.append(f"mount 1 d /nothing{rng.randrange(64)}")
        elif draw < 0.902:
            lines.append(f"mount 1 d /d{rng.randrange(64)}")
        else:
            lines.append("show 1")
    return lines


def peers_of_one(spaces):
    """So many namespaces, of which each gets what is mounted in the first."""
    return start() + ["setattr 1 / prop=shared"] + ["copyns 1"] * (spaces - 1)


def watched(spaces, times):
    """Mounts and unmounts that so many namespaces get, and their posts taken after each."""
    lines = peers_of_one(spaces) + ["watch all"]
    for _ in range(times):
        lines += ["mount 1 d /m", "take 64", "umount 1 /m", "take 64"]
    return lines


def watched_one(rng):
    """20,000 commands and takes in turn with a watcher of 1 namespace."""
    return watched(1, 5_000)


def watched_many(rng):
    """2,000 commands and takes in turn with a watcher of 64 namespaces: 64,000 posts."""
    return watched(64, 500)


def unwatched_many(rng):
    """The commands of watched_many with no watcher."""
    return [line for line in watched(64, 500) if line.split()[0] not in ("watch", "take")]


def never_taken(rng):
    """10,000 commands with a watcher that never takes, and lags."""
    return start() + ["watch 1"] + ["setattr 1 / set=ro", "setattr 1 / clr=ro"] * 5_000


def never_watched(rng):
    """The same 10,000 commands with no watcher."""
    return [line for line in never_taken(rng) if line != "watch 1"]


def many_openings(rng):
    """100 watchers of 64 namespaces with 61 mounts each, one after another, and as many tables shown."""
    lines = peers_of_one(64)
    for n in range(60):
        lines += [f"mkdir a /w{n}", f"mount 1 d /w{n}"]
    shown = [f"show {space}" for space in range(1, 65)]
    return lines + (["watch all", "close"] + shown) * 100


WORKLOADS = [
    cheap_commands,
    deep_directories,
    refused_lines,
    stacked_mounts,
    wide_mounts,
    small_shows,
    small_changes,
    wide_changes,
    full_journal,
    mixed,
    watched_one,
    watched_many,
    unwatched_many,
    never_taken,
    never_watched,
    many_openings,
]


def peers(count, source="/w"):
    """A mount and so many peers of it, in one namespace, that show what a path leads to."""
    lines = ["mkfs h tmpfs none", "mkfs a ext4 /dev/x", "mkfs d xfs /dev/y", "mkdir a /m", "mkdir a /x", "newns h", "mkdir h /w"]
    lines += ["mount 1 a /w", "setattr 1 /w prop=shared"]
    # Peers on a private mount, and copies of it and them.
    wide = min(count, 50)
    lines += ["mkfs t tmpfs none", "mkdir h /t", "mount 1 t /t"]
    for n in range(wide):
        lines += [f"mkdir t /p{n}", f"bind 1 {source} /t/p{n}"]
    for n in range(count // wide - 1):
        lines += [f"mkdir h /c{n}", f"rbind 1 /t /c{n}"]
    return lines


def crowd(count):
    """So many private mounts in one namespace, and a mount at which others come."""
    lines = ["mkfs h tmpfs none", "mkfs a ext4 /dev/x", "mkfs d xfs /dev/y", "mkdir a /m", "newns h", "mkdir h /w", "mount 1 a /w"]
    lines += ["mkfs t tmpfs none", "mkdir h /t", "mount 1 t /t"]
    wide = min(count, 50)
    for n in range(wide):
        lines += [f"mkdir t /p{n}", f"mount 1 d /t/p{n}"]
    for n in range(count // wide - 1):
        lines += [f"mkdir h /c{n}", f"rbind 1 /t /c{n}"]
    return lines


# A world, and the pairs of `mount` and `umount` that are timed in it.
PAIRS = [
    ("10 copies", peers(10), 100),
    ("100 copies", peers(100), 50),
    ("1,000 copies", peers(1_000), 5),
    ("2,000 copies", peers(1_950), 3),
    ("3,900 receivers without the directory", peers(3_900, "/w/x"), 5),
    ("among 40 mounts", crowd(40), 100),
    ("among 400 mounts", crowd(400), 50),
    ("among 4,000 mounts", crowd(3_950), 5),
]


# The mounts of a container: what it has of its own, and a volume of its pod at which mounts come that are made there.
OWN = "proc", "dev", "dev/pts", "dev/shm", "dev/mqueue", "sys", "etc", "tmp", "run", "token"


def node(containers):
    """A host, and so many containers, each a slave of all that the host keeps, with a root and mounts of its own."""
    lines = ["mkfs h ext4 /dev/x", "mkfs i overlay overlay", "mkfs d tmpfs none", "mkdir h /data", "mkdir h /data/new", "mkdir h /box"]
    lines += ["newns h", "bind 1 /data /data", "setattr 1 /data prop=shared"]
    lines += [f"mkdir i /{name}" for name in (*OWN, "data", "old")] + ["mkdir d /pts", "mkdir d /shm", "mkdir d /mqueue"]
    for number in range(2, containers + 2):
        lines += ["copyns 1 less", f"mount {number} i /box"]
        lines += [f"mount {number} d /box/{name}" for name in OWN]
        lines += [f"bind {number} /data /box/data", f"pivot {number} /box /box/old", f"detach {number} /old"]
    return lines


# What is timed in a node, as a pair of lines: of its last container, or of the host.
NODE_PAIRS = [
    ("mount and umount in one container", "mount {last} d /tmp", "umount {last} /tmp"),
    ("setattr in one container", "setattr {last} /tmp set=ro", "setattr {last} /tmp clr=ro"),
    ("find in one container", "find {last} /dev/shm", "show {last}"),
    ("copyns and dropns of a container", "copyns {last}", "dropns {next}"),
    ("mount and umount that come to each container", "mount 1 d /data/new", "umount 1 /data/new"),
    ("setattr rec of the host", "setattr 1 / rec set=noexec", "setattr 1 / rec clr=noexec"),
]

# The containers of the nodes, the room that each takes, and how often a pair is carried out.
NODES = (30, 1, 20_000), (220, 4, 5_000), (500, 8, 2_000), (2_000, 32, 500)


def most_memory(process, seen):
    """Keeps the most memory of a running process, in MB, in the first place of a list."""
    while process.poll() is None:
        try:
            with open(f"/proc/{process.pid}/status", encoding="ascii") as status:
                for line in status:
                    if line.startswith("VmHWM:"):
                        seen[0] = max(seen[0], int(line.split()[1]) / 1024)
        except OSError:
            return
        time.sleep(0.002)


def spent(program, lines, *arguments):
    """Processor seconds and the most memory in MB of one session, with further arguments."""
    with tempfile.TemporaryFile() as source:
        source.write(("\n".join(lines) + "\n").encode())
        source.seek(0)
        with subprocess.Popen([program, "-", *arguments], stdin=source, stdout=subprocess.DEVNULL) as session:
            _, status, used = os.wait4(session.pid, 0)
            session.returncode = os.waitstatus_to_exitcode(status)
    if session.returncode != 0:
        raise SystemExit(f"{program} ended with status {session.returncode}")
    return used.ru_utime + used.ru_stime, used.ru_maxrss / 1024


def run(program, lines):
    """Seconds, bytes of answers and the most memory in MB of one session."""
    with tempfile.TemporaryFile() as source, tempfile.TemporaryFile() as answers:
        source.write(("\n".join(lines) + "\n").encode())
        source.seek(0)
        seen = [0.0]
        begin = time.perf_counter()
        session = subprocess.Popen([program, "-"], stdin=source, stdout=answers)
        watcher = threading.Thread(target=most_memory, args=(session, seen))
        watcher.start()
        status = session.wait()
        seconds = time.perf_counter() - begin
        watcher.join()
        if status != 0:
            raise SystemExit(f"{program} ended with status {status}")
        answers.seek(0, os.SEEK_END)
        return seconds, answers.tell(), seen[0]


def time_pairs(program):
    """Prints how long one mount and one umount take together, in worlds of many mounts."""
    print(f"{'mount and umount':40} {'pairs':>6} {'ms each':>8} {'set up s':>9}")
    for name, lines, count in PAIRS:
        before, _, _ = run(program, lines)
        seconds, _, _ = run(program, lines + ["mount 1 d /w/m", "umount 1 /w/m"] * count)
        print(f"{name:40} {count:6} {(seconds - before) * 1_000 / count:8.2f} {before:9.2f}")


def time_directories(program):
    """Prints how long commands take that look for no directory, among few and among many directories."""
    print(f"{'command':20} {'directories':>11} {'us each':>8}")
    for name, lines in (("setattr 1 /", ["setattr 1 / set=ro", "setattr 1 / clr=ro"]), ("umount 1 /", ["umount 1 /"] * 2)):
        for count in (10, 16_000):
            world = start() + [f"mkdir a /x{n}" for n in range(count)]
            before, _, _ = run(program, world)
            seconds, _, _ = run(program, world + lines * 10_000)
            print(f"{name:20} {count:11} {(seconds - before) * 1e6 / (2 * 10_000):8.2f}")


def time_node(program):
    """Prints how long commands take on nodes of some and of many containers, in processor time."""
    print(f"{'command':46} {'containers':>10} {'us each':>8} {'set up s':>9} {'memory MB':>10}")
    for name, first, second in NODE_PAIRS:
        for containers, room, count in NODES:
            lines, words = node(containers), ("--room", str(room))
            before, memory = spent(program, lines, *words)
            for turn in range(count):
                lines += [line.format(last=containers + 1, next=containers + 2 + turn) for line in (first, second)]
            seconds, _ = spent(program, lines, *words)
            print(f"{name:46} {containers:10} {(seconds - before) * 1e6 / (2 * count):8.2f} {before:9.2f} {memory:10.1f}")


def main():
    parser = argparse.ArgumentParser(description=__doc__.splitlines()[0])
    parser.add_argument("--program", default=os.path.join(HERE, "crates/mountd/out/mountd"))
    parser.add_argument("--seed", type=int, default=1)
    parser.add_argument("--only", default="")
    parser.add_argument("--pairs", action="store_true", help="time mount and umount in worlds of many mounts instead")
    parser.add_argument("--directories", action="store_true", help="time commands among 10 and 16,000 directories instead")
    parser.add_argument("--node", action="store_true", help="time commands on nodes of many containers instead")
    words = parser.parse_args()
    if words.node:
        time_node(words.program)
        return
    if words.directories:
        time_directories(words.program)
        return
    if words.pairs:
        time_pairs(words.program)
        return
    print(f"{'session':18} {'lines':>8} {'seconds':>8} {'lines/s':>10} {'answers MB':>10} {'memory MB':>10}")
    for workload in WORKLOADS:
        if words.only not in workload.__name__:
            continue
        lines = workload(random.Random(words.seed))
        seconds, answered, memory = run(words.program, lines)
        print(
            f"{workload.__name__:18} {len(lines):8} {seconds:8.3f} {len(lines) / seconds:10.0f}"
            f" {answered / 1e6:10.1f} {memory:10.1f}"
        )


if __name__ == "__main__":
    main()
