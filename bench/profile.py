#!/usr/bin/env python3
"""Counts instructions of `mountd -` in worlds of growing size: those of the engine, those by which the spare world
follows the one that is shown, and those of the rows that were touched, which are compared after each command. A program
that is called by hand.

Usage: bench/profile.py [--program PATH] [--only WORD] [--times N]

The program is crates/mountd/out/mountd, which `rt run mountd` builds; valgrind counts, and has to be there. A world is
made without counting, and so are its commands twice; then they are counted, N times (4) in all. A bound tree and a
copied namespace stay, so that the world grows by its own size each time; an opened tree is closed or attached. The growth
is the slope of log(instructions) over log(size): 0 does not grow, 1 grows with the size.
"""
import argparse
import math
import os
import re
import subprocess
import tempfile

HERE = os.path.dirname(os.path.dirname(os.path.abspath(__file__)))

# What is counted, with all that it calls.
PARTS = {
    "engine": "mt_book::step::step",
    "following": "mt_book::spare::level",
    "tables": "mt_book::changes::changes_after",
    "in all": "PROGRAM TOTALS",
}


def start():
    """Two filesystems, three directories and a namespace."""
    return ["mkfs a tmpfs none", "mkfs d ext4 /dev/x", "mkdir a /x", "mkdir a /s", "mkdir d /u", "newns a"]


def many_mounts(count):
    """A namespace of so many private mounts."""
    lines = start()
    for n in range(count):
        lines += [f"mkdir a /d{n}", f"mount 1 d /d{n}"]
    return lines


def tree(count):
    """A mount at /x on which so many others stand."""
    lines = start() + ["mount 1 d /x"]
    for n in range(count):
        lines += [f"mkdir d /d{n}", f"mount 1 a /x/d{n}"]
    return lines


def pivoted(count):
    """A namespace of so many private mounts, and one that is to be its root."""
    return many_mounts(count) + ["mount 1 d /x"]


def received_trees(count):
    """A mount at /x on which so many others stand, and a place for a copy of it that ten other namespaces receive."""
    return tree(count) + ["setattr 1 / prop=shared"] + ["copyns 1 less"] * 10


def many_directories(count):
    """A namespace of one mount, beside so many directories."""
    return start() + [f"mkdir a /d{n}" for n in range(count)]


def many_spaces(count):
    """So many namespaces of 65 private mounts each."""
    return many_mounts(64) + ["copyns 1"] * (count - 1)


def many_peers(count):
    """A peer group of so many mounts, 50 namespaces of them at most."""
    spaces = min(count, 50)
    lines = ["mkfs h tmpfs none", "mkfs a ext4 /dev/x", "mkfs d xfs /dev/y", "mkdir a /t", "mkdir a /s", "newns h"]
    lines += ["mkdir h /w", "mount 1 a /w", "setattr 1 /w prop=shared"]
    for n in range(1, count // spaces):
        lines += [f"mkdir h /w{n}", f"bind 1 /w /w{n}"]
    return lines + ["copyns 1"] * (spaces - 1)


def peers_elsewhere(count):
    """A peer group of so many mounts that do not hold the directory, and one that does."""
    spaces = min(count, 50)
    lines = ["mkfs h tmpfs none", "mkfs a ext4 /dev/x", "mkfs d xfs /dev/y", "mkdir a /t", "mkdir a /s", "newns h"]
    lines += ["mkdir h /w", "mount 1 a /w", "setattr 1 /w prop=shared"]
    for n in range(count // spaces):
        lines += [f"mkdir h /v{n}"]
    lines += ["copyns 1"]
    for n in range(count // spaces):
        lines += [f"bind 2 /w/s /v{n}"]
    return lines + ["umount 2 /w"] + ["copyns 2"] * (spaces - 1)


def chain(count):
    """So many namespaces, each one's member a slave of the one before."""
    lines = ["mkfs h tmpfs none", "mkfs a ext4 /dev/x", "mkfs d xfs /dev/y", "mkdir a /t", "newns h", "mkdir h /w"]
    lines += ["mount 1 a /w", "setattr 1 /w prop=shared"]
    for n in range(1, count):
        lines += [f"copyns {n}", f"setattr {n + 1} /w prop=slave", f"setattr {n + 1} /w prop=shared"]
    return lines


def masters(others):
    """60 masters in one namespace, and so many other namespaces with a slave of each."""
    lines = start()
    for n in range(60):
        lines += [f"mkdir a /d{n}", f"mount 1 d /d{n}", f"setattr 1 /d{n} prop=shared"]
    for n in range(others):
        lines += ["copyns 1", f"setattr {n + 2} / rec prop=slave"]
    return lines


# A world, its sizes, and the commands that are counted together. TREE is the number of the namespace that the commands make.
WORLDS = {
    "copies": (many_peers, (10, 100, 1000), ["mount 1 d /w/t", "umount 1 /w/t"]),
    "receivers without the directory": (peers_elsewhere, (10, 100, 1000), ["mount 1 d /w/t", "umount 1 /w/t"]),
    "a chain of masters": (chain, (6, 60), ["mount 1 d /w/t", "umount 1 /w/t"]),
    "among mounts": (many_mounts, (40, 400, 2000), ["mount 1 d /x", "umount 1 /x"]),
    "attributes among mounts": (many_mounts, (40, 400, 2000), ["setattr 1 /d7 set=ro", "setattr 1 /d7 clr=ro"]),
    "propagation among mounts": (many_mounts, (40, 400, 2000), ["setattr 1 /d7 prop=shared", "setattr 1 /d7 prop=private"]),
    "attributes of a master": (masters, (3, 15, 63), ["setattr 1 /d7 set=ro", "setattr 1 /d7 clr=ro"]),
    "among directories": (many_directories, (40, 400, 4000), ["mount 1 d /x", "umount 1 /x"]),
    "beside other namespaces": (many_spaces, (1, 8, 60), ["mount 1 d /x", "umount 1 /x"]),
    "on a stack": (lambda n: start() + ["mount 1 d /x"] * n, (10, 100, 1000), ["mount 1 d /x", "umount 1 /x"]),
    "a tree that moves": (tree, (40, 400, 2000), ["move 1 /x /s", "move 1 /s /x"]),
    "a pivot there and back": (pivoted, (40, 400, 2000), ["pivot 1 /x /x/u", "pivot 1 /u /u/x"]),
    "a tree that is bound and detached": (tree, (40, 160, 500), ["rbind 1 /x /s", "detach 1 /s"]),
    "the same with ten receivers": (received_trees, (4, 16, 50), ["rbind 1 /x /s", "detach 1 /s"]),
    "a tree that is bound": (tree, (40, 160, 500), ["rbind 1 /x /s"]),
    "a namespace that is copied": (many_mounts, (40, 160, 500), ["copyns 1"]),
    "a tree of one mount among mounts": (many_mounts, (40, 400, 2000), ["newtree d", "movetree TREE 1 /x", "umount 1 /x"]),
    "one that is opened among mounts": (many_mounts, (40, 400, 2000), ["opentree 1 /d7", "movetree TREE 1 /x", "umount 1 /x"]),
    "a tree that is opened and closed": (tree, (40, 160, 500), ["opentree 1 /x rec", "dropns TREE"]),
    "a tree that is opened, attached and detached": (tree, (40, 160, 500), ["opentree 1 /x rec", "movetree TREE 1 /s", "detach 1 /s"]),
    "the same with ten receivers of the tree": (received_trees, (4, 16, 50), ["opentree 1 /x rec", "movetree TREE 1 /s", "detach 1 /s"]),
    "attributes of a tree": (many_mounts, (40, 400, 2000), ["setattr 1 / rec set=ro", "setattr 1 / rec clr=ro"]),
}


def counted(program, lines, commands, times):
    """Instructions of each part while these commands are done so often, after these lines and twice uncounted:
    the first ones on each of the two worlds may make room for as many mounts as there are."""
    with tempfile.TemporaryDirectory() as folder:
        out = os.path.join(folder, "profile")
        run = subprocess.Popen(
            ["valgrind", "--tool=callgrind", "--instr-atstart=no", f"--callgrind-out-file={out}", program, "-"],
            stdin=subprocess.PIPE, stdout=subprocess.PIPE, stderr=subprocess.DEVNULL)
        try:
            feed(run, lines + done(lines, commands, 0, 2))
            subprocess.run(["callgrind_control", "-i", "on", str(run.pid)], check=True, capture_output=True)
            feed(run, done(lines, commands, 2, 2 + times))
        finally:
            run.stdin.close()
            run.wait()
        text = subprocess.run(["callgrind_annotate", "--inclusive=yes", "--threshold=100", out], check=True,
                              capture_output=True, text=True).stdout
    return {part: instructions(text, name) for part, name in PARTS.items()}


def done(lines, commands, first, end):
    """The commands from one time up to another, each time with the number of the namespace that they make."""
    spaces = sum(line.split()[0] in ("newns", "copyns") for line in lines)
    return [line.replace("TREE", str(spaces + 1 + time)) for time in range(first, end) for line in commands]


def feed(run, lines):
    """Sends lines and reads the first line of each answer; none of them has more."""
    run.stdin.write(("\n".join(lines) + "\n").encode())
    run.stdin.flush()
    for line in lines:
        if not run.stdout.readline().startswith(b"ok"):
            raise SystemExit(f"refused: {line}")


def instructions(text, name):
    """What stands in front of a function's name."""
    for line in text.splitlines():
        if name in line:
            return int(re.match(r"\s*([\d,]+)", line).group(1).replace(",", ""))
    raise SystemExit(f"not in the profile: {name}")


def growth(sizes, figures):
    """The slope between the two largest sizes."""
    return f"{math.log(figures[-1] / figures[-2]) / math.log(sizes[-1] / sizes[-2]):.2f}"


def main():
    parser = argparse.ArgumentParser()
    parser.add_argument("--program", default=os.path.join(HERE, "crates/mountd/out/mountd"))
    parser.add_argument("--only", default="")
    parser.add_argument("--times", type=int, default=4)
    given = parser.parse_args()
    for title, (world, sizes, commands) in WORLDS.items():
        if given.only not in title:
            continue
        found = [counted(given.program, world(size), commands, given.times) for size in sizes]
        for part in PARTS:
            figures = [counts[part] // given.times for counts in found]
            shown = "  ".join(f"{size}: {figure:,}" for size, figure in zip(sizes, figures))
            print(f"{title}, {part}: {shown}  growth {growth(sizes, figures)}", flush=True)


if __name__ == "__main__":
    main()
