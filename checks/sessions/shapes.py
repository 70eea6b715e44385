"""Each command in worlds of some 4,000 mounts, of eleven shapes: the answers are the stored ones, in seconds.
A module, a part of program.py.

The answers in shapes.txt are, for the first six shapes, those of the program that scanned all mounts for each question,
and for the others those of a program without proofs. A line of it has the shape, a line of the session, the first line of
its answer, how many lines that has, and a part of its SHA-256.
"""
import hashlib
import time

from harness.runs import answer_groups, check, read, session, shown, write

STORED = "checks", "sessions", "shapes.txt"

# How long a session may take, in seconds.
MOST_SECONDS = 60

START = [b"mkfs a tmpfs none", b"mkfs d ext4 /dev/x", b"mkdir a /m", b"mkdir a /t", b"mkdir a /x", b"mkdir d /u", b"newns a"]

# How many names lead to the lowest mount of the deep world.
DEPTH = 256


def wide():
    """4,000 mounts on directories of one root."""
    return [line for n in range(4_000) for line in (b"mkdir a /d%d" % n, b"mount 1 d /d%d" % n)]


def deep():
    """15 namespaces of 256 mounts, each on the one before."""
    return [b"rbind 1 / " + b"/m" * 2**k for k in range(8)] + [b"copyns 1"] * 14


def stacked():
    """13 namespaces of 300 mounts in one stack."""
    return [b"mount 1 d /m"] * 300 + [b"copyns 1"] * 12


def spaces():
    """64 namespaces of 63 mounts."""
    return [line for n in range(62) for line in (b"mkdir a /d%d" % n, b"mount 1 d /d%d" % n)] + [b"copyns 1"] * 63


def group():
    """One peer group of 2,000 mounts."""
    lines = [b"mkdir a /g0", b"mount 1 a /g0", b"setattr 1 /g0 prop=shared"]
    return lines + [line for n in range(1, 2_000) for line in (b"mkdir a /g%d" % n, b"bind 1 /g0 /g%d" % n)]


def masters():
    """A chain of 60 peer groups, each the master of the next, with 30 mounts each."""
    lines = [b"mkdir a /g0", b"mount 1 a /g0", b"setattr 1 /g0 prop=shared"]
    for n in range(60):
        if n > 0:
            lines += [b"mkdir a /g%d" % n, b"bind 1 /g%d /g%d" % (n - 1, n)]
            lines += [b"setattr 1 /g%d prop=slave" % n, b"setattr 1 /g%d prop=shared" % n]
        for k in range(1, 30):
            lines += [b"mkdir a /g%dx%d" % (n, k), b"bind 1 /g%d /g%dx%d" % (n, n, k)]
    return lines


def chain():
    """A chain of 1,900 peer groups of one mount, each the master of the next. All of them vanish at once when all mounts are
    made slaves."""
    lines = [b"mkdir a /g0", b"mount 1 a /g0", b"setattr 1 /g0 prop=shared"]
    for n in range(1, 1_900):
        lines += [b"mkdir a /g%d" % n, b"bind 1 /g%d /g%d" % (n - 1, n)]
        lines += [b"setattr 1 /g%d prop=slave" % n, b"setattr 1 /g%d prop=shared" % n]
    return lines


def hidden():
    """A chain of 1,100 masters whose mounts show a directory elsewhere, so that no copies come to them, with a slave of each
    that shows all."""
    lines = [b"mkdir a /g0", b"mount 1 a /g0", b"setattr 1 /g0 prop=shared"]
    for n in range(1, 1_100):
        above = b"/g0" if n == 1 else b"/g%d" % (n - 1)
        lines += [b"mkdir a /g%d" % n, b"mkdir a /h%d" % n, b"bind 1 %s /g%d" % (above, n)]
        lines += [b"setattr 1 /g%d prop=slave" % n, b"setattr 1 /g%d prop=shared" % n]
        lines += [b"bind 1 /g%d /h%d" % (n, n), b"setattr 1 /h%d prop=slave" % n]
    for n in range(1, 1_100):
        lines += [b"mkdir a /i%d" % n, b"bind 1 /g%d/x /i%d" % (n, n), b"umount 1 /g%d" % n]
    return lines


def falling():
    """A stack of 1,900 mounts, each of which has a lower number than the one that it stands on."""
    lines = [line for n in range(1_900) for line in (b"mkdir a /d%d" % n, b"mount 1 d /d%d" % n)]
    return lines + [b"move 1 /d%d /d1899" % n for n in range(1_898, -1, -1)]


def low():
    """1,300 slaves of a group of one mount, and 1,300 of its master that came after them."""
    lines = [b"mkdir a /g", b"mount 1 a /g", b"setattr 1 /g prop=shared"]
    lines += [b"mkdir a /h", b"bind 1 /g /h", b"setattr 1 /h prop=slave", b"setattr 1 /h prop=shared"]
    for path, above in ((b"/l", b"/h"), (b"/k", b"/g")):
        for n in range(1_300):
            name = b"%s%d" % (path, n)
            lines += [b"mkdir a " + name, b"bind 1 %s %s" % (above, name), b"setattr 1 %s prop=slave" % name]
    return lines


def named():
    """64 mounts of 31 directories, each below the last one, in 30 namespaces: the lowest has a mount point of 1,954 names."""
    lines = [b"mkdir d " + b"/n" * depth for depth in range(1, 32)]
    return lines + [b"mount 1 d /m" + b"/n" * 31 * above for above in range(64)] + [b"copyns 1"] * 29


# Each world with a place in it, a place above that or elsewhere, and a free one.
SHAPES = {
    "wide": (wide, b"/d7", b"/d3999", b"/x"),
    "deep": (deep, b"/m" * (DEPTH - 1), b"/m" * (DEPTH // 2), b"/m" * DEPTH),
    "stacked": (stacked, b"/m", b"/m/u", b"/x"),
    "spaces": (spaces, b"/d7", b"/d61", b"/x"),
    "group": (group, b"/g7", b"/g1999", b"/g0/t"),
    "masters": (masters, b"/g7", b"/g59x29", b"/g0/t"),
    "chain": (chain, b"/g7", b"/g1899", b"/g0/t"),
    "hidden": (hidden, b"/h7", b"/h1099", b"/g0/t"),
    "falling": (falling, b"/d1899", b"/d1899/u", b"/x"),
    "low": (low, b"/l7", b"/k1299", b"/x"),
    "named": (named, b"/m" + b"/n" * 31 * 62, b"/m" + b"/n" * 31, b"/m" + b"/n" * 31 * 64),
}

# What some worlds are asked first.
FIRST = {"falling": [b"rbind 1 / /t"], "low": [b"umount 1 /h"]}

# What each world is asked, and how it is changed and changed back.
COMMANDS = [
    b"watch all",
    b"show 1",
    b"find 1 %(here)s",
    b"mount 1 d %(free)s",
    b"bind 1 %(here)s %(free)s",
    b"find 1 %(free)s/u",
    b"umount 1 %(free)s",
    b"umount 1 %(free)s",
    b"umount 1 %(free)s",
    b"rbind 1 %(here)s %(free)s",
    b"setattr 1 %(free)s rec set=ro,noexec",
    b"move 1 %(there)s %(free)s",
    b"move 1 %(here)s %(here)s",
    b"setattr 1 / rec set=nosuid prop=shared",
    b"mount 1 d /t",
    b"umount 1 /t",
    b"newns d",
    b"copyns 1",
    b"setattr 1 %(here)s prop=slave",
    b"setattr 1 / rec prop=slave",
    b"setattr 1 %(there)s rec prop=unbindable",
    b"rbind 1 / %(free)s",
    b"setattr 1 / rec clr=nosuid prop=private",
    b"umount 1 %(here)s",
    b"umount 1 %(there)s",
    b"show 1",
    b"find 2 %(here)s",
    b"show 2",
]


def turns(name):
    """The lines that make a world, and those that ask and change it, with a `take` after each."""
    make, here, there, free = SHAPES[name]
    lines = FIRST.get(name, []) + [line % {b"here": here, b"there": there, b"free": free} for line in COMMANDS]
    return START + make(), [each for line in lines for each in (line, b"take 1024")]


def told(name, line, answer):
    """A line of the file."""
    short = line if len(line) < 60 else line[:40] + b".. of %d bytes" % len(line)
    digest = hashlib.sha256(b"\n".join(answer)).hexdigest()[:16].encode()
    return b" | ".join([name.encode(), short, answer[0][:60] if answer else b"", b"%d" % len(answer), digest])


def answered(program, name):
    """What the file says of a shape, as this program answers, and how long it takes."""
    made, asked = turns(name)
    start = time.monotonic()
    status, output, complaint = session(program, made + asked)
    took = time.monotonic() - start
    check(f"end of the {name} world", (status, complaint) == (0, b""), f"status {status}: {shown(complaint)}")
    groups = answer_groups(output, made + asked)
    refused = [line for line, answer in zip(made, groups) if not answer or not answer[0].startswith(b"ok")]
    check(f"the {name} world is made", not refused, shown(b"\n".join(refused[:5])))
    return [told(name, line, answer) for line, answer in zip(asked, groups[len(made) :])], took


def check_shapes(program):
    stored = read(*STORED).split(b"\n")
    for name in SHAPES:
        wanted = [line for line in stored if line.startswith(name.encode() + b" | ")]
        found, took = answered(program, name)
        check(f"a take or a command for each line of the {name} world", len(found) == len(wanted))
        for one, other in zip(wanted, found):
            check(f"an answer in the {name} world", one == other, f"wanted {shown(one)}\nfound  {shown(other)}")
        check(f"the time of the {name} world", took < MOST_SECONDS, f"{took:.1f} s")
        print(f"world, {name}: {took:.1f} s", flush=True)


def update(program):
    """Writes this program's answers into the file."""
    write(b"".join(line + b"\n" for name in SHAPES for line in answered(program, name)[0]), *STORED)
