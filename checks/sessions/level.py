"""Memory and speed that stay level: what a session has needed at most does not grow with what has come and gone, and a
command takes no longer. A module, a part of program.py.

What has to grow is the journal, which keeps every accepted command. So the rounds of worlds that are filled
and emptied have few commands, and the bound for many commands is the journal's own size.
"""
import re
import subprocess
import time

from harness.runs import check

# Namespaces of one peer group, and the mounts on a directory that fill them up to 4,096.
NAMESPACES = 64
MOUNTS = 63

ROUNDS = 100

# The rounds after which a session has had all that it will ever need at once.
FIRST_ROUNDS = 10

# How much more a session may have needed after the last round: the journal of 12,600 commands, and pages.
MORE_KILOBYTES = 4_096

# Commands that change nothing, how many are sent before their answers are read (a pipe holds either), and what
# they may need: 128 bytes a command in the journal, and 5,000 kB for all else. Eight bytes more a command would be
# 7,800 kB.
COMMANDS = 1_000_000
PORTION = 5_000
MOST_KILOBYTES = 130_000

# Commands on a path of 2,000 names that change nothing, and how much more each may need, in bytes: that of the path, two
# for each name, and as much again. Mounts of filesystems that are 31 directories deep lead there.
DEAR_COMMANDS = 10_000
MOST_BYTES = 8 << 10
DOWN = b"/a" * 31
DEAR_PATH = b"/m" + b"/a" * 1_999
DEAR_WORLD = [
    *(b"mkfs a tmpfs none", b"mkfs d ext4 /dev/x", b"mkdir a /m", b"newns a"),
    *(b"mkdir d " + b"/a" * depth for depth in range(1, 32)),
    *(b"mount 1 d /m" + DOWN * above for above in range(65)),
    b"mount 1 d " + DEAR_PATH,
]

# Namespaces are made and dropped in so many rounds. The journal of 130,000 commands is 17,000 kB, and half as much again
# where it has just grown. A round at the end, the fastest of the last ones, may take so many times as long as the
# fastest of the first ones, in one of so many sessions: a machine that is shared may become slower within one, for the
# tenth of a second that the last rounds take.
DROPPING_ROUNDS = 1_000
SOME_ROUNDS = 50
DROPPED_KILOBYTES = 28_000
MOST_TIMES = 2
DROPPING_SESSIONS = 5


class Session:
    """A session whose answers are read as they come."""

    def __init__(self, program):
        self.process = subprocess.Popen([program, "-"], stdin=subprocess.PIPE, stdout=subprocess.PIPE)

    def send(self, lines):
        """Whether each of these lines is accepted, by an answer of one line."""
        self.process.stdin.write(b"".join(line + b"\n" for line in lines))
        self.process.stdin.flush()
        return all(self.process.stdout.readline().startswith(b"ok") for _line in lines)

    def peak(self):
        """The most memory that was resident so far, in kilobytes."""
        with open(f"/proc/{self.process.pid}/status", encoding="ascii") as status:
            return int(re.search(r"VmHWM:\s+(\d+) kB", status.read())[1])

    def end(self):
        self.process.stdin.close()
        self.process.stdout.close()
        return self.process.wait()


def filled_and_emptied(program):
    session = Session(program)
    start = [b"mkfs a tmpfs none", b"mkfs d ext4 /dev/x", b"mkdir a /m", b"newns a", b"setattr 1 / prop=shared"]
    start += [b"copyns 1"] * (NAMESPACES - 1)
    accepted = session.send(start)
    peaks = []
    for _round in range(ROUNDS):
        accepted = session.send([b"mount 1 d /m"] * MOUNTS) and accepted
        accepted = session.send([b"umount 1 /m"] * MOUNTS) and accepted
        peaks.append(session.peak())
    check("commands of the rounds", accepted and session.end() == 0)
    grown = peaks[-1] - peaks[FIRST_ROUNDS - 1]
    told = f"{peaks[FIRST_ROUNDS - 1]} kB after {FIRST_ROUNDS} rounds, {peaks[-1]} kB after {ROUNDS}"
    check("memory of a world that is filled and emptied", grown <= MORE_KILOBYTES, told)
    print(f"filled and emptied: {told}")


def nothing_changed(program):
    session = Session(program)
    accepted = session.send([b"mkfs a tmpfs none", b"newns a"])
    for _portion in range(COMMANDS // PORTION):
        accepted = session.send([b"setattr 1 /"] * PORTION) and accepted
    peak = session.peak()
    check("commands that change nothing", accepted and session.end() == 0)
    check("memory of commands that change nothing", peak <= MOST_KILOBYTES, f"{peak} kB")
    print(f"{COMMANDS} commands that change nothing: {peak} kB")


def nothing_changed_far_down(program):
    session = Session(program)
    accepted = session.send(DEAR_WORLD)
    before = session.peak()
    for _portion in range(DEAR_COMMANDS // 10):
        accepted = session.send([b"setattr 1 " + DEAR_PATH] * 10) and accepted
    each = (session.peak() - before) * 1_024 // DEAR_COMMANDS
    check("commands on a long path", accepted and session.end() == 0)
    check("memory of commands on a long path", each <= MOST_BYTES, f"{each} bytes each")
    print(f"{DEAR_COMMANDS} commands on a path of 2,000 names: {each} bytes each")


def made_and_dropped(program):
    """Makes and drops namespaces in a new session: milliseconds of a round at first, and at last."""
    session = Session(program)
    accepted = session.send([b"mkfs a tmpfs none", b"mkfs d ext4 /dev/x", b"mkdir a /m"])
    times, peaks = [], []
    for number in range(DROPPING_ROUNDS):
        first = number * NAMESPACES + 1
        lines = [b"newns a", b"setattr %d / prop=shared" % first]
        lines += [b"copyns %d" % first] * (NAMESPACES - 1) + [b"mount %d d /m" % first]
        lines += [b"dropns %d" % space for space in range(first, first + NAMESPACES)]
        start = time.monotonic()
        accepted = session.send(lines) and accepted
        times.append(time.monotonic() - start)
        peaks.append(session.peak())
    check("commands that make and drop namespaces", accepted and session.end() == 0)
    grown = peaks[-1] - peaks[FIRST_ROUNDS - 1]
    told = f"{peaks[FIRST_ROUNDS - 1]} kB after {FIRST_ROUNDS} rounds, {peaks[-1]} kB after {DROPPING_ROUNDS}"
    check("memory of namespaces that are made and dropped", grown <= DROPPED_KILOBYTES, told)
    print(f"{NAMESPACES} namespaces made and dropped {DROPPING_ROUNDS} times: {told}")
    return min(times[:SOME_ROUNDS]) * 1_000, min(times[-SOME_ROUNDS:]) * 1_000


def made_as_fast(program):
    """Whether namespaces are made and dropped as fast at last as at first, in one session at least."""
    taken = []
    for _session in range(DROPPING_SESSIONS):
        begun, ended = made_and_dropped(program)
        taken.append(f"{begun:.2f} milliseconds a round at first, {ended:.2f} at last")
        if ended <= MOST_TIMES * begun:
            break
    else:
        check("speed of namespaces that are made and dropped", False, "; ".join(taken))
    print("; ".join(taken))


def check_level(program):
    filled_and_emptied(program)
    made_as_fast(program)
    nothing_changed(program)
    nothing_changed_far_down(program)
