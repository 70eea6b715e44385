#!/usr/bin/env -S python3 -B
"""Compares the rules with the running Linux kernel. A program of the gate.

    checks/kernel.py PROGRAM [--seed N] [--scripts N] [--seconds S] [--replay FILE]

Scripts of commands are carried out by a session of the program, and as root by the kernel, in mount namespaces of their own
(kernels/spaces.py). Behind each command the tables of all namespaces are the same but for their numbers (harness/comparison.py), and what one
side refuses the other refuses too. docs/KERNEL.md names each known difference and shows it (kernels/differences.py); one without a
name is a failure, which is printed as the shortest script that was found to show it, with the tables of both sides.

First come the examples of docs/KERNEL.md, then the sessions of cases/ and docs/TOUR.md, then random scripts (harness/scripts.py):
so many of them, or until so many seconds are over since the start. A seed makes the same scripts again. --replay
plays the lines of a file alone. In all replayed sessions a filesystem's type is tmpfs, and lines that are no commands are
left away.

Where the machine does not allow it, or its kernel is none of those that docs/KERNEL.md has, one line `skipped: WHY` is
printed, and the status is 0.
"""
import argparse
import collections
import os
import random
import re
import time
from typing import NamedTuple

from documents import tour
from harness import commands
from harness.protocol import Ended, word_of
from harness.runs import check, failures, read, shown
from harness.scripts import Author, shorter
from kernels import differences
from kernels.plays import Play, Unknown
from kernels.spaces import Silent, Worker
from sessions import cases

PAGE = "docs", "KERNEL.md"
EXAMPLE = cases.marked(b"difference")
# A row of the page's table of kernels.
SEEN = re.compile(r"(?m)^\| (\d+\.\d+)\.\S+ \|")
# A name and a reason of the page's table of differences.
NAMED = re.compile(r"(?m)^\| `([a-z-]+)` \|.*\| ([^|]+) \|$")
# What a machine has to allow.
ALLOWED = [b"mkfs a tmpfs none", b"newns a", b"copyns 1", b"copyns 1 less lock", b"opentree 1 / rec"]
# How long a failing script is made shorter, in seconds.
SHORTENING = 10


class Played(NamedTuple):
    """The lines that were played, the play, and what was unknown after the last line."""

    lines: list
    play: Play
    unknown: str


class Replayed:
    """Lines that are there."""

    def __init__(self, lines):
        self.lines = iter(lines)

    def next_line(self, _rows, _trees):
        return next(self.lines, None)


class Sum:
    """What all plays have seen."""

    def __init__(self):
        self.counts, self.known, self.refusals = (collections.Counter() for _ in range(3))

    def add(self, play):
        for mine, its in ((self.counts, play.counts), (self.known, play.known), (self.refusals, play.refusals)):
            mine.update(its)
        self.counts["ended apart"] += play.is_apart

    def print(self):
        print("commands:", ", ".join(f"{word} {count}" for word, count in self.counts.items()))
        pairs = sorted(self.refusals.items())
        print("refusals here and there:", ", ".join(f"{ours} {theirs} {count}" for (ours, theirs), count in pairs))
        for kind in differences.ALL:
            print(f"known difference {kind.name}, {self.known[kind.name]} times: {kind.why}")


def lines_of(source, play):
    """The lines of an author, and then those that put up the trees that are left."""
    while (line := source.next_line(play.rows(), play.trees)) is not None:
        yield line
    yield from play.last_lines()


def play_lines(program, source, is_thorough=False):
    """Plays the lines of an author until one is unknown, or the tables are apart."""
    lines, unknown = [], ""
    with Play(program, is_thorough) as play:
        for line in lines_of(source, play):
            lines.append(line)
            try:
                play.step(line)
            except (Unknown, Silent, Ended) as found:
                unknown = f"behind {shown(line)}\n{found}\n{play.both_tables()}"
            if unknown or play.is_apart:
                break
    return Played(lines, play, unknown)


def commands_of(requests):
    """The lines of a session that are commands, with filesystems that the kernel can make."""
    lines = [line for line in requests if word_of(line) in commands.CHANGING]
    return [re.sub(rb"^(mkfs \S+) \S+ ", rb"\1 tmpfs ", line) for line in lines]


def check_replayed(name, program, lines, is_thorough=False):
    """Lines that are there are the same on both sides."""
    played = play_lines(program, Replayed(lines), is_thorough)
    check(f"{name} in the kernel", played.unknown == "", played.unknown)
    return played.play


def check_sessions(program, end, total):
    """The sessions of cases/ and of the tour are the same in the kernel, as many as there is time for."""
    sessions = [(f"case {name}", cases.load(name)) for name in cases.names()]
    sessions += [(f"session {name}", cases.parse(text)) for name, text in tour.sessions().items()]
    done = 0
    while done < len(sessions) and time.monotonic() < end:
        name, case = sessions[done]
        total.add(check_replayed(name, program, commands_of(case.requests())))
        done += 1
    check("a session was compared", done > 0)
    print(f"sessions: {done} of {len(sessions)}")


def check_examples(program):
    """The page has each difference by its name, and its examples are answered so, and show the differences."""
    page = read(*PAGE)
    named, shown_names = sorted(NAMED.findall(page.decode())), []
    known = sorted((kind.name, kind.why) for kind in differences.ALL)
    check("docs/KERNEL.md has each known difference, and why", named == known, f"{named}\n{known}")
    for _, name, text, _ in EXAMPLE.findall(page):
        name = name.decode()
        shown_names.append(name)
        cases.check_session(f"example {name} of docs/KERNEL.md", text, program)
        play = check_replayed(f"example {name}", program, commands_of(cases.parse(text).requests()), is_thorough=True)
        if play.known[name] == 0:
            print(f"not seen on this kernel: {name}")
    check("docs/KERNEL.md has an example of each", sorted(shown_names) == [name for name, _ in known], str(shown_names))


def check_scripts(program, seed, count, end, total):
    """Random scripts are the same on both sides, but for the known differences."""
    done, before = 0, total.counts["accepted"]
    while done < count and time.monotonic() < end:
        played = play_lines(program, Author(random.Random(f"{seed} {done}"), has_trees=True))
        total.add(played.play)
        if played.unknown:
            check(f"script {done} of seed {seed}", False, shortest(program, played))
            return
        done += 1
    check("a script was compared", done > 0 or not count)
    print(f"scripts: {done} of seed {seed}, in which {total.counts['accepted'] - before} commands were accepted")


def shortest(program, played):
    """The shortest script that was found to show something unknown, and what it shows."""
    end = time.monotonic() + SHORTENING
    lines = shorter(
        played.lines,
        lambda some: play_lines(program, Replayed(some)).unknown != "",
        lambda: time.monotonic() > end,
    )
    again = play_lines(program, Replayed(lines))
    return "\n".join([*map(shown, again.lines), again.unknown or played.unknown])


def why_not():
    """Why this machine's kernel is not compared, or nothing."""
    kernel = os.uname().release
    seen = SEEN.findall(read(*PAGE).decode())
    if ".".join(kernel.split(".")[:2]) not in seen:
        return f"kernel {kernel} is none of those of docs/KERNEL.md ({', '.join(seen)})"
    try:
        worker = Worker()
        refused = [number for line in ALLOWED if (number := worker.run(line.split(b" "))[0])]
        worker.close()
    except (OSError, EOFError) as error:
        return f"no mount namespace can be made: {error}"
    return f"a namespace is refused: {os.strerror(refused[0])}" if refused else ""


def read_words():
    parser = argparse.ArgumentParser(description=__doc__, formatter_class=argparse.RawDescriptionHelpFormatter)
    parser.add_argument("program", type=os.path.abspath)
    parser.add_argument("--seed", type=int, default=1)
    parser.add_argument("--scripts", type=int, default=150)
    parser.add_argument("--seconds", type=float, default=40)
    parser.add_argument("--replay", type=argparse.FileType("rb"), help="a file of lines")
    return parser.parse_args()


def main():
    words, start, total = read_words(), time.monotonic(), Sum()
    if why := why_not():
        print(f"skipped: {why}")
        return
    print(f"kernel {os.uname().release}, seed {words.seed}")
    if words.replay:
        total.add(check_replayed(words.replay.name, words.program, commands_of(words.replay.read().splitlines())))
    else:
        end = start + words.seconds
        check_examples(words.program)
        check_sessions(words.program, end, total)
        check_scripts(words.program, words.seed, words.scripts, end, total)
    total.print()
    if failures:
        raise SystemExit(f"checks of the kernel failed: {len(failures)}")
    print(f"checks of the kernel passed: {time.monotonic() - start:.1f} s")


if __name__ == "__main__":
    main()
