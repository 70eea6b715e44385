#!/usr/bin/env -S python3 -B
"""Compares what `mountctl reach` says with where mounts really come. A program of the gate.

    checks/reach.py PROGRAM CLIENT [--seed N] [--worlds N] [--kernels N] [--seconds S]

Each world is what a random script of commands (harness/scripts.py) leaves. At some of its places `reach` is asked, of the tables of
all namespaces and of some of them. Then the mount is made there, and each new row is one that was told, and each that was told is
one of them: on which mount and at which point, and whether a path leads to it. With tables missing, what is told as sure is so. Each
remedy is carried out: a mount that is made elsewhere comes to both, or here; what is joined gets; what is stopped gets nothing, and
all others what they got.

The worlds of --worlds are those of a session of the program; those of --kernels are made by the running kernel (kernels/spaces.py),
where the machine allows it.
"""
import argparse
import collections
import os
import random
import re
import subprocess
import tempfile
import time
from typing import NamedTuple

from harness.commands import MAKING_NAMESPACES
from harness.protocol import refusal_of, rows_of, unescaped
from harness.runs import MOST_SECONDS, Served, check, failures, shown
from harness.scripts import NAMES, Author, joined
from kernels.spaces import Silent, Worker

PLACE = re.compile(r"A mount at (\S+) in (.*) stands on mount (\d+) ")
COPY = re.compile(r"  \+ (\S+) in (\d+)  on mount (\d+): ([^\[]*)(\[.*\])?")
UNTOLD = re.compile(r"  \? (\S+) in (\d+)  on mount (\d+): ")
APART = re.compile(r"  - (\S+) in (\d+)  on mount (\d+): ")
STOP = re.compile(r"      stop it: (setattr .*)")
MADE = re.compile(r"      made at (\S+) in (\d+) it comes (to both|here)")
JOIN = re.compile(r"      to join them: (.*)")

# How many places of a world are asked about.
PLACES = 3
PROBE = b"probe"


class Told(NamedTuple):
    """What `reach` tells: of a copy whether a path leads to it and what stops it, of a mount that is apart what helps."""

    status: int
    text: str
    mount: int
    copies: dict
    untold: set
    apart: dict


class Gone(Exception):
    """A world in which the mount is refused, or that nothing can be asked of."""


def told_by(status, text):
    """What an answer tells."""
    place = PLACE.match(text)
    mount = int(place.group(3)) if place else 0
    copies, untold, apart, last = {}, set(), {}, []
    for line in text.splitlines():
        if found := COPY.match(line):
            last = [(found.group(2), found.group(1), found.group(5) is None), ""]
            copies[int(found.group(3))] = last
        elif found := UNTOLD.match(line):
            untold.add(int(found.group(3)))
        elif found := APART.match(line):
            last = []
            apart[int(found.group(3))] = last
        elif found := STOP.match(line):
            last[1] = found.group(1)
        elif (found := MADE.match(line)) or (found := JOIN.match(line)):
            last.append(found.groups())
    return Told(status, text, mount, copies, untold, apart)


def asked(client, tables, space, path):
    """What `reach` tells of some tables."""
    with tempfile.TemporaryDirectory() as folder:
        for number, text in tables.items():
            with open(os.path.join(folder, f"{number}"), "wb") as file:
                file.write(text)
        words = [client, "reach", *map(str, tables), "--", str(space), path]
        done = subprocess.run(words, capture_output=True, cwd=folder, timeout=MOST_SECONDS, check=False)
    if done.stderr or done.returncode not in (0, 1):
        raise AssertionError(f"status {done.returncode}: {shown(done.stderr)}")
    return told_by(done.returncode, shown(done.stdout))


class Model:
    """A world of a session of the program."""

    name = "server"

    def __init__(self, program):
        self.program, self.served, self.accepted = program, Served(program), []
        self.spaces, self.made = [], 0

    def run(self, line):
        """Whether a command is accepted."""
        [[answer, *_]] = self.served.ask(line)
        if refusal_of(answer) is not None:
            return False
        self.accept(line)
        return True

    def accept(self, line):
        """Notes a command that was accepted."""
        self.accepted.append(line)
        words = line.split(b" ")
        if words[0] in MAKING_NAMESPACES:
            self.made += 1
            self.spaces.append(self.made)
        elif words[0] == b"dropns":
            self.spaces.remove(int(words[1]))

    def tables(self):
        """The lines of each namespace's table."""
        answers = self.served.ask(*(b"show %d" % number for number in self.spaces))
        return {number: b"".join(row + b"\n" for row in rows) for number, (_, *rows) in zip(self.spaces, answers)}

    def leads_to(self, number, row):
        """Whether a path leads to a mount."""
        [[answer, *_]] = self.served.ask(b"find %d %b" % (number, row.point))
        return answer.split(b" ")[:2] == [b"ok", b"%d" % row.id] and answer.split(b" ")[2] == row.root

    def again(self):
        """The same world, before what comes next."""
        copy = Model(self.program)
        copy.served.ask(*self.accepted)
        for line in self.accepted:
            copy.accept(line)
        return copy

    def close(self):
        self.served.close()


class Kernel:
    """A world of the running kernel."""

    name = "kernel"

    def __init__(self):
        self.worker, self.accepted = Worker(), []

    def run(self, line):
        words = [unescaped(word) for word in line.split(b" ")]
        number, _ = self.worker.run(words)
        if number == 0:
            self.accepted.append(line)
        return number == 0

    def tables(self):
        return dict(self.worker.tables)

    def leads_to(self, number, row):
        """Whether a path leads to a mount: no other row stands at its place, or at one in front of it."""
        rows = {other.id: other for other in rows_of(self.worker.tables[number].rstrip(b"\n"))}
        here = next(other for other in rows.values() if other.parent not in rows)
        done = b""
        for name in row.point.strip(b"/").split(b"/") if row.point != b"/" else ():
            done += b"/" + name
            while above := [other for other in rows.values() if other.parent == here.id and other.point == done]:
                here = above[0]
        return here.id == row.id

    def again(self):
        copy = Kernel()
        for line in self.accepted:
            copy.run(line)
        return copy

    def close(self):
        self.worker.close()


def rows_in(tables):
    """The rows of all tables, by namespace and ID."""
    return {(number, row.id): row for number, text in tables.items() for row in rows_of(text.rstrip(b"\n"))}


def new_rows(world, before, space, path):
    """The rows that a mount at a path makes, by the mounts on which they stand; Gone where it is refused."""
    if not world.run(b"mount %d %b %b" % (space, PROBE, path)):
        raise Gone
    after = world.tables()
    new = {key: row for key, row in rows_in(after).items() if key not in before}
    return {row.parent: (f"{key[0]}", shown(row.point), world.leads_to(key[0], row)) for key, row in new.items()}


class Case:
    """A place of a world, and what was told of it."""

    def __init__(self, world, client, space, path, counts):
        self.world, self.client, self.space, self.path, self.counts = world, client, space, path, counts
        self.before = world.tables()
        self.told = asked(client, self.before, space, path)

    def fail(self, why, more=""):
        lines = "\n".join(map(shown, self.world.accepted))
        check(f"reach in a {self.world.name}'s world", False, f"{why}\n{lines}\n{self.space} {shown(self.path)}\n{self.told.text}{more}")

    def compare(self):
        """The mount is made, and its copies are those that were told."""
        # The kernel gives other IDs to another world that is the same, so its mount is made where `reach` was asked.
        world = self.world.again() if isinstance(self.world, Model) else self.world
        try:
            made = new_rows(world, rows_in(self.before), self.space, self.path)
        finally:
            if world is not self.world:
                world.close()
        self.counts["places"] += 1
        if self.told.mount not in made:
            self.fail(f"it stands on {sorted(made)}")
        copies = {mount: there for mount, there in made.items() if mount != self.told.mount}
        told = {mount: there for mount, [there, _] in self.told.copies.items()}
        if copies != told or self.told.untold:
            self.fail(f"copies {copies}\ntold {told}")
        if self.told.status != (0 if told else 1):
            self.fail(f"status {self.told.status}")
        self.counts["copies"] += len(copies)
        self.counts["hidden copies"] += sum(not there[2] for there in copies.values())
        return copies

    def compare_some(self, chance, copies):
        """What is sure of some tables is so."""
        kept = {number: text for number, text in self.before.items() if number == self.space or chance.random() < 0.5}
        if len(kept) == len(self.before):
            return
        self.counts["with tables missing"] += 1
        told = asked(self.client, kept, self.space, self.path)
        wrong = [mount for mount in told.copies if mount not in copies]
        wrong += [mount for mount in told.apart if mount in copies]
        there = {row.id for (number, _), row in rows_in(self.before).items() if number in kept}
        wrong += [mount for mount in copies if mount in there and mount not in {*told.copies, *told.untold}]
        self.counts["untold"] += len(told.untold)
        if wrong:
            self.fail(f"wrong of {wrong} with the tables {sorted(kept)}", told.text)

    def numbered(self, line):
        """A line with the number of a namespace of the world in the place of that of a table."""
        verb, table, rest = line.split(" ", 2)
        return f"{verb} {list(self.before)[int(table) - 1]} {rest}".encode()

    def try_stop(self, mount, line, copies):
        """One mount gets nothing more, and all others what they got."""
        self.counts["stopped"] += 1
        world = self.world.again()
        try:
            if not world.run(self.numbered(line)):
                self.fail(f"refused: {line}")
                return
            made = new_rows(world, rows_in(self.before), self.space, self.path)
            if set(made) != {self.told.mount, *copies} - {mount}:
                self.fail(f"{line}: it comes to {sorted(made)}")
        finally:
            world.close()

    def try_elsewhere(self, mount, point, space, kind):
        """A mount that is made elsewhere comes to the other one too."""
        self.counts[f"made elsewhere: {kind}"] += 1
        world = self.world.again()
        try:
            made = new_rows(world, rows_in(self.before), int(space), point.encode())
            if mount not in made or (kind == "to both" and self.told.mount not in made):
                self.fail(f"made at {point} in {space} it comes to {sorted(made)}, and not to {mount}")
        except Gone:
            self.fail(f"refused at {point} in {space}")
        finally:
            world.close()

    def try_join(self, mount, lines):
        """Mounts that are joined get what the other one gets."""
        self.counts["joined"] += 1
        world = self.world.again()
        try:
            for line in lines.split(", "):
                if not world.run(self.numbered(line)):
                    self.fail(f"refused: {line}")
                    return
            joined_rows = rows_in(world.tables())
            new = {row.id for key, row in joined_rows.items() if key not in rows_in(self.before)}
            made = new_rows(world, joined_rows, self.space, self.path)
            if not (({self.told.mount} | new) & set(made) and ({mount} | new) & set(made)) or len(made) < 2:
                self.fail(f"{lines}: it comes to {sorted(made)}")
        except Gone:
            self.fail(f"refused behind {lines}")
        finally:
            world.close()

    def try_remedies(self, copies):
        """What would help helps."""
        for mount, [_, line] in self.told.copies.items():
            if line:
                self.try_stop(mount, line, copies)
        for mount, remedies in self.told.apart.items():
            self.counts["apart"] += 1
            for remedy in remedies:
                if len(remedy) == 3:
                    self.try_elsewhere(mount, *remedy)
                elif "bind" in remedy[0]:
                    self.try_join(mount, remedy[0])
                else:
                    self.counts["joined otherwise"] += 1


def made_world(kind, program, chance):
    """A world that a random script leaves, with a filesystem to be mounted."""
    # No row tells a lock, so a remedy may be refused for one.
    world, author = Model(program), Author(chance, has_locks=False)
    while (line := author.next_line({number: rows_of(text.rstrip(b"\n")) for number, text in world.tables().items()})) is not None:
        world.run(line)
    world.run(b"mkfs %b tmpfs none" % PROBE)
    if kind is Model:
        return world
    # A worker would keep the pipes of a session open.
    world.close()
    made = Kernel()
    for line in world.accepted:
        made.run(re.sub(rb"^(mkfs \S+) \S+ \S+", rb"\1 tmpfs none", line))
    return made


def places_of(tables, chance):
    """Some places of a world."""
    rows = list(rows_in(tables).items())
    for _ in range(PLACES * 4):
        (number, _), row = chance.choice(rows)
        names = b"".join(b"/" + name for name in chance.choices(NAMES, k=chance.randint(0, 2)))
        yield number, joined(row.point, names)


def check_place(world, client, place, chance, counts):
    """Whether something was told of a place, and compared: not where the mount is refused there.

    The kernel mounts on the root of a namespace too, where a path never leads again (docs/KERNEL.md)."""
    if isinstance(world, Kernel) and place[1] == b"/":
        return False
    try:
        case = Case(world, client, *place, counts)
        copies = case.compare()
        case.compare_some(chance, copies)
        if isinstance(world, Model):
            case.try_remedies(copies)
        return True
    except Gone:
        counts["refused"] += 1
        return False


def check_world(kind, program, client, chance, counts):
    """Some places of a random world."""
    world, done = made_world(kind, program, chance), 0
    tables = world.tables()
    for place in places_of(tables, chance) if tables else ():
        done += check_place(world, client, place, chance, counts)
        if done == PLACES or failures:
            break
        if kind is Kernel:
            fresh = world.again()
            world.close()
            world = fresh
    world.close()


def check_worlds(kind, words, count, end):
    """So many random worlds, or as many as there is time for."""
    counts, done = collections.Counter(), 0
    while done < count and time.monotonic() < end and not failures:
        check_world(kind, words.program, words.client, random.Random(f"{kind.name} {words.seed} {done}"), counts)
        done += 1
    print(f"{kind.name}: {done} worlds of seed {words.seed};", ", ".join(f"{word} {number}" for word, number in sorted(counts.items())))


def why_not():
    """Why this machine's kernel is not asked, or nothing."""
    try:
        world = Kernel()
        allowed = all([world.run(line) for line in (b"mkfs a tmpfs none", b"newns a", b"copyns 1 less")])
        world.close()
    except (OSError, EOFError, Silent) as error:
        return f"no mount namespace can be made: {error}"
    return "" if allowed else "a namespace is refused"


def read_words():
    parser = argparse.ArgumentParser(description=__doc__, formatter_class=argparse.RawDescriptionHelpFormatter)
    parser.add_argument("program", type=os.path.abspath)
    parser.add_argument("client", type=os.path.abspath)
    parser.add_argument("--seed", type=int, default=1)
    parser.add_argument("--worlds", type=int, default=500)
    parser.add_argument("--kernels", type=int, default=100)
    parser.add_argument("--seconds", type=float, default=40)
    return parser.parse_args()


def main():
    words, start = read_words(), time.monotonic()
    check_worlds(Model, words, words.worlds, start + words.seconds)
    if why := why_not():
        print(f"skipped: {why}")
    else:
        check_worlds(Kernel, words, words.kernels, start + 2 * words.seconds)
    if failures:
        raise SystemExit(f"checks of reach failed: {len(failures)}")
    print(f"checks of reach passed: {time.monotonic() - start:.1f} s")


if __name__ == "__main__":
    main()
