"""Detached trees beside the lines that need none. A module, a part of program.py.

A `mount` is a `newtree` and a `movetree`, a `bind` or an `rbind` an `opentree` and a `movetree`. Random scripts are played in two sessions,
of which the second has these lines in the place of those: after each command all tables are the same, with their numbers, the IDs of
mounts and the groups; only the numbers of namespaces are others. What one session refuses the other refuses too. At the end each
namespace is opened and the tree closed again, which changes nothing.
"""
import contextlib
import random

from harness import commands
from harness.protocol import rows_of
from harness.runs import Served, check, shown
from harness.scripts import TIMES, Author

SCRIPTS = 60
# How many mounts and binds of all scripts have to be accepted at least.
FEWEST = 300
REPLACED = b"mount", b"bind", b"rbind"


class Apart(Exception):
    """Two answers, or two tables, that are not the same."""


def making_of(words):
    """The line that makes the tree that is to be attached in the place of a mount or a bind."""
    if words[0] == b"mount":
        return b"newtree " + words[2]
    return b"opentree %b %b%b" % (words[1], words[2], b" rec" if words[0] == b"rbind" else b"")


def change_of(option):
    """The options of a setattr that give a new mount these attributes."""
    has_time = any(time in option.removeprefix(b"set=").split(b",") for time in TIMES)
    return option + (b" clr=atime" if has_time else b"")


class Pair:
    """Two sessions: one as it is, and one with trees in the place of mounts and binds."""

    def __init__(self, program):
        self.one, self.other = Served(program), Served(program)
        # The number in the second session of each namespace of the first one, and those of them that are trees.
        self.spaces, self.trees, self.tables = {}, {}, {}
        self.replaced = 0

    def close(self):
        self.one.close()
        self.other.close()

    def rows(self):
        return {space: rows_of(b"\n".join(rows)) for space, [_, *rows] in self.tables.items()}

    def ask(self, line):
        """The first line of what the second session answers."""
        [[answer, *_]] = self.other.ask(line)
        return answer

    def attached(self, words):
        """What the second session answers to two lines in the place of a mount or a bind."""
        making = making_of(words)
        answer = self.ask(making)
        if not answer.startswith(b"ok "):
            return answer
        tree = answer.removeprefix(b"ok ")
        changes = [b"setattr %b / %b" % (tree, change_of(option)) for option in words[4:]]
        for line in [*changes, b"movetree %b %b %b" % (tree, words[1], words[3])]:
            answer = self.ask(line)
            if answer != b"ok":
                self.close_both(tree, making)
                break
        return answer

    def close_both(self, tree, making):
        """Closes a tree that was not attached, which has used up numbers. The first session uses up as many."""
        self.ask(b"dropns " + tree)
        words = making.split(b" ")
        [[made]] = self.one.ask(b" ".join([words[0], *self.original(words[1:2]), *words[2:]]) if words[0] == b"opentree" else making)
        self.one.ask(b"dropns " + made.removeprefix(b"ok "))

    def original(self, numbers):
        """The numbers that namespaces of the second session have in the first one."""
        first = {other: one for one, other in self.spaces.items()}
        return [b"%d" % first[int(number)] for number in numbers]

    def renumbered(self, words):
        """A command with the numbers of the second session."""
        places = [place for place, name in enumerate(commands.TABLE[words[0]].arguments, 1) if name == "Space"]
        return [b"%d" % self.spaces[int(word)] if place in places else word for place, word in enumerate(words)]

    def step(self, line):
        """Asks both sessions, and compares."""
        [[answer, *_]] = self.one.ask(line)
        words = line.split(b" ")
        there = self.renumbered(words)
        other = self.attached(there) if words[0] in REPLACED else self.ask(b" ".join(there))
        if answer.startswith(b"ok") != other.startswith(b"ok"):
            raise Apart(f"{shown(answer)} and {shown(other)}")
        if answer.startswith(b"ok"):
            self.count(words, answer, other)
        self.compare()

    def count(self, words, answer, other):
        """Counts what an accepted command makes, ends or is."""
        self.replaced += words[0] in REPLACED
        if words[0] in commands.MAKING_NAMESPACES:
            space = int(answer.removeprefix(b"ok "))
            self.spaces[space] = int(other.removeprefix(b"ok "))
            self.trees.update({space: None} if words[0] in commands.MAKING_TREES else {})
        elif words[0] in (b"dropns", b"movetree"):
            self.spaces.pop(int(words[1]))
            self.trees.pop(int(words[1]), None)

    def compare(self):
        """All tables are the same."""
        ones = self.one.ask(*(b"show %d" % space for space in self.spaces))
        others = self.other.ask(*(b"show %d" % space for space in self.spaces.values()))
        self.tables = dict(zip(self.spaces, ones))
        for space, one, other in zip(self.spaces, ones, others):
            if one != other:
                raise Apart("\n".join([f"namespace {space}:", *map(shown, one), f"and {self.spaces[space]}:", *map(shown, other)]))

    def open_and_close(self):
        """A tree of each namespace that is opened and closed leaves all tables."""
        for space in self.spaces.values():
            answer = self.ask(b"opentree %d / rec" % space)
            if answer.startswith(b"ok "):
                self.ask(b"dropns " + answer.removeprefix(b"ok "))
        self.compare()


def play(pair, author):
    """Plays a script: what is apart, with the line that shows it, or nothing."""
    line = b"opentree and dropns"
    try:
        while (line := author.next_line(pair.rows(), pair.trees)) is not None:
            pair.step(line)
        pair.open_and_close()
    except Apart as found:
        return f"{shown(line or b'opentree and dropns')}\n{found}"
    return ""


def check_two_lines(program):
    """One line is two, and closing undoes opening, in random scripts."""
    replaced = 0
    for seed in range(SCRIPTS):
        with contextlib.closing(Pair(program)) as pair:
            found = play(pair, Author(random.Random(f"trees {seed}"), has_trees=True))
            replaced += pair.replaced
        check(f"two lines for one in script {seed}", found == "", found)
    check("mounts and binds were accepted", replaced >= FEWEST, str(replaced))
    print(f"{replaced} mounts and binds are a tree that is attached")
