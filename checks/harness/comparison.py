"""Tables of mounts compared up to the numbers in them. A module, a part of kernel.py.

Each row of one side is matched with the row of the other that stands at the same directory of the matched parent. Matched
rows have the same root, options, tags and source. The numbers of mounts, of peer groups and of devices are renamed
by one bijection each for all namespaces, and what stays over a command keeps its partner. A root mount's parent, which is
out of view, the super options and the order of the rows are not compared.
"""
import itertools
from typing import NamedTuple

from harness.protocol import Row, rows_of


class Mismatch(NamedTuple):
    """What of two matched rows differs in which namespace, or which row has no partner."""

    space: int
    what: str
    ours: Row | None
    theirs: Row | None

    def __str__(self):
        here, there = (row.id if row else "none" for row in (self.ours, self.theirs))
        return f"namespace {self.space}: the {self.what} of mount {here} here, {there} there"


# The fields that matched rows have in common as they are.
PLAIN = "root", "options", "kind", "source"

# From this number on an ID only stands for one that cannot be read.
STAND_IN = 1 << 40


def place_in(parent, row):
    """The names that lead from the mount point of the parent to that of the row."""
    return row.point.removeprefix(parent.point.rstrip(b"/")).strip(b"/")


class Tree:
    """The rows of a table by their places. The root mount's row has a parent that is out of view, or its own number."""

    def __init__(self, text):
        rows = rows_of(text)
        parents = {row.id: row for row in rows}
        self.roots, self.children = [], {}
        for row in rows:
            parent = parents.get(row.parent, row)
            if parent is row:
                self.roots.append(row)
                continue
            below = self.children.setdefault(parent.id, {})
            place = place_in(parent, row)
            # A second mount at one place has no partner.
            below[place if place not in below else (place, row.id)] = row

    def below(self, row):
        return self.children.get(row.id, {}) if row else {}


def matched(ours, theirs):
    """The pairs of rows of two tables that stand at the same places, with None for a missing partner."""
    mine, others = Tree(ours), Tree(theirs)
    pairs = list(itertools.zip_longest(mine.roots, others.roots))
    for one, another in pairs:
        here, there = mine.below(one), others.below(another)
        # The list grows while it is gone through.
        pairs += [(here.get(place), there.get(place)) for place in {**here, **there}]
    return pairs


class Bijection:
    """Numbers of one side and their partners, and those that they had before the last command."""

    def __init__(self):
        self.there, self.back = {}, {}
        self.before, self.before_back = {}, {}

    def begin(self):
        """Begins again after a command."""
        self.before, self.before_back = self.there, self.back
        self.there, self.back = {}, {}

    def fits(self, one, another):
        """Notes these two as partners: whether neither has another one, nor had one that is still there."""
        return self.there.setdefault(one, another) == another and self.back.setdefault(another, one) == one

    def moved(self):
        """The numbers that were there before the command too, with another partner."""
        ours = [one for one, another in self.there.items() if self.before.get(one, another) != another]
        theirs = [one for another, one in self.back.items() if self.before_back.get(another, one) != one]
        return sorted({*ours, *theirs})


class Comparison:
    """The tables of both sides over a script, with the partners of all numbers."""

    def __init__(self):
        self.mounts, self.groups, self.devices = Bijection(), Bijection(), Bijection()
        self.texts, self.pairs = {}, {}
        # The mounts of detached trees that have no partner: ours, and theirs.
        self.unmatched = set(), set()

    def compare(self, ours, theirs, trees=frozenset()):
        """How the tables of all namespaces differ after a command: a list of mismatches. Of mounts in detached trees no partners are
        kept, but for root mounts."""
        for space in [space for space in self.pairs if space not in ours]:
            del self.pairs[space], self.texts[space]
        found = [Mismatch(space, "table", None, None) for space in sorted(ours.keys() ^ theirs.keys())]
        for space in sorted(ours.keys() & theirs.keys()):
            if self.texts.get(space) != (ours[space], theirs[space]):
                self.texts[space] = ours[space], theirs[space]
                self.pairs[space] = matched(ours[space], theirs[space])
        alone = [pair for space in trees & self.pairs.keys() for pair in self.pairs[space] if None in pair]
        self.unmatched = tuple({pair[side].id for pair in alone if pair[side]} for side in (0, 1))
        for numbers in self.mounts, self.groups, self.devices:
            numbers.begin()
        for space, pairs in self.pairs.items():
            for one, another in pairs:
                found += [Mismatch(space, what, one, another) for what in self.differing(one, another)]
        return found + self.changed_partners()

    def alone(self):
        """The mounts that were there before the last command on both sides, and are on one only: ours, and theirs."""
        here = {ours.id for pairs in self.pairs.values() for ours, _ in pairs if ours}
        there = {theirs.id for pairs in self.pairs.values() for _, theirs in pairs if theirs}
        before = self.mounts.before.items()
        lost = {one for one, another in before if one in here and another not in there}
        kept = {another for one, another in before if one not in here and another in there}
        return lost | self.unmatched[0], kept | self.unmatched[1]

    def differing(self, ours, theirs):
        """What of two matched rows differs."""
        if ours is None or theirs is None:
            return ["partner"]
        found = [field for field in PLAIN if getattr(ours, field) != getattr(theirs, field)]
        if theirs.id < STAND_IN and not self.mounts.fits(ours.id, theirs.id):
            found.append("mount")
        if not self.devices.fits(ours.device, theirs.device):
            found.append("device")
        pairs = list(itertools.zip_longest(ours.numbered(), theirs.numbered(), fillvalue=(None, 0)))
        if any(name != other for (name, _), (other, _) in pairs):
            return found + ["tags"]
        fit = [self.groups.fits(one, another) for (_, one), (_, another) in pairs]
        return found if all(fit) else found + ["groups"]

    def changed_partners(self):
        """A mismatch for each number that has got another partner."""
        kinds = {"mount": self.mounts, "group": self.groups, "device": self.devices}
        changed = [f"partner of {kind} {number}, before and after," for kind in kinds for number in kinds[kind].moved()]
        return [Mismatch(0, what, None, None) for what in changed]
