"""A script on both sides at once, compared after every command. A module, a part of kernel.py."""
import collections

from harness import commands, protocol, refusals
from harness.comparison import Comparison
from harness.protocol import row_of, rows_of, unescaped
from harness.runs import Served, shown
from kernels import differences, syscalls
from kernels.differences import Step
from kernels.spaces import Worker


class Unknown(Exception):
    """A difference that has no name."""


def can_be_copied(lines):
    """The lines of a tree's table that a copy of it has: those of no unbindable mount, and of nothing that stands on one."""
    rows = [row_of(line) for line in lines]
    left = {row.id for row in rows if b"unbindable" in row.tags}
    while more := {row.id for row in rows if row.parent in left} - left:
        left |= more
    return [line for line, row in zip(lines, rows) if row.id not in left]


class Play:
    """Both sides of a script, and what was seen of them.

    A refusal for which the kernel would change what ours does not is left out, so that a script goes on after it; a
    thorough play carries it out.
    """

    def __init__(self, program, is_thorough=False):
        self.program, self.is_thorough = program, is_thorough
        # The worker comes first, since it would keep the server's pipes open.
        self.worker = Worker()
        self.server = Served(program)
        self.comparison = Comparison()
        # Our tables, by namespace, the namespaces that there are, and the number of the last one that was made.
        self.tables, self.spaces, self.made = {}, [], 0
        # Those of them that are detached trees: each with the namespace in which it was opened, or 0.
        self.trees = {}
        self.accepted = []
        # How many steps there were of each kind, how many of each known difference, and of each pair of refusals.
        self.counts, self.known, self.refusals = (collections.Counter() for _ in range(3))
        # Whether a known difference has led to different tables, so that nothing behind it can be compared.
        self.is_apart = False

    def __enter__(self):
        return self

    def __exit__(self, *_):
        self.worker.close()
        self.server.close()

    def rows(self):
        """Our rows of each namespace."""
        return {space: rows_of(text) for space, text in self.tables.items()}

    def step(self, line):
        """Asks both sides, and compares. A difference that has no name is Unknown."""
        [[answer, *_]] = self.server.ask(line)
        words = [unescaped(word) for word in line.split(b" ")]
        refusal = (protocol.refusal_of(answer) or b"").decode()
        if words[0] not in commands.CHANGING or refusal in refusals.NEVER_IN_LINUX or self.is_of_numbers(words, refusal):
            self.counts["without a counterpart"] += 1
            return
        step = Step(words, refusal, before=self.rows(), is_orphan=self.is_orphan(words))
        name = differences.left_out(step)
        if name and not self.is_thorough:
            self.counts["left out"] += 1
            self.known[name] += 1
            return
        number, is_changed = self.worker.run(words)
        if refusal or number:
            self.judge(step._replace(errno=number), is_changed)
        else:
            self.accept(step, line)

    def is_of_numbers(self, words, refusal):
        """Whether the kernel has no such call: it copies no tree, and attaches nothing in a namespace that is not there."""
        is_copied_tree = words[0] == b"copyns" and refusal == "Detached"
        return is_copied_tree or (words[0] == b"movetree" and int(words[2]) not in self.spaces)

    def is_orphan(self, words):
        """Whether the paths of a command lead through a tree, and the namespace in which that was opened is gone."""
        space = words[2:3] if words[0] == b"movetree" else words[1:2]
        origin = self.trees.get(int(space[0]), 0) if words[0] not in (b"mkfs", b"mkdir", b"newns", b"newtree") else 0
        return origin != 0 and origin not in self.spaces

    def judge(self, step, is_changed):
        """A step that one side has refused, or both."""
        both = step.refusal or "ok", syscalls.name_of(step.errno)
        self.refusals[both] += 1
        self.counts["refused"] += 1
        name = ""
        if not differences.is_same_refusal(step):
            name = self.name(differences.REFUSALS, step, f"the answer is {both[0]} here and {both[1]} there")
        if is_changed and (step.errno or name == "empty-change"):
            raise Unknown(f"the answer is {both[0]} here and {both[1]} there, and a table has changed there")
        if step.refusal == "":
            self.undo()
        self.is_apart = is_changed

    def name(self, kinds, step, told):
        """Counts the known difference that speaks of a step."""
        name = differences.name_of(kinds, step)
        if not name:
            raise Unknown(told)
        self.known[name] += 1
        return name

    def undo(self):
        """Makes our side what it was before the last command."""
        self.server.close()
        self.server = Served(self.program)
        self.server.ask(*self.accepted)

    def accept(self, step, line):
        """A step that both sides have accepted."""
        self.counts["accepted"] += 1
        self.accepted.append(line)
        self.count(step.words)
        found = self.mismatches()
        if found != []:
            lost, kept = self.comparison.alone()
            step = step._replace(mismatches=found, after=self.rows(), lost=lost, kept=kept)
            name = self.name(differences.ROWS, step, "\n".join(map(str, found)))
            self.is_apart = not (name == "unbindable-copy" and self.repaired(found))

    def count(self, words):
        """Counts the namespaces and trees behind a command."""
        if words[0] in commands.MAKING_NAMESPACES:
            self.made += 1
            self.spaces.append(self.made)
            if words[0] in commands.MAKING_TREES:
                opened = int(words[1]) if words[0] == b"opentree" else 0
                self.trees[self.made] = self.trees.get(opened, opened)
        elif words[0] in (b"dropns", b"movetree"):
            ended = int(words[1])
            self.spaces.remove(ended)
            self.trees.pop(ended, None)

    def mismatches(self):
        """How the tables of all namespaces differ, but for how a `#` is written."""
        spaces = list(self.spaces)
        shown_tables = {space: rows for space, [_, *rows] in zip(spaces, self.server.ask(*(b"show %d" % space for space in spaces)))}
        self.tables = {space: b"\n".join(rows) for space, rows in shown_tables.items()}
        # What the kernel tells of a tree is what a copy of it has, if there can be one.
        told = {space: b"\n".join(can_be_copied(rows) if space in self.trees else rows) for space, rows in shown_tables.items()}
        unread = self.trees.keys() - self.worker.tables.keys()
        told = {space: text for space, text in told.items() if space not in unread}
        found = self.comparison.compare(told, self.worker.tables, self.trees.keys())
        left = [mismatch for mismatch in found if not differences.is_number_sign(mismatch)]
        self.known["number-sign"] += len(left) < len(found)
        return left

    def repaired(self, mismatches):
        """Whether both sides are alike once the kernel's mounts are unbindable that ours are, where a path leads to them."""
        for space, _, ours, _ in mismatches:
            [[found]] = self.server.ask(b"find %d %b" % (space, ours.point))
            if found == b"ok %d %b" % (ours.id, ours.root):
                self.worker.run([b"setattr", b"%d" % space, unescaped(ours.point), b"prop=unbindable"])
        return self.mismatches() == []

    def last_lines(self):
        """The lines that attach each tree that is left in a namespace of its own, where all of it is compared."""
        lines = [b"mkfs last tmpfs none", b"mkdir last /tree"] if self.trees else []
        for space, tree in enumerate(self.trees, self.made + 1):
            lines += [b"newns last", b"movetree %d %d /tree" % (tree, space)]
        return lines

    def both_tables(self):
        """The tables of both sides, for a reader."""
        sides = ("here", self.tables), ("there", self.worker.tables)
        lines = []
        for space in sorted({*self.tables, *self.worker.tables}):
            lines += [f"namespace {space} {side}:\n{shown(tables.get(space, b'')).rstrip()}" for side, tables in sides]
        return "\n".join(lines)
