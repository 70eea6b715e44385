"""Random scripts of commands, and shorter scripts that show the same. A module, a part of kernel.py.

An author writes a script command by command, from what is there: mostly at mount points and at directories
that are there, sometimes anywhere. Each script likes some commands, states and attributes more than others, so that
scripts are of many kinds. The same chance writes the same script, as long as the program answers the same.
"""
import itertools

NAMES = [b"x", b"y", b"z"]
FILESYSTEMS = [b"a", b"b", b"c"]
# A filesystem has directories of at most so many names.
DEPTH = 2

FEWEST, MOST = 10, 70
MOST_MOUNTS = 60
MOST_SPACES = 6

# How often a script has each of these, before its own likings.
COMMANDS = {
    "mount": 4,
    "bind": 4,
    "rbind": 2,
    "move": 4,
    "pivot": 2,
    "umount": 4,
    "detach": 2,
    "setattr": 6,
    "copyns": 1,
    "newns": 0.2,
    "dropns": 0.3,
    "mkdir": 0.3,
}
# And these, where it has detached trees.
TREE_COMMANDS = {"opentree": 3, "newtree": 0.8, "movetree": 4}
# What does not make more mounts, or not many.
SMALL = "move", "pivot", "umount", "detach", "setattr", "dropns", "mkdir", "movetree"
# What makes a namespace, or a tree, and what a tree refuses.
MAKING = "copyns", "newns", "opentree", "newtree"
REFUSED_BY_TREES = "copyns", "move", "pivot", "umount", "detach"
KINDS = {b"shared": 4, b"slave": 3, b"private": 1, b"unbindable": 0.7}
FLAGS = [b"ro", b"nosuid", b"nodev", b"noexec", b"nodiratime", b"nosymfollow"]
TIMES = [b"noatime", b"strictatime", b"relatime"]
LIKINGS = 0.1, 1, 1, 4


def joined(point, names):
    """The path that leads on from a mount point."""
    return point.rstrip(b"/") + names or b"/"


class Author:
    """Writes one script."""

    def __init__(self, chance, has_trees=False, has_locks=True):
        self.chance, self.has_locks = chance, has_locks
        self.commands, self.kinds = self.liked(COMMANDS | (TREE_COMMANDS if has_trees else {})), self.liked(KINDS)
        self.less = chance.choice([0, 0, 0.3, 0.8])
        self.attributes = chance.choice([0, 0.1, 0.6])
        # How often a path leads anywhere, and how often a command has rec.
        self.anywhere, self.rec = chance.choice([0.02, 0.1, 0.3]), chance.choice([0.1, 0.4])
        self.filesystems = FILESYSTEMS[: chance.randint(1, len(FILESYSTEMS))]
        # The fewer names there are, the more often two mounts meet.
        self.names = NAMES[: chance.randint(1, len(NAMES))]
        self.drawn = [path for depth in range(1, DEPTH + 1) for path in self.paths(depth)]
        self.directories = {name: [] for name in self.filesystems}
        self.planned = self.opening()
        self.left = chance.randint(FEWEST, MOST)

    def liked(self, weights):
        return {word: weight * self.chance.choice(LIKINGS) for word, weight in weights.items()}

    def picked(self, weights):
        return self.chance.choices(list(weights), list(weights.values()))[0]

    def paths(self, depth):
        """All paths of so many names."""
        return [b"".join(b"/" + name for name in names) for names in itertools.product(self.names, repeat=depth)]

    def opening(self):
        """The filesystems, most of their directories and a namespace."""
        sources = [b"none", b"/dev/" + self.chance.choice([b"x", b"x", b"x\\040y", b"x\\134#"])]
        lines = [b"mkfs %b tmpfs %b" % (name, self.chance.choice(sources)) for name in self.filesystems]
        share = self.chance.choice([0.4, 0.9])
        for name in self.filesystems:
            for path in self.drawn:
                if self.chance.random() < share or path == b"/x":
                    lines.append(self.made(name, path))
        lines.append(b"newns a")
        if self.chance.random() < 0.6:
            lines.append(b"setattr 1 / prop=shared")
        return lines

    def made(self, name, path):
        """The line that makes a directory, which is noted where its parent is there."""
        parent = path.rpartition(b"/")[0]
        if parent == b"" or parent in self.directories[name]:
            self.directories[name].append(path)
        return b"mkdir %b %b" % (name, path)

    def next_line(self, tables, trees=()):
        """The next line of the script, or None: tables has our rows of each namespace, and trees those that are detached trees."""
        if self.planned:
            return self.planned.pop(0)
        self.left -= 1
        if self.left < 0:
            return None
        word = self.picked(self.allowed(tables))
        if word in ("mkdir", "newns", "newtree"):
            name = self.chance.choice(self.filesystems)
            return self.made(name, self.chance.choice(self.drawn)) if word == "mkdir" else b"%b %b" % (word.encode(), name)
        if not tables:
            return b"newns a"
        if word == "movetree" and trees:
            return self.attached(tables, trees)
        space = self.chance.choice(list(tables))
        if space in trees and word in REFUSED_BY_TREES and self.chance.random() < 0.9:
            word = self.chance.choice(["mount", "bind", "rbind", "setattr", "opentree", "dropns"])
        if word == "movetree" or (word in ("move", "pivot", "umount", "detach") and len(tables[space]) == 1):
            word = "mount"
        return b" ".join([word.encode(), b"%d" % space, *getattr(self, word)(tables[space])])

    def attached(self, tables, trees):
        """The line that attaches a tree, mostly in another namespace."""
        tree = self.chance.choice(list(trees) if self.chance.random() < 0.95 else list(tables))
        others = [space for space in tables if space != tree or self.chance.random() < 0.1] or list(tables)
        space = self.chance.choice(others)
        return b"movetree %d %d %b" % (tree, space, self.path(tables[space]))

    def allowed(self, tables):
        """The commands that may come now, with their weights."""
        is_full = sum(map(len, tables.values())) > MOST_MOUNTS
        words = [word for word in self.commands if not is_full or word in SMALL]
        if len(tables) >= MOST_SPACES:
            words = [word for word in words if word not in MAKING]
        return {word: self.commands[word] for word in words}

    # Paths in a namespace.

    def point(self, rows):
        """The path of a mount's root, mostly."""
        if self.chance.random() < self.anywhere:
            return self.path(rows)
        return self.chance.choice(rows).point

    def child(self, rows):
        """The path of a mount's root that is not the root mount's, mostly."""
        return self.point([row for row in rows if row.point != b"/"] or rows)

    def path(self, rows):
        """The path of a directory on a mount, mostly."""
        if self.chance.random() < self.anywhere:
            names = self.chance.choices(self.names, k=self.chance.randint(0, 3))
            return b"".join(b"/" + name for name in names) or b"/"
        row = self.chance.choice(rows)
        root = row.root.rstrip(b"/")
        name = self.filesystems[int(row.device.partition(b":")[2]) - 1]
        below = [path.removeprefix(root) for path in self.directories[name] if path.startswith(root + b"/")]
        return joined(row.point, self.chance.choice(below) if below else b"")

    # The words of each command after its namespace.

    def mount(self, rows):
        options = self.attributes_of_new() if self.chance.random() < self.attributes else []
        return [self.chance.choice(self.filesystems), self.path(rows), *options]

    def attributes_of_new(self):
        """The attributes of a new mount, if any: now and then access times that clash."""
        words = self.chance.sample(FLAGS, self.chance.randint(0, 2))
        if self.chance.random() < 0.5:
            words += self.chance.sample(TIMES, 1 if self.chance.random() < 0.9 else 2)
        return [b"set=" + b",".join(words)] if words else []

    def bind(self, rows):
        return [self.chance.choice([self.path, self.point])(rows), self.path(rows)]

    rbind = bind

    def move(self, rows):
        return [self.child(rows), self.path(rows)]

    def pivot(self, rows):
        """Mostly to a directory on the new root mount, or to its root."""
        new = self.child(rows)
        below = [row for row in rows if row.point == new or row.point.startswith(new + b"/")]
        return [new, new if self.chance.random() < 0.2 else self.path(below or rows)]

    def umount(self, rows):
        return [self.child(rows)]

    def detach(self, rows):
        """Mostly a mount with others below it."""
        bearers = {row.parent for row in rows if row.parent != row.id}
        return [self.child([row for row in rows if row.id in bearers] or rows)]

    def copyns(self, _rows):
        if self.chance.random() >= self.less:
            return []
        return [b"less", b"lock"] if self.has_locks and self.chance.random() < 0.6 else [b"less"]

    def dropns(self, _rows):
        return []

    def opentree(self, rows):
        return [self.chance.choice([self.path, self.point])(rows), *([b"rec"] if self.chance.random() < 0.5 else [])]

    def setattr(self, rows):
        options = [b"rec"] if self.chance.random() < self.rec else []
        if self.chance.random() < self.attributes:
            options += self.changes()
        if len(options) == 0 or self.chance.random() < 0.7:
            options.append(b"prop=" + self.picked(self.kinds))
        return [self.point(rows), *options]

    def changes(self):
        """Options of attributes: now and then access times that clash."""
        some = [self.chance.sample(FLAGS, self.chance.randint(0, 2)) for _ in range(2)]
        if self.chance.random() < 0.5:
            some[0] += self.chance.sample(TIMES, 1 if self.chance.random() < 0.9 else 2)
            some[1] += [b"atime"] if self.chance.random() < 0.8 else []
        return [name + b",".join(words) for name, words in zip((b"set=", b"clr="), some) if words]


def shorter(lines, shows, is_over):
    """A script of some of these lines that still shows what they show: no further single line can go, but for the time."""
    size = len(lines) // 2
    while size > 0:
        at = 0
        while at < len(lines) and not is_over():
            without = lines[:at] + lines[at + size :]
            if shows(without):
                lines = without
            else:
                at += size
        size = size // 2
    return lines
