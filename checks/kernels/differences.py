"""Where the rules and the kernel are known to differ: docs/KERNEL.md by name. A module, a part of kernel.py.

A `Step` is a command that both sides were asked. Each known difference says of which steps it speaks, and why the rules
are kept. What no known difference speaks of is a failure.
"""
import errno
from typing import Callable, NamedTuple


class Step(NamedTuple):
    """A command, what each side said, and how the tables differ after it."""

    words: list
    # The name of our refusal, or nothing.
    refusal: str
    # The kernel's refusal, or 0.
    errno: int = 0
    mismatches: list = []
    # Our rows of each namespace before and after.
    before: dict = {}
    after: dict = {}
    # Our mounts that are still there while their partners are gone, and the kernel's.
    lost: set = set()
    kept: set = set()
    # Whether its paths lead through a tree that was opened in a namespace that is gone.
    is_orphan: bool = False


class Difference(NamedTuple):
    """A known difference: its name, the steps that it speaks of, and why the rules are as they are."""

    name: str
    speaks_of: Callable
    why: str


# The errno of the kernel for each of our refusals.
ERRNO = {
    "NoEntry": {errno.ENOENT},
    "EntryExists": {errno.EEXIST},
    "NotMountRoot": {errno.EINVAL},
    "RootPlace": {errno.EINVAL, errno.ELOOP},
    "Unbindable": {errno.EINVAL},
    "SharedParent": {errno.EINVAL},
    "IntoItself": {errno.ELOOP},
    "UnbindableInside": {errno.EINVAL},
    "Busy": {errno.EBUSY},
    "BadAttr": {errno.EINVAL},
    "Detached": {errno.EINVAL},
    "NotDetached": {errno.EINVAL},
    "Locked": {errno.EINVAL},
    "LockedInside": {errno.EINVAL, errno.EPERM},
    "LockedAttr": {errno.EPERM},
}

# The errno of pivot_root(2), where it is another one: all that is on the root mount is busy.
PIVOT_ERRNO = {"RootPlace": {errno.EBUSY}, "IntoItself": {errno.EINVAL, errno.EBUSY}}

# That of move_mount(2) of a tree onto itself.
TREE_ERRNO = {"IntoItself": {errno.EINVAL}}

# Both refuse, and the kernel for another reason that holds too: command, our refusal, its errno.
OTHER_ORDER = {
    (b"move", "NotMountRoot", errno.ENOENT),
    (b"move", "RootPlace", errno.ENOENT),
    (b"move", "IntoItself", errno.EINVAL),
    (b"pivot", "NotMountRoot", errno.ENOENT),
    (b"pivot", "NotMountRoot", errno.EBUSY),
    (b"pivot", "RootPlace", errno.ENOENT),
    (b"pivot", "RootPlace", errno.EINVAL),
    (b"setattr", "NoEntry", errno.EINVAL),
    (b"move", "Detached", errno.ENOENT),
    (b"pivot", "Detached", errno.ENOENT),
    (b"umount", "Detached", errno.ENOENT),
    (b"detach", "Detached", errno.ENOENT),
    (b"movetree", "NotDetached", errno.ENOENT),
    (b"movetree", "NotDetached", errno.ELOOP),
}

ACCESS_TIMES = {b"noatime", b"strictatime"}


def options(words):
    """The words of each option of a setattr, or of a mount."""
    named = (option.partition(b"=") for option in words[4 if words[0] == b"mount" else 3 :])
    return {name: set(text.split(b",")) for name, _, text in named}


def is_empty(words):
    """Whether a setattr asks the kernel for nothing: `relatime` is the value 0."""
    asked = options(words)
    return asked.keys() <= {b"rec", b"set"} and asked.get(b"set", set()) <= {b"relatime"}


def has_no_clash(words):
    """Whether the access times of a setattr, or of a mount, clash for us alone, who take `relatime` for one."""
    asked = options(words)
    times = asked.get(b"set", set()) & ACCESS_TIMES
    is_cleared = words[0] == b"mount" or b"atime" in asked.get(b"clr", set())
    return len(times) == 0 or (len(times) == 1 and is_cleared)


def is_root_destination(step):
    is_source = step.words[0] == b"move" and step.words[2] == b"/"
    return step.refusal == "RootPlace" and step.errno == 0 and step.words[0] not in (b"umount", b"detach", b"pivot") and not is_source


def is_root_unmount(step):
    return step.refusal == "RootPlace" and step.errno == 0 and step.words[0] in (b"umount", b"detach")


def is_relatime(step):
    return step.refusal == "BadAttr" and step.errno == 0 and has_no_clash(step.words)


def is_empty_change(step):
    is_path = step.refusal in ("NoEntry", "NotMountRoot")
    return is_path and step.errno == 0 and step.words[0] == b"setattr" and is_empty(step.words)


def is_other_order(step):
    """The kernel asks for unbindable mounts before it asks for a move into itself: there has to be one."""
    is_in_reach = step.refusal != "IntoItself" or any(b"unbindable" in row.tags for row in step.before[int(step.words[1])])
    return (step.words[0], step.refusal, step.errno) in OTHER_ORDER and is_in_reach


def is_origin(step):
    """The kernel lets nobody open a tree, or mount on it, that was opened in a namespace that is gone."""
    is_used = step.words[0] in (b"opentree", b"mount", b"bind", b"rbind", b"movetree")
    return step.refusal == "" and step.errno == errno.EINVAL and is_used and step.is_orphan


def is_number_sign(mismatch):
    """Sources that differ in nothing but how a `#` is written."""
    _, what, ours, theirs = mismatch
    return what == "source" and ours.source.replace(b"#", b"\\043") == theirs.source


def is_unbindable_copy(step):
    """Tags alone differ, in the copy of a namespace, where ours is unbindable and the kernel's private."""
    return step.words[0] == b"copyns" and all(
        what == "tags" and ours.tags == (b"unbindable",) and theirs.tags == ()
        for _, what, ours, theirs in step.mismatches
    )


def stack_of(mount, rows):
    """A mount and those that it covers, from above: the kernel's rows tell only how many there are at a place."""
    while True:
        yield mount
        parent = rows[mount].parent
        if parent == mount or parent not in rows or rows[parent].point != rows[mount].point:
            return
        mount = parent


def is_nested_unmount(step):
    """Each mount that only the kernel has taken away, or one that it covers, had a child that did not cover it, which the kernel
    took away too."""
    before = {row.id: row for rows in step.before.values() for row in rows}
    gone = before.keys() - {row.id for rows in step.after.values() for row in rows} | step.lost
    bearers = {before[child].parent for child in gone if before[child].point != before[before[child].parent].point}
    are_bearers = all(bearers & set(stack_of(mount, before)) for mount in step.lost)
    return step.words[0] == b"umount" and step.lost != set() and are_bearers and step.kept == set()


REFUSALS = [
    Difference(
        "root-destination",
        is_root_destination,
        "who enters a namespace would see what covers its root mount, and who is in it would not",
    ),
    Difference(
        "root-unmount",
        is_root_unmount,
        "a namespace has its root mount as long as it is there, and a filesystem has no options",
    ),
    Difference("relatime", is_relatime, "a word that is asked for is done or refused"),
    Difference("empty-change", is_empty_change, "a path is looked up whatever is asked of it"),
    Difference("other-order", is_other_order, "one order for each command is what its contract states"),
    Difference("origin", is_origin, "commands come from nobody: there are no processes here"),
]

ROWS = [
    Difference(
        "unbindable-copy",
        is_unbindable_copy,
        "mount_namespaces(7) and the sharedsubtree document say that a copy keeps the state",
    ),
    Difference(
        "nested-unmount",
        is_nested_unmount,
        "children are counted before the command, so that a table tells what an unmount takes",
    ),
]

# It is taken out of the mismatches of a step before these are asked.
SIGN = Difference("number-sign", is_number_sign, "proc_pid_mountinfo(5) names no escape of it")

ALL = [*REFUSALS, *ROWS, SIGN]


def name_of(kinds, step):
    """The name of the known difference that speaks of a step, or nothing."""
    return next((difference.name for difference in kinds if difference.speaks_of(step)), "")


def is_same_refusal(step):
    """Whether both sides have refused, and for the same reason."""
    own = {b"pivot": PIVOT_ERRNO, b"movetree": TREE_ERRNO}.get(step.words[0], {})
    return step.errno in own.get(step.refusal, ERRNO.get(step.refusal, set()))


def left_out(step):
    """The name of the difference for which the kernel would accept a step, and change what ours refuses; or nothing."""
    name = name_of(REFUSALS, step) if step.refusal else ""
    return name if name in ("root-destination", "root-unmount", "relatime") else ""
