"""The tables of states in docs/TOUR.md say what the program makes of a mount. A module, a part of program.py.

One has what a change makes of a mount in each state, the other what a mount in each state becomes where it is bound or
moved.
"""
import re

from documents.tour import PAGE
from harness.runs import check, read, session, shown

# A mount at /m that is a peer of one at /n, and one at /d with a directory; the root mount is private.
WORLD = [
    *[b"mkfs a tmpfs none", b"mkdir a /m", b"mkdir a /n", b"mkdir a /d", b"newns a", b"mount 1 a /d"],
    *[b"mount 1 a /n", b"setattr 1 /n prop=shared", b"bind 1 /n /m"],
]

# The lines after that make the mount at /m one in each state.
MADE = {
    "shared, with a peer": [],
    "shared, alone in its group": [b"umount 1 /n"],
    "slave": [b"setattr 1 /m prop=slave"],
    "shared and slave": [b"setattr 1 /m prop=slave", b"setattr 1 /m prop=shared"],
    "private": [b"setattr 1 /m prop=private"],
    "unbindable": [b"setattr 1 /m prop=unbindable"],
}

# In the table of binds and moves: what the mount at /m was, and what the one at /d is made on which it comes to stand.
WAS = {"shared": "shared, with a peer", "private": "private", "a slave": "slave", "unbindable": "unbindable"}
STANDS_ON = {"a shared mount": [b"shared"], "another mount": [b"private", b"unbindable"]}
BROUGHT = {"bound": b"bind 1 /m /d/d", "moved": b"move 1 /m /d/d"}

NAMES = {(): "private", ("shared",): "shared", ("master",): "slave", ("shared", "master"): "shared and slave", ("unbindable",): "unbindable"}


def table(first):
    """The header of a table of the page that begins with this cell, and its rows by their first cells."""
    header, *rows = re.search(rf"(?m)^\| {first} \|.*\n(?:\|.*\n)*", shown(read(*PAGE)))[0].splitlines()
    cells = [re.findall(r"[^|]+", row.replace(" |", "|").replace("| ", "|")) for row in (header, *rows[1:])]
    return cells[0][1:], {before: told for before, *told in cells[1:]}


def state_at(path, program, lines):
    """The state of the mount at a path after these lines, or that the last of them was refused."""
    answers = session(program, [*WORLD, *lines, b"find 1 " + path, b"show 1"])[1].decode().splitlines()
    if answers[len(WORLD) + len(lines) - 1].startswith("no"):
        return "refused"
    number = answers[len(WORLD) + len(lines)].split(" ")[1]
    [row] = [line for line in answers if re.match(rf"{number} \d+ 0:", line)]
    return NAMES.get(tuple(re.findall(r"\b(shared|master|unbindable)\b", row.partition(" - ")[0])))


def check_changes(program):
    """What a change makes of a mount in each state."""
    calls, found = table("Before")
    calls = [call.strip("`").encode() for call in calls]
    wanted = {before: [state_at(b"/m", program, [*made, b"setattr 1 /m " + call]) for call in calls] for before, made in MADE.items()}
    check("the states of docs/TOUR.md before and behind a change", len(calls) == 4 and found == wanted, f"{wanted}\n{found}")


def states_told(cell):
    """The state that a cell tells of a mount that is bound, and of one that is moved."""
    told = dict(re.findall(r"(bound|moved): ([a-z ]+)", cell))
    return {way: told.get(way, cell) for way in BROUGHT}


def check_places(program):
    """What a mount in each state becomes on a shared mount, and on others."""
    header, rows = table("Stands on")
    check("the mounts of docs/TOUR.md on which one comes to stand", rows.keys() == STANDS_ON.keys() and len(header) == len(WAS), str(rows))
    for place, kinds in STANDS_ON.items():
        for was, cell in zip(header, rows[place]):
            made = MADE[WAS[was.removeprefix("was ")]]
            for kind in kinds:
                lines = [*made, b"setattr 1 /d prop=" + kind]
                found = {way: state_at(b"/d/d", program, [*lines, line]) for way, line in BROUGHT.items()}
                check(f"what {was} in docs/TOUR.md on {place}, {shown(kind)}", found == states_told(cell), f"{cell}\n{found}")


def check_states(program):
    """Both tables."""
    check_changes(program)
    check_places(program)
