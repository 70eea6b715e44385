"""The tables of the cases, read by others. A module, a part of program.py.

`findmnt` of util-linux reads each table of cases/ as the file it is made after, /proc/pid/mountinfo,
and finds the columns that its lines have: that another program understands the lines is no matter of
a proof here. Where it is not there, that is said, and is a failure where CI is set in the environment.
And the table of each copied namespace is that of the namespace it was copied from, up to the mounts'
numbers. A comparison of nothing fails.
"""
import json
import os
import shutil
import subprocess
import tempfile

from harness.protocol import row_of, unescaped
from harness.runs import answer_groups, check, session, shown
from sessions import cases

COLUMNS = {
    "id": "ID",
    "parent": "PARENT",
    "maj:min": "MAJ:MIN",
    "fsroot": "FSROOT",
    "target": "TARGET",
    "vfs-options": "VFS-OPTIONS",
    "opt-fields": "OPT-FIELDS",
    "propagation": "PROPAGATION",
    "fstype": "FSTYPE",
    "source": "SOURCE",
    "fs-options": "FS-OPTIONS",
}

# The numbers that namespaces of the cases have.
NUMBERS = range(1, 66)


def text_of(word):
    """What a word stands for, as the text of one character for each byte."""
    return unescaped(word).decode("latin-1")


def propagation(tags):
    """What findmnt calls the state that the optional fields tell."""
    said = ["shared" if b"shared" in tags else "private"]
    return ",".join(said + ["slave"] * (b"master" in tags) + ["unbindable"] * (b"unbindable" in tags))


def columns_of(line):
    """The columns that a line of a table has."""
    row = row_of(line)
    return {
        "id": row.id,
        "parent": row.parent,
        "maj:min": row.device.decode("latin-1"),
        "fsroot": text_of(row.root),
        "target": text_of(row.point),
        "vfs-options": row.options.decode("latin-1"),
        "opt-fields": b" ".join(row.tags).decode("latin-1") or None,
        "propagation": propagation(dict(row.numbered())),
        "fstype": text_of(row.kind),
        "source": text_of(row.source),
        "fs-options": row.super_options.decode("latin-1"),
    }


def found_rows(file):
    """The columns that findmnt finds in a file."""
    words = ["--json", "--list", "--nofsroot", "--tab-file", file, "--output", ",".join(COLUMNS.values())]
    done = subprocess.run(["findmnt", *words], capture_output=True, timeout=60)
    if done.returncode:
        return f"status {done.returncode}: {shown(done.stderr)}"
    return json.loads(done.stdout.decode("latin-1"))["filesystems"]


def tables_of(case):
    """The tables among the answers of a case, each with the line that asked for it."""
    for turn in case.turns:
        if turn.sent().startswith(b"show ") and len(turn.answers) > 1:
            yield turn.written, turn.answers[1:]


def check_findmnt(_program):
    if not shutil.which("findmnt"):
        print("findmnt (package util-linux) is not there, so it reads no table")
        check("findmnt is there, as CI needs it", not os.environ.get("CI"))
        return
    read = 0
    with tempfile.TemporaryDirectory() as folder:
        file = os.path.join(folder, "mountinfo")
        for name in cases.names():
            for asked, lines in tables_of(cases.load(name)):
                with open(file, "wb") as made:
                    made.write(b"".join(line + b"\n" for line in lines))
                wanted, found = [columns_of(line) for line in lines], found_rows(file)
                check(f"findmnt of {shown(asked)} of {name}", found == wanted, f"wanted {wanted}\nfound  {found}")
                read += 1
    check("findmnt read a table", read > 0)
    print(f"{read} tables read by findmnt")


def renumbered(rows, numbers):
    return [[numbers[row[0]], numbers[row[1]], row[2]] for row in rows]


def check_copies(program):
    """Copies each namespace of each case that ends with one, and compares the two tables."""
    compared, all_rows = 0, 0
    for name in cases.names():
        lines = cases.load(name).requests()
        if b"quit" in lines or b"stop" in lines:
            continue
        for space in namespaces(program, lines):
            shows = [b"show %d" % number for number in NUMBERS]
            asked = [*lines, b"copyns %d" % space, *shows]
            made, *tables = answer_groups(session(program, asked)[1], asked)[len(lines) :]
            # A world that is full has no room for one, and a detached tree is not copied.
            if made in ([b"no TooMany"], [b"no Detached"]):
                continue
            old, new = tables[space - 1], tables[int(made[0].split(b" ")[1]) - 1]
            rows, copies = ([row.split(b" ", 2) for row in group[1:]] for group in (old, new))
            numbers = {row[0]: copy[0] for row, copy in zip(rows, copies)}
            good = rows != [] and renumbered(rows, numbers) == copies
            check(f"copy of namespace {space} of {name}", good, shown(b"\n".join(old + new)))
            compared += 1
            all_rows += len(rows)
    check("rows of a namespace and its copy are compared", min(compared, all_rows) > 0)
    print(f"{compared} namespaces of {all_rows} rows compared with their copies")


def namespaces(program, lines):
    """The numbers of the namespaces that are there after these lines."""
    asked = lines + [b"show %d" % number for number in NUMBERS]
    groups = answer_groups(session(program, asked)[1], asked)[len(lines) :]
    return [number for number, group in zip(NUMBERS, groups) if group != [b"no NoNamespace"]]
