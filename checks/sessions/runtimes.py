"""Containers as real runtimes make them: a module, a part of program.py.

Some cases are the system calls of one run of a runtime. The last table of the container in each is the one that a program in
the real container read from /proc/self/mountinfo, which is in containers/: the same parents, roots, mount points, options
and tags, up to the numbers. The directories of that machine are written there as those of the case. Of crun's container, whose other
mounts the case leaves out, the root mount and those that crun attaches are compared.
"""
from harness.comparison import Comparison
from harness.protocol import row_of
from harness.runs import answer_groups, check, read, run, shown
from sessions import cases

# The cases, and the tables of their containers.
CONTAINERS = {"bubblewrap": "bwrap", "runc": "runc", "runc-rshared": "runc-rshared", "crun-userns": "crun-userns"}

# The mount points that are compared of a container, where not all are.
POINTS = {"crun-userns": {b"/", b"/usr", b"/lib", b"/lib64", b"/bin", b"/data"}}

# How many mounts a container has at least of which all are compared.
FEWEST = 16

# An option that no mount has here.
IDMAPPED = b",idmapped"

# The namespace of a container.
SPACE = 2

SHOW = b"show %d" % SPACE


def last_table(program, case):
    """The rows of the container's last table in a case."""
    _, output, _ = run(program, case.input(), *case.plain_arguments())
    tables = [group for request, group in zip(case.requests(), answer_groups(output, case.requests())) if request == SHOW]
    return b"".join(row + b"\n" for row in tables[-1][1:])


def compared(text, points):
    """The rows of a table at these mount points, or all."""
    rows = [row for row in text.replace(IDMAPPED, b"").splitlines(keepends=True) if not points or row_of(row.rstrip()).point in points]
    return b"".join(rows)


def check_contained(program):
    for name, real in CONTAINERS.items():
        points = POINTS.get(name, set())
        ours = compared(last_table(program, cases.load(name)), points)
        theirs = compared(read("checks", "sessions", "containers", f"{real}.mountinfo"), points)
        found = Comparison().compare({SPACE: ours}, {SPACE: theirs})
        told = "\n".join(map(str, found)) + f"\n{shown(ours)}\n{shown(theirs)}"
        check(f"the container of the case {name} is the real one", ours.count(b"\n") >= (len(points) or FEWEST) and not found, told)
    print(f"{len(CONTAINERS)} containers are as real ones are", flush=True)
