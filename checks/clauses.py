#!/usr/bin/env -S python3 -B
"""Compares the public clauses of two states of the repository. Called by hand, after a change that should keep them.

    checks/clauses.py REVISION [OLD=NEW..] [CRATE..]

For each public function of the crates, of src/ as it stands and as it was at REVISION (a name that git knows), it takes the
header with its clauses, without comments and line ends. It prints a function that came or went, and of each that has
another header the lines that went (-) and came (+). A function that moved to another module counts as kept where its
header stayed, and so does one of a crate OLD that is now in a crate NEW. It says nothing of definitions that a clause
cites. The status is 0 where nothing is printed.
"""
import collections
import difflib
import re
import subprocess
import sys

from harness.runs import TOP

# Where a public function begins, and what stands between its name and its body.
HEADER = re.compile(r"^ *pub (?:const )?(?:unsafe )?fn \w+.*?^ *\{\n", re.S | re.M)
OWNER = re.compile(r"^impl\b[^\n]*?(?:\bfor )?(\w+)(?:<[^\n{]*>)? (?:\{|where)", re.M)
NAME = re.compile(r"fn (\w+)")
# The lines of a header begin with these words.
PARTS = re.compile(r"\s+(?=(?:requires|ensures|ghost|where)\b)")


def git(*words):
    """What a call of git at the top prints."""
    return subprocess.run(["git", *words], cwd=TOP, check=True, capture_output=True, text=True).stdout


def sources(revision):
    """The sources of all crates at a revision, or as they stand: their paths and texts."""
    listed = git("ls-tree", "-r", "--name-only", revision, "crates") if revision else git("ls-files", "crates")
    for path in listed.splitlines():
        if re.fullmatch(r"crates/\w+/src/.*\.rt", path):
            yield path, git("show", f"{revision}:{path}") if revision else git("show", f":{path}")


def headers(text):
    """The public functions of a text: the type that each belongs to and its name, and its header in parts."""
    text = re.sub(r"^ *//.*\n", "", text, flags=re.M)
    for found in HEADER.finditer(text):
        owners = OWNER.findall(text, 0, found.start()) if found[0].startswith("    ") else []
        owner = f"{owners[-1]}::" if owners else ""
        words = " ".join(found[0].rsplit("{", 1)[0].split())
        yield owner + NAME.search(found[0])[1], tuple(PARTS.split(words))


def clauses(revision, crates, names):
    """The headers of the public functions of these crates, or of all, by crate and name, where crates have new names."""
    told = collections.defaultdict(list)
    for path, text in sources(revision):
        crate = names.get(path.split("/")[1], path.split("/")[1])
        if not crates or crate in crates:
            for name, header in headers(text):
                told[f"{crate} {name}"].append(header)
    return {name: sorted(found) for name, found in told.items()}


def differences(old, new):
    """What is not the same, a line each."""
    for name in sorted(set(old) | set(new)):
        before, after = (["\n".join(header) for header in told.get(name, [])] for told in (old, new))
        if not before:
            yield f"{name}: came"
        elif not after:
            yield f"{name}: went"
        elif before != after:
            yield f"{name}:"
            lines = difflib.unified_diff("\n".join(before).split("\n"), "\n".join(after).split("\n"), n=0, lineterm="")
            yield from (f"  {line}" for line in lines if not line.startswith(("---", "+++", "@@")))


def main():
    if len(sys.argv) < 2 or sys.argv[1] in ("-h", "--help"):
        raise SystemExit(__doc__)
    revision, *words = sys.argv[1:]
    names = dict(word.split("=") for word in words if "=" in word)
    crates = [word for word in words if "=" not in word]
    printed = list(differences(clauses(revision, crates, names), clauses("", crates, {})))
    print(*printed, sep="\n")
    sys.exit(bool(printed))


if __name__ == "__main__":
    main()
