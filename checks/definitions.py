#!/usr/bin/env -S python3 -B
"""Says where definitions stand: a line for each file of them. A program of the gate.

    checks/definitions.py [WORD]

It prints each file of specs/ of the crates, from below as crates.txt has them, with the first sentence of the file's
header; but no file of which the header says that no public clause cites it, and none whose sentence others have too, as
Laws.antt. With WORD only the lines that have it. The status is 0 where each file has a header.
"""
import collections
import glob
import os
import re
import sys

from harness.runs import TOP, check, failures, read, shown
from sources.texts import EXAMPLES

# A list of the modules of a crate.
MODULES = "Lib.antt"
INSIDE = "No public clause cites this module."


def first_sentence(header):
    """The first sentence of a header, where no line without words ends it before."""
    text = re.split(r"(?m)^--\s*$", header)[0]
    return re.split(r"(?<=\.) ", " ".join(text.replace("--", " ").split()))[0]


def files_of(crate):
    """The files of definitions of a crate that have a line, each with its sentence."""
    for path in sorted(glob.glob(os.path.join(TOP, "crates", crate, "specs", "*.antt"))):
        name = os.path.basename(path)
        header = re.match(r"(?:--.*\n)*", shown(read("crates", crate, "specs", name)))[0]
        if name != MODULES:
            check(f"crates/{crate}/specs/{name} has a header", header != "")
            if INSIDE not in " ".join(header.replace("--", " ").split()):
                yield crate, name, first_sentence(header)


def lines():
    """A line for each file whose sentence no other has."""
    crates = [line.split(":")[0] for line in shown(read("crates.txt")).splitlines() if not line.startswith("#")]
    # No clause cites the statements of worked examples.
    files = [file for crate in crates if crate != EXAMPLES for file in files_of(crate)]
    told = collections.Counter(sentence for _, _, sentence in files)
    return [f"{crate}/specs/{name}: {sentence}" for crate, name, sentence in files if told[sentence] == 1]


def main():
    if len(sys.argv) > 2 or sys.argv[1:2] in (["-h"], ["--help"]):
        raise SystemExit(__doc__)
    wanted = "".join(sys.argv[1:])
    print(*(line for line in lines() if wanted in line), sep="\n")
    if failures:
        raise SystemExit(f"files of definitions without a header: {len(failures)}")


if __name__ == "__main__":
    main()
