#!/usr/bin/env -S python3 -B
"""Says which functions of a crate took longest to prove, by the times of the files that `rt check` has kept. Called by hand.

Usage: checks/dearest.py CRATE [N] [--kept FOLDER]

`rt check` from nothing (without crates/CRATE/out/incremental), or `checks/prove.py --jobs 1 CRATE FOLDER` (without
FOLDER/kept/CRATE), writes a file for each part of a proof once that is done, so that the time between two files is what the
second one took, where the check had one job. For each of the N functions, definitions or lemma files that took longest, 20
if not said, it prints the seconds in all and those of the three parts that took most: Lts is what the function may do step
by step, Proof what tactics find, Answers what was written by hand.
"""
import argparse
import collections
import os
import re
import sys

from harness.runs import TOP

# A part of a proof: the crate's own library, then what it is of, and which part.
PART = re.compile(r"Rattle-\w+-(?:specs|proofs)\.(.*?)(?:\.((?:Lts|Proof|Answers|Goals|Code|Kinds|Tie)\b.*?))?(?:\.decls)?\.oantt")


def times(folder):
    """The seconds of each part below a folder: what it is of, which part, and how long after the file before it was done."""
    files = [os.path.join(at, name) for at, _, names in os.walk(folder) for name in names]
    done = sorted((os.stat(file).st_mtime, os.path.basename(file)) for file in files)
    for (before, _), (time, name) in zip(done, done[1:]):
        found = PART.fullmatch(name)
        yield (found[1], found[2] or "") if found else (name, ""), time - before


def main():
    parser = argparse.ArgumentParser(description=__doc__, formatter_class=argparse.RawDescriptionHelpFormatter)
    parser.add_argument("crate", metavar="CRATE")
    parser.add_argument("most", metavar="N", nargs="?", type=int, default=20)
    parser.add_argument("--kept", metavar="FOLDER", help="what checks/prove.py has kept there, in the place of what rt check keeps")
    words = parser.parse_args()
    folder = os.path.join(TOP, "crates", words.crate, "out", "incremental")
    if words.kept:
        folder = os.path.join(words.kept, "kept", words.crate)
    if not os.path.isdir(folder):
        sys.exit(f"there is no {folder}: a check of {words.crate} writes it")
    parts = collections.defaultdict(collections.Counter)
    for (name, part), seconds in times(folder):
        parts[name][part] += seconds
    whole = {name: sum(of.values()) for name, of in parts.items()}
    for name in sorted(whole, key=whole.get, reverse=True)[: words.most]:
        dear = ", ".join(f"{part or 'itself'} {seconds:.1f} s" for part, seconds in parts[name].most_common(3))
        print(f"{whole[name]:7.1f} s {name}: {dear}")


if __name__ == "__main__":
    main()
