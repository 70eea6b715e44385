#!/usr/bin/env -S python3 -B
"""Checks the built program from outside: what no proof says of it. A program of the gate.

The parts are those of sessions/ and documents/: the format of cases and the cases, README's example, the sessions of
docs/TOUR.md and its states, the tables, odd input, closed streams and arguments, the faults of reads and writes, limits,
memory that stays level, worlds of many mounts, trees in the place of mounts and binds, and allocations that are refused. A failure is printed with what shows why,
and then the status is 1. The server on a socket is for server.py.

--update checks nothing: it writes the program's answers into docs/TOUR.md, cases/ and checks/sessions/shapes.txt, and from
cases/ README.md's example and the program's own crates/mountd/stdin and stdout. What it has changed is to be read.
"""
import argparse
import os
import time

from documents import example, states, tour
from harness.runs import failures
from sessions import cases, faults, level, limits, memory, runtimes, shapes, streams, tables, trees

PARTS = {
    "format": cases.check_format,
    "cases": cases.check_cases,
    "example": example.check_example,
    "tour": tour.check_tour,
    "states": states.check_states,
    "findmnt": tables.check_findmnt,
    "containers": runtimes.check_contained,
    "copies": tables.check_copies,
    "trees": trees.check_two_lines,
    "pieces": streams.check_pieces,
    "input": streams.check_input,
    "closed": streams.check_closed,
    "arguments": streams.check_arguments,
    "faults": faults.check_faults,
    "limits": limits.check_limits,
    "level": level.check_level,
    "shapes": shapes.check_shapes,
    "memory": memory.check_memory,
}


def read_words():
    parser = argparse.ArgumentParser(description=__doc__, formatter_class=argparse.RawDescriptionHelpFormatter)
    parser.add_argument("program", type=os.path.abspath)
    only = parser.add_mutually_exclusive_group()
    only.add_argument("--only", choices=PARTS, help="this part alone")
    only.add_argument("--update", action="store_true", help="write the answers")
    return parser.parse_args()


def main():
    words = read_words()
    if words.update:
        cases.update(words.program)
        shapes.update(words.program)
        example.update_example()
        tour.update_tour(words.program)
        return
    for part in [words.only] if words.only else PARTS:
        start = time.monotonic()
        PARTS[part](words.program)
        print(f"{part}: {time.monotonic() - start:.1f} s", flush=True)
    if failures:
        raise SystemExit(f"checks of the program failed: {len(failures)}")
    print("checks of the program passed")


if __name__ == "__main__":
    main()
