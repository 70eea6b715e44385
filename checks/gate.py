#!/usr/bin/env -S python3 -B
"""Proves everything once, from nothing, and checks the program that was built from outside.

First the checks that prove nothing (TEXT_CHECKS), then `rt ci`, then those of the built programs (PROGRAM_CHECKS), each
with all that it prints. Then what each crate cost the prover, how long each check took, and why one was skipped; then the
last line of `rt ci`, `N passed, M failed`, once more, in which each other command that failed counts as one failed. The
status is 0 where all of them passed.

`rt ci` keeps no library that `rt run` would take, so that README's `rt run` would prove everything a
second time. It does leave the libraries and programs that it has proved, built and run, and --built takes those.

A program: .ci/run is this one.
"""
import contextlib
import glob
import os
import re
import resource
import shutil
import subprocess
import sys
import time

from harness.provers import Provers

TOP = os.path.dirname(os.path.dirname(os.path.abspath(__file__)))
PROGRAM = os.path.join(TOP, "crates", "mountd", "out", "mountd")
CLIENT = os.path.join(TOP, "crates", "mountctl", "out", "mountctl")

# How many crates `rt ci` proves at once, and wrong.py tries, each with one job. Untold, `rt ci` gives a crate the processors
# that are idle, and each further job of a crate reads the libraries again: a third more processor time. And it lets a crate
# wait for as much memory as it expects that one to take, which for the large ones is most of 24 GB, so that they come one
# after another. Most were seen to take 2 to 3 GB, the tests 5 and mt_trace 7.
PROCESSORS = len(os.sched_getaffinity(0))
MEMORY = os.sysconf("SC_PAGE_SIZE") * os.sysconf("SC_PHYS_PAGES")
LANES = 3 if PROCESSORS >= 4 and MEMORY >= 20_000_000_000 else min(2, PROCESSORS)

# What is run before anything is proved, and on the libraries and programs that are built then: what it is called, and
# its words.
TEXT_CHECKS = (
    ("self-test of words.py", "checks/words.py", "--self-test"),
    ("one word, one meaning; each thing once", "checks/words.py"),
    ("self-test of names.py", "checks/names.py", "--self-test"),
    ("names in the documents", "checks/names.py"),
    ("self-test of unused.py", "checks/unused.py", "--self-test"),
    ("what nothing cites", "checks/unused.py"),
    ("self-test of where.py", "checks/where.py", "--self-test"),
    ("proofs of functions that are gone", "checks/where.py", "--left-over"),
    ("where definitions stand", "checks/definitions.py"),
    ("wrong bodies can be applied", "checks/wrong.py", "--look"),
)
PROGRAM_CHECKS = (
    ("wrong bodies", "checks/wrong.py", "--built", "--jobs", str(LANES)),
    ("README's commands", "checks/readme.py", "--built"),
    ("pages", "checks/pages.py", PROGRAM, CLIENT),
    ("checks of the program", "checks/program.py", PROGRAM),
    ("checks of the server", "checks/server.py", PROGRAM, CLIENT),
    ("pages in a browser", "checks/browser.py", PROGRAM, CLIENT),
    ("the running kernel", "checks/kernel.py", PROGRAM),
    ("where mounts come", "checks/reach.py", PROGRAM, CLIENT),
)


def spent():
    """The processor seconds of all commands that have ended."""
    used = resource.getrusage(resource.RUSAGE_CHILDREN)
    return used.ru_utime + used.ru_stime


def run(name, *words):
    """Runs a command at the top, and answers whether it passed, its last line and how long it took."""
    start, before, last = time.monotonic(), spent(), ""
    print(f"== {name}", flush=True)
    told = dict(os.environ, RT_JOBS=str(LANES))
    with subprocess.Popen(words, cwd=TOP, env=told, stdout=subprocess.PIPE, text=True, errors="replace") as command:
        for line in command.stdout:
            print(line, end="", flush=True)
            last = line.strip() or last
    wall, processor = (time.monotonic() - start) / 60, (spent() - before) / 60
    passed = command.returncode == 0
    word = "FAILED" if not passed else last if last.startswith("skipped: ") else "passed"
    took = f"{name}: {word}, {processor:.1f} processor minutes, {wall:.1f} wall minutes"
    return passed, last, took


def last_line(verdict, is_proved, others_failed):
    """The last line of `rt ci`, with so many other commands that failed."""
    counts = re.fullmatch(r"(\d+) passed, (\d+) failed", verdict)
    passed, failed = (int(counts[1]), int(counts[2])) if counts else (0, 1)
    # It failed, whatever its last line says.
    failed += int(not is_proved and failed == 0)
    return f"{passed} passed, {failed + others_failed} failed"


def main():
    # What is there afterwards is what rt ci has built: libraries that stood there before, it puts back at its end.
    for program in (PROGRAM, CLIENT):
        with contextlib.suppress(FileNotFoundError):
            os.remove(program)
    for library in glob.glob(os.path.join(TOP, "crates", "*", "out", "rlib")):
        shutil.rmtree(library)
    others = [run(*words) for words in TEXT_CHECKS]
    with Provers(TOP) as provers:
        is_proved, verdict, proving_took = run("rt ci", "rt", "ci")
    all_took = [*(took for _, _, took in others), proving_took]
    if os.path.isfile(PROGRAM) and os.path.isfile(CLIENT):
        behind = [run(*words) for words in PROGRAM_CHECKS]
        others, all_took = [*others, *behind], [*all_took, *(took for _, _, took in behind)]
    else:
        print("rt ci did not build both programs, so nothing was checked from outside")
        others.append((False, "", ""))
    last = last_line(verdict, is_proved, sum(not passed for passed, _, _ in others))
    print("==", *provers.lines(), "==", *all_took, last, sep="\n", flush=True)
    sys.exit(0 if last.endswith(", 0 failed") else 1)


if __name__ == "__main__":
    main()
