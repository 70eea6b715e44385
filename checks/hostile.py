#!/usr/bin/env -S python3 -B
"""Hostile lines in bulk, for a plain session. A program that is called by hand, and no part of the gate.

Usage: checks/hostile.py MOUNTD [COUNT] [--jobs N]

COUNT lines, 100,000 if not said, are made from requests that are broken in some places, and sent in sessions of
a thousand, each made from SEED and its number. A model of the form of lines, and of nothing else, says which are
answered `no BadLine`, `no TooLong` and `no BadPath`: these are, and no others. Every other line is answered `ok`,
or one of the other refusals that there are; and each session ends with status 0 and no word.
"""
import argparse
import collections
import concurrent.futures
import os
import random
import re

from harness import refusals
from harness.commands import FORMS
from harness.protocol import ESCAPE, LINE, refusal_of, unescaped
from harness.runs import answer_groups, check, failures, run, shown
from harness.servers import START

SEED = 8_192_255

# How many lines a session has.
PORTION = 1_000

PATH, NAME, NUMBER = 4_095, 255, 2**64 - 1

SET = b"ro nosuid nodev noexec nosymfollow nodiratime relatime noatime strictatime".split()
CLR = [*SET[:6], b"atime"]
KINDS = b"shared private slave unbindable".split()
OPTIONS = {b"set": SET, b"clr": CLR}


def meant(word):
    """The bytes of a word, or nothing where another backslash is in it."""
    return None if b"\\" in ESCAPE.sub(b"", word) else unescaped(word)


def label_fault(word):
    text = meant(word)
    if text is None:
        return "BadLine"
    return "TooLong" if len(text) > NAME else None


def path_fault(word):
    text = meant(word)
    if text is None:
        return "BadLine"
    parts = text.split(b"/")
    if len(text) > PATH or max(map(len, parts)) > NAME:
        return "TooLong"
    if text == b"/":
        return None
    return "BadPath" if parts[0] or any(part in (b"", b".", b"..") for part in parts[1:]) else None


def number_fault(word, least=0, most=NUMBER):
    good = re.fullmatch(rb"0|[1-9][0-9]*", word) and len(word) <= 20 and least <= int(word) <= most
    return None if good else "BadLine"


def options_fault(words):
    """The fault of the words after the path of a `setattr`."""
    seen = []
    for word in words:
        name, _, value = word.partition(b"=")
        seen.append(name)
        listed = OPTIONS.get(name, [])
        good = word == b"rec" or (name == b"prop" and value in KINDS) or all(each in listed for each in value.split(b","))
        if not good:
            return "BadLine"
    return "BadLine" if len(set(seen)) < len(seen) else None


def are_attributes(rest):
    """Whether there is one option, `set=`, and it is right."""
    return len(rest) == 1 and rest[0].startswith(b"set=") and options_fault(rest) is None


WORD_FAULTS = {
    "L": label_fault,
    "P": path_fault,
    "N": number_fault,
    "W": lambda word: None if word == b"all" else number_fault(word),
    "T": lambda word: number_fault(word, 1, 1_024),
    "F": lambda word: number_fault(word, 1, 1_048_576),
    "J": lambda word: number_fault(word, 1),
}


def fault_of(line):
    """The refusal that the form of a line has, or none."""
    if len(line) > LINE:
        return "TooLong"
    command, *words = line.split(b" ")
    form = FORMS.get(command)
    if form is None or b"" in words or b"\0" in line:
        return "BadLine"
    fixed = form.rstrip("?!R*=")
    rest = words[len(fixed) :]
    last = {"!": [b"less", b"lock"], "R": [b"rec"]}.get(form[-1:], [])
    allowed = form[-1:] == "*" or rest == last[: len(rest)] or (form[-1:] == "=" and are_attributes(rest))
    if len(words) < len(fixed) or not allowed:
        return "BadLine"
    faults = {WORD_FAULTS[kind](word) for kind, word in zip(fixed, words)}
    faults.add(options_fault(rest) if form[-1:] == "*" else None)
    return next((fault for fault in refusals.OF_FORM if fault in faults), None)


# What makes a line of a form, and pieces that break one.
WORDS = {
    "L": [b"a", b"d", b"e", b"a\\040b", b"/", b".."],
    "P": [b"/", b"/m", b"/n", b"/m/n", b"/m/m", b"/a\\040b", b"/..."],
    "N": [b"1", b"2", b"3", b"0", b"64", b"18446744073709551615"],
    "W": [b"all", b"1", b"2", b"9"],
    "T": [b"1", b"8", b"1024"],
    "F": [b"1", b"8", b"1048576"],
    "J": [b"1", b"2", b"1048577", b"18446744073709551615"],
    "?": [b"less"],
    "!": [b"lock"],
    "R": [b"rec"],
    "=": [b"set=ro", b"set=noatime,nosuid", b"set=ro,ro", b"set=noatime,strictatime"],
    "*": [b"rec", b"set=ro", b"clr=ro", b"set=noatime", b"clr=atime,noexec", b"prop=shared", b"prop=slave", b"set=ro,ro"],
}
PIECES = (
    b"|  |\\|\\040|\\011|\\012|\\134|\\04|\\0400|\\041|\\\\|\0|/|//|/.|/..|./|0|-1|+1|1.|\t|\r|\xff|\xc3\xa9|=|,|,,| rec| less| lock|"
    b" set=|set=ro,|prop=|1024|1025|1048577|18446744073709551615|18446744073709551616|9999999999999999999999|#|>|$|'|\""
).split(b"|")
SHORT_LENGTHS = [NAME - 1, NAME, NAME + 1]
LENGTHS = [PATH - 1, PATH, PATH + 1, LINE - 1, LINE, LINE + 1, 3 * LINE]


def whole(chance):
    """A line that is well formed."""
    command = chance.choice(list(FORMS))
    words = [command]
    for kind in FORMS[command]:
        times = 1 if kind not in "?R*=" else chance.randint(0, 3 if kind == "*" else 1)
        words += [chance.choice(WORDS[kind]) for _ in range(times)]
    return b" ".join(words)


def lengthened(chance, line):
    """A line of which a word, or the line, comes to a length at a limit."""
    words = line.split(b" ")
    at, most = chance.randrange(len(words)), chance.choice(SHORT_LENGTHS)
    if chance.random() < 0.2:
        most = chance.choice(LENGTHS)
    if chance.random() < 0.5:
        most -= len(line) - len(words[at])
    missing = max(most - len(words[at]), 0)
    filling = (chance.choice([b"k", b"/", b"/k", b"\\040", b"." * 9 + b"/", b"/" + b"k" * 254, b"1"]) * missing)[:missing]
    words[at] += filling
    return b" ".join(words)


def broken(chance, line):
    """A line that is broken in one place."""
    at, end = sorted(chance.randint(0, len(line)) for _ in range(2))
    way = chance.randrange(8)
    if way == 0:
        return line[:at] + chance.choice(PIECES) + line[at:]
    if way == 1:
        return line[:at] + chance.choice(PIECES) + line[end:]
    if way == 2:
        return line[:at] + bytes([chance.randrange(256)]) + line[at + 1 :]
    if way == 3:
        return line[:at] + whole(chance)[chance.randint(0, 9) :]
    if way == 4:
        words = line.split(b" ")
        chance.shuffle(words)
        return b" ".join(words)
    if way == 5:
        return line[:end] + line[at:]
    if way == 6:
        return line + b" " + chance.choice(chance.choice(list(WORDS.values())))
    return lengthened(chance, line) if chance.random() < 0.5 else line[:end]


def hostile(chance):
    """A line that does not end the session: one in four is well formed, some are nothing but bytes."""
    line = whole(chance) if chance.random() < 0.98 else chance.randbytes(chance.randint(0, 60))
    for _ in range(chance.choice([0, 0, 1, 1, 1, 2, 2, 3])):
        line = broken(chance, line)
    line = line.replace(b"\n", b"")
    return b"show 1" if line in (b"quit", b"stop") else line


def is_answered(line, answer):
    """Whether a line is answered as its form says, and the kind of its answer. No memory is refused here, and nothing is stopped."""
    fault = fault_of(line)
    told = (answer[-1] if line.startswith(b"follow") else answer[0]) if answer else b"nothing"
    if fault:
        return answer == [b"no " + fault.encode()], fault
    refused = refusal_of(told)
    if refused is not None:
        return shown(refused) in refusals.OF_LINES and (len(answer) == 1 or line.startswith(b"follow")), shown(refused)
    return told.startswith(b"ok"), shown(told[:2])


def serve(program, number):
    """A session of hostile lines: what was not answered as it should be, and how often which answer came."""
    chance = random.Random(SEED + number)
    lines = START + [hostile(chance) for _ in range(PORTION)]
    status, output, complaint = run(program, b"".join(line + b"\n" for line in lines))
    faults, counts = [], collections.Counter()
    if (status, complaint) != (0, b""):
        faults.append(f"status {status}, standard error: {shown(complaint)}")
    for line, answer in zip(lines, answer_groups(output, lines)):
        good, kind = is_answered(line, answer)
        counts[kind] += 1
        if not good:
            faults.append(f"{line[:200]!r} of {len(line)} bytes is answered {answer[:3]}")
    return faults, counts


def main():
    parser = argparse.ArgumentParser(description=__doc__, formatter_class=argparse.RawDescriptionHelpFormatter)
    parser.add_argument("program", metavar="MOUNTD", type=os.path.abspath)
    parser.add_argument("count", metavar="COUNT", nargs="?", type=int, default=100_000)
    parser.add_argument("--jobs", type=int, default=2, help="how many sessions at once")
    words = parser.parse_args()
    sessions = range(-(-words.count // PORTION))
    counts = collections.Counter()
    with concurrent.futures.ProcessPoolExecutor(words.jobs) as pool:
        for number, (faults, found) in enumerate(pool.map(serve, [words.program] * len(sessions), sessions, chunksize=4)):
            check(f"session {number}", not faults, "\n".join(faults[:5]))
            counts += found
    told = ", ".join(f"{count} {kind}" for kind, count in counts.most_common())
    print(f"{sum(counts.values())} lines in {len(sessions)} sessions: {told}")
    if failures:
        raise SystemExit(f"sessions of hostile lines failed: {len(failures)}")


if __name__ == "__main__":
    main()
