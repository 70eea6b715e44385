#!/usr/bin/env -S python3 -B
"""Tries wrong bodies: those of checks/wrong/, of which the gate tries some.

Usage: checks/wrong.py [--look | --built] [--jobs N] [CRATE..]

They are written as the edits of crates/*/must-fail/, which `rt ci` tries. Here a line `only: FUNCTION` may stand in one
too, with the path below the crate of the function whose contract refuses it.

--built is a program of the gate: it tries the bodies with such a line, over the libraries that `rt ci` has just built, of
the crates that are named, or else of GATED. The prover is asked for that function and what it calls alone, and not for the
rest of the crate, which `rt ci` proved. The bodies of a crate are tried at once, where each is in a function of its own that
calls none of the others. N crates are tried at once, one if not said.

--look is a program of the gate as well, and proves nothing: it asks whether each body can still be applied, so that each
text that it replaces stands once in its file, as the code is now.

With neither, all of them are tried, by hand: each is laid into crates/*/must-fail/ while `rt must-fail` tries it, and
taken away again. `rt check` of a crate comes first, so that its edits begin with what that has kept.
"""
import argparse
import concurrent.futures
import contextlib
import dataclasses
import functools
import os
import re
import shutil
import subprocess
import tempfile
import time

from harness.runs import TOP, check, failures, read, shown

WRONG = os.path.join(TOP, "checks", "wrong")
CRATES = os.path.join(TOP, "crates")

# The crates of which the gate tries the bodies: those of propagation, of locks, of posts up to a watcher and a client, of the
# server's decisions and of imports. Another one costs the gate 15 to 60 seconds, most of them for reading its libraries, so
# the bodies of low crates are tried by hand, when their contracts or definitions change.
GATED = (
    "mt_propagate", "mt_bind", "mt_unmount", "mt_guard", "mt_queue", "mt_book", "mt_floor", "mt_desk", "mt_session",
    "mt_client", "mt_import",
)

# The folders of a crate that a check reads.
PARTS = ("src", "specs", "proofs")

# What a check of some functions ends with: how many were asked for, and how many of them are proved.
ASKED = re.compile(r"only=\d+ proved=\d+")
# What is said of a function: it is refused by its own contract, unless it calls another that is refused.
VERDICT = re.compile(r"fn (\w+)::([\w:+]+): (.*)")
REFUSED = re.compile(r"not proved|no proof: expected answers")
CALLS = re.compile(r"it calls `")
# The prover could not read what was to be refused.
UNREAD = re.compile(r"(?:\./)?(?:src|specs)/\S+: error")


@dataclasses.dataclass(frozen=True)
class Body:
    """A wrong body: the texts that it replaces, each with its file and with what stands there then, and the function whose
    contract refuses it, or "" where that is not said."""

    crate: str
    name: str
    pieces: tuple[tuple[str, str, str], ...]
    only: str

    @property
    def label(self):
        return f"checks/wrong/{self.crate}/{self.name}"

    def lay_into(self, texts):
        """Lays it into the texts of files, by their paths, where it is known what they are; a text that does not stand once
        is a failure."""
        for path, old, new in self.pieces:
            text = texts.setdefault(path, shown(read("crates", self.crate, path)))
            check(f"{self.label} can be applied", text.count(old) == 1, f"{text.count(old)} times in {path}: {old}")
            texts[path] = text.replace(old, new)

    def texts(self):
        """The texts of the files that it changes, by their paths."""
        texts = {}
        self.lay_into(texts)
        return texts


def body_of(crate, name):
    path, old, only, pieces = "", "", "", []
    for line in shown(read("checks", "wrong", crate, name)).splitlines():
        kind, _, rest = line.partition(": ")
        if kind == "file":
            path = rest
        elif kind == "only":
            only = rest
        elif kind == "old":
            old = rest
        elif kind == "new":
            pieces.append((path, old, rest))
    return Body(crate, name, tuple(pieces), only)


def bodies_of(crates):
    return [body_of(crate, name) for crate in crates for name in sorted(os.listdir(os.path.join(WRONG, crate)))]


@functools.cache
def kit_folder():
    """The folder of the toolchain: its first page lies there."""
    said = subprocess.run(["rt", "doc"], stdout=subprocess.PIPE, text=True, check=True)
    return os.path.dirname(said.stdout.split()[-1])


def check_words(crate):
    """The words of a check of a library, over the libraries of the toolchain and those of `rt ci`.

    Not those of `rt check`: it would prove all libraries below again, since `rt ci` leaves them without its stamps.
    """
    kit = kit_folder()
    rlibs = os.path.join(kit, "rlibs")
    own = {name: os.path.join(CRATES, name, "out", "rlib") for name in os.listdir(CRATES)}
    lines = [line.partition(": ") for line in shown(read("crates.txt")).splitlines()]
    used = next(rest.split() for name, _, rest in lines if name == crate)
    words = [os.path.join(kit, "bin", "rattle"), "check", "--crate-name", crate, "src/lib.rt", "--jobs", "1"]
    for library in ["std", *used]:
        words += ["--extern", f"{library}={os.path.join(own.get(library, rlibs), library)}.rlib"]
    for folder in [rlibs, *filter(os.path.isdir, own.values())]:
        words += ["-L", f"dependency={folder}"]
    words += ["--antt-project", os.path.join(kit, "rattle", "logic", "antt-project.json")]
    return [*words, "--logic-built", os.path.join(kit, "logic_built")]


def checked(bodies):
    """Asks the prover for the functions of wrong bodies of one crate, all laid into one copy of it: its lines."""
    crate, texts = bodies[0].crate, {}
    for body in bodies:
        body.lay_into(texts)
    with tempfile.TemporaryDirectory() as folder:
        for part in PARTS:
            if os.path.isdir(os.path.join(CRATES, crate, part)):
                shutil.copytree(os.path.join(CRATES, crate, part), os.path.join(folder, part))
        for path, text in texts.items():
            with open(os.path.join(folder, path), "w", encoding="utf-8") as file:
                file.write(text)
        words = check_words(crate)
        for body in bodies:
            words += ["--only", body.only]
        ran = subprocess.run(words, cwd=folder, stdout=subprocess.PIPE, stderr=subprocess.STDOUT, errors="replace", check=False)
    return ran.stdout.rstrip().splitlines()


def verdicts_in(lines):
    """What the lines of a check say of each function; nothing where the prover did not come to them."""
    if not lines or not ASKED.fullmatch(lines[-1]) or any(map(UNREAD.match, lines)):
        return {}
    return {found[2]: found[3] for found in map(VERDICT.fullmatch, lines) if found}


def left_of(bodies):
    """Tries wrong bodies of one crate at once, each in a function of its own: those that this does not decide, since their
    function calls another one's, or since one of them cannot be read."""
    start = time.monotonic()
    lines = checked(bodies)
    verdicts = verdicts_in(lines)
    left = []
    for body in bodies:
        verdict = verdicts.get(body.only, "")
        is_decided = verdict and not CALLS.search(verdict)
        if len(bodies) > 1 and not is_decided:
            left.append(body)
            continue
        check(f"{body.label} is refused", is_decided and REFUSED.match(verdict), "\n".join(lines[-20:]))
        print(f"{body.crate} {body.name}: {verdict[:120]}", flush=True)
    print(f"{bodies[0].crate}: {time.monotonic() - start:.0f} seconds", flush=True)
    return left


def try_crate(bodies):
    """Tries the wrong bodies of one crate: all at once that change functions of their own, and alone what that leaves."""
    first = list({body.only: body for body in bodies}.values())
    alone = [body for body in bodies if body not in first]
    for body in [*left_of(first), *alone]:
        left_of([body])


def try_built(crates, jobs):
    """Tries the wrong bodies that say which function refuses them."""
    asked = [[body for body in bodies_of([crate]) if body.only] for crate in crates]
    with concurrent.futures.ThreadPoolExecutor(jobs) as pool:
        list(pool.map(try_crate, filter(None, asked)))
    if failures:
        raise SystemExit(f"wrong bodies that are not refused: {len(failures)}")
    print(f"{sum(map(len, asked))} wrong bodies are refused")


def look_at(crates, _jobs):
    """Looks whether each wrong body of these crates can be applied, and changes something."""
    bodies = bodies_of(crates)
    for body in bodies:
        changed = [path for path, text in body.texts().items() if text != shown(read("crates", body.crate, path))]
        check(f"{body.label} changes something", changed != [])
    if failures:
        raise SystemExit(f"wrong bodies that cannot be applied: {len(failures)}")
    print(f"{len(bodies)} wrong bodies can be applied")


@contextlib.contextmanager
def laid(crate):
    """While it lasts, the wrong bodies of a crate lie where `rt must-fail` looks for them."""
    folder = os.path.join(CRATES, crate, "must-fail")
    there = os.path.isdir(folder)
    os.makedirs(folder, exist_ok=True)
    copies = []
    try:
        for name in sorted(os.listdir(os.path.join(WRONG, crate))):
            copies.append(os.path.join(folder, name))
            shutil.copyfile(os.path.join(WRONG, crate, name), copies[-1])
        yield
    finally:
        for copy in copies:
            os.remove(copy)
        if not there:
            os.rmdir(folder)


def is_refused(crate):
    """Whether the prover refuses each wrong body of a crate."""
    checked = subprocess.run(["rt", "check"], cwd=os.path.join(CRATES, crate), stdout=subprocess.DEVNULL, check=False)
    if checked.returncode != 0:
        print(f"{crate} is not proved as it stands", flush=True)
        return False
    with laid(crate):
        return subprocess.run(["rt", "must-fail", crate], cwd=TOP, check=False).returncode == 0


def try_all(crates, _jobs):
    """Tries all wrong bodies of these crates by hand."""
    failed = [crate for crate in crates if not is_refused(crate)]
    if failed:
        raise SystemExit(f"not all refused: those of {' '.join(failed)}")
    print(f"refused: the wrong bodies of {' '.join(crates)}")


def main():
    there = sorted(os.listdir(WRONG))
    parser = argparse.ArgumentParser(description=__doc__, formatter_class=argparse.RawDescriptionHelpFormatter)
    how = parser.add_mutually_exclusive_group()
    how.add_argument("--look", action="store_const", dest="do", const=look_at, help="ask only whether each can be applied")
    how.add_argument("--built", action="store_const", dest="do", const=try_built, help="try those of the gate, over what rt ci built")
    parser.add_argument("--jobs", metavar="N", type=int, default=1, help="how many crates are tried at once")
    parser.add_argument("crates", metavar="CRATE", nargs="*")
    words = parser.parse_args()
    asked = words.crates or (GATED if words.do is try_built else there)
    if not set(asked) <= set(there):
        parser.error(f"the crates with wrong bodies are {' '.join(there)}")
    (words.do or try_all)(asked, words.jobs)


if __name__ == "__main__":
    main()
