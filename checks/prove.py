#!/usr/bin/env -S python3 -B
"""Proves one crate over libraries that are there, while it is being changed. By hand; `rt ci` decides.

Usage: checks/prove.py --gather FOLDER
       checks/prove.py [--library] [--jobs N] CRATE FOLDER [-- FLAGS..]
       checks/prove.py --goals FUNCTION CRATE FOLDER

`rt check` of a crate proves every crate below it first, also where `rt ci` keeps them on this machine. This asks the prover
for the one crate, over the libraries FOLDER/NAME.rlib, and keeps its work beside them for the next time: seconds after an
edit. FLAGS are the prover's, as --allow-holes, --only PATH, --start FUNCTION and --fix-imports. With --library it also
writes FOLDER/CRATE.rlib, for the crates above, where the crate is proved. It has N jobs, two if not said; with one,
checks/dearest.py says afterwards which functions took longest.

--goals prints the names of all goals of a function, those too that tactics find: an answer is given under such a name.

--gather copies the libraries that `rt ci` leaves in this checkout, or, while a run of `rt ci CRATE..` is under way, those of
its copy: start one of a crate, and call this once it proves that crate. They are good while the crates below stay as they
are. Two who work on one crate take two folders.
"""
import argparse
import glob
import os
import re
import shutil
import subprocess
import sys
import tempfile

# A goal of a function, in the file that the prover generates of them.
GOAL = re.compile(r"abbrev pub the-fitted-(\S+) :")

TOP = os.path.dirname(os.path.dirname(os.path.abspath(__file__)))


def kit():
    """The folder of the toolchain."""
    return os.path.dirname(subprocess.run(["rt", "doc"], capture_output=True, text=True, check=True).stdout.strip())


def used_by():
    """The libraries that each crate of crates.txt uses."""
    with open(os.path.join(TOP, "crates.txt"), encoding="utf-8") as file:
        lines = [line.split("#")[0].strip() for line in file]
    return {line.split(":")[0].split()[0]: line.split(":")[1].split() for line in lines if line}


def gather(folder):
    """Copies the libraries of the latest run of `rt ci`."""
    copies = glob.glob(os.path.join(tempfile.gettempdir(), "rt-copy-*", "repo"))
    repository = max(copies, key=os.path.getmtime, default=TOP)
    os.makedirs(folder, exist_ok=True)
    for library in glob.glob(os.path.join(repository, "crates", "*", "out", "rlib", "*.rlib")):
        to = os.path.join(folder, os.path.basename(library))
        shutil.rmtree(to, ignore_errors=True)
        shutil.copytree(library, to, symlinks=True)
        print(os.path.basename(library))


def words_of(crate, folder, is_library, jobs, flags):
    """The words that call the prover."""
    there, uses = kit(), used_by()
    root = next(name for name in ("src/main.rt", "src/lib.rt") if os.path.exists(os.path.join(TOP, "crates", crate, name)))
    words = [f"{there}/bin/rattle", "build" if is_library else "check", "--crate-name", crate, root]
    for name in ("std", *uses[crate]):
        words += ["--extern", f"{name}={folder if name in uses else there + '/rlibs'}/{name}.rlib"]
    words += ["-L", f"dependency={there}/rlibs", "-L", f"dependency={folder}", "--links", f"{crate}="]
    words += ["--antt-project", f"{there}/rattle/logic/antt-project.json", "--logic-built", f"{there}/logic_built"]
    if jobs:
        kept = os.path.join(folder, "kept", crate)
        os.makedirs(kept, exist_ok=True)
        words += ["--incremental", kept, "--jobs", str(jobs)]
    return words + flags + (["-o", f"{folder}/{crate}.rlib"] if is_library else [])


def print_goals(crate, folder, function):
    """Prints the names of the goals of a function; what the prover says where it does not come to them."""
    with tempfile.TemporaryDirectory() as made:
        words = words_of(crate, folder, False, 0, ["--start", function, "--generated", made])
        ran = subprocess.run(words, cwd=os.path.join(TOP, "crates", crate), capture_output=True, text=True)
        files = glob.glob(os.path.join(made, "*", *function.split("::"), "Goals.antt"))
        names = [name for file in files for name in GOAL.findall(open(file, encoding="utf-8").read())]
    print(*(names or [ran.stdout + ran.stderr]), sep="\n")


def main():
    reader = argparse.ArgumentParser(description=__doc__.splitlines()[0])
    reader.add_argument("--gather", metavar="FOLDER")
    reader.add_argument("--library", action="store_true")
    reader.add_argument("--jobs", metavar="N", type=int, default=2)
    reader.add_argument("--goals", metavar="FUNCTION")
    reader.add_argument("crate", nargs="?")
    reader.add_argument("folder", nargs="?")
    reader.add_argument("flags", nargs="*")
    words = reader.parse_args()
    if words.gather:
        gather(os.path.abspath(words.gather))
    elif words.crate in used_by() and words.folder:
        if words.goals:
            return print_goals(words.crate, os.path.abspath(words.folder), words.goals)
        called = words_of(words.crate, os.path.abspath(words.folder), words.library, words.jobs, words.flags)
        sys.exit(subprocess.call(called, cwd=os.path.join(TOP, "crates", words.crate)))
    else:
        reader.error("a crate of crates.txt and a folder are wanted, or --gather")


if __name__ == "__main__":
    main()
