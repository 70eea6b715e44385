#!/usr/bin/env -S python3 -B
"""README.md says what is so: its commands print what they should. A program of the gate.

Usage: checks/readme.py [--built]

Runs the commands of README.md from the top of the repository. Directly before the fence of a block of
commands stands a line that says whether it is run, and a block marked `sh` has to have one:

    <!-- run -->          it is run, and has to print crates/mountd/stdout
    <!-- run: NAME -->    it is run, and has to print the answers of the case NAME
    <!-- not run -->      it is not run

With --built the program that is built already, crates/NAME/out/NAME, takes the place of `rt run --` and of
`rt try --` in crates/NAME: one would prove everything to build it, the other build it once more. This is for
.ci/run, where `rt ci` has just proved and built it from nothing.

A block after `<!-- asked -->`, in README.md or docs/TOUR.md, is what a terminal shows: commands after `$ `, which need no server, and
what each prints. With --built it is run.

The block after `<!-- what-if -->` is what a terminal shows: commands after `$ `, and what each prints. The first one
starts the server and the last one stops it. With --built it is run too.
"""
import os
import re
import subprocess
import sys
import tempfile

from documents.example import EXAMPLE
from documents.steps import STEP
from harness.runs import TOP, check, difference, failures, read, shown
from sessions import cases

BLOCK = re.compile(rb"(?m)^(?:<!-- (.*) -->\n)?```(.*)\n((?:(?!```).*\n)*?)```$")
BUILDING_RUN = re.compile(rb"cd crates/(\w+) && rt (?:run|try) -- ")
QUESTION = re.compile(rb"(?m)^<!-- what-if -->\n```.*\n((?:(?!```).*\n)*?)```$")


def check_command(command, case):
    """Runs a command, which has to print the answers of a case."""
    print(f"running: {shown(command).strip()}", flush=True)
    done = subprocess.run(["sh", "-ec", command], cwd=TOP, stdin=subprocess.DEVNULL, stdout=subprocess.PIPE)
    name, wanted = f"README.md's command {shown(command).strip()}", cases.load(case).output()
    check(f"{name} ends well", done.returncode == 0, f"status {done.returncode}")
    check(f"what {name} prints", done.stdout == wanted, difference(wanted, done.stdout, case))


def check_commands(is_built):
    ran = 0
    for mark, language, command in BLOCK.findall(read("README.md")):
        word, _, name = mark.partition(b": ")
        if word == b"run":
            if is_built:
                command = BUILDING_RUN.sub(rb"cd crates/\1 && out/\1 ", command)
            check_command(command, shown(name) or EXAMPLE)
            ran += 1
        elif language == b"sh" and mark != b"not run":
            check(f"a mark before {shown(command).strip()}", False, "<!-- run --> or <!-- not run -->")
    check("README.md has a command that is run", ran > 0)


def check_printed(command, wanted, found, page="README.md"):
    name = f"{page}'s command {shown(command)}"
    check(f"what {name} prints", found == wanted, difference(wanted, found, page))


def with_programs():
    """The environment, in which the programs are found that are built."""
    folders = [os.path.join(TOP, "crates", name, "out") for name in ("mountd", "mountctl")]
    return dict(os.environ, PATH=os.pathsep.join([*folders, os.environ["PATH"]]))


def check_asked():
    """What the pages show of questions that need no server is what the client prints."""
    for page in ("README.md", "docs/TOUR.md"):
        for text in cases.ASKED.findall(read(*page.split("/"))):
            for command, wanted in STEP.findall(text):
                done = subprocess.run(["sh", "-c", command], cwd=TOP, env=with_programs(), stdout=subprocess.PIPE)
                check_printed(command, wanted, done.stdout, page)


def check_question():
    """What README.md's question shows is what the programs print."""
    [text] = QUESTION.findall(read("README.md"))
    environment = dict(os.environ, PATH=os.pathsep.join([os.path.join(TOP, "crates", "mountctl", "out"), os.environ["PATH"]]))
    asked = STEP.findall(text)
    with tempfile.TemporaryDirectory() as folder:
        os.symlink(os.path.join(TOP, "docs"), os.path.join(folder, "docs"))
        for command, wanted in asked:
            settings = {"cwd": folder, "env": environment, "stdin": subprocess.DEVNULL, "stdout": subprocess.PIPE}
            check_printed(command, wanted, subprocess.run(["sh", "-c", command], check=False, **settings).stdout)
    check("README.md has a question", len(asked) > 0)


def main():
    if sys.argv[1:] not in ([], ["--built"]):
        raise SystemExit(__doc__)
    check_commands(sys.argv[1:] == ["--built"])
    if sys.argv[1:] == ["--built"]:
        check_question()
        check_asked()
    if failures:
        raise SystemExit(f"checks of README.md's commands failed: {len(failures)}")
    print("README.md's commands print what they should")


if __name__ == "__main__":
    main()
