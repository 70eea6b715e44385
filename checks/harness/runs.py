"""Runs of the program, its answers line by line, and what failed. A module, for all others."""
import contextlib
import difflib
import functools
import os
import shutil
import subprocess
import sys

from harness import protocol

HERE = os.path.dirname(os.path.abspath(__file__))
TOP = os.path.dirname(os.path.dirname(HERE))

# How long a run may take, in seconds.
MOST_SECONDS = 120

failures = []


def check(name, good, why=""):
    """Notes and prints a check that failed, with what shows why."""
    if not good:
        failures.append(name)
        print(f"failed: {name}", *([why] if why else []), sep="\n", flush=True)


def read(*path):
    with open(os.path.join(TOP, *path), "rb") as file:
        return file.read()


def write(content, *path):
    with open(os.path.join(TOP, *path), "wb") as file:
        file.write(content)


def run(program, text, *arguments, environment=None):
    """Status, standard output and standard error of a run on this input."""
    done = subprocess.run(
        [program, *(arguments or ["-"])],
        input=text,
        capture_output=True,
        timeout=MOST_SECONDS,
        env=environment,
    )
    return done.returncode, done.stdout, done.stderr


def session(program, lines, *arguments):
    """Status, standard output and standard error of a session of these lines, with further arguments."""
    return run(program, b"".join(line + b"\n" for line in lines), "-", *arguments)


class Served:
    """A plain session of the program that is asked line by line."""

    def __init__(self, program):
        self.process = subprocess.Popen([program, "-"], stdin=subprocess.PIPE, stdout=subprocess.PIPE)

    def ask(self, *lines):
        """The answers to these lines, each as a list of its lines."""
        with contextlib.suppress(BrokenPipeError):
            self.process.stdin.write(b"".join(line + b"\n" for line in lines))
            self.process.stdin.flush()
        return [protocol.answer_to(line, self.line) for line in lines]

    def line(self):
        line = self.process.stdout.readline()
        if not line.endswith(b"\n"):
            raise protocol.Ended("the program has ended")
        return line[:-1]

    def close(self):
        with contextlib.suppress(BrokenPipeError):
            self.process.stdin.close()
        self.process.stdout.close()
        self.process.wait()


def connection_fault(path, reason="no whole answer"):
    """How a run of the other program ends that has no answer of the server at a path: by its complaint."""
    return f"mountctl: connection fault: {path}: {reason}\n".encode()


def is_there(command, package):
    """Whether a command is there. Where the environment says CI, its package is installed before, if it can be had."""
    if not shutil.which(command) and "CI" in os.environ and shutil.which("apt-get"):
        for words in ["update"], ["install", "-y", package]:
            with contextlib.suppress(subprocess.TimeoutExpired):
                subprocess.run(
                    ["apt-get", *words], stdin=subprocess.DEVNULL, capture_output=True, check=False, timeout=MOST_SECONDS
                )
    return shutil.which(command) is not None


def library(folder, name):
    """The shared library of this C file here, made in a folder, to be loaded before a program."""
    made = os.path.join(folder, f"{name}.so")
    source = os.path.join(HERE, f"{name}.c")
    subprocess.run(["cc", "-shared", "-fPIC", "-O1", "-o", made, source, "-ldl"], check=True)
    return made


def answer_groups(answers, requests):
    """The answer to each request as its list of lines: a table, and posts, go with the line that counts them.

    Requests after the last answer have empty lists, and what is left over goes to the last request.
    """
    lines = answers.split(b"\n")
    if lines[-1] == b"":
        lines.pop()
    rest = iter(lines)
    take = functools.partial(next, rest, None)
    groups = [[line for line in protocol.answer_to(request, take) if line is not None] for request in requests]
    if groups:
        groups[-1] += rest
    return groups


def shown(text):
    """Bytes as text that can be printed."""
    return text.decode("utf-8", "backslashreplace")


def difference(wanted, found, name):
    """How one text differs from the other, as unified diff prints it."""
    texts = shown(wanted).split("\n"), shown(found).split("\n")
    return "\n".join(difflib.unified_diff(*texts, f"{name} (wanted)", f"{name} (found)", lineterm=""))


def end_self_test(program, passed):
    """Says whether a program finds what was made for it to be found, and ends it."""
    print(f"{program} finds what it looks for" if passed else f"{program} misses what it looks for")
    sys.exit(0 if passed else 1)
