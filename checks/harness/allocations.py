"""Runs of a program with one of their allocations refused, by refuse_nth.c and refuse_each.c. It needs a C compiler, `cc`. A module, for the checks of memory."""
import concurrent.futures
import os
import subprocess
import tempfile

from harness.runs import MOST_SECONDS, check, library, run, shown

# How a run of mountd ends for which there is no memory before its first answer.
OUT_OF_MEMORY = (1, b"", b"mountd: out of memory\n")


class Refusing:
    """Runs of the program with the library that counts allocations, and refuses one."""

    def __init__(self, folder):
        self.preloaded = library(folder, "refuse_nth")
        self.told = os.path.join(folder, "count")

    def run(self, asked, **settings):
        return run(asked.program, asked.input, *asked.arguments, environment={"LD_PRELOAD": self.preloaded, **settings})

    def count(self, asked):
        """How many allocations a run makes that is answered as it is without the library."""
        check("a run whose allocations are counted", self.run(asked, COUNT_TO=self.told) == asked.plain)
        with open(self.told, encoding="ascii") as file:
            return int(file.read())

    def each(self, asked, name, count):
        """Refuses each allocation of a run in turn; after the last one there is none to refuse."""

        def refuse(nth):
            told = self.run(asked, REFUSE_NTH=str(nth))
            check(f"allocation {nth} of {name} refused", asked.allows(*told), shown(told[1] + told[2]))

        check(f"an allocation of {name} is refused", count > 0)
        with concurrent.futures.ThreadPoolExecutor(os.cpu_count()) as pool:
            list(pool.map(refuse, range(1, count + 1)))
        check(f"{name} without a refused allocation", self.run(asked, REFUSE_NTH=str(count + 1)) == asked.plain)


class Forking:
    """A run of a program of one thread, beside which each of its allocations is refused to a copy of it (refuse_each.c)."""

    def __init__(self, folder):
        self.folder, self.preloaded = folder, library(folder, "refuse_each")

    def each(self, asked, name):
        """Refuses each allocation of a run in turn, and answers how many there were."""
        with tempfile.TemporaryDirectory(dir=self.folder) as folder:
            status, out, err = self.run(asked, folder)
            check(f"{name} without a refused allocation", (status, out, err) == asked.plain)
            ends = [[int(word) for word in line.split()] for line in lines_of(folder, "ends")]
            for nth, (written, said, ended) in enumerate(ends, 1):
                told = os.waitstatus_to_exitcode(ended), out[:written] + held(folder, f"{nth}.out"), err[:said] + held(folder, f"{nth}.err")
                check(f"allocation {nth} of {name} refused", asked.allows(*told), shown(told[1] + told[2]))
        check(f"an allocation of {name} is refused", ends)
        return len(ends)

    def run(self, asked, folder):
        """Status, standard output and standard error of the run itself."""
        with tempfile.TemporaryFile() as text, tempfile.TemporaryFile() as out, tempfile.TemporaryFile() as err:
            text.write(asked.input)
            text.seek(0)
            settings = {"LD_PRELOAD": self.preloaded, "REFUSE_EACH": folder}
            command = [asked.program, *(asked.arguments or ["-"])]
            done = subprocess.run(command, stdin=text, stdout=out, stderr=err, timeout=MOST_SECONDS, env=settings)
            out.seek(0)
            err.seek(0)
            return done.returncode, out.read(), err.read()


def held(folder, name):
    with open(os.path.join(folder, name), "rb") as file:
        return file.read()


def lines_of(folder, name):
    return held(folder, name).splitlines()


class Words:
    """A run with other arguments, which says what it says, or that memory is missing."""

    input = b""

    def __init__(self, program, words):
        self.program, self.arguments = program, words
        self.plain = run(program, self.input, *words)

    def allows(self, *told):
        return told in (self.plain, OUT_OF_MEMORY)
