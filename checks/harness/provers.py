"""Which crates cost the prover how much processor time, seen from outside while `rt ci` runs. A module, for gate.py."""
import contextlib
import glob
import os
import threading

# How often the processes of this machine are looked at, in seconds: a process that ends sooner is not seen, and of each one
# what it takes behind the last look is lost.
PAUSE = 0.5


def crate_of(words):
    """The crate that a call of the prover proves, with its tests told apart; none of another program."""
    if not words[0].endswith("/rattle") or "--crate-name" not in words[:-1]:
        return None
    crate = words[words.index("--crate-name") + 1]
    return f"{crate}, its tests" if "--test" in words else crate


def seconds_of(status):
    """The processor seconds of a process and when it began, by the text of its /proc/PID/stat (proc(5))."""
    fields = status.rpartition(")")[2].split()
    return (int(fields[11]) + int(fields[12])) / os.sysconf("SC_CLK_TCK"), fields[19]


class Provers:
    """While it lasts, the processor seconds of each process that proves a crate below a folder."""

    def __init__(self, folder):
        self.folder, self.seen, self.over = folder, {}, threading.Event()
        self.thread = threading.Thread(target=self.watch, daemon=True)

    def __enter__(self):
        self.thread.start()
        return self

    def __exit__(self, *_fault):
        self.over.set()
        self.thread.join()

    def watch(self):
        while not self.over.wait(PAUSE):
            for process in glob.glob("/proc/[0-9]*"):
                # It may end while it is looked at.
                with contextlib.suppress(OSError, ValueError, IndexError):
                    self.look_at(process)

    def look_at(self, process):
        with open(f"{process}/cmdline", encoding="utf-8", errors="replace") as file:
            crate = crate_of(file.read().split("\0"))
        if crate and os.readlink(f"{process}/cwd").startswith(self.folder):
            with open(f"{process}/stat", encoding="utf-8", errors="replace") as file:
                seconds, began = seconds_of(file.read())
            self.seen[process, began] = crate, seconds

    def lines(self):
        """A line for each crate, the dearest first."""
        spent = {}
        for crate, seconds in self.seen.values():
            spent[crate] = spent.get(crate, 0) + seconds
        return [f"{seconds:6.0f} processor seconds: {crate}" for crate, seconds in sorted(spent.items(), key=lambda it: -it[1])]
