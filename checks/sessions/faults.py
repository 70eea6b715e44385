"""Faults of the standard input and output of a plain session, by a library that is loaded before the program.
A module, a part of program.py.

The proofs say what a session does where a read or a write fails, over streams that say so; of the real
ones nothing is proved. This says of them: 999 interrupted calls in succession change nothing, and the
1,000th ends the session; a write that takes nothing, and one that fails, ends it too, and exactly the
bytes before it went out; after a read that fails, what was answered before stands, and nothing else does;
and a writer that takes one byte a call changes no output.

It needs a C compiler, `cc`.
"""
import concurrent.futures
import errno
import os
import tempfile

from harness.runs import check, library, run, shown
from sessions import cases

# The session of which each byte is the last: of two namespaces with a watcher, and then their tables.
CASE = "watch-all"
SHOWS = b"show 1\nshow 2\n"

# How many interruptions in succession end a session.
MOST_INTERRUPTIONS = 1_000

# Cases of more output are not written byte by byte.
MOST_OUTPUT = 20_000

# A session whose last answer is a table, and what is left of that answer where so many bytes of it can be written.
TABLE = b"mkfs a tmpfs none\nmkfs d ext4 /dev/x\nmkdir a /m\nnewns a\nmount 1 d /m\nwatch 1\nshow 1\n"
LEFT = {7: b"ok 2 2\n", 9: b"ok 2 2\n1 "}

ALWAYS = -1
TAKES_NOTHING = 0
READ_FAULT = 1, b"mountd: read fault\n"
WRITE_FAULT = 1, b"mountd: write fault\n"


class Faulty:
    """Runs of a program with the library that makes calls fail, all with one input."""

    def __init__(self, program, text, folder, *arguments):
        self.program, self.text, self.arguments = program, text, arguments
        self.preloaded = os.path.join(folder, "fail_io.so")
        self.status, self.output, self.complaint = run(program, text, *arguments)

    def run(self, stream, number, *, most=0, behind=0, times=ALWAYS, each=False, told=None):
        """Output, and how it ended, of a run in which these calls of FAIL_READ or FAIL_WRITE fail."""
        words = {"LD_PRELOAD": self.preloaded, stream: f"{most} {behind} {times} {number} {int(each)}"}
        if told:
            words["CALLS_TO"] = told
        status, output, complaint = run(self.program, self.text, *self.arguments, environment=words)
        return output, (status, complaint)

    def check_cut(self, name, found, output, ended):
        """A run that a fault has ended with this output."""
        check(f"{name}: what went out", found[0] == output, f"wanted {shown(output)}\nfound  {shown(found[0])}")
        check(f"{name}: its end", found[1] == ended, repr(found[1]))

    def check_whole(self, name, found):
        """A run that a fault has changed nothing of."""
        self.check_cut(name, found, self.output, (self.status, self.complaint))

    def answered(self, count):
        """The output of a session of which so many bytes of the input can be read."""
        whole = self.text[:count].rpartition(b"\n")
        return run(self.program, whole[0] + whole[1], *self.arguments)[1]


def at_once(call, items):
    """Calls for each of these, several at once."""
    with concurrent.futures.ThreadPoolExecutor(os.cpu_count()) as pool:
        list(pool.map(call, items))


def places(text, part):
    """The places of the first byte of a text, the first after a line, one within this part of it, and its last."""
    return 0, text.index(b"\n") + 1, text.index(part) + 3, len(text) - 1


def check_interrupted(faulty, stream, text, part, left, fault):
    """999 interruptions in succession change nothing, and one more ends the session after what `left` says."""
    for behind in places(text, part):
        name = f"interruptions of {stream} behind {behind} bytes"
        found = faulty.run(stream, errno.EINTR, behind=behind, times=MOST_INTERRUPTIONS - 1)
        faulty.check_whole(f"999 {name}", found)
        found = faulty.run(stream, errno.EINTR, behind=behind, times=MOST_INTERRUPTIONS)
        faulty.check_cut(f"1,000 {name}", found, left(behind), fault)
    found = faulty.run(stream, errno.EINTR, most=1, times=MOST_INTERRUPTIONS - 1, each=True)
    faulty.check_whole(f"999 interruptions of {stream} before each byte", found)


def check_each_write(faulty):
    """Each byte of the output is the first that is not taken, by a write that fails and by one that takes nothing."""

    def fail(behind):
        for number in errno.EIO, TAKES_NOTHING:
            found = faulty.run("FAIL_WRITE", number, behind=behind)
            name = f"a write behind {behind} bytes that " + ("fails" if number else "takes nothing")
            faulty.check_cut(name, found, faulty.output[:behind], WRITE_FAULT)

    at_once(fail, range(len(faulty.output)))
    found = faulty.run("FAIL_WRITE", errno.EIO, behind=len(faulty.output))
    faulty.check_whole("a write that would fail behind all bytes", found)


def check_table_cut(program, folder):
    """A table whose writing fails within it: what went out of it, by hand."""
    faulty = Faulty(program, TABLE, folder)
    before = len(faulty.answered(TABLE.index(b"show")))
    for count, left in LEFT.items():
        found = faulty.run("FAIL_WRITE", errno.EIO, behind=before + count)
        faulty.check_cut(f"a table cut behind {count} bytes", found, faulty.output[:before] + left, WRITE_FAULT)


def check_each_read(faulty):
    """Each read of the input, of one byte, fails."""

    def fail(behind):
        found = faulty.run("FAIL_READ", errno.EIO, most=1, behind=behind)
        faulty.check_cut(f"a read that fails behind {behind} bytes", found, faulty.answered(behind), READ_FAULT)

    at_once(fail, range(len(faulty.text) + 1))


def check_single_bytes(program, folder):
    """Each case is answered the same where a write takes one byte."""
    compared = []

    def compare(name):
        case = cases.load(name)
        if len(case.output()) > MOST_OUTPUT:
            return
        faulty = Faulty(program, case.input(), folder, *case.plain_arguments())
        told = os.path.join(folder, f"calls of {name}")
        found = faulty.run("FAIL_WRITE", 0, most=1, times=0, told=told)
        faulty.check_cut(f"case {name} written byte by byte", found, case.output(), (0, b""))
        with open(told, encoding="ascii") as file:
            writes = int(file.read().split()[1])
        check(f"case {name} written byte by byte: its writes", writes == len(case.output()), str(writes))
        compared.append(writes)

    at_once(compare, cases.names())
    print(f"{len(compared)} cases of {sum(compared)} bytes written byte by byte")
    check("a case is written byte by byte", sum(compared) > 0)


def check_faults(program):
    with tempfile.TemporaryDirectory() as folder:
        library(folder, "fail_io")
        faulty = Faulty(program, cases.load(CASE).input() + SHOWS, folder, "-")
        check("a session without faults", faulty.output.startswith(cases.load(CASE).output()))
        check("its end", (faulty.status, faulty.complaint) == (0, b""))
        check_interrupted(faulty, "FAIL_WRITE", faulty.output, b"space 2", lambda behind: faulty.output[:behind], WRITE_FAULT)
        check_interrupted(faulty, "FAIL_READ", faulty.text, b"watch all", faulty.answered, READ_FAULT)
        check_each_write(faulty)
        check_table_cut(program, folder)
        check_each_read(faulty)
        print(f"a fault at each of {len(faulty.text)} bytes read and {len(faulty.output)} written")
        check_single_bytes(program, folder)
