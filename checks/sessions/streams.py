"""Odd input, closed streams and the program's arguments. A module, a part of program.py.

A real stream tells the proofs nothing, and a program has no contract: this says that no input and no
closed stream ends it by a signal, and that its statuses and messages are those that mountd(1) names.
"""
import socket
import subprocess

from harness import commands
from harness.runs import MOST_SECONDS, check, run, shown
from sessions import cases


def check_input(program):
    fault = (1, b"", b"mountd: read fault\n")
    for count, answer in (8_192, b"no BadLine\n"), (8_193, b"no TooLong\n"):
        check(f"a line of {count} bytes without end", run(program, b"x" * count) == (0, answer, b""))
        check(f"a line of {count} bytes", run(program, b"x" * count + b"\n") == (0, answer, b""))
    check("a line of 2,000,000 bytes", run(program, b"x" * 2_000_000) == fault)
    check("a line of 1,056,769 bytes without end", run(program, b"x" * 1_056_769) == fault)
    long = b"x" * 1_056_768 + b"\nshow 1\n"
    check("a line of 1,056,768 bytes", run(program, long) == (0, b"no TooLong\nno NoNamespace\n", b""))
    check("zero bytes", run(program, b"\0" * 100 + b"\n") == (0, b"no BadLine\n", b""))
    check("a zero byte in a name", run(program, b"mkfs a\0b c d\n") == (0, b"no BadLine\n", b""))
    every = bytes(range(256)) * 40
    found = run(program, every + b"\n")
    check("every byte", found == (0, b"no BadLine\n" * 41, b""), repr(found))


def in_pieces(program, case, most):
    """Status, standard output and standard error of a case of which each read gives at most so many bytes, as a packet."""
    ours, theirs = socket.socketpair(socket.AF_UNIX, socket.SOCK_SEQPACKET)
    ours.settimeout(MOST_SECONDS)
    text = case.input()
    words, pipe = [program, *case.plain_arguments()], subprocess.PIPE
    with subprocess.Popen(words, stdin=theirs, stdout=pipe, stderr=pipe) as served, ours:
        theirs.close()
        try:
            for at in range(0, len(text), most):
                ours.send(text[at : at + most])
        except ConnectionError:
            pass
        ours.close()
        output, complaint = served.communicate(timeout=MOST_SECONDS)
        return served.returncode, output, complaint


def check_pieces(program):
    """Each case is answered the same however its input comes in pieces."""
    answered = 0
    for name in cases.names():
        case = cases.load(name)
        answered += len(case.output())
        for most in (1, 7):
            found = in_pieces(program, case, most)
            check(f"case {name} in pieces of {most}", found == (0, case.output(), b""), repr(found))
    check("cases in pieces have answers", answered > 0)


def check_closed(program):
    session = subprocess.Popen(
        [program, "-"], stdin=subprocess.PIPE, stdout=subprocess.PIPE, stderr=subprocess.PIPE
    )
    session.stdout.close()
    try:
        session.stdin.write(b"show 1\n" * 100_000)
        session.stdin.close()
    except BrokenPipeError:
        pass
    complaint = session.stderr.read()
    check("a closed pipe", (session.wait(MOST_SECONDS), complaint) == (1, b"mountd: write fault\n"), shown(complaint))
    for closed, wanted in [("0<&-", b"mountd: read fault\n"), ("1>&-", b"mountd: write fault\n")]:
        done = subprocess.run(
            ["sh", "-c", f'exec "$0" - {closed}', program], input=b"show 1\n", capture_output=True, timeout=MOST_SECONDS
        )
        check(f"a stream closed by {closed}", (done.returncode, done.stderr) == (1, wanted), shown(done.stderr))


def check_arguments(program):
    found = run(program, b"", "/")
    check("a socket that cannot be", found == (1, b"", b"mountd: cannot listen: /: is no socket\n"), repr(found))
    for words, said in (["a", "b"], b"'b'"), (["--frobnicate"], b"'--frobnicate'"), (["--queue", "2"], b"SOCKET"):
        status, text, complaint = run(program, b"", *words)
        check(f"faulty arguments {words}", (status, text) == (2, b"") and said in complaint, shown(complaint))
    for option, most in ("--queue", 16384), ("--sessions", 32), ("--room", 256):
        for number in "0", str(most + 1), "-1", "x", "99999999999999999999":
            status, text, complaint = run(program, b"", "-", f"{option}={number}")
            check(f"{option} {number}", (status, text) == (2, b""), shown(complaint))
        bounds = run(program, b"", "-", option, "0")[2]
        check(f"the bounds of {option}", b"1..=%d" % most in bounds, shown(bounds))
        for number in "1", str(most):
            check(f"{option} {number}", run(program, b"quit\n", "-", option, number) == (0, b"ok\n", b""))
    check("a word that is no text", run(program, b"", b"\xff") == (2, b"", b"mountd: an argument is not UTF-8\n"))
    none = subprocess.run([program], input=b"", capture_output=True, timeout=MOST_SECONDS)
    check("no word", (none.returncode, none.stdout) == (2, b"") and b"SOCKET" in none.stderr, shown(none.stderr))
    status, text, complaint = run(program, b"", "--help")
    check("help", status == 0 and text.startswith(b"Usage: mountd") and complaint == b"")
    words = {line.split()[0] for line in text.split(b"Lines of a session:")[-1].splitlines() if line.startswith(b"  ")}
    check("help has the lines of a session", set(commands.LINES) <= words, shown(text))
