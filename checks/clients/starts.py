"""How the other program finds its server: a module, a part of server.py.

The version of both programs; the socket of the environment; and a server that is not there yet.
"""
import os
import re
import subprocess
import tempfile
import time

from harness.runs import MOST_SECONDS, check, connection_fault, run, shown
from harness.servers import Server, crowded, leave_socket

# How long a server is kept from its socket, and the time of a connection that is not to be had, in seconds.
LATE, NEVER = 0.5, 1

NO_SOCKET = 2, b"", b"mountctl: no SOCKET, and MOUNTD_SOCKET is not set\n"
NO_WORD = 2, b"", b"mountctl: no WORD: --help says what can be sent\n"


def asked(mountctl, socket, *words, text=b"", folder=None):
    """How the program ends in a folder, with a socket in its environment, or none."""
    settings = {name: value for name, value in os.environ.items() if name != "MOUNTD_SOCKET"}
    if socket is not None:
        settings["MOUNTD_SOCKET"] = socket
    done = subprocess.run([mountctl, *words], input=text, capture_output=True, timeout=MOST_SECONDS, env=settings, cwd=folder)
    return done.returncode, done.stdout, done.stderr


def check_version(program, mountctl):
    """Both programs have one version."""
    told = [run(path, b"", option) for path in (program, mountctl) for option in ("--version", "-V")]
    versions = [re.fullmatch(rb"(mountd|mountctl) (\d+\.\d+\.\d+)\n", text) for _, text, _ in told]
    check("versions", all(versions) and len({found[2] for found in versions}) == 1, repr(told))
    check("the version", {(status, complaint) for status, _, complaint in told} == {(0, b"")}, repr(told))


def check_slips(mountctl, server):
    """Where the environment names a socket, letters that begin no line are one with a slip, unless a file has this name."""
    for word in "shwo", "Show":
        found = asked(mountctl, server.path, word, "1")
        said = b"mountctl: BadLine: %b: no line begins so; the nearest is show\n" % word.encode()
        check(f"{word} at the socket of the environment", found == (1, b"no BadLine\n", said), repr(found))
    for word in "shwo.sock", "./shwo", "sock-et", "shwo1":
        found = asked(mountctl, server.path, word, "show", "1")
        check(f"{word} for a socket", found == (3, b"", connection_fault(word, "no such file or directory")), repr(found))
    found = asked(mountctl, None, "shwo", "show", "1")
    check("a socket of letters alone", found == (3, b"", connection_fault("shwo", "no such file or directory")), repr(found))
    with tempfile.TemporaryDirectory() as folder:
        os.symlink(server.path, os.path.join(folder, "server"))
        found = asked(mountctl, "none.sock", "server", "show", "1", folder=folder)
        check("a file of letters alone", found[0] == 0, repr(found))


def check_environment(program, mountctl):
    """The environment names the socket where no argument does: one that begins a line, or stands in its place, is none."""
    for words in ["tree"], ["show", "1"], ["-"], ["-e", "-"], ["tree", "--ascii"], ["dot"]:
        for socket in None, "":
            found = asked(mountctl, socket, *words)
            check(f"{words} without a socket", found == NO_SOCKET, repr(found))
    for socket, words in (None, []), (None, ["a.sock"]), ("b.sock", []), ("b.sock", ["a.sock"]):
        found = asked(mountctl, socket, *words)
        check(f"{words} without a word", found == NO_WORD, repr(found))
    found = asked(mountctl, b"\xff", "tree")
    check("a socket that is no text", found == (2, b"", b"mountctl: the socket of MOUNTD_SOCKET is not UTF-8\n"), repr(found))
    found = asked(mountctl, "none.sock", "./show", "1")
    check("a socket of the name of a line", found == (3, b"", connection_fault("./show", "no such file or directory")), repr(found))
    with Server(program) as server:
        for words, text, answer in (
            (["mkfs", "a", "tmpfs", "none"], b"", b"ok 1\n"),
            (["newns", "a"], b"", b"ok 1\n"),
            (["-e", "-"], b"show 1\n", b"ok 1 1\n1 1 0:1 / / rw,relatime - tmpfs none rw\n"),
            (["tree", "--ascii"], b"", b"namespace 1\nID TARGET SOURCE FSTYPE OPTIONS     PROPAGATION\n1  /      none   tmpfs  rw,relatime private\n"),
        ):
            found = asked(mountctl, server.path, *words, text=text)
            check(f"{words} at the socket of the environment", found == (0, answer, b""), repr(found))
        check_slips(mountctl, server)
        found = asked(mountctl, "none.sock", server.path, "show", "1")
        check("a socket in front of the words", found[0] == 0, repr(found))
        ended = server.stop()
        check("the server of the environment", ended == (0, b""), shown(ended[1]))


def check_wait(program, mountctl):
    """A server that comes later is waited for, whether its socket is not there or nobody listens at it; one that does not come
    is given up, and a file that is no socket at once."""
    with tempfile.TemporaryDirectory() as folder:
        path, stale, plain = (os.path.join(folder, name) for name in ("late.sock", "stale.sock", "plain"))
        leave_socket(stale)
        with open(plain, "w", encoding="ascii"):
            pass
        for there, options in (path, []), (stale, ["--replace"]):
            words = [mountctl, "--wait", str(MOST_SECONDS), there, "stop"]
            with subprocess.Popen(words, stdout=subprocess.PIPE, stderr=subprocess.PIPE) as client:
                time.sleep(LATE)
                running = client.poll()
                with subprocess.Popen([program, *options, there]) as server:
                    found = client.communicate(timeout=MOST_SECONDS)
                    status = server.wait(MOST_SECONDS)
            check(f"a server that is late at {there}", (running, client.returncode, found, status) == (None, 0, (b"ok\n", b""), 0), repr(found))
        leave_socket(stale)
        for there, reason, least in (path, "no such file or directory", NEVER), (stale, "connection refused", NEVER), (plain, "is no socket", 0):
            start = time.monotonic()
            found = run(mountctl, b"", "--wait", str(NEVER), there, "show", "1")
            took = time.monotonic() - start
            good = found == (3, b"", connection_fault(there, reason)) and least <= took < least + MOST_SECONDS / 4
            check(f"a server that does not come to {there}", good, f"{found}, {took}")
        for count in "-1", "65536", "x", "":
            found = run(mountctl, b"", f"--wait={count}", path, "show", "1")
            check(f"--wait={count}", found[:2] == (2, b"") and b"--wait" in found[2], repr(found))


def check_crowd(mountctl):
    """Where as many clients wait as may, one that is to wait for so long gives up then; without that it waits for room."""
    with tempfile.TemporaryDirectory() as folder:
        path = os.path.join(folder, "socket")
        with crowded(path) as (door, clients):
            start = time.monotonic()
            found = run(mountctl, b"", "--wait", str(NEVER), path, "show", "1")
            took = time.monotonic() - start
            good = found == (3, b"", connection_fault(path, "operation would block"))
            check("a wait at a crowded server", good and NEVER <= took < NEVER + MOST_SECONDS / 4, f"{found}, {took}")
            with subprocess.Popen([mountctl, path, "show", "1"], stdout=subprocess.PIPE) as client:
                time.sleep(LATE)
                running = client.poll()
                for _ in range(clients):
                    door.accept()[0].close()
                with door.accept()[0] as stream:
                    stream.sendall(b"no NoNamespace\n")
                    found = running, client.communicate(timeout=MOST_SECONDS)[0], client.returncode
            check("a client at a crowded server", found == (None, b"no NoNamespace\n", 1), repr(found))


def check_starts(program, mountctl):
    """The version, the environment, servers that come late, and one at which many clients wait."""
    check_version(program, mountctl)
    check_environment(program, mountctl)
    check_wait(program, mountctl)
    check_crowd(mountctl)
