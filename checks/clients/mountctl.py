"""The other program, which asks a server: its answers, its statuses, and what it makes of a server of no worth.

A module, a part of server.py.
"""
import concurrent.futures
import os
import re
import shutil
import subprocess
import tempfile
import time

from clients.reasons import EMPTY_WORD, without_reasons
from harness import commands, protocol
from harness.allocations import Refusing, Words
from harness.runs import MOST_SECONDS, check, connection_fault, difference, run, shown
from harness.servers import START, STOP, Door, Server, leave_socket, rests, stop_behind, until_it_rests, user_of_none
from sessions import cases


def without_comments(case):
    """The case without what a script does not send: empty lines, and those that begin with `#`."""
    return case._replace(turns=[turn for turn in case.turns if turn.sent()[:1] not in (b"\n", b"#")])


# Characters that turn the direction of text, separators of lines and paragraphs, and a byte order mark.
HIDDEN = {*"\u061c\u200e\u200f\u2028\u2029\u202a\u202b\u202c\u202d\u202e\u2066\u2067\u2068\u2069\ufeff"}


def is_obeyed(character):
    """Whether a terminal obeys a character, or it stands for a byte that is of none."""
    code = ord(character)
    return code < 32 or 127 <= code <= 159 or 0xDC80 <= code <= 0xDCFF or character in HIDDEN


def printable(line):
    """A line as a message shows it."""
    pieces = ((one, one.encode("utf-8", "surrogateescape")) for one in line.decode("utf-8", "surrogateescape"))
    return b"".join(b"".join(b"\\x%02x" % byte for byte in piece) if is_obeyed(one) else piece for one, piece in pieces)


def told_of(case):
    """What the other program tells of a case as a script: each line that is refused, with its number, and how."""
    told = []
    for number, turn in enumerate(case.turns, 1):
        line = turn.sent().removesuffix(b"\n")
        if line[:1] in (b"", b"#"):
            continue
        refused = [b"no Stopped"] if rests(turn) else [answer for answer in turn.answers if answer.startswith(b"no ")]
        # A line that is too long, or has no end, is not sent, and so not told.
        is_sent = turn.sent().endswith(b"\n") and len(line) <= protocol.LINE
        told += [b": ".join([b"mountctl", b"line %d" % number, *[printable(line)] * is_sent, answer]) + b"\n" for answer in refused]
        if rests(turn):
            break
    return b"".join(told)


def check_scripts(program, mountctl):
    """Each of these cases, as a script of the other program, is answered as its file says, but for its comments."""
    for name in cases.names():
        case = cases.load(name)
        text, _, is_resting = until_it_rests(case)
        _, wanted, _ = until_it_rests(without_comments(case))
        with Server(program, *case.arguments) as server:
            words = [mountctl, server.path, "-"]
            with subprocess.Popen(words, stdin=subprocess.PIPE, stdout=subprocess.PIPE, stderr=subprocess.PIPE) as script:
                if is_resting:
                    script.stdin.write(text)
                    script.stdin.close()
                    found = stop_behind(server, wanted.count(b"\n"), script.stdout)
                    wanted += b"no Stopped\n"
                    complaint = script.stderr.read()
                    script.wait(MOST_SECONDS)
                else:
                    found, complaint = script.communicate(text, timeout=MOST_SECONDS)
        check(f"case {name} as a script", found == wanted, difference(wanted, found, name))
        refused = re.search(rb"(?m)^no ", wanted) is not None
        told, said = without_reasons(complaint)
        ended = script.returncode, told
        check(f"case {name} as a script: its status", ended == (int(refused), told_of(case)), repr(ended))
        bad = [int(number) for number in re.findall(rb"(?m)^mountctl: line (\d+): .*: no BadLine$", told)]
        check(f"case {name} as a script: its bad lines", [number for number, name in said if name == b"BadLine"] == bad, repr(said))


def check_client(program, mountctl):
    """The other program asks this one."""

    with Server(program, "--sessions", "2") as server:

        def asked(*words):
            return run(mountctl, b"", server.path, *words)

        check("mountctl: ok", asked("mkfs", "a b", "tmpfs", "none") == (0, b"ok 1\n", b""))
        check("mountctl: no", asked("show", "1") == (1, b"no NoNamespace\n", b""))
        with server.free(), server.free():
            for _ in range(50):
                found = asked("show", "1")
                check("mountctl beside as many sessions as may be", found == (1, b"no TooMany\n", b""), repr(found))
        end = time.monotonic() + STOP
        while (found := asked("stop"))[1] == b"no TooMany\n" and time.monotonic() < end:
            time.sleep(0.01)
        check("mountctl: stop", found == (0, b"ok\n", b"") and server.ends() == (0, b""), repr(found))


# Words of a mirror, of a monitor and of drawings that are none, and what is said of them.
NO_MIRRORS = "mirror", "mirror 1", "mirror x 1", "mirror 01 1", "mirror 1 1 1", "mirror 1 -1"
NO_MONITORS = "monitor", "monitor 1 /m", "monitor --json", "monitor 1 --ascii", "monitor 1 --time --time", "monitor x", "monitor 01", "monitor 1 2", "monitor all all", "monitor -1"
NO_TREES = "tree x", "tree 01", "tree 1 2", "tree --ascii --ascii", "tree 1 --ascii 2", "tree --plain", "tree 1 -a", "tree --json --ascii", "tree --time", "tree all /m", "tree /m", "tree 1 m", "tree 1 /m /m"
NO_TABLES = "show --json", "show all --json", "show --json 1 --json", "show 1 2 --json"
NO_PLACES = "find --json", "find 1 --json", "find x / --json", "find 1 / / --json"
NO_GRAPHS = "dot x", "dot 1 2", "dot --ascii", "dot --json", "dot all /m", "dot /m", "dot 1 /m /m"
NO_LISTS = "spaces 1", "spaces all", "spaces --ascii", "spaces --json --json"
NO_NAMES = "tree --name", "tree --name 1", "tree 1 --name 1=", "dot --name =a", "dot --name 01=a", "spaces --name x=a", "monitor all --name --json", "tree --name 1=a --name 1=b"
NO_TASKS = (
    (NO_MONITORS, b"mountctl: monitor takes a namespace, or all, and --json and --time\n"),
    (NO_MIRRORS, b"mountctl: mirror takes a namespace and a count\n"),
    (NO_TREES, b"mountctl: tree takes a namespace and a path, all or none, --ascii or --json\n"),
    (NO_TABLES, b"mountctl: show takes a namespace, and --json\n"),
    (NO_PLACES, b"mountctl: find takes a namespace and a path, and --json\n"),
    (NO_GRAPHS, b"mountctl: dot takes a namespace and a path, all or none\n"),
    (NO_LISTS, b"mountctl: spaces takes --json, or no words\n"),
    (NO_NAMES, b"mountctl: a name is given as --name 2=web, once for each namespace\n"),
)

# Lines of the server that a user might take for the client's own, and what answers each, of two namespaces.
LINES = (
    ("watch 1", 0, b"ok 2\nspace 1 2 1\n1 1 0:1 / / rw,relatime shared:1 - tmpfs none rw\n"),
    ("watch 9", 1, b"no NoNamespace\n"),
    ("watch", 1, b"no BadLine\n"),
    ("watch x", 1, b"no BadLine\n"),
    ("watch all all", 1, b"no BadLine\n"),
    ("mirror 1 0", 1, b"no BadLine\n"),
    ("mirror 1 1048577", 1, b"no BadLine\n"),
    ("follow 1", 1, b"no NoWatcher\n"),
)
READ_FAULT = 3, b"", b"mountctl: read fault\n"
WRITE_FAULT = 3, b"", b"mountctl: write fault\n"
OUT_OF_MEMORY = 3, b"", b"mountctl: out of memory\n"

# Words, a standard stream, and how the program ends: an output that takes nothing, and an input that cannot be read,
# a folder.
FAULTY_STREAMS = (
    ("show 1", "1>/dev/full", WRITE_FAULT),
    ("dot", "1>/dev/full", WRITE_FAULT),
    ("-", "1>/dev/full", WRITE_FAULT),
    ("-", "0</", READ_FAULT),
)

# Standard streams that are closed at the start, words, what the server is sent by them and what it answers, and how
# the program ends.
NAMELESS = b"no NoNamespace\n"
CLOSED = (
    ("0<&-", "show 1", b"show 1\n", NAMELESS, (1, NAMELESS, b"")),
    ("0<&-", "-", b"", b"", READ_FAULT),
    ("1>&-", "show 1", b"show 1\n", NAMELESS, WRITE_FAULT),
    ("2>&-", "show 1", b"show 1\n", NAMELESS, (1, NAMELESS, b"")),
    ("2>&-", "show 1", b"show 1\n", b"nonsense\n", (3, b"", b"")),
    ("0<&- 1>&-", "show 1", b"show 1\n", NAMELESS, WRITE_FAULT),
    ("0<&- 1>&- 2>&-", "show 1", b"show 1\n", NAMELESS, (3, b"", b"")),
)

# A script with comments, and what answers it. A line with a space before its `#` is no comment, nor is a word of one.
COMMENTED = b"""# Makes a filesystem.

mkfs a#b tmpfs #
#
 # no comment
mkdir a#b /#
# the end
"""
COMMENTED_ANSWERS = b"ok 1\nno BadLine\nok\n"


def redirected(mountctl, streams, *words, text=b""):
    """How the program ends where a shell has set its standard streams so."""
    return run("sh", text, "-c", f'exec "$0" "$@" {streams}', mountctl, *words)


def check_faulty_words(mountctl):
    """Faulty arguments have status 2 and say what is wrong, also where there is no server."""
    none = os.path.join(os.path.dirname(mountctl), "none", "socket")
    for words, said in [(words, said) for many, said in NO_TASKS for words in many]:
        found = run(mountctl, b"", none, *words.split())
        check(f"mountctl {words}", found == (2, b"", said), repr(found))
    found = run(mountctl, b"", none, b"\xff")
    check("mountctl: a word that is no text", found == (2, b"", b"mountctl: an argument is not UTF-8\n"), repr(found))
    for words, said in ([none], b"WORD"), (["--frobnicate", none], b"'--frobnicate'"):
        status, text, complaint = run(mountctl, b"", *words)
        check(f"mountctl: faulty arguments {words}", (status, text) == (2, b"") and said in complaint, shown(complaint))
    status, text, complaint = run(mountctl, b"", "--help")
    check("mountctl: help", (status, complaint) == (0, b"") and text.startswith(b"Usage: mountctl"), shown(text))
    found = redirected(mountctl, "1>/dev/full", "--help")
    check("mountctl: a help that does not go out", found == WRITE_FAULT, repr(found))


def check_closed(_program, mountctl):
    """A connection gets the number of no standard stream that is closed: the server is sent nothing but the requests."""
    for streams, words, sent, answer, ended in CLOSED:
        with Door() as door, concurrent.futures.ThreadPoolExecutor(1) as pool:
            running = pool.submit(redirected, mountctl, streams, door.path, *words.split())
            found = door.answers(answer)
            check(f"mountctl {words} {streams}: what is sent", found == sent, repr(found))
            found = running.result()
            check(f"mountctl {words} {streams}", found == ended, repr(found))


# A script with two refused lines, of which one has bytes that a terminal obeys.
SCRIPT = b"# none\nshow 1\nshow \x1b[2J\nshow 7\n"
TOLD = (
    b"mountctl: line 2: show 1: no NoNamespace\n",
    b"mountctl: line 3: show \\x1b[2J: no BadLine\n",
    b"mountctl: line 3: BadLine: \\x1b[2J: NS is a number, digits without a leading zero, below 18446744073709551616\n",
    b"mountctl: line 4: show 7: no NoNamespace\n",
)
NAMELESS_AND_BAD = NAMELESS + b"no BadLine\n" + NAMELESS

# Options, the words, and how the program ends: a script to its end, up to the first refusal, without its answers, and both;
# and one line without its answer.
MANNERS = (
    ([], ["-"], (1, NAMELESS_AND_BAD, b"".join(TOLD))),
    (["-e"], ["-"], (1, NAMELESS, TOLD[0])),
    (["-q"], ["-"], (1, b"", b"".join(TOLD))),
    (["-eq"], ["-"], (1, b"", TOLD[0])),
    (["-q"], ["show", "1"], (1, b"", b"")),
    (["-e"], ["show", "1"], (1, NAMELESS, b"")),
)


def check_manners(mountctl, server):
    """What the options say of a script, and of a line."""
    for options, words, wanted in MANNERS:
        done = subprocess.run([mountctl, *options, server.path, *words], input=SCRIPT, capture_output=True, timeout=MOST_SECONDS)
        found = done.returncode, done.stdout, done.stderr
        check(f"mountctl {' '.join([*options, *words])}", found == wanted, repr(found))
    found = run(mountctl, b"show 64\nshow 64\n", "-e", server.path, "-")
    check("mountctl -e: the first refusal alone", found == (1, NAMELESS, b"mountctl: line 1: show 64: no NoNamespace\n"), repr(found))


def check_comments(program, mountctl):
    """A script's empty lines and comments are not sent."""
    with Server(program) as server:
        found = run(mountctl, COMMENTED, server.path, "-")
        told = b"mountctl: line 5:  # no comment: no BadLine\nmountctl: line 5: BadLine: %b\n" % EMPTY_WORD
        check("mountctl: a script with comments", found == (1, COMMENTED_ANSWERS, told), repr(found))
        for text, answer in (b"#" * 8_193 + b"\n", b"no TooLong\n"), (b"# no line end", b"no BadLine\n"):
            found = run(mountctl, text, server.path, "-")
            check(f"mountctl: {shown(text[-20:])!r} in a script", found == (1, answer, b"mountctl: line 1: " + answer), repr(found))
        check_manners(mountctl, server)
        found = run(mountctl, b"# nothing\n\n", server.path, "-")
        check("mountctl: a script of comments", found == (0, b"", b""), repr(found))
        ended = server.stop()
        check("mountctl: the server's end behind comments", ended == (0, b""), repr(ended))


def words_of(program, title):
    """The first words of the lines after a title of a program's help, up to an empty one."""
    lines = run(program, b"", "--help")[1].split(title + b"\n")[1].split(b"\n\n")[0].splitlines()
    return {word.split()[0] for line in lines if line.startswith(b"  ") and line[2:3] != b" " for word in line[2:25].split(b", ")}


def check_lines(program, mountctl):
    """Each line of the server is sent, and none begins with a word that the client keeps for itself; two have JSON too."""
    kept, lines = words_of(mountctl, b"In the place of WORD..:"), words_of(program, b"Lines of a session:")
    check("the words of both", kept & lines == {b"show", b"find"}, repr(kept & lines))
    kept -= lines
    check("the words of the client", kept == {b"-", b"monitor", b"mirror", b"tree", b"dot", b"spaces", b"what-if", b"reach", b"origin", b"holders", b"page", b"save"}, repr(kept))
    check("the words of the server", lines == set(commands.LINES), repr(sorted(lines)))
    with Server(program) as server, server.free() as client:
        for line in START:
            client.ask(line)
        for word in sorted(kept | {b"import", b"explain"}):
            for behind in b"", b" 1", b" 1 1", b" 1 / /", b" all":
                found = client.ask(word + behind)
                check(f"{shown(word + behind)} is no line", found == [b"no BadLine"], repr(found))
        for words, status, answer in LINES:
            found = run(mountctl, b"", server.path, *words.split())
            check(f"mountctl {words}", found[:2] == (status, answer), repr(found))
        found = run(mountctl, b"", server.path, "watch", "all")
        check("mountctl watch all", found[0] == 0 and found[1].startswith(b"ok 4\nspace 1 2 1\n"), repr(found))


def check_unanswered(program, mountctl):
    """Why there is no connection to a server."""
    with tempfile.TemporaryDirectory() as folder:
        plain, stale, none, long = (os.path.join(folder, name) for name in ("plain", "stale", "none/socket", "x" * 100))
        with open(plain, "w", encoding="ascii"):
            pass
        leave_socket(stale)
        for path, reason in (
            (plain, "is no socket"),
            (folder, "is no socket"),
            (stale, "connection refused"),
            (none, "no such file or directory"),
            (long, "path too long"),
            ("", "path is empty"),
        ):
            found = run(mountctl, b"", path, "show", "1")
            check(f"mountctl at {path}", found == (3, b"", connection_fault(path, reason)), repr(found))
    with Server(program) as server:
        os.chmod(server.path, 0)
        copy = shutil.copy(mountctl, server.folder)
        os.chmod(copy, 0o755)
        os.chmod(server.folder, 0o755)
        denied = subprocess.run(
            [copy, server.path, "show", "1"], input=b"", capture_output=True, timeout=MOST_SECONDS, user=user_of_none()
        )
        found = denied.returncode, denied.stdout, denied.stderr
        check("mountctl at a socket of somebody else", found == (3, b"", connection_fault(server.path, "permission denied")), repr(found))


def check_statuses(program, mountctl):
    """Each status of the other program, beside those of its answers."""
    check_faulty_words(mountctl)
    check_unanswered(program, mountctl)
    check_lines(program, mountctl)
    with Server(program) as server:
        found = run(mountctl, b"", server.path, "mirror", "9", "1")
        check("mountctl: a mirror of no namespace", found == (1, b"no NoNamespace\n", b""), repr(found))
        found = run(mountctl, b"", server.path, "-")
        check("mountctl: an empty script", found == (0, b"", b""), repr(found))
        # A script is cut into lines as a session is.
        for count, end, answer in (8_192, b"", b"no BadLine\n"), (8_193, b"", b"no TooLong\n"), (8_193, b"\n", b"no TooLong\n"):
            found = run(mountctl, b"x" * count + end, server.path, "-")
            wanted = (1, answer, b"mountctl: line 1: " + answer)
            check(f"mountctl: a script of {count} bytes and {shown(end)}", found == wanted, repr(found))
        for words, stream, wanted in FAULTY_STREAMS:
            found = redirected(mountctl, stream, server.path, *words.split(), text=b"show 1\n")
            check(f"mountctl {words} {stream}", found == wanted, repr(found))
        # As long a line as a session reads no end of.
        found = run(mountctl, b"x" * 2_000_000, server.path, "-")
        check("mountctl: a script without a line end", found == READ_FAULT, repr(found))
        ended = server.stop()
        check("mountctl: the server's end", ended == (0, b""), repr(ended))


class Asked(Words):
    """A run of the other program, which says after a part of what it prints that memory is missing. It may also do without: the
    tables of indexmap ask for less then."""

    def allows(self, status, text, complaint):
        if (status, text, complaint) == self.plain:
            return True
        said = complaint.removesuffix(OUT_OF_MEMORY[2])
        return (status, b"", complaint[len(said) :]) == OUT_OF_MEMORY and self.plain[1].startswith(text) and self.plain[2].startswith(said)


class Script(Asked):
    """The same, with lines to send."""

    input = b"show 1\nfind 1 /m\nmove 1 / /m\nfnd 1 /m\n"


def check_refused(program, mountctl):
    """Each allocation of the other program is refused in turn, with requests that change nothing."""
    with Server(program) as server, tempfile.TemporaryDirectory() as folder:
        with server.free() as client:
            for line in START:
                client.ask(line)
        refusing, total = Refusing(folder), 0
        tasks = "show 1", "shwo 1", "bind 1 /m /none", "monitor 9", "mirror 9 1", "spaces", "tree", "tree 2 --ascii", "dot", "-"
        for words in ["--help"], ["--version"], *[[server.path, *task.split()] for task in tasks]:
            asked = (Script if words[-1] == "-" else Asked)(mountctl, words)
            count = refusing.count(asked)
            refusing.each(asked, f"mountctl {' '.join(words)}", count)
            total += count
        print(f"{total} allocations of mountctl refused in turn", flush=True)
        ended = server.stop()
        check("mountctl without memory: the server's end", ended == (0, b""), repr(ended))


# What a mirror of namespace 1 prints once the group of its slave's master has no mount there any more.
RETOLD = b"""ok 3 9
1 1 0:1 / / rw,relatime - tmpfs none rw
2 1 0:2 / /w rw,relatime shared:1 - ext4 /dev/x rw
4 1 0:2 / /f rw,relatime master:2 propagate_from:1 - ext4 /dev/x rw
"""


def check_retold(program, mountctl):
    """A mirror follows a slave that comes to tell a group above its master. The change is made between its two requests."""
    lines = cases.load("propagate-from").requests()
    opening = lines.index(b"watch all")
    with Server(program) as server, server.client() as client, server.client() as passed_on:
        for line in lines[:opening]:
            client.ask(line)
        with Door() as door:
            words = [mountctl, door.path, "mirror", "1", "1"]
            with subprocess.Popen(words, stdout=subprocess.PIPE, stderr=subprocess.PIPE) as mirror:
                with door.accept() as stream, stream.makefile("rb") as requests:
                    for changes in ([lines[opening + 1]], []):
                        answer = passed_on.ask(requests.readline().removesuffix(b"\n"))
                        for change in changes:
                            client.ask(change)
                        stream.sendall(b"".join(line + b"\n" for line in answer))
                found = mirror.communicate(timeout=MOST_SECONDS)
    check("a mirror of a slave", (mirror.returncode, found) == (0, (RETOLD, b"")), repr(found))
