"""What `mountctl what-if` tells: what a line changes in the namespaces of tables. A module, a part of server.py."""
import concurrent.futures
import itertools
import os
import re
import tempfile

from clients.outcomes import SPACE, files_of
from clients.worlds import worlds
from harness.commands import PLACING
from harness.protocol import id_of, posts_in, row_of, rows_of, word_of
from harness.runs import answer_groups, check, connection_fault, library, run, session, shown
from harness.scripts import Author
from harness.servers import Door, Server

# How many worlds are asked about, and how many lines of each.
WORLDS, LINES = 20, 5

# Refusals of what a line needs, which is made for a mount where it can be.
PROVIDED = b"no NoFilesystem", b"no NoEntry"

# The attributes that are told by their names, or by the names of their opposites, and the access times.
FLAGS = b"nosuid", b"nodev", b"noexec", b"nosymfollow", b"nodiratime"
TIMES = b"relatime", b"noatime"

# The filesystems of a random world, by their names in a script.
DEVICES = [b"0:1", b"0:2", b"0:3"]

TABLE = [b"1 1 0:1 / / rw,relatime shared:1 - tmpfs none rw", b"2 1 0:2 / /a rw,relatime - tmpfs none rw", b"3 9 0:2 / /b rw - tmpfs none rw"]

# What is said of a bind in it to /none.
NOT_THERE = b"""mountctl: line 1: bind 1 /a /none: no NoEntry
mountctl: line 1: NoEntry: DST, /none is not there: / is directory / of mount 2 at /, and has no none
    2 / none shared:1
  to change that: mkdir FS /none, where FS is the filesystem 0:1
"""

NO_QUESTIONS = "", "-- show 1", "FILE", "FILE --", "--pid -- show 1", "--pid x -- show 1", "-x -- show 1", "FILE -- quit", "FILE -- stop -- show 1", "FILE -- watch 1"
NO_QUESTION_SAID = b"mountctl: what-if takes files, and lines behind --\n"


def asked(program, mountctl, names, *lines):
    """Status, standard output and standard error of a question to a new server."""
    with Server(program) as server:
        words = [word for line in lines for word in ("--", *line)]
        found = run(mountctl, b"", server.path, "what-if", *names, *words)
        server.stop()
    return found


def fields_of(row):
    """What is told of a row where it is not as before, each with what stands in front of it."""
    access, *options = row.options.split(b",")
    flags = [flag if flag in options else flag.removeprefix(b"no") for flag in FLAGS]
    [times] = [word for word in options if word in TIMES] or [b"strictatime"]
    return [
        (b"", row.point),
        (b"parent ", b"%d" % row.parent),
        (b"root ", row.root),
        *((b"", word) for word in (access, *flags, times, row.propagation())),
    ]


def changes_of(before, after):
    """What is told of a row that is there in the place of another one of its mount."""
    pairs = zip(fields_of(before), fields_of(after), strict=True)
    changes = b", ".join(b"%b%b -> %b" % (front, old, new) for (front, old), (_, new) in pairs if old != new) or b"as before"
    return changes if before.point != after.point else b"%b %b" % (after.point, changes)


def change_told(change, before):
    """What is told of a change of a post, but for its namespace. The row before is that of the same mount, or none."""
    mark, text = change.split(b" ", 1)
    if mark == b"-":
        return b" ".join([b"-", text, *([before.point] if before else [])])
    row = row_of(text)
    if before:
        return b"~ %d %b" % (row.id, changes_of(before, row))
    return b" ".join([b"+", b"%d" % row.id, row.point, row.kind, row.options, row.propagation()])


def told_of(lines, names, rows):
    """What is told of the lines of posts. The rows are those before, by namespace and mount."""
    for head, changes in posts_in(lines):
        name = b" (%b)" % names[head.space] if head.space in names else b""
        for change in changes:
            before = rows.get((head.space, id_of(change.split(b" ", 1)[1])))
            yield b"%b in namespace %d%b" % (change_told(change, before), head.space, name)


def check_told(program, mountctl, name, tables, line):
    """A line is answered as a session answers it after the script, and what it changes is told, with the names of the files."""
    with files_of(tables) as files:
        script = run(mountctl, b"", "import", *files)[1].splitlines()
        found = asked(program, mountctl, files, shown(line).split(" "))
    commands = [command for command in script if not command.startswith(b"#")]
    names = {int(comment[2]): files[int(comment[1]) - 1].encode() for comment in map(SPACE.match, script) if comment}
    lines = [*commands, *(b"show %d" % space for space in range(1, 65)), b"watch all", line, b"close"]
    groups = answer_groups(session(program, lines)[1], lines)
    *_, answer, posts = groups
    if answer[0] in PROVIDED and word_of(line) in PLACING:
        return 0
    shows = groups[len(commands) : -3]
    rows = {(space, row.id): row for space, table in enumerate(shows, 1) for row in map(row_of, table[1:])}
    wanted = [*answer, *told_of(posts[1:], names, rows)] if answer[0].startswith(b"ok") else answer
    told = found[1].splitlines()
    check(f"what {shown(line)} changes in {name}", (found[0], told) == (0 if answer[0].startswith(b"ok") else 1, wanted), shown(found[1] + found[2] + b"\n".join([b"", *wanted, *script])))
    return len(wanted) - len(answer)


def check_random(program, mountctl):
    """Lines of an author who sees the tables as they were."""
    count = 0
    for number, (source, tables) in enumerate(itertools.islice(worlds(program), WORLDS)):
        author = Author(source)
        author.planned, author.left, author.filesystems = [], LINES, DEVICES
        author.directories = {name: [b"/x", b"/a"] for name in DEVICES}
        spaces = {space: rows_of(b"\n".join(table)) for space, table in enumerate(tables, 1)}
        while (line := author.next_line(spaces)) is not None:
            count += check_told(program, mountctl, f"world {number}", tables, line)
    print(f"{WORLDS * LINES} questions, {count} changes told")


def check_by_hand(program, mountctl):
    """Answers, changes, what is left out, lines in front, a server that is not new, and files that cannot be read."""
    with files_of([TABLE]) as names, Server(program) as server:
        [name], left = names, b"mountctl: table 1: mount 3 is left out: "
        mounted = [["mkfs", "usb", "vfat", "/dev/b"], ["mkdir", "0:1", "/m"], ["mount", "1", "usb", "/m"]]
        status, text, complaint = asked(program, mountctl, names, *mounted)
        told = re.fullmatch(rb"ok (\d+)\n\+ (\d+) /m vfat rw,relatime \S+ in namespace 1 \(%b\)\n" % name.encode(), text)
        check("what a mount changes", status == 0 and told is not None and told[1] == told[2], shown(text + complaint))
        check("what is left out", re.fullmatch(left + rb"[^:\n]+\n", complaint) is not None, shown(complaint))
        for line in ["mount", "1", "usb", "/a/b/c d"], ["bind", "1", "/a", "/n/o"]:
            status, text, complaint = asked(program, mountctl, names, line)
            told = re.fullmatch(rb"ok (\d+)\n\+ (\d+) (/\S+) (usb|tmpfs) rw,relatime \S+ in namespace 1 \(%b\)\n" % name.encode(), text)
            good = status == 0 and told is not None and told[3] == line[3].replace(" ", "\\040").encode()
            check(f"{' '.join(line)}, of which the directories are made", good, shown(text + complaint))
        status, text, complaint = asked(program, mountctl, names, ["show", "2"])
        check("a question that is refused", (status, text) == (1, b"no NoNamespace\n"), shown(text))
        status, text, complaint = asked(program, mountctl, names, ["mkdir", "0:9", "/m"], *mounted)
        good = (status, text) == (1, b"") and complaint.endswith(b"mountctl: line 1: mkdir 0:9 /m: no NoFilesystem\n")
        check("a line in front that is refused", good, shown(complaint))
        for lines, said in (
            ([["shwo", "1"], *mounted], b"mountctl: line 1: shwo 1: no BadLine\nmountctl: line 1: BadLine: shwo: no line begins so; the nearest is show\n"),
            ([["bind", "1", "/a", "/none"], *mounted], NOT_THERE),
            ([["show", "x"]], b"mountctl: BadLine: x: NS is a number, digits without a leading zero, below 18446744073709551616\n"),
        ):
            status, text, complaint = asked(program, mountctl, names, *lines)
            check(f"what is said of {lines[0]}", status == 1 and complaint.endswith(said), shown(complaint))
        for words in [name, os.path.join(os.path.dirname(name), "none")], [name, name]:
            ended = run(mountctl, b"", server.path, "what-if", *words, "--", "show", "1")
            gone = b"mountctl: %b: no such file or directory\n" % words[1].encode()
            check("a question", ended[0] == (1 if words[1] != name else 0) and (words[1] == name or ended[1:] == (b"", gone)), repr(ended))
        ended = run(mountctl, b"", server.path, "what-if", name, "--", "show", "1")
        check("a server that is not new", ended == (1, b"", f"mountctl: {server.path}: not a new server\n".encode()), repr(ended))
        server.stop()


def check_used(program, mountctl):
    """A server that has accepted anything is no new one. What its namespaces tell, and filesystems of other names, stay."""
    histories = (
        [b"mkfs a tmpfs none"],
        [b"mkfs 0:1 tmpfs none"],
        [b"mkfs a tmpfs none", b"newns a"],
        [b"mkfs a tmpfs none", b"newns a", b"newns a", b"dropns 1"],
        [b"mkfs a tmpfs none", b"newns a", b"dropns 1"],
    )
    for history in histories:
        with files_of([TABLE[:2]]) as names, Server(program) as server, server.free() as client:
            for line in history:
                client.ask(line)
            before = client.ask(b"watch all"), client.ask(b"close")
            found = run(mountctl, b"", server.path, "what-if", *names, "--", "mkdir", "0:1", "/x")
            after = client.ask(b"watch all"), client.ask(b"take 9")
            good = found == (1, b"", f"mountctl: {server.path}: not a new server\n".encode()) and before[0] == after[0]
            check(f"a question behind {shown(b', '.join(history))}", good, repr((found, before, after)))
            if before[0] != [b"ok 0"] or history == histories[1]:
                check("and no filesystem more", client.ask(b"mkfs z tmpfs none") == [b"ok 2"], shown(b", ".join(history)))


def check_lost(program, mountctl):
    """Where the queue of the watcher is too short for what a line changes, that is said."""
    table = TABLE[:2]
    with files_of([table, [row.replace(b"shared:1", b"master:1") for row in table]]) as names:
        for queue, count in (1, 1), (2, 2):
            with Server(program, "--queue", str(queue)) as server:
                found = run(mountctl, b"", server.path, "what-if", *names, "--", "mkfs", "usb", "vfat", "none", "--", "mount", "1", "usb", "/b")
                said = f"mountctl: {server.path}: changes were lost\n".encode()
                good = (found[0], found[2]) == ((0, b"") if queue > 1 else (3, said)) and found[1].count(b"\n+ ") == count
                check(f"a question over a queue of {queue}", good, repr(found))
                server.stop()


def check_refused(program, mountctl):
    """Each allocation of a question is refused in turn, each at a server of its own."""
    with tempfile.TemporaryDirectory() as folder, files_of([TABLE[:2]]) as names:
        preloaded, said = library(folder, "refuse_nth"), []
        words = [*names, "--", "mkfs", "usb", "vfat", "none", "--", "mount", "1", "usb", "/a"]
        plain = asked(program, mountctl, names, words[2:6], words[7:])
        while said[-1:] != [plain]:
            with Server(program) as server:
                settings = {"LD_PRELOAD": preloaded, "REFUSE_NTH": str(len(said) + 1)}
                said.append(run(mountctl, b"", server.path, "what-if", *words, environment=settings))
                server.stop()
        kinds = {(status, complaint) for status, text, complaint in said[:-1] if plain[1].startswith(text)}
        check("a question without memory", len(said) > 9 and kinds == {(3, b"mountctl: out of memory\n")}, repr(kinds))
    print(f"{len(said) - 1} allocations of a question refused in turn", flush=True)


def answered(mountctl, names, line, answers):
    """A question to a server that answers this: the connection fault of its door, what was sent, and what came of it."""
    with Door() as door, concurrent.futures.ThreadPoolExecutor(1) as pool:
        running = pool.submit(run, mountctl, b"", door.path, "what-if", *names, "--", *line)
        sent = door.answers(answers)
        return connection_fault(door.path), sent, running.result()


def check_cut(program, mountctl):
    """Where the connection ends before all answers have come, this is said, and what was printed before is whole."""
    line = ["setattr", "1", "/", "rec", "set=ro"]
    with files_of([TABLE[:2]]) as names:
        commands = [row for row in run(mountctl, b"", "import", *names)[1].splitlines() if not row.startswith(b"#")]
        asked_first = [b"watch all", b"close"]
        lines_sent = [*asked_first, *commands, b"watch all", " ".join(line).encode(), b"take 1024", b"take 1024"]
        whole = session(program, lines_sent)[1]
        begun = whole.count(b"\n", 0, whole.index(b"\nspace ")) - 1
        lines, plain = whole.splitlines(keepends=True), asked(program, mountctl, names, line)
        cuts = [sum(map(len, lines[:begun])), *range(whole.index(b"\nspace "), len(whole) + 1)]
        printed = {b"".join(plain[1].splitlines(keepends=True)[:count]) for count in (0, 1, 3)}
        for cut in cuts:
            fault, sent, found = answered(mountctl, names, line, whole[:cut])
            good = found == plain if cut == len(whole) else (found[0], found[2]) == (3, fault) and found[1] in printed
            check(f"a question whose answers are cut at byte {cut}", good and sent.startswith(b"\n".join([*asked_first, *commands])), repr(found))
        fault, sent, found = answered(mountctl, names, line, re.sub(rb"\nok (\d+)\nevent", rb"\nx \1\nevent", whole))
        check("a question whose posts are counted behind another word", found == (3, b"ok\n", fault), repr(found))
    print(f"{len(cuts)} cuts of the answers to a question", flush=True)


# What a watcher answers behind the changes of a line, how often it is asked for more, and what is said then.
MORE_POSTS = b"ok 2\nevent 1 3 1\n- 2\n"
BEHINDS = (
    (b"ok 0\n", 1, b""),
    (MORE_POSTS + b"ok 0\n", 2, b"others made changes"),
    (MORE_POSTS * 3 + b"ok 0\n", 4, b"others made changes"),
    (b"no Lagged\n", 1, b"changes were lost"),
    (MORE_POSTS * 2 + b"no Lagged\n", 3, b"changes were lost"),
    (MORE_POSTS + b"no Stopped\n", 2, b"others made changes"),
    (b"no Stopped\n", 1, b""),
)


def check_behind(program, mountctl):
    """Posts are taken until none is left; that some were lost, or are of others, is said with its own status."""
    line = ["setattr", "1", "/", "rec", "set=ro"]
    with files_of([TABLE[:2]]) as names:
        commands = [row for row in run(mountctl, b"", "import", *names)[1].splitlines() if not row.startswith(b"#")]
        sent_first = [b"watch all", b"close", *commands, b"watch all", " ".join(line).encode(), b"take 1024"]
        whole, plain = session(program, sent_first)[1], asked(program, mountctl, names, line)
        for behind, takes, said in BEHINDS:
            with Door() as door, concurrent.futures.ThreadPoolExecutor(1) as pool:
                running = pool.submit(run, mountctl, b"", door.path, "what-if", *names, "--", *line)
                sent, found = door.answers(whole + behind), running.result()
                complaint = b"mountctl: %b: %b\n" % (door.path.encode(), said) if said else b""
            wanted = (3 if said else 0, plain[1], plain[2] + complaint)
            check(f"a question, and behind it {behind}", found == wanted, repr((found, wanted)))
            check(f"what is asked where {behind} comes", sent.splitlines() == sent_first + [b"take 1024"] * takes, shown(sent))


def check_words(mountctl):
    """Words that are no question are refused, and no server is looked for."""
    with files_of([TABLE]) as [name]:
        for words in NO_QUESTIONS:
            found = run(mountctl, b"", "none.sock", "what-if", *[name if word == "FILE" else word for word in words.split()])
            check(f"what-if {words}", found == (2, b"", NO_QUESTION_SAID), repr(found))
        found = run(mountctl, b"", "none.sock", "what-if", name, "--", "show", "1")
        check("a question to no server", found == (3, b"", b"mountctl: connection fault: none.sock: no such file or directory\n"), repr(found))


def check_questions(program, mountctl):
    check_words(mountctl)
    check_by_hand(program, mountctl)
    check_used(program, mountctl)
    check_lost(program, mountctl)
    check_refused(program, mountctl)
    check_cut(program, mountctl)
    check_behind(program, mountctl)
    check_random(program, mountctl)
