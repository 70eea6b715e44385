"""What `mountctl import` makes of tables: a script that builds them again. A module, a part of server.py.

The tables are those of the namespaces of each case, of random worlds and of this machine, and of any rows. Each script is
sent to a plain session, which accepts each line; then the table of namespace 1 is the one that was imported, up to the numbers of
mounts, groups and devices, and without the mounts that comments tell, each with its row.
Lines that are none are refused by their number, and streams that fail and memory that is missing are told.
"""
import os
import random
import tempfile

from clients import mountinfos
from clients.mountctl import READ_FAULT, WRITE_FAULT, Asked, redirected
from clients.outcomes import (
    UNREAD,
    Numbers,
    check_super_options,
    groups_in_sight,
    kept_rows,
    left_out,
    made_lines,
    row_of,
)
from harness.allocations import Refusing
from harness.runs import answer_groups, check, run, session, shown
from harness.servers import Server
from sessions import cases

# How many random worlds there are, and how many commands lead to each.
WORLDS = 300
COMMANDS = 10, 30, 60

# How many tables of any rows are imported, and of how many of them at least nothing is left out.
ANY_TABLES = 500
ANY_WHOLE = 137

# In how many of them each row that is left out is tried alone beside those that are made.
ALONE_TABLES = 150

# Which tables have mounts that are left out, two of the first case: one stands on the root of a root mount that has a peer, and no path leads there.
COVERED = ["case journal", "case journal", "case rbind-into-itself"]

# The most rows of a random table that is imported.
MOST_ROWS = 400


def made_rows(name, lines, script):
    """The rows of the mounts that the script makes, as it makes them. All that it leaves out is told."""
    check_super_options(name, made_lines(lines, script), script)
    return kept_rows(name, lines, script)


def imported(mountctl, text, *words):
    return run(mountctl, text, "import", *words)


def check_table(program, mountctl, name, lines, *words):
    """Imports a table and builds it, both with further arguments: whether nothing is left out."""
    status, text, complaint = imported(mountctl, b"".join(line + b"\n" for line in lines), *words)
    check(f"{name}: imported", (status, complaint) == (0, b""), shown(complaint))
    script = text.split(b"\n")[:-1]
    check(f"{name}: each line is read", UNREAD not in script, shown(text))
    commands = [line for line in script if not line.startswith(b"#")]
    if not commands:
        check(f"{name}: all is left out", made_rows(name, lines, script) == [])
        return False
    asked = commands + [b"show 1"]
    groups = answer_groups(session(program, asked, *words)[1], asked)
    refused = [line for line, answer in zip(asked, groups) if not answer or not answer[0].startswith(b"ok")]
    check(f"{name}: each command is accepted", not refused, shown(b"\n".join(refused[:3] + lines + script)))
    if not refused:
        kept, found = made_rows(name, lines, script), [row_of(line) for line in groups[-1][1:]]
        [sighted] = groups_in_sight([kept])
        why = Numbers().why_other(sighted if left_out(script) else kept, found)
        check(f"{name}: the table that is built", why is None, "\n".join([str(why), *map(shown, lines + script)]))
    return not left_out(script)


def tables(program, lines):
    """The tables of the namespaces that are there after these lines."""
    asked = lines + [b"show %d" % number for number in range(1, 65)]
    for group in answer_groups(session(program, asked)[1], asked)[len(lines) :]:
        if 1 < len(group) <= MOST_ROWS:
            yield group[1:]


PATHS = [b"/a", b"/b", b"/a/a", b"/a/b", b"/b/a", b"/a/a/b", b"/b/b/a", b"/a/b/a/b", b"/c", b"/c/a", b"/a/c/b"]
CHANGES = [b"prop=shared"] * 3 + [b"prop=slave"] * 2 + [b"prop=private", b"prop=unbindable", b"rec prop=shared", b"rec prop=slave"]
CHANGES += [b"set=ro,nosuid", b"set=noatime clr=atime", b"set=strictatime clr=atime", b"set=nodev,nosymfollow", b"set=noexec,nodiratime"]
WORDS = [b"mount", b"bind", b"bind", b"rbind", b"move", b"umount", b"setattr", b"setattr", b"setattr", b"copyns"]


def directories():
    """Two filesystems with the same directories, and a namespace."""
    for fs in b"x", b"y":
        yield b"mkfs %s tmpfs %s" % (fs, fs)
        for first in b"/a", b"/b", b"/c":
            for second in b"", b"/a", b"/b", b"/c":
                for third in (b"", b"/a", b"/b") if second else [b""]:
                    yield b"mkdir %s %s" % (fs, first + second + third)
    yield b"newns x"


def random_command(source):
    def path():
        return b"".join(source.choice(PATHS) for _ in range(source.choice((1, 1, 1, 2)))) if source.random() < 0.9 else b"/"

    space, word = source.choice((1, 1, 1, 2, 3)), source.choice(WORDS)
    if word == b"mount":
        return b"mount %d %s %s" % (space, source.choice((b"x", b"y")), path())
    if word in (b"bind", b"rbind", b"move"):
        return b"%s %d %s %s" % (word, space, path(), path())
    if word == b"umount":
        return b"umount %d %s" % (space, path())
    if word == b"setattr" or source.random() < 0.7:
        return b"setattr %d %s %s" % (space, path(), source.choice(CHANGES))
    return b"copyns %d%s" % (space, source.choice((b"", b" less")))


def check_tables(program, mountctl):
    """The tables of the cases and of random worlds."""
    worlds = {}
    for name in cases.names():
        worlds[f"case {name}"] = [line for line in cases.load(name).requests() if line not in (b"quit", b"stop")]
    for seed in range(WORLDS):
        source = random.Random(seed)
        worlds[f"world {seed}"] = [*directories(), *(random_command(source) for _ in range(source.choice(COMMANDS)))]
    whole = [(name, check_table(program, mountctl, f"import of {name}", table)) for name, lines in worlds.items() for table in tables(program, lines)]
    partly = [name for name, is_whole in whole if not is_whole]
    check("tables are imported as a whole", partly == COVERED, ", ".join(partly))
    print(f"{len(whole)} tables imported, {len(partly)} with mounts left out")


def comments_on(mountctl, lines):
    """What the script of a table tells of the mounts that are left out."""
    return {line for line in imported(mountctl, b"".join(line + b"\n" for line in lines))[1].split(b"\n") if b" is left out: " in line}


def comment_on(line, why):
    return b"# table 1: mount %s is left out: %s: %s" % (line.split(b" ")[0], why, line)


def check_partly(program, mountctl):
    """Tables of which mounts are left out: which, and why; the others are made."""
    for number, table in enumerate(mountinfos.PARTLY):
        lines = [line if isinstance(line, bytes) else line[0] for line in table]
        wanted, found = {comment_on(*line) for line in table if isinstance(line, tuple)}, comments_on(mountctl, lines)
        check(f"what is left out of table {number}", found == wanted, shown(b"\n".join(found)))
        check_table(program, mountctl, f"import of table {number}, of which mounts are left out", lines)
    for count, size, fields in mountinfos.AT_ROOTS:
        name, (lines, why) = f"import of {count} mounts at the root, of {size} bytes each,{shown(fields)}", mountinfos.at_root(count, size, fields)
        wanted, found = {comment_on(lines[-2], why)} if why else set(), comments_on(mountctl, lines)
        check(f"{name}: what is left out", found == wanted, shown(b"\n".join(found)))
        check_table(program, mountctl, name, lines)
    for groups in mountinfos.MOST_ABOVE + 1, mountinfos.MOST_ABOVE + 2:
        whole = check_table(program, mountctl, f"import of {groups} groups, each above the next", list(mountinfos.masters(groups)))
        check(f"{groups} groups, each above the next, are made", whole == (groups <= mountinfos.MOST_ABOVE + 1))


def check_left_alone(mountctl, name, lines):
    """Each row that is left out could not stand beside those that are made: how many are left out."""
    script = imported(mountctl, b"".join(line + b"\n" for line in lines))[1].split(b"\n")
    made, left = made_lines(lines, script), left_out(script)
    for line in left:
        with_it = [other for other in lines if other in made or other == line]
        check(f"{name}: what is left out cannot stand", comments_on(mountctl, with_it) != set(), "\n".join(map(shown, [line, b"", *with_it])))
    return len(left)


def check_any(program, mountctl):
    """Tables of rows that may contradict each other: what is not made is told, and the others are made as they tell."""
    count, left = 0, 0
    for seed in range(ANY_TABLES):
        name, lines = f"import of any rows, seed {seed}", list(mountinfos.any_table(random.Random(seed)))
        count += check_table(program, mountctl, name, lines)
        if seed < ALONE_TABLES:
            left += check_left_alone(mountctl, name, lines)
    check("any rows are imported as a whole at times, and not at others", ANY_WHOLE <= count < ANY_TABLES, str(count))
    print(f"{ANY_TABLES} tables of any rows imported, {ANY_TABLES - count} with mounts left out; {left} rows tried alone")


# Words after `import` that name no tables: none of a process, and options.
NO_WORDS = ("-",), ("--pid",), ("--pid", "x"), ("--pid", "1", "01"), ("--ascii",), ("-h", "1"), ("tree", "-e")
NO_WORDS_SAID = b"mountctl: import takes files, --pid and processes, --all, or no words\n"


def check_words(mountctl, text):
    """Words after `import` that name no tables are refused; helps.py asks for its help."""
    for words in NO_WORDS:
        found = run(mountctl, text, "import", *words)
        check(f"import {' '.join(words)}", found == (2, b"", NO_WORDS_SAID), repr(found))


def check_lines(mountctl):
    """A line that is none is refused with its number, and nothing is printed; what is not made is told with its row."""
    good = b"1 1 0:1 / / rw,relatime - tmpfs none rw\n"
    for line in mountinfos.NO_ROWS:
        for before in 0, 6:
            found = imported(mountctl, good * before + line + b"\n" + good)
            wanted = 1, b"", b"mountctl: line %d is no row of a mountinfo\n" % (before + 1)
            check(f"import of {shown(line)!r}", found == wanted, repr(found))
    found = imported(mountctl, good[:-1])
    check("import of a line without end", found == (1, b"", b"mountctl: line 1 is no row of a mountinfo\n"), repr(found))
    check("import of nothing", imported(mountctl, b"")[0] == 0)
    check_words(mountctl, good)
    comments = [line for line in imported(mountctl, mountinfos.ODD)[1].split(b"\n") if b" is left out: " in line]
    check("import of a table that no kernel prints", comments == mountinfos.ODD_COMMENTS, shown(b"\n".join(comments)))
    found = imported(mountctl, mountinfos.ROOTLESS)
    check("import of a table without a root mount", found == (0, mountinfos.ROOTLESS_SCRIPT, b""), repr(found))


# Standard streams that fail, and how the program ends: an input that cannot be read, a folder, or is closed, and an
# output that takes nothing, or is closed.
FAULTY_STREAMS = ("0</", READ_FAULT), ("0<&-", READ_FAULT), ("1>/dev/full", WRITE_FAULT), ("1>&-", WRITE_FAULT)


class Importing(Asked):
    """An import of a host's table, which says that memory is missing where it is."""

    input = mountinfos.HOST


def check_faults(mountctl):
    """An import whose streams fail, or for which there is no memory, says so."""
    for streams, wanted in FAULTY_STREAMS:
        found = redirected(mountctl, streams, "import", text=mountinfos.HOST)
        check(f"import {streams}", found == wanted, repr(found))
    with tempfile.TemporaryDirectory() as folder:
        refusing, asked = Refusing(folder), Importing(mountctl, ["import"])
        count = refusing.count(asked)
        refusing.each(asked, "an import", count)
    print(f"{count} allocations of an import refused in turn", flush=True)


def check_host(program, mountctl):
    """A host's table, and this machine's, are accepted as scripts of the other program over a socket."""
    texts = {"a host": mountinfos.HOST, "a host with a long row": mountinfos.HOST + mountinfos.LONG}
    if os.path.exists("/proc/self/mountinfo"):
        with open("/proc/self/mountinfo", "rb") as file:
            texts["this machine"] = file.read()
    for name, text in texts.items():
        status, script, complaint = imported(mountctl, text)
        check(f"import of {name}", (status, complaint) == (0, b""), shown(complaint))
        with Server(program) as server:
            status, answers, complaint = run(mountctl, script + b"show 1\n", server.path, "-")
            check(f"the script of {name} is accepted", (status, complaint) == (0, b""), shown(answers))
            kept = made_rows(f"the import of {name}", text.split(b"\n")[:-1], script.split(b"\n"))
            count = b"\nok %d " % len(kept)
            check(f"the mounts of {name}", answers.count(count) == 1, shown(script + answers))
            server.stop()


def check_import(program, mountctl):
    check_lines(mountctl)
    check_faults(mountctl)
    check_partly(program, mountctl)
    check_tables(program, mountctl)
    check_any(program, mountctl)
    check_host(program, mountctl)
