"""What `mountctl what-if --page` prints: the lines of a question, as a page that plays them. A module, a part of server.py.

The page opens with the tables that are asked about, under their names, and its steps are the lines that were tried. What they change,
one after another, leads from the first tables to those to which the changes lead that `what-if --json` tells of all lines together.
"""
import os

from clients.foretold import Answer, changed, recorded_questions, row_told, words_of
from clients.outcomes import files_of
from clients.played import data_in, sentence_of
from harness.runs import TOP, check, run, shown

HOST, CONTAINER = (os.path.join(TOP, "docs", "tables", name) for name in ("host", "container"))

# How many questions are asked about each of the recorded tables.
QUESTIONS = 12

# Lines of a namespace that one of them makes, and the namespaces in which each step changes something.
OF_MADE = ("unshare -m", [3]), ("nsenter -t new:1 -m mount -t tmpfs none /media", [3]), ("mount --make-rslave /", [1])


def parted(lines):
    """Lines as arguments, each behind `--`."""
    return [word for line in lines for word in ("--", *map(words_of, line))]


def printed(mountctl, *words):
    """How a question ends, and the data of its page."""
    status, page, complaint = run(mountctl, b"", "what-if", *words)
    return status, data_in(page), complaint


def opening_of(data):
    """The rows of the tables with which a page opens."""
    return {table["namespace"]: [row_told(one) for one in table["filesystems"]] for table in data["opening"]}


def check_question(mountctl, name, tables, lines):
    """The page of a question, beside its answer."""
    with files_of(tables) as names:
        answer = Answer(mountctl, names, lines)
        status, data, complaint = printed(mountctl, *names, "--page", *parted(lines))
    check(f"{name}: its page", data is not None and (status, complaint) == (answer.status, answer.complaint), f"{status} {complaint}")
    if data is None:
        return 0
    called = {str(number): os.path.basename(path) for number, path in enumerate(names, 1)}
    check(f"{name}: the names", {key: data["names"].get(key) for key in called} == called, repr(data["names"]))
    steps = data["steps"]
    wanted = [" ".join(map(words_of, line)) for line in lines[: len(steps)]]
    check(f"{name}: the lines", [step["line"] for step in steps] == wanted, repr(steps))
    refused = answer.refusals()
    answers = ["ok"] * (len(steps) - len(refused)) + [f"no {one}" for one in refused]
    check(f"{name}: the answers", [step["answer"] for step in steps] == answers and (refused or len(steps) == len(lines)), repr(steps))
    reasons = [sentence_of(mountctl, f"no {one}".encode()) for one in refused]
    check(f"{name}: what a refusal says", [step["reason"] for step in steps if "reason" in step] == reasons, repr(steps))
    notes = "".join(step.get("note", "") for step in steps)
    check(f"{name}: what is taken to be there", notes == "".join(f"taken to be there: {shown(one)}\n" for one in answer.taken()), notes)
    for number, rows in opening_of(data).items():
        posts = [one for step in steps for one in step["posts"] if one["namespace"] == number]
        check(f"{name}: table {number}", changed(rows, posts) == changed(rows, answer.changes(number)), f"{posts}\n{answer.changes(number)}")
    return sum(len(step["posts"]) for step in steps)


def check_recorded(mountctl):
    """Questions about recorded tables."""
    count = 0
    for name, tables, lines in recorded_questions(89, QUESTIONS):
        count += check_question(mountctl, f"the page of {name}", tables, lines)
    check("changes on pages of questions", count > 0)
    print(f"{count} changes on pages of questions about recorded tables", flush=True)


def check_made(mountctl):
    """Lines in a namespace that another line makes."""
    words = [word for line, _ in OF_MADE for word in ("--", *line.split(" "))]
    status, data, _ = printed(mountctl, HOST, "--page", *words)
    steps = data["steps"] if data else []
    found = [(step["line"], sorted({one["namespace"] for one in step["posts"]})) for step in steps]
    check("the page of a namespace that is made", (status, found) == (0, [*OF_MADE]), repr(found))
    check("the name of a namespace that is made", data is not None and data["names"] == {"1": "host", "3": "new:1"}, repr(data and data["names"]))


def check_refused(mountctl):
    """No page: of a table that cannot be read, of a line that is none, and beside JSON."""
    for words, said in (
        (["/nowhere", "--page", "--", "umount", "/"], b"mountctl: /nowhere: no such file or directory\n"),
        ([HOST, "--page", "--json", "--", "umount", "/"], b"mountctl: what-if prints a page or JSON\n"),
    ):
        found = run(mountctl, b"", "what-if", *words)
        check(f"no page of {words}", found == (2, b"", said), repr(found))
    status, page, complaint = run(mountctl, b"", "what-if", HOST, "--page", "--", "show", "1")
    check("no page of a line that changes nothing", (status, page) == (2, b"") and complaint != b"", repr(complaint))
    words = [HOST, CONTAINER, "--page", "--fail-if-elsewhere", "--", "mount", "-t", "vfat", "/dev/sdc1", "/media/usb"]
    status, data, _ = printed(mountctl, *words)
    check("the status of a page where another namespace changes", status == 4 and data is not None, str(status))


def check_paged(_program, mountctl):
    """Pages of questions."""
    check_recorded(mountctl)
    check_made(mountctl)
    check_refused(mountctl)
