#!/usr/bin/env -S python3 -B
"""The pages of docs/man/ and the completion of docs/completion/ say what is so, and docs/pages/template.html is sealed. A program of the gate.

Usage: checks/pages.py MOUNTD MOUNTCTL

The pages are mdoc, and what is asked of them is read in their sources: that mandoc warns of nothing; that they have
the options, the lines of a session, the refusals, the statuses and the messages that the programs, their sources and
docs/RULES.md have, and no others; and that their examples are answered so. The completion offers the words of --help.

Where mandoc is not there, it is installed if the environment says CI, and else man(1) takes its place. Without both
the form of the pages is not checked, which is a failure only where the environment says CI.
"""
import errno as errnos
import os
import re
import shutil
import subprocess
import sys
import tempfile

from documents.lines import check_lines
from documents.refusals import check_refusals
from documents.steps import STEP, wait_for_socket
from documents.template import check_template
from harness import refusals
from harness.runs import MOST_SECONDS, TOP, check, difference, failures, is_there, read, run, shown
from sessions.cases import check_session

PAGES = "mountd.1", "mountctl.1", "mountd-lines.7"
COMPLETION = os.path.join(TOP, "docs", "completion", "mountctl.bash")

MANDOC = ["mandoc", "-Tlint", "-W", "warning"]
MAN = ["man", "--warnings", "-E", "UTF-8", "-l", "-Tutf8", "-Z"]

SECTION = re.compile(r"(?m)^\.Sh (.*)\n((?:(?!\.Sh ).*\n)*)")
ENTRY = re.compile(r"(?m)^\.It (?:Xo\n\.)?Ic (\w+)(.*\n(?:(?!\.It |\.El).*\n)*)")
BLOCK = re.compile(r"(?m)^\.Bd -literal.*\n((?:(?!\.Ed).*\n)*)\.Ed$")
MESSAGE = re.compile(r"(?m)^\.(?:It )?Li (\w+: .*?)(?: \.)?$")

# How long a server may go on after a stop, in seconds.
MOST_SECONDS_OF_AN_END = 15

# What completes a line of these words in bash, one offer in a line.
OFFERS = 'source "$0"; COMP_WORDS=(mountctl "$@"); COMP_CWORD=$#; _mountctl; printf "%s\\n" "${COMPREPLY[@]}"'


def page(name):
    """The source of a page."""
    return shown(read("docs", "man", name))


def section(name, title):
    """What stands in a section of a page."""
    return dict(SECTION.findall(page(name))).get(title, "")


def check_same(name, wanted, found):
    """Notes what is missing among what was found, and what is too many."""
    wanted, found = sorted(wanted), sorted(found)
    check(name, wanted != [] and wanted == found, f"wanted: {' '.join(wanted)}\nfound: {' '.join(found)}")


def form_command():
    """The command that warns of the form of a page, or None where there is none."""
    if is_there(MANDOC[0], "mandoc"):
        return MANDOC
    return MAN if shutil.which(MAN[0]) else None


def check_form():
    """mandoc, or man, warns of nothing in any page."""
    command = form_command()
    if command is None:
        print("neither mandoc nor man is there: the form of the pages is not checked", flush=True)
        check("the form of the pages", "CI" not in os.environ)
        return
    for name in PAGES:
        done = subprocess.run([*command, os.path.join(TOP, "docs", "man", name)], capture_output=True, check=False)
        said = done.stderr + (done.stdout if command == MANDOC else b"")
        check(f"{command[0]} on {name}", (done.returncode, said) == (0, b""), shown(said))
    print(f"{len(PAGES)} pages read by {command[0]}", flush=True)


def usages(text):
    """The lines of a session in a help, each by its first word: what may stand in it."""
    lines = text.split("ines of a session:\n")[1].split("\n\n")[0]
    return {line.split()[0]: line.strip().split("  ")[0] for line in re.findall(r"(?m)^  [a-z].*", lines)}


def options(text):
    """The options of a help."""
    part = text.split("Options:\n")[1].split("\n\n")[0]
    return [word for line in re.findall(r"(?m)^ +(-\w.*|--.*)", part) for word in re.findall(r"--?[\w-]+", line.split("  ")[0])]


def words_in_place(text, of="WORD.."):
    """What a help says may stand in the place of a line, or of all arguments, each by its first word: what may stand after it."""
    lines = re.findall(r"(?m)^  \S.*", text.split(f"In the place of {of}:\n")[1].split("\n\n")[0])
    return {line.split()[0]: line.strip().split("  ")[0] for line in lines}


def check_help(helps):
    """The options and the lines of both helps stand in the pages, and no others."""
    for program, text in helps.items():
        lines = re.findall(r"(?m)^\.It (Fl .*)", page(f"{program}.1"))
        found = [f"-{word}" for line in lines for word in re.findall(r"Fl (\S+)", line)]
        check_same(f"the options of {program}.1", options(text), found)
        entries = [word for word, _ in ENTRY.findall(section("mountd-lines.7", "LINES"))]
        check_same(f"the lines of mountd-lines.7, by the help of {program}", usages(text), entries)
    # Some stand in the place of a line, and of a socket too.
    found = {word.replace("\\-", "-") for word in re.findall(r"(?m)^\.It Cm (\S+)", page("mountctl.1"))}
    wanted = {*words_in_place(helps["mountctl"]), *words_in_place(helps["mountctl"], "SOCKET WORD..")}
    check_same("the words of mountctl.1", wanted, found)


def errnos_of_sources():
    """The errors of Linux that mountctl knows."""
    return re.findall(r'(?m)^            Errno::\w+ => "(E[A-Z]+)",$', shown(read("crates", "mt_protocol", "src", "errno.rt")))


def refusals_by_line():
    """The refusals of each line in docs/RULES.md, in their order."""
    table = shown(read("docs", "RULES.md")).split("| Line | Refusals |\n")[1].split("\n\n")[0]
    found = {}
    for words, refused in re.findall(r"(?m)^\| (.*) \| (.*) \|$", table):
        always, _, rest = refused.partition("; of ")
        of_some, _, also = rest.partition(" also ")
        for word in re.findall(r"`(\w+)`", words):
            found[word] = re.findall(r"`(\w+)`", always + (also if f"`{word}`" in of_some else ""))
    return found


def refusals_named(text):
    """The refusals that a text of a page names, in their order."""
    lines = re.findall(r"(?m)^\.(?:It )?Er (.*)", text)
    return [name for line in lines for name in re.findall(r"\w+", line)]


def check_refused():
    """No page has another refusal than those of the table; each line has its own."""
    for name in PAGES:
        found = {*refusals_named(page(name)), *re.findall(r"\bno ([A-Z][a-z]+[A-Z]\w*)", page(name))}
        unknown = found - set(refusals.NAMES)
        check(f"refusals of {name} that are none", unknown == set(), " ".join(sorted(unknown)))
    wanted = refusals_by_line()
    for word, entry in ENTRY.findall(section("mountd-lines.7", "LINES")):
        found = refusals_named(entry)
        check(f"the refusals of {word} in mountd-lines.7", found == wanted.get(word, []), " ".join(found))


def check_helped(mountctl):
    """The page of each line that `help` prints has the refusals of docs/RULES.md, each once, and no others."""
    wanted = refusals_by_line()
    for word in wanted:
        found = re.findall(r"(?m)^    ([A-Z]\w+): ", shown(run(mountctl, b"", "help", word)[1]))
        check(f"the refusals of help {word}", found == [*dict.fromkeys(wanted[word])], " ".join(found))


def check_explained(mountctl):
    """What `explain` says of each refusal is its sentence in the table, a sentence on Linux, and what to do; of an errno it names
    just the refusals that have it."""
    behind = {}
    for name, row in refusals.TABLE.items():
        found = run(mountctl, b"", "explain", name)
        first, _, second = shown(found[1]).partition("\n")
        check(f"explain {name}", (found[0], found[2], first) == (0, b"", f"{name}: {row.sentence}"), repr(found))
        told = re.fullmatch(r"((?:In Linux it is E|Linux has none such: ).*)\.\nLook at .*\.\nTo change that: .*\.\n", second)
        check(f"explain {name}: Linux, and what to do", told is not None, second)
        words = {errnos.errorcode[number] for number in row.errnos}
        named = set(re.findall(r"\bE[A-Z]+\b", told[1] if told else ""))
        check(f"explain {name}: the errnos", named == words, second)
        for errno in words:
            behind.setdefault(errno, []).append(name)
    check("some errnos stand behind refusals", {"EINVAL", "EBUSY", "ENOENT", "ENOMEM"} <= {*behind}, " ".join(behind))
    for errno, names in behind.items():
        number = getattr(errnos, errno)
        for word in errno, errno.lower(), str(number):
            found = run(mountctl, b"", "explain", word)
            first, _, rest = shown(found[1]).partition("\n")
            check(f"explain {word}", (found[0], found[2], first) == (0, b"", f"{errno} ({number}): {os.strerror(number)}."), repr(found))
            check_same(f"the refusals behind {word}", names, re.findall(r"(?m)^  ([A-Z][a-z]\w*): ", rest))
    alone = run(mountctl, b"", "explain", "eperm")
    check("explain eperm", alone[0] == 0 and b"\n  in Linux alone: " in alone[1], repr(alone))
    takes = b"mountctl: explain takes the name of a refusal, or an errno\n"
    for words in [], ["Busy", "Busy"]:
        found = run(mountctl, b"", "explain", *words)
        check(f"explain {words}", found == (2, b"", takes), repr(found))
    for word, nearest in ("Wholly", ""), ("busy", "; the nearest is Busy"), ("EINVALL", "; the nearest is EINVAL"), ("022", ""):
        found = run(mountctl, b"", "explain", word)
        check(f"explain {word}", found == (2, b"", f"mountctl: {word}: neither a refusal nor an errno{nearest}\n".encode()), repr(found))


# The messages that a program puts together, with a word of capital letters for each part that a run finds.
PUT_TOGETHER = {
    "mountd": ["cannot listen: SOCKET: REASON"],
    "mountctl": [
        "connection fault: SOCKET: REASON",
        "line N: LINE: no NAME",
        "no NAME",
        "line N: a page has a watcher of its own",
        "line N: NAME: REASON",
        "NAME: REASON",
        "line N is no row of a mountinfo",
        "FILE: line N is no row of a mountinfo",
        "FILE: REASON",
        "FILE: line N: REASON",
        "SOCKET: not a new server",
        "the tables take a server with --room N, or more",
        "TooMany: there are N namespaces, and no room for one more: --room N has it",
        "TooMany: there are N namespaces, the most that there can be",
        "TooMany: there are N mounts, and no room for all that the line adds: --room N, or more, has it",
        "TooMany: there are N mounts, and no server has room for all that the line adds",
        "TooMany: there is no room for one more filesystem and its root: a server has 256 filesystems and 16384 directories times its --room",
        "TooMany: there is no room for one more directory: a server has 16384 times its --room",
        "TooMany: a path has at most 32 names, whatever the --room is",
        "a limit is met with --room N; 256 is the greatest",
        "SOCKET: changes were lost",
        "SOCKET: others made changes",
        "table N: mount ID is left out: REASON",
        "table N is of another user namespace, and its locks are not known",
        "TABLE is of another user namespace, and its locks are not known",
        "NAME: line N has a path or a device that cannot be read",
        "several lines are of mount ID",
        "NS: none of the tables, nor one of several of this name",
        "PATH: no path that begins with a slash, or one with a backslash that begins no escape",
        "the table has no root mount, so no path leads anywhere",
        "TABLE: ID POINT is left out: REASON",
        "TABLE: ID POINT is private here: REASON",
        "TABLE: N more, of which each is left out: REASON",
        "TABLE: N more, of which each is private here: REASON",
        "line N: LINE: REASON",
        "line N: a quote is not closed",
        "line N: REASON",
        "line N: the end of a call that has not begun",
        "line N: a call before has no end: CALL",
        "line N: the last line has no end",
        "line N: no line end within a mebibyte: no text, and the reading ends",
        "process PID: unfinished at the end: CALL",
        "WORD: neither a refusal nor an errno",
        "WORD: neither a refusal nor an errno; the nearest is NAME",
        "WORD: no word of the help",
        "WORD: no word of the help; the nearest is NAME",
    ],
}

# Runs that end with each status: their arguments. The input of each is a line that is none of a mountinfo.
RUNS = {
    "mountd": [["--help"], ["/"], ["--nothing"]],
    "mountctl": [["--help"], ["import"], ["--nothing"], ["/", "show", "1"]],
}

# The sources whose words are no messages: those that stand behind one, as its REASON, and examples.
NO_MESSAGES = {"missed.rt", "help.rt"}

# What stands before a message in the source of a program: a call that says it, or the function that names it.
SAID = re.compile(r'(?:fail\(rt, |fail_at\(rt, |refuse\(rt, |Some\(|=>\s+(?:\{\s+)?|&str = )"([a-z][^"{]* [^"{]*)"')


def messages_in(program):
    """The messages in the source of a program, and in that of what both programs say of their arguments."""
    folders = [os.path.join("crates", crate, "src") for crate in (program, "mt_arguments")]
    texts = [shown(read(folder, name)) for folder in folders for name in sorted({*os.listdir(os.path.join(TOP, folder))} - NO_MESSAGES)]
    return {f"{program}: {message}" for text in texts for message in SAID.findall(text)}


def is_part(program, message, made):
    """Whether a message is the first or the last part of one that a program puts together."""
    return any(one.startswith(f"{message}: ") or one.endswith(message.removeprefix(program)) for one in made)


def check_statuses(programs):
    """The pages have the statuses with which the programs end, and the messages of their sources, and no others."""
    for program, path in programs.items():
        text = section(f"{program}.1", "EXIT STATUS")
        seen = {str(run(path, b"none\n", *words)[0]) for words in RUNS[program]}
        check_same(f"the statuses of {program}.1", seen, re.findall(r"(?m)^\.It (\d)$", text))
        made = {f"{program}: {message}" for message in PUT_TOGETHER[program]}
        said = {message for message in messages_in(program) if not is_part(program, message, made)}
        check_same(f"the messages of {program}.1", {*made, *said}, MESSAGE.findall(text))


def plain(text):
    """A literal block as it is printed."""
    return text.replace("\\(aq", "'").replace("\\-", "-").replace("\\e", "\\").encode()


def ends_well(server):
    """Whether a server that was stopped ends, with status 0. One that goes on is killed."""
    try:
        return server.wait(MOST_SECONDS_OF_AN_END) == 0
    except subprocess.TimeoutExpired:
        server.kill()
        return False


def check_commands(name, text, folder, environment):
    """What a page shows of commands is what they print, the first one being the server, which they stop."""
    (start, _), *others = STEP.findall(text)
    settings = {"cwd": folder, "env": environment, "stdin": subprocess.DEVNULL, "stdout": subprocess.PIPE}
    with subprocess.Popen(["sh", "-ec", b"exec " + start.rstrip(b"& ")], **settings) as server:
        try:
            wait_for_socket(folder)
            for command, wanted in others:
                done = subprocess.run(["sh", "-ec", command], timeout=MOST_SECONDS, check=False, **settings)
                check(f"what {shown(command)} of {name} prints", done.stdout == wanted, difference(wanted, done.stdout, name))
            check(f"the server of {name} is stopped", ends_well(server))
        finally:
            server.kill()


def check_examples(programs):
    """The examples of the pages are answered so: sessions after `>`, and commands after `$`, at the top of the sources."""
    for name in PAGES:
        blocks = [plain(block) for block in BLOCK.findall(section(name, "EXAMPLES"))]
        check(f"{name} has examples", blocks != [])
        for block in blocks:
            if block.startswith(b"> "):
                check_session(f"a session of {name}", block, programs["mountd"])
        commands = b"".join(block for block in blocks if block.startswith(b"$ "))
        for text in filter(None, re.split(rb"(?m)^(?=\$ mountd .* &$)", commands)):
            with tempfile.TemporaryDirectory() as folder, tempfile.TemporaryDirectory() as links:
                for program, path in programs.items():
                    os.symlink(path, os.path.join(links, program))
                os.symlink(os.path.join(TOP, "docs"), os.path.join(folder, "docs"))
                path = os.pathsep.join([links, os.environ["PATH"]])
                check_commands(name, text, folder, dict(os.environ, PATH=path))


def offered(*words):
    """What the completion offers for the last of these words."""
    done = subprocess.run(["bash", "-c", OFFERS, COMPLETION, *words], stdout=subprocess.PIPE, cwd=TOP, check=False)
    return shown(done.stdout).split()


def check_offers(helps):
    """The completion offers the options and words of mountctl --help, and after each word what may stand there."""
    check_same("the options that the completion offers", options(helps["mountctl"]), offered("-"))
    check_same("the words that the completion offers alone", words_in_place(helps["mountctl"], "SOCKET WORD.."), [*offered("wha"), *offered("imp"), *offered("exp"), *offered("rea"), *offered("ori"), *offered("hol"), *offered("ses"), *offered("pla"), *offered("tra"), *offered("help")])
    pages = {*usages(helps["mountctl"]), *words_in_place(helps["mountctl"]), *words_in_place(helps["mountctl"], "SOCKET WORD..")}
    check_same("the words that the completion offers behind help", pages, offered("help", ""))
    check_same("what the completion offers behind help and a word", ["none"], [*offered("help", "show", ""), "none"])
    check_same("what the completion offers to be explained", [*refusals.NAMES, *errnos_of_sources()], offered("explain", ""))
    there = usages(helps["mountctl"])
    words = {*there, *words_in_place(helps["mountctl"])}
    check_same("the words that the completion offers", words, offered("socket", ""))
    # With a socket in the environment they are offered in its place, beside options and files.
    os.environ["MOUNTD_SOCKET"] = "socket"
    check("the words that the completion offers without a socket", words <= {*offered("")}, " ".join(offered("")))
    del os.environ["MOUNTD_SOCKET"]
    for front in [], ["-e"], ["--wait", "5"], ["--wait=5", "-q"]:
        check_same(f"what completes tree behind {front}", ["--ascii", "--json", "--name", "all"], offered(*front, "tree", ""))
    for word, usage in {**usages(helps["mountd"]), **words_in_place(helps["mountctl"])}.items():
        wanted = set(re.findall(r"(?<![^\s\[|])(?:--)?[a-z]+=?", usage.removeprefix(word))) - {word}
        found = {offer for count in range(4) for offer in offered("socket", word, *["1"] * count, "")}
        check(f"what the completion offers behind {word}", found == wanted, " ".join(sorted(found)))


def words_of_options():
    """The words after each option of `setattr` in docs/RULES.md."""
    rules = shown(read("docs", "RULES.md"))
    told = re.search(r"Words of `set`: (.*?); of `clr`: the first six and `atime`; K: (.*?)\.", rules)
    attributes, kinds = (re.findall(r"`(\w+)`", words) for words in told.groups())
    return {"set": attributes, "clr": [*attributes[:6], "atime"], "prop": kinds}


def check_completed(key, words):
    """The completion offers these words after an option, which comes whole, or cut at `=` as readline cuts it."""
    begun = words[0][:2]
    for typed, wanted in (
        ([f"{key}="], [f"{key}={word}" for word in words]),
        ([key, "="], words),
        ([key, "=", begun], [word for word in words if word.startswith(begun)]),
    ):
        check_same(f"what completes {' '.join(typed)}", wanted, offered("socket", "setattr", "1", "/", *typed))


def check_options(program):
    """The words of the options of `setattr` stand in the page, are offered and are understood."""
    entry = dict(ENTRY.findall(section("mountd-lines.7", "LINES"))).get("setattr", "")
    # The last word of some lists stands after an `or`.
    entry = re.sub(r" *\nor\n\.Cm ", " , ", entry)
    for key, words in words_of_options().items():
        text = " , ".join(words)
        check(f"the words of {key} in mountd-lines.7", re.search(rf"(?m)^\.Cm {text} [.,]$", entry) is not None, text)
        check_completed(key, words)
        lines = [f"setattr 1 / {key}={word}\n".encode() for word in words]
        answers = run(program, b"".join(lines))[1]
        check(f"the words of {key} are understood", answers == b"no NoNamespace\n" * len(words), shown(answers))
    found = offered("socket", "setattr", "1", "/", "set=ro,nos")
    check_same("what completes a list", ["set=ro,nosuid", "set=ro,nosymfollow"], found)


def main():
    """All checks, with what failed of them."""
    if len(sys.argv) != 3:
        raise SystemExit(__doc__)
    programs = dict(zip(("mountd", "mountctl"), map(os.path.abspath, sys.argv[1:])))
    helps = {name: shown(run(path, b"", "--help")[1]) for name, path in programs.items()}
    check_form()
    check_lines(helps)
    check_help(helps)
    check_refusals()
    check_refused()
    check_helped(programs["mountctl"])
    check_statuses(programs)
    check_explained(programs["mountctl"])
    check_examples(programs)
    check_offers(helps)
    check_options(programs["mountd"])
    check_template()
    if failures:
        raise SystemExit(f"checks of the pages failed: {len(failures)}")
    print("the pages and the completion say what is so")


if __name__ == "__main__":
    main()
