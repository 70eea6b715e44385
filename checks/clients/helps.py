"""The pages of the other program's help: a module, a part of server.py.

Each word of its help has a page, behind `help` and before `--help`. A page has each form of the help and of the table of lines, the
sentences of the table of refusals, and an example, which is run here: a line in a session, a command beside a server.
"""
import os
import re
import shutil
import subprocess
import tempfile
import time

from harness import commands, refusals
from harness.runs import MOST_SECONDS, TOP, check, run, session, shown
from harness.servers import Server

# The sections of a page, by their titles: lines behind an indent.
SECTION = re.compile(r"(?m)^(\w+):\n((?:    .*\n)+)")
# A refusal in a page, and a form in the help, behind which it is said what it does: in its line, or far to the right in the next.
REFUSAL = re.compile(r"(?m)^    (\w+): (.*)$")
FORM = re.compile(r"(?m)^  (\S.*?)(?:  .*)?$")
# The parts of the help that list forms.
LISTS = "Lines of a session:", "In the place of WORD..:", "In the place of SOCKET WORD..:"

# A world in which the examples of lines are accepted, but for what some ask for besides.
WORLD = [
    *(b"mkfs root ext4 /dev/sda2", b"mkdir root /media", b"mkdir root /mnt", b"mkdir root /srv", b"newns root", b"newns root"),
    *(b"mkfs usb vfat /dev/sdb1", b"mkdir usb /old", b"mount 1 usb /media"),
]
# The same, where the second namespace is a detached tree.
WORLD_WITH_TREE = [*WORLD[:5], b"opentree 1 /srv", *WORLD[6:]]
WORLDS = {b"movetree": WORLD_WITH_TREE}
BESIDES = {b"take": [b"watch all"], b"follow": [b"watch all", b"umount 1 /media"], b"close": [b"watch all"]}

# The examples that end once somebody else changes something, or never.
ENDS_BY_CHANGE, NEVER_ENDS = "mirror", "monitor"
# What is changed, again and again, and how long a change is waited for, in seconds.
CHANGES = b"umount 1 /media", b"mount 1 usb /media"
PAUSE = 0.05


def forms_of_help(mountctl):
    """The forms that the help has, by their first words."""
    text, found = shown(run(mountctl, b"", "--help")[1]), {}
    for title in LISTS:
        for form in FORM.findall(text.split(f"{title}\n")[1].split("\n\n")[0]):
            found.setdefault(form.split(" ")[0], []).append(form)
    return found


def page_of(mountctl, word):
    """The page of a word, which is the same by each way to ask for it."""
    page = run(mountctl, b"", "help", word)
    check(f"help {word}", page[0] == 0 and page[2] == b"" and page[1] != b"", repr(page))
    for words in [word, "--help"], [word, "-h"], ["none.sock", word, "--help"], ["-q", "none.sock", word, "-h"]:
        found = run(mountctl, b"", *words)
        check(f"{' '.join(words)}", found == page, repr(found))
    return shown(page[1])


def check_page(word, page, forms):
    """A page has the forms of its word, and each refusal with its sentence: its example."""
    found = [line for line in page.split("\n\n")[0].split("\n") if line and not line.startswith(" ")]
    check(f"the forms of help {word}", found == forms, page)
    sections = dict(SECTION.findall(page))
    said = REFUSAL.findall(sections.get("Refusals", ""))
    wanted = [(name, refusals.TABLE[name].sentence) for name, _ in said if name in refusals.TABLE]
    check(f"the refusals of help {word}", said == wanted, page)
    example = sections.get("Example", "").strip()
    check(f"an example of help {word}", example != "" and "\n" not in example, page)
    return example


def check_line(program, word, example):
    """A session accepts the example of a line, in a world that has what it asks for."""
    check(f"the example of {word}", example.split(" ")[0] == word, example)
    world = WORLDS.get(word.encode(), WORLD)
    place = world.index(example.encode()) if example.encode() in world else len(world)
    before = world[:place] + BESIDES.get(word.encode(), [])
    without, told = (session(program, lines)[1] for lines in (before, [*before, example.encode()]))
    answer = told[len(without) :]
    good = told.startswith(without) and b"no " not in without and re.search(rb"(?m)^ok\b", answer) and not re.search(rb"(?m)^no ", answer)
    check(f"the answer to {example}", bool(good), shown(told))


def check_waiting(client, command, settings, has_ended):
    """A command that waits for changes: they come until it has ended, or has told one."""
    with subprocess.Popen(["bash", "-c", f"exec {command}"], stdout=subprocess.PIPE, stderr=subprocess.PIPE, **settings) as process:
        os.set_blocking(process.stdout.fileno(), False)
        told, deadline = b"", time.monotonic() + MOST_SECONDS
        while not has_ended(process, told) and time.monotonic() < deadline:
            client.ask(CHANGES[0])
            client.ask(CHANGES[1])
            time.sleep(PAUSE)
            told += process.stdout.read() or b""
        good = has_ended(process, told)
        process.kill()
    check(f"the example {command}", good and told != b"", shown(told))


def check_command(client, settings, word, example):
    """A command that a page gives as an example ends well, and says nothing on standard error."""
    check(f"the example of {word}", f" {word} " in f"{example} ", example)
    if word == ENDS_BY_CHANGE:
        check_waiting(client, example, settings, lambda process, told: process.poll() == 0 and told != b"")
    elif word == NEVER_ENDS:
        check_waiting(client, example, settings, lambda process, told: told.endswith(b"}\n"))
    else:
        done = subprocess.run(["bash", "-c", example], stdin=subprocess.DEVNULL, capture_output=True, timeout=MOST_SECONDS, check=False, **settings)
        _, _, to = example.partition(" > ")
        printed = os.path.getsize(os.path.join(settings["cwd"], to)) if to else len(done.stdout)
        check(f"the example {example}", (done.returncode, done.stderr) == (0, b"") and printed > 0, repr(done))


def check_commands(program, mountctl, examples):
    """The commands that pages give as examples, beside a server, where the files that they name are there."""
    with Server(program) as server, tempfile.TemporaryDirectory() as folder, tempfile.TemporaryDirectory() as links:
        os.symlink(server.path, os.path.join(folder, "mounts.sock"))
        os.symlink(mountctl, os.path.join(links, "mountctl"))
        for name in "host", "container":
            shutil.copy(os.path.join(TOP, "docs", "tables", name), folder)
        with open(os.path.join(folder, "session"), "w", encoding="ascii") as file:
            file.write("# a directory\nmkfs more tmpfs none\nmkdir more /more\n")
        with open(os.path.join(folder, "transcript"), "w", encoding="ascii") as file:
            file.write("> mkfs more tmpfs none\nok 1\n")
        os.symlink(os.path.join(TOP, "docs", "traces", "sandbox"), os.path.join(folder, "run"))
        path = os.pathsep.join([links, os.environ["PATH"]])
        settings = {"cwd": folder, "env": dict(os.environ, PATH=path)}
        with server.free() as client:
            for line in WORLD:
                client.ask(line)
            for word, example in examples.items():
                check_command(client, settings, word, example)
        ended = server.stop()
        check("the server of the examples", ended == (0, b""), shown(ended[1]))


def check_list(mountctl, words):
    """Without a word, all words are listed that have a page; one that has none is refused, with the nearest one."""
    status, text, complaint = run(mountctl, b"", "help")
    listed = " ".join(re.findall(r"(?m)^  (.*)$", shown(text))).split()
    check("help", (status, complaint, sorted({*listed})) == (0, b"", sorted(words)), shown(text))
    for word, nearest in ("shwo", "show"), ("unmount", "umount"), ("wat-if", "what-if"), ("Busy", ""), ("", ""), ("\x1b", ""):
        found = run(mountctl, b"", "help", word)
        said = f"mountctl: {word}: no word of the help".replace("\x1b", "\\x1b") + (f"; the nearest is {nearest}" if nearest else "")
        check(f"help {word!r}", found == (2, b"", f"{said}\n".encode()), repr(found))
    for words_behind in ["show", "find"], ["show", "--json"]:
        found = run(mountctl, b"", "help", *words_behind)
        check(f"help {words_behind}", found == (2, b"", b"mountctl: help takes a word, or none\n"), repr(found))


def check_helps(program, mountctl):
    """The pages of all words."""
    forms, examples = forms_of_help(mountctl), {}
    lines = {shown(word): row for word, row in commands.TABLE.items()}
    check("the words of the help", {*lines} < {*forms}, " ".join(forms))
    for word, row in lines.items():
        check(f"the form of {word}", forms[word][0] == row.usage, repr(forms[word]))
    check_list(mountctl, [*forms])
    for word, wanted in forms.items():
        example = check_page(word, page_of(mountctl, word), wanted)
        if word in lines:
            check_line(program, word, example)
        else:
            examples[word] = example
    check_commands(program, mountctl, examples)
    print(f"{len(forms)} words of mountctl have a page", flush=True)
