"""The lists of lines in the helps and the documents are those of the table of lines. A module, a part of pages.py."""
import re

from harness import commands
from harness.runs import check, read, shown

# Which lines of the page are answered so, by the form of the answer.
ANSWER = re.compile(r"(?m)^\.It Ic ([\w ,]+?) Ta Li ok ")
ENTRY = re.compile(r"(?m)^\.It (?:Xo\n\.)?Ic (\w+)")


def check_list(name, found, wanted):
    """Notes a list that is not the one of the table, in its order."""
    wanted = [shown(word) for word in wanted]
    check(name, wanted != [] and found == wanted, f"wanted: {' '.join(wanted)}\nfound: {' '.join(found)}")


def check_helps(helps):
    """Each help has the lines of the table, as they are written and with what they do."""
    for program, text in helps.items():
        lines = " ".join(text.split("ines of a session:\n")[1].split("\nA line is answered")[0].split())
        wanted = " ".join(word for row in commands.TABLE.values() for word in f"{row.usage} {row.help}".split())
        check(f"the lines of {program} --help", lines == wanted, lines)


def check_page():
    """mountd-lines(7) has an entry for each line, and says how each is answered that is not answered by `ok` alone."""
    text = shown(read("docs", "man", "mountd-lines.7"))
    answers, lines = text.split(".Sh ANSWERS\n")[1].split(".Sh LINES\n")
    check_list("the lines of mountd-lines.7", ENTRY.findall(lines.split("\n.Sh ")[0]), commands.LINES)
    found = [word for words in ANSWER.findall(answers) for word in words.split(" , ")]
    wanted = [word for word in commands.LINES if commands.TABLE[word].form != "Done"]
    check_list("the answers of mountd-lines.7", sorted(found), sorted(wanted))
    first, last = re.search(r"The lines from\n\.Ic (\w+)\nto\n\.Ic (\w+)\nare commands\.", text).groups()
    place = [shown(word) for word in commands.LINES].index
    check_list("the commands of mountd-lines.7", [shown(word) for word in commands.LINES[place(first) : place(last) + 1]], commands.CHANGING)


def check_rules():
    """docs/RULES.md has the refusals of each line, but for those that have none of their own."""
    table = shown(read("docs", "RULES.md")).split("| Line | Refusals |\n")[1].split("\n\n")[0]
    found = [word for words in re.findall(r"(?m)^\| (.*?) \|", table) for word in re.findall(r"`(\w+)`", words)]
    check_list("the lines of RULES.md", sorted(found), sorted(word for word in commands.LINES if word not in commands.ENDING))


def check_completion():
    """The completion offers each line first of all."""
    words = re.search(r"(?m)^ +:0\) echo (.*?) ;;$", shown(read("docs", "completion", "mountctl.bash")))[1].split()
    check_list("the lines of mountctl.bash", words[: len(commands.LINES)], commands.LINES)


def check_lines(helps):
    """All lists of lines, beside the table."""
    check_helps(helps)
    check_page()
    check_rules()
    check_completion()
    print(f"{len(commands.LINES)} lines of the table", flush=True)
