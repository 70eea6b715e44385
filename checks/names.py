#!/usr/bin/env -S python3 -B
"""Says which names in the documents nothing in the repository has. A program of the gate.

    checks/names.py [--self-test]

It reads README.md, docs/*.md and checks/README.md, without their fenced blocks, and prints a line for each

(a) file that a document names and that is not there: the target of a link, or a path with one of the endings of files
    here. A path may leave out its first folders, as `specs/Chain.antt` does;
(b) name in code marks that no file has as a word, but the documents. A name is a word with an underscore or a second
    capital inside, as `serve_plain` and `WorldView`, or both sides of `::`. Words of one case, as `show`, are lines,
    options or plain words too, and are left alone. A crate's name, and one that ends in `Laws`, need no code marks;
(c) name in code marks that is there, but in no file of the crates that should have it: those that the heading above names,
    as `## mt_bind, mt_unmount`, or the one that stands before it, as in mt_mounts: `walk`. Behind a crate, and in the last
    cell of a table below such a heading, each word is a name.

Names that are not ours are known by their form: capitals alone are constants of the kernel or stand for something
(`MNT_DETACH`, `NAME`); an option of systemd ends in `=` (`PrivateMounts=`); a word of the toolchain stands after `Rattle.`, `rattle ` or `rt ` in its code marks, or in a line
that says `toolchain` or `kit`. The status is 0 where nothing is printed. --self-test shows that each is found in texts
made for it.
"""
import argparse
import glob
import os
import re
import subprocess
import sys

from harness.runs import TOP, end_self_test

DOCUMENTS = ["README.md", "checks/README.md", "docs/*.md"]
# What is no code, as this file's own texts are none: documents and their pictures.
TEXTS = (".md", ".svg", ".1", ".7")

FENCED = re.compile(r"(?ms)^```.*?^```$")
MARKED = re.compile(r"`([^`\n]+)`")
LINKED = re.compile(r"\]\(([^)#\s]+)[^)]*\)")
PATH = re.compile(r"(?<![\w/.-])((?:[\w.-]+/)*[\w-]+\.(?:rt|antt|py|md|c|h|dot|svg|bash|service|txt|edit))(?![\w/])")
WORD = re.compile(r"(?<![\w.'-])[A-Za-z_]\w*(?:::\w+)*(?![\w'])")
OTHERS = re.compile(r"Rattle\.|^(?:rattle|rt|apt-get|git|cp|ps) |^std::|^[A-Z][A-Za-z]+=$")
TOOLCHAIN = re.compile(r"\b(?:toolchain|kit)\b")
PLAIN = re.compile(r"\b(?:mt_\w+|[A-Z][a-z]+Laws)\b")
OF_CRATE = re.compile(r"\b(mt_\w+|mountd|mountctl): ((?:`[^`]+`(?:, | and )?)+)")


def is_name(word):
    """Whether a word has the form of a name of ours."""
    inside = word.strip("_")
    return "::" in word or inside != inside.upper() and ("_" in inside or re.search(r"[a-z]\w*[A-Z]|^[A-Z]\w*[a-z]\w*[A-Z]", inside))


def names_in(text, is_any=False):
    """The names in the code marks of a text, or all words there, each part of a path by itself."""
    marks = [marked for marked in MARKED.findall(text) if not OTHERS.search(marked) and not PATH.fullmatch(marked)]
    words = [word for marked in marks for word in WORD.findall(marked) if is_any or is_name(word)]
    return [part for word in words for part in word.split("::")]


def lines_of(text):
    """The lines of a text without its fenced blocks, each with its number."""
    plain = FENCED.sub(lambda found: "\n" * found[0].count("\n"), text)
    return enumerate(plain.split("\n"), 1)


def absent_files(line, folder, paths):
    """The files that a line names and that are not there."""
    for link in LINKED.findall(line):
        path = os.path.normpath(os.path.join(folder, link))
        if "://" not in link and not any(there == path or there.startswith(path + "/") for there in paths):
            yield link
    for path in PATH.findall(LINKED.sub("]", line)):
        end = path.removeprefix("./").removeprefix("../")
        if not any(there == end or there.endswith("/" + end) for there in paths):
            yield path


def absent_names(line, words, crates):
    """The names in code marks of a line that nothing has, and those that the crates have not in which they should be."""
    everywhere = set().union(*words.values())
    nowhere = {name for name in [*names_in(line), *PLAIN.findall(line)] if name not in everywhere}
    yield from sorted(nowhere if not TOOLCHAIN.search(line) else ())
    last = line.rstrip(" |").rsplit(" | ", 1)[-1] if line.startswith("|") else ""
    owned = [(crates, [*names_in(line), *names_in(last, is_any=True)])] if crates else []
    owned += [([crate], names_in(told, is_any=True)) for crate, told in OF_CRATE.findall(line)]
    for owners, names in owned:
        there = set().union(*(words.get(crate, ()) for crate in owners))
        yield from (f"{name} of {' or '.join(owners)}" for name in names if name not in there | nowhere)


def absent(documents, words, paths):
    """A line for each file and each name that is not there."""
    for document, text in sorted(documents.items()):
        crates = []
        for number, line in lines_of(text):
            if line.startswith("#"):
                crates = [word for word in WORD.findall(line) if word in words]
            files = absent_files(line, os.path.dirname(document), paths)
            for what in dict.fromkeys([*files, *absent_names(line, words, crates)]):
                yield f"{document}:{number}: {what} is not there"


def read(path):
    """A file's text, whatever its bytes."""
    with open(os.path.join(TOP, path), encoding="utf-8", errors="replace") as file:
        return file.read()


def words_by_crate(paths):
    """The words of each crate's files; those of all others stand under no name."""
    words = {}
    for path in paths:
        if not path.endswith((*TEXTS, "checks/names.py")):
            crate = path.split("/")[1] if path.startswith("crates/") else ""
            words.setdefault(crate, set()).update(re.findall(r"\w+", read(path) + " " + path))
    return words


SELF = {
    "docs/A.md": "[b](B.md) [c](C.md) specs/One.antt two.rt `is_one` `is_two` `IsTwo` `Three::new` `show` `MNT_DETACH`\n"
    "mt_a: `is_one`, `is_two`; mt_b: `is_one`; mt_c and NoLaws\n```\n`is_none`\n```\n`rt one_two`\n`is_none` of the kit\n## mt_b\n`is_one`\n",
}
SELF_WORDS = {"mt_a": {"mt_a", "is_one", "new"}, "mt_b": {"mt_b", "new"}, "": set()}
SELF_FOUND = "C.md two.rt IsTwo Three is_two NoLaws is_two mt_c is_one_of_mt_b is_one_of_mt_b"


def self_test():
    """Whether what is absent is found, and nothing else."""
    found = absent(SELF, SELF_WORDS, ["docs/B.md", "crates/mt_a/specs/One.antt"])
    return " ".join(line.split(": ")[1].removesuffix(" is not there").replace(" ", "_") for line in found) == SELF_FOUND


def main():
    parser = argparse.ArgumentParser(description=__doc__.split("\n", maxsplit=1)[0])
    parser.add_argument("--self-test", action="store_true")
    if parser.parse_args().self_test:
        end_self_test("names.py", self_test())
    listed = subprocess.run(["git", "ls-files", "-co", "--exclude-standard"], cwd=TOP, stdout=subprocess.PIPE, text=True, check=True)
    paths = [path for path in listed.stdout.splitlines() if os.path.isfile(os.path.join(TOP, path))]
    documents = {path: read(path) for pattern in DOCUMENTS for path in glob.glob(pattern, root_dir=TOP)}
    found = list(absent(documents, words_by_crate(paths), paths))
    print(*found, f"{len(documents)} documents, {len(found)} names and files that are not there", sep="\n")
    sys.exit(1 if found else 0)


if __name__ == "__main__":
    main()
