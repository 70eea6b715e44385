#!/usr/bin/env -S python3 -B
"""Proves the definitions and lemmas of crates alone, without their functions: half a minute a crate. By hand; `rt ci` decides.

Usage: checks/lemmas.py FOLDER CRATE..

Copies each crate into FOLDER/bare without its functions and without the folders of their proofs, and asks the prover for it, over
the libraries FOLDER/NAME.rlib; then FOLDER/CRATE.rlib is the library of that copy, for the next crate. So a change of definitions,
laws and lemmas in several crates is tried from below before any of them is proved. What is left for the whole crate is what stands
in the folders of its proofs. Libraries of such copies serve other such copies alone: take a FOLDER of your own, with the
libraries of the crates below that do not change (checks/prove.py --gather).
"""
import os
import re
import shutil
import subprocess
import sys

TOP = os.path.dirname(os.path.dirname(os.path.abspath(__file__)))
CLAUSE = re.compile(r"\b(requires|ensures|kept|decreases)(\s+[a-z_0-9]+)?\s*$")
FUNCTION = re.compile(r"(?:pub(?:\([a-z ]+\))?\s+)?(?:const\s+)?fn\s+[a-zA-Z_]")
ABOVE = re.compile(r"(^|\n)[ \t]*(//[^\n]*|#\[[^\n]*\])\n[ \t]*$")
GONE = re.compile(r"(src/\S+\.rt):(\d+):(\d+): error\[unknown-name\]: unresolved import: there is no `(\w+)`")
TOLD = re.compile(r"error|not proved|logic=")
# A copy whose imports of functions are not gone after so many rounds has another fault.
ROUNDS = 12


def past(text, at):
    """The position behind a comment, a text or a character that begins here; else this position."""
    if text.startswith("//", at):
        end = text.find("\n", at)
        return len(text) if end < 0 else end
    found = re.compile(r'b?"(\\.|[^"\\])*"|b?\'(\\.[^\']*|[^\\\'])\'', re.S).match(text, at)
    return found.end() if found else at


def closed(text, at):
    """The position behind the bracket that closes the one here."""
    depth = 0
    while True:
        behind = past(text, at)
        if behind == at:
            depth += (text[at] in "{[") - (text[at] in "}]")
            behind = at + 1
        at = behind
        if depth == 0:
            return at


def end_of(text, at):
    """The position behind a function that begins here: behind its body, or its semicolon."""
    start = at
    while True:
        behind = past(text, at)
        if behind != at:
            at = behind
        elif text[at] == ";":
            return at + 1
        elif text[at] in "{[":
            at, before, is_body = closed(text, at), text[start:at], text[at] == "{"
            if is_body and not CLAUSE.search(before):
                return at
            start = at if is_body else start
        else:
            at += 1


def without_above(text):
    """A text without the comments and attributes that stand at its end, above what goes."""
    found = ABOVE.search(text)
    while found:
        text = text[: found.start()] + found.group(1)
        found = ABOVE.search(text)
    return text


def without_functions(text):
    """The types, constants and ghost items of a source text."""
    kept, at = "", 0
    while at < len(text):
        behind = past(text, at)
        if behind == at and FUNCTION.match(text, at) and not (kept[-1:].isalnum() or kept.endswith("_")):
            kept, at = without_above(kept), end_of(text, at)
            continue
        behind = max(behind, at + 1)
        kept, at = kept + text[at:behind], behind
    kept = re.sub(r"(?m)^ *#\[error\(.*\)\]\n", "", on_one_line(kept))
    return without_empty(re.sub(r"#\[derive\(([^)]*)\)\]", derived, kept))


def derived(found):
    """A `derive` without `Drop`, which asks it of each field's type, and without `Error`, which asks for that."""
    names = [name for name in found.group(1).split(", ") if name not in ("Drop", "Error")]
    return f"#[derive({', '.join(names)})]" if names else ""


def on_one_line(text):
    """A text with each `use` on one line, as imports are told by lines."""
    return re.sub(r"(?m)^(?:pub )?use [^;]*;", lambda found: " ".join(found.group(0).split()), text)


def without_empty(text):
    """A text without its empty `impl`s, and without those that lack a function of their trait or speak of one."""
    wanted = re.compile(r"(?m)^impl\b[^{;]*\b(?:Iterator|From<.*>|Input|Output) for[^{;]*\{")
    found = wanted.search(text)
    while found:
        text = text[: found.start()] + text[closed(text, found.end() - 1) :]
        found = wanted.search(text)
    return re.sub(r"(?m)^(?://[^\n]*\n|#\[[^\n]*\]\n)*impl\b[^{;]*\{\s*\}\n", "", text)


def copy_bare(crate, bare):
    """Copies a crate without its functions."""
    to = os.path.join(bare, "crates", crate)
    shutil.rmtree(to, ignore_errors=True)
    shutil.copytree(os.path.join(TOP, "crates", crate), to, ignore=shutil.ignore_patterns("out", "must-fail"))
    proofs = os.path.join(to, "proofs")
    for name in os.listdir(proofs):
        if os.path.isdir(os.path.join(proofs, name)):
            shutil.rmtree(os.path.join(proofs, name))
    for folder, _, files in os.walk(os.path.join(to, "src")):
        for name in files:
            change(os.path.join(folder, name), without_functions)


def change(path, how):
    """Writes a file's text as it is changed."""
    with open(path, encoding="utf-8") as file:
        text = file.read()
    with open(path, "w", encoding="utf-8") as file:
        file.write(how(text))


def without_import(line, name):
    """A `use` line without a name; an empty one where nothing is left of it."""
    if re.match(rf"\s*(pub\s+)?use\s+[\w:]+::{name}(\s+as \w+)?;\s*$", line):
        return ""
    line = re.sub(rf"\b{name}\b(\s+as\s+\w+)?,?\s*(?=[^;]*\}})", "", line, count=1)
    line = re.sub(r",\s*\}", "}", line)
    return "" if re.match(r"\s*(pub\s+)?use\s+[\w:]+::\{\s*\};\s*$", line) else line


def drop_imports(crate, bare, gone):
    """Takes away the imports of functions that are gone, the last of each line first."""
    for path, line, _, name in sorted(gone, key=lambda found: (int(found[1]), int(found[2])), reverse=True):

        def without(text, at=int(line) - 1, name=name):
            lines = text.split("\n")
            lines[at] = without_import(lines[at], name)
            return "\n".join(lines)

        change(os.path.join(bare, "crates", crate, path), without)


def proved(crate, folder, bare):
    """Asks the prover for a copy, and prints what it finds wrong, or that it is proved."""
    call = [os.path.join(bare, "checks", "prove.py"), "--library", crate, folder]
    for _round in range(ROUNDS):
        done = subprocess.run(call, capture_output=True, text=True, check=False)
        told = done.stdout + done.stderr
        gone = GONE.findall(told)
        if not gone:
            break
        drop_imports(crate, bare, gone)
    print(crate, *[line for line in told.split("\n") if TOLD.search(line)], sep="\n  ")
    return "logic=proved" in told


def main():
    if len(sys.argv) < 3:
        sys.exit(__doc__)
    folder = os.path.abspath(sys.argv[1])
    bare = os.path.join(folder, "bare")
    os.makedirs(os.path.join(bare, "checks"), exist_ok=True)
    shutil.copy(os.path.join(TOP, "crates.txt"), bare)
    shutil.copy(os.path.join(TOP, "checks", "prove.py"), os.path.join(bare, "checks"))
    for crate in sys.argv[2:]:
        copy_bare(crate, bare)
        if not proved(crate, folder, bare):
            sys.exit(f"{crate} is not proved")


main()
