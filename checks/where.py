#!/usr/bin/env -S python3 -B
"""Says where what belongs to a function or a crate stands. By hand; the gate asks for --left-over.

    checks/where.py NAME
    checks/where.py --left-over
    checks/where.py --self-test

NAME is a crate, as `mt_bind`, or a function, as `bind`, `Forest::walk` or `mt_bind::binding::bind`: the last parts of its
path, as many as tell it from others; where several bear a name, each is told. Of a function it prints where it stands, its
clauses, the definitions that they cite, its proof, who calls it, the tests and cases that lead to it, and the wrong bodies
that change it or that its contract refuses. Of a crate it prints its layers, files, definitions, tests, cases and wrong
bodies.

--left-over prints the files of proofs that are of no function, as they are left where a function moved; the status is 1
where there is one, since `rt ci` refuses the crate.

Calls are found by names (sources/calls.py). A case leads to a function where one of its lines does. --self-test shows that
all this is found in texts made for it.
"""
import argparse
import collections
import glob
import os
import re
import sys

from harness.runs import TOP, end_self_test, read, shown
from sources.calls import Calls, verb_words
from sources.functions import functions_in
from sources.texts import EXAMPLES, crate_of, read_all

BROUGHT_IN = re.compile(r"\bghost use Rattle\.(mt_\w+)\.specs\.([\w.]+)\.\{([^}]*)\}")
INPUT = re.compile(r"^>\*?\.? (\w+)", re.M)
# The files that are of a function where they stand; others of proofs/ are lemmas.
PROOF_FILES = ("Answers.antt", "Invariants.antt", "Proof.antt")
# Cases and tests that are named, at most.
MOST_NAMED = 12


def several(names):
    """Some names in one line, or how many they are and the first of them."""
    shown_first = ", ".join(names[:MOST_NAMED])
    return f"{len(names)}: {shown_first}{', ..' if len(names) > MOST_NAMED else ''}" if names else "none"


def uses_in(text):
    """The libraries that each crate of crates.txt uses, lowest first."""
    lines = [line.split("#")[0] for line in text.splitlines()]
    return {line.split(":")[0].split()[0]: line.split(":")[1].split() for line in lines if line.strip()}


def edits_in(files):
    """The wrong bodies among these files, each with its crate, the texts that it replaces, and the function that refuses it."""
    for path, text in sorted(files.items()):
        crate = path.split("/")[1 if path.startswith("crates/") else 2]
        pieces, file, only = [], "", ""
        for kind, _, rest in (line.partition(": ") for line in text.splitlines()):
            file, only = (rest if kind == "file" else file), (rest if kind == "only" else only)
            pieces += [(f"{crate}/{file}", rest)] if kind == "old" else []
        yield path, crate, pieces, only


class Repository:
    """What is asked for: the texts of crates by their paths, the files of proofs, cases, wrong bodies, and PROVED.md."""

    def __init__(self, texts, uses, proofs, cases, edits, proved):
        self.texts, self.uses, self.proofs, self.cases, self.proved = texts, uses, proofs, cases, proved
        self.code = {path: text for path, text in texts.items() if path.endswith(".rt")}
        self.functions = [it for path, text in sorted(self.code.items()) for it in functions_in(path, text)]
        self.edits = list(edits_in(edits))
        self.calls = Calls(self.code, self.functions, uses)
        self.verb_words = verb_words("\n".join(text for path, text in self.code.items() if path.startswith("mt_protocol/")))

    def named(self, name):
        """The functions whose path ends so, as the code has it or as the prover takes it."""
        near = [it for it in self.functions if it.name == name.split("::")[-1]]
        return [it for it in near if any(f"::{path}".endswith(f"::{name}") for path in self.paths_of(it))]

    def paths_of(self, it):
        """Both paths of a function, with its crate."""
        return it.whole, f"{it.crate}::{self.path_of(it)}"

    def path_of(self, it):
        """The path of a function in its crate, as the prover takes it: that of its type's module, and its trait after the type."""
        home = it.module
        declared = re.compile(rf"^(?:pub(?:\([a-z]+\))? )?(?:struct|enum|trait) {it.owner}\b", re.M)
        for path, text in self.code.items() if it.owner else ():
            if crate_of(path) == it.crate and declared.search(text):
                home = path.split("/src/")[1].removesuffix(".rt").replace("/", "::")
        return "::".join(part for part in (home, it.owner + it.trait, it.name) if part)

    def proof_of(self, it):
        """The files that are written of a function's proof."""
        path = self.path_of(it).split("::")
        ends = {"/".join([it.crate, "proofs", *path[:-1], before + path[-1]]) for before in ("", "+")}
        # A type with parameters, or of another crate, has its own name there.
        loose = re.compile(rf"{it.crate}/proofs/{it.module}/{it.owner}\w*{it.trait}/\+?{it.name}" if it.trait else r"(?!)")
        folders = {file: os.path.dirname(file) for file in self.proofs}
        return sorted(file for file, folder in folders.items() if folder in ends or loose.fullmatch(folder))

    def left_over(self):
        """The files of proofs that are of no function that is there: `rt ci` refuses a crate that has one."""
        claimed = {file for it in self.functions for file in self.proof_of(it)}
        return [file for file in self.proofs if os.path.basename(file) in PROOF_FILES and file not in claimed]

    def definitions_of(self, it):
        """The definitions of ours that the clauses of a function cite: each name with its file, line and text."""
        said = " ".join(it.clauses)
        for crate, module, listed in BROUGHT_IN.findall(self.code[it.path]):
            path = f"{crate}/specs/{module.replace('.', '/')}.antt"
            text = self.texts.get(path)
            if text is None:
                # What the prover makes of the types of the code.
                continue
            for name, _, here in (part.strip().partition(" as ") for part in listed.split(",")):
                if re.search(rf"(?<![\w.'-]){re.escape(here or name)}(?![\w-])", said):
                    found = re.search(rf"^ *(?:(?:pub|abbrev|unfoldable|record|data) )+{re.escape(name)}(?![\w-])", text, re.M)
                    start = found.start() if found else 0
                    yield name, path, text.count("\n", 0, start) + 1, text[start:].partition("\n\n")[0]

    def tests_of(self, it):
        """The tests that call a function, be it through functions of their own crate."""
        reached, todo = set(), [it]
        while todo:
            near = {caller for caller in self.calls.callers(todo.pop()) if caller.crate == EXAMPLES or caller.is_test}
            todo += near - reached
            reached |= near
        return sorted(f"{test.whole}, crates/{test.path}:{test.line}" for test in reached if test.is_test)

    def lines_of(self, it):
        """The words of the lines of a session that lead to a function."""
        return [self.verb_words[verb] for verb in self.calls.verbs_to(it)]

    def cases_of(self, words):
        """The cases that have a line with one of these words."""
        return sorted(name for name, text in self.cases.items() if set(INPUT.findall(text)) & set(words))

    def edits_of(self, it):
        """The wrong bodies that change a function, or a definition that it cites, or that its contract refuses."""
        own = "\n".join(self.code[it.path].split("\n")[it.line - 1 : it.last])
        cited = [(path, text) for _, path, _, text in self.definitions_of(it)]
        for path, crate, pieces, only in self.edits:
            is_refused = crate == it.crate and only == self.path_of(it)
            if is_refused or any(file == at and old in text for file, old in pieces for at, text in [(it.path, own), *cited]):
                yield f"{path}{', which its contract refuses' if is_refused else ''}"

    def promises_of(self, it):
        """The lines of PROVED.md that name a function below a heading that names its crate."""
        crates, name = [], re.compile(rf"`(?:{it.owner}::)?{it.name}`" if it.owner else rf"`{it.name}`")
        for number, line in enumerate(self.proved.split("\n"), 1):
            crates = re.findall(r"\w+", line) if line.startswith("#") else crates
            if it.crate in crates and name.search(line):
                yield f"docs/PROVED.md:{number}"

    def told_of(self, it):
        """What is said of a function: each word with what follows it."""
        files = self.proof_of(it)
        tactic = re.search(r"#\[tactic\([^\]]*\]", it.head)
        proof = [f"crates/{file}" for file in files] or ["no file: tactics find it"]
        lines = self.lines_of(it) if it.crate != EXAMPLES else []
        callers = [caller for caller in self.calls.callers(it) if caller.crate != EXAMPLES]
        return {
            "function": [f"{it.whole}, crates/{it.path}:{it.line}{'' if it.is_public else ', private'}"],
            "clauses": it.clauses,
            "definitions": [f"{name}, crates/{path}:{line}" for name, path, line, _ in self.definitions_of(it)],
            "proof": [*proof, *([" ".join(tactic[0].split())] if tactic else [])],
            "to prove it": [f"checks/prove.py {it.crate} FOLDER -- --only {self.path_of(it)}"],
            "promised": self.promises_of(it) if it.is_public else [],
            "callers": sorted(f"{caller.whole}, crates/{caller.path}:{caller.line}" for caller in callers),
            "tests": self.tests_of(it),
            "lines": ["all"] if lines == list(self.verb_words.values()) else [", ".join(lines)] if lines else [],
            "cases": [several(self.cases_of(lines))] if lines else [],
            "wrong bodies": self.edits_of(it),
        }

    def told_of_crate(self, crate):
        """What is said of a crate."""
        own = [it for it in self.functions if it.crate == crate]
        public = [it for it in own if it.is_public]
        written = [it for it in own if self.proof_of(it)]
        files = collections.Counter(it.path for it in own)
        lines = sorted({line for it in public for line in self.lines_of(it)})
        tests = sorted({test.split(", ")[0] for it in public for test in self.tests_of(it)} | {it.whole for it in own if it.is_test})
        return {
            "crate": [f"{crate}, crates/{crate}"],
            "it uses": [", ".join(self.uses[crate]) or "none"],
            "used by": [", ".join(other for other, uses in self.uses.items() if crate in uses) or "none"],
            "code": [f"crates/{path}: {count} functions" for path, count in sorted(files.items())],
            "definitions": [f"crates/{path}" for path in sorted(self.texts) if path.startswith(f"{crate}/specs/")],
            "clauses": [f"{sum(len(it.clauses) for it in public)} of {len(public)} public functions"],
            "proof": [f"files of {len(written)} of {len(own)} functions in crates/{crate}/proofs; tactics find the others"],
            "to prove it": [f"checks/prove.py {crate} FOLDER"],
            "tests": [several(tests)],
            "cases": [several(self.cases_of(lines))] if lines else [],
            "wrong bodies": [path for path, of, _, _ in self.edits if of == crate],
        }

    def told(self, name):
        """What is said of each that bears a name."""
        return [self.told_of_crate(name)] if name in self.uses else [self.told_of(it) for it in self.named(name)]


def printed(told):
    """What is said of one, as it is printed."""
    width = max(map(len, told)) + 2
    for word, parts in told.items():
        parts = list(dict.fromkeys(parts)) or ["none"]
        yield from (f"{word if number == 0 else '':{width}}{part}" for number, part in enumerate(parts))


def texts_below(*patterns):
    """The texts of these files, by their paths."""
    paths = sorted(path for pattern in patterns for path in glob.glob(pattern, root_dir=TOP))
    return {path: shown(read(path)) for path in paths if os.path.isfile(os.path.join(TOP, path))}


def repository():
    """All that stands here."""
    proofs = [path.removeprefix("crates/") for path in glob.glob("crates/*/proofs/**/*.antt", root_dir=TOP, recursive=True)]
    cases = {path.removeprefix("cases/"): text for path, text in texts_below("cases/*").items() if not path.endswith(".md")}
    edits = texts_below("checks/wrong/*/*.edit", "crates/*/must-fail/*.edit")
    return Repository(read_all(), uses_in(shown(read("crates.txt"))), proofs, cases, edits, shown(read("docs", "PROVED.md")))


SELF = {
    "low/src/rows.rt": "ghost use Rattle.mt_low.specs.Rows.{count as many};\n\n/// How many.\npub fn count(rows: &[u64]) -> u64\n    ensures many { result ≡ many rows.now }\n{\n    rows.len()\n}\n\nimpl Drop for Rows {\n    fn drop(self) {\n        count(b'{')\n    }\n}\n",
    "mt_low/specs/Rows.antt": "-- Rows.\nabbrev pub count : ℕ → ℕ\ncount n = n\n",
    "mt_protocol/src/verb.rt": "fn entry() {\n    Verb::Show => &line_table::SHOW,\n    Verb::Stop => &line_table::STOP,\n}\n",
    "mt_protocol/src/line_table.rt": "static SHOW: Entry = Entry {\n    word: b\"show\",\n};\n\nstatic STOP: Entry = Entry {\n    word: b\"stop\",\n};\n",
    "mt_requests/src/request.rt": "fn read_by() {\n    Verb::Show => read_show(),\n    Verb::Stop => read_one_word(Request::Stop),\n}\n\nfn read_show() {\n    Request::Show\n}\n",
    "high/src/turn.rt": "use low::rows::{count};\n\nfn turn() {\n    match request {\n        Request::Show => shown(),\n        Request::Stop => {\n            stopped()\n        }\n    }\n}\n\nfn shown() {\n    count(rows)\n}\n\nfn stopped() {}\n",
    "mt_examples/src/lib.rt": "use low::rows::count;\n\nfn counted() {\n    count(1)\n}\n\n#[test]\nfn counts() {\n    counted()\n}\n",
}
SELF_EDITS = {"checks/wrong/low/none.edit": "file: src/rows.rt\nold: rows.len()\nnew: 0\nonly: rows::count\n"}
SELF_TOLD = {
    "function": "low::rows::count, crates/low/src/rows.rt:4",
    "clauses": "ensures many { result ≡ many rows.now }",
    "definitions": "count, crates/mt_low/specs/Rows.antt:2",
    "proof": "crates/low/proofs/rows/count/Answers.antt",
    "callers": "high::turn::shown, crates/high/src/turn.rt:12 low::rows::Rows::drop, crates/low/src/rows.rt:11",
    "tests": "mt_examples::counts, crates/mt_examples/src/lib.rt:8",
    "lines": "show",
    "cases": "1: one",
    "wrong bodies": "checks/wrong/low/none.edit, which its contract refuses",
    "promised": "docs/PROVED.md:3",
}


def self_test():
    """Whether what belongs to a function is found in texts made for it, and what belongs to none is not."""
    uses = {"low": [], "mt_protocol": [], "mt_requests": [], "high": ["low"], EXAMPLES: ["low"]}
    cases = {"one": "# One.\n> show 1\n", "two": "# Two.\n> stop\n"}
    made = Repository(SELF, uses, ["low/proofs/rows/count/Answers.antt"], cases, SELF_EDITS, "`count`\n# low\n`count`")
    [count] = made.told("low::rows::count")
    [dropped] = made.told("drop")
    found = {word: " ".join(count[word]) for word in SELF_TOLD}
    is_lonely = [*dropped["callers"], *dropped["tests"], *dropped["wrong bodies"]] == []
    left = Repository(SELF, uses, [*made.proofs, "low/proofs/rows/counted/Invariants.antt"], cases, SELF_EDITS, "").left_over()
    is_lonely = is_lonely and made.left_over() == [] and left == ["low/proofs/rows/counted/Invariants.antt"]
    return found == SELF_TOLD and is_lonely and len(made.told("low")) == 1 and made.told("none") == []


def main():
    parser = argparse.ArgumentParser(description=__doc__.split("\n", maxsplit=1)[0])
    parser.add_argument("--self-test", action="store_true")
    parser.add_argument("--left-over", action="store_true", help="the files of proofs that are of no function; the status is 1 where there is one")
    parser.add_argument("name", metavar="NAME", nargs="?", help="a crate, or the last parts of a function's path")
    words = parser.parse_args()
    if words.self_test:
        end_self_test("where.py", self_test())
    if words.left_over:
        left = repository().left_over()
        print(*(f"crates/{file}: a proof of no function" for file in left), f"{len(left)} files of proofs are of no function", sep="\n")
        sys.exit(1 if left else 0)
    if not words.name:
        parser.error("a crate or a function is wanted")
    told = repository().told(words.name)
    print("\n\n".join("\n".join(printed(one)) for one in told) if told else f"{words.name}: no crate and no function of that name")
    sys.exit(0 if told else 1)


if __name__ == "__main__":
    main()
