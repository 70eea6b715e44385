#!/usr/bin/env -S python3 -B
"""Says which lemmas, definitions, laws and functions nothing cites. A program of the gate.

    checks/unused.py [--self-test]

It prints a line for each

(a) lemma or definition of specs/ and proofs/ to which no citation leads: from the code (its `ghost use` lines and its
    attributes), from an answer to a goal, from an example of mt_examples, or from a lemma of KNOWN. A name that two
    modules have is that of the module which the citing file takes it from. Where `search` finds a lemma, an answer or
    `using` has to cite it;
(b) lemma of KNOWN that is not there, or that is cited;
(c) law that docs/PROVED.md does not name. A law is a function of a laws.rt, and nothing has to call it: it is a
    promise, and PROVED.md is where the promises stand;
(d) function that the code of no crate says but mt_examples, and that docs/PROVED.md does not name. A name that several
    functions have is that of each; `main` and what an `impl` of a trait has are left alone.

The status is 0 where there is none. --self-test shows that each is found in texts made for it, and nothing else.
"""
import argparse
import collections
import glob
import os
import re
import sys

from harness.runs import TOP, end_self_test
from sources.texts import EXAMPLES, closing, crate_of, functions, without_comments
from sources.uses import CODE_USE, GHOST_USE as BROUGHT_IN, blanked

# Lemmas that nothing cites, which were there when the gate first asked. It is to get shorter: one that is dropped or cited
# goes from here, and none comes.
KNOWN = """
Rattle.mt_import.proofs.TreeLaws.next_root
Rattle.mt_import.proofs.TreeLaws.no_tree
Rattle.mt_import.proofs.TreeLaws.row_left
"""

USE = re.compile(r"^((?:unfoldable )?pub )?use (\S+?)\.\{([^}]*)\}", re.M)
GHOST_USE = re.compile(r"\bghost use (\S+?)\.\{([^}]*)\}")
BY_PATH = re.compile(r"\bcrate::((?:specs|proofs)(?:::\w+)*)::(\w+)")
ALIAS = re.compile(r"^use (\S+) as (\S+)", re.M)
# A declaration has a word in front of its name, or its type after it; an equation has neither.
DECLARED = re.compile(r"^ *(?:(?:pub|abbrev|unfoldable|record|data) )+(?:record |data )?([^\s(){},;.:]+)|^ *([^\s(){},;.:]+) :(?=\s|$)")
MODULE = re.compile(r"^ *module _ .*?\bwhere$", re.M | re.S)
TOKEN = re.compile(r"[^\s(){}\[\],;\"]+")
LAW = re.compile(r"^pub fn (\w+)\(\)$", re.M)
# A comment, or a literal.
SPOKEN = re.compile(r"//[^\n]*|b?\"(?:[^\"\\]|\\.)*\"|b?'(?:[^'\\]|\\.)'", re.S)
TRAIT_IMPL = re.compile(r"^impl\b[^{;]*? for [^{;]*\{", re.M)

Declared = collections.namedtuple("Declared", "line text")


def names_in(listed):
    """The names of a list in braces, each with what the file says for it."""
    parts = (part.strip().partition(" as ") for part in listed.split(",") if part.strip())
    return [(name, said or name) for name, _, said in parts]


def declarations(text):
    """The declarations of a file by name, each with its first line and its text, that of the modules around it included."""
    found, modules, current, waiting = {}, [(0, "")], None, ""
    text = MODULE.sub(lambda module: re.sub(r"\n *", " ", module[0]) + "\n" * module[0].count("\n"), without_comments(text, "--"))
    for number, line in enumerate(text.split("\n"), 1):
        indent = len(line) - len(line.lstrip())
        if not line.strip() or USE.match(line) or ALIAS.match(line) or line.startswith("pub mod "):
            continue
        if waiting and indent > modules[-1][0]:
            modules.append((indent, modules[-1][1] + waiting))
        waiting = ""
        while indent < modules[-1][0]:
            modules.pop()
        if MODULE.match(line):
            current, waiting = None, line
        elif indent == modules[-1][0] and (start := DECLARED.match(line)):
            current = start[1] or start[2]
            found.setdefault(current, Declared(number, modules[-1][1]))
        if current is not None:
            found[current] = Declared(found[current].line, f"{found[current].text}\n{line}")
    return found


def constructors(declared):
    """The variants that a data type declares."""
    return re.findall(r"^\s+(\S+) :", declared.text, re.M) if re.match(r"\s*(?:pub )?data ", declared.text.lstrip("\n")) else []


def said(text):
    """The words that a text says: a name after a module's alias with it, and no field of a value."""
    for token in TOKEN.findall(re.sub(r"\.(?=\s|$)", " ", text)):
        head, *rest = token.split(".")
        yield from ((head,) if not rest else (head, f"{head}.{rest[0]}"))


class Library:
    """The declarations of all files, and what each cites."""

    def __init__(self, texts):
        self.files = {module: declarations(text) for module, text in texts.items()}
        self.brought = {module: [(bool(pub), source, *pair) for pub, source, listed in USE.findall(text) for pair in names_in(listed)] for module, text in texts.items()}
        self.aliases = {module: dict((said, source) for source, said in ALIAS.findall(text)) for module, text in texts.items()}
        self.variants = {(module, variant): (module, name) for module, found in self.files.items() for name, it in found.items() for variant in constructors(it)}

    def find(self, module, name):
        """The declaration that a name of a module is, also of one that hands it on."""
        if name in self.files.get(module, ()):
            return module, name
        handed_on = [(source, there) for pub, source, there, here in self.brought.get(module, ()) if pub and here == name]
        if handed_on:
            return self.find(*handed_on[0])
        outer, _, data = module.rpartition(".")
        return self.variants.get((module, name)) or (self.variants.get((outer, name)) if data else None)

    def scope(self, module):
        """What the names of a file are: those brought in, and its own."""
        scope = {here: self.find(source, there) for _, source, there, here in self.brought[module]}
        scope.update({variant: home for (where, variant), home in self.variants.items() if where == module})
        scope.update({name: (module, name) for name in self.files[module]})
        for name in [name for name in scope if "◌" in name]:
            scope.update({part: scope[name] for part in name.split("◌") if part})
        return scope

    def cited_by(self, module):
        """What each declaration of a file cites."""
        scope, aliases = self.scope(module), self.aliases[module]
        for name, it in self.files[module].items():
            words = set(said(it.text))
            behind = {self.find(aliases[head], rest) for head, _, rest in (word.partition(".") for word in words) if head in aliases}
            yield name, ({scope[word] for word in words if scope.get(word)} | behind) - {None, (module, name)}


def uncited(texts, code, known=()):
    """The declarations that nothing leads to, each with its line."""
    library = Library(texts)
    cites = {(module, name): cited for module in texts for name, cited in library.cited_by(module)}
    todo = [key for key in cites if key[0].split(".")[1] == EXAMPLES or re.search(r"(?<!\S)\(?goal\.", library.files[key[0]][key[1]].text)]
    todo += [key for key in cites if ".".join(key) in known]
    for path, text in code.items():
        text = without_comments(text, "//")
        todo += [library.find(source, name) for source, listed in GHOST_USE.findall(text) for name, _ in names_in(listed)]
        todo += [library.find(f"Rattle.{crate_of(path)}.{there.replace('::', '.')}", name) for there, name in BY_PATH.findall(text)]
    reached = set()
    while todo:
        key = todo.pop()
        if key is not None and key not in reached:
            reached.add(key)
            todo += cites[key]
    return [(module, library.files[module][name].line, name) for module, name in cites if (module, name) not in reached]


def unknown(found, known):
    """A line for each lemma that is known to be cited by nothing, and is not there or is cited, given what nothing cites."""
    alone = {f"{module}.{name}" for module, _, name in found}
    return [f"{lemma}: of KNOWN, but not there, or cited" for lemma in known if lemma not in alone]


def unnamed_laws(code, named):
    """A line for each law that is not among these names."""
    laws = [(path, law) for path, text in sorted(code.items()) if path.endswith("/laws.rt") for law in LAW.findall(text)]
    return [f"{law}: a law that docs/PROVED.md does not name, in {path}" for path, law in laws if law not in named]


def plain_code(text):
    """A text of code with spaces in the place of comments and literals, whose braces open nothing."""
    return SPOKEN.sub(lambda found: re.sub(r"[^\n]", " ", found[0]), text)


def of_traits(text):
    """The places of a text that are in an `impl` of a trait."""
    opened = [found.end() - 1 for found in TRAIT_IMPL.finditer(text)]
    return [range(start, closing(text, start)) for start in opened]


def what_calls(text):
    """A text with spaces in the place of what calls nothing: what brings names in, and all of a function but its body."""
    for found in [*BROUGHT_IN.finditer(text), *CODE_USE.finditer(text)]:
        text = blanked(text, *found.span())
    for name, named, start, _ in list(functions(text)):
        text = blanked(text, named - len(name), start)
    return text


def uncalled(code, named):
    """A line for each function that no code says but that of examples, and that is not among these names."""
    said_by, found = collections.defaultdict(set), []
    texts = {path: plain_code(text) for path, text in sorted(code.items()) if crate_of(path) != EXAMPLES}
    for path, text in texts.items():
        bodies = [(start, end, (path, name)) for name, _, start, end in functions(text)]
        for spoken in re.finditer(r"\w+", what_calls(text)):
            said_by[spoken[0]].add(next((key for start, end, key in bodies if start < spoken.start() < end), path))
    for path, text in texts.items():
        traits = of_traits(text)
        for name, place, _, _ in functions(text):
            if not said_by[name] - {(path, name)} and name not in named | {"main"} and not any(place in inside for inside in traits):
                found.append(f"{name}: a function that nothing calls, in {path}")
    return found


def read(pattern):
    """The texts of these files, by their paths below crates/."""
    paths = sorted(glob.glob(os.path.join(TOP, "crates", "*", pattern), recursive=True))
    return {os.path.relpath(path, os.path.join(TOP, "crates")): open(path, encoding="utf-8").read() for path in paths}


TEXTS = {
    "Rattle.low.specs.Sizes": "abbrev pub size : ℕ → ℕ\nsize n = n\n\nabbrev pub twice : ℕ → ℕ\ntwice n = n\n",
    "Rattle.low.proofs.Laws": "use Rattle.low.specs.Sizes.{size}\n\nmodule _ (n : ℕ) where\n  pub used : size n ≡ n\n  used = refl\n\n  helper : ℕ\n  helper = n\n\n  pub lost : ℕ\n  lost = helper n\n",
    "Rattle.low.proofs.f.Answers": "use Rattle.low.proofs.Laws as laws\nuse Rattle.low.proofs.f.Goals as goal\n\npub returns : goal.returns\nreturns c = laws.used c.helper\n",
}
CODE = {
    "low/src/laws.rt": "ghost use Rattle.low.specs.Sizes.{size as many};\n\npub fn told()\n    ensures { many }\n{}\n\npub fn untold()\n    ensures { many }\n{}\n",
    "low/src/rows.rt": "use crate::rest::{dead};\n\nimpl Drop for Row {\n    fn drop(self) {\n        called(b'{');\n    }\n}\n\nfn called()\n    ensures { dead }\n{\n}\n\nfn dead(n: u64) -> u64\n    ensures { dead n }\n{\n    dead(n - 1)\n}\n\npub fn promised()\n{\n}\n",
    "mt_examples/src/lib.rt": "fn tests()\n{\n    dead(1)\n}\n",
}


def self_test():
    """Whether what nothing cites is found in texts made for it, and nothing else."""
    lost, helper = "Rattle.low.proofs.Laws.lost", "Rattle.low.proofs.Laws.helper"
    found = uncited(TEXTS, CODE)
    alone = [sorted(name for _, _, name in told) for told in (found, uncited(TEXTS, CODE, {lost}))]
    others = unknown(found, [lost, "Rattle.low.proofs.Laws.used"]) + unnamed_laws(CODE, {"told"}) + uncalled(CODE, {"promised"})
    return alone == [["helper", "lost", "twice"], ["twice"]] and [line.split(":")[0] for line in others] == ["Rattle.low.proofs.Laws.used", "untold", "dead"]


def main():
    parser = argparse.ArgumentParser(description=__doc__.split("\n", maxsplit=1)[0])
    parser.add_argument("--self-test", action="store_true")
    if parser.parse_args().self_test:
        end_self_test("unused.py", self_test())
    texts = {"Rattle." + path.removesuffix(".antt").replace("/", "."): text for kind in ("specs", "proofs") for path, text in read(f"{kind}/**/*.antt").items()}
    code = read("src/**/*.rt")
    with open(os.path.join(TOP, "docs", "PROVED.md"), encoding="utf-8") as file:
        named = set(re.findall(r"\w+", " ".join(re.findall(r"`([^`\n]+)`", file.read()))))
    known = KNOWN.split()
    found = [f"{name}: nothing cites it, in {module}, line {line}" for module, line, name in uncited(texts, code, known)]
    found += unknown(uncited(texts, code), known) + unnamed_laws(code, named) + uncalled(code, named)
    print(*found, f"{len(texts) + len(code)} files, {len(found)} lemmas, definitions, laws and functions that nothing cites, {len(known)} known", sep="\n")
    sys.exit(1 if found else 0)


if __name__ == "__main__":
    main()
