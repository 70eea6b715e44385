"""What stands in the files of the crates: public words, functions, bodies and right sides. A module, for the others here."""
import glob
import os
import re

from harness.runs import TOP

# Its files are examples, each with statements of its own.
EXAMPLES = "mt_examples"

PUBLIC_WORD = re.compile(r"^\s*(?:(?:abbrev|unfoldable) pub|pub (?:record|data|abbrev|unfoldable))\s+(\S+)", re.M)
PUBLIC_LAW = re.compile(r"^\s*pub (?!record\b|data\b|mod\b|use\b)(\S+) :", re.M)
PUBLIC_ITEM = re.compile(r"^pub (?:const fn|fn|struct|enum|trait|type|const|static) (\w+)", re.M)
DEFINED = re.compile(r"^\s*(?:abbrev|unfoldable)(?: pub)? (\S+) :")


def read_all():
    """The texts of all definitions and all code, by their paths below crates/."""
    crates = os.path.join(TOP, "crates")
    paths = glob.glob(os.path.join(crates, "*", "specs", "*.antt")) + glob.glob(os.path.join(crates, "*", "src", "**", "*.rt"), recursive=True)
    texts = {}
    for path in paths:
        with open(path, encoding="utf-8") as file:
            texts[os.path.relpath(path, crates)] = file.read()
    return texts


def crate_of(path):
    """The crate of a path below crates/."""
    return path.split("/")[0]


def without_comments(text, mark):
    """A text without what stands after this mark in its lines."""
    return re.sub(rf"{re.escape(mark)}.*", "", text)


def word(name):
    """What finds a name where it stands as a word."""
    return re.compile(rf"(?<![\w-]){re.escape(name)}(?![\w-])")


def fields_of_records(text):
    """The lines of a text that are the fields of a record, which are words of that record."""
    fields, record = set(), None
    for number, line in enumerate(text.split("\n")):
        indent = len(line) - len(line.lstrip())
        if line.strip() and record is not None and indent <= record:
            record = None
        if record is not None:
            fields.add(number)
        if re.match(r"\s*pub (record|data)\b.*\bwhere\s*$", line):
            record = indent
    return fields


def spec_words(text):
    """The public words of a file of definitions."""
    text = without_comments(text, "--")
    fields = fields_of_records(text)
    lines = [line for number, line in enumerate(text.split("\n")) if number not in fields]
    kept = "\n".join(lines)
    return set(PUBLIC_WORD.findall(kept)) | set(PUBLIC_LAW.findall(kept))


def code_words(text):
    """The public items of a file of code, but methods."""
    return set(PUBLIC_ITEM.findall(without_comments(text, "//")))


def closing(text, start):
    """Where the brace closes that opens at this place."""
    depth = 0
    for place in range(start, len(text)):
        depth += {"{": 1, "}": -1}.get(text[place], 0)
        if depth == 0:
            return place
    return len(text)


def unnamed(body, signature):
    """A body with the places of its parameters in place of their names."""
    for place, name in enumerate(re.findall(r"(\w+): ", signature)):
        body = re.sub(rf"(?<![\w.]){name}\b", f"${place}", body)
    return body


def functions(text):
    """The name of each function of a text without comments, where its name ends, and where its body opens and closes."""
    for found in re.finditer(r"^( *)(?:pub(?:\([a-z]+\))? )?(?:const )?fn (\w+)", text, re.M):
        # A body opens at the function's own indentation, or after the signature where there is no contract.
        start = re.compile(rf"^{found[1]}\{{$|^(?!.*\b(?:requires|ensures)\b).*[\w)>\]] \{{$", re.M).search(text, found.start())
        if start:
            yield found[2], found.end(), start.end() - 1, closing(text, start.end() - 1)


def bodies(text):
    """The name and the body of each function of a file of code, without its contract."""
    text = without_comments(text, "//")
    for name, named, start, end in functions(text):
        signature = re.split(r"\b(?:requires|ensures)\b", text[named:start])[0]
        yield name, re.sub(r"\s+", "", unnamed(text[start : end + 1], signature))


def equation(name, line):
    """A line of a definition with the places of its variables in place of their names."""
    if re.match(rf"\s*{re.escape(name)}(?![\w-])[^=]*=", line):
        for place, variable in enumerate(re.findall(r"(?<![\w-])[a-z]\w*(?![\w-])", line.split(" = ")[0].split(name, 1)[1])):
            line = word(variable).sub(f"${place}", line)
    return line


def right_sides(text):
    """The name of each definition of a file, and its type and equations without that name."""
    name, lines = None, []
    for line in [*without_comments(text, "--").split("\n"), ""]:
        found = DEFINED.match(line)
        if found or not line.strip():
            if name and lines:
                yield name, re.sub(r"\s+", " ", word(name).sub("_", " ".join(lines))).strip()
            name, lines = (found[1], []) if found else (None, [])
        if name:
            lines.append(equation(name, line))
