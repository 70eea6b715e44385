"""The functions of the crates, with what stands above, in and around each. A module, a part of where.py."""
import dataclasses
import re

from sources.texts import closing, crate_of, functions

# A comment, or a literal.
SPOKEN = re.compile(r"//[^\n]*|b?\"(?:[^\"\\]|\\.)*\"|b?'(?:[^'\\]|\\.)'", re.S)
FUNCTION = re.compile(r"^ *(?:pub(?:\([a-z]+\))? )?(?:const )?fn ", re.M)
BLOCK = re.compile(r"^(?:pub )?(impl|trait)\b([^;{]*)\{", re.M)
CLAUSE = re.compile(r"^\s*((?:requires|ensures|ghost|decreases)\b.*)$", re.M)
PARAMETERS = re.compile(r"<[^<>]*>")
# The body of a law, which has nothing in it.
EMPTY = re.compile(r"^( *)\{\}\n", re.M)


@dataclasses.dataclass(frozen=True)
class Function:
    """A function: where it stands, the type and the trait of its `impl`, the lines above it, its clauses and its body.

    The body is without comments and literals. A function without a body is one that a trait declares."""

    path: str
    line: int
    owner: str
    trait: str
    name: str
    head: str
    clauses: tuple[str, ...]
    body: str
    last: int

    @property
    def crate(self):
        return crate_of(self.path)

    @property
    def module(self):
        """The path of its module in its crate, or "" for the root."""
        inside = self.path.split("/src/")[1].removesuffix(".rt").replace("/", "::")
        return "" if inside in ("lib", "main") else inside

    @property
    def whole(self):
        """Its path, with its crate."""
        return "::".join(part for part in (self.crate, self.module, self.owner, self.name) if part)

    @property
    def is_public(self):
        return re.search(rf"^ *pub (?:const )?fn {self.name}\b", self.head, re.M) is not None

    @property
    def is_test(self):
        return "#[test]" in self.head


def plain_code(text):
    """A text of code with spaces in the place of comments and literals, whose braces open nothing."""
    return SPOKEN.sub(lambda found: re.sub(r"[^\n]", " ", found[0]), text)


def type_of(text):
    """The name of a type, without its references, parameters and path."""
    words = re.findall(r"\w+", re.sub(r"'\w+", "", text))
    return words[-1] if words else ""


def blocks_of(plain):
    """Where each `impl` and each trait of a text opens and closes, with its type and its trait."""
    for found in BLOCK.finditer(plain):
        head = found[2].partition(" where ")[0].partition("\nwhere")[0]
        while PARAMETERS.search(head):
            head = PARAMETERS.sub("", head)
        first, _, second = head.strip().partition(" for ")
        owner, trait = (second, first) if second else (first.partition(":")[0], "")
        yield found.end() - 1, closing(plain, found.end() - 1), type_of(owner), type_of(trait)


def head_of(text, start):
    """The comments and attributes right above the line in which a function begins, and that line."""
    lines = text[:start].split("\n")[:-1]
    first = len(lines)
    while first and lines[first - 1].strip() and not re.search(r"[{};]$", lines[first - 1]):
        first -= 1
    return "\n".join([*lines[first:], text[start:].partition("\n")[0]])


def clauses_of(contract):
    """The clauses of a contract, each in one line."""
    starts = [*(found.start(1) for found in CLAUSE.finditer(contract)), len(contract)]
    return tuple(" ".join(contract[start:end].split()) for start, end in zip(starts, starts[1:]))


def functions_in(path, text):
    """The functions of a file."""
    # The brace of an empty body closes in the next line, where it is looked for.
    plain = EMPTY.sub(r"\1{\n}", plain_code(text))
    blocks = list(blocks_of(plain))
    for name, named, start, end in functions(plain):
        begin = plain.rfind("\n", 0, named) + 1
        if FUNCTION.search(plain, named, start):
            # What a trait declares has no body of its own.
            start = end = plain.find(";", named)
        owner, trait = next(((of, its) for opened, closed, of, its in blocks if opened < named < closed), ("", ""))
        yield Function(
            path=path,
            line=text.count("\n", 0, begin) + 1,
            owner=owner,
            trait=trait,
            name=name,
            head=head_of(text, begin),
            clauses=clauses_of(text[named:start]),
            body=plain[start : end + 1],
            last=text.count("\n", 0, end) + 1,
        )
