"""Names that a `ghost use` brings in for nothing. A module, a part of words.py."""
import re

from sources.texts import closing, functions, without_comments, word

GHOST_USE = re.compile(r"^ *(?:pub )?ghost use ([^;]*);", re.M)
CODE_USE = re.compile(r"^ *(?:pub(?:\([a-z]+\))? )?use [^;]*;", re.M)
GHOSTLY = re.compile(r"\b(?:requires|ensures|ghost|prove!)")


def blanked(text, start, end):
    """A text with spaces between two places, so that the others stay where they are."""
    return text[:start] + " " * (end - start) + text[end:]


def what_speaks(text):
    """A text without comments with spaces in the place of what says no ghost name: what brings names in, and bodies without a clause."""
    for found in [*GHOST_USE.finditer(text), *CODE_USE.finditer(text)]:
        text = blanked(text, *found.span())
    for _, _, start, end in functions(text):
        if not GHOSTLY.search(text, start, end):
            text = blanked(text, start + 1, end)
    return text


def block_around(text, place):
    """Where the innermost braces around a place open and close: the whole text where there are none."""
    around = [(found.start(), closing(text, found.start())) for found in re.finditer(r"\{", text[:place])]
    return next((block for block in reversed(around) if block[1] > place), (0, len(text)))


def brought_in(path):
    """The names that the path of a `ghost use` brings in, as they are said then."""
    listed = re.search(r"\{([^}]*)\}", path)
    return [part.split(" as ")[-1].strip().split(".")[-1] for part in (listed[1] if listed else path).split(",")]


def is_said(name, text):
    """Whether a text says a name: of an operator all its parts."""
    return all(word(part).search(text) if part[0].isalnum() else part in text for part in name.split("◌") if part)


def brought_for_nothing(files):
    """A line for each name that a `ghost use` brings in and that its block does not say."""
    found = []
    for path, text in sorted(files.items()):
        if path.endswith(".rt"):
            text = without_comments(text, "//")
            speaking = what_speaks(text)
            for use in GHOST_USE.finditer(text):
                start, end = block_around(text, use.start()) if use[0].startswith(" ") else (0, len(text))
                found += [f"{name}: brought in for nothing, in {path}" for name in brought_in(use[1]) if not is_said(name, speaking[start:end])]
    return found
