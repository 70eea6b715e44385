"""What is sent between a session and its client, by docs/man/mountd-lines.7: where answers end, refusals, tables, posts and rows.

docs/clients/tables.py reads the same by itself.
"""
import re
from typing import NamedTuple

# The longest line, in bytes without its line end.
LINE = 8_192

# First lines of answers: a count, or the number of what was made; and a count with the number of a table.
ONE_NUMBER = re.compile(rb"ok (\d+)")
COUNT_AND_NUMBER = re.compile(rb"ok (\d+) (\d+)")

# Those that count the lines after them, by the first word of the request.
COUNTED = {b"show": COUNT_AND_NUMBER, b"locks": ONE_NUMBER, b"journal": ONE_NUMBER, b"watch": ONE_NUMBER, b"take": ONE_NUMBER, b"close": ONE_NUMBER}

# The last line of the answer to `follow`.
FOLLOWED = re.compile(rb"ok (\d+)|no [A-Za-z]+")

# What begins the table of a namespace, and a post.
HEADS = {word: re.compile(rb"%b (\d+) (\d+) (\d+)" % word) for word in (b"space", b"event")}

# The bytes of a word that are escaped, each by a backslash and its octal digits.
ESCAPE = re.compile(rb"\\(040|011|012|134)")


class Broken(Exception):
    """An answer of another form than its request has."""


class Ended(Broken):
    """The end of a connection in the place of an answer."""


class Head(NamedTuple):
    """What begins a table, or a post: its namespace and number, and how many rows, or changes, stand after it."""

    space: int
    number: int
    count: int


class Row(NamedTuple):
    """A line of a table, by its fields."""

    id: int
    parent: int
    device: bytes
    root: bytes
    point: bytes
    options: bytes
    tags: tuple
    kind: bytes
    source: bytes
    super_options: bytes

    def propagation(self):
        """The tags as they are shown by themselves: `private` where there are none."""
        return b",".join(self.tags) or b"private"

    def numbered(self):
        """Each tag as its name and its number, or 0."""
        return [(name, int(number or 0)) for name, _, number in (tag.partition(b":") for tag in self.tags)]


def unescaped(word):
    """The bytes that a word of a line stands for."""
    return ESCAPE.sub(lambda found: bytes([int(found[1], 8)]), word)


def word_of(request):
    """The first word of a request."""
    return request.split(b" ", 1)[0]


def lines_behind(request, first):
    """How many lines stand after the first one of an answer."""
    form = COUNTED.get(word_of(request))
    counted = form.fullmatch(first) if form and first is not None else None
    return int(counted[1]) if counted else 0


def answer_to(request, take):
    """The lines of the answer to a request as `take` gives them, one by one. Nothing is taken after the end, which it gives as None."""
    lines = [take()]
    if word_of(request) == b"follow":
        while lines[-1] is not None and not FOLLOWED.fullmatch(lines[-1]):
            lines.append(take())
        return lines
    count = lines_behind(request, lines[0])
    while len(lines) <= count and lines[-1] is not None:
        lines.append(take())
    return lines


def table_number(first):
    """The number of the table that the first line of an answer to `show` tells."""
    return int(COUNT_AND_NUMBER.fullmatch(first)[2])


def told_behind(line):
    """How many posts the last line of the answer to `follow` counts, or nothing where it counts none."""
    found = FOLLOWED.fullmatch(line)
    return int(found[1]) if found and found[1] else None


def refusal_of(line):
    """What a line names that refuses, or nothing."""
    return line.removeprefix(b"no ") if line.startswith(b"no ") else None


def head_of(word, line):
    """What a line tells that begins a table, or a post, by this word."""
    found = HEADS[word].fullmatch(line)
    if not found:
        raise Broken(f"{line!r} in the place of {word!r}")
    return Head(*map(int, found.groups()))


def parts(word, lines):
    """The parts that these lines are, each begun by this word: its head, and the lines after it."""
    rest = iter(lines)
    for first in rest:
        head = head_of(word, first)
        behind = [line for _, line in zip(range(head.count), rest)]
        if len(behind) < head.count:
            raise Broken(f"{len(behind)} lines behind {first!r}")
        yield head, behind


def tables_in(lines):
    """The tables after the first line of an answer to `watch`: the head of each, and its rows."""
    return parts(b"space", lines)


def posts_in(lines):
    """The posts after the first line of an answer to `take` or `close`, or before the last of one to `follow`: the head of each, and its changes."""
    return parts(b"event", lines)


def id_of(row):
    """The ID of the mount of a row."""
    return int(row.split(b" ", 1)[0])


def row_of(line):
    """The fields of a line."""
    front, _, back = line.partition(b" - ")
    number, parent, device, root, point, options, *tags = front.split(b" ")
    return Row(int(number), int(parent), device, root, point, options, tuple(tags), *back.split(b" "))


def rows_of(text):
    """The rows of a table."""
    return [row_of(line) for line in text.split(b"\n") if line]
