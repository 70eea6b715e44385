"""The lines of a session, as the table of lines in the sources has them, and the commands among them that are alike."""
import collections
import re

from harness.runs import read, shown

# A row of the table: the word of a line, its arguments, the form of its answer, whether it changes tables, how a help
# writes it, and what it does.
Row = collections.namedtuple("Row", "word arguments form changes usage help")
ROW = re.compile(
    r'static \w+: Entry = Entry \{\s*word: b"(\w+)",\s*arguments: &\[(.*?)\],\s*form: Form::(\w+),\s*is_command: (\w+),'
    r'\s*refusals: [^"]*,\s*usage: "(.*?)",\s*help: "(.*?)",',
    re.S,
)
VERBS = re.compile(r"VERBS: \[Verb; (\d+)\]")


def read_table():
    """The rows of the table, each by its word, in the order of the help."""
    text, verbs = (shown(read("crates", "mt_protocol", "src", name)) for name in ("line_table.rt", "verb.rt"))
    rows = [
        Row(word.encode(), arguments.split(", ") if arguments else [], form, changes == "true", usage, does)
        for word, arguments, form, changes, usage, does in ROW.findall(text)
    ]
    if len(rows) != int(VERBS.search(verbs)[1]):
        raise SystemExit(f"{len(rows)} rows are read of the table of lines, which has others")
    return {row.word: row for row in rows}


TABLE = read_table()

# All words that begin a line.
LINES = tuple(TABLE)

# What stands behind each: labels, paths, numbers, what is watched, counts, the number of a command, `less`, `lock`, `rec`, `set=`, and the rest of the line.
LETTERS = {"Label": "L", "Path": "P", "Space": "N", "Scope": "W", "Count(1_024)": "T", "Count(1_048_576)": "F", "Count(u64::MAX)": "J", "Less": "?", "Lock": "!", "Recursive": "R", "Attributes": "=", "Setting": "*"}
FORMS = {word: re.sub(r"\*+", "*", "".join(LETTERS[name] for name in row.arguments)) for word, row in TABLE.items()}

# Those that make a world: the commands. Those that end a session or all.
CHANGING = tuple(word for word in LINES if TABLE[word].changes)
ENDING = tuple(word for word in LINES if TABLE[word].form == "Done" and word not in CHANGING)

# Commands that make a namespace, those of them that make a detached tree, and those that are answered by the number of what they make.
MAKING_TREES = b"opentree", b"newtree"
MAKING_NAMESPACES = b"newns", b"copyns", *MAKING_TREES
NUMBERED = tuple(word for word in CHANGING if TABLE[word].form == "Number")

# Commands that bring a mount to a place.
PLACING = b"mount", b"bind", b"rbind", b"move"

# Those that take posts away from a watcher, so that these would be lost where the answer is.
TAKING = tuple(word for word in LINES if TABLE[word].form == "Posts")
