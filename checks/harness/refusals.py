"""The refusals of a server, as the table of refusals in the sources has them."""
import collections
import errno
import re

from harness.runs import read, shown

# A row of the table: the name of a refusal, what it says, and the errors that Linux has in its place, by their numbers.
Row = collections.namedtuple("Row", "name sentence errnos")
ROW = re.compile(r'static (\w+): Entry = Entry \{\s*sentence: "(.*?)",\s*linux: (?:Errors|Nothing)\((.*?)\),\s*look: ', re.S)
NAMED = re.compile(r"Fault::(\w+) => &refusal_table::(\w+),")
REFUSALS = re.compile(r"REFUSALS: \[Fault; (\d+)\] = \[(.*?)\];", re.S)


def read_table():
    """The rows of the table, each by its name, in the order of the pages."""
    table, text = (shown(read("crates", "mt_protocol", "src", name)) for name in ("refusal_table.rt", "refusal.rt"))
    number, listed = REFUSALS.search(text).groups()
    names = re.findall(r"Fault::(\w+)", listed)
    told = {entry: (sentence, linux) for entry, sentence, linux in ROW.findall(table)}
    rows = {
        name: Row(name, told[entry][0], {getattr(errno, word.upper()) for word in re.findall(r"errno: (\w+)", told[entry][1])})
        for name, entry in NAMED.findall(text)
    }
    if len(names) != int(number) or sorted(rows) != sorted(names):
        raise SystemExit(f"{len(rows)} rows are read of the table of refusals, which has others")
    return {name: rows[name] for name in names}


TABLE = read_table()

# All of them, in the order of the pages.
NAMES = tuple(TABLE)

# What a line may be refused for whose words have not the form that they should have.
OF_FORM = "BadLine", "TooLong", "BadPath"

# What any other line may be refused for, where no memory is refused and nothing is stopped.
OF_LINES = tuple(name for name in NAMES if name not in (*OF_FORM, "Stopped", "NoMemory"))

# Those that no script meets in Linux: it has no such error, or only where no path or memory is wanting.
NEVER_IN_LINUX = tuple(name for name in NAMES if not TABLE[name].errnos or name in OF_FORM)
