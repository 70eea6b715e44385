"""At each step of a session the rows on its page are those that `show` answers. A module, for browser.py.

How a name is seen is written here again, of what docs/pages/template.html says of it.
"""
import contextlib
import random
import unicodedata

from clients.objects import text
from clients.played import parted
from harness import commands
from harness.protocol import row_of, unescaped, word_of
from harness.runs import Served, check, shown

# Characters that are not seen (Unicode, Default_Ignorable_Code_Point), from the first to the last of each run.
IGNORABLE = (
    *((0xAD, 0xAD), (0x34F, 0x34F), (0x61C, 0x61C), (0x115F, 0x1160), (0x17B4, 0x17B5), (0x180B, 0x180F), (0x200B, 0x200F)),
    *((0x202A, 0x202E), (0x2060, 0x206F), (0x3164, 0x3164), (0xFE00, 0xFE0F), (0xFEFF, 0xFEFF), (0xFFA0, 0xFFA0)),
    *((0xFFF0, 0xFFF8), (0x1BCA0, 0x1BCA3), (0x1D173, 0x1D17A), (0xE0000, 0xE0FFF)),
)

# How many marks may stand on a letter.
MOST_MARKS = 3

# In how many steps beside the rising ones the rows are looked at.
ANYWHERE = 12

# More changes than these are counted, and not shown.
ROOM = 400

READ = """(() => {
  const text = e => e.textContent;
  const fieldsOf = ({ cells }) => [Number(text(cells[1])), Number(cells[1].title.slice(3)), text(cells[2].lastChild), text(cells[3]),
    text(cells[4]), text(cells[5]), [...cells[6].childNodes].map(text).join(" "), cells[3].title.slice(7)];
  const rowsOf = card => [...card.querySelectorAll("tr:has(td):not(.umount)")].map(fieldsOf).sort((a, b) => a[0] - b[0]);
  return [...document.querySelectorAll("section")].map(card => [Number(card.dataset.space), rowsOf(card)]).filter(card => card[1].length);
})()"""

GONE = '[...document.querySelectorAll("tr.umount")].map(row => Number(row.cells[1].textContent))'


def is_ignorable(character):
    """Whether a character is not seen, whatever its category."""
    return any(first <= ord(character) <= last for first, last in IGNORABLE)


def seen(name):
    """How a name is seen."""
    told, marks, before = "", 0, ""
    for character in text(name):
        kind = unicodedata.category(character)[0]
        is_loose = kind == "M" and (before not in ("L", "N", "M") or marks >= MOST_MARKS)
        is_hidden = kind in "CZ" or is_ignorable(character) or character in "\u2800\ufffd\\" or is_loose
        marks, before = marks + 1 if kind == "M" else 0, kind
        if not is_hidden:
            told += character
        elif character in " \t\n\\":
            told += f"\\{ord(character):03o}"
        else:
            told += f"\\u{{{ord(character):x}}}"
    return told


def fields_of(row):
    """The fields of a row as they are seen."""
    root = unescaped(row.root)
    source = seen(unescaped(row.source)) + (f"[{seen(root)}]" if root != b"/" else "")
    tags = " ".join(map(text, row.tags))
    return [row.id, row.parent, seen(unescaped(row.point)), source, seen(unescaped(row.kind)), text(row.options), tags, text(row.device)]


def tables_of(program, lines):
    """The tables before the first line, and after each."""
    spaces, found = [], [{}]
    with contextlib.closing(Served(program)) as server:
        for line in lines:
            [[answer, *_]] = server.ask(line)
            if word_of(line) in commands.MAKING_NAMESPACES and answer.startswith(b"ok "):
                spaces.append(int(answer.split(b" ")[1]))
            answers = server.ask(*(b"show %d" % space for space in spaces))
            tables = {space: [fields_of(row_of(row)) for row in rows] for space, [first, *rows] in zip(spaces, answers) if first.startswith(b"ok ")}
            found.append(tables)
    return found


def on_page(browser, number):
    """The rows on a page at a step, by namespace."""
    return dict(browser.value(f"show({number}); {READ}"))


def check_all_rows(browser, name, tables, steps):
    """All rows, step by step, and then anywhere."""
    browser.value('byId("everything").checked || byId("everything").click()')
    order = [*range(len(tables)), *random.Random(1).sample(range(len(tables)), min(ANYWHERE, len(tables)))]
    wrong = [number for number in order if on_page(browser, number) != tables[number]]
    check(f"{name}: the rows of {len(tables)} steps", wrong == [], f"{wrong}: {[steps[number - 1]['line'] for number in wrong[:1]]}")


def is_well_shown(browser, number, step, table):
    """Whether the changed rows of a step are shown, with their ancestors, and those that went."""
    rows, changes = on_page(browser, number), step["posts"]
    there = {(space, row[0]) for space, some in rows.items() for row in some}
    changed = {(post["namespace"], post["id"]) for post in changes if post["event"] != "umount"}
    are_rooted = all(row[1] in {one[0] for one in some} for some in rows.values() for row in some)
    are_rows = all(row in table[space] for space, some in rows.items() for row in some)
    went = sorted(post["id"] for post in changes if post["event"] == "umount")
    return changed <= there and are_rooted and are_rows and sorted(browser.value(GONE)) == went


def check_changed_rows(browser, name, tables, steps):
    """With the changed rows alone: those that changed, their ancestors, and those that went."""
    browser.value('byId("everything").checked && byId("everything").click()')
    numbers = [number for number, step in enumerate(steps, 1) if step["line"] and len(step["posts"]) <= ROOM]
    wrong = [number for number in numbers if not is_well_shown(browser, number, steps[number - 1], tables[number])]
    check(f"{name}: the changed rows", wrong == [], f"{wrong}: {[steps[number - 1]['line'] for number in wrong[:1]]}")


def check_rows(browser, program, name, session, path, steps):
    """The rows of a session on its page at a path, which has these steps."""
    tables = tables_of(program, [line for line, _ in parted(session)[0]])
    browser.open(path)
    check_all_rows(browser, name, tables, steps)
    check_changed_rows(browser, name, tables, steps)
    complaints = browser.complaints()
    check(f"{name}: no complaint, and nothing asked for", complaints == [], shown(repr(complaints[:2]).encode()))
    return len(tables)
