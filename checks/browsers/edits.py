"""Edits of the template that have to fail: by hand, for browser.py."""

from browsers import acts, strangers
from browsers.chromium import Fault
from browsers.rows import check_rows
from documents.template import PLACE, TEMPLATE, sealed
from harness.runs import failures, read, shown

# Lines behind the session of docs/pages/bubblewrap: mounts that move, change and go.
MORE = b"mount 1 stick /tmp\nsetattr 1 /tmp set=ro prop=private\nsetattr 1 / prop=private\nmove 1 /tmp /media\numount 1 /media\n"

# What is edited, and what has to fail then.
EDITS = (
    ("an unmount leaves the mount", 'if (post.event == "umount") table.delete(post.id);', "", "rows"),
    ("moves are not applied", "world.set(post.namespace, table.set(post.id, post));", 'world.set(post.namespace, post.event == "move" ? table : table.set(post.id, post));', "rows"),
    ("going back forgets to begin again", "world.clear();", "", "rows"),
    ("no ancestors", "id = parents.get(id)) found.add(id)", "id = 0) found.add(id)", "rows"),
    ("names as they are", "return text.replace(UNSEEN,", "return text.replace(/\\u0007/g,", "strangers"),
    ("no policy", '<meta http-equiv="Content-Security-Policy"', '<meta name="none"', "strangers"),
    ("Home goes to 1", 'event.key == "Home") go(0)', 'event.key == "Home") go(1)', "acts"),
    ("peers are slaves", 'to(post.master, "slave")', 'to(post.master, "peer")', "acts"),
    ("a far picture", "</footer>", '<img src="http://127.0.0.1:9/x"></footer>', "strangers"),
)


def filled(template, path):
    """The page at a path, with another template."""
    front, behind = shown(read(*TEMPLATE)).split(PLACE)
    with open(path, encoding="utf-8") as file:
        page = file.read()
    with open(path, "w", encoding="utf-8") as file:
        file.write(template.replace(PLACE, page[len(front) : len(page) - len(behind)]))


def look(bench, kind, template):
    """What a check finds of pages with a template."""
    session = {"rows": read("docs", "pages", "bubblewrap.session") + MORE, "acts": acts.TOLD, "strangers": strangers.session()}[kind]
    path = bench.path(session)
    steps = bench.steps(path)
    if template is not None:
        filled(template, path)
    if kind == "rows":
        check_rows(bench.browser, bench.program, kind, session, path, steps)
    elif kind == "acts":
        acts.check_words(bench.browser, path)
        acts.check_keys(bench.browser, path, steps)
    else:
        strangers.check_inert(bench.browser, path, len(steps))
        strangers.check_policy(bench.browser, path)


def fails(bench, kind, template):
    """Whether a check fails with a template, which is no failure of this run."""
    before = len(failures)
    try:
        look(bench, kind, template)
    except Fault:
        return True
    failed = len(failures) > before
    del failures[before:]
    return failed


def check_edits(bench):
    """Each edit fails, and the template as it is does not."""
    template = shown(read(*TEMPLATE))
    for kind in "rows", "acts", "strangers":
        if fails(bench, kind, None):
            failures.append(f"{kind} of the template as it is")
    for name, old, new, kind in EDITS:
        good = template.count(old) == 1 and fails(bench, kind, sealed(template.replace(old, new)))
        print(f"{'refused' if good else 'NOT REFUSED'}: {name}", flush=True)
        if not good:
            failures.append(name)
