#!/usr/bin/env -S python3 -B
"""The pages that `mountctl page` prints, in a browser. A program of the gate.

Usage: checks/browser.py MOUNTD MOUNTCTL [--only WORD | --wrong | --large | --update]
       checks/browser.py --seal

At each step of some sessions the rows on the page are those that a server shows; keys, links, roles, words and looks are those
of docs/pages/template.html; and strangers' names are names. --only takes a word of PARTS. --wrong tries edits of the template
that have to fail, and --large a session of 300 steps in 61 namespaces, of which each is there within 100 ms on a machine that
does nothing else.

After a change of the template, --seal writes the hashes in its policy and the source of mountctl; and --update prints
docs/pages again, by a mountctl that was built since.

The browser is chromium. Where it is not there, it is installed if the environment says CI, and must be there then; else
nothing is checked, which is told as skipped.
"""
import argparse
import os
import shutil
import tempfile

from browsers import acts, strangers
from browsers.chromium import COMMAND, Browser, Fault
from browsers.edits import check_edits
from browsers.large import check_large
from browsers.rows import check_rows
from clients.played import PAGES, case_session, data_in, printed_page, random_session, stored_page
from documents.template import seal
from harness.runs import check, failures, is_there, read, write

# The cases whose sessions are played, and how many random ones.
CASES = "runc", "pivot-uncovers"
SESSIONS = 2


class Bench:
    """The programs, a browser, and the pages that were printed."""

    def __init__(self, words, browser, folder):
        self.program, self.mountctl, self.browser, self.folder = words.program, words.mountctl, browser, folder

    def path(self, session, name="page"):
        """The file of the page of a session."""
        path = os.path.join(self.folder, f"{name}.html")
        with open(path, "wb") as file:
            file.write(printed_page(self.mountctl, session)[1])
        return path

    def steps(self, path):
        """The steps on a page."""
        with open(path, "rb") as file:
            return data_in(file.read())["steps"]

    def check_rows(self, name, session):
        """How many steps of a session had their rows on its page."""
        path = self.path(session)
        return check_rows(self.browser, self.program, name, session, path, self.steps(path))


def stored(name):
    """The session of a page in docs/pages."""
    return read("docs", "pages", f"{name}.session")


def check_all_rows(bench):
    """Sessions of docs/pages, of cases, of names of every kind, and random ones."""
    sessions = {f"docs/pages/{name}": stored(name) for name in PAGES}
    sessions |= {f"case {name}": case_session(name) for name in CASES}
    sessions |= {f"random session {seed}": random_session(bench.program, f"browser {seed}") for seed in range(SESSIONS)}
    sessions["strangers' names"] = strangers.session()
    count = sum(bench.check_rows(name, session) for name, session in sessions.items())
    print(f"{count} steps of {len(sessions)} sessions", flush=True)


def check_acts(bench):
    """What the page does for whoever reads it."""
    path = bench.path(stored("namespaces"))
    steps = bench.steps(path)
    acts.check_keys(bench.browser, path, steps)
    acts.check_links(bench.browser, path, steps)
    acts.check_play(bench.browser, path)
    acts.check_roles(bench.browser, path, steps)
    acts.check_looks(bench.browser, path)
    acts.check_words(bench.browser, bench.path(acts.TOLD))


def check_strangers(bench):
    """Names that would deceive or run."""
    path = bench.path(strangers.session())
    strangers.check_inert(bench.browser, path, len(bench.steps(path)))
    strangers.check_policy(bench.browser, path)


PARTS = {"rows": check_all_rows, "acts": check_acts, "strangers": check_strangers}


def check_browser(words):
    """The parts that are asked for."""
    with Browser() as browser, tempfile.TemporaryDirectory() as folder:
        bench = Bench(words, browser, folder)
        if words.large:
            check_large(bench)
        elif words.wrong:
            check_edits(bench)
        for name, part in PARTS.items():
            if not words.large and not words.wrong and words.only in (None, name):
                try:
                    part(bench)
                except Fault as fault:
                    check(f"a browser, {name}", False, str(fault))


def update(mountctl):
    """Prints docs/pages."""
    for name in PAGES:
        write(stored_page(mountctl, name), "docs", "pages", f"{name}.html")


def main():
    parser = argparse.ArgumentParser(description=__doc__, formatter_class=argparse.RawDescriptionHelpFormatter)
    parser.add_argument("program", metavar="MOUNTD", nargs="?", type=os.path.abspath)
    parser.add_argument("mountctl", metavar="MOUNTCTL", nargs="?", type=os.path.abspath)
    only = parser.add_mutually_exclusive_group()
    only.add_argument("--only", choices=PARTS, metavar="WORD", help="this part alone")
    only.add_argument("--wrong", action="store_true", help="try edits that have to fail")
    only.add_argument("--large", action="store_true", help="time a large session")
    only.add_argument("--update", action="store_true", help="print docs/pages again")
    only.add_argument("--seal", action="store_true", help="write hashes and source of the template")
    words = parser.parse_args()
    if words.seal:
        seal()
        return
    if words.mountctl is None:
        parser.error("MOUNTD and MOUNTCTL are wanted")
    if words.update:
        update(words.mountctl)
        return
    if not is_there(COMMAND, COMMAND) and "CI" not in os.environ:
        print(f"skipped: {COMMAND} is not there")
        return
    check(f"{COMMAND} is there", shutil.which(COMMAND) is not None)
    if not failures:
        check_browser(words)
    if failures:
        raise SystemExit(f"checks of the pages in a browser failed: {len(failures)}")
    print("the pages do in a browser what is said of them")


if __name__ == "__main__":
    main()
