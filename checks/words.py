#!/usr/bin/env -S python3 -B
"""Says where one word has two meanings, where one thing is written twice, and what is brought in for nothing. A program of the gate.

    checks/words.py [--self-test]

It reads the definitions (specs/*.antt) and the code (src/*.rt) of all crates, and prints a line for each

(a) name that two public words of one crate bear in two files, of which a type's fields, variants and
    methods are none. A function and its definition bear one name: then its contract cites the definition.
    Each file of mt_examples has words of its own;
(b) body that two functions of different crates have, and right side that two definitions of different
    crates have. Comments, contracts, spaces and the names of parameters do not count; short bodies and
    those that hand on to one other call are left alone;
(c) public word that two crates have, each with a meaning of its own, but for those of KNOWN; and word of KNOWN of
    which that is so no more, or in other crates. `pub use` makes no word;
(d) name that a `ghost use` brings in and that nothing says in the block that it stands in: a body without a clause
    of its own says none.

The status is 0 where there is none. --self-test shows that each is found in texts made for it.
"""
import argparse
import sys

from harness.runs import end_self_test
from sources.duplicates import twice_written
from sources.meanings import twice_meant, twice_named
from sources.texts import read_all
from sources.uses import brought_for_nothing

# The words that had a meaning in each of these crates when this was first asked. It is to get shorter: a word that gets
# another name in one of them goes from here, and none comes.
KNOWN = """
change_of mt_events mt_requests
changed mt_floor mt_peers
is_alike mt_info mt_propagate
is_changed mt_events mt_peers
Item mt_lines mt_queue
left mt_peers mt_session
Line mt_lines mt_queue
may_go mt_peers mt_unmount
names mt_lists mt_peers
Watcher mt_desk mt_floor
"""

TWO_TEXTS = {
    "low/specs/Sizes.antt": "-- how many there are\nabbrev pub count : List ℕ → ℕ\ncount xs = length (filter (λ x. not (x == 0)) xs)\n",
    "low/specs/Parts.antt": "abbrev pub count : ℕ → ℕ\ncount n = n + 1\n",
    "high/specs/Rows.antt": "abbrev pub size_of : List ℕ → ℕ\nsize_of xs = length (filter (λ x. not (x == 0)) xs)\n",
    "low/src/sizes.rt": "ghost use Rattle.std.specs.Prelude.{◌≡◌, ◌+◌};\nghost use Rattle.std.specs.List.{sum};\n\nfn sum(xs: &[u64]) -> u64\n    ensures { result ≡ sum xs.now }\n{\n    // All of them.\n    xs.iter().fold(0, |all, x| all + x)\n}\n",
    "low/specs/Ones.antt": "abbrev pub one : ℕ\none = 1\n",
    "high/specs/Ones.antt": "abbrev pub one : ℕ\none = 1\n\nabbrev pub count : ℕ → ℕ\ncount n = n\n",
    "high/src/rows.rt": "ghost use Rattle.std.specs.Prelude.{◌≡◌, ◌+◌, length};\n\npub fn size_of(ys: &[u64]) -> u64 {\n    ys.iter()\n        .fold(0, |all, x| all + x)\n}\n",
}


def self_test():
    """Whether all that is twice in the two crates is found, and in one of them only what is twice there."""
    low = {path: text for path, text in TWO_TEXTS.items() if path.startswith("low")}
    finders = twice_named, twice_written, brought_for_nothing
    found = [[len(finder(files)) for files in (TWO_TEXTS, low)] for finder in finders]
    tables = "", "count high low", "count high low\nsize_of high low", "count high lower"
    return found == [[2, 1], [2, 0], [4, 1]] and [len(twice_meant(TWO_TEXTS, known)) for known in tables] == [1, 0, 1, 1]


def main():
    parser = argparse.ArgumentParser(description=__doc__.split("\n", maxsplit=1)[0])
    parser.add_argument("--self-test", action="store_true")
    if parser.parse_args().self_test:
        end_self_test("words.py", self_test())
    files = read_all()
    found = twice_named(files) + twice_written(files) + twice_meant(files, KNOWN) + brought_for_nothing(files)
    known = len(KNOWN.split("\n")) - 2
    print(*found, f"{len(files)} files, {len(found)} words twice named, things twice written or names brought in for nothing, {known} known", sep="\n")
    sys.exit(1 if found else 0)


if __name__ == "__main__":
    main()
