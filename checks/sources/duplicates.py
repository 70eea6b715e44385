"""Bodies and right sides that stand in two crates. A module, a part of words.py."""
import collections
import re

from sources.texts import bodies, crate_of, right_sides

# Bodies of fewer characters than this are left alone, and definitions with their types.
SHORTEST = 30
HANDED_ON = re.compile(r"\{[\w:.&*$]+\([\w:.,&*$]*\)\??\}")


def is_worth_a_line(body):
    """Whether a body is long enough to be said once, and no call of another that says it."""
    return len(body) >= SHORTEST and not HANDED_ON.fullmatch(body)


def twice_written(files):
    """A line for each body and each right side that stands in two crates."""
    found = []
    for parts, kind in ((bodies, ".rt"), (right_sides, ".antt")):
        places = collections.defaultdict(list)
        for path, text in sorted(files.items()):
            if path.endswith(kind):
                for name, body in parts(text):
                    if is_worth_a_line(body):
                        places[body].append(f"{name} in {path}")
        for body, there in places.items():
            if len({crate_of(place.split(" in ")[1]) for place in there}) > 1:
                found.append(f"{' and '.join(there)}: written {len(there)} times: {body[:60]}")
    return found
