"""Words with two meanings: in two files of a crate, or in two crates. A module, a part of words.py."""
import collections
import re

from sources.texts import EXAMPLES, bodies, code_words, crate_of, right_sides, spec_words, without_comments, word


def is_cited(name, text):
    """Whether the contract of the public function of this name cites the definition of this name."""
    text = without_comments(text, "//")
    start = re.search(rf"^pub (?:const )?fn {name}\b", text, re.M)
    clauses = text[start.end() : text.find("\n{", start.end())] if start else ""
    return not start or bool(word(name).search(clauses))


def twice_named(files):
    """A line for each name that two files of one crate give to public words."""
    defined, built = collections.defaultdict(list), collections.defaultdict(list)
    for path, text in sorted(files.items()):
        if crate_of(path) != EXAMPLES:
            words, places = (spec_words, defined) if path.endswith(".antt") else (code_words, built)
            for name in sorted(words(text)):
                places[crate_of(path), name].append(path)
    twice = [(name, paths) for places in (defined, built) for (_, name), paths in places.items() if len(paths) > 1]
    for (crate, name), paths in built.items():
        if not all(is_cited(name, files[path]) for path in paths) and (crate, name) in defined:
            twice.append((name, defined[crate, name] + paths))
    return [f"{name}: one name, two words, in {' and '.join(paths)}" for name, paths in twice]


def in_two_crates(files):
    """The crates of each public word that more than one crate has, and not all with one meaning."""
    crates, meanings = collections.defaultdict(set), collections.defaultdict(set)
    for path, text in files.items():
        if crate_of(path) != EXAMPLES:
            words, parts = (spec_words, right_sides) if path.endswith(".antt") else (code_words, bodies)
            said = dict(parts(text))
            for name in words(text):
                crates[name].add(crate_of(path))
                meanings[name].add(said.get(name, path))
    return {name: there for name, there in crates.items() if len(there) > 1 and len(meanings[name]) > 1}


def twice_meant(files, known):
    """A line for each word that has a meaning in each of several crates, and is not known to have."""
    found = in_two_crates(files)
    known = {name: set(crates) for name, *crates in map(str.split, known.strip().splitlines())}
    names = sorted(name for name in {**found, **known} if found.get(name) != known.get(name))
    told = [[" and ".join(sorted(all_of.get(name, ()))) or "none" for all_of in (found, known)] for name in names]
    return [f"{name}: a meaning in each of {now}; KNOWN has {before}" for name, (now, before) in zip(names, told)]
