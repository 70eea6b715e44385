"""Which functions call which, by their names, and which lines of a session lead to one. A module, a part of where.py.

Names are all that is compared: a method is called where a crate that uses its crate calls one of its name, of whatever
type. So there may be callers too many, and none is left out but what a macro, a trait or a closure calls.
"""
import collections
import re

# What is called, as `path::name(`, `.name(` or `Type::name(`, or handed on by its name.
CALL = re.compile(r"(\.)?((?:\w+::)*)(\w+)(?:::<[^()]*?>)?\(")
HANDED_ON = re.compile(r"[(,] ?((?:\w+::)*)(\w+)(?=[,)])")
BOUND = r"\b(?:let|mut) {0}\b|\b{0}:|\|{0}\b|[(,] ?{0}\) ="
IMPORTED = re.compile(r"\buse ((?:\w+::)+)(?:\{([^}]*)\}|(\w+))", re.S)
# A pattern of an arm by the variants of what a line asks for, and what follows it.
ARM = re.compile(r"^( *)((?:\(|\| )?(?:Command|Request)::[^=;]*?) =>", re.M)
VARIANT = re.compile(r"\b(?:Command|Request)::(\w+)")
READ_BY = re.compile(r"Verb::(\w+) => ([^\n]*)")
# The row of each verb in the table of lines, and the word that a row has.
ROW = re.compile(r"Verb::(\w+) => &line_table::(\w+)")
WORD = re.compile(r"static (\w+): Entry = Entry \{\s*word: b\"(\w+)\"")


def verb_words(text):
    """The word of each verb, by the texts of the table of lines."""
    words = dict(WORD.findall(text))
    return {verb: words[row] for verb, row in ROW.findall(text)}


def imports(text):
    """The names that a file brings in, each with the last part of the path that it comes from."""
    found = {}
    for path, listed, one in IMPORTED.findall(text):
        for name in (listed or one).split(","):
            found[name.split(" as ")[0].strip()] = path.rstrip(":").split("::")[-1]
    return found


def split_by_arms(body):
    """A body without its arms by variants, and each of these: its variants and its text."""
    arms, kept, place = [], [], 0
    for found in ARM.finditer(body):
        if found.start() >= place:
            end = re.compile(rf"^{found[1]}(?! |\}})|^(?!{found[1]})", re.M).search(body, found.end())
            stop = end.start() if end else len(body)
            arms.append((set(VARIANT.findall(found[2])), body[found.end() : stop]))
            kept.append(body[place : found.start()])
            place = stop
    return "\n".join([*kept, body[place:]]), arms


def closure(starts, following):
    """These, and all that follow them, one after another."""
    reached, todo = set(), list(starts)
    while todo:
        it = todo.pop()
        if it not in reached:
            reached.add(it)
            todo += following(it)
    return reached


class Calls:
    """The calls in all functions of the crates."""

    def __init__(self, texts, all_functions, uses):
        self.functions = all_functions
        self.uses = uses
        self.imports = {path: imports(text) for path, text in texts.items()}
        self.by_name = collections.defaultdict(list)
        for it in all_functions:
            self.by_name[it.name].append(it)
        self.calls, self.arms, self.called_by = {}, {}, collections.defaultdict(set)
        for it in all_functions:
            rest, arms = split_by_arms(it.body)
            self.calls[it] = self.called(it, rest)
            self.arms[it] = [(variants, self.called(it, text)) for variants, text in arms]
            for other in self.calls[it].union(*(called for _, called in self.arms[it])):
                self.called_by[other].add(it)
        self.reached = {verb: self.led_to(variants) for verb, variants in self.requests()}
        # What leads to those: sessions, and the server.
        self.above = closure([it for it, arms in self.arms.items() if arms], self.called_by.__getitem__)

    def is_meant(self, caller, dot, path, it):
        """Whether a call in a function may be of this one, of its name."""
        last, module = path.rstrip(":").split("::")[-1], it.module.split("::")[-1]
        if it is caller or it.crate not in (caller.crate, *self.uses.get(caller.crate, ())):
            return False
        if it.owner:
            return bool(dot) or last in (it.owner, it.trait) and last != "" or last == "Self" and caller.owner == it.owner
        if path:
            return last == module
        return not dot and (it.path == caller.path or self.imports[caller.path].get(it.name) == module)

    def called(self, caller, text):
        """The functions that a text of this one calls or hands on."""
        found = [call.groups() for call in CALL.finditer(text)]
        own = caller.head + caller.body
        for path, name in HANDED_ON.findall(text):
            # A name that is bound there is a value.
            if name in self.by_name and (path or not re.search(BOUND.format(name), own)):
                found.append(("", path, name))
        return {it for dot, path, name in found for it in self.by_name.get(name, ()) if self.is_meant(caller, dot, path, it)}

    def callers(self, wanted):
        """The functions that call this one."""
        return self.called_by[wanted]

    def led_to(self, variants):
        """All functions to which the arms of these variants lead, and in none the arms of others."""
        starts = [it for it, arms in self.arms.items() if any(of & variants for of, _ in arms)]
        return closure(starts, lambda it: self.calls[it].union(*(called for of, called in self.arms[it] if of & variants)))

    def requests(self):
        """Each verb of a line, with the variants that its request has: of the functions that read the line."""
        for reader in (it for it in self.by_name["read_by"] if it.crate == "mt_requests"):
            for verb, call in READ_BY.findall(reader.body):
                read = closure(self.called(reader, call), lambda it: {other for other in self.calls[it] if other.path == reader.path})
                yield verb, {variant for text in [call, *(it.body for it in read)] for variant in VARIANT.findall(text)}

    def verbs_to(self, wanted):
        """The verbs of the lines whose request leads to this function: each one's where it stands above them all."""
        return [verb for verb, reached in self.reached.items() if wanted in reached or wanted in self.above]
