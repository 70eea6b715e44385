"""Sessions with each of their allocations refused in turn. A module, a part of program.py.

The proofs say that a refused growth leaves everything as it was, not where `NoMemory` may come from.
This says, for each allocation of the program in each of these sessions: either one request is answered
`no NoMemory`, and all other answers are those of the session without this request; or the program
ends with status 1 and `mountd: out of memory` on standard error, before any answer. A line that is
refused for its form, and `quit`, are never answered so. A session of which no allocation was refused
fails.
"""
import concurrent.futures
import os
import tempfile

from harness import commands
from harness.allocations import OUT_OF_MEMORY, Forking, Words
from harness.protocol import word_of
from harness.runs import answer_groups, check, run, shown
from sessions import cases

# The lines that may want memory; each is accepted in one of the sessions.
WORDS = [word for word in commands.LINES if word not in commands.ENDING]

# Runs with other arguments, which serve no session.
OTHER_WORDS = ["--help"], ["a", "b"], ["--frobnicate"], ["/"]

NO_MEMORY = [b"no NoMemory"]
FOUND_WITHOUT_MEMORY = [], [b"no BadLine"], [b"no TooLong"], [b"no NoWatcher"], [b"no WatcherOpen"]


class Session:
    """A case, its answers, and its answers without one of its requests, which are found when asked for."""

    def __init__(self, program, case):
        self.program = program
        self.lines = [turn.sent() for turn in case.turns]
        self.requests = case.requests()
        self.input = case.input()
        self.arguments = case.plain_arguments()
        self.plain = run(program, self.input, *self.arguments)
        self.groups = answer_groups(self.plain[1], self.requests)
        self.known, self.looked = {}, {}

    def without(self, left_out):
        """The answers where one request is answered NoMemory."""
        if left_out not in self.known:
            rest = [line for at, line in enumerate(self.lines) if at != left_out]
            requests = [request for at, request in enumerate(self.requests) if at != left_out]
            groups = answer_groups(run(self.program, b"".join(rest), *self.arguments)[1], requests)
            self.known[left_out] = [*groups[:left_out], NO_MEMORY, *groups[left_out:]]
        return self.known[left_out]

    def may_want_memory(self, at):
        """Whether memory can be missing for a request: not where its line is bad or asks for a watcher in vain, and
        not to quit or to stop."""
        return self.groups[at] not in FOUND_WITHOUT_MEMORY and self.requests[at] not in commands.ENDING

    def allows(self, *told):
        """Whether the session may go so where one allocation was refused: several of a request lead to the same."""
        if told not in self.looked:
            self.looked[told] = self.may_go(*told)
        return self.looked[told]

    def may_go(self, status, answers, complaint):
        if (status, answers, complaint) == OUT_OF_MEMORY:
            return True
        groups = answer_groups(answers, self.requests)
        refused = [at for at, group in enumerate(groups) if group == NO_MEMORY]
        if (status, complaint) != (0, b"") or len(refused) != 1:
            return False
        return groups == self.without(refused[0]) and self.may_want_memory(refused[0])


def refuse_arguments(program, refusing):
    """Refuses each allocation of runs with other arguments, and answers how many there were."""
    return sum(refusing.each(Words(program, words), f"a run with {' '.join(words)}") for words in OTHER_WORDS)


def check_words(sessions):
    """Each line that may want memory is accepted in one of the sessions."""
    accepted = set()
    for asked in sessions:
        for request, group in zip(asked.requests, asked.groups):
            if group and group[0].startswith(b"ok"):
                accepted.add(word_of(request))
    for word in WORDS:
        check(f"{shown(word)} in a session of which allocations are refused", word in accepted)


def check_memory(program):
    sessions = {name: Session(program, cases.load(name)) for name in cases.names()}
    with tempfile.TemporaryDirectory() as folder:
        refusing = Forking(folder)
        with concurrent.futures.ThreadPoolExecutor(os.cpu_count()) as pool:
            total = sum(pool.map(refusing.each, sessions.values(), sessions))
        others = refuse_arguments(program, refusing)
    check_words(sessions.values())
    print(f"{total} allocations of {len(sessions)} sessions refused in turn, and {others} with other arguments")
