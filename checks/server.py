#!/usr/bin/env -S python3 -B
"""The server on a socket, from outside: what no proof says of it. A program of the gate.

Usage: checks/server.py MOUNTD [MOUNTCTL] [--only WORD] [--seconds N | --draw]

A plain client speaks with servers that are started here, each in a folder of its own: the parts of servers/, and the client
in Python. The last one has 32 sessions at once for N seconds, 20 if not said. With MOUNTCTL that program is checked too: the
parts of clients/, and a quarter of the 32 sessions are its mirrors. --only takes the word of a part in PARTS or CLIENT_PARTS.

--draw checks nothing: it draws the pictures of docs/pictures again, by MOUNTCTL and dot(1).
"""
import argparse
import os
import subprocess
import time

from clients.answers import check_answers
from clients.crowds import check_crowds
from clients.foretold import check_foretold
from clients.helps import check_helps
from clients.hosts import check_hosts
from clients.imports import check_import
from clients.limits import check_limits
from clients.lines import check_reading
from clients.monitor import check_telling
from clients.mountctl import (
    check_client,
    check_closed,
    check_comments,
    check_refused,
    check_retold,
    check_scripts,
    check_statuses,
)
from clients.nodes import check_nodes
from clients.objects import check_objects
from clients.own_sessions import check_own_sessions
from clients.paged import check_paged
from clients.pictures import check_pictures, update_pictures
from clients.played import check_played
from clients.python import check_python
from clients.questions import check_questions
from clients.reasons import check_reasons
from clients.refusals import check_refusals
from clients.rooms import check_rooms
from clients.rootless import check_rootless
from clients.saves import check_saves
from clients.screens import check_screens
from clients.starts import check_starts
from clients.terminals import check_terminals
from clients.traces import check_traces
from clients.transcripts import check_transcripts
from clients.worlds import check_worlds
from clients.writes import check_writes
from harness.protocol import Broken
from harness.runs import check, failures
from servers import blocked, bounds, cases, connections, lines, losses, paths, stops
from servers.depth import check_deep
from servers.memory import check_wanting
from servers.owners import check_owners
from servers.soak import check_soak
from servers.turns import check_turns

# The parts of a server alone, each a check of MOUNTD.
PARTS = {
    "paths": paths.check_paths,
    "stale": paths.check_stale,
    "made": paths.check_made,
    "owners": check_owners,
    "accept": connections.check_accept,
    "descriptors": connections.check_descriptors,
    "idle": connections.check_idle,
    "blocked": blocked.check_blocked,
    "limit": connections.check_limit,
    "one session": connections.check_one_session,
    "journal": lines.check_journal,
    "cases": cases.check_cases,
    "pipeline": lines.check_pipeline,
    "stop": stops.check_stop,
    "cut off": stops.check_cut_off,
    "unread": stops.check_unread,
    "gone": losses.check_gone,
    "lag": losses.check_lag,
    "deep": check_deep,
    "turns": check_turns,
    "bounded": bounds.check_bounded,
    "many": connections.check_many,
    "signals": losses.check_signals,
    "wanting": check_wanting,
    "python": check_python,
}

# The parts of the other program, each a check of MOUNTD and MOUNTCTL.
CLIENT_PARTS = {
    "client": check_client,
    "statuses": check_statuses,
    "closed": check_closed,
    "comments": check_comments,
    "refused": check_refused,
    "answers": check_answers,
    "limits": check_limits,
    "writes": check_writes,
    "reading": check_reading,
    "reasons": check_reasons,
    "refusals": check_refusals,
    "starts": check_starts,
    "helps": check_helps,
    "terminals": check_terminals,
    "retold": check_retold,
    "pictures": check_pictures,
    "objects": check_objects,
    "telling": check_telling,
    "scripts": check_scripts,
    "import": check_import,
    "crowds": check_crowds,
    "worlds": check_worlds,
    "hosts": check_hosts,
    "rootless": check_rootless,
    "questions": check_questions,
    "played": check_played,
    "transcripts": check_transcripts,
    "own sessions": check_own_sessions,
    "screens": check_screens,
    "saves": check_saves,
    "foretold": check_foretold,
    "nodes": check_nodes,
    "rooms": check_rooms,
    "traces": check_traces,
    "paged": check_paged,
}


def parts_of(words):
    """The parts that are asked for, each a call without words."""
    parts = {name: (part, (words.program,)) for name, part in PARTS.items()}
    parts["soak"] = check_soak, (words.program, words.seconds, words.mountctl)
    if words.mountctl:
        parts |= {name: (part, (words.program, words.mountctl)) for name, part in CLIENT_PARTS.items()}
    return {words.only: parts[words.only]} if words.only else parts


def check_server(words):
    """All parts that are asked for. What a part does not get from a server is a failure, and the others follow."""
    for name, (part, programs) in parts_of(words).items():
        start = time.monotonic()
        try:
            part(*programs)
        except (Broken, OSError, subprocess.TimeoutExpired) as error:
            check(f"server, {name}", False, repr(error))
        print(f"server, {name}: {time.monotonic() - start:.1f} s", flush=True)


def main():
    parser = argparse.ArgumentParser(description=__doc__, formatter_class=argparse.RawDescriptionHelpFormatter)
    parser.add_argument("program", metavar="MOUNTD", type=os.path.abspath)
    parser.add_argument("mountctl", metavar="MOUNTCTL", nargs="?", type=os.path.abspath)
    parser.add_argument("--seconds", type=int, default=20, help="how long the soak takes")
    only = parser.add_mutually_exclusive_group()
    only.add_argument("--only", choices=[*PARTS, "soak", *CLIENT_PARTS], metavar="WORD", help="this part alone")
    only.add_argument("--draw", action="store_true", help="draw docs/pictures again")
    words = parser.parse_args()
    if words.draw:
        update_pictures(words.program, words.mountctl)
        return
    check_server(words)
    if failures:
        raise SystemExit(f"checks of the server failed: {len(failures)}")
    print("checks of the server passed")


if __name__ == "__main__":
    main()
