#!/usr/bin/env python3
"""A client of mountd(1), by the answers in mountd-lines(7): keeps the tables of all namespaces by the posts of a watcher.

Usage: tables.py SOCKET K

Follows K posts as they come, and prints the rows of each namespace as of the last of them.
"""
import socket
import sys

ESCAPES = str.maketrans({" ": "\\040", "\t": "\\011", "\n": "\\012", "\\": "\\134"})


def connected(path):
    with socket.socket(socket.AF_UNIX) as connection:
        connection.connect(path)
        return connection.makefile("rw", encoding="utf-8", errors="surrogateescape", newline="\n")


def next_line(stream):
    line = stream.readline()
    if not line.endswith("\n"):
        raise EOFError("the session has ended")
    return line[:-1]


def ask(stream, word, *words):
    """The lines of the answer to a line of these words."""
    stream.write(" ".join([word, *(word.translate(ESCAPES) for word in words)]) + "\n")
    stream.flush()
    lines = [next_line(stream)]
    while word == "follow" and not lines[-1].startswith(("ok ", "no ")):
        lines.append(next_line(stream))
    is_counted = word in ("show", "locks", "journal", "watch", "take", "close") and lines[0].startswith("ok ")
    return lines + [next_line(stream) for _ in range(int(lines[0].split(" ")[1]) if is_counted else 0)]


def apply(tables, lines):
    """Brings the tables, each of which has its rows by their IDs, to what `watch` found or to what posts tell."""
    for line in lines:
        word, _, rest = line.partition(" ")
        if word in ("space", "event"):
            table = tables.setdefault(int(rest.split(" ")[0]), {})
        elif word == "-":
            del table[int(rest)]
        else:
            row = rest if word == "=" else line
            table[int(row.split(" ")[0])] = row


def main():
    tables, stream = {}, connected(sys.argv[1])
    first, *opening = ask(stream, "watch", "all")
    *posts, last = ask(stream, "follow", sys.argv[2]) if first.startswith("ok") else [first]
    apply(tables, opening + posts)
    sys.stdout.reconfigure(errors="surrogateescape")
    for space, table in sorted(tables.items()):
        print(f"namespace {space}", *(table[number] for number in sorted(table)), sep="\n")
    sys.exit(last if last.startswith("no") else 0)


if __name__ == "__main__":
    main()
