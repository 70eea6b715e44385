"""The client in Python of docs/clients, a module: a part of server.py.

It reads the answers of each case's world by docs/man/mountd-lines.7, and its tables are those that `show` lists.
"""
import importlib.util
import os

from clients.pictures import world_of
from harness.runs import TOP, check
from harness.servers import Server
from sessions import cases

CLIENT = os.path.join(TOP, "docs", "clients", "tables.py")


def client():
    """The client, as a module."""
    found = importlib.util.spec_from_file_location("tables_of_posts", CLIENT)
    module = importlib.util.module_from_spec(found)
    found.loader.exec_module(module)
    return module


def kept_tables(module, server, lines):
    """The tables that the client keeps while another one asks these lines, and the first lines of its answers."""
    with module.connected(server.path) as stream, server.client() as other:
        first, *opening = module.ask(stream, "watch", "all")
        tables, told = {}, {first[:2]}
        module.apply(tables, opening)
        for at, line in enumerate(lines, 1):
            other.ask(line)
            first, *posts = module.ask(stream, *(["take", "1024"] if at < len(lines) else ["close"]))
            module.apply(tables, posts)
            told.add(first[:2])
        return tables, told


def shown_tables(module, server, spaces):
    """The rows of each namespace as `show` lists them, by their IDs."""
    with module.connected(server.path) as stream:
        answers = {space: module.ask(stream, "show", str(space)) for space in spaces}
        return {space: {int(row.split(" ")[0]): row for row in rows} for space, (_, *rows) in answers.items()}


def check_python(program):
    """The tables that the client keeps are those that are shown, in the world of each case."""
    module, rows = client(), 0
    for name in cases.names():
        case = cases.load(name)
        lines, _ = world_of(case)
        with Server(program, *case.arguments) as server:
            tables, told = kept_tables(module, server, lines)
            found = shown_tables(module, server, tables)
        check(f"docs/clients/tables.py in case {name}", told == {"ok"} and tables == found, f"{told}\n{tables}\n{found}")
        rows += sum(map(len, found.values()))
    check("docs/clients/tables.py keeps rows", rows > 0)
    print(f"{rows} rows kept by docs/clients/tables.py", flush=True)
