"""Many lines: more than a client reads answers of at once, and as many commands as a server takes. A module, a part of server.py."""
import threading

from harness.runs import check, shown
from harness.servers import Server, send_input
from servers.stops import check_stopped, check_stopped_by
from sessions.limits import COMMANDS


def check_pipeline(program):
    lines = [b"mkfs f%d tmpfs none" % n for n in range(256)] + [b"find 1 /"] * 744
    with Server(program) as server, server.free() as client:
        client.send(*lines)
        found = [client.line() for _ in lines]
        wanted = [b"ok %d" % (n + 1) for n in range(256)] + [b"no NoNamespace"] * 744
        check("1,000 lines at once", found == wanted)
        check_stopped_by("1,000 lines at once", server, client)


def check_journal(program):
    """Behind the last command that a server takes each other one is refused as JournalFull, whatever it names."""
    begun = b"mkfs a tmpfs none\nnewns a\n" + b"setattr 1 /\n" * (COMMANDS - 2)
    full = b"mount 9 q /q\nsetattr 1 /\nsetattr 01 /\nshow 1\nquit\n"
    wanted = b"ok 1\nok 1\n" + b"ok\n" * (COMMANDS - 2)
    wanted += b"no JournalFull\nno JournalFull\nno BadLine\nok 1 1\n1 1 0:1 / / rw,relatime - tmpfs none rw\nok\n"
    with Server(program) as server, server.client() as client:
        sending = threading.Thread(target=send_input, args=(client, begun + full))
        sending.start()
        found = client.all()
        sending.join()
        check("a full journal", found == (wanted, True), shown(found[0][-200:]))
        check_stopped("a full journal", server)
