"""The sessions of cases/ over a socket. A module, a part of server.py."""
import threading

from harness.runs import check, difference
from harness.servers import Server, send_input, stop_behind, until_it_rests
from sessions import cases


def check_cases(program):
    """Each case is answered over a socket as its file says, up to a `follow` that rests."""
    for name in cases.names():
        case = cases.load(name)
        text, wanted, rests = until_it_rests(case)
        with Server(program, *case.arguments) as server, server.client() as client:
            sender = threading.Thread(target=send_input, args=(client, text, rests))
            sender.start()
            if rests:
                with client.socket.makefile("rb") as output:
                    found, is_plain = stop_behind(server, wanted.count(b"\n"), output), True
                wanted += b"no Stopped\n"
            else:
                found, is_plain = client.all()
            sender.join()
            check(f"case {name} on a socket", found == wanted, difference(wanted, found, name))
            check(f"case {name} on a socket: a plain end", is_plain)
            if rests or b"stop" in case.requests():
                check(f"case {name} on a socket: its stop", server.ends() == (0, b""))
