"""What a class sees: `mountctl session` and `mountctl play` in a window of tmux(1). A module, a part of server.py.

checks/screens/session is all that a window shows at the end of a session: what stands behind its prompts is typed, each line once
the prompt before it is there. In another window a case is played, where each Enter shows the next line and its answer. Where there
is no tmux it is said.
"""
import os
import shutil
import subprocess
import tempfile
import time

from harness.runs import MOST_SECONDS, check, difference, read
from sessions import cases

# How large a window is, and how long it is left alone between two looks, in seconds.
COLUMNS, ROWS, PAUSE = 100, 60, 0.1

# The case that is played.
PLAYED = "slide"


class Window:
    """A window in which a program runs."""

    def __init__(self, folder, program, *words):
        self.socket = os.path.join(folder, "tmux")
        # What it has shown stays to be seen once it has ended, with its status.
        command = f'{os.path.abspath(program)} {" ".join(words)}; echo "status $?"; exec sleep {2 * MOST_SECONDS}'
        self.call("-f", "/dev/null", "new-session", "-d", "-x", str(COLUMNS), "-y", str(ROWS), command)

    def call(self, *words):
        """What a command of tmux prints."""
        return subprocess.run(["tmux", "-u", "-S", self.socket, *words], stdout=subprocess.PIPE, check=True, timeout=MOST_SECONDS, cwd=cases.TOP, text=True).stdout

    def shown(self):
        """What the window shows, without spaces and empty lines at ends."""
        return "\n".join(line.rstrip() for line in self.call("capture-pane", "-p").split("\n")).rstrip("\n") + "\n"

    def shows(self, end):
        """What the window shows, once it ends so, or after all time."""
        last = time.monotonic() + MOST_SECONDS
        while not (found := self.shown()).endswith(end) and time.monotonic() < last:
            time.sleep(PAUSE)
        return found

    def types(self, text):
        """Types a text, and Enter behind it."""
        if text:
            self.call("send-keys", "-l", text)
        self.call("send-keys", "Enter")

    def close(self):
        """Ends the window, with what runs in it."""
        self.call("kill-server")


def seen(mountctl, words, keys):
    """What a window shows at the end, where these keys were pressed, each behind what has to be shown before it."""
    with tempfile.TemporaryDirectory() as folder:
        window = Window(folder, mountctl, *words)
        try:
            for before, text in keys:
                window.shows(before)
                window.types(text)
            return window.shows("\nstatus 0\n")
        finally:
            window.close()


def check_session(mountctl):
    """A session, typed line by line."""
    wanted = read("checks/screens", "session").decode()
    keys = [("\n>\n" if number else ">\n", line.removeprefix("> ")) for number, line in enumerate(line for line in wanted.split("\n") if line.startswith("> "))]
    found = seen(mountctl, ["session"], keys)
    check("a session in a window", found == wanted, difference(wanted.encode(), found.encode(), "session"))


def check_play(mountctl):
    """A transcript, of which each further line comes at a key."""
    text = read(cases.FOLDER, PLAYED).decode()
    first, *others = text.split("\n> ")
    parts = [first, *("> " + other for other in others)]
    # The comments above the first line come with it.
    parts = [parts[0] + "\n" + parts[1], *parts[2:]]
    count = len(others)
    wanted = "\n\n".join(parts) + f"# as told: {count} of {count} lines\nstatus 0\n"
    found = seen(mountctl, ["play", os.path.join(cases.FOLDER, PLAYED)], [(part.rstrip("\n") + "\n", "") for part in parts[:-1]])
    wanted = "\n".join(wanted.split("\n")[-ROWS - 1:])
    check("a transcript in a window", found == wanted, difference(wanted.encode(), found.encode(), PLAYED))


def check_screens(_program, mountctl):
    """All windows."""
    if shutil.which("tmux") is None:
        print("no tmux: no windows of a class")
        return
    check_session(mountctl)
    check_play(mountctl)
