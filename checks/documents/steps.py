"""What a document shows of a terminal: commands and what each prints, of which the first one starts a server. A module, for readme.py and pages.py."""
import os
import re
import time

# A command after `$ `, and what it prints.
STEP = re.compile(rb"(?m)^\$ (.*)\n((?:(?!\$ ).*\n)*)")

# How long the server may take to listen, and a command of a terminal to end, in seconds.
MOST_SECONDS = 30


def wait_for_socket(folder):
    """Waits until the server listens."""
    end = time.monotonic() + MOST_SECONDS
    while not any(name.endswith(".sock") for name in os.listdir(folder)) and time.monotonic() < end:
        time.sleep(0.01)
