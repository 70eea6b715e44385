"""A browser without a window, which is told what to do by the DevTools protocol. A module, for all others here."""
import contextlib
import fcntl
import glob
import json
import os
import re
import shutil
import signal
import subprocess
import tempfile
import time

COMMAND = "chromium"

# How long an answer of the browser may take, and a page until it is there, in seconds.
MOST_SECONDS = 60

# What the browser asks of the network for a page by itself.
ASKED = re.compile(r"(file:///[^?]*\.html(#.*)?|about:blank)$")


class Fault(Exception):
    """The browser says that something went wrong, or says nothing."""


def pipe():
    """Both ends of a pipe, by descriptors that are neither 3 nor 4."""
    ends = os.pipe()
    above = [fcntl.fcntl(end, fcntl.F_DUPFD_CLOEXEC, 10) for end in ends]
    for end in ends:
        os.close(end)
    return above


class Browser:
    """A browser with one page. It reads from descriptor 3, and writes to descriptor 4."""

    def __init__(self):
        self.profile = tempfile.mkdtemp()
        words = [
            COMMAND,
            "--headless",
            "--no-sandbox",
            "--disable-gpu",
            "--remote-debugging-pipe",
            "--window-size=1500,900",
            f"--user-data-dir={self.profile}",
            "about:blank",
        ]
        theirs, to_it = pipe()
        from_it, its = pipe()
        script = f'exec "$@" 3<&{theirs} 4>&{its} {theirs}<&- {its}>&-'
        self.process = subprocess.Popen(
            ["bash", "-c", script, "bash", *words],
            pass_fds=(theirs, its),
            stdin=subprocess.DEVNULL,
            stdout=subprocess.DEVNULL,
            stderr=subprocess.DEVNULL,
            start_new_session=True,
        )
        os.close(theirs)
        os.close(its)
        self.to_it, self.from_it = os.fdopen(to_it, "wb"), os.fdopen(from_it, "rb")
        self.count, self.events, self.rest, self.page = 0, [], b"", None
        found = self.call("Target.getTargets")["targetInfos"]
        target = next(one["targetId"] for one in found if one["type"] == "page")
        self.page = self.call("Target.attachToTarget", targetId=target, flatten=True)["sessionId"]
        for domain in "Page", "Runtime", "Network", "Log", "DOM":
            self.call(f"{domain}.enable")
        self.call("Emulation.setFocusEmulationEnabled", enabled=True)

    def __enter__(self):
        return self

    def __exit__(self, *_):
        print(f"{self.spent():.0f} processor seconds in the browser", flush=True)
        os.killpg(self.process.pid, signal.SIGKILL)
        self.process.wait()
        self.to_it.close()
        self.from_it.close()
        shutil.rmtree(self.profile, ignore_errors=True)

    def spent(self):
        """The processor seconds of the browser and all that it has started."""
        ticks = 0
        for path in glob.glob("/proc/[0-9]*/stat"):
            with contextlib.suppress(OSError), open(path, encoding="utf-8", errors="replace") as file:
                # Behind the name: state, parent, group, session, and further on the times, also of children that have ended.
                words = file.read().rpartition(")")[2].split()
                ticks += sum(map(int, words[11:15])) if int(words[3]) == self.process.pid else 0
        return ticks / os.sysconf("SC_CLK_TCK")

    def message(self):
        """The next message, which a zero byte ends."""
        while b"\0" not in self.rest:
            more = os.read(self.from_it.fileno(), 1 << 20)
            if not more:
                raise Fault("the browser has ended")
            self.rest += more
        told, self.rest = self.rest.split(b"\0", 1)
        return json.loads(told)

    def call(self, method, **words):
        """What a call answers. Events that come before are kept."""
        self.count += 1
        told = {"id": self.count, "method": method, "params": words}
        if self.page is not None:
            told["sessionId"] = self.page
        self.to_it.write(json.dumps(told).encode() + b"\0")
        self.to_it.flush()
        while True:
            message = self.message()
            if message.get("id") != self.count:
                self.events.append(message)
            elif "error" in message:
                raise Fault(f"{method}: {message['error']}")
            else:
                return message["result"]

    def value(self, text):
        """The value of an expression on the page."""
        done = self.call("Runtime.evaluate", expression=text, returnByValue=True, awaitPromise=True)
        if "exceptionDetails" in done:
            raise Fault(json.dumps(done["exceptionDetails"])[:600])
        return done["result"].get("value")

    def open(self, path, place=""):
        """Opens a file, at a place in it."""
        self.call("Page.navigate", url="about:blank")
        self.events.clear()
        self.call("Page.navigate", url=f"file://{os.path.abspath(path)}{place}")
        latest = time.monotonic() + MOST_SECONDS
        while self.value("document.readyState + location.protocol") != "completefile:":
            if time.monotonic() > latest:
                raise Fault(f"{path} is not there")
            time.sleep(0.02)

    def press(self, key, code, shift=False):
        """Presses a key."""
        for kind in "keyDown", "keyUp":
            text = {"text": key} if key == " " and kind == "keyDown" else {}
            self.call(
                "Input.dispatchKeyEvent", type=kind, key=key, windowsVirtualKeyCode=code, modifiers=8 * shift, **text
            )

    def complaints(self):
        """What the console told since a page was opened, and what was asked of the network beside the page itself."""
        found = []
        for event in self.events:
            told = event.get("params", {})
            if event["method"] in ("Runtime.exceptionThrown", "Runtime.consoleAPICalled", "Log.entryAdded"):
                found.append(json.dumps(told)[:300])
            if event["method"] == "Network.requestWillBeSent" and not ASKED.match(told["request"]["url"]):
                found.append(f"network: {told['request']['url']}")
        return found
