"""What a page does for whoever reads it: keys, links, roles, words, widths, colours and paper. A module, for browser.py."""
import base64
import time

from harness.runs import check

# Keys, each with its code and the step that it leads to from step 3, one after another, of a session of so many steps.
LEFT, UP, RIGHT, DOWN, HOME, END = (("ArrowLeft", 37), ("ArrowUp", 38), ("ArrowRight", 39), ("ArrowDown", 40), ("Home", 36), ("End", 35))
SPACE = " ", 32

# Places behind the name of a page that lead to no step of it.
NO_PLACES = "#x", "#-1", "#1e9", "#__proto__", "#%00"
LAST = "#99999999"

ROLES = "banner", "navigation", "main", "status", "table", "columnheader", "row", "cell", "list", "listitem", "link"

# How long a page plays before it goes on, at most, in seconds.
PAUSE = 7

NARROW = 400


def place(browser):
    """The step that is shown."""
    return int(browser.value('byId("where").textContent').split(" ")[0])


def check_keys(browser, path, steps):
    """Keys go from step to step, and the place in the link with them."""
    count = len(steps)
    browser.open(path, "#3")
    check("a link to a step", place(browser) == 3)
    for key, wanted in (RIGHT, 4), (LEFT, 3), (DOWN, 4), (UP, 3), (HOME, 0), (LEFT, 0), (END, count), (RIGHT, count):
        browser.press(*key)
        good = place(browser) == wanted and browser.value("location.hash") == f"#{wanted}"
        check(f"key {key[0]}", good, str(place(browser)))
    browser.value("go(0)")
    browser.press(*RIGHT, shift=True)
    loud = [number for number, step in enumerate(steps, 1) if step["posts"] or step.get("note") or not step["answer"].startswith("ok")]
    check("Shift goes over quiet steps", place(browser) == loud[0], str(place(browser)))


def check_links(browser, path, steps):
    """A place in a link that changes, and those that lead to no step."""
    browser.open(path, "#3")
    browser.value('new Promise(done => { addEventListener("hashchange", () => setTimeout(done)); location.hash = "#2" })')
    check("a link that changes", place(browser) == 2, str(place(browser)))
    current = browser.value('[...document.querySelectorAll("[aria-current=step]")].map(link => link.hash)')
    check("one current step", current == ["#2"], repr(current))
    for wrong in (*NO_PLACES, LAST):
        browser.open(path, wrong)
        wanted = len(steps) if wrong == LAST else 0
        check(f"a link to {wrong}", place(browser) == wanted and browser.complaints() == [], str(place(browser)))


def check_play(browser, path):
    """Space plays and pauses, and presses a button that has the focus."""
    browser.open(path)
    browser.press(*SPACE)
    check("Space plays", browser.value('byId("play").textContent') == "Pause")
    at, latest = place(browser), time.monotonic() + PAUSE
    while place(browser) == at and time.monotonic() < latest:
        time.sleep(0.1)
    check("a page that plays goes on", place(browser) > at, str(at))
    browser.press(*SPACE)
    check("Space pauses", browser.value('byId("play").textContent') == "Play")
    at = place(browser)
    browser.value('byId("next").focus()')
    browser.press(*SPACE)
    check("Space presses a button", place(browser) == at + 1 and browser.value('byId("play").textContent') == "Play")


def check_roles(browser, path, steps):
    """What a screen reader is told."""
    last = max(number for number, step in enumerate(steps, 1) if step["posts"])
    browser.open(path, f"#{last}")
    names = {}
    for node in browser.call("Accessibility.getFullAXTree")["nodes"]:
        if not node.get("ignored"):
            names.setdefault(node["role"]["value"], []).append(node.get("name", {}).get("value", ""))
    missing = [role for role in ROLES if role not in names]
    check("roles of a page", missing == [], " ".join(missing))
    check("buttons and links have names", all(name.strip() for name in names["button"] + names["link"]))
    status = browser.value('document.querySelector("[role=status]").textContent')
    check("the status tells the step", status == steps[last - 1]["line"] + steps[last - 1]["answer"], status)


def check_looks(browser, path):
    """Narrow windows, dark and light colours, paper, and nothing that moves by itself."""
    browser.call("Emulation.setDeviceMetricsOverride", width=NARROW, height=800, deviceScaleFactor=1, mobile=True)
    browser.open(path, LAST)
    widths = browser.value('[document.documentElement.scrollWidth, byId("spaces").parentElement.scrollWidth, byId("spaces").parentElement.clientWidth]')
    check(f"nothing is wider than {NARROW} pixels", widths[0] <= NARROW and widths[1] <= widths[2], repr(widths))
    browser.call("Emulation.clearDeviceMetricsOverride")
    for value, wanted in ("dark", "rgb(255, 255, 255)"), ("light", "rgb(0, 0, 0)"):
        browser.call("Emulation.setEmulatedMedia", features=[{"name": "prefers-color-scheme", "value": value}])
        check(f"{value} colours", browser.value("getComputedStyle(document.body).color") == wanted)
    browser.call("Emulation.setEmulatedMedia", features=[])
    check("nothing moves by itself", browser.value("document.getAnimations().length") == 0)
    paper = base64.b64decode(browser.call("Page.printToPDF", printBackground=False)["data"])
    sheets = paper.count(b"/Type /Page\n") + paper.count(b"/Type /Page ")
    check("a small step is one sheet of paper", sheets == 1, str(sheets))


# A session, of which the words of some steps are known.
TOLD = b"""# namespace 1 is host
# namespace 2 is container
mkfs disk ext4 /dev/sda2
mkfs usb vfat /dev/sdb1
mkdir disk /media
mkdir disk /media/usb
mkdir disk /tmp
newns disk
setattr 1 / prop=shared
copyns 1 less
# It comes into the container too.
mount 1 usb /media/usb
move 1 /media/usb /tmp
umount 1 /media/usb
"""


def words(browser):
    """What is said of the changes of a step."""
    return browser.value('[...document.querySelectorAll("#words li")].map(word => word.textContent)')


def check_words(browser, path):
    """The words of a mount, of a refusal and of an unmount, an arrow, a note, and a group in focus."""
    browser.open(path, "#9")
    wanted = ["+ 3 /media/usb in namespace 1 (host)", "+ 4 /media/usb in namespace 2 (container): a slave copy of 3"]
    check("the words of a mount", words(browser) == wanted, repr(words(browser)))
    arrows = browser.value('[...document.querySelectorAll("path")].map(path => path.getAttribute("class"))')
    check("the arrow of a mount", arrows == ["slave"], repr(arrows))
    check("the note of a mount", browser.value('byId("note").textContent') == "It comes into the container too.")
    browser.value("show(10)")
    told = browser.value('byId("answer").textContent + "|" + byId("reason").textContent')
    check("a refusal and what it says", told == "no SharedParent|The mount to be moved stands on a shared mount.", told)
    browser.value("show(11)")
    wanted = ["− 3 /media/usb in namespace 1 (host)", "− 4 /media/usb in namespace 2 (container): was a slave of 3"]
    check("the words of an unmount", words(browser) == wanted, repr(words(browser)))
    browser.value('document.querySelector(".group").focus()')
    lit = browser.value('[document.querySelectorAll(".lit").length, document.querySelectorAll("path").length]')
    check("a group in focus, with its arrow", lit == [2, 1], repr(lit))
