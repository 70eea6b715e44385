"""How long the steps of a large session take in a browser: by hand, for browser.py."""
from harness.runs import check

# How many namespaces, mounts in each, and steps.
SPACES, MOUNTS, STEPS = 61, 66, 300

# How long a step may take, in milliseconds, and of how many times the best counts.
MOST, TIMES = 100, 6

TIMED = """(() => { const times = []; for (const number of [%s]) { const start = performance.now(); show(number);
    document.body.getBoundingClientRect(); times.push(performance.now() - start) } return times })()"""


def session():
    """A session of as many steps."""
    lines = [b"mkfs a tmpfs none", *(b"mkdir a /d%d" % at for at in range(MOUNTS)), b"newns a", b"setattr 1 / prop=shared"]
    lines += [b"mount 1 a /d%d" % at for at in range(MOUNTS - 2)]
    lines += [b"copyns 1"] * (SPACES - 1)
    last = b"/d%d" % (MOUNTS - 1)
    while len(lines) < STEPS:
        lines += [b"mount 1 a " + last, b"umount 1 " + last]
    return b"".join(line + b"\n" for line in lines[:STEPS])


def check_large(bench):
    """The last steps, forward and back."""
    bench.browser.open(bench.path(session()))
    rising = ", ".join(map(str, range(STEPS - 24, STEPS + 1)))
    falling = ", ".join(map(str, range(STEPS, STEPS - 25, -1)))
    once = bench.browser.value(TIMED % ", ".join(map(str, range(1, STEPS + 1))))
    best = {name: [min(times) for times in zip(*(bench.browser.value(TIMED % order) for _ in range(TIMES)))] for name, order in (("forward", rising), ("back", falling))}
    print(f"each of {STEPS} steps once: {sum(once) / len(once):.0f} ms, at most {max(once):.0f}")
    for name, times in best.items():
        print(f"{name}, the best of {TIMES}: at most {max(times):.0f} ms")
        check(f"each step is there within {MOST} ms, {name}", max(times) < MOST, f"{max(times):.0f}")
