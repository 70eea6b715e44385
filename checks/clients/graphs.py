"""Graphs of tables, which dot(1) reads: a module, for clients/pictures.py.

What a graph says is found by dot, and made here as well of what `show` answers.
"""
import collections
import json
import os
import re
import shutil
import subprocess
import tempfile
from typing import NamedTuple

from harness.runs import MOST_SECONDS, check, run, shown


class Graph(NamedTuple):
    """What a graph says."""

    labels: dict  # of each mount, by its namespace and number
    colours: dict  # of the outline of each mount in a peer group
    clusters: dict  # the mounts in the box of each namespace
    parents: list  # from where to where
    peers: list  # from where to where, in which colour
    slaves: list  # likewise
    labelled: list  # the groups whose numbers edges have as labels
    legend: dict  # of each peer group, its colour and how many members it has


# The colours of the first peer groups, by rising number, and that of all others.
COLOURS = (
    *("blue3", "green4", "darkorange2", "purple3", "turquoise4", "deeppink2", "goldenrod3", "red3"),
    *("dodgerblue2", "saddlebrown", "springgreen3", "magenta3", "olivedrab", "tomato", "navy", "maroon"),
    *("cadetblue4", "orchid4", "chocolate3", "darkslategray", "mediumpurple1", "palevioletred3", "khaki4", "skyblue3"),
)
NO_COLOUR = "gray50"

# A line of the legend.
LEGEND = re.compile(r'<tr><td border="2" color="(\w+)">(\d+)</td><td>(\d+)</td></tr>')


def colours_of(groups):
    """The colours of these groups."""
    return {group: COLOURS[at] if at < len(COLOURS) else NO_COLOUR for at, group in enumerate(sorted(groups))}


def visible(cell):
    """A cell in a label: what is no printable ASCII, and `"` and `&`, as a backslash and octal digits."""
    return "".join(chr(byte) if 32 <= byte <= 126 and byte not in b'"&' else f"\\{byte:03o}" for byte in cell)


def root_shown(mount):
    """The directory that a mount shows, in brackets, where that is not the root of its filesystem."""
    return b"" if mount.root == b"/" else b"[" + mount.root + b"]"


def cells_of(mount, before):
    """The cells of a mount, of which one has this before its target."""
    return b"%d" % mount.id, before + mount.point, mount.source + root_shown(mount), mount.kind, mount.options, mount.propagation()


def joined(names):
    """The members of a group as a ring: each and the next, and where there are three the last and the first."""
    pairs = list(zip(names, names[1:]))
    return pairs + [(names[-1], names[0])] if len(names) > 2 else pairs


def wanted_graph(tables):
    """The graph of these tables, each of which is a list of mounts."""
    mounts = {f"{space}.{mount.id}": mount for space, many in tables.items() for mount in many}
    clusters = {f"namespace {space}": [f"{space}.{mount.id}" for mount in many] for space, many in tables.items()}
    groups = collections.defaultdict(list)
    for name, mount in mounts.items():
        groups[dict(mount.numbered()).get(b"shared")].append(name)
    groups.pop(None, None)
    masters = [dict(mount.numbered())[b"master"] for mount in mounts.values() if b"master" in dict(mount.numbered())]
    colours = colours_of({*groups, *masters})
    legend = {group: (own, len(groups.get(group, []))) for group, own in colours.items()}
    rings = [group for group, names in groups.items() for _ in joined(names)]
    labelled = [group for group in (*masters, *rings) if colours[group] == NO_COLOUR]
    graph = Graph({}, {}, clusters, [], [], [], labelled, legend)
    for name, mount in mounts.items():
        number, target, _, kind, options, propagation = cells_of(mount, b"")
        graph.labels[name] = "\n".join(map(visible, (number + b" " + target, kind + root_shown(mount), options, propagation)))
        parent = f"{name.partition('.')[0]}.{mount.parent}"
        if parent in mounts and parent != name:
            graph.parents.append((parent, name))
        master = dict(mount.numbered()).get(b"master")
        if master:
            first = next(iter(groups.get(master, [])), f"group {master}")
            graph.slaves.append((first, name, colours[master]))
    for group, names in groups.items():
        graph.colours.update((name, colours[group]) for name in names)
        graph.peers.extend((*pair, colours[group]) for pair in joined(names))
    return graph


def unescaped(label):
    """The text of a label in DOT."""
    return re.sub(r"\\(.)", lambda found: "\n" if found[1] == "n" else found[1], label)


def drawn_graph(text):
    """The graph that dot has read."""
    read = json.loads(text)
    names = {thing["_gvid"]: thing["name"] for thing in read.get("objects", [])}
    graph = Graph({}, {}, {}, [], [], [], [], {})
    for thing in read.get("objects", []):
        if thing["name"].startswith("cluster_"):
            graph.clusters[thing["label"]] = [names[at] for at in thing.get("nodes", [])]
        elif thing["name"] == "legend":
            graph.legend.update((int(group), (own, int(count))) for own, group, count in LEGEND.findall(thing["label"]))
        elif not thing["name"].startswith("group "):
            graph.labels[thing["name"]] = unescaped(thing["label"])
            if "color" in thing:
                graph.colours[thing["name"]] = thing["color"]
    for edge in read.get("edges", []):
        pair = names[edge["tail"]], names[edge["head"]]
        graph.labelled.extend([int(edge["label"])] if edge.get("label") else [])
        if edge.get("style") == "bold":
            graph.peers.append((*pair, edge["color"]))
        elif edge.get("style") == "dashed":
            graph.slaves.append((*pair, edge["color"]))
        else:
            graph.parents.append(pair)
    return graph


def check_graph(name, mountctl, path, tables, *words):
    """The graph of these tables, each a list of mounts, which these words ask for, is read by dot, and says what they say."""
    status, text, complaint = run(mountctl, b"", path, "dot", *words)
    check(f"{name}: mountctl dot {words}: its end", (status, complaint) == (0, b""), f"{status}, {shown(complaint)}")
    if not shutil.which("dot"):
        return
    with tempfile.TemporaryDirectory() as folder:
        read, picture = os.path.join(folder, "read"), os.path.join(folder, "picture")
        words = ["dot", "-Tjson0", "-o", read, "-Tsvg", "-o", picture]
        done = subprocess.run(words, input=text, capture_output=True, timeout=MOST_SECONDS, check=False)
        ended = done.returncode, done.stdout, done.stderr
        check(f"{name}: dot accepts the graph", ended == (0, b"", b""), repr(ended))
        if ended == (0, b"", b""):
            with open(read, encoding="utf-8") as file:
                found = drawn_graph(file.read())
            for part, wanted in wanted_graph(tables)._asdict().items():
                told = getattr(found, part)
                told, wanted = (sorted(told), sorted(wanted)) if isinstance(wanted, list) else (told, wanted)
                check(f"{name}: the {part} of its graph", told == wanted, f"wanted {wanted}\nfound  {told}")
            check(f"{name}: dot draws the graph", os.path.getsize(picture) > 0)
