"""The lists of refusals in the documents are those of the table of refusals. A module, a part of pages.py."""
import errno
import re

from harness.refusals import NAMES, NEVER_IN_LINUX, OF_FORM, TABLE
from harness.runs import check, read, shown
from kernels.differences import ERRNO, PIVOT_ERRNO, TREE_ERRNO

# An entry of the page: the name of a refusal, and what it says.
ENTRY = re.compile(r"(?m)^\.It Er (\w+)\n((?:(?!\.It |\.El).*\n)*)")

# A row of a table of docs/KERNEL.md: names of refusals, and the errors of Linux in their place.
PAIR = re.compile(r"(?m)^\| (`[A-Z][a-z].*?) \| (.*) \|$")


def check_list(name, found, wanted):
    """Notes a list that is not the one of the table, in its order."""
    check(name, list(found) == list(wanted), f"wanted: {' '.join(wanted)}\nfound: {' '.join(found)}")


def check_names():
    """The table has each refusal of the sources, and no other."""
    names = re.findall(r'=> b"(\w+)"', shown(read("crates", "mt_skel", "src", "fault.rt")))
    check_list("the refusals of the table", NAMES, names)


def sentence_of(text):
    """What an entry of the page says, as it is read."""
    # A literal has its text after its name, and a point that stands alone after a space.
    return re.sub(r"(?m)^\.Ql ", "", text).replace("\\&", "").replace("\n", " ").replace("/ ,", "/,").strip()


def check_page():
    """mountd-lines(7) has an entry for each refusal, with its sentence."""
    text = shown(read("docs", "man", "mountd-lines.7")).split(".Sh REFUSALS\n")[1].split("\n.Sh ")[0]
    found = {name: sentence_of(entry) for name, entry in ENTRY.findall(text)}
    check_list("the refusals of mountd-lines.7", found, NAMES)
    for name, sentence in found.items():
        check(f"what mountd-lines.7 says of {name}", sentence == TABLE[name].sentence, sentence)


def check_rules():
    """docs/RULES.md has a rule on each refusal, but for those of the form of a line, which mountd-lines(7) has."""
    text = shown(read("docs", "RULES.md"))
    lacking = [name for name in NAMES if name not in OF_FORM and not re.search(rf"`(?:no )?{name}`", text)]
    check("the refusals of RULES.md", lacking == [], " ".join(lacking))


def check_completion():
    """The completion offers each refusal."""
    words = re.search(r'_mountctl_refusals="(.*?)"', shown(read("docs", "completion", "mountctl.bash")), re.S)[1].split()
    check_list("the refusals of mountctl.bash", words, NAMES)


def check_kernel():
    """What docs/KERNEL.md says that Linux has in the place of refusals, and what the check beside the kernel takes, is what the table says."""
    wanted = {name: TABLE[name].errnos for name in NAMES if name not in NEVER_IN_LINUX and name != "NoMemory"}
    tables = ERRNO, PIVOT_ERRNO, TREE_ERRNO
    compared = {name: set().union(*(table.get(name, set()) for table in tables)) for name in set().union(*tables)}
    check("the errnos of kernels/differences.py", compared == wanted, f"{compared}\n{wanted}")
    text, found = shown(read("docs", "KERNEL.md")).split("\n## Refusals\n")[1].split("\n## ")[0], {}
    for names, errnos in PAIR.findall(text):
        for name in re.findall(r"`([A-Z][a-z]\w+)`", names):
            found.setdefault(name, set()).update(getattr(errno, word) for word in re.findall(r"`(E[A-Z]+)`", errnos))
    check("the errnos of KERNEL.md", found == wanted, f"{found}\n{wanted}")


def check_refusals():
    """All lists of refusals, beside the table."""
    check_names()
    check_page()
    check_rules()
    check_completion()
    check_kernel()
    print(f"{len(NAMES)} refusals of the table", flush=True)
