"""docs/pages/template.html: the page that `mountctl page` fills. A module, for pages.py."""
import base64
import hashlib
import re

from harness.runs import check, read, shown, write

TEMPLATE = "docs", "pages", "template.html"
CONSTANT = "crates", "mt_render", "src", "page_template.rt"

# Where the data of a session stand in it.
PLACE = "@SESSION@"

# The most bytes of it.
MOST = 20 * 1024

SEAL = re.compile(r"(script|style)-src 'sha256-([^']*)'")


def seal_of(template, tag):
    """The hash of what an element holds, as a policy has it."""
    [inner] = re.findall(rf"(?s)<{tag}>(.*?)</{tag}>", template)
    return base64.b64encode(hashlib.sha256(inner.encode()).digest()).decode()


def sealed(template):
    """A template whose policy has the hashes of its style and its script."""
    return SEAL.sub(lambda found: f"{found[1]}-src 'sha256-{seal_of(template, found[1])}'", template)


def constant_of(template):
    """The source of the constant that a template is."""
    front, behind = template.split(PLACE)
    return (
        "//! The template of a page, docs/pages/template.html, in two parts: the data stand between them.\n\n"
        f'/// The template up to the data.\npub const BEFORE: &str = r##"{front}"##;\n\n'
        f'/// The template behind the data.\npub const BEHIND: &str = r##"{behind}"##;\n'
    )


def check_template():
    """The template has the hashes of its own, one place for the data, and nothing from outside; the client has it as it is."""
    template = shown(read(*TEMPLATE))
    check("the hashes in the template's policy", template == sealed(template), "checks/browser.py --seal writes them")
    check("one place for the data", template.count(PLACE) == 1 and '"##' not in template)
    check(f"the template has at most {MOST} bytes", len(template.encode()) <= MOST, str(len(template.encode())))
    check("the template asks for nothing from outside", re.findall(r"https?://[^\"]+", template) == ["http://www.w3.org/2000/svg"])
    check("the template makes no elements of texts", re.search(r"innerHTML|eval\(|document\.write|import\(", template) is None)
    check("the template of mountctl", shown(read(*CONSTANT)) == constant_of(template), "checks/browser.py --seal writes it")


def seal():
    """Writes the hashes into the template, and the template into the source of the client."""
    template = sealed(shown(read(*TEMPLATE)))
    write(template.encode(), *TEMPLATE)
    write(constant_of(template).encode(), *CONSTANT)
