"""Names that would deceive or run: on a page they are names. A module, for browser.py."""
import unicodedata

from browsers.rows import is_ignorable
from harness.runs import check

BAD = b"</script><script>owned=1</script>"
IMAGE = b"<img\\040src=x\\040onerror=owned=1>"

PATHS = (
    *(b"/<b>x<", b"/\x1b[31m", "/\u202eevil".encode(), "/a\u2066b\u2069".encode(), "/\u200b".encode(), "/\u00a0".encode(), "/\u2800".encode()),
    *(b"/x\\040in\\040namespace\\0409:\\040a\\040slave\\040copy\\040of\\0401", b"/t\\011n\\012b\\134x1b", b"/\\134040", "/\u0301e\u0301".encode()),
    *(("/z" + "\u0336" * 40).encode(), "/\u05d0\u05d1".encode(), "/\u05d0\u05d1/\u05d2".encode(), b"/__proto__", b"/constructor"),
    *(b"/'\"&amp;`${owned=1}`", "/\U000e0041\U000e0042".encode(), "/\u3164".encode(), "/\ufeff".encode(), "/\x7f\u0085".encode(), "/\u2028".encode()),
    *("/\ue000".encode(), b"/javascript:owned=1", "/\ufffd".encode(), "/\u00ad".encode(), b"/+", "/\u0627\u0644\u0639".encode(), "/\u09ac\u09be\u0982".encode()),
    *(b"/\xff\xfe", b"/\xed\xa0\x80", b"/" + b"L" * 255),
)

# The elements that a page makes.
ELEMENTS = set(
    "html head meta title style body header h1 button span label input nav ol li a details summary main p div ul section h2 small table tr th td"
    " bdi svg path footer script".split()
)


def session():
    """A session of such names."""
    turned = "\u202e".encode()
    lines = [
        b"# namespace 1 is " + BAD + b" \xe2\x80\xae\x1b[31m",
        b"# " + IMAGE + b" " + turned + b"evil \x1b[31m " + BAD,
        b"mkfs a " + IMAGE + b" \"'" + BAD + b"<!--",
        *(b"mkdir a " + path for path in PATHS),
        b"newns a",
        b"setattr 1 / prop=shared",
        b"copyns 1 less",
        b"mkfs </td>" + BAD + b" " + turned + b"txet \xc0\xaf\xf5",
        *(b"mount 1 a " + path for path in PATHS),
        b"mount 1 </td>" + BAD + b" " + PATHS[0],
        b"move 1 " + PATHS[0] + b" /" + turned + b"gnorw" + BAD,
        b"bind 1 " + PATHS[12] + b" " + PATHS[-1],
        b"umount 1 " + PATHS[2],
        b"x" * 8_192,
        b"\xff" * 20 + b"\x00\x1b]0;owned\x07",
        b"find 1 " + PATHS[3],
    ]
    return b"".join(line + b"\n" for line in lines)


# What is seen and heard of a page.
SEEN = "document.body.innerText + [...document.querySelectorAll('[title], [aria-label]')].map(e => e.title + e.ariaLabel).join() + document.title"
MADE = "[...document.querySelectorAll('*')].map(e => e.localName)"

# Scripts that are put in by hand, and what is asked of the network.
PUT_IN = (
    "(() => { try { const made = document.createElement('script'); made.append('owned = 1'); document.body.append(made) } catch {} })()",
    "(() => { try { document.body.insertAdjacentHTML('beforeend', '<img src=x onerror=\"owned=1\">') } catch {} })()",
    "(() => { const made = new Image(); made.src = 'http://127.0.0.1:9/x'; document.body.append(made) })()",
    "(() => { try { setTimeout('owned = 1') } catch {} })()",
)
FETCHED = "fetch('http://127.0.0.1:9/').then(() => 'got', () => 'refused')"


def is_unseen(character):
    """Whether a character has no place on a page: it is not seen, or turns others."""
    kind = unicodedata.category(character)[0]
    return (kind == "C" and character not in "\n\t") or (kind == "Z" and character != " ") or is_ignorable(character)


def check_inert(browser, path, count):
    """Nothing that stands in a name is an element, runs, turns a text or is unseen."""
    browser.open(path)
    browser.value("everything.checked || everything.click()")
    told, made = "", set()
    for number in range(count + 1):
        browser.value(f"show({number})")
        told += browser.value(SEEN)
        made |= {*browser.value(MADE)}
    check("no element of a name", made <= ELEMENTS, " ".join(sorted(made - ELEMENTS)))
    check("nothing of a name runs", browser.value("typeof owned") == "undefined" and browser.value("document.scripts.length") == 2)
    unseen = {character for character in told if is_unseen(character)}
    check("no character that is unseen or turns others", unseen == set(), " ".join(map(hex, map(ord, unseen))))
    attributes = "[...document.querySelectorAll('*')].every(e => [...e.attributes].every(a => !a.name.startsWith('on') && a.name != 'src'))"
    check("no attribute that runs", browser.value(attributes))
    check("links lead into the page", browser.value("[...document.links].every(a => /^#\\d+$/.test(a.getAttribute('href')))"))
    check("strangers' names: no complaint, and nothing asked for", browser.complaints() == [], repr(browser.complaints()[:2]))


def check_policy(browser, path):
    """The policy of a page refuses what would get in all the same."""
    browser.open(path)
    for text in PUT_IN:
        browser.value(text)
    fetched = browser.value(FETCHED)
    check("the policy keeps scripts out", browser.value("typeof owned") == "undefined")
    refused = any("Content Security Policy" in told for told in browser.complaints())
    check("the policy keeps the network out", fetched == "refused" and refused, repr(browser.complaints()))
