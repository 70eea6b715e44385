"""README.md's blocks of cases, and the input and the answers of the program's own example, are cases. A module, a part of program.py.

A fenced block directly after a line `<!-- case: NAME -->` is the case NAME without its comments.
"""
from harness.runs import check, difference, read, shown, write
from sessions import cases

# The case of which crates/mountd/stdin and stdout are the input and the answers.
EXAMPLE = "two-filesystems"
STREAMS = ("crates", "mountd")

CASE_BLOCK = cases.marked(b"case")


def block_of(name):
    return cases.load(name).text(commented=False)


def check_example(_program):
    """README.md's blocks of cases, and the files stdin and stdout of the program, are those cases."""
    blocks = CASE_BLOCK.findall(read("README.md"))
    check("README.md has a block <!-- case: NAME -->", blocks != [])
    for _, name, text, _ in blocks:
        name = shown(name)
        if name not in cases.names():
            check(f"case {name} of README.md is there", False)
            continue
        check(f"case {name} in README.md", text == block_of(name), difference(block_of(name), text, "README.md"))
    example = cases.load(EXAMPLE)
    for file, text in (("stdin", example.input()), ("stdout", example.output())):
        found = read(*STREAMS, file)
        check(f"crates/mountd/{file}", found == text, difference(text, found, file))


def update_example():
    """Writes these blocks and files from the cases."""
    text = CASE_BLOCK.sub(lambda it: it[1] + block_of(shown(it[2])) + it[4], read("README.md"))
    write(text, "README.md")
    example = cases.load(EXAMPLE)
    write(example.input(), *STREAMS, "stdin")
    write(example.output(), *STREAMS, "stdout")
