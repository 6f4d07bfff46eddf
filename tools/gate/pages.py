"""The blocks of the pages, and the files that run them.

A file takes a block by a line `README: PAGE LANGUAGE NUMBER` in a comment, in whose place `filled` puts it: the number
counts the page's blocks of that language. A file that is compiled as it stands has a copy, between the lines
`README: PAGE` and `README: end`.
"""
import glob
import re
import sys
from dataclasses import dataclass, field

from gate.kit import TOP, text_of, written

FENCE = re.compile(r"^( *)```+(\w*)")
HEADING = re.compile(r"^#+ +(.*?) *#*$")
BINDINGS = "bindings/README.md"
# The files that take blocks, and the languages of the blocks that each kind of page has to have taken.
FILES = ("tests/**/*.rt.txt", "crates/*_tests/src/**/*.rt", "bindings/**/*.c", "bindings/**/*.rs", "bindings/go/*.go",
         "bindings/test", "bindings/node/test.js", "tools/gate/fleet_example.py")
HELD = {"README.md": ("c", "rs", "rust", "python"), BINDINGS: ("c", "rust", "js", "go"), "crates": ("rust",)}
TAKEN = re.compile(r"README: (\S+\.md) (\w+) (\d+)")
MARK = re.compile(r"^([ \t]*)(?://|#|/\*) README: (\S+\.md) (\w+) (\d+)(?: \*/)?\n", re.M)
COPY = re.compile(r"^[ \t]*// README: (\S+\.md)\n(.*?)^[ \t]*// README: end\n", re.M | re.S)


@dataclass
class Block:
    """A block of a page, in a language or in none (""); or a paragraph of its text, whose language is None."""

    page: str
    line: int
    language: str = None
    lines: list = field(default_factory=list)

    def title(self):
        return f"{self.page}:{self.line}"

    def text(self):
        return "".join(f"{it}\n" for it in self.lines)


def read(path):
    return text_of(f"{TOP}/{path}")


def parts(page):
    """The blocks of a page, and the paragraphs of its text."""
    part, indent = Block(page, 1), ""
    for number, line in enumerate(read(page).splitlines(), 1):
        fence, is_text = FENCE.match(line), part.language is None
        if not (fence or not line.strip() if is_text else fence and not fence[2]):
            part.lines.append(line.removeprefix(indent))
            continue
        if part.lines or not is_text:
            yield part
        opens = fence and is_text
        part, indent = (Block(page, number, fence[2]), fence[1]) if opens else (Block(page, number + 1), "")
    if part.language is not None:
        sys.exit(f"{part.title()}: the block has no end")
    if part.lines:
        yield part


def fenced(page, language=None):
    """The blocks of a page, all of them or those in a language."""
    return [it for it in parts(page) if it.language is not None and language in (None, it.language)]


def block(page, language, number):
    """The text of a block of a page."""
    found = fenced(page, language)
    if not 0 < number <= len(found):
        sys.exit(f"{page} has {len(found)} blocks of {language}, and no block {number}")
    return found[number - 1].text()


def filled(text):
    """A file's text with the blocks that it takes."""
    def put(mark):
        # (a text that goes on in the next line stands there as on the page)
        return re.sub(r"(?<!\\\n)^(?=.)", mark[1], block(mark[2], mark[3], int(mark[4])), flags=re.M)

    return MARK.sub(put, text)


def put(path, to):
    """Puts a file of the tree at another place, with the blocks that it takes, and returns that."""
    return written(to, filled(read(path)))


def stripped(text):
    return tuple(it.strip() for it in text.strip().splitlines())


def untaken():
    """The blocks that have to be run, and that no file takes; and copies that stand on no page."""
    texts = {it: read(it) for pattern in FILES for it in sorted(glob.glob(pattern, root_dir=TOP, recursive=True))}
    taken = {(page, language, int(number)) for it in texts.values() for page, language, number in TAKEN.findall(it)}
    copies = {(page, stripped(text)): path for path, it in texts.items() for page, text in COPY.findall(it)}
    for page in ["README.md", BINDINGS, *sorted(glob.glob("crates/*/README.md", root_dir=TOP))]:
        for language in HELD.get(page, HELD["crates"]):
            for number, it in enumerate(fenced(page, language), 1):
                if (page, language, number) not in taken and (page, stripped(it.text())) not in copies:
                    yield f"{it.title()}: nothing runs this block"
    for (page, lines), path in copies.items():
        if lines not in [stripped(it.text()) for it in fenced(page)]:
            yield f"{path}: a copy stands not in {page}: {lines[:1]}"
