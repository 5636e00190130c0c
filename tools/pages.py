"""Reads pages of Markdown: their blocks, sections, tables, links and anchors."""
import functools
import re
from collections import Counter
from dataclasses import dataclass
from itertools import pairwise
from pathlib import Path

ROOT = Path(__file__).resolve().parent.parent
FENCE = re.compile(r" {0,3}(`{3,}|~{3,})\s*([^`\s]*)[^`]*")
HEADING = re.compile(r" {0,3}(#{1,6})\s+(.*?)(?:\s+#+)?\s*")
ITEM = re.compile(r" *(-|\d+\.) ")
CODE = re.compile(r"(?<!`)(`+)(?!`)(?:(?!\n\n).)+?(?<!`)\1(?!`)", re.DOTALL)
LINK = re.compile(r"\]\(\s*<?([^\s()<>]+)>?(?:\s+[\"'][^)]*)?\s*\)|^ {0,3}\[[^]]+\]:\s*<?([^\s<>]+)", re.MULTILINE)
ELSEWHERE = re.compile(r"[A-Za-z][\w+.-]*:|//")


@dataclass
class Block:
    """A block of a page: the line that it begins in, what it is (fence, heading, table, item or paragraph), and its lines."""

    line: int
    kind: str
    lines: list[str]

    def language(self):
        """The word behind an opening fence."""
        return FENCE.fullmatch(self.lines[0])[2]

    def body(self):
        """What stands between two fences."""
        return self.lines[1:-1] if len(self.lines) > 1 and ends_fence(self.lines[-1], self.lines[0]) else self.lines[1:]


def ends_fence(line, opening):
    fence = FENCE.fullmatch(line)
    return fence is not None and fence[1].startswith(FENCE.fullmatch(opening)[1]) and not fence[2]


def kind_of(line):
    """What a block is that begins so, or nothing for an empty line."""
    if FENCE.fullmatch(line):
        return "fence"
    if HEADING.fullmatch(line):
        return "heading"
    if line.startswith("|"):
        return "table"
    return "item" if ITEM.match(line) else "paragraph" if line else ""


def goes_on(block, line):
    """Whether a line belongs to the block that stands above it."""
    if block.kind == "fence":
        return len(block.lines) == 1 or not ends_fence(block.lines[-1], block.lines[0])
    if block.kind == "item":
        return line.startswith(" ") and kind_of(line) == "paragraph"
    return block.kind != "heading" and kind_of(line) == block.kind


def blocks_of(text):
    blocks = []
    for number, line in enumerate(text.split("\n"), 1):
        # What is left of the block above: an empty line ends each but a fence.
        above = blocks[-1] if blocks and number == blocks[-1].line + len(blocks[-1].lines) else None
        if above and goes_on(above, line):
            above.lines.append(line)
        elif kind := kind_of(line):
            blocks.append(Block(number, kind, [line]))
    return blocks


def fences_of(text, language):
    """What stands in the fenced blocks of a language."""
    return ["".join(f"{line}\n" for line in it.body()) for it in blocks_of(text) if it.kind == "fence" and it.language() == language]


def section(text, heading):
    """What stands under a heading of the second rank, or nothing."""
    return f"\n{text}".partition(f"\n## {heading}\n")[2].partition("\n## ")[0]


def cells(row):
    return [it.strip() for it in row.strip().strip("|").split("|")]


def rows_of(block):
    """The rows of a table, each as its cells, below its head."""
    return [cells(it) for it in block.lines[2:]]


def tables_below(text, comment):
    """Each table below a paragraph that a pattern matches, with the match."""
    for above, table in pairwise(blocks_of(text)):
        if table.kind == "table" and (found := comment.fullmatch("\n".join(above.lines))):
            yield found, table


def anchor_of(heading):
    """What GitHub makes of a heading: of its marks and signs only - and the _ of names are left, and spaces become -."""
    text = re.sub(r"!?\[([^]]*)\]\([^)]*\)", r"\1", heading)
    text = re.sub(r"(`[^`]*`)|(?<!\w)_+|_+(?!\w)", lambda it: it[1] or "", text)
    return re.sub(r"[^\w\- ]", "", text.lower()).replace(" ", "-")


@dataclass
class Document:
    """A page: its blocks, and its text with empty lines in the place of its fenced blocks."""

    path: Path
    blocks: list[Block]
    text: str

    def name(self):
        return self.path.relative_to(ROOT)

    def links(self):
        """Each link that does not lead elsewhere, with its line."""
        text = CODE.sub(lambda code: re.sub(r"[^\n]", " ", code[0]), self.text)
        for link in LINK.finditer(text):
            target = link[1] or link[2]
            if not ELSEWHERE.match(target):
                yield text.count("\n", 0, link.end()) + 1, target

    def anchors(self):
        """The anchors of its headings. Of those with the same text the second ends with -1, the third with -2, and so on."""
        seen, anchors = Counter(), set()
        for block in self.blocks:
            if block.kind == "heading":
                anchor = anchor_of(HEADING.fullmatch(block.lines[0])[2])
                anchors.add(f"{anchor}-{seen[anchor]}" if seen[anchor] else anchor)
                seen[anchor] += 1
        return anchors


@functools.cache
def read_document(path):
    text = path.read_text(encoding="utf-8")
    blocks, lines = blocks_of(text), text.split("\n")
    for it in blocks:
        if it.kind == "fence":
            lines[it.line - 1 : it.line - 1 + len(it.lines)] = [""] * len(it.lines)
    return Document(path, blocks, "\n".join(lines))
