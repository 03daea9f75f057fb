"""Sentences and rows of tables that stand in two pages, in the same words or nearly so."""
import collections
import dataclasses
import pathlib
import re

# A shorter piece says too little to be told twice. Two are alike where they share this much of their triples of words.
FEWEST_WORDS, SHARED = 8, 0.6
ENDS = re.compile(r"(?<=[.:;?])\s+(?=[A-Z`*\[(])")
ITEM = re.compile(r"^\s*(?:[-*]|\d+\.) ")


@dataclasses.dataclass
class Piece:
    page: pathlib.Path
    line: int
    shown: str
    words: tuple

    def triples(self):
        return {self.words[k:k + 3] for k in range(len(self.words) - 2)}


def words_of(text):
    plain = re.sub(r"\[([^\]]*)\]\([^)]*\)", r"\1", text).replace("\\|", "|")
    return tuple(re.findall(r"[^\s`*|,;:.()\"]+", plain.lower()))


def paragraphs(page):
    """(the number of its first line, its text) of each paragraph, item and row of a table, without blocks, headings and heads of tables."""
    lines = page.read_text().splitlines()
    held, first = [], 0
    for number, (line, below) in enumerate(zip([*lines, ""], [*lines[1:], "", ""]), 1):
        row, silent = line.startswith("|"), line.startswith(("#", "    ", "<!--", "!["))
        if held and (not line.strip() or row or silent or ITEM.match(line)):
            yield first, " ".join(held)
            held = []
        if row and not line.startswith("|--") and not below.startswith("|--"):
            yield number, line
        elif line.strip() and not row and not silent:
            first = first if held else number
            held.append(ITEM.sub("", line).strip())


def pieces_of(page):
    for number, text in paragraphs(page):
        for shown in [text] if text.startswith("|") else ENDS.split(text):
            words = words_of(shown)
            if len(words) >= FEWEST_WORDS:
                yield Piece(page, number, shown.strip("| "), words)


def groups_of(pages):
    """Pieces that are alike, where they stand in two pages or more: each with those that share most of their triples of words."""
    pieces = [piece for page in pages for piece in pieces_of(page)]
    by_triple = collections.defaultdict(set)
    for at, piece in enumerate(pieces):
        for triple in piece.triples():
            by_triple[triple].add(at)
    taken = set()
    for at, piece in enumerate(pieces):
        own = piece.triples()
        shared = collections.Counter(other for triple in own for other in by_triple[triple] if other > at and other not in taken)
        alike = [other for other, count in shared.items() if count >= SHARED * min(len(own), len(pieces[other].triples())) and pieces[other].page != piece.page]
        if alike and at not in taken:
            taken.update(alike)
            yield [piece, *(pieces[other] for other in sorted(alike))]


def pages_below(top):
    """All pages but those of crates and of tests, the list of changes, and the log."""
    found = [top / name for name in ("README.md", "CONTRIBUTING.md")] + sorted((top / "docs").glob("*.md")) + sorted((top / "examples").rglob("*.md"))
    return [page for page in found if page.is_file()]
