"""Crates that a line of crates.txt names, and that no file of its crate does."""
import re

COMMENTS = {".rt": r"//[^\n]*", ".edit": r"//[^\n]*", ".antt": r"(?m)(^|\s)--(\s.*|$)"}
# A path in code, and one in a contract, a definition or a proof.
NAMED = re.compile(r"(?<![\w:.])(\w+)::|\bRattle\.(\w+)")


def lines_of(text):
    """(a crate, those that its line names) for each line."""
    for line in text.splitlines():
        name, colon, rest = line.partition("#")[0].partition(":")
        if colon:
            yield name.split()[0], rest.split()


def named_below(folders):
    """All that code, definitions, proofs and edits name."""
    named = set()
    for file in sorted(file for folder in folders for file in folder.rglob("*") if file.suffix in COMMENTS):
        for one, other in NAMED.findall(re.sub(COMMENTS[file.suffix], "", file.read_text())):
            named.add(one or other)
    return named


def edges_unnamed(crates):
    """(a crate, those that its line alone names), in the order of crates.txt."""
    top = crates.resolve().parent
    for crate, below in lines_of((top / "crates.txt").read_text()):
        parts = [crates / crate / part for part in ("src", "specs", "proofs", "must-fail")]
        named = named_below([*parts, top / "tests" / "edits" / crate])
        unnamed = [name for name in below if name not in named]
        if unnamed:
            yield crate, unnamed
