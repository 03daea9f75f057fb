"""Runs of lines that stand in two crates, word for word."""
import collections
import re

# So many lines in a row, of code, contracts, definitions or proofs.
FEWEST_LINES = 10
LEFT_OUT = re.compile(r"--.*|//.*|(?:pub )?(?:ghost )?(?:use|mod)\b.*|[\W_]*")
OF_A_CRATE = re.compile(r"\bRattle\.\w+\.")


def lines_of(file):
    """(the number, the words) of each line that counts: no import, comment or lone bracket, and whatever the crate is called."""
    for number, line in enumerate(file.read_text().splitlines(), 1):
        words = " ".join(line.split())
        if not LEFT_OUT.fullmatch(words):
            yield number, OF_A_CRATE.sub("Rattle.", words)


def texts_below(crates):
    """The lines of each file of each crate."""
    for crate in sorted(path for path in crates.iterdir() if path.is_dir()):
        for part in ("src", "specs", "proofs"):
            for file in sorted((crate / part).rglob("*")):
                if file.suffix in (".rt", ".antt"):
                    yield crate.name, file, list(lines_of(file))


def runs_in(crates):
    """(how many lines, a file, its first line, another crate's file, its first line) of each run, the longest first."""
    texts = list(texts_below(crates))
    starts = collections.defaultdict(list)
    for text, (_, _, lines) in enumerate(texts):
        for at in range(len(lines) - FEWEST_LINES + 1):
            starts[tuple(words for _, words in lines[at:at + FEWEST_LINES])].append((text, at))
    together = collections.defaultdict(list)
    for places in starts.values():
        for one, at in places:
            for other, there in places:
                if one < other and texts[one][0] != texts[other][0]:
                    together[one, other, there - at].append(at)
    found = []
    for (one, other, apart), places in together.items():
        first, last = min(places), max(places)
        found.append((last - first + FEWEST_LINES, texts[one][1], texts[one][2][first][0], texts[other][1], texts[other][2][first + apart][0]))
    return sorted(found, reverse=True)
