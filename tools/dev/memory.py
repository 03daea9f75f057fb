"""Files that could answer want of memory without a refused request: they name the kit's error, or the evidence."""
import re

# What only the edge may name, and where it does. The kit's requests by `reserve` answer whether there is room, and give no error.
EDGE = "room/src/edge.rt"
WITNESS = "room/proofs/edge/NoRoom/refused/Answers.antt"
SEALED = {"AllocError": EDGE, "AllocFailed": EDGE, "NoRoom::refused": EDGE, "Refused.Witness": WITNESS}
COMMENTS = {".rt": r"//[^\n]*", ".antt": r"(?m)(^|\s)--(\s.*|$)"}


def files_of(crates):
    """The files of code, definitions and proofs, by their paths in the folder of crates."""
    for crate in sorted(folder for folder in crates.iterdir() if folder.is_dir()):
        for part in ("src", "specs", "proofs"):
            for file in sorted(file for file in (crate / part).rglob("*") if file.suffix in COMMENTS):
                yield file.relative_to(crates).as_posix(), file


def unasked(crates):
    """(a file, a word that only the edge may name) for each file beside the edge that names one."""
    for path, file in files_of(crates):
        text = re.sub(COMMENTS[file.suffix], "", file.read_text())
        for word, place in SEALED.items():
            if path != place and re.search(rf"(?<!\w){re.escape(word)}(?!\w)", text):
                yield path, word
