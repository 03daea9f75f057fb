"""Whether the links of the pages lead somewhere: files, sections of pages, and pictures."""
import pathlib
import re
import subprocess
import sys

ROOT = pathlib.Path(__file__).resolve().parent.parent.parent
LINK = re.compile(r"\[[^\]]*\]\(([^)\s]+)\)")
PATHS = re.compile(r"`((?:docs|examples|tests|tools|crates|bench)/[A-Za-z0-9_./-]*[A-Za-z0-9_])`")
# As in: `docs/files.md`, "The result file".
SECTION = re.compile(r'`(docs/[a-z/-]+\.md)`,\s+"([^"]+)"')


def text_without_blocks(page):
    return "\n".join(line for line in page.read_text().splitlines() if not line.startswith("    "))


def headings(page):
    return re.findall(r"^#+ (.+)$", text_without_blocks(page), re.M)


def anchor(heading):
    """The name that a browser jumps to, as the common hosts of repositories make it."""
    return re.sub(r"[^\w\- ]", "", heading.lower()).replace(" ", "-")


def link_faults(page):
    for target in LINK.findall(text_without_blocks(page)):
        if target.startswith(("http:", "https:")):
            continue
        name, _, at = target.partition("#")
        file = (page.parent / name).resolve() if name else page
        if not file.exists():
            yield f"{page.relative_to(ROOT)}: the link {target} leads nowhere"
        elif at and at not in map(anchor, headings(file)):
            yield f"{page.relative_to(ROOT)}: {target}: there is no such section"


def path_faults(page):
    text = page.read_text()
    for name in PATHS.findall(text):
        if "NAME" not in name and not list(ROOT.glob(name)) and not list(ROOT.glob(name + ".antt")):
            yield f"{page.relative_to(ROOT)}: there is no {name}"
    for name, section in SECTION.findall(text):
        if (ROOT / name).is_file() and " ".join(section.split()) not in headings(ROOT / name):
            yield f"{page.relative_to(ROOT)}: {name} has no section {section}"


def faults_of(page):
    return [*link_faults(page), *path_faults(page)]


def picture_faults(pages):
    """Each picture is what the script draws, in which nothing overflows, and some page shows it."""
    done = subprocess.run([sys.executable, str(ROOT / "tools" / "dev" / "pictures"), "--check"], capture_output=True, text=True)
    yield from done.stdout.splitlines()
    if done.returncode and not done.stdout:
        yield f"tools/dev/pictures: {done.stderr[-300:]}"
    shown = {(page.parent / target).resolve() for page in pages for target in LINK.findall(page.read_text())}
    for file in sorted((ROOT / "docs" / "pictures").glob("*.svg")):
        if file not in shown:
            yield f"{file.relative_to(ROOT)}: no page shows it"


def list_faults(pages):
    """docs/README.md lists each page of docs, once."""
    listed = LINK.findall((ROOT / "docs" / "README.md").read_text())
    for page in pages:
        if page.parent == ROOT / "docs" and page.name != "README.md" and listed.count(page.name) != 1:
            yield f"docs/README.md names {page.name} {listed.count(page.name)} times, and once is wanted"
