"""What the cases of the tools share."""
import pathlib
import subprocess
import sys

ROOT = pathlib.Path(__file__).resolve().parent.parent.parent
TOOLS, EXAMPLES = ROOT / "tools", ROOT / "examples"


class Skipped(Exception):
    """A case that can't be tried here, and why."""


def tool(name, *words, status=0, folder=None):
    """What a tool prints on both outputs, when it ends with this status."""
    done = subprocess.run([sys.executable, str(TOOLS / name), *map(str, words)], cwd=folder, capture_output=True, text=True, timeout=300)
    assert done.returncode == status, f"{name} {words}: status {done.returncode}\n{done.stdout}{done.stderr}"
    return done.stdout, done.stderr


def held(folder, **files):
    """Writes files; `__` in a name stands for the dot."""
    for name, text in files.items():
        pathlib.Path(folder, name.replace("__", ".")).write_text(text)
