"""Cases of `make install` and `make dist`, in a small copy of the repository. The gate is played by a script."""
import os
import pathlib
import shutil
import stat
import subprocess
import sys
import tarfile

from common import ROOT, Skipped
import flow

GATE = '#!/bin/sh\ncase $1 in\nci) mkdir -p crates/fmeda_cli/out; cp "{program}" crates/fmeda_cli/out/fmeda_cli; {more}; echo "rt: fmeda_cli proved"; echo "{last}"; exit {status};;\nversion) echo a-kit;;\nesac\n'
PLACES = ("Makefile", "README.md", "CHANGELOG.md", ".gitignore", "crates.txt", "HANDLES", "docs", "tools", "reference", "examples/lockstep", "examples/bridge", "crates/fmeda_cli/src/help.rt")


def _copy(folder, program):
    """A repository of its own with the files that are installed."""
    for needed in ("make", "git", "tar"):
        if shutil.which(needed) is None:
            raise Skipped(f"{needed} is not installed")
    copy = pathlib.Path(folder, "copy")
    for place in PLACES:
        made = copy / place
        made.parent.mkdir(parents=True, exist_ok=True)
        if (ROOT / place).is_dir():
            shutil.copytree(ROOT / place, made, ignore=shutil.ignore_patterns("flow.json", "__pycache__", "*.pyc"))
        else:
            shutil.copy(ROOT / place, made)
    copy.joinpath("crates", "fmeda_cli").mkdir(parents=True, exist_ok=True)
    copy.joinpath("build").mkdir()
    shutil.copy(program, copy / "build" / "fmeda")
    return copy


def _committed(copy):
    who = ["-c", "user.name=test", "-c", "user.email=test@example.org"]
    for words in (["init", "-q"], ["add", "-A"], [*who, "commit", "-q", "-m", "all"]):
        subprocess.run(["git", *words], cwd=copy, check=True)


def _dist(copy, program, status=0, last="7 passed, 0 failed", more=":", ended=0):
    """What `make dist` prints, when `rt` is a script that plays the gate."""
    room = copy.parent / "bin"
    room.mkdir(exist_ok=True)
    room.joinpath("rt").write_text(GATE.format(program=program, last=last, more=more, status=ended))
    room.joinpath("rt").chmod(0o755)
    done = subprocess.run(["make", "--no-print-directory", "dist"], cwd=copy, env={**os.environ, "PATH": f"{room}:{os.environ['PATH']}"}, capture_output=True, text=True, timeout=300)
    assert bool(done.returncode) == bool(status), done.stdout + done.stderr
    return done.stdout + done.stderr


def _used(installed, folder):
    """The tools as they were installed do the small design of the flow, by the program that was installed with them."""
    used = pathlib.Path(folder, "used")
    used.mkdir()
    flow._design(used)
    environment = {**os.environ, "PATH": f"{installed / 'bin'}:/usr/bin:/bin:{pathlib.Path(sys.executable).parent}"}
    done = subprocess.run(["fmeda-flow", "flow.ini"], cwd=used, env=environment, capture_output=True, text=True, timeout=300)
    assert not done.returncode and used.joinpath("flow", "report.txt").read_text().endswith(flow.METRICS), done.stdout + done.stderr
    assert "\nfmeda check design.blif" in done.stdout and "share/fmeda/tools/page" in done.stdout, done.stdout
    held = installed / "share" / "fmeda"
    done = subprocess.run(["bash", "-e", "-c", "cd examples/lockstep; ../../build/fmeda check design.blif workload.csv rates.csv points.csv"], cwd=held, capture_output=True, text=True)
    assert done.stdout.startswith("refused: part main has a transient rate"), done.stdout + done.stderr
    for tool in ("chip", "faults", "flow", "golden", "manifest", "page", "patterns", "rates", "ungate", "vcd2workload", "waves"):
        subprocess.run([f"fmeda-{tool}", "--help"], env=environment, check=True, stdout=subprocess.DEVNULL)


def what_make_installs(folder, program):
    copy = _copy(folder, program)
    place = pathlib.Path(folder, "place")
    copy.joinpath("examples", "lockstep", "flow").mkdir()
    copy.joinpath("examples", "lockstep", "result").write_text("rows\n")
    subprocess.run(["make", "-s", "-o", "build/fmeda", "install", f"DESTDIR={place}", "PREFIX=/usr"], cwd=copy, check=True, stdout=subprocess.DEVNULL)
    installed = place / "usr"
    for name in ("bin/fmeda", "share/man/man1/fmeda.1", "share/bash-completion/completions/fmeda", "share/zsh/site-functions/_fmeda", "share/fmeda/README.md",
                 "share/fmeda/docs/before-you-believe.md", "share/fmeda/tools/page.css", "share/fmeda/examples/bridge/async_reset.v"):
        assert (installed / name).is_file(), name
    for name in ("examples/lockstep/flow", "examples/lockstep/result", "tools/dev/survey", "tools/dev/unproved"):
        assert not (installed / "share" / "fmeda" / name).exists(), name
    assert installed.joinpath("bin", "fmeda").read_bytes() == pathlib.Path(program).read_bytes()
    _used(installed, folder)


def an_archive_of_a_release(folder, program):
    copy = _copy(folder, program)
    _committed(copy)
    said = _dist(copy, program)
    commit = subprocess.run(["git", "rev-parse", "HEAD"], cwd=copy, check=True, capture_output=True, text=True).stdout.strip()
    archive = copy / "build" / f"fmeda-1.0.0-{commit[:12]}.tar.gz"
    first = archive.read_bytes()
    assert f"build/{archive.name} " in said.splitlines()[-1], said
    with tarfile.open(archive) as packed:
        assert all(entry.name.startswith(f"fmeda-1.0.0-{commit[:12]}") and entry.uid == 0 for entry in packed)
        packed.extractall(folder)
    unpacked = pathlib.Path(folder, f"fmeda-1.0.0-{commit[:12]}")
    told = dict(line.split(" ", 1) for line in unpacked.joinpath("RELEASE").read_text().splitlines()[:6])
    listed = subprocess.run("git ls-files -z | xargs -0 sha256sum | sha256sum", shell=True, cwd=copy, check=True, capture_output=True, text=True).stdout.split()[0]
    digest = subprocess.run(["sha256sum", str(program)], check=True, capture_output=True, text=True).stdout.split()[0]
    assert told == {"fmeda-release": "1", "commit": commit, "sources": listed, "gate": "7 passed, 0 failed", "kit": "a-kit", "program": digest}, told
    assert unpacked.joinpath("bin", "fmeda").stat().st_mode & stat.S_IXUSR
    _used(unpacked, folder)
    _dist(copy, program)
    assert archive.read_bytes() == first, "the same commit gave another archive"


def no_archive_of_what_was_not_passed(folder, program):
    copy = _copy(folder, program)
    _committed(copy)
    for how, wanted in ((dict(last="6 passed, 1 failed", ended=1), "the gate ended with status 1 and the line: 6 passed, 1 failed"), (dict(last="7 passed, 1 failed"), "the gate ended"),
                        (dict(last="stopped"), "the line: stopped"), (dict(ended=1), "the gate ended with status 1"), (dict(more="echo >> README.md"), "these files differ from it:\n M README.md")):
        said = _dist(copy, program, status=1, **how)
        assert wanted in said, (how, said)
    said = _dist(copy, program, status=1)
    assert "a release is of a commit" in said and not list(copy.joinpath("build").glob("*.tar.gz")), said
