"""The settings file of tools/flow, as Python's configparser reads it."""
import configparser
import pathlib
import re
import shlex
from dataclasses import dataclass, field

import hints

LISTS = ("verilog", "headers", "liberty", "techmap", "parameters", "defines", "include")
CYCLES = re.compile(r"none|[0-9]+(,[0-9]+)*")
STRETCH = re.compile(r"none|[0-9]+-[0-9]+(/[0-9]+)?")
KEYS = {
    "design": ("verilog", "headers", "top", "netlist", "latches", "liberty", "script", "techmap", "synth", "start", "parameters", "defines", "include"),
    "workload": ("file", "scope", "clock", "unknown", "nets", "without", "skip"),
    "campaign": ("rates", "points", "interval", "intervals", "flips", "upsets", "pulses", "asil", "workers"),
    "always": ("file", "rows", "window", "ahead"),
    "output": ("folder", "title"),
}


class Wrong(Exception):
    """What of the settings can't be done, in words."""


@dataclass(frozen=True)
class Run:
    """A run of the workload and the dump of its simulation."""
    name: str
    kind: str
    dump: str


@dataclass(frozen=True)
class Settings:
    """Names of files are as the file has them, taken from its folder."""
    folder: pathlib.Path
    rates: str
    points: str
    verilog: tuple = ()
    headers: tuple = ()
    liberty: tuple = ()
    script: str = ""
    techmap: tuple = ()
    synth: str = ""
    start: str = ""
    parameters: tuple = ()
    defines: tuple = ()
    include: tuple = ()
    top: str = ""
    given_netlist: str = ""
    latches: str = ""
    given_workload: str = ""
    runs: tuple = ()
    scope: str = ""
    clock: str = ""
    unknown: str = ""
    nets: str = "outputs"
    without: str = ""
    skip: str = "0"
    interval: str = "0"
    intervals: str = "none"
    flips: str = "none"
    upsets: str = "none"
    pulses: str = "none"
    asil: str = "D"
    workers: str = "1"
    held_file: str = ""
    held_rows: str = ""
    window: str = ""
    ahead: str = "1"
    out: str = "flow"
    title: str = ""
    accepted: dict = field(default_factory=dict)

    def made(self, name):
        """The name of a file that the flow makes."""
        return f"{self.out}/{name}"

    @property
    def flip_cycles(self):
        """The cycles of flips, as either key has them."""
        return self.flips if self.upsets == "none" else self.upsets

    @property
    def held(self):
        """The file of the held inputs, which the flow makes of rows; nothing where there is no section [always]."""
        return self.held_file or (self.made("held.csv") if self.held_rows else "")

    @property
    def netlist(self):
        return self.given_netlist or self.made("design.blif")

    @property
    def workload(self):
        return self.given_workload or self.made("workload.csv")


def parsed(name):
    parser = configparser.ConfigParser(interpolation=None, delimiters=("=",))
    parser.optionxform = str
    try:
        with open(name, encoding="utf-8") as file:
            parser.read_file(file, name)
    except OSError as fault:
        raise Wrong(f"cannot read {name}: {fault.strerror}")
    except (configparser.Error, UnicodeDecodeError) as fault:
        raise Wrong(" ".join(str(fault).split()))
    if parser.defaults():
        raise Wrong("a section DEFAULT has no meaning here")
    return parser


def look_at_words(parser):
    """Each section and each key is one that has a meaning: a word that is misspelt would change the campaign in silence."""
    for section in parser.sections():
        known = {**KEYS, "runs": None, "accepted": (*hints.MAY_BE_MEANT, *hints.LOOKED_AT)}
        if section not in known:
            raise Wrong(f"there is no section [{section}]: " + ", ".join(known))
        for key, value in parser[section].items():
            if known[section] is not None and key not in known[section]:
                raise Wrong(f"[{section}] has no key {key}: " + ", ".join(known[section]))
            if not value.strip():
                raise Wrong(f"[{section}] {key} has no value")


def runs_of(parser):
    found = []
    for name, said in (parser["runs"].items() if parser.has_section("runs") else ()):
        words = shlex.split(said)
        if len(words) != 2 or words[0] not in ("mission", "test"):
            raise Wrong(f"[runs] {name} = {said}: a run has its kind, mission or test, and its dump")
        found.append(Run(name, *words))
    return tuple(found)


def values_of(parser):
    """The settings by their names here, those that are left out being left out."""
    renamed = {("design", "netlist"): "given_netlist", ("workload", "file"): "given_workload", ("output", "folder"): "out", ("always", "file"): "held_file", ("always", "rows"): "held_rows"}
    found = {renamed.get((section, key), key): value.strip() for section in KEYS if parser.has_section(section) for key, value in parser[section].items()}
    for key in LISTS:
        if key in found:
            found[key] = tuple(shlex.split(found[key]))
    return found


def look_at_values(said):
    """What is wrong with values, the first alone."""
    if bool(said.verilog) == bool(said.given_netlist):
        raise Wrong("[design] has either verilog or netlist")
    if said.verilog and not said.top:
        raise Wrong("[design] top must name the top module of the Verilog")
    look_at_synthesis(said)
    if not said.given_workload and not said.runs:
        raise Wrong("[workload] file, or runs with their dumps in [runs], must be given")
    for key, least, most in (("interval", 0, 4096), ("workers", 1, 32), ("skip", 0, 65536), ("latches", 0, 262144)):
        text = getattr(said, key)
        if not (re.fullmatch("[0-9]{1,6}", text) and least <= int(text) <= most or key == "latches" and not text):
            raise Wrong(f"{key} is a number from {least} to {most}, and not {text}")
    for key, pattern, meaning in (*[(key, CYCLES, "none, or cycles as 1,5,40") for key in ("flips", "pulses", "intervals")], ("upsets", STRETCH, "none, or a stretch as 3-40 or 3-40/2"), ("asil", "[BCD]", "B, C or D"), ("unknown", "[01]?", "0 or 1"), ("start", "[01]?", "0 or 1")):
        if not re.fullmatch(pattern, getattr(said, key)):
            raise Wrong(f"{key} is {meaning}, and not {getattr(said, key)}")
    for key, text in (("window", said.window or "0"), ("ahead", said.ahead)):
        if not re.fullmatch("[0-8]", text):
            raise Wrong(f"{key} is a number from 0 to 8, and not {text}")
    if said.flips != "none" and said.upsets != "none":
        raise Wrong("[campaign] has either flips or upsets")
    out = pathlib.PurePath(said.out)
    if out.is_absolute() or ".." in out.parts or not out.parts:
        raise Wrong(f"[output] folder is a folder of its own below that of the settings, and not {said.out}")


def look_at_synthesis(said):
    """Keys that say how the Verilog is read have no meaning for a netlist or beside a script of one's own."""
    for key in ("liberty", "script", "techmap", "synth", "start", "parameters", "defines", "include"):
        if getattr(said, key) and said.given_netlist:
            raise Wrong(f"[design] {key} is for verilog, and not for netlist")
        if getattr(said, key) and said.script and key not in ("script", "liberty"):
            raise Wrong(f"[design] {key} belongs into the script {said.script}")
    for key in ("synth", "start"):
        if said.liberty and getattr(said, key):
            raise Wrong(f"[design] {key} has no meaning for cells of a library: nothing is synthesised")
    for key, pattern, meaning in (("parameters", r"\w+=\S+", "NAME=VALUE"), ("defines", r"\w+(=\S*)?", "NAME or NAME=VALUE"), ("include", r"\S+", "folders")):
        for word in getattr(said, key):
            if not re.fullmatch(pattern, word):
                raise Wrong(f"[design] {key} is a list of {meaning}, and not {word}")
    for name in said.include:
        if not (said.folder / name).is_dir():
            raise Wrong(f"there is no folder {name}")


def missing_files(said):
    named = [*said.verilog, *said.headers, *said.liberty, *said.techmap, said.script, said.given_netlist, said.given_workload, said.rates, said.points, said.held_file, *[re.sub(r":\d+-\d+$", "", run.dump) for run in said.runs]]
    return [name for name in named if name and not (said.folder / name).is_file()]


def read(name):
    parser = parsed(name)
    look_at_words(parser)
    values = values_of(parser)
    for key in ("rates", "points"):
        if key not in values:
            raise Wrong(f"[campaign] {key} must be given")
    accepted = dict(parser["accepted"]) if parser.has_section("accepted") else {}
    said = Settings(folder=pathlib.Path(name).resolve().parent, runs=runs_of(parser), accepted=accepted, **values)
    if parser.has_section("always") and bool(said.held_file) == bool(said.held_rows):
        raise Wrong("[always] has either file or rows")
    look_at_values(said)
    missing = missing_files(said)
    if missing:
        raise Wrong(f"there is no file {missing[0]}")
    return said
