"""Libraries of standard cells in Liberty form: for each cell its area, the functions of its pins, its flip-flop and whether it is a clock gate."""
import re
from dataclasses import dataclass, field

import designs

TOKEN = re.compile(r'/\*.*?\*/|//[^\n]*|\\\n|\s+|("(?:\\.|[^"\\])*")|([A-Za-z0-9_.+\-*/!\'^&|\[\]$]+)|([(){}:;,=<>])', re.S)
# Groups within a cell that say nothing here, and would be mistaken for pins and flip-flops of the cell itself.
PASSED_OVER = ("test_cell", "timing", "internal_power", "leakage_power", "power_cell_info")
SAMPLED = {"rising": ("latch_posedge",), "falling": ("latch_negedge",)}


@dataclass
class Pin:
    direction: str = ""
    function: str = ""
    attributes: dict = field(default_factory=dict)


@dataclass
class Cell:
    """`sequential` is ff, latch, ff_bank and so on, or "" for gates; `state` has the names of the state and of its inverse."""
    name: str
    area: float = 0
    pins: dict = field(default_factory=dict)
    sequential: str = ""
    state: tuple = ()
    attributes: dict = field(default_factory=dict)
    clock_gate: str = ""

    def outputs(self):
        return [name for name, pin in self.pins.items() if pin.direction == "output"]

    def pin_of(self, attribute):
        """The pin that has this attribute, as clock_gate_clock_pin, or None."""
        return next((name for name, pin in self.pins.items() if pin.attributes.get(attribute) == "true"), None)

    def sampled_edge(self):
        """The edge of its clock at which a clock gate takes its enable, or None where it isn't known."""
        return next((edge for edge, kinds in SAMPLED.items() if self.clock_gate.startswith(kinds)), None)


class Group:
    def __init__(self, kind, words):
        self.kind, self.words, self.attributes, self.groups = kind, words, {}, []


def tokens(text, name):
    at = 0
    while at < len(text):
        found = TOKEN.match(text, at)
        if not found:
            raise designs.Refused(f"{name}: line {text.count(chr(10), 0, at) + 1} is no Liberty: {text[at:at + 40].splitlines()[0]!r}")
        at = found.end()
        if found[1] is not None:
            yield found[1][1:-1].replace("\\\n", "")
        elif found[2] or found[3]:
            yield found[2] or found[3]


def read_body(words, into):
    """Reads attributes and groups into a group, up to its closing bracket."""
    for word in words:
        if word == "}":
            return
        if word == ";":
            continue
        mark = next(words)
        if mark == ":":
            said = []
            for part in words:
                if part == ";":
                    break
                said.append(part)
            into.attributes[word] = " ".join(said)
        elif mark == "(":
            given = [it for it in iter(lambda: next(words), ")") if it != ","]
            if next(words) == "{":
                group = Group(word, given)
                read_body(words, group)
                into.groups.append(group)
    if into.kind:
        raise ValueError


def pins_of(group):
    for inner in group.groups:
        if inner.kind == "pin":
            pin = Pin(inner.attributes.get("direction", ""), inner.attributes.get("function", ""), inner.attributes)
            yield from ((name, pin) for name in inner.words)


def cell_of(group):
    cell = Cell(group.words[0], float(group.attributes.get("area", 0)), dict(pins_of(group)))
    cell.clock_gate = group.attributes.get("clock_gating_integrated_cell", "")
    for inner in group.groups:
        if inner.kind in ("ff", "latch", "ff_bank", "latch_bank", "statetable", "bus", "bundle") and not cell.sequential:
            cell.sequential, cell.state, cell.attributes = inner.kind, tuple(inner.words), inner.attributes
    return cell


def read(name):
    """The cells of a library, by their names."""
    text = designs.held(name).decode("latin-1")
    top = Group("", [])
    try:
        read_body((word for word in tokens(text, name)), top)
        cells = [cell_of(group) for library in top.groups for group in library.groups if group.kind == "cell"]
    except (StopIteration, RuntimeError, ValueError, IndexError):
        raise designs.Refused(f"{name}: it isn't as a Liberty file is, or was cut off")
    if not cells:
        raise designs.Refused(f"{name}: it has no cells")
    return {cell.name: cell for cell in cells}


# ---- functions of pins

WORD = re.compile(r"\s*([A-Za-z_][A-Za-z0-9_\[\].]*|[01]|[()!'^*&+|])")


class Function:
    """A Boolean function as Liberty writes it: `inputs` are the names in it, and `value` takes a value for each."""

    def __init__(self, text):
        self.words, self.inputs, at, text = [], [], 0, text.strip()
        while at < len(text):
            found = WORD.match(text, at)
            if not found:
                raise designs.Refused(f"the function {text} isn't read here")
            self.words.append(found[1])
            at = found.end()
        self.text, self.at = text, 0
        self.value = self.either()
        if self.at != len(self.words):
            raise designs.Refused(f"the function {text} isn't read here")

    def next(self):
        return self.words[self.at] if self.at < len(self.words) else ""

    def taken(self):
        self.at += 1
        return self.words[self.at - 1] if self.at <= len(self.words) else ""

    def either(self):
        found = self.both()
        while self.next() in ("+", "|"):
            self.taken()
            found = (lambda a, b: lambda values: a(values) | b(values))(found, self.both())
        return found

    def both(self):
        found = self.differ()
        while self.next() not in ("", ")", "+", "|"):
            if self.next() in ("*", "&"):
                self.taken()
            found = (lambda a, b: lambda values: a(values) & b(values))(found, self.differ())
        return found

    def differ(self):
        found = self.inverted()
        while self.next() == "^":
            self.taken()
            found = (lambda a, b: lambda values: a(values) ^ b(values))(found, self.inverted())
        return found

    def inverted(self):
        word = self.taken()
        if word == "!":
            found = (lambda a: lambda values: 1 - a(values))(self.inverted())
        elif word == "(":
            found = self.either()
            if self.taken() != ")":
                raise designs.Refused(f"the function {self.text} isn't read here")
        elif word in ("0", "1"):
            found = lambda values: int(word)
        elif re.match(r"[A-Za-z_]", word):
            found = self.named(word)
        else:
            raise designs.Refused(f"the function {self.text} isn't read here")
        while self.next() == "'":
            self.taken()
            found = (lambda a: lambda values: 1 - a(values))(found)
        return found

    def named(self, word):
        if word not in self.inputs:
            self.inputs.append(word)
        return lambda values: values[word]
