"""A flat netlist of cells, as yosys writes it in JSON, with the library's cells in it."""
import json
import re
from dataclasses import dataclass

import designs
import liberty

GATES = {"BUF": "A", "NOT": "!A", "AND": "A&B", "NAND": "!(A&B)", "OR": "A|B", "NOR": "!(A|B)", "XOR": "A^B", "XNOR": "!(A^B)", "ANDNOT": "A&!B", "ORNOT": "A|!B",
         "MUX": "(S&B)|(!S&A)", "NMUX": "!((S&B)|(!S&A))", "AOI3": "!((A&B)|C)", "OAI3": "!((A|B)&C)", "AOI4": "!((A&B)|(C&D))", "OAI4": "!((A|B)&(C|D))"}
# Flip-flops of yosys' own, as $_DFF_P_ and $_DFF_PN0_: the edge, the level of the asynchronous reset and its value.
OWN_FLIP_FLOP = re.compile(r"\$_DFF_([PN])(?:([PN])([01]))?_")


@dataclass
class Instance:
    """A cell at its place: `pins` has a bit for each pin that is connected."""
    name: str
    path: tuple
    cell: liberty.Cell
    pins: dict


def own_cell(kind):
    """A cell of yosys' own, for what is no cell of the library, or None."""
    pin = lambda direction, function="": liberty.Pin(direction, function)
    gate = GATES.get(kind[2:-1]) if kind.startswith("$_") else None
    if gate:
        return liberty.Cell(kind, 0, {**{name: pin("input") for name in liberty.Function(gate).inputs}, "Y": pin("output", gate)})
    found = OWN_FLIP_FLOP.fullmatch(kind)
    if not found:
        return None
    said = {"clocked_on": "C" if found[1] == "P" else "!C", "next_state": "D"}
    if found[2]:
        said["preset" if found[3] == "1" else "clear"] = "R" if found[2] == "P" else "!R"
    pins = {"C": pin("input"), "D": pin("input"), "Q": pin("output", "IQ"), **({"R": pin("input")} if found[2] else {})}
    return liberty.Cell(kind, 0, pins, "ff", ("IQ", "IQN"), said)


def path_of(name, said):
    """The instances that a cell or a net lies in, from the top."""
    levels = said.get("attributes", {}).get("hdlname", "").split(" ")
    return tuple(levels[:-1]) if len(levels) > 1 else tuple(name.split(".")[:-1])


class Netlist:
    """`inputs` and `outputs` are (name, bit) each; `name_of` has a name for each bit that is driven or is an input."""

    def __init__(self, file, library):
        self.file, self.library, self.drivers, self.instances = file, library, {}, []
        self.creator, module = self.read()
        self.inputs, self.outputs = self.ports(module, "input"), self.ports(module, "output")
        if self.ports(module, "inout"):
            raise self.refusal(f"the port {self.ports(module, 'inout')[0][0]} is an inout: write an input, an output and its enable")
        for name, said in module["cells"].items():
            self.add(name, said)
        self.name_of, self.starts = self.names(module)

    def refusal(self, why):
        return designs.Refused(f"{self.file}: {why}")

    def read(self):
        try:
            made = json.loads(designs.held(self.file))
            modules = {name: it for name, it in made["modules"].items() if not int(it["attributes"].get("blackbox", "0"), 2) and (it["cells"] or "top" in it["attributes"])}
            found = [it for it in modules.values() if "top" in it["attributes"]] or list(modules.values())
        except (ValueError, KeyError, TypeError, AttributeError):
            raise self.refusal("it isn't what yosys' write_json writes")
        if len(found) != 1:
            raise self.refusal(f"it has {len(found)} top modules: `hierarchy -top NAME` before write_json")
        return made.get("creator", "yosys"), found[0]

    def ports(self, module, direction):
        return [pair for name, it in module["ports"].items() if it["direction"] == direction for pair in self.bits(name, it)]

    def bits(self, name, said):
        """(name, bit) for each bit of a port or a net."""
        bits, first = said["bits"], said.get("offset", 0)
        if len(bits) == 1 and not first and not said.get("is_vector"):
            return [(name, bits[0])]
        order = reversed(range(len(bits))) if said.get("upto") else range(len(bits))
        return [(f"{name}[{first + place}]", bit) for place, bit in zip(order, bits)]

    def add(self, name, said):
        kind = said["type"]
        cell = self.library.get(kind) or own_cell(kind)
        if cell is None:
            raise self.refusal(f"{name} is a {kind}, which no library has. A macro: `expose -evert t:{kind}` before flatten. Verilog without gates: leave liberty away, and let yosys synthesise it")
        pins = {pin: bits[0] for pin, bits in said["connections"].items() if bits}
        wide = [pin for pin, bits in said["connections"].items() if len(bits) > 1]
        if wide:
            raise self.refusal(f"{name} ({kind}): its pin {wide[0]} has several bits, and only cells with pins of one bit are read: `expose -evert t:{kind}` before flatten")
        instance = Instance(name, path_of(name, said), cell, pins)
        self.instances.append(instance)
        for pin in cell.outputs():
            bit = pins.get(pin)
            if not isinstance(bit, int):
                continue
            if bit in self.drivers:
                raise self.refusal(f"{name} and {self.drivers[bit][0].name} drive the same net: a bus has to be written as a multiplexer")
            self.drivers[bit] = instance, pin

    def names(self, module):
        """A name for each bit: the port's, else one of the instance that drives the net, else one of the fewest levels; and the initial values that are told."""
        ports = {bit: name for name, bit in [*reversed(self.outputs), *reversed(self.inputs)]}
        best, starts = {}, {}
        for name, said in module["netnames"].items():
            path, init = path_of(name, said), said["attributes"].get("init", "")
            values = init[::-1] if set(init) <= set("01x") else ""
            for place, (shown, bit) in enumerate(self.bits(name, said)):
                if place < len(values) and values[place] in "01":
                    starts[bit] = values[place]
                own = bit in self.drivers and self.drivers[bit][0].path == path
                rank = (said["hide_name"], not own, len(path), name.rpartition(".")[2].startswith("_"), shown)
                if bit not in best or rank < best[bit]:
                    best[bit] = rank
        return {**{bit: rank[-1] for bit, rank in best.items()}, **ports}, starts
