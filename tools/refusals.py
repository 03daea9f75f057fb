"""What the one line of a refusal can't say: the row or the line that it names, and which nets have a name like an unknown one."""
import pathlib
import re

import designs
from designs import tables

# A tool that was refused says its own name and that of the file before it.
ROW = re.compile(r"^(?:.*refused: )?(workload|rates|points|held) row (\d+) (\w+)$", re.M)
LINE = re.compile(r"^(?:.*: )?refused: (?:netlist|bench) line (\d+) ", re.M)
MOST_NETS = 4


def row_of(name, number):
    """The fields of a row, counted from the header as the program does, or None."""
    rows = tables.records(designs.held(name))
    return [field.decode("utf-8", "replace") for field in rows[number - 1]] if 0 < number <= len(rows) else None


def is_near(one, other):
    """Whether names differ in a letter or two that stand together, are missing, or have changed places."""
    if abs(len(one) - len(other)) > 2:
        return False
    first = next((i for i, (a, b) in enumerate(zip(one, other)) if a != b), min(len(one), len(other)))
    one, other = one[first:], other[first:]
    last = next((i for i, (a, b) in enumerate(zip(reversed(one), reversed(other))) if a != b), min(len(one), len(other)))
    return max(len(one), len(other)) - last <= 2


def like(name, nets):
    """The nets that an unknown name may have meant: capitals, the bits of a bus, or letters that are wrong."""
    close = [net for net in nets if net.lower() == name.lower() or net.startswith(f"{name}[")] or [net for net in nets if is_near(net, name)]
    return close[:MOST_NETS] + ([".."] if len(close) > MOST_NETS else [])


def of_row(kind, name, number, nets):
    row = row_of(name, number)
    if row is None:
        return []
    found = like(row[{"UnknownNet": -1, "UnknownInput": 0}[kind]], nets) if kind in ("UnknownNet", "UnknownInput") else []
    return [f"row {number} of {pathlib.Path(name).name} is {','.join(row)}", *([f"the netlist has {', '.join(found)}"] if found else [])]


def of_line(name, number):
    lines = pathlib.Path(name).read_text("latin-1").splitlines()
    return [f"line {number} of {pathlib.Path(name).name} is {lines[number - 1].strip()[:200]}"] if 0 < number <= len(lines) else []


def nets_of(netlist, kind):
    try:
        return {"UnknownNet": designs.read(netlist).names, "UnknownInput": designs.read(netlist).inputs}.get(kind, [])
    except designs.Refused:
        return []


def explained(text, netlist, workload, rates, points, held=""):
    """Lines that say more of a refusal, or none where there is no more to say."""
    row, line = ROW.search(text), LINE.search(text)
    try:
        if row:
            return of_row(row[3], {"workload": workload, "rates": rates, "points": points, "held": held}[row[1]], int(row[2]), nets_of(netlist, row[3]))
        return of_line(netlist, int(line[1])) if line else []
    except (OSError, designs.Refused):
        return []
