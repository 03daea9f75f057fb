"""How many faults of a flat netlist are left where equal stuck-at faults are taken once: the rule of `report`, counted apart from it."""
import csv


def tables_of(folder):
    """(inputs, output, rows) of each table, the nets that latches read and drive, and the inputs of the model."""
    tables, latches, inputs, clocks = [], [], [], set()
    text = (folder / "n.blif").read_text().replace("\\\n", " ")
    for line in text.split("\n"):
        words = line.split("#")[0].split()
        if not words:
            continue
        if words[0] == ".names":
            tables.append((words[1:-1], words[-1], []))
        elif words[0] == ".latch":
            latches.append((words[1], words[2]))
            if len(words) > 4:
                clocks.add(words[4])
        elif words[0] == ".inputs":
            inputs += words[1:]
        elif not words[0].startswith("."):
            tables[-1][2].append(words[0] if len(words) == 2 else "")
    return tables, latches, [net for net in inputs if net not in clocks]


def is_fixed(rows, place, value):
    """Whether this value at a place decides what the table gives."""
    other = "10"[value]
    if all(row[place] == other for row in rows):
        return True
    return any(row[place] != other and set(row[:place] + row[place + 1:]) <= {"-"} for row in rows)


def counts(folder, flips=0):
    """The stuck-at faults, with a flip of each latch in so many cycles, and those of them that stand for themselves."""
    tables, latches, inputs = tables_of(folder)
    with open(folder / "p.csv", newline="") as file:
        rows = list(csv.reader(file))
    watched = {row[rows[0].index("net")] for row in rows[1:] if row}
    nets = dict.fromkeys([*inputs, *(t[1] for t in tables), *(to for _, to in latches)])
    read_by_latch = {source for source, _ in latches}
    readings = {net: [] for net in nets}
    for table in tables:
        for place, net in enumerate(table[0]):
            readings[net].append((table, place))
    left = 0
    for net in nets:
        own = readings[net]
        for value in (0, 1):
            joined = net not in watched and net not in read_by_latch and len(own) == 1 and is_fixed(own[0][0][2], own[0][1], value)
            left += not joined
    others = flips * len(latches)
    return 2 * len(nets) + others, left + others
