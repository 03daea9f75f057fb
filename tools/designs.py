"""Netlist, workload, rates and points as the tools need them, read by the second program (reference)."""
import pathlib
import re
import signal
import sys

sys.path[:0] = [str(pathlib.Path(__file__).resolve().parent.parent / "reference")]
import campaign
import tables


# A reader of the output that ends early, as head, is no fault.
signal.signal(signal.SIGPIPE, signal.SIG_DFL)


# What the first line of a netlist says whose nets have their names in the instance that drives them.
CELLS_AS_TABLES = "cells as tables by tools/ungate"


class Refused(Exception):
    pass


class Design:
    """A netlist, flattened: `net` as the second program has it, and its inputs, outputs and clock by name."""


def held(name):
    try:
        return campaign.held(name)
    except campaign.Refused as refused:
        raise Refused(refused.line.decode("utf-8", "replace").strip())


def clock_of(text):
    """The clock's name, and whether latches work at its falling edge."""
    lines = re.sub(r"\\\r?\n", " ", text.decode("latin-1")).splitlines()
    for line in lines:
        words = line.partition("#")[0].split()
        if words[:1] == [".latch"] and len(words) >= 5 and words[3] in ("re", "fe") and words[4] != "NIL":
            return words[4], words[3] == "fe"
        if words[:1] == [".end"]:
            break
    clocks = [words[1] for words in map(str.split, lines) if words[:1] == [".clock"] and len(words) == 2]
    return (clocks[0], False) if clocks else (None, False)


def unknown_starts(text, name):
    """How many `.latch` lines of a BLIF file give no initial value that is known: these latches start at 0."""
    if name.endswith(".bench"):
        return 0
    latches = [words for words in (line.partition("#")[0].split() for line in re.sub(r"\\\r?\n", " ", text.decode("latin-1")).splitlines()) if words[:1] == [".latch"]]
    return sum(len(words) in (3, 5) or words[-1] in ("2", "3") for words in latches)


def read(name):
    text, design = held(name), Design()
    try:
        design.net = campaign.read_netlist(text, name)
    except campaign.Refused as refused:
        raise Refused(f"{name}: " + refused.line.decode("utf-8", "replace").strip())
    design.names = [it.decode("latin-1") for it in design.net.names]
    design.inputs = [design.names[n] for n in design.net.inputs]
    design.outputs = [design.names[n] for n in design.net.outputs]
    design.clock, design.falling = clock_of(text)
    design.unknown_starts = unknown_starts(text, name)
    design.named_by_driver = CELLS_AS_TABLES.encode() in text[:1000]
    return design


def read_runs(name, design):
    """(name, kind, vectors) each."""
    try:
        return [(run.decode("latin-1"), kind.decode(), vectors) for run, kind, vectors in tables.read_workload(held(name), design.net)]
    except tables.RowFault as fault:
        raise Refused(f"{name}: row {fault.row} {fault.kind}")


def bits(text):
    """The names of a list as rst,addr[3:0]: a range stands for its bits."""
    names = []
    for it in text.split(","):
        found = re.match(r"^(.*)\[(\d+):(\d+)\]$", it)
        if found:
            first, last = int(found[2]), int(found[3])
            step = 1 if last >= first else -1
            names += [f"{found[1]}[{i}]" for i in range(first, last + step, step)]
        else:
            names.append(it)
    return names


def golden(design, vectors, fault=None):
    """For each cycle the value of each net: without a fault, or with one, as the second program has it."""
    net = design.net
    kind, place, at = fault or (None, None, None)
    state = {n: int(bool(net.drivers[n][2])) for n in net.latches}
    rows = []
    for n in net.order:
        _, ins, cubes, on = net.drivers[n]
        rows.append((n, [[(m, c - 48) for m, c in zip(ins, cube) if c != 45] for cube in cubes], bool(on)))

    def forced(n, value, cycle):
        if n != place or kind == "flip":
            return value
        return at if kind == "stuck" else value ^ (cycle == at)

    for cycle, vector in enumerate(vectors):
        values = [0] * len(net.names)
        for column, n in enumerate(net.inputs):
            values[n] = forced(n, int(bool(vector[column])), cycle)
        for n in net.latches:
            values[n] = forced(n, state[n] ^ (kind == "flip" and n == place and cycle == at), cycle)
        for n, cubes, on in rows:
            some = any(all(values[m] == c for m, c in cube) for cube in cubes)
            values[n] = forced(n, int(some == on), cycle)
        yield values
        state = {n: values[net.drivers[n][1]] for n in net.latches}
