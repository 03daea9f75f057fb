"""Why a simulation and the golden run may differ: what fits the first difference, as far as a program can tell."""
import re

RESET = re.compile(r"rst|reset|clr|clear|(^|_)por(_|$)", re.I)
LONGEST_RESET = 64


def resets(design, vectors):
    """(name, column, the value that the run begins with, the first cycle in which it has the other) of each input that is called a reset and is released early."""
    found = []
    for column, n in enumerate(design.net.inputs):
        values = [int(bool(vector[column])) for vector in vectors[:LONGEST_RESET + 1]]
        released = next((cycle for cycle, value in enumerate(values) if value != values[0]), None)
        if RESET.search(design.names[n]) and released:
            found.append((design.names[n], column, values[0], released))
    return found


def within_the_run(design, vectors, cycle):
    for name, column, active, released in resets(design, vectors):
        if cycle > released and any(int(bool(vectors[c][column])) == active for c in (cycle, cycle - 1) if released < c < len(vectors)):
            return (f"{name} is {active} again in this run, and an asynchronous reset takes effect a cycle later in the netlist: make what comes from there a run of its own, "
                    "or leave async_reset.v away")
    return None


def without_an_edge(design, vectors, cycle, has_edge):
    for name, _, active, released in resets(design, vectors):
        if cycle <= released and not has_edge(name, active):
            return (f"{name} is {active} from the start of the simulation, and an asynchronous reset that has no edge isn't seen there: begin with {1 - active} and set it to {active} "
                    f"before the first edge of the clock, or compare from a later cycle on (skip = {released + 1})")
    return None


def recoded(design, wrong, width_of):
    """`wrong` are the nets that differ in the first cycle in which any does."""
    buses = {re.sub(r"\[\d+\]$", "", net) for net in wrong}
    latches = {design.names[n] for n in design.net.latches}
    if len(buses) != 1 or not set(wrong) <= latches:
        return None
    bus = buses.pop()
    bits = sum(re.sub(r"\[\d+\]$", "", name) == bus for name in latches)
    width = width_of(bus)
    if width in (None, bits):
        return None
    return f"{bus} has {bits} bits in the netlist and {width} in the simulation: a state machine that yosys recoded? `synth -run coarse:check -nofsm` (synth = -nofsm in the flow) keeps its codes"


def cause(design, vectors, cycle, wrong, has_edge, width_of):
    """What fits best, in words, or None."""
    return within_the_run(design, vectors, cycle) or recoded(design, wrong, width_of) or without_an_edge(design, vectors, cycle, has_edge)
