"""Values of nets, cycle by cycle: as `fmeda trace` prints them where a program is named, and else as the second program has them, which walks a netlist
in Python and so takes minutes where the other takes seconds."""
import subprocess

import designs

ADDED = "the program whose `trace` gives the values; left out, a slow simulator in Python does"


def head(lines):
    """The place of each code, (scope, number of the variable in it), and how many variables each scope has."""
    places, counts = {}, []
    for line in lines:
        words = line.split()
        if words[0] == "$scope":
            counts.append(0)
        elif words[0] == "$var":
            places[words[3]] = len(counts) - 1, counts[-1]
            counts[-1] += 1
        elif words[0] == "$enddefinitions":
            return places, counts
    raise designs.Refused("trace printed no value change dump")


def printed(words):
    """For each cycle that `trace` prints, a list of values for each scope; the lists stay the same and change from cycle to cycle."""
    try:
        child = subprocess.Popen(words, stdout=subprocess.PIPE, text=True, encoding="latin-1")
    except OSError as fault:
        raise designs.Refused(f"cannot run {words[0]}: {fault.strerror}")
    with child.stdout as lines:
        first = next(lines, "")
        if not first.startswith("$version"):
            raise designs.Refused(first.strip() or f"{words[0]} printed nothing")
        places, counts = head(lines)
        values, begun = [[0] * count for count in counts], False
        for line in lines:
            if line[0] == "#":
                if begun:
                    yield values
                begun = True
            else:
                scope, place = places[line[1:-1]]
                values[scope][place] = int(line[0])
    if child.wait():
        raise designs.Refused(f"{words[0]} ended with {child.returncode}")


def trace_words(program, netlist, workload, number):
    return [program, "trace", netlist, workload, "--run", str(number), "--nets", "all"]


def golden(program, files, number, design, vectors):
    """The values of all nets in each cycle of the run of this number, from 1."""
    if program is None:
        yield from designs.golden(design, vectors)
    else:
        for values in printed(trace_words(program, *files, number)):
            yield values[0]


def with_fault(program, files, number, design, vectors, fault, name):
    """(golden, faulty) in each cycle. The fault is known by its name and as the second program has it."""
    if program is None:
        yield from zip(designs.golden(design, vectors), designs.golden(design, vectors, fault))
    else:
        kind, _, at = fault
        cycle = [] if kind == "stuck" else [f"--{kind}s", str(at)]
        for values in printed([*trace_words(program, *files, number), "--fault", name, *cycle]):
            yield values[0], values[1]
