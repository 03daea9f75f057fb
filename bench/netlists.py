"""Netlists, workloads, rates and points of any size, for the benchmarks. Each function writes files into a folder."""
import pathlib
import re

EXAMPLE = pathlib.Path(__file__).resolve().parent.parent / "examples" / "lockstep"
RATES = "pattern,part,role,covered,permanent,transient\n"
INPUTS = 64


def put(folder, name, lines):
    folder.mkdir(parents=True, exist_ok=True)
    with open(folder / name, "w") as file:
        for line in lines:
            file.write(line)
            file.write("\n")


def name(number, width):
    return f"net_{number}_".ljust(width, "x")


def gates(place, first, count, width, inputs):
    """Lines of `count` gates of two inputs, each reading nets that stand a little above it or inputs."""
    for i in range(first, first + count):
        near = i - 1 - (i * 7) % 61
        far = i - 1 - (i * 131) % 997
        a = place(near) if near >= 0 else inputs[i % len(inputs)]
        b = place(far) if far >= 0 else inputs[(i * 5) % len(inputs)]
        yield f".names {a} {b} {place(i)}"
        yield ("11 1", "00 1", "1- 1", "10 1")[i % 4]


def flat(folder, nets, width):
    """`nets` nets in one model, with names of `width` bytes."""
    inputs = [name(10**6 + i, width) for i in range(INPUTS)]
    count = nets - INPUTS
    place = lambda i: name(i, width)

    def lines():
        yield ".model flat"
        yield ".inputs " + " ".join(inputs)
        yield f".outputs {place(count - 1)}"
        yield from gates(place, 0, count, width, inputs)
        yield ".end"

    put(folder, "n.blif", lines())


def both_forms(folder, nets, width):
    """`nets` nets of gates of two inputs, as BLIF in `n.blif` and in the `.bench` form in `n.bench`, with names of `width` bytes."""
    inputs = [name(10**6 + i, width) for i in range(INPUTS)]
    count = nets - INPUTS
    place = lambda i: name(i, width)
    kinds = (("AND", ["11 1"]), ("NOR", ["00 1"]), ("OR", ["00 0"]), ("XOR", ["01 1", "10 1"]))

    def reads():
        for i in range(count):
            near, far = i - 1 - (i * 7) % 61, i - 1 - (i * 131) % 997
            yield i, place(near) if near >= 0 else inputs[i % INPUTS], place(far) if far >= 0 else inputs[i * 5 % INPUTS]

    def blif():
        yield ".model flat"
        yield ".inputs " + " ".join(inputs)
        yield f".outputs {place(count - 1)}"
        for i, a, b in reads():
            yield f".names {a} {b} {place(i)}"
            yield from kinds[i % 4][1]
        yield ".end"

    def bench():
        yield from (f"INPUT({net})" for net in inputs)
        yield f"OUTPUT({place(count - 1)})"
        for i, a, b in reads():
            yield f"{place(i)} = {kinds[i % 4][0]}({a}, {b})"

    put(folder, "n.blif", blif())
    put(folder, "n.bench", bench())


def nested(folder, nets, width, depth=8):
    """The same nets in a nest of `depth` models, each with a share of the nets and one instance of the next."""
    inputs = [name(10**6 + i, width) for i in range(INPUTS)]
    count = (nets - INPUTS) // depth

    def lines():
        for level in range(depth):
            place = lambda i: name(i, width)
            yield f".model m{level}"
            yield ".inputs " + " ".join(inputs)
            yield f".outputs {place(count - 1)}"
            yield from gates(place, 0, count, width, inputs)
            if level + 1 < depth:
                yield f".subckt m{level + 1} " + " ".join(f"{i}={place(k)}" for k, i in enumerate(inputs))
            yield ".end"

    put(folder, "n.blif", lines())


def model_ring(folder, count):
    """`count` models, each with an instance of the next, and the last one of the first."""
    put(folder, "n.blif", (f".model m{i}\n.subckt m{(i + 1) % count}\n.end" for i in range(count)))


def models(folder, count):
    """Models without a line."""
    put(folder, "n.blif", (f".model m{i}" for i in range(count)))


def long_line(folder, length):
    """A model of one line of about this length, with names that differ."""
    line, i = bytearray(b".inputs"), 0
    while len(line) < length - 2**20:
        line += b"".join(b" %x" % k for k in range(i, i + 2**16))
        i += 2**16
    put(folder, "n.blif", [".model m", line.decode()])


def empty_instances(folder, count):
    """So many instances of a model without a line."""
    put(folder, "n.blif", [".model m"] + [".subckt e"] * count + [".end", ".model e", ".end"])


def model_levels(folder, depth, width):
    """A nest of models with so many instances of the next each."""
    put(folder, "n.blif", ("\n".join([f".model m{i}"] + [f".subckt m{i + 1}"] * (width if i + 1 < depth else 0) + [".end"]) for i in range(depth)))


def shared(folder, nets, width, depth=8):
    """The same number of nets by a nest of `depth` models with two instances of the next each: a small file."""
    inputs = [name(10**6 + i, width) for i in range(8)]
    count = nets // 2**depth

    def lines():
        for level in range(depth):
            yield f".model m{level}"
            yield ".inputs " + " ".join(inputs)
            for _ in range(2):
                yield f".subckt m{level + 1} " + " ".join(f"{i}={i}" for i in inputs)
            yield ".end"
        place = lambda i: name(i, width)
        yield f".model m{depth}"
        yield ".inputs " + " ".join(inputs)
        yield from gates(place, 0, count, width, inputs)
        yield ".end"

    put(folder, "n.blif", lines())


def chain(folder, nets, width):
    """A chain of buffers, the last one first in the file."""
    def lines():
        yield ".model chain"
        yield f".inputs {name(0, width)}"
        yield f".outputs {name(nets - 1, width)}"
        for i in range(nets - 1, 0, -1):
            yield f".names {name(i - 1, width)} {name(i, width)}"
            yield "1 1"
        yield ".end"

    put(folder, "n.blif", lines())


def star(folder, nets, width):
    """As many buffers, all of one input: reading is that of the chain, and there is nothing to order."""
    def lines():
        yield ".model star"
        yield f".inputs {name(0, width)}"
        yield f".outputs {name(nets - 1, width)}"
        for i in range(nets - 1, 0, -1):
            yield f".names {name(0, width)} {name(i, width)}"
            yield "1 1"
        yield ".end"

    put(folder, "n.blif", lines())


def ring(folder, nets, width):
    """As many buffers in a ring."""
    def lines():
        yield ".model ring"
        for i in range(nets - 1, -1, -1):
            yield f".names {name((i - 1) % nets, width)} {name(i, width)}"
            yield "1 1"
        yield ".end"

    put(folder, "n.blif", lines())


def many_patterns(folder, nets, patterns):
    """A netlist of `nets` nets that are all matched by the last of `patterns` rates rows."""
    flat(folder, nets, 16)
    put(folder, "w.csv", ["workload,kind," + ",".join(name(10**6 + i, 16) for i in range(INPUTS)), "w,mission" + ",0" * INPUTS])
    put(folder, "r.csv", [RATES.rstrip()] + [f"net_{i}_y*,p{i % 64},mission,yes,0,0" for i in range(patterns - 1)] + ["*,rest,mission,yes,1,0"])
    put(folder, "p.csv", ["kind,net", f"observe,{name(nets - INPUTS - 1, 16)}"])


def limits(folder, inputs, cycles, patterns=1, points=1):
    """A netlist of `inputs` inputs and their buffers, with tables of so many rows."""
    ins, outs = [f"in{i}" for i in range(inputs)], [f"out{i}" for i in range(inputs)]

    def lines():
        yield ".model limits"
        yield ".inputs " + " ".join(ins)
        yield ".outputs " + " ".join(outs)
        for i, o in zip(ins, outs):
            yield f".names {i} {o}"
            yield "1 1"
        yield ".end"

    put(folder, "n.blif", lines())
    bits = ["," + ",".join("01"[(i * i + t) % 3 == 0] for i in range(inputs)) for t in range(3)]
    put(folder, "w.csv", ["workload,kind," + ",".join(ins), *(f"w,mission{bits[t % 3]}" for t in range(cycles))])
    put(folder, "r.csv", [RATES.rstrip(), *(f"none{i}*,rest,mission,no,1,0" for i in range(patterns - 1)), "*,rest,mission,no,1,0"])
    put(folder, "p.csv", ["kind,net", *(f"observe,{o}" for o in (outs + ins)[:points])])


def wide_campaign(folder, nets):
    """`nets` nets with 512 observation points and 512 alarms, and a short workload."""
    flat(folder, nets, 16)
    put(folder, "w.csv", ["workload,kind," + ",".join(name(10**6 + i, 16) for i in range(INPUTS)), *("w,mission" + f",{t % 2}" * INPUTS for t in range(2))])
    put(folder, "r.csv", [RATES.rstrip(), "*,rest,mission,yes,1,0"])
    put(folder, "p.csv", ["kind,net", *(f"{'observe' if i % 2 else 'alarm'},{name(i, 16)}" for i in range(1024))])


def many_faults(folder, nets):
    """`nets` inputs of a mechanism, of which nothing is seen: with two pulse cycles there are 4 faults a net, half of them latent."""
    names = [f"n{i}" for i in range(nets)]
    put(folder, "n.blif", [".model wide", ".inputs " + " ".join(names), ".names seen", "1", ".outputs seen", ".end"])
    put(folder, "w.csv", ["workload,kind," + ",".join(names), "w,mission" + ",0" * nets])
    put(folder, "r.csv", [RATES.rstrip(), "n*,wide,mechanism,no,1000,1000", "*,rest,mission,no,1,0"])
    put(folder, "p.csv", ["kind,net", "observe,seen"])


def system(folder, pairs, cycles):
    """`pairs` lockstep pairs as yosys synthesised them, each with the sensor's bits turned by its number, in one netlist."""
    text = (EXAMPLE / "design.blif").read_text().replace("\\\n", " ")
    shared_nets = {"clk", "rst", "inject", "$false", "$true", "$undef", "NIL", *(f"sensor[{i}]" for i in range(8))}
    body = [line for line in text.split("\n") if line and line[0] != "#" and not line.startswith((".model", ".inputs", ".outputs", ".end"))]
    constants = {".names $false", ".names $true", ".names $undef"}
    sensors = [f"sensor[{i}]" for i in range(8)]

    def renamed(token, pair):
        if token in sensors:
            return sensors[(sensors.index(token) + pair) % 8]
        return token if token in shared_nets else f"p{pair}.{token}"

    def lines():
        yield ".model system"
        yield ".inputs clk rst inject " + " ".join(sensors)
        yield ".outputs " + " ".join(f"p{k}.alarm" for k in range(pairs))
        yield from [".names $false", ".names $true", "1", ".names $undef"]
        for pair in range(pairs):
            is_constant = False
            for line in body:
                words = line.split(" ")
                if line in constants:
                    is_constant = True
                elif words[0] == ".names":
                    is_constant = False
                    yield ".names " + " ".join(renamed(w, pair) for w in words[1:])
                elif words[0] == ".latch":
                    is_constant = False
                    yield ".latch " + " ".join([renamed(words[1], pair), renamed(words[2], pair), *words[3:]])
                elif not is_constant:
                    yield line
        yield ".end"

    put(folder, "n.blif", lines())
    work = (EXAMPLE / "workload.csv").read_text().split("\n")
    # The two cycles of reset are left out; each state starts at 0. The rows stand again and again until there are enough.
    drive = [row for row in work[1:] if row.startswith("drive")][2:]
    put(folder, "w.csv", [work[0], *(drive[t % len(drive)] for t in range(cycles))])
    put(folder, "r.csv", [RATES.rstrip(), "$*,constants,other,no,0,0", *(f"p{k}.u_main.*,main,mission,yes,12,0" for k in range(min(pairs, 100))), "*,rest,mechanism,no,12,0"])
    put(folder, "p.csv", ["kind,net", *(f"observe,p{k}.torque[{i}]" for k in range(pairs) for i in range(2, 8)), *(f"alarm,p{k}.alarm" for k in range(pairs))])


def one_pair_rated(folder):
    """Rates for a system in which only the first lockstep pair's faults are of parts that matter, so that its pairs of faults are few enough."""
    put(folder, "r.csv", [RATES.rstrip(), "p0.u_main.*,main,mission,yes,12,0", "p0.*,rest,mechanism,no,12,0", "*,others,other,no,0,0"])


def nets_of(folder):
    """How many nets a flat netlist has, but for the clock."""
    text = (folder / "n.blif").read_text()
    return len(re.findall(r"^\.(?:names|latch)", text, re.M)) + len(re.search(r"^\.inputs (.*)$", text, re.M).group(1).split()) - 1
