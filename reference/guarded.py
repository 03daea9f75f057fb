"""Random netlists with a mechanism, the inputs that are held, and what two texts of `always` may differ in.

The mechanism is a copy or two with a comparator, a voter of three, or a parity bit over what latches store; sometimes its alarm comes a cycle or two
later, is masked by a test input or by the reset, or doesn't look at all that it should."""
import re

HELD_HEAD, POINTS_HEAD, GOALS_HEAD = "input,from,before,value", "kind,net", "goal,ftti,kind,net"
STRENGTH = ("no-path", "alarmed", "early", "open")


class Drawn:
    """The lines of a netlist and of its points, its inputs, and those of them that a workload holds: reset and test."""

    def __init__(self):
        self.body, self.inputs, self.control, self.latches, self.observed, self.alarms = [], [], [], [], [], []

    def table(self, out, ins, rows):
        self.body.append([" ".join([".names", *ins, out]), *rows])
        return out

    def latch(self, source, out, start="0"):
        self.body.append([f".latch {source} {out} {start}"])
        self.latches.append(out)
        return out

    def parity(self, out, nets):
        rows = [format(k, f"0{len(nets)}b") + " 1" for k in range(2 ** len(nets)) if bin(k).count("1") % 2]
        return self.table(out, nets, rows)

    def some(self, out, nets):
        return self.table(out, nets, ["-" * k + "1" + "-" * (len(nets) - k - 1) + " 1" for k in range(len(nets))])

    def without(self, out, net, mask):
        """The net, but 0 where the mask is 1."""
        return self.table(out, [net, mask], ["10 1"])

    def lines(self, rng):
        rng.shuffle(self.body)
        outputs = list(dict.fromkeys(self.observed + self.alarms))
        return [".model guarded", " ".join([".inputs", *self.inputs]), " ".join([".outputs", *outputs]), *[line for part in self.body for line in part], ".end"]


def cubes(rng, ins):
    return ["".join(rng.choice("01-") for _ in range(ins)) + " 1" for _ in range(rng.choice((1, 1, 2, 2, 3)))]


def shape(rng, inputs):
    """What each copy is: tables over inputs, latches and earlier tables, and what latches take; names without the copy's prefix."""
    latches = [f"q{k}" for k in range(rng.randrange(1, 4))]
    tables = []
    for k in range(rng.randrange(3, 8)):
        pool = [*inputs, *latches, *[name for name, _, _ in tables]]
        ins = rng.sample(pool, min(len(pool), rng.choice((1, 2, 2, 2, 3))))
        tables.append((f"t{k}", ins, cubes(rng, len(ins))))
    return tables, [(name, rng.choice(tables)[0], rng.choice("001")) for name in latches]


def copy_of(rng, drawn, prefix, what, reset):
    tables, latches = what
    own = {name for name, *_ in [*tables, *latches]}
    name = lambda it: f"{prefix}.{it}" if it in own else it
    for out, ins, rows in tables:
        drawn.table(name(out), [name(it) for it in ins], rows)
    for out, source, start in latches:
        taken = drawn.without(f"{prefix}.m{out}", name(source), reset) if reset else name(source)
        drawn.latch(taken, name(out), start)
    return name


def raised(rng, drawn, signs, reset, test):
    """The alarm that comes of some nets which are 1 where something is wrong."""
    sign = drawn.some("wrong", signs) if len(signs) > 1 or rng.random() < 0.3 else signs[0]
    for k, mask in enumerate((test, reset)):
        if mask and rng.random() < 0.6:
            sign = drawn.without(f"masked{k}", sign, mask)
    for k in range(rng.choice((0, 0, 1, 1, 1, 2))):
        sign = drawn.latch(sign, f"told{k}")
    drawn.alarms.append(sign)


def copies(rng, drawn, reset, test):
    what, count = shape(rng, drawn.inputs[:2 + rng.randrange(2)]), rng.choice((2, 2, 3))
    names = [copy_of(rng, drawn, prefix, what, reset) for prefix in "abc"[:count]]
    nets = [name for name, *_ in what[0]]
    outs = rng.sample(nets, min(len(nets), rng.choice((1, 1, 2))))
    compared = outs if rng.random() < 0.7 else rng.sample(nets, rng.randrange(1, len(nets)))
    for k, out in enumerate(outs):
        own = [name(out) for name in names]
        if count == 3:
            drawn.observed.append(drawn.table(f"y{k}", own, ["11- 1", "1-1 1", "-11 1"]))
        else:
            drawn.observed.append(own[0] if rng.random() < 0.5 else drawn.table(f"y{k}", own[:1], ["1 1"]))
    if count == 3 and rng.random() < 0.5:
        signs = [drawn.table(f"x{k}", [name(out) for name in names], ["000 0", "111 0"]) for k, out in enumerate(compared)]
    else:
        signs = [drawn.parity(f"x{k}.{j}", [names[0](out), other(out)]) for k, out in enumerate(compared) for j, other in enumerate(names[1:])]
    raised(rng, drawn, signs, reset, test)


def code(rng, drawn, reset, test):
    """Words with a parity bit, held until the next is written; a word of the wrong parity raises the alarm without a fault."""
    bits = [f"d{k}" for k in range(rng.randrange(1, 4))]
    drawn.inputs += [*bits, "p", "write"]
    for it in [*bits, "p"]:
        taken = drawn.table(f"a.m{it}", ["write", it, f"a.s{it}"], ["11- 1", "0-1 1"])
        drawn.latch(drawn.without(f"a.r{it}", taken, reset) if reset else taken, f"a.s{it}")
    stored = [f"a.s{it}" for it in [*bits, "p"]]
    drawn.observed += rng.sample(stored[:-1], rng.randrange(1, len(stored)))
    raised(rng, drawn, [drawn.parity("odd", stored)], reset, test)


def netlist(rng):
    drawn = Drawn()
    drawn.inputs += [f"i{k}" for k in range(3)]
    reset, test = ("rst" if rng.random() < 0.6 else None), ("test" if rng.random() < 0.4 else None)
    rng.choice((copies, copies, code))(rng, drawn, reset, test)
    drawn.control = [it for it in (reset, test) if it]
    drawn.inputs += drawn.control
    return drawn


def held_rows(rng, drawn):
    """Mostly the reset and the test input are held at 0, and now and then another input; sometimes one is left out."""
    rows = []
    for name in drawn.control + (rng.sample(drawn.inputs, 1) if rng.random() < 0.2 else []):
        if rng.random() < 0.9 and name not in [it for it, *_ in rows]:
            start = rng.choice((0, 1, 1, 2, 3))
            rows.append((name, start, rng.choice("-01") if start else "-", "0" if name in drawn.control else rng.choice("01")))
    return rows


def held_lines(rows):
    return [HELD_HEAD, *[f"{name},{start},{before},{value}" for name, start, before, value in rows]]


def points(rng, drawn):
    alarms = drawn.alarms + (rng.sample(drawn.latches, 1) if rng.random() < 0.1 and drawn.latches[0] not in drawn.alarms else [])
    alarms = list(dict.fromkeys(alarms))
    if rng.random() < 0.6:
        return [POINTS_HEAD, *[f"observe,{it}" for it in drawn.observed], *[f"alarm,{it}" for it in alarms]]
    goals = [f"g{k},{rng.choice(('-', '1', '2', '3'))},observe,{it}" for k, it in enumerate(drawn.observed[:4])]
    return [GOALS_HEAD, *goals, *[f"-,-,alarm,{it}" for it in alarms]]


def rates(rng, transient):
    """A part for each copy, one for the pins and one for the rest; each has a rate of the kinds of fault that it has."""
    other = rng.choice(("mechanism", "mechanism", "other"))
    told = lambda most: "0" if not most else rng.choice(("1", "2.5", "0.000007", str(most)))
    parts = [("a.*", "main", "mission", "yes"), ("b.*", "copy", "mechanism", "no"), ("c.*", "third", other, "no"), ("*", "rest", rng.choice(("mission", "mechanism")), "no")]
    rows = [f"{pattern},{name},{role},{covered},{told(9) if name == 'rest' else '0'},{told(4) if transient and name == 'rest' else '0'}" for pattern, name, role, covered in parts]
    weighed = rows[0].replace(",0,0", f",{told(8)},0")
    return ["pattern,part,role,covered,permanent,transient", weighed, *rows[1:]]


def words(rng):
    """The options of `always`, and whether there are pulses, of which each part has one."""
    pulses = rng.choice((None, None, "0", "1,4"))
    said = ["--ftti", str(rng.choice((0, 0, 1, 1, 2, 3, 9)))]
    said += ["--window", str(rng.choice((0, 0, 1, 2, 8)))] if rng.random() < 0.4 else []
    said += ["--ahead", str(rng.choice((0, 1, 2)))] if rng.random() < 0.6 else []
    said += ["--flips", rng.choice(("0", "1,3", "2"))] if rng.random() < 0.5 else []
    said += ["--pulses", pulses] if pulses else []
    return said + ["--asil", rng.choice("BCD")], pulses is not None


# ---- two texts

FAULT = re.compile(rb"^(early|open) (\S+) (\d+)$")
PART = re.compile(rb"^part (\S+) (\S+ \S+) whole (yes|no|but \d+) window (\d+|-) faults (\d+) no-path (\d+) alarmed (\d+) early (\d+) open (\d+)$")
LEAST = re.compile(rb"^(spfm \S+ since \d+ at-least) (?:-|(\d+)/(\d+)) target (met|open|-)$")


def named(text):
    """How each fault stands that is named, with its weight."""
    return {(match[2], match[3]): match[1].decode() for match in map(FAULT.match, text.split(b"\n")) if match}


def common(text):
    """What two lawful texts have in common: all but how parts, metrics and faults stand."""
    lines = []
    for line in text.split(b"\n"):
        part, least = PART.match(line), LEAST.match(line)
        if part:
            lines.append((part[1], part[2], part[5], part[6]))
        elif least:
            lines.append((least[1], least[3]))
        elif not FAULT.match(line):
            lines.append(line)
    return lines


def is_no_weaker(text, least):
    """Does a text prove what the other one does, and maybe more? Faults that are open in `least` may be early or alarmed, and no other may be worse."""
    if common(text) != common(least):
        return False
    ours, theirs = named(text), named(least)
    faults = all(fault in theirs and STRENGTH.index(kind) <= STRENGTH.index(theirs[fault]) for fault, kind in ours.items())
    pick = lambda pattern, some: [match for match in map(pattern.match, some.split(b"\n")) if match]
    parts = all(int(one[9]) <= int(other[9]) and (one[3] != b"no" or other[3] == b"no") for one, other in zip(pick(PART, text), pick(PART, least)))
    return faults and parts and all(int(one[2] or 0) >= int(other[2] or 0) for one, other in zip(pick(LEAST, text), pick(LEAST, least)))
