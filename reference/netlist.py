"""BLIF files, read once more and by other means than the program reads them.

Everything here is written from the rules in docs/ and serves to check expected values. Nothing of it is fast."""
import sys

MOST_TOKEN, MOST_INPUTS, MOST_NETS, MOST_INSTANCES, MOST_CELLS, MOST_DEPTH = 255, 1024, 2**18, 2**18, 2**24, 32
READ_PAST = (b".cname", b".attr", b".param")
WHITE = b" \t\r"
KINDS = ("NoModel BadToken Directive BadRow MixedPlane BadLatch LevelLatch TooWide TwoModels UnknownModel BadFormal Unbound "
         "Recursive TooDeep TooLarge TwoClocks BadClock ClockRead TwoDrivers Undriven").split()


class NetlistFault(Exception):
    def __init__(self, line, kind, name=None):
        self.line, self.kind, self.name = line, kind, name


class Loop(Exception):
    def __init__(self, nets):
        self.nets = nets


class Netlist:
    """names, driver of each net as ('input', place), ('table', ins, rows, on) or ('latch', from, start), and the lists."""

    def __init__(self):
        self.names, self.drivers, self.inputs, self.outputs, self.tables, self.latches = [], [], [], [], [], []


def logical_lines(text):
    """(number, tokens) of each logical line that has tokens."""
    found, joined, number = [], b"", None
    for place, physical in enumerate(text.split(b"\n"), 1):
        physical = physical.split(b"#", 1)[0].rstrip(WHITE)
        number = place if number is None else number
        if physical.endswith(b"\\"):
            joined += physical[:-1] + b" "
            continue
        tokens = [t for t in (joined + physical).replace(b"\t", b" ").replace(b"\r", b" ").split(b" ") if t]
        if tokens:
            found.append((number, tokens))
        joined, number = b"", None
    tokens = [t for t in joined.replace(b"\t", b" ").replace(b"\r", b" ").split(b" ") if t]
    if tokens:
        found.append((number, tokens))
    return found


def bindings(tokens):
    return [tuple(t.split(b"=", 1)) for t in tokens]


def latch_parts(rest):
    """(in, out, type, control, init) of the tokens after .latch, or None where they are malformed."""
    if len(rest) not in (2, 3, 4, 5):
        return None
    kind, control, init = None, None, b"0"
    if len(rest) >= 4:
        kind, control = rest[2], rest[3]
        if kind not in (b"fe", b"re", b"ah", b"al", b"as"):
            return None
    if len(rest) in (3, 5):
        init = rest[-1]
        if init not in (b"0", b"1", b"2", b"3"):
            return None
    return rest[0], rest[1], kind, control, init


def kinds_of_line(tokens, inside, table):
    """All kinds of fault of one line; `table` is (number of inputs, plane or None) where the line above is a table or a row of it."""
    first, rest, kinds = tokens[0], tokens[1:], set()
    if any(len(t) > MOST_TOKEN for t in tokens):
        kinds.add("TooWide")
    if first in READ_PAST:
        return kinds
    if not inside and first != b".model":
        kinds.add("NoModel")
    if first == b".model" and len(rest) != 1 or first == b".names" and not rest or first == b".end" and rest:
        kinds.add("BadToken")
    if first == b".subckt" and (not rest or any(len(b) != 2 or not b[0] or not b[1] for b in bindings(rest[1:]))):
        kinds.add("BadToken")
    if first == b".names" and len(rest) - 1 > MOST_INPUTS:
        kinds.add("TooWide")
    if first == b".latch":
        parts = latch_parts(rest)
        if parts is None:
            kinds.add("BadLatch")
        elif parts[2] in (b"ah", b"al", b"as"):
            kinds.add("LevelLatch")
    if first.startswith(b".") and first not in (b".model", b".inputs", b".outputs", b".clock", b".names", b".latch", b".subckt", b".end"):
        kinds.add("Directive")
    if not first.startswith(b"."):
        well_formed = False
        if table is not None:
            ins, plane = table
            cube, out = (b"", tokens[0]) if ins == 0 and len(tokens) == 1 else (tokens[0], tokens[1]) if len(tokens) == 2 else (None, None)
            well_formed = cube is not None and len(cube) == ins and all(c in b"01-" for c in cube) and out in (b"0", b"1")
            if well_formed and plane is not None and out != plane:
                kinds.add("MixedPlane")
        if not well_formed:
            kinds.add("BadRow")
    return kinds


class Model:
    def __init__(self, name, line):
        self.name, self.line, self.lines = name, line, []
        self.inputs, self.clocks, self.outputs = [], [], []


def models_of(lines):
    """The models of the file, or the first fault of a line."""
    if not any(tokens[0] not in READ_PAST for _, tokens in lines):
        raise NetlistFault(1, "NoModel")
    models, model, table = [], None, None
    for number, tokens in lines:
        kinds = kinds_of_line(tokens, model is not None, table)
        if kinds:
            raise NetlistFault(number, min(kinds, key=KINDS.index))
        first, rest = tokens[0], tokens[1:]
        if first in READ_PAST:
            continue
        if first.startswith(b"."):
            table = None
        if first == b".model":
            model = Model(rest[0], number)
            models.append(model)
        elif first == b".end":
            model = None
        elif first == b".names":
            table = (len(rest) - 1, None)
            model.lines.append((number, first, rest, []))
        elif not first.startswith(b"."):
            table = (table[0], tokens[-1])
            model.lines[-1][3].append(tokens)
        else:
            model.lines.append((number, first, rest, []))
            if first == b".inputs":
                model.inputs += rest
            elif first == b".clock":
                model.clocks += rest
            elif first == b".outputs":
                model.outputs += rest
    return models


def faults_of_models(models):
    names, named = set(), {}
    for model in models:
        if model.name in names:
            raise NetlistFault(model.line, "TwoModels")
        names.add(model.name)
        named[model.name] = model
    instances = [(number, rest, model) for model in models for number, first, rest, _ in model.lines if first == b".subckt"]
    for number, rest, _ in instances:
        if rest[0] not in named:
            raise NetlistFault(number, "UnknownModel")
    for number, rest, _ in instances:
        callee = named[rest[0]]
        formals, bound = set(callee.inputs + callee.clocks + callee.outputs), [b[0] for b in bindings(rest[1:])]
        if len(set(bound)) != len(bound) or any(f not in formals for f in bound):
            raise NetlistFault(number, "BadFormal")
    for number, rest, _ in instances:
        callee = named[rest[0]]
        bound = [b[0] for b in bindings(rest[1:])]
        if any(f not in bound for f in callee.inputs + callee.clocks):
            raise NetlistFault(number, "Unbound")
    callees = {m.name: [rest[0] for _, first, rest, _ in m.lines if first == b".subckt"] for m in models}

    def reached(start):
        seen, open_ = set(), [start]
        while open_:
            at = open_.pop()
            if at not in seen:
                seen.add(at)
                open_ += callees[at]
        return seen

    for number, rest, model in instances:
        if model.name in reached(rest[0]):
            raise NetlistFault(number, "Recursive")
    depths = {}

    def depth(name):
        if name not in depths:
            depths[name] = 1 + max(map(depth, callees[name]), default=0)
        return depths[name]

    main = models[0]
    for number, first, rest, _ in main.lines:
        if first == b".subckt" and depth(rest[0]) > MOST_DEPTH:
            raise NetlistFault(number, "TooDeep")

    def total(of, memo):
        def count(name):
            if name not in memo:
                memo[name] = sum(of(line) + (count(line[2][0]) if line[1] == b".subckt" else 0) for line in named[name].lines)
            return memo[name]
        return count(main.name)

    cells = lambda line: max(1, len(line[3])) * max(1, len(line[2]) - 1) if line[1] == b".names" else 0
    if total(lambda line: line[1] == b".subckt", {}) > MOST_INSTANCES or total(cells, {}) > MOST_CELLS:
        raise NetlistFault(main.line, "TooLarge")
    return named


def walk(named, main):
    """(number, directive, nets, rest, rows, at_top) of each line of the flattened main model, with the names as nets."""
    steps = []

    def visit(model, path, bound):
        net = lambda name: bound[name] if name in bound else path + b"." + name if path else name
        count = 0
        for number, first, rest, rows in model.lines:
            if first == b".subckt":
                here = (path + b"." if path else b"") + b"u%d" % count
                count += 1
                pairs = [(formal, net(actual)) for formal, actual in bindings(rest[1:])]
                steps.append((number, first, [actual for _, actual in pairs], None, None, not path))
                visit(named[rest[0]], here, dict(pairs))
            elif first == b".latch":
                source, out, kind, control, init = latch_parts(rest)
                control = None if control in (None, b"NIL") else net(control)
                steps.append((number, first, [net(source), net(out)], (kind, control, init), None, not path))
            else:
                steps.append((number, first, [net(name) for name in rest], None, rows, not path))

    sys.setrecursionlimit(10000)
    visit(main, b"", {})
    return steps


def faults_of_walk(steps, main):
    clocks, latch_type, clock = set(), None, None

    def second_clock(name):
        nonlocal clock
        if clock is None:
            clock = name
        return name != clock

    allowed = set(main.inputs + main.clocks)
    for number, first, nets, extra, _, top in steps:
        for name in (nets if first == b".clock" and top else []):
            clocks.add(name)
        if first == b".latch" and extra[1] is not None:
            clocks.add(extra[1])
    order = []
    seen = set()
    for number, first, nets, *_ in steps:
        for name in nets:
            if name not in seen and name not in clocks:
                seen.add(name)
                order.append((number, name))
    if len(order) > MOST_NETS:
        raise NetlistFault(main.line, "TooLarge")
    for number, first, nets, extra, _, top in steps:
        wrong = first == b".clock" and top and any([second_clock(name) for name in nets])
        if first == b".latch":
            kind, control, _ = extra
            if kind is not None:
                latch_type = latch_type or kind
                wrong = wrong or kind != latch_type
            wrong = wrong or control is not None and second_clock(control)
        if wrong:
            raise NetlistFault(number, "TwoClocks")
    for number, first, nets, extra, _, _ in steps:
        if first == b".latch" and extra[1] is not None and extra[1] not in allowed:
            raise NetlistFault(number, "BadClock")
    for number, first, nets, extra, _, top in steps:
        read = nets[:-1] if first == b".names" else nets[:1] if first == b".latch" else nets if first == b".outputs" and top else []
        if any(name in clocks for name in read):
            raise NetlistFault(number, "ClockRead")
    driven = set()
    for number, first, nets, extra, _, top in steps:
        drives = nets if first == b".inputs" and top else nets[-1:] if first in (b".names", b".latch") else []
        for name in drives:
            if name in clocks:
                if first != b".inputs":
                    raise NetlistFault(number, "TwoDrivers")
            elif name in driven:
                raise NetlistFault(number, "TwoDrivers")
            driven.add(name)
    for number, name in order:
        if name not in driven:
            raise NetlistFault(number, "Undriven", name)
    return clocks, [name for _, name in order]


def read_blif(text):
    models = models_of(logical_lines(text))
    named = faults_of_models(models)
    main = models[0]
    steps = walk(named, main)
    clocks, names = faults_of_walk(steps, main)
    made, place = Netlist(), {name: i for i, name in enumerate(names)}
    made.names, made.drivers = names, [None] * len(names)
    made.inputs = [place[name] for name in main.inputs if name not in clocks]
    for name in main.outputs:
        if place[name] not in made.outputs:
            made.outputs.append(place[name])
    for i, n in enumerate(made.inputs):
        made.drivers[n] = ("input", i)
    for number, first, nets, extra, rows, _ in steps:
        if first == b".names":
            ins, out = [place[n] for n in nets[:-1]], place[nets[-1]]
            cubes = [row[0] if ins else b"" for row in rows]
            made.drivers[out] = ("table", ins, cubes, not rows or rows[0][-1] == b"1")
            made.tables.append(out)
        elif first == b".latch":
            made.drivers[place[nets[1]]] = ("latch", place[nets[0]], extra[2] == b"1")
            made.latches.append(place[nets[1]])
    return made


def order_of(net):
    """The tables' nets, each after those that it reads, or some loop."""
    state, order = {}, []
    for start in net.tables:
        path, stack = [], [(start, iter(net.drivers[start][1]))] if start not in state else []
        if stack:
            state[start] = "open"
            path.append(start)
        while stack:
            at, reads = stack[-1]
            for n in reads:
                if net.drivers[n][0] != "table":
                    continue
                if state.get(n) == "open":
                    ring = path[path.index(n):][::-1]
                    least = ring.index(min(ring))
                    raise Loop(ring[least:] + ring[:least])
                if n not in state:
                    state[n] = "open"
                    path.append(n)
                    stack.append((n, iter(net.drivers[n][1])))
                    break
            else:
                state[at] = "done"
                order.append(at)
                path.pop()
                stack.pop()
    return order
