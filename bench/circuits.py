"""Circuits that aren't synthesised from a source, for the benchmark of the kernel: a memory whose faults are seldom noticed, registers
that one reset reaches, a serial line with a monitor, whose counters differ for long, and a processor in lockstep, most of whose faults are
quiet for long. Each function writes a netlist, a workload, rates and points into a folder."""
from netlists import RATES, put

ROWS = {"and": ["11 1"], "or": ["1- 1", "-1 1"], "xor": ["10 1", "01 1"], "without": ["10 1"], "not": ["0 1"], "same": ["1 1"]}


class Netlist:
    def __init__(self):
        self.lines = []

    def table(self, kind, to, *reads):
        """A net that is driven by a table of one or two inputs; `without` is the first and not the second."""
        self.lines += [" ".join([".names", *reads, to]), *ROWS[kind]]
        return to

    def latch(self, reads, to):
        self.lines.append(f".latch {reads} {to} re clk 0")

    def all_of(self, kind, to, nets):
        """The nets of a list by `and`, `or` or `xor`, in a chain of tables of two inputs."""
        for i, net in enumerate(nets[1:], 1):
            self.table(kind, to if i == len(nets) - 1 else f"{to}.{i}", nets[0] if i == 1 else f"{to}.{i - 1}", net)
        return to

    def registers(self, name, to, enable, width):
        """Latches that take new values where the enable is 1; `to` gives the net of each bit."""
        for i in range(width):
            kept = self.table("without", f"{name}.kept{i}", f"{name}{i}", enable)
            given = self.table("and", f"{name}.given{i}", to(i), enable)
            self.latch(self.table("or", f"{name}.next{i}", kept, given), f"{name}{i}")

    def timer(self, name, width, clear):
        """A counter that goes on in each cycle, and begins anew where `clear` is 1."""
        carry = None
        for i in range(width):
            own = f"{name}{i}"
            up = self.table("xor", f"{name}.up{i}", own, carry) if carry else self.table("not", f"{name}.up{i}", own)
            self.latch(self.table("without", f"{name}.next{i}", up, clear), own)
            carry = self.table("and", f"{name}.carry{i}", own, carry) if carry else own

    def exceeds(self, to, nets, others):
        """Whether a number is greater than another; the bits of both stand lowest first."""
        more = None
        for i, (net, other) in enumerate(zip(nets, others)):
            above = self.table("without", f"{to}.above{i}", net, other)
            if more:
                kept = self.table("without", f"{to}.kept{i}", more, self.table("xor", f"{to}.apart{i}", net, other))
                above = self.table("or", to if i + 1 == len(others) else f"{to}.more{i}", above, kept)
            more = above
        return to

    def counter(self, name, width, enable):
        """A counter that goes on where the enable is 1."""
        carry = enable
        for i in range(width):
            self.latch(self.table("xor", f"{name}.next{i}", f"{name}{i}", carry), f"{name}{i}")
            carry = self.table("and", f"{name}.carry{i}", f"{name}{i}", carry)

    def is_number(self, to, name, width, number):
        """Whether a counter has a value."""
        return self.all_of("and", to, [f"{name}{i}" if number >> i & 1 else f"{name}.not{i}" for i in range(width)])


def noise(seed):
    """Bits that look random, the same in each run."""
    state = seed
    while True:
        state = (state * 6364136223846793005 + 1442695040888963407) % 2**64
        yield "01"[state >> 63]


def written(folder, netlist, inputs, cycles, observe, alarm, fixed):
    """Puts the files; the workload drives noise on each input but those in `fixed`, whose value at a cycle it gives."""
    head = [".model circuit", ".inputs clk " + " ".join(inputs), ".outputs " + " ".join([*observe, *alarm])]
    put(folder, "n.blif", [*head, *netlist.lines, ".end"])
    drive = noise(1)
    rows = (",".join(["w,mission", *(fixed[name](t) if name in fixed else next(drive) for name in inputs)]) for t in range(cycles))
    put(folder, "w.csv", ["workload,kind," + ",".join(inputs), *rows])
    put(folder, "r.csv", [RATES.rstrip(), "*,all,mission,yes,12,0"])
    put(folder, "p.csv", ["kind,net", *(f"observe,{n}" for n in observe), *(f"alarm,{n}" for n in alarm)])


def memory(folder, address, width, cycles):
    """A queue of 2^address words, of which each bit is a latch with its tables. The alarm compares two write pointers, so a fault
    of the words differs for long, and isn't noticed."""
    n = Netlist()
    data, words = [f"data{i}" for i in range(width)], range(2**address)
    for pointer, enable in (("put", "push"), ("twin", "push"), ("take", "pop")):
        n.counter(pointer, address, enable)
    for pointer in ("put", "take"):
        for i in range(address):
            n.table("not", f"{pointer}.not{i}", f"{pointer}{i}")
    for w in words:
        n.table("and", f"write{w}", "push", n.is_number(f"put.is{w}", "put", address, w))
        n.is_number(f"read{w}", "take", address, w)
        for i in range(width):
            kept = n.table("without", f"kept{w}.{i}", f"word{w}.{i}", f"write{w}")
            given = n.table("and", f"given{w}.{i}", data[i], f"write{w}")
            n.latch(n.table("or", f"next{w}.{i}", kept, given), f"word{w}.{i}")
            n.table("and", f"shown{w}.{i}", f"word{w}.{i}", f"read{w}")
    outs = [n.all_of("or", f"out{i}", [f"shown{w}.{i}" for w in words]) for i in range(width)]
    alarm = n.all_of("or", "alarm", [n.table("xor", f"apart{i}", f"put{i}", f"twin{i}") for i in range(address)])
    written(folder, n, ["push", "pop", *data], cycles, outs, [alarm], {})


def resettable(folder, blocks, width, cycles):
    """Registers that shift and mix, all under one reset. The alarm compares the parity of the first two blocks, which a reset that
    is stuck leaves alike."""
    n = Netlist()
    inputs = [f"in{b}" for b in range(blocks)]
    for b in range(blocks):
        own = inputs[0] if b == 1 else inputs[b]
        for i in range(width):
            near, far, other = (f"b{b}.q{(i + k) % width}" for k in (1, 3, 7))
            mixed = n.table("xor", f"b{b}.mixed{i}", near, n.table("and", f"b{b}.both{i}", far, other))
            fed = n.table("xor", f"b{b}.fed{i}", mixed, own) if i % 8 == 0 else mixed
            n.latch(n.table("without", f"b{b}.next{i}", fed, "rst"), f"b{b}.q{i}")
        n.all_of("xor", f"parity{b}", [f"b{b}.q{i}" for i in range(width)])
    n.table("xor", "alarm", "parity0", "parity1")
    written(folder, n, ["rst", *inputs], cycles, [f"parity{b}" for b in range(blocks)], ["alarm"], {"rst": lambda t: "01"[t < 2]})


FRAME = 10


def transmitter(n, name, width):
    """Sends the byte on the bus where `send` is 1 and no frame is under way: a start bit, eight of data, a stop bit. A bit lasts two
    cycles more than the number in its divisor. It gives its line, which is 1 at rest, and whether a frame is under way."""
    bits = lambda part, count: [f"{name}.{part}{i}" for i in range(count)]
    n.registers(f"{name}.divisor", lambda i: f"bus{i}", "set", width)
    tick = n.exceeds(f"{name}.tick", bits("time", width), bits("divisor", width))
    busy = n.all_of("or", f"{name}.busy", bits("left", 4))
    load = n.table("without", f"{name}.load", "send", busy)
    n.timer(f"{name}.time", width, n.table("or", f"{name}.clear", tick, load))
    borrow = n.table("and", f"{name}.borrow", busy, tick)
    for i in range(4):
        fewer = n.table("xor", f"{name}.fewer{i}", f"{name}.left{i}", borrow)
        borrow = n.table("without", f"{name}.borrow{i}", borrow, f"{name}.left{i}")
        n.latch(n.table("or" if FRAME >> i & 1 else "without", f"{name}.leave{i}", fewer, load), f"{name}.left{i}")
    for i in range(FRAME):
        kept = n.table("without", f"{name}.kept{i}", f"{name}.frame{i}", tick)
        moved = n.table("or", f"{name}.moved{i}", kept, n.table("and", f"{name}.shifted{i}", tick, f"{name}.frame{i + 1}") if i + 1 < FRAME else tick)
        if 0 < i < FRAME - 1:
            given = n.table("and", f"{name}.given{i}", load, f"bus{i - 1}")
            to = n.table("or", f"{name}.next{i}", given, n.table("without", f"{name}.stay{i}", moved, load))
        else:
            to = n.table("or" if i else "without", f"{name}.next{i}", moved, load)
        n.latch(to, f"{name}.frame{i}")
    line = n.table("or", f"{name}.line", f"{name}.frame0", n.table("not", f"{name}.rest", busy))
    return line, busy


def receiver(n, name, divisor, width):
    """Takes a frame off the net `rx`: half a bit after the start bit fell it begins to take a bit each bit's time. It gives the last byte
    that it took, and whether that is new since `take` was 1."""
    time, step = [f"{name}.time{i}" for i in range(width)], f"{name}.step"
    state = [f"{name}.state{i}" for i in range(4)]
    busy = n.all_of("or", f"{name}.busy", state)
    for i, net in enumerate(state):
        n.table("not", f"{name}.state.not{i}", net)
    first, last = (n.is_number(f"{name}.is{k}", f"{name}.state", 4, k) for k in (1, FRAME))
    tick = n.exceeds(f"{name}.tick", time, divisor)
    half = n.table("and", f"{name}.half", first, n.exceeds(f"{name}.middle", time, divisor[1:]))
    fell = n.table("not", f"{name}.fell", n.table("or", f"{name}.quiet", "rx", busy))
    later = n.table("and", f"{name}.later", tick, n.table("without", f"{name}.behind", busy, first))
    n.table("or", step, fell, n.table("or", f"{name}.goes", half, later))
    n.timer(f"{name}.time", width, n.table("or", f"{name}.clear", step, n.table("not", f"{name}.rest", busy)))
    done = n.table("and", f"{name}.done", tick, last)
    carry = step
    for i, net in enumerate(state):
        up = n.table("xor", f"{name}.up{i}", net, carry)
        carry = n.table("and", f"{name}.carry{i}", net, carry)
        n.latch(n.table("without", f"{name}.next{i}", up, done), net)
    n.registers(f"{name}.frame", lambda i: f"{name}.frame{i + 1}" if i < 7 else "rx", n.table("without", f"{name}.shift", later, last), 8)
    n.registers(f"{name}.byte", lambda i: f"{name}.frame{i}", done, 8)
    n.latch(n.table("or", f"{name}.fresh", done, n.table("without", f"{name}.waits", f"{name}.valid", "take")), f"{name}.valid")
    return [f"{name}.byte{i}" for i in range(8)], f"{name}.valid", done


def gauge(n, name, divisor, width):
    """Whether the last stretch in which the net `rx` was 0 was longer than a number."""
    n.timer(f"{name}.time", width, "rx")
    n.latch(n.table("not", f"{name}.low", "rx"), f"{name}.was")
    n.registers(f"{name}.length", lambda i: f"{name}.time{i}", n.table("and", f"{name}.rises", "rx", f"{name}.was"), width)
    return n.exceeds(f"{name}.long", [f"{name}.length{i}" for i in range(width)], divisor)


def uart(folder, width, cycles):
    """A serial line with divisors of so many bits. A twin of the transmitter and a parity of the received byte are its monitor, so of the
    receiver little is noticed. A fault of a counter or a divisor differs for long, most of them from the first frame on."""
    n = Netlist()
    (line, busy), (twin, also_busy) = (transmitter(n, name, width) for name in ("tx", "twin"))
    divisor = [f"tx.divisor{i}" for i in range(width)]
    data, valid, done = receiver(n, "rx", divisor, width)
    slow = gauge(n, "gauge", divisor, width)
    n.registers("parity", lambda i: n.all_of("xor", "frame.parity", [f"rx.frame{k}" for k in range(8)]), done, 1)
    alarm = n.table("or", "alarm", n.table("xor", "line.apart", line, twin), n.table("xor", "busy.apart", busy, also_busy))
    wrong = n.table("xor", "parity.alarm", "parity0", n.all_of("xor", "byte.parity", data))
    strobes, bus = serial_strobes(cycles)
    fixed = {name: lambda t, at=at: "01"[t in at] for name, at in strobes.items()}
    fixed |= {f"bus{i}": lambda t, i=i: "01"[bus.get(t, 0) >> i & 1] for i in range(width)}
    fixed["rx"] = received_line(cycles)
    written(folder, n, ["set", "send", "take", "rx", *(f"bus{i}" for i in range(width))], cycles, [line, busy, *data, valid, slow], [alarm, wrong], fixed)


DIVISORS = 20, 13


def serial_strobes(cycles):
    """In which cycles each strobe is 1, and the number on the bus in these; the divisor is changed once, half way."""
    half, bits = cycles // 2, noise(2)
    byte = lambda: sum((next(bits) == "1") << i for i in range(8))
    sends = range(8, cycles, 260)
    bus = {1: DIVISORS[0], half: DIVISORS[1]} | {t: byte() for t in sends}
    return {"set": {1, half}, "send": set(sends), "take": set(range(300, cycles, 300))}, bus


def received_line(cycles):
    """What another station sends: the line is 1 but in frames, of which one begins each 290 cycles."""
    bits, frames = noise(3), {}
    for begin in range(40, cycles, 290):
        frames[begin] = "0" + "".join(next(bits) for _ in range(8)) + "1"
    levels = []
    for t in range(cycles):
        begin = t - (t - 40) % 290
        at = (t - begin) // (DIVISORS[begin > cycles // 2] + 2)
        levels.append(frames[begin][at] if begin in frames and at < FRAME else "1")
    return lambda t: levels[t]


REGISTERS, WORD, PHASES = 5, 32, ("fetch", "read", "work", "write")
# The bits of an instruction's fields, and the operations by their number: each of the first eight on two registers, or on one and a
# number where the bit behind them is 1; then the store, the load and the branch.
FIELDS = {"op": 4, "to": REGISTERS, "one": REGISTERS, "two": REGISTERS, "number": 16}
WORKS = ("add", "subtract", "and", "or", "xor", "left", "right", "load")
STORE, BRANCH = 14, 15


def chosen(n, to, select, no, yes):
    """The one net where the select is 0, and the other where it is 1."""
    return n.table("or", to, n.table("without", f"{to}.no", no, select), n.table("and", f"{to}.yes", yes, select))


def looked_up(n, to, words, place, width):
    """The word at a place, by a tree of choices."""
    words = list(words)
    for k, select in enumerate(place):
        words = [[chosen(n, f"{to}.{k}.{j}.{i}", select, even[i], odd[i]) for i in range(width)] for j, (even, odd) in enumerate(zip(words[::2], words[1::2]))]
    return words[0]


def added(n, to, nets, others, carry):
    """The sum of two numbers; `carry` is the first carry."""
    sums = []
    for i, (net, other) in enumerate(zip(nets, others)):
        half = n.table("xor", f"{to}.half{i}", net, other)
        sums.append(n.table("xor", f"{to}.sum{i}", half, carry) if carry else half)
        both = n.table("and", f"{to}.both{i}", net, other)
        carry = n.table("or", f"{to}.carry{i}", both, n.table("and", f"{to}.over{i}", half, carry)) if carry else both
    return sums


def shifted(n, to, nets, count, by):
    """A number whose bits have moved by `count` places, to the greater ones where `by` is 1 and to the lower where it is -1."""
    for k, select in enumerate(count):
        step = by * 2**k
        nets = [
            chosen(n, f"{to}.{k}.{i}", select, net, nets[i - step]) if 0 <= i - step < len(nets) else n.table("without", f"{to}.{k}.{i}", net, select)
            for i, net in enumerate(nets)
        ]
    return nets


def core(n, name):
    """A processor that takes four cycles for an instruction: it gives where it fetches, and what it stores, with the strobe."""
    net = lambda part: f"{name}.{part}"
    bits = lambda part, count=WORD: [f"{name}.{part}{i}" for i in range(count)]
    for i, phase in enumerate(PHASES):
        n.latch(n.table("or" if i == 0 else "without", net(f"{phase}.next"), net(PHASES[i - 1]), "rst"), net(phase))
    for field, width in FIELDS.items():
        n.registers(net(field), lambda i, field=field: f"{field}{i}", net("fetch"), width)
    words = [bits(f"r{w}.") for w in range(2**REGISTERS)]
    for port in ("one", "two"):
        read = looked_up(n, net(f"{port}.read"), words, bits(port, REGISTERS), WORD)
        n.registers(net(f"{port}.taken"), lambda i, read=read: read[i], net("read"), WORD)
    op, one, two, number = bits("op", 4), bits("one.taken"), bits("two.taken"), bits("number", 16)
    by_number = n.table("without", net("by.number"), op[3], n.table("and", net("op.both"), op[1], op[2]))
    other = [chosen(n, net(f"other{i}"), by_number, two[i], number[min(i, 15)]) for i in range(WORD)]
    turned = [n.table("xor", net(f"turned{i}"), bit, op[0]) for i, bit in enumerate(other)]
    total, count = added(n, net("total"), one, turned, op[0]), other[:5]
    simple = {kind: [n.table(kind, net(f"{kind}.of{i}"), one[i], other[i]) for i in range(WORD)] for kind in ("and", "or", "xor")}
    moved = {way: shifted(n, net(way), one, count, by) for way, by in (("left", 1), ("right", -1))}
    gives = {"add": total, "subtract": total, **simple, **moved, "load": [f"mem{i}" for i in range(WORD)]}
    given = looked_up(n, net("given"), [gives[work] for work in WORKS], op[:3], WORD)
    n.registers(net("result"), lambda i: given[i], net("work"), WORD)
    for i, bit in enumerate(op):
        n.table("not", net(f"op.not{i}"), bit)
    store, branch = (n.all_of("and", net(part), [op[i] if code >> i & 1 else net(f"op.not{i}") for i in range(4)]) for part, code in (("store", STORE), ("branch", BRANCH)))
    keeps = n.table("without", net("keeps"), net("write"), n.table("or", net("store.or.branch"), store, branch))
    for i in range(REGISTERS):
        n.table("not", net(f"to.not{i}"), net(f"to{i}"))
    for w, word in enumerate(words):
        n.registers(net(f"r{w}."), lambda i: net(f"result{i}"), n.table("and", net(f"r{w}.set"), keeps, n.is_number(net(f"r{w}.is"), net("to"), REGISTERS, w)), WORD)
    apart = n.all_of("or", net("apart"), [n.table("xor", net(f"apart.bit{i}"), one[i], two[i]) for i in range(WORD)])
    goes = n.table("without", net("goes"), branch, apart)
    step = [chosen(n, net(f"step{i}"), goes, net("write") if i == 2 else "rst", number[min(i, 15)]) for i in range(WORD)]
    onward = added(n, net("onward"), bits("at"), step, None)
    n.registers(net("at"), lambda i: onward[i], net("write"), WORD)
    strobe = n.table("and", net("strobe"), store, net("write"))
    return bits("at"), [n.table("and", net(f"out{i}"), bit, strobe) for i, bit in enumerate([*bits("result"), *two])], strobe


def processor(folder, cycles):
    """Two processors of 32 registers in lockstep, of which the first is observed. The alarm is a latch behind their comparison. Four of five
    instructions use eight of the registers alone, so most faults of the others are quiet for long."""
    n = Netlist()
    (at, out, strobe), (other_at, other_out, other_strobe) = (core(n, name) for name in ("main", "check"))
    outs = [*at, *out, strobe]
    apart = [n.table("xor", f"compare.apart{i}", net, other) for i, (net, other) in enumerate(zip(outs, [*other_at, *other_out, other_strobe]))]
    n.latch(n.all_of("or", "compare.any", apart), "alarm")
    inputs = ["rst", *(f"{field}{i}" for field, width in FIELDS.items() for i in range(width)), *(f"mem{i}" for i in range(WORD))]
    written(folder, n, inputs, cycles, outs, ["alarm"], instructions(cycles))


def instructions(cycles):
    """What each input of the processor is in each cycle: an instruction in each fourth, which stays for four."""
    bits, values = noise(4), {}
    draw = lambda count: sum((next(bits) == "1") << i for i in range(count))
    for k in range(-(-cycles // len(PHASES)) + 1):
        few = 8 if draw(3) < 6 else 2**REGISTERS
        values[k] = {field: draw(width) % (few if width == REGISTERS else 2**width) for field, width in FIELDS.items()} | {"mem": draw(WORD)}
    at = lambda t: values[max(t - 2, 0) // len(PHASES)]
    fixed = {f"{field}{i}": lambda t, field=field, i=i: "01"[at(t)[field] >> i & 1] for field, width in (*FIELDS.items(), ("mem", WORD)) for i in range(width)}
    return fixed | {"rst": lambda t: "01"[t < 2]}
