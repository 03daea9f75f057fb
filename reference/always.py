"""What is so for every workload: the text of `always`, once more from its definitions (crates/always/specs/Text.antt and those that it names).

Two runs are looked at side by side, the golden one and one in which something is done to some nets. A set of pairs of their values is a mask: bit
g + 2f stands for the golden value g and the faulty value f. The sites of a region are FREE, where anything is done, or the value at which a net is
held; a net that isn't among them is intact. Pairs go by one rule after the other until none may go, and a pair that would break a claim is tried alone."""
import collections
import functools
import itertools

import campaign as c
from coverage import leading_to_a_point

FREE, EQUAL, UNEQUAL, ALL = "free", 0b1001, 0b0110, 0b1111
MOST_WINDOW, MOST_INPUTS = 8, 6
GOLDEN = (0b0101, 0b1010)


def golden_values(pairs):
    """A mask of the golden values of some pairs."""
    return sum(1 << value for value in (0, 1) if pairs & GOLDEN[value])


def equal_pairs(values):
    return sum(EQUAL & GOLDEN[value] for value in (0, 1) if values >> value & 1)


def shown(site, pairs):
    """What a net of this site may show, where its driver gives these pairs."""
    if site is None:
        return pairs
    anything = sum(GOLDEN[value] for value in (0, 1) if pairs & GOLDEN[value])
    return anything if site == FREE else anything & (0b1100 if site else 0b0011)


@functools.lru_cache(None)
def left_by_table(places, truth, site, reads, own):
    """What a table leaves of the sets of the nets that it reads, each once, and of its own: the pairs of all values that agree with it. `places` has
    for each of its inputs the net that it reads, among these."""
    left, left_own = [0] * len(reads), 0
    for pairs in itertools.product(*[[p for p in range(4) if some >> p & 1] for some in reads]):
        golden = faulty = 0
        for place in places:
            golden, faulty = 2 * golden + (pairs[place] & 1), 2 * faulty + (pairs[place] >> 1)
        agree = shown(site, 1 << truth[golden] + 2 * truth[faulty]) & own
        if agree:
            left_own |= agree
            left = [some | 1 << pair for some, pair in zip(left, pairs)]
    return left, left_own


class Tables:
    """The netlist as the rules read it. A table of more than six inputs isn't looked into: its net may show any pair."""

    def __init__(self, net):
        self.net, self.rules, self.wide = net, {}, set()
        self.readers, self.latches = [[] for _ in net.names], [(net.drivers[n][1], n, net.drivers[n][2]) for n in net.latches]
        self.taken_by = [[] for _ in net.names]
        self.driven = [*net.latches, *net.order]
        for number, (source, _, _) in enumerate(self.latches):
            self.taken_by[source].append(number)
        for n in net.order:
            _, ins, cubes, on = net.drivers[n]
            if len(ins) > MOST_INPUTS:
                self.wide.add(n)
                continue
            reads = list(dict.fromkeys(ins))
            matches = lambda bits: any(all(cell == 45 or cell - 48 == bit for cell, bit in zip(cube, bits)) for cube in cubes)
            truth = tuple(int(matches(bits) == bool(on)) for bits in itertools.product((0, 1), repeat=len(ins)))
            self.rules[n] = reads, tuple(reads.index(m) for m in ins), truth
            for m in reads:
                self.readers[m].append(n)

    def left(self, n, site, sets):
        """The nets of a table, and what it leaves of their sets."""
        reads, places, truth = self.rules[n]
        left, own = left_by_table(places, truth, site, tuple(sets[m] for m in reads), sets[n])
        return [*zip(reads, left), (n, own)]

    def reached(self, some):
        """What these nets reach within a cycle."""
        found, left = set(some), list(some)
        while left:
            more = [n for n in self.readers[left.pop()] if n not in found]
            found.update(more)
            left += more
        return found


class Empty(Exception):
    """A set has lost its last pair: no two runs are so."""


class Window:
    """The sets of all nets in each cycle of a window: no alarm is raised in the golden run, nor in the first cycles of the other one. `bounds` are
    the golden values that two runs may have to which nothing is done."""

    def __init__(self, tables, held, alarms, window, ahead):
        self.tables, self.held, self.alarms, self.until, self.last = tables, held, alarms, window, window + ahead
        self.bounds = [[0b11] * len(tables.net.names) for _ in range(self.last + 1)]

    def begin(self, sites, starts, all_wait=False):
        """All pairs but those that go by a rule about one set, and what is left when no rule takes one more away. Where nothing that is done reaches, the runs are alike."""
        self.sites, self.waiting, self.trail = sites, collections.OrderedDict(), []
        self.sets, reached = [[equal_pairs(values) for values in bounds] for bounds in self.bounds], set()
        for frame, sets in enumerate(self.sets):
            unlike = [n for number, (source, n, _) in enumerate(self.tables.latches) if (starts[number] & UNEQUAL if frame == 0 else source in reached)]
            reached = self.tables.reached([*sites, *self.tables.wide, *unlike])
            for n in reached:
                is_input = self.tables.net.drivers[n][0] == "input"
                sets[n] = shown(sites.get(n), sets[n]) if n in sites or is_input else shown(FREE, sets[n])
            self.waiting.update({(frame, n): None for n in self.tables.driven if all_wait or n in reached})
        for number, (_, n, _) in enumerate(self.tables.latches):
            self.keep(0, n, starts[number])
        for frame in range(self.last + 1):
            for n in self.alarms:
                self.keep(frame, n, 0b0001 if frame <= self.until else 0b0101)
            for n, _, _, value in self.held if all_wait else ():
                self.keep(frame, n, GOLDEN[value])
        self.settle()

    def keep(self, frame, n, pairs):
        """Of a set these pairs are left; who speaks of it is looked at again where it has lost one."""
        old = self.sets[frame][n]
        if old & ~pairs == 0:
            return
        self.trail.append((frame, n, old))
        self.sets[frame][n] = old & pairs
        if not old & pairs:
            raise Empty
        self.waiting.update({(frame, m): None for m in [n, *self.tables.readers[n]]})
        if frame < self.last:
            self.waiting.update({(frame + 1, self.tables.latches[number][1]): None for number in self.tables.taken_by[n]})

    def settle(self):
        while self.waiting:
            (frame, n), _ = self.waiting.popitem(last=False)
            site, sets, driver = self.sites.get(n), self.sets[frame], self.tables.net.drivers[n]
            if n in self.tables.rules:
                for m, pairs in self.tables.left(n, site, sets):
                    self.keep(frame, m, pairs)
            elif driver[0] == "latch" and frame > 0:
                self.keep(frame, n, shown(site, self.sets[frame - 1][driver[1]]))
                self.keep(frame - 1, driver[1], sum(1 << p for p in range(4) if shown(site, 1 << p) & sets[n]))

    def refutes(self, n, pair):
        """Is it shown that the net hasn't this pair in the first cycle? The sets are as before afterwards."""
        mark = len(self.trail)
        try:
            self.keep(0, n, 1 << pair)
            self.settle()
            return False
        except Empty:
            return True
        finally:
            self.waiting.clear()
            for frame, m, old in reversed(self.trail[mark:]):
                self.sets[frame][m] = old
            del self.trail[mark:]

    def forced(self, n, pairs):
        """Those of some pairs that the net may have in the first cycle."""
        return [pair for pair in range(4) if self.sets[0][n] & pairs & 1 << pair and not self.refutes(n, pair)]


class Claims:
    """What is claimed of a netlist and its points, whatever the region: an alarm comes in the window, from the first cycle on that is spoken of."""

    def __init__(self, plan, held, window, ahead):
        self.plan, self.held, self.window, self.ahead = plan, held, window, ahead
        self.first, self.tables = max([it[1] for it in held], default=0), Tables(plan.net)
        self.observed, self.windows, self.alike, self.led_in = list(dict.fromkeys(n for _, _, nets in plan.goals for n in nets)), {}, {}, {}

    def lead_in(self, sites):
        """The pairs of each latch at the first cycle, and whether an observation net may differ before it."""
        key = tuple(sites.items())
        if key not in self.led_in:
            self.led_in[key] = self.first_cycles(sites)
        starts, is_early = self.led_in[key]
        return [*starts], is_early

    def first_cycles(self, sites):
        tables, is_early = self.tables, False
        starts = [shown(sites.get(n), 0b1000 if start else 0b0001) for _, n, start in tables.latches]
        for cycle in range(self.first):
            sets = [ALL] * len(tables.net.names)
            for (_, n, _), pairs in zip(tables.latches, starts):
                sets[n] = pairs
            for n in tables.net.inputs:
                sets[n] = shown(sites.get(n), EQUAL)
            for n, start, before, value in self.held:
                now = value if cycle >= start else before
                sets[n] &= ALL if now is None else GOLDEN[now]
            for n in tables.net.order:
                sets[n] = tables.left(n, sites.get(n), sets)[-1][1] if n in tables.rules else ALL
            is_early = is_early or any(sets[n] & UNEQUAL for n in self.observed)
            starts = [shown(sites.get(n), sets[source]) for source, n, _ in tables.latches]
        return starts, is_early

    def contradict(self):
        """Is there no window without an alarm behind what held inputs leave of the first cycles, where nothing is done?"""
        try:
            Window(self.tables, self.held, self.plan.alarms, self.window, self.ahead).begin({}, self.lead_in({})[0], True)
            return False
        except Empty:
            return True

    def of_length(self, length):
        """The windows of a length, with what they leave of two runs to which nothing is done, and the pairs with which these start."""
        if length not in self.windows:
            window, starts = Window(self.tables, self.held, self.plan.alarms, length, self.ahead), self.lead_in({})[0]
            while True:
                window.begin({}, starts, True)
                if not self.grow(window, starts):
                    break
            window.bounds = [[golden_values(pairs) for pairs in sets] for sets in window.sets]
            self.windows[length], self.alike[length] = window, starts
        return self.windows[length]

    def grow(self, window, starts):
        """Latches get the pairs that the first cycle forces on them; does one grow?"""
        grown = False
        for number, (source, n, _) in enumerate(self.tables.latches):
            leaving = sum(1 << pair for pair in range(4) if shown(window.sites.get(n), 1 << pair) & ~starts[number])
            for pair in window.forced(source, leaving):
                starts[number] |= shown(window.sites.get(n), 1 << pair)
                grown = True
        return grown

    def closes(self, window, sites, starts):
        """Does each window that starts with the least pairs go on as it began, with no difference at an observation net in its first cycle?"""
        try:
            while True:
                window.begin(sites, starts)
                if any(window.forced(n, UNEQUAL) for n in self.observed):
                    return False
                if not self.grow(window, starts):
                    return True
        except Empty:
            return True

    def proves(self, sites, length=None):
        """Is the claim proved with this region? Where anything may be done to a net, what two runs have to which nothing is done is among the least pairs; where one is held it is more, and so a first try."""
        length = self.window if length is None else length
        window, (least, _) = self.of_length(length), self.lead_in(sites)
        more = [pairs | own for pairs, own in zip(least, self.alike[length])]
        return self.closes(window, sites, more) or any(site != FREE for site in sites.values()) and self.closes(window, sites, least)

    def covered_alone(self, nets):
        """Those of some nets of which each alone is covered, whatever is done there. What is proved of all at once is proved of each."""
        if not nets or self.proves(dict.fromkeys(nets, FREE)):
            return set(nets)
        half = len(nets) // 2
        return self.covered_alone(nets[:half]) | self.covered_alone(nets[half:]) if half else set()


def part_words(claims, mine, seen, covered):
    """How a part stands as a whole, and the least window with which it does."""
    if not seen & set(mine):
        return "yes", "-"
    open_alone, region = [n for n in mine if n in seen - covered], [n for n in mine if n not in seen - covered]
    if not seen & set(region) or not claims.proves(dict.fromkeys(region, FREE)):
        return "no", "-"
    least = next(w for w in range(claims.window + 1) if w == claims.window or claims.proves(dict.fromkeys(region, FREE), w))
    return f"but {len(open_alone)}" if open_alone else "yes", least


def verdicts(claims, seen, covered):
    """How each fault stands."""
    for kind, n, at in claims.plan.faults:
        if n not in seen:
            yield "no-path"
            continue
        sites = {n: at if kind == "stuck" else FREE}
        if n not in covered and not (kind == "stuck" and claims.proves(sites)):
            yield "open"
            continue
        waits = kind != "stuck" and at >= claims.first
        yield "early" if not waits and claims.lead_in(sites)[1] else "alarmed"


def least_lines(plan, since, stands, proved):
    """SPFM where each fault that isn't proved is dangerous, and no other."""
    for lasts, word in ((True, "permanent"), (False, "transient")):
        mine = [i for i in range(len(plan.faults)) if plan.permanent[i] == lasts and role_of(plan, i) != "other"]
        whole, good = (sum(plan.weights[i] for i in some) for some in (mine, [i for i in mine if stands[i] in proved]))
        standing = "-" if not whole else "met" if 100 * good >= c.PER_CENT[plan.asil][0] * whole else "open"
        yield f"spfm {word} since {since} at-least {c.fraction(good, whole)} target {standing}".encode()


def role_of(plan, i):
    return plan.parts[plan.owner[plan.faults[i][1]]][1]


def held_lines(claims):
    for n, start, before, value in claims.held:
        yield b"held " + claims.plan.net.names[n] + f" {value} from {start}".encode() + (b"" if before is None else f" and {before} before".encode())
    yield f"window {claims.window} ahead {claims.ahead}".encode()
    yield f"assumes no alarm without a fault from cycle {claims.first} on".encode()


def part_lines(claims, seen, covered, stands):
    plan = claims.plan
    for p, (name, role, is_covered, _, _) in enumerate(plan.parts):
        mine = [stands[i] for i, (_, n, _) in enumerate(plan.faults) if plan.owner[n] == p]
        word, window = part_words(claims, [n for n, owner in enumerate(plan.owner) if owner == p], seen, covered)
        counts = " ".join(f"{kind} {mine.count(kind)}" for kind in ("no-path", "alarmed", "early", "open"))
        yield b"part " + name + f" {role} {'covered' if is_covered else 'uncovered'} whole {word} window {window} faults {len(mine)} {counts}".encode()


def text(claims):
    plan, net = claims.plan, claims.plan.net
    seen = leading_to_a_point(plan)
    covered = set().union(*[claims.covered_alone([n for n in range(len(net.names)) if n in seen and plan.owner[n] == p]) for p in range(len(plan.parts))])
    stands = list(verdicts(claims, seen, covered))
    lines = [b"fmeda-always 1", f"nets {len(net.names)} latches {len(net.latches)} faults {len(plan.faults)} ftti {plan.ftti} asil {plan.asil}".encode()]
    lines += [*held_lines(claims), *part_lines(claims, seen, covered, stands)]
    lines += least_lines(plan, 0, stands, ("no-path", "alarmed"))
    lines += least_lines(plan, claims.first, stands, ("no-path", "alarmed", "early"))
    for kind in ("early", "open"):
        lines += [kind.encode() + b" " + c.fault_name(net, plan.faults[i]) + b" " + str(plan.weights[i]).encode()
                  for i, own in enumerate(stands) if own == kind and role_of(plan, i) != "other"]
    return b"\n".join([*lines, b"end", b""])


def always(plan, held, window, ahead):
    shortest = min(plan.ftti if own is None else own for _, own, _ in plan.goals)
    if not plan.alarms:
        raise c.Refused(19, b"no alarm point")
    if window is not None and window > shortest:
        raise c.Refused(19, f"window {window} is longer than the shortest interval, {shortest}".encode())
    claims = Claims(plan, held, min(MOST_WINDOW, shortest) if window is None else window, ahead)
    if claims.contradict():
        raise c.Refused(19, b"each run raises an alarm without a fault")
    return text(claims)
