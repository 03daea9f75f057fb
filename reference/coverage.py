"""What the metrics rest on: the text of `coverage`, once more from the rules in docs/.

The kind of evidence for a fault is the first that fits. Each reading is a campaign of its own here, and nothing is shared between two of them."""
import campaign as c
import kept
from readings import with_points

KINDS = ("no-path", "never", "quiet", "noticed", "caught", "harm")
HARMFUL = ("residual", "single-point")


def leading_to_a_point(plan):
    """The nets from which a path over tables and latches leads to an observation point."""
    found = {n for _, _, nets in plan.goals for n in nets}
    left = list(found)
    while left:
        kind, reads, *_ = plan.net.drivers[left.pop()]
        more = {"input": [], "latch": [reads], "table": reads}[kind]
        left += [n for n in dict.fromkeys(more) if n not in found]
        found.update(more)
    return found


def excited(plan):
    """The faults of which the net differs from the golden run in some cycle of some run, a bit each."""
    count, found, own = len(plan.faults), 0, [0] * len(plan.net.names)
    for i, (_, n, _) in enumerate(plan.faults):
        own[n] |= 1 << i
    for _, _, vectors in plan.runs:
        for values in c.simulated(plan.net, [[fault] for fault in plan.faults], vectors):
            for value, mine in zip(values, own):
                found |= c.differing(value, count) & mine
    return found


def evidence(plan):
    leading, tried = leading_to_a_point(plan), excited(plan)
    danger, noticed = c.outcomes(plan.net, plan.faults, plan.runs, plan.goals, plan.alarms, plan.ftti)
    danger_without_alarms, _ = c.outcomes(plan.net, plan.faults, plan.runs, plan.goals, [], plan.ftti)
    for i, (_, n, _) in enumerate(plan.faults):
        fits = {"no-path": n not in leading, "harm": danger >> i & 1, "caught": danger_without_alarms >> i & 1, "never": not tried >> i & 1,
                "noticed": noticed >> i & 1, "quiet": True}
        yield next(kind for kind, does in fits.items() if does)


class Told:
    """The evidence and the class of each fault in one reading."""

    def __init__(self, plan):
        planes = c.true_planes(plan)
        self.plan, self.sums, self.kinds = plan, c.total(plan, planes), list(evidence(plan))
        self.classes = [c.fault_class(plan, planes, i) for i in range(len(plan.faults))]

    def free(self, *kinds):
        """The faults of these kinds that count in the metrics."""
        return [i for i, (kind, of) in enumerate(zip(self.kinds, self.classes)) if kind in kinds and of != "outside"]

    def weight(self, of_which):
        return sum(self.plan.weights[i] for i in of_which)

    def part_lines(self):
        for p, (name, role, _, *rates) in enumerate(self.plan.parts):
            for lasts, word, rate in zip((True, False), ("permanent", "transient"), rates):
                mine = [i for i, (_, n, _) in enumerate(self.plan.faults) if self.plan.owner[n] == p and self.plan.permanent[i] == lasts]
                head = b"part " + name + b" " + role.encode()
                yield head + self.evidence_words(word, rate, mine)
                if lasts and role == "mechanism":
                    yield head + self.latent_words(rate, mine)

    def evidence_words(self, word, rate, mine):
        told = {kind: self.weight(i for i in mine if self.kinds[i] == kind) for kind in KINDS}
        weights = " ".join(f"{kind} {weight}" for kind, weight in told.items())
        return f" {word} rate {rate} {weights} coverage {c.fraction(told['caught'], told['caught'] + told['harm'])}".encode()

    def latent_words(self, rate, mine):
        harm, detected, latent = (self.weight(i for i in mine if self.classes[i] in of) for of in (HARMFUL, ("detected",), ("latent",)))
        return f" latent rate {rate} harm {harm} detected {detected} latent {latent} coverage {c.fraction(detected, detected + latent)}".encode()

    def found_lines(self):
        lines = c.metric_lines(self.plan, self.sums)
        for value, target in zip(lines[2:6], lines[6:]):
            yield f"found {value} target {target.split()[-1]}".encode()

    def upset_lines(self):
        """How many upsets of the mission were tried, and what the flips of each cycle weigh; the latches of other hardware are in no metric."""
        plan = self.plan
        if not plan.flips:
            return
        counted = {n for n in plan.net.latches if plan.parts[plan.owner[n]][1] != "other"}
        missions = [len(vectors) for _, kind, vectors in plan.runs if kind == b"mission"]
        tried = sum(1 for kind, n, t in plan.faults if kind == "flip" and n in counted for cycles in missions if t < cycles)
        yield f"upsets {tried} of {sum(len(counted) * cycles for cycles in missions)}".encode()
        own = {t: [] for t in plan.flips}
        for i, (kind, n, t) in enumerate(plan.faults):
            if kind == "flip" and n in counted:
                own[t].append(i)
        for t, flips in own.items():
            rate, harm = self.weight(flips), self.weight(i for i in flips if self.kinds[i] == "harm")
            yield f"cycle {t} harm {harm} rate {rate} spfm transient {c.fraction(rate - harm, rate)}".encode()

    def bound_lines(self, word, free):
        lasting = self.weight(i for i in free if self.plan.permanent[i])
        yield f"{word} faults {len(free)} permanent {lasting} transient {self.weight(free) - lasting}".encode()
        classes = [*self.classes]
        for i in free:
            classes[i] = None
        for label, least, greatest, standing in kept.bounds_of(self.plan, classes):
            yield f"{word} {label} from {least} to {greatest} target {standing}".encode()

    def lines(self):
        yield from self.part_lines()
        yield from self.found_lines()
        yield from self.upset_lines()
        yield from self.bound_lines("unexcited", self.free("never"))
        yield from self.bound_lines("unreached", self.free("never", "quiet"))

    def names(self):
        for i in self.free("never", "quiet"):
            yield self.kinds[i].encode() + b" " + c.fault_name(self.plan.net, self.plan.faults[i]) + b" " + str(self.plan.weights[i]).encode()


def coverage(plan):
    whole, lines = Told(plan), [b"fmeda-coverage 1", b"reading all"]
    lines += whole.lines()
    for goal in plan.goals if len(plan.goals) > 1 else []:
        lines += [b"reading goal " + (goal[0] or b"-"), *Told(with_points(plan, goals=[goal])).lines()]
    return b"\n".join([*lines, *whole.names(), b"end", b""])
