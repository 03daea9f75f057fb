"""Campaigns: faults, danger, notice, classes, weights, metrics, and the texts, once more from the rules in docs/.

All faults are simulated at once, each net being one long integer with a bit for each fault and one for the golden run."""
import hashlib

import bench
import netlist as blif
import tables

MOST_FILE, MOST_FAULTS, MOST_OUTPUTS = 2**26, 2**20, 1024
PER_CENT = {"B": (90, 60, 10**8), "C": (97, 80, 10**8), "D": (99, 90, 10**7)}


class Refused(Exception):
    def __init__(self, status, words):
        self.status, self.line = status, b"refused: " + words + b"\n"


def held(name):
    try:
        with open(name, "rb") as file:
            text = file.read(MOST_FILE + 1)
    except OSError:
        raise Refused(20, b"cannot read " + name.encode())
    if len(text) > MOST_FILE:
        raise Refused(10, name.encode() + b" is longer than 67108864 bytes")
    return text


def row_fault(fault):
    return Refused({"rates": 5, "points": 8, "workload": 9, "held": 18}[fault.file], f"{fault.file} row {fault.row} {fault.kind}".encode())


class Plan:
    """What a campaign is about. `texts` are the four files' bytes."""


def read_netlist(text, name, most_outputs=None):
    """The netlist of a file, which is in the `.bench` form where its name ends so, and in BLIF otherwise."""
    status, word, reader = (14, "bench", bench.read_bench) if name.endswith(".bench") else (3, "netlist", blif.read_blif)
    try:
        net = reader(text)
    except blif.NetlistFault as fault:
        raise Refused(status, f"{word} line {fault.line} {fault.kind}".encode() + (b" " + fault.name if fault.name is not None else b""))
    try:
        net.order = blif.order_of(net)
    except blif.Loop as loop:
        raise Refused(4, b"loop " + b" ".join(net.names[n] for n in loop.nets))
    if most_outputs is not None and len(net.outputs) > most_outputs:
        raise Refused(10, b"more than 1024 outputs")
    return net


def faults_of(net, flips, pulses):
    """('stuck', net, value), ('flip', latch's net, cycle), ('pulse', net, cycle), in the order of the list."""
    stuck = [("stuck", n, v) for n in range(len(net.names)) for v in (0, 1)]
    return stuck + [("flip", n, c) for n in net.latches for c in flips] + [("pulse", n, c) for n in range(len(net.names)) for c in pulses]


def fault_name(net, fault):
    kind, n, at = fault
    return net.names[n] + {"stuck": b"/", "flip": b"^", "pulse": b"~"}[kind] + str(at).encode()


def outcomes(net, faults, runs, goals, alarms, ftti):
    """The planes of danger and of notice of all faults, each alone, as integers."""
    return outcomes_of_lists(net, [[fault] for fault in faults], runs, goals, alarms, ftti)


def places_of(lists):
    """Where the lists force a net low or high, and where they invert a state or a value, by cycle: a bit for each list.
    Of two stuck-at faults of a list on one net the first decides."""
    low, high, flips, pulses = {}, {}, {}, {}
    for i, faults in enumerate(lists):
        for kind, n, at in faults:
            if kind == "stuck" and (low.get(n, 0) | high.get(n, 0)) >> i & 1:
                continue
            where = {"stuck": high if at else low, "flip": flips.setdefault(at, {}), "pulse": pulses.setdefault(at, {})}[kind]
            where[n] = where.get(n, 0) | 1 << i
    return low, high, flips, pulses


def simulated(net, lists, vectors):
    """Of each cycle of a run, in order: of each net a bit for each list of faults, and one for the golden run behind them."""
    everyone = (1 << len(lists) + 1) - 1
    low, high, flips, pulses = places_of(lists)
    state = {n: everyone if net.drivers[n][2] else 0 for n in net.latches}
    for t, vector in enumerate(vectors):
        values, flip, pulse = [0] * len(net.names), flips.get(t, {}), pulses.get(t, {})
        force = lambda n, value: (value ^ pulse.get(n, 0)) & ~low.get(n, 0) | high.get(n, 0)
        for place, n in enumerate(net.inputs):
            values[n] = force(n, everyone if vector[place] else 0)
        for n in net.latches:
            values[n] = force(n, state[n] ^ flip.get(n, 0))
        for n in net.order:
            _, ins, cubes, on = net.drivers[n]
            some = 0
            for cube in cubes:
                match = everyone
                for m, c in zip(ins, cube):
                    if c == 49:
                        match &= values[m]
                    elif c == 48:
                        match &= ~values[m]
                some |= match
            values[n] = force(n, some if on else everyone ^ some)
        state = {n: values[net.drivers[n][1]] for n in net.latches}
        yield values


def differing(value, count):
    """The lists among so many for which a net differs from the golden run."""
    everyone = (1 << count) - 1
    return (value ^ (everyone if value >> count else 0)) & everyone


def outcomes_of_lists(net, lists, runs, goals, alarms, ftti):
    """The planes of danger and of notice of lists of faults, those of one list being there together."""
    count, danger, noticed = len(lists), 0, 0
    for _, kind, vectors in runs:
        raised_yet, waiting = 0, [[] for _ in goals]
        for t, values in enumerate(simulated(net, lists, vectors)):
            for n in alarms:
                differs = differing(values[n], count)
                if not values[n] >> count:
                    raised_yet |= differs
                    noticed |= differs
                elif kind == b"test":
                    noticed |= differs
            if kind == b"mission":
                for (_, own, nets), open_ in zip(goals, waiting):
                    differs = 0
                    for n in nets:
                        differs |= differing(values[n], count)
                    open_.append(differs)
                    last = t - (ftti if own is None else own)
                    if last >= 0:
                        danger |= open_[last] & ~raised_yet
                        open_[last] = 0
        for open_ in waiting:
            for differs in open_:
                danger |= differs & ~raised_yet
    return danger, noticed


def make_plan(names, flips, pulses, ftti=0, asil="D"):
    plan, texts = Plan(), []
    texts.append(held(names[0]))
    net = read_netlist(texts[0], names[0])
    try:
        texts.append(held(names[1]))
        runs = tables.read_workload(texts[1], net)
        texts.append(held(names[2]))
        patterns, parts = tables.read_rates(texts[2])
        texts.append(held(names[3]))
        goals, alarms = tables.read_points(texts[3], net)
    except tables.RowFault as fault:
        raise row_fault(fault)
    return plan_of(plan, texts, net, runs, patterns, parts, goals, alarms, flips, pulses, ftti, asil)


def plan_of(plan, texts, net, runs, patterns, parts, goals, alarms, flips, pulses, ftti, asil):
    if 2 * len(net.names) + len(net.latches) * len(flips) + len(net.names) * len(pulses) > MOST_FAULTS:
        raise Refused(10, b"more than 1048576 faults")
    owner = [tables.part_of(patterns, name) for name in net.names]
    for name, part in zip(net.names, owner):
        if part is None:
            raise Refused(6, b"no rate for net " + name)
    faults = faults_of(net, flips, pulses)
    permanent = [kind == "stuck" for kind, _, _ in faults]
    members = {}
    for i, (_, n, _) in enumerate(faults):
        members.setdefault((owner[n], permanent[i]), []).append(i)
    weights = [0] * len(faults)
    for p, part in enumerate(parts):
        for is_permanent, rate in ((True, part[3]), (False, part[4])):
            of = members.get((p, is_permanent), [])
            if rate and not of:
                raise Refused(7, b"part " + part[0] + b" has a " + (b"permanent" if is_permanent else b"transient") + b" rate and no such fault")
            for k, i in enumerate(of):
                weights[i] = rate // len(of) + (1 if k < rate % len(of) else 0)
    plan.texts, plan.net, plan.runs, plan.patterns, plan.parts, plan.goals, plan.alarms = texts, net, runs, patterns, parts, goals, alarms
    plan.flips, plan.pulses, plan.ftti, plan.asil = flips, pulses, ftti, asil
    plan.owner, plan.faults, plan.permanent, plan.weights = owner, faults, permanent, weights
    plan.batches = (len(faults) + 63) // 64
    return plan


def true_planes(plan):
    danger, noticed = outcomes(plan.net, plan.faults, plan.runs, plan.goals, plan.alarms, plan.ftti)
    word = 2**64 - 1
    return {b: (danger >> 64 * b & word, noticed >> 64 * b & word) for b in range(plan.batches)}


def class_of(danger, noticed, role, covered, permanent):
    if role == "other":
        return "outside"
    if danger:
        return "residual" if covered else "single-point"
    if noticed:
        return "detected"
    return "latent" if permanent and role == "mechanism" else "safe"


def fault_class(plan, planes, i):
    danger, noticed = planes[i // 64]
    _, role, covered, _, _ = plan.parts[plan.owner[plan.faults[i][1]]]
    return class_of(danger >> i % 64 & 1, noticed >> i % 64 & 1, role, covered, plan.permanent[i])


def own_sums(plan, planes, batch):
    sums = [0] * 5
    for i in range(64 * batch, min(64 * batch + 64, len(plan.faults))):
        kind, weight = fault_class(plan, planes, i), plan.weights[i]
        if kind != "outside":
            is_danger = kind in ("residual", "single-point")
            if plan.permanent[i]:
                sums[0] += weight
                sums[1] += weight * is_danger
                sums[2] += weight * (kind == "latent")
            else:
                sums[3] += weight
                sums[4] += weight * is_danger
    return sums


def fraction(num, den):
    return f"{num}/{den}" if den else "-"


def met(num, den, per_cent):
    return "-" if not den else "met" if 100 * num >= per_cent * den else "missed"


def metric_lines(plan, sums):
    p, d, latent, t, td = sums
    spfm, lfm, most = PER_CENT[plan.asil]
    return [
        f"permanent all {p} danger {d} latent {latent}", f"transient all {t} danger {td}", f"spfm permanent {fraction(p - d, p)}",
        f"spfm transient {fraction(t - td, t)}", f"lfm {fraction(p - d - latent, p - d)}", f"term {d + td}",
        f"target spfm permanent {met(p - d, p, spfm)}", f"target spfm transient {met(t - td, t, spfm)}",
        f"target lfm {met(p - d - latent, p - d, lfm)}", f"target term {'met' if d + td < most else 'missed'}",
    ]


def head_line(plan):
    net = plan.net
    return (f"nets {len(net.names)} latches {len(net.latches)} faults {len(plan.faults)} batches {plan.batches} workloads {len(plan.runs)} "
            f"cycles {sum(len(run[2]) for run in plan.runs)} ftti {plan.ftti} asil {plan.asil}")


def total(plan, planes):
    return [sum(column) for column in zip(*[own_sums(plan, planes, b) for b in planes])]


def report(plan, planes):
    classes = [fault_class(plan, planes, i) for i in range(len(plan.faults))]
    lines = [b"fmeda-report 1", head_line(plan).encode()]
    words = ("safe", "detected", "residual", "single-point", "latent", "outside")
    for p, (name, role, covered, permanent, transient) in enumerate(plan.parts):
        mine = [i for i, (_, n, _) in enumerate(plan.faults) if plan.owner[n] == p]
        counts = " ".join(f"{word} {sum(classes[i] == word for i in mine)}" for word in words)
        weight = lambda *kinds: sum(plan.weights[i] for i in mine if classes[i] in kinds)
        coverage = fraction(weight("detected"), weight("detected", "residual", "single-point"))
        lines.append(b"part " + name + f" {role} {'covered' if covered else 'uncovered'} permanent {permanent} transient {transient} "
                     f"faults {len(mine)} {counts} coverage {coverage}".encode())
    lines += [line.encode() for line in metric_lines(plan, total(plan, planes))]
    for i, kind in enumerate(classes):
        if kind in ("residual", "single-point", "latent"):
            lines.append(kind.encode() + b" " + fault_name(plan.net, plan.faults[i]) + b" " + str(plan.weights[i]).encode())
    return b"\n".join(lines + [b"end", b""])


def cycles_text(cycles):
    return ",".join(map(str, cycles)) or "none"


def settings_words(plan):
    pulses, flips = cycles_text(plan.pulses), plan.flips
    if isinstance(flips, range):
        return f"3 {plan.ftti} {flips.start}-{flips.stop - 1}/{flips.step} {pulses}"
    return f"2 {plan.ftti} {cycles_text(flips)} {pulses}" if plan.pulses else f"1 {plan.ftti} {cycles_text(flips)}"


def header(plan):
    settings = f"fmeda-settings {settings_words(plan)}"
    digest = hashlib.sha256(settings.encode() + b"\n" + b"".join(hashlib.sha256(t).hexdigest().encode() + b"\n" for t in plan.texts))
    return f"fmeda-result 1 {digest.hexdigest()} {plan.batches:08x}\n".encode()


def row_line(batch, planes, sums):
    return (f"r {batch:08x} {planes[0]:016x} {planes[1]:016x} " + " ".join(f"{s:016x}" for s in sums) + "\n").encode()


def result_text(plan, planes, order):
    text, sums = header(plan), [0] * 5
    for b in order:
        sums = [a + o for a, o in zip(sums, own_sums(plan, planes, b))]
        text += row_line(b, planes[b], sums)
    return text


def read_result(plan, text):
    """(planes by batch in file order, bytes to keep)."""
    own = header(plan)
    if len(text) < 89 and own.startswith(text):
        return {}, 0
    if text[:89] != own:
        found = text[:89].split(b"\n")[0][:88]
        shown = bytes(b if 32 <= b <= 126 else 63 for b in found)
        raise Refused(11, b"foreign result file, found " + shown + b", own " + own[:88])
    kept, sums = {}, [0] * 5
    rows = [text[at:at + 130] for at in range(89, len(text) - 129, 130)]
    for number, row in enumerate(rows, 1):
        words = row[:-1].split(b" ")
        form = [b"r"] + [None] * 8
        if row[-1:] != b"\n" or len(words) != 9 or words[0] != b"r" or [len(w) for w in words[1:]] != [8] + [16] * 7 or \
                any(c not in b"0123456789abcdef" for w in words[1:] for c in w):
            raise Refused(12, f"result row {number} Form".encode())
        batch, danger, noticed, *kept_sums = [int(w, 16) for w in words[1:]]
        if batch >= plan.batches:
            raise Refused(12, f"result row {number} Range".encode())
        if batch in kept:
            raise Refused(12, f"result row {number} Repeated".encode())
        used = min(64, len(plan.faults) - 64 * batch)
        if (danger | noticed) >> used:
            raise Refused(12, f"result row {number} UnusedLane".encode())
        kept[batch] = (danger, noticed)
        sums = [a + o for a, o in zip(sums, own_sums(plan, kept, batch))]
        if sums != kept_sums:
            show = lambda five: " ".join(f"{s:016x}" for s in five)
            raise Refused(12, f"result row {number} Sums kept {show(kept_sums)} computed {show(sums)}".encode())
    return kept, 89 + 130 * len(rows)
