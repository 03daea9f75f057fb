"""What of a campaign makes a good number worth less, as far as a program can notice it (docs/before-you-believe.md)."""
from dataclasses import dataclass

import causes
import coverages
import designs
import refusals
import reports
from designs import campaign, tables

CONSTANTS = ("$false", "$true", "$undef")


def read_rates(name):
    try:
        return tables.read_rates(designs.held(name))
    except tables.RowFault as fault:
        raise designs.Refused(f"{name}: row {fault.row} {fault.kind}")


def parts_by_net(name, design):
    patterns, parts = read_rates(name)
    found = {}
    for shown, raw in zip(design.names, design.net.names):
        part = tables.part_of(patterns, raw)
        if part is not None:
            found[shown] = parts[part][0].decode("latin-1")
    return found


def read_points(name, design):
    try:
        return tables.read_points(designs.held(name), design.net)
    except tables.RowFault as fault:
        more = refusals.of_row(fault.kind, name, fault.row, design.names)
        raise designs.Refused("; ".join([f"{name}: row {fault.row} {fault.kind}", *more]))


def cycles(text):
    """Of a list, as 1,5, or of a stretch, as 3-40 or 3-40/5."""
    bounds, _, step = text.partition("/")
    first, hyphen, last = bounds.partition("-")
    if hyphen:
        return range(int(first), int(last) + 1, int(step or 1))
    return [] if text == "none" else [int(it) for it in text.split(",")]


def plan_and_planes(asked):
    """The campaign, and the planes of danger and notice of its whole result file."""
    try:
        plan = campaign.make_plan([asked.netlist, asked.workload, asked.rates, asked.points], cycles(asked.flips), cycles(asked.pulses))
    except campaign.Refused as refused:
        raise designs.Refused(refused.line.decode("utf-8", "replace").strip())
    try:
        planes = {int(it[1], 16): (int(it[2], 16), int(it[3], 16)) for it in map(str.split, designs.held(asked.result).decode("latin-1").splitlines()[1:])}
    except (IndexError, ValueError):
        raise designs.Refused(f"{asked.result} is no result file")
    if sorted(planes) != list(range(plan.batches)):
        raise designs.Refused(f"{asked.result} has {len(planes)} of {plan.batches} batches; --flips and --pulses must be those of the campaign")
    return plan, planes


def other_faults(asked):
    """[class, fault, part, weight, ""] of each detected, safe or outside fault of a whole result file."""
    plan, planes = plan_and_planes(asked)
    found = []
    for i, fault in enumerate(plan.faults):
        kind = campaign.fault_class(plan, planes, i)
        if kind in ("detected", "safe", "outside"):
            part = plan.parts[plan.owner[fault[1]]][0].decode("latin-1")
            found.append([kind, campaign.fault_name(plan.net, fault).decode("latin-1"), part, plan.weights[i], ""])
    return found


@dataclass(frozen=True)
class Hint:
    """What was noticed, and the word by which ROWS and WRONG name it."""
    key: str
    text: str


# What the page says in place of hints.
NOTHING = "Nothing was noticed. docs/before-you-believe.md has what a program can't notice."


def told(hint, accepted):
    """A hint's text, with the reason for which it is known."""
    return f"{hint.text} Accepted: {accepted[hint.key]}" if hint.key in accepted else hint.text


# How the row of docs/before-you-believe.md begins that says why it matters.
ROWS = {
    "outside": "the part of role `other` has the constants alone", "patterns": "each pattern takes what you meant", "rates": "no part got its rate 0 to silence a refusal",
    "weights": "no part got its rate 0 to silence a refusal",
    "latches": "the latches are as many as in the design", "cycles": "the cycles of `--flips` and `--pulses` exist", "transient": "transient faults were asked for",
    "missions": "there is a run of kind `mission`", "mechanisms": "some part is a `mechanism`", "alarms": "the alarm is 0 in the golden run of the mission",
    "harm": "a mechanism has no residual or single-point faults", "golden": "the golden run is what the simulation of the RTL did", "safe": "few faults are `safe`",
    "outputs": "each net that the safety goal names is observed", "unread": "each net that the safety goal names is observed", "early": "harm before the reset is looked at by itself",
    "compared": "the golden run is what the simulation of the RTL did", "unknown": "inputs are known", "shorter": "the runs are as long as the simulations",
    "ended": "the runs are as long as the simulations",
    "shares": "flips and pulses share a rate as you mean it", "neighbours": "each pattern takes what you meant",
    "unexcited": "no metric is `open` in `fmeda coverage`", "start": "latches of unknown initial value don't matter", "goals": "one safety goal", "end": "the report ends with `end`, and the status was 0", "kept": "the settings were kept",
}
# Those that make a metric untrue, or one that says nothing; what isn't here is worth a look. The first may be meant, for a reason; the others never.
MAY_BE_MEANT = ("outside", "patterns", "rates", "weights", "mechanisms", "alarms", "harm", "unexcited", "goals")
# What is worth a look alone, and may be told to be known.
LOOKED_AT = ("outputs", "unread", "early", "safe", "start", "compared", "unknown", "ended", "shares", "neighbours", "admitted")
WRONG = (*MAY_BE_MEANT, "latches", "cycles", "missions", "golden", "end", "kept")


def of_runs(runs, asked):
    missions = [run for run in runs if run[1] == "mission"]
    if not missions:
        yield Hint("missions", "All runs are of kind test: no fault can be dangerous in them, so SPFM says nothing.")
    for option, listed in (("--upsets" if "-" in asked.flips else "--flips", asked.flips), ("--pulses", asked.pulses)):
        late = [c for c in cycles(listed) if all(c >= len(run[2]) for run in missions)]
        if late:
            late = late if len(late) <= 16 else [f"{late[0]} to {late[-1]}"]
            yield Hint("cycles", f"{option}: no mission run has the cycles {', '.join(map(str, late))}, so these faults do nothing and count as safe.")


def of_rates(design, asked):
    _, parts = read_rates(asked.rates)
    parts = [(part[0].decode("latin-1"), *part[1:]) for part in parts]
    owners = parts_by_net(asked.rates, design)
    outside = {name for name, role, *_ in parts if role == "other"}
    nets = [net for net, part in owners.items() if part in outside and net.rpartition(".")[2] not in CONSTANTS]
    if nets:
        yield Hint("outside", f"{len(nets)} nets other than the constants are outside (role other), as {nets[0]}: their faults count nowhere.")
    if not any(role == "mechanism" for _, role, *_ in parts):
        yield Hint("mechanisms", "No part has the role mechanism: nothing can be latent, so LFM says nothing.")
    silent = [name for name, role, _, permanent, _ in parts if role != "other" and not permanent and name in owners.values()]
    if silent:
        yield Hint("rates", f"The permanent rate of {', '.join(silent)} is 0: these stuck-at faults are classified, and weigh nothing.")


def of_latches(design):
    if design.unknown_starts:
        yield Hint("start", f"{design.unknown_starts} .latch lines give no initial value, and these latches start at 0. Do the metrics stay where they start at 1?")


MOST_SHOWN = 6


def some(names):
    return ", ".join(names[:MOST_SHOWN]) + (", .." if len(names) > MOST_SHOWN else "")


def read_by(design):
    """For each net that a table or a latch reads, the nets that they make."""
    found = {}
    for n, driver in enumerate(design.net.drivers):
        for read in driver[1] if driver[0] == "table" else [driver[1]] if driver[0] == "latch" else []:
            found.setdefault(read, []).append(n)
    return found


def of_unobserved(design, asked, goals, alarms):
    """Outputs that are no point, unless an observer reads them; and nets that nothing reads at all."""
    points, readers, owners = {n for _, _, nets in goals for n in nets} | set(alarms), read_by(design), parts_by_net(asked.rates, design)
    roles = {part[0].decode("latin-1"): part[1] for part in read_rates(asked.rates)[1]}
    is_outside = lambda n: roles.get(owners.get(design.names[n])) == "other"
    left = [n for n in dict.fromkeys(design.net.outputs) if n not in points and not is_outside(n) and not any(map(is_outside, readers.get(n, [])))]
    if left:
        yield Hint("outputs", f"{len(left)} outputs of the netlist are no point: {some([design.names[n] for n in left])}. A fault that reaches these alone counts as safe.")
    dead = [n for n, driver in enumerate(design.net.drivers) if driver[0] != "input" and n not in readers and n not in points and n not in design.net.outputs and not is_outside(n)]
    if dead:
        yield Hint("unread", f"{len(dead)} nets are read by nothing and are no point: {some([design.names[n] for n in dead])}. Their faults are safe whatever happens. "
                   "An observer is put behind the BLIF file, and not into the Verilog.")


def last_of_reset(design, runs):
    """(the reset's name, the last cycle in which the runs of the mission hold it), or (None, 0): before the first edge of the clock."""
    found = [(name, released - 1) for _, kind, vectors in runs if kind == "mission" for name, _, _, released in causes.resets(design, vectors)]
    return max(found, key=lambda it: it[1], default=(None, 0))


def early_faults(rows, last):
    """The harmful faults that first differ while the reset is held, and that an alarm finds later."""
    return [it for it in rows if it["class"] in reports.HARMFUL and it["interval"] != "-" and it["reached_cycle"] != "-" and int(it["reached_cycle"]) <= last]


def of_latencies(report, rows, design, runs):
    name, last = last_of_reset(design, runs)
    early = early_faults(rows, last)
    if not early:
        return
    weight = lambda sign: sum(int(it["weight"]) for it in early if (it["fault"].rpartition("/")[1] == "/") == sign)
    metrics = {metric: reports.per_cent(num + weight(metric == "spfm permanent"), den) for metric, num, den, _ in reports.metrics(report)}
    when = f"while {name} is held, in the cycles 0 to {last}" if name else "in cycle 0, before the first edge of the clock"
    yield Hint("early", f"{len(early)} harmful faults, {reports.fit(weight(True) + weight(False))} FIT, first differ {when}, and an alarm finds them later. They are no slow alarms: without them SPFM is "
               f"{metrics['spfm permanent']} (permanent) and {metrics['spfm transient']} (transient).")


def shares_of_transient(design, asked):
    """What share of the transient rate flips and pulses have in each part: each fault of a part weighs the same."""
    flips, pulses = len(cycles(asked.flips)), len(cycles(asked.pulses))
    if not flips or not pulses:
        return
    owners, latches, counts = parts_by_net(asked.rates, design), {design.names[n] for n in design.net.latches}, {}
    rated = {part[0].decode("latin-1") for part in read_rates(asked.rates)[1] if part[4]}
    for net in design.names:
        own = counts.setdefault(owners.get(net), [0, 0])
        own[0] += flips * (net in latches)
        own[1] += pulses
    shown = [f"{part} {100 * own[0] // sum(own)} % and {100 - 100 * own[0] // sum(own)} %" for part, own in counts.items() if part in rated]
    if shown:
        yield Hint("shares", f"Flips and pulses share the transient rate of a part by their number: {'; '.join(shown)}.")


def of_points(goals, alarms):
    if len(goals) > 1:
        yield Hint("goals", f"The points name {len(goals)} safety goals, and the metrics are of all of them together; the standard wants them for each.")
    if not alarms:
        yield Hint("alarm", "There is no alarm: nothing can be detected.")


def of_files(design, asked):
    """What can be noticed before a campaign is run."""
    points = read_points(asked.points, design)
    return [*of_runs(designs.read_runs(asked.workload, design), asked), *of_rates(design, asked), *of_latches(design), *of_points(*points), *of_unobserved(design, asked, *points)]


def of_report(report):
    for part in report.parts:
        if part.role != "other" and part.faults and 2 * part.counts["safe"] > part.faults:
            yield Hint("safe", f"Part {part.name}: {part.counts['safe']} of {part.faults} faults are safe. Does the workload use this part?")
        if part.role == "mechanism" and part.counts["residual"] + part.counts["single-point"]:
            yield Hint("harm", f"Part {part.name} is a mechanism with harmful faults: look whether its patterns take nets of another part.")
    nothing = [f for f in report.faults if not f.weight]
    if nothing:
        yield Hint("weights", f"{len(nothing)} residual, single-point or latent faults have the weight 0, since their part has no rate, as {nothing[0].name}.")
    for name, verdict in report.targets.items():
        if verdict == "-":
            yield Hint("transient", f"Target {name}: nothing was looked at.")


def of_coverage(readings, names):
    """The targets that are met, and would not be if the faults that no run excited did harm."""
    never = [fault for kind, fault, _ in names if kind == "never"]
    for reading in readings:
        hangs = [f"{metric} {coverages.shown(metric, coverages.worst(metric, reading.bounds['unexcited']))} in place of {coverages.shown(metric, reading.found[metric][0])}"
                 for metric, *_ in coverages.open_targets(reading, "unexcited")]
        if hangs:
            of = "" if reading.words == "all" else f"Of {reading.words}: "
            yield Hint("unexcited", f"{of}{reading.bounds['unexcited'][0]} faults were never excited, as {some(never)}. If they do harm, these targets are no longer met: {'; '.join(hangs)}.")


def found(report, design, asked):
    """The hints for a report and its files."""
    return [*of_files(design, asked), *of_report(report)]
