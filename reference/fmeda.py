#!/usr/bin/env python3
"""A slow second program with the words, texts and exit statuses of `fmeda`, on one thread. It serves to check expected values."""
import pathlib
import re
import sys

sys.path.insert(0, str(pathlib.Path(__file__).resolve().parent))
import always
import campaign as c
import coverage
import kept
import readings
import tables
import waves
from campaign import Refused

USAGE = Refused(2, b"usage")
OPTIONS = {"classes": "", "check": "flips upsets pulses", "run": "ftti flips upsets pulses workers asil", "resume": "ftti flips upsets pulses workers asil",
           "audit": "every alone ftti flips upsets pulses", "gen": "workers", "report": "ftti flips upsets pulses asil", "shard": "part of ftti flips upsets pulses",
           "merge": "ftti flips upsets pulses", "reweigh": "ftti flips upsets pulses", "pairs": "ftti flips upsets pulses workers", "parts": "", "faults": "ftti flips upsets pulses",
           "progress": "ftti flips upsets pulses asil", "breakdown": "ftti flips upsets pulses asil intervals workers", "latencies": "ftti flips upsets pulses asil workers",
           "coverage": "ftti flips upsets pulses asil workers", "trace": "run fault flips upsets pulses nets", "always": "ftti window ahead flips upsets pulses asil"}
PLACES = {"classes": 2, "check": 4, "run": 5, "resume": 5, "audit": 5, "gen": 2, "report": 4, "shard": 5, "merge": 7, "reweigh": 7, "pairs": 5, "parts": 2,
          "faults": 5, "progress": 5, "breakdown": 4, "latencies": 4, "coverage": 4, "trace": 2, "always": 4}
WRITTEN = {"reweigh": 6}  # the place of the file that is written, which is the fifth in other commands
MOST_PARTS, MOST_PAIRS = 1024, 2**20


def number(text, least, most):
    if re.fullmatch(r"\+?[0-9]+|-0+", text) is None or not least <= int(text) <= most:
        raise USAGE
    return int(text)


def cycles(text, most, last=65535):
    if text == "none":
        return []
    parts = text.split(",")
    if any(re.fullmatch("0|[1-9][0-9]{0,4}", p) is None for p in parts):
        raise USAGE
    found = [int(p) for p in parts]
    if len(found) > most or found[-1] > last or any(a >= b for a, b in zip(found, found[1:])):
        raise USAGE
    return found


def stretch(text):
    found = re.fullmatch("(0|[1-9][0-9]{0,4})-(0|[1-9][0-9]{0,4})(?:/([1-9][0-9]{0,4}))?", text)
    first, last, step = (int(n or 1) for n in found.groups()) if found else (1, 0, 1)
    if first > last or max(last, step) > 65535:
        raise USAGE
    return range(first, last + 1, step)


def words_of(words):
    if not words or words[0] not in PLACES:
        raise USAGE
    command, names, said, rest = words[0], [], {}, list(words[1:])
    while rest:
        word = rest.pop(0)
        if not word.startswith("--"):
            if word.startswith("-"):
                raise USAGE
            names.append(word)
            continue
        option, has_value, value = word[2:].partition("=")
        if option == "alone" and command == "audit" and not has_value and option not in said:
            said[option] = ""
            continue
        if option not in OPTIONS[command].split() or option in said or option == "alone" or not has_value and not rest:
            raise USAGE
        said[option] = value if has_value else rest.pop(0)
    if len(names) != PLACES[command]:
        raise USAGE
    written = WRITTEN.get(command, 4)
    if PLACES[command] >= 5 and names[written] in names[:written] + names[written + 1:]:
        raise USAGE
    if command == "shard":
        if "part" not in said or "of" not in said:
            raise USAGE
        said["of"] = number(said["of"], 1, MOST_PARTS)
        said["part"] = number(said["part"], 0, said["of"] - 1)
    said = {"ftti": "0", "flips": "none", "upsets": "none", "pulses": "none", "workers": "1", "asil": "D", "intervals": "none", "every": "1", "run": "1", "fault": None, "nets": None, "window": None, "ahead": "1", **said}
    said["ftti"], said["workers"] = number(said["ftti"], 0, 4096), number(said["workers"], 1, 32)
    said["run"] = number(said["run"], 1, 65536)
    said["ahead"] = number(said["ahead"], 0, 8)
    said["window"] = None if said["window"] is None else number(said["window"], 0, 8)
    said["every"] = number(said["every"], 1, 16384)
    said["intervals"] = cycles(said["intervals"], 16, 4096)
    said["flips"], said["pulses"] = cycles(said["flips"], 16), cycles(said["pulses"], 4)
    if said["upsets"] != "none":
        if said["flips"]:
            raise USAGE
        said["flips"] = stretch(said["upsets"])
    if said["asil"] not in ("B", "C", "D"):
        raise USAGE
    if command == "gen":
        names[0] = number(names[0], 1, 1000)
    return command, names, said


def classes(netlist, workload):
    net = c.read_netlist(c.held(netlist), netlist, c.MOST_OUTPUTS)
    try:
        runs = tables.read_workload(c.held(workload), net)
    except tables.RowFault as fault:
        raise c.row_fault(fault)
    faults = c.faults_of(net, [], [])
    if len(faults) > c.MOST_FAULTS:
        raise Refused(10, b"more than 1048576 faults")
    danger, noticed = c.outcomes(net, faults, runs, [(b"", None, net.outputs)], [], 0)
    shown = [c.fault_name(net, f) + b" " + c.class_of(danger >> i & 1, noticed >> i & 1, "mission", False, True).encode() for i, f in enumerate(faults)]
    return b"\n".join(shown + [f"end {len(faults)}".encode(), b""])


def parts(netlist, rates):
    net = c.read_netlist(c.held(netlist), netlist)
    try:
        return kept.parts(net, *tables.read_rates(c.held(rates)))
    except tables.RowFault as fault:
        raise c.row_fault(fault)


def trace(names, said):
    net = c.read_netlist(c.held(names[0]), names[0])
    try:
        runs = tables.read_workload(c.held(names[1]), net)
    except tables.RowFault as fault:
        raise c.row_fault(fault)
    name, wanted = (None if said[option] is None else said[option].encode() for option in ("fault", "nets"))
    return waves.trace(net, runs, c.faults_of(net, said["flips"], said["pulses"]), said["run"], name, wanted)


def always_text(names, said):
    """The plan has no workload: nothing is said of the runs."""
    texts = [c.held(names[0])]
    net = c.read_netlist(texts[0], names[0])
    try:
        texts.append(c.held(names[1]))
        rates = tables.read_rates(texts[1])
        texts.append(c.held(names[2]))
        points = tables.read_points(texts[2], net)
        plan = c.plan_of(c.Plan(), texts, net, [], *rates, *points, said["flips"], said["pulses"], said["ftti"], said["asil"])
        held = tables.read_held(c.held(names[3]), net)
    except tables.RowFault as fault:
        raise c.row_fault(fault)
    return always.always(plan, held, said["window"], said["ahead"])


def check(plan):
    net, (goals, alarms) = plan.net, (plan.goals, plan.alarms)
    return (f"netlist nets {len(net.names)} inputs {len(net.inputs)} tables {len(net.tables)} latches {len(net.latches)}\n"
            f"workload workloads {len(plan.runs)} cycles {sum(len(r[2]) for r in plan.runs)}\n"
            f"rates parts {len(plan.parts)} units {sum(p[3] + p[4] for p in plan.parts)}\n"
            f"points observe {sum(len(g[2]) for g in goals)} alarm {len(alarms)}\n"
            f"faults {len(plan.faults)} batches {plan.batches}\n").encode()


def write(name, text):
    try:
        with open(name, "wb") as file:
            file.write(text)
    except OSError:
        raise Refused(21, b"cannot write " + name.encode())


def generated(n):
    lines = [".model pipe", ".inputs d", ".outputs q e"]
    for i in range(1, n + 1):
        for copy, stage in (("a", "m"), ("b", "n")):
            lines += [f".names {'d' if i == 1 else copy + str(i - 1)} {stage}{i}", "0 1", f".latch {stage}{i} {copy}{i} 0"]
    lines += [f".names a{n} q", "1 1", f".names a{n} b{n} e", "10 1", "01 1", ".end", ""]
    work = ["workload,kind,d"] + [f"w,mission,{int(t % 3 == 0)}" for t in range(n + 8)] + [""]
    rates = ("pattern,part,role,covered,permanent,transient\nd,in,mission,no,1,0\nq,main,mission,yes,6,3\nm*,main,mission,yes,6,3\n"
             "a*,main,mission,yes,6,3\n*,shadow,mechanism,no,6,3\n")
    return ["\n".join(lines).encode(), "\n".join(work).encode(), rates.encode(), b"kind,net\nobserve,q\nalarm,e\n"]


def merge(plan, names):
    """The rows of both files, each batch once, in the order of the batches."""
    first, _ = c.read_result(plan, c.held(names[5]))
    second, _ = c.read_result(plan, c.held(names[6]))
    for b in sorted(first.keys() & second.keys()):
        if first[b] != second[b]:
            show = lambda planes: f"{planes[0]:016x} {planes[1]:016x}"
            raise Refused(15, f"batch {b} first {show(first[b])} second {show(second[b])}".encode())
    both = {**first, **second}
    write(names[4], c.result_text(plan, both, sorted(both)))
    return f"merge {len(both)} of {plan.batches} rows\n".encode()


def reweigh(plan, names, said):
    """The rows of a result file in their order, with sums by other rates."""
    held, _ = c.read_result(plan, c.held(names[4]))
    try:
        other = c.make_plan([*names[:2], names[5], names[3]], said["flips"], said["pulses"], said["ftti"], said["asil"])
    except Refused as refused:
        told = ((b"rates row ", b"new rates row "), (b"no rate for net ", b"no new rate for net "), (b" has a ", b" has a new "))
        was = next((pair for pair in told if refused.status in (5, 6, 7) and pair[0] in refused.line), (b"", b""))
        raise Refused(refused.status, refused.line[len(b"refused: "):-1].replace(*was, 1) if was[0] else refused.line[len(b"refused: "):-1])
    write(names[6], c.result_text(other, held, list(held)))
    return f"reweigh {len(held)} of {plan.batches} rows\n".encode()


def pairs(plan, planes):
    """Each latent fault with each detected one, where the two together are dangerous."""
    if len(planes) < plan.batches:
        raise Refused(16, f"result file has {len(planes)} of {plan.batches} batches".encode())
    classes = [c.fault_class(plan, planes, i) for i in range(len(plan.faults))]
    latent, detected = ([i for i, found in enumerate(classes) if found == kind] for kind in ("latent", "detected"))
    if len(latent) * len(detected) > MOST_PAIRS:
        raise Refused(10, b"more than 1048576 pairs")
    both = [(i, j) for i in latent for j in detected]
    danger, _ = c.outcomes_of_lists(plan.net, [[plan.faults[i], plan.faults[j]] for i, j in both], plan.runs, plan.goals, plan.alarms, plan.ftti)
    name = lambda i: c.fault_name(plan.net, plan.faults[i])
    lines = [b"pair " + name(i) + b" " + name(j) for k, (i, j) in enumerate(both) if danger >> k & 1]
    return b"\n".join(lines + [f"pairs {len(both)} dangerous {len(lines)}".encode(), b""])


def done(command, names, said):
    """The text of Done."""
    if command == "classes":
        return classes(*names)
    if command == "parts":
        return parts(*names)
    if command == "trace":
        return trace(names, said)
    if command == "always":
        return always_text(names, said)
    if command == "gen":
        texts = generated(names[0])
        net = c.read_netlist(texts[0], "")
        plan = c.plan_of(c.Plan(), texts, net, tables.read_workload(texts[1], net), *tables.read_rates(texts[2]),
                         *tables.read_points(texts[3], net), [1], [], 0, "D")
        planes = c.true_planes(plan)
        write(names[1], c.result_text(plan, planes, sorted(planes)))
        return "\n".join([f"gen {names[0]}", c.head_line(plan), *c.metric_lines(plan, c.total(plan, planes)), "end", ""]).encode()
    plan = c.make_plan(names[:4], said["flips"], said["pulses"], said["ftti"], said["asil"])
    if command == "check":
        return check(plan)
    if command == "report":
        return c.report(plan, c.true_planes(plan))
    if command == "breakdown":
        return readings.breakdown(plan, said["intervals"])
    if command == "latencies":
        return readings.latencies(plan)
    if command == "coverage":
        return coverage.coverage(plan)
    if command == "shard":
        planes = c.true_planes(plan)
        mine = [b for b in range(plan.batches) if b % said["of"] == said["part"]]
        write(names[4], c.result_text(plan, planes, mine))
        return f"shard {said['part']} of {said['of']} rows {len(mine)}\n".encode()
    if command == "merge":
        return merge(plan, names)
    if command == "reweigh":
        return reweigh(plan, names, said)
    if command == "run":
        planes = c.true_planes(plan)
        write(names[4], c.result_text(plan, planes, sorted(planes)))
        return c.report(plan, planes)
    text = c.held(names[4])
    held, whole = c.read_result(plan, text)
    if command == "pairs":
        return pairs(plan, held)
    if command == "faults":
        return kept.fault_table(plan, held)
    if command == "progress":
        return kept.progress(plan, held)
    planes = c.true_planes(plan)
    if command == "audit":
        audited = list(held.items())[::said["every"]]
        for batch, found in audited:
            if found != planes[batch]:
                raise Refused(13, f"batch {batch} kept {found[0]:016x} {found[1]:016x} computed {planes[batch][0]:016x} {planes[batch][1]:016x}".encode())
        every = f" every {said['every']}" if said["every"] > 1 else ""
        return f"audit {len(audited)} of {plan.batches} rows agree{every}\n".encode()
    planes.update(held)
    write(names[4], c.result_text(plan, planes, list(held) + [b for b in range(plan.batches) if b not in held]))
    return c.report(plan, planes)


def main(words):
    try:
        text, status = done(*words_of(words)), 0
    except Refused as refused:
        text, status = refused.line, refused.status
    sys.stdout.buffer.write(text)
    return status


if __name__ == "__main__":
    sys.exit(main(sys.argv[1:]))
