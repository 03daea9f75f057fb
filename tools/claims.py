"""What `fmeda always` prints, read from its text, the runs of which it speaks, and the section of the page that is made of it."""
import html
import re

import designs
import reports
from designs import tables
from pages import bar, row, section, table, tag, verdict_mark

TITLE = "fmeda-always 1"
STANDINGS = ("no-path", "alarmed", "early", "open")
METRICS = ("spfm permanent", "spfm transient")
PART = re.compile(r"part (\S+) (\S+) (\S+) whole (yes|no|but \d+) window (\d+|-) faults (\d+) no-path (\d+) alarmed (\d+) early (\d+) open (\d+)")
LEAST = re.compile(r"(spfm \S+) since (\d+) at-least (\S+) target (met|open|-)")
TERMS = re.compile(r"window (\d+) ahead (\d+)")
FIRST = re.compile(r"assumes no alarm without a fault from cycle (\d+) on")
MOST_NAMES = 60


class Claims:
    """`parts` are (name, whole, window, {how: faults}); `least` has (fraction, verdict) by metric, since cycle 0 and since the first that is spoken of;
    `named` are (how, fault, weight) of the early and the open faults."""

    def __init__(self, head):
        words = head.split(" ")
        self.head, self.held, self.parts, self.least, self.named = dict(zip(words[::2], words[1::2])), [], [], {}, []

    def take(self, line):
        first, rest = line.split(" ", 1)
        part, least, terms, begins = (pattern.fullmatch(line) for pattern in (PART, LEAST, TERMS, FIRST))
        if first == "held":
            self.held.append(rest)
        elif terms:
            self.window, self.ahead = map(int, terms.groups())
        elif begins:
            self.first = int(begins[1])
        elif part:
            self.parts.append((part[1], part[4], part[5], dict(zip(STANDINGS, map(int, part.groups()[6:])))))
        elif least:
            self.least.setdefault(least[1], []).append((reports.fraction(least[3]), least[4]))
        elif first in ("early", "open"):
            name, weight = rest.rsplit(" ", 1)
            self.named.append((first, name, int(weight)))
        else:
            raise ValueError(line)


def read(name, report):
    """The text of a file, which must be of this report's netlist, faults, interval and level."""
    lines = designs.held(name).decode("latin-1").split("\n")
    if lines[0] != TITLE or lines[-2:] != ["end", ""]:
        raise designs.Refused(f"{name}: the first line isn't {TITLE}, or the last isn't end: the text was cut off, or is none of always")
    claims = Claims(lines[1])
    for line in lines[2:-2]:
        try:
            claims.take(line)
        except (ValueError, IndexError):
            raise designs.Refused(f"{name}: `{line}` is no line of always")
    if any(report.head[key] != value for key, value in claims.head.items()) or [it[0] for it in claims.parts] != [part.name for part in report.parts]:
        raise designs.Refused(f"{name} is of another campaign than the report")
    return claims


# ---- the runs of which it speaks

def read_held(name, design):
    try:
        return tables.read_held(designs.held(name), design.net)
    except tables.RowFault as fault:
        raise designs.Refused(f"{name}: row {fault.row} {fault.kind}")


def first_cycle(held):
    return max([start for _, start, _, _ in held], default=0)


def not_held(design, held, vectors):
    """The first cycle in which a run doesn't keep what is held, in words; nothing where it does."""
    places = {n: place for place, n in enumerate(design.net.inputs)}
    for t, vector in enumerate(vectors):
        for n, start, before, value in held:
            now = value if t >= start else before
            if now is not None and vector[places[n]] != now:
                return f"{design.names[n]} is {1 - now} in cycle {t}, and held at {now}"
    return ""


def not_admitted(design, held, runs, alarms):
    """(run, why) of each run of the mission of which nothing is said; `alarms` are (run, cycle, alarm) where the golden run raises one."""
    first = first_cycle(held)
    for name, kind, vectors in runs:
        if kind != "mission":
            continue
        raised = [(t, alarm) for run, t, alarm in alarms if run == name and t >= first]
        short = f"it has {len(vectors)} cycles, and cycle {first} is the first that is spoken of" if len(vectors) <= first else ""
        why = short or not_held(design, held, vectors) or (f"{raised[0][1]} is 1 in its golden run in cycle {raised[0][0]}" if raised else "")
        if why:
            yield name, why


# ---- beside what was simulated

def harmful(report):
    return {fault.name for fault in report.faults if fault.kind in reports.HARMFUL}


def never_tried(report, claims):
    """(fault, weight) of each open fault that the simulation calls not dangerous, the heaviest first."""
    names = harmful(report)
    return sorted([(name, weight) for how, name, weight in claims.named if how == "open" and name not in names], key=lambda it: -it[1])


def left_out(report, claims):
    """The faults that aren't open, and were dangerous all the same: by a difference before the first cycle, or in the last ones of a run."""
    return sorted(harmful(report) - {name for how, name, _ in claims.named if how == "open"})


def simulated(report):
    """The fraction and the verdict of each metric of which `always` speaks."""
    return {name: ((num, den) if den else None, report.targets[name]) for name, num, den, _ in reports.metrics(report) if name in METRICS}


def shown(fraction):
    return "-" if fraction is None else reports.per_cent(*fraction)


def words(report, claims):
    """(metric, what it is as simulated and for every workload)."""
    for metric, (found, verdict) in simulated(report).items():
        least = [f"at least {shown(fraction)}, {stands}, since cycle {cycle}" for (fraction, stands), cycle in zip(claims.least[metric], dict.fromkeys((0, claims.first)))]
        yield metric, f"as simulated {shown(found)}, {verdict}; for every workload {'; '.join(least)}"


def metric_rows(report, claims):
    asked = reports.PER_CENT[report.head["asil"]][0]
    for metric, (found, verdict) in simulated(report).items():
        cells = [f"{tag('b', shown(fraction))} {verdict_mark(stands)}" for fraction, stands in ((found, verdict), *claims.least[metric])]
        yield row([metric, f"at least {asked} %", *cells])


def part_rows(claims):
    kinds = {"no-path": "no-path", "alarmed": "caught", "early": "quiet", "open": "harm"}
    for name, whole, window, counts in claims.parts:
        faults = sum(counts.values())
        pieces = [(kinds[how], counts[how] / faults if faults else 0, f"{how}: {counts[how]}") for how in STANDINGS]
        yield row([html.escape(name), whole, window, str(faults), bar(pieces), *[str(counts[how]) for how in STANDINGS]])


def fault_words(found, heading):
    names = ", ".join(html.escape(name) for name, *_ in found[:MOST_NAMES])
    return tag("p", f"{heading}: {names}{f' and {len(found) - MOST_NAMES} more' if len(found) > MOST_NAMES else ''}.")


def sections(report, claims):
    """What a mechanism covers for every workload, beside what was simulated."""
    tried, others = never_tried(report, claims), [(name,) for name in left_out(report, claims)]
    last = claims.window + claims.ahead
    supposed = [*[f"{html.escape(it)}" for it in claims.held], f"no alarm without a fault from cycle {claims.first} on"]
    said = tag("p", f"For every workload that keeps this: {'; '.join(supposed)}. An alarm comes at most {claims.window} cycles after a difference; nothing is said of the last {last} cycles of a run. "
               f"Since cycle 0 the faults that may differ before cycle {claims.first} count as dangerous, since cycle {claims.first} they don't.")
    metrics = table(["metric", f"target of ASIL {report.head['asil']}", "as simulated", "for every workload, since cycle 0", f"since cycle {claims.first}"], metric_rows(report, claims), id="always")
    parts = table(["part", "whole", "window", "faults", "", *STANDINGS], part_rows(claims), class_="evidence")
    lists = [fault_words(tried, f"{len(tried)} open fault{'s' if len(tried) != 1 else ''}, {reports.fit(sum(weight for _, weight in tried))} FIT, did no harm in the simulation: the workload never tried what would make them dangerous, or the proof is too weak")] if tried else []
    lists += [fault_words(others, f"{len(others)} faults that aren't open did harm in the simulation all the same, by a difference before cycle {claims.first} or in the last {last} cycles of a run")] if others else []
    return [section("always", "For every workload", said, metrics, tag("p", ""), parts, *lists)]
