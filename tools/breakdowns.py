"""What `fmeda breakdown` and `fmeda latencies` print, read from their texts, and the sections of the page that are made of them."""
import csv
import html
import io

import designs
import hints
import reports
from pages import bar, row, section, table, tag, values

COLUMNS = ["fault", "part", "class", "weight", "excited", "reached_run", "reached_cycle", "alarm_run", "alarm_cycle", "alarm", "interval"]
KINDS = ("all", "goal", "without", "only", "ftti")
LINES_OF_A_READING = 10
MOST_NETS = 12


class Reading(reports.Report):
    """The metrics of one reading, as of a report; `kind` is one of KINDS, and `name` a goal, a net or an interval."""


def reading_of(lines, asil):
    own = Reading()
    own.kind, _, own.name = lines[0].removeprefix("reading ").partition(" ")
    own.head, own.targets = {"asil": asil}, {}
    for line in lines[1:]:
        reports.take_metric(own, line.split(" "))
    if own.kind not in KINDS or reports.metric_lines(own) != lines[1:]:
        raise ValueError
    return own


def read_breakdown(name, report):
    """The readings of a file, which must be of this report's campaign."""
    lines = designs.held(name).decode("latin-1").split("\n")
    if lines[-2:] != ["end", ""]:
        raise designs.Refused(f"{name}: the last line isn't end: the breakdown was cut off, or is none")
    step = 1 + LINES_OF_A_READING
    try:
        found = [reading_of(lines[at:at + step], report.head["asil"]) for at in range(0, len(lines) - 2, step)]
    except (ValueError, IndexError, AttributeError):
        raise designs.Refused(f"{name} is no breakdown of the ASIL {report.head['asil']}")
    if not found or reports.metric_lines(found[0]) != reports.metric_lines(report):
        raise designs.Refused(f"{name} is of another campaign than the report")
    return found


def read_latencies(name, report):
    """The rows of a file, by the names of the columns; they must be those of this report's campaign."""
    rows = list(csv.reader(io.StringIO(designs.held(name).decode("latin-1"))))
    if not rows or rows[0] != COLUMNS or any(len(it) != len(COLUMNS) for it in rows):
        raise designs.Refused(f"{name}: the first row isn't {','.join(COLUMNS)}, or a row has another length")
    found = [dict(zip(COLUMNS, it)) for it in rows[1:]]
    listed = {(it["class"], it["fault"]) for it in found if it["class"] in (*reports.HARMFUL, "latent")}
    if len(found) != int(report.head["faults"]) or listed != {(it.kind, it.name) for it in report.faults}:
        raise designs.Refused(f"{name} is of another campaign than the report")
    return found


METRICS = ["spfm permanent", "spfm transient", "lfm", "term"]


def goal_section(readings):
    rows = [row([html.escape(it.name), *values(it)]) for it in readings if it.kind == "goal"]
    return section("bygoal", "By safety goal", tag("p", "The metrics of the standard are for each safety goal: of its observation points alone, with all alarms."),
                   table(["goal", *METRICS], rows, id="bygoal"))


def alarm_section(readings):
    """What is lost without an alarm is what no other catches in time."""
    whole, rows = readings[0], [row(["all alarms", "", *values(readings[0])])]
    for kind, said in (("without", "left out"), ("only", "alone")):
        rows += [row([html.escape(it.name), said, *values(it)]) for it in readings if it.kind == kind]
    lost = []
    for it in readings:
        if it.kind == "without":
            more = it.danger + it.transient_danger - whole.danger - whole.transient_danger
            lost.append(tag("li", f"without {tag('code', html.escape(it.name))} {reports.fit(more)} FIT more are residual or single-point, and {reports.fit(max(0, it.latent - whole.latent))} FIT more latent"))
    return section("byalarm", "What each alarm is worth", tag("ul", "".join(lost)) if lost else tag("p", "There is no alarm."), table(["alarm", "", *METRICS], rows, id="byalarm"))


def interval_section(readings):
    rows = [row([html.escape(it.name), *values(it)]) for it in readings if it.kind == "ftti"]
    return section("byinterval", "By interval", tag("p", "The metrics with other intervals in place of --ftti, in clock cycles. A goal with an interval of its own keeps it."),
                   table(["interval", *METRICS], rows, id="byinterval"))


def bins(most):
    """0, 1, 2 to 3, 4 to 7 and so on."""
    low, step = 0, 1
    while low <= most:
        yield low, low + step - 1
        low, step = low + step, max(1, low + step) if low + step > 1 else 1


def interval_bins(rows, last):
    """(words, faults, weight) of the faults that reach an observation point, by the least interval that would do; `last` is the last cycle of the reset."""
    reached = [it for it in rows if it["reached_run"] != "-" and it["class"] != "outside"]
    early = hints.early_faults(reached, last)
    if early:
        yield f"harmful in the cycles 0 to {last}, before the reset ends", len(early), sum(int(it["weight"]) for it in early)
        known = {it["fault"] for it in early}
        reached = [it for it in reached if it["fault"] not in known]
    needed = [(int(it["interval"]), int(it["weight"])) for it in reached if it["interval"] != "-"]
    for low, high in bins(max((n for n, _ in needed), default=0)):
        inside = [weight for n, weight in needed if low <= n <= high]
        yield (str(low) if low == high else f"{low} to {high}"), len(inside), sum(inside)
    never = [int(it["weight"]) for it in reached if it["interval"] == "-"]
    yield "no interval would do", len(never), sum(never)


def latency_section(rows, last):
    found = list(interval_bins(rows, last))
    most = max((weight for _, _, weight in found), default=0) or 1
    shown = [row([words, str(count), reports.fit(weight), bar([("bad" if words.startswith(("no ", "harmful")) else "good", weight / most, "")])]) for words, count, weight in found]
    return section("latencies", "How late alarms come", tag("p", "The faults that reach an observation point in a run of the mission, by the least interval in clock cycles with which they "
                   "aren't dangerous."), table(["interval", "faults", "FIT", ""], shown, id="latencies"))


def excited_section(rows):
    by_part = {}
    for it in rows:
        by_part.setdefault(it["part"], []).append(it)
    shown = []
    for part, own in by_part.items():
        never = [it["fault"] for it in own if it["excited"] == "0"]
        words = ", ".join(never[:MOST_NETS]) + (f" and {len(never) - MOST_NETS} more" if len(never) > MOST_NETS else "")
        shown.append(row([html.escape(part), str(len(own)), str(len(never)), tag("b", reports.per_cent(len(never), len(own))), bar([("latent", len(never) / len(own), "")]), html.escape(words)]))
    return section("excited", "Faults that were never excited", tag("p", "In no cycle of any run did they change the value of their net: the workload never tried them, and they count as if they had "
                   "done no harm."), table(["part", "faults", "never excited", "", "", "which"], shown, id="excited"))


def sections(report, breakdown, rows, last):
    """The sections that these files give; a file that isn't named gives none. `rows` are those of the latencies, and `last` is the last cycle of the reset."""
    found = []
    if breakdown:
        readings = read_breakdown(breakdown, report)
        found += [goal_section(readings), alarm_section(readings)]
        found += [interval_section(readings)] if any(it.kind == "ftti" for it in readings) else []
    if rows:
        found += [latency_section(rows, last), excited_section(rows)]
    return found
