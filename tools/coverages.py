"""What `fmeda coverage` prints, read from its text, and the sections of the page that are made of it."""
import html

import designs
import reports
from pages import bar, legend, row, section, table, tag, verdict_mark

TITLE, KINDS, FREE = "fmeda-coverage 1", ("no-path", "never", "quiet", "noticed", "caught", "harm"), ("unexcited", "unreached")
METRICS = ("spfm permanent", "spfm transient", "lfm", "term")
MOST_NAMES = 12


class Reading:
    """The lines of one reading: `parts` are (name, role, kind, {what: weight}, coverage), `found` is (value, verdict) of each metric, and `bounds` for
    each of FREE the number of faults, and (least, greatest, standing) of each metric. `upsets` is how many were tried and how many there are, and
    `cycles` has (cycle, harm, rate) of each that is listed."""

    def __init__(self, words):
        self.words, self.parts, self.found, self.bounds, self.upsets, self.cycles = words, [], {}, {}, None, []


def value(text):
    return None if text == "-" else reports.fraction(text) if "/" in text else int(text)


def take(reading, line):
    first, rest = line.split(" ", 1)
    words = rest.split(" ")
    if first == "part":
        said = dict(zip(words[3:-2:2], map(int, words[4:-2:2])))
        reading.parts.append((words[0], words[1], words[2], said, value(words[-1])))
    elif first == "found":
        label, _, more = rest.partition(" target ")
        metric, _, shown = label.rpartition(" ")
        reading.found[metric] = value(shown), more
    elif first == "upsets":
        reading.upsets = int(words[0]), int(words[2])
    elif first == "cycle":
        cycle, harm, rate = int(words[0]), int(words[2]), int(words[4])
        if value(words[-1]) != ((rate - harm, rate) if rate else None):
            raise ValueError(line)
        reading.cycles.append((cycle, harm, rate))
    elif first in FREE and words[0] == "faults":
        reading.bounds[first] = int(words[1]), {}
    elif first in FREE:
        metric, _, ends = rest.partition(" from ")
        reading.bounds[first][1][metric] = value(ends.split(" ")[0]), value(ends.split(" ")[2]), ends.split(" ")[-1]
    else:
        raise ValueError(line)


def read(name, report):
    """(readings, [(kind, fault, weight)]) of a file, which must be of this report's campaign."""
    lines = designs.held(name).decode("latin-1").split("\n")
    if lines[0] != TITLE or lines[-2:] != ["end", ""]:
        raise designs.Refused(f"{name}: the first line isn't {TITLE}, or the last isn't end: the text was cut off, or is none of coverage")
    readings, names = [], []
    try:
        for line in lines[1:-2]:
            first, _, rest = line.partition(" ")
            if first == "reading":
                readings.append(Reading(rest))
            elif first in ("never", "quiet"):
                names.append((first, *rest.rsplit(" ", 1)))
            else:
                take(readings[-1], line)
    except (ValueError, IndexError, KeyError):
        raise designs.Refused(f"{name}: `{line}` is no line of coverage")
    if not readings or not is_of(readings[0], report):
        raise designs.Refused(f"{name} is of another campaign than the report")
    return readings, names


def is_of(reading, report):
    rates = {part.name: (part.permanent, part.transient) for part in report.parts}
    told = {(name, kind): said["rate"] for name, _, kind, said, _ in reading.parts if kind != "latent"}
    wanted = {(name, kind): rate for name, both in rates.items() for kind, rate in zip(("permanent", "transient"), both)}
    metrics = {name: ((num, den) if den else None, report.targets[name]) for name, num, den, _ in reports.metrics(report)}
    return told == wanted and reading.found == {**metrics, "term": (report.danger + report.transient_danger, report.targets["term"])}


def open_targets(reading, free):
    """(metric, least, greatest) of each target that is met as found, and isn't whatever these faults do."""
    for metric, (_, verdict) in reading.found.items():
        least, greatest, standing = reading.bounds[free][1][metric]
        if verdict == "met" and standing != "met":
            yield metric, least, greatest


def shown(metric, end):
    return "-" if end is None else f"{reports.fit(end)} FIT" if metric == "term" else reports.per_cent(*end)


def worst(metric, bounds):
    """The end of the bounds that is worse: the greatest term, and the least of a fraction."""
    return bounds[1][metric][metric == "term"]


# ---- the page

def share_bar(metric, reading, target):
    """What the runs speak for, what nothing showed, and what no run excited: from the least per cent that is shown to 100."""
    ends = [worst(metric, reading.bounds["unreached"]), worst(metric, reading.bounds["unexcited"]), reading.found[metric][0]]
    if ends[-1] is None:
        return ""
    if metric == "term":
        most = max(ends[0], target * 10**6)
        pieces = [("harm", ends[2], "as found"), ("never", ends[1] - ends[2], "no run excited"), ("quiet", ends[0] - ends[1], "nothing showed")]
        return bar([(kind, weight / most, f"{said}: {reports.fit(weight)} FIT") for kind, weight, said in pieces])
    least, never, found = (num / den for num, den in ends)
    begin = max(0, int(100 * min(least, target / 100)) - 1) / 100
    width = lambda low, high: max(0, high - low) / (1 - begin)
    return bar([("caught", width(begin, least), f"from {100 * begin:.0f} % to {shown(metric, ends[0])} whatever these faults do"), ("quiet", width(least, never), f"to {shown(metric, ends[1])} nothing showed"),
                ("never", width(never, found), f"to {shown(metric, ends[2])} no run excited"), ("harm", width(found, 1), "harmful")])


def metric_rows(reading, asil):
    spfm, lfm, most = reports.PER_CENT[asil]
    for metric, target in zip(METRICS, (spfm, spfm, lfm, most // 10**6)):
        found, verdict = reading.found[metric]
        cells = [metric, tag("b", shown(metric, found)), f"{'below' if metric == 'term' else 'at least'} {target}{' FIT' if metric == 'term' else ' %'}", verdict_mark(verdict), share_bar(metric, reading, target)]
        for free in FREE:
            cells.append(f"{tag('b', shown(metric, worst(metric, reading.bounds[free])))} {verdict_mark(reading.bounds[free][1][metric][2])}")
        yield row(cells)


def part_rows(reading):
    latent = {name: (said, cover) for name, _, kind, said, cover in reading.parts if kind == "latent"}
    per_cent = lambda cover: "-" if cover is None else reports.per_cent(*cover)
    for name, _, kind, said, cover in reading.parts:
        if kind == "latent" or not said["rate"]:
            continue
        pieces = [(it, said[it] / said["rate"], f"{it}: {reports.fit(said[it])} FIT") for it in reversed(KINDS)]
        of_latent = per_cent(latent[name][1]) if kind == "permanent" and name in latent else "-"
        yield row([html.escape(name), kind, tag("b", reports.fit(said["rate"])), tag("b", per_cent(cover)), tag("b", of_latent), bar(pieces), *[reports.fit(said[it]) for it in reversed(KINDS)]])


def name_list(names):
    for kind, words in (("never", "no run excited"), ("quiet", "nothing showed")):
        own = [fault for it, fault, _ in names if it == kind]
        if own:
            yield tag("li", f"{len(own)} that {words}: {html.escape(', '.join(own[:MOST_NAMES]))}{f' and {len(own) - MOST_NAMES} more' if len(own) > MOST_NAMES else ''}")


def sections(report, readings, names):
    """What stands first on the page."""
    pieces = []
    for reading in readings:
        heading = [tag("h3", html.escape(reading.words))] if len(readings) > 1 else []
        counts = [reading.bounds[free][0] for free in FREE]
        pieces += [*heading, table(["metric", "value", f"target of ASIL {report.head['asil']}", "", "", f"if the {counts[0]} that no run excited do harm", f"if the {counts[1]} that no run excited, or that nothing showed, do"],
                                   metric_rows(reading, report.head["asil"]), class_="rests"), tag("p", ""),
                   table(["part", "faults", "FIT", "coverage", "of latent", "", *reversed(KINDS)], part_rows(reading), class_="evidence"), tag("p", "")]
    said = tag("p", "What speaks for the faults, in FIT: <b>harm</b>; <b>caught</b> in time by an alarm, and else harmful; <b>noticed</b> by an alarm, where nothing was harmed; <b>quiet</b>, tried and nothing showed; "
               "<b>never</b> excited by any run; <b>no-path</b> to an observation point. The coverage is caught over caught and harm (residual faults), and detected over detected and latent (latent faults). "
               "The bars of the three fractions begin just below the least of their values.")
    return [section("rests", "What the metrics rest on", said, legend(reversed(KINDS)), *pieces, tag("ul", "".join(name_list(names))))]
