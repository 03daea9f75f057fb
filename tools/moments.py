"""How the metric of transient faults hangs on the cycle of an upset, and which latches it hangs on: the section of the page that is made of the lines
`upsets` and `cycle` of `fmeda coverage` and of the report's flips that harm."""
import html

import reports
from pages import bar, row, section, table, tag

WIDTH, HEIGHT, LEFT, EDGE = 900, 160, 64, 22
MOST_CYCLES, MOST_LATCHES = 8, 60


def share(harm, rate):
    return (rate - harm) / rate if rate else 1


def columns(cycles):
    """(place from left to right, the worst share of the cycles there): as many as can be told apart."""
    first, last = cycles[0][0], cycles[-1][0]
    found = {}
    for cycle, harm, rate in cycles:
        place = LEFT + round((WIDTH - LEFT - EDGE) * (cycle - first) / max(last - first, 1))
        found[place] = min(found.get(place, 1), share(harm, rate))
    return sorted(found.items())


def chart(cycles, target):
    """A stem for each cycle, from the least per cent that is shown up to the metric by its flips alone; broken where it misses the target."""
    shown = columns(cycles)
    least = max(0, int(100 * min(target / 100, *(it for _, it in shown))) - 1) / 100
    top, below = EDGE, HEIGHT - EDGE
    height = lambda it: round(below - (below - top) * (it - least) / (1 - least), 1)
    stems = "".join(f'<path class="stem{"" if it * 100 >= target else " low"}" d="M{x} {below}V{height(it)}"/>' for x, it in shown)
    label = lambda x, y, text, end="": f'<text x="{x}" y="{y}"{end}>{text}</text>'
    right = ' text-anchor="end"'
    words = [label(LEFT - 8, top + 4, "100 %", right), label(LEFT - 8, below, f"{100 * least:.0f} %", right), label(LEFT, HEIGHT - 4, f"cycle {cycles[0][0]}"),
             label(WIDTH - EDGE, HEIGHT - 4, str(cycles[-1][0]), right), label(WIDTH - EDGE, height(target / 100) - 3, f"target {target} %", right)]
    worst = min(cycles, key=lambda it: share(*it[1:]))
    said = f"spfm transient by the flips of each of {len(cycles)} cycles; the least is {reports.per_cent(worst[2] - worst[1], worst[2])} in cycle {worst[0]}"
    return tag("div", f'<svg viewBox="0 0 {WIDTH} {HEIGHT}" role="img" aria-label="{html.escape(said)}"><path class="axis" d="M{LEFT} {top}V{below}H{WIDTH - EDGE}"/>'
               f'<path class="goal" d="M{LEFT} {height(target / 100)}H{WIDTH - EDGE}"/>{stems}{"".join(words)}</svg>', class_="moments")


def told(reading, target):
    """What was tried, and how the metric lies, in words."""
    tried, all_of = reading.upsets
    low = [it for it in reading.cycles if it[2] and 100 * (it[2] - it[1]) < target * it[2]]
    harmless = sum(1 for it in reading.cycles if not it[1])
    return tag("p", f"{tried} of {all_of} upsets were tried, {reports.per_cent(tried, all_of)} of the flips of a latch in a cycle of the mission. By the flips of one cycle alone "
               f"{len(low)} of {len(reading.cycles)} cycles miss the {target} %; in {harmless} no flip does harm.")


def cycle_rows(reading):
    heaviest = sorted((it for it in reading.cycles if it[1]), key=lambda it: (share(*it[1:]), it[0]))
    for cycle, harm, rate in heaviest[:MOST_CYCLES]:
        yield row([str(cycle), tag("b", reports.per_cent(rate - harm, rate)), bar([("harm", harm / rate, f"{reports.fit(harm)} of {reports.fit(rate)} FIT harmful")]), f"{reports.fit(harm)} of {reports.fit(rate)}"])


def harmed_latches(report):
    """{net of a latch: [(cycle, weight)]} of the flips that harm."""
    found = {}
    for fault in report.faults:
        net, sign, cycle = fault.name.rpartition("^")
        if fault.kind in reports.HARMFUL and sign and cycle.isdecimal():
            found.setdefault(net, []).append((int(cycle), fault.weight))
    return found


def latch_rows(report, parts_by_net, count):
    latches = sorted(harmed_latches(report).items(), key=lambda it: (-len(it[1]), -sum(weight for _, weight in it[1]), it[0]))
    for net, own in latches[:MOST_LATCHES]:
        cycles = ", ".join(str(cycle) for cycle, _ in own[:MOST_CYCLES]) + (" .." if len(own) > MOST_CYCLES else "")
        yield row([tag("code", html.escape(net)), html.escape(parts_by_net.get(net, "?")), f"{len(own)} of {count}", bar([("harm", len(own) / count, f"{len(own)} of {count} cycles")]),
                   reports.fit(sum(weight for _, weight in own)), cycles])
    if len(latches) > MOST_LATCHES:
        yield row([f"{len(latches) - MOST_LATCHES} more are among the faults below", "", "", "", "", ""])


def sections(report, readings, parts_by_net):
    """Nothing where no cycle of flips is listed."""
    if not readings[0].cycles:
        return []
    target, pieces = reports.PER_CENT[report.head["asil"]][0], []
    for reading in readings:
        heading = [tag("h3", html.escape(reading.words))] if len(readings) > 1 else []
        worst = list(cycle_rows(reading))
        pieces += [*heading, told(reading, target), chart(reading.cycles, target)]
        if worst:
            pieces += [table(["worst cycles", "SPFM", "", "harmful FIT"], worst, class_="cycles"), tag("p", "")]
    rows = list(latch_rows(report, parts_by_net, len(readings[0].cycles)))
    latches = table(["latch", "part", "cycles in which an upset harmed", "", "FIT", "which"], rows, id="latches") if rows else tag("p", "No flip of a latch does harm.")
    return [section("moments", "Upsets by cycle and by latch", *pieces, latches)]
