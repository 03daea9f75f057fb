"""One campaign, every reading: the texts of `breakdown` and `latencies`, once more from the rules in docs/.

Each reading is a campaign of its own here, with its own goals, alarms and interval, and nothing is shared between two of them."""
import copy

import campaign as c
from kept import csv_field

MOST_INTERVAL = 4096
COLUMNS = ("fault", "part", "class", "weight", "excited", "reached_run", "reached_cycle", "alarm_run", "alarm_cycle", "alarm", "interval")


def with_points(plan, **changed):
    other = copy.copy(plan)
    for name, value in changed.items():
        setattr(other, name, value)
    return other


def readings(plan, intervals):
    """(words, plan) of each reading, in order."""
    name = lambda n: plan.net.names[n]
    found = [(b"all", plan)]
    found += [(b"goal " + (goal[0] or b"-"), with_points(plan, goals=[goal])) for goal in plan.goals]
    found += [(b"without " + name(n), with_points(plan, alarms=[m for m in plan.alarms if m != n])) for n in plan.alarms]
    found += [(b"only " + name(n), with_points(plan, alarms=[n])) for n in plan.alarms]
    return found + [(b"ftti " + str(f).encode(), with_points(plan, ftti=f)) for f in intervals]


def breakdown(plan, intervals):
    lines = []
    for words, own in readings(plan, intervals):
        lines += [b"reading " + words, *(line.encode() for line in c.metric_lines(own, c.total(own, c.true_planes(own))))]
    return b"\n".join([*lines, b"end", b""])


class Seen:
    """What one fault shows over all runs. Runs are counted from 1 and cycles from 0."""

    def __init__(self):
        self.excited, self.reached, self.alarm, self.intervals = False, None, None, [0]


def all_seen(plan):
    count, seen = len(plan.faults), [Seen() for _ in plan.faults]
    for number, (_, kind, vectors) in enumerate(plan.runs, 1):
        first_differences, first_alarms = [[None] * count for _ in plan.goals], [None] * count
        for t, values in enumerate(c.simulated(plan.net, [[f] for f in plan.faults], vectors)):
            differs = [c.differing(value, count) for value in values]
            raised = [(n, 0 if values[n] >> count else differs[n]) for n in plan.alarms]
            for i, (_, n, _) in enumerate(plan.faults):
                own = seen[i]
                own.excited |= bool(differs[n] >> i & 1)
                alarms = [m for m, lanes in raised if lanes >> i & 1]
                if alarms:
                    own.alarm = own.alarm or (number, t, alarms[0])
                    if first_alarms[i] is None:
                        first_alarms[i] = t
                for g, (_, _, nets) in enumerate(plan.goals):
                    if kind == b"mission" and any(differs[m] >> i & 1 for m in nets):
                        own.reached = own.reached or (number, t)
                        if first_differences[g][i] is None:
                            first_differences[g][i] = t
        for i, own in enumerate(seen):
            for of_goal in first_differences:
                if of_goal[i] is not None:
                    own.intervals.append(None if first_alarms[i] is None else max(0, first_alarms[i] - of_goal[i]))
    return seen


def interval_of(own):
    most = None if None in own.intervals else max(own.intervals)
    return None if most is None or most > MOST_INTERVAL else most


def latencies(plan):
    planes, lines = c.true_planes(plan), [",".join(COLUMNS).encode()]
    show = lambda value: b"-" if value is None else str(value).encode()
    for i, own in enumerate(all_seen(plan)):
        reached, alarm = own.reached or (None, None), own.alarm or (None, None, None)
        fields = [c.fault_name(plan.net, plan.faults[i]), plan.parts[plan.owner[plan.faults[i][1]]][0], c.fault_class(plan, planes, i).encode(),
                  show(plan.weights[i]), show(int(own.excited)), *map(show, reached), *map(show, alarm[:2]),
                  b"-" if alarm[2] is None else plan.net.names[alarm[2]], show(interval_of(own))]
        lines.append(b",".join(map(csv_field, fields)))
    return b"\n".join([*lines, b""])
