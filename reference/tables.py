"""The CSV files, read once more from the rules in docs/."""
import re


class RowFault(Exception):
    def __init__(self, file, row, kind):
        self.file, self.row, self.kind = file, row, kind


def records(text):
    """The records of a CSV file: commas, double quotes, nothing trimmed, a byte order mark taken off, empty lines left out."""
    if text.startswith(b"\xef\xbb\xbf"):
        text = text[3:]
    found, fields, field, state = [], [], bytearray(), "record"
    for byte in text:
        c = bytes([byte])
        if state == "record":
            if c in b"\r\n":
                continue
            state = "field"
        if state == "quoted":
            if c == b'"':
                state = "quote"
            else:
                field += c
            continue
        if state == "quote" and c == b'"':
            field += c
            state = "quoted"
        elif state == "field" and c == b'"':
            state = "quoted"
        elif c == b",":
            fields.append(bytes(field))
            field, state = bytearray(), "field"
        elif c in b"\r\n":
            fields.append(bytes(field))
            found.append(fields)
            fields, field, state = [], bytearray(), "record"
        else:
            field += c
            state = "plain"
    if state != "record":
        found.append(fields + [bytes(field)])
    return found


def is_label(text):
    return re.fullmatch(rb"[A-Za-z0-9_.-]{1,64}", text) is not None


def is_number(text, most):
    return re.fullmatch(rb"0|[1-9][0-9]{0,9}", text) is not None and int(text) <= most


def read_workload(text, net):
    """A list of (name, kind, vectors), bits in the order of the netlist's inputs."""
    rows, fault = records(text), lambda row, kind: RowFault("workload", row, kind)
    if not rows or rows[0][:2] != [b"workload", b"kind"]:
        raise fault(1, "BadCsv")
    columns, inputs = rows[0][2:], [net.names[n] for n in net.inputs]
    if len(set(columns)) != len(columns) or any(c not in inputs for c in columns):
        raise fault(1, "BadColumn")
    if any(i not in columns for i in inputs):
        raise fault(1, "MissingInput")
    places, runs = [columns.index(i) for i in inputs], []
    for number, row in enumerate(rows[1:], 2):
        if len(row) != len(rows[0]):
            raise fault(number, "BadCsv")
        is_new = not runs or runs[-1][0] != row[0]
        if is_new and any(run[0] == row[0] for run in runs):
            raise fault(number, "SplitName")
        if row[1] not in (b"mission", b"test") or not is_new and row[1] != runs[-1][1]:
            raise fault(number, "BadKind")
        if any(bit not in (b"0", b"1") for bit in row[2:]):
            raise fault(number, "BadBit")
        if number == 65538:
            raise fault(number, "TooLarge")
        if is_new:
            runs.append((row[0], row[1], []))
        runs[-1][2].append([row[2 + p] == b"1" for p in places])
    if not runs:
        raise fault(1, "Empty")
    return runs


def read_rates(text):
    """(patterns, parts): (prefix, star, part's place), and (name, role, covered, permanent, transient) in units of 10^-6 FIT."""
    rows, fault = records(text), lambda row, kind: RowFault("rates", row, kind)
    if not rows or rows[0] != [b"pattern", b"part", b"role", b"covered", b"permanent", b"transient"]:
        raise fault(1, "BadCsv")
    patterns, parts, units = [], [], 0
    for number, row in enumerate(rows[1:], 2):
        if len(row) != 6:
            raise fault(number, "BadCsv")
        pattern, name, role, covered, *rates = row
        if not is_label(name):
            raise fault(number, "BadPart")
        if role not in (b"mission", b"mechanism", b"other"):
            raise fault(number, "BadRole")
        if covered not in (b"yes", b"no"):
            raise fault(number, "BadCovered")
        if any(re.fullmatch(rb"[0-9]{1,12}(\.[0-9]{1,6})?", rate) is None for rate in rates):
            raise fault(number, "BadRate")
        whole = [rate.split(b".") + [b""] for rate in rates]
        values = [int(w[0]) * 10**6 + int(w[1].ljust(6, b"0")) for w in whole]
        part = (name, role.decode(), covered == b"yes", *values)
        known = [p for p in parts if p[0] == name]
        if known and known[0] != part:
            raise fault(number, "TwoMeanings")
        if number == 4098 or not known and units + sum(values) > 10**18:
            raise fault(number, "TooLarge")
        if not known:
            units += sum(values)
            parts.append(part)
        place = [p[0] for p in parts].index(name)
        patterns.append((pattern[:-1], True, place) if pattern.endswith(b"*") else (pattern, False, place))
    return patterns, parts


def part_of(patterns, name):
    for text, star, part in patterns:
        if name.startswith(text) if star else name == text:
            return part
    return None


def read_points(text, net):
    """(goals, alarms): (name, interval or None, nets) of each goal, and the alarm nets."""
    rows, fault = records(text), lambda row, kind: RowFault("points", row, kind)
    if not rows or rows[0] not in ([b"kind", b"net"], [b"goal", b"ftti", b"kind", b"net"]):
        raise fault(1, "BadCsv")
    with_goals, goals, alarms, before = len(rows[0]) == 4, [], [], set()
    places = {name: i for i, name in enumerate(net.names)}
    for number, row in enumerate(rows[1:], 2):
        if len(row) != len(rows[0]):
            raise fault(number, "BadCsv")
        goal, ftti, kind, name = row if with_goals else ([b""] if row[0] == b"observe" else [b"-"]) + [b"-"] + row
        if kind not in (b"observe", b"alarm"):
            raise fault(number, "BadKind")
        if name not in places:
            raise fault(number, "UnknownNet")
        if (goal, kind, name) in before:
            raise fault(number, "Twice")
        if number == 1026:
            raise fault(number, "TooLarge")
        known = [g for g in goals if g[0] == goal]
        if with_goals and (goal != b"-" if kind == b"alarm" else not is_label(goal) or not known and len(goals) == 4):
            raise fault(number, "BadGoal")
        if with_goals and ftti != b"-" and (kind == b"alarm" or not is_number(ftti, 4096)):
            raise fault(number, "BadInterval")
        interval = None if ftti == b"-" else int(ftti)
        if known and known[0][1] != interval:
            raise fault(number, "BadInterval")
        before.add((goal, kind, name))
        if kind == b"alarm":
            alarms.append(places[name])
        else:
            if not known:
                goals.append((goal, interval, []))
                known = goals[-1:]
            known[0][2].append(places[name])
    if not goals:
        raise fault(1, "NoObserve")
    return goals, alarms


def read_held(text, net):
    """(net, first cycle, value before or None, value) of each held input."""
    rows, fault = records(text), lambda row, kind: RowFault("held", row, kind)
    if not rows or rows[0] != [b"input", b"from", b"before", b"value"]:
        raise fault(1, "BadCsv")
    places, found = {net.names[n]: n for n in net.inputs}, {}
    for number, row in enumerate(rows[1:], 2):
        if len(row) != 4:
            raise fault(number, "BadCsv")
        name, start, before, value = row
        if name not in places:
            raise fault(number, "UnknownInput")
        if name in found:
            raise fault(number, "Twice")
        if number == 1026:
            raise fault(number, "TooLarge")
        if not is_number(start, 65535):
            raise fault(number, "BadFrom")
        if before not in (b"0", b"1", b"-"):
            raise fault(number, "BadBefore")
        if before != b"-" and start == b"0":
            raise fault(number, "NoCycleBefore")
        if value not in (b"0", b"1"):
            raise fault(number, "BadValue")
        found[name] = places[name], int(start), None if before == b"-" else int(before), int(value)
    return list(found.values())
