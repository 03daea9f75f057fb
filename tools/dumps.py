"""Value change dumps (VCD, IEEE 1364): the values of signals just before each edge of a clock."""
import re

RANGE = re.compile(r"^(.*?)\s*\[(-?\d+)(?::(-?\d+))?\]$")


CUT = "the dump was cut off. Let the simulation end by $finish, and dump again"
NO_LAST_TIME = "ends without its last time"


class Unreadable(Exception):
    pass


class Signal:
    """A variable of the dump. `indices` are the numbers of its bits, the leftmost first."""

    def __init__(self, code, width, reference):
        found = RANGE.match(reference)
        self.code, self.width = code, width
        self.name = found[1] if found else reference
        self.is_bit = bool(found) and found[3] is None and width == 1
        if self.is_bit:
            self.name = f"{found[1]}[{found[2]}]"
        if found and found[3] is not None:
            first, last = int(found[2]), int(found[3])
            self.indices = list(range(first, last + (1 if last >= first else -1), 1 if last >= first else -1))
        else:
            self.indices = list(range(width - 1, -1, -1))
        if len(self.indices) != width:
            self.indices = list(range(width - 1, -1, -1))


def read_head(lines, file):
    """The signals by their path, as tb.dut.name, and the lines that are left."""
    signals, path, words = {}, [], []
    for line in lines:
        words += line.split()
        while "$end" in words:
            end = words.index("$end")
            said, words = words[:end], words[end + 1:]
            if said == ["$enddefinitions"]:
                return signals
            try:
                take_declaration(signals, path, said)
            except (IndexError, ValueError):
                raise Unreadable(f"{file}: `{' '.join(said)}` declares nothing")
    raise Unreadable(f"{file}: no $enddefinitions: this is no value change dump")


def take_declaration(signals, path, said):
    if said[:1] == ["$scope"]:
        path.append(said[2])
    elif said[:1] == ["$upscope"]:
        path.pop()
    elif said[:1] == ["$var"]:
        signal = Signal(said[3], int(said[2]), " ".join(said[4:]))
        # Icarus Verilog writes a name with a backslash before it where Verilog needs one.
        signal.name = signal.name.lstrip("\\")
        signals[".".join([*path, signal.name])] = signal


def take_change(now, word, words):
    """Takes one value of the words of a line into `now`."""
    if word[0] in "bB":
        now[words.pop(0)] = word[1:].lower()
    elif word[0] in "rR":
        words.pop(0)
    elif word[0] in "01xXzZ":
        now[word[1:] or words.pop(0)] = word[0].lower()
    elif word == "$comment":
        while words and words[0] != "$end":
            words.pop(0)


def changes(lines, file="the dump"):
    """For each moment, the codes that change with their new values, x and z as they are."""
    now, line = {}, "\n"
    for line in lines:
        words = line.split()
        while words:
            word = words.pop(0)
            if word[0] == "#":
                if now:
                    yield now
                now = {}
            else:
                try:
                    take_change(now, word, words)
                except IndexError:
                    raise Unreadable(f"{file}: the value `{line.strip()}` names no signal: {CUT}")
    if line[-1] != "\n" and line[0] != "#":
        raise Unreadable(f"{file}: it ends within the line `{line.strip()}`: {CUT}")
    if now:
        yield now


class Dump:
    def __init__(self, file):
        self.file = file

    def opened(self):
        try:
            return open(self.file, encoding="latin-1")
        except OSError as fault:
            raise Unreadable(f"cannot read {self.file}: {fault.strerror}")

    def head(self):
        with self.opened() as lines:
            return read_head(lines, self.file)

    def ends_within_time(self, clock):
        """Whether the dump ends with values and not with a time, as one that was cut off. Where a test bench finishes at an edge of the clock, it ends with this edge."""
        moment = []
        with self.opened() as lines:
            read_head(lines, self.file)
            for line in lines:
                if line.startswith("#"):
                    moment.clear()
                else:
                    moment.append(line)
        now = next(changes(moment, self.file), {})
        return bool(now) and clock.code not in now

    def begins_with_edge(self, signal, wanted):
        """Whether a bit comes to this value from the other one before it first leaves it."""
        code, before = signal[0].code, "x"
        with self.opened() as lines:
            read_head(lines, self.file)
            for now in changes(lines, self.file):
                value = bit_of(now[code], signal[0].width, signal[1]) if code in now else before
                if before + value in ("01", "10"):
                    return value == wanted
                before = value
        return False

    def cycles(self, clock, falling, wanted):
        """For each edge of the clock, the values of the wanted signals just before it: (signal, place of the bit from the left) each."""
        with self.opened() as lines:
            read_head(lines, self.file)
            values, before, after = {}, *("10" if falling else "01")
            for now in changes(lines, self.file):
                new = now.get(clock.code)
                if new is not None and new == after and values.get(clock.code) == before:
                    yield [bit_of(values.get(signal.code, "x"), signal.width, place) for signal, place in wanted]
                values.update(now)


def bit_of(value, width, place):
    """The bit at a place from the left; a short value is extended as the standard says."""
    value = value.rjust(width, "0" if value[0] == "1" else value[0])
    return value[place]


def find(signals, scope, name):
    """The signal and the place that a netlist's name has in the dump, or None. Names of instances are scopes below `scope`."""
    at = f"{scope}.{name}" if scope else name
    if at in signals and signals[at].width == 1:
        return signals[at], 0
    found = re.match(r"^(.*)\[(-?\d+)\]$", at)
    if found and found[1] in signals and int(found[2]) in signals[found[1]].indices:
        signal = signals[found[1]]
        return signal, signal.indices.index(int(found[2]))
    return None


def guess_scope(signals, names):
    """The scopes that have all names; where one of them holds the others, this one alone."""
    scopes = {path.rpartition(".")[0] for path in signals}
    fit = [scope for scope in scopes if all(find(signals, scope, name) for name in names)]
    outer = min(fit, key=len, default=None)
    return [outer] if fit and all(scope == outer or scope.startswith(outer + ".") for scope in fit) else fit


def part_of_dump(text):
    """FILE or FILE:FROM-TO, cycles from 0, both ends taken."""
    found = re.match(r"^(.*):(\d+)-(\d+)$", text)
    return (found[1], int(found[2]), int(found[3])) if found else (text, 0, None)
