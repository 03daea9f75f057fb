"""`.bench` files, read once more and by other means than the program reads them.

Written from the rules in docs/, with regular expressions, and to check expected values alone."""
import re

from netlist import MOST_CELLS, MOST_NETS, MOST_TOKEN, Netlist, NetlistFault

# white space is a space, a tab and a carriage return alone; names are longest pieces of bytes that are neither that nor marks
WHITE, NAME = rb"[ \t\r]*", rb"[^ \t\r(),=]+"
PORT = re.compile(WHITE.join((b"", b"(%b)" % NAME, rb"\(", b"(%b)" % NAME, rb"\)", b"")))
DRIVER = re.compile(WHITE.join((b"", b"(%b)" % NAME, b"=", b"(%b)" % NAME, rb"\((.*)\)", b"")), re.DOTALL)
LIST = re.compile(WHITE.join((b"", b"(?:%b" % NAME, b"(?:," , NAME, b")*)?")) + WHITE)
MOST = {b"AND": 1024, b"NAND": 1024, b"OR": 1024, b"NOR": 1024, b"XOR": 8, b"XNOR": 8, b"NOT": 1, b"BUFF": 1, b"BUF": 1, b"DFF": 1}


def statement(line):
    """('none',), ('INPUT', net), ('OUTPUT', net) or (word, out, ins); or the kind of the line's fault."""
    text = line.split(b"#", 1)[0]
    if not text.strip(b" \t\r"):
        return ("none",)
    wide = "TooWide" if any(len(t) > MOST_TOKEN for t in re.findall(NAME, text)) else None
    port, driver = PORT.fullmatch(text), DRIVER.fullmatch(text)
    if port:
        word = port[1].upper().decode("latin1")
        return "BadLine" if word not in ("INPUT", "OUTPUT") else wide or (word, port[2])
    if not driver or not LIST.fullmatch(driver[3]):
        return "BadLine"
    word, ins = driver[2].upper(), re.findall(NAME, driver[3])
    if word not in MOST:
        return "BadGate"
    if not 1 <= len(ins) <= MOST[word]:
        return "BadCount"
    return wide or (word.decode("latin1"), driver[1], ins)


def rows_of(word, count):
    """The rows of a gate's table, and the value where one matches."""
    if word in ("XOR", "XNOR"):
        return [format(k, f"0{count}b").encode() for k in range(2**count) if bin(k).count("1") % 2], word == "XOR"
    cell = b"0" if word in ("OR", "NOR", "NOT") else b"1"
    return [cell * count], word in ("AND", "NOR", "NOT", "BUFF", "BUF")


def read_bench(text):
    lines = [(number, statement(line)) for number, line in enumerate(text.split(b"\n"), 1)]
    for number, says in lines:
        if isinstance(says, str):
            raise NetlistFault(number, says)
    lines = [(number, says) for number, says in lines if says != ("none",)]
    place, first, cells, second, driven = {}, {}, 0, None, set()
    for number, says in lines:
        names = [says[1]] + (says[2] if len(says) == 3 else [])
        for name in names:
            place.setdefault(name, len(place))
            first.setdefault(name, number)
        if len(says) == 3 and says[0] != "DFF":
            cells += len(rows_of(says[0], len(says[2]))[0]) * len(says[2])
        if says[0] != "OUTPUT":
            second = number if second is None and says[1] in driven else second
            driven.add(says[1])
    if len(place) > MOST_NETS or cells > MOST_CELLS:
        raise NetlistFault(1, "TooLarge")
    if second is not None:
        raise NetlistFault(second, "TwoDrivers")
    for name in place:
        if name not in driven:
            raise NetlistFault(first[name], "Undriven", name)
    made = Netlist()
    made.names, made.drivers = list(place), [None] * len(place)
    for number, says in lines:
        net = place[says[1]]
        if says[0] == "INPUT":
            made.drivers[net] = ("input", len(made.inputs))
            made.inputs.append(net)
        elif says[0] == "OUTPUT":
            if net not in made.outputs:
                made.outputs.append(net)
        elif says[0] == "DFF":
            made.drivers[net] = ("latch", place[says[2][0]], False)
            made.latches.append(net)
        else:
            rows, on = rows_of(says[0], len(says[2]))
            made.drivers[net] = ("table", [place[name] for name in says[2]], rows, on)
            made.tables.append(net)
    return made
