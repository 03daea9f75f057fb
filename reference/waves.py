"""The value change dump of one run, once more from the rules in docs/."""
import campaign as c


def code_of(number):
    """Bijective base 94, least digit first, of the characters ! to ~."""
    made = bytearray()
    number += 1
    while number:
        number, digit = divmod(number - 1, 94)
        made.append(33 + digit)
    return bytes(made)


def reference_of(name):
    return b"\\" + name if name[:1] in (b"$", b"\\") else name


def nets_shown(net, wanted, fault, traces):
    if wanted == b"all" or wanted is None and fault is None:
        return range(len(net.names))
    if wanted == b"differing" or wanted is None:
        return [n for n in range(len(net.names)) if any(cycle[n] & 1 != cycle[n] >> 1 for cycle in traces)]
    found = [n for n, name in enumerate(net.names) if (name.startswith(wanted[:-1]) if wanted.endswith(b"*") else name == wanted)]
    if not found:
        raise c.Refused(17, b"no such net")
    return found


def trace(net, runs, faults, number, name, wanted):
    if not 1 <= number <= len(runs):
        raise c.Refused(17, b"no such run")
    fault = next((f for f in faults if c.fault_name(net, f) == name), None)
    if name is not None and fault is None:
        raise c.Refused(17, b"no such fault")
    # In each value bit 1 is the golden run and bit 0 the one with the fault, where there is one.
    traces = list(c.simulated(net, [[] if fault is None else [fault]], runs[number - 1][2]))
    shown, scopes = nets_shown(net, wanted, fault, traces), [(b"golden", 1)] + [(b"faulty", 0)] * (fault is not None)
    lines = [b"$version fmeda trace $end", b"$timescale 1 ns $end"]
    for scope, (word, _) in enumerate(scopes):
        lines.append(b"$scope module " + word + b" $end")
        lines += [b"$var wire 1 " + code_of(scope * len(shown) + place) + b" " + reference_of(net.names[n]) + b" $end" for place, n in enumerate(shown)]
        lines.append(b"$upscope $end")
    lines.append(b"$enddefinitions $end")
    for t, values in enumerate(traces):
        lines.append(b"#" + str(t).encode())
        for scope, (_, bit) in enumerate(scopes):
            for place, n in enumerate(shown):
                value = values[n] >> bit & 1
                if t == 0 or value != traces[t - 1][n] >> bit & 1:
                    lines.append(str(value).encode() + code_of(scope * len(shown) + place))
    return b"\n".join([*lines, b"#" + str(len(traces)).encode(), b""])
