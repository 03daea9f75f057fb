"""Nets that may have the name of another instance than the one that makes them, and so be of another part."""
import reports

MOST_OF_A_CELL = 2


def cells_of(design):
    """The instances that are cells of a library: a few nets, and no instance in them."""
    counts, above = {}, set()
    for name in design.names:
        path = reports.path_of(name)
        counts[path] = counts.get(path, 0) + 1
        above.update(path[:k] for k in range(len(path)))
    return {path for path, count in counts.items() if path and count <= MOST_OF_A_CELL and path not in above}


def found(design, parts_by_net):
    """{(part, the instances whose nets are read): nets} of the nets that look as if they were made in another instance than their name says."""
    cells, made = cells_of(design) if len(design.names) > MOST_OF_A_CELL else set(), {}
    place = lambda net: (lambda path: path[:-1] if path in cells else path)(reports.path_of(net))
    for name, driver in zip(design.names, design.net.drivers):
        own = place(name)
        if driver[0] == "input" or not own or name.startswith("$"):
            continue
        read = [design.names[n] for n in (driver[1] if driver[0] == "table" else [driver[1]])]
        instances = set(map(place, read))
        part = parts_by_net.get(name)
        if read and own not in instances and part is not None and part not in map(parts_by_net.get, read):
            made.setdefault((part, tuple(sorted(instances))), []).append(name)
    return made


def lines(design, parts_by_net):
    if design.named_by_driver:
        return
    for (part, instances), nets in found(design, parts_by_net).items():
        made = ", ".join(".".join(path) or "the top module" for path in instances)
        yield f"perhaps of another part than {part}: {nets[0]}{f' and {len(nets) - 1} more' * (len(nets) > 1)}, made of nets of {made} alone"
