"""A report as the tools need it, read from its text (docs/reading-the-report.md)."""
import designs

PER_CENT = {"B": (90, 60, 10**8), "C": (97, 80, 10**8), "D": (99, 90, 10**7)}
HARMFUL = ("residual", "single-point")


class Part:
    pass


class Fault:
    pass


class Report:
    pass


def fraction(text):
    return None if text == "-" else tuple(map(int, text.split("/")))


def part_of_line(words):
    part, said = Part(), dict(zip(words[4::2], words[5::2]))
    part.name, part.role, part.covered = words[1:4]
    part.permanent, part.transient, part.faults = int(said["permanent"]), int(said["transient"]), int(said["faults"])
    part.counts = {word: int(said[word]) for word in ("safe", "detected", "residual", "single-point", "latent", "outside")}
    part.coverage = fraction(said["coverage"])
    return part


def fault_of_line(words):
    fault = Fault()
    fault.kind, fault.name, fault.weight = words[0], words[1], int(words[2])
    cut = max(fault.name.rfind(sign) for sign in "/^~")
    fault.net, fault.is_permanent = fault.name[:cut], fault.name[cut] == "/"
    return fault


def take_metric(report, words):
    """Takes a line of the sums or of a target."""
    if words[0] == "permanent":
        report.permanent, report.danger, report.latent = int(words[2]), int(words[4]), int(words[6])
    elif words[0] == "transient":
        report.transient, report.transient_danger = int(words[2]), int(words[4])
    elif words[0] == "target":
        report.targets[" ".join(words[1:-1])] = words[-1]


def read(name):
    text = designs.held(name).decode("latin-1")
    lines = text.split("\n")
    if lines[0] != "fmeda-report 1":
        raise designs.Refused(f"{name}: the first line isn't fmeda-report 1" + (f", but {lines[0]}" if lines[0].startswith("refused") else ""))
    if lines[-2:] != ["end", ""]:
        raise designs.Refused(f"{name}: the last line isn't end: the report was cut off")
    report = Report()
    report.parts, report.faults, report.targets = [], [], {}
    head = lines[1].split()
    report.head = dict(zip(head[::2], head[1::2]))
    for line in lines[2:-2]:
        words = line.split(" ")
        take_metric(report, words)
        if words[0] == "part":
            report.parts.append(part_of_line(words))
        elif words[0] in (*HARMFUL, "latent"):
            report.faults.append(fault_of_line(words))
    return report


def metrics(report):
    """(name, numerator, denominator, least per cent) of each fraction."""
    spfm, lfm, _ = PER_CENT[report.head["asil"]]
    left = report.permanent - report.danger
    return [("spfm permanent", left, report.permanent, spfm), ("spfm transient", report.transient - report.transient_danger, report.transient, spfm),
            ("lfm", left - report.latent, left, lfm)]


def fraction_word(num, den):
    return f"{num}/{den}" if den else "-"


def targets(report):
    """The verdict on each target by the sums, as the report's last lines have it."""
    term = report.danger + report.transient_danger
    found = {name: "-" if not den else "met" if 100 * num >= least * den else "missed" for name, num, den, least in metrics(report)}
    return {**found, "term": "met" if term < PER_CENT[report.head["asil"]][2] else "missed"}


def metric_lines(report):
    """The ten lines of the sums, the metrics and the targets, as a report has them."""
    return [f"permanent all {report.permanent} danger {report.danger} latent {report.latent}", f"transient all {report.transient} danger {report.transient_danger}",
            *[f"{name} {fraction_word(num, den)}" for name, num, den, _ in metrics(report)], f"term {report.danger + report.transient_danger}",
            *[f"target {name} {verdict}" for name, verdict in targets(report).items()]]


def per_cent(num, den, places=2):
    """Rounded down, so that what is shown as the target has met it."""
    if not den:
        return "-"
    whole = num * 10**places * 100 // den
    return f"{whole // 10**places}.{whole % 10**places:0{places}d} %"


def fit(units):
    return f"{units // 10**6}.{units % 10**6:06d}".rstrip("0").rstrip(".")


def keep_it_missed(report):
    """For each target that is missed, the fewest faults without which it would be met, the heaviest first."""
    found = {}
    heavy = lambda wanted: sorted((f for f in report.faults if wanted(f)), key=lambda f: -f.weight)
    for name, num, den, least in metrics(report):
        if report.targets.get(name) != "missed":
            continue
        if name == "lfm":
            candidates = heavy(lambda f: f.kind == "latent")
        else:
            candidates = heavy(lambda f: f.kind in HARMFUL and f.is_permanent == (name == "spfm permanent"))
        found[name] = []
        for fault in candidates:
            if 100 * num >= least * den:
                break
            num += fault.weight
            found[name].append(fault)
    if report.targets.get("term") == "missed":
        left, most = report.danger + report.transient_danger, PER_CENT[report.head["asil"]][2]
        found["term"] = []
        for fault in heavy(lambda f: f.kind in HARMFUL):
            if left < most:
                break
            left -= fault.weight
            found["term"].append(fault)
    return found


def path_of(net):
    """The instances that a net's name begins with, from the top: u_a and u_b of $flatten\\u_a.\\u_b.$abc$1$new_n2_."""
    prefix = "$flatten\\"
    shown = net[len(prefix):] if net.startswith(prefix) else net
    path = []
    while True:
        dot = shown.find(".")
        if dot <= 0 or shown.startswith("$"):
            return tuple(path)
        path.append(shown[:dot].lstrip("\\"))
        shown = shown[dot + 1:]
