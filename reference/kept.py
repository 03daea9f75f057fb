"""What the rows of a result file tell, and what each row of a rates file takes, once more from the rules in docs/."""
import campaign as c

KINDS = {"stuck": "stuck-at", "flip": "flip", "pulse": "pulse"}
COLUMNS = ("fault", "net", "kind", "part", "role", "covered", "class", "dangerous", "noticed", "weight")


def first_row(patterns, name):
    """The place of the first pattern that matches, or None."""
    for place, (text, star, _) in enumerate(patterns):
        if name[:len(text)] == text if star else name == text:
            return place
    return None


def parts(net, patterns, parts):
    rows = [first_row(patterns, name) for name in net.names]
    first = lambda place: net.names[rows.index(place)] if place in rows else b"-"
    lines = []
    for place, (text, star, part) in enumerate(patterns):
        name, role, covered, _, _ = parts[part]
        latches = sum(rows[n] == place for n in net.latches)
        lines.append(b"pattern " + text + b"*" * star + b" part " + name +
                     f" role {role} covered {'yes' if covered else 'no'} nets {rows.count(place)} latches {latches} first ".encode() + first(place))
    return b"\n".join(lines + [f"unmatched {rows.count(None)} first ".encode() + first(None), b""])


def csv_field(text):
    return b'"' + text.replace(b'"', b'""') + b'"' if any(b in text for b in b',"\r\n') else text


def fault_table(plan, planes):
    lines = [",".join(COLUMNS).encode()]
    for i, (kind, n, _) in enumerate(plan.faults):
        if i // 64 not in planes:
            continue
        name, role, covered, _, _ = plan.parts[plan.owner[n]]
        danger, noticed = planes[i // 64]
        words = [KINDS[kind], role, "yes" if covered else "no", c.fault_class(plan, planes, i), str(danger >> i % 64 & 1), str(noticed >> i % 64 & 1),
                 str(plan.weights[i])]
        kind_word, role_word, *rest = [word.encode() for word in words]
        fields = [c.fault_name(plan.net, plan.faults[i]), plan.net.names[n], kind_word, name, role_word, *rest]
        lines.append(b",".join(csv_field(field) for field in fields))
    return b"\n".join([*lines, b""])


def judged(plan, classes):
    """The weights of the faults that have a class but outside: those whose class is told, those whose class is None in parts that are mechanisms,
    and the other ones without a class; permanent and transient each."""
    found = {(where, lasts): 0 for where in ("told", "mechanism", "else") for lasts in (True, False)}
    for i, (_, n, _) in enumerate(plan.faults):
        role = plan.parts[plan.owner[n]][1]
        if role != "other":
            where = "told" if classes[i] is not None else "mechanism" if role == "mechanism" else "else"
            found[where, plan.permanent[i]] += plan.weights[i]
    return found


def ends_of(plan, classes):
    """(label, least, greatest) of the three fractions, each a pair or None, and the least and the greatest term. The weights without a class are
    added to what the others have, where they do least and where they do most."""
    weights = judged(plan, classes)
    weigh = lambda lasts, *kinds: sum(plan.weights[i] for i, kind in enumerate(classes) if kind in kinds and plan.permanent[i] == lasts)
    danger, danger_transient = (weigh(lasts, "residual", "single-point") for lasts in (True, False))
    latent = weigh(True, "latent")
    missing = {lasts: weights["mechanism", lasts] + weights["else", lasts] for lasts in (True, False)}
    permanent, transient = (weights["told", lasts] + missing[lasts] for lasts in (True, False))
    of = lambda num, den: (num, den) if den else None
    best = of(permanent - danger - latent, permanent - danger)
    counted = permanent - danger - weights["else", True]
    worst = of(counted - latent - weights["mechanism", True], counted) or best
    fractions = [
        ("spfm permanent", of(permanent - danger - missing[True], permanent), of(permanent - danger, permanent)),
        ("spfm transient", of(transient - danger_transient - missing[False], transient), of(transient - danger_transient, transient)),
        ("lfm", worst, best),
    ]
    least = danger + danger_transient
    return fractions, (least, least + missing[True] + missing[False])


def stands(worst, best):
    return "met" if worst else "open" if best else "missed"


def bounds_of(plan, classes):
    """(label, least, greatest, how the target stands) of each metric, whatever the classes are that aren't told."""
    fractions, (least, greatest) = ends_of(plan, classes)
    spfm, lfm, most = c.PER_CENT[plan.asil]
    show = lambda end: "-" if end is None else f"{end[0]}/{end[1]}"
    meets = lambda end, per_cent: 100 * end[0] >= per_cent * end[1]
    for (label, worst, best), per_cent in zip(fractions, (spfm, spfm, lfm)):
        yield label, show(worst), show(best), "-" if best is None else stands(meets(worst, per_cent), meets(best, per_cent))
    yield "term", least, greatest, stands(greatest < most, least < most)


def progress(plan, planes):
    classes = [c.fault_class(plan, planes, i) if i // 64 in planes else None for i in range(len(plan.faults))]
    weights, bounds = judged(plan, classes), list(bounds_of(plan, classes))
    lines = [f"rows {len(planes)} of {plan.batches}"]
    lines += [f"judged {word} {weights['told', lasts]} of {sum(weights[where, lasts] for where in ('told', 'mechanism', 'else'))}"
              for word, lasts in (("permanent", True), ("transient", False))]
    lines += [f"{label} from {least} to {greatest}" for label, least, greatest, _ in bounds]
    lines += [f"target {label} {standing}" for label, _, _, standing in bounds]
    return "\n".join([*lines, ""]).encode()
