"""Pieces of the HTML pages that the tools make. A page needs nothing from outside, and can be used by keyboard, on a narrow screen and on paper."""
import hashlib
import html
import pathlib
import sys

import designs
import reports

HERE = pathlib.Path(__file__).resolve().parent
STYLE = (HERE / "page.css").read_text()
HEAD = '<meta charset="utf-8"><meta name="viewport" content="width=device-width, initial-scale=1">'


def tag(name, text, **attributes):
    shown = "".join(f' {key.rstrip("_").replace("_", "-")}="{html.escape(str(value))}"' for key, value in attributes.items())
    return f"<{name}{shown}>{text}</{name}>"


def row(cells, name="td"):
    return tag("tr", "".join(tag(name, cell) for cell in cells))


def table(head, rows, **attributes):
    """A table that is wider than a narrow screen is moved by itself, by hand or by the arrow keys, and not the whole page."""
    inner = tag("table", tag("thead", row(head, "th")) + tag("tbody", "".join(rows)), **attributes)
    return tag("div", inner, class_="wide", tabindex="0")


def bar(shares):
    """Pieces of (class, share of 1, words), each class with a hatching of its own; the words say the same to who can't see it."""
    pieces = [tag("span", "", class_=f"piece {kind}", style=f"width:{100 * share:.3f}%", title=said) for kind, share, said in shares if share > 0]
    words = ", ".join(said for _, share, said in shares if share > 0 and said)
    return tag("div", "".join(pieces), class_="bar", **({"role": "img", "aria_label": words} if words else {"aria_hidden": "true"}))


def legend(kinds):
    return tag("p", " ".join(tag("span", tag("span", "", class_=f"piece {kind}") + " " + kind, class_="key") for kind in kinds), class_="legend")


def section(name, heading, *pieces):
    return (name, heading, "".join(pieces))


def whole(title, head, sections):
    """A page of its title, a line below it, the list of its sections, and these."""
    links = tag("ol", "".join(tag("li", tag("a", heading, href=f"#section-{name}")) for name, heading, _ in sections))
    inner = "".join(tag("section", tag("h2", heading, id=f"section-{name}") + text) for name, heading, text in sections)
    return tag("header", tag("h1", html.escape(title)) + tag("p", html.escape(head), class_="head")) + tag("nav", links, aria_label="Contents") + tag("main", inner)


def verdict_mark(verdict):
    return tag("span", verdict, class_=f"verdict {verdict}")


def values(report):
    """The value and the verdict of each metric, and of the term last."""
    found = [f"{tag('b', reports.per_cent(num, den))} {verdict_mark(report.targets[name])}" for name, num, den, _ in reports.metrics(report)]
    return [*found, f"{tag('b', reports.fit(report.danger + report.transient_danger) + ' FIT')} {verdict_mark(report.targets['term'])}"]


def metric_rows(report, other=None):
    rows, beside = [], values(other) if other else []
    for k, (name, num, den, least) in enumerate(reports.metrics(report)):
        verdict = report.targets[name]
        shown = bar([("good" if verdict == "met" else "bad", num / den if den else 0, "")]) if den else ""
        rows.append(row([name, tag("b", reports.per_cent(num, den)), f"at least {least} %", verdict_mark(verdict), shown, f"{num}/{den}" if den else "nothing to divide", *beside[k:k + 1]]))
    term, most = report.danger + report.transient_danger, reports.PER_CENT[report.head["asil"]][2]
    verdict = report.targets["term"]
    rows.append(row(["term (part of PMHF)", tag("b", reports.fit(term) + " FIT"), f"below {most // 10**6} FIT", verdict_mark(verdict),
                     bar([("bad" if verdict == "missed" else "good", min(term / most, 1), "")]), f"{term} × 10⁻⁶ FIT", *beside[-1:]]))
    return rows


def metric_table(report, other=None):
    """The metrics against their targets; `other` is the report where latches of unknown start begin at 1."""
    return (table(["metric", "value", f"target of ASIL {report.head['asil']}", "", "", "exactly", *["latches of unknown start at 1"] * bool(other)], metric_rows(report, other), id="metrics")
            + tag("p", "Percentages are rounded down. The term is the single-point and residual part of PMHF, and never the whole of it."))


def file_table(names):
    """Each file with its length and its digest."""
    rows = []
    for name in names:
        text = designs.held(name)
        rows.append(row([html.escape(name), str(len(text)), tag("code", hashlib.sha256(text).hexdigest())]))
    return table(["file", "bytes", "SHA-256"], rows)


def hint_list(found, otherwise):
    return tag("ul", "".join(tag("li", html.escape(it)) for it in found), id="hints") if found else tag("p", otherwise, id="hints")


def write(out, title, inner):
    """Writes the whole page to the file `out`, or to standard output."""
    text = f'<!DOCTYPE html>\n<html lang="en"><head>{HEAD}<title>{html.escape(title)}</title><style>{STYLE}</style></head><body>{inner}</body></html>\n'
    if out:
        pathlib.Path(out).write_text(text, encoding="utf-8")
    else:
        sys.stdout.buffer.write(text.encode())
