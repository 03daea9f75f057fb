"""Cases of tools/page: what it says, what it does in a browser, and how it looks there, on a narrow screen, without colour and on paper."""
import html.parser
import json
import os
import pathlib
import re
import shutil
import struct
import subprocess
import tempfile
import zlib

from common import EXAMPLES, Skipped, held, tool

FILES = ("design.blif", "workload.csv", "rates.csv", "points.csv")


class Outside(html.parser.HTMLParser):
    """Whatever a page would fetch."""

    def __init__(self):
        super().__init__()
        self.found = []

    def handle_starttag(self, name, attributes):
        self.found += [(name, key, value) for key, value in attributes if key in ("src", "href", "srcset", "action") and not value.startswith("#")]


def _made_page(folder, example, *more):
    copy = pathlib.Path(folder, example)
    shutil.copytree(EXAMPLES / example, copy)
    files = (copy / "words").read_text().split()[1:5]
    tool("page", *files, "report.txt", *more, "-o", "page.html", folder=copy)
    return copy / "page.html"


def a_page_of_each_example(folder, _):
    for example in sorted(it.parent.name for it in EXAMPLES.glob("*/design.blif")):
        text = _made_page(folder, example).read_text()
        outside = Outside()
        outside.feed(text)
        assert not outside.found and "@import" not in text and "url(" not in text, (example, outside.found)


def what_the_page_says(folder, _):
    text = _made_page(folder, "bridge").read_text()
    for wanted in ("84.83 %", "at least 90 %", "3614153/4260000", "without the 25 heaviest faults", "u_control", "Nothing was noticed"):
        assert wanted in text, wanted
    folder = pathlib.Path(folder)
    points = folder.joinpath("bridge", "points.csv")
    points.write_text("".join(line for line in points.read_text().splitlines(True) if "parity" not in line))
    tool("page", *FILES, "report.txt", "-o", "page.html", folder=points.parent)
    assert "2 outputs of the netlist are no point: rparity, pparity." in points.with_name("page.html").read_text()
    text = _made_page(folder, "watchdog").read_text()
    assert "2 safety goals" in text
    text = _made_page(folder, "secded_fifo", "--flips", "20,45,5000").read_text()
    assert "no mission run has the cycles 5000" in text and "No part has the role mechanism" in text


def buses_and_the_top_module(folder, _):
    """The faults of a bus in one row, with what the report says of its bits added up; and the nets of the top module beside its instances."""
    page = _made_page(folder, "bridge")
    lines = [line.split() for line in page.with_name("report.txt").read_text().splitlines() if line.startswith(("residual", "single-point", "latent"))]
    said = _section(page.read_text(), "faults")
    for bus in ("pwdata", "rdata", "paddr"):
        own = [(name, int(weight)) for kind, name, weight in lines if name.startswith(f"{bus}[") and kind == "residual"]
        assert re.search(rf"{bus}\[\*\] {re.escape(', '.join(name for name, _ in own[:1]))}.* residual \w+ {len(own)} {sum(weight for _, weight in own) / 1e6:g}\b", said), (bus, own, said[:400])
    top = sum(int(weight) for kind, name, weight in lines if kind != "latent" and "." not in name)
    shown = re.search(r"\(nets of the top module\) \d+ nets, (\d+) residual, (\d+) single-point, 0 latent; harmful (\S+) FIT", _section(page.read_text(), "hierarchy"))
    assert shown and round(float(shown[3]) * 1e6) == top and int(shown[1]) + int(shown[2]) == sum(kind != "latent" and "." not in name for kind, name, _ in lines), (shown, top)


WIDE = """<script>
document.title = [...document.querySelectorAll(".wide")].filter(it => it.scrollWidth > it.clientWidth).map(it => it.firstChild.id).join("|") + "|" + innerWidth;
</script>"""


def no_column_is_cut(folder, program):
    """At 1400 pixels each table is as wide as its place, with all that the flow gives to the page."""
    page = _made_page(folder, "bridge")
    copy, words = page.parent, (*FILES, "--ftti", "4", "--flips", "61,98,130,250", "--asil", "B")
    for command, name, *own in (("breakdown", "b.txt", "--intervals", "0,2"), ("latencies", "l.csv")):
        with open(copy / name, "wb") as out:
            subprocess.run([program, command, *words, *own], cwd=copy, check=True, stdout=out)
    tool("page", *FILES, "report.txt", "--breakdown", "b.txt", "--latencies", "l.csv", "-o", "page.html", folder=copy)
    page.write_text(page.read_text().replace("</body>", WIDE + "</body>"))
    found = re.search(r"<title>(.*?)</title>", _browser("--window-size=1400,1000", "--dump-dom", f"file://{page}"))[1]
    assert found == "|1400", found


def fewest_faults_by_hand(folder, _):
    """SPFM 6/10 and 90 % wanted: three of four residual faults of 1 FIT must go; LFM 5/6: the one latent fault."""
    copy = pathlib.Path(folder, "x")
    shutil.copytree(EXAMPLES / "duplicated", copy)
    text = copy.joinpath("report.txt").read_text().replace("asil D", "asil B").replace("target lfm missed", "target lfm met")
    copy.joinpath("report.txt").write_text(text)
    tool("page", "gate.blif", "vectors.csv", "rates.csv", "points.csv", "report.txt", "-o", "page.html", folder=copy)
    shown = copy.joinpath("page.html").read_text()
    assert "spfm permanent</b>: without the 3 heaviest" in shown and "lfm</b>: without" not in shown


def a_page_of_a_refusal_or_half_a_report(folder, _):
    copy = pathlib.Path(folder, "x")
    shutil.copytree(EXAMPLES / "bridge", copy)
    report = copy.joinpath("report.txt")
    whole = report.read_text()
    for text, wanted in ((whole[:-4], "cut off"), ("refused: usage\n", "refused: usage")):
        report.write_text(text)
        _, said = tool("page", *FILES, "report.txt", folder=copy, status=1)
        assert wanted in said, said


def _section(text, name):
    """What a section of the page says, without its marks."""
    text = text[text.index(f'id="section-{name}"'):]
    return " ".join(re.sub("<[^>]*>", " ", text[:text.index("</section>")]).split())


def metrics_by_goal_by_alarm_and_by_interval(folder, program):
    """The duplicated gate by hand. Its alarm misses the inputs' four faults of 1 FIT, and finds one of the mechanism's faults dangerous alone: without it
    both faults of y are dangerous too, and three of the mechanism are latent beside the one that is."""
    copy = pathlib.Path(folder, "x")
    shutil.copytree(EXAMPLES / "duplicated", copy)
    files = ("gate.blif", "vectors.csv", "rates.csv", "points.csv")
    for command, name, *own in (("breakdown", "b.txt", "--intervals", "0,2"), ("latencies", "l.csv")):
        with open(copy / name, "wb") as out:
            subprocess.run([program, command, *files, *own], cwd=copy, check=True, stdout=out)
    given = ("--breakdown", "b.txt", "--latencies", "l.csv")
    tool("page", *files, "report.txt", *given, "-o", "page.html", folder=copy)
    text = copy.joinpath("page.html").read_text()
    assert "- 60.00 % missed - - 83.33 % missed 4 FIT met" in _section(text, "bygoal"), _section(text, "bygoal")
    said = _section(text, "byalarm")
    assert "without al 2 FIT more are residual or single-point, and 3 FIT more latent" in said and "al left out 40.00 % missed - - 0.00 % missed" in said, said
    assert "2 60.00 % missed" in _section(text, "byinterval")
    assert "0 2 2 no interval would do 4 4" in _section(text, "latencies"), _section(text, "latencies")
    assert "dup 4 1 25.00 % al/0" in _section(text, "excited"), _section(text, "excited")
    for name in ("b.txt", "l.csv"):
        whole = copy.joinpath(name).read_text()
        copy.joinpath(name).write_text(whole.replace("residual", "detected").replace("danger 4000000", "danger 3000000"))
        _, refusal = tool("page", *files, "report.txt", *given, folder=copy, status=1)
        assert name in refusal and ("another campaign" in refusal or "no breakdown" in refusal), refusal
        copy.joinpath(name).write_text(whole)
    copy.joinpath("b.txt").write_text(copy.joinpath("b.txt").read_text()[:-4])
    _, refusal = tool("page", *files, "report.txt", *given, folder=copy, status=1)
    assert "cut off" in refusal, refusal


# The duplicated gate with vectors in which a is never 1: a/0 and y/0 are never excited, and b/0 and b/1 are quiet.
FEW = """workload,kind,a,b
w,mission,0,0
w,mission,0,1
"""


def what_the_metrics_rest_on(folder, program):
    """By hand, each fault being 1 FIT but those of the mechanism: a/1 harms and y/1 is caught. Of the mechanism's four FIT one each is that of al/0, al/1, z/0 and z/1; al/0 and z/0
    are latent, and no path leads from any to y."""
    copy = pathlib.Path(folder, "x")
    shutil.copytree(EXAMPLES / "duplicated", copy)
    files = ("gate.blif", "vectors.csv", "rates.csv", "points.csv")
    copy.joinpath("vectors.csv").write_text(FEW)
    for command, name in (("report", "report.txt"), ("coverage", "c.txt")):
        with open(copy / name, "wb") as out:
            subprocess.run([program, command, *files], cwd=copy, check=True, stdout=out)
    tool("page", *files, "report.txt", "--coverage", "c.txt", "-o", "page.html", folder=copy)
    text = copy.joinpath("page.html").read_text()
    said = _section(text, "rests")
    for wanted in ("if the 2 that no run excited do harm", "if the 4 that no run excited, or that nothing showed, do", "spfm permanent 90.00 % at least 99 % missed 70.00 % missed 50.00 % missed",
                   "term 1 FIT below 10 FIT met 3 FIT met 5 FIT met", "in permanent 4 0.00 % - 1 0 0 2 1 0", "out permanent 2 100.00 % - 0 1 0 0 1 0", "dup permanent 4 - 50.00 % 0 0 0 0 0 4",
                   "2 that no run excited: a/0, y/0", "2 that nothing showed: b/0, b/1"):
        assert wanted in said, (wanted, said)
    assert re.findall(r'<h2 id="section-([a-z]+)"', text)[:2] == ["rests", "metrics"] and "faults were never excited" not in text
    whole = copy.joinpath("c.txt").read_text()
    for change, wanted in ((whole[:-4], "cut off"), (whole.replace("target missed", "target met", 1), "another campaign"), (whole.replace("unexcited faults 2", "unexcited two"), "is no line of coverage")):
        copy.joinpath("c.txt").write_text(change)
        _, refusal = tool("page", *files, "report.txt", "--coverage", "c.txt", folder=copy, status=1)
        assert wanted in refusal, refusal


def upsets_by_cycle_and_by_latch(folder, _):
    """By the stored texts of watchdog: in cycle 30 4 of 6.666667 FIT harm, in 51 and 72 3.2; step[0] harms in 30 and 51, step[2] in 30 and 72."""
    copy = _made_page(folder, "watchdog", "--coverage", "coverage.txt").parent
    text = copy.joinpath("page.html").read_text()
    said = _section(text, "moments")
    for wanted in ("30 of 1280 upsets were tried, 2.34 %", "3 of 3 cycles miss the 90 %; in 0 no flip does harm", "30 40.00 % 4 of 6.666667 72 51.99 %", "goal heater", "u_controller.heat controller 3 of 3 2.4 30, 51, 72",
                   "u_controller.step[0] controller 2 of 3 1.6 30, 51", "u_controller.step[2] controller 2 of 3 1.6 30, 72"):
        assert wanted in said, (wanted, said)
    assert text.count('class="stem low"') == 9 and 'class="stem"' not in text and "the least is 40.00 % in cycle 30" in text
    assert 'id="section-moments"' not in _made_page(folder, "voter", "--coverage", "coverage.txt").read_text()
    text = _made_page(folder, "parity", "--coverage", "coverage.txt").read_text()
    assert text.count('class="stem"') == 2 and "No flip of a latch does harm." in text and "in 2 no flip does harm" in text
    whole = copy.joinpath("coverage.txt").read_text()
    for change in (whole.replace("spfm transient 2666667/6666667", "spfm transient 2666668/6666667"), whole.replace("upsets 30 of", "upsets all of", 1)):
        copy.joinpath("coverage.txt").write_text(change)
        _, refusal = tool("page", *FILES, "report.txt", "--coverage", "coverage.txt", folder=copy, status=1)
        assert "is no line of coverage" in refusal, refusal


def very_many_cycles(folder, _):
    """65,536 cycles are drawn as columns, each with the worst of its cycles: the page stays small, and no cycle that misses the target is hidden."""
    copy = _made_page(folder, "watchdog").parent
    whole = copy.joinpath("coverage.txt").read_text()
    lines = [f"cycle {t} harm {5 if t == 40001 else 0} rate 10 spfm transient {5 if t == 40001 else 10}/10" for t in range(65536)]
    copy.joinpath("coverage.txt").write_text(re.sub(r"(cycle .*\n)+", "\n".join(lines) + "\n", whole))
    tool("page", *FILES, "report.txt", "--coverage", "coverage.txt", "-o", "page.html", folder=copy)
    text = copy.joinpath("page.html").read_text()
    assert len(text) < 500000 and text.count('class="stem low"') == 3 and "40001 50.00 %" in _section(text, "moments"), len(text)


def what_holds_for_every_workload_stands_on_the_page(folder, program):
    """By hand, each fault being 1 FIT: y/0 and y/1 raise the alarm at once, and nothing leads from z or al to y. a and b reach both gates alike: they are open, and a/1 alone harms in these runs."""
    copy = pathlib.Path(folder, "x")
    shutil.copytree(EXAMPLES / "duplicated", copy)
    files = ("gate.blif", "vectors.csv", "rates.csv", "points.csv")
    copy.joinpath("vectors.csv").write_text(FEW)
    copy.joinpath("held.csv").write_text("input,from,before,value\n")
    for words, name in ((("report", *files), "report.txt"), (("always", files[0], *files[2:], "held.csv"), "a.txt")):
        with open(copy / name, "wb") as out:
            subprocess.run([program, *words], cwd=copy, check=True, stdout=out)
    tool("page", *files, "report.txt", "--always", "a.txt", "-o", "page.html", folder=copy)
    said = _section(copy.joinpath("page.html").read_text(), "always")
    for wanted in ("For every workload that keeps this: no alarm without a fault from cycle 0 on.", "nothing is said of the last 1 cycles of a run", "spfm permanent at least 99 % 90.00 % missed 60.00 % open 60.00 % open",
                   "in no - 4 0 0 0 4", "out yes 0 2 0 2 0 0", "dup yes - 4 4 0 0 0", "3 open faults, 3 FIT, did no harm in the simulation", ": a/0, b/0, b/1."):
        assert wanted in said, (wanted, said)
    whole = copy.joinpath("a.txt").read_text()
    for change, wanted in ((whole[:-4], "cut off"), (whole.replace("nets 5", "nets 6"), "another campaign"), (whole.replace("target open", "target missed", 1), "is no line of always")):
        copy.joinpath("a.txt").write_text(change)
        _, refusal = tool("page", *files, "report.txt", "--always", "a.txt", folder=copy, status=1)
        assert wanted in refusal, refusal


def names_are_no_markup(folder, _):
    held(folder, n__blif=".model m\n.inputs <b>a\n.outputs y\n.names <b>a y\n1 1\n.end\n", w__csv="workload,kind,<b>a\nw,mission,1\n",
         r__csv="pattern,part,role,covered,permanent,transient\n*,all,mission,no,1,0\n", p__csv="kind,net\nobserve,y\n")
    words = ["fmeda-report 1", "nets 2 latches 0 faults 4 batches 1 workloads 1 cycles 1 ftti 0 asil D",
             "part all mission uncovered permanent 1000000 transient 0 faults 4 safe 2 detected 0 residual 0 single-point 2 latent 0 outside 0 coverage 0/500000",
             "permanent all 1000000 danger 500000 latent 0", "transient all 0 danger 0", "spfm permanent 500000/1000000", "spfm transient -", "lfm 500000/500000",
             "term 500000", "target spfm permanent missed", "target spfm transient -", "target lfm met", "target term met",
             "single-point <b>a/0 250000", "single-point y/0 250000", "end", ""]
    held(folder, report__txt="\n".join(words))
    text, _ = tool("page", "n.blif", "w.csv", "r.csv", "p.csv", "report.txt", folder=folder)
    assert "<b>a" not in text and "\\u003cb>a/0" in text


def _browser(*words):
    browser = shutil.which("chromium") or shutil.which("chromium-browser")
    if browser is None:
        raise Skipped("chromium is not installed")
    with tempfile.TemporaryDirectory() as home:
        words = [browser, "--headless", "--no-sandbox", "--disable-gpu", "--hide-scrollbars", f"--user-data-dir={home}", *words]
        return subprocess.run(words, capture_output=True, text=True, timeout=120, env={**os.environ, "HOME": home}).stdout


def _dom_of(page, searched):
    return _browser("--dump-dom", f"file://{page}#{searched}")


def _unfiltered(kind, line, above, step):
    """A line of a PNG file as it was before its filter of this kind."""
    made = bytearray(line)
    for at, byte in enumerate(line):
        left, up, corner = (made[at - step] if at >= step else 0), above[at], (above[at - step] if at >= step else 0)
        if kind == 4:
            near = min((left, up, corner), key=lambda it: abs(left + up - corner - it))
        made[at] = (byte + (0, left, up, (left + up) // 2, near if kind == 4 else 0)[kind]) & 255
    return made


def _picture(page, width, height, *words):
    """The rows of the page's picture, each pixel as its grey."""
    with tempfile.TemporaryDirectory() as room:
        shot = pathlib.Path(room, "shot.png")
        _browser(f"--window-size={width},{height}", f"--screenshot={shot}", *words, f"file://{page}")
        data = shot.read_bytes()
    wide, high, depth, kind = struct.unpack(">IIBB", data[16:26])
    assert depth == 8 and kind in (2, 6), (depth, kind)
    step, at, packed = {2: 3, 6: 4}[kind], 8, b""
    while at < len(data):
        length, name = struct.unpack(">I4s", data[at:at + 8])
        packed += data[at + 8:at + 8 + length] if name == b"IDAT" else b""
        at += 12 + length
    plain, above, rows = zlib.decompress(packed), bytearray(wide * step), []
    for k in range(high):
        line = plain[k * (wide * step + 1):(k + 1) * (wide * step + 1)]
        above = _unfiltered(line[0], line[1:], above, step)
        rows.append([(299 * above[i] + 587 * above[i + 1] + 114 * above[i + 2]) // 1000 for i in range(0, wide * step, step)])
    return rows


class Rows(html.parser.HTMLParser):
    """The texts of the cells of the table of faults, a list for each row."""

    def __init__(self):
        super().__init__()
        self.inside, self.rows = False, []

    def handle_starttag(self, name, attributes):
        if name == "table":
            self.inside = ("id", "faults") in attributes
        elif self.inside and name == "tr":
            self.rows.append([])
        elif self.inside and name in ("td", "th"):
            self.rows[-1].append("")

    def handle_endtag(self, name):
        if name == "table":
            self.inside = False

    def handle_data(self, data):
        if self.inside and self.rows and self.rows[-1]:
            self.rows[-1][-1] += data


def _rows_in_the_browser(page, searched):
    rows = Rows()
    rows.feed(_dom_of(page, searched))
    return rows.rows[1:]


def the_page_in_a_browser(folder, _):
    page = _made_page(folder, "lockstep")
    lines = [line.split() for line in page.with_name("report.txt").read_text().splitlines()]
    faults = [words for words in lines if words[0] in ("residual", "single-point", "latent")]
    rows = _rows_in_the_browser(page, "")
    assert sorted((row[0], row[1]) for row in rows) == sorted((words[0], words[1]) for words in faults), len(rows)
    assert [float(row[3]) for row in rows] == sorted((int(words[2]) / 1e6 for words in faults), reverse=True)
    rows = _rows_in_the_browser(page, "torque%20residual")
    assert sorted(row[1] for row in rows) == sorted(words[1] for words in faults if words[0] == "residual" and "torque" in words[1]), rows


def all_faults_in_a_browser(folder, program):
    copy = pathlib.Path(folder, "bridge")
    shutil.copytree(EXAMPLES / "bridge", copy)
    words = copy.joinpath("words").read_text().split()
    subprocess.run([program, *words], cwd=copy, check=True, stdout=subprocess.DEVNULL)
    tool("page", *FILES, "report.txt", "--result", "result", "--flips", "61,98,130,250", "-o", "page.html", folder=copy)
    rows = _rows_in_the_browser(copy / "page.html", "")
    assert len(rows) == 716, len(rows)
    assert sum(row[0] == "detected" for row in rows) == 183 + 112 + 29 + 48 + 87 + 1 + 46


def what_was_asked_for_stands_on_the_page(folder, _):
    text = _made_page(folder, "watchdog").read_text()
    for wanted in ("<td>heater</td><td>16 cycles</td><td>heater_on</td>", "<td>lamp</td><td>", "alarms, of all goals"):
        assert wanted in text, wanted
    text = _made_page(folder, "bridge").read_text()
    assert "not told to this page" in text
    named = re.findall(r'<h2 id="(section-[a-z]+)">', text)
    assert named == re.findall(r'<a href="#(section-[a-z]+)">', text) and len(named) == 7, named
    assert 'name="viewport"' in text and text.index("<nav") < text.index("<main>")
    assert f'<div class="wide" tabindex="0"><table id="parts">' in text


def a_page_with_its_manifest(folder, program):
    copy = pathlib.Path(folder, "x")
    shutil.copytree(EXAMPLES / "duplicated", copy)
    words = copy.joinpath("words").read_text().split()
    tool("manifest", "run", "m.json", "--", program, *words, folder=copy)
    files = (*words[1:5], "report.txt")
    tool("page", *files, "--manifest", "m.json", "-o", "page.html", folder=copy)
    text, kept = copy.joinpath("page.html").read_text(), json.loads(copy.joinpath("m.json").read_text())
    for wanted in (kept["campaign"], kept["program"]["sha256"], f"fmeda {' '.join(words)}", "<td>cycles of flips (--flips)</td><td>none</td>", kept["started"]):
        assert wanted in text, wanted
    report = copy.joinpath("report.txt")
    report.write_text(report.read_text().replace("target lfm missed", "target lfm met"))
    _, said = tool("page", *files, "--manifest", "m.json", folder=copy, status=1)
    assert "m.json is of another report than report.txt" in said, said
    _, said = tool("page", *files, "--manifest", "report.txt", folder=copy, status=1)
    assert "report.txt is no manifest" in said, said


def a_link_to_a_section_is_no_search(folder, _):
    page = _made_page(folder, "lockstep")
    assert len(_rows_in_the_browser(page, "section-parts")) == len(_rows_in_the_browser(page, "")) == 234
    assert 'aria-label="Contents"' in _dom_of(page, "")


KEYS = """<script>
const pressed = key => document.dispatchEvent(new KeyboardEvent("keydown", {key, bubbles: true, cancelable: true}));
const first = () => document.querySelector("#faults tbody td:nth-child(2)").textContent;
const said = [];
pressed("/"); said.push(document.activeElement.id);
search.value = "torque"; search.dispatchEvent(new Event("input")); said.push(count.textContent.split(",")[0]);
pressed("Escape"); said.push(search.value + count.textContent.split(",")[0]);
const name = document.querySelectorAll("#faults th button")[1];
name.click(); said.push(first()); name.click(); said.push(first()); said.push(name.parentElement.getAttribute("aria-sort")); said.push(more.hidden);
document.title = said.join("|");
</script>"""


def what_keys_and_buttons_do(folder, _):
    page = _made_page(folder, "lockstep")
    names = [line.split()[1] for line in page.with_name("report.txt").read_text().splitlines() if line.split()[0] in ("residual", "single-point", "latent")]
    page.write_text(page.read_text().replace("</body>", KEYS + "</body>"))
    found = re.search(r"<title>(.*?)</title>", _dom_of(page, ""))[1].split("|")
    assert found == ["search", f"{sum('torque' in name for name in names)} faults", f"{len(names)} faults", min(names), max(names), "descending", "true"], found


def _dark_columns(rows):
    """Of a narrow page its last pixels, which are as light as the paper where nothing is cut off."""
    return [number for number, row in enumerate(rows) if any(pixel < 200 for pixel in row[-4:])]


WIDTHS = """<script>
const frame = document.createElement("iframe");
const said = [];
async function look(width) {
  frame.width = width;
  frame.contentWindow.dispatchEvent(new Event("resize"));
  await new Promise(done => setTimeout(done, 100));
  const inner = frame.contentDocument;
  said.push([...inner.querySelectorAll(".wide")].filter(it => it.scrollWidth > it.clientWidth + 1).map(it => it.firstChild.id).join(" "));
  said.push(inner.querySelectorAll(".stacked").length > 0);
}
frame.srcdoc = document.documentElement.outerHTML.replace(/<script id="widths">[^]*/, "");
frame.addEventListener("load", async () => {
  for (const width of [1400, 800, 400]) await look(width);
  document.title = said.join("|");
});
document.body.append(frame);
</script>"""


def no_table_is_cut_off_on_any_screen(folder, program):
    """On 800 and 400 pixels the tables that are wider have each row as lines, with the names of the columns; on 1,400 none has."""
    copy = pathlib.Path(folder, "bridge")
    shutil.copytree(EXAMPLES / "bridge", copy)
    words = copy.joinpath("words").read_text().split()
    campaign = [word for word in words[1:] if word != "result"]
    for command in ("latencies", "breakdown"):
        done = subprocess.run([program, command, *campaign], cwd=copy, check=True, capture_output=True)
        copy.joinpath(f"{command}.txt").write_bytes(done.stdout)
    tool("page", *FILES, "report.txt", "--latencies", "latencies.txt", "--breakdown", "breakdown.txt", "-o", "page.html", folder=copy)
    page = copy / "page.html"
    page.write_text(page.read_text().replace("</body>", WIDTHS.replace("<script>", '<script id="widths">') + "</body>"))
    text = _browser("--virtual-time-budget=20000", "--dump-dom", f"file://{page}")
    found = re.search(r"<title>(.*?)</title>", text)[1].split("|")
    assert found == ["", "false", "", "true", "", "true"], found
    assert '<td data-head="faults">' in text and '<td data-head="weight in FIT">' in text


def the_page_on_a_narrow_screen(folder, _):
    rows = _picture(_made_page(folder, "bridge"), 500, 3000)
    assert len(rows[0]) == 500 and not _dark_columns(rows), _dark_columns(rows)[:5]
    assert sum(any(pixel < 120 for pixel in row) for row in rows) > 300


def classes_are_told_apart_without_colour(folder, _):
    """Each class has a grey of its own, or stripes: the least and the greatest grey of a piece, and which way its stripes go."""
    page = pathlib.Path(folder, "bars.html")
    made = _made_page(folder, "lockstep").read_text()
    style = re.search(r"<style>.*?</style>", made, re.S)[0]
    kinds = ("residual", "single-point", "latent", "detected", "safe", "outside")
    pieces = "".join(f'<span class="piece {kind}" style="position:absolute;left:0;top:{40 * k}px;width:40px;height:40px"></span>' for k, kind in enumerate(kinds))
    page.write_text(f"<!DOCTYPE html><html><head>{style}</head><body>{pieces}</body></html>")
    rows, seen = _picture(page, 500, 300), set()
    for k in range(len(kinds)):
        inner = [row[4:36] for row in rows[40 * k + 4:40 * k + 36]]
        across, down = len({row[0] for row in inner}) > 1, len(set(inner[0])) > 1
        seen.add((across, down, inner[16][16] // 24 if not (across or down) else None))
    assert len(seen) == len(kinds), seen


def the_page_on_paper(folder, _):
    page, paper = _made_page(folder, "lockstep"), pathlib.Path(folder, "page.pdf")
    _browser("--no-pdf-header-footer", f"--print-to-pdf={paper}", f"file://{page}")
    sheets = len(re.findall(rb"/Type\s*/Page\b", paper.read_bytes()))
    assert 3 <= sheets <= 12, sheets
    if shutil.which("pdftotext"):
        text = subprocess.run(["pdftotext", "-layout", str(paper), "-"], capture_output=True, text=True, check=True).stdout
        for wanted in ("Goals and settings", "SHA-256", "u_compare.turned[11]/1", "234 faults"):
            assert wanted in text, wanted
        assert "words of a fault" not in text and text.count("keeps missed") > 1
        alone = [line for line in text.splitlines() if line.strip() in ("%", "met", "missed")]
        assert not alone, alone
