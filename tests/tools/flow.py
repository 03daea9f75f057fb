"""Cases of tools/flow. What the campaign of the small design must give was worked by hand."""
import dataclasses
import os
import pathlib
import re
import shutil
import signal
import subprocess
import sys
import time

from common import EXAMPLES, ROOT, TOOLS, Skipped, held

# A flip-flop, its copy, and a comparator that is 1 in the cycle in which they differ.
NETLIST = """.model top
.inputs clk d
.outputs q al
.latch d q re clk 0
.latch d c re clk 0
.names q c al
10 1
01 1
.end
"""
RATES = "pattern,part,role,covered,permanent,transient\nd,pins,mission,no,0.1,0\nq,main,mission,yes,2,4\nc,copy,mechanism,no,2,4\nal,copy,mechanism,no,2,4\n"
POINTS = "kind,net\nobserve,q\nalarm,al\n"
SETTINGS = """[design]
netlist = design.blif
latches = 2
[runs]
drive = mission drive.vcd
[campaign]
rates = rates.csv
points = points.csv
flips = 2
asil = C
"""
DATA = (0, 1, 1, 0, 1, 0)
# d stuck at 0 or 1 reaches both flip-flops alike: single-point, 0.05 FIT each. A stuck q or c and both flips raise the alarm in the cycle in which q is
# wrong. al stuck at 1 raises it, and al stuck at 0 is seen by nobody: latent, a quarter of 2 FIT. Permanent 4.1 FIT, harmful 0.1, latent 0.5; transient 8 FIT.
METRICS = """permanent all 4100000 danger 100000 latent 500000
transient all 8000000 danger 0
spfm permanent 4000000/4100000
spfm transient 8000000/8000000
lfm 3500000/4000000
term 100000
target spfm permanent met
target spfm transient met
target lfm met
target term met
single-point d/0 50000
single-point d/1 50000
latent al/0 500000
end
"""
STEPS = ("workload", "golden", "parts", "check", "alarms", "run", "coverage", "latencies", "breakdown", "page", "manifest")


def _dump(wrong=None):
    """The simulation: q is d of the cycle before. In the cycle `wrong`, it is something else."""
    lines = ["$scope module tb $end", "$scope module dut $end", *[f"$var wire 1 {code} {name} $end" for code, name in zip("!#$%", ("clk", "d", "q", "al"))],
             "$upscope $end", "$upscope $end", "$enddefinitions $end"]
    for cycle, bit in enumerate(DATA):
        q = DATA[cycle - 1] if cycle else 0
        lines += [f"#{10 * cycle}", "0!", f"{bit}#", f"{q ^ (cycle == wrong)}$", "0%", f"#{10 * cycle + 5}", "1!"]
    return "\n".join([*lines, f"#{10 * len(DATA)}"]) + "\n"


def _design(folder, settings=SETTINGS, **changes):
    """The files of the design, some of them with other texts."""
    files = {"design__blif": NETLIST, "rates__csv": RATES, "points__csv": POINTS, "drive__vcd": _dump(), "flow__ini": settings, **changes}
    held(folder, **files)


def _with(*lines, without=()):
    """The settings with more lines behind their sections' heads, and without others."""
    text = SETTINGS
    for line in without:
        assert line + "\n" in text, line
        text = text.replace(line + "\n", "")
    for section, line in lines:
        text = text.replace(f"[{section}]\n", f"[{section}]\n{line}\n") if f"[{section}]" in text else text + f"[{section}]\n{line}\n"
    return text


def _flow(folder, program, *words, status=0, path=None):
    """(what is printed, what is said of the stop)."""
    environment = {**os.environ, **({"PATH": path} if path else {})}
    done = subprocess.run([sys.executable, str(TOOLS / "flow"), "flow.ini", "--program", str(program), *words], cwd=folder, env=environment, capture_output=True, text=True, timeout=600)
    assert done.returncode == status, f"status {done.returncode}\n{done.stdout}{done.stderr}"
    return done.stdout, done.stderr


def _done(printed):
    """The steps that were done, as the lines that are no comments tell."""
    found = []
    for before, line in zip(printed.splitlines(), printed.splitlines()[1:]):
        if not line.startswith("#"):
            found.append(before.removeprefix("# "))
    return tuple(found)


def _stopped(folder, program, wanted, row, **design):
    """The flow stops with status 1, tells `wanted`, and shows the row of the checklist that begins with `row`."""
    shutil.rmtree(pathlib.Path(folder, "flow"), ignore_errors=True)
    _design(folder, **design)
    _, said = _flow(folder, program, status=1)
    assert wanted in said, said
    page = (ROOT / "docs" / "before-you-believe.md").read_text().splitlines()
    shown = [line.removeprefix("docs/before-you-believe.md: ") for line in said.splitlines() if line.startswith("docs/before-you-believe.md: ")]
    assert [line for line in page if line.startswith(f"| {row}")] == shown, said
    return said


def _program(folder, name, text):
    """A shell script in place of fmeda."""
    path = pathlib.Path(folder, name)
    path.write_text("#!/bin/sh\n" + text)
    path.chmod(0o755)
    return path


def a_flow_to_its_page(folder, program):
    _design(folder)
    printed, said = _flow(folder, program, "--met")
    assert _done(printed) == STEPS and not said, printed + said
    flow = pathlib.Path(folder, "flow")
    assert flow.joinpath("workload.csv").read_text() == "workload,kind,d\n" + "".join(f"drive,mission,{bit}\n" for bit in DATA)
    assert flow.joinpath("report.txt").read_text().endswith(METRICS), flow.joinpath("report.txt").read_text()
    for wanted in ("97.56 %", "4000000/4100000", "87.50 %", "0.1 FIT", "Nothing was noticed"):
        assert wanted in flow.joinpath("page.html").read_text(), wanted
    # Residual, single-point, latent, detected and safe FIT of each part.
    said = " ".join(re.sub("<[^>]*>", " ", flow.joinpath("page.html").read_text()).split())
    for wanted in ("pins permanent 0.1 0 0.1 0 0 0", "main permanent 2 0 0 0 2 0", "main transient 4 0 0 0 4 0", "copy permanent 2 0 0 0.5 1.5 0", "all permanent 4.1 0 0.1 0.5 3.5 0", "all transient 8 0 0 0 8 0"):
        assert wanted in said, wanted
    for wanted in ("run drive: 6 cycles, 2 nets agree", "# spfm permanent: 97.56 %, met", "# term: 0.1 FIT, met", "# the page: flow/page.html"):
        assert wanted in printed, printed


def what_is_printed_can_be_done_by_hand(folder, program):
    other = pathlib.Path(folder, "other")
    for place in (folder, other):
        pathlib.Path(place).mkdir(exist_ok=True)
        _design(place)
    printed, _ = _flow(folder, program)
    other.joinpath("flow").mkdir()
    script = printed.replace(os.path.relpath(TOOLS, folder), str(TOOLS)).replace(os.path.relpath(program, folder), str(program))
    done = subprocess.run(["sh", "-e", "-c", script], cwd=other, capture_output=True, text=True)
    assert not done.returncode, done.stdout + done.stderr
    for name in ("report.txt", "result", "parts.txt", "workload.csv"):
        assert other.joinpath("flow", name).read_bytes() == pathlib.Path(folder, "flow", name).read_bytes(), name


def a_missed_target_is_a_status_where_it_is_asked_for(folder, program):
    _design(folder, _with(("campaign", "asil = D"), without=("asil = C",)))
    printed, _ = _flow(folder, program)
    assert "# spfm permanent: 97.56 %, missed" in printed, printed
    _flow(folder, program, "--met", status=4)


def a_step_is_left_out_where_nothing_changed(folder, program):
    _design(folder)
    _flow(folder, program)
    for name, text, wanted in (("rates.csv", RATES, ()), ("rates.csv", RATES.replace("0.1,0", "0.10,0.000"), ()), ("flow.ini", SETTINGS + "[output]\ntitle = another\n", ("page",)),
                               ("flow.ini", SETTINGS.replace("asil = C", "asil = B"), ("reweigh", "reweighed", "run", "coverage", "latencies", "breakdown", "page", "manifest")), ("points.csv", POINTS + "observe,c\n", ("check", "alarms", "run", "coverage", "latencies", "breakdown", "page", "manifest")),
                               ("drive.vcd", _dump() + "#60\n0!\n", ("workload", "golden")), ("rates.csv", RATES.replace("0.1", "0.2"), ("parts", "check", "reweigh", "reweighed", "run", "coverage", "latencies", "breakdown", "page", "manifest"))):
        pathlib.Path(folder, name).write_text(text)
        printed, _ = _flow(folder, program)
        assert _done(printed) == wanted, (name, printed)
        assert _done(_flow(folder, program)[0]) == (), name


def _report_of_other_rates(folder, program, changes, reweighed):
    """What the flow says when the rates, and what `changes` names, are other ones; the report must be that of a flow in an empty folder."""
    held(folder, rates__csv=RATES.replace("0.1,0", "0.3,0").replace("al,copy,mechanism,no,2,4", "al,alarm,mechanism,yes,5,0"), **changes)
    printed, _ = _flow(folder, program)
    assert ("reweighed" in _done(printed), " resume " in printed) == (reweighed, reweighed), printed
    made = pathlib.Path(folder, "flow")
    found = {name: made.joinpath(name).read_bytes() for name in ("report.txt", "result", "coverage.txt")}
    aside = made.rename(made.with_name("before"))
    _flow(folder, program)
    anew = {name: made.joinpath(name).read_bytes() for name in found}
    shutil.rmtree(aside)
    assert found == anew, (changes, found, anew)
    return printed


def other_rates_alone_simulate_nothing(folder, program):
    """Only the rates have changed, with a part of its own and a claim: the rows are reweighed. With a file, a setting or another program beside them, or
    with rows that were damaged, the campaign begins anew."""
    cases = ({}, True, None), ({"points__csv": POINTS + "observe,c\n"}, False, None), ({"flow__ini": _with(("campaign", "interval = 1"))}, False, None), ({}, False, b"r 00000000 000000000000000f")
    for changes, reweighed, damage in cases:
        shutil.rmtree(pathlib.Path(folder, "flow"), ignore_errors=True)
        _design(folder)
        _flow(folder, program)
        result = pathlib.Path(folder, "flow", "result")
        if damage:
            result.write_bytes(result.read_bytes()[:89] + damage + result.read_bytes()[89 + len(damage):])
        printed = _report_of_other_rates(folder, program, changes, reweighed)
        assert not damage or "aren't reweighed, and the campaign begins anew: refused: result row 1" in printed, printed
    _design(folder)
    fake = _program(folder, "fmeda", f'if [ "$1" = run ]; then [ ! -e simulated ] || exit 9; touch simulated; fi\nexec "{program}" "$@"\n')
    shutil.rmtree(pathlib.Path(folder, "flow"))
    _flow(folder, fake)
    for rates in (RATES.replace("0.1,0", "0.4,0"), RATES, RATES.replace("0.1,0", "0.4,0")):
        held(folder, rates__csv=rates)
        assert "reweigh" in _done(_flow(folder, fake)[0])
    report = pathlib.Path(folder, "flow", "report.txt")
    held(folder, rates__csv=RATES)
    _flow(folder, fake)
    assert report.read_text().endswith(METRICS)
    _program(folder, "fmeda", f'exec "{program}" "$@" # another\n')
    held(folder, rates__csv=RATES.replace("0.1,0", "0.4,0"))
    printed, _ = _flow(folder, fake)
    assert "reweigh" not in _done(printed) and " resume " not in printed, printed


def what_was_made_and_changed_is_made_again(folder, program):
    _design(folder)
    _flow(folder, program)
    report = pathlib.Path(folder, "flow", "report.txt")
    for change in (lambda: report.unlink(), lambda: report.write_text(report.read_text().replace("missed", "met").replace("danger 100000", "danger 0")),
                   lambda: pathlib.Path(folder, "flow", "manifest.json").write_text("{}")):
        change()
        printed, _ = _flow(folder, program)
        assert "run" in _done(printed) and " resume " in printed and report.read_text().endswith(METRICS), printed
    pathlib.Path(folder, "flow", "flow.json").write_text("{")
    printed, _ = _flow(folder, program)
    assert _done(printed) == STEPS and " resume " not in printed and report.read_text().endswith(METRICS), printed


def another_program_begins_the_campaign_anew(folder, program):
    _design(folder)
    fake = _program(folder, "fmeda", f'exec "{program}" "$@"\n')
    _flow(folder, fake)
    assert _done(_flow(folder, fake)[0]) == ()
    _program(folder, "fmeda", f'exec "{program}" "$@" # another\n')
    printed, _ = _flow(folder, fake)
    assert _done(printed)[:5] == ("golden", "parts", "check", "alarms", "run") and " resume " not in printed and "of another program, are in flow/result.before now" in printed, printed


def rows_that_are_there_are_kept(folder, program):
    """The campaign is killed when its header is written, and by half a row more; then it is resumed. Rows of another campaign are put aside."""
    _design(folder)
    script = f'if [ "$1" = run ]; then "{program}" "$@" > /dev/null; head -c {{}} "$6" > cut; cp cut "$6"; kill -9 $$; fi\nexec "{program}" "$@"\n'
    result = pathlib.Path(folder, "flow", "result")
    for size in (89, 150):
        shutil.rmtree(result.parent, ignore_errors=True)
        fake = _program(folder, "fmeda", script.format(size))
        _, said = _flow(folder, fake, status=3)
        assert "stopped at run" in said and result.stat().st_size == size, said
        printed, _ = _flow(folder, fake)
        assert _done(printed) == ("run", "coverage", "latencies", "breakdown", "page", "manifest") and " resume " in printed, printed
        assert result.with_name("report.txt").read_text().endswith(METRICS)
    kept = result.read_bytes()
    _design(folder, _with(("campaign", "interval = 1")))
    printed, _ = _flow(folder, program)
    aside = re.search(r"the rows of another campaign, or of another program, are in (\S+) now", printed)
    assert aside and pathlib.Path(folder, aside[1]).read_bytes() == kept and " resume " not in printed, printed
    for interval in ("2", "3"):
        _design(folder, _with(("campaign", f"interval = {interval}")))
        _flow(folder, program)
    assert sorted(it.name for it in result.parent.glob("result*")) == ["result", "result.before"]


def no_step_outlives_the_flow(folder, program):
    """A campaign that waits: a second flow is refused, and a signal ends the first with its campaign. The next one goes on."""
    _design(folder)
    fake = _program(folder, "fmeda", f'[ "$1" != run ] || [ -e slept ] || {{ echo $$ > slept; exec sleep 600; }}\nexec "{program}" "$@"\n')
    words = [sys.executable, str(TOOLS / "flow"), "flow.ini", "--program", str(fake)]
    first = subprocess.Popen(words, cwd=folder, stdout=subprocess.PIPE, stderr=subprocess.PIPE, text=True)
    slept = pathlib.Path(folder, "slept")
    for _ in range(1200):
        if slept.exists() and slept.read_text().endswith("\n"):
            break
        time.sleep(0.1)
    _, said = _flow(folder, fake, status=2)
    assert "another flow is at work in flow" in said, said
    first.send_signal(signal.SIGTERM)
    _, said = first.communicate(timeout=60)
    assert first.returncode == 130 and "called again, it goes on from here" in said, said
    sleeper = pathlib.Path("/proc", slept.read_text().strip())
    for _ in range(100):
        if not sleeper.exists():
            break
        time.sleep(0.1)
    assert not sleeper.exists(), "the campaign outlives the flow"
    printed, _ = _flow(folder, fake)
    assert _done(printed) == ("run", "coverage", "latencies", "breakdown", "page", "manifest"), printed


def what_is_in_the_way_is_not_overwritten(folder, program):
    _design(folder)
    pathlib.Path(folder, "flow").mkdir()
    held(pathlib.Path(folder, "flow"), result="a letter\n")
    _, said = _flow(folder, program, status=2)
    assert "has files that no flow made" in said and pathlib.Path(folder, "flow", "result").read_text() == "a letter\n", said


# ---- stops: a metric would be untrue

def latches_that_were_merged(folder, program):
    _stopped(folder, program, "design.blif has 2 latches, and the design 3", "the latches are as many as in the design",
             settings=SETTINGS.replace("latches = 2", "latches = 3"))


def a_simulation_that_differs(folder, program):
    _stopped(folder, program, "stopped at golden: run drive cycle 3 net q: golden run 1, simulation 0", "the golden run is what the simulation of the RTL did", drive__vcd=_dump(3))
    _design(folder, SETTINGS.replace("[runs]", "[workload]\nwithout = q\n[runs]"), drive__vcd=_dump(3))
    printed, _ = _flow(folder, program)
    assert "1 nets agree" in printed, printed


def latches_that_start_at_an_unknown_value(folder, program):
    _design(folder, design__blif=NETLIST.replace("re clk 0", "re clk 2", 1))
    printed, _ = _flow(folder, program)
    assert "look: 1 .latch lines give no initial value, and these latches start at 0" in printed, printed


# ---- hints: each on a design made for it

NARROW = ("workload", "scope = tb.dut\nnets = q,al")


def outputs_that_are_no_point(folder, program):
    """A second output that nothing observes; and one that an observer, a part of role other, reads."""
    netlist = NETLIST.replace(".outputs q al", ".outputs q al z y seen").replace(".end", ".names q z\n1 1\n.names q y\n1 1\n.names y d seen\n11 1\n.names z dead\n0 1\n.end")
    rates = RATES + "z,main,mission,yes,2,4\ny,main,mission,yes,2,4\ndead,main,mission,yes,2,4\nseen,look,other,no,0,0\n"
    _design(folder, _with(NARROW, ("accepted", "outside = an observer")), design__blif=netlist, rates__csv=rates)
    printed, _ = _flow(folder, program)
    assert "look: 1 outputs of the netlist are no point: z. A fault that reaches these alone counts as safe." in printed, printed
    assert "look: 1 nets are read by nothing and are no point: dead. Their faults are safe whatever happens." in printed, printed
    _design(folder, _with(NARROW, ("accepted", "outside = an observer\noutputs = z is for a probe")), design__blif=netlist, rates__csv=rates)
    printed, _ = _flow(folder, program)
    page = pathlib.Path(folder, "flow", "page.html").read_text()
    assert "accepted, outputs: 1 outputs" in printed and "counts as safe. Accepted: z is for a probe" in page and "Accepted: an observer" in page, printed


# A reset holds the alarm at 0 while q, which has none, begins at 0: q/1 is harm in the cycles 0 to 2, and afterwards the alarm of the cycle in which it is.
HELD = NETLIST.replace(".inputs clk d", ".inputs clk rst d").replace(".names q c al\n10 1\n01 1\n", ".names rst q c al\n010 1\n001 1\n")
HELD_RATES = RATES.replace("d,pins", "rst,pins,mission,no,0.1,0\nd,pins")


def harm_before_the_reset(folder, program):
    """Of q/1, whose weight is half of 2 FIT, without which SPFM is that of the design; d/0, d/1 and rst/1 do harm at any time, and are not counted."""
    data = "".join(f"w,mission,{int(k < 3)},{bit}\n" for k, bit in enumerate((0, 0, 0, *DATA)))
    settings = _with(("workload", "file = w.csv"), without=("drive = mission drive.vcd", "flips = 2"))
    rates = HELD_RATES.replace(",4\n", ",0\n")
    _design(folder, settings, design__blif=HELD, rates__csv=rates, w__csv="workload,kind,rst,d\n" + data)
    printed, _ = _flow(folder, program)
    report = pathlib.Path(folder, "flow", "report.txt").read_text()
    assert "residual q/1 1000000" in report, report
    harmful = sum(int(line.split()[2]) for line in report.splitlines() if line.split()[0] in ("residual", "single-point"))
    wanted = f"{10000 * (4100000 - harmful + 1000000) // 4100000 / 100:.2f} %"
    assert f"look: 1 harmful faults, 1 FIT, first differ while rst is held, in the cycles 0 to 2, and an alarm finds them later. They are no slow alarms: without them SPFM is {wanted}" in printed, printed
    assert "harmful in the cycles 0 to 2, before the reset ends" in pathlib.Path(folder, "flow", "page.html").read_text()


def the_shares_of_flips_and_pulses(folder, program):
    """One latch and one net in main, two flips and one pulse of it: 66 % and 34 %; copy has a net more: 2 of 4 faults."""
    _design(folder, _with(("campaign", "flips = 2,3\npulses = 2"), ("accepted", "weights = pins have no transient rate"), without=("flips = 2",)))
    printed, _ = _flow(folder, program)
    assert "look: Flips and pulses share the transient rate of a part by their number: main 66 % and 34 %; copy 50 % and 50 %." in printed, printed
    assert "main 66 % and 34 %" in pathlib.Path(folder, "flow", "page.html").read_text()


def flips_over_a_stretch(folder, program):
    """The stretch of cycle 2 alone has the flips of `flips = 2`, so the report is the same, and so is the look at a stretch that no run reaches."""
    _design(folder, SETTINGS)
    _flow(folder, program)
    report = pathlib.Path(folder, "flow", "report.txt")
    listed = report.read_text()
    pathlib.Path(folder, "flow.ini").write_text(_with(("campaign", "upsets = 2-2"), without=("flips = 2",)))
    printed, _ = _flow(folder, program)
    assert "the rows of another campaign" in printed and report.read_text() == listed, printed
    pathlib.Path(folder, "flow.ini").write_text(_with(("campaign", "upsets = 2-6/4"), without=("flips = 2",)))
    _, said = _flow(folder, program, status=1)
    assert "--upsets: no mission run has the cycles 6" in said, said


def what_was_not_compared_or_not_known(folder, program):
    """q's copy has no signal in the dump; d is x in cycle 0; and then the dump is a cycle shorter, and ends with values."""
    _design(folder, _with(("workload", "nets = all\nunknown = 0")), drive__vcd=_dump().replace("#0\n0!\n0#", "#0\n0!\nx#"))
    for _ in (0, 1):
        printed, _ = _flow(folder, program)
        assert "look: run drive: 6 cycles, 3 nets agree, 1 values were x or z, 1 of 2 latches are not compared: the dump has no signal for them." in printed, printed
        assert "look: run drive: 6 cycles, 1 inputs had x or z: the campaign has 0 there." in printed, printed
    page = pathlib.Path(folder, "flow", "page.html").read_text()
    assert "1 of 2 latches are not compared" in page and "1 inputs had x or z" in page
    assert "last time" not in printed + page, printed
    held(folder, drive__vcd=_dump()[:_dump().index("#50")] + "#50\n0$\n")
    ended = "run drive: 5 cycles, drive.vcd ends without its last time. Was its simulation cut off?"
    printed, _ = _flow(folder, program)
    assert "look: run drive has 5 cycles, and had 6 at the last time. Was its simulation cut off?" in printed, printed
    assert f"look: {ended}" in printed and ended in pathlib.Path(folder, "flow", "page.html").read_text(), printed
    held(folder, flow__ini=_with(("workload", "nets = all\nunknown = 0"), ("accepted", "ended = the simulator writes none")))
    printed, _ = _flow(folder, program)
    assert f"accepted, ended: {ended}" in printed, printed


def both_starts_side_by_side(folder, program):
    """With both unknown they start alike, and the metrics of both starts stand there. With q alone unknown and at 1, al is 1 in cycle 0 of the golden run, so
    that q/0, 1 FIT, does harm there which no alarm tells: SPFM is 3 of 4.1 FIT."""
    _design(folder, design__blif=NETLIST.replace("re clk 0", "re clk 2").replace(".latch d c re clk 2", ".latch d c"))
    printed, _ = _flow(folder, program)
    ones = pathlib.Path(folder, "flow", "ones.blif").read_text()
    assert ".latch d q re clk 1\n.latch d c 1\n" in ones, ones
    found = re.findall(r"# (spfm permanent|spfm transient|lfm|term): (.*); where latches of unknown start begin at 1: (.*)", printed)
    assert len(found) == 4 and found[0][1] == "97.56 %, met", printed
    assert "latches of unknown start at 1" in pathlib.Path(folder, "flow", "page.html").read_text() and "latches at 1 the targets" not in printed
    _design(folder, design__blif=NETLIST.replace("re clk 0", "re clk 2", 1))
    printed, _ = _flow(folder, program)
    assert "look: With 1 latches at 1 the targets are: spfm permanent missed, spfm transient met, lfm met, term met." in printed, printed
    assert "# spfm permanent: 97.56 %, met; where latches of unknown start begin at 1: 73.17 %, missed" in printed, printed


def near_names(folder, _):
    import refusals
    for name, wanted in (("seen_words[3]", ["seen_word[3]"]), ("sene_word[3]", ["seen_word[3]"]), ("seen_word[33]", ["seen_word[3]"]), ("SEEN_WORD[3]", ["seen_word[3]"]), ("other", []), ("seen_word", ["seen_word[3]"])):
        assert refusals.like(name, ["seen_word[3]", "rdata", "clk"]) == wanted, (name, refusals.like(name, ["seen_word[3]", "rdata", "clk"]))


def names_of_neighbours_in_the_flow(folder, program):
    """u_b.x is made of a net of u_a alone, and of another part."""
    netlist = NETLIST.replace(".end", ".names q u_a.w\n1 1\n.names u_a.w u_a.v\n1 1\n.names u_a.v u_a.u\n1 1\n.names u_a.u u_b.x\n1 1\n.names u_b.x u_b.y u_b.z\n11 1\n.names u_b.x u_b.y\n0 1\n.names u_b.z u_b.o\n1 1\n.end")
    _design(folder, _with(NARROW), design__blif=netlist, rates__csv=RATES + "u_a.*,main,mission,yes,2,4\nu_b.*,copy,mechanism,no,2,4\n")
    printed, _ = _flow(folder, program)
    assert "look: perhaps of another part than copy: u_b.x, made of nets of u_a alone" in printed, printed


# All that the flow may say of an example beside what its settings accept as meant: nothing of it is transient, and the page of the example says so.
SAID = {"duplicated": ["Target spfm transient: nothing was looked at."]}


def _of_words(example, keys):
    """The settings that an example's words say, where it has none of its own; what may be meant is accepted."""
    words = example.joinpath("words").read_text().split()
    options = dict(zip(words[6::2], words[7::2]))
    latches = example.joinpath("report.txt").read_text().split()[5]
    lines = [f"[design]\nnetlist = {words[1]}\nlatches = {latches}\n[workload]\nfile = {words[2]}\n[campaign]\nrates = {words[3]}\npoints = {words[4]}",
             *[f"{name} = {options[f'--{option}']}" for name, option in (("interval", "ftti"), ("flips", "flips"), ("pulses", "pulses"), ("asil", "asil")) if f"--{option}" in options],
             "[accepted]", *[f"{key} = its page says why" for key in keys]]
    return "\n".join(lines) + "\n"


def the_examples_have_no_such_hint(folder, program):
    """Each example goes through the flow, and what is worth a look alone is neither told nor accepted."""
    sys.path[:0] = [str(TOOLS)]
    import hints
    left, found = [], {}
    for example in sorted(it.parent for it in EXAMPLES.glob("*/words")):
        copy = shutil.copytree(example, pathlib.Path(folder, example.name), ignore=shutil.ignore_patterns("flow"))
        if copy.joinpath("flow.ini").is_file() and shutil.which("yosys") is None:
            left.append(example.name)
            continue
        if not copy.joinpath("flow.ini").is_file():
            held(copy, flow__ini=_of_words(copy, hints.MAY_BE_MEANT))
        printed, _ = _flow(copy, program)
        said = re.findall(r"^#   (?:look: |accepted, (?!(?:" + "|".join(hints.MAY_BE_MEANT) + r"):))(.*)", printed, re.M)
        said += re.findall(r"latches of unknown start begin at 1: .*", printed)
        if said != SAID.get(example.name, []):
            found[example.name] = said
    assert not found, found
    if left:
        raise Skipped(f"yosys is not installed: {', '.join(left)}")


def what_a_refusal_names_is_shown(folder, program):
    for changes, wanted in (({"points__csv": POINTS + "observe,AL\n"}, "row 4 of points.csv is observe,AL\n  the netlist has al\n"),
                            ({"rates__csv": RATES.replace("pins,mission", "pins,Mission")}, "row 2 of rates.csv is d,pins,Mission,no,0.1,0\n"),
                            ({"design__blif": NETLIST.replace("01 1", "01 0")}, "line 8 of design.blif is 01 0\n")):
        _design(folder, SETTINGS.replace("[runs]\ndrive = mission drive.vcd", "[workload]\nfile = w.csv"), w__csv="workload,kind,d\nw,mission,0\nw,mission,1\nw,mission,1\n", **changes)
        _, said = _flow(folder, program, status=3)
        assert wanted in said, said
    _design(folder, design__blif=NETLIST.replace("01 1", "01 0"))
    _, said = _flow(folder, program, status=3)
    assert "stopped at workload" in said and "line 8 of design.blif is 01 0\n" in said, said


def patterns_that_take_nothing(folder, program):
    wrong = {"rates__csv": RATES + "u_main.*,main,mission,yes,2,4\n"}
    said = _stopped(folder, program, "these patterns as the first that matches: u_main.*", "each pattern takes what you meant", **wrong)
    assert "[accepted] patterns = REASON" in said, said
    _design(folder, _with(("accepted", "patterns = one list for all variants")), **wrong)
    printed, _ = _flow(folder, program)
    assert "accepted, patterns: " in printed and "one list for all variants" in printed, printed
    held(folder, rates__csv=RATES)
    printed, _ = _flow(folder, program)
    assert "accepted, and not noticed any more: patterns" in printed, printed


def nets_without_a_part(folder, program):
    said = _stopped(folder, program, "1 nets have no part, as c", "each pattern takes what you meant", rates__csv=RATES.replace("c,copy,mechanism,no,2,4\n", ""))
    assert "accepted" not in said, said


def nets_that_are_outside(folder, program):
    wrong = {"rates__csv": RATES.replace("d,pins,mission,no,0.1,0", "d,pins,other,no,0,0")}
    _stopped(folder, program, "1 nets other than the constants are outside (role other), as d", "the part of role `other` has the constants alone", **wrong)
    _design(folder, _with(("accepted", "outside = the pins are a block of their own")), **wrong)
    _flow(folder, program)


def parts_whose_rate_is_silenced(folder, program):
    _stopped(folder, program, "The permanent rate of pins is 0", "no part got its rate 0", rates__csv=RATES.replace("no,0.1,0", "no,0,0"))


def a_target_that_hangs_on_what_no_run_excited(folder, program):
    """With d at 0 in each cycle d/0 and q/0, 0.05 and 1 FIT, are never excited. As found d/1 alone does harm: 4.05 of 4.1 FIT; with these 3 of 4.1 FIT. The comparator's
    side has no path to q: c/0 and al/0 are latent, so LFM is missed in any case."""
    wrong = {"w__csv": "workload,kind,d\n" + "w,mission,0\n" * 6}
    keys = (("workload", "file = w.csv"),)
    said = _stopped(folder, program, "2 faults were never excited, as d/0, q/0. If they do harm, these targets are no longer met: spfm permanent 73.17 % in place of 98.78 %.",
                    "no metric is `open` in `fmeda coverage`", settings=_with(*keys, without=("drive = mission drive.vcd",)), **wrong)
    assert "stopped at coverage" in said and "[accepted] unexcited = REASON" in said, said
    _design(folder, _with(*keys, ("accepted", "unexcited = d is tied to 0 in this variant"), without=("drive = mission drive.vcd",)), **wrong)
    printed, _ = _flow(folder, program)
    assert "# spfm permanent: 98.78 %, met\n#   if the 2 faults that no run excited do harm: 73.17 %, open\n" in printed, printed
    page = pathlib.Path(folder, "flow", "page.html").read_text()
    assert page.index("What the metrics rest on") < page.index("Metrics and targets") and "Accepted: d is tied to 0 in this variant" in page


# d reaches both flip-flops alike; whatever is done to q raises the alarm in the cycle in which it differs, and nothing leads from c or al to q.
EVERY = """fmeda-always 1
nets 4 latches 2 faults 10 ftti 0 asil C
window 0 ahead 1
assumes no alarm without a fault from cycle 0 on
part pins mission uncovered whole no window - faults 2 no-path 0 alarmed 0 early 0 open 2
part main mission covered whole yes window 0 faults 3 no-path 0 alarmed 3 early 0 open 0
part copy mechanism uncovered whole yes window - faults 5 no-path 5 alarmed 0 early 0 open 0
spfm permanent since 0 at-least 4000000/4100000 target met
spfm transient since 0 at-least 8000000/8000000 target met
spfm permanent since 0 at-least 4000000/4100000 target met
spfm transient since 0 at-least 8000000/8000000 target met
open d/0 50000
open d/1 50000
end
"""


def what_holds_for_every_workload(folder, program):
    _design(folder, _with(("always", "rows = none")))
    printed, _ = _flow(folder, program, "--met")
    assert _done(printed) == (*STEPS[:7], "always", *STEPS[7:]), printed
    assert "#   as simulated 97.56 %, met; for every workload at least 97.56 %, met, since cycle 0\n" in printed, printed
    flow = pathlib.Path(folder, "flow")
    assert flow.joinpath("held.csv").read_text() == "input,from,before,value\n" and flow.joinpath("always.txt").read_text() == EVERY, flow.joinpath("always.txt").read_text()
    assert "did no harm in the simulation" not in flow.joinpath("page.html").read_text()
    printed, _ = _flow(folder, program)
    assert _done(printed) == (), printed
    # d is never 0: what is stuck there at 1 isn't seen in the simulation.
    _design(folder, _with(("always", "file = held.csv\nahead = 0"), ("workload", "file = w.csv"), without=("[runs]", "drive = mission drive.vcd")), held__csv="input,from,before,value\n",
            w__csv="workload,kind,d\n" + "w,mission,1\n" * 4)
    printed, _ = _flow(folder, program)
    assert "#   as simulated 98.78 %, met; for every workload at least 97.56 %, met, since cycle 0\n" in printed, printed
    assert flow.joinpath("always.txt").read_text() == EVERY.replace("ahead 1", "ahead 0")
    said = " ".join(re.sub("<[^>]*>", " ", flow.joinpath("page.html").read_text()).split())
    for wanted in ("1 open fault, 0.05 FIT, did no harm in the simulation", "the proof is too weak: d/1.", "spfm permanent at least 97 % 98.78 % met 97.56 % met 97.56 % met", "main yes 0 3 0 3 0 0"):
        assert wanted in said, (wanted, said)


def runs_of_which_nothing_is_said(folder, program):
    """d is 0 1 1 0 1 0."""
    for rows, why in (("d,1,-,0", "d is 1 in cycle 1, and held at 0."), ("d,2,1,1", "d is 0 in cycle 0, and held at 1."), ("d,6,-,0", "it has 6 cycles, and cycle 6 is the first that is spoken of.")):
        _design(folder, _with(("always", f"rows = {rows}")))
        printed, _ = _flow(folder, program)
        assert f"#   look: Nothing is said for every workload of run drive: {why}\n" in printed, (rows, printed)
        assert f"Nothing is said for every workload of run drive: {why}" in pathlib.Path(folder, "flow", "page.html").read_text()
    _design(folder, _with(("always", "rows = d,4,-,0"), ("accepted", "admitted = a drive of another kind")))
    printed, _ = _flow(folder, program)
    assert "accepted, admitted: Nothing is said" in printed and "a drive of another kind" in printed, printed
    # The alarm is q itself: it is 1 in the golden run behind the first 1 of d.
    _design(folder, _with(("always", "rows = none"), ("accepted", "alarms = it tells nothing")), design__blif=NETLIST.replace("10 1\n01 1\n", "1- 1\n"), drive__vcd=_dump().replace("0%\n", ""))
    printed, _ = _flow(folder, program)
    assert "silence" in _done(printed) and "of run drive: al is 1 in its golden run in cycle 2." in printed, printed


def held_inputs_that_are_refused(folder, program):
    for rows, wanted in (("e,0,-,0", "refused: held row 2 UnknownInput (status 18)\n  row 2 of held.csv is e,0,-,0"), ("D,0,-,0", "the netlist has d"), ("d,0,1,0", "held row 2 NoCycleBefore (status 18)")):
        _design(folder, _with(("always", f"rows = {rows}")))
        _, said = _flow(folder, program, status=3)
        assert "stopped at always: " in said and wanted in said, (rows, said)
    _design(folder, _with(("always", "rows = none\nwindow = 1")))
    _, said = _flow(folder, program, status=3)
    assert "refused: window 1 is longer than the shortest interval, 0 (status 19)" in said, said


def harmful_faults_that_weigh_nothing(folder, program):
    """A pulse at d in cycle 2 makes both flip-flops wrong in cycle 3, and the pins have no transient rate."""
    said = _stopped(folder, program, "1 residual, single-point or latent faults have the weight 0, since their part has no rate, as d~2", "no part got its rate 0", settings=_with(("campaign", "pulses = 2")))
    assert "stopped at report" in said, said


def cycles_that_no_run_has(folder, program):
    said = _stopped(folder, program, "--flips: no mission run has the cycles 6", "the cycles of `--flips` and `--pulses` exist", settings=SETTINGS.replace("flips = 2", "flips = 2,6"))
    assert "stopped at files" in said and "accepted" not in said, said


def no_run_of_the_mission(folder, program):
    _stopped(folder, program, "All runs are of kind test", "there is a run of kind `mission`", settings=SETTINGS.replace("mission drive", "test drive"))


def no_mechanism(folder, program):
    _stopped(folder, program, "No part has the role mechanism", "some part is a `mechanism`", rates__csv=RATES.replace("mechanism", "mission"))


def a_mechanism_that_does_harm(folder, program):
    said = _stopped(folder, program, "Part copy is a mechanism with harmful faults", "a mechanism has no residual or single-point faults", rates__csv=RATES.replace("d,pins,mission,no,0.1,0", "d,copy,mechanism,no,2,4"))
    assert "stopped at report" in said, said


def several_goals(folder, program):
    wrong = {"points__csv": "goal,ftti,kind,net\none,-,observe,q\ntwo,-,observe,c\n-,-,alarm,al\n"}
    _stopped(folder, program, "2 safety goals", "one safety goal", **wrong)
    _design(folder, _with(("accepted", "goals = both are one goal of the item")), **wrong)
    printed, _ = _flow(folder, program)
    assert "accepted, goals: The points name 2 safety goals" in printed, printed


def an_alarm_that_is_raised_already(folder, program):
    _stopped(folder, program, "al is 1 in the golden run of drive, in cycle 2", "the alarm is 0 in the golden run of the mission", design__blif=NETLIST.replace("10 1\n01 1\n", "1- 1\n"), drive__vcd=_dump().replace("0%\n", ""))


def a_report_that_was_cut_off(folder, program):
    """A program that ends with status 0 and has lost its last line."""
    fake = _program(folder, "fmeda", f'"{program}" "$@" > out || exit $?\ncase $1 in run|resume) sed "\\$d" out;; *) cat out;; esac\n')
    said = _stopped(folder, fake, "the last line isn't end: the report was cut off", "the report ends with `end`, and the status was 0")
    assert "stopped at run" in said, said
    _, said = _flow(folder, fake, status=1)
    assert "was cut off" in said, said


def files_that_change_while_the_campaign_runs(folder, program):
    fake = _program(folder, "fmeda", f'"{program}" "$@"; status=$?\n[ "$1" != run ] || echo >> rates.csv\nexit $status\n')
    said = _stopped(folder, fake, "a file isn't the one that the campaign was run with: result flow/result: its header is of another campaign", "the settings were kept")
    assert "stopped at manifest" in said, said
    printed, _ = _flow(folder, fake, status=1)
    assert " run " in printed, printed


# ---- stops: a step was refused or failed, or the settings are wrong

def a_refusal_is_told(folder, program):
    _design(folder, SETTINGS.replace("flips = 2", "flips = none"))
    _, said = _flow(folder, program, status=3)
    assert "stopped at check: refused: part main has a transient rate and no such fault (status 7)" in said, said
    _design(folder, rates__csv=RATES.replace("mission", "Mission"))
    _, said = _flow(folder, program, status=3)
    assert "stopped at parts: refused: rates row 2 BadRole (status 5)" in said, said
    assert not pathlib.Path(folder, "flow", "parts.txt.new").exists()


def steps_that_fail(folder, program):
    _design(folder, drive__vcd=_dump().replace("#0\n0!\n0#", "#0\n0!\nx#"))
    _, said = _flow(folder, program, status=3)
    assert "stopped at workload" in said and "input d is x or z in cycle 0" in said, said
    _design(folder, _with(("workload", "scope = tb")))
    _, said = _flow(folder, program, status=3)
    assert "there is no signal tb.clk" in said, said
    _design(folder)
    _, said = _flow(folder, pathlib.Path(folder, "nothing"), status=3)
    assert "cannot run ./nothing" in said, said
    _design(folder, design__blif=NETLIST.replace(".end\n", ".names q q2 z\n11 1\n.end\n"))
    _, said = _flow(folder, program, status=3)
    assert "stopped at workload" in said and "refused: netlist line" in said, said


VERILOG = SETTINGS.replace("netlist = design.blif", "verilog = drive.vcd\ntop = top\n{}")


def settings_that_say_something_wrong(folder, program):
    for settings, wanted in (
            (_with(("campaign", "flip = 2")), "[campaign] has no key flip: rates, points"), (_with(("design", "netlsit = x"), without=("netlist = design.blif",)), "has no key netlsit"),
            (_with(("points", "observe = q")), "there is no section [points]"), (_with(("design", "verilog = design.blif")), "either verilog or netlist"),
            (_with(without=("netlist = design.blif",)), "either verilog or netlist"), (_with(("design", "verilog = drive.vcd"), without=("netlist = design.blif",)), "top must name"),
            (_with(without=("points = points.csv",)), "[campaign] points must be given"), (_with(without=("drive = mission drive.vcd",)), "[workload] file, or runs"),
            (_with(("runs", "second = drive.vcd")), "a run has its kind"), (_with(("runs", "second = drive drive.vcd")), "a run has its kind"), (_with(("runs", "drive = test drive.vcd")), "already exists"),
            (_with(("runs", "second = test none.vcd:0-3")), "there is no file none.vcd"), (_with(("campaign", "interval = 4097")), "interval is a number from 0 to 4096"),
            (_with(("campaign", "upsets = 2-4")), "either flips or upsets"), (_with(("campaign", "upsets = 2"), without=("flips = 2",)), "upsets is none, or a stretch"),
            (_with(("campaign", "workers = 0")), "workers is a number from 1 to 32"), (_with(("campaign", "pulses = 1;2")), "pulses is none, or cycles"), (SETTINGS.replace("= C", "= A"), "asil is B, C or D"),
            (_with(("output", "folder = ../other")), "folder of its own"), (_with(("output", "folder = .")), "folder of its own"), (_with(("accepted", "missions = why not")), "[accepted] has no key missions"),
            (_with(("design", "liberty = drive.vcd")), "liberty is for verilog, and not for netlist"), (VERILOG.format("script = drive.vcd\nsynth = -nofsm"), "synth belongs into the script drive.vcd"),
            (VERILOG.format("liberty = drive.vcd\nsynth = -nofsm"), "synth has no meaning for cells of a library: nothing is synthesised"), (VERILOG.format("liberty = drive.vcd\nstart = 0"), "start has no meaning"),
            (VERILOG.format("start = 2"), "start is 0 or 1, and not 2"), (_with(("design", "start = 0")), "start is for verilog, and not for netlist"), (VERILOG.format("parameters = WIDTH 8"), "parameters is a list of NAME=VALUE, and not WIDTH"),
            (VERILOG.format("defines = A-B"), "defines is a list of NAME or NAME=VALUE, and not A-B"), (VERILOG.format("include = none"), "there is no folder none"), (VERILOG.format("techmap = none.v"), "there is no file none.v"),
            (_with(("always", "window = 1")), "[always] has either file or rows"), (_with(("always", "rows = none\nfile = rates.csv")), "[always] has either file or rows"),
            (_with(("always", "rows = none\nwindow = 9")), "window is a number from 0 to 8, and not 9"), (_with(("always", "rows = none\nahead = -1")), "ahead is a number from 0 to 8"),
            (_with(("always", "file = none.csv")), "there is no file none.csv"),
            (_with(("accepted", "goals =")), "[accepted] goals has no value"), ("rates\n", "no section headers"), (SETTINGS.replace("rates.csv", "none.csv"), "there is no file none.csv")):
        _design(folder, settings)
        _, said = _flow(folder, program, status=2)
        assert wanted in said, (wanted, said)
    assert not pathlib.Path(folder, "flow").exists()


def _settings(folder, text):
    """What the tool makes of a settings file whose files are there."""
    sys.path[:0] = [str(TOOLS)]
    import settings
    held(folder, flow__ini=text, **{name.replace(".", "__"): "" for name in ("design.v", "workload.csv", "drive.vcd", "rates.csv", "points.csv")})
    return settings.read(str(pathlib.Path(folder, "flow.ini")))


def the_settings_of_the_pages(folder, _):
    """Those that --help shows can be read as they are; those of docs/tools.md are the example's, but for its title."""
    text = subprocess.run([sys.executable, str(TOOLS / "flow"), "--help"], check=True, capture_output=True, text=True).stdout
    block = text[text.index("    [design]"):text.index("What is printed")]
    said = _settings(folder, "\n".join(line[4:] for line in block.splitlines()))
    assert (said.verilog, said.top, said.latches, said.netlist, said.workload, said.rates, said.points) == (
        ("design.v",), "lockstep", "136", "flow/design.blif", "workload.csv", "rates.csv", "points.csv"), said
    assert [(run.name, run.kind, run.dump) for run in said.runs] == [("drive", "mission", "drive.vcd")] and said.accepted == {"goals": "both outputs belong to one goal of the item"}
    assert (said.interval, said.flips, said.pulses, said.asil, said.workers, said.out, said.title) == ("4", "40,77,101,160", "none", "D", "2", "flow", "Two cores in lockstep"), said
    text = (ROOT / "docs" / "tools.md").read_text()
    block = text[text.index("    [design]"):text.index("In place of `verilog`")]
    shown = _settings(folder, "\n".join(line[4:] for line in block.splitlines()))
    kept = _settings(folder, (EXAMPLES / "lockstep" / "flow.ini").read_text())
    assert shown == dataclasses.replace(kept, title=""), (shown, kept)


def each_stop_has_its_row(folder, program):
    """Each hint names one row of the checklist, and what may be accepted is a stop."""
    sys.path[:0] = [str(TOOLS)]
    import hints
    page = (ROOT / "docs" / "before-you-believe.md").read_text().splitlines()
    for key, begin in hints.ROWS.items():
        assert sum(line.startswith(f"| {begin}") for line in page) == 1, (key, begin)
    assert set(hints.WRONG) <= set(hints.ROWS) and set(hints.MAY_BE_MEANT) < set(hints.WRONG)
    assert "meant: " + ", ".join(f"`{key}`" for key in hints.MAY_BE_MEANT) + "." in " ".join((ROOT / "docs" / "tools.md").read_text().split())


# ---- from Verilog

def _script(text):
    """The lines of a script of yosys without its comments, names of files being left out."""
    lines = [line for line in text.splitlines() if line and not line.startswith("#")]
    return [re.sub(r"\S*(async_reset\.v|design\.blif)", r"\1", line) for line in lines]


def the_script_is_that_of_the_page(folder, program):
    """Where yosys isn't found the script is there, and the flow ends with status 3."""
    for example in ("bridge", "lockstep"):
        copy = shutil.copytree(EXAMPLES / example, pathlib.Path(folder, example), ignore=shutil.ignore_patterns("flow"))
        _, said = _flow(copy, program, status=3, path=str(folder))
        assert "yosys is not installed" in said, said
        wanted = _script(copy.joinpath("synth.ys").read_text())
        if example == "lockstep":
            wanted.insert(wanted.index("async2sync"), "techmap -map async_reset.v")
        assert _script(copy.joinpath("flow", "synth.ys").read_text()) == wanted, example


# A register of WIDTH bits from an included file, one more with EXTRA, and a state machine of 3 bits that yosys recodes to 5.
KEYED = {"first__v": """`include "width.vh"
module top #(parameter WIDTH = `WIDTH) (input clk, rst, go, stop, output reg [WIDTH-1:0] q, output busy, done);
always @(posedge clk) q <= {q, go};
`ifdef EXTRA
reg more; always @(posedge clk) more <= stop & `EXTRA; assign done = more;
`else
assign done = 0;
`endif
machine u_machine (.clk(clk), .rst(rst), .go(go), .stop(stop), .busy(busy));
endmodule
""", "second__v": """module machine (input clk, rst, go, stop, output busy); reg [2:0] state; always @(posedge clk) if (rst) state <= 0; else case (state)
0: if (go) state <= 1; 1: state <= 2; 2: if (stop) state <= 3; 3: if (!stop) state <= 4; default: state <= 0; endcase
assign busy = state == 1 || state == 2 || state == 3; endmodule
""", "own__v": """module machine (input clk, rst, go, stop, output busy); assign busy = go; endmodule
""", "own__ys": "read_verilog -Iinc first.v second.v; hierarchy -top top; proc; async2sync; synth -run coarse:check; dfflegalize -cell $_DFF_P_ 01; abc -g AND; flatten; opt_clean; write_blif -noalias {}\n"}


def how_the_verilog_is_read(folder, program):
    """The latches tell what yosys did: 2 or 7 of the register, 1 of EXTRA, 5 or 3 of the machine; the techmap has another machine, without a state."""
    if shutil.which("yosys") is None:
        raise Skipped("yosys is not installed")
    for keys, latches in (((), 2 + 5), (("synth = -nofsm",), 2 + 3), (("defines = EXTRA=1",), 2 + 1 + 5), (("parameters = WIDTH=7", "defines = EXTRA=1 OTHER", "synth = -nofsm"), 7 + 1 + 3),
                                  (("techmap = own.v",), 2), (("script = own.ys",), 2 + 5)):
        shutil.rmtree(pathlib.Path(folder, "flow"), ignore_errors=True)
        own = keys and keys[0].startswith("script")
        lines = [("design", line) for line in ("verilog = first.v second.v", "top = top", "latches = 99", *([] if own else ["include = inc"]), *keys)]
        _design(folder, _with(*lines, ("workload", "file = w.csv"), without=("netlist = design.blif", "latches = 2", "drive = mission drive.vcd")), w__csv="workload,kind,rst,go,stop\nw,mission,1,0,0\nw,mission,0,1,1\nw,mission,0,1,0\n",
                rates__csv="pattern,part,role,covered,permanent,transient\n*,all,mission,no,1,1\n", points__csv="kind,net\nobserve,busy\n", **{**KEYED, "own__ys": KEYED["own__ys"].format("flow/design.blif")})
        pathlib.Path(folder, "inc").mkdir(exist_ok=True)
        held(pathlib.Path(folder, "inc"), width__vh="`define WIDTH 2\n")
        _, said = _flow(folder, program, status=1)
        assert f"flow/design.blif has {latches} latches, and the design 99" in said, (keys, said)
    shutil.rmtree(pathlib.Path(folder, "flow"))
    held(folder, own__ys=KEYED["own__ys"].format("other.blif"))
    _, said = _flow(folder, program, status=3)
    assert "own.ys wrote no flow/design.blif: its last line must be `write_blif -noalias flow/design.blif`" in said, said


# q has no initial value, and c the opposite of what the settings say of the others.
STARTS = """module top (input clk, d, output reg q, c, output al);
initial c = {}; assign al = q ^ c; always @(posedge clk) begin q <= d; c <= ~d; end
endmodule
"""


def where_the_device_starts_flip_flops(folder, program):
    """Those to which the Verilog gives no initial value: by the settings there is no unknown start, without them the flow runs ones too."""
    if shutil.which("yosys") is None:
        raise Skipped("yosys is not installed")
    for start, other in (("0", "1"), ("1", "0"), ("", "0")):
        shutil.rmtree(pathlib.Path(folder, "flow"), ignore_errors=True)
        settings = _with(("design", "verilog = top.v\ntop = top" + (f"\nstart = {start}" if start else "")), ("workload", "file = w.csv"),
                         ("accepted", "alarms = it is of no matter here\npatterns = nor these"), without=("netlist = design.blif", "drive = mission drive.vcd"))
        _design(folder, settings, top__v=STARTS.format(other), w__csv="workload,kind,d\nw,mission,0\nw,mission,1\nw,mission,1\n", rates__csv=RATES + "$*,rest,mission,no,1,0\n")
        printed, _ = _flow(folder, program)
        latches = [line.split() for line in pathlib.Path(folder, "flow", "design.blif").read_text().splitlines() if line.startswith(".latch")]
        assert {words[2]: words[5] for words in latches} == {"q": start or "2", "c": other}, latches
        assert ("give no initial value" in printed) == ("begin at 1" in printed) == (start == ""), printed


def from_a_netlist_and_dumps(folder, program):
    copy = shutil.copytree(EXAMPLES / "bridge", pathlib.Path(folder, "bridge"), ignore=shutil.ignore_patterns("flow"))
    text = copy.joinpath("flow.ini").read_text()
    copy.joinpath("flow.ini").write_text(text.replace("verilog = design.sv\ntop = bridge\n", "netlist = design.blif\n"))
    printed, _ = _flow(copy, program)
    assert "run traffic: 370 cycles, 115 nets agree" in printed, printed
    for made, kept in (("workload.csv", "workload.csv"), ("report.txt", "report.txt")):
        assert copy.joinpath("flow", made).read_bytes() == copy.joinpath(kept).read_bytes(), made


def from_verilog_to_the_page(folder, program):
    if shutil.which("yosys") is None:
        raise Skipped("yosys is not installed")
    copy = shutil.copytree(EXAMPLES / "lockstep", pathlib.Path(folder, "lockstep"), ignore=shutil.ignore_patterns("flow"))
    _flow(copy, program)
    made, kept = (copy.joinpath(*names, "design.blif").read_text() for names in (("flow",), ()))
    if made.splitlines()[0] != kept.splitlines()[0]:
        raise Skipped(f"another yosys, {made.splitlines()[0]}: the report is not compared")
    assert made == kept and copy.joinpath("flow", "report.txt").read_bytes() == copy.joinpath("report.txt").read_bytes()
    page = copy.joinpath("flow", "page.html").read_text()
    for wanted in ("99.23 %", "24650240/24840000", "95.90 %", "0.18976 FIT", "Two cores in lockstep"):
        assert wanted in page, wanted
    copy.joinpath("design.v").write_text("module lockstep (input clk; endmodule\n")
    _, said = _flow(copy, program, status=3)
    assert "stopped at synthesis" in said and "syntax error" in said, said
