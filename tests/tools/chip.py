"""Cases of tools/chip. All sums were worked by hand, from the numbers in the lists and the lines of the reports that they name."""
import html.parser
import pathlib
import shutil

from common import EXAMPLES, held, tool

ELEMENTS = "element,instances,permanent,permanent_danger,latent,transient,transient_danger,source\n"
# A block of ASIL B: 1 FIT in all, 0.1 harmful, of what is left 0.3 latent; 2 FIT of transient faults, 0.5 harmful.
REPORT = """fmeda-report 1
nets 3 latches 1 faults 8 batches 1 workloads 1 cycles 4 ftti {ftti} asil B
part core mission covered permanent 600000 transient 2000000 faults 5 safe 1 detected 2 residual 2 single-point 0 latent 0 outside 0 coverage 1900000/2500000
part guard mechanism uncovered permanent 400000 transient 0 faults 3 safe 0 detected 1 residual 0 single-point 0 latent 2 outside 0 coverage 100000/100000
part tied other uncovered permanent 70000 transient 0 faults 0 safe 0 detected 0 residual 0 single-point 0 latent 0 outside 0 coverage -
permanent all 1000000 danger 100000 latent 300000
transient all 2000000 danger 500000
spfm permanent 900000/1000000
spfm transient 1500000/2000000
lfm 600000/900000
term 600000
target spfm permanent met
target spfm transient missed
target lfm met
target term met
residual y/0 100000
latent al/0 200000
latent al/1 100000
residual q^3 500000
end
"""
TWO_GOALS = "goal,ftti,kind,net\nheater,4,observe,y\nlamp,-,observe,q\nheater,4,observe,q\n-,-,alarm,al\n"


def _block(folder, points="kind,net\nobserve,y\nalarm,al\n", ftti=4, **changes):
    text = REPORT.format(ftti=ftti)
    for old, new in changes.values():
        assert old in text, old
        text = text.replace(old, new)
    held(folder, report__txt=text, points__csv=points)


def _refusal(folder, text, *words):
    held(folder, list__csv=text)
    printed, said = tool("chip", "list.csv", "--asil", "B", *words, folder=folder, status=1)
    assert not printed, printed
    return said


def the_chip_of_the_example(folder, _):
    """4 × 24840000 + 9150000 + 25000000 = 133510000; 4 × 189760 + 42000 + 200000 = 1001040; 4 × 1010512 + 4167 + 300000 = 4346215;
    4 × 62000000 + 15230000 + 400000000 = 663230000; 0 + 18000 + 1200000 = 1218000. So 133510000 - 1001040 = 132508960 are not harmful, of which
    132508960 - 4346215 = 128162745 are not latent; 663230000 - 1218000 = 662012000; 1001040 + 1218000 = 2219040, which is 2.2 FIT."""
    for name in ("chip", "lockstep", "voter"):
        shutil.copytree(EXAMPLES / name, pathlib.Path(folder, name))
    text, _ = tool("chip", "chip/list.csv", folder=folder)
    assert text.splitlines() == [
        "fmeda-chip 1", "blocks 2 elements 1 asil D goal -",
        "block torque instances 4 permanent 99360000 danger 759040 latent 4042048 transient 248000000 danger 0",
        "block pwm instances 1 permanent 9150000 danger 42000 latent 4167 transient 15230000 danger 18000",
        "element sram instances 1 permanent 25000000 danger 200000 latent 300000 transient 400000000 danger 1200000",
        "permanent all 133510000 danger 1001040 latent 4346215", "transient all 663230000 danger 1218000",
        "spfm permanent 132508960/133510000", "spfm transient 662012000/663230000", "lfm 128162745/132508960", "term 2219040",
        "target spfm permanent met", "target spfm transient met", "target lfm met", "target term met",
        "share torque permanent 99360000/133510000 danger 759040/1001040 latent 4042048/4346215 transient 248000000/663230000 danger 0/1218000 term 759040/2219040",
        "share pwm permanent 9150000/133510000 danger 42000/1001040 latent 4167/4346215 transient 15230000/663230000 danger 18000/1218000 term 60000/2219040",
        "share sram permanent 25000000/133510000 danger 200000/1001040 latent 300000/4346215 transient 400000000/663230000 danger 1200000/1218000 term 1400000/2219040",
        "end"], text


def one_block_alone_has_the_lines_of_its_report(folder, _):
    for name in ("parity", "bridge"):
        copy = shutil.copytree(EXAMPLES / name, pathlib.Path(folder, name))
        report = copy.joinpath("report.txt").read_text().splitlines()
        wanted = [line for line in report if line.startswith(("permanent all", "transient all", "spfm", "lfm", "term", "target"))]
        held(folder, list__csv=f"block,instances,report\nonly,1,{name}/report.txt\n")
        text, _ = tool("chip", "list.csv", "--asil", report[1].split()[-1], folder=folder)
        assert text.splitlines()[3:13] == wanted and len(wanted) == 10, text


def a_bad_element_beside_a_good_block(folder, _):
    """Permanent: 3 × 1000000 + 2 × 500000 = 4000000, harmful 3 × 100000 + 2 × 450000 = 1200000: SPFM 2800000/4000000 misses 90 %. Latent
    3 × 300000 + 2 × 50000 = 1000000: LFM 1800000/2800000 meets 60 %. Transient 3 × 2000000 = 6000000, harmful 1500000. The term is 2.7 FIT."""
    _block(folder)
    held(folder, list__csv="block,instances,report\ncore,3,report.txt\n\n" + ELEMENTS + 'adc,2,500000,450000,50000,0,0,"FMEDA of the maker, sheet 3"\n')
    text, _ = tool("chip", "list.csv", "--asil", "B", folder=folder)
    lines = text.splitlines()
    assert lines[4:14] == [
        "permanent all 4000000 danger 1200000 latent 1000000", "transient all 6000000 danger 1500000", "spfm permanent 2800000/4000000",
        "spfm transient 4500000/6000000", "lfm 1800000/2800000", "term 2700000", "target spfm permanent missed", "target spfm transient missed", "target lfm met", "target term met"], text
    assert lines[15] == "share adc permanent 1000000/4000000 danger 900000/1200000 latent 100000/1000000 transient 0/6000000 danger 0/1500000 term 900000/2700000", text


def targets_are_met_at_their_very_number(folder, _):
    """ASIL D: 99 of 100 and 90 of 100 are met, and a term of 10 FIT is missed; a unit less of what is good misses, a unit less of the term meets."""
    for permanent, danger, latent, verdicts in ((10**9, 10**7, 99 * 10**6, ["met", "-", "met", "missed"]), (10**9, 10**7 + 1, 99 * 10**6, ["missed", "-", "missed", "missed"]),
                                                (10**9 - 100, 10**7 - 1, 99 * 10**6 - 10, ["met", "-", "met", "met"])):
        held(folder, list__csv=ELEMENTS + f"one,1,{permanent},{danger},{latent},0,0,made up\n")
        text, _ = tool("chip", "list.csv", folder=folder)
        assert [line.split()[-1] for line in text.splitlines() if line.startswith("target")] == verdicts, (permanent, text)
    held(folder, list__csv=ELEMENTS + "none,7,0,0,0,0,0,a part that is left unsoldered\n")
    text, _ = tool("chip", "list.csv", folder=folder)
    assert "spfm permanent -\nspfm transient -\nlfm -\nterm 0\n" in text and "share none permanent - danger - latent - transient - danger - term -\n" in text, text


def reports_that_are_no_reports(folder, _):
    text = "block,instances,report\ncore,1,report.txt\n"
    for what, changes, wanted in (
            ("cut off", {"end": ("residual q^3 500000\nend\n", "residual q^3 500000\n")}, "was cut off"), ("a refusal", {"head": ("fmeda-report 1", "refused: usage")}, "but refused: usage"),
            ("another ASIL", {"asil": ("asil B", "asil D"), "spfm": ("permanent met", "permanent missed"), "lfm": ("lfm met", "lfm missed")}, "is of ASIL D, and B is asked for"), ("no ASIL", {"asil": (" asil B", "")}, "isn't as a report"),
            ("a fault is gone", {"fault": ("latent al/1 100000\n", "")}, "the weights of latent faults aren't"), ("a fault more", {"fault": ("y/0 100000", "y/0 100001")}, "residual and single-point faults"),
            ("another rate", {"rate": ("permanent 600000", "permanent 500000")}, "the rates of the parts"), ("a target", {"target": ("transient missed", "transient met")}, "its targets"),
            ("no sums", {"sums": ("permanent all 1000000 danger 100000 latent 300000\n", "")}, "isn't as a report has it"), ("no number", {"sums": ("danger 500000", "danger x")}, "isn't as a report")):
        _block(folder, **changes)
        said = _refusal(folder, text)
        assert wanted in said and "report.txt" in said, (what, said)


def the_goal_must_be_told_where_there_are_several(folder, _):
    _block(folder, points=TWO_GOALS)
    said = _refusal(folder, "block,instances,report\ncore,1,report.txt\n")
    assert "2 safety goals, heater, lamp, and LIST doesn't say which goal" in said, said
    for goal, wanted in (("-", "doesn't say which goal"), ("heater", "of the goals heater, lamp together, and not of heater"), ("heater+door", "not of heater+door")):
        said = _refusal(folder, f"block,instances,report,goal\ncore,1,report.txt,{goal}\n")
        assert wanted in said, said
    for goal in ("heater+lamp", "lamp+heater"):
        held(folder, list__csv=f"block,instances,report,goal\ncore,1,report.txt,{goal}\n")
        text, _ = tool("chip", "list.csv", "--asil", "B", folder=folder)
        assert text.splitlines()[1] == "blocks 1 elements 0 asil B goal heater+lamp", text


def one_goal_for_all_blocks(folder, _):
    _block(folder)
    held(folder, lamp__csv="goal,ftti,kind,net\nlamp,4,observe,y\n-,-,alarm,al\n", door__csv="goal,ftti,kind,net\ndoor,4,observe,y\n")
    head = "block,instances,report,points,goal\n"
    said = _refusal(folder, head + "a,1,report.txt,lamp.csv,\nb,1,report.txt,door.csv,\n")
    assert "one safety goal, and LIST says lamp and door" in said, said
    said = _refusal(folder, head + "a,1,report.txt,lamp.csv,door\n")
    assert "its points have the goal lamp, and LIST says door" in said, said
    held(folder, list__csv=head + "a,1,report.txt,lamp.csv,-\nb,1,report.txt,points.csv,lamp\nc,1,report.txt,,\n")
    text, _ = tool("chip", "list.csv", "--asil", "B", folder=folder)
    assert text.splitlines()[1] == "blocks 3 elements 0 asil B goal lamp", text
    pathlib.Path(folder, "points.csv").unlink()
    assert "points.csv" in _refusal(folder, "block,instances,report\na,1,report.txt\n")
    held(folder, points__csv="net,kind\n")
    assert "no points file" in _refusal(folder, "block,instances,report\na,1,report.txt\n")


def lists_that_say_something_wrong(folder, _):
    _block(folder)
    blocks = "block,instances,report\n"
    for text, wanted in (("", "has no block"), (blocks, "has no block"), ("a,1,report.txt\n", "row 1: a header stands first"), ("block,report\n", "the header of blocks is"),
                         (ELEMENTS.replace(",source", ""), "that of elements"), (blocks + "a,1\n", "row 2: it has 2 cells"), (blocks + "a b,1,report.txt\n", "'a b' is none"),
                         (blocks + "a,0,report.txt\n", "instances is a whole number from 1"), (blocks + "a,2.5,report.txt\n", "instances is a whole number"),
                         (blocks + "a,1,report.txt\na,2,report.txt\n", "row 3: there is a row a already"), (blocks + "a,1,none.txt\n", "none.txt"),
                         (ELEMENTS + "m,1,0.5,0,0,0,0,s\n", "permanent is a whole number from 0 on, and not '0.5', in units"), (ELEMENTS + "m,1,10,-1,0,0,0,s\n", "permanent_danger is"),
                         (ELEMENTS + "m,1,10,6,5,0,0,s\n", "more than all"), (ELEMENTS + "m,1,10,0,0,5,6,s\n", "more than all"), (ELEMENTS + "m,1,10,0,0,0,0, \n", "source must say")):
        said = _refusal(folder, text)
        assert wanted in said, (text, said)
    assert "cannot read" in tool("chip", "none.csv", folder=folder, status=1)[1]


class _Cells(html.parser.HTMLParser):
    """The text of a page, and what it would fetch."""

    def __init__(self):
        super().__init__()
        self.text, self.fetched = "", []

    def handle_starttag(self, name, attributes):
        self.fetched += [value for key, value in attributes if key in ("src", "href", "srcset", "action") and not value.startswith("#")]

    def handle_data(self, data):
        self.text += data + "|"


def the_page_of_a_chip(folder, _):
    """759040 / 1001040 is 75.825 %; 400 FIT of 663.23 stand as they are; SPFM 99.250 % and LFM 96.720 %."""
    for name in ("chip", "lockstep", "voter"):
        shutil.copytree(EXAMPLES / name, pathlib.Path(folder, name))
    tool("chip", "chip/list.csv", "--page", "chip.html", "--title", "an <inverter>", folder=folder)
    text = pathlib.Path(folder, "chip.html").read_text()
    cells = _Cells()
    cells.feed(text)
    assert not cells.fetched and "@import" not in text and "an <inverter>" in cells.text, cells.fetched
    for wanted in ("99.25 %", "96.72 %", "99.81 %", "128162745/132508960", "75.82 %", "2.21904 FIT", "|400|", "sheet of the SRAM with ECC", "intervals 0, 4"):
        assert wanted in cells.text, wanted
    assert text.count("verdict met") == 4


def what_the_blocks_pages_say(folder, _):
    """The guard of the block does no harm; made into one that does, its hint stands on the chip's page, as does a manifest of another report."""
    _block(folder)
    held(folder, list__csv="block,instances,report\ncore,3,report.txt\n")
    tool("chip", "list.csv", "--asil", "B", "--page", "chip.html", folder=folder)
    assert "Block core" not in pathlib.Path(folder, "chip.html").read_text()
    _block(folder, counts=("faults 3 safe 0 detected 1 residual 0", "faults 3 safe 0 detected 0 residual 1"))
    held(folder, manifest__json='{"output": {"sha256": "0", "bytes": 1}}')
    tool("chip", "list.csv", "--asil", "B", "--page", "chip.html", folder=folder)
    text = pathlib.Path(folder, "chip.html").read_text()
    for wanted in ("Block core: Part guard is a mechanism with harmful faults", "Block core: manifest.json is the manifest of another report than report.txt."):
        assert wanted in text, text
