"""Which figures in the pages' text are computed, most of them from the program's reports: for each page the pieces of text that must stand in it."""
import pathlib
import re
import shutil
import subprocess
import sys
import tempfile

HERE = pathlib.Path(__file__).resolve().parent
ROOT = HERE.parent.parent
sys.path[:0] = [str(ROOT / "tools")]
import reports


class Reports:
    """Reports of the examples, each made once."""

    def __init__(self, program):
        self.program, self.made = program, {}

    def text(self, folder, netlist=None, points=None, **options):
        """What the program prints with the example's words, some options being others."""
        key = (folder, netlist, points, *sorted(options.items()))
        if key not in self.made:
            with tempfile.TemporaryDirectory() as room:
                copy = pathlib.Path(room, "x")
                shutil.copytree(ROOT / folder, copy)
                words = copy.joinpath("words").read_text().split("\n")[:-1]
                for option, value in options.items():
                    at = words.index(f"--{option}") if f"--{option}" in words else None
                    words = (words[:at] + words[at + 2:] if at is not None else words) + [f"--{option}", str(value)]
                if points is not None:
                    copy.joinpath("points.csv").write_text(points(copy.joinpath("points.csv").read_text()))
                done = subprocess.run([self.program, *words], cwd=copy, stdout=subprocess.PIPE, text=True, timeout=1800)
                self.made[key] = done.stdout
        return self.made[key]

    def report(self, folder, **options):
        text = self.text(folder, **options)
        with tempfile.NamedTemporaryFile("w", suffix=".txt") as file:
            file.write(text)
            file.flush()
            return reports.read(file.name)


def tenth(num, den):
    """A per cent with one digit, rounded to the nearest; 100 without one."""
    tenths = (2000 * num + den) // (2 * den)
    return f"{tenths // 10}.{tenths % 10} %" if tenths != 1000 else "100 %"


def spfm(report):
    return tenth(report.permanent - report.danger, report.permanent)


def spfm_transient(report):
    return tenth(report.transient - report.transient_danger, report.transient)


def lfm(report):
    return tenth(report.permanent - report.danger - report.latent, report.permanent - report.danger)


def part(report, name):
    return next(it for it in report.parts if it.name == name)


def residual(report):
    return sum(it.counts["residual"] for it in report.parts)


def thousands(number):
    return f"{int(number):,}"


def of_lockstep(made):
    main = made.report("examples/lockstep")
    yield f"netlist of {thousands(main.head['nets'])}\nnets and {main.head['latches']} latches"
    yield f"an upset of each of the {main.head['latches']} latches at four moments, {4 * int(main.head['latches'])} transient faults"
    yield f"{tenth(*part(main, 'main').coverage)} of the weight of `main` that could do harm is detected. The {part(main, 'main').counts['residual']} residual faults"
    yield f"SPFM is {spfm(main)} and LFM {lfm(main)}, so the targets of ASIL D are met. The {part(main, 'pins').counts['single-point']} single-point faults"
    yield f"{part(main, 'compare').counts['latent']} faults of the comparator and {part(main, 'check').counts['latent']} of the second core are latent"
    found = {}
    for ftti, shown in ((0, "0"), (1, "1"), (2, "2"), (3, "3 and more")):
        found[ftti] = made.report("examples/lockstep", ftti=ftti)
        yield f"| {shown} | {part(found[ftti], 'main').counts['residual']} | {spfm(found[ftti])} | {spfm_transient(found[ftti])} |"
    yield f"The {part(found[1], 'main').counts['residual'] - part(found[3], 'main').counts['residual']}\nfaults between F = 1 and F = 3"


def of_secded(made):
    main = made.report("examples/secded_fifo")
    yield f"it has {main.head['nets']} nets and {main.head['latches']} latches"
    yield f"The {part(main, 'storage').counts['residual']} residual faults of the storage"
    yield f"All {part(main, 'pointers').counts['single-point']} faults of the pointers are single-point faults"
    decoder = part(main, "decoder")
    yield f"{100 * (decoder.coverage[1] - decoder.coverage[0]) // decoder.coverage[1]} % of what the decoder's faults weigh"
    yield f"SPFM of transient faults stops at {spfm_transient(main).replace('.0', '')}"
    yield f"SPFM of permanent faults is {spfm(main)}, which isn't"
    yield f"With F = 0 one fault more of the storage is residual\n(SPFM permanent {spfm(made.report('examples/secded_fifo', ftti=0))})"


def of_watchdog(made):
    main = made.report("examples/watchdog")
    yield f"it has {main.head['nets']} nets and {main.head['latches']} latches"
    yield f"coverage is {tenth(*part(main, 'controller').coverage).split('.')[0]} %"
    yield f"leave {part(main, 'watchdog').counts['latent']} latent faults in the watchdog. LFM is {lfm(main)}"
    for ftti, shown in ((0, "0"), (2, "2"), (4, "4"), (6, "6 and more")):
        other = made.report("examples/watchdog", ftti=ftti, points=lambda text: text.replace(",16,", ",-,"))
        yield f"| {shown} | {spfm(other)} | {spfm_transient(other)} |"


def of_voter(made):
    main = made.report("examples/voter")
    yield f"it has {main.head['nets']} nets and {main.head['latches']} latches"
    yield f"SPFM is {spfm(main)}, so ASIL D's target is met"
    yield f"The {part(main, 'first').counts['safe']} safe\n  faults of a copy"


def of_bridge(made):
    main = made.report("examples/bridge")
    yield f"it has {main.head['nets']} nets and {main.head['latches']} latches"
    yield f"SPFM of permanent faults is {spfm(main)}, and ASIL B asks for 90 %. Of the {residual(main)} residual faults"
    yield f"{part(main, 'guard').counts['latent']} faults of the guard are latent"
    for ftti in (0, 1, 4, 16):
        other = made.report("examples/bridge", ftti=ftti)
        yield f"| {ftti} | {residual(other)} | {spfm(other)} | {spfm_transient(other)} |"


def of_duplicated(made):
    main = made.report("examples/duplicated")
    yield f"So SPFM is {(main.permanent - main.danger) // 10**6}/{main.permanent // 10**6} and LFM"
    yield f"{(main.permanent - main.danger - main.latent) // 10**6}/{(main.permanent - main.danger) // 10**6} here"


def of_examples(made):
    for name in ("duplicated", "parity", "lockstep", "secded_fifo", "watchdog", "bridge", "stream", "voter"):
        nets = made.report(f"examples/{name}").head["nets"]
        yield f"| `{name}` | {{}} | {thousands(nets)} |"


def of_believe(made):
    late = made.report("examples/bridge", flips=5000)
    assert late.targets["spfm transient"] == "met"
    yield f"gives SPFM transient {spfm_transient(late)}, met, in place of {spfm_transient(made.report('examples/bridge'))}"


def of_readme(made):
    main = made.report("examples/lockstep")
    mine = part(main, "main")
    yield f"The core `main` has {mine.permanent // 10**6} FIT of permanent faults; {mine.counts['residual']} of its {mine.faults} faults"
    yield f"SPFM is {main.permanent - main.danger} of {main.permanent}, {spfm(main)}"
    weight = next(fault.weight for fault in main.faults if fault.name == "torque[0]/0")
    yield f"weighs {reports.fit(weight)} FIT"


def of_reading(made):
    main = made.report("examples/lockstep")
    mine, head = part(main, "main"), main.head
    yield f"2 × {head['nets']} + {head['latches']} × 4"
    permanent_faults = 2 * (mine.faults - 4 * 57) // 2
    share, more = divmod(mine.permanent, permanent_faults)
    yield f"here {permanent_faults // 2} nets with 2 stuck-at faults each, and 57 latches with 4 flips each"
    yield f"The {permanent_faults} stuck-at faults of `main` share {mine.permanent}: {share} each, and 1 more for the first {more}"
    for number in (main.permanent, main.danger, main.latent, main.transient):
        yield f"`{number:x}` is {number}"
    left = main.permanent - main.danger
    yield f"(all - danger) / all: {main.permanent} - {main.danger} over {main.permanent}, {100 * left / main.permanent:.2f} %"
    yield f"permanent faults alone: {left - main.latent} / {left}, {100 * (left - main.latent) / left:.2f} %"
    yield f"permanent danger + transient danger: {(main.danger + main.transient_danger) / 10**6:.2f} FIT"
    yield f"100 × {left} is at least 99 × {main.permanent}"


def of_from_verilog(made):
    main = made.report("examples/voter")
    shown = f"{main.permanent - main.danger}/{main.permanent} ({spfm(main)}) | {main.permanent - main.danger - main.latent}/{main.permanent - main.danger}"
    yield f"| flattened after synthesis | {main.head['latches']} | {shown} |"
    yield f"None of the\n{made.report('examples/bridge').head['latches']} latches".replace("None", "none")


def of_statement(_):
    """What tools/dev/statement counts, in place of a report's figures; and a line for each crate that names each of its files."""
    done = subprocess.run([sys.executable, str(ROOT / "tools" / "dev" / "statement")], stdout=subprocess.PIPE, text=True, check=True, timeout=60)
    of_the_program, beside = [[int(it) for it in line.split() if it.isdigit()] for line in done.stdout.splitlines()[-2:]]
    lines, definitions, files = of_the_program[:3]
    yield f"{thousands(lines)} lines of {definitions} definitions in {files} files"
    named = {}
    for crate, file in re.findall(r" (\w+)/(?:specs|src)/(\S+)$", done.stdout, re.M):
        named.setdefault(crate, []).append(file.removesuffix(".antt"))
    yield from (f"- {crate}: {', '.join(names)} (" for crate, names in named.items())
    traits, _, *of_the_kit = beside
    yield f"a shelf, a sink and a gate ({traits} lines)"
    if of_the_kit:
        yield f"({thousands(of_the_kit[0])} lines of {of_the_kit[1]} definitions)"


PAGES = {"README.md": of_readme, "docs/reading-the-statement.md": of_statement, "docs/before-you-believe.md": of_believe, "docs/reading-the-report.md": of_reading, "docs/from-verilog.md": of_from_verilog, "examples/README.md": of_examples,
         "examples/lockstep/README.md": of_lockstep, "examples/secded_fifo/README.md": of_secded, "examples/watchdog/README.md": of_watchdog,
         "examples/voter/README.md": of_voter, "examples/bridge/README.md": of_bridge, "examples/duplicated/README.md": of_duplicated}


def stands_in(wanted, text):
    """Whether a piece stands in the text, wherever its lines are broken; {} stands for the words of a cell."""
    plain = lambda it: " ".join(it.split())
    before, gap, after = plain(wanted).partition("{}")
    text = plain(text)
    if not gap:
        return before in text
    return any(before in line and after in line[line.index(before):] for line in text.split("| `") for line in ["| `" + line])


def faults_of(page, text, made):
    for wanted in PAGES.get(page, lambda made: [])(made):
        if not stands_in(wanted, text):
            yield f"{page}: this doesn't stand there, and the program says it: {' '.join(wanted.split())}"
