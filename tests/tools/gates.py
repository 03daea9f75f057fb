"""Cases of tools/ungate and of netlists of standard cells: clock gates against Icarus, over random enables and with faults; what is refused."""
import pathlib
import random
import re
import shutil
import subprocess
import sys

from common import EXAMPLES, TOOLS, Skipped, held, tool

sys.path[:0] = [str(TOOLS)]
import designs
import dumps
import liberty

GATES = EXAMPLES / "gates"
SCRIPT = "read_liberty -lib cells.lib; read_verilog n.v; hierarchy -check -top top; proc; flatten; simplemap; write_json n.json"


def _needs(*programs):
    for name in programs:
        if shutil.which(name) is None:
            raise Skipped(f"{name} is not installed")


def _ungated(folder, verilog, library="", status=0):
    """What tools/ungate says of Verilog with the example's cells, and with more of them."""
    text = GATES.joinpath("cells.lib").read_text()
    held(folder, n__v=verilog, cells__lib=text[:text.rindex("}")] + library + "}\n")
    done = subprocess.run(["yosys", "-q", "-p", SCRIPT], cwd=folder, capture_output=True, text=True)
    assert not done.returncode, done.stdout + done.stderr
    return tool("ungate", "n.json", "--liberty", "cells.lib", "-o", "n.blif", folder=folder, status=status)


def _simulated(folder, bench, *sources):
    subprocess.run(["iverilog", "-g2012", "-o", "sim", *map(str, sources), bench], cwd=folder, check=True, capture_output=True)
    subprocess.run(["vvp", "sim"], cwd=folder, check=True, capture_output=True)


def functions_of_a_library(folder, _):
    """What Liberty says of its operators: inversion first, then XOR, AND, OR; a space is an AND."""
    for text, function in (("!(A B)", lambda a, b, c: 1 - (a & b)), ("A' * B + C ^ A", lambda a, b, c: (1 - a) & b | (c ^ a)), ("A^B&C", lambda a, b, c: (a ^ b) & c), ("(A+B)'C", lambda a, b, c: (1 - (a | b)) & c),
                           ("!A'", lambda a, b, c: a), ("A B'|!C", lambda a, b, c: a & (1 - b) | (1 - c)), ("1", lambda a, b, c: 1)):
        made = liberty.Function(text)
        for k in range(8):
            values = [k >> i & 1 for i in range(3)]
            assert made.value(dict(zip("ABC", values))) == function(*values), (text, values)
    for text in ("A +", "(A", "A ? B", "A B)", ""):
        try:
            liberty.Function(text)
        except designs.Refused:
            continue
        raise AssertionError(f"{text!r} was read")


def a_library_that_is_cut_off(folder, _):
    text = GATES.joinpath("cells.lib").read_text()
    assert set(liberty.read(str(GATES / "cells.lib"))) >= {"ICGX1", "DFFRX1", "NAND2X1", "FILL1"}
    for wrong, wanted in ((text[:text.rindex("}")], "cut off"), (text[:900], "cut off"), ("library (empty) { }\n", "has no cells"), (text.replace("area", "\x01", 1), "line 3 is no Liberty")):
        held(folder, a__lib=wrong)
        _, said = tool("ungate", "n.json", "--liberty", "a.lib", "-o", "n.blif", folder=folder, status=1)
        assert wanted in said and said.startswith("ungate: a.lib: "), said


# ---- clock gates against Icarus

BENCH = """`timescale 1ns / 1ps
module bench;
    reg clk = 0, rst_n = 1;
    reg [5:0] en = 0;
    reg [3:0] d = 0;
    wire [11:0] q;
    integer seed = {seed}, cycle;
    top dut (.clk(clk), .rst_n(rst_n), .en(en), .d(d), .q(q));
    always #5 clk = ~clk;
    initial begin
        $dumpfile("n.vcd");
        $dumpvars(0, bench.dut);
        #1 rst_n = 0;
        for (cycle = 0; cycle < 150; cycle = cycle + 1) begin
            @(posedge clk) #1;
            rst_n = cycle >= 2;
            d = $random(seed);
            en = $random(seed);
            // In the low phase the latch is open: what counts is the enable just before the edge.
            #6 en = $random(seed);
        end
        #1 $finish;
    end
endmodule
"""


def _random_netlist(chance):
    """Twelve flip-flops, each of a clock of its own choice: ungated, behind one gate, behind two, behind buffers; their data from gates of other flip-flops."""
    lines, clocks = [], ["clk"]
    for k in range(5):
        before = chance.choice(clocks)
        kind = chance.randrange(3) if k else 1
        if kind == 0:
            lines += [f"wire c{k}, i{k}; INVX1 ci{k} (.A({before}), .Y(i{k})); INVX1 cj{k} (.A(i{k}), .Y(c{k}));"]
        else:
            test = chance.choice(("1'b0", f"en[{chance.randrange(6)}]", "t0"))
            lines += [f"wire g{k}, c{k}; ICGX1 u_gate{k} (.CK({before}), .E({chance.choice(('en[%d]' % k, 'q[%d]' % k, 'x%d' % k))}), .TE({test}), .GCK(g{k})); CLKBUFX2 cb{k} (.A(g{k}), .Y(c{k}));"]
        clocks.append(f"c{k}")
    for k in range(12):
        a, b = (chance.choice([f"q[{j}]" for j in range(12)] + [f"d[{j}]" for j in range(4)]) for _ in range(2))
        lines += [f"wire x{k}, y{k}; {chance.choice(('NAND2X1', 'XOR2X1', 'NOR2X1'))} u_x{k} (.A({a}), .B({b}), .Y(x{k})); BUFX2 u_y{k} (.A(x{k}), .Y(y{k}));",
                  f"DFFRX1 u_q{k} (.CK({chance.choice(clocks)}), .D(y{k}), .RN(rst_n), .Q(q[{k}]));"]
    return "module top (input clk, rst_n, input [5:0] en, input [3:0] d, output [11:0] q);\nwire t0; TIELO u_tie (.Y(t0));\n" + "\n".join(lines) + "\nendmodule\n"


def gated_netlists_against_icarus(folder, _):
    """Random netlists with gates, gates behind gates, buffers and inverters of clocks: each net agrees in each cycle with Icarus, which has the gates' latches."""
    _needs("yosys", "iverilog")
    behind = 0
    for seed in range(12):
        said, _ = _ungated(folder, _random_netlist(random.Random(seed)))
        behind += "behind" in said
        held(folder, bench__v=BENCH.format(seed=seed))
        _simulated(folder, "bench.v", "n.v", GATES / "cells.v")
        tool("vcd2workload", "--netlist", "n.blif", "--run", "w", "mission", "n.vcd", "-o", "w.csv", folder=folder)
        text, _ = tool("golden", "n.blif", "w.csv", "--run", "w", "n.vcd", "--nets", "all", folder=folder)
        cycles, nets = int(text.split()[2]), int(text.split()[4])
        assert cycles >= 149 and nets >= 47 and "x or z" not in text, (seed, text)
    assert behind > 2, behind


FORCES = {"u_main.u_gate.enable/0": "force dut.u_main.u_gate.GCK = 0;", "u_main.u_gate.enable/1": "force dut.u_main.u_gate.taken = 1;",
          "u_check.u_leaf.enable/0": "force dut.u_check.u_leaf.Y = 1;", "u_main._50_.next/1": None, "u_check.total[3]/1": "force dut.other[3] = 1;", "run/0": "force dut.run = 0;"}


def faults_of_a_clock_gate_against_icarus(folder, _):
    """The example with a fault in Icarus: a clock that stands still at 0 or at 1, and a latch that is stuck. Both outputs are the same in each cycle."""
    _needs("iverilog")
    design = designs.read(str(GATES / "design.blif"))
    _, _, vectors = designs.read_runs(str(GATES / "workload.csv"), design)[0]
    bench = GATES.joinpath("bench.v").read_text().replace('$test$plusargs("mission")', "1")
    for name, force in FORCES.items():
        if force is None:
            continue
        held(folder, bench__v=bench.replace("#1 rst_n = 0;", f"{force}\n        #1 rst_n = 0;"))
        _simulated(folder, "bench.v", GATES / "netlist.v", GATES / "cells.v")
        dump = dumps.Dump(str(pathlib.Path(folder, "mission.vcd")))
        signals = dump.head()
        wanted = [dumps.find(signals, "bench.dut", it) for it in design.outputs]
        net, _, value = name.rpartition("/")
        fault = ("stuck", design.names.index(net), int(value))
        faulty = [[values[design.names.index(it)] for it in design.outputs] for values in designs.golden(design, vectors, fault)]
        seen = list(dump.cycles(dumps.find(signals, "bench.dut", "clk")[0], False, wanted))
        # Unknown values stand in Icarus' first cycle alone, before the reset.
        assert len(seen) == len(faulty) == 200 and all(s == str(f) for row, other in zip(seen[1:], faulty[1:]) for s, f in zip(row, other)), name


# ---- names, buffers, starts

NAMES = """module part (input clk, rst_n, a, en, output y, output n, output z);
 wire gated, kept; ICGX1 u_gate (.CK(clk), .E(en), .TE(1'b0), .GCK(gated));
 DFFRX1 kept_reg (.CK(gated), .D(a), .RN(rst_n), .Q(kept));
 DFFQN other_reg (.CK(clk), .D(kept), .SN(rst_n), .QN(n));
 BUFX2 u_buf (.A(kept), .Y(y)); DFFX1 z_reg (.CK(clk), .D(a), .Q(z));
 FILL1 u_fill ();
endmodule
module top (input clk, rst_n, a, en, output y, n, z, tied, wired);
 part u_part (.clk(clk), .rst_n(rst_n), .a(a), .en(en), .y(y), .n(n), .z(z)); assign tied = 1'b1; assign wired = a;
endmodule
"""
DFFQN = """cell (DFFQN) { ff (IQ, IQN) { clocked_on : "CK"; next_state : "D"; preset : "!SN"; }
 pin (CK) { direction : input; } pin (D) { direction : input; } pin (SN) { direction : input; } pin (QN) { direction : output; function : "IQN"; } }
"""


def what_the_netlist_of_cells_is(folder, program):
    """Nets have the name in the instance that drives them, a buffer is a table, and a flip-flop starts at its reset's value."""
    _needs("yosys")
    said, _ = _ungated(folder, NAMES, DFFQN)
    assert "1 flip-flops, as u_part.kept_reg, take their next value where u_part.u_gate.enable is 1" in said and "1 cells have no output" in said, said
    lines = pathlib.Path(folder, "n.blif").read_text().splitlines()[1:]
    text = "\n".join(lines)
    assert ".latch u_part.kept_reg.next u_part.kept re clk 0" in text and ".latch u_part.other_reg.next u_part.other_reg.IQ re clk 1" in text and ".latch a z re clk 2" in text, text
    for table in (".names u_part.kept y\n1 1", ".names u_part.other_reg.IQ n\n0 1", ".names en u_part.u_gate.enable\n1 1", ".names tied\n1\n", ".names a wired\n1 1"):
        assert table in text, (table, text)
    rows = text.split(".names rst_n a u_part.u_gate.enable u_part.kept u_part.kept_reg.next\n")[1].split("\n.")[0].split("\n")
    on = {(r, a, e, k) for row in rows for r in (0, 1) for a in (0, 1) for e in (0, 1) for k in (0, 1) if all(c in ("-", str(v)) for c, v in zip(row, (r, a, e, k)))}
    assert on == {(1, a, e, k) for a in (0, 1) for e in (0, 1) for k in (0, 1) if (a if e else k)}, rows
    held(folder, r__csv="pattern,part,role,covered,permanent,transient\n*,all,mission,no,1,0\n")
    done = subprocess.run([program, "parts", "n.blif", "r.csv"], cwd=folder, capture_output=True, text=True)
    assert not done.returncode and "latches 3 " in done.stdout, done.stdout


def rates_by_area(folder, _):
    """A part has the areas of its module's cells, counted in the Verilog, and its flip-flops; a cell that no net stands for is shared, so that the sum is that of the block."""
    _needs("yosys")
    copy = shutil.copytree(GATES, pathlib.Path(folder, "gates"), ignore=shutil.ignore_patterns("flow"))
    subprocess.run(["yosys", "-q", "-s", "synth.ys"], cwd=copy, check=True)
    areas = {name: float(area) for name, area in re.findall(r"cell \((\w+)\) { area : ([0-9.]+);", copy.joinpath("cells.lib").read_text())}
    used = {}
    for name, body in re.findall(r"^module (\w+)\(.*?;(.*?)^endmodule", copy.joinpath("netlist.v").read_text(), re.M | re.S):
        used[name] = re.findall(r"^  ([A-Z]\w+) ", body, re.M)
    area = {name: sum(areas[cell] for cell in own) for name, own in used.items()}
    text, said = tool("rates", "cells.json", "design.blif", "rates.csv", "--liberty", "cells.lib", "--area", "0.05", "--flip-flop", "0.5", "--pin", "0.01", folder=copy)
    rows = {row[1]: (row[4], row[5]) for row in (line.split(",") for line in text.splitlines()[1:])}
    assert rows == {"main": (f"{0.05 * area['meter']:g}", "4"), "check": (f"{0.05 * area['meter']:g}", "4"), "compare": (f"{0.05 * area['compare']:g}", "0.5"), "pins": ("0.08", "0")}, (rows, area)
    assert said.splitlines()[-1].endswith(f": {0.05 * (2 * area['meter'] + area['compare']) + 0.08:g} and 8.5 FIT"), said
    netlist = copy / "netlist.v"
    netlist.write_text(netlist.read_text().replace("  meter u_main", "  FILL1 u_fill ();\n  meter u_main"))
    subprocess.run(["yosys", "-q", "-s", "synth.ys"], cwd=copy, check=True)
    _, said = tool("rates", "cells.json", "design.blif", "rates.csv", "--liberty", "cells.lib", "--area", "0.05", "--flip-flop", "0.5", "--pin", "0.01", folder=copy)
    assert "of which 0.2 are in no part" in said and said.splitlines()[-1].endswith(f": {0.05 * (2 * area['meter'] + area['compare'] + 0.2) + 0.08:g} and 8.5 FIT"), said
    for words, wanted in ((("--area", "-1"), "invalid"), (("--area", "x"), "invalid")):
        assert wanted in tool("rates", "cells.json", "design.blif", "rates.csv", "--liberty", "cells.lib", *words, folder=copy, status=2)[1]


DDR = """module top (input clk, rst, input [3:0] d, output reg [3:0] q, low, high);
always @(posedge clk) if (rst) q <= 0; else q <= q + d;
always @(negedge clk) low <= q ^ 4'h5;
always @(negedge clk or posedge rst) if (rst) high <= 4'h9; else high <= q;
endmodule
"""
DDR_BENCH = """module bench; reg clk = 0, rst = 0; reg [3:0] d = 0; wire [3:0] q, low, high; integer k, seed = 3;
top dut (.clk(clk), .rst(rst), .d(d), .q(q), .low(low), .high(high)); always #5 clk = ~clk;
initial begin $dumpfile("n.vcd"); $dumpvars(0, bench.dut); #1 rst = 1;
for (k = 0; k < 60; k = k + 1) begin @(posedge clk) #1; rst = k < 2; d = $random(seed); end #2 $finish; end endmodule
"""


def registers_of_the_other_edge(folder, _):
    """By the techmap each is a wire, and every net agrees with Icarus just before the rising edge."""
    _needs("yosys", "iverilog")
    held(folder, n__v=DDR, bench__v=DDR_BENCH)
    script = f"read_verilog n.v; hierarchy -top top; proc; techmap -map {EXAMPLES}/bridge/other_edge.v; async2sync; synth -run coarse:check; dfflegalize -cell $_DFF_P_ 01; abc -g AND,XOR; opt_clean; write_blif -noalias n.blif"
    subprocess.run(["yosys", "-q", "-p", script], cwd=folder, check=True)
    _simulated(folder, "bench.v", "n.v")
    tool("vcd2workload", "--netlist", "n.blif", "--run", "w", "mission", "n.vcd", "-o", "w.csv", folder=folder)
    text, _ = tool("golden", "n.blif", "w.csv", "--run", "w", "n.vcd", "--nets", "all", "--skip", "1", folder=folder)
    assert "60 cycles" in text and "x or z" not in text and pathlib.Path(folder, "n.blif").read_text().count(".latch") == 4, text


# ---- refusals

TOP = "module top (input clk, b, d, en, output q, output p); wire g, h, x; {} endmodule"
GATE = "ICGX1 u_gate (.CK({}), .E(en), .TE(1'b0), .GCK({})); "
FLOP = "DFFX1 {} (.CK({}), .D(d), .Q({})); "
MORE = """cell (LATX1) { latch (IQ, IQN) { enable : "G"; data_in : "D"; } pin (G) { direction : input; } pin (D) { direction : input; } pin (Q) { direction : output; function : "IQ"; } }
cell (ICGN) { clock_gating_integrated_cell : "latch_negedge"; pin (CK) { direction : input; clock_gate_clock_pin : true; } pin (E) { direction : input; clock_gate_enable_pin : true; } pin (GCK) { direction : output; clock_gate_out_pin : true; } }
cell (ICGA) { clock_gating_integrated_cell : "none_posedge"; pin (CK) { direction : input; clock_gate_clock_pin : true; } pin (E) { direction : input; clock_gate_enable_pin : true; } pin (GCK) { direction : output; clock_gate_out_pin : true; } }
cell (ICGU) { clock_gating_integrated_cell : "latch_posedge"; pin (CK) { direction : input; } pin (E) { direction : input; } pin (GCK) { direction : output; } }
cell (DFFN) { ff (IQ, IQN) { clocked_on : "!CK"; next_state : "D"; } pin (CK) { direction : input; } pin (D) { direction : input; } pin (Q) { direction : output; function : "IQ"; } }
cell (RAM) { pin (CK) { direction : input; } pin (D) { direction : input; } pin (Q) { direction : output; } }
type (two) { base_type : array; data_type : bit; bit_width : 2; bit_from : 1; bit_to : 0; }
cell (WIDE) { bus (A) { bus_type : two; direction : input; } pin (Y) { direction : output; function : "A"; } }
"""
# (what the netlist does, its cells, what is said of it)
REFUSALS = (
    ("a divided clock", FLOP.format("u_half", "clk", "h") + FLOP.format("u_q", "h", "q"), "the clock of u_q (DFFX1) is divided by u_half (DFFX1)"),
    ("a gate of the divided clock", FLOP.format("u_half", "clk", "h") + GATE.format("h", "g") + FLOP.format("u_q", "g", "q"), "the clock of u_gate (ICGX1) is divided by u_half"),
    ("a clock made by logic", "NAND2X1 u_and (.A(clk), .B(en), .Y(g)); " + FLOP.format("u_q", "g", "q"), "the clock of u_q (DFFX1) is made by u_and (NAND2X1): only buffers, inverters and integrated"),
    ("a multiplexer of clocks", "assign g = en ? clk : b; " + FLOP.format("u_q", "g", "q"), "Tie a multiplexer of clocks to the mission's"),
    ("two clocks", FLOP.format("u_q", "clk", "q") + FLOP.format("u_p", "b", "p"), "several clocks: clk, rising edge: 1 flip-flops, as u_q; b, rising edge: 1 flip-flops, as u_p"),
    ("a gate of another clock", GATE.format("b", "g") + FLOP.format("u_q", "clk", "q") + FLOP.format("u_p", "g", "p"), "several clocks: clk, rising edge: 1 flip-flops, as u_q; b, rising"),
    ("both edges", "DFFN u_p (.CK(clk), .D(d), .Q(p)); " + FLOP.format("u_q", "clk", "q"), "several clocks: clk, rising edge: 1 flip-flops, as u_q; clk, falling edge: 1 flip-flops, as u_p"),
    ("an inverted clock", "INVX1 u_inv (.A(clk), .Y(g)); " + FLOP.format("u_q", "clk", "q") + FLOP.format("u_p", "g", "p"), "docs/from-verilog.md, \"Registers of the other edge\""),
    ("a gate and flip-flops of the other edge", GATE.format("clk", "g") + "DFFN u_q (.CK(g), .D(d), .Q(q));", "u_q works at the falling edge behind u_gate, which samples at the rising edge"),
    ("a gate behind one of the other edge", GATE.format("clk", "g") + "ICGN u_low (.CK(g), .E(en), .GCK(h)); " + FLOP.format("u_q", "h", "q"), "u_low (ICGN) is behind u_gate and samples at the other edge"),
    ("a gate without a latch", "ICGA u_bare (.CK(clk), .E(en), .GCK(g)); " + FLOP.format("u_q", "g", "q"), "u_bare (ICGA) is a clock gate of kind none_posedge"),
    ("a gate whose pins aren't told", "ICGU u_bare (.CK(clk), .E(en), .GCK(g)); " + FLOP.format("u_q", "g", "q"), "the library doesn't say which pins of u_bare (ICGU)"),
    ("a gated clock that is read", GATE.format("clk", "g") + FLOP.format("u_q", "g", "q") + "XOR2X1 u_xor (.A(g), .B(d), .Y(p));", "u_xor (XOR2X1) reads the clock g as data, by its pin A"),
    ("a clock that is an output", GATE.format("clk", "p") + FLOP.format("u_q", "p", "q"), "the output p is a clock"),
    ("a tied clock", "DFFX1 u_q (.CK(1'b0), .D(d), .Q(q));", "the clock of u_q (DFFX1) comes from nowhere or is tied"),
    ("a level latch", "LATX1 u_lat (.G(en), .D(d), .Q(q));", "u_lat (LATX1) has a latch, and flip-flops of one bit (ff) are taken"),
    ("a cell without a function", "RAM u_ram (.CK(clk), .D(d), .Q(q));", "u_ram (RAM): the library has no function of its output Q. A macro: `expose -evert t:RAM`"),
    ("Verilog that isn't synthesised", "assign q = d; wire [3:0] s = {d, en, d, en} + {b, b, b, b}; assign p = s[2];", "is a $add, which no library has"),
    ("a cell of no library", "(* blackbox *) module", None),
    ("a pin of several bits", "WIDE u_wide (.A({d, en}), .Y(q));", "u_wide (WIDE): its pin A has several bits"),
    ("two drivers", "BUFX2 u_a (.A(d), .Y(q)); BUFX2 u_b (.A(en), .Y(q));", "u_b and u_a drive the same net"),
    ("an inout", None, "the port q is an inout"),
)


def what_ungate_refuses(folder, _):
    _needs("yosys")
    for what, inner, wanted in REFUSALS:
        if inner is None:
            text = "module top (inout q, input d); BUFX2 u_a (.A(d), .Y(q)); endmodule"
        elif wanted is None:
            text, wanted = "(* blackbox *) module OWN (input A, output Y); endmodule\n" + TOP.format("OWN u_own (.A(d), .Y(q));"), "u_own is a OWN, which no library has"
        else:
            text = TOP.format(inner)
        pathlib.Path(folder, "n.blif").unlink(missing_ok=True)
        printed, said = _ungated(folder, text, MORE, status=1)
        assert wanted in said and said.startswith("ungate: n.json: ") and len(said.splitlines()) == 1, (what, said)
        assert not printed and not pathlib.Path(folder, "n.blif").exists(), what
    held(folder, n__json="{}")
    assert "it isn't what yosys' write_json writes" in tool("ungate", "n.json", "--liberty", "cells.lib", "-o", "n.blif", folder=folder, status=1)[1]


# ---- through the flow

def from_cells_to_the_page(folder, program):
    """The example's settings alone: its report is the one that is kept, and Icarus' dumps agree in each net that both have."""
    _needs("yosys")
    copy = shutil.copytree(GATES, pathlib.Path(folder, "gates"), ignore=shutil.ignore_patterns("flow"))
    done = subprocess.run([sys.executable, str(TOOLS / "flow"), "flow.ini", "--program", str(program)], cwd=copy, capture_output=True, text=True, timeout=600)
    assert not done.returncode, done.stdout + done.stderr
    for wanted in ("# ungate", "8 flip-flops, as u_main._50_, take their next value where u_main.u_gate.enable is 1", "run work: 200 cycles, 115 nets agree", "# spfm permanent: 98.94 %, missed"):
        assert wanted in done.stdout, done.stdout
    made, kept = (place.joinpath("design.blif").read_text().splitlines()[1:] for place in (copy / "flow", GATES))
    assert made == kept and copy.joinpath("flow", "report.txt").read_bytes() == GATES.joinpath("report.txt").read_bytes()
    cells = copy / "cells.lib"
    cells.write_text(cells.read_text().replace('"latch_posedge_precontrol"', '"none_posedge"'))
    done = subprocess.run([sys.executable, str(TOOLS / "flow"), "flow.ini", "--program", str(program)], cwd=copy, capture_output=True, text=True, timeout=600)
    assert done.returncode == 3 and "stopped at ungate: ungate: flow/cells.json: " in done.stderr and "none_posedge" in done.stderr, done.stderr
