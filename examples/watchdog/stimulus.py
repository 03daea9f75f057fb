#!/usr/bin/env python3
"""Writes workload.csv: a mission of 128 cycles, and two tests of the watchdog: no kick, and too many."""
import pathlib

rows = ["workload,kind,rst,cold,hold[0],hold[1]"]
for t in range(128):
    rows.append(f"mission,mission,{int(t < 2)},{int(t // 20 % 2 == 0 or t % 37 == 0)},0,0")
for t in range(32):
    rows.append(f"no_kick,test,{int(t < 2)},1,{int(t >= 8)},0")
for t in range(32):
    rows.append(f"early_kick,test,{int(t < 2)},1,0,{int(t in (16, 17))}")
pathlib.Path(__file__).with_name("workload.csv").write_text("\n".join(rows) + "\n")
