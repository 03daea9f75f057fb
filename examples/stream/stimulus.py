#!/usr/bin/env python3
"""Writes workload.csv: two cycles of reset, then 240 cycles in which a byte comes in one of four."""
import pathlib

rows = ["workload,kind,rst,accept," + ",".join(f"in[{i}]" for i in range(8))]
state = 26262
for t in range(242):
    state = (state * 1103515245 + 12345) % 2**31
    rows.append(f"traffic,mission,{int(t < 2)},{int(t >= 2 and t % 4 == 2)}," + ",".join(str(state >> 16 + i & 1) for i in range(8)))

pathlib.Path(__file__).with_name("workload.csv").write_text("\n".join(rows) + "\n")
