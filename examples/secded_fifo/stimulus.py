#!/usr/bin/env python3
"""Writes workload.csv: 160 cycles of traffic, in which the FIFO runs full and empty several times."""
import pathlib

rows = ["workload,kind,rst,push,pop," + ",".join(f"in[{i}]" for i in range(8))]
byte = 1
for t in range(160):
    # Bursts of writes, bursts of reads, and both at once.
    phase = t // 6 % 4
    push, pop = [(1, 0), (1, 1), (0, 1), (t % 2, (t + 1) % 2)][phase]
    byte = (byte * 37 + 11) % 256
    bits = ",".join(str(byte >> i & 1) for i in range(8))
    rows.append(f"traffic,mission,{int(t < 2)},{push},{pop},{bits}")
pathlib.Path(__file__).with_name("workload.csv").write_text("\n".join(rows) + "\n")
