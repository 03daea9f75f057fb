#!/usr/bin/env python3
"""Writes workload.csv: 256 cycles with six widths, and a test of the detector."""
import pathlib

rows = ["workload,kind,rst,load," + ",".join(f"duty[{i}]" for i in range(6)) + ",inject[0],inject[1]"]


def row(name, kind, rst, load, duty, inject):
    rows.append(f"{name},{kind},{rst},{load}," + ",".join(str(duty >> i & 1) for i in range(6)) + f",{inject & 1},{inject >> 1}")


widths = [21, 42, 63, 7, 56, 32]
for t in range(256):
    row("drive", "mission", int(t < 2), int(t % 43 == 3), widths[t // 43], 0)
for t in range(24):
    row("self_test", "test", int(t < 2), 0, 0, [0, 1, 2][t // 8])

pathlib.Path(__file__).with_name("workload.csv").write_text("\n".join(rows) + "\n")
