#!/usr/bin/env python3
"""Writes workload.csv: a drive of 240 cycles, and a test of the comparator."""
import pathlib

BITS = [f"sensor[{i}]" for i in range(8)]
rows = ["workload,kind,rst,inject," + ",".join(BITS)]


def row(name, kind, rst, inject, sensor):
    rows.append(f"{name},{kind},{rst},{inject}," + ",".join(str(sensor >> i & 1) for i in range(8)))


# The speed jumps and drifts; the loop of the program takes 13 or 15 cycles and samples it once.
speed = 0
for t in range(240):
    if t % 9 == 0:
        speed = (speed * 5 + 77) % 256
    row("drive", "mission", int(t < 2), 0, speed)

# Each bit of the comparator's input is turned once, while both cores do the same.
for t in range(60):
    row("self_test", "test", int(t < 2), int(8 <= t < 50), 20 + t // 13)

pathlib.Path(__file__).with_name("workload.csv").write_text("\n".join(rows) + "\n")
