#!/usr/bin/env python3
"""Writes workload.csv: eight words, each written and held for some cycles, and a test in which the parity is turned."""
import pathlib

rows = ["workload,kind,write,d0,d1,d2,d3,turn"]


def row(name, kind, write, word, turn):
    rows.append(f"{name},{kind},{write}," + ",".join(str(word >> i & 1) for i in range(4)) + f",{turn}")


for t in range(40):
    row("words", "mission", int(t % 5 == 0), [5, 10, 15, 0, 6, 9, 1, 14][t // 5], 0)
for t in range(6):
    row("self_test", "test", int(t % 2 == 0), [3, 3, 7, 7, 8, 8][t], int(t < 4))

pathlib.Path(__file__).with_name("workload.csv").write_text("\n".join(rows) + "\n")
