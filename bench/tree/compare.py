#!/usr/bin/env python3
"""Runs two benchmark programs in turn and prints ns per operation: best and median of the runs.
usage: compare.py RUNS NAME=PROGRAM NAME=PROGRAM [KEYS:ROUNDS ..]"""
import statistics, subprocess, sys

runs = int(sys.argv[1])
programs = [word.split("=") for word in sys.argv[2:4]]
sizes = [tuple(map(int, word.split(":"))) for word in sys.argv[4:]] or [(1000, 4000), (100000, 20), (1000000, 1)]
OPERATIONS = ["get", "replace", "insert", "remove", "keys"]
print("keys operation " + " ".join(f"{name} best median" for name, _ in programs) + " ratio of bests, of medians")
for keys, rounds in sizes:
    times = {name: {op: [] for op in OPERATIONS} for name, _ in programs}
    sums = set()
    for _ in range(runs):
        for name, path in programs:
            out = subprocess.run([path, str(keys), str(rounds), "grdk"], capture_output=True, text=True, check=True).stdout
            found = dict(line.split() for line in out.splitlines())
            sums.add(found["sum"])
            for op in OPERATIONS:
                times[name][op].append(int(found[op]) / (keys * rounds))
    assert len(sums) == 1, sums
    for op in OPERATIONS:
        bests = [min(times[name][op]) for name, _ in programs]
        medians = [statistics.median(times[name][op]) for name, _ in programs]
        cells = " ".join(f"{b:8.1f} {m:8.1f}" for b, m in zip(bests, medians))
        print(f"{keys:8} {op:8} {cells}  {bests[0] / bests[1]:.2f} {medians[0] / medians[1]:.2f}", flush=True)
