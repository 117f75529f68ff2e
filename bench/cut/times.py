#!/usr/bin/env python3
"""Runs the cuts of a tree (main.rt.txt) and of a map (map.rs) in turns, each by cuts and by insertion.
usage: times.py TREE MAP [RUNS [KEYS ..]]     run.sh builds both

For each number of keys: microseconds of the processor a slice and a meld, medians of the runs, the reading of the clock
taken off, the steps, and, up to 100,000 keys, instructions of a slice and a meld together, by callgrind, less those of building
the tree. Callgrind counts a fill of memory by the byte, so the blank nodes of a slice weigh more there than they take."""
import statistics, subprocess, sys

# keys: rounds by cuts, rounds by insertion
ROUNDS = {1_000: (2_000, 200), 100_000: (300, 2), 1_000_000: (100, 1)}


def read_run(words):
    """What a run printed, by name."""
    told = subprocess.run(words, capture_output=True, text=True, check=True).stdout
    return {line.split()[0]: int(line.split()[1]) for line in told.splitlines()}


def instructions(words):
    told = subprocess.run(["valgrind", "--tool=callgrind", "--callgrind-out-file=/dev/null"] + words, capture_output=True, text=True, check=True).stderr
    return int(told.split("Collected : ")[1].split()[0])


def measure(ways, keys, runs):
    found = {name: [] for name in ways}
    for _ in range(runs):
        for name, (program, rounds, way) in ways.items():
            told = read_run([program, str(keys), str(rounds)] + way)
            times = [(told[call] - told["clock"]) / rounds / 1000 for call in ("slice", "meld")]
            steps = [told.get(call, 0) / rounds for call in ("slice_steps", "meld_steps")]
            found[name].append(times + steps)
    for name, (program, rounds, way) in ways.items():
        slice_time, meld_time, slice_steps, meld_steps = (statistics.median(column) for column in zip(*found[name]))
        line = f"{keys} {name}: slice {slice_time:.2f} us, meld {meld_time:.2f} us, steps {slice_steps:.0f} and {meld_steps:.0f}"
        if keys <= 100_000:
            few = max(1, rounds // 20)
            counted = [instructions([program, str(keys), str(turns)] + way) for turns in (few, 0)]
            line += f", instructions {(counted[0] - counted[1]) // few}"
        print(line, flush=True)


def main():
    cut, plain = sys.argv[1:3]
    runs = int(sys.argv[3]) if len(sys.argv) > 3 else 5
    for keys in [int(word) for word in sys.argv[4:]] or list(ROUNDS):
        cuts, insertions = ROUNDS[keys]
        measure(
            {
                "cut": (cut, cuts, []),
                "tree by insertion": (cut, insertions, ["insert"]),
                "split_off, append": (plain, cuts, ["split"]),
                "map by insertion": (plain, insertions, ["insert"]),
            },
            keys,
            runs,
        )


main()
