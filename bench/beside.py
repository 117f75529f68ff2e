#!/usr/bin/env python3
"""`hlr` beside plain Rust that is tuned by hand (plain.rs, over BTreeMap and over hash maps) and SQLite (sqlite.c): the same
records through each, in turns.
usage: beside.py HLR PLAIN PLAIN_HASH SQLITE [RUNS]     at the repository's top; it works in /tmp/bench (ROOM)
       beside.py write                                  writes the loads alone

It prints processor seconds, user and system, medians of the runs, and resident KB of the same runs. All four have to answer
the same bytes, which is looked at in a first turn that isn't counted; SQLite runs in that turn alone. At last milliseconds of
a give and a take of half of 100,000 subscribers."""
import statistics
import sys

from common import ROOM, ZONE, kept, load_of, same_bytes, timed

FEW, MANY = ("1000", "400000"), ("50000", "500000")
LOADS = {
    "1,000, `gsd`": FEW + ("--only", "gsd"),
    "1,000, `ul`": FEW + ("--only", "ul"),
    "1,000, mix": FEW,
    "50,000, `gsd`": MANY + ("--only", "gsd"),
    "50,000, `ul`": MANY + ("--only", "ul"),
    "50,000, mix": MANY,
    "100,000, rows alone": ("100000", "0"),
    "100,000, rows alone, drawn order": ("100000", "0", "--order", "random"),
}
PAIRS = 10


def moved():
    """The load of 100,000 subscribers, and half of them given and taken back some times."""
    rows, _ = load_of("100000", "0")
    with open(rows) as lines:
        return rows, kept("moved", lambda out: out.write(lines.read() + "give,0,high,50001\ntake,1,0\n" * PAIRS))


def measure(programs, words, runs):
    """What each program used in each of its runs."""
    records, _ = load_of(*words)
    answers = [f"{ROOM}/answers{place}" for place, _ in enumerate(programs)]
    first = [timed([program] + ZONE, records, path) for program, path in zip(programs, answers)]
    assert same_bytes(answers), "the answers differ"
    found = [[] for _ in programs[:3]] + [first[3:]]
    for _ in range(runs):
        for place, program in enumerate(programs[:3]):
            found[place].append(timed([program] + ZONE, records))
    return found


def median(results, column):
    return statistics.median(result[column] for result in results)


def print_loads(programs, runs):
    memory = []
    print("| processor seconds | hlr | BTreeMap | hash maps | SQLite | BTreeMap / hlr | hash maps / hlr |\n|---|---|---|---|---|---|---|")
    for name, words in LOADS.items():
        found = measure(programs, words, runs)
        took = [median(results, 0) for results in found]
        cells = [f"{seconds:.3f}" for seconds in took[:3]] + [f"{took[3]:.1f}", f"{took[1] / took[0]:.2f}", f"{took[2] / took[0]:.2f}"]
        print(f"| {name} | " + " | ".join(cells) + " |", flush=True)
        memory.append((name, [median(results, 1) for results in found]))
    print("\n| resident KB | hlr | BTreeMap | hash maps | SQLite |\n|---|---|---|---|---|")
    for name, sizes in memory:
        print(f"| {name} | " + " | ".join(f"{size:,.0f}" for size in sizes) + " |")


def print_moved(programs, runs):
    rows, pairs = moved()
    found = [[] for _ in programs]
    for _ in range(runs):
        for place, program in enumerate(programs):
            found[place].append(timed([program] + ZONE, pairs)[0] - timed([program] + ZONE, rows)[0])
    print("\n| milliseconds | hlr | BTreeMap | hash maps |\n|---|---|---|---|")
    cells = [f"{statistics.median(took) / PAIRS * 1000:.1f}" for took in found]
    print("| half of 100,000 subscribers given and taken back | " + " | ".join(cells) + " |", flush=True)


def main():
    if sys.argv[1:] == ["write"]:
        for words in LOADS.values():
            load_of(*words)
        return moved()
    programs, runs = sys.argv[1:5], int(sys.argv[5]) if len(sys.argv) > 5 else 7
    print_loads(programs, runs)
    print_moved(programs[:3], min(runs, 3))


main()
