#!/usr/bin/env python3
"""Millions of calls a second from C of libhlr_c.a, and how many times as fast it is as other stores behind the same calls: four
maps of C++ (bench/library_plain.cc) and SQLite in memory (bench/library_sqlite.c). Medians of some rounds in turns; SQLite makes
a tenth of the calls. A call for many answers 16 questions, each of which counts.
usage: library.py calls [ROUNDS [SUBSCRIBERS ..]]     5 rounds with 1,000, 100,000 and 1,000,000 subscribers, who have the
                                                      rows of TATP, some ten each
       library.py sparse [ROUNDS [SUBSCRIBERS ..]]    the same with one row of each kind a subscriber
       library.py owners [ROUNDS [SUBSCRIBERS ..]]    threads that each have a part, and threads that share a handle by a lock
       library.py network [ROUNDS [SUBSCRIBERS ..]]   registers of a whole network, with 1,000,000 and 12,000,000
                                                      subscribers, which take 7 GB of memory; the smallest one also
                                                      with one row of each kind a subscriber, and subscribers alone

At the repository's top, once `rt lib --cpu x86-64` ran in crates/hlr_c; LIBRARY is another libhlr_c.a. The maps of absl want
Debian's libabsl-dev, and SQLite libsqlite3-dev: without them these columns are named as skipped."""
import os
import statistics
import subprocess
import sys
import tempfile

HERE = os.path.dirname(os.path.abspath(__file__))
HEADER = f"-I{HERE}/../crates/hlr_c"
LIBRARY = os.environ.get("LIBRARY", f"{HERE}/../crates/hlr_c/out/libhlr_c.a")
MAPS = {"std::map": [], "absl::btree_map": [], "std::unordered_map": [],
        "absl::flat_hash_map": ["-labsl_raw_hash_set", "-labsl_hash", "-labsl_city", "-labsl_low_level_hash", "-labsl_hashtablez_sampler"]}
CALLS = 1_000_000
NETWORK_CALLS = ["gsd", "gad", "gnd", "ul"]
NETWORK_WALKS = ["pages", "scan", "divide", "close"]
NETWORK_ORDERS = [["rising"], ["random"]]
NETWORK_POPULATIONS = [["rising", "sparse"], ["random", "sparse"], ["rising", "alone"]]


def run(*words):
    subprocess.run(words, check=True, stderr=subprocess.DEVNULL)


def build_over_hlr(source, program):
    """Builds a program of C over the library."""
    kit = os.path.dirname(subprocess.check_output(["rt", "doc"], text=True).strip())
    run("gcc", "-O2", HEADER, source, LIBRARY, f"{kit}/c/liblibc_c.a", "-lpthread", "-o", program)
    return program


def build_all(room):
    """The programs that could be built, by the names of their stores."""
    programs = {"hlr": build_over_hlr(f"{HERE}/library.c", f"{room}/hlr")}
    run("gcc", "-O2", HEADER, "-c", f"{HERE}/library.c", "-o", f"{room}/calls.o")
    wanted = {name: ["g++", "-std=c++17", "-O3", f"-DMAP={place}", f"{HERE}/library_plain.cc", f"{room}/calls.o", *libraries]
              for place, (name, libraries) in enumerate(MAPS.items(), 1)}
    wanted["SQLite"] = ["gcc", "-O2", f"{HERE}/library_sqlite.c", f"{room}/calls.o", "-lsqlite3"]
    for name, words in wanted.items():
        program = f"{room}/{name.replace(':', '_')}"
        try:
            run(*words, HEADER, "-o", program)
            programs[name] = program
        except subprocess.CalledProcessError:
            print(f"{name} is skipped: its library isn't there")
    return programs


def speeds_of(program, subscribers, calls, population):
    """Calls a second by the name of the call, and the sum of what was answered."""
    told = subprocess.run([program, str(subscribers), str(calls), *population], check=True, capture_output=True, text=True)
    return {call: float(speed) for call, _, speed in map(str.split, told.stdout.splitlines())}, told.stderr


def measure(programs, subscribers, rounds, population):
    """The medians of all rounds, by store and call."""
    taken = {name: {} for name in programs}
    for turn in range(rounds):
        sums = set()
        for name, program in programs.items():
            if name == "SQLite" and turn > 0:
                continue
            speeds, told = speeds_of(program, subscribers, CALLS // 10 if name == "SQLite" else CALLS, population)
            if name != "SQLite":
                sums.add(told)
            for call, speed in speeds.items():
                taken[name].setdefault(call, []).append(speed)
        assert len(sums) == 1, "the answers differ"
    return {name: {call: statistics.median(speeds) for call, speeds in calls.items()} for name, calls in taken.items()}


def compare(room, subscribers, rounds, *population):
    """Prints each call's speed, and how many times that of each other store it is."""
    programs = build_all(room)
    for size in subscribers:
        medians = measure(programs, size, rounds, population)
        others = [name for name in programs if name != "hlr"]
        print(f"\n| {size:,} subscribers | hlr, millions a second | " + " | ".join(f"`{name}`" for name in others) + " |")
        print("|---" * (len(others) + 2) + "|")
        for call, speed in medians["hlr"].items():
            print(f"| `{call}` | {speed / 1e6:.2f} | " + " | ".join(f"{speed / medians[name][call]:.2f}" for name in others) + " |")


def compare_sparse(room, subscribers, rounds):
    """The same with one row of each kind a subscriber."""
    compare(room, subscribers, rounds, "sparse")


def compare_owners(room, subscribers, rounds):
    """Prints the speeds of owners, and of threads that share a handle, beside that of one thread with the handle alone."""
    program = build_over_hlr(f"{HERE}/owners.c", f"{room}/owners")
    print("| subscribers, load | one handle | 1 part | 2 | 3 | 4 | 2 with a lock | 3 | 4 |\n|---|---|---|---|---|---|---|---|---|")
    for size in subscribers:
        taken = {}
        for _ in range(rounds):
            told = subprocess.run([program, str(size), str(4 * CALLS), "4"], check=True, capture_output=True, text=True).stdout
            for load, threads, owners, shared in map(str.split, told.splitlines()):
                taken.setdefault((load, int(threads)), []).append((float(owners), float(shared)))
        medians = {key: [statistics.median(speeds) for speeds in zip(*pairs)] for key, pairs in taken.items()}
        for load in sorted({load for load, _ in medians}):
            owners, shared = zip(*(medians[load, threads] for threads in range(1, 5)))
            speeds = [shared[0], *owners, *shared[1:]]
            print(f"| {size:,}, {load} | " + " | ".join(f"{speed / 1e6:.1f}" for speed in speeds) + " |")


def measure_network(room, subscribers, rounds):
    """Prints the bytes of a subscriber, and the processor's time of a load, of calls, and of what walks over rows."""
    program = build_over_hlr(f"{HERE}/network.c", f"{room}/network")
    heads = ["subscribers, order", "bytes each", "load, s", *(f"`{call}`, µs" for call in NETWORK_CALLS)]
    heads += [f"{walk}, s" for walk in NETWORK_WALKS]
    print("| " + " | ".join(heads) + " |\n" + "|---" * len(heads) + "|")
    for size in subscribers:
        for order in NETWORK_ORDERS + (NETWORK_POPULATIONS if size == min(subscribers) else []):
            taken = {}
            for _ in range(rounds):
                told = subprocess.run([program, str(size), *order], check=True, capture_output=True, text=True).stdout
                for measure, value in map(str.split, told.splitlines()):
                    taken.setdefault(measure, []).append(float(value))
            medians = {measure: statistics.median(values) for measure, values in taken.items()}
            cells = [", ".join([f"{size:,}", *order]), f"{medians['bytes']:.0f}", f"{medians['load']:.1f}"]
            cells += [f"{medians[call] * 1e6:.2f}" for call in NETWORK_CALLS]
            cells += [f"{medians[walk]:.2f}" for walk in NETWORK_WALKS]
            print("| " + " | ".join(cells) + " |", flush=True)


def main(what, rounds=None, *sizes):
    sizes_of_calls = ("1000", "100000", "1000000")
    measures = {"calls": (compare, "5", sizes_of_calls), "sparse": (compare_sparse, "5", sizes_of_calls), "owners": (compare_owners, "5", sizes_of_calls),
                "network": (measure_network, "1", ("1000000", "12000000"))}
    measure, usual_rounds, usual_sizes = measures[what]
    with tempfile.TemporaryDirectory() as room:
        measure(room, [int(size) for size in sizes or usual_sizes], int(rounds or usual_rounds))


main(*sys.argv[1:])
