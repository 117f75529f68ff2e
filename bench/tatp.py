#!/usr/bin/env python3
"""What a command of TATP takes in `hlr`, beside plain Rust (plain.rs), and what loads take with more parts.
usage: tatp.py commands HLR PLAIN PLAIN_HASH [COMMAND ..]     instructions of a command, by callgrind
       tatp.py parts HLR [1,4,16 [RUNS]]                      processor seconds of loads, and instructions of a record
       tatp.py write                                          writes the loads alone
It works in /tmp/bench (ROOM).

Instructions of a command are those of some thousand records of it after a store that is made for it, less those of the
store alone. With parts, zones are so wide that the subscribers fill all 32, so each part has some; seconds are medians
of the runs, in turns."""
import random
import statistics
import sys

from common import ROOM, ZONE, instructions, load_of, timed

LOADS = [("1000", "400000"), ("50000", "500000"), ("100000", "0"), ("100000", "0", "--order", "random")]
COUNTED = ("1000", "40000")


def sub(s):
    return f"sub,{s},{s:015},0101010101,0123456789,00112233445566778899,{s},{1 + s * 4_000_037 % 4_294_967_295}"


def acc(s, kind):
    return f"acc,{s},{kind},3,4,ABC,ABCDE"


def fac(s, kind):
    return f"fac,{s},{kind},1,0,0,ABCDE"


def icf(s, kind, start):
    return f"icf,{s:015},{kind},{start},{start + 8},{s:015}"


def commands():
    """For each command the records of its store, and 20,000 of its own (2,000 of `views`), most of which are done."""
    drawn = random.Random(7)
    few, many, hours = range(1, 1001), range(1, 6668), (0, 8, 16)
    subscribers = [sub(s) for s in few]
    accesses = subscribers + [acc(s, kind) for s in few for kind in range(1, 5)]
    facilities = subscribers + [fac(s, kind) for s in few for kind in range(1, 5)]
    forwardings = facilities + [icf(s, kind, start) for s in few for kind in range(1, 5) for start in hours]
    drawn_of = lambda make: [make(drawn.randint(1, 1000), drawn.randint(1, 4)) for _ in range(20_000)]
    one = [sub(s) for s in many] + [fac(s, 1) for s in many]
    calls = [icf(s, 1, start) for s in many for start in hours][:20_000]
    yield "sub", subscribers, [sub(s) for s in range(1001, 21_001)]
    yield "acc", [sub(s) for s in range(1, 5001)], [acc(s, kind) for s in range(1, 5001) for kind in range(1, 5)]
    yield "fac", [sub(s) for s in range(1, 5001)], [fac(s, kind) for s in range(1, 5001) for kind in range(1, 5)]
    yield "active", forwardings, [f"active,{s},{kind},{up}" for up in (0, 1, 0, 1, 0) for s in few for kind in range(1, 5)]
    yield "number", subscribers, [f"number,{s},{turn * 1000 + s:015}" for turn in range(1, 21) for s in few]
    yield "gsd", subscribers, drawn_of(lambda s, kind: f"gsd,{s}")
    yield "gnd", forwardings, drawn_of(lambda s, kind: f"gnd,{s},{kind},{drawn.choice(hours)},{drawn.randint(1, 24)}")
    yield "gad", accesses, drawn_of(lambda s, kind: f"gad,{s},{kind}")
    yield "usd", facilities, drawn_of(lambda s, kind: f"usd,{s},{kind},{drawn.randint(0, 1)},{drawn.randrange(256)}")
    yield "ul", subscribers, drawn_of(lambda s, kind: f"ul,{s:015},{drawn.randint(1, 4_294_967_295)}")
    yield "icf", one, calls
    yield "views", accesses, ["views"] * 2000
    yield "dcf", one + calls, [f"dcf,{s:015},1,{start}" for s in many for start in hours][:20_000]


def counted(program, records):
    path = f"{ROOM}/counted.csv"
    with open(path, "w") as lines:
        lines.write("\n".join(records) + "\n")
    return instructions([program] + ZONE, path)


def print_commands(programs, wanted):
    print("| command | hlr | BTreeMap | hash maps | hlr / BTreeMap | hlr / hash maps |\n|---|---|---|---|---|---|")
    for name, store, records in commands():
        if wanted and name not in wanted:
            continue
        hlr, ordered, hashed = ((counted(program, store + records) - counted(program, store)) // len(records) for program in programs)
        print(f"| `{name}` | {hlr:,} | {ordered:,} | {hashed:,} | {hlr / ordered:.2f} | {hlr / hashed:.2f} |", flush=True)


def words_of(program, parts, load):
    """The program with so many parts, and zones so wide that the load's subscribers fill all 32."""
    return [program, "--zone", str(-(-int(load[0]) // 32)), "--parts", parts]


def print_parts(program, parts, runs):
    print("| load | " + " | ".join(f"{number} part" + "s" * (number != "1") for number in parts) + " |\n" + "|---" * (len(parts) + 1) + "|")
    for load in LOADS:
        records, _ = load_of(*load)
        found = {number: [] for number in parts}
        for _ in range(runs):
            for number in parts:
                found[number].append(timed(words_of(program, number, load), records)[0])
        cells = [f"{statistics.median(took):.3f}" for took in found.values()]
        print(f"| {' '.join(load)} | " + " | ".join(cells) + " |", flush=True)
    records, count = load_of(*COUNTED)
    cells = [f"{instructions(words_of(program, number, COUNTED), records) // count:,}" for number in parts]
    print(f"| {' '.join(COUNTED)}: instructions a record | " + " | ".join(cells) + " |")


def main():
    what, *words = sys.argv[1:] or ["help"]
    if what == "commands" and len(words) >= 3:
        return print_commands(words[:3], words[3:])
    if what == "parts" and words:
        return print_parts(words[0], (words + ["1,4,16"])[1].split(","), int(words[2]) if len(words) > 2 else 5)
    if what == "write":
        return [load_of(*load) for load in LOADS + [COUNTED]]
    sys.exit(__doc__)


main()
