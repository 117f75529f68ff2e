#!/usr/bin/env python3
"""`hlr --threads` beside `hlr` on one thread, with as many parts: nanoseconds a record by the clock, those of the rows taken off.
usage: threads.py HLR [RUNS [PARTS]]     3 runs and 3 parts; it works in /tmp/bench (ROOM)
       threads.py write                  writes the loads alone

`gsd` and `ul` have subscribers alone; `mix` has 35 `gsd`, 35 `gad` and 14 `ul` of 84, and an access for each subscriber. A
run has at most 1,048,576 records, rows and all, so the greatest mix has 400,000 subscribers and 240,000 transactions. Both have to
answer the same bytes, which is looked at in a first turn that isn't counted."""
import random
import statistics
import sys

from common import ROOM, kept, same_bytes, timed

MIX = ["gsd"] * 35 + ["gad"] * 35 + ["ul"] * 14
LOADS = [(size, kind) for size in (1_000, 50_000, 100_000) for kind in ("gsd", "ul", "mix")] + [(400_000, "mix"), (500_000, "gsd"), (500_000, "ul")]


def count_of(load):
    return 240_000 if load == (400_000, "mix") else 500_000


def rows(subscribers, with_access):
    """All subscribers before the first access: a `sub` brings its part home, and an `acc` starts the part's worker again."""
    for s_id in range(1, subscribers + 1):
        yield f"sub,{s_id},{s_id:015d},0101010101,0123456789,00112233445566778899,1,{1 + s_id * 7 % 4_000_000_000}\n"
    for s_id in range(1, subscribers + 1 if with_access else 1):
        yield f"acc,{s_id},1,3,4,ABC,ABCDE\n"


def record(kind, s_id, draw):
    if kind == "gsd":
        return f"gsd,{s_id}\n"
    if kind == "gad":
        return f"gad,{s_id},1\n"
    return f"ul,{s_id:015d},{draw.randrange(1, 4_000_000_000)}\n"


def write(lines, subscribers, kind, count):
    draw = random.Random(7)
    lines.writelines(rows(subscribers, kind == "mix"))
    kinds = MIX if kind == "mix" else [kind]
    lines.writelines(record(draw.choice(kinds), draw.randrange(1, subscribers + 1), draw) for _ in range(count))


def files(subscribers, kind):
    """The rows with the records, and the rows alone."""
    counts = (count_of((subscribers, kind)), 0)
    return [kept(f"threads_{subscribers}_{kind}_{count}", lambda lines: write(lines, subscribers, kind, count)) for count in counts]


def main(hlr, runs="3", parts="3"):
    if hlr == "write":
        return [files(*load) for load in LOADS]
    print("| subscribers | one thread | with threads | times |\n|---|---|---|---|")
    for subscribers, kind in LOADS:
        whole, bare = files(subscribers, kind)
        common = [hlr, "--parts", parts, "--zone", str(-(-subscribers // 32))]
        ways = [common, common + ["--threads"]]
        answers = [f"{ROOM}/answers{place}" for place, _ in enumerate(ways)]
        for words, path in zip(ways, answers):
            timed(words, whole, path)
        assert same_bytes(answers), "the answers differ"
        took = [[], []]
        for _ in range(int(runs)):
            for way, words in enumerate(ways):
                took[way].append(timed(words, whole)[2] - timed(words, bare)[2])
        count = count_of((subscribers, kind))
        alone, threads = (statistics.median(it) * 1e9 / count for it in took)
        print(f"| {subscribers:,}, `{kind}` | {alone:.0f} | {threads:.0f} | {alone / threads:.2f} |", flush=True)


if __name__ == "__main__":
    main(*sys.argv[1:])
