#!/usr/bin/env python3
"""Runs `rt ci` and prints how many processor and wall minutes each crate took, phase by phase.

    python3 tools/ci_times.py [COMMAND ..]     at the top of a clean clone; without a command it runs `rt ci`

The phases are the proof of a crate, the proof of its tests, and its must-fail edits; `rt ci` runs several of them side by
side. It looks at the running provers some five times a second, so a crate's number may be short by some percent; the sum
in the last line is the system's own count of all that the command and its children used, programs and tests too.
"""
import os
import resource
import subprocess
import sys
import time

TICKS = os.sysconf("SC_CLK_TCK")
PHASES = ["proof", "tests", "edits"]


def words_of(pid):
    """The words of a process's command, and the folder that it works in."""
    with open(f"/proc/{pid}/cmdline", "rb") as it:
        words = it.read().decode(errors="replace").split("\0")
    return words, os.readlink(f"/proc/{pid}/cwd")


def numbers_of(pid):
    """When a process began, by which it is told from others of its number, its parent, and the seconds that it and its
    ended children have used."""
    with open(f"/proc/{pid}/stat", encoding="utf-8", errors="replace") as it:
        fields = it.read().rsplit(")", 1)[1].split()
    return fields[19], fields[1], sum(int(n) for n in fields[11:15]) / TICKS


def task_of(words, folder):
    """The crate and the phase that a prover works on, or None for another process."""
    if not words or not words[0].endswith("/rattle") or "--crate-name" not in words:
        return None
    crate = words[words.index("--crate-name") + 1]
    if "rt-edit-" in folder:
        return crate, "edits"
    return crate, "tests" if any(word.endswith("_tests.o") for word in words) else "proof"


def first_prover(pid, running, tasks, command):
    """The topmost prover that a process is or was started by, or None where the command didn't start it."""
    first = None
    while pid in running:
        if tasks.get((pid, running[pid][0])):
            first = pid
        if pid == command:
            return first
        pid = running[pid][1]
    return None


def look(command, used, tasks, spans):
    """Notes what the command's provers have used so far, each first one with those below it, and when each task was seen."""
    running = {}
    for pid in filter(str.isdigit, os.listdir("/proc")):
        try:
            running[pid] = numbers_of(pid)
            key = pid, running[pid][0]
            tasks[key] = tasks.get(key) or task_of(*words_of(pid))
        except OSError:
            continue
    sums = {}
    for pid, (_, _, seconds) in running.items():
        first = first_prover(pid, running, tasks, command)
        if first:
            sums[first] = sums.get(first, 0) + seconds
    for pid, seconds in sums.items():
        task = tasks[pid, running[pid][0]]
        used[pid, running[pid][0]] = seconds, task
        spans[task] = spans.get(task, (time.time(),))[0], time.time()


def table(used, spans):
    """The lines of the table: a crate each, with its minutes by phase."""
    seconds = {}
    for used_by, task in used.values():
        seconds[task] = seconds.get(task, 0) + used_by
    yield "| crate | " + " | ".join(f"{it}: processor (wall)" for it in PHASES) + " | all |"
    yield "|---" * (len(PHASES) + 2) + "|"
    for crate in dict.fromkeys(crate for crate, _ in seconds):
        row = []
        for phase in PHASES:
            first, last = spans.get((crate, phase), (0, 0))
            row.append(f"{seconds.get((crate, phase), 0) / 60:.1f} ({(last - first) / 60:.1f})")
        total = sum(seconds.get((crate, phase), 0) for phase in PHASES)
        yield f"| `{crate}` | " + " | ".join(row) + f" | {total / 60:.1f} |"


def main():
    used, tasks, spans, begun = {}, {}, {}, time.time()
    command = subprocess.Popen(sys.argv[1:] or ["rt", "ci"])
    while command.poll() is None:
        look(str(command.pid), used, tasks, spans)
        time.sleep(0.2)
    spent = resource.getrusage(resource.RUSAGE_CHILDREN)
    print("\n" + "\n".join(table(used, spans)))
    print(f"\n{(spent.ru_utime + spent.ru_stime) / 60:.1f} processor minutes in all, {(time.time() - begun) / 60:.1f} by the clock")
    return command.returncode


if __name__ == "__main__":
    sys.exit(main())
