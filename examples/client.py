#!/usr/bin/env python3
"""Asks hlr one record after another, and waits for each answer: client.py [HLR [OPTION ..]]"""
import shutil
import subprocess
import sys

REPORTS = ("views", "scan", "index", "regions")
program = sys.argv[1:] or ["crates/hlr/out/hlr"]
if not shutil.which(program[0]):
    sys.exit(f"there is no program at {program[0]}: run rt run in crates/hlr")
hlr = subprocess.Popen(program, stdin=subprocess.PIPE, stdout=subprocess.PIPE, text=True)


def line():
    return hlr.stdout.readline().rstrip("\n") or sys.exit("hlr has ended")


def ask(*fields):
    """The lines of the answer: one, or those of a report, which ends with the line that counts the others."""
    print(*fields, sep=",", file=hlr.stdin, flush=True)
    lines = [line()]
    while fields[0] in REPORTS and not lines[-1].startswith((fields[0] + ",", "refused,")):
        lines.append(line())
    return "\n".join(lines)


print(ask("sub", 7, "000000000000007", "0" * 10, "0" * 10, "0" * 20, 1, 268435456))
print(ask("ul", "000000000000007", 536870912))
print(ask("gsd", 7))
print(ask("gsd", 8))
print(ask("views"))
