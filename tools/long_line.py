#!/usr/bin/env python3
"""Gives the program one line of so many bytes, and views: how it ends, its answers, and what memory and time it took.

    python3 tools/long_line.py crates/hlr/out/hlr BYTES BYTE [MOST_KB [OPTION ..]]

BYTE is what the line is of, behind 'gsd,'. MOST_KB is how much address space the program may have (0: any).
"""
import resource
import subprocess
import sys
import time

program, count, byte = sys.argv[1], int(sys.argv[2]), sys.argv[3].encode()
most, options = int(sys.argv[4]) * 1024 if len(sys.argv) > 4 else 0, sys.argv[5:]
pipe = subprocess.PIPE
limit = (lambda: resource.setrlimit(resource.RLIMIT_AS, (most, most))) if most else None
start = time.monotonic()
run = subprocess.Popen([program, *options], stdin=pipe, stdout=pipe, stderr=pipe, preexec_fn=limit)
piece = byte * 65536
try:
    run.stdin.write(b"gsd,")
    for at in range(0, count - 4, len(piece)):
        run.stdin.write(piece[: count - 4 - at])
    run.stdin.write(b"\nviews\n")
except BrokenPipeError:
    pass
said, complaint = run.communicate()
used = resource.getrusage(resource.RUSAGE_CHILDREN)
print(f"status {run.returncode}, {said.decode()!r}, {complaint.decode()!r}")
seconds = time.monotonic() - start
worked = used.ru_utime + used.ru_stime
print(f"{count} bytes: at most {used.ru_maxrss} KB, {seconds:.1f} s, {worked:.1f} s of processor")
