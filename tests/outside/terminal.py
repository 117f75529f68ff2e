#!/usr/bin/env python3
"""Types to a program at a terminal, and prints what it writes and how it ends: terminal.py PROGRAM [OPTION ..]"""
import os
import pty
import signal
import sys
import termios


def session(*typed):
    """What the program writes, and how it ends, where keys are typed as soon as what stands beside them has come."""
    child, terminal = pty.fork()
    if child == 0:
        # A shell ignores it in what it starts in the background.
        signal.signal(signal.SIGINT, signal.SIG_DFL)
        os.execv(sys.argv[1], sys.argv[1:])
    modes = termios.tcgetattr(terminal)
    modes[1] &= ~termios.OPOST
    modes[3] &= ~termios.ECHO
    termios.tcsetattr(terminal, termios.TCSANOW, modes)
    seen = b""
    for awaited, keys in typed:
        while awaited not in seen:
            seen += os.read(terminal, 4096)
        os.write(terminal, keys)
    try:
        while more := os.read(terminal, 4096):
            seen += more
    except OSError:
        pass
    return seen.decode(), os.waitstatus_to_exitcode(os.waitpid(child, 0)[1])


signal.alarm(20)
print(session((b"", b"views\n"), (b"views,0\n", b"\4")))
print(session((b"", b"views\ngs\4"), (b"views,0\n", b"\4"), (b"Syntax\n", b"\4")))
print(session((b"", b"views\ngsd,7\ngs"), (b"refused,3,NoSubscriber\n", b"\3")))
