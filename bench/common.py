"""What the benches share: where they work, loads of records, times of the processor, and counts of instructions."""
import os
import subprocess
import sys
import time

HERE = os.path.dirname(os.path.abspath(__file__))
ROOM = os.environ.get("ROOM", "/tmp/bench")
ZONE = ["--zone", "4096"]


def kept(name, write):
    """The path of a file in the room that `write` fills, called with the open file where there is none yet."""
    os.makedirs(ROOM, exist_ok=True)
    path = f"{ROOM}/{name}.csv"
    if not os.path.exists(path):
        with open(path + ".new", "w") as lines:
            write(lines)
        os.rename(path + ".new", path)
    return path


def load_of(*words):
    """The path of what tatp_load.py writes for these words, and how many records that are."""
    told = [sys.executable, f"{HERE}/tatp_load.py", *words]
    path = kept("load_" + "_".join(word.lstrip("-") for word in words), lambda lines: subprocess.run(told, stdout=lines, stderr=subprocess.DEVNULL, check=True))
    with open(path, "rb") as lines:
        return path, sum(1 for _ in lines)


def timed(words, records, answers="/dev/null"):
    """Seconds of the processor (user and system), resident KB and seconds by the clock of a run."""
    start = time.perf_counter()
    with open(records, "rb") as lines, open(answers, "wb") as out:
        child = subprocess.Popen(["/usr/bin/time", "-f", "%M"] + words, stdin=lines, stdout=out, stderr=subprocess.PIPE)
        told = child.stderr.read()
        _, status, used = os.wait4(child.pid, 0)
    child.returncode = status
    if status:
        raise RuntimeError(f"{words}: {told.decode()}")
    return used.ru_utime + used.ru_stime, int(told), time.perf_counter() - start


def same_bytes(paths):
    """Whether files have the same bytes."""
    contents = []
    for path in paths:
        with open(path, "rb") as file:
            contents.append(file.read())
    return len(set(contents)) == 1


def instructions(words, records):
    """Instructions of a run, by callgrind."""
    with open(records, "rb") as lines:
        told = subprocess.run(
            ["valgrind", "--tool=callgrind", "--callgrind-out-file=/dev/null"] + words,
            stdin=lines, stdout=subprocess.DEVNULL, stderr=subprocess.PIPE, text=True, check=True,
        ).stderr
    return int(told.split("Collected : ")[1].split()[0])
