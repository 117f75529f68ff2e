"""Shows the counts of a program `hlr` as bars, while it works through the records of standard input:

    python3 -m hlr.watch [--answers FILE] [--every SECONDS] -- hlr --parts 4 < day.csv

The records go to the program, with `views` in between. Such a look is a record too, of the 1,048,576 that a run takes.
The program's answers go to FILE, without those to looks; without --answers they are dropped. At a terminal the picture
is drawn anew at each look; elsewhere the last one alone is printed. Where NO_COLOR is set, or standard output is no
terminal, there are no colours. The status is the program's, or 128 and the number of the signal that ended it.
"""
import argparse
import collections
import contextlib
import os
import re
import select
import shutil
import signal
import subprocess
import sys
import threading
import time
from typing import BinaryIO, Deque, List, Tuple

# A record, as the program reads it: the quote at the start of a field is closed by one that no other follows.
_FIELD = rb'(?:"(?:[^"]|"")*"(?!")[^,\r\n]*|[^",\r\n][^,\r\n]*)?'
_RECORD = re.compile(_FIELD + rb"(?:," + _FIELD + rb")*[\r\n]")
_MARK = b"\xef\xbb\xbf"

# How a record `views` is spelled: as it is, or its first letters quoted.
_VIEWS = {b"views"} | {b'"' + b"views"[:at] + b'"' + b"views"[at:] for at in range(6)}

# The picture's columns: a title, the first cell, and the number that this one has; and the cells of a title.
_ROWS = 16
_COLUMNS = [("hour", 0, 0, 12), ("hour", 12, 12, 12), ("area", 24, 0, 16), ("zone", 40, 0, 16), ("zone", 56, 16, 16)]
_CELLS = {"hour": range(0, 24), "area": range(24, 40), "zone": range(40, 72)}

# What bars are made of. Two colours: the third one is not posted either, and so has the second one's.
_LEGEND = [("#", "published"), ("+", "not posted"), ("-", "published, but gone")]
_COLOURS = {"#": "\x1b[32;42m", "+": "\x1b[33;43m", "-": "\x1b[30;43m"}


def _bar(published: int, now: int, most: int, width: int) -> str:
    """A bar of at most `width` letters, where `most` has all of them."""
    both, longer = sorted((max(published, 0), max(now, 0)))
    full = -(-longer * width // most)
    part = full if both == longer else min(-(-both * width // most), full - 1)
    return "#" * part + ("+" if now > published else "-") * (full - part)


def _short(count: int) -> str:
    """A count in four places."""
    if count < 10000:
        return str(count)
    return f"{count // 1000}k" if count < 1000000 else f"{count // 1000000}M"


def _coloured(bar: str) -> str:
    return re.sub(r"([-#+])\1*", lambda found: _COLOURS[found.group(1)] + found.group() + "\x1b[0m", bar)


def picture(published: List[int], unposted: List[int], columns: int, colours: bool) -> List[str]:
    """The lines of a picture of 72 cells; none is as long as `columns`, if these are 60 or more."""
    paint = _coloured if colours else str
    width = columns // len(_COLUMNS) - 9
    now = [sum(both) for both in zip(published, unposted)]
    most = {title: max(1, *(max(published[cell], now[cell]) for cell in cells)) for title, cells in _CELLS.items()}
    lines = [" ".join(f"{title:<{width + 8}}" for title, *_ in _COLUMNS)]
    for row in range(_ROWS):
        line = []
        for title, first, number, count in _COLUMNS:
            if row < count:
                cell = first + row
                bar = _bar(published[cell], now[cell], most[title], width)
                told = _short(now[cell]) if bar else ""
                line.append(f"{number + row:2} {paint(bar)}{' ' * (width - len(bar))} {told:>4}")
            else:
                line.append(" " * (width + 8))
        lines.append(" ".join(line))
    lines.append("  ".join(f"{paint(letter)} {meaning}" for letter, meaning in _LEGEND))
    return [line.rstrip() for line in lines]


def _cut(buffer: bytes) -> Tuple[List[bytes], bytes]:
    """The whole records that bytes begin with, and what is left."""
    records, at = [], 0
    while True:
        found = _RECORD.match(buffer, at)
        if found is None:
            return records, buffer[at:]
        records.append(found.group())
        at = found.end()


class Watch:
    """A program, the records that are passed to it, and the picture of its last look."""

    def __init__(self, command: List[str], answers: BinaryIO, every: float) -> None:
        self.program = subprocess.Popen(command, stdin=subprocess.PIPE, stdout=subprocess.PIPE)
        self.answers = answers
        self.every = every
        self.asked: Deque[bool] = collections.deque()  # of each `views` that isn't answered, whether it is a look
        self.looking = False
        self.records = self.looks = 0
        self.lines: List[str] = []
        self.live = sys.stdout.isatty() and os.environ.get("TERM") != "dumb"
        self.colours = self.live and not os.environ.get("NO_COLOR")

    def send(self, records: List[bytes]) -> None:
        """Passes records on."""
        for record in records:
            self.records += len(record) > 1
            if record[:-1] in _VIEWS:
                self.asked.append(False)
        self.write(b"".join(records))

    def look(self) -> None:
        """Asks for the counts."""
        self.looking = True
        self.asked.append(True)
        self.write(b"views\n")

    def write(self, data: bytes) -> None:
        assert self.program.stdin
        self.program.stdin.write(data)
        self.program.stdin.flush()

    def pass_on(self) -> None:
        """Passes standard input to the program, as it comes, and looks at most each `every` seconds."""
        buffer, looked, is_start, is_end, is_stale = b"", 0.0, True, False, False
        while not is_end:
            if select.select([0], [], [], self.every if is_stale else None)[0]:
                came = os.read(0, 65536)
                buffer, is_end = buffer + came, not came
                if is_start and (is_end or len(buffer) >= len(_MARK)):
                    buffer, is_start = buffer[len(_MARK) if buffer.startswith(_MARK) else 0:], False
                if not is_start:
                    records, buffer = _cut(buffer)
                    is_stale = is_stale or bool(records)
                    self.send(records)
            if is_stale and not is_end and not self.looking and time.monotonic() - looked >= self.every:
                self.look()
                looked, is_stale = time.monotonic(), False
        if buffer:  # the end of input ends a record, and a quoted field
            self.send([buffer + (b"\n" if _RECORD.match(buffer + b"\n") else b'"\n')])
        self.look()

    def passing(self) -> None:
        """The thread that passes records on. A program that has ended takes no more."""
        assert self.program.stdin
        try:
            with contextlib.suppress(BrokenPipeError):
                self.pass_on()
        finally:
            with contextlib.suppress(BrokenPipeError):
                self.program.stdin.close()

    def draw(self, cells: List[bytes]) -> None:
        """Draws the answer to a look."""
        published, unposted = [0] * 72, [0] * 72
        for line in cells:
            cell, posted, rest = map(int, line.split(b",")[1:])
            published[cell], unposted[cell] = posted, rest
        self.looks += 1
        columns = max(60, shutil.get_terminal_size().columns)
        self.lines = picture(published, unposted, columns, self.colours)
        self.lines.append(f"{self.records} records, {self.looks} looks")
        if self.live:
            start = "\x1b[H" if self.looks > 1 else "\x1b[2J\x1b[H"
            print(start + "".join(line + "\x1b[K\n" for line in self.lines) + "\x1b[J", end="", flush=True)

    def run(self) -> int:
        """Reads the answers until the program ends, and tells its status."""
        threading.Thread(target=self.passing, daemon=True).start()
        cells: List[bytes] = []
        assert self.program.stdout
        for line in self.program.stdout:
            if line.startswith(b"cell,") and line.count(b",") == 3:
                cells.append(line)
            elif not line.startswith(b"views,"):
                self.answers.write(line)
            elif self.asked.popleft():
                self.draw(cells)
                self.answers.flush()
                self.looking, cells = False, []
            else:
                self.answers.writelines([*cells, line])
                cells = []
        if self.asked and not self.asked[0]:
            self.answers.writelines(cells)
        if self.lines and not self.live:
            print("\n".join(self.lines))
        status = self.program.wait()
        return status if status >= 0 else 128 - status


def main() -> int:
    parser = argparse.ArgumentParser(prog="python3 -m hlr.watch", formatter_class=argparse.RawDescriptionHelpFormatter,
                                     usage="%(prog)s [--answers FILE] [--every SECONDS] -- PROGRAM [OPTION ..]",
                                     description=__doc__)
    parser.add_argument("--answers", metavar="FILE", default=os.devnull, help="where the program's answers go")
    parser.add_argument("--every", metavar="SECONDS", type=float, default=0.1, help="the least time between looks")
    parser.add_argument("command", metavar="PROGRAM", nargs="+", help="the program, with its options")
    given = parser.parse_args()
    if not 0 < given.every < 1e6:
        parser.error("--every is a number of seconds above 0")
    try:
        with open(given.answers, "wb") as answers:
            watch = Watch(given.command, answers, given.every)
            for number in (signal.SIGINT, signal.SIGTERM):
                signal.signal(number, lambda number, _: watch.program.send_signal(number))
            return watch.run()
    except OSError as fault:
        parser.error(str(fault))


if __name__ == "__main__":
    sys.exit(main())
