"""Tests of hlr.watch over the program that HLR_PROGRAM has, at a pseudo terminal of 80 columns and without one."""
import fcntl
import os
import pathlib
import pty
import re
import signal
import struct
import subprocess
import sys
import tempfile
import termios
import time
import unittest

from hlr import watch

PYTHON = pathlib.Path(__file__).resolve().parent.parent
EXAMPLES = PYTHON.parent / "examples"
PROGRAM = os.environ["HLR_PROGRAM"]
COLOUR = re.compile(r"\x1b\[[0-9;]*m")
ESCAPE = re.compile(r"\x1b\[[0-9;]*[A-Za-z]")


def command(*words, options=()):
    return [sys.executable, "-m", "hlr.watch", *options, "--", *(words or [PROGRAM, "--zone", "4"])]


def environment(**more):
    found = {**os.environ, "PYTHONPATH": str(PYTHON), "PYTHONDONTWRITEBYTECODE": "1", "TERM": "xterm", **more}
    for name in {"NO_COLOR", "COLUMNS", "LINES"} - set(more):
        found.pop(name, None)
    return found


def answered(records):
    """What the program itself answers."""
    return subprocess.run([PROGRAM, "--zone", "4"], input=records, stdout=subprocess.PIPE, timeout=60).stdout


class Terminal:
    """A watch at a terminal, to which records are written by a pipe."""

    def __init__(self, columns, *words, options=(), **more):
        self.screen, inner = pty.openpty()
        fcntl.ioctl(inner, termios.TIOCSWINSZ, struct.pack("4H", 24, columns, 0, 0))
        self.watch = subprocess.Popen(command(*words, options=options), env=environment(**more), stdin=subprocess.PIPE,
                                      stdout=inner, stderr=subprocess.PIPE, bufsize=0)
        os.close(inner)
        self.seen = ""

    def read_until(self, text):
        while text is None or text not in self.seen:
            try:
                came = os.read(self.screen, 65536)
            except OSError:
                came = b""
            if not came:
                return
            self.seen += came.decode()

    def ended(self):
        """All that it wrote, and how it ended."""
        self.watch.stdin.close()
        self.read_until(None)
        err = self.watch.stderr.read().decode()
        self.watch.stderr.close()
        os.close(self.screen)
        return self.seen.replace("\r\n", "\n"), err, self.watch.wait(timeout=60)


class Drawn(unittest.TestCase):
    """The lines of a picture."""

    def test_bars(self):
        for told, bar in (((0, 0, 9, 7), ""), ((9, 9, 9, 7), "#######"), ((0, 9, 9, 7), "+++++++"),
                          ((9, 0, 9, 7), "-------"), ((4, 8, 8, 8), "####++++"), ((8, 4, 8, 8), "####----"),
                          ((1, 1000, 1000, 7), "#++++++"), ((999, 1000, 1000, 7), "######+"), ((1, 1, 1000, 7), "#"),
                          ((0, 1, 1000, 7), "+"), ((-3, 2, 2, 2), "++")):
            self.assertEqual(watch._bar(*told), bar, told)

    def test_widths(self):
        for columns in (60, 79, 80, 81, 200):
            lines = watch.picture([352321536] * 72, [-1] * 72, columns, False)
            self.assertEqual(len(lines), 18)
            self.assertLess(max(map(len, lines)), columns)
            coloured = watch.picture([352321536] * 72, [-1] * 72, columns, True)
            self.assertNotEqual(coloured, lines)
            self.assertEqual([COLOUR.sub("", line) for line in coloured], lines)


class Ends(unittest.TestCase):
    """Without a terminal: the last picture, the answers, and the status."""

    def setUp(self):
        folder = tempfile.TemporaryDirectory()
        self.addCleanup(folder.cleanup)
        self.answers = pathlib.Path(folder.name) / "answers"

    def run_watch(self, records, *words, every="0.000001"):
        ended = subprocess.run(command(*words, options=["--answers", str(self.answers), "--every", every]),
                               input=records, env=environment(), stdout=subprocess.PIPE, stderr=subprocess.PIPE,
                               timeout=60)
        return ended.stdout.decode(), ended.stderr.decode(), ended.returncode

    def test_picture(self):
        records = (EXAMPLES / "forwarded.csv").read_bytes()
        out, err, status = self.run_watch(records.replace(b"active,7,2,0\n", b"post,0,3\n"))
        lines = out.splitlines()
        self.assertEqual((len(lines), err, status), (19, "", 0))
        self.assertNotIn("\x1b", out)
        self.assertEqual(lines[9], " 8 #######    1 20               8               8              24")
        self.assertEqual(lines[12][:16].rstrip(), "11 +++++++    1")
        self.assertEqual(lines[2][32:], " 1 +++++++    1  1 +++++++    3 17")
        self.assertEqual(lines[17], "# published  + not posted  - published, but gone")
        self.assertRegex(lines[18], r"\A8 records, [1-9]\d* looks\Z")

    def test_answers(self):
        row = b"sub,7,000000000000007,0000000000,0000000000,00000000000000000000,1,5"
        for records in (b"", b"\n", b"v", b"views", b'"', b'"views""', b'""\n"views', b'views\n"views\n',
                        b'"views"\n"vie"ws\n""views\rviews\r\nviews,1\nvi"ews"\n"views\n"\n',
                        b'gsd,"7\nviews\n"\ngsd,7\n', b'gsd,"7\nviews\n', b'gsd,7"\nviews\n"\n', b'"a""b\nviews\n',
                        b"\xff\0,\n\xef\xbb\xbfviews\n", b'\xef\xbb\xbf"gsd","7"\n',
                        b"\xef\xbb\xbf" + row + b"\rviews\rscan\rgsd,7",
                        row + b"\nscan\nindex\nviews\n\n \nregions\n"):
            out, err, status = self.run_watch(records)
            self.assertEqual((self.answers.read_bytes(), err, status), (answered(records), "", 0), records)
            self.assertEqual(len(out.splitlines()), 19, records)

    def test_bytes(self):
        for records in (b'\xef\xbb\xbf"views"\r\n""views\rgsd,"7\nviews\n"\n"views', b"gsd,7\n\nscan"):
            options = ["--answers", str(self.answers), "--every", "0.000001"]
            slow = subprocess.Popen(command(options=options), env=environment(), stdin=subprocess.PIPE,
                                    stdout=subprocess.DEVNULL, bufsize=0)
            for at in range(len(records)):
                slow.stdin.write(records[at:at + 1])
                time.sleep(0.001)
            slow.stdin.close()
            self.assertEqual((slow.wait(timeout=60), self.answers.read_bytes()), (0, answered(records)), records)

    def test_examples(self):
        for records in sorted(EXAMPLES.glob("*.csv")):
            self.run_watch(records.read_bytes())
            self.assertEqual(self.answers.read_bytes(), answered(records.read_bytes()), str(records))

    def test_many(self):
        records = b"".join(b"sub,%d,%015d,0000000000,0000000000,00000000000000000000,1,%d\npost,0,1\nviews\n"
                           % (at, at, at) for at in range(1, 20001))
        out, err, status = self.run_watch(records, every="0.01")
        self.assertEqual((err, status), ("", 0))
        self.assertRegex(out, r"\n60000 records, \d+ looks\n\Z")
        self.assertEqual(out.splitlines()[1][32:].split(), ["0", "#######", "20k", "0", "+", "4", "16", "+", "4"])
        self.assertEqual(out.splitlines()[16].split()[-3:], ["31", "+++++++", "19k"])
        self.assertEqual(self.answers.read_bytes(), answered(records))

    def test_status(self):
        self.assertEqual(self.run_watch(b"views\n", PROGRAM, "--parts", "0")[::2], ("", 2))
        self.assertEqual(self.run_watch(b"", "/nowhere")[::2], ("", 2))
        self.assertEqual(self.run_watch(b"", PROGRAM, every="0")[::2], ("", 2))
        self.assertEqual(self.run_watch(b"x\n" * 100000, "/bin/sh", "-c", "exit 7")[2], 7)
        self.assertEqual(self.run_watch(b"", "/bin/sh", "-c", "kill -9 $$")[2], 137)

    def test_cut_off(self):
        self.run_watch(b"views\n", "/bin/sh", "-c", "read record; echo cell,1,2,3")
        self.assertEqual(self.answers.read_bytes(), b"cell,1,2,3\n")

    def test_ended_from_outside(self):
        for number in (signal.SIGINT, signal.SIGTERM):
            ended = subprocess.Popen(command(options=["--answers", str(self.answers)]), env=environment(),
                                     stdin=subprocess.PIPE, stdout=subprocess.DEVNULL, bufsize=0)
            ended.stdin.write(b"regions\n")
            while not self.answers.exists() or not self.answers.stat().st_size:
                time.sleep(0.01)
            ended.send_signal(number)
            self.assertEqual(ended.wait(timeout=60), 128 + number)
            ended.stdin.close()
            self.answers.unlink()


class Live(unittest.TestCase):
    """At a terminal: the picture is drawn anew while records come."""

    def watched(self, columns=80, **more):
        terminal = Terminal(columns, **more)
        terminal.watch.stdin.write(b"sub,7,000000000000007,0000000000,0000000000,00000000000000000000,1,5\n")
        terminal.read_until("1 records, 1 looks")
        terminal.watch.stdin.write(b"post,0,1\n")
        terminal.read_until("2 records, 2 looks")
        seen, err, status = terminal.ended()
        self.assertEqual((err, status), ("", 0))
        frames = seen.split("\x1b[H")
        self.assertEqual((frames[0], len(frames)), ("\x1b[2J", 4))
        plain = [ESCAPE.sub("", frame).splitlines() for frame in frames[1:]]
        for frame in plain:
            self.assertEqual(len(frame), 19)
            self.assertLess(max(map(len, frame)), columns)
        return seen, plain

    def test_colours(self):
        seen, plain = self.watched()
        self.assertEqual(plain[0][18], "1 records, 1 looks")
        self.assertEqual(plain[2][18], "2 records, 3 looks")
        self.assertIn("\x1b[33;43m+++++++\x1b[0m", seen)
        self.assertIn("\x1b[32;42m#######\x1b[0m", seen)

    def test_no_colours(self):
        seen, _ = self.watched(NO_COLOR="1")
        self.assertIsNone(COLOUR.search(seen))
        self.assertIn(" 0 +++++++    1", seen)
        self.assertIn(" 0 #######    1", seen)

    def test_wide(self):
        seen, _ = self.watched(columns=200)
        self.assertIn("\x1b[32;42m" + "#" * 31 + "\x1b[0m", seen)

    def test_dumb(self):
        terminal = Terminal(80, TERM="dumb")
        seen, err, status = terminal.ended()
        self.assertEqual((len(seen.splitlines()), err, status), (19, "", 0))
        self.assertNotIn("\x1b", seen)


if __name__ == "__main__":
    unittest.main()
