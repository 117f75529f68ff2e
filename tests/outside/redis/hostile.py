"""Damaged bytes: payloads of RESTORE and blocks of AOF files are refused, or are rows in range with right counts.

    hostile.py SANITIZED_MODULE [PAYLOADS FILES]
"""
import os
import random
import re
import sys
import threading

from checks import check, ended, same
from drawn import added, filling
from model import Model
from resp import Connection, Error, code, info
from servers import Server, wait_for

KEY = "good"


def damaged(drawn, good):
    """Bytes with some bits or bytes changed, a stretch cut out, put twice or drawn anew, or the end cut off."""
    bad, kind = bytearray(good), drawn.randrange(6)
    at = drawn.randrange(len(bad))
    stretch = drawn.randint(1, min(300, len(bad) - at))
    if kind == 0:
        del bad[at:]
    elif kind == 1:
        del bad[at:at + stretch]
    elif kind == 2:
        bad[at:at] = bad[at:at + stretch]
    elif kind == 3:
        bad[at:at + stretch] = drawn.randbytes(stretch)
    else:
        for _ in range(drawn.randint(1, 3)):
            bad[drawn.randrange(len(bad))] ^= 1 << drawn.randrange(8) if kind == 4 else drawn.randint(1, 255)
    return bytes(bad)


def counts_are_right(one, key):
    return one("HLR.COUNTS", key) == one("HLR.RECOUNT", key)


def payloads(server, count):
    """What DUMP gives, damaged. Its checksum isn't looked at, because it would refuse them all."""
    one, binary, drawn = server.connection(), server.connection(binary=True), random.Random(6)
    added(one, KEY, filling(Model(9), drawn, 40))
    same("checksums aren't looked at", one("DEBUG", "SET-SKIP-CHECKSUM-VALIDATION", 1), "OK")
    taken = refused = 0
    for compression in ("no", "yes"):
        server.set("rdbcompression", compression)
        payload = binary("DUMP", KEY)
        for _ in range(count // 2):
            reply = binary("RESTORE", "bad", 0, damaged(drawn, payload[:-10]) + payload[-10:], "REPLACE")
            if isinstance(reply, Error):
                refused += 1
            else:
                taken += 1
                # a damaged payload may be a value of another type
                if one("TYPE", "bad") == "hlrregist" and not counts_are_right(one, "bad"):
                    check("counts of a damaged payload", False)
            one("DEL", "bad")
    one("DEBUG", "SET-SKIP-CHECKSUM-VALIDATION", 0)
    check("damaged payloads were refused and taken", refused > count // 4 and taken > count // 50, (refused, taken))
    same("registers that are left", info(one, "modules")["hlr_count"], 1)
    print(f"{count} damaged payloads: {refused} refused, {taken} taken", flush=True)


def blocks(server, good, count):
    """Damaged blocks of an AOF file, added by a command of the tests, so that one server can try many."""
    one, drawn = server.connection(), random.Random(7)
    taken = 0
    for _ in range(count):
        one("HLR.CREATE", "bad", "ZONE", 9)
        reply = one("HLR.BLOCK", "bad", damaged(drawn, good))
        taken += reply == "OK"
        if not counts_are_right(one, "bad"):
            check("counts of a damaged block", False)
        one("DEL", "bad")
    check("damaged blocks were refused and taken", count // 50 < taken < count // 2, taken)
    print(f"{count} damaged blocks: {count - taken} refused, {taken} taken", flush=True)


def aof_of(server):
    """The base of an AOF file without preamble: its path, its text, and where its block begins and ends."""
    with server.connection() as one:
        server.set("aof-use-rdb-preamble", "no", "appendonly", "yes")
        wait_for("the rewrite", lambda: info(one, "persistence")["aof_rewrite_in_progress"] == 0 and info(one, "persistence")["aof_rewrite_scheduled"] == 0)
        server.set("appendonly", "no")
    folder = os.path.join(server.folder, "appendonlydir")
    path = os.path.join(folder, next(name for name in os.listdir(folder) if ".base." in name))
    with open(path, "rb") as file:
        text = file.read()
    word = b"HLR.LOAD\r\n$4\r\ngood\r\n$"
    begin = text.index(b"\n", text.index(word) + len(word)) + 1
    length = int(text[text.index(word) + len(word):begin])
    return text, begin, begin + length


class Files(threading.Thread):
    """Starts a server on one damaged AOF file after another: it ends with a line that says why, or it has right counts."""

    def __init__(self, module, number, count, text, begin, end):
        super().__init__(daemon=True)
        self.module, self.number, self.count, self.text, self.begin, self.end = module, number, count, text, begin, end
        self.started = self.ended = 0
        self.wrong = []

    def run(self):
        drawn = random.Random(self.number)
        server = Server(f"files{self.number}", self.module, "--appendonly", "yes")
        folder = os.path.join(server.folder, "appendonlydir")
        base = os.path.join(folder, next(name for name in os.listdir(folder) if ".base." in name))
        for _ in range(self.count):
            server.kill()
            bad = damaged(drawn, self.text[self.begin:self.end])
            head = self.text[:self.begin - len(f"{self.end - self.begin}\r\n")]
            with open(base, "wb") as file:
                file.write(head + f"{len(bad)}\r\n".encode() + bad + self.text[self.end:])
            os.truncate(os.path.join(server.folder, "log"), 0)
            self.start_on(server)
        server.kill()

    def start_on(self, server):
        try:
            server.start()
        except RuntimeError:
            self.ended += 1
            log = server.log()
            if "hlr.load was done before and can't be repeated, so this server ends" not in log or server.child.returncode != 1:
                self.wrong.append((server.child.returncode, log[-1500:]))
            return
        self.started += 1
        with server.connection() as one:
            if not counts_are_right(one, KEY):
                self.wrong.append("counts")


def files(module, count, aof):
    """Damaged AOF files, by three servers at a time."""
    threads = [Files(module, number, count // 3, *aof) for number in range(3)]
    for one in threads:
        one.start()
    for one in threads:
        one.join()
    same("servers on damaged AOF files", [one for thread in threads for one in thread.wrong][:2], [])
    ends, starts = sum(one.ended for one in threads), sum(one.started for one in threads)
    check("servers ended and started", ends > count // 4 and starts > 0, (ends, starts))
    print(f"{count} damaged AOF files: {ends} servers ended, {starts} started", flush=True)


def words(server, count):
    """Drawn bytes as words of each command: an error, and nothing changes."""
    one, drawn = server.connection(), random.Random(8)
    before = one("DEBUG", "DIGEST-VALUE", KEY)
    names = sorted(set(one("COMMAND", "LIST", "FILTERBY", "MODULE", "hlr")) - {"hlr.help", "hlr.refuse"})
    codes = set()
    for _ in range(count):
        told = [drawn.choice((drawn.randbytes(drawn.randrange(40)), b"", b"-1", b"9" * drawn.randrange(16, 60), b"\n" * 9, b"," * 20))
                for _ in range(drawn.randrange(1, 12))]
        reply = one(drawn.choice(names), KEY, *told)
        codes.add(code(reply) if isinstance(reply, Error) else "reply")
    same("drawn words change nothing", one("DEBUG", "DIGEST-VALUE", KEY), before)
    check("drawn words are refused", "ERR" in codes, codes)


def main():
    module = sys.argv[1]
    many, few = (int(word) for word in (sys.argv[2:] or ("4000", "150")))
    server = Server("hostile", module)
    with open(f"/proc/{server.child.pid}/maps") as maps:
        check("the server has the sanitizers", {"libasan.so", "libubsan.so"} <= set(re.findall(r"lib[a-z]*san\.so", maps.read())))
    payloads(server, many)
    aof = aof_of(server)
    blocks(server, aof[0][aof[1]:aof[2]], many)
    words(server, many)
    same("the server is there", Connection(server.port)("PING"), "PONG")
    files(module, few, aof)
    ended()


main()
