#!/usr/bin/env python3
"""Measures the Redis module over the wire, compared with Redis hashes and Lua scripts.

    run.py MODULE mix [--subscribers N] [--turns N] [--transactions N] [--each]
    run.py MODULE room [--subscribers N]
    run.py MODULE files [--subscribers N] [--turns N]
    run.py MODULE move [--subscribers N] [--turns N]

  mix     TATP's mix with 1 and 50 connections and pipelines of 1, 16 and 64; --each: each transaction alone as well.
          After those with one connection the 72 counts of both stores have to be alike, because both did the same
          transactions in the same order.
  room    the memory and the time of a load
  files   how long a save, a load, a fork, a copy and a removal take
  move    how long a register takes from one server to another and back

It starts servers on free ports of loopback, each in a folder of its own below ROOM (/tmp/bench), and ends them. In mix
and room the servers share one processor and the client has another, the last two that this program may use. In files
and move the servers have all processors, because threads load a register; LOAD_THREADS chooses how many, 0 to 4. Times
are medians of the turns, in which both stores take their turn. It prints tables for docs/SPEED.md, and needs gcc,
redis-server and redis-cli.
"""
import argparse
import os
import pathlib
import shutil
import signal
import socket
import statistics
import subprocess
import sys
import tempfile
import time

HERE = pathlib.Path(__file__).resolve().parent
ROOM = pathlib.Path(os.environ.get("ROOM", "/tmp/bench"))
SHAPES = [(1, 1), (1, 16), (1, 64), (50, 1), (50, 16), (50, 64)]
TRANSACTIONS = ["gsd", "gnd", "gad", "usd", "ul", "icf", "dcf"]
PATIENCE = 600
processors = sorted(os.sched_getaffinity(0))


def free_port():
    with socket.socket() as one:
        one.bind(("127.0.0.1", 0))
        return one.getsockname()[1]


class Server:
    """A redis-server with a store of its kind: hlr or hashes."""

    def __init__(self, kind, module, client, subscribers, own):
        self.kind, self.client, self.subscribers, self.port = kind, client, str(subscribers), free_port()
        self.folder = tempfile.mkdtemp(prefix=kind, dir=ROOM)
        words = ["redis-server", "--bind", "127.0.0.1", "--port", str(self.port), "--dir", self.folder, "--save", "",
                 "--enable-debug-command", "yes", "--rdbcompression", "no", "--loadmodule", str(module)]
        if "LOAD_THREADS" in os.environ:
            words += ["LOAD-THREADS", os.environ["LOAD_THREADS"]]
        self.child = subprocess.Popen(words, stdout=subprocess.DEVNULL, stdin=subprocess.DEVNULL,
                                      preexec_fn=lambda: os.sched_setaffinity(0, own))
        while self.ask("PING").strip() != "PONG":
            if self.child.poll() is not None:
                sys.exit(f"redis-server doesn't start with {module}")
            time.sleep(0.05)

    def ask(self, *words):
        """The reply to a command, as text."""
        done = subprocess.run(["redis-cli", "-p", str(self.port), *words], stdout=subprocess.PIPE,
                              stderr=subprocess.STDOUT, text=True, timeout=PATIENCE)
        return done.stdout

    def seconds(self, *words):
        """How long a command takes, until its reply begins to arrive."""
        with socket.create_connection(("127.0.0.1", self.port), timeout=PATIENCE) as one:
            begin = time.monotonic()
            one.sendall((" ".join(words) + "\r\n").encode())
            reply = one.recv(1000)
            end = time.monotonic()
        if not reply or reply.startswith(b"-"):
            sys.exit(f"{' '.join(words)}: {reply!r}")
        return end - begin

    def tatp(self, *words):
        """What the client prints."""
        done = subprocess.run([self.client, self.kind, str(self.port), self.subscribers, *map(str, words)],
                              stdout=subprocess.PIPE, text=True, check=True, env={**os.environ, "SCRIPTS": str(HERE)},
                              preexec_fn=lambda: os.sched_setaffinity(0, {processors[-2]}))
        return {name: float(value) for name, value in (pair.split("=") for pair in done.stdout.split())}

    def busy(self):
        """Seconds of the processor that all threads of the server had."""
        tasks = pathlib.Path(f"/proc/{self.child.pid}/task")
        return sum(int((task / "schedstat").read_text().split()[0]) for task in tasks.iterdir()) / 1e9

    def run(self, transactions, connections, pipeline, seed, *name):
        begin = self.busy()
        told = self.tatp("run", transactions, connections, pipeline, seed, *name)
        told["server_us"] = (self.busy() - begin) / transactions * 1e6
        return told

    def info(self, name):
        return int(next(line.split(":")[1] for line in self.ask("INFO").splitlines() if line.startswith(name + ":")))

    def counts(self):
        """The 72 counts."""
        if self.kind == "hlr":
            return [int(word) for word in self.ask("HLR.COUNTS", "hlr").split() if word.lstrip("-").isdigit()]
        words = self.ask("HGETALL", "counts").split()
        named = dict(zip(words[::2], map(int, words[1::2])))
        return [named[f"{kind}{place}"] for kind, count in (("h", 24), ("a", 16), ("z", 32)) for place in range(count)]

    def end(self):
        self.child.terminate()
        self.child.wait()
        shutil.rmtree(self.folder, ignore_errors=True)


def shown(cell):
    """A cell of a table: whole numbers with commas, and others with two places below 10 and one below 100."""
    if isinstance(cell, str):
        return cell
    places = 0 if isinstance(cell, int) or cell >= 100 else 1 if cell >= 10 else 2
    return f"{cell:,.{places}f}"


def table(head, *rows):
    print("| " + " | ".join(head) + " |", "|" + "---|" * len(head), sep="\n")
    for row in rows:
        print("| " + " | ".join(map(shown, row)) + " |")
    print(flush=True)


def thousands(rows):
    return statistics.median(row["a_second"] for row in rows) / 1000


def turns_of(servers, turns, transactions, connections, pipeline, *name):
    """What both servers did in their turns."""
    results = {server.kind: [] for server in servers}
    for turn in range(turns):
        for server in servers if turn % 2 else servers[::-1]:
            results[server.kind].append(server.run(transactions, connections, pipeline, turn + 1, *name))
    return results["hlr"], results["hashes"]


def compared(servers, given, shapes, *name):
    for connections, pipeline in shapes:
        transactions = given.transactions // (1 if pipeline > 1 else 4 if connections > 1 else 10)
        transactions -= transactions % pipeline
        hlr, hashes = turns_of(servers, given.turns, transactions, connections, pipeline, *name)
        median = lambda rows, what: statistics.median(row[what] for row in rows)
        yield [*(name or (connections, pipeline)), thousands(hlr), thousands(hashes),
               thousands(hlr) / thousands(hashes), median(hlr, "server_us"), median(hashes, "server_us"),
               median(hlr, "most_us"), median(hashes, "most_us")]


def mix(servers, given):
    for server in servers:
        server.tatp("load")
    more = ["module, thousands a second", "hashes", "times", "module, server us", "hashes, server us", "module, 99% us",
            "hashes, 99% us"]
    rows = list(compared(servers, given, SHAPES[:3]))
    if servers[0].counts() != servers[1].counts():
        sys.exit("the counts of the two stores differ")
    table(["connections", "pipeline", *more], *rows, *compared(servers, given, SHAPES[3:]))
    if given.each:
        rows = (row for name in TRANSACTIONS for row in compared(servers, given, [(1, 64)], name))
        table(["transaction", *more], *rows)


def room(servers, given):
    rows = []
    for server in servers:
        before = server.info("used_memory")
        seconds = server.tatp("load")["seconds"]
        used = server.info("used_memory") - before
        rows.append([server.kind, used, used / given.subscribers, seconds, server.info("used_memory_rss")])
    table(["store", "bytes", "bytes a subscriber", "seconds to load, row by row", "resident bytes"], *rows)


def files(servers, given):
    """Of both stores; COPY and UNLINK of a key are of the register alone."""
    for server in servers:
        server.tatp("load")
    rows = []
    for server in servers:
        found = {}
        for _ in range(given.turns):
            times = {"save": server.seconds("SAVE"), "load": server.seconds("DEBUG", "RELOAD", "NOSAVE")}
            server.ask("BGSAVE")
            while server.info("rdb_bgsave_in_progress"):
                time.sleep(0.1)
            times["fork"] = server.info("latest_fork_usec") / 1e6
            if server.kind == "hlr":
                times.update(recount=server.seconds("HLR.RECOUNT", "hlr"), copy=server.seconds("COPY", "hlr", "two"),
                             DEL=server.seconds("DEL", "two"))
            for name, seconds in times.items():
                found.setdefault(name, []).append(seconds)
        size = (pathlib.Path(server.folder) / "dump.rdb").stat().st_size
        rows.append([server.kind, size, *(f"{statistics.median(found[name]):.3f}" if name in found else "" for name in
                                          ("save", "load", "fork", "recount", "copy", "DEL"))])
    table(["store", "bytes of the file", "save, s", "load, s", "fork, s", "HLR.RECOUNT, s", "COPY, s", "DEL, s"], *rows)


def move(servers, given):
    """A register from one server to another and back, as a slot of a cluster is moved."""
    first, second = servers
    first.tatp("load")
    times = []
    for _ in range(given.turns):
        for giver, taker in ((first, second), (second, first)):
            times.append(giver.seconds("MIGRATE", "127.0.0.1", str(taker.port), "hlr", "0", "60000"))
    table(["subscribers", "a move, s", "the longest, s"], [given.subscribers, statistics.median(times), max(times)])


def main():
    parser = argparse.ArgumentParser(description=__doc__, formatter_class=argparse.RawDescriptionHelpFormatter)
    parser.add_argument("module", type=pathlib.Path)
    parser.add_argument("what", choices=("mix", "room", "files", "move"))
    parser.add_argument("--subscribers", type=int, default=100_000)
    parser.add_argument("--turns", type=int, default=5)
    parser.add_argument("--transactions", type=int, default=400_000)
    parser.add_argument("--each", action="store_true")
    given = parser.parse_args()
    if len(processors) < 2:
        sys.exit("this needs two processors")
    ROOM.mkdir(parents=True, exist_ok=True)
    client = str(ROOM / "tatp_redis")
    subprocess.run(["gcc", "-O2", "-o", client, str(HERE / "tatp.c")], check=True)
    kinds = ("hlr", "hlr") if given.what == "move" else ("hlr", "hashes")
    signal.signal(signal.SIGTERM, lambda *_: sys.exit(1))
    own = {processors[-1]} if given.what in ("mix", "room") else set(processors)
    servers = []
    try:
        for kind in kinds:
            servers.append(Server(kind, given.module.resolve(), client, given.subscribers, own))
        {"mix": mix, "room": room, "files": files, "move": move}[given.what](servers, given)
    finally:
        for server in servers:
            server.end()


if __name__ == "__main__":
    main()
