"""kill -9 while clients write and the AOF is rewritten: what was acknowledged is there, and counts are those of the rows.

    crash.py MODULE [KILLS]

Each kill is of a server of its own. By appendfsync `always` a write is in the file before it is acknowledged. By `everysec`
Redis holds writes back for as long as the disk takes for the sync of each second, and a kill just then loses them though
they were acknowledged. The module can't change that, so those servers have their files in memory, where a sync takes no
time, and all that they acknowledged has to be there.
"""
import os
import random
import shutil
import sys
import tempfile
import threading
import time

from checks import check, ended, same
from drawn import added, filling
from model import Model
from resp import encoded
from servers import ROOM, Server, stop_all

SUBSCRIBERS = 1000
WRITERS = 4


class Writer(threading.Thread):
    """Moves subscribers of its own on, 16 writes at a time, and switches a facility of each. It knows of each subscriber the
    last location that was sent, and the last one that was acknowledged."""

    def __init__(self, server, mine):
        super().__init__(daemon=True)
        self.server, self.mine, self.sent, self.acknowledged, self.wrong = server, mine, {}, {}, None
        self.added = 0

    def run(self):
        drawn = random.Random(self.mine)
        try:
            with self.server.connection() as one:
                while not self.wrong:
                    self.round(drawn, one)
        except OSError:
            pass

    def round(self, drawn, one):
        """16 location updates, and HLR.ADD of one subscriber and its access."""
        order, told = [], b""
        for _ in range(16):
            s_id = 1 + self.mine + WRITERS * drawn.randrange(SUBSCRIBERS // WRITERS)
            self.sent[s_id] = self.sent.get(s_id, 1) + 1
            order.append((s_id, self.sent[s_id]))
            told += encoded(("HLR.UL", "hlr", s_id, self.sent[s_id]))
        new = self.new(self.added + 1)
        records = f"sub,{new},{new},0000000000,0000000000,{'0' * 20},1,1\nacc,{new},1,1,1,ABC,ABCDE"
        one.socket.sendall(told + encoded(("HLR.ADD", "hlr", records)))
        for s_id, location in order:
            self.expect(one.reply(), "OK")
            self.acknowledged[s_id] = location
        self.expect(one.reply(), ["added", 2, "refused", 0, "refusals", []])
        self.added += 1

    def expect(self, reply, wanted):
        if reply != wanted:
            self.wrong = reply

    def new(self, turn):
        return 10_000 + self.mine + WRITERS * turn


def kill(module, policy, turn, folder):
    """One kill: how many acknowledged writes there were."""
    server = Server(f"{policy}{turn}", module, "--appendonly", "yes", "--appendfsync", policy, folder=folder)
    with server.connection() as one:
        added(one, "hlr", filling(Model(), random.Random(turn), SUBSCRIBERS))
        one.many(("HLR.UL", "hlr", s_id, 1) for s_id in range(1, SUBSCRIBERS + 1))
    writers = [Writer(server, mine) for mine in range(WRITERS)]
    for one in writers:
        one.start()
    time.sleep(0.2 + random.random() / 3)
    if turn % 2:
        with server.connection() as one:
            one("BGREWRITEAOF")
        time.sleep(random.random() / 15)
    server.kill()
    for one in writers:
        one.join()
    server.start()
    acknowledged = found(server, writers)
    server.kill()
    shutil.rmtree(server.folder)
    return acknowledged


def found(server, writers):
    """What a server has after its restart."""
    lost, count = [], 0
    with server.connection() as one:
        for writer in writers:
            same("replies were right", writer.wrong, None)
            s_ids = range(1 + writer.mine, SUBSCRIBERS + 1, WRITERS)
            for s_id, row in zip(s_ids, one.many(("HLR.GSD", "hlr", s_id) for s_id in s_ids)):
                least, most = writer.acknowledged.get(s_id, 1), writer.sent.get(s_id, 1)
                count += least - 1
                place = row[-1] if row else 0
                if not least <= place <= most:
                    lost.append((s_id, least, place, most))
            rows = one.many(("HLR.GAD", "hlr", writer.new(turn), 1) for turn in range(1, writer.added + 1))
            lost += [turn for turn, row in enumerate(rows) if not row]
            count += 2 * writer.added
        same("counts are those of the rows", one("HLR.COUNTS", "hlr"), one("HLR.RECOUNT", "hlr"))
    same(f"acknowledged and lost by {server.name}", lost, [])
    return count


def main():
    module, kills = sys.argv[1], int(sys.argv[2]) if len(sys.argv) > 2 else 6
    memory = tempfile.mkdtemp(prefix="hlr-redis-", dir="/dev/shm") if os.path.isdir("/dev/shm") else ROOM
    try:
        for policy, folder in (("always", ROOM), ("everysec", memory)):
            counts = []
            for first in range(0, kills, 2):
                pair = [threading.Thread(target=lambda turn=turn: counts.append(kill(module, policy, turn, folder))) for turn in (first, first + 1)]
                for one in pair:
                    one.start()
                for one in pair:
                    one.join()
            check(f"kills by {policy}", len(counts) == kills and min(counts) > 500, counts)
            print(f"appendfsync {policy}: {len(counts)} kills, {sum(counts)} acknowledged writes", flush=True)
    finally:
        stop_all()
        shutil.rmtree(memory, ignore_errors=True)
    ended()


main()
