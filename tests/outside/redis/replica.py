"""Replicas: full syncs while writes come, by every way that Redis has; then a failover by three Sentinels.

    replica.py MODULE
"""
import os
import random
import signal
import sys
import threading
import time

from checks import check, ended, same
from drawn import Drawn, added, filling
from model import Model
from resp import Connection, Error, code, info
from servers import Process, Server, free_port, wait_for

SUBSCRIBERS = 5000


class Traffic(threading.Thread):
    """Drawn writes and reads, in pipelines, until it is stopped."""

    def __init__(self, server):
        super().__init__(daemon=True)
        self.server, self.is_stopped, self.count, self.codes = server, threading.Event(), 0, set()

    def run(self):
        drawn = Drawn(random.Random(3), SUBSCRIBERS + 1000)
        with self.server.connection() as one:
            while not self.is_stopped.is_set():
                events = [drawn.command() for _ in range(50)]
                replies = one.many(("HLR." + name, "hlr", *words) for name, *words in events)
                self.codes |= {code(reply) for reply in replies if isinstance(code(reply), str)}
                same("HLR.ADD under way", one("HLR.ADD", "hlr", f"acc,{1 + self.count % SUBSCRIBERS},1,1,1,ABC,ABCDE")[1] in (0, 1), True)
                self.count += 51

    def stop(self):
        self.is_stopped.set()
        self.join()


def is_synced(server):
    told = server.info("replication")
    return told["role"] == "slave" and told.get("master_link_status") == "up"


def are_level(master, replicas):
    """All replicas have read what the master has sent."""
    offset = master.info("replication")["master_repl_offset"]
    return all(one.info("replication").get("slave_repl_offset") == offset for one in replicas)


def synced(module):
    """A master with a replica for each way of a full sync, while clients write."""
    master = Server("master", module, "--repl-diskless-sync-delay", "0", "--repl-ping-replica-period", "1000")
    with master.connection() as one:
        added(one, "hlr", filling(Model(1000), random.Random(1), SUBSCRIBERS))
    traffic = Traffic(master)
    traffic.start()
    replicas = []
    for sync, load in (("no", "disabled"), ("yes", "disabled"), ("yes", "swapdb"), ("yes", "on-empty-db")):
        master.set("repl-diskless-sync", sync)
        replica = Server(f"replica_{sync}_{load}", module, "--repl-diskless-load", load)
        before = traffic.count
        with replica.connection() as one:
            if load == "swapdb":
                added(one, "hlr", filling(Model(), random.Random(2), 50))
            one("REPLICAOF", "127.0.0.1", master.port)
            reads = set()
            while not is_synced(replica):
                reads.add(code(one("HLR.FIND", "hlr", 1)))
        check(f"reads while a replica syncs, {load}", load != "swapdb" or reads <= {1, "LOADING", "MASTERDOWN"}, reads)
        check("writes came while it synced", traffic.count > before, (before, traffic.count))
        replicas.append(replica)
    time.sleep(0.5)
    traffic.stop()
    check("writes were done and refused", {"OK", "EXISTS", "NOSUBSCRIBER", "NONUMBER"} <= traffic.codes, traffic.codes)
    check("full syncs", master.info("stats")["sync_full"] >= 4)
    return master, replicas


def alike(master, replicas):
    """Rows and counts."""
    wait_for("the replicas are level", lambda: are_level(master, replicas))
    servers = [master, *replicas]
    same("rows", len({one.digest() for one in servers}), 1)
    counts = []
    for one in servers:
        with one.connection() as two:
            counts += [two("HLR.COUNTS", "hlr"), two("HLR.RECOUNT", "hlr")]
    same("counts", [one == counts[0] for one in counts], [True] * len(counts))
    with replicas[0].connection() as one:
        same("a replica takes no write", code(one("HLR.UL", "hlr", 1, 5)), "READONLY")
        same("a replica reads", one("HLR.GSD", "hlr", 1)[1], 1)


def partial(master, replicas):
    """A replica that lost its link for a while continues from where it was."""
    with replicas[0].connection() as one:
        one("REPLICAOF", "NO", "ONE")
        one("REPLICAOF", "127.0.0.1", master.port)
    with master.connection() as one:
        one.many(("HLR.UL", "hlr", number, number) for number in range(1, 500))
    wait_for("it is back", lambda: is_synced(replicas[0]))


def aside(master, replica):
    """A replica that missed too much loads all data aside, and answers reads from its old data meanwhile. Many small keys make
    that take a while."""
    master.set("repl-backlog-size", "16384", "client-output-buffer-limit", "replica 1mb 1mb 1")
    replica.set("key-load-delay", 2000, "loading-process-events-interval-bytes", 1024)
    one, two = master.connection(), replica.connection()
    one.many(("SET", f"small:{number}", random.randbytes(2000)) for number in range(300))
    before = master.info("stats")["sync_full"]
    replica.child.send_signal(signal.SIGSTOP)
    for _ in range(200):
        one("SET", "filler", random.randbytes(2**20))
        if master.info("replication")["connected_slaves"] < 4:
            break
    one.many(("HLR.UL", "hlr", number, number + 1) for number in range(1, SUBSCRIBERS))
    same("the replica is gone", master.info("replication")["connected_slaves"], 3)
    replica.child.send_signal(signal.SIGCONT)
    replies, meanwhile = set(), 0
    while master.info("stats")["sync_full"] == before or not is_synced(replica):
        replies.add(code(two("HLR.FIND", "hlr", 1)))
        meanwhile += info(two, "persistence")["async_loading"]
    same("reads while data is loaded aside", replies, {1})
    check("there were some", meanwhile > 10, meanwhile)
    replica.set("key-load-delay", 0)


class Sentinel(Process):
    """One of three that watch over a master."""

    def __init__(self, number, master):
        super().__init__(f"sentinel{number}")
        self.port = free_port()
        path = os.path.join(self.folder, "conf")
        with open(path, "w") as conf:
            conf.write(f"port {self.port}\nbind 127.0.0.1\ndir {self.folder}\nlogfile {self.folder}/log\n"
                       f"sentinel monitor main 127.0.0.1 {master.port} 2\nsentinel down-after-milliseconds main 1500\n"
                       "sentinel failover-timeout main 4000\n")
        self.run(["redis-sentinel", path])

    def __call__(self, *words):
        with Connection(self.port, timeout=5) as one:
            return one("SENTINEL", *words)

    def is_ready(self):
        return len(self("replicas", "main")) == 2 and len(self("sentinels", "main")) == 2 and not isinstance(self("ckquorum", "main"), Error)


def write(sentinel, location):
    """One write to the master that a Sentinel names. Returns whether it was acknowledged."""
    try:
        with Connection(int(sentinel("get-master-addr-by-name", "main")[1]), timeout=1) as one:
            return one("HLR.UL", "hlr", 1, location) == "OK"
    except OSError:
        return False


def master_by(sentinel, servers):
    """The server that a Sentinel names as the master."""
    port = int(sentinel("get-master-addr-by-name", "main")[1])
    return next(one for one in servers if one.port == port)


def follow(sentinel, servers):
    """All servers but one follow that one. A machine that is busy may have made Sentinels choose more than once."""
    master = master_by(sentinel, servers)
    return all(is_synced(one) and one.info("replication").get("master_port") == master.port for one in servers if one is not master)


def failover(first, replicas):
    """The master is killed: a replica takes its place, and the old master comes back as a replica."""
    sentinels = [Sentinel(number, first) for number in range(3)]
    for one in sentinels:
        wait_for("a Sentinel knows all", one.is_ready)
    same("a write before", write(sentinels[0], 11), True)
    with first.connection() as one:
        same("two replicas have it", one("WAIT", 2, 10000), 2)
    first.kill()
    took = wait_for("a write is taken again", lambda: write(sentinels[1], 12))
    print(f"failover: writes again {took:.1f} s after kill -9", flush=True)
    now = master_by(sentinels[1], replicas)
    with now.connection() as one:
        same("the write is there", one("HLR.GSD", "hlr", 1)[-1], 12)
        one.many(("HLR.UL", "hlr", number, number) for number in range(2, 500))
    first.start()
    servers = [first, *replicas]
    wait_for("the old master is a replica", lambda: is_synced(first))
    wait_for("two replicas follow one master", lambda: follow(sentinels[1], servers))
    wait_for("rows are alike", lambda: len({one.digest() for one in servers}) == 1)
    now = master_by(sentinels[1], servers)
    check("the master is another one", now is not first)
    alike(now, [one for one in servers if one is not now])
    for one in sentinels:
        one.stop()


def main():
    module = sys.argv[1]
    master, replicas = synced(module)
    alike(master, replicas)
    partial(master, replicas)
    alike(master, replicas)
    aside(master, replicas[2])
    alike(master, replicas)
    for one in replicas[2:]:
        one.kill()
    for one in replicas[:2]:
        one.set("repl-diskless-sync-delay", 0)
    with master.connection() as one:
        wait_for("the master sees two replicas", lambda: info(one, "replication")["connected_slaves"] == 2)
    failover(master, replicas[:2])
    ended()


main()
