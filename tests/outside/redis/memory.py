"""Memory: maxmemory, and each allocation refused in turn, on a master, on its replica and while data is loaded.

    memory.py SANITIZED_MODULE
"""
import random
import sys

from checks import check, ended, same
from drawn import Drawn, added, filling
from model import Model
from resp import code, info
from servers import PATIENCE, Server, wait_for

WRITES = 8000


def bounded(module):
    """At maxmemory, commands that add rows are refused, and commands that need no memory still work."""
    server = Server("bounded", module)
    one = server.connection()
    added(one, "m", filling(Model(), random.Random(1), 2000))
    used, told = info(one, "memory")["used_memory"], one("MEMORY", "USAGE", "m")
    check("used_memory has the register", 500_000 < told < used, (told, used))
    server.set("maxmemory", used - told // 2)
    sub, row = (3000, 3000, "0" * 10, "0" * 10, "0" * 20, 1, 1), one("HLR.GSD", "m", 1)
    kind = next(kind for kind in range(1, 5) if one("HLR.GFD", "m", 1, kind))
    for words in (("ADDSUB", "m", *sub), ("ADDACC", "m", 1, 1, 1, 1, "ABC", "ABCDE"), ("ADDFAC", "m", 1, 1, 1, 1, 1, "ABCDE"),
                  ("ICF", "m", 1, kind, 8, 16, 1), ("NUMBER", "m", 1, 77), ("CREATE", "n"), ("ADD", "m", "acc,1,1,1,1,ABC,ABCDE")):
        same(f"{words[0]} at maxmemory", code(one("HLR." + words[0], *words[1:])), "OOM")
    for words in (("UL", "m", 1, 536870912), ("USD", "m", 1, kind, 1, 7), ("ACTIVE", "m", 1, kind, 0)):
        same(f"{words[0]} at maxmemory", one("HLR." + words[0], *words[1:]), "OK")
    same("DCF at maxmemory", code(one("HLR.DCF", "m", 1, kind, 8)) in ("OK", "NOFORWARDING"), True)
    same("GSD at maxmemory", one("HLR.GSD", "m", 1)[:4], row[:4])
    server.set("maxmemory", 0)
    same("ADDSUB with memory again", one("HLR.ADDSUB", "m", *sub), "OK")
    server.set("maxmemory-policy", "allkeys-lru", "maxmemory", used - told // 2)
    one("HLR.ADDSUB", "m", *sub)
    same("another policy throws whole registers away", one("EXISTS", "m"), 0)
    server.kill()


def in_turn(one, words):
    """Runs a command with its first allocation refused, its second one, and so on until it is done or refused by itself. The
    last reply, and those before it."""
    refused = []
    while True:
        one("HLR.REFUSE", len(refused))
        reply = one(*words)
        if one("HLR.REFUSE", -1) != -1:
            return reply, refused
        refused.append(reply)


def writes(one):
    """Each allocation of each write."""
    reply, refused = in_turn(one, ("HLR.CREATE", "r", "ZONE", 4))
    same("HLR.CREATE at last", reply, "OK")
    same("HLR.CREATE refused", {code(one) for one in refused}, {"OOM"})
    check("HLR.CREATE takes memory", len(refused) > 3, len(refused))
    model, draw, times = Model(4), Drawn(random.Random(9), 900), 0
    for _ in range(WRITES):
        name, *words = draw.write()
        reply, refused = in_turn(one, ("HLR." + name, "r", *words))
        times += len(refused)
        wanted = getattr(model, name)(*words)
        if code(reply) != wanted or any(code(one) != "OOM" for one in refused):
            same(f"{name} {words}, refused {refused}", reply, wanted)
            break
    same("rows after refusals", one("HLR.SCAN", "r", 0, "COUNT", 10000)[1], [flat(row) for row in model.rows()])
    same("counts after refusals", one("HLR.COUNTS", "r"), flat(model.counts()))
    check("memory was refused", times > 30, times)


def flat(reply):
    if isinstance(reply, dict):
        return [flat(one) for pair in reply.items() for one in pair]
    return [flat(one) for one in reply] if isinstance(reply, list) else reply


def unchanged(one):
    """A refused write changes nothing: no row and no count, at each of its allocations."""
    model, draw, turns = filling(Model(), random.Random(4), 300), Drawn(random.Random(5), 600), 0
    added(one, "u", model)
    before, counts = one("DEBUG", "DIGEST-VALUE", "u"), one("HLR.COUNTS", "u")
    while turns < 60:
        name, *words = draw.write()
        one("HLR.REFUSE", 0)
        reply = one("HLR." + name, "u", *words)
        left = one("HLR.REFUSE", -1)
        if left == -1:
            turns += 1
            same(f"{name} refused", code(reply), "OOM")
            same("rows stay", one("DEBUG", "DIGEST-VALUE", "u"), before)
            same("counts stay", (one("HLR.COUNTS", "u"), one("HLR.RECOUNT", "u")), (counts, counts))
        else:
            before, counts = one("DEBUG", "DIGEST-VALUE", "u"), one("HLR.COUNTS", "u")


def many(one, replica):
    """HLR.ADD is refused memory in its midst: the rows before stay, none behind is added, and the replica has the same."""
    records = list(filling(Model(), random.Random(6), 120).records())
    refusals = set()
    for place in range(200):
        one("DEL", "a")
        one("HLR.CREATE", "a")
        one("HLR.REFUSE", place)
        reply = one("HLR.ADD", "a", "", "\n".join(records[:100]), "\n".join([records[0], *records[100:]]) + "\n\n")
        is_refused = one("HLR.REFUSE", -1) == -1
        counted = sum(one("HLR.RECOUNT", "a", "ZONES"))
        same("HLR.ADD: rows", (reply[1], reply[1] + reply[3]), (counted, len(records) + 1))
        if not is_refused:
            break
        refusals.add(reply[1])
        same("HLR.ADD: why", {why.split(" ")[0] for _, why in reply[5]} - {"EXISTS"}, {"OOM"})
        same("HLR.ADD: where", [row for row, why in reply[5] if why.startswith("OOM")][0], reply[1] + 1 + (reply[1] >= 100))
        same("HLR.ADD: counts", one("HLR.COUNTS", "a"), one("HLR.RECOUNT", "a"))
        one("WAIT", 1, 10000)
        same("HLR.ADD: the replica", replica("DEBUG", "DIGEST-VALUE", "a"), one("DEBUG", "DIGEST-VALUE", "a"))
    check("HLR.ADD was refused at several places", len(refusals) > 5 and max(refusals) > 100, refusals)


def values(one):
    """RESTORE and COPY, at each of their allocations: an error, and nothing is left over."""
    with_payload = one.payload("u")
    registers = info(one, "modules")["hlr_count"]
    for name, words in (("RESTORE", ("RESTORE", "v", 0, with_payload)), ("COPY", ("COPY", "u", "w"))):
        refused = 0
        while True:
            one("HLR.REFUSE", refused)
            reply = one(*words)
            if one("HLR.REFUSE", -1) != -1:
                break
            refused += 1
            same(f"{name} refused", code(reply) in ("ERR", 0) and info(one, "modules")["hlr_count"] == registers, True)
        check(f"{name} takes memory", refused > 20, refused)
        registers += 1
    same("what they made at last", *one("DEBUG", "DIGEST-VALUE", "v", "w"))


def grow(one, name, replica, first):
    """Adds subscribers until the replica has ended, which takes one that needs memory."""
    for number in range(first, first + 400):
        fields = (number, number, "0" * 10, "0" * 10, "0" * 20, 1, 1)
        words = fields if name == "HLR.ADDSUB" else (",".join(map(str, ("sub", *fields))),)
        one(name, "u", *words)
        if replica.child.poll() is not None:
            return


def replica_ends(module, master):
    """A replica that is refused memory for what its master did ends, and says why."""
    one, binary = master.connection(), master.connection(binary=True)
    for number, name in enumerate(("HLR.ADDSUB", "HLR.ADD", "RESTORE", "COPY")):
        replica = Server(f"ends_{name}", module, "--replicaof", f"127.0.0.1 {master.port}")
        wait_for("the replica is there", lambda: replica.info("replication")["master_link_status"] == "up")
        with replica.connection() as two:
            two("HLR.REFUSE", 0)
        if name == "RESTORE":
            same("RESTORE", binary("RESTORE", "v2", 0, binary("DUMP", "u")), b"OK")
        elif name == "COPY":
            same("COPY", one("COPY", "u", "w2"), 1)
        else:
            grow(one, name, replica, 5000 + 1000 * number)
        same(f"{name}: the replica's status", replica.child.wait(PATIENCE), 1)
        check(f"{name}: its log", "rather than continue with other rows: OOM no memory was left" in replica.log(), replica.log()[-600:])
        same(f"{name}: it is no crash", "crashed by signal" in replica.log(), False)


def loading_ends(module):
    """A server that is refused memory while it loads its AOF file doesn't start on a part of it."""
    server = Server("loading", module, "--appendonly", "yes", "--aof-use-rdb-preamble", "no")
    with server.connection() as one:
        added(one, "hlr", filling(Model(), random.Random(2), 200))
        one("BGREWRITEAOF")
        wait_for("the rewrite", lambda: info(one, "persistence")["aof_rewrite_in_progress"] == 0)
        one("HLR.ADDSUB", "hlr", 900, 900, "0" * 10, "0" * 10, "0" * 20, 1, 1)
    digest, refused = server.digest(), 0
    for place in (0, 1, 3, 7, 15, 31, 63, 127, 10**6):
        server.kill()
        server.environment["HLR_REFUSE"] = str(place)
        try:
            server.start()
            break
        except RuntimeError:
            refused += 1
            same("its status", server.child.returncode, 1)
    check("it ended at several places", refused >= 4, refused)
    check("its log", "rather than continue with other rows: OOM no memory was left" in server.log())
    same("all rows in the end", server.digest(), digest)
    server.kill()


def main():
    module = sys.argv[1]
    bounded(module)
    master = Server("refusing", module, "--repl-diskless-sync-delay", "0")
    replica = Server("follows", module, "--replicaof", f"127.0.0.1 {master.port}")
    wait_for("the replica is there", lambda: replica.info("replication")["master_link_status"] == "up")
    one = master.connection()
    one.payload = lambda key: master.connection(binary=True)("DUMP", key)
    writes(one)
    unchanged(one)
    many(one, replica.connection())
    values(one)
    wait_for("the replica has all", lambda: replica.digest() == master.digest())
    same("the replica has the same rows", replica.digest(), master.digest())
    replica.kill()
    replica_ends(module, master)
    master.kill()
    loading_ends(module)
    ended()


main()
