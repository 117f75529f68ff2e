"""What is kept: RDB and AOF files, DUMP, COPY and MOVE have the same rows, also after a restart.

    kept.py MODULE
    kept.py MODULE keep    makes version_0.rdb and version_0.csv anew, which is right for a new version of the type alone
"""
import os
import random
import shutil
import sys

from checks import check, ended, same
from drawn import Drawn, added, filling
from model import Model
from resp import code, info
from servers import Server, wait_for

HERE = os.path.dirname(os.path.abspath(__file__))
KEEPER_WIDTH = 7


def filled(server):
    """A server with registers of several sizes and widths, and a key of Redis's own."""
    with server.connection() as one:
        for number, size in enumerate((0, 1, 40, 3000)):
            same("a register", added(one, f"hlr:{number}", filling(Model(1 + number * 13), random.Random(number), size)), True)
        one("SET", "text", "x")


def is_quiet(server):
    told = server.info("persistence")
    return not (told["aof_rewrite_in_progress"] or told["aof_rewrite_scheduled"] or told["rdb_bgsave_in_progress"])


def rewritten(server):
    with server.connection() as one:
        one("BGREWRITEAOF")
    wait_for("the AOF is rewritten", lambda: is_quiet(server))
    same("the rewrite", server.info("persistence")["aof_last_bgrewrite_status"], "ok")


def written(server, turns):
    """Drawn writes, done and refused, so that the AOF has commands behind its base."""
    drawn = Drawn(random.Random(turns), 60)
    with server.connection() as one:
        codes = [code(reply) for reply in one.many(("HLR." + name, "hlr:2", *words) for name, *words in (drawn.write() for _ in range(1000)))]
        same("drawn writes are done and refused", {"OK", "ERR", "EXISTS"} <= set(codes), True)
        reply = one("HLR.ADD", "hlr:2", f"acc,1,1,1,1,ABC,ABCDE\nsub,{turns + 900},{turns + 900},0000000000,0000000000,{'0' * 20},1,1\nacc")
        same("a row is added, one is there, and one is none", reply[:4], ["added", 1, "refused", 2])


def counts_are_right(server):
    with server.connection() as one:
        for key in ("hlr:0", "hlr:1", "hlr:2", "hlr:3"):
            same(f"counts of {key}", one("HLR.COUNTS", key), one("HLR.RECOUNT", key))


def by_rdb(module):
    """SAVE and BGSAVE, with compression and without, and a start from the file."""
    server = Server("rdb", module, "--dbfilename", "kept.rdb")
    filled(server)
    before = server.digest()
    for compression, how in (("yes", "SAVE"), ("no", "BGSAVE")):
        server.set("rdbcompression", compression)
        with server.connection() as one:
            one(how)
        wait_for(how, lambda: is_quiet(server))
        server.kill()
        server.start()
        same(f"digest after {how}, compression {compression}", server.digest(), before)
    with server.connection() as one:
        memory = one("MEMORY", "USAGE", "hlr:3")
        same("DEBUG RELOAD", one("DEBUG", "RELOAD"), "OK")
        again = one("MEMORY", "USAGE", "hlr:3")
    check("memory after a load", abs(memory - again) < memory / 4, (memory, again))
    same("digest after DEBUG RELOAD", server.digest(), before)
    server.restart(save=True)
    same("digest after SHUTDOWN SAVE", server.digest(), before)
    counts_are_right(server)


def by_aof(module, preamble):
    """The AOF file: from commands alone, rewritten, and with commands behind that."""
    server = Server(f"aof_{preamble}", module, "--appendonly", "yes", "--aof-use-rdb-preamble", preamble, "--appendfsync", "everysec")
    filled(server)
    for turn in range(3):
        written(server, turn)
        before = server.digest()
        server.restart()
        same(f"digest after a restart, preamble {preamble}, turn {turn}", server.digest(), before)
        if turn < 2:
            rewritten(server)
            same("digest after a rewrite", server.digest(), before)
    counts_are_right(server)
    folder = os.path.join(server.folder, "appendonlydir")
    base = next(name for name in os.listdir(folder) if ".base." in name)
    with open(os.path.join(folder, base), "rb") as file:
        same(f"base, preamble {preamble}", file.read(5) == b"REDIS", preamble == "yes")
    server.kill()


def by_keys(module):
    """Commands of Redis that copy or move the value of a key."""
    server = Server("keys", module)
    filled(server)
    one, binary = server.connection(), server.connection(binary=True)
    for number in range(4):
        key = f"hlr:{number}"
        digest = one("DEBUG", "DIGEST-VALUE", key)
        same("RESTORE", binary("RESTORE", "restored", 0, binary("DUMP", key), "REPLACE"), b"OK")
        same("digest of DUMP and RESTORE", one("DEBUG", "DIGEST-VALUE", "restored"), digest)
        same("COPY", one("COPY", key, "copied", "REPLACE"), 1)
        same("digest of COPY", one("DEBUG", "DIGEST-VALUE", "copied"), digest)
        same("a copy is a register of its own", one("HLR.ADDSUB", "copied", 9999, 9999, "1" * 10, "f" * 10, "f" * 20, 1, 1), "OK")
        same("its first one stays", one("DEBUG", "DIGEST-VALUE", key), digest)
        same("RENAME", one("RENAME", "copied", "renamed"), "OK")
        same("MOVE", one("MOVE", "restored", 1), 1)
        one("SELECT", 1)
        same("digest of MOVE", one("DEBUG", "DIGEST-VALUE", "restored"), digest)
        one("FLUSHDB")
        one("SELECT", 0)
    same("registers", info(one, "modules")["hlr_count"], 5)
    one("FLUSHALL")
    wait_for("all registers are gone", lambda: info(one, "modules")["hlr_count"] == 0)
    same("memory of no register", info(one, "modules")["hlr_memory"], 0)
    server.kill()


def many_records(subscribers):
    """Records of so many subscribers, each with a row of each table."""
    for s_id in range(1, subscribers + 1):
        yield f"sub,{s_id},{s_id:015},{s_id & 1}{'01' * 4}1,{s_id % 2**40:010x},{s_id:020x},{s_id},{s_id * 97 % 2**32 or 1}"
        yield f"acc,{s_id},{s_id % 4 + 1},{s_id % 256},7,ABC,ABCDE"
        yield f"fac,{s_id},{s_id % 4 + 1},{int(s_id % 7 > 0)},{s_id % 256},9,ABCDE"
        yield f"icf,{s_id:015},{s_id % 4 + 1},{s_id % 3 * 8},{s_id % 3 * 8 + 1 + s_id % 8},{s_id:015}"


def by_threads(module):
    """A register with so many blocks that several threads load it, with any number of threads."""
    records = list(many_records(60000))
    server = Server("threads", module, module_words=("LOAD-THREADS", "4"))
    one = server.connection()
    one("HLR.CREATE", "hlr", "ZONE", 2000)
    replies = one.many((("HLR.ADD", "hlr", "\n".join(records[begin:begin + 4000])) for begin in range(0, len(records), 4000)), 4)
    same("rows that are added", sum(reply[1] for reply in replies), len(records))
    before, counts = one("DEBUG", "DIGEST"), one("HLR.COUNTS", "hlr")
    digest = one("DEBUG", "DIGEST-VALUE", "hlr")
    same("COPY of many rows", one("COPY", "hlr", "copied"), 1)
    same("digest of a copy of many rows", one("DEBUG", "DIGEST-VALUE", "copied"), digest)
    one("UNLINK", "copied")
    for threads in ("4", "1", "0"):
        server.module_words = ["LOAD-THREADS", threads]
        server.restart(save=True)
        one = server.connection()
        same(f"digest with {threads} threads", one("DEBUG", "DIGEST"), before)
        same(f"counts with {threads} threads", one("HLR.COUNTS", "hlr"), counts)
        same(f"counts of all rows with {threads} threads", one("HLR.RECOUNT", "hlr"), counts)
        memory = info(one, "modules")["hlr_memory"]
        check(f"all memory is the register's with {threads} threads", 0 <= one("MEMORY", "USAGE", "hlr") - memory < 1000, memory)
    server.kill()
    for words in (["LOAD-THREADS", "5"], ["LOAD-THREADS"], ["THREADS", "1"]):
        server.module_words = words
        try:
            server.start()
            check(f"{words} end the server", False)
        except RuntimeError:
            check(f"{words} are refused", "hlr.so takes LOAD-THREADS and a number from 0 to 4" in server.log(), server.log()[-500:])


def kept_file(module):
    """version_0.rdb was saved by the first version of the type. It has the rows of the records in version_0.csv."""
    server = Server("version_0", module)
    server.kill()
    shutil.copy(os.path.join(HERE, "version_0.rdb"), os.path.join(server.folder, "dump.rdb"))
    server.start()
    one = server.connection()
    same("kept registers", one("DBSIZE"), 1)
    with open(os.path.join(HERE, "version_0.csv")) as file:
        records = file.read()
    one("HLR.CREATE", "again", "ZONE", KEEPER_WIDTH)
    reply = one("HLR.ADD", "again", records)
    same("records of the kept file", reply[:4], ["added", len(records.splitlines()), "refused", 0])
    same("rows of the kept file", *one("DEBUG", "DIGEST-VALUE", "kept", "again"))
    same("counts of the kept file", one("HLR.COUNTS", "kept"), one("HLR.RECOUNT", "again"))
    server.kill()


def keep(module):
    server = Server("keep", module, "--rdbcompression", "no")
    model = filling(Model(KEEPER_WIDTH), random.Random(0), 60)
    model.addsub(16777216, 10**15 - 1, "1" * 10, "f" * 10, "f" * 20, 2**32 - 1, 2**32 - 1)
    model.addsub(16777215, 0, "0" * 10, "0" * 10, "0" * 20, 1, 1)
    for kind in range(1, 5):
        model.addacc(16777216, kind, 255, 0, "ZZZ", "ZZZZZ")
        model.addfac(16777216, kind, kind % 2, 255, 0, "AAAAA")
        for start in (0, 8, 16):
            model.icf(10**15 - 1, kind, start, 24, 10**15 - 1)
    with server.connection() as one:
        added(one, "kept", model)
        one("SAVE")
    shutil.copy(os.path.join(server.folder, "dump.rdb"), os.path.join(HERE, "version_0.rdb"))
    with open(os.path.join(HERE, "version_0.csv"), "w") as file:
        file.write("\n".join(model.records()) + "\n")


def damaged(module):
    """A server doesn't start on an RDB file with a row that is out of range, and says why."""
    server = Server("damaged", module, "--rdbcompression", "no", "--rdbchecksum", "no")
    with server.connection() as one:
        added(one, "hlr", filling(Model(), random.Random(3), 30))
        one("SAVE")
    server.kill()
    path = os.path.join(server.folder, "dump.rdb")
    with open(path, "rb") as file:
        good = file.read()
    first = (1).to_bytes(4, "little") + (1).to_bytes(7, "little")
    same("the first subscriber", good.count(first), 1)
    with open(path, "wb") as file:
        file.write(good.replace(first, bytes(4) + first[4:]))
    try:
        server.start()
        check("a damaged file ends the server", False)
    except RuntimeError:
        check("the log says why", "a register is not loaded: ERR a field is out of its range" in server.log(), server.log()[-500:])
        same("it is no crash", "crashed by signal" in server.log(), False)


def main():
    module = sys.argv[1]
    if sys.argv[2:] == ["keep"]:
        return keep(module)
    by_rdb(module)
    by_aof(module, "yes")
    by_aof(module, "no")
    by_keys(module)
    by_threads(module)
    kept_file(module)
    damaged(module)
    return ended()


main()
