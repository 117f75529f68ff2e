"""The commands of the module in one server: drawn commands against a model, COMMAND INFO and DOCS, refusals, transactions and
events.

    commands.py MODULE [ROUNDS]
"""
import random
import sys

from checks import check, ended, same
from drawn import Drawn, added, filling, record
from model import Model
from resp import Connection, Error, code, info
from servers import Server, wait_for

FEW = 12
EVENTS = 2500

NO_RECORDS = ("sub,1", "gsd,1", "sub", "s", ",,,,,", "acc,1,1,1,1,ABC,ABCDE,", "x" * 300, "icf,1,1,0,1,1,1,1,1,1,1", "\0",
              '"acc",1,1,1,1,ABC,ABCDE', "ACC,1,1,1,1,ABC,ABCDE", " acc,1,1,1,1,ABC,ABCDE")

# Each command: its flags, how many words it has at least (and at most, if that isn't any number), what it does to its key.
COMMANDS = {
    "create": ("write denyoom fast", -2, "RW insert"), "addsub": ("write denyoom fast", 9, "RW insert"),
    "addacc": ("write denyoom fast", 8, "RW insert"), "addfac": ("write denyoom fast", 8, "RW insert"),
    "add": ("write denyoom", -3, "RW insert"), "load": ("write denyoom", 3, "RW insert"),
    "gsd": ("readonly fast", 3, "RO access"), "gad": ("readonly fast", 4, "RO access"),
    "gfd": ("readonly fast", 4, "RO access"), "gcf": ("readonly fast", 5, "RO access"),
    "gnd": ("readonly fast", 6, "RO access"), "find": ("readonly fast", 3, "RO access"),
    "usd": ("write fast", 6, "RW update"), "ul": ("write fast", 4, "RW update"),
    "icf": ("write denyoom fast", 7, "RW insert"), "dcf": ("write fast", 5, "RW delete"),
    "active": ("write fast", 5, "RW update"), "number": ("write denyoom fast", 4, "RW update"),
    "mgsd": ("readonly fast", -3, "RO access"), "mgad": ("readonly fast", -4, "RO access"),
    "mgnd": ("readonly fast", -6, "RO access"), "counts": ("readonly fast", -2, "RO access"),
    "recount": ("readonly", -2, "RO access"), "info": ("readonly fast", 2, "RO access"),
    "scan": ("readonly", -3, "RO access"), "help": ("fast", 1, None),
}


def flat(reply):
    """What RESP2 replies where RESP3 replies this."""
    if isinstance(reply, dict):
        return [flat(one) for pair in reply.items() for one in pair]
    return [flat(one) for one in reply] if isinstance(reply, list) else reply


def model_round(two, three, number):
    """One register, by RESP2 and RESP3 in turns, against a model; then all ways to read the whole of it."""
    drawn = random.Random(number)
    key, draw = f"model:{number}", Drawn(drawn, FEW)
    model = Model(drawn.choice((1, 4, 7, 524288)))
    same("HLR.CREATE", two("HLR.CREATE", key, "zone", model.width), "OK")
    for turn, one in enumerate((two, three) * 2):
        events = [draw.command() for _ in range(EVENTS // 4)]
        replies = one.many(("hlr." + name, key, *words) for name, *words in events)
        for event, reply in zip(events, replies):
            wanted = getattr(model, event[0])(*event[1:])
            if code(reply) != (wanted if one is three else flat(wanted)):
                return same(f"round {number}, turn {turn}: {event}", reply, wanted)
    whole(two, three, key, model, drawn)
    return check("commands reply as the model does", True)


def whole(two, three, key, model, drawn):
    """Counts, many reads at once, and all rows."""
    few = range(1, FEW + 3)
    counts = model.counts()
    same("HLR.COUNTS", three("HLR.COUNTS", key), counts)
    same("HLR.RECOUNT", three("HLR.RECOUNT", key), counts)
    same("HLR.COUNTS by RESP2", two("HLR.COUNTS", key), flat(counts))
    same("HLR.COUNTS of a kind", [three("HLR.COUNTS", key, kind) for kind in ("HOURS", "areas", "Zones")], list(counts.values()))
    same("HLR.RECOUNT of a kind", two("HLR.RECOUNT", key, "zones"), counts["zones"])
    told = three("HLR.INFO", key)
    same("HLR.INFO", [told[name] for name in ("subscribers", "rows", "zone")],
         [sum(counts["areas"]), sum(counts["zones"]), model.width])
    asked = [drawn.choice((*few, 0)) for _ in range(37)]
    same("HLR.MGSD", [code(reply) for reply in three("HLR.MGSD", key, *asked)], [model.gsd(one) for one in asked])
    asked = [(drawn.choice((*few, 0)), drawn.randint(1, 4)) for _ in range(37)]
    same("HLR.MGAD", [code(reply) for reply in three("HLR.MGAD", key, *sum(asked, ()))], [model.gad(*one) for one in asked])
    asked = [(drawn.choice((*few, 0)), drawn.randint(1, 4), drawn.choice((0, 8, 16)), drawn.randint(1, 24)) for _ in range(37)]
    same("HLR.MGND", [code(reply) for reply in three("HLR.MGND", key, *sum(asked, ()))], [model.gnd(*one) for one in asked])
    rows = model.rows()
    for count in (1, 3, len(rows), 10000):
        same(f"HLR.SCAN by {count}", scanned(three, key, count), rows)
    same("HLR.SCAN by RESP2", two("HLR.SCAN", key, 0, "COUNT", 100), [0, flat(rows)])
    same("all rows again by HLR.ADD", added(two, key + ":again", model), True)
    same("their digest", *(two("DEBUG", "DIGEST-VALUE", key, key + ":again")))
    two("DEL", key + ":again")


def scanned(connection, key, count):
    """All rows, by pages of so many subscribers."""
    cursor, rows = 0, []
    while True:
        cursor, page = connection("HLR.SCAN", key, cursor, "COUNT", count)
        rows += page
        if cursor == 0 or len(page) != count:
            return rows


def adding(two, three, number):
    """HLR.ADD of drawn rows, good and bad, in words of many lines."""
    drawn = random.Random(number)
    draw, key = Drawn(drawn, 40), f"adding:{number}"
    model = Model()
    two("HLR.CREATE", key)
    for _ in range(20):
        wanted, refused, lines = 0, [], []
        for row in range(1, drawn.randint(2, 200)):
            line, why = drawn.choice(NO_RECORDS), "ERR"
            if drawn.random() < 0.95:
                one = draw.row()
                line, why = record(one), getattr(model, one[0])(*one[1:])
            wanted += why == "OK"
            refused += [[row, why]] if why != "OK" else []
            lines.append(line + drawn.choice(("\n", "\r\n", "\n\n")))
        reply = three("HLR.ADD", key, *joined(drawn, lines))
        same("HLR.ADD: added, refused", (reply["added"], reply["refused"]), (wanted, len(refused)))
        same("HLR.ADD: refusals", [[place, why.split(" ")[0]] for place, why in reply["refusals"]], refused[:16])
    same("rows by HLR.ADD", three("HLR.SCAN", key, 0, "COUNT", 1000)[1], model.rows())
    same("counts by HLR.ADD", three("HLR.COUNTS", key), model.counts())


def joined(drawn, lines):
    """The lines in one word or in several, the last one with a line's end or without."""
    words, word = [], ""
    for line in lines:
        word += line
        if drawn.random() < 0.1:
            words.append(word)
            word = ""
    return [*words, word.rstrip("\r\n")]


def described(one):
    """COMMAND INFO, DOCS and GETKEYS of each command."""
    of_tests = {"hlr.refuse", "hlr.block"}
    same("commands", set(one("COMMAND", "LIST", "FILTERBY", "MODULE", "hlr")) - of_tests, {"hlr." + name for name in COMMANDS})
    one("HELLO", 3)
    for name, (flags, arity, key) in COMMANDS.items():
        told = one("COMMAND", "INFO", "hlr." + name)[0]
        same(f"arity of {name}", told[1], arity)
        same(f"flags of {name}", set(told[2]) - {"module"}, set(flags.split()))
        same(f"keys of {name}", told[3:6], [1, 1, 1] if key else [0, 0, 0])
        specs = [(sorted(spec["flags"]), spec["begin_search"], spec["find_keys"]) for spec in told[8]]
        wanted = (sorted(key.split()), {"type": "index", "spec": {"index": 1}},
                  {"type": "range", "spec": {"lastkey": 0, "keystep": 1, "limit": 0}}) if key else None
        same(f"key specification of {name}", specs, [wanted] if key else [])
        docs = one("COMMAND", "DOCS", "hlr." + name)["hlr." + name]
        check(f"docs of {name}", len(docs["summary"]) > 10 and docs["complexity"].startswith("O(") and docs["module"] == "hlr", docs)
        arguments = docs.get("arguments", [])
        same(f"arguments of {name}", 1 + sum(map(words_of, arguments)), abs(arity))
        may_be_more = any({"optional", "multiple"} & set(argument.get("flags", ())) for argument in arguments)
        same(f"optional arguments of {name}", may_be_more, arity < 0)
        if key:
            same(f"key of {name}", one("COMMAND", "GETKEYS", "hlr." + name, "mine", *["1"] * (abs(arity) - 2)), ["mine"])
    one("HELLO", 2)


def words_of(argument):
    """How many words an argument has at least."""
    if "optional" in argument.get("flags", ()):
        return 0
    return sum(map(words_of, argument["arguments"])) if argument["type"] == "block" else 1


def refusals(one):
    """What isn't of a command's form, and keys that have no register."""
    same("HLR.CREATE", one("HLR.CREATE", "e"), "OK")
    same("a register that is there", code(one("HLR.CREATE", "e")), "BUSYKEY")
    one("SET", "text", "x")
    for name, (_, arity, _) in COMMANDS.items():
        words = ["1"] * (abs(arity) - 2)
        if name in ("create", "help", "load"):
            continue
        same(f"{name} without a register", code(one("HLR." + name, "none", *words)), "NOREGISTER")
        same(f"{name} of a text", code(one("HLR." + name, "text", *words)), "WRONGTYPE")
        reply = one("HLR." + name, *["e"] * (abs(arity) - 2))
        check(f"{name} with few words", isinstance(reply, Error) and "wrong number of arguments" in reply, reply)
        if arity > 0:
            reply = one("HLR." + name, *["e"] * arity)
            check(f"{name} with many words", isinstance(reply, Error) and "wrong number of arguments" in reply, reply)
    same("HLR.CREATE of a text", code(one("HLR.CREATE", "text")), "BUSYKEY")
    for words in ("MGAD e 1 2 3", "MGND e 1 2 3 4 5", "COUNTS e FOO", "COUNTS e HOURS 2", "RECOUNT e hour", "SCAN e 0 COUNT",
                  "SCAN e 0 LIMIT 3", "CREATE f ZONE", "CREATE f WIDTH 3", "CREATE f ZONE 3 4"):
        same(words, one(*("HLR." + words).split()), "ERR syntax error")
    for words in ("GSD e x", "GSD e -1", "GSD e +1", "GSD e 1.0", "GSD e 1e3", "GSD e " + "9" * 40, "GSD e 18446744073709551617",
                  "CREATE f ZONE 0", "CREATE f ZONE 524289", "SCAN e x", "SCAN e 0 COUNT 0", "SCAN e 0 COUNT 10001", "LOAD e x",
                  "FIND e 1000000000000000"):
        same(words, code(one(*("HLR." + words).split())), "ERR")
    for word in ("", b"1\0", b"\xff", " 1", "1 "):
        same(f"the number {word!r}", code(one("HLR.GSD", "e", word)), "ERR")
    same("nothing was made", one("EXISTS", "f", "none"), 0)
    same("leading zeros", one("HLR.GSD", "e", "0" * 40 + "7"), None)
    same("a cursor behind all subscribers", one("HLR.SCAN", "e", 2**63), [0, []])
    same("HLR.HELP", len(one("HLR.HELP")), 4)


def subscriber(number, location=268435456):
    return number, number, "0" * 10, "0" * 10, "0" * 20, 1, location


def transactions(one, other):
    """MULTI, WATCH, Lua and the counts of errors."""
    one("HLR.CREATE", "t")
    for number in (1, 2):
        one("HLR.ADDSUB", "t", *subscriber(number))
    one("MULTI")
    for number in (1, 9, 2):
        one("HLR.UL", "t", number, 536870912)
    same("MULTI", [code(reply) for reply in one("EXEC")], ["OK", "NONUMBER", "OK"])
    for name, writes, wanted in (("refused", lambda: other("HLR.UL", "t", 9, 1), ["PONG"]), ("done", lambda: other("HLR.UL", "t", 1, 5), None),
                                 ("all refused", lambda: other("HLR.ADD", "t", "acc,9,1,1,1,ABC,ABCDE"), ["PONG"]),
                                 ("added", lambda: other("HLR.ADD", "t", "acc,1,1,1,1,ABC,ABCDE"), None)):
        one("WATCH", "t")
        writes()
        one("MULTI")
        one("PING")
        same(f"WATCH, and a write that is {name}", one("EXEC"), wanted)
    script = "local row = redis.call('HLR.GSD', KEYS[1], 1) redis.call('HLR.UL', KEYS[1], 2, row[14]) return row[14]"
    same("Lua", one("EVAL", script, 1, "t"), 5)
    same("what Lua wrote", one("HLR.GSD", "t", 2)[-1], 5)
    same("Lua, refused", code(one("EVAL", "return redis.pcall('HLR.UL', KEYS[1], 9, 1)", 1, "t")), "NONUMBER")
    counted = info(one, "errorstats")
    check("errors are counted by code", {"errorstat_NONUMBER", "errorstat_NOREGISTER"} <= set(counted), counted)


def events(one, server):
    """Keyspace events and the invalidation of clients that track a key: of writes that are done alone."""
    server.set("notify-keyspace-events", "Kd")
    listener, tracker = server.connection(), server.connection()
    listener("PSUBSCRIBE", "__keyspace@0__:t")
    tracker("HELLO", 3)
    tracker("CLIENT", "TRACKING", "ON")
    tracker("HLR.GSD", "t", 1)
    one("HLR.UL", "t", 9, 6)
    tracker("PING")
    same("a refused write invalidates nothing", tracker.pushed, [])
    for words in (("UL", "t", 1, 6), ("DCF", "t", 1, 1, 8), ("ADD", "t", "acc,9,1,1,1,ABC,ABCDE"), ("NUMBER", "t", 1, 77),
                  ("ADD", "t", "acc,1,2,1,1,ABC,ABCDE"), ("ADDFAC", "t", 1, 1, 1, 1, 1, "ABCDE"), ("ACTIVE", "t", 1, 1, 0)):
        one("HLR." + words[0], *words[1:])
    heard = [listener.reply()[-1] for _ in range(5)]
    same("events", heard, ["hlr.ul", "hlr.number", "hlr.add", "hlr.addfac", "hlr.active"])
    tracker("PING")
    same("a done write invalidates", tracker.pushed, [["invalidate", ["t"]]])


def counted(one):
    """INFO has the number of registers and their memory. UNLINK and FLUSHALL ASYNC free a big register in a thread."""
    one("FLUSHALL")
    model = filling(Model(), random.Random(1), 2000)
    for how, is_behind in (("DEL", False), ("UNLINK", True), ("FLUSHALL", True)):
        same("a register to be freed", added(one, "big", model), True)
        told, memory = info(one, "modules"), one("MEMORY", "USAGE", "big")
        same("registers", told["hlr_count"], 1)
        check("memory", 300_000 < told["hlr_memory"] <= memory < told["hlr_memory"] + 1000, (told, memory))
        same("memory of HLR.INFO", abs(one("HLR.INFO", "big")[-1] - told["hlr_memory"]) < 100, True)
        before = info(one, "memory")["lazyfreed_objects"]
        one(*([how, "big"] if how != "FLUSHALL" else [how, "ASYNC"]))
        wait_for(how, lambda: info(one, "modules")["hlr_count"] == 0)
        same(f"memory after {how}", info(one, "modules")["hlr_memory"], 0)
        same(f"{how}: freed by a thread", info(one, "memory")["lazyfreed_objects"] > before, is_behind)


def main():
    server = Server("one", sys.argv[1])
    one, three = server.connection(), server.connection()
    three("HELLO", 3)
    for number in range(int(sys.argv[2]) if len(sys.argv) > 2 else 20):
        model_round(one, three, number)
    for number in range(3):
        adding(one, three, number)
    described(one)
    refusals(one)
    transactions(one, server.connection())
    events(one, server)
    counted(one)
    same("the server is there", Connection(server.port)("PING"), "PONG")
    ended()


main()
