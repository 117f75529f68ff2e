"""Drawn commands and rows: mostly in range, so that they meet, and now and then at the edge of a range or beyond it."""
LETTERS = "ABCDEFGHIJKLMNOPQRSTUVWXYZ"


class Drawn:
    """Draws for a register of a few subscribers."""

    def __init__(self, random, few):
        self.random, self.few = random, few

    def mostly(self, usual, seldom, share=0.05):
        return self.random.choice(seldom) if self.random.random() < share else usual

    def s_id(self):
        return self.mostly(self.random.randint(1, self.few), (0, 16777216, 16777217, 2**64 - 1, 2**64 + 1))

    def number(self):
        return self.mostly(self.random.randint(1, self.few + 2), (0, 10**15 - 1, 10**15, 2**64 + 1))

    def kind(self):
        return self.mostly(self.random.randint(1, 4), (0, 5, 257))

    def octet(self):
        return self.mostly(self.random.randint(0, 255), (256, 2**32))

    def bit(self):
        return self.mostly(self.random.randint(0, 1), (2, 256))

    def start(self):
        return self.mostly(self.random.choice((0, 8, 16)), (1, 17, 24, 264))

    def end(self):
        return self.mostly(self.random.randint(1, 24), (0, 25, 256 + 9))

    def location(self):
        return self.mostly(self.random.randint(1, 2**32 - 1), (0, 1, 2**32 - 1, 2**32, 268435455, 268435456), 0.1)

    def letters(self, count):
        return "".join(self.random.choices(LETTERS, k=self.mostly(count, (count - 1, count + 1), 0.02)))

    def digits(self, count, base="0123456789abcdefABCDEF"):
        return "".join(self.random.choices(base, k=self.mostly(count, (count - 1, count + 1), 0.02)))

    def subscriber(self):
        return ("addsub", self.s_id(), self.number(), self.digits(10, "01"), self.digits(10), self.digits(20), self.location(),
                self.location())

    def access(self):
        return "addacc", self.s_id(), self.kind(), self.octet(), self.octet(), self.letters(3), self.letters(5)

    def facility(self):
        return "addfac", self.s_id(), self.kind(), self.mostly(1, (0, 0, 2), 0.3), self.octet(), self.octet(), self.letters(5)

    def forwarding(self):
        return "icf", self.number(), self.kind(), self.start(), self.end(), self.number()

    def row(self):
        return self.random.choice((self.subscriber, self.access, self.facility, self.forwarding))()

    def write(self):
        return self.random.choice((
            self.subscriber, self.access, self.facility, self.forwarding, self.forwarding,
            lambda: ("usd", self.s_id(), self.kind(), self.bit(), self.octet()),
            lambda: ("ul", self.number(), self.location()),
            lambda: ("dcf", self.number(), self.kind(), self.start()),
            lambda: ("active", self.s_id(), self.kind(), self.bit()),
            lambda: ("number", self.s_id(), self.number())))()

    def read(self):
        return self.random.choice((
            lambda: ("gsd", self.s_id()), lambda: ("find", self.number()),
            lambda: ("gad", self.s_id(), self.kind()), lambda: ("gfd", self.s_id(), self.kind()),
            lambda: ("gcf", self.s_id(), self.kind(), self.start()),
            lambda: ("gnd", self.s_id(), self.kind(), self.start(), self.end())))()

    def command(self):
        return self.write() if self.random.random() < 0.6 else self.read()


def record(row):
    """A row that was drawn, as a record."""
    name = {"addsub": "sub", "addacc": "acc", "addfac": "fac", "icf": "icf"}[row[0]]
    return ",".join(map(str, (name, *row[1:])))


def filling(model, random, subscribers):
    """Gives a model so many subscribers with all kinds of rows."""
    for s_id in range(1, subscribers + 1):
        model.addsub(s_id, s_id, format(random.getrandbits(10), "010b"), format(random.getrandbits(40), "010x"),
                     format(random.getrandbits(80), "020x"), random.randint(1, 2**32 - 1), random.randint(1, 2**32 - 1))
        for kind in random.sample((1, 2, 3, 4), random.randint(1, 4)):
            model.addacc(s_id, kind, random.randrange(256), random.randrange(256), "".join(random.choices(LETTERS, k=3)),
                         "".join(random.choices(LETTERS, k=5)))
        for kind in random.sample((1, 2, 3, 4), random.randint(1, 4)):
            model.addfac(s_id, kind, int(random.random() < 0.85), random.randrange(256), random.randrange(256),
                         "".join(random.choices(LETTERS, k=5)))
            for start in random.sample((0, 8, 16), random.randint(0, 3)):
                model.icf(s_id, kind, start, start + random.randint(1, 8), random.randrange(10**15))
    return model


def added(connection, key, model):
    """Makes a register of a model's rows, by HLR.CREATE and HLR.ADD: whether all were added."""
    records = list(model.records())
    if connection("HLR.CREATE", key, "ZONE", model.width) != "OK":
        return False
    replies = connection.many((("HLR.ADD", key, "\n".join(records[begin:begin + 1000])) for begin in range(0, len(records), 1000)), 20)
    counts = [dict(zip(reply[::2], reply[1::2])) if isinstance(reply, list) else reply for reply in replies]
    return sum(one["added"] for one in counts) == len(records) and not any(one["refused"] for one in counts)
