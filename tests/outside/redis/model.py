"""A register of plain dictionaries: what each command of the module replies, by the rules of docs/RECORDS.md."""
AREA = 268435456
STARTS = (0, 8, 16)


def is_in(*ranges):
    return all(low <= value <= high for value, low, high in ranges)


def digits(number):
    return f"{number:015}"


class Model:
    """Each method named as a command is given its words behind the key. It returns the reply, or an error's code."""

    def __init__(self, width=524288):
        self.width, self.subscribers, self.accesses, self.facilities = width, {}, {}, {}
        self.forwardings, self.numbers = {}, {}

    @staticmethod
    def is_number(number):
        return 0 <= number < 10**15

    @staticmethod
    def is_typed(s_id, kind):
        return is_in((s_id, 1, 16777216), (kind, 1, 4))

    def addsub(self, s_id, number, bits, hexes, octets, msc, vlr):
        if not is_in((s_id, 1, 16777216), (msc, 1, 2**32 - 1), (vlr, 1, 2**32 - 1)) or not self.is_number(number):
            return "ERR"
        if len(bits) != 10 or set(bits) - set("01") or len(hexes) != 10 or len(octets) != 20:
            return "ERR"
        if s_id in self.subscribers:
            return "EXISTS"
        if number in self.numbers:
            return "NUMBERTAKEN"
        self.subscribers[s_id] = [number, bits, hexes.lower(), octets.lower(), msc, vlr]
        self.numbers[number] = s_id
        return "OK"

    def addacc(self, s_id, kind, data1, data2, data3, data4):
        if not self.is_typed(s_id, kind) or not is_in((data1, 0, 255), (data2, 0, 255)) or (len(data3), len(data4)) != (3, 5):
            return "ERR"
        return self.add_row(self.accesses, s_id, kind, {"data1": data1, "data2": data2, "data3": data3, "data4": data4})

    def addfac(self, s_id, kind, active, error_cntrl, data_a, data_b):
        if not self.is_typed(s_id, kind) or not is_in((active, 0, 1), (error_cntrl, 0, 255), (data_a, 0, 255)) or len(data_b) != 5:
            return "ERR"
        return self.add_row(self.facilities, s_id, kind,
                            {"is_active": active, "error_cntrl": error_cntrl, "data_a": data_a, "data_b": data_b})

    def add_row(self, table, s_id, kind, row):
        if s_id not in self.subscribers:
            return "NOSUBSCRIBER"
        if (s_id, kind) in table:
            return "EXISTS"
        table[s_id, kind] = row
        return "OK"

    def gsd(self, s_id):
        if not is_in((s_id, 1, 16777216)):
            return "ERR"
        if s_id not in self.subscribers:
            return None
        number, bits, hexes, octets, msc, vlr = self.subscribers[s_id]
        return {"s_id": s_id, "sub_nbr": digits(number), "bits": bits, "hexes": hexes, "bytes": octets,
                "msc_location": msc, "vlr_location": vlr}

    def gad(self, s_id, kind):
        return self.accesses.get((s_id, kind)) if self.is_typed(s_id, kind) else "ERR"

    def gfd(self, s_id, kind):
        return self.facilities.get((s_id, kind)) if self.is_typed(s_id, kind) else "ERR"

    def gcf(self, s_id, kind, start):
        if not self.is_typed(s_id, kind) or start not in STARTS:
            return "ERR"
        return self.forwardings.get((s_id, kind, start))

    def gnd(self, s_id, kind, start, end):
        if not self.is_typed(s_id, kind) or start not in STARTS or not is_in((end, 1, 24)):
            return "ERR"
        if self.facilities.get((s_id, kind), {"is_active": 0})["is_active"] == 0:
            return []
        rows = [self.forwardings.get((s_id, kind, one)) for one in STARTS if one <= start]
        return [row["numberx"] for row in rows if row and row["end_time"] > end]

    def usd(self, s_id, kind, bit, data_a):
        if not self.is_typed(s_id, kind) or not is_in((bit, 0, 1), (data_a, 0, 255)):
            return "ERR"
        if s_id not in self.subscribers:
            return "NOSUBSCRIBER"
        if (s_id, kind) not in self.facilities:
            return "NOFACILITY"
        self.subscribers[s_id][1] = str(bit) + self.subscribers[s_id][1][1:]
        self.facilities[s_id, kind]["data_a"] = data_a
        return "OK"

    def ul(self, number, vlr):
        if not self.is_number(number) or not is_in((vlr, 1, 2**32 - 1)):
            return "ERR"
        if number not in self.numbers:
            return "NONUMBER"
        self.subscribers[self.numbers[number]][5] = vlr
        return "OK"

    def icf(self, number, kind, start, end, numberx):
        if not self.is_number(number) or not self.is_number(numberx) or start not in STARTS or not is_in((kind, 1, 4), (end, 1, 24)):
            return "ERR"
        if number not in self.numbers:
            return "NONUMBER"
        s_id = self.numbers[number]
        if (s_id, kind) not in self.facilities:
            return "NOFACILITY"
        if (s_id, kind, start) in self.forwardings:
            return "EXISTS"
        self.forwardings[s_id, kind, start] = {"end_time": end, "numberx": digits(numberx)}
        return "OK"

    def dcf(self, number, kind, start):
        if not self.is_number(number) or start not in STARTS or not is_in((kind, 1, 4)):
            return "ERR"
        if number not in self.numbers:
            return "NONUMBER"
        return "OK" if self.forwardings.pop((self.numbers[number], kind, start), None) else "NOFORWARDING"

    def active(self, s_id, kind, active):
        if not self.is_typed(s_id, kind) or not is_in((active, 0, 1)):
            return "ERR"
        if (s_id, kind) not in self.facilities:
            return "NOFACILITY"
        self.facilities[s_id, kind]["is_active"] = active
        return "OK"

    def number(self, s_id, number):
        if not is_in((s_id, 1, 16777216)) or not self.is_number(number):
            return "ERR"
        if s_id not in self.subscribers:
            return "NOSUBSCRIBER"
        if self.numbers.get(number, s_id) != s_id:
            return "NUMBERTAKEN"
        del self.numbers[self.subscribers[s_id][0]]
        self.subscribers[s_id][0] = number
        self.numbers[number] = s_id
        return "OK"

    def find(self, number):
        return self.numbers.get(number) if self.is_number(number) else "ERR"

    def counts(self):
        hours, areas, zones = [0] * 24, [0] * 16, [0] * 32
        for row in self.subscribers.values():
            areas[row[5] // AREA] += 1
        for s_id in [*self.subscribers, *(key[0] for table in (self.accesses, self.facilities, self.forwardings) for key in table)]:
            zones[min(31, (s_id - 1) // self.width)] += 1
        for (s_id, kind, start), row in self.forwardings.items():
            for hour in range(start, row["end_time"] if self.facilities[s_id, kind]["is_active"] else start):
                hours[hour] += 1
        return {"hours": hours, "areas": areas, "zones": zones}

    def rows(self):
        """All rows, as HLR.SCAN replies them."""
        rows = []
        for s_id in sorted(self.subscribers):
            rows.append({
                "subscriber": self.gsd(s_id),
                "accesses": [{"ai_type": kind, **row} for (one, kind), row in sorted(self.accesses.items()) if one == s_id],
                "facilities": [{"sf_type": kind, **row} for (one, kind), row in sorted(self.facilities.items()) if one == s_id],
                "forwardings": [{"sf_type": kind, "start_time": start, **row}
                                for (one, kind, start), row in sorted(self.forwardings.items()) if one == s_id]})
        return rows

    def records(self):
        """All rows as records, each behind those that it needs."""
        for s_id, (number, *fields) in sorted(self.subscribers.items()):
            yield ",".join(map(str, ("sub", s_id, digits(number), *fields)))
        for name, table in (("acc", self.accesses), ("fac", self.facilities)):
            for key, row in sorted(table.items()):
                yield ",".join(map(str, (name, *key, *row.values())))
        for (s_id, kind, start), row in sorted(self.forwardings.items()):
            yield f"icf,{digits(self.subscribers[s_id][0])},{kind},{start},{row['end_time']},{row['numberx']}"
