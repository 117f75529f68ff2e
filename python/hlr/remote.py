"""A register in a Redis server that has loaded the module hlr.so, with the calls and exceptions of `hlr.Register`.

It needs python3-redis, a package of Debian, and `import hlr` doesn't import it:

    import redis
    import hlr
    import hlr.remote

    register = hlr.remote.Register.create(redis.Redis(), "hlr", width=3125)
    register.add_subscriber(hlr.Subscriber(7, 49151000007))
    print(register.subscriber_data(7).vlr_location, register.views()[0][24])

A call that is refused raises the exception of its code, which is a subclass of `hlr.Refused`. NotOpen says that there
is no register at the key, and StillOpen that something is there already. Anything else that goes wrong, such as a lost
connection or a missing right, is raised as an exception of python3-redis. A write whose connection was lost may have
been done or not.

Several clients may use a register at once, because the server does one command after another. Each call is one command,
apart from the iterators, `save` and `load`, and those of `Cluster` that concern all registers.
"""
import bisect
from operator import index
from typing import (Any, Callable, Dict, Iterable, Iterator, List, Mapping, NamedTuple, Optional, Sequence, TextIO,
                    Tuple, Type, Union)

import redis

from .records import access_fields, facility_fields, records_of, subscriber_fields
from .refusals import Code, NoAccess, NoDestination, NoFacility, NoForwarding, NoNumber, NoSubscriber, Refused, refusal
from .register import CELLS, Access, Cell, Facility, Forwarding, Subscriber, named_cells

#: How many subscribers one HLR.SCAN reads for an iterator.
_PAGE = 256
#: How many records one HLR.ADD of `load` has.
_RECORDS = 500

#: The first word of an error, and the code that it stands for.
_CODES = {
    "OOM": Code.MEMORY, "NOSUBSCRIBER": Code.NO_SUBSCRIBER, "NONUMBER": Code.NO_NUMBER, "NOFACILITY": Code.NO_FACILITY,
    "NOFORWARDING": Code.NO_FORWARDING, "EXISTS": Code.EXISTS, "NUMBERTAKEN": Code.NUMBER_TAKEN,
    "NOREGISTER": Code.NOT_OPEN, "BUSYKEY": Code.STILL_OPEN,
}
_FIELD = "a field is out of its range"


def _refused(text: str, name: str) -> Optional[Refused]:
    """The exception that an error of the module stands for, or None for an error of another kind."""
    text = text[4:] if text.startswith("ERR ") else text
    if text.startswith(_FIELD):
        return refusal(Code.FIELD, name)
    code = _CODES.get(text.split(" ", 1)[0])
    return None if code is None else refusal(code, name)


def _word(value: Union[int, str]) -> Union[int, str]:
    """A word of a command. Only letters and digits that are text already are passed on as they are."""
    return value if isinstance(value, str) else index(value)


def _text(value: Union[str, bytes]) -> str:
    return value.decode("ascii") if isinstance(value, bytes) else value


def _fields(reply: Any) -> Dict[str, Any]:
    """The names and values of a map, which arrives as a flat list over RESP2."""
    pairs = reply.items() if isinstance(reply, dict) else zip(reply[::2], reply[1::2])
    return {_text(name): value for name, value in pairs}


def _digits(value: Union[str, bytes], each: int) -> bytes:
    text = _text(value)
    return bytes(int(text[at:at + each], 16) for at in range(0, len(text), each))


def _subscriber(reply: Any) -> Subscriber:
    row = _fields(reply)
    return Subscriber(row["s_id"], int(row["sub_nbr"]), _digits(row["bits"], 1), _digits(row["hexes"], 1),
                      _digits(row["bytes"], 2), row["msc_location"], row["vlr_location"])


def _access(s_id: int, ai_type: int, row: Dict[str, Any]) -> Access:
    return Access(s_id, ai_type, row["data1"], row["data2"], _text(row["data3"]), _text(row["data4"]))


def _facility(s_id: int, sf_type: int, row: Dict[str, Any]) -> Facility:
    return Facility(s_id, sf_type, bool(row["is_active"]), row["error_cntrl"], row["data_a"], _text(row["data_b"]))


def _forwarding(s_id: int, row: Dict[str, Any]) -> Forwarding:
    return Forwarding(s_id, row["sf_type"], row["start_time"], row["end_time"], int(row["numberx"]))


def _numbers(reply: Any) -> List[int]:
    return [int(number) for number in reply]


class Rows(NamedTuple):
    """A subscriber, and the rows that belong to it, each list in the order of its keys."""

    subscriber: Subscriber
    accesses: List[Access]
    facilities: List[Facility]
    forwardings: List[Forwarding]


def _rows(reply: Any) -> Rows:
    tables = _fields(reply)
    subscriber = _subscriber(tables["subscriber"])
    s_id = subscriber.s_id
    accesses, facilities = list(map(_fields, tables["accesses"])), list(map(_fields, tables["facilities"]))
    return Rows(subscriber, [_access(s_id, row["ai_type"], row) for row in accesses],
                [_facility(s_id, row["sf_type"], row) for row in facilities],
                [_forwarding(s_id, _fields(row)) for row in tables["forwardings"]])


class Register:
    """The register at a key. `client` is a `redis.Redis` or a `redis.RedisCluster`, with or without decode_responses.

    No command is sent before the first call, and nothing has to be closed. The calls raise the exceptions that the same
    calls of `hlr.Register` raise, and each of them also raises NotOpen. Moving and Away don't occur, because a register
    in a server has one part. For the same reason there are no calls on parts, and what is published and what is
    unposted is one count.
    """

    def __init__(self, client: Any, key: str) -> None:
        self.client, self.key = client, key

    @classmethod
    def create(cls, client: Any, key: str, width: int = 524288) -> "Register":
        """Makes an empty register whose zones have so many subscribers, 1 to 524288. Raises Field, Memory,
        StillOpen."""
        register = cls(client, key)
        register._ask("CREATE", "ZONE", width)
        return register

    def __repr__(self) -> str:
        return f"{type(self).__name__}({self.key!r})"

    def _ask(self, name: str, *words: Any) -> Any:
        """Sends a command, and returns its reply."""
        try:
            return self.client.execute_command("HLR." + name, self.key, *map(_word, words))
        except redis.ResponseError as error:
            # newer versions of python3-redis have an exception for OOM, and leave the code out of its text
            is_memory = type(error).__name__ == "OutOfMemoryError"
            refused = _refused("OOM" if is_memory else str(error), name.lower())
            if refused is None:
                raise
            raise refused from None

    def _read(self, missing: Type[Refused], name: str, *words: Any) -> Any:
        """The reply of a read, or the exception if there is nothing."""
        reply = self._ask(name, *words)
        if reply is None or reply == []:
            raise refusal(missing.code, name.lower())
        return reply

    # ---- reads ----

    def subscriber_data(self, s_id: int) -> Subscriber:
        """Reads a subscriber. Raises Field, NoSubscriber."""
        return _subscriber(self._read(NoSubscriber, "GSD", s_id))

    def new_destination(self, s_id: int, sf_type: int, start_time: int, end_time: int) -> List[int]:
        """Returns the numbers that an active facility forwards a call to, in the order of the forwardings' starts.
        Raises Field, NoDestination."""
        return _numbers(self._read(NoDestination, "GND", s_id, sf_type, start_time, end_time))

    def access_data(self, s_id: int, ai_type: int) -> Access:
        """Reads an access. Raises Field, NoAccess."""
        return _access(s_id, ai_type, _fields(self._read(NoAccess, "GAD", s_id, ai_type)))

    def facility_data(self, s_id: int, sf_type: int) -> Facility:
        """Reads a facility. Raises Field, NoFacility."""
        return _facility(s_id, sf_type, _fields(self._read(NoFacility, "GFD", s_id, sf_type)))

    def forwarding(self, s_id: int, sf_type: int, start_time: int) -> Tuple[int, int]:
        """Returns the end_time and the numberx of a forwarding. Raises Field, NoForwarding."""
        row = _fields(self._read(NoForwarding, "GCF", s_id, sf_type, start_time))
        return row["end_time"], int(row["numberx"])

    def find(self, sub_nbr: int) -> int:
        """Returns the s_id of the subscriber who has a number. Raises Field, NoNumber."""
        s_id: int = self._read(NoNumber, "FIND", sub_nbr)
        return s_id

    def subscriber_data_many(self, s_ids: Sequence[int]) -> List[Union[Subscriber, Refused]]:
        """Reads many subscribers with one command: for each s_id the row, or the exception of `subscriber_data`."""
        return self._many("MGSD", NoSubscriber, [(s_id,) for s_id in s_ids], lambda asked, row: _subscriber(row))

    def access_data_many(self, asked: Sequence[Tuple[int, int]]) -> List[Union[Access, Refused]]:
        """Reads many accesses with one command: for each s_id and ai_type the row, or the exception of
        `access_data`."""
        return self._many("MGAD", NoAccess, asked, lambda asked, row: _access(*asked, _fields(row)))

    def new_destination_many(self, asked: Sequence[Tuple[int, int, int, int]]) -> List[Union[List[int], Refused]]:
        """Answers many calls with one command: for each s_id, sf_type, start_time and end_time the numbers, or the
        exception of `new_destination`."""
        return self._many("MGND", NoDestination, asked, lambda asked, numbers: _numbers(numbers))

    def _many(self, name: str, missing: Type[Refused], asked: Sequence[Any],
              told: Callable[[Tuple[int, ...], Any], Any]) -> List[Any]:
        if not asked:
            return []
        results: List[Any] = []
        for each, reply in zip(asked, self._ask(name, *(word for words in asked for word in words))):
            if isinstance(reply, Exception):
                results.append(_refused(str(reply), name.lower()) or reply)
            elif reply is None or reply == []:
                results.append(refusal(missing.code, name.lower()))
            else:
                results.append(told(each, reply))
        return results

    # ---- writes ----

    def add_subscriber(self, row: Subscriber) -> None:
        """Adds a subscriber. Raises Field, Exists, NumberTaken, Memory."""
        self._ask("ADDSUB", *subscriber_fields(row))

    def add_access(self, row: Access) -> None:
        """Adds an access. Raises Field, NoSubscriber, Exists, Memory."""
        self._ask("ADDACC", *access_fields(row))

    def add_facility(self, row: Facility) -> None:
        """Adds a facility. Raises Field, NoSubscriber, Exists, Memory."""
        self._ask("ADDFAC", *facility_fields(row))

    def update_subscriber(self, s_id: int, sf_type: int, bit_1: int, data_a: int) -> None:
        """Sets bit_1 of the subscriber and data_a of the facility, or neither. Raises Field, NoSubscriber,
        NoFacility."""
        self._ask("USD", s_id, sf_type, bit_1, data_a)

    def update_location(self, sub_nbr: int, vlr_location: int) -> None:
        """Sets the location of the subscriber with this number. Raises Field, NoNumber."""
        self._ask("UL", sub_nbr, vlr_location)

    def insert_forwarding(self, sub_nbr: int, sf_type: int, start_time: int, end_time: int, numberx: int) -> None:
        """Adds a forwarding to numberx for the subscriber with this number. Raises Field, NoNumber, NoFacility, Exists,
        Memory."""
        self._ask("ICF", sub_nbr, sf_type, start_time, end_time, numberx)

    def delete_forwarding(self, sub_nbr: int, sf_type: int, start_time: int) -> None:
        """Removes a forwarding of the subscriber with this number. Raises Field, NoNumber, NoForwarding."""
        self._ask("DCF", sub_nbr, sf_type, start_time)

    def set_active(self, s_id: int, sf_type: int, is_active: bool) -> None:
        """Switches a facility on or off, and with it all of its forwardings. Raises Field, NoFacility."""
        self._ask("ACTIVE", s_id, sf_type, is_active)

    def set_number(self, s_id: int, sub_nbr: int) -> None:
        """Gives a subscriber another number. Raises Field, NoSubscriber, NumberTaken, Memory."""
        self._ask("NUMBER", s_id, sub_nbr)

    # ---- counts ----

    def views(self) -> Tuple[List[int], List[int]]:
        """Returns the count of each cell, and a list of zeros, without reading a row. The zeros stand for what is
        unposted of a register in the own process, so that programs which add up both lists work for either."""
        return self._counts("COUNTS"), [0] * CELLS

    def cells(self) -> Iterator[Cell]:
        """Iterates over the cells of `views`, with their names."""
        return named_cells(*self.views())

    def scan(self) -> List[int]:
        """Counts each cell anew, by a walk over all rows. Other clients wait meanwhile."""
        return self._counts("RECOUNT")

    def _counts(self, name: str) -> List[int]:
        kinds = _fields(self._ask(name))
        return [*kinds["hours"], *kinds["areas"], *kinds["zones"]]

    def width(self) -> int:
        """Returns how many subscribers a zone has."""
        return int(_fields(self._ask("INFO"))["zone"])

    # ---- all rows ----

    def rows(self, s_id: int = 1) -> Iterator[Rows]:
        """Iterates over the subscribers with an s_id from this one on, in order, each with all of its rows. It reads
        256 subscribers at a time, so the rows of each are as they were when its page was read. Raises Field."""
        while s_id:
            s_id, page = self._ask("SCAN", s_id, "COUNT", _PAGE)
            yield from map(_rows, page)

    def subscribers(self, s_id: int = 1) -> Iterator[Subscriber]:
        """Iterates over the subscribers with an s_id from this one on, as `rows` does."""
        return (rows.subscriber for rows in self.rows(s_id))

    def accesses(self) -> Iterator[Access]:
        """Iterates over all accesses, by s_id and then ai_type, as `rows` does."""
        return (row for rows in self.rows() for row in rows.accesses)

    def facilities(self) -> Iterator[Facility]:
        """Iterates over all facilities, by s_id and then sf_type, as `rows` does."""
        return (row for rows in self.rows() for row in rows.facilities)

    def forwardings(self) -> Iterator[Forwarding]:
        """Iterates over all forwardings, by s_id, then sf_type, then start_time, as `rows` does."""
        return (row for rows in self.rows() for row in rows.forwardings)


def save(register: Register, file: TextIO) -> int:
    """Writes all rows as the records sub, acc, fac and icf, as `hlr.save` does, and returns how many records there are.
    Other clients may write meanwhile, so the rows of each subscriber belong to one moment, but not those of two."""
    count = 0
    for rows in register.rows():
        for fields in records_of(*rows):
            print(*fields, sep=",", file=file)
            count += 1
    return count


def load(register: Register, file: Iterable[str]) -> int:
    """Adds the rows of the records sub, acc, fac and icf, 500 with a command, and returns how many were added. The
    first record that is refused ends it: it raises the exception of the code, or ValueError for what is no such record,
    with the record's line. The rows before that line, and those of the same command behind it, stay."""
    count = 0
    records: Dict[int, str] = {}
    for number, line in enumerate(file, 1):
        if line.strip():
            records[number] = line.rstrip("\r\n")
        if len(records) == _RECORDS:
            count += _added(register, records)
            records = {}
    return count + _added(register, records)


def _added(register: Register, records: Dict[int, str]) -> int:
    """Adds records, given with their lines' numbers, with one command, and returns how many there are."""
    if not records:
        return 0
    for place, why in _fields(register._ask("ADD", "\n".join(records.values())))["refusals"]:
        what = f"line {list(records)[place - 1]}: {_text(why)}"
        raise _refused(_text(why), what) or ValueError(what)
    return len(records)


class Cluster:
    """Registers for blocks of numbers, in the nodes of a cluster or in one server.

    `blocks` maps each range of numbers to the key of its register. `client` is a `redis.RedisCluster`, which finds the
    node of a key and follows keys that move, or a `redis.Redis`. Calls that name a number go to the register of its
    block, and raise NoNumber if no block has it. The counts are sums over all registers, each of them counted at its
    own moment.

    >>> cluster = Cluster(None, blocks_of(49151200000, 3))
    >>> cluster.key(49151234567)
    'hlr:491512'
    """

    def __init__(self, client: Any, blocks: Mapping[range, str]) -> None:
        self.client, self.blocks = client, sorted(blocks.items(), key=lambda block: block[0].start)
        for (numbers, _), (behind, _) in zip(self.blocks, self.blocks[1:]):
            if behind.start < numbers.stop:
                raise ValueError(f"{numbers} and {behind} overlap")
        self._starts = [numbers.start for numbers, _ in self.blocks]

    def create(self, width: int = 524288) -> None:
        """Makes an empty register for each block. Raises Field, Memory, StillOpen."""
        for _, key in self.blocks:
            Register.create(self.client, key, width)

    def key(self, sub_nbr: int) -> str:
        """Returns the key of the register for a number. Raises NoNumber."""
        place = bisect.bisect_right(self._starts, index(sub_nbr)) - 1
        if place < 0 or sub_nbr not in self.blocks[place][0]:
            raise refusal(Code.NO_NUMBER, "key")
        return self.blocks[place][1]

    def register(self, sub_nbr: int) -> Register:
        """Returns the register for a number. Raises NoNumber."""
        return Register(self.client, self.key(sub_nbr))

    def registers(self) -> List[Register]:
        """Returns all registers, in the order of their numbers."""
        return [Register(self.client, key) for _, key in self.blocks]

    def find(self, sub_nbr: int) -> Tuple[Register, int]:
        """Returns the register that has a number, and the s_id of the subscriber there. Raises Field, NoNumber."""
        register = self.register(sub_nbr)
        return register, register.find(sub_nbr)

    def update_location(self, sub_nbr: int, vlr_location: int) -> None:
        """Sets the location of the subscriber with this number. Raises Field, NoNumber."""
        self.register(sub_nbr).update_location(sub_nbr, vlr_location)

    def insert_forwarding(self, sub_nbr: int, sf_type: int, start_time: int, end_time: int, numberx: int) -> None:
        """Adds a forwarding for the subscriber with this number. Raises what `Register.insert_forwarding` raises."""
        self.register(sub_nbr).insert_forwarding(sub_nbr, sf_type, start_time, end_time, numberx)

    def delete_forwarding(self, sub_nbr: int, sf_type: int, start_time: int) -> None:
        """Removes a forwarding of the subscriber with this number. Raises Field, NoNumber, NoForwarding."""
        self.register(sub_nbr).delete_forwarding(sub_nbr, sf_type, start_time)

    def hours(self) -> List[int]:
        """Returns for each hour how many forwardings of active facilities cover it, in all registers."""
        return self._sums("HOURS")

    def areas(self) -> List[int]:
        """Returns for each area how many subscribers are in it, in all registers."""
        return self._sums("AREAS")

    def _sums(self, kind: str) -> List[int]:
        return [sum(counts) for counts in zip(*(register._ask("COUNTS", kind) for register in self.registers()))]


def blocks_of(first: int, count: int, size: int = 100000, prefix: str = "hlr:") -> Dict[range, str]:
    """Returns so many blocks of `size` numbers each, the first of which begins at a multiple of `size`. The key of a
    block is the prefix and the digits that its numbers begin with.

    >>> blocks_of(49151200000, 2)
    {range(49151200000, 49151300000): 'hlr:491512', range(49151300000, 49151400000): 'hlr:491513'}
    """
    if first % size:
        raise ValueError(f"{first} is no multiple of {size}")
    starts = range(first, first + count * size, size)
    return {range(start, start + size): f"{prefix}{start // size}" for start in starts}
