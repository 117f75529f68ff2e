"""A register with its rows, its counts, and the parts that it lends."""
import ctypes
import enum
import os
import threading
from dataclasses import dataclass
from operator import index
from typing import (Any, Callable, ContextManager, Iterable, Iterator, List, Optional, Sequence, Tuple, Type, Union,
                    overload)

from . import library as c
from .refusals import Code, Field, NoAccess, NoFacility, NoForwarding, NotOpen, Refused, refusal

#: How many cells there are.
CELLS = c.CELLS

#: How many rows one call reads for an iterator over a table.
_PAGE = 256


class Side(enum.IntEnum):
    """Which subscribers a part gives away: those below a subscriber, or those from it on."""

    LOW = 0
    HIGH = 1


class Kind(enum.Enum):
    """What a cell counts."""

    HOUR = "hour"  #: forwardings of active facilities, cells 0 to 23
    AREA = "area"  #: subscribers by vlr_location / 268435456, cells 24 to 39
    ZONE = "zone"  #: rows of all tables by (s_id - 1) / width, cells 40 to 71


@dataclass
class Subscriber:
    """A row of the table Subscriber. `bits`, `hexes` and `octets` have ten numbers each: 0 or 1, 0 to 15, and 0 to 255.

    >>> Subscriber(7, 77).vlr_location
    1
    """

    s_id: int
    sub_nbr: int
    bits: bytes = bytes(10)
    hexes: bytes = bytes(10)
    octets: bytes = bytes(10)
    msc_location: int = 1
    vlr_location: int = 1


@dataclass
class Access:
    """A row of the table Access_Info. `data3` has three letters of A to Z, and `data4` has five."""

    s_id: int
    ai_type: int
    data1: int = 0
    data2: int = 0
    data3: str = "AAA"
    data4: str = "AAAAA"


@dataclass
class Facility:
    """A row of the table Special_Facility. `data_b` has five letters of A to Z."""

    s_id: int
    sf_type: int
    is_active: bool = True
    error_cntrl: int = 0
    data_a: int = 0
    data_b: str = "AAAAA"


@dataclass
class Forwarding:
    """A Call_Forwarding row."""

    s_id: int
    sf_type: int
    start_time: int
    end_time: int
    numberx: int


@dataclass(frozen=True)
class Region:
    """The subscribers from `lo` on and below `hi`, and the part or the loose piece that has them."""

    lo: int
    hi: int
    is_piece: bool
    number: int


@dataclass(frozen=True)
class Cell:
    """A live count. What is published and what is unposted add up to the count over the rows now."""

    number: int
    kind: Kind
    name: str
    published: int
    unposted: int


def _names() -> Iterator[Tuple[Kind, str]]:
    for kind, count in ((Kind.HOUR, 24), (Kind.AREA, 16), (Kind.ZONE, 32)):
        for number in range(count):
            yield kind, f"{kind.value} {number}"


_NAMES = list(_names())


def named_cells(published: Sequence[int], unposted: Sequence[int]) -> Iterator[Cell]:
    """Iterates over the cells with these counts."""
    return (Cell(number, *_NAMES[number], published[number], unposted[number]) for number in range(CELLS))


def _number(value: int) -> int:
    """Checks that a number has at most 64 bits, because ctypes would cut off the rest."""
    if not 0 <= index(value) < 1 << 64:
        raise Field(f"{value} is no number of 64 bits")
    return index(value)


def _path(journal: Union[str, bytes, "os.PathLike[str]"]) -> bytes:
    """Returns a path as C has it, which ends at its first 0."""
    path = os.fsencode(journal)
    if b"\0" in path:
        raise ValueError("the path of a journal has a 0 in it")
    return path


def _ten(value: bytes) -> "ctypes.Array[ctypes.c_uint8]":
    if not isinstance(value, (bytes, bytearray)):
        raise TypeError(f"bits, hexes and octets are bytes, and not {type(value).__name__}")
    if len(value) != 10:
        raise Field(f"bits, hexes and octets are ten bytes, and not {len(value)}")
    return (ctypes.c_uint8 * 10)(*value)


def _letters(text: str, count: int) -> "ctypes.Array[ctypes.c_uint8]":
    if not isinstance(text, str):
        raise TypeError(f"letters are str, and not {type(text).__name__}")
    if len(text) != count or not text.isascii():
        raise Field(f"{text!r} isn't {count} letters A to Z")
    return (ctypes.c_uint8 * count)(*text.encode("ascii"))


def _subscriber(row: c.SubscriberRow) -> Subscriber:
    return Subscriber(row.s_id, row.sub_nbr, bytes(row.bits), bytes(row.hexes), bytes(row.bytes), row.msc_location,
                      row.vlr_location)


def _access(row: c.AccessRow) -> Access:
    return Access(row.s_id, row.ai_type, row.data1, row.data2, bytes(row.data3).decode("ascii"),
                  bytes(row.data4).decode("ascii"))


def _facility(row: c.FacilityRow) -> Facility:
    return Facility(row.s_id, row.sf_type, bool(row.is_active), row.error_cntrl, row.data_a,
                    bytes(row.data_b).decode("ascii"))


def _forwarding(row: c.ForwardingRow) -> Forwarding:
    return Forwarding(row.s_id, row.sf_type, row.start_time, row.end_time, row.numberx)


def _listed(numbers: c.Numbers) -> List[int]:
    return list(numbers.numbers[:numbers.count])


def _region(row: c.RegionRow) -> Region:
    return Region(row.lo, row.hi, bool(row.is_piece), row.number)


def _ready(value: object) -> object:
    """Makes what a call is passed: an int as 64 bits, and everything else by reference, in the structure of hlr.h."""
    if isinstance(value, Subscriber):
        value = c.SubscriberRow(_number(value.s_id), _number(value.sub_nbr), _ten(value.bits), _ten(value.hexes),
                                _ten(value.octets), _number(value.msc_location), _number(value.vlr_location))
    elif isinstance(value, Access):
        value = c.AccessRow(_number(value.s_id), _number(value.ai_type), _number(value.data1), _number(value.data2),
                            _letters(value.data3, 3), _letters(value.data4, 5))
    elif isinstance(value, Facility):
        value = c.FacilityRow(_number(value.s_id), _number(value.sf_type), _number(value.is_active),
                              _number(value.error_cntrl), _number(value.data_a), _letters(value.data_b, 5))
    elif isinstance(value, (list, tuple)):
        if len(value) > 15:
            raise Field(f"{len(value)} bounds are too many")
        value = c.Bounds(len(value), (ctypes.c_uint64 * 15)(*map(_number, value)))
    if isinstance(value, ctypes._Pointer):
        return value
    if isinstance(value, (ctypes.Structure, ctypes.Array, ctypes.c_uint64)):
        return ctypes.byref(value)
    return _number(value)  # type: ignore[arg-type]


def _found(read: Callable[..., Any], missing: Type[Refused], asked: Iterable[Tuple[int, ...]]) -> List[Any]:
    """Reads each query, and leaves out those that raise this exception."""
    rows = []
    for each in asked:
        try:
            rows.append(read(*each))
        except missing:
            pass
    return rows


class _Open:
    """An object with a handle of the library. A lock lets one call at a time through."""

    _closing = "close"

    def __init__(self) -> None:
        self._lock = threading.RLock()
        self._library = c.library()
        self._handle: Any = None

    def _named(self, name: str) -> str:
        """Returns the name of a call in hlr.h."""
        return "hlr_" + name

    def _call(self, name: str, *passed: object) -> None:
        with self._lock:
            handle = self._handle
            if handle is None:
                raise refusal(Code.NOT_OPEN, name)
            try:
                code = getattr(self._library, self._named(name))(handle, *map(_ready, passed))
            except ctypes.ArgumentError:
                raise TypeError(f"{name}: an argument is of another type than its hint") from None
            if name == self._closing:
                self._handle = None
        if code != Code.DONE:
            raise refusal(code, name)

    def _check_open(self, name: str) -> None:
        if self._handle is None:
            raise refusal(Code.NOT_OPEN, name)

    def _many(self, name: str, question: Any, asked: Sequence[Tuple[int, ...]], answer: Any, told: Any) -> List[Any]:
        """Makes one call for many queries, and returns the result or the exception of each."""
        many = name + "_many"
        self._check_open(many)
        count = len(asked)
        questions = (question * count)(*(question(*map(_number, each)) for each in asked))
        answers, codes = (answer * count)(), (ctypes.c_uint8 * count)()
        passed: List[Any] = []
        for each in (questions, answers, codes):
            passed += [ctypes.cast(each, ctypes.POINTER(each._type_)), count]
        self._call(many, *passed)
        return [refusal(code, name) if code else told(row) for code, row in zip(codes, answers)]

    def __exit__(self, *_: object) -> None:
        try:
            getattr(self, self._closing)()
        except NotOpen:
            pass

    def __del__(self) -> None:
        if getattr(self, "_handle", None) is not None:
            getattr(self, self._closing)()

    def __reduce__(self) -> str:
        raise TypeError("a register or a part can't be copied or pickled")


class Register(_Open):
    """A register of subscribers. Its `parts`, 1 to 16, share 32 zones of `width` subscribers each, 1 to 524288.

    Close a register with `close`, or use it in a `with`. Each call on a closed register raises NotOpen.

    With a `journal`, the register keeps its rows in this file, which is made if there is none. It begins with the rows
    that the file has, and locks it against other processes until it is closed. A change is in memory until `sync` puts
    it on the disk, so tell nobody of it before. Once `sync` has returned, no crash takes back what was changed before
    it. `close` and the end of a `with` sync as well.

    >>> import tempfile
    >>> with tempfile.TemporaryDirectory() as folder:
    ...     with Register(journal=f"{folder}/hlr.journal") as register:
    ...         register.add_subscriber(Subscriber(7, 77))
    ...         register.sync()
    ...     with Register(journal=f"{folder}/hlr.journal") as register:
    ...         register.subscriber_data(7).sub_nbr
    77

    With a journal, each call that changes a row first raises Failed if a sync has failed before, or Memory if there is
    no memory for what it adds to the journal. The register is then as it was.

    Threads may share a register, because a lock lets one call at a time through. A call releases the interpreter's
    lock, so other threads run meanwhile. `lend` gives a thread a part to itself; until that part is back, a call on the
    register that needs it raises Away.

    Each call says what it raises. If several of these apply, it raises the first one. Each call raises Field for a
    number that is negative or has more than 64 bits, and for one that is out of its range: s_id 1 to 16777216; sub_nbr
    and numberx below 10^15; ai_type and sf_type 1 to 4; start_time 0, 8 or 16; end_time 1 to 24; locations 1 to
    4294967295. Anything that isn't a number, a row or letters at all raises TypeError.

    >>> register = Register(parts=2, width=4)
    >>> register.close()
    >>> register.scan()
    Traceback (most recent call last):
    hlr.refusals.NotOpen: scan: the register is closed, or the part was sent home
    """

    def __init__(self, parts: int = 1, width: int = 524288,
                 journal: Union[str, bytes, "os.PathLike[str]", None] = None) -> None:
        """Opens an empty register, or one with the rows of a journal. Raises Field or Memory, and for a journal also
        Failed, Locked or BadJournal."""
        super().__init__()
        handle, file = c.Handle(), None
        if journal is None:
            code = self._library.hlr_open(_number(parts), _number(width), handle)
        else:
            file = c.FileHandle()
            code = self._library.hlr_file_open(file, _path(journal), handle, _number(parts), _number(width))
        if code != Code.DONE:
            raise refusal(code, "open")
        self._handle, self._file, self._process = handle, file, os.getpid()

    def __del__(self) -> None:
        # A forked child shares the file with its parent, and leaves it alone.
        if getattr(self, "_file", None) is None or self._process == os.getpid():
            super().__del__()

    def close(self) -> None:
        """Closes the register, and gives back all of its memory. Parts that are lent keep working. With a journal, it
        syncs before. If that isn't done, it raises Failed, or NoJournal, and the register is closed all the same."""
        with self._lock:
            if self._file is None:
                self._call("close")
                return
            code = self._library.hlr_file_close(self._file, self._handle)
            self._handle = self._file = None
        if code != Code.DONE:
            raise refusal(code, "close")

    def sync(self) -> None:
        """Puts all changes so far on the disk, so that no crash takes them back, and waits for that. After Failed, each
        later sync and each change raises Failed, until `snapshot` has made a new file. Raises NoJournal, Failed,
        Memory."""
        self._call("sync")

    def unsynced(self) -> int:
        """Returns how many bytes of the journal aren't on the disk yet. Raises NoJournal, Failed, Memory.

        >>> import tempfile
        >>> with tempfile.TemporaryDirectory() as folder, Register(journal=f"{folder}/hlr.journal") as register:
        ...     register.add_subscriber(Subscriber(7, 77))
        ...     register.unsynced()
        ...     register.sync()
        ...     register.unsynced()
        44
        0
        """
        count = ctypes.c_uint64()
        self._call("unsynced", count)
        return count.value

    def snapshot(self) -> None:
        """Syncs, and puts a short journal in the place of the file, which only adds the rows as they are now. It also
        works after a sync that failed. If the new file was written and couldn't take the place of the old one, it
        raises Failed, and until another `snapshot` returns, each `sync` raises NoJournal. Raises NoJournal, Away,
        Memory, Failed."""
        with self._lock:
            self._check_open("snapshot")
            if self._file is None:
                raise refusal(Code.NO_JOURNAL, "snapshot")
            code = self._library.hlr_file_snapshot(self._file, self._handle)
        if code != Code.DONE:
            raise refusal(code, "snapshot")

    def held(self) -> ContextManager[Any]:
        """Keeps out the calls of other threads, as long as its `with` lasts."""
        self._check_open("held")
        return self._lock

    def __enter__(self) -> "Register":
        self._check_open("with")
        return self

    def subscriber_data(self, s_id: int) -> Subscriber:
        """Reads a subscriber (GET_SUBSCRIBER_DATA). Raises Field, Moving, Away, NoSubscriber.

        >>> with Register() as register:
        ...     register.add_subscriber(Subscriber(7, 77, bits=bytes([1, 0, 0, 0, 0, 0, 0, 0, 0, 1])))
        ...     row = register.subscriber_data(7)
        >>> row.sub_nbr, list(row.bits)
        (77, [1, 0, 0, 0, 0, 0, 0, 0, 0, 1])
        """
        row = c.SubscriberRow()
        self._call("subscriber_data", s_id, row)
        return _subscriber(row)

    def new_destination(self, s_id: int, sf_type: int, start_time: int, end_time: int) -> List[int]:
        """Returns the numbers that an active facility forwards a call to (GET_NEW_DESTINATION): those of its
        forwardings that start by start_time and end after end_time, in the order of their starts. Raises Field, Moving,
        Away, NoDestination.

        >>> with Register() as register:
        ...     register.add_subscriber(Subscriber(7, 77))
        ...     register.add_facility(Facility(7, 2))
        ...     register.insert_forwarding(77, 2, 8, 16, 100)
        ...     register.new_destination(7, 2, 8, 12)
        [100]
        """
        numbers = c.Numbers()
        self._call("new_destination", s_id, sf_type, start_time, end_time, numbers)
        return _listed(numbers)

    def access_data(self, s_id: int, ai_type: int) -> Access:
        """Reads an access (GET_ACCESS_DATA). Raises Field, Moving, Away, NoAccess.

        >>> with Register() as register:
        ...     register.add_subscriber(Subscriber(7, 77))
        ...     register.add_access(Access(7, 1, data3="ABC"))
        ...     register.access_data(7, 1)
        Access(s_id=7, ai_type=1, data1=0, data2=0, data3='ABC', data4='AAAAA')
        """
        row = c.AccessRow()
        self._call("access_data", s_id, ai_type, row)
        return _access(row)

    def find(self, sub_nbr: int) -> int:
        """Returns the s_id of the subscriber who has a number. Raises Field, NoNumber."""
        s_id = ctypes.c_uint64()
        self._call("find", sub_nbr, s_id)
        return s_id.value

    def facility_data(self, s_id: int, sf_type: int) -> Facility:
        """Reads a facility. Raises Field, Moving, Away, NoFacility."""
        row = c.FacilityRow()
        self._call("facility_data", s_id, sf_type, row)
        return _facility(row)

    def forwarding(self, s_id: int, sf_type: int, start_time: int) -> Tuple[int, int]:
        """Returns the end_time and the numberx of a facility's forwarding. Raises Field, Moving, Away,
        NoForwarding."""
        end_time, numberx = ctypes.c_uint64(), ctypes.c_uint64()
        self._call("forwarding", s_id, sf_type, start_time, end_time, numberx)
        return end_time.value, numberx.value

    def next_subscriber(self, s_id: int) -> Subscriber:
        """Reads the first subscriber with this s_id or a higher one. Raises Away, NoSubscriber.

        >>> with Register() as register:
        ...     register.add_subscriber(Subscriber(7, 77))
        ...     register.next_subscriber(1).s_id
        7
        """
        row = c.SubscriberRow()
        self._call("next_subscriber", s_id, row)
        return _subscriber(row)

    def next_subscribers(self, s_id: int, room: int = _PAGE) -> List[Subscriber]:
        """Reads the first rows with an s_id from this one on, in order: as many as there are, and at most so many.
        Raises Away.

        >>> with Register() as register:
        ...     register.add_subscriber(Subscriber(70, 70))
        ...     register.add_subscriber(Subscriber(7, 77))
        ...     [row.s_id for row in register.next_subscribers(1, 1)], len(register.next_subscribers(1))
        ([7], 2)
        """
        return self._page("next_subscribers", c.SubscriberRow, _subscriber, room, s_id)

    def next_accesses(self, s_id: int, ai_type: int, room: int = _PAGE) -> List[Access]:
        """Reads the first rows from an access on, by s_id and then ai_type, as `next_subscribers` does. Raises Away."""
        return self._page("next_accesses", c.AccessRow, _access, room, s_id, ai_type)

    def next_facilities(self, s_id: int, sf_type: int, room: int = _PAGE) -> List[Facility]:
        """Reads the first rows from a facility on, by s_id and then sf_type, as `next_subscribers` does. Raises Away."""
        return self._page("next_facilities", c.FacilityRow, _facility, room, s_id, sf_type)

    def next_forwardings(self, s_id: int, sf_type: int, start_time: int, room: int = _PAGE) -> List[Forwarding]:
        """Reads the first rows from a forwarding on, by s_id, then sf_type, then start_time, as `next_subscribers` does.
        Raises Away."""
        return self._page("next_forwardings", c.ForwardingRow, _forwarding, room, s_id, sf_type, start_time)

    def subscribers(self, s_id: int = 1) -> Iterator[Subscriber]:
        """Iterates over all rows with an s_id from this one on, in order. It reads 256 rows at a time, so each row is as
        it was when its page was read. Raises Away.

        >>> with Register() as register:
        ...     register.add_subscriber(Subscriber(70, 70))
        ...     register.add_subscriber(Subscriber(7, 77))
        ...     [row.s_id for row in register.subscribers()]
        [7, 70]
        """
        return self._pages(self.next_subscribers, lambda row: (row.s_id + 1,), s_id)

    @overload
    def accesses(self) -> Iterator[Access]: ...

    @overload
    def accesses(self, s_id: int) -> List[Access]: ...

    def accesses(self, s_id: Optional[int] = None) -> Union[Iterator[Access], List[Access]]:
        """Reads the accesses of a subscriber, in the order of ai_type. Raises Field, Moving, Away. Without an s_id it
        iterates over those of all subscribers, in the order of s_id and ai_type, as `subscribers` does. Raises Away.

        >>> with Register() as register:
        ...     register.add_subscriber(Subscriber(7, 77))
        ...     register.add_access(Access(7, 2))
        ...     [(row.s_id, row.ai_type) for row in register.accesses()]
        [(7, 2)]
        """
        if s_id is None:
            return self._pages(self.next_accesses, lambda row: (row.s_id, row.ai_type + 1), 0, 0)
        return _found(self.access_data, NoAccess, [(s_id, ai_type) for ai_type in range(1, 5)])

    @overload
    def facilities(self) -> Iterator[Facility]: ...

    @overload
    def facilities(self, s_id: int) -> List[Facility]: ...

    def facilities(self, s_id: Optional[int] = None) -> Union[Iterator[Facility], List[Facility]]:
        """Reads the facilities of a subscriber, in the order of sf_type. Raises Field, Moving, Away. Without an s_id it
        iterates over those of all subscribers, in the order of s_id and sf_type, as `subscribers` does. Raises Away."""
        if s_id is None:
            return self._pages(self.next_facilities, lambda row: (row.s_id, row.sf_type + 1), 0, 0)
        return _found(self.facility_data, NoFacility, [(s_id, sf_type) for sf_type in range(1, 5)])

    @overload
    def forwardings(self) -> Iterator[Forwarding]: ...

    @overload
    def forwardings(self, s_id: int, sf_type: int) -> List[Tuple[int, int, int]]: ...

    def forwardings(self, s_id: Optional[int] = None,
                    sf_type: Optional[int] = None) -> Union[Iterator[Forwarding], List[Tuple[int, int, int]]]:
        """Returns the start_time, end_time and numberx of each forwarding of a facility, in the order of start_time.
        Raises Field, Moving, Away. Without an s_id and a sf_type it iterates over the rows of all facilities, in the
        order of s_id, sf_type and start_time, as `subscribers` does. Raises Away.

        >>> with Register() as register:
        ...     register.add_subscriber(Subscriber(7, 77))
        ...     register.add_facility(Facility(7, 2))
        ...     register.insert_forwarding(77, 2, 8, 16, 100)
        ...     register.forwardings(7, 2), register.forwardings(7, 1)
        ...     list(register.forwardings())
        ([(8, 16, 100)], [])
        [Forwarding(s_id=7, sf_type=2, start_time=8, end_time=16, numberx=100)]
        """
        if s_id is None and sf_type is None:
            return self._pages(self.next_forwardings, lambda row: (row.s_id, row.sf_type, row.start_time + 1), 0, 0, 0)
        if s_id is None or sf_type is None:
            raise TypeError("forwardings: an s_id and a sf_type are passed, or neither")

        def read(start_time: int) -> Tuple[int, int, int]:
            return (start_time, *self.forwarding(s_id, sf_type, start_time))
        return _found(read, NoForwarding, [(0,), (8,), (16,)])

    def _page(self, name: str, row: Any, told: Callable[[Any], Any], room: int, *key: int) -> List[Any]:
        """What is told of the first rows from a key on, at most so many."""
        self._check_open(name)
        rows, count = (row * _number(room))(), ctypes.c_uint64()
        self._call(name, *key, ctypes.cast(rows, ctypes.POINTER(row)), room, count)
        return [told(each) for each in rows[:count.value]]

    def _pages(self, read: Callable[..., List[Any]], behind: Callable[[Any], Tuple[int, ...]],
               *key: int) -> Iterator[Any]:
        """The rows from a key on, page by page; `behind` gives the key behind a row."""
        self._check_open(read.__name__)
        return self._rows(read, behind, key)

    def _rows(self, read: Callable[..., List[Any]], behind: Callable[[Any], Tuple[int, ...]],
              key: Tuple[int, ...]) -> Iterator[Any]:
        page = read(*key)
        while page:
            key = behind(page[-1])
            yield from page
            page = read(*key)

    def subscriber_data_many(self, s_ids: Sequence[int]) -> List[Union[Subscriber, Refused]]:
        """Reads many subscribers in one call: for each s_id it returns the row, or the exception that `subscriber_data`
        raises. It reads nothing if a number is negative or has more than 64 bits. Raises Field.

        >>> with Register() as register:
        ...     register.add_subscriber(Subscriber(7, 77))
        ...     rows = register.subscriber_data_many([7, 8])
        >>> rows[0].sub_nbr, rows[1].code.name
        (77, 'NO_SUBSCRIBER')
        """
        return self._many("subscriber_data", ctypes.c_uint64, [(s_id,) for s_id in s_ids], c.SubscriberRow, _subscriber)

    def new_destination_many(self, asked: Sequence[Tuple[int, int, int, int]]) -> List[Union[List[int], Refused]]:
        """Answers many calls at once: for each s_id, sf_type, start_time and end_time it returns the numbers, or the
        exception that `new_destination` raises. Raises Field."""
        return self._many("new_destination", c.DestinationAsked, asked, c.Numbers, _listed)

    def access_data_many(self, asked: Sequence[Tuple[int, int]]) -> List[Union[Access, Refused]]:
        """Reads many accesses in one call: for each s_id and ai_type it returns the row, or the exception that
        `access_data` raises. Raises Field."""
        return self._many("access_data", c.AccessAsked, asked, c.AccessRow, _access)

    def update_subscriber(self, s_id: int, sf_type: int, bit_1: int, data_a: int) -> None:
        """Sets bit_1 of the subscriber and data_a of the facility, or neither (UPDATE_SUBSCRIBER_DATA). Raises Field,
        Moving, Away, NoSubscriber, NoFacility."""
        self._call("update_subscriber", s_id, sf_type, bit_1, data_a)

    def update_location(self, sub_nbr: int, vlr_location: int) -> None:
        """Sets the location of the subscriber with this number (UPDATE_LOCATION). Raises Field, NoNumber, Moving,
        Away."""
        self._call("update_location", sub_nbr, vlr_location)

    def insert_forwarding(self, sub_nbr: int, sf_type: int, start_time: int, end_time: int, numberx: int) -> None:
        """Adds a forwarding to numberx for the subscriber with this number (INSERT_CALL_FORWARDING). Raises Field,
        NoNumber, Moving, Away, NoFacility, Exists, Memory."""
        self._call("insert_forwarding", sub_nbr, sf_type, start_time, end_time, numberx)

    def delete_forwarding(self, sub_nbr: int, sf_type: int, start_time: int) -> None:
        """Removes a forwarding of the subscriber with this number (DELETE_CALL_FORWARDING). Raises Field, NoNumber,
        Moving, Away, NoForwarding."""
        self._call("delete_forwarding", sub_nbr, sf_type, start_time)

    def add_subscriber(self, row: Subscriber) -> None:
        """Adds a subscriber. Raises Field, Moving, Away, Exists, NumberTaken, Memory."""
        self._call("add_subscriber", row)

    def add_access(self, row: Access) -> None:
        """Adds an access. Raises Field, Moving, Away, NoSubscriber, Exists, Memory."""
        self._call("add_access", row)

    def add_facility(self, row: Facility) -> None:
        """Adds a facility. Raises Field, Moving, Away, NoSubscriber, Exists, Memory."""
        self._call("add_facility", row)

    def set_active(self, s_id: int, sf_type: int, is_active: bool) -> None:
        """Switches a facility on or off, and with it all of its forwardings. Raises Field, Moving, Away,
        NoFacility."""
        self._call("set_active", s_id, sf_type, is_active)

    def set_number(self, s_id: int, sub_nbr: int) -> None:
        """Gives a subscriber another number. The number that the subscriber already has changes nothing. Raises Field,
        Moving, Away, NoSubscriber, NumberTaken, Memory."""
        self._call("set_number", s_id, sub_nbr)

    def post(self, part: int, limit: int = CELLS) -> int:
        """Posts the first `limit` unposted cells of a part, and returns how many it posted. Raises NoPart, Away, Worn;
        after Worn, the cells that it posted before stay posted.

        >>> with Register() as register:
        ...     register.add_subscriber(Subscriber(7, 77))
        ...     register.post(0), register.post(0)
        (2, 0)
        """
        posted = ctypes.c_uint64()
        self._call("post", part, limit, posted)
        return posted.value

    def views(self) -> Tuple[List[int], List[int]]:
        """Returns the published and the unposted count of each cell, without reading a row. Raises Away.

        >>> with Register() as register:
        ...     register.add_subscriber(Subscriber(7, 77))
        ...     published, unposted = register.views()
        >>> published[24], unposted[24]
        (0, 1)
        """
        published, unposted = (ctypes.c_int64 * CELLS)(), (ctypes.c_int64 * CELLS)()
        self._call("views", published, unposted)
        return list(published), list(unposted)

    def cells(self) -> Iterator[Cell]:
        """Iterates over the cells of `views`, with their names. Raises Away.

        >>> with Register() as register:
        ...     names = [cell.name for cell in register.cells()]
        >>> names[8], names[26], names[71]
        ('hour 8', 'area 2', 'zone 31')
        """
        return named_cells(*self.views())

    def look(self) -> List[int]:
        """Returns the published count of each cell, no matter which parts are lent. Parts may post meanwhile, so the
        counts don't belong to one moment.

        >>> with Register() as register:
        ...     register.add_subscriber(Subscriber(7, 77))
        ...     with register.lend(0) as part:
        ...         part.post()
        ...         register.look()[24]
        2
        1
        """
        published = (ctypes.c_int64 * CELLS)()
        self._call("look", published)
        return list(published)

    def scan(self) -> List[int]:
        """Counts each cell anew, by a walk over all rows, and returns the counts. Raises Away."""
        counts = (ctypes.c_uint64 * CELLS)()
        self._call("scan", counts)
        return list(counts)

    def give(self, part: int, side: int, at: int) -> Region:
        """Cuts a loose piece off a part: its subscribers below `at` (Side.LOW) or from `at` on (Side.HIGH), and returns
        it. Until a part takes the piece, calls for its subscribers raise Moving. Raises Field, NoPart, OutOfRange,
        ManyPieces, Away, Memory.

        >>> with Register(parts=2, width=4) as register:
        ...     register.give(0, Side.HIGH, 5)
        ...     register.take(1, 1)
        ...     register.regions()[1]
        Region(lo=5, hi=65, is_piece=True, number=1)
        Region(lo=5, hi=16777217, is_piece=False, number=1)
        """
        given = c.RegionRow()
        self._call("give", part, side, at, given)
        return _region(given)

    def take(self, piece: int, part: int) -> None:
        """Joins a loose piece to a part that touches it. Raises NoPiece, NoPart, NotAdjacent, Away, Memory."""
        self._call("take", piece, part)

    def divide(self, part: int, at: int) -> Region:
        """Divides a part: it keeps what is below `at`, and a new part with the next number gets the rest. The numbers
        of later parts rise by one. Returns the new part. Raises NoPart, OutOfRange, ManyParts, Away, Memory."""
        made = c.RegionRow()
        self._call("divide", part, at, made)
        return _region(made)

    def dissolve(self, part: int) -> Region:
        """Dissolves a part: the part in front gets its rows, and the numbers of later parts fall by one. Returns the
        part in front as it is then. Raises NoPart, NotAdjacent, Away, Memory."""
        front = c.RegionRow()
        self._call("dissolve", part, front)
        return _region(front)

    def regions(self) -> List[Region]:
        """Returns all regions, in order.

        >>> with Register() as register:
        ...     register.regions()
        [Region(lo=1, hi=16777217, is_piece=False, number=0)]
        """
        regions = c.RegionList()
        self._call("regions", regions)
        return [_region(row) for row in regions.regions[:regions.count]]

    def width(self) -> int:
        """Tells the width of a zone.

        >>> with Register(width=4) as register:
        ...     register.width()
        4
        """
        width = ctypes.c_uint64()
        self._call("width", width)
        return width.value

    def propose(self) -> List[int]:
        """Returns bounds between zones by which each part would have about its share of the published rows, so post
        every part first. Raises Away."""
        bounds = c.Bounds()
        self._call("propose", bounds)
        return list(bounds.bounds[:bounds.count])

    def recut(self, bounds: Sequence[int]) -> int:
        """Moves the bounds between parts to these, and returns how many it moved. A bound is the first subscriber of a
        part other than the first part. Raises Field, Moving, Away, Memory; after Memory, the bounds that it moved
        before stay moved, and the piece of the next one may be loose.

        >>> with Register(parts=2, width=4) as register:
        ...     register.recut([9]), register.recut([9])
        (1, 0)
        """
        moved = ctypes.c_uint64()
        self._call("recut", list(bounds), moved)
        return moved.value

    def lend(self, part: int) -> "Part":
        """Lends a part to any thread. Raises Journaled, NoPart, Away, Memory.

        >>> with Register(parts=2) as register:
        ...     register.add_subscriber(Subscriber(7, 77))
        ...     with register.lend(0) as part:
        ...         part.update_location(7, 268435456)
        ...     register.back(0)
        ...     register.subscriber_data(7).vlr_location
        268435456
        """
        handle = c.PartHandle()
        self._call("lend", part, handle)
        return Part(handle)

    def back(self, part: int) -> None:
        """Takes in a part that was sent home, and does nothing if the part is home already. Raises NoPart, Away."""
        self._call("back", part)


class Part(_Open):
    """A lent part, which `Register.lend` returns: it has the calls on the part's rows, by s_id, for any thread.

    Send it home with `home`, or use it in a `with`; after that, each call on it raises NotOpen. The register may be
    closed before. Numbers and rows out of range are refused as a register refuses them.
    """

    _closing = "home"

    def __init__(self, handle: c.PartHandle) -> None:
        """Wraps the handle of a part that a register has lent."""
        super().__init__()
        self._handle = handle

    def _named(self, name: str) -> str:
        return "hlr_home" if name == "home" else "hlr_part_" + name

    def __enter__(self) -> "Part":
        self._check_open("with")
        return self

    def home(self) -> None:
        """Sends the part home, where `Register.back` takes it in."""
        self._call("home")

    def range(self) -> Tuple[int, int]:
        """Returns the first subscriber of the part and the number behind the last one. Neither changes while it is
        lent."""
        lo, hi = ctypes.c_uint64(), ctypes.c_uint64()
        self._call("range", lo, hi)
        return lo.value, hi.value

    def subscriber_data(self, s_id: int) -> Subscriber:
        """Reads a subscriber (GET_SUBSCRIBER_DATA). Raises Field, Elsewhere, NoSubscriber."""
        row = c.SubscriberRow()
        self._call("subscriber_data", s_id, row)
        return _subscriber(row)

    def new_destination(self, s_id: int, sf_type: int, start_time: int, end_time: int) -> List[int]:
        """Returns the numbers that an active facility forwards a call to (GET_NEW_DESTINATION), as
        `Register.new_destination` does. Raises Field, Elsewhere, NoDestination."""
        numbers = c.Numbers()
        self._call("new_destination", s_id, sf_type, start_time, end_time, numbers)
        return _listed(numbers)

    def access_data(self, s_id: int, ai_type: int) -> Access:
        """Reads an access (GET_ACCESS_DATA). Raises Field, Elsewhere, NoAccess."""
        row = c.AccessRow()
        self._call("access_data", s_id, ai_type, row)
        return _access(row)

    def subscriber_data_many(self, s_ids: Sequence[int]) -> List[Union[Subscriber, Refused]]:
        """Reads many subscribers in one call, as `Register.subscriber_data_many` does; some may be Elsewhere. Raises
        Field.

        >>> with Register(parts=2, width=4) as register:
        ...     with register.lend(0) as part:
        ...         [row.code.name for row in part.subscriber_data_many([7, 65])]
        ['NO_SUBSCRIBER', 'ELSEWHERE']
        """
        return self._many("subscriber_data", ctypes.c_uint64, [(s_id,) for s_id in s_ids], c.SubscriberRow, _subscriber)

    def new_destination_many(self, asked: Sequence[Tuple[int, int, int, int]]) -> List[Union[List[int], Refused]]:
        """Answers many calls at once, as `Register.new_destination_many` does. Raises Field."""
        return self._many("new_destination", c.DestinationAsked, asked, c.Numbers, _listed)

    def access_data_many(self, asked: Sequence[Tuple[int, int]]) -> List[Union[Access, Refused]]:
        """Reads many accesses in one call, as `Register.access_data_many` does. Raises Field."""
        return self._many("access_data", c.AccessAsked, asked, c.AccessRow, _access)

    def update_subscriber(self, s_id: int, sf_type: int, bit_1: int, data_a: int) -> None:
        """Sets bit_1 of the subscriber and data_a of the facility, or neither (UPDATE_SUBSCRIBER_DATA). Raises Field,
        Elsewhere, NoSubscriber, NoFacility."""
        self._call("update_subscriber", s_id, sf_type, bit_1, data_a)

    def update_location(self, s_id: int, vlr_location: int) -> None:
        """Sets the location of a subscriber (UPDATE_LOCATION). Raises Field, Elsewhere, NoSubscriber."""
        self._call("update_location", s_id, vlr_location)

    def insert_forwarding(self, s_id: int, sf_type: int, start_time: int, end_time: int, numberx: int) -> None:
        """Adds a forwarding to numberx (INSERT_CALL_FORWARDING). Raises Field, Elsewhere, NoFacility, Exists,
        Memory."""
        self._call("insert_forwarding", s_id, sf_type, start_time, end_time, numberx)

    def delete_forwarding(self, s_id: int, sf_type: int, start_time: int) -> None:
        """Removes a forwarding (DELETE_CALL_FORWARDING). Raises Field, Elsewhere, NoForwarding."""
        self._call("delete_forwarding", s_id, sf_type, start_time)

    def set_active(self, s_id: int, sf_type: int, is_active: bool) -> None:
        """Switches a facility on or off, and with it all of its forwardings. Raises Field, Elsewhere, NoFacility."""
        self._call("set_active", s_id, sf_type, is_active)

    def add_access(self, row: Access) -> None:
        """Adds an access. Raises Field, Elsewhere, NoSubscriber, Exists, Memory."""
        self._call("add_access", row)

    def add_facility(self, row: Facility) -> None:
        """Adds a facility. Raises Field, Elsewhere, NoSubscriber, Exists, Memory."""
        self._call("add_facility", row)

    def post(self, limit: int = CELLS) -> int:
        """Posts the first `limit` unposted cells of the part, and returns how many it posted. Raises Worn; after that,
        the cells that it posted before stay posted."""
        posted = ctypes.c_uint64()
        self._call("post", limit, posted)
        return posted.value
