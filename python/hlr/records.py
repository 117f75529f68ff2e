"""Saves all rows of a register as records of the program hlr, and loads a register from such records."""
import csv
import re
from typing import Any, Callable, Dict, Iterable, Iterator, List, Sequence, TextIO

from .refusals import Field, Refused
from .register import Access, Facility, Forwarding, Register, Subscriber


class _Rows:
    """The rows of a table in the order of their keys, taken for one subscriber at a time."""

    def __init__(self, rows: Iterator[Any]) -> None:
        self._rows = rows
        self._next = next(rows, None)

    def take(self, s_id: int) -> Iterator[Any]:
        """Iterates over the rows of this subscriber, if they are the next ones."""
        while self._next is not None and self._next.s_id == s_id:
            row, self._next = self._next, next(self._rows, None)
            yield row


def subscriber_fields(row: Subscriber) -> List[object]:
    """Returns the fields of the record sub."""
    digits = "".join(map(str, row.bits)), "".join(f"{each:x}" for each in row.hexes), row.octets.hex()
    return [row.s_id, f"{row.sub_nbr:015}", *digits, row.msc_location, row.vlr_location]


def access_fields(row: Access) -> List[object]:
    """Returns the fields of the record acc."""
    return [row.s_id, row.ai_type, row.data1, row.data2, row.data3, row.data4]


def facility_fields(row: Facility) -> List[object]:
    """Returns the fields of the record fac."""
    return [row.s_id, row.sf_type, int(row.is_active), row.error_cntrl, row.data_a, row.data_b]


def records_of(subscriber: Subscriber, accesses: Iterable[Access], facilities: Iterable[Facility],
               forwardings: Sequence[Forwarding]) -> Iterator[List[object]]:
    """Iterates over the records of a subscriber and of the rows that belong to it: each facility is followed by its
    forwardings."""
    yield ["sub", *subscriber_fields(subscriber)]
    for access in accesses:
        yield ["acc", *access_fields(access)]
    for facility in facilities:
        yield ["fac", *facility_fields(facility)]
        for each in forwardings:
            if each.sf_type == facility.sf_type:
                yield ["icf", f"{subscriber.sub_nbr:015}", each.sf_type, each.start_time, each.end_time,
                       f"{each.numberx:015}"]


def _all_records(register: Register) -> Iterator[List[object]]:
    """Iterates over the records of each subscriber and of everything that belongs to them."""
    accesses, facilities, forwardings = map(_Rows, (register.accesses(), register.facilities(), register.forwardings()))
    for row in register.subscribers():
        yield from records_of(row, accesses.take(row.s_id), facilities.take(row.s_id), list(forwardings.take(row.s_id)))


def save(register: Register, file: TextIO) -> int:
    """Writes all rows, also those in loose pieces, as the records sub, acc, fac and icf, one subscriber after another,
    and returns how many records there are. Calls of other threads wait meanwhile. Raises Away, before it writes
    anything, if a part is lent.

    >>> import io, sys
    >>> register = load(io.StringIO("sub,7,000000000000077,1000000000,0123456789,000102030405060708ff,1,2\\n"))
    >>> save(register, sys.stdout)
    sub,7,000000000000077,1000000000,0123456789,000102030405060708ff,1,2
    1
    """
    records = 0
    with register.held():
        for fields in _all_records(register):
            print(*fields, sep=",", file=file)
            records += 1
    return records


def _decimal(field: str) -> int:
    if not (field.isascii() and field.isdigit()):
        raise Field(f"{field!r} is no decimal number")
    return int(field)


def _called(field: str) -> int:
    if len(field) != 15:
        raise Field(f"{field!r} isn't 15 digits")
    return _decimal(field)


def _digits(field: str, each: int) -> bytes:
    """Reads ten numbers, of so many hexadecimal digits each."""
    if not re.fullmatch(f"[0-9A-Fa-f]{{{10 * each}}}", field):
        raise Field(f"{field!r} isn't {10 * each} digits")
    return bytes(int(field[at:at + each], 16) for at in range(0, len(field), each))


def _add_subscriber(register: Register, fields: List[str]) -> None:
    s_id, sub_nbr, bits, hexes, octets, msc_location, vlr_location = fields
    register.add_subscriber(Subscriber(_decimal(s_id), _called(sub_nbr), _digits(bits, 1), _digits(hexes, 1),
                                       _digits(octets, 2), _decimal(msc_location), _decimal(vlr_location)))


def _add_access(register: Register, fields: List[str]) -> None:
    s_id, ai_type, data1, data2, data3, data4 = fields
    register.add_access(Access(_decimal(s_id), _decimal(ai_type), _decimal(data1), _decimal(data2), data3, data4))


def _add_facility(register: Register, fields: List[str]) -> None:
    s_id, sf_type, is_active, error_cntrl, data_a, data_b = fields
    register.add_facility(Facility(_decimal(s_id), _decimal(sf_type), _decimal(is_active), _decimal(error_cntrl),
                                   _decimal(data_a), data_b))


def _insert_forwarding(register: Register, fields: List[str]) -> None:
    sub_nbr, sf_type, start_time, end_time, numberx = fields
    register.insert_forwarding(_called(sub_nbr), _decimal(sf_type), _decimal(start_time), _decimal(end_time),
                               _called(numberx))


_COMMANDS: Dict[str, Callable[[Register, List[str]], None]] = {
    "sub": _add_subscriber,
    "acc": _add_access,
    "fac": _add_facility,
    "icf": _insert_forwarding,
}
_FIELDS = {"sub": 7, "acc": 6, "fac": 6, "icf": 5}


def load(file: Iterable[str], parts: int = 1, width: int = 524288) -> Register:
    """Opens a register of so many parts and of this zone width, neither of which records have, and adds the rows of the
    records sub, acc, fac and icf. Raises ValueError for a record of another kind or with the wrong number of fields.
    For a record that is refused, it raises the exception of the call that the record asks for, with its line. In both
    cases it closes the register.

    >>> load(["sub,7,000000000000077,1000000000,0123456789,000102030405060708ff,1,2", "gsd,7"])
    Traceback (most recent call last):
    ValueError: line 2: no record sub, acc, fac or icf, or not all of its fields
    """
    register = Register(parts, width)
    try:
        reader = csv.reader(file)
        for command, *fields in filter(None, reader):
            if _FIELDS.get(command) != len(fields):
                raise ValueError(f"line {reader.line_num}: no record sub, acc, fac or icf, or not all of its fields")
            try:
                _COMMANDS[command](register, fields)
            except Refused as refused:
                raise type(refused)(f"line {reader.line_num}: {refused}") from None
    except BaseException:
        register.close()
        raise
    return register
