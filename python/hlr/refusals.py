"""The codes that calls return, and an exception for each one except DONE."""
import enum
from typing import Dict, Type


class Code(enum.IntEnum):
    """The codes of hlr.h, under their names there without HLR_."""

    DONE = 0
    MEMORY = 1
    FIELD = 2
    NO_SUBSCRIBER = 3
    NO_NUMBER = 4
    NO_ACCESS = 5
    NO_FACILITY = 6
    NO_FORWARDING = 7
    NO_DESTINATION = 8
    EXISTS = 9
    NUMBER_TAKEN = 10
    MOVING = 11
    NO_PART = 12
    NO_PIECE = 13
    OUT_OF_RANGE = 14
    NOT_ADJACENT = 15
    MANY_PIECES = 16
    WORN = 17
    MANY_PARTS = 22
    LOCKED = 247
    BAD_JOURNAL = 248
    FAILED = 249
    JOURNALED = 250
    NO_JOURNAL = 251
    ELSEWHERE = 252
    AWAY = 253
    NOT_OPEN = 254
    STILL_OPEN = 255


class Refused(Exception):
    """A call was refused, and `code` says why. It has changed nothing, except for `post` and `recut`, which say so."""

    code: Code


class Memory(Refused):
    """no memory was left; free some, and call again"""

    code = Code.MEMORY


class Field(Refused):
    """a number or a letter is out of its range, which help(hlr.Register) lists"""

    code = Code.FIELD


class NoSubscriber(Refused):
    """there is no subscriber with this s_id"""

    code = Code.NO_SUBSCRIBER


class NoNumber(Refused):
    """no subscriber has this number"""

    code = Code.NO_NUMBER


class NoAccess(Refused):
    """there is no access of this type, or no such subscriber"""

    code = Code.NO_ACCESS


class NoFacility(Refused):
    """there is no facility of this type, or no such subscriber"""

    code = Code.NO_FACILITY


class NoForwarding(Refused):
    """there is no forwarding that starts at this hour, or no such facility or subscriber"""

    code = Code.NO_FORWARDING


class NoDestination(Refused):
    """the facility isn't there or isn't active, or no forwarding of it takes the call"""

    code = Code.NO_DESTINATION


class Exists(Refused):
    """there is already a row with this key"""

    code = Code.EXISTS


class NumberTaken(Refused):
    """another subscriber has this number"""

    code = Code.NUMBER_TAKEN


class Moving(Refused):
    """the subscriber, or for recut and save any subscriber, is in a loose piece; have a part take it first"""

    code = Code.MOVING


class NoPart(Refused):
    """no part has this number; regions() lists them"""

    code = Code.NO_PART


class NoPiece(Refused):
    """no loose piece has this number; regions() lists them"""

    code = Code.NO_PIECE


class OutOfRange(Refused):
    """the place to cut at isn't strictly inside the part"""

    code = Code.OUT_OF_RANGE


class NotAdjacent(Refused):
    """the piece doesn't touch the part; for dissolve: no part ends where this one begins"""

    code = Code.NOT_ADJACENT


class ManyPieces(Refused):
    """sixteen pieces are loose already; have one taken first"""

    code = Code.MANY_PIECES


class Worn(Refused):
    """a word of the board is at its limit, 2^63 - 1; what was posted before stays"""

    code = Code.WORN


class ManyParts(Refused):
    """there are sixteen parts already; dissolve one first"""

    code = Code.MANY_PARTS


class Locked(Refused):
    """another process, or another register of this one, has the journal open; close that one first"""

    code = Code.LOCKED


class BadJournal(Refused):
    """the file is no journal, is damaged, or has another version; restore a copy of it"""

    code = Code.BAD_JOURNAL


class Failed(Refused):
    """the journal can't be opened, read or written; see to its path, its rights and its disk"""

    code = Code.FAILED


class Journaled(Refused):
    """a register with a journal lends no part"""

    code = Code.JOURNALED


class NoJournal(Refused):
    """the register has no journal"""

    code = Code.NO_JOURNAL


class Elsewhere(Refused):
    """the subscriber isn't in the range of this part"""

    code = Code.ELSEWHERE


class Away(Refused):
    """the call needs a part that is lent; send it home and take it back first"""

    code = Code.AWAY


class NotOpen(Refused):
    """the register is closed, or the part was sent home"""

    code = Code.NOT_OPEN


class StillOpen(Refused):
    """the handle has a register; no call of this package comes to it"""

    code = Code.STILL_OPEN


BY_CODE: Dict[int, Type[Refused]] = {int(each.code): each for each in Refused.__subclasses__()}


def refusal(code: int, call: str) -> Exception:
    """Returns the exception for a code that a call returned."""
    if code not in BY_CODE:
        return RuntimeError(f"{call}: the library returned {code}, which this package doesn't know; use a package and a "
                            "library of the same version")
    return BY_CODE[code](f"{call}: {BY_CODE[code].__doc__}")
