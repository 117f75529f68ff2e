"""A home location register, over the shared library whose calls hlr.h declares.

>>> import hlr
>>> with hlr.Register(parts=4) as register:
...     register.add_subscriber(hlr.Subscriber(7, 77, vlr_location=268435456))
...     register.add_facility(hlr.Facility(7, 2))
...     register.insert_forwarding(77, 2, 8, 10, 100)
...     for cell in register.cells():
...         if cell.unposted:
...             print(cell.name, cell.unposted)
hour 8 1
hour 9 1
area 1 1
zone 0 3

A call that is refused raises the exception of its code, which is a subclass of `Refused`:

>>> with hlr.Register() as register:
...     try:
...         register.subscriber_data(7)
...     except hlr.NoSubscriber as refused:
...         print(refused.code.name, int(refused.code), refused)
NO_SUBSCRIBER 3 subscriber_data: there is no subscriber with this s_id

With `journal`, the name of a file, a register keeps its rows there, and begins with those that the file has. Once
`sync` has returned, no crash takes back what was changed before.

The library is loaded when the first register is opened. If the environment variable HLR_LIBRARY is set, it is the path
of the library. Otherwise libhlr.so.1 is looked for in this package, then in the folder that contains the package, and
then where the system's loader looks. ImportError is raised if it isn't found.
"""
from .records import load, save
from .refusals import (Away, BadJournal, Code, Elsewhere, Exists, Failed, Field, Journaled, Locked, ManyParts,
                       ManyPieces, Memory, Moving, NoAccess, NoDestination, NoFacility, NoForwarding, NoJournal,
                       NoNumber, NoPart, NoPiece, NoSubscriber, NotAdjacent, NotOpen, NumberTaken, OutOfRange, Refused,
                       StillOpen, Worn)
from .register import CELLS, Access, Cell, Facility, Forwarding, Kind, Part, Region, Register, Side, Subscriber

__version__ = "0.5.0"

__all__ = [
    "CELLS", "Access", "Away", "BadJournal", "Cell", "Code", "Elsewhere", "Exists", "Facility", "Failed", "Field",
    "Forwarding", "Journaled", "Kind", "Locked", "ManyParts", "ManyPieces", "Memory", "Moving", "NoAccess",
    "NoDestination", "NoFacility", "NoForwarding", "NoJournal", "NoNumber", "NoPart", "NoPiece", "NoSubscriber",
    "NotAdjacent", "NotOpen", "NumberTaken", "OutOfRange", "Part", "Refused", "Region", "Register", "Side", "StillOpen",
    "Subscriber", "Worn", "load", "save",
]
