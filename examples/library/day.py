#!/usr/bin/env python3
"""Adds, moves and reads a subscriber and an access by the shared library: day.py LIBHLR.SO

docs/LIBRARY.md tells how the library is made.
"""
import ctypes
import sys


class Handle(ctypes.Structure):
    _fields_ = [("mark", ctypes.c_uint64), ("address", ctypes.c_void_p)]


class Subscriber(ctypes.Structure):
    _fields_ = [("s_id", ctypes.c_uint64), ("sub_nbr", ctypes.c_uint64)]
    _fields_ += [(digits, ctypes.c_uint8 * 10) for digits in ("bits", "hexes", "bytes")]
    _fields_ += [("msc_location", ctypes.c_uint64), ("vlr_location", ctypes.c_uint64)]


class Access(ctypes.Structure):
    _fields_ = [(number, ctypes.c_uint64) for number in ("s_id", "ai_type", "data1", "data2")]
    _fields_ += [("data3", ctypes.c_uint8 * 3), ("data4", ctypes.c_uint8 * 5)]


if len(sys.argv) != 2:
    sys.exit("give the path of libhlr.so: docs/LIBRARY.md tells how it is made")
try:
    library = ctypes.CDLL(sys.argv[1])
except OSError:
    sys.exit(f"there is no library at {sys.argv[1]}: docs/LIBRARY.md tells how it is made")


def call(name, *arguments):
    """Calls it: a number goes in as 64 bits, a structure by reference."""
    passed = [ctypes.c_uint64(it) if isinstance(it, int) else ctypes.byref(it) for it in arguments]
    code = getattr(library, name)(*passed) & 255
    print(name, code)


def letters(text):
    return (ctypes.c_uint8 * len(text))(*text)


handle, row, access = Handle(), Subscriber(), Access()
call("hlr_open", 1, 524288, handle)
call("hlr_add_subscriber", handle, Subscriber(s_id=7, sub_nbr=7, msc_location=1, vlr_location=268435456))
call("hlr_update_location", handle, 7, 536870912)
call("hlr_subscriber_data", handle, 7, row)
print(row.s_id, row.sub_nbr, row.msc_location, row.vlr_location)
call("hlr_add_access", handle, Access(7, 1, 255, 4, letters(b"ABC"), letters(b"VWXYZ")))
call("hlr_access_data", handle, 7, 1, access)
print(access.data1, access.data2, bytes(access.data3).decode(), bytes(access.data4).decode())
call("hlr_subscriber_data", handle, 8, row)
call("hlr_close", handle)
call("hlr_close", handle)
