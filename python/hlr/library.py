"""Finds and loads the shared library, with its calls and structures as hlr.h declares them."""
import ctypes
import functools
import hashlib
import os
from ctypes import POINTER, Structure, c_char_p, c_int32, c_int64, c_size_t, c_uint8, c_uint64, c_void_p

NAME = "libhlr.so.1"
CELLS = 72


class Handle(Structure):
    _fields_ = [("mark", c_uint64), ("address", c_void_p)]


class PartHandle(Structure):
    _fields_ = [("mark", c_uint64), ("address", c_void_p)]


class FileHandle(Structure):
    _fields_ = [("name", c_void_p), ("folder", c_int32), ("journal", c_int32)]


class SubscriberRow(Structure):
    _fields_ = [("s_id", c_uint64), ("sub_nbr", c_uint64), ("bits", c_uint8 * 10), ("hexes", c_uint8 * 10),
                ("bytes", c_uint8 * 10), ("msc_location", c_uint64), ("vlr_location", c_uint64)]


class AccessRow(Structure):
    _fields_ = [("s_id", c_uint64), ("ai_type", c_uint64), ("data1", c_uint64), ("data2", c_uint64),
                ("data3", c_uint8 * 3), ("data4", c_uint8 * 5)]


class FacilityRow(Structure):
    _fields_ = [("s_id", c_uint64), ("sf_type", c_uint64), ("is_active", c_uint64), ("error_cntrl", c_uint64),
                ("data_a", c_uint64), ("data_b", c_uint8 * 5)]


class ForwardingRow(Structure):
    _fields_ = [("s_id", c_uint64), ("sf_type", c_uint64), ("start_time", c_uint64), ("end_time", c_uint64),
                ("numberx", c_uint64)]


class AccessAsked(Structure):
    _fields_ = [("s_id", c_uint64), ("ai_type", c_uint64)]


class DestinationAsked(Structure):
    _fields_ = [("s_id", c_uint64), ("sf_type", c_uint64), ("start_time", c_uint64), ("end_time", c_uint64)]


class Numbers(Structure):
    _fields_ = [("count", c_uint64), ("numbers", c_uint64 * 3)]


class RegionRow(Structure):
    _fields_ = [("lo", c_uint64), ("hi", c_uint64), ("is_piece", c_uint64), ("number", c_uint64)]


class RegionList(Structure):
    _fields_ = [("count", c_uint64), ("regions", RegionRow * 32)]


class Bounds(Structure):
    _fields_ = [("count", c_uint64), ("bounds", c_uint64 * 15)]


_CODES = [POINTER(c_uint8), c_size_t]
_SUBSCRIBERS = [POINTER(c_uint64), c_size_t, POINTER(SubscriberRow), c_size_t, *_CODES]
_DESTINATIONS = [POINTER(DestinationAsked), c_size_t, POINTER(Numbers), c_size_t, *_CODES]
_ACCESSES = [POINTER(AccessAsked), c_size_t, POINTER(AccessRow), c_size_t, *_CODES]

# What each call is passed behind the handle; hlr_open is passed it last.
_CALLS = {
    "hlr_close": [],
    "hlr_sync": [],
    "hlr_unsynced": [POINTER(c_uint64)],
    "hlr_journal": [c_int32, c_uint64, c_uint64],
    "hlr_snapshot": [c_int32],
    "hlr_journal_end": [],
    "hlr_subscriber_data": [c_uint64, POINTER(SubscriberRow)],
    "hlr_new_destination": [c_uint64, c_uint64, c_uint64, c_uint64, POINTER(Numbers)],
    "hlr_access_data": [c_uint64, c_uint64, POINTER(AccessRow)],
    "hlr_subscriber_data_many": _SUBSCRIBERS,
    "hlr_new_destination_many": _DESTINATIONS,
    "hlr_access_data_many": _ACCESSES,
    "hlr_find": [c_uint64, POINTER(c_uint64)],
    "hlr_facility_data": [c_uint64, c_uint64, POINTER(FacilityRow)],
    "hlr_forwarding": [c_uint64, c_uint64, c_uint64, POINTER(c_uint64), POINTER(c_uint64)],
    "hlr_next_subscriber": [c_uint64, POINTER(SubscriberRow)],
    "hlr_next_subscribers": [c_uint64, POINTER(SubscriberRow), c_size_t, POINTER(c_uint64)],
    "hlr_next_accesses": [c_uint64, c_uint64, POINTER(AccessRow), c_size_t, POINTER(c_uint64)],
    "hlr_next_facilities": [c_uint64, c_uint64, POINTER(FacilityRow), c_size_t, POINTER(c_uint64)],
    "hlr_next_forwardings": [c_uint64, c_uint64, c_uint64, POINTER(ForwardingRow), c_size_t, POINTER(c_uint64)],
    "hlr_update_subscriber": [c_uint64, c_uint64, c_uint64, c_uint64],
    "hlr_update_location": [c_uint64, c_uint64],
    "hlr_insert_forwarding": [c_uint64, c_uint64, c_uint64, c_uint64, c_uint64],
    "hlr_delete_forwarding": [c_uint64, c_uint64, c_uint64],
    "hlr_add_subscriber": [POINTER(SubscriberRow)],
    "hlr_add_access": [POINTER(AccessRow)],
    "hlr_add_facility": [POINTER(FacilityRow)],
    "hlr_set_active": [c_uint64, c_uint64, c_uint64],
    "hlr_set_number": [c_uint64, c_uint64],
    "hlr_post": [c_uint64, c_uint64, POINTER(c_uint64)],
    "hlr_views": [POINTER(c_int64 * CELLS), POINTER(c_int64 * CELLS)],
    "hlr_look": [POINTER(c_int64 * CELLS)],
    "hlr_scan": [POINTER(c_uint64 * CELLS)],
    "hlr_give": [c_uint64, c_uint64, c_uint64, POINTER(RegionRow)],
    "hlr_take": [c_uint64, c_uint64],
    "hlr_divide": [c_uint64, c_uint64, POINTER(RegionRow)],
    "hlr_dissolve": [c_uint64, POINTER(RegionRow)],
    "hlr_regions": [POINTER(RegionList)],
    "hlr_width": [POINTER(c_uint64)],
    "hlr_propose": [POINTER(Bounds)],
    "hlr_recut": [POINTER(Bounds), POINTER(c_uint64)],
    "hlr_lend": [c_uint64, POINTER(PartHandle)],
    "hlr_back": [c_uint64],
}

# What each call on a file is passed behind it.
_FILE_CALLS = {
    "hlr_file_open": [c_char_p, POINTER(Handle), c_uint64, c_uint64],
    "hlr_file_snapshot": [POINTER(Handle)],
    "hlr_file_close": [POINTER(Handle)],
}

# What each call on a part is passed behind its handle.
_PART_CALLS = {
    "hlr_home": [],
    "hlr_part_range": [POINTER(c_uint64), POINTER(c_uint64)],
    "hlr_part_subscriber_data": [c_uint64, POINTER(SubscriberRow)],
    "hlr_part_new_destination": [c_uint64, c_uint64, c_uint64, c_uint64, POINTER(Numbers)],
    "hlr_part_access_data": [c_uint64, c_uint64, POINTER(AccessRow)],
    "hlr_part_subscriber_data_many": _SUBSCRIBERS,
    "hlr_part_new_destination_many": _DESTINATIONS,
    "hlr_part_access_data_many": _ACCESSES,
    "hlr_part_update_subscriber": [c_uint64, c_uint64, c_uint64, c_uint64],
    "hlr_part_update_location": [c_uint64, c_uint64],
    "hlr_part_insert_forwarding": [c_uint64, c_uint64, c_uint64, c_uint64, c_uint64],
    "hlr_part_delete_forwarding": [c_uint64, c_uint64, c_uint64],
    "hlr_part_set_active": [c_uint64, c_uint64, c_uint64],
    "hlr_part_add_access": [POINTER(AccessRow)],
    "hlr_part_add_facility": [POINTER(FacilityRow)],
    "hlr_part_post": [c_uint64, POINTER(c_uint64)],
}


def path() -> str:
    """Returns what the loader is given: a path, or NAME if only the places of the system are left to look in."""
    if "HLR_LIBRARY" in os.environ:
        return os.environ["HLR_LIBRARY"]
    package = os.path.dirname(os.path.abspath(__file__))
    beside = [os.path.join(folder, NAME) for folder in (package, os.path.dirname(package))]
    return next(filter(os.path.exists, beside), NAME)


def built() -> str:
    """Returns what the library was built from, in lines as dist.sh wrote them, or '' for another library."""
    try:
        with open(path(), "rb") as file:
            checksum = hashlib.sha256(file.read()).hexdigest()
        with open(os.path.join(os.path.dirname(os.path.abspath(__file__)), "built.txt"), encoding="utf-8") as file:
            told = file.read()
    except OSError:
        return ""
    return told if told.startswith(f"{NAME} {checksum}\n") else ""


@functools.lru_cache(maxsize=None)
def library() -> ctypes.CDLL:
    """Loads the library once, and returns it with its calls."""
    where = path()
    try:
        loaded = ctypes.CDLL(where)
        loaded.hlr_open.argtypes = [c_uint64, c_uint64, POINTER(Handle)]
        for name, passed in _CALLS.items():
            getattr(loaded, name).argtypes = [POINTER(Handle), *passed]
        for name, passed in _FILE_CALLS.items():
            getattr(loaded, name).argtypes = [POINTER(FileHandle), *passed]
        for name, passed in _PART_CALLS.items():
            getattr(loaded, name).argtypes = [POINTER(PartHandle), *passed]
        for name in ("hlr_open", *_CALLS, *_FILE_CALLS, *_PART_CALLS):
            getattr(loaded, name).restype = c_uint8
    except (OSError, AttributeError) as fault:
        raise ImportError(f"hlr finds no library that it can use at {where!r} ({fault}): "
                          f"set HLR_LIBRARY to the path of {NAME}") from None
    return loaded
