"""The shared object's calls, as temolunai.h declares them."""

from __future__ import annotations

import ctypes
import os
from ctypes import POINTER, Structure, c_bool, c_char_p, c_size_t, c_uint8, c_uint32, c_uint64, c_void_p

# What a site, a test or a build sets, if the shared object doesn't lie beside this file.
LIBRARY = os.environ.get("TEMOLUNAI_LIBRARY") or os.path.join(os.path.dirname(os.path.abspath(__file__)), "libtemolunai.so.1")


class Reading(Structure):
    _fields_ = [("fault", c_uint32), ("frame", c_uint32)]


class LabelRead(Structure):
    _fields_ = [("fault", c_uint32), ("hours", c_uint8), ("minutes", c_uint8), ("seconds", c_uint8), ("frames", c_uint8)]


class Range(Structure):
    _fields_ = [("start", c_uint32), ("duration", c_uint32)]


class RangeRead(Structure):
    _fields_ = [("fault", c_uint32), ("range", Range)]


class UmidRead(Structure):
    _fields_ = [
        ("fault", c_uint32),
        ("instance", c_uint32),
        ("version", c_uint8),
        ("material_type", c_uint8),
        ("material_number_method", c_uint8),
        ("instance_number_method", c_uint8),
    ]


class Place(Structure):
    _fields_ = [("at", c_size_t), ("length", c_size_t)]


class Event(Structure):
    _fields_ = [
        ("first_text", c_size_t),
        ("notes", c_size_t),
        ("line", c_uint32),
        ("number", c_uint32),
        ("duration", c_uint32),
        ("source_first", c_uint32),
        ("source_end", c_uint32),
        ("record_first", c_uint32),
        ("length", c_uint32),
        ("speed", c_uint32),
        ("is_picture", c_uint32),
        ("edit_type", c_uint32),
        ("pattern", c_uint32),
    ]


class List(Structure):
    _fields_ = [
        ("fault", c_uint32),
        ("line", c_uint32),
        ("label", c_uint32),
        ("has_title", c_uint32),
        ("head_notes", c_size_t),
        ("events", c_size_t),
        ("texts", c_size_t),
        ("bytes", c_size_t),
    ]


class Written(Structure):
    _fields_ = [("fault", c_uint32), ("event", c_size_t), ("bytes", c_size_t)]


NO_DURATION = 0xFFFFFFFF

_INPUT = [c_char_p, c_size_t]
_ROOM = [c_void_p, c_size_t]
# Each call: what it gives, and what it takes.
CALLS: dict[str, tuple[type, list[type]]] = {
    "rate_from_text": (c_uint32, _INPUT),
    "day_frames": (c_uint32, [c_uint32]),
    "nominal_frames_per_second": (c_uint32, [c_uint32]),
    "is_drop_frame": (c_bool, [c_uint32]),
    "from_timecode": (Reading, [*_INPUT, c_uint32]),
    "label_frame": (Reading, [c_uint8, c_uint8, c_uint8, c_uint8, c_uint32]),
    "label": (LabelRead, [c_uint32, c_uint32]),
    "to_timecode": (c_uint32, [c_uint32, c_uint32, *_ROOM]),
    "from_timecodes": (c_uint32, [*_INPUT, c_uint32, *_ROOM]),
    "to_timecodes": (c_uint32, [c_void_p, c_size_t, c_uint32, *_ROOM]),
    "range_from_start_end_time": (RangeRead, [c_uint32, c_uint32]),
    "extended_by": (RangeRead, [Range, Range]),
    "end_time_exclusive": (c_uint64, [Range]),
    "end_time_inclusive": (c_uint64, [Range]),
    "contains": (c_bool, [Range, c_uint32]),
    "contains_range": (c_bool, [Range, Range]),
    "intersects": (c_bool, [Range, Range]),
    "overlaps": (c_bool, [Range, Range]),
    "meets": (c_bool, [Range, Range]),
    "before": (c_bool, [Range, Range]),
    "clamped": (c_uint32, [Range, c_uint32]),
    "common_part": (Range, [Range, Range]),
    "umid_fault": (c_uint32, _INPUT),
    "umid_parts": (UmidRead, _INPUT),
    "umid_material_number": (c_uint32, [*_INPUT, *_ROOM]),
    "umid_from_hex": (c_uint32, [*_INPUT, *_ROOM]),
    "umid_to_hex": (c_uint32, [*_INPUT, *_ROOM]),
    "umid_with_instance": (c_uint32, [*_INPUT, c_uint32, *_ROOM]),
    "list_read": (List, [*_INPUT, c_uint32, c_bool, c_void_p, c_size_t, c_void_p, c_size_t, c_void_p, c_size_t]),
    "list_write": (Written, [*_INPUT, c_uint32, POINTER(Event), c_size_t, POINTER(Place), c_size_t, *_INPUT, *_ROOM]),
}


class Calls:
    """The calls, each under its name."""

    def __init__(self, path: str) -> None:
        library = ctypes.CDLL(path)
        for name, (gives, takes) in CALLS.items():
            call = getattr(library, f"temolunai_{name}")
            call.restype, call.argtypes = gives, takes
            setattr(self, name, call)

    def __getattr__(self, name: str):  # for type checkers: each name is set above
        raise AttributeError(name)


calls = Calls(LIBRARY)


def number32(value: int, what: str) -> int:
    """The number, where it has 32 bits: ctypes would cut others off."""
    if not 0 <= value < 1 << 32:
        raise OverflowError(f"{what} is 0 to 4294967295, and not {value}")
    return value
