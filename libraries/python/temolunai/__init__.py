"""Timecode (SMPTE ST 12-1), basic UMIDs (SMPTE ST 330) and edit lists in a profile of CMX 3600.

What each call answers is proved of the shared object that lies beside this file; this package is a thin layer over it,
and is tested. Names are those of OpenTimelineIO where it has the thing. A frame is a frame of the day, counted from 0.

    >>> from temolunai import from_timecode, to_timecode
    >>> from_timecode("00:01:00;02", "df")
    1800
    >>> to_timecode(1800, "df")
    '00:01:00;02'

What is refused is an exception with the fault's number and name: `TimecodeFault`, `RangeFault`, `UmidFault`, `ListFault`
with its line, `WriteFault` with its event. All of them are `Fault`, a `ValueError`. Want of memory is `MemoryError`.
"""

from .edl import EditType, Event, EventList, read_from_string, write_to_string
from .faults import Fault, ListFault, RangeFault, TimecodeFault, UmidFault, WriteFault
from .ranges import TimeRange
from .timecode import Label, Rate, RateLike, from_timecode, from_timecodes, to_label, to_timecode, to_timecodes
from .umid import Umid

__all__ = [
    "EditType",
    "Event",
    "EventList",
    "Fault",
    "Label",
    "ListFault",
    "RangeFault",
    "Rate",
    "RateLike",
    "TimeRange",
    "TimecodeFault",
    "Umid",
    "UmidFault",
    "WriteFault",
    "from_timecode",
    "from_timecodes",
    "read_from_string",
    "to_label",
    "to_timecode",
    "to_timecodes",
    "write_to_string",
]
