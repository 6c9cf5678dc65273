"""Edit lists in a profile of CMX 3600, by the two names of OpenTimelineIO's cmx_3600 adapter."""

from __future__ import annotations

import ctypes
import enum
import struct
from dataclasses import dataclass
from typing import Iterable, Optional, Union

from . import _native as native
from ._native import calls
from .faults import UNAVAILABLE, ListFault, WriteFault
from .ranges import TimeRange
from .timecode import Rate, RateLike

_EVENT = struct.Struct("=QQ11I4x")
_PLACE = struct.Struct("=QQ")
assert _EVENT.size == ctypes.sizeof(native.Event) and _PLACE.size == ctypes.sizeof(native.Place)


class EditType(enum.Enum):
    """What an edit does, of the four kinds of CMX 3600."""

    CUT = 1
    DISSOLVE = 2
    WIPE = 3
    KEY = 4


@dataclass(frozen=True)
class Event:
    """An event. Places are frames of the day."""

    number: int
    reel: str
    #: `B`, or letters with a `V` among them, for the picture; others for sound.
    channels: str
    #: `C`, `D`, `W` and digits, or a word that begins with `K`.
    kind: str
    #: The duration of a dissolve or a wipe, in frames.
    duration: Optional[int]
    source_first: int
    #: Exclusive: at most the day's frames.
    source_end: int
    record_first: int
    #: The frames of the record, which may go on past the day's end.
    length: int
    notes: tuple[str, ...] = ()
    #: Whether the source is played at another speed. A written list doesn't say it.
    speed: bool = False
    #: The line that it was read from, counted from 1, or 0.
    line: int = 0
    #: What the list's reader found; a written list says it by `channels` and `kind`.
    is_picture: Optional[bool] = None
    edit_type: Optional[EditType] = None
    #: The number of a wipe's pattern.
    pattern: Optional[int] = None

    @property
    def source_range(self) -> TimeRange:
        """The frames of the source."""
        return TimeRange.range_from_start_end_time(self.source_first, self.source_end)

    @property
    def record_range(self) -> TimeRange:
        """The frames of the record."""
        return TimeRange(self.record_first, self.length)


@dataclass(frozen=True)
class EventList:
    """An edit list: its last title, the notes before the first event, and its events."""

    title: Optional[str]
    head: tuple[str, ...]
    events: tuple[Event, ...]


def read_from_string(text: Union[bytes, str], rate: RateLike, ignore_timecode_mismatch: bool = False) -> EventList:
    """Reads an edit list. With `ignore_timecode_mismatch` an event whose source and record differ in length gets a record
    as long as its source, unless a note says its speed. The first fault of the first line that has one is refused."""
    given = text.encode() if isinstance(text, str) else bytes(text)
    ask = (given, len(given), Rate.of(rate).value, ignore_timecode_mismatch)
    read = calls.list_read(*ask, None, 0, None, 0, None, 0)
    events = ctypes.create_string_buffer(_EVENT.size * read.events + 1)
    places = ctypes.create_string_buffer(_PLACE.size * read.texts + 1)
    texts = ctypes.create_string_buffer(read.bytes + 1)
    if read.fault == 7:
        read = calls.list_read(*ask, events, read.events, places, read.texts, texts, read.bytes)
    if read.fault == UNAVAILABLE:
        raise MemoryError
    if read.fault:
        raise ListFault(read.fault, read.line, read.label)
    whole = texts.raw
    said = [whole[at : at + length].decode() for at, length in _PLACE.iter_unpack(places.raw[: _PLACE.size * read.texts])]
    head = read.has_title + read.head_notes
    return EventList(
        said[0] if read.has_title else None,
        tuple(said[read.has_title : head]),
        tuple(_event(it, said) for it in _EVENT.iter_unpack(events.raw[: _EVENT.size * read.events])),
    )


def _event(numbers: tuple[int, ...], texts: list[str]) -> Event:
    first, notes, line, number, duration, *places, speed, picture, edit, pattern = numbers
    source_first, source_end, record_first, length = places
    return Event(
        number,
        texts[first],
        texts[first + 1],
        texts[first + 2],
        None if duration == native.NO_DURATION else duration,
        source_first,
        source_end,
        record_first,
        length,
        tuple(texts[first + 3 : first + 3 + notes]),
        bool(speed),
        line,
        bool(picture),
        EditType(edit) if edit else None,
        pattern if edit == EditType.WIPE.value else None,
    )


def write_to_string(title: str, rate: RateLike, events: Iterable[Event]) -> str:
    """Writes an edit list. An event can be written where its number is at most 9,999, its duration at most 999, and its
    places lie in the day. For the list to be read back, texts are ASCII as docs/LISTS.md says."""
    events, texts = list(events), bytearray()
    places, rows = bytearray(), bytearray()
    count = 0
    for at, event in enumerate(events):
        said = (event.reel, event.channels, event.kind, *event.notes)
        try:
            rows += _row(event, count)
        except struct.error:
            raise WriteFault(31, at) from None
        for it in said:
            encoded = it.encode()
            places += _PLACE.pack(len(texts), len(encoded))
            texts += encoded
        count += len(said)
    head = title.encode()
    ask = (
        head,
        len(head),
        Rate.of(rate).value,
        (native.Event * len(events)).from_buffer_copy(bytes(rows)),
        len(events),
        (native.Place * count).from_buffer_copy(bytes(places)),
        count,
        bytes(texts),
        len(texts),
    )
    out = ctypes.create_string_buffer(1)
    written = calls.list_write(*ask, out, 0)
    if written.fault == 7:
        out = ctypes.create_string_buffer(written.bytes)
        written = calls.list_write(*ask, out, written.bytes)
    if written.fault == UNAVAILABLE:
        raise MemoryError
    if written.fault:
        raise WriteFault(written.fault, written.event if written.fault == 31 else None)
    return out.raw[: written.bytes].decode()


def _row(event: Event, first: int) -> bytes:
    duration = native.NO_DURATION if event.duration is None else event.duration
    places = (event.source_first, event.source_end, event.record_first, event.length)
    return _EVENT.pack(first, len(event.notes), 0, event.number, duration, *places, 0, 0, 0, 0)
