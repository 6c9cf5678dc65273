"""Ranges of frames, by the names of OpenTimelineIO's opentime."""

from __future__ import annotations

from dataclasses import dataclass

from ._native import Range, RangeRead, calls, number32
from .faults import RangeFault


@dataclass(frozen=True, order=True)
class TimeRange:
    """A range of frames: the first, and how many; 0 is an empty range. Both are below 2^32."""

    start_time: int
    duration: int

    def __post_init__(self) -> None:
        number32(self.start_time, "the start")
        number32(self.duration, "the duration")

    @classmethod
    def range_from_start_end_time(cls, start_time: int, end_time_exclusive: int) -> TimeRange:
        """The range from a start up to an end, which is exclusive, and not before the start."""
        start, end = number32(start_time, "the start"), number32(end_time_exclusive, "the end")
        return _read(calls.range_from_start_end_time(start, end))

    def end_time_exclusive(self) -> int:
        """The frame behind the last one."""
        return calls.end_time_exclusive(self._range())

    def end_time_inclusive(self) -> int:
        """The last frame, or the start of a range without frames."""
        return calls.end_time_inclusive(self._range())

    def contains(self, frame: int) -> bool:
        """Whether the frame is in the range."""
        return calls.contains(self._range(), number32(frame, "a frame"))

    def contains_range(self, other: TimeRange) -> bool:
        """Whether the other starts after this one does, and ends before this one does."""
        return calls.contains_range(self._range(), other._range())

    def intersects(self, other: TimeRange) -> bool:
        """Whether each starts before the other ends. Ranges that only touch don't."""
        return calls.intersects(self._range(), other._range())

    def overlaps(self, other: TimeRange) -> bool:
        """Whether this one starts before the other does, and ends within the other."""
        return calls.overlaps(self._range(), other._range())

    def meets(self, other: TimeRange) -> bool:
        """Whether the other starts just where this one ends."""
        return calls.meets(self._range(), other._range())

    def before(self, other: TimeRange) -> bool:
        """Whether this one ends before the other starts. Ranges that meet don't."""
        return calls.before(self._range(), other._range())

    def extended_by(self, other: TimeRange) -> TimeRange:
        """The range from the earlier start up to the later end; refused where its duration is 2^32 frames or more."""
        return _read(calls.extended_by(self._range(), other._range()))

    def clamped(self, frame: int) -> int:
        """The frame itself where the range has it, or else the first or the last frame, whichever is nearer."""
        return calls.clamped(self._range(), number32(frame, "a frame"))

    def common_part(self, other: TimeRange) -> TimeRange:
        """The frames that both have; empty, at the later start, where there are none."""
        both = calls.common_part(self._range(), other._range())
        return TimeRange(both.start, both.duration)

    def _range(self) -> Range:
        return Range(self.start_time, self.duration)


def _read(read: RangeRead) -> TimeRange:
    if read.fault:
        raise RangeFault(read.fault)
    return TimeRange(read.range.start, read.range.duration)
