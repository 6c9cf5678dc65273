"""Labels and frames, by SMPTE ST 12-1."""

from __future__ import annotations

import ctypes
import enum
from array import array
from dataclasses import dataclass
from typing import Iterable, Optional, Union

from ._native import Reading, calls, number32
from .faults import TimecodeFault


class Rate(enum.Enum):
    """How time addresses are counted."""

    F24 = 24
    F25 = 25
    F30 = 30
    #: Drop-frame at 30000/1001.
    DF30 = 29

    @classmethod
    def of(cls, rate: RateLike) -> Rate:
        """The rate itself, of its text `24`, `25`, `30` or `df`, or of its number: 30000/1001, or 29.97, is drop-frame."""
        if isinstance(rate, Rate):
            return rate
        if isinstance(rate, str):
            text = rate.encode()
            number = calls.rate_from_text(text, len(text))
        else:
            number = 29 if abs(rate - 30000 / 1001) < 0.005 else rate if rate in (24, 25, 30) else 0
        if number == 0:
            raise ValueError(f"a rate is 24, 25, 30 or df, and not {rate!r}")
        return cls(int(number))

    @property
    def text(self) -> str:
        """`24`, `25`, `30` or `df`."""
        return "df" if self is Rate.DF30 else str(self.value)

    @property
    def day_frames(self) -> int:
        """The frames of a day, 24 hours of labels."""
        return calls.day_frames(self.value)

    @property
    def nominal_frames_per_second(self) -> int:
        """How many frames are counted in a second: 30 at drop-frame too."""
        return calls.nominal_frames_per_second(self.value)

    @property
    def is_drop_frame(self) -> bool:
        """Whether labels are dropped. No frames are."""
        return calls.is_drop_frame(self.value)


RateLike = Union[Rate, str, float]


@dataclass(frozen=True, order=True)
class Label:
    """A label in its numbers."""

    hours: int
    minutes: int
    seconds: int
    frames: int
    rate: Rate

    def frame(self) -> int:
        """The frame that the label names; `LabelRange` or `DroppedLabel` where it names none."""
        numbers = (self.hours, self.minutes, self.seconds, self.frames)
        if not all(0 <= it < 256 for it in numbers):
            raise TimecodeFault(2)
        return _frame(calls.label_frame(*numbers, self.rate.value))

    def __str__(self) -> str:
        mark = ";" if self.rate.is_drop_frame else ":"
        return f"{self.hours:02}:{self.minutes:02}:{self.seconds:02}{mark}{self.frames:02}"


def _frame(read: Reading, index: Optional[int] = None) -> int:
    if read.fault:
        raise TimecodeFault(read.fault, index)
    return read.frame


def from_timecode(timecode_str: str, rate: RateLike) -> int:
    """The frame of a label's text. A label that drop-frame counting drops is refused, and is never some other frame."""
    text = timecode_str.encode()
    return _frame(calls.from_timecode(text, len(text), Rate.of(rate).value))


def to_timecode(frame: int, rate: RateLike) -> str:
    """The text of a frame's label, with `;` before the frames at drop-frame."""
    out = ctypes.create_string_buffer(11)
    fault = calls.to_timecode(_day_frame(frame), Rate.of(rate).value, out, 11)
    if fault:
        raise TimecodeFault(fault)
    return out.raw.decode("ascii")


def to_label(frame: int, rate: RateLike) -> Label:
    """The label of a frame, in its numbers."""
    rate = Rate.of(rate)
    read = calls.label(_day_frame(frame), rate.value)
    if read.fault:
        raise TimecodeFault(read.fault)
    return Label(read.hours, read.minutes, read.seconds, read.frames, rate)


def _day_frame(frame: int) -> int:
    if not 0 <= frame < 1 << 32:
        raise TimecodeFault(5)
    return frame


def from_timecodes(labels: Union[bytes, Iterable[str]], rate: RateLike, default: Optional[int] = None) -> array[int]:
    """The frames of many labels, in one call: an array of 32-bit numbers. Labels are texts, or bytes in which labels of 11
    bytes stand one behind another. The first label with a fault is refused, or has the frame `default` where one is given.
    """
    if not isinstance(labels, (bytes, bytearray)):
        labels = list(labels)
        for index, it in enumerate(labels):
            if len(it) != 11 or not it.isascii():
                if default is None:
                    raise TimecodeFault(1, index)
                labels[index] = "?" * 11
        labels = "".join(labels).encode("ascii")
    count = len(labels) // 11
    readings = array("I", bytes(8 * count))
    fault = calls.from_timecodes(bytes(labels), len(labels), Rate.of(rate).value, readings.buffer_info()[0], count)
    if fault:
        raise TimecodeFault(fault)
    faults, frames = readings[::2], readings[1::2]
    if any(faults):
        if default is None:
            index = next(at for at, it in enumerate(faults) if it)
            raise TimecodeFault(faults[index], index)
        number32(default, "the default")
        for at, it in enumerate(faults):
            if it:
                frames[at] = default
    return frames


def to_timecodes(frames: Iterable[int], rate: RateLike) -> list[str]:
    """The labels of many frames, in one call. A frame that isn't of the day is refused."""
    if not isinstance(frames, array) or frames.typecode != "I":
        frames = array("I", [_day_frame(it) for it in frames])
    rate, count = Rate.of(rate), len(frames)
    out = ctypes.create_string_buffer(11 * count + 1)
    fault = calls.to_timecodes(frames.buffer_info()[0], count, rate.value, out, 11 * count)
    if fault:
        index = next((at for at, it in enumerate(frames) if it >= rate.day_frames), None)
        raise TimecodeFault(fault, index)
    text = out.raw[: 11 * count].decode("ascii")
    return [text[at : at + 11] for at in range(0, 11 * count, 11)]
