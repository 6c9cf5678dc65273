"""The files of a journal: lines of what an office was given and what it answered, in segments that are never
rewritten. They have the entries, too, though the log has them: so `trail` and `recover` work on any machine.

    P n revision sum                    at the head of each segment: where the journal stood when it was begun
    E n revision VALUE                  entry n, as the log has it
    A n revision sum sure ANSWER        what was answered, and the running sum of all before it

VALUE and ANSWER are base64, and the sum of nothing is `-`. `sure` is 0 where the answer may not be the first one. A
sum is a SHA-256, in hexadecimal: of the sum before, n and revision, each with a blank behind it, the SHA-256 of the
value, and the answer; one that isn't sure has a `?` in front. Entries that were put into the log together have one
revision, and on one machine the revision is n.

The newest segment has zeros behind its last line, 256 KB at most, so that its length and place on the disk are there
before its lines. More than one answer behind the first zero is damage, and refused.
"""

import base64
import hashlib
import io
import os
import re
from collections.abc import Iterator
from typing import NamedTuple

from .entries import Entry
from .faults import Stopped


# Where an entry stands: its revision, and its place among those that were put there together. LAST is behind them all.
Place = tuple[int, int]
LAST = 1 << 30


class Record(NamedTuple):
    """That the office has answered entry n."""

    n: int
    revision: int
    sum: str
    sure: bool
    answer: bytes
    at: int = 0

    def place(self) -> Place:
        """Where its entry stands."""
        return self.revision, self.at

    def position(self) -> bytes:
        """The line at the head of a segment that is begun behind it."""
        return f"P {self.n} {self.revision} {self.sum}\n".encode()

    def line(self) -> bytes:
        """The line of an answer."""
        return f"A {self.n} {self.revision} {self.sum} {self.sure:d} ".encode() + base64.b64encode(self.answer) + b"\n"


class Logged(NamedTuple):
    """An entry at its place: its number, without a hole, its revision, which never shrinks, and its bytes. With them
    goes what they say, where that is at hand."""

    n: int
    revision: int
    value: bytes
    entry: Entry | None = None
    at: int = 0

    def line(self) -> bytes:
        """The line of an entry."""
        return b"E %d %d %s\n" % (self.n, self.revision, base64.b64encode(self.value))


def next_sum(before: str, n: int, revision: int, value: bytes, answer: bytes, sure: bool = True) -> str:
    """The running sum behind an entry and its answer. That this may not be the first one is a `?` in front of it:
    two replicas of which only one is sure differ."""
    what = hashlib.sha256(value).digest() + (answer if sure else b"?" + answer)
    return hashlib.sha256(f"{before} {n} {revision} ".encode() + what).hexdigest()


def segments(folder: str) -> list[str]:
    """The segments of a journal, in order. Each has the entry behind which it was begun in its name."""
    return sorted(f"{folder}/{it}" for it in os.listdir(folder) if re.fullmatch("journal-[0-9]{20}", it))


def whole(path: str) -> bytes:
    """The whole lines of a segment. What was being written as the power went may be there in part, and ends them: that
    was told to nobody. It has one answer at most, so where more of them come the segment was damaged."""
    with open(path, "rb") as file:
        data = file.read()
        hole = data.find(b"\0")
        end = data.rfind(b"\n", 0, hole if hole >= 0 else None) + 1
        # A replica may have written there since.
        if data.count(b"\nA ", end) > 1 and os.pread(file.fileno(), 1, hole) == b"\0":
            raise Stopped(f"{path} has lines behind byte {end}, where there is none")
    return data[:end]


def read(path: str) -> Iterator[Logged | Record]:
    """The entries and answers of a segment, in the order of its lines."""
    for number, line in enumerate(io.BytesIO(whole(path)), 1):
        try:
            kind, n, revision, *rest = line.decode("ascii").split()
            if kind == "E":
                yield Logged(int(n), int(revision), base64.b64decode(rest[0]))
            elif kind == "A":
                yield Record(int(n), int(revision), rest[0], rest[1] == "1", base64.b64decode(rest[2]))
        except (ValueError, IndexError) as fault:
            raise Stopped(f"{path} line {number} is no line of a journal: {fault}") from fault


def position_of(path: str) -> Record:
    """Where the journal stood as a segment was begun."""
    with open(path, "rb") as file:
        found = re.fullmatch(rb"P ([0-9]+) ([0-9]+) (\S+)\n", file.readline())
    if not found:
        raise Stopped(f"{path} doesn't begin as a segment of a journal")
    return Record(int(found[1]), int(found[2]), found[3].decode(), True, b"", LAST)
