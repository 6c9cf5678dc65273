"""Two edit lists compared by painting them, frame by frame, as docs/LISTS.md says: only cells, no stretches."""

from __future__ import annotations

import dataclasses
import random

DAY = 2_160_000
# The most bytes of a list.
LONGEST = 1_000_000
TRACKS = ["V", *(f"A{number}" for number in range(1, 17))]
CHANNELS = ["V", "A", "B", "AA", "AA/V", "A2", "A2/V", "A03/A4", "A16/A17", "A1/A2/A3", "NONE", "VA1"]
REELS = ["BL", "BLACK", "BARS", "C0000001", "C0000002", "C0000003"]
STILL = {"BL", "BARS"}


@dataclasses.dataclass
class Event:
    """An event of a list at 25 frames a second."""

    reel: str
    channels: str
    source: int
    source_length: int
    record: int
    length: int

    def line(self, number: int) -> str:
        """Its line, with one that says its speed where source and record differ in length."""
        places = (self.source, self.source + self.source_length, self.record, (self.record + self.length) % DAY)
        text = f"{number:03} {self.reel} {self.channels} C " + " ".join(label(it) for it in places) + "\n"
        return text if self.source_length == self.length else f"{text}M2 {self.reel} 000.0 00:00:00:00\n"

    def tracks(self) -> set[str]:
        """The tracks that it is on."""
        found = {"V"} if "V" in self.channels or self.channels == "B" else set()
        for word in self.channels.split("/"):
            if word in ("A", "B", "AA"):
                found.add("A1")
            if word == "AA":
                found.add("A2")
            if word[:1] == "A" and 1 <= len(word[1:]) <= 2 and word[1:].isdecimal():
                found.add(f"A{int(word[1:])}")
        return found & set(TRACKS)


def label(frame: int) -> str:
    """At 25 frames a second."""
    seconds = frame // 25
    return f"{seconds // 3600:02}:{seconds // 60 % 60:02}:{seconds % 60:02}:{frame % 25:02}"


def made(rng: random.Random, count: int, places: range, longest: int) -> list[Event]:
    """A list whose records begin at these places, some through midnight, some over one another."""
    events = []
    for _ in range(count):
        length = rng.randrange(longest)
        source_length = length if rng.random() < 0.8 else rng.randrange(longest)
        record = rng.choice(places) % DAY
        events.append(Event(rng.choice(REELS), rng.choice(CHANNELS), rng.randrange(60), source_length, record, length))
    return events


def changed(rng: random.Random, events: list[Event]) -> list[Event]:
    """The list with some events left out, moved, or from another place of their source."""
    kept = [dataclasses.replace(it) for it in events if rng.random() < 0.9]
    for event in kept:
        if rng.random() < 0.1:
            event.record = (event.record + rng.randrange(5)) % DAY
        if rng.random() < 0.1:
            event.source += rng.randrange(5)
        if rng.random() < 0.1:
            event.reel = rng.choice(REELS)
    return kept


def text(events: list[Event]) -> str:
    """The list's file."""
    return "".join(event.line(number + 1) for number, event in enumerate(events))


def filled(list_text: str) -> str:
    """The list with notes on its last event, of as many bytes as a list may have."""
    room = LONGEST - len(list_text)
    return list_text + ("* " + "N" * 77 + "\n") * (room // 80) + "*" * (room % 80)


def painted(events: list[Event]) -> dict[str, dict[int, tuple[str, int]]]:
    """What each track shows at each frame: the events in their order, each over those before it."""
    picture: dict[str, dict[int, tuple[str, int]]] = {track: {} for track in TRACKS}
    for event in events:
        reel = "BL" if event.reel == "BLACK" else event.reel
        for track in event.tracks():
            for k in range(event.length):
                frame = 0 if reel in STILL else event.source + k * event.source_length // event.length
                picture[track][(event.record + k) % DAY] = (reel, frame)
    return picture


def status(one: tuple[str, int] | None, other: tuple[str, int] | None) -> str:
    """How two cells compare, of which one shows something."""
    if one is None or other is None:
        return "ONLY B" if one is None else "ONLY A"
    if one[0] != other[0]:
        return "OTHER"
    return "SAME" if one[1] == other[1] else "SLIP"


def compared(events: list[Event], others: list[Event]) -> str:
    """What `playout diff 25` has to say."""
    one, other = painted(events), painted(others)
    lines = []
    for track in TRACKS:
        runs: list[tuple[int, int, str]] = []
        for frame in sorted({*one[track], *other[track]}):
            said = status(one[track].get(frame), other[track].get(frame))
            if runs and runs[-1][2] == said and runs[-1][0] + runs[-1][1] == frame:
                first, frames, _ = runs.pop()
                runs.append((first, frames + 1, said))
            else:
                runs.append((frame, 1, said))
        lines += [f"{track} {label(frame)} {frames} {said}\n" for frame, frames, said in runs]
    return "".join(lines)
