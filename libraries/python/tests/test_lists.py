"""Edit lists beside a plain reading of their lines, which knows nothing of the library."""

import dataclasses
import random
import unittest

from temolunai import EditType, Event, ListFault, TimeRange, WriteFault, read_from_string, write_to_string

HEAD = "TITLE: {}\nFCM: NON-DROP FRAME\n\n"


def label(frame):
    """At 25 frames a second."""
    seconds = frame // 25
    return f"{seconds // 3600:02}:{seconds // 60 % 60:02}:{seconds % 60:02}:{frame % 25:02}"


def line(event):
    """An event's line as docs/LISTS.md lays it out."""
    number = f"{event.number:03}".ljust(5)
    duration = "   " if event.duration is None else f"{event.duration:03}"
    record_end = (event.record_first + event.length) % 2_160_000
    places = (event.source_first, event.source_end % 2_160_000, event.record_first, record_end)
    return f"{number}{event.reel:8} {event.channels:5} {event.kind:4} {duration} " + " ".join(label(it) for it in places)


def made(rng, number):
    """An event that a list may have."""
    kind = rng.choice(["C", "D", "W001", "W123"])
    length, source, record = rng.randrange(2_000), rng.randrange(2_000_000), rng.randrange(2_160_000)
    notes = tuple(f"* NOTE {it} OF {number}" for it in range(rng.randrange(3)))
    duration = None if kind == "C" else rng.randrange(1_000)
    channels = rng.choice(["V", "A", "B", "AA/V", "A2"])
    return Event(number, f"C{number:07}", channels, kind, duration, source, source + length, record, length, notes)


class Lists(unittest.TestCase):
    def test_written_and_read_back(self):
        rng = random.Random(73)
        for count in (0, 1, 2, 50, 9_999):
            events = [made(rng, it + 1) for it in range(count)]
            text = write_to_string("NIGHT", 25, events)
            lines = [part for event in events for part in (line(event), *event.notes)]
            self.assertEqual(text, HEAD.format("NIGHT") + "".join(f"{it}\n" for it in lines))
            read = read_from_string(text, 25)
            self.assertEqual((read.title, read.head, len(read.events)), ("NIGHT", (), count))
            at = 4
            for event, got in zip(events, read.events):
                kinds = {"C": EditType.CUT, "D": EditType.DISSOLVE}
                whole = dataclasses.replace(
                    event,
                    line=at,
                    is_picture=event.channels == "B" or "V" in event.channels,
                    edit_type=kinds.get(event.kind, EditType.WIPE),
                    pattern=int(event.kind[1:]) if event.kind[0] == "W" else None,
                )
                self.assertEqual(got, whole)
                self.assertEqual(got.record_range, TimeRange(event.record_first, event.length))
                self.assertEqual(got.source_range, TimeRange(event.source_first, event.source_end - event.source_first))
                at += 1 + len(event.notes)
            self.assertEqual(write_to_string("NIGHT", 25, read.events), text)

    def test_heads_notes_and_words(self):
        text = "* A NOTE OF THE HEAD\r\n> ANOTHER\nTITLE: ONE\nTITLE:  ZWÖLF \n"
        text += "001 BL V K B 00:00:00:00 00:00:01:00 06:00:00:00 06:00:01:00\nM2 X\n"
        read = read_from_string(text.encode(), 25)
        self.assertEqual((read.title, read.head), ("ZWÖLF", ("* A NOTE OF THE HEAD", "> ANOTHER")))
        (event,) = read.events
        self.assertEqual((event.kind, event.edit_type, event.duration), ("K", EditType.KEY, None))
        self.assertEqual((event.notes, event.line), (("M2 X",), 5))

    def test_speed_and_mismatches(self):
        text = "001 BL V C 00:00:00:00 00:00:05:00 06:00:00:00 06:00:05:01\n"
        with self.assertRaises(ListFault) as caught:
            read_from_string(text, 25)
        self.assertEqual((caught.exception.number, caught.exception.line, caught.exception.label), (28, 1, None))
        self.assertEqual(str(caught.exception), "line 1: 28 DurationMismatch")
        self.assertEqual(read_from_string(text, 25, True).events[0].length, 125)
        read = read_from_string(text + "M2 BL 025.0 00:00:00:00\n", 25)
        self.assertEqual((read.events[0].length, read.events[0].speed), (126, True))

    def test_what_is_refused(self):
        good = "001 BL V C 00:00:00:00 00:00:05:00 06:00:00:00 06:00:05:00"
        for text, rate, number, at, inner in [
            (good + "\n" + good.replace(" V ", " "), 25, 22, 2, None),
            ("10000" + good[3:], 25, 23, 1, None),
            (good.replace(" C ", " X "), 25, 24, 1, None),
            (good.replace("00:00:05:00 ", "00:00:05:25 "), 25, 25, 1, 2),
            ("FCM: DROP FRAME\n" + good, 25, 26, 1, None),
            (good, "df", None, 0, None),
            (good.replace("00:00:00:00 00:00:05:00", "00:00:05:00 00:00:00:01"), 25, 27, 1, None),
            (b"\xff" + good.encode(), 25, 21, 1, None),
        ]:
            if number is None:
                self.assertEqual(len(read_from_string(text, rate).events), 1)
                continue
            with self.assertRaises(ListFault) as caught:
                read_from_string(text, rate)
            fault = caught.exception
            self.assertEqual((fault.number, fault.line, fault.label), (number, at, inner), text)
        many = (good + "\n") * 10_000
        with self.assertRaises(ListFault) as caught:
            read_from_string(many, 25)
        self.assertEqual((caught.exception.number, caught.exception.line), (30, 10_000))

    def test_what_cannot_be_written(self):
        good = Event(1, "C0000001", "V", "C", None, 0, 125, 540_000, 125)
        for change in (
            {"number": 10_000},
            {"duration": 1_000},
            {"source_first": 2_160_001},
            {"source_end": 2_160_001},
            {"record_first": 2_160_000},
            {"length": 2_160_000},
            {"length": -1},
            {"record_first": 1 << 32},
        ):
            with self.assertRaises(WriteFault) as caught:
                write_to_string("T", 25, [good, dataclasses.replace(good, **change)])
            self.assertEqual((caught.exception.number, caught.exception.event), (31, 1), change)
        self.assertEqual(write_to_string("T", 25, [good]).splitlines()[3], line(good))


if __name__ == "__main__":
    unittest.main()
