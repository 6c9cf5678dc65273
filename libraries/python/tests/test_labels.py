"""Labels, ranges and UMIDs beside plain counting, which knows nothing of the library."""

import unittest

from temolunai import (
    Fault,
    Label,
    RangeFault,
    Rate,
    TimecodeFault,
    TimeRange,
    Umid,
    UmidFault,
    from_timecode,
    from_timecodes,
    to_label,
    to_timecode,
    to_timecodes,
)

UMID = "060a2b340101010501010d211300000700112233445566778899aabbccddeeff"
# The frames of a day: 24 hours of labels, without those that drop-frame counting drops.
DAYS = {Rate.F24: 2_073_600, Rate.F25: 2_160_000, Rate.F30: 2_592_000, Rate.DF30: 2_589_408}


def counted(rate):
    """The labels of a day as counting gives them: SMPTE ST 12-1, time address."""
    in_second = {Rate.F24: 24, Rate.F25: 25}.get(rate, 30)
    drops, mark = rate is Rate.DF30, ";" if rate is Rate.DF30 else ":"
    for minutes in range(24 * 60):
        for second in range(60):
            head = f"{minutes // 60:02}:{minutes % 60:02}:{second:02}{mark}"
            skipped = 2 if drops and second == 0 and minutes % 10 else 0
            for frame in range(skipped, in_second):
                yield f"{head}{frame:02}"


class Labels(unittest.TestCase):
    def test_each_frame_of_a_day(self):
        for rate, frames in DAYS.items():
            labels = list(counted(rate))
            self.assertEqual(len(labels), frames)
            self.assertEqual(rate.day_frames, frames)
            self.assertTrue(to_timecodes(range(frames), rate) == labels)
            self.assertTrue(from_timecodes(labels, rate).tolist() == list(range(frames)))
            for frame in range(0, frames, 997):
                self.assertEqual((to_timecode(frame, rate), from_timecode(labels[frame], rate)), (labels[frame], frame))
                self.assertEqual((str(to_label(frame, rate)), to_label(frame, rate).frame()), (labels[frame], frame))

    def test_what_is_refused(self):
        for label, rate, number in [
            ("00:00:00", 25, 1),
            ("00:00:00:0x", 25, 1),
            ("24:00:00:00", 25, 2),
            ("00:60:00:00", 25, 2),
            ("00:00:00:25", 25, 2),
            ("00:00:00;00", 30, 3),
            ("00:01:00;00", "df", 4),
            ("00:09:00:01", "df", 4),
        ]:
            with self.assertRaises(TimecodeFault) as caught:
                from_timecode(label, rate)
            self.assertEqual(caught.exception.number, number, label)
            with self.assertRaises(TimecodeFault) as caught:
                from_timecodes(["00:00:00:00", label], rate)
            self.assertEqual((caught.exception.number, caught.exception.index), (number, 1), label)
            self.assertEqual(from_timecodes(["00:00:00:00", label], rate, default=7).tolist(), [0, 7])
        for frame in (2_160_000, 1 << 32, -1):
            with self.assertRaises(TimecodeFault) as caught:
                to_timecode(frame, 25)
            self.assertEqual((caught.exception.number, caught.exception.name), (5, "FrameRange"))
            with self.assertRaises(TimecodeFault):
                to_timecodes([0, frame], 25)
        self.assertEqual(Label(0, 1, 0, 2, Rate.DF30).frame(), 1800)
        none = [(Label(0, 1, 0, 0, Rate.DF30), 4), (Label(0, 0, 0, 25, Rate.F25), 2), (Label(256, 0, 0, 0, Rate.F25), 2)]
        for label, number in none:
            with self.assertRaises(TimecodeFault) as caught:
                label.frame()
            self.assertEqual(caught.exception.number, number)

    def test_rates(self):
        given_rates = {"df": Rate.DF30, 29.97: Rate.DF30, 30000 / 1001: Rate.DF30, "24": Rate.F24, 25.0: Rate.F25, 30: Rate.F30}
        for given, rate in given_rates.items():
            self.assertIs(Rate.of(given), rate)
            self.assertIs(Rate.of(rate.text), rate)
        for given in ("29", "", "dF", 23.976, 29, 0, 60, 25.4):
            with self.assertRaises(ValueError):
                Rate.of(given)
        self.assertEqual([it.nominal_frames_per_second for it in Rate], [24, 25, 30, 30])
        self.assertEqual([it.is_drop_frame for it in Rate], [False, False, False, True])

    def test_many_none(self):
        self.assertEqual(to_timecodes([], 25), [])
        self.assertEqual((from_timecodes([], 25).tolist(), from_timecodes(b"", 25).tolist()), ([], []))
        with self.assertRaises(TimecodeFault):
            from_timecodes(b"00:00:00:0", 25)


class Ranges(unittest.TestCase):
    def test_beside_sets_of_frames(self):
        small = [TimeRange(start, length) for start in range(5) for length in range(5)]
        for one in small:
            mine = set(range(one.start_time, one.start_time + one.duration))
            self.assertEqual(one.end_time_exclusive(), one.start_time + one.duration)
            self.assertEqual(one.end_time_inclusive(), max(mine, default=one.start_time))
            for frame in range(12):
                self.assertEqual(one.contains(frame), frame in mine)
                nearest = min(mine, key=lambda it: abs(it - frame), default=one.start_time)
                self.assertEqual(one.clamped(frame), nearest)
            for other in small:
                theirs = set(range(other.start_time, other.start_time + other.duration))
                both = one.common_part(other)
                self.assertEqual(set(range(both.start_time, both.start_time + both.duration)), mine & theirs)
                whole = one.extended_by(other)
                self.assertEqual(whole.start_time, min(one.start_time, other.start_time))
                self.assertEqual(whole.end_time_exclusive(), max(one.end_time_exclusive(), other.end_time_exclusive()))
                self.assertEqual(one.meets(other), one.end_time_exclusive() == other.start_time)
                self.assertEqual(one.before(other), one.end_time_exclusive() < other.start_time)
                if mine and theirs:
                    self.assertEqual(one.intersects(other), bool(mine & theirs))
                    within = min(mine) < min(theirs) and max(theirs) < max(mine)
                    self.assertEqual(one.contains_range(other), within)
                    over = min(mine) < min(theirs) and bool(mine & theirs) and max(mine) < max(theirs)
                    self.assertEqual(one.overlaps(other), over)

    def test_limits(self):
        most = (1 << 32) - 1
        self.assertEqual(TimeRange(most, most).end_time_exclusive(), 2 * most)
        self.assertEqual(TimeRange.range_from_start_end_time(3, 5), TimeRange(3, 2))
        backwards = lambda: TimeRange.range_from_start_end_time(5, 3)  # noqa: E731
        too_long = lambda: TimeRange(most, most).extended_by(TimeRange(0, 1))  # noqa: E731
        for refused in (backwards, too_long):
            with self.assertRaises(RangeFault) as caught:
                refused()
            self.assertEqual(caught.exception.number, 8)
        for start, length in ((-1, 0), (1 << 32, 0), (0, -1), (0, 1 << 32)):
            with self.assertRaises(OverflowError):
                TimeRange(start, length)


class Umids(unittest.TestCase):
    def test_parts(self):
        raw = bytes.fromhex(UMID)
        umid = Umid.from_hex(UMID.upper())
        self.assertEqual((umid.bytes, umid.hex(), str(umid)), (raw, UMID, UMID))
        self.assertEqual((umid.version, umid.material_type), (raw[7], raw[10]))
        self.assertEqual((umid.material_number_method, umid.instance_number_method), divmod(raw[11], 16))
        self.assertEqual((umid.instance, umid.material_number), (int.from_bytes(raw[13:16], "big"), raw[16:]))
        for number in (0, 1, 255, 256, 65_536, (1 << 24) - 1):
            self.assertEqual(umid.with_instance(number).bytes, raw[:13] + number.to_bytes(3, "big") + raw[16:])

    def test_what_is_refused(self):
        raw = bytes.fromhex(UMID)
        extended = raw[:12] + b"\x33" + raw[13:] + bytes(32)
        cases = [(raw[:31], 11), (b"", 11), (extended, 12), (raw + bytes(32), 11), (raw[:12] + b"\x33" + raw[13:], 13)]
        cases += [(raw[:at] + bytes([raw[at] ^ 1]) + raw[at + 1 :], 13) for at in (0, 1, 2, 3, 4, 5, 6, 8, 9, 12)]
        for given, number in cases:
            with self.assertRaises(UmidFault) as caught:
                Umid(given)
            self.assertEqual(caught.exception.number, number)
            with self.assertRaises(UmidFault) as caught:
                Umid.from_hex(given.hex())
            self.assertEqual(caught.exception.number, number)
        for text in (UMID[:-1], UMID[:-1] + "g", "é" * 32, "zz"):
            with self.assertRaises(UmidFault) as caught:
                Umid.from_hex(text)
            self.assertEqual(caught.exception.number, 14)
        with self.assertRaises(UmidFault) as caught:
            Umid(raw).with_instance(1 << 24)
        self.assertEqual((caught.exception.number, caught.exception.name), (9, "InstanceRange"))
        self.assertIsInstance(caught.exception, Fault)


if __name__ == "__main__":
    unittest.main()
