#!/usr/bin/python3
"""The trail as evidence: over logs that this file makes. What needs the program (recover, purge-check) is in single.py."""

import base64
import os
import re
import subprocess
import unittest

from test_replica import DEPLOY, KNOWN, TAPE, OverFolder, tape
from replica import journal as journals
from replica.file_log import FileLog
from replica.segments import Logged, segments

TRAIL = f"{DEPLOY}/trail"


def trail(*words):
    """The exit status, the lines of entries, the last line, and what was said of faults."""
    done = subprocess.run(["/usr/bin/python3", "-B", TRAIL, *words], capture_output=True, text=True, check=False)
    lines = done.stdout.splitlines()
    last = lines.pop() if lines and lines[-1].startswith("#") else ""
    return done.returncode, lines, last, done.stderr.strip()


class WithLog(OverFolder):
    async def log(self, times, unsure=(), answered=None):
        """A log of entries of these times, of which some are answered, some not surely."""
        log = self.journal(FileLog)
        for n, at in enumerate(times, log.last.n + 1):
            entry = tape(f"T{n}")._replace(time=at)
            await log.append(entry)
            if answered is None or n <= answered:
                self.assertIsNone(log.answered(Logged(n, n, entry.pack()), n not in unsure, TAPE))
        return log

    def noted(self, n):
        """The note of an entry."""
        return next(it for it in trail("--days", self.folder)[1] if f" {n}:" in it).split()[-1]


class Trails(WithLog):
    async def test_the_last_line_tells_the_last_entry_and_what_was_not_compared(self):
        log = await self.log([f"2026-11-27T19:03:1{n}.000000Z" for n in range(6)], unsure=(3,), answered=5)
        status, lines, last, fault = trail(self.folder)
        self.assertEqual((0, 6, ""), (status, len(lines), fault))
        self.assertEqual(f"# 5 entries with their sums; not compared: 1 without an answer, 0 whose text was removed; 1 answers are "
                         f"perhaps not the first; the last is of 2026-11-27T19:03:15.000000Z, its note 5:{log.last.sum}", last)

    async def test_a_time_with_its_z(self):
        await self.log([f"2026-11-27T19:03:11.{n}00000Z" for n in range(3)] + ["2026-11-27T19:03:12.000000Z"])
        for word, wanted in (("2026-11-27T19:03:11Z", 4), ("2026-11-27T19:03:11", 4), ("2026-11-27T19:03:12Z", 1)):
            self.assertEqual(wanted, len(trail("--since", word, self.folder)[1]), word)
        for word, wanted in (("2026-11-27T19:03:11Z", 3), ("2026-11-27T19:03", 4)):
            self.assertEqual(wanted, len(trail("--until", word, self.folder)[1]), word)
        self.assertEqual(1, trail("--since", "yesterday", self.folder)[0])

    async def test_times_never_go_back(self):
        await self.log([f"2026-11-27T19:{n:02}:00.000000Z" for n in range(10)] + [f"2026-11-27T18:{n:02}:00.000000Z" for n in range(30)])
        _, lines, last, _ = trail("--until", "2026-11-27T19:08", self.folder)
        self.assertEqual(9, len(lines))
        self.assertEqual(31, len(trail("--since", "2026-11-27T19:09", self.folder)[1]))
        self.assertIn("the last is of 2026-11-27T19:09:00.000000Z", last)

    async def test_a_cut_end_is_found_by_a_note(self):
        log = await self.log([f"2026-11-{27 + n // 3}T19:03:1{n}.000000Z" for n in range(6)])
        notes = trail("--days", self.folder)[1]
        self.assertEqual(["2026-11-27 3:", "2026-11-28 6:"], [it[:13] for it in notes])
        self.assertEqual(0, trail("--expect", f"6:{log.last.sum}", self.folder)[0])
        path = segments(self.folder)[0]
        with open(path, "rb") as file:
            lines = file.read().rstrip(b"\0").splitlines(True)
        with open(path, "wb") as out:
            out.writelines(lines[:-4])          # two entries, and their answers
        status, found, last, _ = trail(self.folder)
        self.assertEqual((0, 4), (status, len(found)))          # the sums fit: nothing within the log says that it was cut
        with open(f"{self.folder}/notes", "w", encoding="ascii") as out:
            out.write("".join(f"{it}\n" for it in notes))
        status, _, _, fault = trail("--expect", f"{self.folder}/notes", self.folder)
        self.assertEqual(1, status)
        self.assertIn("noted for entry 6 isn't there", fault)
        self.assertEqual(1, trail("--expect", f"4:{'0' * 64}", self.folder)[0])
        self.assertEqual(1, trail("--expect", "nothing", self.folder)[0])
        self.assertEqual(0, trail("--expect", last.split()[-1], self.folder)[0])

    async def test_whether_an_answer_is_sure_is_in_the_sum(self):
        await self.log([f"2026-11-27T19:03:1{n}.000000Z" for n in range(4)], unsure=(2,))
        path = segments(self.folder)[0]
        with open(path, "rb") as file:
            text = file.read()
        for number, before, after in ((2, b"0", b"1"), (3, b"1", b"0")):
            changed = re.sub(rb"(A %d %d \w+) %s " % (number, number, before), rb"\1 %s " % after, text)
            self.assertNotEqual(text, changed)
            with open(path, "wb") as out:
                out.write(changed)
            status, _, _, fault = trail(self.folder)
            self.assertEqual((1, True), (status, f"entry {number}, or its answer, was changed" in fault), fault)

    async def test_an_answer_that_was_changed_is_found(self):
        await self.log([f"2026-11-27T19:03:1{n}.000000Z" for n in range(4)])
        path = segments(self.folder)[0]
        with open(path, "rb") as file:
            text = file.read()
        with open(path, "wb") as out:
            out.write(text.replace(base64.b64encode(TAPE), base64.b64encode(KNOWN), 1))
        self.assertEqual(1, trail(self.folder)[0])


class Kept(WithLog):
    """What is left where segments of before are removed."""

    async def filled_while_the_office_is_slow(self, count, keep_days=0.0):
        """Each entry is written long before its answer, so that many ends stand in another segment."""
        self.addCleanup(setattr, journals, "SEGMENT", journals.SEGMENT)
        journals.SEGMENT = 2000
        log = self.journal(FileLog, keep_days=keep_days)
        first, last = log.last.n + 1, log.last.n + count
        values = {}
        for n in range(first, last + 1):
            entry = tape(f"T{n}")._replace(time=f"2026-11-27T19:{n // 60:02}:{n % 60:02}.000000Z")
            values[n] = entry.pack()
            await log.append(entry)
            if n >= first + 7:
                self.assertIsNone(log.answered(Logged(n - 7, n - 7, values[n - 7]), True, TAPE))
        for n in range(max(first, last - 6), last + 1):
            self.assertIsNone(log.answered(Logged(n, n, values[n]), True, TAPE))
        return log

    async def test_the_trail_goes_on_from_what_is_left(self):
        log = await self.filled_while_the_office_is_slow(60)
        older = self.noted(60)
        self.assertGreater(len(segments(self.folder)), 4)
        self.assertEqual(60, len(trail(self.folder)[1]))
        for it in segments(self.folder):
            os.utime(it, (0, 0))
        log = await self.filled_while_the_office_is_slow(40, keep_days=1)
        begun = int(os.path.basename(segments(self.folder)[0])[8:])
        self.assertGreater(begun, 40)
        status, lines, last, fault = trail(self.folder)
        self.assertEqual((0, "", 100 - begun), (status, fault, len(lines)))
        self.assertTrue(last.endswith(f"100:{log.last.sum}"), last)
        self.assertIn(" 0 whose text was removed", last)
        status, _, last, _ = trail("--expect", older, "--expect", f"1:{'0' * 64}", self.folder)
        self.assertIn("of before the log" if begun > 60 else "1 of before the log", last)
        again = self.journal(FileLog)                   # the replica begins as well
        self.assertEqual((100, 100), (again.last.n, again.entries))

    async def test_a_log_whose_first_entries_were_removed_with_their_segment(self):
        """As one that was written before segments had the entries of all their answers."""
        await self.filled_while_the_office_is_slow(60)
        first = segments(self.folder)[1]
        with open(first, "rb") as file:
            lines = file.read().splitlines(True)
        begun = int(os.path.basename(first)[8:])
        carried = [it for it in lines if it.startswith(b"E ") and int(it.split()[1]) <= begun + 5]
        # The others' answers stand in the next segment, and their entries there, too.
        gone = {it.split()[1] for it in carried} & {it.split()[1] for it in lines if it.startswith(b"A ")}
        self.assertTrue(gone)
        with open(first, "wb") as out:
            out.writelines(it for it in lines if it not in carried)
        os.remove(segments(self.folder)[0])
        status, found, last, fault = trail(self.folder)
        self.assertEqual((0, "", 60 - begun - len(gone)), (status, fault, len(found)))
        self.assertIn(f" {len(gone)} whose text was removed", last)


if __name__ == "__main__":
    unittest.main()
