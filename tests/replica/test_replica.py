#!/usr/bin/python3
"""The modules of deploy/replica, each by itself, over an office and a log of the tests' own.

    /usr/bin/python3 -m unittest discover tests/replica
"""

import asyncio
import base64
import functools
import json
import os
import re
import shutil
import sys
import tempfile
import time
import unittest

HERE = os.path.dirname(os.path.realpath(__file__))
DEPLOY = os.path.realpath(f"{HERE}/../../deploy")
sys.path[:0] = [HERE, DEPLOY]

from fakes import FakeLog, FakeOffice, said  # noqa: E402
from logs import history  # noqa: E402
from replica import file_log as file_logs  # noqa: E402
from replica import journal as journals  # noqa: E402
from replica.applier import PAUSED, Applier  # noqa: E402
from replica.door import Door  # noqa: E402
from replica.entries import DIGEST, LOGGED, MESSAGE, PAUSE, SKIP, Entry, name_of  # noqa: E402
from replica.faults import UNAVAILABLE, NotDone, Stopped, Unknown, answer_of, may_come_again, status_of  # noqa: E402
from replica.file_log import FileLog  # noqa: E402
from replica.health import Health  # noqa: E402
from replica.journal import Journal  # noqa: E402
from replica.segments import Logged  # noqa: E402
from replica.office import Office  # noqa: E402
from replica.segments import segments  # noqa: E402
from replica.wire import Caller  # noqa: E402

TAPE, KNOWN = said(200, "OK", {"tape": 1}), said(409, "Conflict", {"code": 43, "refused": "BarcodeKnown"})


def tape(barcode, channel=1):
    return Entry(MESSAGE, f"/ch/{channel}/tapes", b'{"barcode":"%s"}' % barcode.encode(), "anna", "2026-01-01T00:00:00.000000Z", barcode)


class OverFolder(unittest.IsolatedAsyncioTestCase):
    """A test with a journal's folder."""

    def setUp(self):
        self.folder = tempfile.mkdtemp(prefix="replica-test-")
        self.addCleanup(shutil.rmtree, self.folder)
        with open(f"{self.folder}/journal-{0:020}", "w", encoding="ascii") as out:
            out.write("P 0 0 -\n")
        self.opened = []

    def journal(self, kind=Journal, **words):
        self.close()
        it = kind(self.folder, **words)
        self.opened.append(it)
        return it

    def close(self):
        for it in self.opened:
            for file in (it.file, it.lock, it.given):
                os.close(file)
        self.opened = []

    def tearDown(self):
        self.close()

    async def filled(self, journal, count):
        for n in range(journal.last.n + 1, journal.last.n + count + 1):
            journal.gives(n)
            journal.answered(Logged(n, 10 * n, tape(f"T{n}").pack()), True, TAPE)


class Entries(unittest.TestCase):
    def test_an_entry_comes_back(self):
        entry = Entry(MESSAGE, "/ch/7/days/12/import/strict", bytes(range(256)) * 1000, "anna", "2026-01-01T00:00:00.000000Z", "n")
        self.assertEqual(entry, Entry.unpack(entry.pack()))
        self.assertLess(len(entry.pack()), 20_000)
        self.assertEqual((7, 12), (entry.channel(), entry.day()))

    def test_what_is_logged(self):
        for path in ("/ch/1/tapes", "/ch/999/days/99999/items/9999/remove", "/ch/1/nothing", "/ch/1/tapes?x"):
            self.assertTrue(LOGGED.fullmatch(path), path)
        for path in ("/", "/health", "/ch", "http://127.0.0.1/ch/1/tapes", "/ch/1/ä", "/ch/1/a\nb", "/ch/" + "x" * 251):
            self.assertFalse(LOGGED.fullmatch(path), path)

    def test_names(self):
        names = {name_of(*it) for it in (("a", "i", "p", b"b"), ("ai", "", "p", b"b"), ("a", "i", "pb", b""), ("b", "i", "p", b"b"))}
        self.assertEqual(4, len(names))

    def test_days(self):
        self.assertEqual(5, Entry(MESSAGE, "/ch/1/days", b'{"day":5}', "", "", "").day())
        self.assertEqual(0, Entry(MESSAGE, "/ch/1/tapes", b'{"day":5}', "", "", "").day())

    def test_refusals(self):
        self.assertEqual(b'HTTP/1.1 503 Service Unavailable\r\nContent-Length: 35\r\nContent-Type: application/json\r\n\r\n'
                         b'{"code":100,"refused":"Unavailable"}'.replace(b"35", b"36"), UNAVAILABLE)
        self.assertTrue(may_come_again(KNOWN))
        self.assertFalse(may_come_again(TAPE))
        self.assertFalse(may_come_again(answer_of(409, {"code": 42, "refused": "SlotTaken"})))


class Journals(OverFolder):
    async def test_what_is_written_is_there_after_a_stop(self):
        journal = self.journal()
        await self.filled(journal, 5)
        last = journal.last
        again = self.journal()
        self.assertEqual((last, 5), (again.last, again.entries))
        self.assertEqual(TAPE, again.by_n[3].answer)
        self.assertEqual([f"T{n}" for n in range(1, 6)], [it.entry.name for it in history(self.folder)])

    async def test_a_torn_line_is_no_line(self):
        journal = self.journal()
        await self.filled(journal, 3)
        with open(segments(self.folder)[0], "r+b") as out:
            out.seek(journal.size)
            out.write(b"A 4 40 0123")
        again = self.journal()
        self.assertEqual(3, again.last.n)
        await self.filled(again, 1)
        self.assertEqual(4, self.journal().last.n)

    async def test_a_second_process_is_refused(self):
        self.journal()
        with self.assertRaises(Stopped):
            Journal(self.folder)

    async def test_no_journal_is_refused(self):
        os.remove(segments(self.folder)[0])
        with self.assertRaises(Stopped):
            Journal(self.folder)

    async def test_segments(self):
        before, journals.SEGMENT = journals.SEGMENT, 2000
        self.addCleanup(setattr, journals, "SEGMENT", before)
        journal = self.journal()
        await self.filled(journal, 40)
        self.assertGreater(len(segments(self.folder)), 3)
        again = self.journal()
        self.assertEqual(40, again.last.n)
        self.assertEqual(list(range(1, 41)), [it.n for it in history(self.folder)])
        os.utime(segments(self.folder)[0], (0, 0))
        kept = self.journal(keep_days=1)
        await self.filled(kept, 10)
        self.assertEqual(50, kept.last.n)
        self.assertNotEqual(f"journal-{0:020}", os.path.basename(segments(self.folder)[0]))

    async def test_a_changed_answer_is_found(self):
        journal = self.journal()
        await self.filled(journal, 3)
        path = segments(self.folder)[0]
        with open(path, "rb") as file:
            text = file.read()
        with open(path, "wb") as out:
            out.write(text.replace(base64.b64encode(TAPE), base64.b64encode(KNOWN), 1))
        with self.assertRaises(Stopped):
            list(history(self.folder))

    async def test_a_full_disk_leaves_no_part(self):
        log = self.journal(FileLog)
        await self.filled(log, 2)
        real, os.pwrite = os.pwrite, lambda file, data, at: real(file, bytes(data)[:7], at)
        try:
            with self.assertRaises(NotDone):
                await log.append(tape("never"))
            self.assertIsInstance(log.answered(Logged(3, 30, tape("T3").pack()), True, TAPE), NotDone)
        finally:
            os.pwrite = real
        self.assertEqual(2, log.last.n)
        self.assertEqual((3, 0), await log.append(tape("T3")))
        self.assertEqual([3], sorted(set(self.journal().loaded) - {1, 2}))

    async def test_what_was_not_synced_is_taken_back(self):
        log = self.journal(FileLog)
        await self.filled(log, 2)
        real, os.fdatasync = os.fdatasync, lambda file: (_ for _ in ()).throw(OSError(5, "broken"))
        try:
            with self.assertRaises(Unknown):
                await log.append(tape("a longer one than the next"))
        finally:
            os.fdatasync = real
        self.assertEqual((3, 0), await log.append(tape("T3")))
        self.assertEqual(["T1", "T2", "T3"], [it.entry.name for it in history(self.folder)])

    async def test_a_sync_changes_no_length(self):
        journal = self.journal()
        await self.filled(journal, 1)
        path = segments(self.folder)[0]
        size, syncs = os.path.getsize(path), journal.syncs
        await self.filled(journal, 20)
        self.assertEqual((size, syncs + 20), (os.path.getsize(path), journal.syncs))
        with open(path, "rb") as file:
            self.assertEqual(bytes(size - journal.size), file.read()[journal.size:])

    async def test_what_the_power_left_of_a_write_is_not_read(self):
        journal = self.journal()
        await self.filled(journal, 3)
        before = journal.size
        await self.filled(journal, 1)
        with open(segments(self.folder)[0], "r+b") as file:
            file.seek(before + 5)
            file.write(bytes(30))                        # of what was written at once, a piece isn't on the disk
        self.assertEqual(3, self.journal().last.n)
        await self.filled(self.opened[-1], 2)
        self.assertEqual([1, 2, 3, 4, 5], [it.n for it in history(self.folder)])

    async def test_a_hole_in_what_was_told_is_found(self):
        journal = self.journal()
        await self.filled(journal, 6)
        with open(segments(self.folder)[0], "r+b") as file:
            file.seek(journal.size // 2)
            file.write(bytes(30))
        with self.assertRaises(Stopped):
            list(history(self.folder))
        self.close()
        with self.assertRaises(Stopped):
            self.journal()

    async def test_doubt(self):
        journal = self.journal(boot="1")                 # the first of this machine
        self.assertEqual(1, journal.doubtful)
        await self.filled(journal, 1)
        self.assertEqual(0, self.journal(boot="1").doubtful)
        self.assertEqual(2, self.journal().doubtful)
        self.assertEqual(2, self.journal(boot="2").doubtful)
        self.assertEqual(2, self.journal(boot="2").doubtful)     # nothing was done since
        journal = self.journal(boot="2")
        await self.filled(journal, 1)
        journal.gives(3)
        self.assertEqual(3, self.journal(boot="2").doubtful)


class FileLogs(OverFolder):
    def synced(self):
        """Counts the syncs from now on."""
        found, real = [], os.fdatasync
        os.fdatasync = lambda file: (found.append(file), real(file))
        self.addCleanup(setattr, os, "fdatasync", real)
        return found

    async def test_a_request_is_there_once(self):
        log = self.journal(FileLog)
        self.assertEqual([(1, 0), (1, 0)], await asyncio.gather(log.append(tape("T1")), log.append(tape("T1"))))
        self.assertEqual((2, 0), await log.append(tape("T2")))
        again = self.journal(FileLog)
        self.assertEqual((2, 0), await again.append(tape("T2")))
        groups = again.groups_behind(again.last)
        self.assertEqual([[], [1], [2]], [[it.n for it in await groups.__anext__()] for _ in range(3)])

    async def test_what_was_not_written_may_come_again(self):
        log = self.journal(FileLog)
        real, os.pwrite = os.pwrite, lambda file, data, at: (_ for _ in ()).throw(OSError(28, "full"))
        try:
            for fault in await asyncio.gather(log.append(tape("T1")), log.append(tape("T1")), return_exceptions=True):
                self.assertIsInstance(fault, NotDone)
        finally:
            os.pwrite = real
        self.assertEqual((1, 0), await log.append(tape("T1")))

    async def test_entries_go_together(self):
        log, synced = self.journal(FileLog), self.synced()
        self.assertEqual([(n, 0) for n in range(1, 21)], await asyncio.gather(*(log.append(tape(f"T{n}")) for n in range(20))))
        self.assertEqual(1, len(synced))

    async def test_an_answer_takes_new_entries_with_it(self):
        log = self.journal(FileLog)
        value = tape("T1").pack()
        self.assertEqual((1, 0), await log.append(tape("T1")))
        log.is_busy = True                               # the office does entry 1
        synced = self.synced()
        others = [asyncio.create_task(log.append(tape(f"T{n}"))) for n in range(2, 7)]
        await asyncio.sleep(0.01)
        self.assertFalse(any(it.done() for it in others))
        self.assertIsNone(log.answered(Logged(1, 1, value), True, TAPE))
        self.assertEqual([(n, 0) for n in range(2, 7)], await asyncio.gather(*others))
        self.assertEqual(1, len(synced))
        self.assertEqual([1, 2, 3], [(await log.arrived.get()).n for _ in range(3)])

    async def test_names_are_forgotten(self):
        before, file_logs.KNOWN = file_logs.KNOWN, 3
        self.addCleanup(setattr, file_logs, "KNOWN", before)
        log = self.journal(FileLog)
        for n in range(1, 6):
            await log.append(tape(f"T{n}"))
        self.assertEqual(["T3", "T4", "T5"], list(log.known))


class WithApplier(OverFolder):
    async def asyncSetUp(self):
        self.fake, self.log = FakeOffice(), FakeLog()
        await self.fake.start()
        self.tasks = []

    async def asyncTearDown(self):
        for it in self.tasks:
            it.cancel()
        await asyncio.gather(*self.tasks, return_exceptions=True)
        await self.fake.stop()

    def applier(self, boot=""):
        journal = self.journal(boot=boot)
        health = Health("a", self.folder)
        health.tell = lambda text: None
        health.ills["start"] = "not yet", time.monotonic()
        made = Applier(self.log, journal, Office(self.fake.address, journal.last.n), health)
        self.tasks += [asyncio.create_task(it()) for it in (made.run, made.watch)]
        return made

    def stop(self):
        """As if the process had ended."""
        for it in self.tasks:
            it.cancel()
        self.tasks.clear()

    async def done(self, applier, *entries):
        for it in entries:
            await asyncio.wait_for(applier.until(await self.log.append(it)), 10)
        last = applier.journal.last.n
        return [applier.journal.by_n[n] for n in range(last - len(entries) + 1, last + 1)]


class Appliers(WithApplier):
    async def test_entries_are_done_in_order(self):
        applier = self.applier()
        again = Entry(MESSAGE, "/ch/1/tapes", tape("T1").body, "", "", "again")
        records = await self.done(applier, tape("T1"), tape("T2"), again)
        self.assertEqual([200, 200, 409], [status_of(it.answer) for it in records])
        self.assertTrue(all(it.sure for it in records))
        self.assertEqual(["T1", "T2"], self.fake.barcodes["1"])

    async def test_what_is_answered_503_is_sent_again(self):
        self.fake.refuses = 3
        applier = self.applier()
        record, = await self.done(applier, tape("T1"))
        self.assertEqual((200, True), (status_of(record.answer), record.sure))
        self.assertEqual({"start"}, set(applier.health.ills))
        self.assertEqual([], self.log.asked)

    async def test_a_refusal_behind_503_is_the_first_answer(self):
        applier = self.applier()
        await self.done(applier, tape("T1"))
        self.fake.refuses = 2
        record, = await self.done(applier, Entry(MESSAGE, "/ch/1/tapes", tape("T1").body, "", "", "again"))
        self.assertEqual((KNOWN, True, []), (record.answer, record.sure, self.log.asked))

    async def test_where_there_was_no_answer_the_first_one_is_asked_for(self):
        self.fake.mute, self.log.first[10] = 1, TAPE
        applier = self.applier()
        record, = await self.done(applier, tape("T1"))
        self.assertEqual((TAPE, True, [10]), (record.answer, record.sure, self.log.asked))
        self.assertEqual(["T1"], self.fake.barcodes["1"])

    async def test_where_nobody_knows_it_is_not_sure(self):
        self.fake.mute = 1
        applier = self.applier()
        record, = await self.done(applier, tape("T1"))
        self.assertEqual((KNOWN, False), (record.answer, record.sure))

    async def test_what_was_not_reached_is_done_at_first(self):
        self.fake.away = 2
        applier = self.applier()
        record, = await self.done(applier, tape("T1"))
        self.assertEqual((TAPE, True, []), (record.answer, record.sure, self.log.asked))

    async def test_after_a_stop_the_entry_behind_the_journal_is_in_doubt(self):
        applier = self.applier()
        await self.done(applier, tape("T1"))
        self.fake.barcodes["1"].append("T2")            # as if it had been done before the stop
        self.stop()
        self.log.first[20] = TAPE
        record, later = await self.done(self.applier(), tape("T2"), Entry(MESSAGE, "/ch/1/tapes", tape("T1").body, "", "", "again"))
        self.assertEqual((TAPE, [20], KNOWN), (record.answer, self.log.asked, later.answer))

    async def test_a_hole_stops_it(self):
        applier = self.applier()
        await self.done(applier, tape("T1"))
        self.log.values.append(b"")
        applier.journal.last = applier.journal.last._replace(n=5, revision=10)
        self.log.more.set()
        with self.assertRaises(Stopped):
            await asyncio.wait_for(self.tasks[0], 5)

    async def test_an_entry_is_left_out_by_an_operator(self):
        await self.fake.stop()
        applier = self.applier()
        waits = asyncio.create_task(self.done(applier, tape("T1")))
        await asyncio.sleep(0.3)
        self.assertIn("office", applier.health.ills)
        await self.log.append(Entry(SKIP, "1", b"", "operator", "", "skip"), skip=1)
        await waits
        await applier.until((20, 0))
        self.assertEqual(UNAVAILABLE, applier.journal.by_n[1].answer)
        self.assertEqual(2, applier.journal.last.n)
        await self.fake.start()

    async def test_who_did_what_others_leave_out_stops(self):
        applier = self.applier()
        await self.done(applier, tape("T1"))
        await self.log.append(Entry(SKIP, "1", b"", "operator", "", "skip"))
        with self.assertRaises(Stopped):
            await asyncio.wait_for(self.tasks[0], 5)

    async def test_a_pause_holds_until_the_operator_says_so(self):
        applier = self.applier()
        pause, = await self.done(applier, Entry(PAUSE, "", b"", "operator", "", "pause"))
        self.assertEqual(PAUSED, pause.answer)
        await self.log.append(tape("T1"))
        await asyncio.sleep(0.2)
        self.assertEqual((1, []), (applier.journal.last.n, self.fake.asked))
        self.stop()
        again = self.applier()                          # a start goes on waiting
        await asyncio.sleep(0.2)
        self.assertEqual((1, {"start", "pause"}), (again.journal.last.n, set(again.health.ills)))
        again.pause(False)
        await asyncio.wait_for(again.until((20, 0)), 5)
        self.assertEqual(["T1"], self.fake.barcodes["1"])

    async def test_a_digest_is_of_the_rows(self):
        applier = self.applier()
        digest = [Entry(DIGEST, "/ch/1/digest", b"[3]", "", "", f"d{n}") for n in range(3)]
        one, two = await self.done(applier, digest[0], digest[1])
        self.assertEqual(one.answer, two.answer)
        self.fake.barcodes["1"].append("X")             # a row that nobody asked for
        three, = await self.done(applier, digest[2])
        self.assertNotEqual(two.answer, three.answer)
        self.assertIn(("GET", "/ch/1/days/3/match"), self.fake.asked)

    async def test_running_sums_are_equal_where_all_is(self):
        applier = self.applier()
        await self.done(applier, tape("T1"), tape("T2"))
        before = applier.journal.last
        self.assertEqual(before.sum, applier.journal.by_n[2].sum)
        self.assertNotEqual(applier.journal.by_n[1].sum, before.sum)

    async def test_who_waits_too_long_is_sent_away(self):
        await self.fake.stop()
        applier = self.applier()
        applier.health.ills.clear()
        applier.health.ails("office", "away")
        applier.health.ills["office"] = "away", 0.0      # since long ago
        with self.assertRaises(Unknown):
            await asyncio.wait_for(applier.until(await self.log.append(tape("T1"))), 5)
        await self.fake.start()

    async def test_what_waits_for_a_long_answer_is_written(self):
        await self.fake.stop()
        journal = self.log = self.journal(FileLog)
        health = Health("a", self.folder, False)
        health.tell = lambda text: None
        applier = Applier(self.log, journal, Office(self.fake.address, 0), health)
        self.tasks += [asyncio.create_task(it()) for it in (applier.run, applier.watch)]
        self.assertEqual((1, 0), await self.log.append(tape("T1")))
        while not journal.is_busy:
            await asyncio.sleep(0.01)
        self.assertEqual((2, 0), await asyncio.wait_for(self.log.append(tape("T2")), 2))
        await self.fake.start()

    async def test_what_was_not_given_before_the_stop_is_sure(self):
        applier = self.applier(boot="1")
        await self.done(applier, tape("T1"))
        self.stop()
        record, = await self.done(self.applier(boot="1"), Entry(MESSAGE, "/ch/1/tapes", tape("T1").body, "", "", "again"))
        self.assertEqual((KNOWN, True, []), (record.answer, record.sure, self.log.asked))

    async def test_what_was_given_before_the_stop_is_asked_for(self):
        applier = self.applier(boot="1")
        await self.done(applier, tape("T1"))
        self.stop()
        again = Entry(MESSAGE, "/ch/1/tapes", tape("T1").body, "", "", "again")
        applier.journal.gives(2)
        record, = await self.done(self.applier(boot="1"), again)
        self.assertEqual((KNOWN, False, [20]), (record.answer, record.sure, self.log.asked))


class Doors(WithApplier):
    """What is asked over a connection, as the gateway and an operator do."""

    async def asyncSetUp(self):
        await super().asyncSetUp()
        self.writers = []

    async def asyncTearDown(self):
        for it in self.writers:
            it.close()
        await super().asyncTearDown()

    async def open_door(self, applier):
        """Its door is open, and a client is connected."""
        applier.health.ails("start", None)
        applier.is_certain = True
        door = Door(self.log, applier.journal, applier, applier.health)
        await door.open([], None, f"{self.folder}/operator")
        server = await asyncio.get_running_loop().create_server(
            lambda: Caller(functools.partial(door.serve, door.client)), "127.0.0.1", 0)
        self.addCleanup(server.close)
        self.port = server.sockets[0].getsockname()[1]
        return await self.connected()

    async def connected(self, operator=False):
        path = f"{self.folder}/operator"
        to = asyncio.open_unix_connection(path) if operator else asyncio.open_connection("127.0.0.1", self.port)
        reader, writer = await to
        self.writers.append(writer)
        return reader, writer

    async def told(self, reader):
        head = await asyncio.wait_for(reader.readuntil(b"\r\n\r\n"), 5)
        length = int(re.search(rb"Content-Length: (\d+)", head)[1])
        return status_of(head), head, await asyncio.wait_for(reader.readexactly(length), 5)

    def post(self, barcode, *fields, identity=""):
        body = b'{"barcode":"%s"}' % barcode.encode()
        fields = "".join(f"{it}\r\n" for it in (f"Request-Id: {identity or barcode}", "Request-User: anna", *fields))
        return f"POST /ch/1/tapes HTTP/1.1\r\nHost: part_a\r\n{fields}Content-Length: {len(body)}\r\n\r\n".encode() + body

    async def test_requests_are_answered_in_their_order(self):
        reader, writer = await self.open_door(self.applier())
        get, again = b"GET /ch/1/tapes HTTP/1.1\r\n\r\n", self.post("T1", identity="again")
        writer.write(self.post("T1") + self.post("T2") + get + again[:-3])
        found = [await self.told(reader) for _ in range(3)]
        self.assertEqual([b'{"tape":1}', b'{"tape":2}', b"T1\nT2\n"], [it[2] for it in found])
        self.assertIn(b"Replica-Entry: 2\r\n", found[1][1])
        writer.write(again[-3:])                         # the rest of the fourth
        self.assertEqual(409, (await self.told(reader))[0])
        self.assertEqual("anna", Entry.unpack(self.log.values[0]).user)

    async def test_what_is_asked_again_by_its_id_is_done_once(self):
        reader, writer = await self.open_door(self.applier())
        for _ in range(2):
            writer.write(self.post("T1"))
            self.assertEqual(b'{"tape":1}', (await self.told(reader))[2])
        self.assertEqual(1, len(self.log.values))

    async def test_a_connection_ends_where_that_is_asked(self):
        reader, writer = await self.open_door(self.applier())
        writer.write(self.post("T1", "Connection: close"))
        self.assertEqual(200, (await self.told(reader))[0])
        self.assertEqual(b"", await asyncio.wait_for(reader.read(), 5))

    async def test_what_is_no_request_ends_the_connection(self):
        reader, writer = await self.open_door(self.applier())
        writer.write(b"no request\r\n\r\n")
        self.assertEqual(b"", await asyncio.wait_for(reader.read(), 5))
        reader, writer = await self.connected()
        writer.write(b"x" * 1_200_000)
        with self.assertRaises((ConnectionError, asyncio.IncompleteReadError)):
            await asyncio.wait_for(reader.readexactly(1), 5)

    async def test_what_has_no_route(self):
        reader, writer = await self.open_door(self.applier())
        for code, line in ((404, b"GET /ch/1/tapes?x"), (404, b"POST /elsewhere?x"), (404, b"GET /ch/1/\xc3\xa4"),
                           (501, b"G\xc3\xa4T /ch/1/tapes"), (501, b"PUT /ch/1/tapes?x"), (501, b"DELETEALLOFIT /ch/1")):
            writer.write(line + b" HTTP/1.1\r\n\r\n")
            self.assertEqual(code, (await self.told(reader))[0], line)
        self.assertEqual([], self.fake.asked)

    async def test_where_nobody_knows_the_first_answer_it_is_504(self):
        self.fake.mute = 1
        reader, writer = await self.open_door(self.applier())
        for _ in range(2):
            writer.write(self.post("T1"))
            self.assertEqual((504, b'{"code":504,"refused":"NoAnswer"}'), (await self.told(reader))[::2])

    async def test_what_may_be_asked_again_is_502(self):
        applier = self.applier()
        reader, writer = await self.open_door(applier)
        await self.fake.stop()
        writer.write(self.post("T1"))
        while "office" not in applier.health.ills:
            await asyncio.sleep(0.05)
        applier.health.ills["office"] = "away", 0.0      # since long ago
        self.assertEqual((502, b'{"code":502,"refused":"NoOffice"}'), (await self.told(reader))[::2])
        writer.write(self.post("T2"))
        self.assertEqual(503, (await self.told(reader))[0])
        await self.fake.start()

    async def test_health_and_metrics(self):
        applier = self.applier()
        reader, writer = await self.open_door(applier)
        writer.write(self.post("T1") + b"GET /health HTTP/1.1\r\n\r\nGET /metrics HTTP/1.1\r\n\r\n")
        _, health, metrics = [await self.told(reader) for _ in range(3)]
        self.assertEqual((200, 1), (health[0], json.loads(health[2])["n"]))
        self.assertIn(b"temolunai_replica_entry 1\n", metrics[2])
        self.assertIn(b"temolunai_replica_syncs_total 2\n", metrics[2])         # the room for it, and the entry
        applier.health.ails("room", "little", True)      # a warning is no illness
        applier.health.ails("etcd", "away")
        writer.write(b"GET /health HTTP/1.1\r\n\r\n")
        status, _, body = await self.told(reader)
        state = json.loads(body)
        self.assertEqual((503, {"etcd": "away"}, {"room": "little"}), (status, state["ill"], state["warnings"]))

    async def test_an_operator_holds_and_pauses(self):
        applier = self.applier()
        reader, writer = await self.open_door(applier)
        said_, says = await self.connected(True)
        for word, wanted in (("hold", 200), ("release", 200), ("release", 409), ("skip/7", 409), ("skip", 404), ("pause", 200)):
            says.write(f"POST /{word} HTTP/1.1\r\n\r\n".encode())
            self.assertEqual(wanted, (await self.told(said_))[0], word)
        await applier.until((10, 0))
        writer.write(self.post("T1"))
        self.assertEqual(503, (await self.told(reader))[0])
        says.write(b"POST /resume HTTP/1.1\r\n\r\n")
        await self.told(said_)
        writer.write(self.post("T1"))
        self.assertEqual(200, (await self.told(reader))[0])


class Offices(unittest.IsolatedAsyncioTestCase):
    async def asyncSetUp(self):
        self.fake = FakeOffice()
        await self.fake.start()
        self.office = Office(self.fake.address, 0)

    async def asyncTearDown(self):
        await self.fake.stop()

    async def test_answers_come_in_order_over_one_connection(self):
        asked = [self.office.ask("POST", "/ch/1/tapes", tape(f"T{n}").body, n) for n in range(1, 30)]
        asked.append(self.office.ask("GET", "/ch/1/tapes"))
        *said_, table = await asyncio.gather(*asked)
        self.assertEqual([it[0] for it in said_], list(range(1, 30)))
        self.assertEqual((29, 1), (table[0], self.office.connections))
        self.assertTrue(table[1].endswith(b"T29\n"))

    async def test_what_comes_on_a_connection_of_before_answers_nothing_else(self):
        self.fake.hangs = True
        asked = asyncio.create_task(self.office.ask("POST", "/ch/1/tapes", tape("OLD").body, 1))
        await asyncio.sleep(0.1)
        before = self.office.line
        before.is_open = False                           # as where it is being given up, and its end hasn't come
        other = asyncio.create_task(self.office.ask("POST", "/ch/1/tapes", tape("NEW").body, 2))
        await asyncio.sleep(0.1)
        before.takes(KNOWN, KNOWN.find(b"\r\n\r\n") + 4)
        self.assertEqual(KNOWN, (await asyncio.wait_for(asked, 1))[1])
        self.assertFalse(other.done())
        before.connection_lost(None)
        self.fake.hangs = False
        self.assertEqual(200, status_of((await other)[1]))

    async def test_an_office_that_is_away(self):
        await self.fake.stop()
        with self.assertRaises(NotDone):
            await self.office.ask("GET", "/ch/1/tapes")
        await self.fake.start()

    async def test_an_answer_that_does_not_come(self):
        self.fake.mute = 1
        with self.assertRaises(Unknown):
            await self.office.ask("POST", "/ch/1/tapes", tape("T1").body, 1)
        self.assertEqual(KNOWN, (await self.office.ask("POST", "/ch/1/tapes", tape("T1").body, 1))[1])
        self.assertEqual(2, self.office.connections)


if __name__ == "__main__":
    unittest.main()
