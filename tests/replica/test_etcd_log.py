#!/usr/bin/python3
"""The log that is a key of etcd, over an etcd of the tests' own: entries that go together, what is watched, what is full."""

import argparse
import asyncio
import base64
import json
import time
import unittest

from test_replica import OverFolder, tape
from replica import etcd_log
from replica.digests import SLICE, slices
from replica.entries import PAUSE, Entry, packed, parted
from replica.etcd_calls import lines
from replica.etcd_log import EtcdLog, place_of, text
from replica.faults import NoRoom, Stopped, Unknown
from replica.health import FULL, Health
from replica.room import Room
from replica.segments import Logged
from replica.voices import Voices

QUOTA = 1_000_000


class FakeEtcd(EtcdLog):
    """Keys with their revisions. `delay` is how long a transaction takes, `lost` how many are done and not answered; where it
    is `shut` nothing is written, as etcd does at its quota."""

    def __init__(self, journal):
        self.prefix, self.lease_ends, self.ahead, self.is_done = "/", 0.0, [], asyncio.Event()
        self.name, self.members, self.quota, self.journal = "a", 3, QUOTA, journal
        self.skips, self.lease = set(), ""
        self.used = self.file = self.grown = self.version = 0
        self.waiting, self.is_sending, self.reading, self.next_read = {}, False, asyncio.Semaphore(2), None
        self.keys, self.revision, self.calls, self.groups, self.compacted = {}, 100, [], [], 0
        self.delay, self.lost, self.shut, self.size, self.whole = 0.0, 0, False, 0, 0

    async def call(self, what, words, longest=1.0):
        self.calls.append(what)
        if self.shut and what in ("kv/put", "kv/txn", "lease/grant"):
            raise NoRoom("etcd: etcdserver: mvcc: database space exceeded")
        await asyncio.sleep(self.delay)
        return getattr(self, what.replace("/", "_"))(words)

    def lease_grant(self, words):
        return {"ID": "1"}

    def maintenance_status(self, words):
        return {"dbSize": str(self.whole or self.size), "dbSizeInUse": str(self.size)}

    def maintenance_alarm(self, words):
        return {"alarms": [{"memberID": "1", "alarm": "NOSPACE"}]} if self.shut else {}

    def kv_compaction(self, words):
        self.compacted = words["revision"]
        return {}

    def kv_put(self, words):
        name = base64.b64decode(words["key"]).decode()
        version = self.keys.get(name, (0, 0, b""))[0]
        self.keys[name] = version + 1, self.revision, base64.b64decode(words["value"])

    def kv_range(self, words):
        first, end = (base64.b64decode(words.get(it, "")).decode() for it in ("key", "range_end"))
        found = [it for it in sorted(self.keys) if it == first or end and first <= it < end]
        return {"kvs": [{"key": base64.b64encode(it.encode()).decode(), "version": str(self.keys[it][0]),
                         "mod_revision": str(self.keys[it][1]), "value": base64.b64encode(self.keys[it][2]).decode()} for it in found]}

    def kv_txn(self, words):
        def holds(it):
            pair = self.kv_range(it)["kvs"]
            if it["target"] == "CREATE":
                return not pair
            return int(pair[0]["version"] if pair else 0) > it["version"]
        if not all(map(holds, words["compare"])):
            return {"responses": [{"response_range": self.kv_range(it["request_range"])} for it in words["failure"]]}
        puts = [it["request_put"] for it in words["success"]]
        assert len({it["key"] for it in puts}) == len(puts), "duplicate key given in txn request"
        assert len(puts) <= 128, "too many operations in txn request"
        self.revision += 1
        for it in puts:
            self.kv_put(it)
        self.groups += [parted(self.keys["/log"][2])] if "/log" in self.keys else []
        if self.lost:
            self.lost -= 1
            raise Unknown("no answer")
        return {"succeeded": True, "header": {"revision": str(self.revision)}}


class Groups(OverFolder):
    def log(self):
        return FakeEtcd(self.journal())

    async def test_entries_come_back(self):
        for values in ([b"{x"], [b"{a", b"", b"x" * 70_000], [b"*", b"*"]):
            if len(values) > 1:
                self.assertEqual(values, parted(packed(values)))
        self.assertEqual([b"{x"], parted(packed([b"{x"])))
        for place in ((7, 0), (7, 3)):
            self.assertEqual(place, place_of(text(place) + "/a"))

    async def test_what_comes_meanwhile_goes_together(self):
        log = self.log()
        log.delay = 0.05
        first = asyncio.create_task(log.append(tape("T0")))
        await asyncio.sleep(0.02)
        places = await asyncio.gather(first, *(log.append(tape(f"T{n}")) for n in range(1, 9)))
        self.assertEqual([(101, 0), *((102, at) for at in range(8))], places)
        self.assertEqual([1, 8], [len(it) for it in log.groups])
        self.assertEqual(2, log.calls.count("kv/txn"))
        self.assertEqual([f"T{n}" for n in range(1, 9)], [Entry.unpack(it).name for it in log.groups[1]])

    async def test_each_is_there_once(self):
        log = self.log()
        log.delay = 0.02
        first = asyncio.create_task(log.append(tape("T0")))
        await asyncio.sleep(0.01)
        same = await asyncio.gather(first, *(log.append(tape(it)) for it in ("T1", "T0", "T2", "T1")))
        self.assertEqual([(101, 0), (102, 0), (101, 0), (102, 1), (102, 0)], same)
        self.assertEqual(3, sum(map(len, log.groups)))

    async def test_one_whose_answer_was_lost_is_found_again(self):
        log = self.log()
        log.lost = 1
        with self.assertRaises(Unknown):
            await log.append(tape("T1"))
        self.assertEqual([(101, 0), (102, 0)], [await log.append(tape(it)) for it in ("T1", "T2")])
        self.assertEqual(2, len(log.groups))

    async def test_so_many_go_together_and_no_more(self):
        log = self.log()
        log.delay = 0.01
        first = asyncio.create_task(log.append(tape("T0")))
        await asyncio.sleep(0.005)
        await asyncio.gather(first, *(log.append(tape(f"T{n}")) for n in range(1, 100)))
        self.assertEqual(100, sum(map(len, log.groups)))
        self.assertLessEqual(max(map(len, log.groups)), 40)
        big = tape("B")._replace(body=b"x" * 300_000)
        log.groups.clear()
        log.was_done(log.revision)
        first = asyncio.create_task(log.append(tape("A")))
        await asyncio.sleep(0.005)
        await asyncio.gather(first, *(log.append(big._replace(name=f"B{n}")) for n in range(3)))
        self.assertEqual([1, 1, 1, 1], [len(it) for it in log.groups[-4:]])

    async def test_a_word_of_an_operator_goes_alone(self):
        log = self.log()
        log.delay = 0.01
        word = Entry(PAUSE, "", b"", "operator", "", "pause")
        await asyncio.gather(log.append(tape("T0")), log.append(word), log.append(tape("T1")))
        self.assertIn([PAUSE], [[Entry.unpack(it).kind for it in group] for group in log.groups])

    async def test_where_the_office_is_behind_more_go_together(self):
        log = self.log()
        await asyncio.gather(*(log.append(tape(f"A{n}")) for n in range(3)))
        await log.append(tape("B"))
        self.assertEqual([101, 102], log.ahead)
        self.addCleanup(setattr, etcd_log, "MOMENT", etcd_log.MOMENT)
        etcd_log.MOMENT = 5.0
        waiting = [asyncio.create_task(log.append(tape(f"C{n}"))) for n in range(2)]
        await asyncio.sleep(0.1)
        waiting += [asyncio.create_task(log.append(tape(f"C{n}"))) for n in range(2, 5)]
        await asyncio.sleep(0.1)
        self.assertEqual(2, len(log.groups))
        log.was_done(101)
        await asyncio.wait_for(asyncio.gather(*waiting), 1)
        self.assertEqual(([3, 1, 5], [102, 103]), ([len(it) for it in log.groups], log.ahead))

    async def test_an_office_that_hangs_keeps_nothing_out_of_the_log(self):
        log, begun = self.log(), time.monotonic()
        for n in range(6):
            await log.append(tape(f"T{n}"))
        self.assertEqual(6, len(log.groups))
        self.assertLess(time.monotonic() - begun, 6 * etcd_log.MOMENT + 0.5)

    async def test_what_was_done_already_is_not_waited_for(self):
        log = self.log()
        await log.append(tape("A"))
        log.journal.last = log.journal.last._replace(revision=101)
        log.was_done(101)
        for _ in range(3):
            await log.append(tape("A"))                 # it is found again
        self.assertEqual([], log.ahead)

    async def test_a_log_that_ends_before_is_refused(self):
        log = self.log()
        log.version = 5
        with self.assertRaises(Stopped):
            await log.append(tape("T1"))


class FirstAnswers(OverFolder):
    """Who may have done an entry asks the others, as long as one that hasn't asked speaks."""

    async def asyncSetUp(self):
        self.etcd = FakeEtcd(self.journal())
        self.addCleanup(setattr, etcd_log, "ASKED", etcd_log.ASKED)
        etcd_log.ASKED = 0.5

    async def test_one_that_is_slow_is_waited_for(self):
        asking = asyncio.create_task(self.etcd.first_answer((7, 0), b"later"))
        for count in range(12):
            self.etcd.keys["/replica/b"] = 1, 1, b"%d" % count          # it speaks
            await asyncio.sleep(0.1)
        self.assertFalse(asking.done())
        self.etcd.keys["/first/7"] = 1, 1, b"+first"
        self.assertEqual((True, b"first"), await asyncio.wait_for(asking, 2))

    async def test_one_that_is_silent_is_not(self):
        self.etcd.keys["/replica/b"] = 1, 1, b"of before"
        self.assertEqual((False, b"later"), await asyncio.wait_for(self.etcd.first_answer((7, 1), b"later"), 3))
        self.assertEqual(b"?later", self.etcd.keys["/first/7.1"][2])

    async def test_where_all_ask_it_is_said_at_once(self):
        etcd_log.ASKED = 60.0
        for name in "bc":
            self.etcd.keys[f"/asked/7/{name}"] = 1, 1, b""
        self.assertEqual((False, b"later"), await asyncio.wait_for(self.etcd.first_answer((7, 0), b"later"), 3))


class Following(OverFolder):
    async def groups(self, journal, watched, count):
        log = FakeEtcd(journal)

        async def behind(after):
            for it in [it for it in watched if it[1] > after]:
                yield it
            await asyncio.sleep(60)

        log.watched_behind = behind
        found = log.groups_behind(journal.last)
        return [[(it.n, it.revision, it.at) for it in await asyncio.wait_for(found.__anext__(), 2)] for _ in range(count)]

    async def test_an_empty_journal_begins_with_the_first(self):
        watched = [(1, 10, b"{a"), (2, 20, packed([b"{b", b"{c"]))]
        self.assertEqual([[], [(1, 10, 0)], [(2, 20, 0), (3, 20, 1)]], await self.groups(self.journal(), watched, 3))

    async def test_what_was_done_of_a_group_is_not_done_again(self):
        journal = self.journal()
        values = [tape(f"T{n}").pack() for n in range(4)]
        journal.answered(Logged(1, 10, values[0]), True, b"HTTP/1.1 200 OK\r\n\r\n")
        journal.answered(Logged(2, 20, values[1], None, 0), True, b"HTTP/1.1 200 OK\r\n\r\n")
        again = self.journal()                          # a start in the middle of a group
        self.assertEqual((20, 0), again.last.place())
        watched = [(7, 20, packed(values[1:])), (8, 30, b"{x")]
        self.assertEqual([[(3, 20, 1), (4, 20, 2)], [(5, 30, 0)]], await self.groups(again, watched, 2))
        again.answered(Logged(3, 20, values[2], None, 1), True, b"HTTP/1.1 200 OK\r\n\r\n")
        self.assertEqual((20, 1), self.journal().last.place())

    async def test_behind_a_backup(self):
        self.close()
        with open(f"{self.folder}/journal-{0:020}", "w", encoding="ascii") as out:
            out.write(f"P 7 20 {'0' * 64}\n")
        watched = [(5, 20, packed([b"{b", b"{c"])), (6, 30, b"{x")]
        self.assertEqual([[], [(8, 30, 0)]], await self.groups(self.journal(), watched, 2))

    async def test_a_hole_stops_it(self):
        for watched in ([(2, 10, b"{a")], [(1, 10, b"{a"), (3, 30, b"{b")]):
            with self.assertRaises(Stopped):
                await self.groups(self.journal(), watched, 3)

    async def test_another_log_stops_it(self):
        journal = self.journal()
        await self.filled(journal, 1)
        with self.assertRaises(Stopped):
            await self.groups(journal, [(1, 11, b"{a")], 1)


class Watches(unittest.IsolatedAsyncioTestCase):
    def test_what_a_watch_says(self):
        pair = {"version": "3", "mod_revision": "12", "value": base64.b64encode(b"x").decode()}
        self.assertEqual([(3, 12, b"x")], EtcdLog.watched({"events": [{"kv": pair}]}))
        self.assertEqual([], EtcdLog.watched({"created": True}))
        for said in ({"compact_revision": "7", "canceled": True}, {"events": [{"type": "DELETE", "kv": pair}]}):
            with self.assertRaises(Stopped):
                EtcdLog.watched(said)

    async def test_lines_of_any_length_in_any_pieces(self):
        async def pieces():
            for it in (b"a", b"b\nc\n", b"", b"d" * 5_000_000, b"d\n\ne"):
                yield it
        self.assertEqual([b"ab", b"c", b"d" * 5_000_001, b""], [it async for it in lines(pieces())])


class Heads(OverFolder):
    def log(self, journal, answer):
        """A log whose etcd answers a read so, and meanwhile more is done."""
        made = FakeEtcd(journal)
        made.asked = made.under_way = made.most = 0

        async def get(name, **_):
            made.asked += 1
            made.under_way += 1
            made.most = max(made.most, made.under_way)
            await asyncio.sleep(0.05)
            await self.filled(journal, 1)
            made.under_way -= 1
            return answer

        made.get = get
        return made

    async def test_what_is_done_while_the_head_is_read_is_no_fault(self):
        journal = self.journal()
        await self.filled(journal, 3)
        self.assertEqual(30, await self.log(journal, [{"mod_revision": "30"}]).head())
        self.assertEqual(4, journal.last.n)

    async def test_a_log_that_ends_before_is_refused(self):
        journal = self.journal()
        await self.filled(journal, 3)
        for answer in ([{"mod_revision": "20"}], []):
            with self.assertRaises(Stopped):
                await self.log(journal, answer).head()

    async def test_reads_share_one_that_begins_behind_them(self):
        log = self.log(self.journal(), [])
        first = asyncio.create_task(log.head())
        await asyncio.sleep(0.01)
        self.assertEqual(1, log.asked)                  # it has begun: nobody who comes now may share it
        second = [asyncio.create_task(log.head()) for _ in range(5)]
        await asyncio.sleep(0.01)
        self.assertEqual(2, log.asked)
        third = [asyncio.create_task(log.head()) for _ in range(5)]
        await asyncio.gather(first, *second, *third, return_exceptions=True)
        self.assertEqual((3, 2), (log.asked, log.most))


class Full(OverFolder):
    """What is full takes no entries of clients; readers, operators and backups go on."""

    async def asyncSetUp(self):
        self.made = self.journal()
        await self.filled(self.made, 3)
        self.etcd = FakeEtcd(self.made)
        self.health = Health("a", self.folder)
        self.health.tell = lambda said: None
        self.health.ails("start", None)
        given = argparse.Namespace(quota=QUOTA, drop_after=86400.0)
        self.voices = Voices(["a", "b", "c"], self.made, self.health)
        self.room = Room(given, self.etcd, self.made, self.health, self.voices)

    def others_stand(self, revision):
        for name in "bc":
            said = json.dumps({"n": 1, "revision": revision, "sum": "-", "at": ""}).encode()
            self.voices.hear(name, said)
            self.etcd.keys[f"/replica/{name}"] = 1, 1, said

    async def test_clients_are_refused_and_operators_are_not(self):
        self.etcd.size = int(0.81 * QUOTA)
        await self.room.look()
        self.assertEqual({FULL}, set(self.health.ills))
        with self.assertRaises(NoRoom):
            await self.etcd.append(tape("T1"))
        await self.etcd.append(Entry(PAUSE, "", b"", "operator", "", "pause"))
        self.etcd.size = int(0.4 * QUOTA)
        await self.room.look()
        self.assertEqual(set(), set(self.health.ills))
        await self.etcd.append(tape("T1"))

    async def test_holes_in_the_file_count_where_much_is_in_use(self):
        for used, file, is_full in ((0.6, 0.9, True), (0.6, 0.7, False), (0.1, 0.9, False), (0.79, 0.84, False), (0.81, 0.84, True)):
            self.etcd.size, self.etcd.whole = int(used * QUOTA), int(file * QUOTA)
            await self.room.look()
            self.assertEqual(is_full, FULL in self.health.ills, (used, file))

    async def test_what_came_since_it_was_asked_counts(self):
        self.etcd.used, self.etcd.grown = int(0.5 * QUOTA), int(0.31 * QUOTA)
        with self.assertRaises(NoRoom):
            await self.etcd.append(tape("T1"))

    async def test_a_backup_makes_room_where_nothing_can_be_written(self):
        self.others_stand(20)
        self.etcd.keys["/replica/a"] = 1, 1, json.dumps({"revision": 30}).encode()
        self.etcd.shut = True
        await self.etcd.kept(30)
        self.assertEqual(20, self.etcd.compacted)       # up to where each member stands

    async def test_what_etcd_refuses_for_want_of_room_is_told(self):
        self.etcd.shut = True
        await self.room.look()
        self.assertIn("defragmented", self.health.ills[FULL][0])

    async def test_nobody_is_dropped_for_a_file_that_was_larger_once(self):
        self.others_stand(20)
        self.voices.heard = {it: (said, at - 120) for it, (said, at) in self.voices.heard.items()}
        self.etcd.keys["/backup"] = 1, 1, b"30"
        self.etcd.size, self.etcd.whole = int(0.1 * QUOTA), int(0.9 * QUOTA)
        self.room.compacted = time.monotonic() - 60
        await self.room.look()
        dropped = {"b", "c", "room"} & self.health.warnings.keys()
        self.assertEqual((set(), 20), (dropped, self.etcd.compacted))


class Slices(unittest.TestCase):
    def test_a_digest_is_taken_in_slices(self):
        self.assertEqual([["tapes"], ["clips"], ["offers"], ["lent"]], slices({0}))
        found = slices(set(range(1, 6750)))
        self.assertLessEqual(max(map(len, found)), SLICE)
        self.assertEqual(4 + 2 * 6749, len({name for it in found for name in it}))


if __name__ == "__main__":
    unittest.main()
