#!/usr/bin/python3
"""An office that says nothing is as good as dead: whoever waits is sent elsewhere, and health says so."""

import asyncio
import json
import time
import unittest

from test_replica import Doors as _Doors
from test_replica import OverFolder, TAPE, tape
from replica.file_log import FileLog
from replica.health import FULL, Health
from replica.segments import Logged

# The gateway waits for so long, and asks elsewhere; with what a busy machine adds.
GATEWAY = 3.0


class Hanging(_Doors):
    """Over the same door. The tests of that one aren't run again."""

    async def health(self, reader, writer):
        writer.write(b"GET /health HTTP/1.1\r\n\r\n")
        code, _, body = await self.told(reader)
        return code, json.loads(body)

    async def test_a_post_is_sent_elsewhere(self):
        reader, writer = await self.open_door(self.applier())
        self.fake.hangs = True
        begun = time.monotonic()
        writer.write(self.post("T1"))
        self.assertEqual(502, (await self.told(reader))[0])
        self.assertLess(time.monotonic() - begun, GATEWAY)
        code, state = await self.health(reader, writer)
        self.assertEqual((503, True), (code, "hangs" in state["ill"]))
        begun = time.monotonic()
        writer.write(self.post("T2"))
        self.assertEqual(503, (await self.told(reader))[0])
        self.assertLess(time.monotonic() - begun, 0.5)
        self.assertEqual(1, len(self.log.values))       # what comes later isn't taken
        self.fake.hangs = False
        await asyncio.sleep(0.6)
        self.assertEqual((200, {}), ((await self.health(reader, writer))[0], (await self.health(reader, writer))[1]["ill"]))
        writer.write(self.post("T1"))
        self.assertEqual(200, (await self.told(reader))[0])
        self.assertEqual(["T1"], self.fake.barcodes["1"])

    async def test_a_get_is_sent_elsewhere(self):
        reader, writer = await self.open_door(self.applier())
        writer.write(self.post("T1"))
        await self.told(reader)
        self.fake.hangs = True
        begun = time.monotonic()
        writer.write(b"GET /ch/1/tapes HTTP/1.1\r\n\r\n")
        self.assertEqual(503, (await self.told(reader))[0])
        self.assertLess(time.monotonic() - begun, GATEWAY)

    async def test_who_waited_is_told_the_right_answer_later(self):
        reader, writer = await self.open_door(self.applier())
        writer.write(self.post("T0"))
        await self.told(reader)
        self.fake.hangs = True
        writer.write(b"GET /ch/1/tapes HTTP/1.1\r\n\r\n")
        self.assertEqual(503, (await self.told(reader))[0])
        self.fake.hangs = False
        for _ in range(20):
            await asyncio.sleep(0.1)
        writer.write(b"GET /ch/1/tapes HTTP/1.1\r\n\r\n" + self.post("T1"))
        self.assertEqual((200, b"T0\n"), (await self.told(reader))[::2])
        self.assertEqual((200, b'{"tape":2}'), (await self.told(reader))[::2])


for name in [it for it in dir(_Doors) if it.startswith("test_")]:
    setattr(Hanging, name, None)
del _Doors


class Alone(OverFolder):
    """One machine: nobody else can be asked."""

    async def test_nothing_is_taken_where_the_office_is_away_for_long(self):
        health = Health("a", self.folder, False)
        health.tell = lambda text: None
        health.ails("office", "away")
        self.assertFalse(health.is_long_ill())
        health.ills["office"] = "away", time.monotonic() - 3
        self.assertEqual((True, False), (health.is_long_ill(), health.is_elsewhere()))

    async def test_what_is_full_is_asked_all_the_same(self):
        health = Health("a", self.folder)
        health.tell = lambda text: None
        health.ails("start", None)
        health.ails(FULL, "no room", since=time.monotonic() - 60)
        self.assertEqual((False, False, "full: no room"), (health.is_long_ill(), health.is_elsewhere(), health.why()))


class Times(OverFolder):
    """Times never go back, whatever the clock does."""

    async def test_the_clock_is_set_back(self):
        log = self.journal(FileLog)
        log.clock.saw("2030-01-01T00:00:00.000000Z")
        self.assertEqual("2030-01-01T00:00:00.000000Z", log.clock.now())
        await log.append(tape("T1")._replace(time=log.clock.now()))
        log.answered(Logged(1, 1, tape("T1").pack()), True, TAPE)
        self.assertEqual("2030-01-01T00:00:00.000000Z", self.journal(FileLog).clock.now())      # after a start, too

    async def test_the_clock_goes_on(self):
        log = self.journal(FileLog)
        one, two = log.clock.now(), log.clock.now()
        self.assertLessEqual(one, two)
        self.assertRegex(two, r"^20[0-9]{2}-[0-9]{2}-[0-9]{2}T[0-9:]{8}\.[0-9]{6}Z$")


if __name__ == "__main__":
    unittest.main()
