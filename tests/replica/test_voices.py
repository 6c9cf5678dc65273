#!/usr/bin/python3
"""Which replica stops where two differ: only those that speak have a voice."""

import json
import unittest

from test_replica import OverFolder
from replica.health import Health
from replica.voices import DOUBTED, SILENT, Voices


class Judging(OverFolder):
    async def asyncSetUp(self):
        self.log = self.journal()
        await self.filled(self.log, 2)
        self.health = Health("a", self.folder)
        self.health.tell = lambda text: None
        self.health.ails("start", None)
        self.voices = Voices(["a", "b", "c"], self.log, self.health)
        self.count = 0

    def says(self, name, n, agrees=True):
        """Another replica says where it stands: with this one's sum, or another one."""
        record = self.log.by_n.get(n)
        total = record.sum if record and agrees else "0" * 64
        for _ in range(2):              # a word that changes is a voice
            self.count += 1
            state = {"n": n, "revision": 10 * n, "sum": total, "at": str(self.count)}
            self.voices.hear(name, json.dumps(state).encode())
        self.voices.judge()

    def passes(self, seconds):
        """As if so much time had passed."""
        self.voices.spoke = {it: at - seconds for it, at in self.voices.spoke.items()}
        self.voices.heard = {it: (said, at - seconds) for it, (said, at) in self.voices.heard.items()}
        self.voices.doubted -= seconds
        self.voices.judge()

    async def test_a_majority_goes_on(self):
        self.says("c", 2)
        self.says("b", 2, False)
        self.assertEqual(({"b": False, "c": True}, ""), (self.health.agrees, self.health.stopped))
        self.passes(DOUBTED + 60)
        self.assertEqual("", self.health.stopped)       # c is silent by now, and has said which one differs

    async def test_who_differs_from_both_stops_at_once(self):
        self.says("b", 2, False)
        self.assertEqual("", self.health.stopped)
        self.says("c", 2, False)
        self.assertIn("entry 2", self.health.stopped)

    async def test_a_silent_word_of_before_is_no_voice(self):
        self.says("c", 2)
        self.passes(SILENT + 1)
        await self.filled(self.log, 1)
        self.says("b", 3, False)
        self.assertIn("differs", self.health.ills)      # nobody is answered, and it waits for c
        self.assertEqual("", self.health.stopped)
        self.passes(DOUBTED + 1)
        self.assertTrue(self.health.stopped)

    async def test_what_was_equal_before_they_differed_says_nothing(self):
        self.says("c", 1)
        self.says("b", 2, False)
        self.says("c", 1)                               # it speaks, and stands at an entry of before
        self.assertIn("differs", self.health.ills)
        self.passes(DOUBTED + 1)
        self.assertTrue(self.health.stopped)

    async def test_one_that_comes_back_decides(self):
        self.says("b", 2, False)
        self.passes(DOUBTED - 2)
        self.says("c", 2)
        self.assertEqual(("", set()), (self.health.stopped, set(self.health.ills)))
        self.says("b", 2, False)
        self.passes(DOUBTED + 60)
        self.assertEqual("", self.health.stopped)

    async def test_where_the_other_one_stopped_first_it_stops_too(self):
        self.says("b", 2, False)
        self.passes(SILENT + 1)                         # b has stopped: it says no more
        self.passes(DOUBTED + 1)
        self.assertTrue(self.health.stopped)

    async def test_what_stands_there_as_it_begins_is_no_voice(self):
        self.voices.hear("b", b'{"n":2,"revision":20,"sum":"0","at":"1"}')
        self.passes(DOUBTED + 1)
        self.assertEqual("", self.health.stopped)       # b stopped long ago, as a majority had said
        self.assertIn("differs from b", self.health.warnings)

    async def test_one_that_agrees_again_has_a_voice_again(self):
        self.says("c", 2)
        self.says("b", 2, False)
        await self.filled(self.log, 2)
        self.says("b", 3)                               # it came back from a backup
        self.says("b", 4)
        self.says("c", 4, False)
        self.assertEqual("", self.health.stopped)
        self.says("b", 4, False)
        self.assertTrue(self.health.stopped)

    async def test_what_is_not_done_here_yet_waits(self):
        self.says("b", 3, False)
        self.assertEqual({}, self.health.agrees)
        await self.filled(self.log, 1)
        self.says("b", 4, False)
        self.assertEqual({"b": False}, self.health.agrees)


class Stopping(OverFolder):
    async def test_a_stop_is_for_the_next_start_too(self):
        health = Health("a", self.folder)
        health.tell = lambda text: None
        health.stop("it differs")
        self.assertEqual("it differs", Health("a", self.folder).stopped)
        self.assertTrue(health.is_elsewhere())


if __name__ == "__main__":
    unittest.main()
