#!/usr/bin/python3
"""Who has a password hashed next: deploy/login/turns.py by itself.

    /usr/bin/python3 -m unittest discover tests/gateway
"""

import asyncio
import os
import sys
import threading
import unittest

HERE = os.path.dirname(os.path.realpath(__file__))
sys.path.insert(0, os.path.realpath(f"{HERE}/../../deploy"))
sys.dont_write_bytecode = True

from login.turns import Full, Turns  # noqa: E402


class TheTurns(unittest.IsolatedAsyncioTestCase):
    def setUp(self):
        self.goes_on, self.order = threading.Event(), []
        self.addCleanup(self.goes_on.set)

    def asks(self, turns, who):
        """Asks, and says whether it had its turn."""
        async def one():
            try:
                await turns.done(who, lambda: (self.goes_on.wait(10), self.order.append(who)))
                return True
            except Full:
                return False
        return asyncio.create_task(one())

    async def test_each_who_asks_has_the_next_turn_after_the_others(self):
        turns = Turns(most=100, of_one=50)
        asked = [self.asks(turns, "many") for _ in range(20)]
        await asyncio.sleep(0.05)
        asked.append(self.asks(turns, "one"))
        await asyncio.sleep(0.05)
        self.goes_on.set()
        self.assertEqual([True] * 21, await asyncio.gather(*asked))
        self.assertLessEqual(self.order.index("one"), 2)

    async def test_it_has_an_end(self):
        turns = Turns(most=64, of_one=4)
        attackers = [self.asks(turns, f"10.0.0.{it % 20}") for it in range(400)]
        await asyncio.sleep(0.05)
        self.assertLessEqual(turns.count(), 64)
        honest = self.asks(turns, "10.9.9.9")
        await asyncio.sleep(0.05)
        self.goes_on.set()
        self.assertTrue(await honest)
        self.assertLessEqual(self.order.index("10.9.9.9"), 42)
        done = await asyncio.gather(*attackers)
        self.assertLess(done.count(True), 70)
        self.assertEqual((0, {}), (turns.count(), turns.waiting))

    async def test_who_goes_away_holds_up_nobody(self):
        turns = Turns()
        first, second, third = (self.asks(turns, it) for it in ("a", "b", "c"))
        await asyncio.sleep(0.05)
        second.cancel()
        await asyncio.sleep(0.05)
        self.goes_on.set()
        self.assertEqual([True, True], await asyncio.gather(first, third))
        self.assertEqual(["a", "c"], self.order)
        self.assertFalse(turns.is_busy)

    async def test_work_that_fails_is_over(self):
        turns = Turns()
        with self.assertRaises(ZeroDivisionError):
            await turns.done("a", lambda: 1 // 0)
        self.assertEqual(7, await turns.done("a", lambda: 7))


if __name__ == "__main__":
    unittest.main()
