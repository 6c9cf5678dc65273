"""Who has a password hashed next: one at a time, by turns of who asks, and no queue without an end."""

import asyncio
from collections import deque
from concurrent.futures import ThreadPoolExecutor
from typing import Callable, TypeVar

Result = TypeVar("Result")


class Full(Exception):
    """So many wait that this one can't."""


class Turns:
    """However many are tried, one processor works on them. Each who asks has the next turn after the others' one; so a few
    who ask much don't hold up one who asks once. `most` wait in all, and `of_one` of each."""

    def __init__(self, most: int = 64, of_one: int = 16) -> None:
        self.most, self.of_one = most, of_one
        self.working = ThreadPoolExecutor(1)
        self.waiting: dict[str, deque["asyncio.Future[None]"]] = {}
        self.is_busy = False

    def count(self) -> int:
        """How many wait."""
        return sum(map(len, self.waiting.values()))

    def makes_room(self, who: str) -> None:
        """Where all places are taken, the last of whoever has the most goes; who would have as many has none."""
        own = len(self.waiting.get(who, ()))
        if own >= self.of_one:
            raise Full
        if self.count() < self.most:
            return
        if not self.waiting:
            raise Full
        longest = max(self.waiting, key=lambda it: len(self.waiting[it]))
        if len(self.waiting[longest]) <= own + 1:
            raise Full
        last = self.waiting[longest].pop()
        if not last.done():
            last.set_exception(Full())

    def next(self) -> None:
        """The next one has its turn."""
        while self.waiting and not self.is_busy:
            who = next(iter(self.waiting))
            those = self.waiting.pop(who)
            first = those.popleft()
            if those:
                self.waiting[who] = those
            if not first.done():
                self.is_busy = True
                first.set_result(None)

    async def done(self, who: str, work: Callable[[], Result]) -> Result:
        """What the work gives, once it was who's turn. Where it can't wait, that is Full."""
        self.makes_room(who)
        turn = asyncio.get_running_loop().create_future()
        self.waiting.setdefault(who, deque()).append(turn)
        self.next()
        try:
            await turn
        except asyncio.CancelledError:
            # The turn had come, and nobody is there any more.
            if turn.done() and not turn.cancelled():
                self.ends()
            raise
        try:
            return await asyncio.get_running_loop().run_in_executor(self.working, work)
        finally:
            self.ends()

    def ends(self) -> None:
        """A turn is over."""
        self.is_busy = False
        self.next()
