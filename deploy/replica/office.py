"""The office of this replica, over one connection that all requests share."""

import asyncio
import time
from collections import deque

from .faults import NotDone, Unknown, status_of
from .wire import Wire, message

# An office answers in so many seconds, and is given up behind them; one that says nothing for SLOW is ill, and who
# reads waits no longer. A connection that nobody uses ends before the office ends it: its unit says `--idle 10`.
LONGEST, SLOW, IDLE = 60.0, 2.0, 5.0


class Line(Wire):
    """A connection. What comes on it answers what was asked on it, whatever other one was opened since."""

    def __init__(self, office: "Office") -> None:
        self.office = office
        self.is_open, self.moved = False, time.monotonic()
        # Which entries were sent, and who waits for their answers.
        self.asked: deque[tuple[int, asyncio.Future[tuple[int, bytes]]]] = deque()

    def connection_made(self, transport: asyncio.BaseTransport) -> None:
        """From now on it may be asked."""
        super().connection_made(transport)
        self.is_open, self.moved = True, time.monotonic()

    def connection_lost(self, exc: Exception | None) -> None:
        """What has no answer yet may have been done."""
        self.is_open = False
        while self.asked:
            answer = self.asked.popleft()[1]
            if not answer.done():
                answer.set_exception(Unknown(f"office: {exc or 'it closed the connection'}"))
                answer.exception()          # whoever waited may be away

    def takes(self, whole: bytes, head: int) -> None:
        """An answer. Where nobody waits for one, that is a fault which ends the connection."""
        n, answer = self.asked.popleft()
        self.moved = time.monotonic()
        self.office.stands = n if n and status_of(whole) != 503 else self.office.stands
        if not answer.done():
            answer.set_result((self.office.stands, whole))


class Office:
    """`stands` is the last entry that it had done as it answered last; `connections` counts those that were opened."""

    def __init__(self, address: str, stands: int) -> None:
        self.host, _, self.port = address.rpartition(":")
        self.stands, self.connections = stands, 0
        self.line = Line(self)
        self.opening: asyncio.Task[Line] | None = None

    async def open(self) -> Line:
        """A new connection."""
        try:
            making = asyncio.get_running_loop().create_connection(lambda: Line(self), self.host, int(self.port))
            self.line = (await asyncio.wait_for(making, 30))[1]
        except (OSError, asyncio.TimeoutError) as fault:
            raise NotDone(f"office: {fault!r}") from fault
        self.connections += 1
        return self.line

    async def opened(self) -> Line:
        """The connection. All who want a new one wait for the same; who goes away doesn't end it."""
        if not self.line.is_open:
            if not self.opening or self.opening.done():
                self.opening = asyncio.get_running_loop().create_task(self.open())
            await asyncio.shield(self.opening)
        return self.line

    async def ask(self, method: str, path: str, body: bytes = b"", n: int = 0) -> tuple[int, bytes]:
        """What it says to entry n or (0) to what is none, and where it stood then. NotDone where nothing was sent,
        Unknown where something was and no answer came."""
        line = await self.opened()
        while not line.is_open:
            line = await self.opened()
        answer: asyncio.Future[tuple[int, bytes]] = asyncio.get_running_loop().create_future()
        line.moved = line.moved if line.asked else time.monotonic()
        line.asked.append((n, answer))
        line.transport.write(message(method, path, body))
        return await answer

    async def read(self, method: str, path: str, body: bytes = b"") -> tuple[int, bytes]:
        """What it says to what changes nothing, and where it stood then."""
        try:
            async with asyncio.timeout(SLOW):
                return await self.ask(method, path, body)
        except TimeoutError as fault:
            raise Unknown(f"office: no answer within {SLOW:.0f} s") from fault

    def waits_since(self) -> float:
        """When it was asked what it hasn't answered yet, or answered before that; now where nothing waits."""
        return self.line.moved if self.line.asked else time.monotonic()

    async def watch(self) -> None:
        """Ends a connection that nobody uses, and one on which an answer takes too long."""
        while True:
            await asyncio.sleep(1)
            line = self.line
            if line.is_open and time.monotonic() - line.moved > (LONGEST if line.asked else IDLE):
                line.is_open = False
                line.transport.abort()
