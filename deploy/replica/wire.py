"""Messages of HTTP/1.1, each whole by its length: what a gateway asks, and what an office answers. Nothing else comes,
so a replica speaks HTTP by itself: aiohttp took half of its processor."""

import asyncio
import re
from collections.abc import Awaitable, Callable
from typing import NamedTuple, cast

LENGTH = re.compile(rb"(?i)\r\nContent-Length: *([0-9]{1,8}) *\r\n")
FIELDS = re.compile(r"\r\n(Connection|Request-Id|Request-User|Stale): *([^\r\n]*?) *(?=\r\n)")


class Request(NamedTuple):
    """`fields` are those that are looked at, as the gateway writes them."""

    method: str
    path: str
    fields: dict[str, str]
    body: bytes


def message(method: str, path: str, body: bytes = b"") -> bytes:
    """The bytes that an office is given."""
    return f"{method} {path} HTTP/1.1\r\nContent-Length: {len(body)}\r\n\r\n".encode("ascii") + body


class Wire(asyncio.Protocol):
    """A connection on which messages come one behind another. `takes` has each, and the length of its head. Where more
    bytes wait than the longest has, it ends."""

    transport: asyncio.Transport
    rest, longest = b"", 1 << 40

    def connection_made(self, transport: asyncio.BaseTransport) -> None:
        """Nothing is left of one before."""
        self.transport, self.rest = cast(asyncio.Transport, transport), b""

    def data_received(self, data: bytes) -> None:
        """A piece, in which messages may end."""
        self.rest += data
        while (head := self.rest.find(b"\r\n\r\n") + 4) > 3:
            length = LENGTH.search(self.rest, 0, head)
            end = head + (int(length[1]) if length else 0)
            if len(self.rest) < end:
                break
            whole, self.rest = self.rest[:end], self.rest[end:]
            self.takes(whole, head)
        if len(self.rest) > self.longest:
            self.transport.abort()

    def takes(self, whole: bytes, head: int) -> None:
        """What a connection is for."""


class Caller(Wire):
    """A connection of a gateway or an operator. Answers go out in the order of the requests, each at once, so that a
    stop leaves all of it or nothing."""

    longest = 1_050_000         # a gateway lets bodies of 1,000,000 bytes through

    def __init__(self, answer_to: Callable[[Request], Awaitable[bytes]]) -> None:
        self.answer_to = answer_to
        self.last: asyncio.Task[None] | None = None

    def takes(self, whole: bytes, head: int) -> None:
        """Has it answered."""
        text = whole[:head].decode("latin-1")
        method, path, _ = text[:text.index("\r\n")].split(" ")
        request = Request(method, path, dict(FIELDS.findall(text)), whole[head:])
        self.last = asyncio.create_task(self.answer(request, self.last))

    async def answer(self, request: Request, before: asyncio.Task[None] | None) -> None:
        """Without an answer the connection ends, and the gateway asks elsewhere."""
        try:
            if before:
                await before
            self.transport.write(await self.answer_to(request))
        except BaseException:
            self.transport.abort()
            raise
        if request.fields.get("Connection") == "close":
            self.transport.close()
