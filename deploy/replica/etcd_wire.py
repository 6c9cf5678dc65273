"""Requests of HTTP/1.1 to the JSON gateway of etcd. A connection has one at a time, and stays for the next."""

import asyncio
import ssl
from collections.abc import AsyncIterator
from urllib.parse import urlsplit

from .faults import NotDone
from .wire import LENGTH

# How long a connection may take for a watch, in seconds.
CONNECT = 2.0
Streams = tuple[asyncio.StreamReader, asyncio.StreamWriter]


async def pieces(reader: asyncio.StreamReader) -> AsyncIterator[bytes]:
    """The body of an answer, as it comes: of a known length, or in chunks. No more is read than whoever takes them
    wants."""
    length = LENGTH.search(await reader.readuntil(b"\r\n\r\n"))
    if length:
        yield await reader.readexactly(int(length[1]))
        return
    while size := int(await reader.readuntil(b"\r\n"), 16):
        yield (await reader.readexactly(size + 2))[:-2]
    while await reader.readuntil(b"\r\n") != b"\r\n":
        pass


class EtcdWire:
    """`idle` are the connections on which nothing runs."""

    def __init__(self, url: str, tls: ssl.SSLContext | None) -> None:
        found = urlsplit(url)
        self.host, self.port = found.hostname or "", found.port or 2379
        self.tls = tls if found.scheme == "https" else None
        self.idle: list[Streams] = []

    async def opened(self, longest: float) -> Streams:
        """A connection. NotDone where there is none: nothing was sent."""
        while self.idle:
            reader, writer = self.idle.pop()
            if not reader.at_eof() and not writer.is_closing():
                return reader, writer
            writer.transport.abort()
        try:
            async with asyncio.timeout(longest):
                return await asyncio.open_connection(self.host, self.port, ssl=self.tls)
        except OSError as fault:
            raise NotDone(f"etcd: {fault!r}") from fault

    def message(self, path: str, body: bytes) -> bytes:
        """The header has a member without a leader refuse at once."""
        return (f"POST {path} HTTP/1.1\r\nHost: {self.host}:{self.port}\r\nGrpc-Metadata-hasleader: true\r\n"
                f"Content-Length: {len(body)}\r\n\r\n").encode() + body

    async def ask(self, path: str, body: bytes, longest: float) -> bytes:
        """The body of the answer. Whatever is wrong with it ends the connection."""
        reader, writer = await self.opened(longest)
        try:
            async with asyncio.timeout(longest):
                writer.write(self.message(path, body))
                answer = b"".join([it async for it in pieces(reader)])
        except BaseException:
            writer.transport.abort()
            raise
        self.idle.append((reader, writer))
        return answer

    async def watch(self, path: str, body: bytes, silence: float) -> AsyncIterator[bytes]:
        """The pieces of an answer that doesn't end, until nothing comes for so long."""
        reader, writer = await self.opened(CONNECT)
        try:
            writer.write(self.message(path, body))
            found = pieces(reader)
            while True:
                async with asyncio.timeout(silence):
                    piece = await anext(found, b"")
                if not piece:
                    return
                yield piece
        finally:
            writer.transport.abort()
