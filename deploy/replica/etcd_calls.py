"""Calls of etcd, by the JSON gateway of its version 3.4.

By gRPC (Debian's python3-grpcio) a call took 0.65 ms of etcd's processor in place of 1.2, and 0.31 of a replica's in
place of 0.10. A call has several requests, so that would be a fifteenth of a GET's processor, and less of a POST's.
"""

import asyncio
import base64
import json
import ssl
from collections.abc import AsyncIterator
from typing import Any

from .etcd_wire import EtcdWire
from .faults import NoRoom, NotDone, Unknown

# How long one call may take, in seconds.
TRY = 1.0
# Behind these an entry hasn't been taken, and won't be.
SURE = ("no leader", "too many requests", "lease not found", "is too large", "not capable")
# What can go wrong with an answer.
BROKEN = OSError, EOFError, ValueError, asyncio.LimitOverrunError


def decoded(pair: dict[str, Any]) -> bytes:
    """The value of a key."""
    return base64.b64decode(pair.get("value", ""))


async def lines(pieces: AsyncIterator[bytes]) -> AsyncIterator[bytes]:
    """The lines of an answer that doesn't end, however long one is. No more is read than whoever takes them wants."""
    parts = list[bytes]()
    async for piece in pieces:
        *ended, rest = piece.split(b"\n")
        for it in ended:
            yield b"".join([*parts, it])
            parts = []
        parts.append(rest)


class EtcdCalls:
    """Keys stand below `prefix`."""

    def __init__(self, url: str, prefix: str, tls: ssl.SSLContext | None) -> None:
        self.wire, self.prefix, self.lease_ends = EtcdWire(url, tls), prefix, 0.0

    async def call(self, what: str, words: dict[str, Any], longest: float = TRY) -> dict[str, Any]:
        """What etcd says to a call. NotDone where it did nothing, Unknown where it may have."""
        try:
            answer = await self.wire.ask(f"/v3/{what}", json.dumps(words).encode(), longest)
            said: dict[str, Any] = json.loads(answer)
        except BROKEN as fault:
            raise Unknown(f"etcd: {fault!r}") from fault
        if "error" in said:
            self.lease_ends = 0 if "lease" in said["error"] else self.lease_ends
            if "space exceeded" in said["error"]:
                raise NoRoom(f"etcd: {said['error']}")
            raise (NotDone if any(it in said["error"] for it in SURE) else Unknown)(f"etcd: {said['error']}")
        return said

    def key(self, name: str) -> str:
        """The key of this name."""
        return base64.b64encode((self.prefix + name).encode()).decode()

    async def get(self, name: str, **words: Any) -> Any:
        """The key of this name, where it is there."""
        return (await self.call("kv/range", {"key": self.key(name), **words})).get("kvs", [])

    async def below(self, folder: str) -> dict[str, bytes]:
        """All keys that begin so, with their values."""
        found = await self.get(f"{folder}/", range_end=self.key(f"{folder}0"))
        start = f"{self.prefix}{folder}/"
        return {base64.b64decode(it["key"]).decode().removeprefix(start): decoded(it) for it in found}

    def put_words(self, name: str, value: bytes = b"", lease: str = "0") -> dict[str, str]:
        """The words that set a key."""
        return {"key": self.key(name), "value": base64.b64encode(value).decode(), "lease": lease}

    async def put(self, name: str, value: bytes = b"", lease: str = "0") -> None:
        """Sets a key."""
        await self.call("kv/put", self.put_words(name, value, lease))

    def absent(self, name: str) -> dict[str, Any]:
        """The condition that a key isn't there."""
        return {"key": self.key(name), "target": "CREATE", "result": "EQUAL", "create_revision": 0}
