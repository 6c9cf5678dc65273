"""An entry of the log: the message of a client, or the word of an operator.

Its value is a line of JSON with `kind`, `name`, `path`, `time` and `user`, and then the body; of more than 1,000 bytes
it is compressed by zlib (RFC 1950). The name is the SHA-256 of user, id, path and body, each behind its length in four
bytes, big-endian. Entries that go into the log together are one value: a `*`, and each behind its length likewise.
"""

import datetime
import hashlib
import json
import re
import zlib
from typing import NamedTuple

# Every route that changes rows is a POST below this path. What has another form is never an entry.
LOGGED = re.compile(r"/ch/[!-~]{1,250}")
# What is not worth compressing, in bytes, and how the rest is written.
SMALL, ENCODE = 1000, json.JSONEncoder(separators=(",", ":")).encode

MESSAGE, DIGEST, SKIP, PAUSE = "message", "digest", "skip", "pause"


class Entry(NamedTuple):
    """`path` is that of a message or a digest's channel; of a skip it is the number of the entry that is left out."""

    kind: str
    path: str
    body: bytes
    user: str
    time: str
    name: str

    def pack(self) -> bytes:
        """The bytes that the log has. Where they are many, they are compressed: lists of events shrink to a tenth."""
        head = {"kind": self.kind, "name": self.name, "path": self.path, "time": self.time, "user": self.user}
        plain = ENCODE(head).encode() + b"\n" + self.body
        return zlib.compress(plain, 1) if len(plain) > SMALL else plain

    @staticmethod
    def unpack(value: bytes) -> "Entry":
        """The entry of these bytes."""
        head, _, body = (value if value.startswith(b"{") else zlib.decompress(value)).partition(b"\n")
        return Entry(body=body, **json.loads(head))

    def channel(self) -> int:
        """The channel in whose name it is, 0 where it is nobody's."""
        found = re.match(r"/ch/([1-9][0-9]{0,2})/", self.path)
        return int(found[1]) if found else 0

    def day(self) -> int:
        """The broadcast day that it names in its path, or opens, 0 where there is none."""
        opened = re.fullmatch(rb'\{"day":([1-9][0-9]{0,4})\}', self.body) if self.path.endswith("/days") else None
        found = re.match(r"/ch/[0-9]+/days/([1-9][0-9]{0,4})(/|$)", self.path) or opened
        return int(found[1]) if found else 0


def name_of(user: str, request: str, path: str, body: bytes) -> str:
    """What a request is known by when it comes again. The same id of another user, or with other words, is another."""
    parts = (user.encode(), request.encode(), path.encode(), body)
    return hashlib.sha256(b"".join(len(part).to_bytes(4, "big") + part for part in parts)).hexdigest()


def packed(values: list[bytes]) -> bytes:
    """The bytes of entries that go together; of one alone its own."""
    return values[0] if len(values) == 1 else b"*" + b"".join(len(it).to_bytes(4, "big") + it for it in values)


def parted(value: bytes) -> list[bytes]:
    """The entries of these bytes."""
    if not value.startswith(b"*"):
        return [value]
    found, at = list[bytes](), 1
    while at < len(value):
        end = at + 4 + int.from_bytes(value[at:at + 4], "big")
        found.append(value[at + 4:end])
        at = end
    return found


class Clock:
    """The time of day, which never goes back: neither behind what it said, nor behind what it has seen of others."""

    def __init__(self) -> None:
        self.last = ""

    def saw(self, time: str) -> None:
        """Another entry has this time."""
        self.last = max(self.last, time)

    def now(self) -> str:
        """Times compare as texts."""
        self.saw(datetime.datetime.utcnow().isoformat(timespec="microseconds") + "Z")
        return self.last
