"""An office and a log of the unit tests' own, small enough to be read."""

import asyncio
import json
import re

from replica.segments import Logged


class FakeOffice:
    """Keeps the barcodes of each channel, and answers as an office does. `refuses` so many POSTs are answered 503, `mute` so
    many are done and get no answer, and `away` so many connections end at once. While it `hangs` it takes what comes, and
    says nothing."""

    def __init__(self):
        self.barcodes, self.asked = {}, []
        self.refuses = self.mute = self.away = 0
        self.hangs = False
        self.writers = set()

    async def start(self):
        self.server = await asyncio.start_server(self.serve, "127.0.0.1", 0)
        self.address = "127.0.0.1:%d" % self.server.sockets[0].getsockname()[1]

    async def stop(self):
        self.server.close()
        for it in list(self.writers):
            it.close()
        await self.server.wait_closed()

    async def serve(self, reader, writer):
        self.writers.add(writer)
        try:
            while True:
                head = (await reader.readuntil(b"\r\n\r\n")).decode()
                length = int(re.search(r"Content-Length: (\d+)", head)[1])
                body = await reader.readexactly(length)
                if self.away:
                    self.away -= 1
                    break
                while self.hangs:
                    await asyncio.sleep(0.02)
                answer = self.answer(*head.split(" ")[:2], body)
                if answer is None:
                    break
                writer.write(answer)
        except (asyncio.IncompleteReadError, ConnectionError):
            pass
        finally:
            self.writers.discard(writer)
            writer.close()

    def answer(self, method, path, body):
        self.asked.append((method, path))
        if method == "POST" and self.refuses:
            self.refuses -= 1
            return said(503, "Service Unavailable", {"code": 100, "refused": "Unavailable"})
        channel = path.split("/")[2] if path.startswith("/ch/") else ""
        if channel not in ("1", "2"):
            return said(404, "Not Found", {"code": 404, "refused": "NotFound"})
        shelf = self.barcodes.setdefault(channel, [])
        if method == "GET":
            text = ("".join(f"{it}\n" for it in shelf)).encode()
            return b"HTTP/1.1 200 OK\r\nContent-Length: %d\r\nContent-Type: text/plain\r\n\r\n%s" % (len(text), text)
        barcode = json.loads(body)["barcode"]
        if barcode in shelf:
            answer = said(409, "Conflict", {"code": 43, "refused": "BarcodeKnown"})
        else:
            shelf.append(barcode)
            answer = said(200, "OK", {"tape": len(shelf)})
        if self.mute:
            self.mute -= 1
            return None
        return answer


def said(code, phrase, members):
    body = json.dumps(members, separators=(",", ":")).encode()
    return (f"HTTP/1.1 {code} {phrase}\r\nContent-Length: {len(body)}\r\nContent-Type: application/json\r\n\r\n").encode() + body


class FakeLog:
    """A log in memory, that several replicas may share. `first` has what others know was answered first."""

    def __init__(self):
        self.skips, self.values, self.first = set(), [], {}
        self.names, self.more, self.asked = {}, asyncio.Event(), []

    async def open(self):
        pass

    async def append(self, entry, skip=0):
        """Each entry goes alone."""
        if entry.name not in self.names:
            self.values.append(entry.pack())
            self.names[entry.name] = 10 * len(self.values)
            if skip:
                self.skips.add(skip)
            self.more.set()
        return self.names[entry.name], 0

    async def head(self):
        return 10 * len(self.values)

    async def groups_behind(self, last):
        n = last.revision // 10
        yield []
        while True:
            while n < len(self.values):
                n += 1
                yield [Logged(n, 10 * n, self.values[n - 1])]
            self.more.clear()
            await self.more.wait()

    async def first_answer(self, place, answer):
        self.asked.append(place[0])
        return (True, self.first[place[0]]) if place[0] in self.first else (False, answer)

    async def kept(self, revision):
        self.backup = revision
