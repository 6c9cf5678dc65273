#!/usr/bin/python3
"""Requests to etcd, over a server of the tests' own that answers as it is told."""

import asyncio
import json
import time
import unittest

import test_replica as _paths  # noqa: F401
from replica.etcd_calls import EtcdCalls, lines
from replica.faults import NoRoom, NotDone, Unknown

CHUNKED = b"HTTP/1.1 200 OK\r\nContent-Type: application/json\r\nTransfer-Encoding: chunked\r\n\r\n"


def whole(members, status=b"200 OK"):
    """An answer of a known length."""
    body = json.dumps(members).encode()
    return b"HTTP/1.1 %s\r\nContent-Type: application/json\r\nContent-Length: %d\r\n\r\n%s" % (status, len(body), body)


def chunks(*parts):
    return b"".join(b"%x\r\n%s\r\n" % (len(it), it) for it in parts)


class Server:
    """`answers` are given in their order: bytes, a number of seconds before the next one, or None, which ends the connection.
    `sent` is how much of an answer without an end was taken."""

    async def start(self):
        self.answers, self.asked, self.connections, self.sent, self.endless = [], [], 0, 0, None
        self.server = await asyncio.start_server(self.serve, "127.0.0.1", 0)
        self.url = "http://127.0.0.1:%d" % self.server.sockets[0].getsockname()[1]

    async def serve(self, reader, writer):
        self.connections += 1
        try:
            while True:
                head = await reader.readuntil(b"\r\n\r\n")
                length = int(head.lower().partition(b"content-length: ")[2].partition(b"\r")[0])
                self.asked.append((head, json.loads(await reader.readexactly(length))))
                while isinstance(self.answers[0], float):
                    await asyncio.sleep(self.answers.pop(0))
                answer = self.answers.pop(0)
                if answer is None:
                    return
                writer.write(answer)
                while self.endless:
                    writer.write(self.endless)
                    await writer.drain()
                    self.sent += len(self.endless)
        except (asyncio.IncompleteReadError, ConnectionError):
            pass
        finally:
            writer.close()


class Asking(unittest.IsolatedAsyncioTestCase):
    """Over a server."""

    async def asyncSetUp(self):
        self.server = Server()
        await self.server.start()
        self.calls = EtcdCalls(self.server.url, "/t/", None)

    async def asyncTearDown(self):
        for _, writer in self.calls.wire.idle:
            writer.close()
        self.server.server.close()


class Calls(Asking):
    async def test_answers_of_a_length_and_in_chunks_over_one_connection(self):
        text = json.dumps({"kvs": ["x" * 5000]}).encode()
        self.server.answers = [whole({"a": 1}), CHUNKED + chunks(text[:7], text[7:], b""), whole({"b": 2})]
        said = [await self.calls.call("kv/range", {"key": it}) for it in ("1", "2", "3")]
        self.assertEqual([{"a": 1}, {"kvs": ["x" * 5000]}, {"b": 2}], said)
        self.assertEqual((1, [{"key": it} for it in ("1", "2", "3")]), (self.server.connections, [it for _, it in self.server.asked]))
        head = self.server.asked[0][0]
        self.assertTrue(head.startswith(b"POST /v3/kv/range HTTP/1.1\r\n") and b"\r\nGrpc-Metadata-hasleader: true\r\n" in head, head)

    async def test_each_that_is_under_way_has_a_connection(self):
        self.server.answers = [0.2, 0.1, whole({"a": 1}), whole({"a": 1}), whole({"a": 1})]
        await asyncio.gather(*(self.calls.call("kv/range", {}) for _ in range(2)))
        await self.calls.call("kv/range", {})
        self.assertEqual(2, self.server.connections)

    async def test_where_nobody_listens_nothing_was_done(self):
        self.server.server.close()
        await self.server.server.wait_closed()
        with self.assertRaises(NotDone):
            await self.calls.call("kv/put", {})

    async def test_what_has_no_answer_may_have_been_done(self):
        for answer in (None, b"HTTP/1.1 200 OK\r\nContent-Length: 9\r\n\r\nno{json}!", b"HTTP/1.1 200 OK\r\n\r\n" + b"x" * 9):
            self.server.answers = [answer] + [0.0] * 9
            with self.assertRaises(Unknown):
                await self.calls.call("kv/put", {}, 0.5)

    async def test_a_late_answer_answers_nothing_else(self):
        self.server.answers = [0.6, whole({"late": 1}), whole({"right": 1})]
        with self.assertRaises(Unknown):
            await self.calls.call("kv/put", {}, 0.2)
        await asyncio.sleep(0.6)
        self.assertEqual({"right": 1}, await self.calls.call("kv/put", {}))
        self.assertEqual(2, self.server.connections)

    async def test_a_connection_that_was_ended_meanwhile_is_not_used(self):
        self.server.answers = [whole({}), whole({"b": 1})]
        await self.calls.call("kv/put", {})
        self.calls.wire.idle[0][0].feed_eof()
        self.assertEqual({"b": 1}, await self.calls.call("kv/put", {}))

    async def test_what_etcd_refuses(self):
        for said, fault in (("etcdserver: no leader", NotDone), ("etcdserver: request timed out", Unknown),
                            ("etcdserver: mvcc: database space exceeded", NoRoom)):
            self.server.answers = [whole({"error": said, "code": 14}, b"503 Service Unavailable")]
            with self.assertRaises(fault):
                await self.calls.call("kv/put", {})


class Watches(Asking):
    async def test_lines_of_a_watch(self):
        self.server.answers = [CHUNKED + chunks(b'{"a":1}\n', b'{"b"', b':2}\n{"c":3}\n', b"")]
        found = [json.loads(it) async for it in lines(self.calls.wire.watch("/v3/watch", b"{}", 1.0))]
        self.assertEqual([{"a": 1}, {"b": 2}, {"c": 3}], found)

    async def test_silence_ends_it(self):
        self.server.answers = [CHUNKED + chunks(b"1\n"), 5.0, None]
        found, begun = [], time.monotonic()
        with self.assertRaises(TimeoutError):
            async for it in lines(self.calls.wire.watch("/v3/watch", b"{}", 0.3)):
                found.append(it)
        self.assertEqual([b"1"], found)
        self.assertLess(time.monotonic() - begun, 2)

    async def test_where_nobody_takes_what_it_says_it_waits(self):
        self.server.answers, self.server.endless = [CHUNKED], chunks(b"x" * 99_999 + b"\n")
        found = lines(self.calls.wire.watch("/v3/watch", b"{}", 2.0))
        self.assertEqual(99_999, len(await anext(found)))
        await asyncio.sleep(0.3)
        before = self.server.sent
        await asyncio.sleep(0.5)
        self.assertEqual(before, self.server.sent)      # the sockets are full, and nothing is kept beside them
        self.server.endless = None
        await found.aclose()


if __name__ == "__main__":
    unittest.main()
