"""Clients that ask as fast as they are answered, each over a connection that stays.

    load.py --target HOST:PORT --clients N --seconds N --kind POST|GET [--gateway] [--user N]

It prints JSON: how many were answered other than 200, and the times of all, in milliseconds, sorted.
"""

import argparse
import base64
import json
import re
import socket
import threading
import time

# The requests that make sure of the tape aren't counted.
BEFORE = 2
LENGTH = re.compile(rb"(?i)\r\ncontent-length: (\d+)")


def request(given, user, number):
    """The bytes of one. A tape is pulled and shelved in turn, so that each POST changes a row and there is no end of them;
    before that it is there, and shelved."""
    head = f"Host: {given.target}\r\n"
    if given.gateway:
        word = base64.b64encode(f"u{user}:password of u{user}".encode()).decode()
        head += f"Authorization: Basic {word}\r\n"
    if given.kind == "GET" and number > BEFORE:
        return f"GET /ch/{user}/offers HTTP/1.1\r\n{head}\r\n".encode()
    body = '{"barcode":"LOAD","slot":1}' if number == 1 else '{"slot":1}' if number % 2 == 0 else ""
    path = "tapes" if number == 1 else "tapes/1/shelve" if number % 2 == 0 else "tapes/1/pull"
    return f"POST /ch/{user}/{path} HTTP/1.1\r\n{head}Content-Length: {len(body)}\r\n\r\n{body}".encode()


class Client:
    """One connection."""

    def __init__(self, given, user):
        self.given, self.user, self.times, self.other = given, user, [], 0

    def opened(self):
        host, port = self.given.target.rsplit(":", 1)
        peer = socket.create_connection((host, int(port)))
        peer.setsockopt(socket.IPPROTO_TCP, socket.TCP_NODELAY, 1)
        return peer

    def work(self, end):
        peer, number, rest = None, 0, b""
        while time.perf_counter() < end:
            # nginx ends a connection behind a thousand requests.
            if number % 900 == 0 or not peer:
                peer = self.opened()
            number += 1
            sent = request(self.given, self.user, number)
            begun = time.perf_counter()
            peer.sendall(sent)
            while True:
                at = rest.find(b"\r\n\r\n")
                if at >= 0 and len(rest) >= at + 4 + int(LENGTH.search(rest, 0, at + 2)[1]):
                    break
                more = peer.recv(1 << 18)
                if not more:
                    raise ConnectionError("it was closed")
                rest += more
            if number > BEFORE:
                self.times.append(1000 * (time.perf_counter() - begun))
                self.other += not rest.startswith(b"HTTP/1.1 200 ")
            rest = rest[at + 4 + int(LENGTH.search(rest, 0, at + 2)[1]):]


def main():
    parser = argparse.ArgumentParser()
    parser.add_argument("--target", required=True)
    parser.add_argument("--clients", type=int, required=True)
    parser.add_argument("--seconds", type=float, required=True)
    parser.add_argument("--kind", required=True)
    parser.add_argument("--user", type=int, default=1)
    parser.add_argument("--gateway", action="store_true")
    given = parser.parse_args()
    clients = [Client(given, given.user + it) for it in range(given.clients)]
    end = time.perf_counter() + given.seconds
    threads = [threading.Thread(target=it.work, args=(end,)) for it in clients]
    for it in threads:
        it.start()
    for it in threads:
        it.join()
    times = sorted(it for one in clients for it in one.times)
    print(json.dumps({"other": sum(it.other for it in clients), "times": times}))


if __name__ == "__main__":
    main()
