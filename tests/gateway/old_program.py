#!/usr/bin/python3
"""A stand-in for an older program, which knows files of version 1 alone: .ci/package has an office run it, and upgrades it.

    playout serve --db FILE --port PORT ..      answers each channel's tapes, and what an office answers to what is no message
    playout table --db FILE --ch CHANNEL vault
    playout --version
"""

import socket
import sqlite3
import sys

BAD = b'HTTP/1.1 400 Bad Request\r\nContent-Length: 35\r\nContent-Type: application/json\r\n\r\n{"code":400,"refused":"BadMessage"}'
NONE = b'HTTP/1.1 404 Not Found\r\nContent-Length: 33\r\nContent-Type: application/json\r\n\r\n{"code":404,"refused":"NotFound"}'


def opened(file: str) -> sqlite3.Connection:
    """The rows of a file of version 1; no other is opened, nor changed."""
    rows = sqlite3.connect(f"file:{file}?mode=ro", uri=True)
    [[version]] = rows.execute("SELECT version FROM office")
    if version != 1:
        sys.exit("98 SchemaVersion")
    return rows


def serve(file: str, port: int) -> None:
    """Answers one connection after another."""
    rows = opened(file)
    with socket.create_server(("127.0.0.1", port)) as it:
        print(f"serving 127.0.0.1:{port}", flush=True)
        while True:
            peer, _ = it.accept()
            with peer:
                words = peer.recv(4096).split()
                path = words[1].decode().split("/") if len(words) > 2 else []
                if path[1:2] == ["ch"] and path[3:] == ["tapes"]:
                    codes = [code for code, in rows.execute("SELECT barcode FROM tape WHERE ch = ? ORDER BY n", (int(path[2]),))]
                    text = "".join(f"{it}\n" for it in codes).encode()
                    peer.sendall(b"HTTP/1.1 200 OK\r\nContent-Length: %d\r\n\r\n" % len(text) + text)
                else:
                    peer.sendall(NONE if path else BAD)


def main() -> None:
    """By its words."""
    words = sys.argv[1:]
    if words[:1] == ["--version"]:
        print("playout 0.9.0, tables 1")
    elif words[:2] == ["serve", "--db"]:
        serve(words[2], int(words[words.index("--port") + 1]))
    elif words[:2] == ["table", "--db"]:
        opened(words[2])
        sys.exit("404 NotFound")
    else:
        sys.exit(2)


main()
