"""What an open takes of a centre's first months, for `.ci/bench year`: 20 channels, each day with 1,000 items and 1,000
aired rows a channel. What it takes of as many clips and offers in few channels, and in many. And what an item takes into
a day of 1,000, where the office has the day at hand, and where not.

What the toolchain's SQLite takes by itself is measured over the same file with another version of the tables: the program
opens it, reads the version, and refuses it before it looks at any other row."""

import os
import shutil
import socket
import sqlite3
import subprocess
import tempfile
from dataclasses import dataclass
from typing import Iterable, Iterator

CHANNELS, ITEMS, FRAMES, TAPES, CLIPS = 20, 1_000, 2_160_000, 100, 200
DAYS = (30, 120)
# How many times what the toolchain takes the open may hold at most and keep, and how much of its time the tests may be.
HELD_WANTED, KEPT_WANTED, TESTS_WANTED = 3.0, 1.3, 0.25
# Of how many days each takes an item or gives one back; what the same may take on one.
PLANNED, ITEM_WANTED = 200, 0.7

# In how many channels so many clips lie, and how many times what an open takes with few of them it may take with many.
SPREAD, ALL_CLIPS, SPREAD_WANTED = (10, 999), 100_000, 1.3


@dataclass
class Took:
    """Processor seconds, and megabytes held at most."""

    seconds: float
    held: float


def umid_of(channel: int, number: int, grantee: int = 0) -> bytes:
    """A basic UMID of 32 bytes (SMPTE ST 330), with a material number of its own. Its instance number is that of the channel
    that it is lent to."""
    label = bytes.fromhex("060a2b340101010501010d2013")
    return label + grantee.to_bytes(3, "big") + channel.to_bytes(8, "big") + number.to_bytes(8, "big")


def fill(conn: sqlite3.Connection, days: int) -> None:
    """The rows of so many days."""
    channels = range(1, CHANNELS + 1)
    length = FRAMES // ITEMS
    tables: dict[str, Iterator[tuple[object, ...]]] = {
        "tape(ch, n, barcode, slot)": ((ch, n, f"T{n}", n) for ch in channels for n in range(1, TAPES + 1)),
        "clip(ch, n, tape, title, umid, src_first, frames, retired)": (
            (ch, n, 1 + n % TAPES, f"CLIP {n}", umid_of(ch, n), 0, length, 0) for ch in channels for n in range(1, CLIPS + 1)),
        "day(ch, day, sealed)": ((ch, day, 1) for ch in channels for day in range(1, days + 1)),
        "item(ch, day, n, pos, frames, src, src_first, kind, mix)": (
            (ch, day, n, (n - 1) * length, length, f"C{1 + n % CLIPS:07}", 0, "C", 0)
            for ch in channels for day in range(1, days + 1) for n in range(1, ITEMS + 1)),
        "batch(ch, day, n)": ((ch, day, 1) for ch in channels for day in range(1, days + 1)),
        "aired(ch, day, batch, line, pos, frames, src, src_first)": (
            (ch, day, 1, n, (n - 1) * length, length, f"C{1 + n % CLIPS:07}", 0)
            for ch in channels for day in range(1, days + 1) for n in range(1, ITEMS + 1)),
    }
    put(conn, tables)


def put(conn: sqlite3.Connection, tables: dict[str, Iterator[tuple[object, ...]]]) -> None:
    """Puts in rows, by the table with its columns."""
    for name, rows in tables.items():
        places = ", ".join("?" * (name.count(",") + 1))
        conn.executemany(f"INSERT INTO {name} VALUES ({places})", rows)
    conn.commit()


def make(program: str, path: str, days: int) -> None:
    """A file with so many days."""
    plan = [f"{ch},25,06:00:00:00,9999" for ch in range(1, CHANNELS + 1)]
    subprocess.run([program, "answer", "--db", path, *plan], stdin=subprocess.DEVNULL, check=True)
    conn = sqlite3.connect(path)
    fill(conn, days)
    conn.close()


def took(words: list[str], said: bytes) -> Took:
    """What the program takes, which ends with this on standard output or standard error."""
    with subprocess.Popen(words, stdout=subprocess.PIPE, stderr=subprocess.STDOUT) as process:
        assert process.stdout
        text = process.stdout.read()
        _, _, usage = os.wait4(process.pid, 0)
        process.returncode = 0
    assert said in text, text[-200:]
    return Took(usage.ru_utime + usage.ru_stime, usage.ru_maxrss / 1024)


def kept(program: str, path: str) -> float:
    """The megabytes that it keeps while it serves."""
    words = [program, "serve", "--db", path, "--port", "0", "--turns", "1"]
    with subprocess.Popen(words, stdout=subprocess.PIPE) as process:
        assert process.stdout
        port = int(process.stdout.readline().rpartition(b":")[2])
        with open(f"/proc/{process.pid}/status", encoding="ascii") as status:
            held = next(int(line.split()[1]) for line in status if line.startswith("VmRSS"))
        socket.create_connection(("127.0.0.1", port)).close()
    return held / 1024


def planned(program: str, path: str) -> None:
    """A file of one channel with open days of 1,000 items, and room behind them."""
    subprocess.run([program, "answer", "--db", path, "1,25,06:00:00:00,40"], stdin=subprocess.DEVNULL, check=True)
    conn = sqlite3.connect(path)
    days = range(1, PLANNED + 1)
    conn.executemany("INSERT INTO day (ch, day, sealed) VALUES (1, ?, 0)", ((day,) for day in days))
    conn.executemany("INSERT INTO item (ch, day, n, pos, frames, src, src_first, kind, mix) VALUES (1, ?, ?, ?, 25, 'BL', 0, 'C', 0)",
                     ((day, n, n * 25) for day in days for n in range(1, ITEMS + 1)))
    conn.commit()
    conn.close()


def spread(program: str, path: str, channels: int) -> None:
    """A file of so many channels that have all clips together. Each lends a tenth of its own to the next one, and has a
    day with an item of the first."""
    plan = [f"{ch},25,06:00:00:00,40" for ch in range(1, channels + 1)]
    subprocess.run([program, "answer", "--db", path, *plan], stdin=subprocess.DEVNULL, check=True)
    every, clips = range(1, channels + 1), range(1, ALL_CLIPS // channels + 1)
    tables: dict[str, Iterator[tuple[object, ...]]] = {
        "tape(ch, n, barcode, slot)": ((ch, 1, "T1", 1) for ch in every),
        "clip(ch, n, tape, title, umid, src_first, frames, retired)": (
            (ch, n, 1, f"CLIP {n}", umid_of(ch, n), 0, 25, 0) for ch in every for n in clips),
        "offer(ch, n, grantee, clip, title, umid, rate, src_first, frames, withdrawn)": (
            (ch, n, ch % channels + 1, n, f"CLIP {n}", umid_of(ch, n, ch % channels + 1), "25", 0, 25, 0)
            for ch in every for n in clips[: len(clips) // 10]),
        "day(ch, day, sealed)": ((ch, 1, 0) for ch in every),
        "item(ch, day, n, pos, frames, src, src_first, kind, mix)": ((ch, 1, 1, 0, 25, "C0000001", 0, "C", 0) for ch in every),
    }
    conn = sqlite3.connect(path)
    put(conn, tables)
    conn.close()


def of_channels(program: str, room: str) -> None:
    """Prints what an open takes of as many clips in few channels and in many."""
    taken = []
    for channels in SPREAD:
        path = f"{room}/spread.db"
        spread(program, path, channels)
        taken.append(min(took([program, "table", "--db", path, "--ch", "1", "vault"], b"SHELVED").seconds for _ in range(3)))
        os.remove(path)
    few, many = SPREAD
    print(f"\n| An open of {ALL_CLIPS:,} clips | {few} channels | {many} | ratio | wanted |\n|---|---|---|---|---|")
    line("processor, s", taken[1], taken[0], SPREAD_WANTED)


def posts(days: Iterable[int], what: str, body: str = "") -> bytes:
    """A request of each of these days."""
    return b"".join(f"POST /ch/1/days/{day}/{what} HTTP/1.1\r\nContent-Length: {len(body)}\r\n\r\n{body}".encode() for day in days)


def answering(program: str, path: str, stream: bytes) -> float:
    """The processor seconds of a copy of the file that answers a stream, all of it with 200."""
    with tempfile.TemporaryDirectory(dir=os.path.dirname(path)) as room, tempfile.TemporaryFile() as given:
        given.write(stream)
        given.seek(0)
        words = [program, "answer", "--db", shutil.copy(path, f"{room}/office.db")]
        with subprocess.Popen(words, stdin=given, stdout=subprocess.PIPE) as process:
            assert process.stdout
            said = process.stdout.read()
            _, status, usage = os.wait4(process.pid, 0)
            process.returncode = status
    assert said.count(b"HTTP/1.1 200 OK") == stream.count(b"HTTP/1.1\r\n"), said[-200:]
    return usage.ru_utime + usage.ru_stime


def of_items(program: str, room: str) -> None:
    """Prints what an item and its removal take of the processor: of days each of which is asked for once, so that it isn't
    at hand, and of one day."""
    path = f"{room}/items.db"
    planned(program, path)
    item = '{"at":"18:00:00:00","frames":25,"in":"00:00:00:00","mix":0,"source":"BL"}'
    days, one = range(1, PLANNED + 1), [1]
    far = posts(days[::2], "items", item) + posts(days[1::2], f"items/{ITEMS}/remove")
    near = (posts(one, "items", item) + posts(one, f"items/{ITEMS + 1}/remove")) * (PLANNED // 2)
    opened, of_all, of_one = (min(answering(program, path, it) for _ in range(3)) for it in (b"", far, near))
    print("\n| Into a day of 1,000 items | not at hand | at hand | ratio | wanted |\n|---|---|---|---|---|")
    line("an item and its removal: processor, µs", (of_one - opened) / PLANNED * 2e6, (of_all - opened) / PLANNED * 2e6, ITEM_WANTED)


def line(what: str, value: float, own: float, wanted: float) -> None:
    """A line of the table, with the bound on the ratio."""
    ratio = value / own
    print(f"| {what} | {own:.1f} | {value:.1f} | {ratio:.2f} | at most {wanted:.2f}: {'yes' if ratio <= wanted else 'no'} |", flush=True)


def of_year(program: str, room: str) -> None:
    """Prints what the opens of some months take, and an item into a large day."""
    of_items(program, room)
    of_channels(program, room)
    print("\n| An open | SQLite alone | the office | ratio | wanted |\n|---|---|---|---|---|")
    for days in DAYS:
        path = f"{room}/year.db"
        make(program, path, days)
        other = shutil.copy(path, f"{room}/other.db")
        conn = sqlite3.connect(other)
        conn.execute("UPDATE office SET version = 3")
        conn.commit()
        conn.close()
        size = os.path.getsize(path) / 1_000_000
        own = took([program, "table", "--db", other, "--ch", "1", "vault"], b"98 SchemaVersion")
        all_of_it = took([program, "table", "--db", path, "--ch", "1", "vault"], b"SHELVED")
        line(f"{days} days, {size:.0f} MB: processor, s (the tests are what is above)", all_of_it.seconds, own.seconds,
             1 / (1 - TESTS_WANTED))
        line(f"{days} days: held at most, MB", all_of_it.held, own.held, HELD_WANTED)
        line(f"{days} days: kept while it serves, MB", kept(program, path), own.held, KEPT_WANTED)
        os.remove(path)
        os.remove(other)
