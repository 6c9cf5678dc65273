"""The file that `.ci/bench heap` begins an office over: a channel with 30 days of 9,999 items, of one of which all was
aired, in ten batches; and 20 channels with their vaults."""

import sqlite3
import subprocess
from typing import Iterator

import year

DAYS, ITEMS, BATCHES = 30, 9_999, 10
# The day that takes an item, and the one that was aired, and is sealed.
OPEN, AIRED = DAYS - 1, DAYS
LENGTH = year.FRAMES // ITEMS


def items(day: int) -> Iterator[tuple[int, int, int]]:
    """The places of a day's items: n, pos, frames. The day is full, but for the open one, which has no last item."""
    for n in range(1, ITEMS + (day != OPEN)):
        pos = (n - 1) * LENGTH
        yield n, pos, year.FRAMES - pos if n == ITEMS else LENGTH


def clip(n: int) -> str:
    """The source of item n."""
    return f"C{1 + n % year.CLIPS:07}"


def fill(conn: sqlite3.Connection) -> None:
    """The rows of the file."""
    year.fill(conn, 0)
    part = LENGTH // BATCHES
    days = range(1, DAYS + 1)
    tables = {
        "day(ch, day, sealed)": ((1, day, day == AIRED) for day in days),
        "item(ch, day, n, pos, frames, src, src_first, kind, mix)": (
            (1, day, n, pos, frames, clip(n), 0, "C", 0) for day in days for n, pos, frames in items(day)),
        "batch(ch, day, n)": ((1, AIRED, n) for n in range(1, BATCHES + 1)),
        "aired(ch, day, batch, line, pos, frames, src, src_first)": (
            (1, AIRED, 1 + at // part, n, pos + at, part, clip(n), at)
            for at in range(0, BATCHES * part, part) for n, pos, _ in items(AIRED)),
    }
    for name, rows in tables.items():
        places = ", ".join("?" * (name.count(",") + 1))
        conn.executemany(f"INSERT INTO {name} VALUES ({places})", rows)
    conn.commit()


def make(program: str, path: str) -> None:
    """The file."""
    plan = [f"{ch},25,06:00:00:00,9999" for ch in range(1, year.CHANNELS + 1)]
    subprocess.run([program, "answer", "--db", path, *plan], stdin=subprocess.DEVNULL, check=True)
    conn = sqlite3.connect(path)
    fill(conn)
    conn.close()
