"""The files over which `.ci/bench peer` asks the office and the C peer, made by Python's sqlite3."""

import os
import re
import sqlite3
from typing import Iterable, Iterator

TOP = os.path.dirname(os.path.dirname(os.path.dirname(os.path.abspath(__file__))))
# Rates, and their frames a second.
BASES = {"24": 24, "25": 25, "30": 30, "df": 30}
# A day at rate 25, and the frame at which it starts.
DAY, START, SLOTS = 2_160_000, 540_000, 9_999
# Which days a file has: from these numbers on full ones, full ones that nobody asks before, and empty ones; and one
# with gaps.
FULL, ASIDE, EMPTY, GAPPED = 1, 1_001, 2_001, 3_001
NO_WINDOW = 3


def frame_of(rate: str, label: str) -> int:
    """The frame of a label."""
    hours, minutes, seconds, frames = (int(it) for it in re.split("[:;]", label))
    minutes += 60 * hours
    left_out = 2 * (minutes - minutes // 10) if rate == "df" else 0
    return (60 * minutes + seconds) * BASES[rate] + frames - left_out


def make_tables(path: str, plan: list[str]) -> sqlite3.Connection:
    """A file of version 2 with these plan rows. Its texts are those of a file that a program made."""
    with open(f"{TOP}/tests/conversations/version-2.sql", encoding="utf-8") as lines:
        texts = [it for it in lines if it.startswith(("CREATE TABLE", "INSERT INTO office"))]
    conn = sqlite3.connect(path)
    for text in texts:
        conn.execute(text)
    for row in plan:
        channel, rate, label, slots = row.split(",")
        conn.execute("INSERT INTO channel VALUES (?, ?, ?, ?)", (channel, rate, frame_of(rate, label), slots))
    conn.commit()
    return conn


def put(conn: sqlite3.Connection, table: str, rows: Iterable[tuple[object, ...]]) -> None:
    """Writes rows of a table, whose first one says how many columns there are."""
    several = list(rows)
    if several:
        places = ", ".join("?" * len(several[0]))
        conn.executemany(f"INSERT INTO {table} VALUES ({places})", several)


def make_tapes(path: str, tapes: int) -> None:
    """A file of one channel with so many tapes, each in its slot."""
    conn = make_tables(path, [f"1,25,06:00:00:00,{SLOTS}"])
    put(conn, "tape", ((1, n, f"T{n}", n) for n in range(1, tapes + 1)))
    conn.commit()
    conn.close()


def umid_of(number: int, instance: int = 0) -> bytes:
    """A basic UMID with a material number of its own (SMPTE ST 330)."""
    return bytes.fromhex("060a2b340101010501010d2013") + instance.to_bytes(3, "big") + number.to_bytes(16, "big")


def add_clips(conn: sqlite3.Connection, channel: int, clips: int) -> None:
    """A tape with so many clips of a whole day."""
    put(conn, "tape", [(channel, 1, "T1", 1)])
    put(conn, "clip", ((channel, n, 1, f"CLIP {n}", umid_of(n), 0, DAY, 0) for n in range(1, clips + 1)))


def sources_of(reel: str, number: int, items: int) -> list[str]:
    """The sources of so many items: every other one is black, the others are clips that lie far apart among so many."""
    return ["BL" if n % 2 else f"{reel}{1 + n * (number - 1) // items:0{8 - len(reel)}}" for n in range(items)]


def add_day(conn: sqlite3.Connection, day: int, sources: list[str], gapped: bool = False, sealed: bool = False) -> None:
    """A day whose items are as long as each other, the last one as long as it takes; or half as long, with gaps."""
    length = DAY // max(len(sources), 1)
    lengths = [length // 2 if gapped else length] * len(sources)
    if sources and not gapped:
        lengths[-1] = DAY - length * (len(sources) - 1)
    put(conn, "day", [(1, day, int(sealed))])
    put(conn, "item", ((1, day, n + 1, n * length, frames, source, 0, "C", 0)
                       for n, (frames, source) in enumerate(zip(lengths, sources))))


def make_days(path: str, clips: int, offers: int, items: int, days: int) -> None:
    """A file with a vault of so many clips, and so many that channel 2 lends; so many full days of so many items each,
    as many that nobody asks before, as many empty ones, and one with gaps. Items show lent clips where there are
    any."""
    conn = make_tables(path, [f"{channel},25,06:00:00:00,{SLOTS}" for channel in (1, 2)])
    add_clips(conn, 1, clips)
    add_clips(conn, 2, offers)
    put(conn, "offer", ((2, n, 1, n, f"CLIP {n}", umid_of(n, 1), "25", 0, DAY, 0) for n in range(1, offers + 1)))
    put(conn, "span", ((2, n, 1, 99_999) for n in range(1, offers + 1) if n % NO_WINDOW == 0))
    sources = sources_of("L002", offers, items) if offers else sources_of("C", clips, items)
    for day in range(days):
        add_day(conn, FULL + day, sources)
        add_day(conn, ASIDE + day, sources)
        add_day(conn, EMPTY + day, [])
    add_day(conn, GAPPED, sources[:9_000], gapped=True)
    conn.commit()
    conn.close()


def aired_rows(day: int, sources: list[str], rows: int) -> Iterator[tuple[object, ...]]:
    """So many rows of a day, in ten batches: as many of each item, or one of each of the first ones. The last one of
    every third item's is a frame late, and behind the rows of an item some of its frames are left."""
    length, each = DAY // len(sources), max(rows // len(sources), 1)
    part = length // each - (length // each > 1)
    for k in range(rows):
        item, n = divmod(k, each)
        late = item % 3 == 0 and n + 1 == each
        first = 0 if sources[item] == "BL" else n * part + late
        yield (1, day, 1 + k * 10 // rows, k + 1, item * length + n * part, part, sources[item], first)


def add_aired(conn: sqlite3.Connection, day: int, sources: list[str], rows: int) -> None:
    """A sealed day of these items, of which so many rows were aired."""
    add_day(conn, day, sources, sealed=True)
    put(conn, "batch", ((1, day, n) for n in range(1, 11)))
    put(conn, "aired", aired_rows(day, sources, rows))


def make_aired(path: str, items: int, rows: int) -> None:
    """A file with a sealed day of so many items, of which so many rows were aired."""
    conn = make_tables(path, [f"1,25,06:00:00:00,{SLOTS}"])
    add_clips(conn, 1, 20)
    add_aired(conn, 1, sources_of("C", 20, items), rows)
    conn.commit()
    conn.close()


def make_batches(path: str, rows: int, days: int) -> None:
    """A file with sealed days of black, of which so many rows of a frame were aired, at every other frame, in ten
    batches."""
    conn = make_tables(path, [f"1,25,06:00:00:00,{SLOTS}"])
    for day in range(1, days + 1):
        add_day(conn, day, ["BL"], sealed=True)
        put(conn, "batch", ((1, day, n) for n in range(1, 11)))
        put(conn, "aired", ((1, day, 1 + k * 10 // rows, k + 1, 2 * k, 1, "BL", 0) for k in range(rows)))
    conn.commit()
    conn.close()
