"""What `.ci/bench peer` asks of the office and of the C peer, and how fast the office has to be beside it."""

from dataclasses import dataclass
from typing import Callable

import peer_files as files
from peer_files import ASIDE, DAY, EMPTY, FULL, GAPPED, SLOTS, START

# How many times as fast as C: messages that are refused, tables, lists and matches; a seal of many items; changes; an
# import.
READ, SEALED, CHANGED, IMPORTED = 1.5, 1.2, 0.9, 0.5
MANY = 999
ITEMS, CLIPS, OFFERS, ROWS = (10, 100, 999, 9_999), (20, 2_000, 20_000), (10, 1_000, 9_999), (10, 999, 9_990, 99_900)
BATCH, BATCHES = 1_000, (1_000, 10_000, 100_000)


@dataclass
class Ask:
    """A command in a setting: messages that come before it, those that are measured, and how many times as fast as C it
    has to be. It is of a series: a command, by what it grows with, and how much there is of that. So many messages are
    sent at a time, so that what a small one takes isn't what waking the program takes."""

    what: str
    before: list[bytes]
    messages: list[bytes]
    wanted: float | None = None
    series: tuple[str, str, int] | None = None
    at_a_time: int = 1


@dataclass
class Centre:
    """A file, how it is made, and what is asked over it, in this order."""

    name: str
    make: Callable[[str], None]
    asks: list[Ask]


def get(path: str) -> bytes:
    """A message that asks."""
    return f"GET /ch/{path} HTTP/1.1\r\n\r\n".encode()


def post(path: str, body: str = "") -> bytes:
    """A message that changes, or is refused."""
    return f"POST /ch/{path} HTTP/1.1\r\nContent-Length: {len(body)}\r\n\r\n{body}".encode()


def label(place: int) -> str:
    """The label of a place of the broadcast day."""
    frame = (START + place) % DAY
    return f"{frame // 90_000:02}:{frame // 1_500 % 60:02}:{frame // 25 % 60:02}:{frame % 25:02}"


def item(place: int, source: str) -> str:
    """The body of an item of a frame."""
    return f'{{"at":"{label(place)}","frames":1,"in":"00:00:00:00","mix":0,"source":"{source}"}}'


def listed(sources: list[str]) -> str:
    """An edit list of events of a frame, one behind the other."""
    return "".join(
        f"{n:03}".ljust(5) + f"{reel:8} V     C        00:00:00:00 00:00:00:01 {label(n - 1)} {label(n)}\n"
        for n, reel in enumerate(sources, 1))


def often(size: int) -> int:
    """How often something of this size is asked in a round: the larger it is, the less often."""
    return max(3, min(20, 20_000 // size))


def read(what: str, message: bytes, size: int, series: tuple[str, str, int] | None = None) -> Ask:
    """A message of this size that changes nothing, again and again, where it was asked before."""
    at_a_time = max(1, min(20, 2_000 // size))
    return Ask(what, [message], [message] * (at_a_time * often(size)), READ, series, at_a_time)


def of_tapes(tapes: int) -> Centre:
    """Tapes that are refused and added, and their table."""
    tape = '{"barcode":"%s","slot":%d}'
    added = [post("1/tapes", tape % (f"N{n}", SLOTS - n)) for n in range(100)]
    return Centre(f"tapes{tapes}", lambda path: files.make_tapes(path, tapes), [
        read(f"a refused tape, of {tapes:,}", post("1/tapes", tape % ("T1", SLOTS)), 20),
        read(f"the vault table of {tapes:,}", get("1/tapes"), tapes),
        Ask(f"an added tape, to {tapes:,}", added[:10], added[10:], CHANGED),
    ])


def of_day(items: int, days: int, sources: list[str], named: str, by: str, size: int) -> list[Ask]:
    """The commands on days of so many items. Their rows were asked for once before, but where they are asked first."""
    gapped = min(items, 9_000)
    half, slot = DAY // gapped // 2, DAY // gapped
    of_clip = next(it for it in reversed(sources) if it != "BL")
    added = [post(f"1/days/{GAPPED}/items", item(n * 7_919 % gapped * slot + half + n, of_clip)) for n in range(40)]
    into, of = f"a day of {gapped:,}{named}", f"a day of {items:,}{named}"
    taken = post(f"1/days/{GAPPED}/items", item(0, of_clip))
    full, empty = ([get(f"1/days/{first + n}") for n in range(days)] for first in (FULL, EMPTY))
    lists = [post(f"1/days/{EMPTY + n}/import/strict", listed(sources)) for n in range(days)]
    return [
        read(f"a refused item, of {into}", taken, 20, ("a refused item", by, size)),
        Ask(f"an item into {into}", added[:4], added[4:], CHANGED, ("an item", by, size)),
        Ask(f"the plan table of {of}, asked first", [], full, None, ("a plan table, asked first", by, size)),
        read(f"the plan table of {into}", get(f"1/days/{GAPPED}"), items, ("a plan table", by, size)),
        read(f"the list of {into}", get(f"1/days/{GAPPED}/list"), items, ("an exported list", by, size)),
        Ask(f"an import of {items:,}{named}", empty, lists, IMPORTED if items == MANY else None,
            ("an import", by, size)),
        Ask(f"a seal of {of}", full, [post(f"1/days/{FULL + n}/seal") for n in range(days)],
            SEALED if items >= MANY else None, ("a seal", by, size)),
        Ask(f"a seal of {of}, asked first", [], [post(f"1/days/{ASIDE + n}/seal") for n in range(days)], None,
            ("a seal, asked first", by, size)),
    ]


def of_days(items: int) -> Centre:
    """Days of so many items, where the vault has 20 clips, and their table."""
    days = often(items)
    told = f"the table of {3 * days + 1} days, {2 * days + 1} of {items:,} items"
    asks = of_day(items, days, files.sources_of("C", 20, items), " items", "items", items)
    asks.append(read(told, get("1/days"), items * days, ("a table of days", "items", items)))
    return Centre(f"days{items}", lambda path: files.make_days(path, 20, 0, items, days), asks)


def of_clips(clips: int) -> Centre:
    """Days of 10 items where the vault has so many clips, and the clip table."""
    asks = of_day(10, 20, files.sources_of("C", clips, 10), f" items, of {clips:,} clips", "clips", clips)
    asks.append(read(f"the clip table of {clips:,}", get("1/clips"), clips, ("a clip table", "clips", clips)))
    return Centre(f"clips{clips}", lambda path: files.make_days(path, clips, 0, 10, 20), asks)


def of_offers(offers: int) -> Centre:
    """Days of 10 items that show lent clips, where so many are lent, and both tables of them."""
    asks = of_day(10, 20, files.sources_of("L002", offers, 10), f" items, of {offers:,} lent clips", "offers", offers)
    asks += [
        read(f"the lent table of {offers:,}", get("1/lent"), offers, ("a lent table", "offers", offers)),
        read(f"the offer table of {offers:,}", get("2/offers"), offers, ("an offer table", "offers", offers)),
    ]
    return Centre(f"offers{offers}", lambda path: files.make_days(path, 20, offers, 10, 20), asks)


def of_match(items: int, rows: int, by: str) -> Centre:
    """A match of a day of so many items of which so many rows were aired."""
    series = ("a match", by, rows) if by else None
    ask = read(f"a match of {items:,} items, {rows:,} rows", get("1/days/1/match"), items + rows, series)
    return Centre(f"match{items}-{rows}", lambda path: files.make_aired(path, items, rows), [ask])


def of_batch(rows: int) -> Centre:
    """Batches of 1,000 rows, each between two others, onto so many."""
    days = range(1, 6)
    body = "".join(f"{label(2 * k * (rows // BATCH) + 1)},1,C0000001,00:00:00:00\n" for k in range(BATCH))
    ask = Ask(f"a batch of {BATCH:,} rows, onto {rows:,}", [get(f"1/days/{day}/match") for day in days],
              [post(f"1/days/{day}/asrun/11", body) for day in days], CHANGED, ("a batch", "rows", rows))
    return Centre(f"batch{rows}", lambda path: files.make_batches(path, rows, len(days)), [ask])


def families() -> list[list[Centre]]:
    """All files, and what is asked over them. Those of a family are asked the same, one behind the other."""
    matches = [of_match(items, items, "items") for items in ITEMS]
    matches += [of_match(MANY, rows, "rows") for rows in ROWS if rows != MANY]
    return [
        [of_tapes(tapes) for tapes in (20, 9_000)],
        [of_days(items) for items in ITEMS],
        [of_clips(clips) for clips in CLIPS],
        [of_offers(offers) for offers in OFFERS],
        matches + [of_match(9_999, 99_990, "")],
        [of_batch(rows) for rows in BATCHES],
    ]
