"""What the gateway's log says of requests, counted from where it was read last."""

import os
import re
from typing import Iterator

from .figures import Figures

LINE = re.compile(r'\S+ \S+ (?P<user>\S*) "(?P<request>[^"]*)" (?P<status>[0-9]{3}) (?:(?P<refused>-|[0-9]+) )?'
                  r'(?P<seconds>[0-9.]+) (?P<office>.+)')
BOUNDS = ("0.005", "0.01", "0.025", "0.05", "0.1", "0.25", "0.5", "1", "2.5", "5", "10", "30", "+Inf")
REQUESTS, BUCKET = "temolunai_requests_total", "temolunai_request_seconds_bucket"
REFUSALS = "temolunai_refusals_total"
SUM, COUNT, READ = "temolunai_request_seconds_sum", "temolunai_request_seconds_count", "temolunai_log_read_bytes"


def part_of(address: str, parts: dict[str, str]) -> str:
    """The part whose office was asked last; `gateway` where none was, `other` where it is none of these."""
    last = re.split(r"[,:] ", address)[-1].strip()
    return "gateway" if last == "-" else parts.get(last, "other")


def count(line: str, parts: dict[str, str], figures: Figures) -> None:
    """One request more. The gateway's questions of itself have no lines."""
    found = LINE.fullmatch(line)
    if not found:
        return
    part, seconds = part_of(found["office"], parts), float(found["seconds"])
    figures.add(REQUESTS, 1, part=part, status=found["status"])
    if (found["refused"] or "-") != "-":
        figures.add(REFUSALS, 1, part=part, number=found["refused"])
    figures.add(SUM, seconds, part=part)
    figures.add(COUNT, 1, part=part)
    for it in BOUNDS:
        figures.add(BUCKET, seconds <= float(it), part=part, le=it)
    if part not in ("gateway", "other"):
        figures.add("temolunai_turns", 1, part=part)


def lines_of(path: str, at: int) -> Iterator[tuple[str, int]]:
    """The whole lines of a file from a place on, each with the place behind it."""
    with open(path, "rb") as it:
        it.seek(at)
        for line in it:
            if line.endswith(b"\n"):
                at += len(line)
                yield line[:-1].decode(errors="replace"), at


def read(path: str, parts: dict[str, str], figures: Figures) -> None:
    """Counts what the log has had since it was read last. A log that was moved to PATH.1 meanwhile is read to its end."""
    try:
        inode = os.stat(path).st_ino
    except OSError:
        return
    before = figures.only(READ)
    at = 0
    if before:
        labels, value = before
        if labels.get("inode") == str(inode):
            at = int(value) if value <= os.path.getsize(path) else 0
        elif os.path.exists(f"{path}.1") and labels.get("inode") == str(os.stat(f"{path}.1").st_ino):
            for line, _ in lines_of(f"{path}.1", int(value)):
                count(line, parts, figures)
    else:
        at = os.path.getsize(path)
    for line, at in lines_of(path, at):
        count(line, parts, figures)
    figures.drop(READ)
    figures.put(READ, at, inode=str(inode))
