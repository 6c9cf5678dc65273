"""How the offices, their files, their disk and their backups are, as this machine shows it. No office is asked."""

import calendar
import os
import re
import time
from typing import Optional

from .figures import Figures

BACKUP = re.compile(r"([0-9]{4}-[0-9]{2}-[0-9]{2}T[0-9]{2}-[0-9]{2}-[0-9]{2})\.[0-9]+Z")
LISTENS = "0A"


def queues(text: str) -> dict[int, int]:
    """The ports on which this machine listens, each with how many wait there: /proc/net/tcp has them."""
    found = {}
    for line in text.splitlines()[1:]:
        words = line.split()
        if len(words) > 4 and words[3] == LISTENS:
            found[int(words[1].rpartition(":")[2], 16)] = int(words[4].rpartition(":")[2], 16)
    return found


def put_office(figures: Figures, part: str, port: int, waiting: dict[int, int], processes: str) -> None:
    """Whether it listens, how many wait, and since when its process runs; its turns are counted from then on."""
    figures.put("temolunai_office_listens", port in waiting, part=part)
    figures.put("temolunai_queue", waiting.get(port, 0), part=part)
    number = first_word(processes.replace("{}", part))
    figures.put("temolunai_office_runs", bool(number), part=part)
    began = begun(number) if number else None
    if began is not None and began != figures.get("temolunai_office_began_ticks", part=part):
        figures.put("temolunai_office_began_ticks", began, part=part)
        figures.put("temolunai_turns", 0, part=part)


def first_word(path: str) -> str:
    """The first word of a file, or nothing."""
    try:
        with open(path, encoding="ascii") as it:
            return (it.read().split() or [""])[0]
    except OSError:
        return ""


def begun(process: str) -> Optional[float]:
    """When a process began, in the kernel's ticks since the machine did."""
    try:
        with open(f"/proc/{process}/stat", encoding="ascii", errors="replace") as it:
            return float(it.read().rpartition(")")[2].split()[19])
    except (OSError, IndexError, ValueError):
        return None


def put_file(figures: Figures, part: str, file: str) -> None:
    """How large the file and its log are, and how much room the disk has."""
    for path, what in ((file, "file"), (f"{file}-wal", "log")):
        size = os.path.getsize(path) if os.path.exists(path) else 0
        figures.put("temolunai_file_bytes", size, part=part, what=what)
    folder = os.path.dirname(file)
    if os.path.isdir(folder):
        room = os.statvfs(folder)
        figures.put("temolunai_room_bytes", room.f_bavail * room.f_frsize, part=part)


def moment(name: str) -> float:
    """The time that the name of a backup says, in seconds."""
    found = BACKUP.fullmatch(name)
    return calendar.timegm(time.strptime(found[1], "%Y-%m-%dT%H-%M-%S")) if found else 0.0


def put_backups(figures: Figures, part: str, folder: str) -> None:
    """When the last backup was taken, when the last that the program has opened, and whether the last run failed."""
    names = [it for it in os.listdir(folder) if BACKUP.fullmatch(it)] if os.path.isdir(folder) else []
    opened = [it for it in names if os.path.exists(f"{folder}/{it}/opened")]
    figures.put("temolunai_backup_time_seconds", max(map(moment, names), default=0.0), part=part)
    figures.put("temolunai_backup_opened_time_seconds", max(map(moment, opened), default=0.0), part=part)
    figures.put("temolunai_backups", len(names), part=part)
    figures.put("temolunai_backup_failed", os.path.exists(f"{folder}/failed"), part=part)
