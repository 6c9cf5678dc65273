"""The journal of a replica: what its office was given and what it answered, on the disk before anybody is told."""

import fcntl
import os
import time

from .entries import Clock, Entry
from .faults import NotDone, Stopped, Unknown
from .segments import Logged, Place, Record, next_sum, position_of, read, segments, whole

# Answers that are kept in memory, the size at which a segment ends, and the zeros that are behind its lines.
REMEMBERED, SEGMENT, ROOM = 100_000, 16 << 20, 1 << 18


class Journal:
    """`boot` names the time since this machine was begun: what was written within it is there, though it wasn't
    synced."""

    def __init__(self, folder: str, keep_days: float = 0, boot: str = "") -> None:
        self.folder, self.keep_days, self.clock = folder, keep_days, Clock()
        # Whether the office is doing an entry, and how often the disk was had to sync.
        self.is_busy, self.syncs = False, 0
        # A second process over this journal would give its office each entry twice.
        self.lock = os.open(folder, os.O_RDONLY)
        try:
            fcntl.flock(self.lock, fcntl.LOCK_EX | fcntl.LOCK_NB)
        except OSError as fault:
            raise Stopped(f"another process has the journal of {folder}") from fault
        self.load()
        # The entry that the office may have been given before. The file has which it was given last.
        self.boot, self.given = boot, os.open(f"{folder}/given", os.O_RDWR | os.O_CREAT, 0o600)
        is_sure = boot and os.pread(self.given, 100, 0) == f"{self.last.n} {boot}\n".encode()
        self.doubtful = 0 if is_sure else self.last.n + 1

    def load(self) -> None:
        """Reads the newest segments: two at least, and as many as have the entries that weren't answered."""
        paths = segments(self.folder)
        if not paths:
            raise Stopped(f"there is no journal in {self.folder}: deploy/begin makes one")
        for first in range(max(0, len(paths) - 2), -1, -1):
            self.read(paths[first:])
            if max(self.loaded, default=0) <= self.last.n or self.last.n + 1 in self.loaded:
                break
        self.entries: int = max([self.last.n, *self.loaded])
        if self.loaded:
            self.clock.saw(Entry.unpack(self.loaded[max(self.loaded)]).time)
        self.open_segment(paths[-1])
        os.fsync(self.file)

    def read(self, paths: list[str]) -> None:
        """Takes the records of these segments, and the entries as `loaded`."""
        self.last, self.loaded = position_of(paths[0]), dict[int, bytes]()
        self.by_n, self.by_place = dict[int, Record](), dict[Place, Record]()
        for path in paths:
            for it in read(path):
                if isinstance(it, Logged):
                    self.loaded[it.n] = it.value
                elif it.n != self.last.n + 1:
                    raise Stopped(f"{path}: entry {it.n} comes behind entry {self.last.n}")
                else:
                    goes_on = it.revision == self.last.revision
                    self.remember(it._replace(at=self.last.at + 1) if goes_on else it)

    def remember(self, record: Record) -> None:
        """Makes it the last one."""
        self.last = self.by_n[record.n] = self.by_place[record.place()] = record
        if len(self.by_n) > REMEMBERED:
            oldest = self.by_n.pop(next(iter(self.by_n)))
            self.by_place.pop(oldest.place(), None)

    def open_segment(self, path: str) -> None:
        """Writes behind what is there."""
        self.file = os.open(path, os.O_RDWR | os.O_CREAT, 0o600)
        self.size: int = len(whole(path))
        self.cut()

    def put_at(self, data: bytes) -> None:
        """Behind the last line."""
        if os.pwrite(self.file, data, self.size) < len(data):
            raise OSError("there is no room")

    def cut(self) -> None:
        """Takes back what lies behind the last line."""
        self.room = self.size
        os.ftruncate(self.file, self.size)

    # -- what is written

    def gives(self, n: int) -> None:
        """That the office is being given entry n. A stop of this process leaves that, a loss of power may not."""
        os.pwrite(self.given, f"{n} {self.boot}\n".encode(), 0)

    def answered(self, it: Logged, sure: bool, answer: bytes) -> Exception | None:
        """Makes it the last record, once it is on the disk, with the entry where that isn't there. Else why not."""
        total = next_sum(self.last.sum, it.n, it.revision, it.value, answer, sure)
        record = Record(it.n, it.revision, total, sure, answer, it.at)
        # Entries that were put into the log together are in one segment.
        fault = self.flush((it.line() if it.n > self.entries else b"") + record.line(), it.at == 0)
        if not fault:
            self.entries = max(self.entries, it.n)
            self.remember(record)
        return fault

    def flush(self, made: bytes = b"", rotates: bool = False) -> Exception | None:
        """Writes and syncs these lines, or leaves the segment as it was. They have room that is on the disk already, so
        that a sync has nothing else to write, neither a length nor a place: 71 µs in place of 91, and of the slowest
        tenth 82 in place of 203. All else waits meanwhile, since nothing may be given to the office before that: one
        entry at most is in doubt, as the law of what is sent again speaks of one."""
        kind: type[Exception] = NotDone
        try:
            if rotates and self.size > SEGMENT:
                self.rotate()
            if self.size + len(made) > self.room:
                self.put_at(bytes(len(made) + ROOM))
                os.fsync(self.file)
                self.syncs += 1
                self.room = self.size + len(made) + ROOM
            self.put_at(made)
            kind = Unknown                  # nobody knows what the disk has of it
            os.fdatasync(self.file)
            self.syncs += 1
        except OSError as fault:
            self.cut()
            return kind(f"journal: {fault}")
        self.size += len(made)
        return None

    def open_lines(self) -> bytes:
        """The entries that are written and have no answer yet: a segment has the entry of each of its answers."""
        return b""

    def rotate(self) -> None:
        """Begins a segment, where an answer came since the last. Removes those that are older than the site keeps."""
        path, old = f"{self.folder}/journal-{self.last.n:020}", self.file
        if os.path.exists(path):
            return
        with open(path + ".new", "wb") as file:
            file.write(self.last.position() + self.open_lines())
            file.flush()
            os.fsync(file.fileno())
        self.cut()
        os.fsync(old)
        os.rename(path + ".new", path)
        self.open_segment(path)
        os.close(old)
        os.fsync(self.lock)
        for it in segments(self.folder)[:-2] if self.keep_days else []:
            if os.stat(it).st_mtime < time.time() - 86_400 * self.keep_days:
                os.remove(it)
