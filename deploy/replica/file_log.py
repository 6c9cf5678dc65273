"""A log on this machine's own disk: the journal is the log, and has each entry before its answer."""

import asyncio
from collections.abc import AsyncIterator

from .entries import SKIP, Entry
from .journal import Journal
from .segments import Logged, Place, Record

# So many requests are known by their names.
KNOWN = 500_000


class FileLog(Journal):
    """The revision of an entry is its number. All else is as of the log in etcd."""

    def __init__(self, folder: str, keep_days: float = 0, boot: str = "") -> None:
        super().__init__(folder, keep_days, boot)
        # New entries that aren't written yet, those that are and weren't done, and the entry that a request is.
        self.waiting: dict[str, tuple[Logged, asyncio.Future[int]]] = {}
        self.arrived: asyncio.Queue[Logged] = asyncio.Queue()
        self.known: dict[str, int | asyncio.Future[int]] = {}
        self.skips: set[int] = set()
        # Those that are written and have no answer.
        self.open = dict[int, Logged]()
        for n, value in sorted(self.loaded.items()):
            entry = Entry.unpack(value)
            self.known[entry.name] = n
            self.skips |= {int(entry.path)} if entry.kind == SKIP else set()
            if n > self.last.n:
                self.open[n] = Logged(n, n, value)
                self.arrived.put_nowait(self.open[n])
        self.loaded.clear()
        self.doubtful = self.last.n + 1 if self.entries > self.last.n else 0

    def gives(self, n: int) -> None:
        """That the entry is there says enough."""

    def open_lines(self) -> bytes:
        """Those of the entries whose answers will be in the next segment."""
        return b"".join(it.line() for it in self.open.values())

    def answered(self, it: Logged, sure: bool, answer: bytes) -> Exception | None:
        """As of any journal."""
        fault = super().answered(it, sure, answer)
        if not fault:
            self.open.pop(it.n, None)
        return fault

    async def append(self, entry: Entry, skip: int = 0) -> Place:
        """On the disk before it is given on. While the office is busy it waits for the answer, so that one sync does
        for both. What comes again meanwhile waits for the first."""
        if entry.name not in self.known:
            loop = asyncio.get_running_loop()
            if not self.is_busy and not self.waiting:
                loop.call_soon(self.flush)
            n, done = self.entries + len(self.waiting) + 1, loop.create_future()
            self.known[entry.name] = done
            self.waiting[entry.name] = Logged(n, n, entry.pack(), entry), done
        known = self.known[entry.name]
        n = known if isinstance(known, int) else await known
        self.skips |= {skip} - {0}
        return n, 0

    def flush(self, made: bytes = b"", rotates: bool = False) -> Exception | None:
        """Besides these lines all entries that wait. Where a write failed they may come again, and leave no hole."""
        batch, self.waiting = self.waiting, {}
        fault = super().flush(made + b"".join(it.line() for it, _ in batch.values()), rotates)
        if not fault:
            self.entries += len(batch)
            self.open.update({it.n: it for it, _ in batch.values()})
        # The office has its next entry before that.
        asyncio.get_running_loop().call_soon(self.tell, batch, fault)
        return fault

    def tell(self, batch: dict[str, tuple[Logged, asyncio.Future[int]]], fault: Exception | None) -> None:
        """Those who wait for what was written."""
        for name, (it, done) in batch.items():
            if fault:
                del self.known[name]
                done.set_exception(fault)
            else:
                self.known[name] = it.n
                self.arrived.put_nowait(it)
                done.set_result(it.n)
        while len(self.known) > KNOWN:
            del self.known[next(iter(self.known))]

    async def head(self) -> int:
        """What was acknowledged was done by this machine's office, so no read has to wait."""
        return self.last.revision

    async def groups_behind(self, last: Record) -> AsyncIterator[list[Logged]]:
        """Those that weren't done before the last stop come first."""
        yield []
        while True:
            yield [await self.arrived.get()]

    async def first_answer(self, place: Place, answer: bytes) -> tuple[bool, bytes]:
        """Nobody else knows."""
        return False, answer

    async def kept(self, revision: int) -> None:
        """The journal is kept for as long as the site says."""
