"""Gives the entries of the log to the office of this replica, one after another, and keeps what it answers."""

import asyncio
import hashlib
import json
import re
import time

from .entries import DIGEST, MESSAGE, PAUSE, SKIP, Entry
from .etcd_log import EtcdLog
from .faults import UNAVAILABLE, NotDone, Stopped, Unknown, answer_of, may_come_again, status_of
from .file_log import FileLog
from .health import Health
from .journal import Journal
from .office import SLOW, Office
from .segments import LAST, Logged, Place

# Both have the same calls.
Log = EtcdLog | FileLog

# How long a client waits at most until its entry was done here, in seconds. The gateway waits for three, and asks
# elsewhere.
PATIENCE = 2.5
# What a digest is of, besides days.
TABLES = ["tapes", "clips", "offers", "lent"]
PAUSED, DONE = answer_of(200, {"paused": True}), answer_of(200, {"done": True})


class Applier:
    """`turn` is held while an entry is being done: who holds it finds office and journal at the same entry."""

    def __init__(self, log: Log, journal: Journal, office: Office, health: Health) -> None:
        self.log, self.journal, self.office, self.health = log, journal, office, health
        self.turn = asyncio.Lock()
        # Up to where all was done, and who waits for a place, and until when.
        self.stands: Place = journal.last.place() if journal.last.revision else (0, LAST)
        self.marks: dict[Place, tuple[float, asyncio.Future[None]]] = {}
        # Behind a pause nothing is done until an operator says so, who may have put another program in its place.
        self.goes_on = asyncio.Event()
        # Nobody reads while the office may be ahead of the journal, or behind it.
        self.is_certain = not health.others and journal.entries == journal.last.n
        # The days in whose name something was changed since the last digest, by channel.
        self.named: dict[int, set[int]] = {}
        self.pause(journal.last.answer == PAUSED)

    def pause(self, is_paused: bool) -> None:
        """Whether nothing is to be done."""
        self.health.ails("pause", "the log says so" if is_paused else None)
        (self.goes_on.clear if is_paused else self.goes_on.set)()

    async def run(self) -> None:
        """Until the replica is stopped."""
        async for group in self.log.groups_behind(self.journal.last):
            await (self.goes_on.wait() if group else asyncio.sleep(0))
            if self.health.stopped:
                return
            async with self.turn:
                for it in group:
                    await self.apply(it)
            # Nothing more has this revision.
            self.stands = self.journal.last.revision, LAST
            asyncio.get_running_loop().call_soon(self.tell)

    async def apply(self, it: Logged) -> None:
        """Does an entry."""
        if it.n != self.journal.last.n + 1:
            raise Stopped(f"entry {it.n} of the log comes behind entry {self.journal.last.n}")
        entry = it.entry or Entry.unpack(it.value)
        self.journal.clock.saw(entry.time)
        self.journal.is_busy = True
        self.journal.gives(it.n)
        sure, answer = await self.answer_to(it, entry)
        while fault := self.journal.answered(it, sure, answer):
            self.health.ails("journal", str(fault))     # however long the disk is full
            await asyncio.sleep(0.2)
        self.health.ails("journal", None)
        self.journal.is_busy = False
        self.is_certain, self.stands = True, self.journal.last.place()
        if entry.kind == PAUSE:
            self.pause(True)
        asyncio.get_running_loop().call_soon(self.tell)

    def tell(self) -> None:
        """Those who wait for what is done, once the office has the next entry."""
        for place in [it for it in self.marks if it <= self.stands]:
            self.marks.pop(place)[1].set_result(None)

    async def until(self, place: Place) -> None:
        """Waits until all up to this place was done here. Unknown where that takes too long."""
        if place > self.stands:
            loop = asyncio.get_running_loop()
            await self.marks.setdefault(place, (loop.time() + PATIENCE, loop.create_future()))[1]

    async def watch(self) -> None:
        """Sends away who has waited for too long, or where this replica is ill and another one may have done it. An
        office that says nothing for long is as good as dead. New entries that wait for a long answer are written
        before it."""
        while True:
            await asyncio.sleep(0.25)
            if self.journal.is_busy:
                self.journal.flush()
            since = self.office.waits_since()
            waits = time.monotonic() - since
            why = f"the office says nothing for {waits:.0f} s" if waits > SLOW else None
            self.health.ails("hangs", why, since=since)
            is_elsewhere, now = self.health.is_elsewhere(), asyncio.get_running_loop().time()
            for place in [it for it, (end, _) in self.marks.items() if is_elsewhere or now > end]:
                waiting = self.marks.pop(place)[1]
                waiting.set_exception(Unknown(f"not done here yet: {self.health.why()}"))
                waiting.exception()             # whoever waited may be away

    # -- what an entry does

    async def answer_to(self, it: Logged, entry: Entry) -> tuple[bool, bytes]:
        """Whether it is the first answer, and the answer."""
        if entry.kind == MESSAGE:
            sure, answer = await self.message(it, entry)
            if self.health.others and status_of(answer) == 200:
                self.named.setdefault(entry.channel(), set()).add(entry.day())
            return sure, answer
        if entry.kind == DIGEST:
            return True, await self.digest(it.n, entry)
        done = self.journal.by_n.get(int(entry.path)) if entry.kind == SKIP else None
        if done and done.answer != UNAVAILABLE:
            raise Stopped(f"entry {done.n} was done here, and is left out by the others")
        return True, PAUSED if entry.kind == PAUSE else DONE

    async def message(self, it: Logged, entry: Entry) -> tuple[bool, bytes]:
        """Where it may have been done before, its first answer is looked for."""
        again, answer = await self.asked(it.n, "POST", entry.path, entry.body)
        if not (again or it.n == self.journal.doubtful) or not may_come_again(answer):
            return True, answer
        self.health.ails("answer", f"the first answer to entry {it.n} is asked of the others")
        first = await self.log.first_answer((it.revision, it.at), answer)
        self.health.ails("answer", None)
        return first

    async def asked(self, n: int, method: str, path: str, body: bytes = b"") -> tuple[bool, bytes]:
        """Whether the office may have done it before, and what it answers, however long that takes. What it answered
        503 it has not done, unless it was stopped behind that. 503 is the answer where an operator has it left out."""
        again, refused_by = False, 0
        while n not in self.log.skips:
            try:
                _, answer = await self.office.ask(method, path, body, n if method == "POST" else 0)
                again = again or refused_by not in (0, self.office.connections)
                if status_of(answer) != 503:
                    self.health.ails("office", None)
                    return again, answer
                refused_by, fault = self.office.connections, "the office answers 503"
            except NotDone as it:
                fault = str(it)
            except Unknown as it:
                again, fault = True, str(it)
            self.is_certain = False
            self.health.ails("office", f"entry {n}: {fault}")
            await asyncio.sleep(0.1)
        self.health.ails("office", None)
        return False, UNAVAILABLE

    async def digest(self, n: int, entry: Entry) -> bytes:
        """A sum of what the entry names of a channel. Entries of before name days, and mean all tables besides."""
        names: list[str] = json.loads(entry.body)
        if not names or not isinstance(names[0], str):
            names = TABLES + [f"days/{day}{it}" for day in names for it in ("", "/match")]
        days = {int(it) for it in re.findall(r"days/([0-9]+)", str(names))}
        self.named.get(entry.channel(), set()).difference_update(days)
        said = [(await self.asked(n, "GET", f"/ch/{entry.channel()}/{name}"))[1] for name in names]
        digest = hashlib.sha256(b"".join(said)).hexdigest()
        return UNAVAILABLE if UNAVAILABLE in said else answer_of(200, {"digest": digest})
