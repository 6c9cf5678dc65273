"""What the replicas of one log tell one another: where each stands, its running sum, and what was answered first."""

import asyncio
import contextlib
import json
import time
from argparse import Namespace

from .applier import Applier
from .etcd_log import EtcdLog
from .faults import NoRoom, NotDone, Unknown
from .health import Health
from .journal import Journal
from .room import Room
from .segments import LAST
from .voices import SILENT, Voices

# How often they tell, in seconds.
TELL = 0.5


class Members:
    """`given` are the words of the command line."""

    def __init__(self, given: Namespace, log: EtcdLog, journal: Journal, applier: Applier, health: Health) -> None:
        self.log, self.journal, self.applier, self.health = log, journal, applier, health
        self.voices = Voices(given.members.split(","), journal, health)
        self.room = Room(given, log, journal, health, self.voices)
        # Where the log ended as this replica began.
        self.goal = -1

    async def run(self) -> None:
        """Until the replica is stopped."""
        while not self.health.stopped:
            begun = time.monotonic()
            try:
                await self.round()
                self.health.ails("etcd", None)
            except (NotDone, Unknown) as fault:
                self.health.ails("etcd", str(fault), since=begun)
            await asyncio.sleep(TELL if "start" not in self.health.ills else 0.05)

    async def round(self) -> None:
        """Says where this replica stands, hears where the others do, and tells what was answered first."""
        head, last = await self.log.head(), self.journal.last
        self.goal = head if self.goal < 0 else self.goal
        is_there = self.applier.stands >= (self.goal, LAST) or not self.applier.goes_on.is_set()
        if "start" in self.health.ills and is_there:
            self.applier.is_certain = True
            self.health.ails("start", None)
        state = {"n": last.n, "revision": last.revision, "sum": last.sum, "at": self.journal.clock.now()}
        with contextlib.suppress(NoRoom):           # who reads is answered all the same
            await self.log.put(f"replica/{self.health.name}", json.dumps(state).encode())
            await self.log.tell_first(self.journal)
        for name, said in (await self.log.below("replica")).items():
            if name != self.health.name:
                self.voices.hear(name, said)
        self.voices.judge()
        now = time.monotonic()
        furthest = max([last.n, *(json.loads(it)["n"] for it, _ in self.voices.heard.values() if it)])
        silent = sum(now - at > SILENT for _, at in self.voices.heard.values())
        self.health.numbers.update(silent=silent, behind=furthest - last.n)
        self.log.skips = {int(it) for it in await self.log.below("skip")}
        if self.room.is_due():
            await self.room.look()
