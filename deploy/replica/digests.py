"""Each hour the replicas of one log sum the rows of each channel, each from its own office: in slices, between
entries."""

import asyncio
import json
import time

from .applier import TABLES, Applier
from .entries import DIGEST, Entry, name_of
from .etcd_log import EtcdLog
from .faults import NotDone, Unknown, status_of
from .health import Health

# What one entry sums at most, and how long the others have it to themselves behind that, in seconds.
SLICE, PAUSE_BETWEEN = 16, 0.05


def slices(days: set[int]) -> list[list[str]]:
    """What is summed of a channel: its tables, each by itself, and the plans and matches of these days."""
    named = [f"days/{day}{it}" for day in sorted(days - {0}) for it in ("", "/match")]
    return [[it] for it in TABLES] + [named[at:at + SLICE] for at in range(0, len(named), SLICE)]


class Digests:
    """Who proposes an entry is no matter, since by its name it is there once."""

    def __init__(self, every: float, log: EtcdLog, applier: Applier, health: Health) -> None:
        self.every, self.log, self.applier, self.health = every, log, applier, health

    async def run(self) -> None:
        """Until the replica is stopped. The numbers of channels end with 999."""
        while not self.health.stopped:
            await asyncio.sleep(self.every - time.time() % self.every)
            hour = f"digest {time.time() // self.every:.0f}"
            try:
                for channel in range(1, 1000):
                    if status_of((await self.applier.office.read("GET", f"/ch/{channel}/days/1"))[1]) != 404:
                        await self.propose(channel, hour)
            except (NotDone, Unknown) as fault:
                self.health.tell(f"no {hour}: {fault}")

    async def propose(self, channel: int, hour: str) -> None:
        """Each slice once the one before it was done here."""
        path = f"/ch/{channel}/days/1"
        for at, names in enumerate(slices(self.applier.named.get(channel, set()))):
            body, name = json.dumps(names).encode(), name_of("", f"{hour} {at}", path, b"")
            place = await self.log.append(Entry(DIGEST, path, body, "", self.applier.journal.clock.now(), name))
            await self.applier.until(place)
            await asyncio.sleep(PAUSE_BETWEEN)
