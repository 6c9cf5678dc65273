"""How much of etcd's quota the log takes, and what of it is compacted."""

import contextlib
import json
import math
import time
from argparse import Namespace

from .etcd_calls import decoded
from .etcd_log import EtcdLog
from .faults import Unknown
from .health import FULL, Health
from .journal import Journal
from .voices import Voices

# How often it is looked at and how often the log is compacted, in seconds. A member that is away is waited for as
# long as `drop_after` says, but no longer than this where the log takes more than half of the quota.
LOOK, COMPACT, SHORT_OF_ROOM = 2.0, 10.0, 60.0


class Room:
    """`given` are the words of the command line."""

    def __init__(self, given: Namespace, log: EtcdLog, journal: Journal, health: Health, voices: Voices) -> None:
        self.given, self.log, self.journal, self.health, self.voices = given, log, journal, health, voices
        self.compacted, self.looked = time.monotonic(), 0.0

    def is_due(self) -> bool:
        """Whether it should be looked at: for long it wasn't, or much has come since."""
        return time.monotonic() > self.looked + LOOK or self.log.grown > self.log.quota / 100

    async def look(self) -> None:
        """What is in use counts: the file of etcd stays as large as it was once."""
        self.looked = time.monotonic()
        said = await self.log.call("maintenance/status", {})
        self.log.file = int(said["dbSize"])
        self.log.used, self.log.grown = int(said.get("dbSizeInUse", self.log.file)), 0
        quota, part = self.given.quota, self.log.used / self.given.quota
        self.health.numbers.update(log_bytes=self.log.used, log_quota_bytes=quota, log_file_bytes=self.log.file)
        takes, is_full = f"the log takes {100 * part:.0f} % of etcd's quota", self.log.is_full()
        self.health.ails("room", takes if part > 0.5 else None, True)
        alarms = (await self.log.call("maintenance/alarm", {})).get("alarms", ())
        is_shut = any(it.get("alarm") == "NOSPACE" for it in alarms)
        why = "etcd takes nothing until it is defragmented and its alarm disarmed" if is_shut else takes
        self.health.ails(FULL, why if is_shut or is_full else None)
        if self.looked > self.compacted + (1.0 if is_full else COMPACT):
            self.compacted = time.monotonic()
            await self.keep_small(part > 0.5)

    async def keep_small(self, is_short: bool) -> None:
        """Compacts the log to what every member and the last backup have. A member that is away too long is not waited
        for: it comes back from a backup."""
        backup = await self.log.get("backup")
        self.health.ails("backup", None if backup else "there is no backup, so the log keeps growing", True)
        kept = int(decoded(backup[0])) if backup else 0
        self.health.numbers.update(backup_revision=kept)
        revisions = [self.journal.last.revision, kept]
        patience = min(self.given.drop_after, SHORT_OF_ROOM if is_short else math.inf)
        for name, (said, at) in self.voices.heard.items():
            is_dropped = time.monotonic() - at > patience
            self.health.ails(name, "away for too long: it comes back from a backup" if is_dropped else None, True)
            if not is_dropped:
                revisions.append(json.loads(said)["revision"] if said else 0)
        if min(revisions) > 0:
            with contextlib.suppress(Unknown):      # another replica did it, or it is tried again
                await self.log.compact(min(revisions))
