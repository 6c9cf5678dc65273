"""A log that several replicas share: the history of one key of etcd.

A revision of the key has the entries that one replica put there together, and its `version` grows by one, without a
hole. Beside it stand, below the same prefix, `id/NAME` of each request for ten minutes, with its place among them,
`skip/N`, `replica/NAME` (where each stands), `backup` (the revision that the last backup has), `asked/PLACE/NAME`
and `first/PLACE` (what was answered first to this entry).
"""

import asyncio
import contextlib
import json
import time
from collections.abc import AsyncIterator
from typing import Any

from .entries import DIGEST, MESSAGE, Entry, packed, parted
from .etcd_calls import BROKEN, TRY, EtcdCalls, decoded, lines
from .faults import NoRoom, NotDone, Stopped, Unknown
from .journal import Journal
from .segments import Logged, Place, Record

# How long a request is known by its name; how long others are asked what was answered first, and how long where they
# speak and may be slow; in seconds.
NAMES_LIVE, ASKED, ASKED_WHO_SPEAKS = 600, 10.0, 60.0
# Where nothing comes of a watch for so long it is begun anew, in seconds.
SILENCE = 10.0
# What is put together at most: entries, and bytes. How many reads of the log's end are under way. They don't wait for
# more that would share one: with a millisecond of waiting a GET took 0.36 ms of processor in place of 0.58, and 16
# clients had 3,800 answers a second in place of 5,800. Nor is there a lease for reads: each acknowledgement would
# have to wait for the other two replicas.
MOST, WEIGHT, READS = 40, 400_000, 2
# Where so many groups of this replica are in the log and not done here, more wait for a moment, in seconds. Others
# come meanwhile and go with them: they would have to wait for the office anyway. So etcd takes 0.4 ms of processor for
# a POST in place of 1.0.
AHEAD, MOMENT = 2, 0.05
# The part of the quota that clients' entries may fill: the rest is for what the replicas tell one another, and for an
# operator's words and backups, which etcd's own alarm would refuse. etcd refuses by the size of its file, which has
# holes of about a third. So where much is in use it counts, too; what comes goes into half of the holes first.
FULL_AT, FILE_AT = 0.8, 0.85
BEHIND = "the log ends before what was done here: it is of another etcd, or of an older day"
Waiting = tuple[Entry, "asyncio.Future[Place]"]


def text(place: Place) -> str:
    """A place in the name of a key."""
    return f"{place[0]}.{place[1]}" if place[1] else f"{place[0]}"


def place_of(name: str) -> Place:
    """The place that a key's name begins with."""
    revision, _, index = name.partition("/")[0].partition(".")
    return int(revision), int(index or 0)


class EtcdLog(EtcdCalls):
    """Of the journal it looks at which entry was done last. `used` is what the log takes of `quota`, `file` the size
    of its file, `grown` what came to it since that was asked."""

    def __init__(self, url: str, prefix: str, tls: Any, name: str, members: int, quota: int, journal: Journal) -> None:
        super().__init__(url, prefix, tls)
        self.name, self.members, self.quota, self.journal = name, members, quota, journal
        self.skips: set[int] = set()
        self.lease, self.lease_ends = "", 0.0
        self.used = self.file = self.grown = 0
        # The version of the key at the group that was given on last, 0 until one was.
        self.version = 0
        # What waits to be put there, by its name, whether something is being put there, and the next read of the end.
        self.waiting: dict[str, Waiting] = {}
        self.is_sending, self.reading = False, asyncio.Semaphore(READS)
        self.next_read: asyncio.Future[int] | None = None
        # The groups that were put there and weren't done here yet, by their revisions, and who waits for that.
        self.ahead: list[int] = []
        self.is_done = asyncio.Event()

    async def granted(self) -> str:
        """A lease that lives as long as a request is known, or longer."""
        if time.monotonic() > self.lease_ends:
            self.lease = (await self.call("lease/grant", {"TTL": NAMES_LIVE + 90}))["ID"]
            self.lease_ends = time.monotonic() + 60
        return self.lease

    # -- what is put there

    def is_full(self) -> bool:
        """Whether it takes no more of what clients ask."""
        used, file = self.used + self.grown, self.file + max(0, 4 * self.grown // 3 - (self.file - self.used) // 2)
        return used > FULL_AT * self.quota or used > self.quota / 2 and file > FILE_AT * self.quota

    async def append(self, entry: Entry, skip: int = 0) -> Place:
        """The place of this entry, which is there once by its name for ten minutes. NotDone, or Unknown where it may be
        there. Those that come while others are being put there go together, in one transaction. An operator's word goes
        alone, so a pause ends a group, and no backup's position is within one; with it goes that `skip` is left out."""
        if entry.kind in (MESSAGE, DIGEST) and self.is_full():
            raise NoRoom("the log takes too much of etcd's quota")
        if entry.kind != MESSAGE:
            return (await self.put_together([entry], skip))[entry.name]
        if entry.name not in self.waiting:
            self.waiting[entry.name] = entry, asyncio.get_running_loop().create_future()
        done = self.waiting[entry.name][1]
        if not self.is_sending:
            self.is_sending = True
            asyncio.get_running_loop().create_task(self.send())
        return await asyncio.shield(done)

    def taken(self) -> list[Waiting]:
        """Those that wait, as many as go together."""
        group, weight = list[Waiting](), 0
        for name, it in list(self.waiting.items()):
            weight += len(it[0].body)
            if group and (len(group) == MOST or weight > WEIGHT):
                break
            group.append(self.waiting.pop(name))
        return group

    async def send(self) -> None:
        """Puts all there that waits, until nothing does."""
        while self.waiting:
            await self.is_near()
            group = self.taken()
            places, fault = dict[str, Place](), None
            try:
                places = await self.put_together([it for it, _ in group])
                self.ahead += {it for it, _ in places.values() if it > self.journal.last.revision}
            except (NotDone, Unknown, Stopped) as it:
                fault = it
            for entry, done in group:
                if done.cancelled():
                    continue
                if fault:
                    done.set_exception(fault)
                    done.exception()            # whoever waited may be away
                else:
                    done.set_result(places[entry.name])
        self.is_sending = False

    async def is_near(self) -> None:
        """Waits, where the office is far behind what was put there, for a moment at most."""
        with contextlib.suppress(TimeoutError):
            async with asyncio.timeout(MOMENT):
                while len(self.ahead) >= AHEAD:
                    self.is_done.clear()
                    await self.is_done.wait()

    def was_done(self, revision: int) -> None:
        """All up to this revision was done here."""
        self.ahead = [it for it in self.ahead if it > revision]
        self.is_done.set()

    async def put_together(self, entries: list[Entry], skip: int = 0) -> dict[str, Place]:
        """The places of these. Where some are there already, the others go without them. Nothing is taken where the
        log ends before what was done here: an etcd that was begun anew, or restored, counts anew."""
        lease, value = await self.granted(), packed([it.pack() for it in entries])
        reaches = {"key": self.key("log"), "target": "VERSION", "result": "GREATER", "version": self.version - 1}
        puts = [self.put_words(f"id/{it.name}", str(at).encode(), lease) for at, it in enumerate(entries)]
        puts += [self.put_words("log", value)] + ([self.put_words(f"skip/{skip}")] if skip else [])
        said = await self.call("kv/txn", {
            "compare": [*(self.absent(f"id/{it.name}") for it in entries), reaches],
            "success": [{"request_put": it} for it in puts],
            "failure": [{"request_range": {"key": self.key(f"id/{it.name}")}} for it in entries]},
            TRY + len(value) / 200_000)
        if said.get("succeeded"):
            return {it.name: (int(said["header"]["revision"]), at) for at, it in enumerate(entries)}
        found = dict[str, Place]()
        for it, reply in zip(entries, said["responses"]):
            for pair in reply["response_range"].get("kvs", ()):
                found[it.name] = int(pair["mod_revision"]), int(decoded(pair) or 0)
        if not found:
            raise Stopped(BEHIND)
        rest = [it for it in entries if it.name not in found]
        return {**found, **(await self.put_together(rest, skip) if rest else {})}

    # -- what is read of it

    async def head(self) -> int:
        """The revision of the last entry: none that was acknowledged before this call is behind it. Calls that come
        before a read begins share it."""
        if not self.next_read:
            self.next_read = asyncio.ensure_future(self.read_next())
        return await asyncio.shield(self.next_read)

    async def read_next(self) -> int:
        """Whoever comes from now on needs a later one."""
        async with self.reading:
            self.next_read = None
            return await self.read_head()

    async def read_head(self) -> int:
        """Linearizable, as each read is that doesn't say otherwise. Its header's revision is that of other keys."""
        last = self.journal.last.revision       # more may be done until etcd answers
        found = await self.get("log", keys_only=True) or [{"mod_revision": 0}]
        if int(found[0]["mod_revision"]) < last:
            raise Stopped(BEHIND)
        return int(found[0]["mod_revision"])

    async def groups_behind(self, last: Record) -> AsyncIterator[list[Logged]]:
        """All entries behind this one, for ever, those that were put there together at a time. It begins with what
        is left of this one's own group."""
        n, after, first = last.n, last.revision - 1 if last.revision else 0, last
        if not last.revision:
            yield []
        while True:
            try:
                async for version, revision, value in self.watched_behind(after):
                    index = self.follows(version, revision, first)
                    group = list[Logged]()
                    for at, it in list(enumerate(parted(value)))[index:]:
                        n += 1
                        group.append(Logged(n, revision, it, None, at))
                    after, self.version = revision, version
                    yield group
                    self.was_done(revision)
            except (NotDone, *BROKEN):
                await asyncio.sleep(0.1)

    def follows(self, version: int, revision: int, first: Record) -> int:
        """How many entries of this group were done already. The first group is that of the last entry that was done
        here, or the log's first; each other one follows the one before."""
        is_own = self.version == 0 and first.revision > 0
        if is_own and revision != first.revision or not is_own and version != self.version + 1:
            raise Stopped(f"revision {revision} of the log doesn't follow what was done here")
        return first.at + 1 if is_own else 0

    async def watched_behind(self, after: int) -> AsyncIterator[tuple[int, int, bytes]]:
        """The version, revision and bytes of each group behind this revision. It says many at once in a line. Where
        nobody takes what it says, it waits."""
        asked = {"create_request": {"key": self.key("log"), "start_revision": after + 1, "fragment": True}}
        async for line in lines(self.wire.watch("/v3/watch", json.dumps(asked).encode(), SILENCE)):
            for it in self.watched(json.loads(line).get("result", {"canceled": True})):
                self.grown += len(it[2])
                yield it

    @staticmethod
    def watched(said: dict[str, Any]) -> list[tuple[int, int, bytes]]:
        """The groups of what a watch says."""
        events = said.get("events", ())
        if "compact_revision" in said:
            raise Stopped(f"the log is compacted up to revision {said['compact_revision']}: a newer backup is wanted")
        if any(it.get("type") == "DELETE" for it in events):
            raise Stopped("the log was deleted")
        if said.get("canceled") and not events:
            raise OSError("canceled")
        return [(int(it["kv"]["version"]), int(it["kv"]["mod_revision"]), decoded(it["kv"])) for it in events]

    # -- what the replicas tell one another

    async def first_answer(self, place: Place, answer: bytes) -> tuple[bool, bytes]:
        """Whether it is known, and what was answered first to this entry, which this office may have done before. Where
        all have to ask, or none says it for long, no client was answered, and what is put first counts for all."""
        begun, name, said = time.monotonic(), text(place), dict[str, bytes]()
        until = begun + ASKED
        while True:
            try:
                await self.put(f"asked/{name}/{self.name}", lease=await self.granted())
                asking = await self.below(f"asked/{name}")
                others = {it: word for it, word in (await self.below("replica")).items() if it not in asking}
                if any(said.get(it, word) != word for it, word in others.items()):
                    until = min(time.monotonic() + ASKED, begun + ASKED_WHO_SPEAKS)
                said |= others
                if time.monotonic() > until or len(asking) == self.members:
                    await self.put_first(f"first/{name}", b"?" + answer)
                found = await self.get(f"first/{name}")
                if found:
                    return decoded(found[0])[:1] == b"+", decoded(found[0])[1:]
            except (NotDone, Unknown):
                pass                # etcd is away, and the replica is ill anyway
            await asyncio.sleep(0.1)

    async def tell_first(self, journal: Journal) -> None:
        """What others ask for, where it is known here."""
        for place in {place_of(it) for it in await self.below("asked")}:
            record = journal.by_place.get(place)
            if record and record.sure:
                await self.put_first(f"first/{text(place)}", b"+" + record.answer)

    async def put_first(self, name: str, value: bytes) -> None:
        """Sets a key where it isn't there."""
        put = {"request_put": self.put_words(name, value, await self.granted())}
        await self.call("kv/txn", {"compare": [self.absent(name)], "success": [put]})

    async def kept(self, revision: int) -> None:
        """So much may be compacted, once each member has it. Where not even that can be written, it is done at once:
        up to where each member has said that it stands."""
        try:
            await self.put("backup", str(revision).encode())
        except NoRoom:
            stand = [json.loads(it)["revision"] for it in (await self.below("replica")).values()]
            await self.compact(min([revision, *stand]))

    async def compact(self, revision: int) -> None:
        """Nothing before this revision is kept."""
        await self.call("kv/compaction", {"revision": revision}, 10)


