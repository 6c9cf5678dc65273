"""What is asked of a replica: by the gateway on its own addresses, by an operator on a socket of its folder."""

import asyncio
import re
import ssl
import uuid
from collections.abc import Awaitable, Callable
from functools import partial

from .applier import Applier, Log
from .entries import LOGGED, MESSAGE, PAUSE, SKIP, Entry, name_of
from .faults import (
    ASK_AGAIN, NO_ANSWER, NOT_FOUND, NOT_IMPLEMENTED, UNAVAILABLE, NotDone, Stopped, Unknown, answer_of, refusal, said,
)
from .health import FULL, Health
from .journal import Journal
from .segments import LAST, Record
from .wire import Caller, Request

# How long a backup may hold the entries up, in seconds.
LONGEST_HOLD = 30.0
# What else is asked of an office has this form, or no route.
READ = re.compile(r"[A-Z]{1,10} /[A-Za-z0-9/._-]{0,250}")

# The entry behind which it was answered, and the answer.
Told = tuple[int, bytes]
Ask = Callable[[Request], Awaitable[Told]]


class Door:
    """`held` is where a backup is being taken."""

    def __init__(self, log: Log, journal: Journal, applier: Applier, health: Health) -> None:
        self.log, self.journal, self.applier, self.health = log, journal, applier, health
        self.held: Record | None = None
        # Kept, since a loop of another kind ends a server that nobody has.
        self.servers: list[asyncio.AbstractServer] = []

    async def open(self, addresses: list[str], tls: ssl.SSLContext | None, operator: str) -> None:
        """An address is HOST:PORT, or tls:HOST:PORT for the gateway of another machine."""
        loop = asyncio.get_running_loop()
        self.servers.append(await loop.create_unix_server(lambda: Caller(partial(self.serve, self.operator)), operator))
        for address in addresses:
            host, port = address.removeprefix("tls:").rsplit(":", 1)
            self.servers.append(await loop.create_server(
                lambda: Caller(partial(self.serve, self.client)), host, int(port), backlog=512,
                ssl=tls if address.startswith("tls:") else None))

    async def serve(self, ask: Ask, request: Request) -> bytes:
        """Each answer is the office's, or a refusal in its form. Why is told in a field, which the gateway hides."""
        n, fault = 0, ""
        try:
            if request.method == "GET" and request.path in ("/health", "/metrics"):
                return self.told() if request.path == "/health" else self.metrics()
            n, answer = await ask(request)
        except (NotDone, Stopped) as it:
            answer, fault = UNAVAILABLE, str(it)
        except Unknown as it:       # what isn't a POST has changed nothing
            answer, fault = ASK_AGAIN if request.method == "POST" else UNAVAILABLE, str(it)
        head, _, rest = answer.partition(b"\r\n\r\n")
        fields = f"\r\nReplica-Entry: {n}\r\nReplica-Fault: {re.sub('[^ -~]', ' ', fault)[:200]}\r\n\r\n"
        return head + fields.encode() + (b"" if request.method == "HEAD" else rest)

    def told(self) -> bytes:
        """For whoever watches."""
        last = self.journal.last
        state = {"n": last.n, "revision": last.revision, "sum": last.sum, "waiting": len(self.applier.marks)}
        return answer_of(503 if self.health.why() else 200, {**self.health.state(), **state})

    def metrics(self) -> bytes:
        """The same as numbers, in the form of Prometheus."""
        found = {"ill": int(bool(self.health.why())), "stopped": int(bool(self.health.stopped)),
                 "differ": sum(not it for it in self.health.agrees.values()), "entry": self.journal.last.n,
                 "full": int(FULL in self.health.ills), "no_backup": int("backup" in self.health.warnings),
                 "waiting": len(self.applier.marks), "syncs_total": self.journal.syncs, **self.health.numbers}
        return said(200, "".join(f"temolunai_replica_{name} {value}\n" for name, value in found.items()), "text/plain")

    # -- clients

    async def client(self, request: Request) -> Told:
        """What changes rows is an entry of the log; all else goes past it. Nothing is tried for long here, since the
        gateway asks others, and asks again."""
        is_post, is_stale = request.method == "POST", request.fields.get("Stale") == "1"
        if self.health.stopped or self.health.is_elsewhere() and not is_stale or is_post and self.health.is_long_ill():
            raise NotDone(self.health.why())
        if is_post and LOGGED.fullmatch(request.path):
            return await self.post(request)
        if not READ.fullmatch(f"{request.method} {request.path}"):
            return 0, NOT_FOUND if request.method in ("GET", "POST") else NOT_IMPLEMENTED
        if not is_stale:
            await self.applier.until((await self.log.head(), LAST))
        if not self.applier.is_certain:
            raise NotDone(f"the office may be ahead of the journal: {self.health.why()}")
        return await self.applier.office.read(request.method, request.path, request.body)

    async def post(self, request: Request) -> Told:
        """An entry of the log, whose answer is in the journal before it is told. Nobody may know what it was."""
        if not self.applier.goes_on.is_set():
            raise NotDone(self.health.why())
        user, identity = request.fields.get("Request-User", ""), request.fields.get("Request-Id") or uuid.uuid4().hex
        name = name_of(user, identity, request.path, request.body)
        place = await self.log.append(Entry(MESSAGE, request.path, request.body, user, self.journal.clock.now(), name))
        await self.applier.until(place)
        record = self.journal.by_place.get(place)
        return (record.n, record.answer) if record and record.sure else (0, NO_ANSWER)

    # -- operators

    async def operator(self, request: Request) -> Told:
        """The words of an operator, on the socket that root alone may open. What all replicas obey is an entry."""
        found = re.fullmatch(r"/(pause|resume|hold|release|skip|kept)(?:/([0-9]{1,18}))?", request.path)
        if request.method != "POST" or not found or (found[1] in ("skip", "kept")) != bool(found[2]):
            return 0, NOT_FOUND
        word, number = found[1], int(found[2] or 0)
        if word == "hold":
            return await self.hold()
        if word == PAUSE or word == SKIP and number == self.journal.last.n + 1:     # at which this replica stands
            entry = Entry(word, found[2] or "", b"", "operator", self.journal.clock.now(), uuid.uuid4().hex)
            await self.log.append(entry, number)
        elif word == "resume":
            self.applier.pause(False)
        elif word == "release" and self.held:
            self.give_back(self.held)
        elif word == "kept" and number <= self.journal.last.revision:
            await self.log.kept(number)
        else:
            return 0, refusal(409, "NotNow")
        return self.journal.last.n, answer_of(200, {"done": word})

    async def hold(self) -> Told:
        """Nothing is done from now on until it is released, so that the office's file may be copied. Two at a time are
        refused."""
        try:
            await asyncio.wait_for(self.applier.turn.acquire(), 10)
        except asyncio.TimeoutError as fault:
            raise NotDone("an entry is being done") from fault
        self.held = self.journal.last
        self.health.ails("backup", "a backup is being taken")
        asyncio.get_running_loop().call_later(LONGEST_HOLD, self.give_back, self.held)
        return self.held.n, answer_of(200, {"position": self.held.position().decode().strip()})

    def give_back(self, held: Record) -> None:
        """Goes on, where this is still the hold."""
        if self.held is held:
            self.held = None
            self.applier.turn.release()
            self.health.ails("backup", None)
