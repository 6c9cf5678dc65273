"""Who asks: by a session, a program's token, or a password."""

import asyncio
import base64
import hashlib
import hmac
import secrets
import time
from functools import partial
from typing import NamedTuple, Optional, Protocol

from .accounts import Account, Group, Kept, is_name
from .passwords import fits
from .tickets import Ticket, Tickets
from .tries import Tries
from .turns import Full, Turns

# How long a right password is known again without being hashed, in seconds.
REMEMBERED = 60


class Directory(Protocol):
    """Where a site keeps its users who have no account here."""

    def groups_of(self, name: str, password: str) -> tuple[str, ...]:
        """The groups of this user, where the password is right."""


class User(NamedTuple):
    """Who asks. Who is known by groups has what these may; anyone else what the gateway's own maps say."""

    name: str
    rights: Optional[Group] = None


class Found(NamedTuple):
    """Whose a right password is: since when it holds, and the groups of who has no account here."""

    since: int
    groups: tuple[str, ...] = ()


class Known(NamedTuple):
    """A password that was right: its digest under a key of this process, whose it is, and until when it is known."""

    digest: bytes
    found: Found
    until: float


class Spent(Exception):
    """So many wrong ones were tried that none is tried now."""


class Busy(Exception):
    """So many passwords wait to be hashed that this one can't."""


def tells(what: str, name: str, address: str) -> None:
    """A line of the journal: who came in, or didn't, from where. A name that is none isn't said: it may be anything."""
    print(f"login: {name if is_name(name) else '?'} from {address or '?'}: {what}", flush=True)


class Door:
    """Tells who asks, and lets nobody try passwords without end."""

    def __init__(self, accounts: Kept, tickets: Tickets, tries: Tries, directory: Optional[Directory] = None) -> None:
        self.accounts, self.tickets, self.tries, self.directory = accounts, tickets, tries, directory
        # A directory that doesn't answer holds up those alone who have no account here.
        self.turns, self.turns_of_directory = Turns(), Turns()
        self.secret = secrets.token_bytes(32)
        self.known: dict[str, Known] = {}
        self.asked: dict[tuple[str, bytes], "asyncio.Task[Optional[Found]]"] = {}

    def account(self, name: str) -> Optional[Account]:
        """The account of a name as the file has it now."""
        return self.accounts.now().users.get(name)

    def holds(self, name: str, found: Found) -> bool:
        """Whether what was right is so still: the account has the password, or there is a group with its rights."""
        account = self.account(name)
        if found.groups:
            return account is None and any(it in self.accounts.now().groups for it in found.groups)
        return account is not None and account.since == found.since

    def user(self, name: str, groups: tuple[str, ...]) -> User:
        """The user, with what its groups may now."""
        return User(name, self.accounts.now().rights_of(groups) if groups else None)

    def by_cookie(self, text: str) -> Optional[Ticket]:
        """The session of a cookie, where its user still has the password or the groups under which it began."""
        ticket = self.tickets.read(text, time.time())
        return ticket if ticket and self.holds(ticket.user, Found(ticket.since, ticket.groups)) else None

    async def looked(self, name: str, password: str, who: str) -> Optional[Found]:
        """Whose password it is: by the account, or where there is none by the site's directory."""
        accounts, directory = self.accounts.now(), self.directory
        account = accounts.users.get(name)
        if await self.turns.done(who, partial(fits, password, account, accounts)) and account:
            return Found(account.since)
        if account is None and directory and is_name(name):
            groups = await self.turns_of_directory.done(who, partial(directory.groups_of, name, password))
            held = tuple(it for it in groups if it in accounts.groups)
            return Found(0, held) if held else None
        return None

    async def tried(self, name: str, password: str, address: str, browser: str = "") -> Optional[Found]:
        """Whose password it is. Where it may not be tried, that is Spent, and where it can't be now, Busy."""
        known = self.tickets.knows(browser, name)
        if not self.tries.begin(name, address, time.monotonic(), known):
            tells("too many tries", name, address)
            raise Spent
        try:
            found = await self.looked(name, password, known or address)
        except Full:
            self.tries.take_back(name, address, known)
            tells("too many at once", name, address)
            raise Busy from None
        if found:
            self.tries.was_right(name, address, known)
        tells("in" if found else "wrong password", name, address)
        return found

    async def by_password(self, given: str, address: str) -> Optional[User]:
        """Whose name and password these are, as `Authorization: Basic` has them. It is hashed once a minute and user."""
        try:
            name, colon, password = base64.b64decode(given, validate=True).decode().partition(":")
        except ValueError:
            # No base64, no UTF-8, or letters that aren't ASCII.
            return None
        digest, known = hmac.new(self.secret, given.encode(), hashlib.sha256).digest(), self.known.get(name)
        if known and self.holds(name, known.found) and time.monotonic() < known.until \
                and hmac.compare_digest(known.digest, digest):
            return self.user(name, known.found.groups)
        if not colon:
            return None
        # Of many at once that say the same, one is tried.
        task = self.asked.get((name, digest))
        if task is None:
            task = asyncio.create_task(self.tried(name, password, address))
            self.asked[name, digest] = task
            task.add_done_callback(lambda _: self.asked.pop((name, digest), None))
        found = await asyncio.shield(task)
        if not found:
            return None
        self.known[name] = Known(digest, found, time.monotonic() + REMEMBERED)
        return self.user(name, found.groups)

    async def who(self, authorization: str, cookie: str, address: str) -> Optional[User]:
        """Who asks. A word that comes with the request counts before the browser's cookie."""
        scheme, _, given = authorization.partition(" ")
        if scheme.lower() == "basic":
            return await self.by_password(given.strip(), address)
        if scheme.lower() == "bearer":
            name = self.accounts.now().user_of(given.strip(), time.time())
            return User(name) if name else None
        ticket = self.by_cookie(cookie) if not authorization else None
        return self.user(ticket.user, ticket.groups) if ticket else None
