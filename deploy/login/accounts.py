"""The accounts: the hash of each user's password, and of each program's token; and what groups of a site's own sign-on may.
One file, which deploy/users writes."""

import grp
import hashlib
import json
import os
import re
import secrets
import tempfile
from typing import NamedTuple, Optional

NAME = re.compile(r"[a-z0-9][a-z0-9._-]{0,31}")
# Words of nginx's in a map. A line that began with one would be no user's, and the gateway would take no further change.
WORDS_OF_MAPS = ("default", "hostnames", "include", "volatile")
READS, WATCHES = "reads", "watches"
# The group of the login service, where this machine has one: it reads the file, and doesn't write it.
READER = "temolunai-login"
# What a scrypt of a password costs: 2 ** COST times 8 blocks of 128 bytes, which is 16 MB.
COST = 14


class Unreadable(Exception):
    """A file that holds no accounts."""


class Account(NamedTuple):
    """A user. `since` is the second from which the password holds: a session of an earlier one is over."""

    password: str
    since: int


class Token(NamedTuple):
    """A program's word, by which it asks as its user; until a second, where one is said."""

    user: str
    what: str
    made: str
    until: int = 0


class Group(NamedTuple):
    """What the members of a group may who have no account here: these channels, in this role, where it has one."""

    channels: tuple[int, ...]
    role: str = ""


class Accounts(NamedTuple):
    """All of them. Tokens stand by the SHA-256 of what the program says: it is 256 random bits, so that is enough."""

    cost: int
    users: dict[str, Account]
    tokens: dict[str, Token]
    groups: dict[str, Group] = {}

    def user_of(self, token: str, now: float = 0) -> Optional[str]:
        """Whose token this is."""
        found = self.tokens.get(sum_of(token))
        good = found and found.user in self.users and (not found.until or now < found.until)
        return found.user if found and good else None

    def rights_of(self, names: tuple[str, ...]) -> Group:
        """What the members of all of these groups may. Who is in one that may change something isn't one who reads alone."""
        held = [self.groups[it] for it in names if it in self.groups]
        channels = tuple(sorted({channel for it in held for channel in it.channels}))
        roles = {it.role for it in held}
        role = WATCHES if WATCHES in roles else READS if roles == {READS} else ""
        return Group(channels, role)


def is_name(text: str) -> bool:
    """Whether a user may be called so."""
    return bool(NAME.fullmatch(text)) and text not in WORDS_OF_MAPS


def none() -> Accounts:
    """A file's beginning."""
    return Accounts(COST, {}, {}, {})


def sum_of(token: str) -> str:
    """What is kept of a token."""
    return hashlib.sha256(token.encode(errors="replace")).hexdigest()


def new_token() -> str:
    """256 random bits, as 43 letters, digits, - and _."""
    return secrets.token_urlsafe(32)


def read(path: str) -> Accounts:
    """The accounts of a file."""
    try:
        with open(path, encoding="utf-8") as it:
            given = json.load(it)
        users = {name: Account(str(of["password"]), int(of["since"])) for name, of in given["users"].items()}
        tokens = {sha: Token(str(of["user"]), str(of["what"]), str(of["made"]), int(of.get("until", 0)))
                  for sha, of in given["tokens"].items()}
        groups = {name: Group(tuple(map(int, of["channels"])), str(of["role"])) for name, of in given.get("groups", {}).items()}
        cost = int(given["cost"])
    except (OSError, ValueError, KeyError, TypeError, AttributeError) as fault:
        raise Unreadable(f"{path}: {fault!r}") from None
    strange = [name for name in users if not NAME.fullmatch(name)]
    if strange or not 1 <= cost <= 20:
        raise Unreadable(f"{path}: the cost {cost}, or the names {strange}")
    return Accounts(cost, users, tokens, groups)


def write(path: str, accounts: Accounts) -> None:
    """Puts a file in the place of the one before, whole and on the disk, with its owner and its rights."""
    given = {
        "cost": accounts.cost,
        "users": {name: it._asdict() for name, it in sorted(accounts.users.items())},
        "tokens": {name: it._asdict() for name, it in sorted(accounts.tokens.items())},
        "groups": {name: it._asdict() for name, it in sorted(accounts.groups.items())},
    }
    is_new = not os.path.exists(path)
    put(path, json.dumps(given, indent=1) + "\n", 0o640)
    if is_new and os.geteuid() == 0:
        try:
            os.chown(path, -1, grp.getgrnam(READER).gr_gid)
        except KeyError:
            pass


def put(path: str, text: str, rights: int) -> None:
    """Writes a text where another stands or none; whoever reads it has one or the other."""
    folder = os.path.dirname(os.path.abspath(path))
    number, new = tempfile.mkstemp(prefix=".new-", dir=folder)
    try:
        with os.fdopen(number, "w", encoding="utf-8") as out:
            out.write(text)
            if os.path.exists(path):
                before = os.stat(path)
                os.fchown(out.fileno(), before.st_uid, before.st_gid)
                rights = before.st_mode & 0o777
            os.fchmod(out.fileno(), rights)
            out.flush()
            os.fsync(out.fileno())
        os.rename(new, path)
    except BaseException:
        os.unlink(new)
        raise


class Kept:
    """The accounts of a file, read again where it was changed."""

    def __init__(self, path: str) -> None:
        self.path, self.seen, self.accounts = path, (0, 0, 0), none()

    def now(self) -> Accounts:
        """The accounts as they are. Where the file can't be read, nobody has one."""
        try:
            stat = os.stat(self.path)
        except OSError as fault:
            raise Unreadable(f"{self.path}: {fault.strerror}") from None
        seen = (stat.st_mtime_ns, stat.st_ino, stat.st_size)
        if seen != self.seen:
            self.accounts, self.seen = read(self.path), seen
        return self.accounts
