"""Passwords: how they are hashed, and whether one fits, in a time that says nothing of the name."""

import hashlib
import hmac
import secrets
from typing import Callable, Optional

from passlib.hash import sha512_crypt  # type: ignore

from .accounts import Account, Accounts

# The most bytes of a password, and the fewest letters of a new one.
MOST, FEWEST = 1024, 10
SCRYPT, CRYPT = "scrypt", "crypt"
# What hashes a password, and what that costs: two that are alike take the same time.
Way = tuple[str, int]


def scrypt(password: str, salt: bytes, cost: int) -> bytes:
    """32 bytes, by RFC 7914 with N = 2 ** cost, r = 8, p = 1."""
    return hashlib.scrypt(password.encode(), salt=salt, n=1 << cost, r=8, p=1, maxmem=(1 << cost) * 2048, dklen=32)


def hashed(password: str, cost: int) -> str:
    """What is kept of a password, and what it cost: so the cost of new ones can be raised."""
    salt = secrets.token_bytes(16)
    return f"{SCRYPT}${cost}${salt.hex()}${scrypt(password, salt, cost).hex()}"


def way_of(kept: str, cost: int) -> Way:
    """By which way it was hashed. What doesn't say its cost has the file's."""
    words = kept.split("$")
    if words[0] != SCRYPT:
        return CRYPT, 0
    return SCRYPT, int(words[1]) if len(words) == 4 else cost


def nobody(way: Way) -> str:
    """What is hashed in the place of a name that isn't there, or whose password was hashed by another way."""
    kind, cost = way
    return f"scrypt${cost}${'00' * 16}${'00' * 32}" if kind == SCRYPT else "$6$nobodynobody$" + "." * 86


def is_scrypt(password: str, kept: str, cost: int) -> bool:
    """The password fits a hash of this kind."""
    *_, salt, wanted = kept.split("$")
    return hmac.compare_digest(scrypt(password, bytes.fromhex(salt), cost), bytes.fromhex(wanted))


def is_crypt(password: str, kept: str, _: int) -> bool:
    """The password fits what `openssl passwd -6` printed."""
    try:
        return bool(sha512_crypt.verify(password, kept))
    except (ValueError, TypeError):
        return False


FITS: dict[str, Callable[[str, str, int], bool]] = {SCRYPT: is_scrypt, CRYPT: is_crypt}


def fits(password: str, account: Optional[Account], accounts: Accounts) -> bool:
    """Whether it is the account's password.

    By each way that the file has a hash is made once, whoever is asked for: what it takes doesn't tell a name that is
    there from one that isn't.
    """
    if len(password.encode(errors="replace")) > MOST or "\0" in password:
        return False
    ways = {way_of(it.password, accounts.cost) for it in accounts.users.values()} or {(SCRYPT, accounts.cost)}
    own = way_of(account.password, accounts.cost) if account is not None else None
    good = False
    for way in sorted(ways):
        kept = account.password if account is not None and own == way else nobody(way)
        good |= FITS[way[0]](password, kept, way[1]) and own == way
    return good
