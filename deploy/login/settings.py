"""A site's own sign-on: what /etc/temolunai/sign-on.json says of it, where that is there."""

import json
import os
from typing import NamedTuple, Optional

from .accounts import Unreadable


# The cookie of a browser that is on its way to a provider, and for how long it may be, in seconds.
WAY, LONGEST = "__Host-temolunai-way", 600


class Refused(Exception):
    """Nobody comes in by this."""


class OpenId(NamedTuple):
    """A provider of OpenID Connect, as the site registered this gateway with it."""

    issuer: str
    client: str
    secret: str
    back: str
    label: str = "Sign on"
    name: str = "preferred_username"
    groups: str = "groups"


class Ldap(NamedTuple):
    """A directory. `who` is the place of a user, with {} for the name; `groups` the place below which groups stand."""

    url: str
    who: str
    groups: str
    authority: str = ""
    seconds: int = 5


class SignOn(NamedTuple):
    """Either, both or none."""

    openid: Optional[OpenId] = None
    ldap: Optional[Ldap] = None


def read(path: str) -> SignOn:
    """What the file says. The secret stands in a file of its own, which `secret` names."""
    if not path or not os.path.exists(path):
        return SignOn()
    try:
        with open(path, encoding="utf-8") as it:
            given = json.load(it)
        openid, ldap = given.get("openid"), given.get("ldap")
        if openid:
            with open(openid["secret"], encoding="utf-8") as it:
                openid = OpenId(**{**openid, "secret": it.read().strip()})
        found = SignOn(openid or None, Ldap(**ldap) if ldap else None)
    except (OSError, ValueError, KeyError, TypeError, AttributeError) as fault:
        raise Unreadable(f"{path}: {fault!r}") from None
    if found.ldap and not is_private(found.ldap.url):
        raise Unreadable(f"{path}: passwords go to a directory by ldaps:// or on this machine, and not by {found.ldap.url}")
    return found


def is_private(url: str) -> bool:
    """Nobody between here and there sees what is said."""
    return url.startswith(("ldaps://", "ldapi://", "ldap://127.0.0.1", "ldap://localhost"))
