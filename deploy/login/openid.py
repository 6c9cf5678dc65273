"""A site's own sign-on by OpenID Connect: the browser goes to the provider, and comes back with a code (RFC 6749, with the
proof key of RFC 7636); for that the provider gives a signed token, which says who it is and in which groups. Debian 12 has
no oauth2-proxy: so the flow is ours, over Authlib's signatures."""

import base64
import hashlib
import hmac
import json
import secrets
import time
import urllib.parse
from typing import Any, NamedTuple, Optional

import aiohttp
from authlib.jose import JsonWebToken  # type: ignore
from authlib.jose.errors import JoseError  # type: ignore

from .settings import LONGEST, OpenId, Refused

# How long the provider is waited for, and how long what it said of itself and its keys holds, in seconds.
PATIENCE, KEPT = 10.0, 3600.0
# Signatures with keys of the provider's alone: a secret that both know signs nothing here.
SIGNED = JsonWebToken(["RS256", "PS256", "ES256"])


class Way(NamedTuple):
    """What a browser has to bring back: where it goes, and what ties its return to its departure."""

    state: str
    nonce: str
    verifier: str
    place: str
    until: int


class Who(NamedTuple):
    """Who has signed on, by the provider's word."""

    name: str
    groups: tuple[str, ...]


def words(size: int = 32) -> str:
    """Random bits, as letters that stand in an address."""
    return secrets.token_urlsafe(size)


class Provider:
    """Sends browsers to the provider, and takes them back."""

    def __init__(self, given: OpenId, key: bytes) -> None:
        self.given, self.key = given, key
        self.said: dict[str, Any] = {}
        self.keys: dict[str, Any] = {}
        self.until = 0.0

    def sealed(self, way: Way) -> str:
        """The cookie of a way: signed, so that nobody makes one."""
        text = base64.urlsafe_b64encode(json.dumps(way).encode()).decode().rstrip("=")
        return f"{text}.{hmac.new(self.key, f'way {text}'.encode(), hashlib.sha256).hexdigest()}"

    def opened(self, cookie: str, now: float) -> Way:
        """The way of a cookie."""
        text, _, sign = cookie.rpartition(".")
        if not hmac.compare_digest(hmac.new(self.key, f"way {text}".encode(), hashlib.sha256).hexdigest(), sign):
            raise Refused("the browser brings no way that began here")
        way = Way(*json.loads(base64.urlsafe_b64decode(text + "=" * (-len(text) % 4))))
        if now >= way.until:
            raise Refused("it took longer than ten minutes")
        return way

    async def asks(self, url: str, form: Optional[dict[str, str]] = None) -> dict[str, Any]:
        """What the provider says, as JSON."""
        basic = aiohttp.BasicAuth(urllib.parse.quote(self.given.client, ""), urllib.parse.quote(self.given.secret, ""))
        async with aiohttp.ClientSession(timeout=aiohttp.ClientTimeout(total=PATIENCE)) as session:
            method, more = ("POST", dict[str, Any](data=form, auth=basic)) if form else ("GET", {})
            async with session.request(method, url, allow_redirects=False, **more) as it:
                if it.status != 200:
                    raise Refused(f"the provider answers {it.status}")
                said = await it.json(content_type=None)
        if not isinstance(said, dict):
            raise Refused("the provider says no object")
        return said

    async def learns(self, anew: bool = False) -> None:
        """What the provider says of itself, and its keys."""
        if anew or time.monotonic() >= self.until:
            said = await self.asks(f"{self.given.issuer.rstrip('/')}/.well-known/openid-configuration")
            if said.get("issuer") != self.given.issuer:
                raise Refused(f"the provider calls itself {said.get('issuer')!r}")
            self.keys = await self.asks(str(said["jwks_uri"]))
            self.said, self.until = said, time.monotonic() + KEPT

    async def departs(self, place: str, now: float) -> tuple[str, str]:
        """Where the browser goes, and its cookie."""
        await self.learns()
        way = Way(words(), words(), words(48), place, int(now) + LONGEST)
        proof = base64.urlsafe_b64encode(hashlib.sha256(way.verifier.encode()).digest()).decode().rstrip("=")
        asked = {"response_type": "code", "client_id": self.given.client, "redirect_uri": self.given.back,
                 "scope": "openid profile", "state": way.state, "nonce": way.nonce, "code_challenge": proof,
                 "code_challenge_method": "S256"}
        there = str(self.said["authorization_endpoint"])
        return f"{there}{'&' if '?' in there else '?'}{urllib.parse.urlencode(asked)}", self.sealed(way)

    def claims_of(self, token: str) -> dict[str, Any]:
        """What a token says that the provider has signed, for us, now."""
        wanted = {"iss": {"essential": True, "value": self.given.issuer}, "aud": {"essential": True, "value": self.given.client},
                  "exp": {"essential": True}, "sub": {"essential": True}, "nonce": {"essential": True}}
        claims = SIGNED.decode(token, self.keys, claims_options=wanted)
        claims.validate(leeway=30)
        return dict(claims)

    async def returns(self, asked: dict[str, str], cookie: str, now: float) -> tuple[Who, str]:
        """Who came back, and to which place."""
        way = self.opened(cookie, now)
        if not hmac.compare_digest(asked.get("state", "").encode(), way.state.encode()):
            raise Refused("it is another way that comes back")
        if "code" not in asked:
            raise Refused(f"the provider says {asked.get('error', 'nothing')[:60]!r}")
        await self.learns()
        said = await self.asks(str(self.said["token_endpoint"]), {
            "grant_type": "authorization_code", "code": asked["code"], "redirect_uri": self.given.back,
            "code_verifier": way.verifier})
        try:
            claims = self.claims_of(str(said.get("id_token")))
        except (JoseError, ValueError):
            # Its keys may be new since they were asked for.
            await self.learns(anew=True)
            try:
                claims = self.claims_of(str(said.get("id_token")))
            except (JoseError, ValueError) as fault:
                raise Refused(f"the provider's token: {fault!r}"[:200]) from None
        if not hmac.compare_digest(str(claims["nonce"]).encode(), way.nonce.encode()):
            raise Refused("the token is of another way")
        groups = claims.get(self.given.groups, [])
        names = tuple(str(it).lower() for it in groups) if isinstance(groups, list) else ()
        return Who(str(claims.get(self.given.name, "")).lower(), names), way.place
