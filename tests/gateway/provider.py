#!/usr/bin/python3
"""A small provider of OpenID Connect, with one user, who need not type anything.

    provider.py PORT NAME GROUP..

It knows the client `temolunai` with the secret `of temolunai`. What it is told at /next is done with the next token: `nonce`,
`aud`, `exp`, `key` and `alg` make one that nobody may take; `name=..` makes another user of it.
"""

import base64
import hashlib
import secrets
import sys
import time
import urllib.parse

from aiohttp import web
from authlib.jose import JsonWebKey, jwt  # type: ignore

PORT, NAME, GROUPS = int(sys.argv[1]), sys.argv[2], sys.argv[3:]
ISSUER = f"http://127.0.0.1:{PORT}"
KEY, OTHER = (JsonWebKey.generate_key("RSA", 2048, {"kid": "one"}, is_private=True) for _ in range(2))
given: dict[str, dict[str, str]] = {}
spoilt: list[str] = []


async def about(_: web.Request) -> web.Response:
    """What it says of itself."""
    return web.json_response({"issuer": ISSUER, "authorization_endpoint": f"{ISSUER}/authorize", "token_endpoint": f"{ISSUER}/token",
                              "jwks_uri": f"{ISSUER}/keys", "id_token_signing_alg_values_supported": ["RS256"]})


async def keys(_: web.Request) -> web.Response:
    """Its keys."""
    return web.json_response({"keys": [KEY.as_dict()]})


async def authorize(request: web.Request) -> web.Response:
    """The user is there, and goes back with a code."""
    asked = dict(request.query)
    wanted = {"response_type": "code", "client_id": "temolunai", "code_challenge_method": "S256"}
    if any(asked.get(name) != value for name, value in wanted.items()) or "openid" not in asked["scope"].split():
        return web.Response(status=400)
    code = secrets.token_urlsafe(16)
    given[code] = asked
    back = urllib.parse.urlencode({"code": code, "state": asked["state"]})
    return web.Response(status=302, headers={"Location": f"{asked['redirect_uri']}?{back}"})


async def token(request: web.Request) -> web.Response:
    """A token for a code, once, for the client that knows its secret, and for the browser that began."""
    form = await request.post()
    basic = base64.b64encode(b"temolunai:of%20temolunai").decode()
    asked = given.pop(str(form["code"]), None)
    proof = base64.urlsafe_b64encode(hashlib.sha256(str(form["code_verifier"]).encode()).digest()).decode().rstrip("=")
    if request.headers.get("Authorization") != f"Basic {basic}" or not asked or asked["code_challenge"] != proof \
            or asked["redirect_uri"] != form["redirect_uri"] or form["grant_type"] != "authorization_code":
        return web.json_response({"error": "invalid_grant"}, status=400)
    how = spoilt.pop() if spoilt else ""
    name = how.partition("=")[2] if how.startswith("name=") else NAME
    claims = {"iss": ISSUER, "aud": "another" if how == "aud" else "temolunai", "sub": "7", "iat": int(time.time()),
              "exp": int(time.time()) + (-600 if how == "exp" else 300), "nonce": "another" if how == "nonce" else asked["nonce"],
              "preferred_username": name, "groups": GROUPS}
    if how == "alg":
        signed = jwt.encode({"alg": "HS256"}, claims, b"of temolunai")
    else:
        signed = jwt.encode({"alg": "RS256", "kid": "one"}, claims, OTHER if how == "key" else KEY)
    return web.json_response({"access_token": "x", "token_type": "Bearer", "id_token": signed.decode()})


async def is_next(request: web.Request) -> web.Response:
    """What is wrong with the next one."""
    spoilt.append(request.query["how"])
    return web.Response()


def main() -> None:
    """Serves until it is ended."""
    app = web.Application()
    app.add_routes([web.get("/.well-known/openid-configuration", about), web.get("/keys", keys), web.get("/authorize", authorize),
                    web.post("/token", token), web.post("/next", is_next)])
    web.run_app(app, host="127.0.0.1", port=PORT, print=lambda *_: print("listens", flush=True))


main()
