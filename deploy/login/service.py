"""What the gateway asks, and what staff see: /check, /login, /login/sign-on, /login/back, /logout, /health."""

import os
import time
import urllib.parse
from typing import TYPE_CHECKING, Optional

import aiohttp
from aiohttp import web

from .accounts import Unreadable, is_name
from .door import Busy, Door, Spent, tells
from .offices import ANSWERS, Offices
from .page import known, shown
from .settings import LONGEST, WAY, Refused
from .tickets import BROWSER, COOKIE

if TYPE_CHECKING:
    from .openid import Provider

HERE = os.path.dirname(os.path.realpath(__file__))
FILES = {"login.css": "text/css", "login.js": "text/javascript"}
# The most bytes that a form may have.
MOST_BYTES = 8192
# How long a browser is known, in seconds.
YEAR = 31_536_000
SPENT = "Too many tries. Wait ten minutes, or ask whoever keeps the accounts."
BUSY = "Too many log in at this moment. Try again."


def cookie(name: str, value: str, seconds: int, site: str = "Strict") -> str:
    """The field that gives a browser a cookie, or takes it: for this host, over TLS, and for its own pages alone. One that a
    page of another site brings back says Lax."""
    return f"{name}={value}; Max-Age={seconds}; Path=/; HttpOnly; Secure; SameSite={site}"


def field(request: web.Request, name: str) -> str:
    """What the gateway says of a request: Ticket, Browser and Way are its cookies, Address is who asks."""
    return request.headers.get(name, "")


def to_page(text: str, status: int = 200) -> web.Response:
    """A page."""
    return web.Response(text=text, status=status, content_type="text/html", charset="utf-8")


def goes_to(place: str, *cookies: str) -> web.Response:
    """Sends the browser on, with cookies."""
    answer = web.Response(status=303, headers={"Location": place})
    for it in cookies:
        answer.headers.add("Set-Cookie", it)
    return answer


class Service:
    """The paths."""

    def __init__(self, door: Door, offices: Offices, provider: "Optional[Provider]" = None) -> None:
        self.door, self.offices, self.provider = door, offices, provider

    def app(self) -> web.Application:
        """All of it."""
        app = web.Application(client_max_size=MOST_BYTES)
        app.add_routes([
            web.get("/check", self.check), web.get("/login", self.page), web.post("/login", self.log_in),
            web.get("/login/sign-on", self.sign_on), web.get("/login/back", self.back),
            web.post("/logout", self.log_out), web.get("/login/{name}", self.file), web.get("/health", self.health),
        ])
        return app

    def shown(self, fault: str = "", name: str = "", place: str = "") -> str:
        """The page, with the way to the site's own sign-on where there is one."""
        return shown(fault, name, place, self.provider.given.label if self.provider else "")

    async def check(self, request: web.Request) -> web.Response:
        """Who asks: 200 and the field User, or 401. What it says rests on the session, the token or the password alone. Who is
        known by groups has the fields Channels and Role besides."""
        try:
            user = await self.door.who(field(request, "Authorization"), field(request, "Ticket"), field(request, "Address"))
        except Unreadable as fault:
            print(fault, flush=True)
            return web.Response(status=500)
        except Spent:
            user = None
        except Busy:
            # The gateway hands on no other status; it says by this field that it may be asked again.
            return web.Response(status=401, headers={"Busy": "1"})
        if not user:
            return web.Response(status=401)
        fields = {"User": user.name}
        if user.rights is not None:
            fields |= {"Channels": f"[{','.join(map(str, user.rights.channels))}]", "Role": user.rights.role}
        return web.Response(headers=fields)

    async def page(self, _: web.Request) -> web.Response:
        """The page with its form."""
        return to_page(self.shown())

    async def log_in(self, request: web.Request) -> web.Response:
        """Takes the form. A right one has a session, and goes to the desk."""
        given = urllib.parse.parse_qs((await request.read()).decode(errors="replace"), keep_blank_values=True)
        name, password, place = (given.get(it, [""])[0] for it in ("name", "password", "place"))
        name = name.strip().lower()[:32]
        try:
            found = await self.door.tried(name, password, field(request, "Address"), field(request, "Browser"))
        except Spent:
            return to_page(self.shown(SPENT, name, place), 429)
        except Busy:
            return to_page(self.shown(BUSY, name, place), 503)
        if not found:
            return to_page(self.shown("There is no such name, or this isn't its password.", name, place), 401)
        return self.comes_in(request, name, found.since, found.groups, place)

    def comes_in(self, request: web.Request, name: str, since: int, groups: tuple[str, ...], place: str) -> web.Response:
        """A session, and a browser that is known from now on."""
        tickets = self.door.tickets
        return goes_to(f"/{known(place)}", cookie(COOKIE, tickets.make(name, since, time.time(), groups), tickets.seconds),
                       cookie(BROWSER, tickets.learns(field(request, "Browser"), name), YEAR))

    async def log_out(self, request: web.Request) -> web.Response:
        """Ends the session, here and in the browser."""
        ticket = self.door.by_cookie(field(request, "Ticket"))
        if ticket:
            self.door.tickets.end(ticket)
            tells("out", ticket.user, field(request, "Address"))
        return goes_to("/login", cookie(COOKIE, "", 0))

    async def sign_on(self, request: web.Request) -> web.Response:
        """Sends the browser to the site's own sign-on."""
        if not self.provider:
            return web.Response(status=404)
        try:
            there, way = await self.provider.departs(known(request.query.get("place", "")), time.time())
        except (Refused, aiohttp.ClientError, TimeoutError, OSError, KeyError, ValueError) as fault:
            return self.not_signed_on(request, fault)
        return goes_to(there, cookie(WAY, way, LONGEST, "Lax"))

    async def back(self, request: web.Request) -> web.Response:
        """Takes the browser back from there: a user of the provider's, whose groups may something here."""
        if not self.provider:
            return web.Response(status=404)
        try:
            who, place = await self.provider.returns(dict(request.query), field(request, "Way"), time.time())
        except (Refused, aiohttp.ClientError, TimeoutError, OSError, KeyError, ValueError, TypeError) as fault:
            return self.not_signed_on(request, fault)
        groups = tuple(it for it in who.groups if it in self.door.accounts.now().groups)
        if not is_name(who.name) or self.door.account(who.name) or not groups:
            tells("signed on, and has no group here, or another's name", who.name, field(request, "Address"))
            return to_page(self.shown("You are signed on, but nothing here is open to you. Ask whoever keeps the accounts."), 403)
        tells("in, signed on", who.name, field(request, "Address"))
        answer = self.comes_in(request, who.name, 0, groups, place)
        answer.headers.add("Set-Cookie", cookie(WAY, "", 0, "Lax"))
        return answer

    def not_signed_on(self, request: web.Request, fault: Exception) -> web.Response:
        """What went wrong is said to the journal."""
        tells(f"not signed on: {fault!r}"[:300], "", field(request, "Address"))
        return to_page(self.shown("The sign-on didn't come to its end. Try again, or ask whoever keeps the accounts."), 401)

    async def file(self, request: web.Request) -> web.StreamResponse:
        """What the page wants besides the desk's files."""
        name = request.match_info["name"]
        if name not in FILES:
            return web.Response(status=404)
        return web.FileResponse(f"{HERE}/{name}", headers={"Content-Type": f"{FILES[name]}; charset=utf-8"})

    async def health(self, _: web.Request) -> web.Response:
        """200 where each office answers, else 503; and how each is."""
        states = await self.offices.states()
        well = bool(states) and all(it == ANSWERS for it in states.values())
        return web.json_response({"offices": states}, status=200 if well else 503)
