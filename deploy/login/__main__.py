"""Begins the login service."""

import argparse
import asyncio
import os
import signal
import socket
import sys
import time

from aiohttp import web

from .accounts import Kept, Unreadable
from .door import Door
from .offices import Offices, cgroup_of_units
from .service import Service
from .settings import SignOn, read
from .tickets import Tickets
from .tries import Tries


def words() -> argparse.Namespace:
    """The words of the command line."""
    parser = argparse.ArgumentParser(prog="login", description="The login service beside the gateway; docs/OPERATING.md.")
    add = parser.add_argument
    add("--accounts", required=True, help="the file that deploy/users writes")
    add("--offices", required=True, help="the gateway's offices.conf, for /health")
    add("--state", required=True, help="the folder of the key, and of the sessions that were ended")
    add("--socket", required=True, help="where the gateway finds it")
    add("--processes", default=cgroup_of_units(), help="the file with the processes of an office; {} is its part")
    add("--sign-on", default="", help="what is said of a site's own sign-on, where the file is there")
    add("--hours", type=float, default=12, help="how long a session lasts")
    add("--tries-of-name", type=int, default=10, help="wrong passwords of a name from an address in ten minutes")
    add("--tries-of-address", type=int, default=30, help="wrong passwords of an address in ten minutes")
    add("--tries-from-all", type=int, default=100, help="wrong passwords of a name from all addresses in ten minutes")
    return parser.parse_args()


def tells(word: str) -> None:
    """Tells the unit of systemd, where there is one."""
    place = os.environ.get("NOTIFY_SOCKET")
    if place:
        with socket.socket(socket.AF_UNIX, socket.SOCK_DGRAM) as it:
            it.sendto(word.encode(), "\0" + place[1:] if place.startswith("@") else place)


def service(given: argparse.Namespace, accounts: Kept, sign_on: SignOn) -> Service:
    """All that it is made of. What a site has of its own sign-on is loaded where it has one."""
    tickets = Tickets(given.state, time.time(), given.hours)
    tries = Tries(given.tries_of_name, given.tries_of_address, from_all=given.tries_from_all)
    directory = provider = None
    if sign_on.ldap:
        from .directory import Directory    # pylint: disable=import-outside-toplevel
        directory = Directory(sign_on.ldap)
    if sign_on.openid:
        from .openid import Provider        # pylint: disable=import-outside-toplevel
        provider = Provider(sign_on.openid, tickets.key)
    return Service(Door(accounts, tickets, tries, directory), Offices(given.offices, given.processes), provider)


async def serve(given: argparse.Namespace) -> None:
    """Serves until it is told to end."""
    accounts = Kept(given.accounts)
    accounts.now()
    made = service(given, accounts, read(given.sign_on))
    runner = web.AppRunner(made.app(), access_log=None, keepalive_timeout=75)
    await runner.setup()
    if os.path.exists(given.socket):
        os.unlink(given.socket)
    await web.UnixSite(runner, given.socket).start()
    # Whoever may come into its folder may ask: that is the gateway.
    os.chmod(given.socket, 0o666)
    print(f"login: {len(accounts.now().users)} users, at {given.socket}", flush=True)
    tells("READY=1")
    ended = asyncio.Event()
    for it in (signal.SIGTERM, signal.SIGINT):
        asyncio.get_running_loop().add_signal_handler(it, ended.set)
    await ended.wait()
    await runner.cleanup()


def main() -> None:
    """Begins it, or says why not."""
    try:
        asyncio.run(serve(words()))
    except (Unreadable, OSError, ValueError) as fault:
        sys.exit(f"login: {fault}")


main()
