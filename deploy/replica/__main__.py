"""Begins a replica."""

import argparse
import asyncio
import contextlib
import importlib
import os
import sys
from ssl import CERT_REQUIRED, Purpose, SSLContext, create_default_context

from .applier import Applier, Log
from .digests import Digests
from .door import Door
from .etcd_log import EtcdLog
from .faults import Stopped
from .file_log import FileLog
from .health import Health
from .journal import Journal
from .members import Members
from .office import Office


def words() -> argparse.Namespace:
    """The words of the command line."""
    parser = argparse.ArgumentParser(prog="replica", description="A replica of an office; docs/REPLICAS.md.")
    add = parser.add_argument
    add("--name", required=True, help="this replica's name")
    add("--members", default="", help="the names of all that share the log, as a,b,c")
    add("--listen", required=True, action="append", help="HOST:PORT or tls:HOST:PORT; several")
    add("--office", required=True, help="HOST:PORT of its office")
    add("--log", required=True, help="the URL of its etcd member; file:FOLDER for one on its own disk")
    add("--folder", help="the folder of its journal, where the log is etcd's")
    add("--boot", default="", help="a name of the time since this machine was begun")
    add("--prefix", default="/temolunai/", help="of the keys in etcd, one for each part of a centre")
    add("--certificates", help="a folder with ca.pem, NAME.pem and NAME.key")
    add("--quota", type=int, default=8_000_000_000, help="bytes, as etcd's --quota-backend-bytes")
    add("--drop-after", type=float, default=86_400, help="seconds in which an absent member is waited for")
    add("--digest-every", type=float, default=3600, help="seconds from digest to digest")
    add("--keep-days", type=float, default=0, help="how long the journal's segments are kept; 0: for ever")
    given = parser.parse_args()
    if not given.certificates and any(it.startswith("tls:") for it in given.listen):
        parser.error("who may ask from another machine is said by --certificates")
    return given


def secure(given: argparse.Namespace, purpose: Purpose) -> SSLContext | None:
    """Both ends show a certificate of the same authority."""
    if not given.certificates:
        return None
    tls = create_default_context(purpose, cafile=f"{given.certificates}/ca.pem")
    tls.load_cert_chain(f"{given.certificates}/{given.name}.pem", f"{given.certificates}/{given.name}.key")
    tls.verify_mode = CERT_REQUIRED
    return tls


async def run(given: argparse.Namespace) -> None:
    """Puts the parts together, and never ends: what stops one of them stops all but the door, which tells of it."""
    is_file = given.log.startswith("file:")
    folder = given.log[5:] if is_file else given.folder
    health = Health(given.name, folder, not is_file)
    journal = (FileLog if is_file else Journal)(folder, given.keep_days, given.boot)
    office = Office(given.office, journal.last.n)
    log: Log = journal if isinstance(journal, FileLog) else EtcdLog(
        given.log, given.prefix, secure(given, Purpose.SERVER_AUTH), given.name, len(given.members.split(",")),
        given.quota, journal)
    applier = Applier(log, journal, office, health)
    works = [office.watch, applier.watch, applier.run]
    if isinstance(log, EtcdLog):
        members = Members(given, log, journal, applier, health)
        works += [members.run, Digests(given.digest_every, log, applier, health).run]
    door = Door(log, journal, applier, health)
    await door.open(given.listen, secure(given, Purpose.CLIENT_AUTH), os.path.join(folder, "operator"))
    try:
        await asyncio.gather(*(it() for it in (works[:2] if health.stopped else works)))
    except Stopped as fault:
        health.stop(str(fault))
    await asyncio.Event().wait()


def main() -> None:
    """Files and sockets are for this user alone. Debian's python3-uvloop takes less of a processor, where it is
    installed."""
    os.umask(0o077)
    with contextlib.suppress(ImportError):
        importlib.import_module("uvloop").install()
    try:
        asyncio.run(run(words()))
    except Stopped as fault:
        sys.exit(f"replica: {fault}")


main()
