"""How the offices are: each answers, opens its file, or is away. Where a replica stands in front of one, it is asked how it is."""

import asyncio
import json
import os
import re
import time
from typing import NamedTuple

ANSWERS, OPENS, AWAY, ILL, STOPPED = "answers", "opens", "away", "ill", "stopped"
# How long an office is waited for, and how long what it said is said again, in seconds.
PATIENCE, KEPT = 5.0, 2.0
MOST_SAID = 4096
UPSTREAM = re.compile(r"^upstream\s+part_([A-Za-z0-9_-]+)\s*\{([^}]*)\}", re.MULTILINE)
SERVER = re.compile(r"^\s*server\s+([^\s;]+):([0-9]+)[\s;]", re.MULTILINE)


class Place(NamedTuple):
    """Where the gateway finds the office of a part."""

    part: str
    host: str
    port: int


def places(text: str) -> list[Place]:
    """The offices that the gateway's offices.conf has: the first server of each upstream part_NAME."""
    text = re.sub(r"#.*", "", text)
    found = [(part, SERVER.search(servers)) for part, servers in UPSTREAM.findall(text)]
    return [Place(part, it[1], int(it[2])) for part, it in found if it]


# What an office answers to a path that it hasn't. Another program that has come to its port says something else.
OFFICE_SAYS = b'{"code":404,"refused":"NotFound"}'


def state_of(said: bytes) -> str:
    """What an answer to /health says: an office has no such path, and a replica has one."""
    head, _, body = said.partition(b"\r\n\r\n")
    if head.startswith(b"HTTP/1.1 404 ") and body == OFFICE_SAYS:
        return ANSWERS
    try:
        told = json.loads(body)
        if not isinstance(told, dict) or not {"ill", "stopped", "agrees"} <= told.keys():
            return AWAY
    except ValueError:
        return AWAY
    return STOPPED if told["stopped"] else ILL if told["ill"] else ANSWERS


async def asked(place: Place) -> str:
    """How the office answers a path that no office has; that is one of its turns, and reads none of its rows."""
    reader, writer = await asyncio.open_connection(place.host, place.port)
    try:
        writer.write(b"GET /health HTTP/1.1\r\nHost: office\r\nConnection: close\r\n\r\n")
        writer.write_eof()
        return state_of(await reader.read(MOST_SAID))
    finally:
        writer.close()


class Offices:
    """Asks all of them, at most once in a while."""

    def __init__(self, path: str, processes: str) -> None:
        self.path, self.processes = path, processes
        self.said: dict[str, str] = {}
        self.until = 0.0
        self.lock = asyncio.Lock()

    def has_process(self, part: str) -> bool:
        """The unit of its office has a process: so it opens its file. A site whose offices run elsewhere can't tell."""
        try:
            with open(self.processes.replace("{}", part), encoding="ascii") as it:
                return bool(it.read().strip())
        except OSError:
            return False

    async def state(self, place: Place) -> str:
        """How one office is."""
        try:
            return await asyncio.wait_for(asked(place), PATIENCE)
        except ConnectionRefusedError:
            return OPENS if self.has_process(place.part) else AWAY
        except (OSError, asyncio.TimeoutError):
            pass
        return AWAY

    async def states(self) -> dict[str, str]:
        """How each is now, or was a moment ago: who asks often takes no more of their turns."""
        async with self.lock:
            if time.monotonic() >= self.until:
                with open(self.path, encoding="utf-8") as it:
                    found = places(it.read())
                states = await asyncio.gather(*(self.state(place) for place in found))
                self.said = dict(zip((place.part for place in found), states))
                self.until = time.monotonic() + KEPT
        return self.said


def cgroup_of_units() -> str:
    """Where the kernel says which processes an office's unit has."""
    top = "/sys/fs/cgroup" if os.path.exists("/sys/fs/cgroup/cgroup.controllers") else "/sys/fs/cgroup/systemd"
    return top + "/system.slice/system-temolunai.slice/temolunai@{}.service/cgroup.procs"
