"""Sessions: what a browser's cookie says, signed, for a working day; and by which a browser is known in which a name has
logged in before. A session isn't lengthened: a working day ends with it. A new start of the service ends none."""

import hashlib
import hmac
import os
import re
import secrets
from typing import NamedTuple, Optional

# Cookies of this prefix are taken by browsers from this host alone, over TLS, for all its paths.
COOKIE, BROWSER = "__Host-temolunai", "__Host-temolunai-browser"
FORM = re.compile(r"([a-z0-9._-]{1,32})~([0-9]{1,12})~([0-9]{1,12})~([0-9a-f]{32})((?:~[a-z0-9._-]{1,32}){0,8})~([0-9a-f]{64})")
KNOWN = re.compile(r"([0-9a-f]{32})((?:~[a-z0-9._-]{1,32}){1,8})~([0-9a-f]{64})")
# The most groups of a session, and the most names of a browser; of more the last ones count.
MOST = 8


class Ticket(NamedTuple):
    """A session: whose, since when the password holds under which it began, when it ends, and its number; the groups of a user
    who has no account here. What these may stands in the accounts, so a change of that holds at once."""

    user: str
    since: int
    ends: int
    number: str
    groups: tuple[str, ...] = ()


class Tickets:
    """Signs sessions by a key of its own, which is made once, and keeps the numbers of those that were ended."""

    def __init__(self, folder: str, now: float, hours: float) -> None:
        self.seconds, self.ended_file = int(hours * 3600), f"{folder}/ended"
        self.key = key_of(f"{folder}/key")
        self.ended: dict[str, int] = {}
        if os.path.exists(self.ended_file):
            with open(self.ended_file, encoding="ascii") as it:
                lines = [line.split() for line in it]
            self.ended = {words[0]: int(words[1]) for words in lines if len(words) == 2 and words[1].isdigit()
                          and int(words[1]) > now}
        try:
            with open(f"{self.ended_file}.new", "w", encoding="ascii") as out:
                out.writelines(f"{number} {ends}\n" for number, ends in self.ended.items())
            os.rename(f"{self.ended_file}.new", self.ended_file)
        except OSError as fault:
            print(f"login: {self.ended_file} stays as long as it is: {fault.strerror}", flush=True)

    def sign(self, said: str) -> str:
        """The signature of what a cookie says."""
        return hmac.new(self.key, said.encode(), hashlib.sha256).hexdigest()

    def make(self, user: str, since: int, now: float, groups: tuple[str, ...] = ()) -> str:
        """A new session, as the cookie says it."""
        of_groups = "".join(f"~{it}" for it in groups[-MOST:])
        said = f"{user}~{since}~{int(now) + self.seconds}~{secrets.token_hex(16)}{of_groups}"
        return f"{said}~{self.sign(said)}"

    def read(self, text: str, now: float) -> Optional[Ticket]:
        """The session that a cookie says, where it is signed, not over, and not ended."""
        found = FORM.fullmatch(text)
        if not found or not hmac.compare_digest(self.sign(text.rpartition("~")[0]), found[6]):
            return None
        ticket = Ticket(found[1], int(found[2]), int(found[3]), found[4], tuple(found[5].split("~")[1:]))
        return ticket if now < ticket.ends and ticket.number not in self.ended else None

    def end(self, ticket: Ticket) -> None:
        """From now on nobody has this session, also after a stop of the service; where the disk is full, until then."""
        if ticket.number not in self.ended:
            self.ended[ticket.number] = ticket.ends
            try:
                with open(self.ended_file, "a", encoding="ascii") as out:
                    out.write(f"{ticket.number} {ticket.ends}\n")
                    out.flush()
                    os.fsync(out.fileno())
            except OSError as fault:
                print(f"login: that a session was ended isn't kept: {self.ended_file}: {fault.strerror}", flush=True)

    def knows(self, text: str, name: str) -> Optional[str]:
        """The number of a browser, where the name has logged in by it before."""
        found = KNOWN.fullmatch(text)
        good = found and hmac.compare_digest(self.sign(f"browser~{text.rpartition('~')[0]}"), found[3])
        return found[1] if found and good and name in found[2].split("~")[1:] else None

    def learns(self, text: str, name: str) -> str:
        """What the browser's cookie says once the name has logged in by it."""
        found = KNOWN.fullmatch(text)
        names, number = [], secrets.token_hex(16)
        if found and hmac.compare_digest(self.sign(f"browser~{text.rpartition('~')[0]}"), found[3]):
            number, names = found[1], [it for it in found[2].split("~")[1:] if it != name]
        said = "~".join([number, *names[1 - MOST:], name])
        return f"{said}~{self.sign(f'browser~{said}')}"


def key_of(path: str) -> bytes:
    """The key of a file. It is made where it isn't there; where it can't be kept, sessions end with the service."""
    if os.path.exists(path):
        with open(path, "rb") as it:
            key = it.read()
        if len(key) != 32:
            raise ValueError(f"{path} is no key of 32 bytes: remove it, and all sessions are over") from None
        return key
    key = secrets.token_bytes(32)
    new = f"{path}.new"
    try:
        with os.fdopen(os.open(new, os.O_WRONLY | os.O_CREAT | os.O_TRUNC, 0o600), "wb") as out:
            out.write(key)
            out.flush()
            os.fsync(out.fileno())
        os.rename(new, path)
    except OSError as fault:
        print(f"login: the key of the sessions isn't kept: {path}: {fault.strerror}", flush=True)
    return key
