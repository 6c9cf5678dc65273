"""How the gateway, the login service and the certificates are, as this machine shows it."""

import calendar
import os
import re
import socket
import subprocess
import time
from typing import Optional

from .figures import Figures

LISTEN = re.compile(r"^\s*listen\s+(?:\S*:)?([0-9]{1,5})[\s;]", re.MULTILINE)
CERTIFICATE = re.compile(r"^\s*ssl_certificate\s+([^;\s]+);", re.MULTILINE)
INCLUDE = re.compile(r"^\s*include\s+(/[^;\s*]+);", re.MULTILINE)
ENDS = re.compile(r"notAfter=(.+)")
# How long the login service is waited for, in seconds.
PATIENCE = 5.0


def site(path: str) -> str:
    """The gateway's server.conf, with what it includes by whole paths. Comments are left out."""
    try:
        with open(path, encoding="utf-8") as it:
            text = re.sub(r"#.*", "", it.read())
    except OSError:
        return ""
    return text + "".join(site(it) for it in INCLUDE.findall(text))


def login_answers(place: str) -> bool:
    """The login service answers: nobody who asks without a word is anybody."""
    try:
        with socket.socket(socket.AF_UNIX) as it:
            it.settimeout(PATIENCE)
            it.connect(place)
            it.sendall(b"GET /check HTTP/1.1\r\nHost: login\r\nConnection: close\r\n\r\n")
            return it.recv(12) == b"HTTP/1.1 401"
    except OSError:
        return False


def ends(path: str) -> Optional[float]:
    """When a certificate ends, in seconds."""
    try:
        done = subprocess.run(["openssl", "x509", "-noout", "-enddate", "-in", path], capture_output=True, text=True,
                              env={**os.environ, "LC_ALL": "C"}, timeout=20, check=False)
    except (OSError, subprocess.TimeoutExpired):
        return None
    found = ENDS.search(done.stdout)
    return calendar.timegm(time.strptime(found[1].strip(), "%b %d %H:%M:%S %Y %Z")) if found else None


def put_gateway(figures: Figures, server: str, listening: dict[int, int], login: str) -> None:
    """Whether it listens on all of its ports, whether the login service answers, and when its certificates end."""
    text = site(server)
    ports = {int(it) for it in LISTEN.findall(text)}
    figures.put("temolunai_gateway_listens", bool(ports) and ports <= listening.keys())
    figures.put("temolunai_login_answers", login_answers(login))
    for name in sorted(set(CERTIFICATE.findall(text))):
        path = name if name.startswith("/") else f"{os.path.dirname(os.path.dirname(server))}/{name}"
        end = ends(path)
        figures.put("temolunai_certificate_ends_seconds", end if end is not None else 0, file=os.path.basename(path))
