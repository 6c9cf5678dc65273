"""How the replicas of this machine say that they are, on the sockets that they have for an operator."""

import glob
import os
import socket

from .figures import NAME, Figures

# How long one is waited for, in seconds, and how much it says at most.
PATIENCE, MOST_SAID = 3.0, 65536


def said(place: str) -> str:
    """Its own figures, or nothing."""
    text = b""
    try:
        with socket.socket(socket.AF_UNIX) as it:
            it.settimeout(PATIENCE)
            it.connect(place)
            it.sendall(b"GET /metrics HTTP/1.1\r\nConnection: close\r\n\r\n")
            while (more := it.recv(MOST_SAID)) and len(text) < MOST_SAID:
                text += more
    except OSError:
        return ""
    head, _, body = text.partition(b"\r\n\r\n")
    return body.decode("ascii", "replace") if head.startswith(b"HTTP/1.1 200 ") else ""


def put_replicas(figures: Figures, folders: str) -> None:
    """Whether each answers, and what it says. `folders` is that of a part's journal, with {} for the part."""
    before, _, behind = folders.partition("{}")
    for folder in sorted(glob.glob(f"{before}*{behind}/")):
        part = folder[len(before):len(folder) - len(behind) - 1]
        if not glob.glob(f"{folder}journal-*"):
            continue
        text = said(os.path.join(folder, "operator"))
        figures.put("temolunai_replica_answers", bool(text), part=part)
        for line in text.splitlines():
            found = NAME.fullmatch(line)
            if found and found[1].startswith("temolunai_replica_"):
                figures.put(found[1], float(found[3]), part=part)
