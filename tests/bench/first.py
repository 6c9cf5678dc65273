"""How long a fresh clone waits, for `.ci/bench first`: for the first answer without a proof, for the first one that is
proved, and for the rest of the program; for `.ci/bench gate`: for `.ci/run`, whose own lines come on standard error. Of each
the time that the machine's processors were at work, and the most memory that it had in use meanwhile, less what it had before.

Each commit has a clone of its own. What checks of other clones have kept on this machine is put aside meanwhile, since `rt`
would begin with it, and the toolchain's files are read first, as far as they fit into memory: where they weren't there, a
look took 118 seconds that else took 70. The figures of two commits may be compared where nothing else was at work."""

import contextlib
import os
import shutil
import subprocess
import sys
import tempfile
import threading
import time
from dataclasses import dataclass
from typing import Iterator, Sequence

# The README's first command.
MESSAGE = b'POST /ch/1/tapes HTTP/1.1\r\nContent-Length: 25\r\n\r\n{"barcode":"T1","slot":1}'
ANSWER = b'HTTP/1.1 200 OK\r\nContent-Length: 10\r\nContent-Type: application/json\r\n\r\n{"tape":1}'
OVER_MEMORY = ("answer", "1,25,06:00:00:00,40")


@dataclass(frozen=True)
class Took:
    """What a command took: seconds of wall and of processor, and megabytes."""

    wall: float
    processor: float
    memory: float


def at_work() -> float:
    """For how many seconds the processors of this machine were at work, whoever for: much is proved behind a command."""
    with open("/proc/stat", encoding="ascii") as file:
        user, nice, system, _idle, _waiting, *interrupts = map(int, file.readline().split()[1:8])
    return (user + nice + system + sum(interrupts)) / os.sysconf("SC_CLK_TCK")


def in_use() -> float:
    """How much memory of this machine is in use, in MB."""
    with open("/proc/meminfo", encoding="ascii") as file:
        found = dict(line.split()[:2] for line in file)
    return (int(found["MemTotal:"]) - int(found["MemAvailable:"])) / 1024


class Peak:
    """The most memory in use while it is entered, less what was in use before."""

    def __enter__(self) -> "Peak":
        self.before, self.most, self.ended = in_use(), 0.0, threading.Event()
        self.thread = threading.Thread(target=self.look)
        self.thread.start()
        return self

    def look(self) -> None:
        while not self.ended.wait(1):
            self.most = max(self.most, in_use() - self.before)

    def __exit__(self, *_: object) -> None:
        self.ended.set()
        self.thread.join()


def took(words: Sequence[str], folder: str, wanted: bytes | None = None, is_shown: bool = False) -> Took:
    """What a command took; with an answer that is wanted, it gets the message. What is shown comes on standard error."""
    begun, before = time.monotonic(), at_work()
    with Peak() as peak:
        given = b"" if wanted is None else MESSAGE
        output = sys.stderr if is_shown else subprocess.PIPE
        ran = subprocess.run(words, cwd=folder, input=given, stdout=output, check=False)
    if ran.returncode or wanted not in (None, ran.stdout):
        raise SystemExit(f"bench: {' '.join(words)}: exit status {ran.returncode}, {(ran.stdout or b'')[-200:]!r}")
    return Took(time.monotonic() - begun, at_work() - before, peak.most)


def kit() -> str:
    """The toolchain's folder."""
    return os.path.dirname(os.path.dirname(os.path.realpath(shutil.which("rt") or sys.exit("bench: there is no rt here"))))


def read_kit() -> None:
    """Has the toolchain's files in memory."""
    for folder, _folders, names in os.walk(kit()):
        for name in names:
            with contextlib.suppress(OSError), open(f"{folder}/{name}", "rb") as file:
                while file.read(1 << 20):
                    pass


@contextlib.contextmanager
def nothing_kept() -> Iterator[None]:
    """No check begins with what another one has kept on this machine."""
    kept = f"{os.path.dirname(kit())}/rattle-kept"
    if os.path.isdir(kept):
        os.rename(kept, f"{kept}.aside")
    try:
        yield
    finally:
        if os.path.isdir(f"{kept}.aside"):
            shutil.rmtree(kept, ignore_errors=True)
            os.rename(f"{kept}.aside", kept)


@contextlib.contextmanager
def clone_of(top: str, commit: str) -> Iterator[str]:
    """A fresh clone of this commit."""
    with nothing_kept(), tempfile.TemporaryDirectory(dir=os.path.dirname(top)) as room:
        clone = f"{room}/it"
        subprocess.run(["git", "clone", "--quiet", top, clone], check=True)
        subprocess.run(["git", "checkout", "--quiet", commit], cwd=clone, check=True)
        read_kit()
        yield clone


def first_of(clone: str) -> Iterator[tuple[str, Took]]:
    """What is waited for in it until the whole program is proved."""
    yield "unproved", took(["./preview", *OVER_MEMORY], clone, ANSWER)
    yield "first answer", took(["./playout", *OVER_MEMORY], clone, ANSWER)
    # The others go on behind it, and are waited for. What LLVM does then isn't.
    yield "the rest", took([".ci/prove"], clone)
    subprocess.run(["pkill", "-TERM", "-f", f"{clone}/.ci/prove"], check=False)


def gate_of(clone: str) -> Iterator[tuple[str, Took]]:
    """What is waited for in it until CI has judged it."""
    yield "the gate", took([".ci/run"], clone, is_shown=True)


def print_figures(top: str, kind: str, commits: Sequence[str]) -> None:
    """Prints a line for each commit and what was waited for, in turn."""
    print("| Commit | Waited for | wall, s | processor, s | memory, MB |\n|---|---|---|---|---|")
    for commit in commits or ["HEAD"]:
        with clone_of(top, commit) as clone:
            for name, it in {"first": first_of, "gate": gate_of}[kind](clone):
                print(f"| {commit} | {name} | {it.wall:.0f} | {it.processor:.0f} | {it.memory:.0f} |", flush=True)
