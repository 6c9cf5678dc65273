"""The two that `.ci/bench peer` asks: the office, and the server in C. Each answers over a copy of a file, and is asked
messages one behind the other; what it takes is the processor's time of its process. All answers are compared, and the
rows that they leave."""

import contextlib
import fcntl
import os
import re
import shutil
import sqlite3
import statistics
import subprocess
import tempfile
import time
from dataclasses import dataclass, field

from peer_asks import Ask, Centre, get

TOP = os.path.dirname(os.path.dirname(os.path.dirname(os.path.abspath(__file__))))
# How many turns each thing is asked at least, and for how long it goes on.
TURNS, SECONDS = 3, 3.0
TABLES = ("office", "channel", "tape", "clip", "offer", "span", "day", "item", "batch", "aired")


class Differs(Exception):
    """The two don't answer the same, or don't leave the same rows."""


@dataclass
class Side:
    """A program, whose file's path comes behind these words, and what it took of each thing asked: the median of a
    message's microseconds in each round."""

    name: str
    words: list[str]
    took: dict[str, list[float]] = field(default_factory=dict)


class Server:
    """A program that runs over a file."""

    def __init__(self, side: Side, path: str) -> None:
        self.side, self.behind = side, b""
        self.run = subprocess.Popen([*side.words, path], stdin=subprocess.PIPE, stdout=subprocess.PIPE)
        assert self.run.stdin and self.run.stdout
        self.input, self.output = self.run.stdin.fileno(), self.run.stdout.fileno()
        # A list and an answer fit, so that neither end waits for the other halfway.
        for end in (self.input, self.output):
            fcntl.fcntl(end, fcntl.F_SETPIPE_SZ, 1 << 20)
        # The kernel's name for what a process took of the processors (clock_getcpuclockid).
        self.clock = ~self.run.pid << 3 | 2
        self.ask([get("999/tapes")])

    def ask(self, messages: list[bytes]) -> list[bytes]:
        """The answers to messages that are sent together, each whole."""
        os.write(self.input, b"".join(messages))
        return [self.answer() for _ in messages]

    def answer(self) -> bytes:
        """The next answer."""
        while b"\r\n\r\n" not in self.behind:
            self.behind += self.more()
        head = self.behind.index(b"\r\n\r\n") + 4
        length = re.search(rb"Content-Length: (\d+)", self.behind[:head])
        assert length
        whole, parts = head + int(length[1]), [self.behind]
        missing = whole - len(self.behind)
        while missing > 0:
            parts.append(self.more())
            missing -= len(parts[-1])
        found = b"".join(parts)
        self.behind = found[whole:]
        return found[:whole]

    def more(self) -> bytes:
        """More of an answer, of which some has to come."""
        found = os.read(self.output, 1 << 20)
        if not found:
            raise Differs(f"{self.run.args!r} ended with {self.run.wait()}")
        return found

    def seconds(self) -> float:
        """What it took of the processors, once it waits for its next message."""
        for _ in range(1_000):
            with open(f"/proc/{self.run.pid}/stat", encoding="latin-1") as state:
                if state.read().rpartition(")")[2].split()[0] == "S":
                    break
            time.sleep(0.0002)
        return time.clock_gettime(self.clock)

    def stop(self) -> int:
        """Ends its input, and it."""
        assert self.run.stdin and self.run.stdout
        self.run.stdin.close()
        self.run.stdout.close()
        return self.run.wait()


def measured(server: Server, messages: list[bytes]) -> tuple[float, list[bytes]]:
    """Microseconds of one of these messages, which are sent together, and the answers."""
    begin = server.seconds()
    answers = server.ask(messages)
    return (server.seconds() - begin) * 1e6 / len(messages), answers


def compare_answers(ask: Ask, messages: list[bytes], both: list[list[bytes]]) -> None:
    """A message has one answer, whoever gives it."""
    for message, *answers in zip(messages, *both):
        if answers[0] != answers[1]:
            at = next((k for k, (left, right) in enumerate(zip(*answers)) if left != right), min(map(len, answers)))
            ours, theirs = (it[max(at - 60, 0):at + 60] for it in answers)
            raise Differs(f"{ask.what}: {message[:200]!r} is answered, at byte {at}, {ours!r} and {theirs!r}")


def compare_rows(name: str, paths: list[str]) -> None:
    """Both files hold the same rows."""
    conn = sqlite3.connect(paths[0])
    conn.execute("ATTACH ? AS other", (paths[1],))
    for table in TABLES:
        for one, two in (("main", "other"), ("other", "main")):
            row = conn.execute(f"SELECT * FROM {one}.{table} EXCEPT SELECT * FROM {two}.{table} LIMIT 1").fetchone()
            if row:
                raise Differs(f"{name}: the rows of {table} differ behind the same messages: {row}")
    conn.close()


def parts_of(ask: Ask) -> list[list[bytes]]:
    """The messages that are measured, as they are sent."""
    return [ask.messages[at:at + ask.at_a_time] for at in range(0, len(ask.messages), ask.at_a_time)]


def ask_each(asks: list[Ask], servers: list[list[Server]]) -> None:
    """Asks the same of each file's two servers: of all the first messages, then of all the second ones, so that a slow
    moment of the machine comes to all. Which of the two comes first takes turns. It ends sooner where a turn takes
    long. What is kept is the median."""
    for ask, both in zip(asks, servers):
        for message in ask.before:
            compare_answers(ask, [message], [it.ask([message]) for it in both])
    parts = [parts_of(ask) for ask in asks]
    took: list[list[list[float]]] = [[[], []] for _ in asks]
    begun = time.monotonic()
    for turn in range(max(map(len, parts))):
        if turn >= TURNS and time.monotonic() > begun + SECONDS:
            break
        for ask, both, times, sent in zip(asks, servers, took, parts):
            if turn < len(sent):
                found = {at: measured(both[at], sent[turn]) for at in ((0, 1) if turn % 2 else (1, 0))}
                compare_answers(ask, sent[turn], [found[0][1], found[1][1]])
                for at in found:
                    times[at].append(found[at][0])
    for ask, both, times in zip(asks, servers, took):
        for server, one in zip(both, times):
            server.side.took.setdefault(ask.what, []).append(statistics.median(one))


def ask_family(family: list[Centre], room: str, sides: list[Side], first: bool) -> None:
    """Asks all of a family's files of both sides, each over its own copy. In the first round the rows that they leave
    are compared."""
    with tempfile.TemporaryDirectory(dir=room) as copies, contextlib.ExitStack() as ends:
        paths, servers = [], []
        for centre in family:
            path = f"{room}/{centre.name}.db"
            paths.append([shutil.copy(path, f"{copies}/{centre.name}.{side.name}") for side in sides])
            servers.append([Server(side, path) for side, path in zip(sides, paths[-1])])
            for server in servers[-1]:
                ends.enter_context(server.run)
                ends.callback(server.run.kill)
        for asks in zip(*(centre.asks for centre in family)):
            ask_each(list(asks), servers)
        ended = [server.stop() for both in servers for server in both]
        if any(ended):
            raise Differs(f"{family[0].name}: the programs ended with {ended}")
        for centre, both in zip(family, paths):
            if first:
                compare_rows(centre.name, both)


def build(room: str) -> str:
    """The server in C, compiled there."""
    program = f"{room}/peer"
    words = ["cc", "-O2", "-Wall", "-Wextra", "-Werror", "-o", program, f"{TOP}/tests/bench/peer.c", "-lsqlite3"]
    subprocess.run(words, check=True)
    return program


def syncs_of(side: Side, path: str, messages: list[bytes]) -> int:
    """How often a program syncs a file while it answers these messages over a copy of one, as strace counts it."""
    with tempfile.TemporaryDirectory(dir=os.path.dirname(path)) as room:
        copy = shutil.copy(path, f"{room}/{side.name}.db")
        words = ["strace", "-f", "-qq", "-e", "trace=fsync,fdatasync", "-e", "signal=none", "-o", f"{room}/calls"]
        subprocess.run([*words, *side.words, copy], input=b"".join(messages), stdout=subprocess.DEVNULL, check=True)
        with open(f"{room}/calls", encoding="latin-1") as calls:
            return sum("sync(" in it for it in calls)
