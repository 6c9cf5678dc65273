"""What trail, recover and purge-check have in common: a log as it stands in a replica's folder, and the program."""

import os
import re
import shutil
import subprocess
import sys
from typing import Iterator, NamedTuple, NoReturn, Optional

from replica.entries import Entry
from replica.faults import Stopped
from replica.segments import Logged, Record, next_sum, position_of, read, segments

HERE = os.path.dirname(os.path.realpath(__file__))
# What one run of the program is given at most, in bytes.
AT_ONCE = 64 << 20


class Done(NamedTuple):
    """An entry, and what was answered to it, where that is there. Its time is none before that of an earlier entry: clocks
    may be set back, the log's order may not."""

    n: int
    entry: Entry
    record: Optional[Record]
    time: str


class Reading:
    """What a reading of a log came to."""

    def __init__(self) -> None:
        self.faults: list[str] = []
        # Where it begins and ends, answers whose entries went with a segment that was removed, entries without an answer,
        # and answers that may not be the first ones.
        self.start: Optional[Record] = None
        self.last: Optional[Record] = None
        self.time = ""
        self.removed = self.waiting = self.unsure = 0
        # The running sum behind each entry.
        self.sums: dict[int, str] = {}

    def notes(self, it: Record, before: Record, value: bytes) -> None:
        """Tests the running sum of an answer."""
        if next_sum(before.sum, it.n, it.revision, value, it.answer, it.sure) != it.sum:
            self.faults.append(f"entry {it.n}, or its answer, was changed: the running sum doesn't fit")
        self.unsure += not it.sure
        self.last, self.sums[it.n] = it, it.sum


def refuses(why: object) -> NoReturn:
    """A line that says why, and exit status 1."""
    sys.exit(f"{os.path.basename(sys.argv[0])}: {why}")


def lines(folder: str, reading: Reading) -> Iterator[tuple[int, bytes, Optional[Record]]]:
    """Each entry of a log in order, with its answer. Those whose entries were in a segment that was removed are left out."""
    waiting: dict[int, bytes] = {}
    paths = segments(folder)
    if not paths:
        raise Stopped(f"there is no log in {folder}")
    last = reading.start = reading.last = position_of(paths[0])
    for path in paths:
        for it in read(path):
            if isinstance(it, Logged):
                if it.n > last.n:       # else it stands in the segment before, too
                    waiting[it.n] = it.value
                continue
            is_removed = it.n not in waiting and path == paths[0] and last.n == reading.start.n + reading.removed
            if it.n != last.n + 1 or it.n not in waiting and not is_removed:
                raise Stopped(f"{path}: entry {it.n} comes behind entry {last.n}")
            if is_removed:
                reading.removed += 1
                reading.last, reading.sums[it.n] = it, it.sum
            else:
                value = waiting.pop(it.n)
                reading.notes(it, last, value)
                yield it.n, value, it
            last = it
    reading.waiting = len(waiting)
    for n in sorted(waiting):
        yield n, waiting[n], None


def history(folder: str, reading: Optional[Reading] = None) -> Iterator[Done]:
    """All entries of a log in order, with their answers. A running sum that doesn't fit is told, or refused."""
    found = reading or Reading()
    for n, value, record in lines(folder, found):
        if found.faults and not reading:
            raise Stopped(found.faults[0])
        entry = Entry.unpack(value)
        found.time = max(found.time, entry.time)
        yield Done(n, entry, record, found.time)


def until_of(text: str) -> str:
    """A time, or a beginning of one, as it is compared."""
    if not re.fullmatch(r"\d{4}(-\d\d(-\d\d(T\d\d(:\d\d(:\d\d(\.\d{1,6})?Z?)?)?)?)?)?", text):
        raise Stopped(f"{text} is no time")
    return text.rstrip("Z")


def position(folder: str) -> Record:
    """Where the log stood as this copy of an office was taken."""
    if not os.path.exists(f"{folder}/office.db") or not os.path.exists(f"{folder}/position"):
        raise Stopped(f"{folder} is no backup of a replica: it has no office.db, or no position")
    return position_of(f"{folder}/position")


def copied(backup: str, folder: str) -> str:
    """The file of a new office, with what the one of a backup held."""
    for name in ("office.db", "office.db-wal"):
        if os.path.exists(f"{backup}/{name}"):
            shutil.copy(f"{backup}/{name}", folder)
    return f"{folder}/office.db"


def playout(*words: str, given: bytes = b"") -> "subprocess.CompletedProcess[bytes]":
    """Runs the program: that of PLAYOUT, of this repository, or of this machine."""
    beside = f"{HERE}/../playout"
    program = os.environ.get("PLAYOUT") or (beside if os.access(beside, os.X_OK) else "playout")
    return subprocess.run([program, *words], input=given, capture_output=True, check=False)


def opens(file: str) -> None:
    """The program opens the file, which tests all its rows. A channel that isn't there is looked for behind that."""
    done = playout("table", "--db", file, "--ch", "1", "vault")
    if done.returncode and done.stderr.strip() != b"404 NotFound":
        raise Stopped(f"the program says: {done.stderr.decode().strip()}")


def answers(data: bytes) -> Iterator[bytes]:
    """The answers that stand one behind another."""
    at = 0
    while at < len(data):
        end = data.index(b"\r\n\r\n", at) + 4
        found = re.search(rb"(?i)\r\nContent-Length: ([0-9]+)\r\n", data[at:end])
        end += int(found[1]) if found else 0
        yield data[at:end]
        at = end


def replayed(file: str, messages: list[bytes]) -> list[bytes]:
    """What the office of this file answers to each of these messages."""
    said: list[bytes] = []
    while len(said) < len(messages):
        size, end = 0, len(said)
        while end < len(messages) and size < AT_ONCE:
            size, end = size + len(messages[end]), end + 1
        done = playout("answer", "--db", file, given=b"".join(messages[len(said):end]))
        got = list(answers(done.stdout))        # fewer where an answer ended the stream: the rest goes into another one
        if done.returncode or not got:
            raise Stopped(f"the program says: {done.stderr.decode().strip()}")
        said += got
    return said
