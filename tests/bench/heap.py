"""What an office keeps of memory, and what that costs of the processor, for `.ci/bench heap`: under the C library's
heap as the unit has it, under other settings of it, and under jemalloc as Debian has it.

The office is begun over a file (heap_file.py, and 30 days of year.py) by the words of the unit, with no more of /proc
than that shows it where this can be done (as root). How much of its memory is in use is counted by heap.c, which is
loaded in front of the C library for that alone."""

import contextlib
import http.client
import json
import os
import re
import shutil
import struct
import subprocess
import tempfile
import time
from dataclasses import dataclass
from typing import Callable, Iterator, Mapping, Sequence

import heap_file
import heap_judged
import year
from heap_judged import FIRST, PAIRS, SEALS, SETTLES, TABLES, Found

HERE = os.path.dirname(os.path.realpath(__file__))
UNIT = f"{os.path.dirname(os.path.dirname(HERE))}/deploy/temolunai@.service"
# The loader puts the folder of this machine's libraries for $LIB.
JEMALLOC = "/usr/$LIB/libjemalloc.so.2"
MEGABYTE = 1 << 20


@dataclass(frozen=True)
class Way:
    """How memory is handed out: what the office's environment says of it."""

    name: str
    environment: Mapping[str, str]


def of_unit() -> dict[str, str]:
    """What the unit says of the C library's heap."""
    with open(UNIT, encoding="utf-8") as unit:
        [text] = re.findall(r"^Environment=(GLIBC_TUNABLES)=(\S+)$", unit.read(), re.MULTILINE)
    return dict([text])


def glibc(**tunables: int) -> dict[str, str]:
    """Tunables of the C library's heap."""
    return {"GLIBC_TUNABLES": ":".join(f"glibc.malloc.{name}={value}" for name, value in tunables.items())}


def jemalloc(conf: str = "") -> dict[str, str]:
    """Debian's jemalloc, with this MALLOC_CONF."""
    return {**of_unit(), "LD_PRELOAD": JEMALLOC, **({"MALLOC_CONF": conf} if conf else {})}


def ways() -> list[Way]:
    """The first one is the unit's. The second is the same, and tells how far two runs differ."""
    soon = "background_thread:false,dirty_decay_ms:1000,muzzy_decay_ms:0"
    small, large = MEGABYTE // 8, 64 * MEGABYTE
    return [
        Way("glibc as the unit has it", of_unit()),
        Way("the same once more", of_unit()),
        Way("glibc as it comes", {}),
        Way("glibc, trim 64 MB", glibc(trim_threshold=large, mmap_threshold=large // 2, hugetlb=1)),
        Way("glibc, trim 1 MB", glibc(trim_threshold=MEGABYTE, mmap_threshold=large // 2, hugetlb=1)),
        Way("glibc, 128 KB, one arena", glibc(trim_threshold=small, mmap_threshold=small, arena_max=1)),
        Way("jemalloc", jemalloc()),
        Way("jemalloc, 1 s", jemalloc(soon)),
        Way("jemalloc, at once", jemalloc("dirty_decay_ms:0,muzzy_decay_ms:0")),
        Way("jemalloc, a thread", jemalloc("background_thread:true")),
        Way("jemalloc, large pages, 1 s", jemalloc(f"thp:always,{soon}")),
    ]


def words_of(program: str, path: str) -> list[str]:
    """The unit's words, for this file and any port."""
    with open(UNIT, encoding="utf-8") as unit:
        [words] = re.findall(r"^ExecStart=\S+ (.*)$", unit.read(), re.MULTILINE)
    places = {"/var/lib/temolunai/%i/office.db": path, "${PORT}": "0"}
    return [program, *(places.get(word, word) for word in words.split())]


def confined() -> list[str]:
    """Words that begin a program with no more of /proc than processes, as the unit does: jemalloc asks there how the
    kernel hands out memory."""
    if os.geteuid() != 0:
        return []
    return ["unshare", "-m", "sh", "-c", 'mount -t proc -o subset=pid proc /proc && exec "$@"', "sh"]


class Office:
    """The program over a file, and what it took so far."""

    def __init__(self, program: str, path: str, environment: Mapping[str, str]) -> None:
        ours = ("GLIBC_TUNABLES", "LD_PRELOAD", "MALLOC_CONF")
        surroundings = {name: it for name, it in os.environ.items() if name not in ours}
        words = [*confined(), "env", *(f"{name}={it}" for name, it in environment.items()), *words_of(program, path)]
        self.process = subprocess.Popen(words, stdout=subprocess.PIPE, stderr=subprocess.PIPE, env=surroundings)
        assert self.process.stdout
        said = self.process.stdout.readline()
        assert said.startswith(b"serving"), said
        self.peer = http.client.HTTPConnection("127.0.0.1", int(said.rpartition(b":")[2]), timeout=600)

    def ends(self) -> None:
        """It may be stopped at any moment. Nothing was said: the loader tells of a library that it doesn't find."""
        self.peer.close()
        self.process.kill()
        said = self.process.communicate()[1]
        assert said == b"", said

    def clock(self) -> float:
        """The processor milliseconds of the process so far, by its clock (clock_getcpuclockid of the C library)."""
        time.sleep(0.02)
        return time.clock_gettime((~self.process.pid << 3) | 2) * 1e3

    def ask(self, method: str, path: str, body: str = "") -> bytes:
        """An answer, which is 200."""
        self.peer.request(method, f"/ch/1/days/{path}", body if method == "POST" else None)
        answer = self.peer.getresponse()
        text = answer.read()
        assert answer.status == 200, text[-200:]
        return text

    def memory(self) -> dict[str, float]:
        """Megabytes, by the kernel's names."""
        text = ""
        for name in ("smaps_rollup", "status"):
            with open(f"/proc/{self.process.pid}/{name}", encoding="ascii") as lines:
                text += lines.read()
        return {name: int(value) / 1024 for name, value in re.findall(r"^(\w+):\s+(\d+) kB$", text, re.MULTILINE)}


@contextlib.contextmanager
def office(program: str, path: str, environment: Mapping[str, str]) -> Iterator[Office]:
    """An office over a copy of the file."""
    with tempfile.TemporaryDirectory(dir=os.path.dirname(path)) as room:
        it = Office(program, shutil.copy(path, f"{room}/office.db"), environment)
        try:
            yield it
        finally:
            it.ends()


def settles(it: Office) -> None:
    """So long nothing is asked, in which what is to be given back by and by is given back. The connection ends then."""
    it.peer.close()
    time.sleep(SETTLES)


def tables(it: Office, first: int, last: int) -> None:
    """The tables of these requests: of the first days, in turn."""
    for number in range(first, last):
        assert it.ask("GET", str(1 + number % FIRST)).count(b"\n") > year.ITEMS


def planned(it: Office) -> None:
    """An item into the open day, and out again."""
    body = json.dumps({"at": "05:59:50:00", "frames": 25, "in": "00:00:00:00", "mix": 0, "source": "BL"})
    for _ in range(PAIRS):
        number = json.loads(it.ask("POST", f"{heap_file.OPEN}/items", body))["item"]
        it.ask("POST", f"{heap_file.OPEN}/items/{number}/remove")


def sealed(it: Office) -> None:
    """Days that nobody asked for before."""
    for day in range(FIRST + 1, FIRST + 1 + SEALS):
        it.ask("POST", f"{day}/seal")


def run(program: str, path: str, environment: Mapping[str, str], asks: Sequence[Callable[[Office], None]]) -> Found:
    """An office's open, its tables and what else it is asked, with what each took."""
    steps = (settles, lambda it: tables(it, 0, FIRST), lambda it: tables(it, FIRST, TABLES), *asks)
    with office(program, path, environment) as it:
        moments, clocks = [], [0.0]
        for step in steps:
            step(it)
            clocks.append(it.clock())
            moments.append(it.memory())
    counts = (1, FIRST, TABLES - FIRST, PAIRS, SEALS)
    costs = [(later - before) / count for before, later, count in zip(clocks, clocks[1:], counts)]
    own, resident = ([it[name] for it in moments[:3]] for name in ("Anonymous", "Rss"))
    return Found(own, resident, moments[-1]["VmHWM"], costs)


def compiled(room: str) -> str:
    """What counts the bytes in use."""
    library = f"{room}/heap.so"
    words = ["cc", "-O2", "-Wall", "-Wextra", "-Werror", "-shared", "-fPIC", "-o", library, f"{HERE}/heap.c"]
    subprocess.run(words, check=True)
    return library


def counting(room: str) -> dict[str, str]:
    """The environment of a program whose bytes in use are counted, and the file that has them."""
    with open(f"{room}/count", "wb") as out:
        out.write(bytes(8))
    return {"LD_PRELOAD": compiled(room), "HEAP_COUNT": f"{room}/count"}


def counted(path: str) -> float:
    """The megabytes in use, as they stand in a file."""
    with open(path, "rb") as count:
        found: int = struct.unpack("q", count.read(8))[0]
    return found / MEGABYTE


def in_use(program: str, path: str, room: str) -> list[float]:
    """The megabytes in use at each moment."""
    surroundings = counting(room)
    with office(program, path, surroundings) as it:
        found = [counted(surroundings["HEAP_COUNT"])]
        for first, last in ((0, FIRST), (FIRST, TABLES)):
            tables(it, first, last)
            found.append(counted(surroundings["HEAP_COUNT"]))
    return found


def of_file(program: str, room: str, rounds: int, path: str, asks: Sequence[Callable[[Office], None]]) -> None:
    """Prints what an office over this file keeps and takes by each of the ways, which take turns."""
    used = in_use(program, path, room)
    found: dict[str, list[Found]] = {it.name: [] for it in ways()}
    load = os.getloadavg()[0]
    for _ in range(rounds):
        for it in ways():
            found[it.name].append(run(program, path, it.environment, asks))
    print(f"\n{rounds} rounds over {os.path.getsize(path) / 1e6:.0f} MB, at a load of {load:.1f} to"
          f" {os.getloadavg()[0]:.1f}{', with the /proc of the unit' if confined() else ''}")
    heap_judged.report(found, used)


def of_heap(program: str, room: str, rounds: int) -> None:
    """Prints what offices over two files keep: of one channel's large days, and of many channels."""
    heap_file.make(program, f"{room}/heap.db")
    of_file(program, room, rounds, f"{room}/heap.db", (planned, sealed))
    year.make(program, f"{room}/year.db", heap_file.DAYS)
    of_file(program, room, rounds, f"{room}/year.db", ())


# A program that takes 50 MB by each call that there is for it, and frees them again. It prints what was counted then,
# in MB, and what is left of it.
TAKES = """
import ctypes, struct, sys
c, size = ctypes.CDLL(None), ctypes.c_size_t
n, align = size(50 << 20), size(64)
def found(): return struct.unpack("q", open(sys.argv[1], "rb").read(8))[0]
for name in ("malloc", "calloc", "realloc", "aligned_alloc", "memalign"): getattr(c, name).restype = ctypes.c_void_p
def put(): p = ctypes.c_void_p(); c.posix_memalign(ctypes.byref(p), align, n); return p.value
def moved(): return c.realloc(ctypes.c_void_p(c.malloc(size(9))), n)
def zeroed(): return c.calloc(n, size(1))
for take in (put, moved, zeroed, lambda: c.malloc(n), lambda: c.aligned_alloc(align, n), lambda: c.memalign(align, n)):
    before = found()
    it = take()
    taken = found() - before
    c.free(ctypes.c_void_p(it))
    print(taken >> 20, (found() - before) >> 16)
"""


def counts() -> bool:
    """What is taken and freed is counted."""
    with tempfile.TemporaryDirectory() as room:
        surroundings = {**os.environ, **counting(room)}
        words = ["/usr/bin/python3", "-c", TAKES, surroundings["HEAP_COUNT"]]
        done = subprocess.run(words, env=surroundings, capture_output=True, check=False)
    is_right = done.stdout == b"50 0\n" * 6
    if not is_right:
        print(f"heap: what was taken and freed isn't what was counted: {done.stdout!r} {done.stderr[-300:]!r}")
    return is_right


def self_test() -> int:
    """The judging can say no, and what is in use is counted."""
    is_right = heap_judged.can_say_no() and counts()
    if is_right:
        print("heap: findings are told apart, and what is in use is counted")
    return 0 if is_right else 1
