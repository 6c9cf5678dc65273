"""What replicas cost: requests a second and how long one takes, against one office, in one run. The ways take turns in
short slices, so that what else the machine does falls on all of them."""

import json
import os
import re
import subprocess
import urllib.request

from faults import Run
from gateway import Gateway, upstream
from harness import PYTHON, TOP, TUNABLES, Kept, check, equal, free_ports, make_centre, note, office_words, undo
from single import Single
from traffic import PLAN

LOAD = f"{TOP}/tests/replica/load.py"
# What a log on the own disk is to leave of what the office alone does.
LEAST = 0.6


class Alone:
    """An office behind nginx, as without replicas: connections to it are kept, as deploy/example/temolunai has it. Beside it a
    gateway that has one for each request."""

    def __init__(self, folder):
        os.makedirs(folder)
        make_centre(f"{folder}/office.db", PLAN)
        self.port, = free_ports(1)
        self.office = Kept(office_words(f"{folder}/office.db", self.port), f"{folder}/office.log", TUNABLES)
        server = f"server 127.0.0.1:{self.port};"
        self.gateways = [Gateway(f"{folder}/{name}", f"upstream part_a {{ {server} {kept} }}\n", replicas=False)
                         for name, kept in (("kept", "keepalive 16; keepalive_timeout 5s;"), ("one-each", ""))]
        for it in self.gateways:
            it.start()

    def end(self):
        for it in self.gateways:
            it.stop()
        self.office.end()


# What counts how often a program had the disk sync, in its own figures.
SYNCS = {"replica": "temolunai_replica_syncs_total", "etcd": "etcd_disk_(?:wal_fsync|backend_commit)_duration_seconds_count"}


def syncs(parts):
    """How often these programs had the disk sync so far, by what they are, where they count it."""
    found = {}
    for name, _, port in parts:
        if name in SYNCS:
            with urllib.request.urlopen(f"http://127.0.0.1:{port}/metrics", timeout=5) as reply:
                counts = re.findall(rf"^{SYNCS[name]} (\S+)$", reply.read().decode(), re.MULTILINE)
            found[name] = found.get(name, 0) + sum(map(float, counts))
    return found


def processor(parts):
    """What these programs took of a processor so far, in milliseconds, by what they are."""
    found, tick = {}, 1000 / os.sysconf("SC_CLK_TCK")
    for name, kept, _ in parts:
        with open(f"/proc/{kept.process.pid}/stat", encoding="ascii", errors="replace") as it:
            words = it.read().rpartition(")")[2].split()
        found[name] = found.get(name, 0) + tick * (int(words[11]) + int(words[12]))
    return found


class Figures:
    """The times of each way, kind and number of clients, and what its programs took of a processor and had synced (`parts`, by
    way: the name of each, its process, and the port that has its figures)."""

    def __init__(self, parts):
        self.times, self.seconds, self.other, self.parts = {}, {}, {}, parts
        self.taken, self.synced = {}, {}

    def slice(self, way, target, kind, clients, seconds, gateway):
        """Clients in as many processes as the machine has processors to spare, since one process is soon the slowest part."""
        key, before = (way, kind, clients), [it(self.parts[way]) for it in (processor, syncs)]
        share = max(1, clients // 4)
        words = [PYTHON, "-B", LOAD, "--target", target, "--seconds", str(seconds), "--kind", kind,
                 "--clients", str(share), *(["--gateway"] if gateway else [])]
        running = [subprocess.Popen([*words, "--user", str(user)], stdout=subprocess.PIPE) for user in range(1, clients + 1, share)]
        for it in running:
            said = it.communicate()[0]
            found = json.loads(said) if said else {"times": [], "other": 1}
            self.times.setdefault(key, []).extend(found["times"])
            self.other[key] = self.other.get(key, 0) + found["other"]
        self.seconds[key] = self.seconds.get(key, 0) + seconds
        for counts, counted, was in zip((self.taken, self.synced), (processor, syncs), before):
            taken = counts.setdefault(key, {})
            for name, now in counted(self.parts[way]).items():
                taken[name] = taken.get(name, 0) + now - was[name]

    def costs(self, way, kind, clients):
        """What one request takes of a processor, by program, in milliseconds, and how often it has the disk sync; of several
        nodes one node's share."""
        key, nodes = (way, kind, clients), max(1, sum(name == "office" for name, *_ in self.parts[way]))
        count = max(1, len(self.times.get(key, ()))) * nodes
        told = [f"ms of processor a node: {', '.join(f'{name} {it / count:.2f}' for name, it in self.taken.get(key, {}).items())}"]
        if kind == "POST" and self.synced.get(key):
            told.append(f"syncs a node: {', '.join(f'{name} {it / count:.2f}' for name, it in self.synced[key].items())}")
        return "; ".join(told)

    def rate(self, *key):
        return len(self.times.get(key, ())) / self.seconds.get(key, 1)

    def text(self, *key):
        times = sorted(self.times.get(key, [0]))
        return (f"{self.rate(*key):.0f} a second, p50 {times[len(times) // 2]:.2f} ms, p99 {times[len(times) * 99 // 100]:.2f} ms, "
                f"slowest {times[-1]:.0f} ms")


# How many clients ask at once.
CLIENTS = (1, 16)


def measure(ways, seconds, slices, parts):
    """Each way in turn; its name, target and whether that is a gateway."""
    found = Figures(parts)
    for _ in range(slices):
        for kind in ("POST", "GET"):
            for clients in CLIENTS:
                for way, target, gateway in ways:
                    found.slice(way, target, kind, clients, seconds, gateway)
    for kind in ("POST", "GET"):
        for clients in CLIENTS:
            for way, _, _ in ways:
                note(f"{kind}, {clients} client{'s' if clients > 1 else ''}, {way}: {found.text(way, kind, clients)}; "
                     f"{found.costs(way, kind, clients)}")
    return found


def goes_before_all():
    """What is measured, and whoever asks it, has a processor as soon as it wants one, whatever else the machine does. Else
    each wait for a disk or for another program is one for a processor, too, and the figures are those of the other work."""
    before = os.sched_getscheduler(0), os.sched_getparam(0)
    try:
        os.sched_setscheduler(0, os.SCHED_RR, os.sched_param(1))
    except OSError:
        note("the kernel lets nothing go before the other work")
    undo.append(lambda: os.sched_setscheduler(0, *before))
    return before


def figures(folder, seconds=1.0, slices=9):
    """One office, one machine with a log, and three replicas, all behind nginx."""
    before = goes_before_all()
    alone = Alone(f"{folder}/alone")
    one = Single(f"{folder}/one")
    three = Run(f"{folder}/three")
    # All ask the gateway of one machine, which asks its own replica.
    own = Gateway(f"{folder}/own", upstream(*(it.port for it in three.cluster.nodes), own=True))
    own.start()
    ways = [("one office", f"127.0.0.1:{alone.gateways[0].port}", True),
            ("one office, a connection for each request", f"127.0.0.1:{alone.gateways[1].port}", True),
            ("one office with a log", f"127.0.0.1:{one.gateway.port}", True),
            ("three replicas", f"127.0.0.1:{own.port}", True)]
    load = os.getloadavg()[0]
    parts = {"one office": [("office", alone.office, 0)],
             "one office, a connection for each request": [("office", alone.office, 0)],
             "one office with a log": [("office", one.office, 0), ("replica", one.replica, one.port)],
             "three replicas": [(name, getattr(it, name), {"replica": it.port, "etcd": it.client}.get(name, 0))
                                for it in three.cluster.nodes for name in ("office", "replica", "etcd")]}
    found = measure(ways, seconds, slices, parts)
    note(f"the machine's load was {load:.1f} before and {os.getloadavg()[0]:.1f} behind that, of {os.cpu_count()} processors")
    equal("all was answered 200", {}, {key: count for key, count in found.other.items() if count})
    for kind in ("POST", "GET"):
        for way, what in (("one office with a log", "a log on the own disk leaves"), ("three replicas", "three replicas leave")):
            few, many = (found.rate(way, kind, it) / found.rate("one office", kind, it) for it in CLIENTS)
            note(f"{what} {many:.2f} of the {kind}s of {CLIENTS[-1]} clients, and {few:.2f} of those of one")
            if way == "one office with a log":
                each = found.rate(way, kind, CLIENTS[-1]) / found.rate("one office, a connection for each request", kind, CLIENTS[-1])
                check(f"{what} at least {LEAST} of the {kind}s of one with a connection for each", each >= LEAST, each)
    alone.end()
    one.end()
    own.stop()
    three.cluster.wait_well("after the figures")
    three.end()
    os.sched_setscheduler(0, *before)
