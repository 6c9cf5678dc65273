"""Faults on loopback, under traffic of all commands: what breaks, for how long, and that nothing is lost."""

import os
import random
import signal
import subprocess
import threading
import time

from cluster import Cluster, read_notes, tell_silences
from compare import ANSWERED, Watcher, compare, known_to_nobody
from gateway import Gateway, upstream
from harness import PYTHON, TOP, Kept, check, equal, note, operator, run, script, undo, until, wipe

TRAFFIC = f"{TOP}/tests/replica/traffic.py"


class Traffic:
    """The users, in a process of their own."""

    count = 0

    def __init__(self, folder, targets, seconds, *words, inside=()):
        Traffic.count += 1
        self.out, self.seconds = f"{folder}/notes-{Traffic.count}", seconds
        self.begun = time.time()
        self.process = subprocess.Popen([*inside, PYTHON, "-B", TRAFFIC, "--targets", targets, "--seconds", str(seconds),
                                         "--out", self.out, "--seed", str(Traffic.count), *words])
        undo.append(self.end)

    def wait(self):
        """What was asked and answered."""
        check("the traffic ends", self.process.wait(self.seconds + 60) == 0)
        return read_notes(self.out)

    def end(self):
        if self.process.poll() is None:
            self.process.kill()
            self.process.wait()


def failed_ones(notes):
    """Requests that weren't answered as an office answers: the code, or why there is none, and how long that took."""
    bad = [it for it in notes if it.get("status", 0) not in ANSWERED]
    return [(it["method"], it["path"], it.get("status"), it.get("fault"), round(it.get("end", 0) - it["begin"], 2)) for it in bad]


class Run:
    """A cluster with its watcher, and all that was asked of it so far."""

    def __init__(self, folder, **words):
        self.folder, self.cluster = folder, Cluster(f"{folder}/nodes", **words)
        self.cluster.begin()
        self.watcher = Watcher(self.cluster.watch_words)
        undo.append(self.watcher.end)
        self.notes = []
        ports = [it.port for it in self.cluster.nodes]
        self.targets = ",".join(f"127.0.0.1:{it}" for it in ports)
        self.gateway = Gateway(f"{folder}/gateway", upstream(*ports))
        self.gateway.start()
        self.names_known = True

    def entries(self):
        """All of the log, once the watcher has it."""
        last = max(it["n"] for it in self.cluster.states())
        check("the log is read", until(lambda: max(self.watcher.entries, default=0) >= last, 10), (last, len(self.watcher.entries)))
        return dict(self.watcher.entries)

    def under_traffic(self, what, seconds, hits, by_gateway=False, longest=3.0, users=12, unknowable=0):
        """Traffic for so long, with these faults at their times: pairs of seconds and what is done then, which gives its
        name. Then all is compared. Of so many entries nobody may know the first answer, which is told 504."""
        before = max(it["n"] for it in self.cluster.states())
        target = f"127.0.0.1:{self.gateway.port}" if by_gateway else self.targets
        words = ["--gateway"] if by_gateway else []
        traffic = Traffic(self.folder, target, seconds, "--users", str(users), *words)
        events = []
        for at, hit in hits:
            time.sleep(max(0, traffic.begun + at - time.time()))
            events.append((time.time(), hit()))
        notes = traffic.wait()
        if events:
            tell_silences(what, notes, events, max(it["end"] for it in notes if "end" in it), longest)
        self.cluster.wait_well(what)
        left = self.answerable(what, notes, before, unknowable)
        if by_gateway:
            self.names_known = False
            if not equal(f"{what}: no request fails behind nginx", [], failed_ones(left)):
                print(self.gateway.why(), flush=True)
        else:
            equal(f"{what}: all requests are answered", [], [it for it in left if "status" not in it][:3])
        self.notes += notes
        self.compare(what)
        return notes

    def answerable(self, what, notes, before, most):
        """The requests without those whose first answer nobody can know. Where not all offices were ended there is none."""
        told, count = known_to_nobody([it.journal for it in self.cluster.nodes], self.entries(), notes, before)
        check(f"{what}: the first answers that nobody knows are {most} at most", count <= most, (count, told))
        if count:
            note(f"{what}: of {count} entries nobody knows the first answer; {len(told)} requests were told 504")
        return [it for it in notes if it not in told]

    def compare(self, what):
        """Once no request runs."""
        return compare(what, self.cluster.base, self.folder, self.cluster.files(), self.entries(), self.notes, not self.names_known)

    def kills(self, node, *names):
        """A fault: these programs of a node, or of the one that leads, end at once."""
        def hit():
            it = self.cluster.leader() if node == "leader" else self.cluster.nodes[node]
            it.kill(*names)
            return f"{'+'.join(names) if len(names) < 3 else 'node'} {it.name}{' (leader)' if node == 'leader' else ''}"
        return hit

    def kills_all(self):
        for it in self.cluster.nodes:
            it.kill("etcd", "office", "replica")
        return "all nodes"

    def end(self):
        self.watcher.end()
        self.gateway.stop()
        self.cluster.end()


NODE = ("etcd", "office", "replica")
# What the replicas of a lost member are told that the log may take. A log that takes too much is the killer's.
QUOTA = 20_000_000


def short(folder):
    """Each kind of SIGKILL once, behind nginx and directly. The gate's machine may be busy, so POSTs may wait twice as long."""
    it, longest = Run(f"{folder}/short"), 6.0
    direct = [(2, it.kills("leader", "etcd")), (5, it.kills(0, "office")), (8, it.kills(1, "replica"))]
    it.under_traffic("direct", 15, direct, longest=longest)
    behind = [(2, it.kills("leader", *NODE)), (6, it.kills(1, "office")), (9, it.kills(2, "replica"))]
    it.under_traffic("behind nginx", 16, behind, True, longest)
    it.under_traffic("behind nginx: all nodes", 10, [(2, it.kills_all)], True, longest, unknowable=1)
    it.end()


def kills(folder):
    """SIGKILL of the leader, an office, a replica, a node and all nodes, directly and behind nginx."""
    it = Run(f"{folder}/kills")
    for by_gateway in (False, True):
        way = "behind nginx: " if by_gateway else ""
        it.under_traffic(f"{way}all nodes", 11, [(3, it.kills_all)], by_gateway, unknowable=1)
        for name, hits in {
            "leader": [(2, it.kills("leader", "etcd")), (6, it.kills("leader", "etcd"))],
            "office": [(2, it.kills(0, "office")), (5, it.kills(1, "office")), (8, it.kills(2, "office"))],
            "replica": [(2, it.kills(0, "replica")), (5, it.kills(1, "replica")), (8, it.kills(2, "replica"))],
            "node": [(2, it.kills("leader", *NODE)), (6, it.kills(0, *NODE))],
        }.items():
            it.under_traffic(f"{way}{name}", 11, hits, by_gateway)
    chance = random.Random("mixed")
    hits = [(at, it.kills(chance.randrange(3), chance.choice(NODE))) for at in range(2, 30, 2)]
    it.under_traffic("behind nginx: one fault behind another", 33, hits, True)
    it.end()


# ---- A full disk ----


def full_disk(folder):
    """The disk of node c is full: it refuses, the others go on, and it comes back by itself."""
    disk = f"{folder}/full/disk"
    os.makedirs(disk)
    os.makedirs(f"{folder}/full/nodes")
    status, _, faults = run("mount", "-t", "tmpfs", "-o", "size=400m,mode=0700", "tmpfs", disk)
    if not check("a disk of its own", status == 0, faults):
        return
    undo.append(lambda: run("umount", disk))
    os.symlink(disk, f"{folder}/full/nodes/c")
    it = Run(f"{folder}/full")
    filler = f"{disk}/filler"

    def is_ill():
        """It says so, or it is away."""
        state = it.cluster.nodes[2].state()
        return state if state["ill"] or state["n"] < 0 else None

    def fills():
        run("dd", "if=/dev/zero", f"of={filler}", "bs=64k")
        # From when the disk is full on: where other work slows the filling down, that is later.
        seen.append(threading.Thread(target=lambda: seen.append(until(is_ill, 3))))
        seen[0].start()
        return "full disk"

    def empties():
        os.remove(filler)
        return "room again"

    seen = []
    it.under_traffic("full disk", 16, [(3, fills), (10, empties)])
    seen[0].join()
    check("the node with the full disk says within 3 s that it is ill", seen[1], it.cluster.nodes[2].state())
    seen.clear()
    it.under_traffic("behind nginx: full disk", 14, [(3, fills), (9, empties)], True)
    it.end()
    equal("the disk is given back", 0, run("umount", disk)[0])


# ---- A member that is lost, and comes back from a backup behind a compaction ----


def backup(node, folder):
    """A backup of a node, under load. Its folder."""
    status, said, faults = script("replica-backup", node.journal, node.file, folder)
    equal("a backup of a replica", (0, ""), (status, faults))
    return said.strip()


def etcdctl(node, *words):
    url = f"{node.scheme}://127.0.0.1:{node.client}"
    return run("etcdctl", "--endpoints", url, *node.tls("--cacert", "--cert", "--key"), *words, surroundings={"ETCDCTL_API": "3"})


def lost_member(folder):
    """Its machine is gone: it is dropped by rule, the log is compacted, and it comes back from a backup."""
    it = Run(f"{folder}/lost", replica_words=["--drop-after", "4", "--quota", str(QUOTA)])
    a, _, c = it.cluster.nodes
    it.under_traffic("before a member is lost", 4, [])
    check("without a backup, that is told", until(lambda: "backup" in a.state()["warnings"], 15), a.state())
    room_is_told(a)
    for part in c.parts():
        part.end()
    wipe(c.folder)
    os.makedirs(f"{folder}/lost/backups")
    traffic = Traffic(it.folder, ",".join(it.targets.split(",")[:2]), 34)
    time.sleep(3)
    first = backup(a, f"{folder}/lost/backups")
    check("it is told which member is dropped", until(lambda: "c" in a.state()["warnings"], 25), a.state())
    compacted = until(lambda: "compacted" in str(a.etcd_says("kv/range", {"key": "eA==", "revision": 2})), 15)
    check("the log is compacted without it", compacted)
    back = lose_and_return(it, c, first)
    it.notes += traffic.wait()
    it.cluster.wait_well("a lost member", 40)
    note(f"a lost member was back, behind {len(it.entries())} entries, in {back:.1f} s")
    it.compare("a member that was lost")
    it.under_traffic("after it came back", 4, [])
    upgrade(it)
    blocked(it)
    lost_majority(it)
    it.end()


def room_is_told(node):
    """What the log takes of its quota."""
    said = run("curl", "-s", f"http://127.0.0.1:{node.port}/metrics")[1]
    numbers = {line.split()[0]: int(line.split()[1]) for line in said.splitlines()}
    equal("the quota as a metric", QUOTA, numbers.get("temolunai_replica_log_quota_bytes"))
    check("the log as a metric", numbers.get("temolunai_replica_log_bytes", 0) > 50_000, numbers)
    equal("that there is no backup", 1, numbers.get("temolunai_replica_no_backup"))
    equal("a warning is no illness", (0, 0), (numbers.get("temolunai_replica_ill"), numbers.get("temolunai_replica_stopped")))


def lose_and_return(it, node, taken):
    """The steps of docs/REPLICAS.md. How long they took."""
    a = it.cluster.nodes[0]
    begun = time.monotonic()
    status, said, faults = etcdctl(a, "member", "list")
    gone = next((line.split(",")[0] for line in said.splitlines() if line.split(", ")[2] == node.name), "")
    check("the member is listed", gone, said + faults)
    equal("member remove", 0, etcdctl(a, "member", "remove", gone)[0])
    status, said, faults = etcdctl(a, "member", "add", node.name, f"--peer-urls={node.scheme}://{node.host}:{node.peer}")
    equal("member add", (0, ""), (status, faults))
    os.makedirs(f"{node.folder}/office", mode=0o700)
    os.makedirs(node.journal, mode=0o700)
    equal("restore", (0, "", ""), script("restore", taken, node.file))
    equal("begin from a backup", (0, "", ""), script("begin", taken, node.journal))
    node.begin_etcd("existing")
    node.begin_office()
    node.begin_replica()
    check("it is well", until(lambda: not node.state()["ill"] and node.state()["n"] >= 0, 30), node.state())
    return time.monotonic() - begun


def upgrade(it):
    """The program is replaced on all machines at one entry."""
    traffic = Traffic(it.folder, it.targets, 9)
    time.sleep(2)
    nodes = it.cluster.nodes
    equal("a pause", 200, operator(nodes[0].journal, "pause")[0])
    stand = until(lambda: all("pause" in node.state()["ill"] for node in nodes), 10)
    check("all stand still", stand, it.cluster.states())
    equal("at one entry", 1, len({node.state()["n"] for node in nodes}))
    for node in nodes:
        node.office.stop()
    for node in nodes:
        node.replica.kill()
        node.office.start()
    check("a start goes on waiting", until(lambda: all("pause" in node.state()["ill"] for node in nodes), 10), it.cluster.states())
    for node in nodes:
        until(lambda: operator(node.journal, "resume")[0] == 200)
    it.notes += [one for one in traffic.wait()]
    it.cluster.wait_well("an upgrade")
    it.compare("an upgrade at one entry")


def blocked(it):
    """An entry that no office takes is left out by an operator's word, by all."""
    nodes = it.cluster.nodes
    for node in nodes:
        node.office.stop()
    body = '{"barcode":"STUCK","slot":9997}'
    words = ["curl", "-s", "-m", "30", "-w", " %{http_code}", "-H", "Request-Id: stuck", "-H", "Request-User: u1", "-d", body,
             f"http://127.0.0.1:{nodes[0].port}/ch/1/tapes"]
    asking = subprocess.Popen(words, stdout=subprocess.PIPE)
    undo.append(lambda: asking.poll() is None and asking.kill())
    stuck = until(lambda: all("office" in node.state()["ill"] for node in nodes), 15)
    check("all stand before the entry", stuck, it.cluster.states())
    n = nodes[0].state()["n"] + 1
    equal("another entry isn't left out", 409, operator(nodes[0].journal, f"skip/{n + 1}")[0])
    equal("an entry is left out", 200, operator(nodes[0].journal, f"skip/{n}")[0])
    check("whoever sent it isn't told that it was done", asking.communicate()[0][-3:] in (b"503", b"504"))
    for node in nodes:
        node.office.start()
    it.cluster.wait_well("an entry that was left out")
    equal("nor later", b" 503", run(*words)[1][-4:].encode())
    it.notes.append({"user": "u1", "method": "POST", "path": "/ch/1/tapes", "body": body, "id": "stuck"})
    it.compare("an entry that was left out")


def lost_majority(it):
    """Two machines are gone: the third refuses, and is made to go on alone."""
    a, b, c = it.cluster.nodes
    for node in (b, c):
        for part in node.parts():
            part.end()
    refused = until(lambda: asked_one(a)[0] == "503", 15)
    check("one of three refuses", refused, asked_one(a))
    a.etcd.end()
    words = a.etcd.words
    a.etcd = Kept([*words, "--force-new-cluster"], f"{a.folder}/etcd.log", {"ETCD_LOG_LEVEL": "warn"})
    check("it is made to go on alone", until(a.is_leader, 15))
    a.etcd.end()
    a.etcd = Kept(words, f"{a.folder}/etcd.log", {"ETCD_LOG_LEVEL": "warn"})
    check("one that was made to go on answers", until(lambda: asked_one(a)[0] in ("200", "409"), 15), asked_one(a))


def asked_one(node):
    """The code and the body of a POST."""
    tape = '{"barcode":"ALONE","slot":9998}'
    done = run("curl", "-s", "-m", "10", "-w", "\n%{http_code}", "-d", tape, f"http://127.0.0.1:{node.port}/ch/1/tapes")
    body, _, code = done[1].rpartition("\n")
    return code, body


# ---- Programs that hang ----


def hangs(folder):
    """The office, the replica, etcd and all of a node say nothing for 12 seconds: POSTs are answered as soon as behind a kill,
    none waits for long, and health says what hangs."""
    it = Run(f"{folder}/hangs")
    seen = {}

    def held(node, *names):
        """A fault: these say nothing from now on."""
        def hit():
            for name in names:
                getattr(it.cluster.nodes[node], name).process.send_signal(signal.SIGSTOP)
            threading.Thread(target=tells, args=(node, names)).start()
            return f"hangs: {'+'.join(names) if len(names) < 3 else 'node'} {it.cluster.nodes[node].name}"
        return hit

    def tells(node, names):
        """What health says of it."""
        port = it.cluster.nodes[node].port
        code = until(lambda: run("curl", "-s", "-m", "2", "-o", "/dev/null", "-w", "%{http_code}", f"http://127.0.0.1:{port}/health")[1]
                     in ("503", "000"), 6, 0.2)
        seen[names] = code

    def goes_on(node, *names):
        def hit():
            for name in names:
                getattr(it.cluster.nodes[node], name).process.send_signal(signal.SIGCONT)
            return f"goes on: {it.cluster.nodes[node].name}"
        return hit

    for names in (["office"], ["replica"], ["etcd"], list(NODE)):
        hits = [(2, held(0, *names)), (14, goes_on(0, *names))]
        notes = it.under_traffic(f"behind nginx: hangs: {'+'.join(names)}", 17, hits, True, longest=6.0)
        slowest = max(one["end"] - one["begin"] for one in notes if "end" in one)
        note(f"hangs: {'+'.join(names)}: the slowest request took {slowest:.1f} s")
        check(f"hangs: {'+'.join(names)}: none waits for over 8 s", slowest <= 8, slowest)
        check(f"hangs: {'+'.join(names)}: health says so", seen.get(tuple(names)), seen)
    it.end()


# ---- A file that was changed by hand ----


def by_hand(node, channel=1):
    """A row that no answer shows is changed in the file of a node."""
    node.office.stop()
    status, said, faults = run("sqlite3", node.file, f"UPDATE tape SET barcode = 'BYHAND' WHERE ch = {channel} AND n = 1; SELECT changes()")
    equal("a row is changed by hand", (0, "1\n", ""), (status, said, faults))
    node.office.start()


def one_of_two_differs(folder, seconds=5, those=(0, 1, 2)):
    """The same while the third is away, each of the three in turn: nobody knows which one is right, so both stop."""
    for i in those:
        it = Run(f"{folder}/away-{i}", replica_words=["--digest-every", str(seconds)])
        third, one, two = (it.cluster.nodes[(i + at) % 3] for at in range(3))
        it.under_traffic(f"before {third.name} is away", 5, [])
        for part in third.parts():
            part.end()
        by_hand(one)
        both = until(lambda: one.state()["stopped"] and two.state()["stopped"], 4 * seconds + 15)
        check(f"two differ while {third.name} is away: both stop", both, (one.state(), two.state()))
        equal("they answer nobody", [("503", '{"code":100,"refused":"Unavailable"}')] * 2, [asked_one(one), asked_one(two)])
        it.end()


def changed_by_hand(folder, seconds=5):
    """A row that no answer shows is changed in one file. A digest finds it, and that replica stops itself."""
    it = Run(f"{folder}/changed", replica_words=["--digest-every", str(seconds)])
    it.under_traffic("before a file is changed", 5, [])
    b = it.cluster.nodes[1]
    by_hand(b)
    begun = time.monotonic()
    check("the replica stops itself", until(lambda: b.state()["stopped"], 4 * seconds), b.state())
    note(f"a file that was changed by hand was found in {time.monotonic() - begun:.1f} s, with a digest each {seconds} s")
    equal("its health says so", 503, operator(b.journal, "health", "GET")[0])
    equal("it answers nobody", ("503", '{"code":100,"refused":"Unavailable"}'), asked_one(b))
    others = [it.cluster.nodes[0].state(), it.cluster.nodes[2].state()]
    check("the others go on", all(not one["stopped"] and not one["ill"] for one in others), others)
    told = until(lambda: not any(it.cluster.nodes[i].state()["agrees"]["b"] for i in (0, 2)), 5)
    check("they know who differs", told, [it.cluster.nodes[i].state()["agrees"] for i in (0, 2)])
    b.replica.kill()
    time.sleep(2)
    check("nor does it after a start", until(lambda: b.state()["stopped"], 5), b.state())
    traffic = Traffic(it.folder, f"127.0.0.1:{it.gateway.port}", 4, "--gateway")
    notes = traffic.wait()
    equal("behind nginx no request fails meanwhile", [], failed_ones(notes))
    it.end()
