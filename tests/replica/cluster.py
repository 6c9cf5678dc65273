"""Three nodes: an etcd member, an office and a replica each. On loopback, or each in a network namespace of its own."""

import json
import os
import subprocess
import time

from harness import REPLICA, TUNABLES, Kept, begin, check, free_ports, make_centre, note, office_words, operator, replica_words, run, until
from traffic import PLAN

NAMES = "abc"


class Node:
    """`inside` stands before each of its commands."""

    def __init__(self, cluster, i, host, inside, ports):
        self.cluster, self.i, self.name, self.host, self.inside = cluster, i, NAMES[i], host, inside
        self.folder = f"{cluster.folder}/{self.name}"
        self.office_port, self.port, self.client, self.peer, self.outer = ports
        self.file, self.journal = f"{self.folder}/office/office.db", f"{self.folder}/replica"
        self.etcd = self.office = self.replica = None
        self.scheme = "https" if cluster.certificates else "http"

    def make(self):
        for it in ("office", "replica"):
            os.makedirs(f"{self.folder}/{it}", mode=0o700, exist_ok=True)
        run("cp", self.cluster.base, self.file)
        begin(self.file, self.journal)

    def tls(self, *names):
        """The words for certificates, by the names that a program has for them."""
        if not self.cluster.certificates:
            return []
        files = (f"{self.cluster.certificates}/{it}" for it in ("ca.pem", f"{self.name}.pem", f"{self.name}.key"))
        return [word for name, file in zip(names, files) for word in (name, file)]

    def begin_etcd(self, state="new"):
        url, peer = f"{self.scheme}://127.0.0.1:{self.client}", f"{self.scheme}://{self.host}:{self.peer}"
        members = ",".join(f"{it.name}={it.scheme}://{it.host}:{it.peer}" for it in self.cluster.nodes)
        words = [*self.inside, "etcd", "--name", self.name, "--data-dir", f"{self.folder}/etcd", "--listen-client-urls", url,
                 "--advertise-client-urls", url, "--listen-peer-urls", peer, "--initial-advertise-peer-urls", peer,
                 "--initial-cluster", members, "--initial-cluster-state", state, "--initial-cluster-token", "temolunai",
                 "--pre-vote", "--logger", "zap", "--snapshot-count", "5000", "--heartbeat-interval", "100",
                 "--election-timeout", "600", *self.cluster.etcd_words,
                 *self.tls("--trusted-ca-file", "--cert-file", "--key-file"),
                 *self.tls("--peer-trusted-ca-file", "--peer-cert-file", "--peer-key-file")]
        if self.cluster.certificates:
            words += ["--client-cert-auth", "--peer-client-cert-auth"]
        self.etcd = Kept(words, f"{self.folder}/etcd.log", {"ETCD_LOG_LEVEL": "warn"})

    def begin_office(self):
        self.office = Kept([*self.inside, *office_words(self.file, self.office_port)], f"{self.folder}/office.log", TUNABLES)

    def begin_replica(self):
        words = ["--name", self.name, "--members", "a,b,c", "--listen", f"127.0.0.1:{self.port}",
                 "--office", f"127.0.0.1:{self.office_port}", "--log", f"{self.scheme}://127.0.0.1:{self.client}",
                 *self.cluster.replica_words]
        if self.cluster.certificates:
            words += ["--listen", f"tls:{self.host}:{self.outer}", "--certificates", self.cluster.certificates]
        self.replica = Kept([*self.inside, *replica_words(self.journal, *words)], f"{self.folder}/replica.log", REPLICA)

    def begin(self):
        self.begin_etcd()
        self.begin_office()
        self.begin_replica()

    def parts(self):
        return [it for it in (self.replica, self.office, self.etcd) if it]

    def kill(self, *names):
        for it in names:
            getattr(self, it).kill()

    def state(self):
        return operator(self.journal, "health", "GET")[1]

    def curl(self, url, *words):
        """The words of a request to it, from inside of it."""
        return [*self.inside, "curl", "-sN", *self.tls("--cacert", "--cert", "--key"), *words, url]

    def etcd_says(self, what, words):
        done = subprocess.run(self.curl(f"{self.scheme}://127.0.0.1:{self.client}/v3/{what}", "-m", "5", "-d", json.dumps(words)),
                              capture_output=True, check=False)
        try:
            return json.loads(done.stdout)
        except ValueError:
            return {}

    def is_leader(self):
        said = self.etcd_says("maintenance/status", {})
        return bool(said.get("leader")) and said["leader"] == said["header"]["member_id"]


class Cluster:
    """`places` has the host and the words that go inside, for each node."""

    def __init__(self, folder, places=(("127.0.0.1", []),) * 3, certificates="", etcd_words=(), replica_words=()):
        self.folder, self.certificates = folder, certificates
        self.etcd_words, self.replica_words = etcd_words, replica_words
        os.makedirs(folder, exist_ok=True)
        self.base = f"{folder}/base.db"
        make_centre(self.base, PLAN)
        ports = free_ports(15)
        self.nodes = [Node(self, i, host, inside, ports[5 * i:5 * i + 5]) for i, (host, inside) in enumerate(places)]

    def begin(self):
        for it in self.nodes:
            it.make()
            it.begin()
        self.wait_well("the cluster begins")

    def watch_words(self, i, asked):
        node = self.nodes[i]
        return node.curl(f"{node.scheme}://127.0.0.1:{node.client}/v3/watch", "-d", asked)

    def leader(self):
        return until(lambda: next((it for it in self.nodes if it.is_leader()), None), 10)

    def states(self):
        return [it.state() for it in self.nodes]

    def are_well(self):
        states = self.states()
        return all(it["n"] >= 0 and not it["ill"] and not it["stopped"] for it in states) and len({it["n"] for it in states}) == 1

    def wait_well(self, what, seconds=30):
        """Until all are at the same entry, and well. How long that took."""
        begun = time.monotonic()
        check(f"{what}: all are well again", until(self.are_well, seconds), [(it["n"], it["ill"], it["stopped"]) for it in self.states()])
        return time.monotonic() - begun

    def end(self):
        for node in self.nodes:
            for it in node.parts():
                it.end()

    def files(self):
        return {it.name: (it.file, it.journal) for it in self.nodes}


def posts_again(notes, at, before):
    """The longest time from a fault on, until the next one, in which no POST was answered."""
    ends = sorted(it["end"] for it in notes if it["method"] == "POST" and "status" in it and at <= it["end"] < before)
    return max(b - a for a, b in zip([at, *ends], [*ends, before]))


def read_notes(*files):
    found = []
    for name in files:
        with open(name, encoding="utf-8") as it:
            found += [json.loads(line) for line in it]
    return found


def tell_silences(what, notes, events, end, longest=3.0):
    """Prints what each fault took until POSTs were answered again, and checks that it was no more than this."""
    told = []
    for at, name in events:
        before = min([it for it, _ in events if it > at + 0.01] + [end])
        took = posts_again(notes, at, before)
        told.append(f"{name} {took:.2f}")
        check(f"{what}: {name}: POSTs are answered again within {longest} s", took <= longest, took)
    note(f"{what}: seconds until POSTs were answered again: {', '.join(told)}")
