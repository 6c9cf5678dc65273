"""Three machines, as network namespaces with a bridge between them: all that goes between them goes by mutual TLS. They are
cut off from one another, in each way, under traffic."""

import os
import re
import subprocess
import time

from cluster import Cluster, read_notes
from compare import Watcher, compare
from faults import NODE, Traffic, failed_ones
from gateway import Gateway, example, part, way
from harness import check, equal, note, run, undo, until

# A name of this run's own, so that no other run's spaces are touched.
TAG = f"tl{os.getpid() % 100000}"
SPACES = [f"{TAG}{it}" for it in "abc"]
HUB = f"{TAG}hub"
HOSTS = [f"10.77.0.{it}" for it in (1, 2, 3)]
GATEWAY = "10.77.0.9"


def inside(space):
    return ["ip", "netns", "exec", space]


def ip(*words, space=None):
    status, _, faults = run(*(inside(space) if space else []), "ip", *words)
    if status:
        raise OSError(f"ip {' '.join(words)}: {faults}")


def build():
    """The hub has the bridge, and the gateway's address."""
    undo.append(tear)
    for it in (HUB, *SPACES):
        ip("netns", "add", it)
        ip("link", "set", "lo", "up", space=it)
    ip("link", "add", "br0", "type", "bridge", space=HUB)
    ip("addr", "add", f"{GATEWAY}/24", "dev", "br0", space=HUB)
    ip("link", "set", "br0", "up", space=HUB)
    for i, (space, host) in enumerate(zip(SPACES, HOSTS)):
        ip("link", "add", f"p{i}", "type", "veth", "peer", "name", "eth0", "netns", space, space=HUB)
        ip("link", "set", f"p{i}", "master", "br0", "up", space=HUB)
        ip("addr", "add", f"{host}/24", "dev", "eth0", space=space)
        ip("link", "set", "eth0", "up", space=space)


def tear():
    for it in (*SPACES, HUB):
        run("ip", "netns", "del", it)


def cut(i, way="down"):
    """Nothing comes to a machine, or from it."""
    ip("link", "set", f"p{i}", way, space=HUB)


def apart(i, j, way="add"):
    """Nothing goes between two, while both reach the third and the gateway."""
    ip("route", way, "blackhole", f"{HOSTS[j]}/32", space=SPACES[i])
    ip("route", way, "blackhole", f"{HOSTS[i]}/32", space=SPACES[j])


def certificates(folder):
    """An authority, and a certificate for each machine and for the gateway, as docs/REPLICAS.md makes them."""
    os.makedirs(folder)
    status, _, faults = run("openssl", "req", "-x509", "-newkey", "ec", "-pkeyopt", "ec_paramgen_curve:prime256v1", "-nodes",
                            "-days", "2", "-subj", "/CN=Temolunai", "-keyout", f"{folder}/ca.key", "-out", f"{folder}/ca.pem")
    check("an authority", status == 0, faults)
    for name, host in zip(("a", "b", "c", "gateway"), (*HOSTS, GATEWAY)):
        with open(f"{folder}/extension", "w", encoding="ascii") as out:
            out.write(f"subjectAltName=DNS:{name},IP:{host},IP:127.0.0.1\nextendedKeyUsage=serverAuth,clientAuth\n")
        run("openssl", "req", "-newkey", "ec", "-pkeyopt", "ec_paramgen_curve:prime256v1", "-nodes", "-subj", f"/CN={name}",
            "-keyout", f"{folder}/{name}.key", "-out", f"{folder}/request")
        status, _, faults = run("openssl", "x509", "-req", "-in", f"{folder}/request", "-CA", f"{folder}/ca.pem", "-CAkey",
                                f"{folder}/ca.key", "-CAcreateserial", "-days", "2", "-extfile", f"{folder}/extension",
                                "-out", f"{folder}/{name}.pem")
        check(f"a certificate of {name}", status == 0, faults)
    return folder


def offices(cluster):
    """offices.conf of a gateway on a machine of its own: each replica is another machine's. The example's ways to these."""
    text = example("offices.conf")
    secure = re.search(r"^proxy_ssl_certificate .*?^proxy_ssl_protocols .*?\n", text, re.MULTILINE | re.DOTALL)[0]
    ways = "".join(way(8211 + it.i, it.name, f"{it.host}:{it.outer}", True) for it in cluster.nodes)
    return part([8211 + it.i for it in cluster.nodes]) + secure + ways


class Machines:
    """The machines, the gateway, and who asks: some behind the gateway, some each machine's own replica."""

    def __init__(self, folder, **words):
        build()
        self.folder = folder
        self.certificates = certificates(f"{folder}/certificates")
        places = list(zip(HOSTS, map(inside, SPACES)))
        self.cluster = Cluster(f"{folder}/nodes", places, self.certificates, **words)
        self.cluster.begin()
        self.watcher = Watcher(self.cluster.watch_words)
        undo.append(self.watcher.end)
        self.gateway = Gateway(f"{folder}/gateway", offices(self.cluster), True, self.certificates, inside(HUB), GATEWAY)
        self.gateway.start()
        self.notes = []

    def curl(self, node, path, *words):
        """The code and the body of a request to a machine's own replica, from inside."""
        done = run(*node.inside, "curl", "-s", "-m", "20", "-w", "\n%{http_code}", *words, f"http://127.0.0.1:{node.port}{path}")
        body, _, code = done[1].rpartition("\n")
        return code, body

    def watcher_has_all(self):
        """The log is read up to its end."""
        last = max(it["n"] for it in self.cluster.states())
        check("the log is read", until(lambda: max(self.watcher.entries, default=0) >= last, 30), (last, len(self.watcher.entries)))

    def end(self):
        """All programs."""
        self.watcher.end()
        self.gateway.stop()
        self.cluster.end()

    def phase(self, name, breaks, heals, seconds=7, rest=6, at_cut=None):
        """Traffic of all commands, in which something is cut and healed. Then all is compared."""
        users = [Traffic(self.folder, f"127.0.0.1:{node.port}", seconds + rest + 3, "--users", "2", "--first", str(1 + 2 * node.i),
                         "--stay", "--pause", "0.02", inside=node.inside) for node in self.cluster.nodes]
        behind = Traffic(self.folder, f"{GATEWAY}:{self.gateway.port}", seconds + rest + 3, "--users", "6", "--first", "7",
                         "--gateway", "--ca", f"{self.certificates}/ca.pem", "--pause", "0.02", inside=inside(HUB))
        time.sleep(3)
        broken = time.time()
        breaks()
        if at_cut:
            time.sleep(3)
            at_cut()
        time.sleep(max(0, broken + seconds - time.time()))
        healed = time.time()
        heals()
        own, by_gateway = [it.wait() for it in users], behind.wait()
        self.told(name, own, by_gateway, broken, healed)
        self.notes += sum(own, []) + by_gateway
        self.cluster.wait_well(name, 40)
        self.watcher_has_all()
        compare(name, self.cluster.base, self.folder, self.cluster.files(), dict(self.watcher.entries), self.notes, True)
        return own, by_gateway, broken, healed

    def told(self, name, own, by_gateway, broken, healed):
        """What each machine's users, and those behind the gateway, were answered while it was cut."""
        parts = []
        for node, notes in zip((*self.cluster.nodes, None), (*own, by_gateway)):
            ends = sorted(it["end"] for it in notes if it["method"] == "POST" and broken <= it.get("end", 0) <= healed)
            gaps = [b - a for a, b in zip([broken, *ends], [*ends, healed])]
            parts.append(f"{'behind the gateway' if node is None else node.name} {len(ends)} POSTs, longest silence {max(gaps):.1f} s")
        note(f"{name}, in {healed - broken:.0f} s: {'; '.join(parts)}")


def silence(notes, broken, healed):
    """The longest time without an answered POST behind a cut."""
    ends = sorted(it["end"] for it in notes if it["method"] == "POST" and broken <= it.get("end", 0) <= healed)
    return max(b - a for a, b in zip([broken, *ends], [*ends, healed]))


def refuses(machines, node):
    """What a machine that is cut off says: it refuses, but for a GET that may be stale."""
    equal("a stale GET of one that is cut off", "200", machines.curl(node, "/ch/1/tapes", "-H", "Stale: 1")[0])
    equal("a GET of one that is cut off", ("503", '{"code":100,"refused":"Unavailable"}'), machines.curl(node, "/ch/1/tapes"))
    equal("a POST to one that is cut off", ("503", '{"code":100,"refused":"Unavailable"}'),
          machines.curl(node, "/ch/1/tapes", "-d", '{"barcode":"CUT","slot":9999}'))


def only_by_certificate(machines):
    """Whoever has no certificate of the authority gets no answer of another machine's replica, nor of its etcd."""
    node = machines.cluster.nodes[1]
    url = f"https://{node.host}:{node.outer}/ch/1/tapes"
    files = machines.certificates
    with_it = ["--cert", f"{files}/gateway.pem", "--key", f"{files}/gateway.key"]
    asked = [*inside(HUB), "curl", "-s", "-m", "5", "--cacert", f"{files}/ca.pem"]
    equal("with a certificate", 0, run(*asked, *with_it, url)[0])
    check("without a certificate", run(*asked, url)[0] in (35, 52, 55, 56), run(*asked, url))
    check("etcd's peers without one", run(*asked, f"https://{node.host}:{node.peer}/members")[0] in (35, 52, 55, 56))
    equal("replicas are asked without TLS on loopback alone", 7, run(*inside(HUB), "curl", "-s", "-m", "5", f"http://{node.host}:{node.port}/health")[0])
    equal("so is etcd", 7, run(*inside(HUB), "curl", "-s", "-m", "5", f"http://{node.host}:{node.client}/health")[0])


def partitions(folder):
    """A follower, the leader, two of three from one another, all from all; and a machine that is lost."""
    it = Machines(f"{folder}/machines")
    only_by_certificate(it)
    for kind in ("follower", "leader"):
        leader = it.cluster.leader()
        node = leader if kind == "leader" else next(one for one in it.cluster.nodes if one is not leader)
        own, behind, broken, healed = it.phase(f"the {kind} {node.name} is cut off", lambda: cut(node.i), lambda: cut(node.i, "up"),
                                               at_cut=lambda: refuses(it, node))
        others = sum((own[one.i] for one in it.cluster.nodes if one is not node), [])
        took = silence(others, broken, healed)
        check(f"the {kind} is cut off: the others answer again within 3 s", took <= 3, took)
        equal(f"the {kind} is cut off: no request fails behind nginx", [], failed_ones(behind))
    leader = it.cluster.leader()
    other = next(one for one in it.cluster.nodes if one is not leader)
    own, behind, broken, healed = it.phase("two of three are apart", lambda: apart(leader.i, other.i), lambda: apart(leader.i, other.i, "del"))
    equal("two are apart: no request fails behind nginx", [], failed_ones(behind))
    it.phase("all are cut off", lambda: [cut(one.i) for one in it.cluster.nodes], lambda: [cut(one.i, "up") for one in it.cluster.nodes],
             5, 10)
    node = it.cluster.leader()
    own, behind, broken, healed = it.phase("the leading machine is lost, and begun again", lambda: node.kill(*NODE), lambda: None)
    took = silence(behind, broken, healed)
    check("behind nginx POSTs are answered again within 3 s", took <= 3, took)
    equal("a machine is lost: no request fails behind nginx", [], failed_ones(behind))
    it.end()
    tear()
    left = run("ip", "netns", "list")[1]
    check("no namespace is left", TAG not in left, left)
