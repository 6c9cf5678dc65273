"""Three machines under one fault behind another, with traffic all the while; then all that was asked is compared, once.

    .ci/replicas killer [--faults N]

Kinds: a program or a machine is killed; one hangs for some seconds (SIGSTOP), and goes on; one machine doesn't reach another
one, or the others, while it is reached by them; two are apart, one is cut off; the log is full; a row is changed by hand, while
all are there or while the third is away. The next fault doesn't wait until the last one is over.
"""

import base64
import collections
import os
import random
import shutil
import signal
import threading
import time

from compare import compare
from faults import NODE, Traffic
from harness import check, equal, note, run, script, until
from spaces import GATEWAY, HOSTS, HUB, SPACES, Machines, cut, inside, tear

# What etcd may take, in bytes, and seconds from digest to digest. A log is full soon, and a row by hand found soon.
QUOTA, DIGESTS = 60_000_000, 15
# Of a thousand faults so many are of each kind, and of fewer two at least. The last two take long, and wait until all is well.
KINDS = {"kill": 430, "hang": 350, "one way": 100, "apart": 50, "cut off": 46, "all killed": 14, "full log": 6, "differ": 4}
# The channel of the row that is changed by hand, in whose name nobody asks meanwhile.
QUIET = 12


class Killer:
    """`machines` with their traffic; `ends` are what undoes the faults that aren't over."""

    def __init__(self, folder, count):
        self.folder, self.count = folder, count
        words = {"etcd_words": ["--quota-backend-bytes", str(QUOTA)],
                 "replica_words": ["--quota", str(QUOTA), "--digest-every", str(DIGESTS)]}
        self.machines = Machines(f"{folder}/machines", **words)
        self.nodes, self.chance = self.machines.cluster.nodes, random.Random("killer")
        self.done, self.took, self.ends = collections.Counter(), collections.Counter(), []
        os.makedirs(f"{folder}/backups")
        self.asked_by_hand, self.traffics, self.backup = [], [], None

    # -- one fault

    def node(self):
        return self.chance.choice(self.nodes)

    def later(self, seconds, undo):
        """Has a fault end."""
        timer = threading.Timer(seconds, undo)
        self.ends.append((timer, undo))
        timer.start()

    def heal(self):
        """Ends all faults at once."""
        for timer, undo in self.ends:
            if timer.is_alive():
                timer.cancel()
                undo()
            timer.join()
        self.ends.clear()

    def kill(self):
        self.node().kill(*self.chance.choice([["etcd"], ["office"], ["replica"], list(NODE)]))

    def all_killed(self):
        for it in self.nodes:
            it.kill(*NODE)

    def hang(self):
        """A program, or all of a machine."""
        node, names = self.node(), self.chance.choice([["etcd"], ["office"], ["replica"], list(NODE)])
        held = [getattr(node, it).process for it in names]
        sends(held, signal.SIGSTOP)
        self.later(self.chance.uniform(2.5, 6), lambda: sends(held, signal.SIGCONT))

    def routes(self, pairs):
        """From one machine nothing goes to another one, for a while."""
        def changes(way):
            for i, j in pairs:
                run(*inside(SPACES[i]), "ip", "route", way, "blackhole", f"{HOSTS[j]}/32")
        changes("add")
        self.later(self.chance.uniform(1.5, 4), lambda: changes("del"))

    def one_way(self):
        i, j, k = self.chance.sample(range(3), 3)
        self.routes(self.chance.choice([[(i, j)], [(i, j), (i, k)], [(j, i), (k, i)]]))

    def apart(self):
        i, j = self.chance.sample(range(3), 2)
        self.routes([(i, j), (j, i)])

    def cut_off(self):
        i = self.chance.randrange(3)
        cut(i)
        self.later(self.chance.uniform(1.5, 4), lambda: cut(i, "up"))

    # -- faults that an operator ends

    def well(self, what):
        self.heal()
        return self.machines.cluster.wait_well(f"killer: {what}", 90)

    def take_backup(self, node):
        """Its folder; the last two are kept."""
        status, said, faults = script("replica-backup", node.journal, node.file, f"{self.folder}/backups")
        if status == 0:
            self.backup = said.strip()
            for it in sorted(os.listdir(f"{self.folder}/backups"))[:-2]:
                shutil.rmtree(f"{self.folder}/backups/{it}", ignore_errors=True)
        return status == 0 and not faults.strip()

    def full_log(self):
        """One user fills it. Who reads is answered, and a backup makes room."""
        self.well("before the log is full")
        node, codes = self.node(), collections.Counter()
        body = base64.b64encode(self.chance.randbytes(660_000)).decode()
        path = f"{self.folder}/body"
        for n in range(200):
            with open(path, "w", encoding="ascii") as out:
                out.write(f"{n} {time.time()} {body}")
            code, _ = self.machines.curl(node, "/ch/11/days/1/import/strict", "-H", "Request-User: filler", "--data-binary", f"@{path}")
            codes[code] += 1
            if code == "503" and until(lambda: "full" in node.state()["ill"], 1):
                break
        check("killer: a full log refuses entries", 0 < codes["503"] < 10, codes)
        equal("killer: a full log is read on", ["200"] * 3, [self.machines.curl(it, "/ch/1/tapes")[0] for it in self.nodes])
        check("killer: a full log is told", all(until(lambda it=it: "full" in it.state()["ill"], 5) for it in self.nodes),
              [it.state()["ill"] for it in self.nodes])
        check("killer: a full log has a backup", until(lambda: self.take_backup(self.node()), 20, 1))
        check("killer: a backup makes room", until(lambda: not any("full" in it.state()["ill"] for it in self.nodes), 40),
              [it.state() for it in self.nodes])

    def differ(self):
        """A row is changed by hand; in each second one of these the third machine is away, and both others stop."""
        self.well("before a row is changed")
        check("killer: a backup", until(lambda: self.take_backup(self.nodes[0]), 30, 1))
        bad, is_alone = self.node(), self.done["differ"] % 2 == 1
        good, third = [it for it in self.nodes if it is not bad]
        if is_alone:
            for it in third.parts():
                it.stop()
        bad.office.stop()
        status, said, faults = run("sqlite3", bad.file, f"UPDATE tape SET barcode = 'HAND{self.done['differ']}' WHERE ch = {QUIET}"
                                   " AND n = 1; SELECT changes()")
        equal("killer: a row is changed by hand", (0, "1\n", ""), (status, said, faults))
        bad.office.start()
        check("killer: whose row was changed stops", until(lambda: bad.state()["stopped"], 3 * DIGESTS + 20), bad.state())
        if is_alone:
            check("killer: so does the other one, while the third is away", until(lambda: good.state()["stopped"], 20), good.state())
            good.replica.stop()
            os.remove(f"{good.journal}/stopped")
            good.replica.start()
            for it in third.parts():
                it.start()
        else:
            check("killer: the others go on", not good.state()["stopped"] and not third.state()["stopped"])
        self.restore(bad)

    def restore(self, node):
        """By the steps of docs/REPLICAS.md, from the last backup; its etcd is as it was."""
        for it in (node.replica, node.office):
            it.stop()
        for it in (os.path.dirname(node.file), node.journal):
            shutil.rmtree(it)
            os.makedirs(it, mode=0o700)
        equal("killer: restore", (0, "", ""), script("restore", self.backup, node.file))
        equal("killer: begin from a backup", (0, "", ""), script("begin", self.backup, node.journal))
        for it in (node.office, node.replica):
            it.start()
        self.well("a machine came back")

    # -- all of them

    def begin_traffic(self, seconds):
        """Users of each machine, and users behind the gateway; of the quiet channel nobody."""
        words = ["--pause", "0.15"]
        for node in self.nodes:
            self.traffics.append(Traffic(self.machines.folder, f"127.0.0.1:{node.port}", seconds, "--users", "1", "--first",
                                         str(1 + node.i), "--stay", *words, inside=node.inside))
        self.traffics.append(Traffic(self.machines.folder, f"{GATEWAY}:{self.machines.gateway.port}", seconds, "--users", "8",
                                     "--first", "4", "--gateway", "--ca", f"{self.machines.certificates}/ca.pem", *words,
                                     inside=inside(HUB)))

    def quiet_row(self):
        """The row that is changed by hand, and comes into the log as any other."""
        tape = '{"barcode":"QUIET","slot":1}'
        fields = ["-H", "Request-User: u12", "-H", "Request-Id: quiet", "-d", tape]
        said = until(lambda: self.machines.curl(self.nodes[0], f"/ch/{QUIET}/tapes", *fields)[0] == "200", 30)
        check("killer: a row of a quiet channel", said)

    def kinds(self):
        """One for each fault, in an order by chance."""
        found = [it for it, weight in KINDS.items() for _ in range(max(2, weight * self.count // 1000))]
        found = found[max(0, len(found) - self.count):]
        found += ["kill"] * (self.count - len(found))
        self.chance.shuffle(found)
        return found

    def run(self, ends):
        """All of them, or those that come before this moment."""
        begun, backed = time.monotonic(), 0.0
        self.quiet_row()
        for number, kind in enumerate(self.kinds(), 1):
            at = time.monotonic()
            if at > ends:
                note(f"killer: its time is over behind {number - 1} faults")
                break
            getattr(self, kind.replace(" ", "_"))()
            self.done[kind] += 1
            self.took[kind] += time.monotonic() - at
            time.sleep(self.chance.uniform(0.7, 1.5))
            if time.monotonic() > backed + 40:
                backed = time.monotonic()
                self.take_backup(self.node())
            self.stopped()
            if number % 100 == 0:
                took = self.well(f"after {number} faults")
                note(f"killer: {number} faults in {time.monotonic() - begun:.0f} s; all were well behind the last in {took:.1f} s; "
                     f"load {os.getloadavg()[0]:.0f}")

    def stopped(self):
        """None stops itself but for a row that was changed."""
        found = [it.name for it in self.nodes if os.path.exists(f"{it.journal}/stopped")]
        if found:
            whys = [it.state()["stopped"] for it in self.nodes]
            check("killer: none stops itself", False, (found, whys))
            raise AssertionError("a replica has stopped itself")

    def compare(self):
        """All that was asked, once nothing runs."""
        self.well("in the end")
        self.machines.watcher_has_all()
        notes = [it for one in self.traffics for it in one.wait()]
        self.machines.watcher_has_all()
        answered = sum("status" in it for it in notes)
        note(f"killer: {sum(self.done.values())} faults ({', '.join(f'{count} {it}, {self.took[it]:.0f} s' for it, count in self.done.items())}); "
             f"{len(notes)} requests, {answered} answered")
        gateway = [it for it in notes if it["user"] in {f"u{n}" for n in range(4, 12)}]
        late = sorted(it.get("end", it["last"]) - it["begin"] for it in gateway)
        note(f"killer: behind nginx {len(gateway)} requests, {sum(it.get('status') in (502, 503, 504) for it in gateway)} refused; "
             f"slowest {late[-1]:.1f} s, {late[len(late) * 999 // 1000]:.1f} s of 999 in 1,000")
        check("killer: behind nginx none waits for over 12 s", late[-1] <= 12, late[-5:])
        compare("killer", self.machines.cluster.base, self.machines.folder, self.machines.cluster.files(),
                dict(self.machines.watcher.entries), notes, True, others={"filler", "u12"})


def sends(processes, number):
    """A signal to those that are there."""
    for it in processes:
        if it.poll() is None:
            it.send_signal(number)


def killer(folder, count=60, minutes=0):
    """So many faults, within this time where there is one."""
    it, seconds = Killer(folder, count), 60 * minutes or 2 * count + 240
    it.begin_traffic(seconds)
    it.run(time.monotonic() + seconds - 20)
    it.compare()
    it.machines.end()
    tear()

