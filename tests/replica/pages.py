"""docs/REPLICAS.md as it stands, under systemd: each block of a section is run in a Debian of its own, which systemd-nspawn
begins, with the packages that deploy/package builds. One machine with two parts; three machines with a bridge between them, of
which one is lost. DEBIAN_REPLICAS names a folder with a Debian that debootstrap has made, with what PACKAGES says."""

import json
import os
import re
import shutil
import subprocess
import time

from harness import PLAYOUT, TOP, check, equal, note, run, undo, until

PACKAGES = ("systemd,systemd-sysv,dbus,nginx-light,libnginx-mod-http-js,etcd-server,etcd-client,python3-aiohttp,curl,openssl,"
            "sqlite3,iproute2,iputils-ping,procps")
MIRROR = "http://deb.debian.org/debian"
BRIDGE = "tlrb"
HOSTS = {"a": "10.0.0.1", "b": "10.0.0.2", "c": "10.0.0.3"}
PLAN = "1,25,06:00:00:00,40 2,25,06:00:00:00,40"


def section(title, end):
    """The blocks of shell between two headings, or words in bold."""
    with open(f"{TOP}/docs/REPLICAS.md", encoding="utf-8") as it:
        text = it.read()
    part = text[text.index(title):]
    return re.findall(r"```sh\n(.*?)```", part[:part.index(end, len(title))], re.DOTALL)


class Machine:
    """A Debian that runs."""

    def __init__(self, name, root):
        self.name, self.root, self.process, self.leader = name, root, None, ""

    def begin(self):
        words = ["systemd-nspawn", "-q", "--register=no", "--keep-unit", f"--network-bridge={BRIDGE}", "-M", f"tlr-{self.name}",
                 "-D", self.root, "-b", "--console=pipe"]
        with open(f"{self.root}.console", "wb") as out:
            self.process = subprocess.Popen(words, stdin=subprocess.DEVNULL, stdout=out, stderr=out)
        undo.append(self.end)
        check(f"{self.name}: that Debian begins", until(self.is_up, 90, 0.5), self.console())
        address = HOSTS.get(self.name, "10.0.0.9")
        self.does("its network", f"ip link set lo up; ip addr add {address}/24 dev host0; ip link set host0 up")

    def console(self):
        with open(f"{self.root}.console", encoding="utf-8", errors="replace") as it:
            return it.read()[-600:]

    def is_up(self):
        number = self.process.pid
        with open(f"/proc/{number}/task/{number}/children", encoding="ascii") as it:
            self.leader = (it.read().split() or [""])[0]
        return self.leader and self.says("systemctl is-system-running")[1].strip() in ("running", "degraded")

    def says(self, commands, seconds=180):
        """The exit status and all that was said."""
        words = ["nsenter", "-t", self.leader, "-m", "-u", "-i", "-n", "-p", "bash", "-c", f"cd /root; exec 2>&1\n{commands}"]
        done = subprocess.run(words, stdin=subprocess.DEVNULL, stdout=subprocess.PIPE, timeout=seconds, check=False,
                              env={"PATH": "/usr/sbin:/usr/bin:/sbin:/bin", "HOME": "/root", "DEBIAN_FRONTEND": "noninteractive"})
        return done.returncode, done.stdout.decode(errors="replace")

    def does(self, what, commands):
        """Commands of which none fails."""
        status, said = self.says(f"set -e\n{commands}")
        return check(f"{self.name}: {what}", status == 0, said[-700:])

    def health(self, port=8201):
        """What its replica says of itself."""
        try:
            return json.loads(self.says(f"curl -s -m 3 http://127.0.0.1:{port}/health")[1])
        except ValueError:
            return {"ill": {"away": "away"}, "n": -1}

    def is_well(self, port=8201):
        state = self.health(port)
        return state["n"] >= 0 and not state["ill"]

    def asks(self, path, *words):
        """The code and the body, of a user of the gateway."""
        words = " ".join(words)
        said = self.says(f"curl -sk -m 20 -w '\\n%{{http_code}}' -H @/root/bearer {words} https://localhost{path}")[1]
        body, _, code = said.rpartition("\n")
        return code, body

    def end(self):
        if self.process and self.process.poll() is None:
            self.says("systemctl poweroff --force --force")
            try:
                self.process.wait(20)
            except subprocess.TimeoutExpired:
                self.process.kill()
                self.process.wait()


def debian(folder):
    """A Debian with the packages of this version."""
    root = f"{folder}/root"
    made = os.environ.get("DEBIAN_REPLICAS")
    if made:
        run("cp", "-a", "--reflink=auto", made, root)
    else:
        status, said, _ = run("debootstrap", "--variant=minbase", f"--include={PACKAGES}", "bookworm", root, MIRROR, seconds=900)
        if not check("debootstrap", status == 0, said[-400:]):
            return None
    packed = os.environ.get("PACKED") or f"{folder}/packages"
    if "PACKED" not in os.environ:
        status, said, faults = run(f"{TOP}/deploy/package", packed, surroundings={"PLAYOUT": PLAYOUT}, seconds=900)
        check("the packages are built", status == 0, said[-300:] + faults[-300:])
    os.makedirs(f"{root}/ci")
    for it in os.listdir(packed):
        if it.startswith("temolunai") and it.endswith(".deb"):
            shutil.copy(f"{packed}/{it}", f"{root}/ci")
    with open(f"{root}/etc/hosts", "w", encoding="ascii") as out:
        out.write("127.0.0.1 localhost\n")
    words = ["systemd-nspawn", "-q", "--register=no", "--keep-unit", "--pipe", "--resolv-conf=replace-host", "-D", root, "bash", "-c",
             "export DEBIAN_FRONTEND=noninteractive; apt-get update -qq; apt-get install -y -qq python3-uvloop /ci/*.deb; "
             "systemctl disable nginx etcd; rm -f /etc/resolv.conf"]
    status, said, faults = run(*words, seconds=600)
    check("the packages are installed", os.path.exists(f"{root}/usr/lib/temolunai/begin"), said[-500:] + faults[-300:])
    return root


def gateway(machine, parts):
    """A certificate, a user with a token, and the parts, as docs/OPERATING.md has it."""
    made = "\n".join(f"temolunai-part {name} {port} {plan}" for name, port, plan in parts)
    machine.does("an office for each part, and a gateway", f"""{made}
openssl req -x509 -newkey rsa:2048 -nodes -days 2 -subj /CN=localhost -addext subjectAltName=DNS:localhost \\
    -keyout /etc/temolunai/key.pem -out /etc/temolunai/certificate.pem 2> /dev/null
sed -i 's/playout.example/localhost/' /etc/temolunai/server.conf /etc/temolunai/plain.conf
printf 'a long password\\n' | temolunai-users add anna 1 2 3 4
umask 077; temolunai-users token anna ci 9 | sed 's/^/Authorization: Bearer /' > /root/bearer
systemctl enable -q --now temolunai-login temolunai-gateway""")


SLOTS = iter(range(1, 41))


def asked_both(machine, name, channel):
    """A tape is put into a vault, and read."""
    tape = f"-d '{{\"barcode\":\"{name}\",\"slot\":{next(SLOTS)}}}'"
    said = until(lambda: machine.asks(f"/ch/{channel}/tapes", tape)[0] in ("200", "409"), 20)
    check(f"{machine.name}: a POST: {name}", said, machine.asks(f"/ch/{channel}/tapes", tape))
    code, text = machine.asks(f"/ch/{channel}/tapes")
    check(f"{machine.name}: a GET: {name}", code == "200" and name in text, (code, text))


def one_machine(root):
    """The section on one machine, over a centre of two parts."""
    it = Machine("one", root)
    it.begin()
    gateway(it, (("a", 8101, PLAN), ("b", 8102, PLAN.replace("1,25", "3,25").replace("2,25", "4,25"))))
    asked_both(it, "BEFORE", 1)
    first, second, *rest = section("\n## One machine\n", "\n## Three machines\n")
    first = first.replace("apt-get install -y python3-uvloop\n", "")        # it does without
    it.does("one machine: a log", first)
    changed = re.sub(r"(?<=[@/])a(?=[ ./\n\"])", "b", first).replace("--name a", "--name b").replace("8201", "8202").replace("8101", "8102")
    it.does("one machine: a log of the second part", changed)
    it.does("one machine: the gateway", second.replace("replicas='a:8201'", "replicas='a:8201 b:8202'"))
    check("one machine: it is well", until(lambda: it.is_well() and it.is_well(8202), 30), (it.health(), it.health(8202)))
    asked_both(it, "PARTA", 1)
    asked_both(it, "PARTB", 3)
    for number, block in enumerate(rest):
        kept = "\n".join(line for line in block.splitlines() if not line.startswith("#"))
        now = time.strftime("%Y-%m-%dT%H:%M", time.gmtime(time.time() + 60))
        kept = kept.replace("--body 17", "--body 1").replace("2026-11-27T19:03", now)
        kept = re.sub(r"(purge-check \S+) 7$", r"\1 1", kept, flags=re.MULTILINE)
        kept = kept.replace("B=$(", "install -d /var/backups/temolunai\nB=$(")
        it.does(f"one machine: block {number + 3}", kept)
    it.does("one machine: the nightly backup", "systemctl start temolunai-backup@a && ls /var/backups/temolunai/a/*/position")
    states = json.loads(it.says("curl -sk https://localhost/health")[1] or "{}")
    equal("one machine: /health of the gateway", {"offices": {"a": "answers", "b": "answers"}}, states)
    it.does("one machine: figures", "systemctl start temolunai-metrics && curl -sk https://localhost/metrics"
            " | grep -q 'temolunai_replica_answers{part=\"a\"} 1'")
    it.end()


def three_machines(folder, root):
    """The section on three machines, and a lost machine."""
    machines = []
    for name in HOSTS:
        place = f"{folder}/{name}"
        run("cp", "-a", "--reflink=auto", root, place, seconds=300)
        machines.append(Machine(name, place))
    for it in machines:
        it.begin()
        gateway(it, (("a", 8101, PLAN),))
    made, copied, etcd, replica, ways, *_ = section("\n## Three machines\n", "\n## What to watch\n")
    a = machines[0]
    a.does("three machines: certificates", f"mkdir keys; cd keys\n{made}")
    for it in machines[1:]:
        shutil.copytree(f"{a.root}/root/keys", f"{it.root}/root/keys")

    def own(text, name):
        """With the name and the addresses of this machine."""
        return text.replace("a.pem", f"{name}.pem").replace("a.key", f"{name}.key")

    for it in machines:
        host = HOSTS[it.name]
        it.does("three machines: its certificates", f"cd keys\n{own(copied, it.name)}".replace("ca.pem".replace("a.pem", f"{it.name}.pem"), "ca.pem"))
        lines = etcd.replace("apt-get install -y etcd-server etcd-client\n", "").splitlines()
        edits = (f"sed -i -e 's/^ETCD_NAME=a/ETCD_NAME={it.name}/' -e '/^ETCD_LISTEN_PEER\\|ADVERTISE_PEER/s/10.0.0.1/{host}/' "
                 f"-e 's|/etc/temolunai/a\\.|/etc/temolunai/{it.name}.|' /etc/default/etcd")
        at = next(n for n, line in enumerate(lines) if "/etc/default/etcd" in line)
        whole = own("\n".join([*lines[:at + 1], edits, *lines[at + 1:-1]]), it.name)
        it.does("three machines: etcd", whole + "\nsystemctl daemon-reload; systemctl enable -q etcd; systemctl restart --no-block etcd")
    check("three machines: etcd is well", until(lambda: a.says("systemctl is-active etcd")[1].strip() == "active", 60),
          a.says("journalctl -u etcd -n 20 --no-pager")[1])
    for it in machines:
        others = " ".join(HOSTS[one] for one in HOSTS if one != it.name)
        words = (f"sed -i -e 's/--name a/--name {it.name}/' -e 's/10.0.0.1/{HOSTS[it.name]}/' -e 's/^IPAddressAllow=.*/IPAddressAllow={others}/' "
                 f"-e 's/a\\.\\(pem\\|key\\)/{it.name}.\\1/g' -e 's/c{it.name}\\.pem/ca.pem/g' "
                 "/etc/systemd/system/temolunai-replica@a.service.d/words.conf")
        lines = replica.splitlines()
        at = next(n for n, line in enumerate(lines) if line.startswith("cp -r"))
        it.does("three machines: the replica", "\n".join([*lines[:at + 1], words, *lines[at + 1:-1]]))
    check("three machines: all are well", until(lambda: all(it.is_well() for it in machines), 60),
          [(it.health(), it.says("journalctl -u temolunai-replica@a -n 6 --no-pager")[1][-500:]) for it in machines])
    for it in machines:
        first, second = (one for one in HOSTS if one != it.name)
        edits = (f"sed -i -e 's/10.0.0.2:/{HOSTS[first]}:/' -e 's/10.0.0.3:/{HOSTS[second]}:/' -e 's/proxy_ssl_name b/proxy_ssl_name {first}/' "
                 f"-e 's/proxy_ssl_name c/proxy_ssl_name {second}/' /etc/temolunai/offices.conf")
        lines = ways.splitlines()
        it.does("three machines: the gateway", "\n".join([*lines[:-1], edits, lines[-1]]))
        asked_both(it, f"OF{it.name.upper()}", 1)
    stops(machines)
    lost(machines)


def stops(machines):
    """A machine's own replica is away, and its gateway asks the others."""
    a = machines[0]
    a.does("its replica is stopped", "systemctl stop temolunai-replica@a")
    asked_both(a, "OTHERS", 2)
    state = json.loads(a.says("curl -sk https://localhost/health")[1] or "{}")
    check("the gateway's /health knows it", state.get("offices", {}).get("a") != "answers", state)
    a.does("its replica is begun", "systemctl start temolunai-replica@a")
    check("all are well again", until(lambda: all(it.is_well() for it in machines), 40), [it.health() for it in machines])


def lost(machines):
    """The steps for a lost machine, as they stand."""
    a, b, c = machines
    [text] = section("\n## A lost machine\n", "\n## A lost majority\n")
    here, there = text.split("# on c, ")
    here = here.replace("# on a\n", "")
    made = a.says("install -d /var/backups/temolunai; /usr/lib/temolunai/replica-backup /var/lib/temolunai-replica/a "
                  "/var/lib/temolunai/a/office.db /var/backups/temolunai")[1].strip()
    check("a backup of a", made.startswith("/var/backups/temolunai/2"), made)
    number = a.says("\n".join(line for line in here.splitlines() if "member remove" not in line and "member add" not in line))[1]
    gone = next((line.split(",")[0] for line in number.splitlines() if ", c," in line), "NONE")
    c.does("its etcd is gone", "systemctl stop etcd; rm -rf /var/lib/etcd/temolunai; "
           "sed -i s/STATE=new/STATE=existing/ /etc/default/etcd")
    a.does("a lost machine: on a", here.replace("NUMBER_OF_C", gone))
    shutil.copytree(f"{a.root}{made}", f"{c.root}/root/backup")
    steps = "\n".join(there.splitlines()[1:]).replace("BACKUP", "/root/backup").replace("systemctl start etcd", "systemctl start --no-block etcd; systemctl start")
    c.does("a lost machine: on c", steps)
    check("it is back", until(lambda: all(it.is_well() for it in machines), 60),
          [(it.health(), it.says("journalctl -u temolunai-replica@a -n 5 --no-pager")[1][-400:]) for it in machines])
    equal("at the same entry", 1, len({it.health()["sum"] for it in machines}))
    check("what it had is kept", c.says("ls -d /var/lib/temolunai-replica-before-*/journal-*")[0] == 0, c.says("ls -la /var/lib /var/lib/private")[1])
    asked_both(c, "AGAIN", 1)
    check("b went on meanwhile", b.is_well(), b.health())


def pages(folder):
    """Both."""
    begun = time.monotonic()
    root = debian(folder)
    if not root:
        return
    run("ip", "link", "add", BRIDGE, "type", "bridge")
    run("ip", "link", "set", BRIDGE, "up")
    undo.append(lambda: run("ip", "link", "del", BRIDGE))
    run("cp", "-a", "--reflink=auto", root, f"{folder}/one", seconds=300)
    one_machine(f"{folder}/one")
    three_machines(folder, root)
    note(f"docs/REPLICAS.md under systemd: {time.monotonic() - begun:.0f} s")
