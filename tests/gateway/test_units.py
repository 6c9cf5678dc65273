#!/usr/bin/python3
"""What units begin: deploy/ready before and behind an office's start, and the nightly backups of deploy/nightly.

    /usr/bin/python3 -m unittest discover tests/gateway
"""

import datetime
import os
import re
import shutil
import signal
import socket
import subprocess
import sys
import tempfile
import time
import unittest

HERE = os.path.dirname(os.path.realpath(__file__))
DEPLOY = os.path.realpath(f"{HERE}/../../deploy")


def quiet_port():
    """A port where nobody listens. The kernel gives none of these to a connection's near end, which would be met there."""
    for port in range(20000, 30000):
        with socket.socket() as it:
            if it.connect_ex(("127.0.0.1", port)) != 0:
                return port
    raise OSError("there is no free port")


class Folder(unittest.TestCase):
    def setUp(self):
        self.folder = tempfile.mkdtemp(prefix="units-test-")
        self.addCleanup(shutil.rmtree, self.folder)


class Ready(Folder):
    def ready(self, *words):
        done = subprocess.run([f"{DEPLOY}/ready", *words], capture_output=True, text=True, check=False, timeout=30)
        return done.returncode, done.stderr

    def test_a_part_without_a_file_or_a_port(self):
        file = f"{self.folder}/office.db"
        status, said = self.ready("before", "a", file, "8101")
        self.assertEqual((1, True), (status, said.startswith(f"part a: there is no file {file}. temolunai-part makes one")))
        self.assertEqual([], os.listdir(self.folder))
        open(file, "w", encoding="ascii").close()
        for port in ("", "0", "65536", "80a1", "-1", "${PORT}"):
            status, said = self.ready("before", "a", file, port)
            self.assertEqual((1, True), (status, said.startswith("part a: it has no port: write /etc/systemd/system/")), port)
        self.assertEqual((0, ""), self.ready("before", "a", file, "8101"))
        self.assertEqual(2, self.ready("before", "a", file)[0])

    def test_it_waits_as_long_as_the_process_runs(self):
        port = quiet_port()
        sleeper = subprocess.Popen(["sleep", "1"])
        waits = subprocess.Popen([f"{DEPLOY}/ready", "behind", "a", str(port), str(sleeper.pid)], stderr=subprocess.PIPE)
        with self.assertRaises(subprocess.TimeoutExpired):
            waits.wait(0.5)
        sleeper.wait()
        status, said = waits.wait(5), waits.stderr.read()
        self.assertEqual((1, True), (status, said.startswith(b"part a: the office ended before it answered")))
        waits.stderr.close()

    def test_it_has_begun_once_it_answers(self):
        with socket.create_server(("127.0.0.1", 0)) as it:
            words = [f"{DEPLOY}/ready", "behind", "a", str(it.getsockname()[1]), str(os.getpid())]
            waits = subprocess.Popen(words)
            peer, _ = it.accept()
            with peer:
                got = b""
                while not got.endswith(b"\r\n\r\n"):
                    got += peer.recv(100)
                self.assertEqual(b"READY\r\n\r\n", got)
                with self.assertRaises(subprocess.TimeoutExpired):
                    waits.wait(0.3)
                # Another program on its port is no office.
                peer.sendall(b"HTTP/1.1 400 Bad Request\r\nContent-Length: 4\r\n\r\nWhat")
            with self.assertRaises(subprocess.TimeoutExpired):
                waits.wait(0.5)
            peer, _ = it.accept()
            with peer:
                peer.sendall(b'HTTP/1.1 400 Bad Request\r\nContent-Length: 35\r\n\r\n{"code":400,"refused":"BadMessage"}')
            self.assertEqual(0, waits.wait(5))


class Heap(unittest.TestCase):
    def test_it_is_set_alike_by_hand_and_by_the_unit(self):
        found = set()
        for name in ("playout", "deploy/temolunai@.service", "tests/replica/harness.py"):
            with open(f"{DEPLOY}/../{name}", encoding="utf-8") as it:
                found |= set(re.findall(r"glibc\.malloc\.[\w.=:]+", it.read()))
        self.assertEqual(1, len(found), found)


class Logs(Folder):
    """A file beside a log that isn't its own: what was answered last stands in the log alone."""

    def refuses(self, script, *words):
        done = subprocess.run([f"{DEPLOY}/{script}", *words], capture_output=True, text=True, check=False)
        self.assertEqual(1, done.returncode, done)
        self.assertIn(f"{self.folder}/office.db-wal is a log without its file", done.stderr)

    def test_nobody_writes_beside_it(self):
        file = f"{self.folder}/office.db"
        for name in ("office.db-wal", "copy.db", "backup/office.db"):
            os.makedirs(os.path.dirname(f"{self.folder}/{name}"), exist_ok=True)
            with open(f"{self.folder}/{name}", "wb") as out:
                out.write(b"rows")
        copy = f"{self.folder}/copy.db"
        self.refuses("archive", copy, file, f"{self.folder}/old.db", "--before", "7")
        self.refuses("archive", copy, f"{self.folder}/new.db", file, "--before", "7")
        self.refuses("part", copy, file, "1")
        self.refuses("join", copy, copy, file)
        self.refuses("restore", f"{self.folder}/backup", file)
        self.assertEqual(["backup", "copy.db", "office.db-wal"], sorted(os.listdir(self.folder)))


class Halted(Folder):
    """An office that a backup has halted goes on, however the backup ends."""

    def setUp(self):
        super().setUp()
        self.file = f"{self.folder}/office.db"
        with open(self.file, "wb") as out:
            out.write(b"rows")
        with open(self.file, "rb") as held:
            self.office = subprocess.Popen(["sleep", "60"], stdin=held)
        self.addCleanup(self.office.wait)
        self.addCleanup(self.office.kill)
        # A disk that is slow, and a machine that is.
        for name, what in (("cp", "sleep 30"), ("setsid", f"sleep 1\nexec {shutil.which('setsid')} \"$@\"")):
            with open(f"{self.folder}/{name}", "w", encoding="ascii") as out:
                out.write(f"#!/bin/sh\n{what}\n")
            os.chmod(f"{self.folder}/{name}", 0o755)

    def state(self):
        with open(f"/proc/{self.office.pid}/stat", encoding="ascii") as it:
            return it.read().rpartition(")")[2].split()[0]

    def becomes(self, state, seconds):
        end = time.monotonic() + seconds
        while self.state() != state and time.monotonic() < end:
            time.sleep(0.05)
        self.assertEqual(state, self.state())

    def backup(self):
        """A backup that has halted the office, in a group of processes of its own."""
        words = [f"{DEPLOY}/backup", self.file, self.folder]
        surroundings = {**os.environ, "PATH": f"{self.folder}:{os.environ['PATH']}"}
        it = subprocess.Popen(words, env=surroundings, start_new_session=True, stdout=subprocess.DEVNULL, stderr=subprocess.DEVNULL)
        self.becomes("T", 5)
        return it

    def test_it_goes_on_where_the_backup_is_killed_whole(self):
        it = self.backup()
        os.killpg(it.pid, signal.SIGKILL)
        it.wait()
        self.becomes("S", 15)

    def test_it_goes_on_by_what_the_unit_has_done_behind(self):
        it = self.backup()
        os.killpg(it.pid, signal.SIGKILL)
        it.wait()
        self.assertEqual("T", self.state())
        subprocess.run([f"{DEPLOY}/goes-on", self.file], check=True)
        self.becomes("S", 5)
        subprocess.run([f"{DEPLOY}/goes-on", f"{self.folder}/nothing.db"], check=True)


class Rules(Folder):
    """The rules that the kernel is given, as nftables reads them."""

    def rules(self, script):
        surroundings = {**os.environ, "UNITS": self.folder, "SITE": self.folder, "RUN": self.folder}
        said = subprocess.run([f"{DEPLOY}/{script}", "--print"], env=surroundings, capture_output=True, text=True, check=True)
        return said.stdout

    def write(self, name, text):
        os.makedirs(os.path.dirname(f"{self.folder}/{name}"), exist_ok=True)
        with open(f"{self.folder}/{name}", "w", encoding="ascii") as out:
            out.write(text)

    def test_ports_are_those_of_units_and_of_the_gateway(self):
        self.assertNotIn("chain", self.rules("ports"))
        self.write("temolunai@a.service.d/port.conf", "[Service]\nEnvironment=PORT=8101\nSocketBindAllow=ipv4:tcp:8101\n")
        self.write("offices.conf", "# server 127.0.0.1:1;\nupstream part_a { server 127.0.0.1:8101; }\n"
                                   "upstream part_b {\n    server 127.0.0.1:8102 max_fails=0;\n server 10.0.0.2:8103;\n}\n")
        self.assertIn("dport { 8101, 8102 }", self.rules("ports"))
        self.assertNotIn("61184", self.rules("ports"))
        self.write("temolunai-replica@a.service.d/words.conf", "[Service]\nSocketBindAllow=ipv4:tcp:8201\n")
        self.assertIn("dport { 8101, 8102, 8201 }", self.rules("ports"))
        self.assertIn("61184-65519", self.rules("ports"))

    def test_addresses_are_spared_as_the_site_says(self):
        self.assertIn("dport != { 80, 443 } accept", self.rules("addresses"))
        self.write("server.conf", "listen [::]:8443 ssl;\n# listen 9;\n")
        self.write("plain.conf", "server {\n    listen 127.0.0.1:8080;\n}\n")
        self.write("addresses.conf", "geo $limited {\n default 1;\n 198.51.100.7 0;\n # 10.9.0.0/16 0;\n 2001:db8::/32 0;\n}\n"
                                     "set_real_ip_from 10.0.0.5;\nset_real_ip_from unix:;\n")
        text = self.rules("addresses")
        for it in ("dport != { 8080, 8443 } accept", "ip saddr { 10.0.0.5/32, 198.51.100.7/32 } accept",
                   "ip6 saddr { 2001:db8::/32 } accept"):
            self.assertIn(it, text)
        self.assertNotIn("10.9", text)

    def test_where_the_gateway_listens(self):
        subprocess.run([f"{DEPLOY}/listens", self.folder], check=True)
        with open(f"{self.folder}/tls.conf", encoding="ascii") as it:
            self.assertEqual("listen 443 ssl;\nlisten [::]:443 ssl;\n", it.read())
        # A kernel without IPv6 makes no such socket.
        no = "import socket, sys\ndef no(*_): raise OSError(97)\nkind = socket.socket\nsocket.socket = lambda family: no() " \
             "if family == socket.AF_INET6 else kind(family)\n"
        with open(f"{DEPLOY}/listens", encoding="utf-8") as it:
            subprocess.run([sys.executable, "-c", no + it.read(), self.folder], check=True)
        with open(f"{self.folder}/tls.conf", encoding="ascii") as it:
            self.assertEqual("listen 443 ssl;\n", it.read())


class Nightly(Folder):
    """The backups of an office's file, with stand-ins for the program."""

    def setUp(self):
        super().setUp()
        self.file, self.backups = f"{self.folder}/office.db", f"{self.folder}/backups"
        subprocess.run(["sqlite3", self.file, "CREATE TABLE office (one); INSERT INTO office VALUES (1)"], check=True)
        self.opened = f"{self.folder}/opened"
        self.says("echo '404 NotFound' >&2; exit 1")

    def says(self, what):
        """A program that counts how often it opens a file."""
        with open(f"{self.folder}/playout", "w", encoding="ascii") as out:
            out.write(f"#!/bin/sh\necho >> {self.opened}\n{what}\n")
        os.chmod(f"{self.folder}/playout", 0o755)

    def nightly(self):
        done = subprocess.run([f"{DEPLOY}/nightly", self.file, self.backups], capture_output=True, text=True, check=False,
                              env={**os.environ, "PLAYOUT": f"{self.folder}/playout"})
        return done.returncode, done.stdout.strip(), done.stderr

    def opens(self):
        with open(self.opened, encoding="ascii") as it:
            return len(it.readlines())

    def old(self, *days):
        for it in days:
            os.makedirs(f"{self.backups}/{it}T03-30-00.000000001Z")

    def days(self):
        return sorted(it[:10] for it in os.listdir(self.backups) if it[:2] == "20")

    def test_it_is_tested_by_sqlite3_and_once_a_week_by_the_program(self):
        for _ in range(3):
            status, copy, said = self.nightly()
            self.assertEqual((0, ""), (status, said))
            self.assertTrue(os.path.exists(f"{copy}/office.db"))
        self.assertEqual(1, self.opens())
        # Of one day the newest is kept, and the one that the program has opened.
        self.assertEqual(2, len(self.days()))
        [one] = [it for it in os.listdir(self.backups) if it[:2] == "20" and os.path.exists(f"{self.backups}/{it}/opened")]
        week_ago = datetime.datetime.now(datetime.timezone.utc) - datetime.timedelta(days=7)
        os.rename(f"{self.backups}/{one}", f"{self.backups}/{week_ago:%Y-%m-%dT%H-%M-%S}.000000001Z")
        self.assertEqual(0, self.nightly()[0])
        self.assertEqual(2, self.opens())

    def test_what_was_ended_by_force_goes_after_a_day(self):
        for name, hours in ((".old.partial", 25), (".new.partial", 1)):
            os.makedirs(f"{self.backups}/{name}/more")
            then = datetime.datetime.now().timestamp() - hours * 3600
            os.utime(f"{self.backups}/{name}", (then, then))
        self.assertEqual(0, self.nightly()[0])
        self.assertEqual([".new.partial"], [it for it in os.listdir(self.backups) if it.endswith(".partial")])

    def test_seven_days_and_five_weeks_are_kept(self):
        today = datetime.datetime.now(datetime.timezone.utc).date()
        back = [today - datetime.timedelta(days=it) for it in range(1, 80)]
        self.old(*(it.isoformat() for it in back))
        self.assertEqual(0, self.nightly()[0])
        days = {today - datetime.timedelta(days=it) for it in range(7)}
        weeks = {}
        for it in [today, *back]:
            weeks.setdefault(it.isocalendar()[:2], it)
        wanted = sorted(it.isoformat() for it in days | set(list(weeks.values())[:5]))
        self.assertEqual(wanted, self.days())

    def test_a_failure_is_told_and_removes_nothing(self):
        self.assertEqual(0, self.nightly()[0])
        self.old(*(f"2020-01-{it:02}" for it in range(1, 29)))
        before = self.days()
        self.says("echo '97 NotOurs' >&2; exit 1")
        for it in os.listdir(self.backups):
            if os.path.exists(f"{self.backups}/{it}/opened"):
                os.remove(f"{self.backups}/{it}/opened")
        status, _, said = self.nightly()
        self.assertEqual((1, True), (status, "97 NotOurs" in said))
        with open(f"{self.backups}/failed", encoding="utf-8") as it:
            self.assertIn("97 NotOurs", it.read())
        self.assertEqual(before, self.days())
        self.assertEqual(1, len([it for it in os.listdir(self.backups) if it.startswith("bad-")]))
        self.says("echo '404 NotFound' >&2; exit 1")
        self.assertEqual(0, self.nightly()[0])
        self.assertFalse(os.path.exists(f"{self.backups}/failed"))

    def test_a_damaged_file_is_no_backup(self):
        many = "WITH n(i) AS (SELECT 1 UNION ALL SELECT i + 1 FROM n WHERE i < 5000) INSERT INTO office SELECT i FROM n"
        subprocess.run(["sqlite3", self.file, f"{many}; CREATE INDEX it ON office (one)"], check=True)
        with open(self.file, "r+b") as out:
            out.seek(os.path.getsize(self.file) - 4096)
            out.write(b"\xff" * 2048)
        status, _, said = self.nightly()
        self.assertEqual((1, True), (status, "is no backup, sqlite3 says:" in said), said)
        self.assertEqual([], self.days())
        os.remove(self.file)
        status, _, said = self.nightly()
        self.assertEqual((1, True), (status, "there is no file" in said), said)


if __name__ == "__main__":
    unittest.main()
