#!/usr/bin/python3
"""The figures of deploy/watch, each by itself.

    /usr/bin/python3 -m unittest discover tests/gateway
"""

import datetime
import os
import shutil
import socket
import subprocess
import sys
import tempfile
import threading
import time
import unittest

HERE = os.path.dirname(os.path.realpath(__file__))
DEPLOY = os.path.realpath(f"{HERE}/../../deploy")
sys.path.insert(0, DEPLOY)
sys.dont_write_bytecode = True

from watch.figures import Figures  # noqa: E402
from watch.gateway import ends, login_answers, put_gateway  # noqa: E402
from watch.machine import moment, put_backups, put_file, put_office, queues  # noqa: E402
from watch.replicas import put_replicas  # noqa: E402
from watch.requests import BOUNDS, part_of, read  # noqa: E402

PARTS = {"127.0.0.1:8101": "a", "127.0.0.1:8102": "b"}
ASKED = '2026-11-27T23:23:49+00:00 10.0.0.1 {} "GET /ch/1/tapes HTTP/1.1" {} - {} {}\n'


class Folder(unittest.TestCase):
    def setUp(self):
        self.folder = tempfile.mkdtemp(prefix="watch-test-")
        self.addCleanup(shutil.rmtree, self.folder)


class TheLog(Folder):
    def setUp(self):
        super().setUp()
        self.log, self.figures = f"{self.folder}/asked", Figures()
        self.write("")
        read(self.log, PARTS, self.figures)

    def write(self, text):
        with open(self.log, "a", encoding="utf-8") as out:
            out.write(text)

    def counted(self, **labels):
        return self.figures.get("temolunai_requests_total", **labels)

    def test_requests_are_counted_once(self):
        self.write(ASKED.format("anna", 200, "0.020", "127.0.0.1:8101") + ASKED.format("", 401, "0.001", "-")
                   + ASKED.format("anna", 409, "2.000", "127.0.0.1:8102") + "not a line\n")
        for _ in range(2):
            read(self.log, PARTS, self.figures)
            self.assertEqual([1, 1, 1, None], [self.counted(part="a", status="200"), self.counted(part="gateway", status="401"),
                                               self.counted(part="b", status="409"), self.counted(part="b", status="200")])
        self.assertEqual((1, 2.0), (self.figures.get("temolunai_request_seconds_count", part="b"),
                                    self.figures.get("temolunai_request_seconds_sum", part="b")))
        of_b = [self.figures.get("temolunai_request_seconds_bucket", part="b", le=it) for it in BOUNDS]
        self.assertEqual([0] * BOUNDS.index("2.5") + [1] * (len(BOUNDS) - BOUNDS.index("2.5")), of_b)
        self.assertEqual((1, 1), (self.figures.get("temolunai_turns", part="a"), self.figures.get("temolunai_turns", part="b")))

    def test_refusals_are_counted_by_their_numbers(self):
        line = ASKED.format("anna", 409, "0.020", "127.0.0.1:8101")
        self.write(line.replace(" - ", " 42 ") * 2 + line.replace(" - ", " 75 ") + line + line.replace(" - ", " "))
        read(self.log, PARTS, self.figures)
        numbers = [self.figures.get("temolunai_refusals_total", part="a", number=it) for it in ("42", "75", "-")]
        self.assertEqual([2, 1, None], numbers)
        self.assertEqual(5, self.counted(part="a", status="409"))

    def test_a_line_that_isnt_whole_waits(self):
        line = ASKED.format("anna", 200, "0.020", "127.0.0.1:8101")
        self.write(line[:20])
        read(self.log, PARTS, self.figures)
        self.assertIsNone(self.counted(part="a", status="200"))
        self.write(line[20:])
        read(self.log, PARTS, self.figures)
        self.assertEqual(1, self.counted(part="a", status="200"))

    def test_a_log_that_was_moved_is_read_to_its_end(self):
        self.write(ASKED.format("anna", 200, "0.020", "127.0.0.1:8101"))
        read(self.log, PARTS, self.figures)
        self.write(ASKED.format("anna", 200, "0.020", "127.0.0.1:8101"))
        os.rename(self.log, f"{self.log}.1")
        self.write(ASKED.format("anna", 200, "0.020", "127.0.0.1:8101") * 2)
        read(self.log, PARTS, self.figures)
        self.assertEqual(4, self.counted(part="a", status="200"))
        os.truncate(self.log, 0)
        read(self.log, PARTS, self.figures)
        self.write(ASKED.format("anna", 200, "0.020", "127.0.0.1:8101"))
        read(self.log, PARTS, self.figures)
        self.assertEqual(5, self.counted(part="a", status="200"))

    def test_what_was_there_before_isnt_counted(self):
        self.write(ASKED.format("anna", 200, "0.020", "127.0.0.1:8101"))
        fresh = Figures()
        read(self.log, PARTS, fresh)
        self.assertIsNone(fresh.get("temolunai_requests_total", part="a", status="200"))

    def test_whose_office_it_was(self):
        asked = {"-": "gateway", "127.0.0.1:8101": "a", "127.0.0.1:8101, 127.0.0.1:8102": "b", "unix:/run/x/socket": "other"}
        self.assertEqual(asked, {it: part_of(it, PARTS) for it in asked})


class TheText(unittest.TestCase):
    def test_what_is_written_is_read(self):
        figures = Figures()
        figures.put("temolunai_queue", 3, part="a")
        figures.add("temolunai_requests_total", 10_000_000, part="a", status="200")
        figures.put("temolunai_figures_time_seconds", 1795821826.25)
        for le in ("+Inf", "10", "0.5", "2.5"):
            figures.put("temolunai_request_seconds_bucket", 1, part="a", le=le)
        text = figures.text({"temolunai_queue": ("gauge", "How many wait.")})
        self.assertEqual(figures.values, Figures(text).values | {("temolunai_figures_time_seconds", ()): 1795821826.25})
        self.assertIn('# HELP temolunai_queue How many wait.\n# TYPE temolunai_queue gauge\ntemolunai_queue{part="a"} 3\n', text)
        bounds = [line.split('"')[1] for line in text.splitlines() if "bucket" in line]
        self.assertEqual(["0.5", "2.5", "10", "+Inf"], bounds)

    def test_a_label_stays_one(self):
        figures = Figures()
        figures.put("temolunai_queue", 1, part='a"} 5\nx{y="')
        self.assertEqual(1, len(figures.text({}).splitlines()))


class TheMachine(Folder):
    def test_ports_and_who_waits(self):
        with socket.create_server(("127.0.0.1", 0), backlog=5) as it:
            port = it.getsockname()[1]
            waiting = [socket.create_connection(("127.0.0.1", port)) for _ in range(3)]
            with open("/proc/net/tcp", encoding="ascii") as table:
                self.assertEqual(3, queues(table.read()).get(port))
            for each in waiting:
                each.close()
        with open("/proc/net/tcp", encoding="ascii") as table:
            self.assertNotIn(port, queues(table.read()))

    def test_how_the_gateway_is(self):
        os.makedirs(f"{self.folder}/temolunai")
        subprocess.run(["openssl", "req", "-x509", "-newkey", "rsa:2048", "-nodes", "-days", "9", "-subj", "/CN=x", "-keyout",
                        f"{self.folder}/key.pem", "-out", f"{self.folder}/temolunai/certificate.pem"], check=True,
                       stderr=subprocess.DEVNULL)
        self.assertAlmostEqual(time.time() + 9 * 86400, ends(f"{self.folder}/temolunai/certificate.pem"), delta=60)
        self.assertIsNone(ends(f"{self.folder}/key.pem"))
        for name, text in (("temolunai/server.conf", f"include {self.folder}/tls.conf;\n# listen 1;\nssl_certificate "
                            "temolunai/certificate.pem;\nssl_certificate_key key.pem;\n"),
                           ("tls.conf", "listen 443 ssl;\nlisten [::]:443 ssl;\n")):
            with open(f"{self.folder}/{name}", "w", encoding="ascii") as out:
                out.write(text)
        figures, server = Figures(), f"{self.folder}/temolunai/server.conf"
        for ports, wanted in (({443: 0, 80: 0}, 1), ({80: 0}, 0)):
            put_gateway(figures, server, ports, f"{self.folder}/socket")
            self.assertEqual([wanted, 0], [figures.get(f"temolunai_{it}") for it in ("gateway_listens", "login_answers")])
        left = figures.get("temolunai_certificate_ends_seconds", file="certificate.pem") - time.time()
        self.assertAlmostEqual(9 * 86400, left, delta=60)
        put_gateway(figures, f"{self.folder}/nothing.conf", {443: 0}, "")
        self.assertEqual(0, figures.get("temolunai_gateway_listens"))

    def test_whether_the_login_service_answers(self):
        for said, wanted in ((b"HTTP/1.1 401 Unauthorized\r\n\r\n", True), (b"HTTP/1.1 500 No\r\n\r\n", False), (b"", False)):
            place = f"{self.folder}/{len(said)}"
            with socket.socket(socket.AF_UNIX) as it:
                it.bind(place)
                it.listen()

                def answers():
                    peer, _ = it.accept()
                    with peer:
                        peer.recv(1000)
                        peer.sendall(said)
                thread = threading.Thread(target=answers)
                thread.start()
                self.assertEqual(wanted, login_answers(place))
                thread.join()
        self.assertFalse(login_answers(f"{self.folder}/nothing"))

    def test_turns_are_counted_from_the_process_on(self):
        with open(f"{self.folder}/a", "w", encoding="ascii") as out:
            out.write(f"{os.getpid()}\n")
        figures = Figures('temolunai_turns{part="a"} 77\n')
        put_office(figures, "a", 8101, {8101: 4}, f"{self.folder}/{{}}")
        names = ("office_listens", "office_runs", "queue", "turns")
        self.assertEqual([1, 1, 4, 0], [figures.get(f"temolunai_{it}", part="a") for it in names])
        figures.put("temolunai_turns", 5, part="a")
        put_office(figures, "a", 8101, {}, f"{self.folder}/{{}}")
        self.assertEqual([0, 1, 0, 5], [figures.get(f"temolunai_{it}", part="a") for it in names])
        os.remove(f"{self.folder}/a")
        put_office(figures, "a", 8101, {}, f"{self.folder}/{{}}")
        self.assertEqual(0, figures.get("temolunai_office_runs", part="a"))

    def test_files_and_backups(self):
        figures = Figures()
        with open(f"{self.folder}/office.db", "wb") as out:
            out.write(b"x" * 4096)
        put_file(figures, "a", f"{self.folder}/office.db")
        self.assertEqual([4096, 0], [figures.get("temolunai_file_bytes", part="a", what=it) for it in ("file", "log")])
        room = os.statvfs(self.folder)
        self.assertAlmostEqual(room.f_bavail * room.f_frsize, figures.get("temolunai_room_bytes", part="a"), delta=1 << 30)
        for name in ("2026-01-02T03-30-00.1Z", "2026-01-03T03-30-00.1Z", "bad-2026-01-04T03-30-00.1Z", ".x.partial"):
            os.makedirs(f"{self.folder}/b/{name}")
        open(f"{self.folder}/b/2026-01-02T03-30-00.1Z/opened", "w", encoding="ascii").close()
        put_backups(figures, "a", f"{self.folder}/b")
        taken = datetime.datetime(2026, 1, 3, 3, 30, tzinfo=datetime.timezone.utc).timestamp()
        names = ("backup_time_seconds", "backup_opened_time_seconds", "backups", "backup_failed")
        self.assertEqual([taken, taken - 86400, 2, 0], [figures.get(f"temolunai_{it}", part="a") for it in names])
        open(f"{self.folder}/b/failed", "w", encoding="ascii").close()
        put_backups(figures, "a", f"{self.folder}/b")
        self.assertEqual(1, figures.get("temolunai_backup_failed", part="a"))
        put_backups(figures, "none", f"{self.folder}/none")
        self.assertEqual(0, figures.get("temolunai_backup_time_seconds", part="none"))
        self.assertEqual(0.0, moment("office.db"))


class Replicas(Folder):
    def test_what_each_says_and_that_one_says_nothing(self):
        for part in "ab":
            os.makedirs(f"{self.folder}/{part}")
            with open(f"{self.folder}/{part}/journal-0", "w", encoding="ascii"):
                pass
        os.makedirs(f"{self.folder}/no-replica")
        with socket.socket(socket.AF_UNIX) as door:
            door.bind(f"{self.folder}/a/operator")
            door.listen()

            def says():
                asked, _ = door.accept()
                with asked:
                    asked.recv(1000)
                    text = b"temolunai_replica_ill 0\ntemolunai_replica_entry 4711\nanother 1\n"
                    asked.sendall(b"HTTP/1.1 200 OK\r\nContent-Length: %d\r\n\r\n%s" % (len(text), text))

            thread = threading.Thread(target=says)
            thread.start()
            figures = Figures()
            put_replicas(figures, f"{self.folder}/{{}}")
            thread.join()
        self.assertEqual({("temolunai_replica_answers", (("part", "a"),)): 1.0, ("temolunai_replica_ill", (("part", "a"),)): 0.0,
                          ("temolunai_replica_entry", (("part", "a"),)): 4711.0,
                          ("temolunai_replica_answers", (("part", "b"),)): 0.0}, figures.values)


if __name__ == "__main__":
    unittest.main()
