#!/usr/bin/python3
"""deploy/users, and how the offices are said to be, each by itself.

    /usr/bin/python3 -m unittest discover tests/gateway
"""

import asyncio
import json
import os
import shutil
import subprocess
import sys
import tempfile
import time
import unittest

HERE = os.path.dirname(os.path.realpath(__file__))
DEPLOY = os.path.realpath(f"{HERE}/../../deploy")
sys.path[:0] = [DEPLOY, HERE]
sys.dont_write_bytecode = True

from login.accounts import none, read  # noqa: E402
from login.offices import ANSWERS, AWAY, ILL, OPENS, STOPPED, Offices, Place, places, state_of  # noqa: E402
from login.passwords import fits  # noqa: E402
from test_login import SHA_CRYPT  # noqa: E402


class TheOffices(unittest.IsolatedAsyncioTestCase):
    TEXT = "# upstream part_x {\nupstream part_a {\n    server 127.0.0.1:8101;\n}\nupstream part_b { server 10.0.0.2:8102 " \
           "max_fails=0;\n    server 10.0.0.3:8103 backup; }\nserver { listen 127.0.0.1:8212; }\n"

    def test_where_they_are(self):
        self.assertEqual([Place("a", "127.0.0.1", 8101), Place("b", "10.0.0.2", 8102)], places(self.TEXT))

    async def test_how_they_are(self):
        folder = tempfile.mkdtemp(prefix="login-test-")
        self.addCleanup(shutil.rmtree, folder)

        async def office(reader, writer):
            await reader.readuntil(b"\r\n\r\n")
            writer.write(b'HTTP/1.1 404 Not Found\r\nContent-Length: 33\r\n\r\n{"code":404,"refused":"NotFound"}')
            writer.close()

        async def another_program(reader, writer):
            await reader.readuntil(b"\r\n\r\n")
            writer.write(b"HTTP/1.1 404 Not Found\r\nContent-Length: 9\r\n\r\nNot Found")
            writer.close()

        async def silent(_, writer):
            await asyncio.sleep(0.3)
            writer.close()
        servers = [await asyncio.start_server(it, "127.0.0.1", 0) for it in (office, silent, another_program, office, office)]
        ports = [it.sockets[0].getsockname()[1] for it in servers]
        for it in servers[3:]:
            it.close()
            await it.wait_closed()
        with open(f"{folder}/offices.conf", "w", encoding="utf-8") as out:
            out.writelines(f"upstream part_{name} {{\n server 127.0.0.1:{port};\n}}\n" for name, port in zip("abecd", ports))
        with open(f"{folder}/c", "w", encoding="ascii") as out:
            out.write("4711\n")
        states = await Offices(f"{folder}/offices.conf", f"{folder}/{{}}").states()
        self.assertEqual({"a": ANSWERS, "b": AWAY, "e": AWAY, "c": OPENS, "d": AWAY}, states)
        for it in servers[:3]:
            it.close()


class Users(unittest.TestCase):
    def setUp(self):
        self.folder = tempfile.mkdtemp(prefix="users-test-")
        self.addCleanup(shutil.rmtree, self.folder)
        self.path = f"{self.folder}/accounts.json"

    def users(self, *words, given="", status=0):
        done = subprocess.run([f"{DEPLOY}/users", *words], input=given, capture_output=True, text=True, check=False,
                              env={**os.environ, "SITE": self.folder, "RELOAD": "true"})
        self.assertEqual(status, done.returncode, done.stderr)
        return done.stdout

    def test_a_users_life(self):
        self.users("add", "anna", "2", "1", given="a long password\n")
        self.assertEqual("anna [1,2]\n", self.users("list"))
        with open(f"{self.folder}/users.map", encoding="utf-8") as it:
            self.assertEqual('anna "[1,2]";\n', it.read())
        self.assertTrue(fits("a long password", read(self.path).users["anna"], read(self.path)))
        first = read(self.path).users["anna"].since
        self.users("password", "anna", given="another long one\n")
        self.assertGreater(read(self.path).users["anna"].since, first)
        self.users("channels", "anna", "3")
        word = self.users("token", "anna", "ingest").strip()
        self.assertEqual("anna", read(self.path).user_of(word))
        self.users("token", "anna", "ingest", status=1)
        self.users("revoke", "anna", "ingest")
        self.assertIsNone(read(self.path).user_of(word))
        self.users("remove", "anna")
        self.assertEqual(("", none()), (self.users("list"), read(self.path)))

    def test_what_is_refused_changes_nothing(self):
        self.users("add", "anna", "1", given="a long password\n")
        before = read(self.path)
        for words, given, status in ((("add", "anna", "1"), "a long password\n", 1),
                                     (("add", "Bela", "1"), "a long password\n", 1),
                                     (("password", "anna"), "short\n", 1), (("password", "bela"), "a long password\n", 1),
                                     (("channels", "anna", "0"), "", 1), (("channels", "anna", "1;"), "", 1),
                                     (("add", "bela"), "", 2), ((), "", 2), (("revoke", "anna", "x"), "", 1)):
            self.users(*words, given=given, status=status)
        for words, status in ((("add", "default", "1"), 1), (("role", "anna", "rules"), 1), (("role", "bela", "reads"), 1),
                              (("token", "anna", "x", "0"), 1), (("group", "default", "reads", "1"), 1), (("cost", "9"), 1),
                              (("group", "g", "reads", "0"), 1), (("ungroup", "g"), 1)):
            self.users(*words, given="a long password\n", status=status)
        self.assertEqual(before, read(self.path))
        self.assertEqual("anna [1]\n", self.users("list"))

    def test_roles_and_groups(self):
        self.users("add", "anna", "1", given="a long password\n")
        self.users("role", "anna", "reads")
        with open(f"{self.folder}/roles.map", encoding="utf-8") as it:
            self.assertEqual("anna reads;\n", it.read())
        self.users("group", "traffic", "writes", "2", "1")
        self.users("group", "guests", "reads", "7")
        self.assertEqual("anna [1], reads\ngroup guests [7], reads\ngroup traffic [1, 2]\n", self.users("list"))
        self.users("role", "anna", "writes")
        self.users("ungroup", "guests")
        self.assertEqual("anna [1]\ngroup traffic [1, 2]\n", self.users("list"))
        self.users("role", "anna", "watches")
        self.users("remove", "anna")
        with open(f"{self.folder}/roles.map", encoding="utf-8") as it:
            self.assertEqual("", it.read())

    def test_a_token_for_some_days(self):
        self.users("add", "anna", "1", given="a long password\n")
        word = self.users("token", "anna", "guest", "7").strip()
        [token] = read(self.path).tokens.values()
        self.assertAlmostEqual(time.time() + 7 * 86400, token.until, delta=60)
        self.assertEqual([None, "anna"], [read(self.path).user_of(word, now) for now in (token.until, token.until - 1)])
        self.assertRegex(self.users("list"), r"guest \(\d{4}-\d\d-\d\d to \d{4}-\d\d-\d\d\)")

    def test_the_cost_of_new_hashes_can_be_raised(self):
        self.users("add", "anna", "1", given="a long password\n")
        self.users("cost", "15")
        self.users("add", "bela", "1", given="another long one\n")
        them = read(self.path)
        self.assertEqual(["14", "15"], [them.users[it].password.split("$")[1] for it in ("anna", "bela")])
        self.assertTrue(fits("a long password", them.users["anna"], them) and fits("another long one", them.users["bela"], them))

    def test_what_is_said_by_an_office_and_by_a_replica(self):
        ill, stopped, well = (json.dumps({"ill": it, "stopped": that, "agrees": {}}).encode() for it, that in (
            ({"hangs": "for 3 s"}, ""), ({}, "it differs"), ({}, "")))
        for wanted, head, body in ((ANSWERS, b"404 Not Found", b'{"code":404,"refused":"NotFound"}'), (ILL, b"503 Service Unavailable", ill),
                                   (STOPPED, b"503 Service Unavailable", stopped), (ANSWERS, b"200 OK", well), (AWAY, b"200 OK", b"{}"),
                                   (AWAY, b"502 Bad Gateway", b'{"code":502,"refused":"NoOffice"}'), (AWAY, b"200 OK", b"hello")):
            self.assertEqual(wanted, state_of(b"HTTP/1.1 " + head + b"\r\nContent-Length: 1\r\n\r\n" + body), body)
        self.assertEqual(AWAY, state_of(b""))

    def test_nginxs_passwords_are_taken(self):
        with open(f"{self.folder}/passwords", "w", encoding="utf-8") as out:
            out.write(f"# users\nold:{SHA_CRYPT}\nplain:{{PLAIN}}x\nBAD:{SHA_CRYPT}\n")
        self.users("import", f"{self.folder}/passwords")
        self.assertEqual("old [], old hash\n", self.users("list"))
        self.assertTrue(fits("Hello world!", read(self.path).users["old"], read(self.path)))
        with open(self.path, encoding="utf-8") as it:
            self.assertEqual(["old"], list(json.load(it)["users"]))


if __name__ == "__main__":
    unittest.main()
