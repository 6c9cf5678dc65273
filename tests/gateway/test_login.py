#!/usr/bin/python3
"""The modules of deploy/login that want nothing but Python, each by itself.

    /usr/bin/python3 -m unittest discover tests/gateway
"""

import asyncio
import base64
import os
import re
import shutil
import sys
import tempfile
import time
import unittest

HERE = os.path.dirname(os.path.realpath(__file__))
DEPLOY = os.path.realpath(f"{HERE}/../../deploy")
sys.path.insert(0, DEPLOY)
sys.dont_write_bytecode = True

from login.accounts import (Account, Accounts, Group, Kept, Token, Unreadable, is_name, new_token, none, read,  # noqa: E402
                            sum_of, write)
from login.door import Busy, Door, Found, Spent  # noqa: E402
from login.page import known, shown  # noqa: E402
from login.passwords import fits, hashed, is_crypt, scrypt  # noqa: E402
from login.tickets import Tickets, key_of  # noqa: E402
from login.tries import Tries  # noqa: E402

# Hashes that cost little: 2 ** 4.
CHEAP = 4
SHA_CRYPT = "$6$saltstring$svn8UoSVapNtMuq1ukKS4tPQd8iKwSMHWjl/O817G3uBnIFNjnQJuesI68u4OTLiBFdcbYEdFCoEOfaS35inz1"


def people(**passwords):
    return Accounts(CHEAP, {name: Account(hashed(it, CHEAP), 5) for name, it in passwords.items()}, {})


class Folder(unittest.TestCase):
    def setUp(self):
        self.folder = tempfile.mkdtemp(prefix="login-test-")
        self.addCleanup(shutil.rmtree, self.folder)
        self.path = f"{self.folder}/accounts.json"


class Passwords(unittest.TestCase):
    def test_scrypt_is_that_of_rfc_7914(self):
        wanted = "7023bdcb3afd7348461c06cd81fd38ebfda8fbba904f8e3ea9b543f6545da1f2"
        self.assertEqual(wanted, scrypt("pleaseletmein", b"SodiumChloride", 14).hex())

    def test_crypt_is_what_openssl_prints(self):
        self.assertTrue(is_crypt("Hello world!", SHA_CRYPT, 0))
        self.assertFalse(is_crypt("Hello world?", SHA_CRYPT, 0))

    def test_what_fits(self):
        them = people(anna="of anna", bela="of bela")
        them.users["old"] = Account(SHA_CRYPT, 1)
        asked = [("anna", "of anna"), ("anna", "of bela"), ("anna", ""), ("nobody", "of anna"), ("nobody", ""),
                 ("old", "Hello world!"), ("old", "of anna"), ("anna", "Hello world!"), ("anna", "of anna\0"),
                 ("anna", "x" * 1025)]
        got = [fits(password, them.users.get(name), them) for name, password in asked]
        self.assertEqual([True, False, False, False, False, True, False, False, False, False], got)

    def test_a_hash_says_what_it_cost(self):
        them = people(anna="of anna")
        them.users["bela"] = Account(hashed("of bela", CHEAP + 1), 5)
        salt = bytes(16)
        them.users["old"] = Account(f"scrypt${salt.hex()}${scrypt('of old', salt, CHEAP).hex()}", 5)
        dearer = them._replace(cost=CHEAP + 3)
        got = [fits(f"of {name}", them.users[name], dearer) for name in ("anna", "bela")] + [fits("of old", them.users["old"], them)]
        self.assertEqual([True, True, True], got)
        self.assertFalse(fits("of anna", them.users["bela"], dearer))
        self.assertEqual("5", them.users["bela"].password.split("$")[1])

    def test_python_3_13_has_no_crypt(self):
        """None of the modules wants what that one has no more."""
        for folder in ("login", "watch"):
            for name in os.listdir(f"{DEPLOY}/{folder}"):
                if name.endswith(".py"):
                    with open(f"{DEPLOY}/{folder}/{name}", encoding="utf-8") as it:
                        self.assertNotRegex(it.read(), r"(?m)^\s*(import|from) crypt\b", name)

    def test_each_hash_has_a_salt_of_its_own(self):
        self.assertNotEqual(hashed("the same", CHEAP), hashed("the same", CHEAP))


class Files(Folder):
    def test_what_was_written_is_read(self):
        word = new_token()
        them = people(anna="of anna")
        them.tokens[sum_of(word)] = Token("anna", "ingest", "2026-01-01T00:00:00Z")
        write(self.path, them)
        self.assertEqual(them, read(self.path))
        self.assertEqual(0o640, os.stat(self.path).st_mode & 0o777)
        self.assertEqual("anna", read(self.path).user_of(word))
        self.assertIsNone(read(self.path).user_of(new_token()))
        with open(self.path, encoding="utf-8") as it:
            text = it.read()
        self.assertNotIn(word, text)
        self.assertNotIn("of anna", text)
        self.assertEqual(["accounts.json"], os.listdir(self.folder))

    def test_a_token_has_256_bits(self):
        word = new_token()
        self.assertRegex(word, "^[A-Za-z0-9_-]{43}$")
        self.assertEqual(32, len(base64.urlsafe_b64decode(word + "=")))

    def test_a_token_ends(self):
        word = new_token()
        them = Accounts(CHEAP, {"anna": Account("", 1)}, {sum_of(word): Token("anna", "x", "", 1000)})
        self.assertEqual(["anna", None], [them.user_of(word, now) for now in (999, 1000)])
        write(self.path, them)
        self.assertEqual(them, read(self.path))

    def test_words_of_nginx_are_no_names(self):
        self.assertEqual([False] * 4 + [True], [is_name(it) for it in ("default", "include", "hostnames", "volatile", "anna")])

    def test_what_groups_may(self):
        them = none()._replace(groups={"a": Group((2, 1)), "b": Group((3,), "reads"), "c": Group((), "watches")})
        write(self.path, them)
        self.assertEqual(them, read(self.path))
        asked = {("a",): Group((1, 2)), ("b",): Group((3,), "reads"), ("a", "b"): Group((1, 2, 3)), ("c", "b"): Group((3,), "watches"),
                 ("x",): Group(()), (): Group(())}
        self.assertEqual(asked, {names: them.rights_of(names) for names in asked})

    def test_a_token_of_nobody_is_nobodys(self):
        word = new_token()
        self.assertIsNone(Accounts(CHEAP, {}, {sum_of(word): Token("gone", "x", "")}).user_of(word))

    def test_what_isnt_accounts(self):
        for text in ("", "[]", "{}", '{"cost":99,"users":{},"tokens":{}}', '{"cost":4,"users":{"A B":{"password":"","since":1}},'
                     '"tokens":{}}', '{"cost":4,"users":{"a":{}},"tokens":{}}'):
            with open(self.path, "w", encoding="utf-8") as out:
                out.write(text)
            with self.assertRaises(Unreadable, msg=text):
                read(self.path)

    def test_a_change_is_seen(self):
        write(self.path, none())
        kept = Kept(self.path)
        self.assertEqual({}, kept.now().users)
        write(self.path, people(anna="of anna"))
        self.assertEqual(["anna"], list(kept.now().users))
        os.remove(self.path)
        with self.assertRaises(Unreadable):
            kept.now()


class Sessions(Folder):
    def setUp(self):
        super().setUp()
        self.tickets = Tickets(self.folder, 1000, 12)

    def test_a_session_lasts_a_working_day(self):
        text = self.tickets.make("anna", 5, 1000)
        self.assertEqual(("anna", 5, 1000 + 12 * 3600), self.tickets.read(text, 1000)[:3])
        self.assertIsNotNone(self.tickets.read(text, 1000 + 12 * 3600 - 1))
        self.assertIsNone(self.tickets.read(text, 1000 + 12 * 3600))

    def test_what_was_changed_is_no_session(self):
        text = self.tickets.make("anna", 5, 1000)
        for at, old in enumerate(text):
            for new in "0~a":
                if new != old:
                    self.assertIsNone(self.tickets.read(text[:at] + new + text[at + 1:], 1000))
        for it in ("", "~", text[:-1], text + "0", text + "\n", text.replace("anna", "bela")):
            self.assertIsNone(self.tickets.read(it, 1000))

    def test_the_key_stays(self):
        text = self.tickets.make("anna", 5, 1000)
        self.assertIsNotNone(Tickets(self.folder, 1001, 12).read(text, 1001))
        self.assertEqual(0o600, os.stat(f"{self.folder}/key").st_mode & 0o777)
        os.remove(f"{self.folder}/key")
        self.assertIsNone(Tickets(self.folder, 1001, 12).read(text, 1001))

    def test_an_ended_session_is_over_after_a_stop_too(self):
        text, other = self.tickets.make("anna", 5, 1000), self.tickets.make("anna", 5, 1000)
        self.tickets.end(self.tickets.read(text, 1000))
        for it in (self.tickets, Tickets(self.folder, 1002, 12), Tickets(self.folder, 1003, 12)):
            self.assertIsNone(it.read(text, 1003))
            self.assertIsNotNone(it.read(other, 1003))
        self.assertEqual({}, Tickets(self.folder, 1000 + 12 * 3600, 12).ended)

    def test_a_full_disk_ends_nothing_else(self):
        """What can't be kept is known until the service ends; it begins, and knows what was kept before."""
        text, other = self.tickets.make("anna", 5, 1000), self.tickets.make("anna", 5, 1000)
        self.tickets.end(self.tickets.read(text, 1000))
        os.symlink("/dev/full", f"{self.folder}/ended.new")
        again = Tickets(self.folder, 1001, 12)
        self.assertIsNone(again.read(text, 1001))
        os.remove(f"{self.folder}/ended")
        os.symlink("/dev/full", f"{self.folder}/ended")
        again.end(again.read(other, 1001))
        self.assertIsNone(again.read(other, 1001))
        os.remove(f"{self.folder}/key")
        os.symlink("/dev/full", f"{self.folder}/key.new")
        self.assertEqual(32, len(key_of(f"{self.folder}/key")))
        self.assertFalse(os.path.exists(f"{self.folder}/key"))

    def test_a_browser_is_known_for_the_names_that_came_in_by_it(self):
        text = self.tickets.learns("", "anna")
        self.assertEqual([True, False], [bool(self.tickets.knows(text, it)) for it in ("anna", "bela")])
        both = self.tickets.learns(text, "bela")
        self.assertEqual(self.tickets.knows(text, "anna"), self.tickets.knows(both, "bela"))
        for it in ("", text[:-1], text.replace("anna", "bela"), text + "0"):
            self.assertIsNone(self.tickets.knows(it, "anna" if "bela" not in it else "bela"))
        # A session is no browser, and a browser no session.
        self.assertIsNone(self.tickets.read(text, 1000))
        for number in range(20):
            both = self.tickets.learns(both, f"u{number}")
        self.assertLessEqual(len(both), 400)
        self.assertIsNotNone(self.tickets.knows(both, "u19"))

    def test_a_session_has_its_groups(self):
        text = self.tickets.make("anna", 0, 1000, ("traffic", "night"))
        self.assertEqual(("traffic", "night"), self.tickets.read(text, 1000).groups)
        self.assertIsNone(self.tickets.read(text.replace("~night", ""), 1000))

    def test_a_key_that_is_none_is_told(self):
        with open(f"{self.folder}/key", "wb") as out:
            out.write(b"short")
        with self.assertRaises(ValueError):
            Tickets(self.folder, 1000, 12)


class Trying(unittest.TestCase):
    def test_so_many_a_name_and_so_many_an_address(self):
        tries = Tries(3, 5, 600, from_all=7)
        self.assertEqual([True, True, True, False], [tries.begin("anna", "10.0.0.1", 0) for _ in range(4)])
        self.assertEqual([True] * 5 + [False], [tries.begin(f"u{it}", "10.9.9.9", 0) for it in range(6)])
        # Who tries a colleague's name elsewhere doesn't lock her out here, until very many have tried from everywhere.
        self.assertEqual([True] * 4 + [False], [tries.begin("anna", f"10.0.1.{it}", 0) for it in range(5)])
        self.assertFalse(tries.begin("anna", "10.0.0.9", 599))
        self.assertTrue(tries.begin("anna", "10.0.0.9", 600))

    def test_a_known_browser_is_spared(self):
        tries = Tries(2, 3, 600, from_all=4)
        for it in range(9):
            tries.begin("anna", f"10.0.0.{it % 2}", 0)
        self.assertFalse(tries.begin("anna", "10.0.0.1", 0))
        self.assertEqual([True, True, False], [tries.begin("anna", "10.0.0.1", 0, "b1") for _ in range(3)])
        self.assertTrue(tries.begin("anna", "10.0.0.1", 0, "b2"))
        tries.was_right("anna", "10.0.0.1", "b1")
        self.assertTrue(tries.begin("anna", "10.0.0.1", 0, "b1"))

    def test_a_right_one_counts_for_nothing(self):
        tries = Tries(2, 3, 600)
        for _ in range(50):
            self.assertTrue(tries.begin("anna", "10.0.0.1", 0))
            tries.was_right("anna", "10.0.0.1")
        # Who has an account of his own has no more tries of others by it.
        self.assertEqual([True] * 3, [tries.begin(f"u{it}", "10.0.0.1", 0) for it in range(3)])
        self.assertFalse(tries.begin("anna", "10.0.0.1", 0))
        tries.take_back("u0", "10.0.0.1")
        self.assertTrue(tries.begin("anna", "10.0.0.1", 0))

    def test_a_network_of_ipv6_is_one_address(self):
        tries = Tries(100, 2, 600)
        self.assertEqual([True, True, False], [tries.begin(f"u{it}", f"2001:db8::{it:x}", 0) for it in range(3)])
        self.assertTrue(tries.begin("u9", "2001:db8:0:1::1", 0))


class TheDoor(unittest.IsolatedAsyncioTestCase):
    def setUp(self):
        self.folder = tempfile.mkdtemp(prefix="login-test-")
        self.addCleanup(shutil.rmtree, self.folder)
        self.path, self.word = f"{self.folder}/accounts.json", new_token()
        them = people(anna="of anna: it", bela="of bela")
        them.tokens[sum_of(self.word)] = Token("bela", "ingest", "")
        write(self.path, them)
        self.door = Door(Kept(self.path), Tickets(self.folder, time.time(), 12), Tries(3, 100))
        self.hashes = 0
        begin = self.door.tries.begin

        def counted(*words):
            self.hashes += 1
            return begin(*words)
        self.door.tries.begin = counted

    async def asks(self, authorization="", cookie=""):
        try:
            found = await self.door.who(authorization, cookie, "10.0.0.1")
        except Spent:
            return None
        return found.name if found else None

    async def tried(self, name, password, address="10.0.0.1", browser=""):
        """True, False, or nothing where it isn't tried."""
        try:
            return bool(await self.door.tried(name, password, address, browser))
        except Spent:
            return None

    @staticmethod
    def basic(given):
        return "Basic " + base64.b64encode(given.encode()).decode()

    async def test_who_asks(self):
        text = self.door.tickets.make("anna", 5, time.time())
        asked = {
            ("", ""): None, ("", text): "anna", ("", text + "x"): None, ("Bearer " + self.word, ""): "bela",
            ("Bearer " + self.word, text): "bela", ("Bearer x", text): None, ("Digest x", text): None,
            (self.basic("anna:of anna: it"), ""): "anna", (self.basic("anna:wrong"), text): None,
            (self.basic("nobody:of anna: it"), ""): None, ("Basic %", ""): None, (self.basic("anna"), ""): None,
            ("Basic \udcff", ""): None, ("Bearer \udcff", ""): None, ("\udcff", ""): None, ("Basic /w==", ""): None,
        }
        self.assertEqual(asked, {words: await self.asks(*words) for words in asked})

    async def test_a_password_is_hashed_once_a_minute(self):
        given = self.basic("anna:of anna: it")
        self.assertEqual(["anna"] * 12, await asyncio.gather(*(self.asks(given) for _ in range(12))))
        self.assertEqual("anna", await self.asks(given))
        self.assertEqual(1, self.hashes)
        self.door.known["anna"] = self.door.known["anna"]._replace(until=time.monotonic() - 1)
        self.assertEqual("anna", await self.asks(given))
        self.assertEqual(2, self.hashes)

    async def test_an_old_password_isnt_known_any_more(self):
        given, text = self.basic("anna:of anna: it"), self.door.tickets.make("anna", 5, time.time())
        self.assertEqual(["anna", "anna"], [await self.asks(given), await self.asks("", text)])
        write(self.path, Accounts(CHEAP, {"anna": Account(hashed("another", CHEAP), 6)}, {}))
        got = [await self.asks(given), await self.asks("", text), await self.asks("Bearer " + self.word)]
        self.assertEqual([None, None, None], got)
        write(self.path, none())
        self.assertIsNone(await self.asks(self.basic("anna:another")))

    async def test_tries_end(self):
        wrong = [await self.tried("anna", "wrong") for _ in range(4)]
        self.assertEqual([False, False, False, None], wrong)
        self.assertIsNone(await self.tried("anna", "of anna: it"))
        self.assertIsNone(await self.asks(self.basic("anna:of anna: it")))
        self.assertTrue(await self.tried("bela", "of bela"))
        nobody = [await self.tried("nobody", "wrong") for _ in range(4)]
        self.assertEqual([False, False, False, None], nobody)
        # She herself comes in elsewhere, and here by the browser in which she was before.
        self.assertTrue(await self.tried("anna", "of anna: it", "10.0.0.2"))
        self.assertTrue(await self.tried("anna", "of anna: it", browser=self.door.tickets.learns("", "anna")))
        self.assertIsNone(await self.tried("anna", "of anna: it", browser=self.door.tickets.learns("", "bela")))

    async def test_of_many_at_once_no_more_are_let_in(self):
        got = await asyncio.gather(*(self.tried("anna", f"wrong {it}") for it in range(20)))
        self.assertEqual((3, 17), (got.count(False), got.count(None)))

    async def test_where_too_many_wait_one_is_told_so(self):
        self.door.turns.most = 0
        with self.assertRaises(Busy):
            await self.door.tried("anna", "of anna: it", "10.0.0.1")
        with self.assertRaises(Busy):
            await self.door.who(self.basic("anna:of anna: it"), "", "10.0.0.1")
        # It wasn't tried, and doesn't count.
        self.door.turns.most = 9
        self.assertEqual([False, False, False, None], [await self.tried("anna", "wrong") for _ in range(4)])

    async def test_a_member_of_a_group_may_what_the_group_may(self):
        them = read(self.path)._replace(groups={"traffic": Group((1, 2)), "guests": Group((7,), "reads")})
        write(self.path, them)
        tickets = self.door.tickets
        text, guest = (tickets.make("dora", 0, time.time(), it) for it in (("traffic",), ("guests",)))
        self.assertEqual([Group((1, 2)), Group((7,), "reads")], [(await self.door.who("", it, "")).rights for it in (text, guest)])
        write(self.path, them._replace(groups={"guests": Group((8,), "reads")}))
        self.assertEqual([None, Group((8,), "reads")],
                         [found and found.rights for found in [await self.door.who("", it, "") for it in (text, guest)]])
        # Nobody has an account's rights by a group, or a group's by an account.
        self.assertIsNone(await self.door.who("", tickets.make("bela", 0, time.time(), ("guests",)), ""))

    async def test_a_directory_knows_who_has_no_account(self):
        class Directory:
            def groups_of(self, name, password):
                return ("traffic", "others") if (name, password) == ("dora", "of dora") else ()
        write(self.path, read(self.path)._replace(groups={"traffic": Group((1, 2))}))
        self.door.directory = Directory()
        self.assertEqual(Found(0, ("traffic",)), await self.door.tried("dora", "of dora", "10.0.0.1"))
        self.assertIsNone(await self.door.tried("dora", "wrong", "10.0.0.1"))
        user = await self.door.who(self.basic("dora:of dora"), "", "10.0.0.1")
        self.assertEqual(("dora", Group((1, 2))), user)
        self.assertIsNone(await self.door.tried("default", "of dora", "10.0.0.1"))


class ThePage(unittest.TestCase):
    def test_nobody_is_sent_elsewhere(self):
        asked = ["#/1/day/7", "#/12/vault", "", "//evil.example", "#//evil.example", "#/1/day/7\r\nSet-Cookie: a=b", "/x",
                 "#/1/../x"]
        self.assertEqual(["#/1/day/7", "#/12/vault", "", "", "", "", "", ""], [known(it) for it in asked])

    def test_what_was_typed_is_text(self):
        page = shown("<b>", '"><script>', "#/1/day/7")
        self.assertIn('value="&quot;&gt;&lt;script&gt;"', page)
        self.assertIn("&lt;b&gt;", page)
        self.assertIn('value="#/1/day/7"', page)
        # The gateway's policy takes no script or style that stands in the page.
        self.assertIsNone(re.search(r"<style|style=|<script(?! type=\"module\" src=)| on[a-z]+=", page))


if __name__ == "__main__":
    unittest.main()
