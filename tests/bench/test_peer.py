"""What `.ci/bench peer` must say no to, and what the C peer must answer."""

import os
import shutil
import tempfile
import unittest

import peer_conversations
import peer_files
import peer_judging as judging
from peer_asks import Ask, Centre, get, post
from peer_sides import Differs, Side, ask_family, build


RETITLED = "UPDATE clip SET title = 'CLIP X' WHERE n = 7 AND ch = 1"
ROOM = tempfile.mkdtemp()
PEER = build(ROOM)


def tearDownModule() -> None:  # pylint: disable=invalid-name
    """Nothing is left."""
    shutil.rmtree(ROOM)


def taking(times: list[float], what: str = "it") -> Side:
    """A side that took so long in each round."""
    return Side("side", [], {what: times})


class Judging(unittest.TestCase):
    """Figures that hold, and those next to them that don't."""

    def test_ratio(self) -> None:
        asks = [Ask("it", [], [], 1.5)]
        for theirs, holds in ((14.9, False), (15.0, True), (15.1, True)):
            line = judging.beside_c(asks, taking([10.0]), taking([theirs]))[0]
            self.assertEqual((line.holds, line.cells[5]), (holds, "ok" if holds else "NOT"))

    def test_median(self) -> None:
        """One slow round of C doesn't help the office, nor does a quick one of its own."""
        line = judging.beside_c([Ask("it", [], [], 1.5)], taking([10.0, 10.0, 1.0]), taking([14.0, 14.0, 99.0]))[0]
        self.assertIs(line.holds, False)

    def test_nothing_wanted(self) -> None:
        self.assertIsNone(judging.beside_c([Ask("it", [], [])], taking([10.0]), taking([1.0]))[0].holds)

    def test_flat(self) -> None:
        for most, holds in ((13.1, False), (12.9, True)):
            asks = [Ask(f"{clips}", [], [], None, ("a seal", "clips", clips)) for clips in (20, 20_000)]
            ours = Side("side", [], {"20": [10.0], "20000": [most]})
            self.assertEqual([it.holds for it in judging.over_vaults(asks, ours, ours)], [holds])
            self.assertEqual(judging.beside_c(asks, ours, ours), [])

    def test_exponent(self) -> None:
        for power, holds in ((1.15, False), (1.05, True)):
            asks = [Ask(f"{items}", [], [], None, ("a seal", "items", items)) for items in (10, 100, 999, 9_999)]
            ours = Side("side", [], {f"{items}": [items**power] for items in (10, 100, 999, 9_999)})
            line = judging.growths(asks, ours)[0]
            self.assertEqual((line.holds, line.cells[2]), (holds, f"{power:.2f}"))


class Comparing(unittest.TestCase):
    """A peer beside another one over the same file, and over one that differs in a byte."""

    def setUp(self) -> None:
        self.room = tempfile.mkdtemp(dir=ROOM)
        self.path = f"{self.room}/centre.db"
        peer_files.make_days(self.path, 20, 10, 10, 3)

    def beside(self, words: str, ask: Ask) -> None:
        """Asks the peer, and one that changes its file by SQL first."""
        script = f"{self.room}/changed"
        with open(script, "w", encoding="utf-8") as out:
            out.write(f'#!/bin/sh\nsqlite3 "$1" "{words}"\nexec {PEER} "$1"\n')
        os.chmod(script, 0o755)
        sides = [Side("office", [PEER]), Side("c", [script])]
        ask_family([Centre("centre", lambda _: None, [ask])], self.room, sides, True)

    def test_same(self) -> None:
        self.beside("SELECT 1", Ask("clips", [], [get("1/clips"), post("1/days/1/seal")]))

    def test_byte_of_an_answer(self) -> None:
        with self.assertRaisesRegex(Differs, "clips: .* is answered, at byte .*CLIP 7"):
            self.beside(RETITLED, Ask("clips", [], [get("1/clips")]))

    def test_byte_of_an_answer_before(self) -> None:
        with self.assertRaises(Differs):
            self.beside(RETITLED, Ask("days", [get("1/clips")], [get("1/days")]))

    def test_longer_answer(self) -> None:
        with self.assertRaises(Differs):
            self.beside("INSERT INTO day VALUES (1, 9, 0)", Ask("days", [], [get("1/days")]))

    def test_rows(self) -> None:
        with self.assertRaisesRegex(Differs, "the rows of clip differ"):
            self.beside(RETITLED, Ask("days", [], [get("1/days")]))


class Conversations(unittest.TestCase):
    """The peer answers as conversations say; a byte of one that is changed is seen."""

    def setUp(self) -> None:
        office = os.environ.get("PLAYOUT", "")
        self.office = office if os.path.exists(office) else None

    def test_conversations(self) -> None:
        asked, wrong = peer_conversations.play(PEER, self.office)
        self.assertEqual(wrong, [])
        self.assertGreater(asked, 600 if self.office else 100)

    def test_byte(self) -> None:
        spoilt = f"{ROOM}/spoilt"
        with open(spoilt, "w", encoding="utf-8") as out:
            out.write(f"#!/bin/sh\n{PEER} \"$1\" | sed 's/RowForm/RowFort/'\n")
        os.chmod(spoilt, 0o755)
        self.assertIn("RowFort", "".join(peer_conversations.wrong_in("as-run-rows", spoilt, self.office)[1]))


if __name__ == "__main__":
    unittest.main()
