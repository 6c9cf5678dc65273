"""What `.ci/bench first` must say no to, and what it leaves."""

import contextlib
import io
import os
import subprocess
import tempfile
import unittest
from unittest import mock

import first


class Room(unittest.TestCase):
    """A folder that is gone afterwards, with a kit in it."""

    def setUp(self) -> None:
        room = tempfile.TemporaryDirectory()  # pylint: disable=consider-using-with
        self.addCleanup(room.cleanup)
        self.room = room.name
        os.mkdir(f"{self.room}/kit")
        kit = mock.patch.object(first, "kit", lambda: f"{self.room}/kit")
        kit.start()
        self.addCleanup(kit.stop)


class Taking(Room):
    """A command that is waited for."""

    def test_what_is_wanted_is_waited_for(self) -> None:
        it = first.took(["sh", "-c", "cat > /dev/null; sleep 0.3; printf yes"], self.room, b"yes")
        self.assertGreaterEqual(it.wall, 0.3)
        self.assertGreaterEqual(it.processor, 0)

    def test_it_gets_the_message(self) -> None:
        first.took(["cat"], self.room, first.MESSAGE)

    def test_another_answer_is_none(self) -> None:
        for words in (["sh", "-c", "printf no"], ["sh", "-c", "printf yes; exit 1"], ["false"]):
            with self.assertRaises(SystemExit):
                first.took(words, self.room, b"yes")

    def test_processors_are_counted(self) -> None:
        it = first.took(["sh", "-c", "i=0; while [ $i -lt 400000 ]; do i=$((i + 1)); done"], self.room)
        self.assertGreaterEqual(it.processor, 0.05)


class Keeping(Room):
    """What other checks have kept is put aside, and back."""

    def setUp(self) -> None:
        super().setUp()
        self.kept = f"{self.room}/rattle-kept"
        os.mkdir(self.kept)
        with open(f"{self.kept}/old", "wb"):
            pass

    def test_it_is_back_whatever_happens(self) -> None:
        with contextlib.suppress(KeyError), first.nothing_kept():
            self.assertFalse(os.path.exists(self.kept))
            os.mkdir(self.kept)
            raise KeyError
        self.assertEqual(["old"], os.listdir(self.kept))
        self.assertEqual(["kit", "rattle-kept"], sorted(os.listdir(self.room)))

    def test_nothing_is_made_where_nothing_was(self) -> None:
        os.remove(f"{self.kept}/old")
        os.rmdir(self.kept)
        with first.nothing_kept():
            pass
        self.assertEqual(["kit"], os.listdir(self.room))


class Cloning(Room):
    """A clone of a commit."""

    def setUp(self) -> None:
        super().setUp()
        self.top = f"{self.room}/top"
        os.mkdir(self.top)
        self.git("init", "--quiet")
        for text in ("one", "two"):
            with open(f"{self.top}/text", "w", encoding="ascii") as out:
                out.write(text)
            self.git("add", "text")
            self.git("-c", "user.name=a", "-c", "user.email=a@b", "commit", "--quiet", "-m", text)

    def git(self, *words: str) -> None:
        """Calls git there."""
        subprocess.run(["git", *words], cwd=self.top, check=True)

    def test_it_is_that_commit_and_gone_afterwards(self) -> None:
        for commit, text in (("HEAD", "two"), ("HEAD~1", "one")):
            with first.clone_of(self.top, commit) as clone, open(f"{clone}/text", encoding="ascii") as file:
                self.assertEqual(text, file.read())
            self.assertFalse(os.path.exists(clone))

    def test_each_commit_has_a_line_for_what_was_waited_for(self) -> None:
        said = io.StringIO()
        one = first.Took(1, 2, 3)
        with mock.patch.object(first, "took", lambda *_, **__: one), contextlib.redirect_stdout(said):
            first.print_figures(self.top, "first", ["HEAD", "HEAD~1"])
            first.print_figures(self.top, "gate", [])
        lines = said.getvalue().splitlines()
        self.assertEqual([f"| {commit} | {name} | 1 | 2 | 3 |" for commit in ("HEAD", "HEAD~1")
                          for name in ("unproved", "first answer", "the rest")] + ["| HEAD | the gate | 1 | 2 | 3 |"],
                         [it for it in lines if it.startswith("| HEAD")])
