"""Plays a conversation in one way, with sqlite3 over its file between messages."""

import collections
import contextlib
import itertools
import os
import shutil
import sqlite3
import subprocess
import tempfile

from conversation_items import Command, Copy, File, Message, Rows, Table, Writes, Wrong, shown
from conversation_ways import REFUSAL_SECONDS, SECONDS, WAYS, ends, opening, run

# It would add a tape. Over a file that is refused it isn't answered.
TAPE = b'POST /ch/1/tapes HTTP/1.1\r\nContent-Length: 25\r\n\r\n{"barcode":"T1","slot":1}'


class Play:
    """What is played, in which way and by which program; what was compared, and what is wrong."""

    def __init__(self, program, said, way, without):
        self.program, self.said, self.way, self.without = program, said.left(without) if without else said, way, without
        self.compared, self.wrong = collections.Counter(), []

    def passes(self, kind, count=1):
        self.compared[kind] += count

    def fails(self, wrong):
        self.wrong.append(f"tests/conversations/{self.said.name}:{wrong.line}: {self.way}: {wrong}")


def makes(text, file):
    """A database that this SQL makes."""
    with contextlib.closing(sqlite3.connect(file)) as database:
        database.executescript(text)


def sqlite(file, sql):
    """What the program sqlite3 does with this SQL."""
    words = ["sqlite3", file, sql]
    return subprocess.run(words, stdin=subprocess.DEVNULL, capture_output=True, timeout=SECONDS, check=False)


def writes(play, item, file):
    ends(sqlite(file, item.sql), item.line, (0, b"", b""))
    play.passes("statements")


def reads(play, item, file):
    ends(sqlite(file, item.sql), item.line, (0, item.wanted, b""))
    play.passes("queries")


def everything(file):
    """All rows of a file, and its tables."""
    return sqlite(file, ".dump").stdout


@contextlib.contextmanager
def copied(file):
    """A copy of a file and its log."""
    with tempfile.TemporaryDirectory(prefix="copy-", dir=os.path.dirname(file)) as folder:
        name = f"{folder}/office.db"
        for end in ("", "-wal"):
            if os.path.exists(file + end):
                shutil.copyfile(file + end, name + end)
        yield name


def is_kept_out(_, item, file, __):
    before = everything(file)
    done = sqlite(file, item.sql)
    if done.returncode == 0 or everything(file) != before:
        raise Wrong(item.line, f"sqlite3 takes it: {shown(item.sql.encode())}")


def is_refused(play, item, file, fault):
    ends(sqlite(file, item.sql), item.line, (0, b"", b""))
    before = everything(file)
    done = run(play.program, opening(play.way, file), TAPE, item.line, seconds=REFUSAL_SECONDS)
    ends(done, item.line, (1, b"", fault))
    if everything(file) != before:
        raise Wrong(item.line, "it was refused, and has other rows now")


def is_opened(play, item, file, _):
    ends(sqlite(file, item.sql), item.line, (0, b"", b""))
    WAYS[play.way](play.program, file, [], [])


BECOMES = {"refused": is_refused, "opened": is_opened, "kept out": is_kept_out}


def plays_table(play, table, file):
    """Each copy of a table by itself: one that is wrong leaves the others."""
    for item in table.copies:
        try:
            with copied(file) as copy:
                BECOMES[table.becomes](play, item, copy, table.fault)
            play.passes("copies")
        except Wrong as wrong:
            play.fails(Wrong(wrong.line if wrong.line != 1 else item.line, f"{item.name}: {wrong}"))


def plays_copy(play, item, file):
    with copied(file) as copy:
        try:
            ends(sqlite(copy, item.sql), item.line, (0, b"", b""))
            plays_items(play, item.items, copy, [])
            play.passes("copies")
        except Wrong as wrong:
            play.fails(Wrong(wrong.line, f"{item.name}: {wrong}"))


def does(play, command, file):
    """A command does so."""
    words = [file if it == "FILE" else it for it in command.words]
    done = run(play.program, words, command.given, command.line, os.path.dirname(file))
    if command.faults is None:
        if (done.returncode, done.stdout) != (command.status, b"") or not done.stderr:
            got = f"exit status {done.returncode}, output {shown(done.stdout)}, faults {shown(done.stderr)}"
            raise Wrong(command.line, got)
    else:
        ends(done, command.line, (command.status, command.output, command.faults))
    play.passes("commands")


def beside(_, item, file):
    """Another file is made, or isn't there."""
    name = f"{os.path.dirname(file)}/{item.name}"
    if item.text is not None:
        with open(name, "wb") as made:
            made.write(item.text)
    elif os.path.lexists(name):
        raise Wrong(item.line, f"there is {item.name}")


PLAYS = {Writes: writes, Rows: reads, Copy: plays_copy, Table: plays_table, Command: does, File: beside}


def plays_stretch(play, kind, stretch, file, plan):
    """What follows one another and is of one kind. Messages with a plan make the file."""
    if kind is Message:
        WAYS[play.way](play.program, file, plan, stretch)
        play.passes("answers", len(stretch))
        return
    for item in stretch:
        PLAYS[kind](play, item, file)


def plays_items(play, items, file, plan):
    if plan and not (items and isinstance(items[0], Message)):
        plays_stretch(play, Message, [], file, plan)
        plan = []
    for kind, stretch in itertools.groupby(items, type):
        plays_stretch(play, kind, list(stretch), file, plan)
        plan = []


def plays_over_memory(play, file):
    """There is no file: all messages in a row, and the commands that are about none."""
    said = play.said
    messages = [it for it in said.items if isinstance(it, Message)]
    WAYS[play.way](play.program, None, said.plan, messages)
    play.passes("answers", len(messages))
    for item in said.items:
        if isinstance(item, Command) and not item.of_file:
            does(play, item, file)


def plays(play):
    """Plays a conversation in a way, in a folder of its own."""
    try:
        with tempfile.TemporaryDirectory(prefix="conversations-") as folder:
            file = f"{folder}/office.db"
            if play.said.sql:
                makes(play.said.sql, file)
            if play.way == "memory":
                plays_over_memory(play, file)
            else:
                plays_items(play, play.said.items, file, play.said.plan)
    except Wrong as wrong:
        play.fails(wrong)
    except (OSError, subprocess.TimeoutExpired) as error:
        play.fails(Wrong(1, str(error)))
    return play
