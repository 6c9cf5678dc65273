"""Reads conversations. tests/conversations/README.md says how they are written."""

import copy
import os
import re
import shlex
import subprocess
import sys

from conversation_items import Command, Copy, File, Message, Rows, Table, Writes, Wrong, answer_of

TOP = os.path.dirname(os.path.dirname(os.path.dirname(os.path.realpath(__file__))))
FOLDER = f"{TOP}/tests/conversations"
WAYS = ["memory", "file", "messages", "port"]
BY_ITSELF = "by itself"


# Texts are bytes, of which each is a character.
def to_bytes(text):
    return text.encode("latin-1")


def plain(text):
    """A text in which \\r, \\n, \\t, \\\\ and \\x1f stand for a byte, and \\(3 ab) for ababab."""

    def one(found):
        count, again, escape = found.groups()
        if count:
            return plain(again) * int(count)
        if escape[0] == "x":
            return chr(int(escape[1:], 16))
        return {"r": "\r", "n": "\n", "t": "\t", "\\": "\\"}[escape]

    parts = re.split(r"(\\\(\d+ [^)]*\)|\\x[0-9a-f]{2}|\\[rnt\\])", text)
    if any("\\" in it for it in parts[::2]):
        raise ValueError("a \\ that stands for nothing")
    escape = re.compile(r"\\\((\d+) ([^)]*)\)|\\(x[0-9a-f]{2}|[rnt\\])")
    return "".join(it if at % 2 == 0 else escape.sub(one, it) for at, it in enumerate(parts))


HEAD = r"(plan|over|after|ways|also without|as) "
OVER_FILE = r"(sql|rows|copy|refused|file|no file) |(back|opened|kept out)$"
ITEM = re.compile(rf"[A-Za-z]+ /|> |\$ |\$$|# |#$|{HEAD}|{OVER_FILE}")


def begins_item(line):
    """Whether a line is the first one of something, or a remark, and so no line of a text above it."""
    return ITEM.match(line)


class Lines:
    """The lines of a conversation, and the texts in them."""

    def __init__(self, text, folder):
        self.lines, self.at, self.folder = text.split("\n"), 0, folder
        if self.lines.pop() != "":
            raise Wrong(len(self.lines) + 1, "the last line has no end")

    def line(self):
        return self.lines[self.at] if self.at < len(self.lines) else None

    def take(self):
        self.at += 1
        return self.lines[self.at - 1]

    def marked(self):
        """The lines under this one that have a mark: with | they end in a line feed, with + in nothing."""
        text = ""
        while self.line() is not None and self.line()[:1] in ("|", "+"):
            line = self.take()
            if line[1:2] not in ("", " "):
                raise ValueError("a mark without a blank behind it")
            text += plain(line[2:]) + ("\n" if line[0] == "|" else "")
        return text

    def body(self, text):
        """A body: of a file, of what stands in the line, or of the marked lines under it."""
        if text.startswith("< "):
            with open(f"{self.folder}/{text[2:]}", encoding="latin-1", newline="") as file:
                return file.read()
        return text + self.marked()

    def text(self):
        """The lines of a text under an answer. Blank lines at its end are none of it, but where one has a mark."""
        if self.line() is not None and self.line()[:1] in ("|", "+"):
            return self.marked()
        lines = []
        while self.line() is not None and not begins_item(self.line()):
            lines.append(self.take())
        while lines and lines[-1] == "":
            lines.pop()
        return "".join(f"{it}\n" for it in lines)


class Reader(Lines):
    """Reads what is said."""

    def __init__(self, text, folder):
        super().__init__(text, folder)
        self.plan, self.sql, self.ways, self.without, self.alike, self.items = [], None, None, [None], [], []
        # What is read goes there: to the conversation, or to a copy.
        self.into = self.items

    def answer(self, message):
        line = self.take()
        if line == "no answer":
            message.ends = "cut short"
            return
        found = re.fullmatch(r"(ends )?(\d{3})(?: (.*))?", line)
        if not found:
            raise ValueError("no answer")
        message.ends = "refused" if found[1] else None
        if found[3] is None:
            message.wanted = answer_of(int(found[2]), "text/plain", to_bytes(self.text()))
        else:
            message.wanted = answer_of(int(found[2]), "application/json", to_bytes(found[3]))

    def result(self, command):
        found = re.fullmatch(r"([012])(?: (.*))?", self.take())
        if not found:
            raise ValueError("no exit status")
        command.status = int(found[1])
        said = to_bytes(self.text() if found[2] is None else f"{found[2]}\n")
        if command.status == 0:
            command.output = said
        else:
            command.faults = None if found[2] == ".." else said
            if found[2] is not None:
                command.output = to_bytes(self.text())

    def message(self, number, sent):
        self.into.append(Message(number, to_bytes(sent)))
        self.answer(self.into[-1])

    def request(self, number, line):
        method, path, *body = line.split(" ", 2)
        body = self.body("".join(body))
        self.message(number, f"{method} {path} HTTP/1.1\r\nContent-Length: {len(body)}\r\n\r\n{body}")

    def bytes(self, number, line):
        sent = plain(line[2:])
        while self.line() is not None and self.line().startswith("> "):
            sent += plain(self.take()[2:])
        self.message(number, sent)

    def command(self, number, line):
        words, _, file = line[2:].partition(" < ")
        self.into.append(Command(number, shlex.split(words), to_bytes(self.body(f"< {file}" if file else ""))))
        self.result(self.into[-1])

    def copy_of(self, number, line, around=".."):
        """A name and, behind a colon, SQL. Where there is no name, the SQL is its own."""
        name, colon, sql = line.partition(": ")
        return Copy(number, name, around.replace("..", self.body(sql if colon else name)))

    def table(self, number, becomes, fault):
        """The copies of the lines up to an empty one. The SQL of a line `with` is around that of each."""
        around, copies = "..", []
        if becomes not in ("refused", "opened", "kept out"):
            raise ValueError("no table")
        if self.line() and self.line().startswith("with "):
            around = self.take()[5:]
            if ".." not in around:
                raise ValueError("SQL without a place for that of each line")
        while self.line():
            at = self.at + 1
            copies.append(self.copy_of(at, self.take(), around))
        if not copies:
            raise ValueError("a table without a line")
        self.into.append(Table(number, becomes, fault, copies))

    def copied(self, number, line):
        name, colon, sql = line.partition(": ")
        made = self.copy_of(number, line) if colon else Copy(number, name, self.body(sql))
        self.items.append(made)
        self.into = made.items

    def back(self):
        self.into = self.items

    def plan_row(self, row):
        self.plan += row.split()

    def over(self, name):
        with open(f"{self.folder}/{name}", encoding="utf-8") as file:
            self.sql = file.read()

    def after(self, number, name):
        """What another conversation says to its file, and what it is answered."""
        other = Conversation(name)
        self.plan, self.sql = other.plan, other.sql
        for it in other.items:
            if isinstance(it, (Message, Writes)):
                self.items.append(copy.copy(it))
                self.items[-1].line = number

    def also(self, words):
        self.without.append(int(words.removeprefix("without ")))

    def as_another(self, number, words):
        name, _, channel = words.split()
        self.alike.append((number, name, int(channel)))

    def item(self):
        number, line = self.at + 1, self.take()
        if line == "" or re.match("# |#$", line):
            return
        word, _, rest = line.partition(" ")
        if re.match("[A-Za-z]+ /", line):
            self.request(number, line)
        elif word in self.HEADS:
            self.HEADS[word](self, rest)
        elif word in self.ITEMS:
            self.ITEMS[word](self, number, line, rest)
        else:
            raise ValueError("a line that says nothing")

    HEADS = {
        "plan": plan_row,
        "over": over,
        "ways": lambda self, rest: setattr(self, "ways", rest.split()),
        "also": also,
        "back": lambda self, _: self.back(),
    }
    ITEMS = {
        "after": lambda self, number, _, rest: self.after(number, rest),
        "as": lambda self, number, _, rest: self.as_another(number, rest),
        "$": lambda self, number, line, _: self.command(number, line),
        ">": lambda self, number, line, _: self.bytes(number, line),
        "sql": lambda self, number, _, rest: self.into.append(Writes(number, self.body(rest))),
        "rows": lambda self, number, _, rest: self.into.append(Rows(number, rest, to_bytes(self.text()))),
        "copy": lambda self, number, _, rest: self.copied(number, rest),
        "refused": lambda self, number, _, rest: self.table(number, "refused", to_bytes(f"{rest}\n")),
        "opened": lambda self, number, line, _: self.table(number, line, None),
        "kept": lambda self, number, line, _: self.table(number, line, None),
        "file": lambda self, number, _, rest: self.into.append(File(number, rest, to_bytes(self.marked()))),
        "no": lambda self, number, _, rest: self.into.append(File(number, rest.removeprefix("file "), None)),
    }

    def read(self):
        while self.line() is not None:
            number = self.at + 1
            try:
                self.item()
            except (ValueError, KeyError, IndexError, OSError) as error:
                raise Wrong(number, f"not read: {error}") from error


def text_of(name):
    """The text of a conversation: of its file, or what its program prints."""
    if name.endswith(".py"):
        words = [sys.executable, "-B", f"{FOLDER}/{name}"]
        return subprocess.run(words, stdout=subprocess.PIPE, check=True).stdout.decode("latin-1")
    with open(f"{FOLDER}/{name}", encoding="latin-1", newline="") as file:
        return file.read()


class Conversation:
    """What is said over a plan, or a file that is there, or by itself."""

    def __init__(self, name):
        self.name = name
        reader = Reader(text_of(name), FOLDER)
        reader.read()
        self.plan, self.sql, self.without, self.items = reader.plan, reader.sql, reader.without, reader.items
        self.messages = [it for it in self.items if isinstance(it, Message)]
        if not self.items:
            raise Wrong(1, "nothing is said")
        if self.messages and bool(self.plan) == bool(self.sql):
            raise Wrong(self.messages[0].line, "a message, and no plan, or a plan beside a file")
        if self.without[1:] and any(isinstance(it, (Writes, Rows, Copy, Table)) for it in self.items):
            raise Wrong(1, "lines of SQL in a conversation that is played without a channel")
        self.ways = reader.ways or self.all_ways()
        for line, other, channel in reader.alike:
            if self.told(channel) != Conversation(other).told(channel):
                raise Wrong(line, f"channel {channel} isn't asked and answered as in {other}")

    def all_ways(self):
        if not self.plan and not self.sql:
            return [BY_ITSELF]
        of_file = not self.plan or any(isinstance(it, (Writes, Copy, Table)) for it in self.items)
        return WAYS[1:] if of_file else WAYS

    def short_ways(self):
        """The ways in which it goes over no database: of commands alone, where each is one of these, and of files beside them."""
        if self.ways == [BY_ITSELF]:
            short = ("tc", "check", "diff", "list")
            is_short = all(isinstance(it, File) or (getattr(it, "words", None) or ["?"])[0] in short for it in self.items)
            return self.ways if is_short else []
        return [it for it in self.ways if it == WAYS[0]]

    def told(self, channel):
        """What a channel asks and is answered."""
        return [(it.sent, it.wanted) for it in self.messages if it.is_of(channel)]

    def left(self, channel):
        """The conversation without the messages of a channel."""
        left = copy.copy(self)
        left.items = [it for it in self.items if not (isinstance(it, Message) and it.is_of(channel))]
        return left


def streams_of(messages):
    """The messages, cut behind each that ends its stream."""
    streams = [[]]
    for message in messages:
        streams[-1].append(message)
        if message.ends:
            streams.append([])
    return streams if streams[-1] else streams[:-1] or [[]]
