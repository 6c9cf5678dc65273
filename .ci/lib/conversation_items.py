"""What a conversation is made of: messages and commands, lines for the file that it is played over, and the bytes of an
answer."""

import re

PHRASES = {
    200: "OK",
    400: "Bad Request",
    404: "Not Found",
    409: "Conflict",
    413: "Payload Too Large",
    501: "Not Implemented",
    503: "Service Unavailable",
}
# Behind an answer that ends its stream comes this, and is not answered; where the last answer leaves the stream open, it
# is answered 404.
BEHIND = b"GET / HTTP/1.1\r\n\r\n"
NOT_FOUND = b'{"code":404,"refused":"NotFound"}'


class Wrong(Exception):
    """A conversation that is none, or an answer that is wrong, at a line of its file."""

    def __init__(self, line, text):
        super().__init__(text)
        self.line = line


class Message:
    """Bytes to send and the bytes of their answer. `ends` says how the stream goes on behind it: None where it does,
    'refused' where its answer ends it, 'cut short' where the input ends within it, and there is no answer."""

    def __init__(self, line, sent):
        self.line, self.sent, self.wanted, self.ends = line, sent, b"", None

    def is_of(self, channel):
        return re.match(b"[A-Z]+ /ch/%d/" % channel, self.sent)

    def changes_nothing(self):
        return self.sent.startswith(b"GET ") or not self.wanted.startswith(b"HTTP/1.1 200 ")


class Command:
    """Words for the program and its standard input, and its exit status, standard output and standard error. Where
    `faults` is None, something is on standard error."""

    def __init__(self, line, words, given):
        self.line, self.words, self.given = line, words, given
        self.status, self.output, self.faults = None, b"", b""
        # FILE is the conversation's.
        self.of_file = "FILE" in words


class Writes:
    """SQL that sqlite3 carries out over the file, and says nothing."""

    def __init__(self, line, sql):
        self.line, self.sql = line, sql


class Rows:
    """SQL, and the rows that sqlite3 prints."""

    def __init__(self, line, sql, wanted):
        self.line, self.sql, self.wanted = line, sql, wanted


class Copy:
    """A copy of the file in which SQL is carried out, and what is said over it."""

    def __init__(self, line, name, sql):
        self.line, self.name, self.sql, self.items = line, name, sql, []


class Table:
    """Copies of the file, of which each becomes the same: 'refused' with a fault, 'opened', or 'kept out' by sqlite3."""

    def __init__(self, line, becomes, fault, copies):
        self.line, self.becomes, self.fault, self.copies = line, becomes, fault, copies


class File:
    """A file beside the conversation's: it is made with this text, or where there is none it isn't there."""

    def __init__(self, line, name, text):
        self.line, self.name, self.text = line, name, text


def answer_of(code, of_type, body):
    """The bytes of an answer."""
    head = f"HTTP/1.1 {code} {PHRASES[code]}\r\nContent-Length: {len(body)}\r\nContent-Type: {of_type}\r\n\r\n"
    return head.encode() + body


def shown(text):
    """Bytes in a line, those around their middle left out where they are many."""
    text = repr(text)[2:-1]
    return text if len(text) <= 400 else f"{text[:200]} .. {text[-200:]}"
