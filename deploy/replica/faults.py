"""What can go wrong, and the answers that say so, in the form of an office's."""

import json
from http import HTTPStatus

# The refusals by which an office says that what it is asked was done before.
DONE_ALREADY = frozenset((43, 46, 47, 51, 55, 64, 66, 72, 73, 75, 82))


class NotDone(Exception):
    """Nothing was changed, and nothing will be: 503."""


class NoRoom(NotDone):
    """The log is full."""


class Unknown(Exception):
    """It may have been done, or may be done yet: 502. By its id it may be asked again."""


class Stopped(Exception):
    """This replica can't go on from where it stands: an operator has to look."""


def answer_of(code: int, members: object) -> bytes:
    """The bytes of an answer, as an office writes one."""
    return said(code, json.dumps(members, separators=(",", ":"), sort_keys=True))


def said(code: int, body: str, kind: str = "application/json") -> bytes:
    """The bytes of an answer of another kind, in ASCII."""
    head = f"HTTP/1.1 {code} {HTTPStatus(code).phrase}\r\nContent-Length: {len(body)}\r\nContent-Type: {kind}\r\n\r\n"
    return (head + body).encode("ascii")


def refusal(code: int, name: str, number: int = 0) -> bytes:
    """A refusal, whose number is its code where none is given."""
    return answer_of(code, {"code": number or code, "refused": name})


NOT_FOUND, NOT_IMPLEMENTED = refusal(404, "NotFound"), refusal(501, "NotImplemented")
ASK_AGAIN, UNAVAILABLE, NO_ANSWER = refusal(502, "NoOffice"), refusal(503, "Unavailable", 100), refusal(504, "NoAnswer")


def status_of(answer: bytes) -> int:
    """The code of an answer."""
    return int(answer[9:12])


def body_of(answer: bytes) -> bytes:
    """What stands behind the head of an answer."""
    return answer.partition(b"\r\n\r\n")[2]


def may_come_again(answer: bytes) -> bool:
    """Whether an office may answer so what it has done already, in the place of its first answer."""
    return status_of(answer) == 409 and json.loads(body_of(answer))["code"] in DONE_ALREADY
