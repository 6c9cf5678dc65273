"""The conversations of tests/conversations, as far as the C peer's commands reach: it is asked what they ask of these,
over a file in which the office does the rest, and must answer every byte as they say. Without an office those are
played in which the peer does all."""

import os
import re
import subprocess
import sys
import tempfile

TOP = os.path.dirname(os.path.dirname(os.path.dirname(os.path.abspath(__file__))))
sys.path.append(f"{TOP}/.ci/lib")

from conversation_items import Message, Writes  # noqa: E402
from conversation_reader import FOLDER, Conversation  # noqa: E402

from peer_files import make_tables  # noqa: E402

# What the peer does, by method and path, and what is refused before a path is looked at.
REACHED = re.compile(
    rb"GET /ch/\d+/(tapes|clips|offers|lent|days(/\d+(/match|/list)?)?) "
    rb"|POST /ch/\d+/(tapes|days(/\d+/(items|import/(strict|ignore)|seal|asrun/\d+))?) "
)
# Texts that the peer doesn't read as the office does: escapes of JSON, and bytes that are no UTF-8.
LEFT_OUT = ("bodies", "list-faults-imported")


def names() -> list[str]:
    """Those that are played."""
    found = sorted(os.listdir(FOLDER))
    return [it for it in found if ("." not in it or it.endswith(".py")) and it not in LEFT_OUT]


def said(program: list[str], file: str, messages: list[Message]) -> bytes:
    """What a program answers to these messages over the file."""
    given = b"".join(it.sent for it in messages)
    return subprocess.run([*program, file], input=given, stdout=subprocess.PIPE, check=True).stdout


def first_wrong(group: list[Message], answer: bytes) -> str:
    """The first message of a group that is answered otherwise, and how."""
    for it in group:
        if not answer.startswith(it.wanted):
            return f"{it.line}: {answer[:200]!r} in place of {it.wanted!r}"
        answer = answer[len(it.wanted):]
    return f"{group[-1].line}: {answer[:200]!r} behind it" if answer else ""


def groups_of(messages: list[Message]) -> list[tuple[bool, list[Message]]]:
    """The messages in their order, in groups that the peer does, or the office."""
    groups: list[tuple[bool, list[Message]]] = []
    for it in messages:
        reached = bool(REACHED.match(it.sent))
        if not groups or groups[-1][0] != reached or groups[-1][1][-1].ends:
            groups.append((reached, []))
        groups[-1][1].append(it)
    return groups


def wrong_in(name: str, peer: str, office: str | None) -> tuple[int, list[str]]:
    """How many of a conversation's messages the peer was asked, and the first ones that it answered otherwise."""
    it = Conversation(name)
    messages = []
    for item in it.items:
        if isinstance(item, Writes):
            break
        if isinstance(item, Message):
            messages.append(item)
    groups, asked, wrong = groups_of(messages), 0, []
    if it.sql or (not office and not all(reached for reached, _ in groups)):
        return 0, []
    with tempfile.TemporaryDirectory() as room:
        file = f"{room}/centre.db"
        make_tables(file, it.plan)
        for reached, group in groups:
            fault = first_wrong(group, said([peer] if reached else [str(office), "answer", "--db"], file, group))
            asked += len(group) if reached else 0
            if fault:
                wrong.append(f"{name}:{fault}")
    return asked, wrong


def play(peer: str, office: str | None) -> tuple[int, list[str]]:
    """Plays them all, and says how many messages the peer was asked, and what it answered otherwise."""
    found = [wrong_in(name, peer, office) for name in names()]
    return sum(count for count, _ in found), [line for _, wrong in found for line in wrong]


if __name__ == "__main__":
    count, lines = play(sys.argv[1], sys.argv[2] if len(sys.argv) > 2 else None)
    print(count, *lines, sep="\n")
