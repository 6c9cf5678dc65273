"""The broadcast day of docs/broadcast-day with each message sent twice: the tables are those of the day."""

import json
import os
import re

DAY = "../../docs/broadcast-day"
HERE = os.path.dirname(os.path.abspath(__file__))
# What a command is answered that was done already: each path's refusal. A batch has its first answer.
DONE = [
    ("/tapes", 43, "BarcodeKnown"),
    ("/clips", 51, "UmidKnown"),
    ("/offers", 64, "AlreadyOffered"),
    ("/days", 72, "DayKnown"),
    ("/items", 75, "Overlap"),
    ("/import/strict", 75, "Overlap"),
    ("/seal", 73, "DaySealed"),
]


def place_of(body):
    """The label of the first frame of an item, or of the first item of a list."""
    if body.startswith("< "):
        with open(f"{HERE}/{DAY}/{body[2:]}", encoding="ascii") as file:
            events = [line.split() for line in file if re.match(r"[0-9]", line)]
        return next(event[-2] for event in events if event[2] == "V" and event[-2] != event[-1])
    return json.loads(body)["at"] if body else None


def again(path, body, answer):
    """What is answered to the message when it comes again."""
    done = [row for row in DONE if path.endswith(row[0])]
    if not answer.startswith("200") or not done:
        return answer
    _path, code, name = done[0]
    said = {"code": code, "refused": name}
    if code == 75:
        said["at"] = place_of(body)
    return "409 " + json.dumps(said, sort_keys=True, separators=(",", ":"))


def main():
    with open(f"{HERE}/{DAY}/said", encoding="ascii") as file:
        lines = iter(file.read().splitlines())
    print("plan 1,25,06:00:00:00,40")
    print("plan 2,25,06:00:00:00,40")
    for line in lines:
        message = re.match(r"(GET|POST) (\S+) ?(.*)", line)
        if not message:
            print(line)
            continue
        method, path, body = message.groups()
        asked = f"{method} {path} {re.sub('^< ', f'< {DAY}/', body)}".rstrip()
        print(asked)
        if method == "POST":
            answer = next(lines)
            print(answer)
            print(asked)
            print(again(path, body, answer))


main()
