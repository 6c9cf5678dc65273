#!/usr/bin/python3
"""Checks docs/openapi.yaml by itself, against FORMATS, against the conversations and against the program.

    check.py PROGRAM

Of the conversations each message and its answer is looked at: a route that is described is answered as described, a body
that is answered 200 is one that is described, and of any other route the answer is 400, 404, 413 or 501. Then bodies and
paths that the description forbids are made from ones that it allows, and the program must refuse each. Each part is given
something wrong too, and must say so. The last line is 'openapi: N passed, M failed'.
"""

import collections
import json
import os
import re
import subprocess
import sys

HERE = os.path.dirname(os.path.realpath(__file__))
TOP = os.path.dirname(os.path.dirname(HERE))
sys.path[:0] = [f"{TOP}/.ci/lib", HERE]
sys.dont_write_bytecode = True

import description  # noqa: E402
import conversation_reader  # noqa: E402
from conversation_items import Message, Wrong  # noqa: E402

UMID = "060a2b340101010501010d201300000000112233445566778899aabbccddeeff"
BLACK = {"at": "06:00:00:00", "frames": 9, "in": "00:00:00:00", "mix": 0, "source": "BL"}
# A body of each command that has one as JSON, which its channel takes in this order, and what is asked before.
ALLOWED = [
    ("/ch/1/tapes", {"barcode": "T1", "slot": 1}),
    ("/ch/1/tapes/1/pull", None),
    ("/ch/1/tapes/1/shelve", {"slot": 2}),
    ("/ch/1/clips", {"frames": 125, "in": "00:00:00:00", "tape": 1, "title": "NEWS", "umid": UMID}),
    ("/ch/1/offers", {"clip": "C0000001", "first": 1, "last": 7, "to": 2}),
    ("/ch/1/days", {"day": 1}),
    ("/ch/1/days/1/items", {"at": "06:00:00:00", "frames": 125, "in": "00:00:00:00", "mix": 0, "source": "C0000001"}),
    ("/ch/1/days/1/revise", {"add": [{**BLACK, "wipe": 1}], "remove": [1]}),
]
PATHS = ["/ch/1", "/ch/1/tapes", "/ch/1/days", "/ch/1/days/1", "/ch/1/days/1/match", "/ch/1/days/1/list"]
# What no message leads to, as FORMATS says.
UNSEEN = {("sealDay", "OutsideWindowAtItem")}

passed = failed = 0


def check(what, good, said=""):
    """Counts a check. What was said is printed where it isn't good."""
    global passed, failed
    if good:
        passed += 1
    else:
        failed += 1
        print(f"openapi: failed: {what}: {str(said)[:1500]}", flush=True)
    return good


def by_itself(document, form):
    """The description, and descriptions that are wrong."""
    said = description.faults(document, form)
    check("the description is one", not said, said)
    tape = ("components", "schemas", "NewTape")
    for what, place, value in (
        ("without a version", ("info", "version"), None),
        ("of OpenAPI 3.0", ("openapi",), "3.0.3"),
        ("with a path without a slash", ("paths", "ch"), {}),
        ("with a method that is none", ("paths", "/ch/{channel}/tapes", "fetch"), {"operationId": "x", "responses": {}}),
        ("with a schema that is none", (*tape, "type"), "thing"),
        ("with a field that no schema has", (*tape, "propertys"), {}),
        ("with a member that isn't described", (*tape, "required"), ["barcode", "place"]),
        ("that names what isn't there", (*tape, "properties", "slot"), {"$ref": "#/components/schemas/Slots"}),
        ("with what nothing uses", ("components", "schemas", "Spare"), {"type": "string"}),
        ("with an operation twice", ("paths", "/ch/{channel}/clips", "get", "operationId"), "readVault"),
        ("without a path's parameter", ("paths", "/ch/{channel}/tapes", "parameters"), []),
        ("with an answer without a word", ("components", "responses", "NotFound", "description"), None),
    ):
        check(f"a description {what} is refused", description.faults(description.changed(document, place, value), form))


def formats(described):
    """FORMATS has the same routes, and of each the same refusals by number."""
    with open(f"{TOP}/docs/FORMATS.md", encoding="utf-8") as it:
        text = it.read()
    routes = {}
    for row in re.findall(r"^\| `(?:POST|GET) .*$", text, re.MULTILINE):
        cells = [it.strip() for it in row.strip("|").split("|")]
        method = cells[0][1:].split(" ")[0]
        paths = re.findall(r"`(?:POST |GET )?(/[^`]*)`", cells[0])
        # The first path of a row is whole; those behind it may have its beginning left out.
        whole = [it if it.startswith("/ch/") else f"/ch/{{channel}}{it}" for it in paths]
        for path in whole:
            routes[(method, re.sub(r"/import/(strict|ignore)$", "/import/{mismatches}", path))] = cells[-1]
    ours = {(method.upper(), path): operation for path, method, operation in described.operations()}
    check("FORMATS has the same routes", set(routes) == set(ours), set(routes) ^ set(ours))
    schemas = described.document["components"]["schemas"]
    for route, tests in routes.items():
        if route not in ours:
            continue
        if "import" in route[1]:
            named = {71, 73, *range(21, 29), 30, 85, 84, 86, 77, 55, 66, 88, 78, 79, 80, 75, 83}
        else:
            tests = re.sub(r"(\d+) to (\d+)", lambda it: ", ".join(map(str, range(int(it[1]), int(it[2]) + 1))), tests)
            named = {int(it) for it in re.findall(r"\b\d+\b", tests)}
        listed = {schemas[it]["properties"]["code"]["const"] for it in described.refusals(ours[route])}
        check(f"{' '.join(route)} has FORMATS' refusals", listed == named, listed ^ named)
    table = {int(number): name for number, name in re.findall(r"^- (\d+) (\w+): ", text, re.MULTILINE)}
    with open(f"{TOP}/docs/LISTS.md", encoding="utf-8") as it:
        table.update({int(number): name for number, name in re.findall(r"^- (\d+) (\w+): ", it.read(), re.MULTILINE)})
    for name, schema in schemas.items():
        code = schema.get("properties", {}).get("code", {}).get("const", 0)
        if code in table:
            refused = schema["properties"]["refused"]["const"]
            check(f"{name} has the name of {code}", refused == table[code] and name.startswith(refused), (name, table[code]))


def messages():
    """Each message of the conversations, with what it is part of."""
    for name in sorted(os.listdir(conversation_reader.FOLDER)):
        if "." in name and not name.endswith(".py"):
            continue
        try:
            said = conversation_reader.Conversation(name)
        except (Wrong, OSError, subprocess.CalledProcessError) as fault:
            check(f"the conversation {name} is read", False, fault)
            continue
        items = [it for it in said.items]
        while items:
            it = items.pop(0)
            items += getattr(it, "items", [])
            if isinstance(it, Message) and it.wanted:
                yield f"{name}:{it.line}", it.sent, it.wanted


def taken_apart(sent, wanted):
    """The method, path and body of a message, and the code, type and body of its answer; None for no such message."""
    head, _, body = sent.partition(b"\r\n\r\n")
    asked = re.match(rb"([A-Z]+) (\S+) HTTP/1\.[01]\r?$", head.split(b"\n")[0])
    answer, _, text = wanted.partition(b"\r\n\r\n")
    code = int(answer[9:12])
    kind = re.search(rb"Content-Type: (\S+)", answer)[1].decode()
    return (asked[1].decode(), asked[2].decode("latin-1"), body) if asked else None, (code, kind, text)


def fault_of(described, sent, wanted, seen):
    """Why a message and its answer don't fit the description, or None. What is seen is counted."""
    asked, (code, kind, text) = taken_apart(sent, wanted)
    route = asked and described.route(asked[0], asked[1])
    if not route:
        return None if code in (400, 404, 413, 501, 503) else f"{asked and asked[:2]} isn't described, and was answered {code}"
    path, operation = route
    said = described.answer_fault(operation, code, kind, text)
    if said:
        return f"{operation['operationId']}: the answer {code} {text[:80]!r}: {said}"
    why = described.body_fault(operation, asked[2])
    if code == 200 and why:
        return f"{operation['operationId']}: a body that was taken, {asked[2][:80]!r}: {why}"
    seen[operation["operationId"], code] += 1
    if code == 409:
        schemas = described.document["components"]["schemas"]
        for name in described.refusals(operation):
            if described.fits(schemas[name], json.loads(text)) is None:
                seen[operation["operationId"], name] += 1
    if why:
        seen["forbidden", code] += 1
    return None


def conversations(described):
    """The messages of the conversations and their answers, and descriptions that they don't fit."""
    seen, count, said, kept = collections.Counter(), 0, [], []
    for place, sent, wanted in messages():
        count += 1
        if len(sent) < 2_000:
            kept.append((sent, wanted))
        why = fault_of(described, sent, wanted, seen)
        if why:
            said.append(f"{place}: {why}")
    check(f"{count} messages of the conversations and their answers fit", count > 1_000 and not said, "\n".join(said[:10]))
    for _, _, operation in described.operations():
        name = operation["operationId"]
        check(f"{name} is answered 200 in a conversation", seen[name, 200])
        for it in described.refusals(operation):
            if (name, it) not in UNSEEN:
                check(f"{name} is refused for {it} in a conversation", seen[name, it])
    for what, place, value in (
        ("that takes no slot", ("components", "schemas", "NewTape", "properties", "slot"), {"const": 0}),
        ("of another answer", ("components", "schemas", "TapeNumber", "properties", "tape"), {"type": "string"}),
        ("without a refusal", ("components", "schemas", "SlotTaken", "properties", "code"), {"const": 41}),
        ("of another table", ("components", "schemas", "VaultTable", "pattern"), "^TAPES$"),
        ("without a route", ("paths", "/ch/{channel}/days/{day}/seal"), None),
    ):
        other = description.Description(description.changed(described.document, place, value))
        found = any(fault_of(other, sent, wanted, collections.Counter()) for sent, wanted in kept)
        check(f"a description {what} is found", found)
    bad = sum(it for (name, _), it in seen.items() if name == "forbidden")
    print(f"openapi: {count} messages of the conversations, {bad} with a body that the description forbids", flush=True)


def ask(program, requests):
    """The answers' codes to some messages, in one stream over an empty plan of two channels."""
    stream = b""
    for method, path, body in requests:
        data = body if isinstance(body, bytes) else b"" if body is None else json.dumps(body).encode()
        stream += f"{method} {path} HTTP/1.1\r\nContent-Length: {len(data)}\r\n\r\n".encode() + data
    words = [program, "answer", "1,25,06:00:00:00,40", "2,25,06:00:00:00,40"]
    done = subprocess.run(words, input=stream, stdout=subprocess.PIPE, timeout=120, check=True)
    return [int(it) for it in re.findall(rb"(?:^|(?<=[}\n]))HTTP/1\.1 (\d{3}) ", done.stdout)]


def other_values(schema):
    """Values that a member's schema may forbid."""
    yield from (None, True, [], {}, 1.5, -1, 0, 4_294_967_295, "", "x" * 5_000, " ")
    if "maximum" in schema:
        yield from (schema["maximum"] + 1, str(schema["minimum"]))
    else:
        yield from (1, "é", "C000000", "24:00:00:00", "00:00:00", "BL ", "C0000001\n", UMID[:-1])


def forbidden(described, path, body):
    """Bodies of a command that the description forbids, made from one that it allows."""
    _, operation = described.route("POST", path)
    schema = described.whole(described.whole(operation["requestBody"])["content"]["application/json"]["schema"])
    whole = json.dumps(body).encode()
    made = [{**body, "spare": 1}, [body], "text", 1, None, b"", b"{", whole[:-1], whole + b"1"]
    made += [{key: value for key, value in body.items() if key != it} for it in schema["required"]]
    for it in body:
        member = described.whole(schema["properties"][it])
        made += [{**body, it: value} for value in other_values(member)]
        made += [{(key.upper() if key == it else key): value for key, value in body.items()}]
    for it in made:
        data = it if isinstance(it, bytes) else json.dumps(it).encode()
        if described.body_fault(operation, data):
            yield data


def program(described, path_of_program):
    """The program refuses what is forbidden."""
    before, count = [], 0
    for path, body in ALLOWED:
        if body is not None:
            tried = list(forbidden(described, path, body))
            count += len(tried)
            asked = [*(("POST", *it) for it in before), *(("POST", path, it) for it in tried), ("POST", path, body)]
            codes = ask(path_of_program, asked)[len(before) :]
            taken = [it for it, code in zip(tried, codes) if code not in (400, 409)]
            is_whole = len(codes) == len(tried) + 1
            check(f"{path} refuses each of {len(tried)} bodies that are forbidden", is_whole and not taken, taken[:3])
            check(f"{path} takes what is allowed", codes[-1:] == [200], codes[-1:])
        before.append((path, body))
    numbers = ("0", "01", "-1", "+1", "1.0", "1e0", "x", "", "100000", "1000000000000", "%31", "1/")
    paths = [path.replace("/1", f"/{it}", 1) for path in PATHS for it in (*numbers, "1000")]
    paths += [path.replace("days/1", f"days/{it}", 1) for path in PATHS if "days/1" in path for it in numbers]
    paths += [path + it for path in PATHS for it in ("/", "?x=1", "s", "/spare")]
    gone = [it for it in paths if not described.route("GET", it)]
    codes = ask(path_of_program, [*(("POST", *it) for it in ALLOWED), *(("GET", it, None) for it in gone)])[len(ALLOWED) :]
    others = [it for it in zip(gone, codes) if it[1] != 404]
    check(f"each of {len(gone)} paths that are forbidden is answered 404", len(codes) == len(gone) and not others, others[:3])
    check("most of the paths are forbidden", len(gone) > len(paths) * 0.9, [it for it in paths if it not in gone])
    print(f"openapi: {count} forbidden bodies and {len(gone)} forbidden paths were refused", flush=True)
    least = ("components", "schemas", "NewTape", "properties", "slot", "minimum")
    tight = description.Description(description.changed(described.document, least, 3))
    codes = ask(path_of_program, [("POST", "/ch/1/tapes", {"barcode": "T1", "slot": 1})])
    why = tight.body_fault(tight.route("POST", "/ch/1/tapes")[1], b'{"barcode":"T1","slot":1}')
    check("a description that forbids what is taken is found", why and codes == [200], (why, codes))


def main():
    if len(sys.argv) != 2:
        sys.exit(__doc__)
    document = description.read(f"{TOP}/docs/openapi.yaml")
    by_itself(document, description.read(f"{HERE}/document.yaml"))
    described = description.Description(document)
    formats(described)
    conversations(described)
    program(described, sys.argv[1])
    print(f"openapi: {passed} passed, {failed} failed")
    return 1 if failed else 0


if __name__ == "__main__":
    sys.exit(main())
