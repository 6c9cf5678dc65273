"""What a run left, compared with one office that is given the log: rows, answers, places."""

import base64
import collections
import hashlib
import json
import os
import re
import shutil
import sqlite3
import subprocess
import sys
import threading
import zlib

from harness import PLAYOUT, TOP, check, equal, note, run, wipe

TABLES = ["office", "channel", "tape", "clip", "offer", "span", "day", "item", "batch", "aired"]
# The codes of what an office answered; others are a replica's or the gateway's own.
ANSWERED = (200, 400, 404, 409, 501)


class Entry:
    """An entry as etcd has it, or a journal's line: read here by the form that the heads of deploy/replica say."""

    def __init__(self, n, revision, value):
        head, _, self.body = (value if value[:1] == b"{" else zlib.decompress(value)).partition(b"\n")
        self.__dict__ |= json.loads(head)
        self.n, self.revision, self.value = n, revision, value

    def message(self):
        return message("POST", self.path, self.body)


class Watcher:
    """Follows the log of a cluster from its first entry on, beside the replicas, so that a compaction takes nothing from
    it. `words(i)` begins a watch at member i."""

    def __init__(self, words, members=3):
        self.words, self.members, self.entries, self.wanted = words, members, {}, True
        self.version = 0        # entries that go together have one
        self.process = None
        self.thread = threading.Thread(target=self.follow, daemon=True)
        self.thread.start()

    def follow(self):
        turn = 0
        while self.wanted:
            after = max((it.revision for it in self.entries.values()), default=0)
            asked = {"create_request": {"key": base64.b64encode(b"/temolunai/log").decode(), "start_revision": after + 1}}
            self.process = subprocess.Popen(self.words(turn % self.members, json.dumps(asked)), stdout=subprocess.PIPE,
                                            stderr=subprocess.DEVNULL)
            for line in self.process.stdout:
                self.take(json.loads(line).get("result", {}))
            self.process.wait()
            turn += 1

    def take(self, said):
        for event in said.get("events", ()):
            pair = event["kv"]
            assert int(pair["version"]) == self.version + 1, (self.version, pair["version"])
            self.version += 1
            for value in parts(base64.b64decode(pair["value"])):
                n = len(self.entries) + 1
                self.entries[n] = Entry(n, int(pair["mod_revision"]), value)

    def end(self):
        self.wanted = False
        if self.process and self.process.poll() is None:
            self.process.kill()
        self.thread.join(5)


def parts(value):
    """The entries of a revision: behind a star each has its length in front, in four bytes."""
    if value[:1] != b"*":
        return [value]
    found, at = [], 1
    while at < len(value):
        size = int.from_bytes(value[at:at + 4], "big")
        found.append(value[at + 4:at + 4 + size])
        at += 4 + size
    return found


def message(method, path, body=b""):
    return f"{method} {path} HTTP/1.1\r\nContent-Length: {len(body)}\r\n\r\n".encode() + body


def answers(data):
    at = 0
    while at < len(data):
        end = data.index(b"\r\n\r\n", at) + 4
        end += int(re.search(rb"(?i)content-length: (\d+)", data[at:end])[1])
        yield data[at:end]
        at = end


def parted(answer):
    """The code and the body."""
    head, _, body = answer.partition(b"\r\n\r\n")
    return int(head[9:12]), body.decode("latin-1")


def rows(file, folder):
    """All rows of a copy of a file, with its log."""
    wipe(folder)
    os.makedirs(folder)
    for it in ("", "-wal"):
        if os.path.exists(file + it):
            shutil.copy(file + it, f"{folder}/office.db{it}")
    base = sqlite3.connect(f"{folder}/office.db")
    found = {it: sorted(map(repr, base.execute(f"SELECT * FROM {it}"))) for it in TABLES}
    base.close()
    return found


def fourth(folder, base, entries, gets):
    """The answers of one office that is given the log, from what `base` holds on, and these GETs each at its place: that of
    each entry, and of each GET. And its rows."""
    wipe(folder)
    os.makedirs(folder)
    file = f"{folder}/office.db"
    for it in ("", "-wal"):
        if os.path.exists(base + it):
            shutil.copy(base + it, file + it)
    asked, stream = [], []
    first = min(entries, default=1)
    left_out = {int(it.path) for it in entries.values() if it.kind == "skip"}
    for n in range(first - 1, max(entries, default=0) + 1):
        if n in entries and entries[n].kind == "message" and n not in left_out:
            asked.append((n, None))
            stream.append(entries[n].message())
        for it in gets.get(n, ()):
            asked.append((n, it))
            stream.append(message("GET", it["path"], it["body"].encode()))
    done = subprocess.run([PLAYOUT, "answer", "--db", file], input=b"".join(stream), capture_output=True, check=False)
    equal("the fourth office", (0, b""), (done.returncode, done.stderr))
    said = list(answers(done.stdout))
    equal("the answers of the fourth office", len(asked), len(said))
    return list(zip(asked, said)), rows(file, f"{folder}/rows")


def journal(folder):
    """What a replica's journal says of each entry: revision, sum, whether it is sure, answer; and the entry's bytes."""
    found, values = {}, {}
    for name in sorted(it for it in os.listdir(folder) if it.startswith("journal-")):
        with open(f"{folder}/{name}", "rb") as file:       # behind its last line are zeros
            for line in file.read().rstrip(b"\0").splitlines():
                kind, n, revision, *rest = line.decode().split()
                if kind == "E":
                    values[int(n)] = base64.b64decode(rest[0])
                elif kind == "A":
                    found[int(n)] = int(revision), rest[0], rest[1], base64.b64decode(rest[2])
    return found, values


def known_to_nobody(folders, entries, notes, after):
    """Those of these requests that no replica can answer, and how many such entries come behind this one: no journal has the
    first answer, since all offices were given the entry and ended in it."""
    found = [journal(it)[0] for it in folders]
    unsure = [n for n in entries if n > after and all(n in it and it[n][2] == "0" for it in found)]
    words = collections.Counter((entries[n].user, entries[n].path, entries[n].body.decode("latin-1")) for n in unsure)
    told = []
    for it in notes:
        key = it["user"], it["path"], it["body"]
        if it["method"] == "POST" and it.get("status", 504) == 504 and words[key] > 0:
            words[key] -= 1
            told.append(it)
    return told, len(unsure)


class Faults(collections.Counter):
    """What differs, by its kind; the first of each is told."""

    def __init__(self, what):
        super().__init__()
        self.what = what

    def add(self, kind, seen):
        self[kind] += 1
        if self[kind] <= 2:
            print(f"replicas: {self.what}: {kind}: {str(seen)[:500]}", flush=True)


def name_of(it):
    """By what a request is known in the log."""
    made = hashlib.sha256()
    for part in (it["user"].encode(), it["id"].encode(), it["path"].encode(), it["body"].encode()):
        made.update(len(part).to_bytes(4, "big") + part)
    return made.hexdigest()


def compare_journals(folders, entries, first, faults):
    """Each journal has the entries of the log, with the first answers, and all have the same running sum."""
    last, unsure, sums = max(entries, default=0), 0, {}
    for name, folder in folders.items():
        found, values = journal(folder)
        # A digest may have come since the log was read.
        for n in [it for it in found if it > last and Entry(it, 0, values[it]).kind == "digest"]:
            del found[n]
        begun = min(found, default=last + 1)
        if sorted(found) != list(range(begun, last + 1)):
            faults.add("a journal has other entries", (name, begun, len(found), last))
        for n, (revision, total, sure, answer) in found.items():
            if n not in entries:
                continue
            unsure += sure == "0"
            if revision != entries[n].revision or values.get(n) != entries[n].value:
                faults.add("a journal has another entry", (name, n))
            if sure == "1" and n in first and answer != first[n]:
                faults.add("a journal has another answer", (name, n, answer, first[n]))
        sums[name] = found[last][1] if last in found else None
    if len(set(sums.values())) > 1:
        faults.add("the running sums differ", sums)
    return unsure


def compare_answers(notes, entries, first, faults):
    """What users were answered is what the fourth office answers at that place."""
    numbers = collections.Counter()
    for it in notes:
        if it["method"] != "POST" or it.get("status") not in ANSWERED or it["n"] < 1:
            continue
        numbers[it["n"]] += 1
        entry = entries.get(it["n"])
        if not entry or (entry.path, entry.body, entry.user) != (it["path"], it["body"].encode(), it["user"]):
            faults.add("another entry", (it, entry and entry.__dict__))
        elif (it["status"], it["said"]) != parted(first[it["n"]]):
            faults.add("an answer differs", (it, first[it["n"]]))
    if any(count > 1 for count in numbers.values()):
        faults.add("one entry for two requests", [it for it, count in numbers.items() if count > 1][:5])
    return len(numbers)


def compare_names(notes, entries, faults, by_gateway, others=frozenset()):
    """Each request is in the log once, by its id; behind a gateway, whose ids nobody knows, by its words."""
    posts = [it for it in notes if it["method"] == "POST" and (it.get("n") != 0 or by_gateway)]
    messages = [it for it in entries.values() if it.kind == "message" and it.user not in others]
    if by_gateway:
        asked = collections.Counter((it["user"], it["path"], it["body"]) for it in posts)
        answered = collections.Counter((it["user"], it["path"], it["body"]) for it in posts if it.get("status") in ANSWERED)
        logged = collections.Counter((it.user, it.path, it.body.decode("latin-1")) for it in messages)
        if answered - logged or logged - asked:
            faults.add("the log has other requests", ((answered - logged).most_common(3), (logged - asked).most_common(3)))
        return
    logged = collections.Counter(it.name for it in messages)
    for it in posts:
        count = logged[name_of(it)]
        if count != 1 and (count or "status" in it):
            faults.add(f"a request is in the log {count} times", it)
    if sum(logged.values()) > len(posts):
        faults.add("the log has requests of nobody", sum(logged.values()) - len(posts))


def compare_order(notes, faults):
    """A GET has seen all that was acknowledged before it was sent."""
    acked = sorted((it["end"], it["n"]) for it in notes if it["method"] == "POST" and it.get("n", -1) > 0)
    high = at = 0
    for begin, n in sorted((it["last"], it["n"]) for it in notes
                           if it["method"] == "GET" and it.get("status") in ANSWERED and it["n"] >= 0):
        while at < len(acked) and acked[at][0] < begin:
            high, at = max(high, acked[at][1]), at + 1
        if n < high:
            faults.add("a GET is behind", (begin, n, high))


def compare(what, base, folder, nodes, entries, notes, by_gateway=False, others=frozenset()):
    """All of it, once no request runs. `nodes` has the file of each office and the folder of its journal. What these others
    asked isn't among the notes."""
    faults = Faults(what)
    if sorted(entries) != list(range(1, len(entries) + 1)):
        faults.add("the log has a hole", (len(entries), max(entries, default=0)))
    gets = collections.defaultdict(list)
    for it in notes:
        if it["method"] == "GET" and it.get("status") in ANSWERED and it["n"] >= 0:
            gets[it["n"]].append(it)
    told, wanted = fourth(f"{folder}/fourth", base, entries, gets)
    first = {n: answer for (n, it), answer in told if it is None}
    for (n, it), answer in told:
        if it is not None and (it["status"], it["said"]) != parted(answer):
            faults.add("a GET differs", (n, it, answer))
    acked = compare_answers(notes, entries, first, faults)
    compare_names(notes, entries, faults, by_gateway, others)
    compare_order(notes, faults)
    for name, (file, _) in nodes.items():
        its = rows(file, f"{folder}/rows-of-{name}")
        for table in TABLES:
            if its[table] != wanted[table]:
                faults.add("rows differ", (name, table, len(its[table]), len(wanted[table])))
    unsure = compare_journals({name: it[1] for name, it in nodes.items()}, entries, first, faults)
    size = {it: len(wanted[it]) for it in TABLES if wanted[it]}
    note(f"{what}: {len(entries)} entries, {acked} of them seen to be answered, {sum(map(len, gets.values()))} GETs at their "
         f"places, {unsure} answers unsure, rows {size}")
    equal(f"{what}: all that is compared is equal", {}, dict(faults))
    check(f"{what}: there was traffic", acked > 20 or by_gateway and len(entries) > 20, (acked, len(entries)))
    return wanted
