"""A replica with its log on its own disk: faults, the trail, recovery to a moment, the check of the promise."""

import base64
import http.client
import json
import os
import re
import threading
import time

from compare import Entry, compare, fourth, journal, known_to_nobody, parted, rows
from faults import Traffic, failed_ones
from gateway import Gateway, upstream
from harness import (
    REPLICA, TUNABLES, Kept, begin, check, equal, free_ports, make_centre, note, office_words, operator, replica_words, run,
    script, until,
)
from traffic import PLAN

ALL = ("office", "replica")


class Single:
    """An office, its replica, and a gateway in front."""

    def __init__(self, folder, base=None):
        self.folder, self.file, self.journal = folder, f"{folder}/office/office.db", f"{folder}/replica"
        for it in (f"{folder}/office", self.journal):
            os.makedirs(it, mode=0o700)
        self.base = base or f"{folder}/base.db"
        if not base:
            make_centre(self.base, PLAN)
        equal("a copy of the base", 0, run("cp", self.base, self.file)[0])
        begin(self.file, self.journal)
        self.office_port, self.port = free_ports(2)
        self.start()
        self.gateway = Gateway(f"{folder}/gateway", upstream(self.port))
        self.gateway.start()
        self.notes = []

    def start(self):
        self.office = Kept(office_words(self.file, self.office_port), f"{self.folder}/office.log", TUNABLES)
        words = ["--name", "a", "--listen", f"127.0.0.1:{self.port}", "--office", f"127.0.0.1:{self.office_port}",
                 "--log", f"file:{self.journal}"]
        self.replica = Kept(replica_words(self.journal, *words), f"{self.folder}/replica.log", REPLICA)
        self.wait_well("one machine begins")

    def state(self):
        return operator(self.journal, "health", "GET")[1]

    def wait_well(self, what):
        check(f"{what}: it is well", until(lambda: self.state()["n"] >= 0 and not self.state()["ill"], 20), self.state())

    def entries(self):
        """The log: the lines of entries, not those of what the office answered."""
        found, values = journal(self.journal)
        return {n: Entry(n, n, value) for n, value in values.items()}

    def traffic(self, seconds, *words, by_gateway=True):
        port = self.gateway.port if by_gateway else self.port
        return Traffic(self.folder, f"127.0.0.1:{port}", seconds, *(["--gateway"] if by_gateway else []), *words)

    def compare(self, what, by_gateway=True):
        compare(what, self.base, self.folder, {"a": (self.file, self.journal)}, self.entries(), self.notes, by_gateway)

    def end(self):
        for it in (self.replica, self.office):
            it.end()
        self.gateway.stop()


def under_kills(it, traffic):
    """What was asked and answered while the office, the replica and both ended at once."""
    for at, names in ((2, ["office"]), (5, ["replica"]), (8, list(ALL))):
        time.sleep(max(0, traffic.begun + at - time.time()))
        for name in names:
            getattr(it, name).kill()
    return traffic.wait()


def faults(it, seconds=14):
    """SIGKILL of the office, the replica and both, under load. What has no answer may have been done; all else is right. The
    same behind nginx, which asks again."""
    it.notes += under_kills(it, it.traffic(seconds, "--stay", by_gateway=False))
    it.wait_well("after kills")
    unanswered = [one for one in it.notes if "status" not in one]
    check("at most one request of each stop has no answer", len(unanswered) <= 3, unanswered)
    it.compare("one machine: kills", by_gateway=False)
    before = it.state()["n"]
    notes = under_kills(it, it.traffic(seconds))
    it.wait_well("after kills behind nginx")
    told, count = known_to_nobody([it.journal], it.entries(), notes, before)
    check("behind nginx at most one first answer of each stop is known to nobody", count <= 3, told)
    equal("no other request fails behind nginx", [], failed_ones([one for one in notes if one not in told]))
    note(f"one machine, behind nginx: three stops, {len(notes)} requests, {len(told)} told 504")
    it.notes += notes
    it.compare("one machine: kills behind nginx")


def lines_of(*words):
    """The lines of entries that the trail prints, without its last one."""
    return [it for it in script("trail", *words)[1].splitlines() if not it.startswith("#")]


def evidence(it):
    """A note that is kept elsewhere fits, and one of an entry that isn't there doesn't."""
    status, said, wrong = script("trail", "--days", it.journal)
    equal("notes of days", (0, ""), (status, wrong))
    note_of_now = said.split()[-1]
    last = it.state()
    equal("the note of now is what health says", f"{last['n']}:{last['sum']}", note_of_now)
    equal("it fits", 0, script("trail", "--expect", note_of_now, it.journal)[0])
    n, _, total = note_of_now.partition(":")
    for word in (f"{int(n) + 1}:{total}", f"{n}:{'0' * 64}"):
        equal("another one doesn't", 1, script("trail", "--expect", word, it.journal)[0])


def trail(it):
    """Who changed what: each line of the trail is a request that was answered so."""
    status, said, wrong = script("trail", it.journal)
    equal("the trail", (0, ""), (status, wrong))
    equal("it has all entries", len(it.entries()), len(lines_of(it.journal)))
    check("its last line has the last sum", said.splitlines()[-1].endswith(f":{it.state()['sum']}"), said[-300:])
    evidence(it)
    mine = [one for one in it.notes if one["method"] == "POST" and one["user"] == "u3" and one.get("n", 0) > 0]
    told = lines_of("--user", "u3", "--channel", "3", it.journal)
    check("it has each request of a user", len(told) >= len(mine) > 0, (len(told), len(mine)))
    lines = {int(line.split()[0]): line for line in told}
    for one in mine[:200]:
        line = lines.get(one["n"], "")
        wanted = f" u3 POST {one['path']} "
        if wanted not in line or f" {one['status']} {one['said']}" not in line:
            check("a line of the trail", False, (line, one))
            break
    else:
        check("the lines of the trail are what was asked and answered", True)
    refused = [one for one in mine if one["status"] == 409 and json.loads(one["said"])["code"] == 46]
    told = lines_of("--user", "u3", "--code", "46", it.journal)
    # Whoever sent what was refused only as it was sent again was told 504.
    sure = [line for line in told if '"code":46' in line and "perhaps not its first answer" not in line]
    equal("those of a code", len(refused), len(sure))
    day = [one for one in mine if re.match(r"/ch/3/days/1(/|$)", one["path"])]
    told = lines_of("--user", "u3", "--day", "1", it.journal)
    check("those of a day", len(told) >= len(day) > 0, (len(told), len(day)))
    n = mine[0]["n"]
    equal("a body", mine[0]["body"], script("trail", "--body", str(n), it.journal)[1])
    equal("files are for their owner alone", {"0o600"},
          {oct(os.stat(f"{it.journal}/{name}").st_mode & 0o777) for name in os.listdir(it.journal) if name.startswith("journal-")})


def recovery(it, seconds=8):
    """A backup under load, and then any moment behind it: the rows are those of an office that is given the log so far."""
    os.makedirs(f"{it.folder}/backups")
    traffic = it.traffic(seconds)
    time.sleep(1)
    begun = time.monotonic()
    status, said, wrong = script("replica-backup", it.journal, it.file, f"{it.folder}/backups")
    took = time.monotonic() - begun
    equal("a backup under load", (0, ""), (status, wrong))
    backup = said.strip()
    equal("it has its position", 1, len(open(f"{backup}/position", encoding="ascii").readlines()))
    time.sleep(2)
    during = {n: one for n, one in it.entries().items()}
    at = max(during) - 5
    moment = during[at].time
    target = f"{it.folder}/recovered.db"
    status, said, wrong = script("recover", backup, it.journal, "--until", moment, target)
    equal("a recovery under load", (0, ""), (status, wrong))
    it.notes += traffic.wait()
    slowest = max(one["end"] - one["begin"] for one in it.notes[-2000:] if "end" in one)
    note(f"a backup took {took:.2f} s, in which the slowest request took {slowest:.2f} s")
    last = int(re.match(r"entry (\d+) of ", said)[1])
    check("what lies behind is told", re.search(r"\n\d+ answers compared, \d+ not: .* Behind it lie [1-9]\d* entries, up to entry \d+", said), said)
    entries = it.entries()
    equal("the moment's last entry", max(n for n, one in entries.items() if one.time <= moment and n <= at + 40), last)
    _, wanted = fourth(f"{it.folder}/then", it.base, {n: one for n, one in entries.items() if n <= last}, {})
    equal("the rows of that moment", wanted, rows(target, f"{it.folder}/rows-then"))
    equal("a file that is there stays", 1, script("recover", backup, it.journal, "--until", moment, target)[0])
    status, said, wrong = script("recover", f"{it.journal}/base", it.journal, "--until", "9999", f"{it.folder}/all.db")
    equal("recovery from the beginning", (0, ""), (status, wrong))
    status, said, wrong = script("recover", f"{it.journal}/base", it.journal, "--entry", last, f"{it.folder}/entry.db")
    equal("recovery up to an entry", (0, f"entry {last} "), (status, said[:len(f"entry {last} ")]))
    equal("its rows", wanted, rows(f"{it.folder}/entry.db", f"{it.folder}/rows-entry"))
    it.wait_well("after a recovery")
    equal("the rows of now", rows(it.file, f"{it.folder}/rows-now"), rows(f"{it.folder}/all.db", f"{it.folder}/rows-all"))


def restored(it):
    """The office goes on from a recovered file, with a log that begins there."""
    it.end()
    folder = f"{it.folder}/again"
    os.makedirs(folder)
    again = Single(f"{folder}/single", base=f"{it.folder}/recovered.db")
    again.notes += again.traffic(3).wait()
    again.compare("a log that begins at a recovered file")
    again.end()


def requests(count, channels=12):
    """POSTs of several channels, some of which lend to others."""
    for n in range(1, count + 1):
        channel = 1 + n % channels
        step, turn = n // channels, n // channels % 10
        if turn < 6:
            yield channel, f"/ch/{channel}/tapes", {"barcode": f"P{step}", "slot": 1 + step % 9999}
        elif turn == 6:
            yield channel, f"/ch/{channel}/clips", {"frames": 1000, "in": "00:00:00" + (";00" if 5 <= channel <= 8 else ":00"),
                                                    "tape": 1 + step // 10, "title": f"CLIP {step}",
                                                    "umid": f"060a2b340101010501010d2013000000{channel:016x}{step:016x}"}
        elif turn == 7:
            yield channel, f"/ch/{channel}/offers", {"clip": "C0000001", "to": channel % 4 + 1}
        elif turn == 8:
            yield channel, f"/ch/{channel}/days", {"day": 1 + step // 10}
        else:
            yield channel, f"/ch/{channel}/days/{1 + step // 10}/items", {
                "at": "06:00:00" + (";00" if 5 <= channel <= 8 else ":00"), "frames": 10, "mix": 0, "source": "BL",
                "in": "00:00:00" + (";00" if 5 <= channel <= 8 else ":00")}


def fill(it, count):
    """So many messages, by several connections; each channel's in order. One that isn't taken, on a machine with other work, is
    sent again by its id, as the gateway does."""
    todo = {}
    for channel, path, members in requests(count):
        todo.setdefault(channel, []).append((path, json.dumps(members)))

    def work(channel):
        connection = http.client.HTTPConnection("127.0.0.1", it.port, timeout=30)
        for number, (path, body) in enumerate(todo[channel]):
            fields = {"Request-User": f"u{channel}", "Request-Id": f"{number}"}
            code = 0
            while code in (0, 502, 503):
                time.sleep(0.2 if code else 0)
                connection.request("POST", path, body, fields)
                reply = connection.getresponse()
                code = reply.status
                reply.read()
        connection.close()

    threads = [threading.Thread(target=work, args=(channel,)) for channel in todo]
    for one in threads:
        one.start()
    for one in threads:
        one.join()


def changed(it, name, n, resum):
    """A copy of the log whose answer to entry n is another, with the running sums as they were or made to fit."""
    folder = f"{it.folder}/{name}"
    run("cp", "-r", it.journal, folder)
    found, values = journal(folder)
    lines, total = ["P 0 0 -\n"], "-"
    import hashlib
    for at in sorted(found):
        revision, its, sure, answer = found[at]
        if at == n:
            answer = answer.replace(b"200 OK", b"200 OK").replace(b'{"tape":', b'{"tape":7')
            answer = re.sub(rb"Content-Length: (\d+)", lambda m: b"Content-Length: %d" % (int(m[1]) + 1), answer)
        made = hashlib.sha256(f"{total} {at} {revision} ".encode() + hashlib.sha256(values[at]).digest() + answer).hexdigest()
        total = made if resum else its
        lines.append(f"E {at} {revision} {base64.b64encode(values[at]).decode()}\n")
        lines.append(f"A {at} {revision} {total} {sure} {base64.b64encode(answer).decode()}\n")
    for one in os.listdir(folder):
        if one.startswith("journal-"):
            os.remove(f"{folder}/{one}")
    with open(f"{folder}/journal-{0:020}", "w", encoding="ascii") as out:
        out.writelines(lines)
    return folder


def purge_check(folder, count):
    """The promise on a log of so many messages, and on one with an answer that was changed by hand."""
    it = Single(f"{folder}/purge")
    fill(it, count)
    it.wait_well("a log to be checked")
    it.end()
    entries = it.entries()
    equal("the log has all messages", count, len(entries))
    begun = time.monotonic()
    for channel, lenders in ((1, "4, 8, 12"), (7, "none")) if count > 1000 else ((1, "4, 8, 12"),):
        status, said, wrong = script("purge-check", it.journal, channel)
        equal(f"the promise to channel {channel}", (0, ""), (status, wrong))
        own = sum(one.path.startswith(f"/ch/{channel}/") for one in entries.values())
        check("all is compared", re.match(rf"{count} messages, {own} of channel {channel}, \d+ deleted; lenders: {lenders}; "
                                          r"\d+ tables compared, 0 answers not compared with the log; 0 differ\n$", said), said)
        deleted = int(re.search(r"(\d+) deleted", said)[1])
        equal("who is deleted", sum(int(one.path.split("/")[2]) not in (channel, *(int(x) for x in re.findall(r"\d+", lenders)))
                                    for one in entries.values()), deleted)
    note(f"purge-check of {count} messages took {(time.monotonic() - begun) / (2 if count > 1000 else 1):.1f} s")
    found, _ = journal(it.journal)
    n = next(at for at, one in entries.items() if one.path == "/ch/1/tapes" and parted(found[at][3])[0] == 200 and at > count // 3)
    for name, resum, why in (("changed", False, "the running sum doesn't fit"), ("resummed", True, "another answer than an office gives")):
        status, said, _ = script("purge-check", changed(it, name, n, resum), 1)
        check(f"one answer is changed by hand ({name}): it is found", status == 1 and f"entry {n}" in said and why in said
              and not said.endswith(" 0 differ\n"), said)
    equal("the trail finds it too", 1, script("trail", "--user", "nobody", f"{it.folder}/changed")[0])


def short(folder):
    it = Single(f"{folder}/single")
    it.notes += it.traffic(3).wait()
    it.compare("one machine")
    trail(it)
    recovery(it, 5)
    it.end()
    purge_check(folder, 300)


def whole(folder):
    it = Single(f"{folder}/single")
    faults(it)
    trail(it)
    recovery(it)
    restored(it)
    purge_check(folder, 5000)
