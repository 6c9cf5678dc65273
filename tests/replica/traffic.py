"""Users who ask for all commands, each for a channel, and what they were answered.

    traffic.py --targets HOST:PORT,.. --seconds N --out FILE [--users N] [--first N] [--pause N] [--gateway] [--seed TEXT]
               [--stay] [--password TEXT] [--ca FILE]

Each user has a target of its own, and asks the next one where that is away, refuses, or gives no answer, by the same
request id; --stay has it ask the same one again. With --gateway the target is nginx, and nothing is asked again. FILE gets
a line of JSON for each request.
"""

import argparse
import base64
import http.client
import json
import os
import random
import ssl
import threading
import time
import uuid

CHANNELS = range(1, 17)
RATES = {number: rate for number, rate in zip(CHANNELS, ["25"] * 4 + ["df"] * 4 + ["24"] * 2 + ["30"] * 2 + ["25"] * 4)}
PLAN = [f"{number},{rate},06:00:00{';' if rate == 'df' else ':'}00,9999" for number, rate in RATES.items()]
# The frames of ten minutes, which are as many in each tenth minute.
TEN_MINUTES = {"24": 14400, "25": 15000, "30": 18000, "df": 17982}
# How long a request is asked again, in seconds.
LONGEST = 40


class Channel:
    """What a user asks for a channel. It remembers how many rows there may be, and asks for some that aren't there."""

    def __init__(self, number, seed):
        self.number, self.chance = number, random.Random(f"{seed} {number}")
        self.rate = RATES[number]
        self.tapes = self.clips = self.offers = self.day = self.steps = 0
        self.tag = self.chance.randrange(36 ** 3)
        self.planned = []

    def label(self, tens):
        hours, rest = divmod(tens % 144, 6)
        return f"{hours:02}:{rest}0:00{';' if self.rate == 'df' else ':'}00"

    def some(self, count):
        return self.chance.randint(1, max(1, count + (self.chance.random() < 0.1)))

    def post(self, path, body="", **members):
        return "POST", f"/ch/{self.number}/{path}", json.dumps(members) if members else body

    def get(self, path):
        return "GET", f"/ch/{self.number}{path and '/' + path}", ""

    def item(self, day, at, tens, source):
        places = {"at": self.label(at), "frames": tens * TEN_MINUTES[self.rate], "in": self.label(0)}
        return self.post(f"days/{day}/items", **places, mix=0, source=source)

    def whole_day(self):
        """A day that is planned, sealed and aired, step by step, with some steps twice."""
        self.day += 1
        day, row = self.day, f"{self.label(36)},{{}},BL,{self.label(0)}\r\n"
        lender = self.chance.choice([it for it in CHANNELS if it != self.number])
        first = row.format(TEN_MINUTES[self.rate])
        second = f"{self.label(60)},{6 * TEN_MINUTES[self.rate]},BARS,{self.label(0)}\r\n" * (1 + (self.chance.random() < 0.2))
        events = "".join(f"{n:03}  {reel:8} V     C        {self.label(0)} {self.label(6)} {self.label(at)} {self.label(at + 6)}\r\n"
                         for n, (reel, at) in enumerate((("BL", 36), (f"C{self.some(self.clips):07}", 42)), 1))
        kind = self.chance.choice(["strict", "ignore"])
        self.planned = [
            self.post("days", day=day), self.post("days", day=day), self.post(f"days/{day}/import/{kind}", "TITLE: LIST\r\n" + events),
            self.item(day, 48, 6, f"C{self.some(self.clips):07}"), self.item(day, 54, 6, f"L{lender:03}0001"),
            self.get(f"days/{day}"), self.post(f"days/{day}/items/{self.some(4)}/remove"), self.post(f"days/{day}/seal"),
            self.post(f"days/{day}/revise", '{"add":[],"remove":[' + str(self.some(4)) + "]}"),
            self.item(day, 36, 12, "BL"), self.item(day, 36, 6, "BL"), self.item(day, 42, 6, "BL"), self.item(day, 48, 6, "BARS"),
            self.item(day, 54, 6, "BL"), self.item(day, 60, 120, "BL"), self.get(f"days/{day}/list"), self.post(f"days/{day}/seal"),
            self.post(f"days/{day}/seal"), self.post(f"days/{day}/asrun/1", first), self.post(f"days/{day}/asrun/1", first),
            self.post(f"days/{day}/asrun/2", second), self.get(f"days/{day}/match"), self.get(f"days/{day}/list"),
        ]

    def next(self):
        self.steps += 1
        if self.planned and self.chance.random() < 0.5:
            return self.planned.pop(0)
        if not self.planned and self.chance.random() < 0.2:
            self.whole_day()
        pick = self.chance.random()
        if pick < 0.25:
            self.tapes += 1
            return self.post("tapes", barcode=f"{self.tag % 1000}T{self.tapes}", slot=self.some(9000))
        if pick < 0.35:
            return self.post(f"tapes/{self.some(self.tapes)}/pull")
        if pick < 0.43:
            return self.post(f"tapes/{self.some(self.tapes)}/shelve", slot=self.some(9000))
        if pick < 0.55:
            self.clips += 1
            umid = f"060a2b340101010501010d2013000000{self.tag:08x}{self.number:08x}{self.clips - (self.chance.random() < 0.1):016x}"
            return self.post("clips", frames=6 * TEN_MINUTES[self.rate], **{"in": self.label(0)}, tape=self.some(self.tapes),
                             title=f"CLIP {self.clips} OF {self.number}", umid=umid)
        if pick < 0.58:
            return self.post(f"clips/{self.some(self.clips)}/retire")
        if pick < 0.66:
            self.offers += 1
            window = {"first": 1, "last": self.some(50)} if self.chance.random() < 0.3 else {}
            return self.post("offers", clip=f"C{self.some(self.clips):07}", to=self.chance.choice(CHANNELS), **window)
        if pick < 0.69:
            return self.post(f"offers/{self.some(self.offers)}/withdraw")
        if pick < 0.71:
            return self.post("tapes", '{"barcode":"A7"}')
        if pick < 0.72:
            return self.post("nothing/7")
        return self.get(self.chance.choice(["", "tapes", "clips", "offers", "lent", "days", f"days/{self.some(self.day)}",
                                            f"days/{self.some(self.day)}/match", f"days/{self.some(self.day)}/list"]))


class User:
    """A user at one of the targets, with a connection that stays."""

    def __init__(self, given, number, out, lock):
        self.given, self.number, self.out, self.lock = given, number, out, lock
        self.targets = given.targets.split(",")
        self.at = number % len(self.targets)
        self.channel, self.connection = Channel(number, given.seed), None
        self.name = f"u{number}"

    def opened(self):
        host, port = self.targets[self.at].rsplit(":", 1)
        if self.given.gateway and self.given.ca:
            tls = ssl.create_default_context(cafile=self.given.ca)
            return http.client.HTTPSConnection(host, int(port), timeout=LONGEST, context=tls)
        return http.client.HTTPConnection(host, int(port), timeout=20)

    def once(self, method, path, body, identity):
        """The code, the body and the entry."""
        fields = {"Request-Id": identity, "Request-User": self.name}
        if self.given.gateway:
            word = base64.b64encode(f"{self.name}:password of {self.name}".encode()).decode()
            fields = {"Authorization": f"Basic {word}"}
        self.connection = self.connection or self.opened()
        try:
            self.connection.request(method, path, body=body.encode(), headers=fields)
            reply = self.connection.getresponse()
            said = reply.read().decode()
            if reply.status == 504 and not self.given.gateway:
                return None, said, -1
            return reply.status, said, int(reply.getheader("Replica-Entry", "-1"))
        except (OSError, http.client.HTTPException):
            self.connection.close()
            self.connection = None
            raise

    def ask(self, method, path, body):
        told = {"user": self.name, "method": method, "path": path, "body": body, "id": uuid.uuid4().hex, "tries": []}
        begin = told["begin"] = time.time()
        while time.time() < begin + LONGEST:
            told["last"], told["target"] = time.time(), self.at
            try:
                code, said, n = self.once(method, path, body, told["id"])
                if code is None:        # it was done, and nobody knows what was answered: no more can be had of it
                    told["fault"] = said
                    break
                if self.given.gateway or code not in (502, 503):
                    told |= {"status": code, "said": said, "n": n, "end": time.time()}
                    break
                fault = str(code)
            except (OSError, http.client.HTTPException) as it:
                fault = repr(it)
                if self.given.gateway:
                    told["fault"] = fault
                    break
            told["tries"].append([self.at, told["last"], time.time(), fault])
            if not self.given.stay:
                self.connection, self.at = None, (self.at + 1) % len(self.targets)
            time.sleep(0.05)
        with self.lock:
            self.out.write(json.dumps(told) + "\n")

    def work(self, end):
        while time.time() < end:
            self.ask(*self.channel.next())
            if self.given.pause:
                time.sleep(self.given.pause)


def main():
    parser = argparse.ArgumentParser()
    for name in ("targets", "out"):
        parser.add_argument(f"--{name}", required=True)
    parser.add_argument("--seconds", type=float, required=True)
    parser.add_argument("--users", type=int, default=12)
    parser.add_argument("--first", type=int, default=1)
    parser.add_argument("--pause", type=float, default=0)
    parser.add_argument("--seed", default="")
    parser.add_argument("--ca", default="")
    parser.add_argument("--gateway", action="store_true")
    parser.add_argument("--stay", action="store_true")
    given = parser.parse_args()
    os.setpriority(os.PRIO_PROCESS, 0, 0)
    lock, end = threading.Lock(), time.time() + given.seconds
    with open(given.out, "w", encoding="utf-8") as out:
        users = [User(given, number, out, lock) for number in range(given.first, given.first + given.users)]
        threads = [threading.Thread(target=it.work, args=(end,)) for it in users]
        for it in threads:
            it.start()
        for it in threads:
            it.join()


if __name__ == "__main__":
    main()
