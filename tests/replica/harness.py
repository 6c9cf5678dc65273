"""Checks that are counted, programs that are begun again, and folders and ports of a run's own."""

import http.client
import json
import os
import re
import shutil
import signal
import socket
import subprocess
import threading
import time

TOP = os.path.dirname(os.path.dirname(os.path.dirname(os.path.realpath(__file__))))
PLAYOUT = os.environ.get("PLAYOUT", f"{TOP}/playout")
PYTHON = "/usr/bin/python3"
TUNABLES = {"GLIBC_TUNABLES": "glibc.malloc.trim_threshold=1048576:glibc.malloc.mmap_threshold=33554432:glibc.malloc.hugetlb=1"}

passed = failed = 0
# What is undone at the end, the last first.
undo = []


def check(what, good, got=""):
    """Counts a check. `got` is printed where it isn't good."""
    global passed, failed
    if good:
        passed += 1
    else:
        failed += 1
        print(f"replicas: failed: {what}: {str(got)[:800]}", flush=True)
    return bool(good)


def equal(what, wanted, got):
    return check(what, wanted == got, f"wanted {str(wanted)[:380]}, got {str(got)[:380]}")


def note(text):
    print(f"replicas: {text}", flush=True)


def run(*words, given=b"", surroundings=None, seconds=120):
    """The exit status, the output and the faults of a program that ends."""
    done = subprocess.run(words, input=given, capture_output=True, timeout=seconds,
                          env={**os.environ, "PLAYOUT": PLAYOUT, **(surroundings or {})}, check=False)
    return done.returncode, done.stdout.decode(errors="replace"), done.stderr.decode(errors="replace")


def script(name, *words):
    """A script of deploy/."""
    return run(f"{TOP}/deploy/{name}", *map(str, words))


def until(true, seconds=10.0, pause=0.05):
    """Waits until `true()`, and gives what it gave."""
    end = time.monotonic() + seconds
    while not (said := true()):
        if time.monotonic() > end:
            return said
        time.sleep(pause)
    return said


def free_ports(count):
    """Ports that nobody has. They are all held until the last is found, so they differ."""
    held = [socket.socket() for _ in range(count)]
    try:
        for it in held:
            it.bind(("127.0.0.1", 0))
        return [it.getsockname()[1] for it in held]
    finally:
        for it in held:
            it.close()


class Kept:
    """A program that is begun again a second after it ended, as systemd does. Of its processes only this one is ended."""

    def __init__(self, words, log, surroundings=None):
        self.words, self.surroundings = words, {**os.environ, **(surroundings or {})}
        self.log = log
        self.wanted, self.process, self.begins = True, None, 0
        self.may_begin = threading.Event()
        self.may_begin.set()
        self.begun = threading.Event()
        self.thread = threading.Thread(target=self.keep, daemon=True)
        undo.append(self.end)
        self.thread.start()
        self.begun.wait(10)

    def keep(self):
        while self.wanted:
            with open(self.log, "ab") as out:
                self.process = subprocess.Popen(self.words, stdout=out, stderr=out, stdin=subprocess.DEVNULL, env=self.surroundings)
            self.begins += 1
            self.begun.set()
            self.process.wait()
            for _ in range(20):
                if self.wanted:
                    time.sleep(0.05)
            while self.wanted and not self.may_begin.is_set():
                time.sleep(0.02)

    def kill(self, how=signal.SIGKILL):
        if self.process.poll() is None:
            self.process.send_signal(how)

    def stop(self):
        """Ends it, and doesn't begin it again until `start`."""
        self.may_begin.clear()
        self.kill(signal.SIGTERM)
        self.process.wait(20)

    def start(self):
        self.may_begin.set()

    def end(self):
        self.wanted = False
        self.may_begin.set()
        for how in (signal.SIGTERM, signal.SIGKILL):
            if self.process and self.process.poll() is None:
                self.process.send_signal(how)
                try:
                    self.process.wait(10)
                except subprocess.TimeoutExpired:
                    pass
        self.thread.join(5)

    def said(self):
        with open(self.log, encoding="utf-8", errors="replace") as it:
            return it.read()


class UnixConnection(http.client.HTTPConnection):
    """HTTP over a socket of the file system."""

    def __init__(self, path):
        super().__init__("replica", timeout=40)
        self.path = path

    def connect(self):
        self.sock = socket.socket(socket.AF_UNIX)
        self.sock.settimeout(40)
        self.sock.connect(self.path)


def operator(folder, word, method="POST"):
    """What a replica says to an operator: the code, and JSON. (0, why) where it is away."""
    connection = UnixConnection(f"{folder}/operator")
    try:
        connection.request(method, f"/{word}")
        reply = connection.getresponse()
        return reply.status, json.loads(reply.read())
    except (OSError, ValueError, http.client.HTTPException) as fault:
        return 0, {"ill": {"away": repr(fault)}, "n": -1, "sum": "", "stopped": "", "agrees": {}, "warnings": {}}
    finally:
        connection.close()


def words_of_unit(name):
    """The words by which a unit begins its program."""
    with open(f"{TOP}/deploy/{name}", encoding="utf-8") as it:
        return re.search(r"^ExecStart=\S+ (.*)$", it.read(), re.MULTILINE)[1].split()


def office_words(file, port):
    """How the unit of an office begins it."""
    places = {"/var/lib/temolunai/%i/office.db": file, "${PORT}": str(port)}
    return [PLAYOUT, *(places.get(it, it) for it in words_of_unit("temolunai@.service"))]


def replica_words(folder, *words):
    """How the unit of a replica begins it."""
    found = [PYTHON]
    for it in words_of_unit("temolunai-replica@.service"):
        found += words if it == "$WORDS" else [it.replace("/var/lib/temolunai-replica/%i", folder)]
    return found


REPLICA = {"PYTHONPATH": f"{TOP}/deploy"}


def make_centre(file, plan):
    status, _, faults = run(PLAYOUT, "answer", "--db", file, *plan)
    equal(f"a centre is made: {os.path.basename(file)}", (0, ""), (status, faults))


def begin(source, folder):
    """A journal that begins where `source` stands."""
    equal("begin", (0, "", ""), script("begin", source, folder))


def wipe(path):
    shutil.rmtree(path, ignore_errors=True)
