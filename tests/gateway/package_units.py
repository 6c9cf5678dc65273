"""What .ci/package tries of the units of offices, under the systemd of a fresh Debian."""

import os
import re
import signal
import time
import urllib.request

from package_tools import FILES, asked, run, say, shown, until

# At most so many seconds: a unit that waits for its office waits for minutes.
AT_ONCE = 20


def fails_for_good(name, what, words):
    """A unit that can't begin fails at once, says what is to be done, and isn't begun again."""
    began = time.monotonic()
    status, _ = run("systemctl", "start", f"temolunai@{name}")
    took = time.monotonic() - began
    say(status != 0 and took < AT_ONCE, f"{what}: `systemctl start` tells at once", (status, took))
    time.sleep(4)
    state = [shown(f"temolunai@{name}", it) for it in ("ActiveState", "NRestarts")]
    say(state == ["failed", "0"], f"{what}: it has failed, and isn't begun again", state)
    journal = run("journalctl", "--no-pager", "-o", "cat", "-u", f"temolunai@{name}")[1]
    say(words in journal, f"{what}: the journal says what is to be done", journal)
    say(not os.path.exists(f"{FILES}/{name}/office.db"), f"{what}: no file was made")


def parts_that_are_none():
    """A part without a file, and one without a port."""
    os.makedirs("/etc/systemd/system/temolunai@nofile.service.d")
    with open("/etc/systemd/system/temolunai@nofile.service.d/port.conf", "w", encoding="ascii") as out:
        out.write("[Service]\nEnvironment=PORT=8190\nSocketBindAllow=ipv4:tcp:8190\n")
    run("systemctl", "daemon-reload")
    fails_for_good("nofile", "a part without a file", "part nofile: there is no file /var/lib/temolunai/nofile/office.db")
    status, said = run("temolunai-part", "later", "8191")
    say(status == 0 and not os.path.exists(f"{FILES}/later/office.db"), "a part whose file comes later", said)
    say([run("temolunai-part", "remove", it)[0] for it in ("later", "nofile")] == [0, 0], "it is removed")
    os.makedirs(f"{FILES}/noport", 0o700)
    run("playout", "answer", "--db", f"{FILES}/noport/office.db", "9,25,06:00:00:00,40")
    began = time.monotonic()
    status, _ = run("systemctl", "start", "temolunai@noport")
    say(status != 0 and time.monotonic() - began < AT_ONCE, "a part without a port: `systemctl start` tells at once", status)
    time.sleep(3)
    state = [shown("temolunai@noport", it) for it in ("ActiveState", "NRestarts")]
    say(state == ["failed", "0"], "a part without a port: it has failed, and isn't begun again", state)
    journal = run("journalctl", "--no-pager", "-o", "cat", "-u", "temolunai@noport")[1]
    say("part noport: it has no port" in journal, "a part without a port: the journal says what is to be done", journal)
    row = "7,25,06:00:00:00,4"
    for words in (("a", "8199", row), ("c", "8101", row), ("c", "8199", "7,26,06:00:00:00,4"), ("C", "8199", row),
                  ("c", "0", row)):
        status, said = run("temolunai-part", *words)
        say(status == 1 and said.startswith("temolunai-part: "), f"temolunai-part {words} is refused", said)
    say(not os.path.exists(f"{FILES}/c"), "nothing of a refused part stays", os.listdir(FILES))


def an_office_is_killed(cookie):
    """It is begun again by itself, with what it was answered."""
    before = shown("temolunai@a", "MainPID")
    os.kill(int(before), signal.SIGKILL)
    say(until(lambda: shown("temolunai@a", "ActiveState") == "active" and shown("temolunai@a", "MainPID") not in ("0", before)),
        "a killed office begins again", run("systemctl", "status", "temolunai@a")[1])
    text = asked("/ch/1/tapes", cookie)[1]
    say("T1" in text, "it has what it was answered", text)


def cut():
    """A part out of another one's file, as docs/SCALING.md has it."""
    run("systemctl", "stop", "temolunai@a")
    said = run("temolunai-part", "cut", "8121")
    say(said == (0, said[1]) and not os.path.exists(f"{FILES}/cut/office.db"), "a part for a file of another's rows", said)
    said = run("/usr/lib/temolunai/part", f"{FILES}/a/office.db", f"{FILES}/cut/office.db", "1")
    say(said == (0, ""), "its file", said)
    status, said = run("systemctl", "start", "temolunai@cut", "temolunai@a")
    say(status == 0 and run("systemctl", "is-active", "temolunai@cut")[0] == 0, "both begin", said)
    with urllib.request.urlopen("http://127.0.0.1:8121/ch/1/tapes", timeout=20) as it:
        say(b"T1" in it.read(), "the part has the channel's tapes")


def begins_again():
    """After its last turn an office is begun again, and after a fault, each second."""
    folder = "/etc/systemd/system/temolunai@cut.service.d"
    with open("/lib/systemd/system/temolunai@.service", encoding="utf-8") as it:
        words = re.search(r"^ExecStart=(.*)$", it.read(), re.MULTILINE)[1]
    with open(f"{folder}/turns.conf", "w", encoding="ascii") as out:
        out.write(f"[Service]\nExecStart=\nExecStart={words} --turns 3\n")
    run("systemctl", "daemon-reload")
    # The unit's own question is the first of the three turns.
    say(run("systemctl", "restart", "temolunai@cut")[0] == 0, "an office of three turns begins")
    for _ in range(2):
        with urllib.request.urlopen("http://127.0.0.1:8121/ch/1/tapes", timeout=20) as it:
            it.read()
    again = until(lambda: [shown("temolunai@cut", it) for it in ("NRestarts", "ActiveState")] == ["1", "active"])
    say(again, "it begins again after its last turn", run("systemctl", "status", "temolunai@cut")[1])
    os.remove(f"{folder}/turns.conf")
    run("temolunai-part", "wrong", "8122")
    run("sqlite3", f"{FILES}/wrong/office.db", "CREATE TABLE office (one)")
    say(run("systemctl", "start", "temolunai@wrong")[0] != 0, "an office over a wrong file: `systemctl start` tells")
    again = until(lambda: int(shown("temolunai@wrong", "NRestarts")) >= 2)
    say(again, "it is tried again", shown("temolunai@wrong", "NRestarts"))
    journal = run("journalctl", "--no-pager", "-o", "cat", "-u", "temolunai@wrong")[1]
    said = "97 NotOurs" in journal and "part wrong: the office ended before it answered" in journal
    say(said, "its journal says why", journal)
    say(run("temolunai-part", "remove", "wrong")[0] == 0, "it is removed")
    run("systemctl", "daemon-reload")
    run("systemctl", "restart", "temolunai@cut")
