"""What .ci/package tries of parts and their files, under the systemd of a fresh Debian: channels that are in one part, a part
that ends, a file that is damaged, a backup that is killed, and old days that leave."""

import glob
import json
import os
import re
import signal
import time

from package_tools import FILES, asked, run, say, shown, until

MAP = "/etc/temolunai/channels.map"


def text_of(path):
    """A file's text, or nothing."""
    if not os.path.exists(path):
        return ""
    with open(path, encoding="utf-8", errors="replace") as it:
        return it.read()


def one_part_each():
    """A channel that a part has isn't another's; what OPERATING added and removed is so."""
    row = "1,25,06:00:00:00,4"
    for words in (("twice", "8195", row), ("channels", "b", "2,25,06:00:00:00,4"), ("channels", "nothing", "5,25,06:00:00:00,4"),
                  ("remove", "nothing")):
        status, said = run("temolunai-part", *words)
        say(status == 1 and said.startswith("temolunai-part: "), f"temolunai-part {words} is refused", said)
    say(not os.path.exists(f"{FILES}/twice"), "nothing of it stays", os.listdir(FILES))
    lines = sorted(it for it in text_of(MAP).splitlines() if it[:1].isdigit())
    say(lines == ["1 part_a;", "2 part_a;", "3 part_b;"], "each channel has its part", lines)
    units = run("systemctl", "list-units", "--all", "--plain", "--no-legend", "temolunai@c.service", "temolunai-backup@c.timer")[1]
    say(not glob.glob("/etc/systemd/system/temolunai@c*") and "part_c" not in text_of("/etc/temolunai/offices.conf"),
        "of a part that was removed nothing runs", units)
    kept = glob.glob("/var/backups/temolunai/c/removed-*/office.db")
    say(len(kept) == 1 and not os.path.exists(f"{FILES}/c"), "its file is among its backups", kept)
    status, said = run("temolunai-part", "c", "8103", "4,25,06:00:00:00,40")
    say(status == 0 and until(lambda: asked("/health")[1].count("answers") == 3), "its name and its channel may be a part's again", said)
    say(run("temolunai-part", "remove", "c")[0] == 0, "and none's")


def channels_come(cookie):
    """A channel more has the part's rows as they were, and the file of before is a backup."""
    before = asked("/ch/1/tapes", cookie)[1]
    status, said = run("temolunai-part", "channels", "a", "9,25,06:00:00:00,40")
    say(status == 0 and os.path.exists(f"{said.strip()}/office.db"), "a channel more: what stood there is a backup", said)
    say(asked("/ch/1/tapes", cookie)[1] == before and "T1" in before, "the rows are as they were", before)
    run("temolunai-users", "channels", "bela", "1", "2", "9")
    say(until(lambda: asked("/ch/9/tapes", cookie)[0] == 200), "the channel is asked", asked("/ch/9/tapes", cookie))
    run("temolunai-users", "channels", "bela", "1", "2")


def a_centre_is_cut(cookie, block):
    """A part is cut into two as docs/SCALING.md says: each has its channels' rows, and the gateway knows where they are."""
    own = {**cookie, "Origin": "https://localhost"}
    status, said = run("temolunai-part", "whole", "8160", "11,25,06:00:00:00,40", "12,25,06:00:00:00,40")
    say(status == 0, "a centre of two channels", said)
    run("temolunai-users", "channels", "bela", "1", "2", "11", "12")
    for channel in (11, 12):
        body = json.dumps({"barcode": f"OF{channel}", "slot": 1}).encode()
        say(until(lambda: asked(f"/ch/{channel}/tapes", own, body)[0] in (200, 409)), f"a tape of channel {channel}")
    status, said = run("bash", "-eu", block)
    say(status == 0, "SCALING: a centre is cut", said)

    def found():
        return [f"OF{it}" in asked(f"/ch/{it}/tapes", cookie)[1] for it in (11, 12)]
    say(until(lambda: found() == [True, True]), "each channel has its rows in its part", found())
    lines = [it for it in text_of(MAP).splitlines() if it.startswith(("11 ", "12 "))]
    say(lines == ["11 part_wa;", "12 part_wb;"], "the gateway knows where", lines)
    say([run("temolunai-part", "remove", it)[0] for it in ("wa", "wb")] == [0, 0], "both are removed")
    run("temolunai-users", "channels", "bela", "1", "2")


def a_damaged_file():
    """An office over a damaged file fails, after some tries, and says why; it isn't tried for ever."""
    run("temolunai-part", "hurt", "8131", "8,25,06:00:00:00,40")
    run("systemctl", "stop", "temolunai@hurt")
    file = os.path.realpath(f"{FILES}/hurt/office.db")
    with open(file, "r+b") as out:
        out.seek(4096)
        out.write(b"\xff" * 4096)
    run("systemctl", "start", "temolunai@hurt")
    say(until(lambda: shown("temolunai@hurt", "ActiveState") == "failed", 40), "a damaged file: the office has failed",
        run("systemctl", "status", "temolunai@hurt")[1])
    tries = int(shown("temolunai@hurt", "NRestarts"))
    time.sleep(5)
    say(int(shown("temolunai@hurt", "NRestarts")) == tries and tries <= 10, "after some tries", tries)
    journal = run("journalctl", "--no-pager", "-o", "cat", "-u", "temolunai@hurt")[1]
    say("open fault" in journal or "97 NotOurs" in journal, "its journal says why", journal)
    say(run("temolunai-part", "remove", "hurt")[0] == 0, "the part is removed")


def a_killed_backup(cookie):
    """A backup that is killed whole, with the office halted, leaves an office that answers."""
    slow = "/ci/slow"
    os.makedirs(slow, exist_ok=True)
    with open(f"{slow}/cp", "w", encoding="ascii") as out:
        out.write("#!/bin/sh\nsleep 60\n")
    os.chmod(f"{slow}/cp", 0o755)
    folder = "/etc/systemd/system/temolunai-backup@a.service.d"
    os.makedirs(folder)
    with open(f"{folder}/slow.conf", "w", encoding="ascii") as out:
        out.write(f"[Service]\nEnvironment=PATH={slow}:/usr/sbin:/usr/bin:/sbin:/bin\n")
    run("systemctl", "daemon-reload")
    say("idle" not in run("systemctl", "cat", "temolunai-backup@a")[1], "nobody waits for an idle disk while the office is halted")
    number = shown("temolunai@a", "MainPID")

    def state():
        return text_of(f"/proc/{number}/stat").rpartition(")")[2].split()[:1]
    run("systemctl", "start", "--no-block", "temolunai-backup@a")
    say(until(lambda: state() == ["T"]), "an office is halted for its backup", state())
    run("systemctl", "kill", "--kill-whom=all", "-s", "KILL", "temolunai-backup@a")
    say(until(lambda: state() != ["T"], 5), "killed whole, the backup leaves an office that goes on", state())
    say("T1" in asked("/ch/1/tapes", cookie)[1], "and answers")
    if state() == ["T"]:
        os.kill(int(number), signal.SIGCONT)
    os.remove(f"{folder}/slow.conf")
    os.rmdir(folder)
    run("systemctl", "daemon-reload")
    status, said = run("systemctl", "restart", "temolunai-backup@a")
    say(status == 0, "the next one is good", said)


def old_days(cookie, block):
    """Old days leave as docs/SCALING.md says, with the rows that stand in the log alone."""
    own = {**cookie, "Origin": "https://localhost"}
    for number in range(2, 7):
        code, text, _ = asked("/ch/1/tapes", own, json.dumps({"barcode": f"T{number}", "slot": number}).encode())
        say(code == 200, f"tape {number}", text)
    for day in (7, 120, 121, 300):
        say(asked("/ch/1/days", own, json.dumps({"day": day}).encode())[0] == 200, f"day {day}")
    whole = {it: asked(f"/ch/1/{it}", cookie)[:2] for it in ("tapes", "days/7", "days/120", "days/121", "days/300")}
    os.kill(int(shown("temolunai@a", "MainPID")), signal.SIGKILL)       # so that the last rows are in the log
    status, said = run("bash", "-eu", block)
    say(status == 0, "SCALING: old days leave", said)
    run("systemctl", "start", "temolunai@a", "temolunai@a-old")
    def found():
        return {it: asked(f"/ch/1/{it}", cookie)[:2] for it in whole}
    say("TAPES 6" in whole["tapes"][1] and until(lambda: found() == whole), "each is answered as before", (whole, found()))
    for it in ("archive", "part", "restore"):
        beside_a_log(it)
    say(re.search(r"part_a-old;$", text_of("/etc/temolunai/days.map"), re.MULTILINE), "the gateway knows where they are")


def beside_a_log(script):
    """A file isn't put beside a log that isn't its own."""
    room = f"/ci/beside-{script}"
    os.makedirs(f"{room}/copy")
    run("sh", "-c", f"cp /var/backups/temolunai/a/2*/office.db {room}/copy/ 2> /dev/null; true")
    copy = sorted(glob.glob("/var/backups/temolunai/a/2*/office.db"))[-1]
    run("cp", copy, f"{room}/copy/office.db")
    with open(f"{room}/office.db-wal", "wb") as out:
        out.write(b"what was answered last")
    words = {"archive": [f"{room}/copy/office.db", f"{room}/office.db", f"{room}/old.db", "--before", "100"],
             "part": [f"{room}/copy/office.db", f"{room}/office.db", "1"], "restore": [f"{room}/copy", f"{room}/office.db"]}
    status, said = run(f"/usr/lib/temolunai/{script}", *words[script])
    left = sorted(os.listdir(room))
    say(status == 1 and "is a log without its file" in said and left == ["copy", "office.db-wal"],
        f"{script} beside a log that it wasn't told of", (said, left))
