#!/usr/bin/python3
"""What .ci/package has done inside of a fresh Debian, under its own systemd, where the packages are installed.

    package_steps.py FOLDER     FOLDER has the blocks of commands of docs/, and the packages of other versions

Each check is a line `ok WHAT` or `failed WHAT: WHY`; the last line is `done`.
"""

import glob
import json
import os
import re
import shutil
import sys
import time

import package_gateway as gateway
import package_parts as parts
import package_return as ends
import package_sign_on as sign_on
import package_upgrades as upgrades
from package_tools import FILES, asked, run, say, shown
from package_units import an_office_is_killed, begins_again, cut, parts_that_are_none

# A step that takes longer says so, in seconds.
SLOW = 20
FOLDER = sys.argv[1] if len(sys.argv) > 1 else "/ci"


def blocks():
    """The commands of docs/OPERATING.md, but for those that install, which were done before. Passwords are typed."""
    typed = "".join(f"a long password {it}\n" for it in range(4))
    for path in sorted(glob.glob(f"{FOLDER}/block-*")):
        with open(path, encoding="utf-8") as it:
            first = next(line for line in it if line.strip())
        status, said = run("bash", "-eu", path, given=typed)
        if not say(status == 0, f"OPERATING: {first.strip()} ..", said):
            print(run("journalctl", "--no-pager", "-n", "40", "-u", "temolunai*")[1], flush=True)


def installed():
    """What stands and runs behind these commands."""
    for unit in ("temolunai@a", "temolunai@b", "temolunai-login", "temolunai-gateway", "temolunai-metrics.timer",
                 "temolunai-backup@a.timer", "temolunai-backup@b.timer"):
        say(run("systemctl", "is-active", unit)[0] == 0, f"{unit} is active", run("systemctl", "status", unit)[1])
    code, text, _ = asked("/health")
    well = json.dumps({"offices": {"a": "answers", "b": "answers"}})
    say((code, text) == (200, well), "/health", (code, text))
    say(asked("/", {"Accept": "text/html"})[0::2][0] == 302, "a browser is sent to the login")
    code, text, fields = asked("/desk.css")
    say(code == 200 and "--ground" in text, "the desk's style", (code, text))
    code, _, fields = asked("/x?y", secure=False)
    say((code, fields.get("Location")) == (301, "https://playout.example/x?y"), "port 80 answers 301", (code, fields))
    form = {"Origin": "https://localhost", "Content-Type": "application/x-www-form-urlencoded"}
    code, _, fields = asked("/login", form, b"name=bela&password=a+long+password+1")
    cookie = {"Cookie": fields.get("Set-Cookie", "").partition(";")[0]}
    say(code == 303 and cookie["Cookie"].startswith("__Host-temolunai="), "bela logs in", (code, fields))
    code, text, _ = asked("/me", cookie)
    say((code, text) == (200, '{"user":"bela","channels":[1,2]}'), "/me", (code, text))
    code, text, _ = asked("/ch/1/tapes", cookie | {"Origin": "https://localhost"}, b'{"barcode":"T1","slot":1}')
    say((code, text) == (200, '{"tape":1}'), "a tape", (code, text))
    say(asked("/ch/3/tapes", cookie)[0] == 403, "not another's channel")
    code, text, _ = asked("/", cookie)
    say(code == 200 and "Temolunai desk" in text, "the desk", (code, text[:200]))
    return cookie


def backups():
    """A failed backup is a unit in `failed`, and a figure; a good one ends both."""
    os.rename(f"{FILES}/b/office.db", f"{FILES}/b/away")
    status, _ = run("systemctl", "start", "temolunai-backup@b")
    say(status != 0 and shown("temolunai-backup@b", "ActiveState") == "failed", "a failed backup is a failed unit")
    os.rename(f"{FILES}/b/away", f"{FILES}/b/office.db")
    run("systemctl", "start", "temolunai-metrics.service")
    text = asked("/metrics")[1]
    say('temolunai_backup_failed{part="b"} 1' in text, "and a figure", text)
    say('temolunai_backup_failed{part="a"} 0' in text, "the other part's is good", text)
    say(re.search(r'temolunai_requests_total\{part="a",status="200"\} [1-9]', text), "requests are counted", text)
    status, said = run("systemctl", "start", "temolunai-backup@b")
    run("systemctl", "start", "temolunai-metrics.service")
    text = asked("/metrics")[1]
    say(status == 0 and 'temolunai_backup_failed{part="b"} 0' in text, "a good one ends it", said)


def kept_for_later():
    """What a site has elsewhere: the key of its sealed copies, and its certificate."""
    for it in ("/root/key", "/etc/temolunai/certificate.pem", "/etc/temolunai/key.pem"):
        shutil.copy(it, FOLDER)


def main():
    """All of it, in order. A step that comes to no end is one that failed, and the next ones are tried all the same."""
    blocks()
    cookie = installed()
    back = sorted(glob.glob(f"{FOLDER}/return-*"))
    for step, *words in (
            (kept_for_later,), (parts.one_part_each,), (gateway.local_users,), (gateway.logs,), (gateway.half_heads,),
            (gateway.what_is_told,), (parts_that_are_none,), (an_office_is_killed, cookie), (backups,),
            (parts.channels_come, cookie), (cut,), (begins_again,), (parts.a_centre_is_cut, cookie, f"{FOLDER}/cut"), (parts.a_damaged_file,), (parts.a_killed_backup, cookie),
            (parts.old_days, cookie, f"{FOLDER}/old-days"), (gateway.a_slow_post, cookie), (gateway.without_ipv6,),
            (gateway.another_nginx, FOLDER), (gateway.a_full_disk,), (sign_on.by_provider, FOLDER), (upgrades.no_backup, FOLDER),
            (upgrades.upgrade, FOLDER, cookie), (upgrades.a_bad_program, FOLDER, cookie),
            (ends.removal, FOLDER, upgrades.PARTS, cookie), (ends.purge, FOLDER, upgrades.PARTS),
            (upgrades.from_version_1, FOLDER), (ends.comes_back, FOLDER, upgrades.PARTS, back)):
        begun = time.monotonic()
        try:
            step(*words)
        except Exception as fault:  # whatever it is, it is told
            say(False, f"the step {step.__name__}", repr(fault))
        if time.monotonic() - begun > SLOW:
            print(f"{step.__name__} took {time.monotonic() - begun:.0f} s", flush=True)
    print("done", flush=True)


main()
