"""What .ci/package tries of removals, under the systemd of a fresh Debian: packages that are installed again, and a site that
comes back on a machine where nothing of it is left."""

import glob
import json
import os
import shutil

from package_tools import FILES, asked, run, say, shown, until
from package_upgrades import installs

BOTH = ("temolunai", "temolunai-gateway")
FORM = {"Origin": "https://localhost", "Content-Type": "application/x-www-form-urlencoded"}


def is_well(parts):
    """All parts answer."""
    def are_well():
        code, text, _ = asked("/health")
        return code == 200 and json.loads(text) == {"offices": {it: "answers" for it in parts}}
    return until(are_well, 30)


def removal(folder, parts, cookie):
    """Removed, nothing runs and all files stay; installed again, all runs."""
    held = [os.path.realpath(f"{FILES}/{it}/office.db") for it in parts]
    status, said = run("apt-get", "remove", "-y", *BOTH, seconds=300)
    say(status == 0, "removed", said)
    left = run("systemctl", "list-units", "--plain", "--no-legend", "--state=active", "temolunai*.service")[1]
    say(left == "", "nothing runs", left)
    say("temolunai" not in run("nft", "list", "tables")[1], "no rules of the kernel's are left")
    say(all(os.path.getsize(it) > 0 for it in held), "the parts' files stay")
    say(os.path.exists("/etc/temolunai/users.map") and not os.path.exists("/usr/bin/playout"), "the site stays, the program goes")
    status, said = installs(f"{folder}/next", *BOTH)
    say(status == 0 and is_well(parts), "installed again, all runs", (said, asked("/health")))
    say("T1" in asked("/ch/1/tapes", cookie)[1], "with its rows and its sessions")
    for it in ("temolunai-backup@a.timer", "temolunai-metrics.timer", "temolunai-logs.timer", "temolunai-site.timer"):
        say(shown(it, "ActiveState") == "active", f"{it} goes on")


def purge(folder, parts):
    """Purged, the site goes and the parts' files stay; installed again, a part takes its file."""
    for it in parts:
        say(run("systemctl", "start", f"temolunai-backup@{it}")[0] == 0, f"a backup of part {it}")
    run("systemctl", "start", "temolunai-site")
    status, said = run("systemctl", "start", "temolunai-seal@mnt-elsewhere")
    copies = [glob.glob(f"/mnt/elsewhere/{it}.2*.tar.age") for it in (*parts, "site")]
    say(status == 0 and all(copies), "sealed copies of the newest backups", (said, copies))
    held = [os.path.realpath(f"{FILES}/{it}/office.db") for it in parts]
    status, said = run("apt-get", "purge", "-y", *BOTH, seconds=300)
    say(status == 0, "purged", said)
    say(all(os.path.getsize(it) > 0 for it in held), "the parts' files still stay")
    say(os.path.isdir("/var/backups/temolunai/a"), "and their backups")
    left = sorted(glob.glob("/etc/temolunai/*"))
    say(left == [f"/etc/temolunai/{it}" for it in ("certificate.pem", "key.pem", "seal-keys")],
        "of the site, what others made stays", left)
    left = glob.glob("/etc/systemd/system/**/temolunai[@-]*", recursive=True)
    say(left == [], "no unit's leavings", left)
    status, said = installs(f"{folder}/next", *BOTH)
    say(status == 0, "installed again", said)
    status, said = run("temolunai-part", "b", "8102")
    with open("/etc/temolunai/channels.map", encoding="utf-8") as it:
        text = it.read()
    say(status == 0 and "3 part_b;" in text and shown("temolunai@b", "ActiveState") == "active", "a part takes its file", said)
    run("apt-get", "purge", "-y", *BOTH, seconds=300)


def comes_back(folder, parts, blocks):
    """A machine that has nothing of the site: its packages, its sealed copies, and the key."""
    open_ones = []
    for path in glob.glob("/mnt/elsewhere/*.age"):
        with open(path, "rb") as it:
            text = it.read()
        open_ones += [path] if b"CREATE TABLE" in text or b"accounts.json" in text else []
    say(glob.glob("/mnt/elsewhere/site.2*.tar.age") and open_ones == [], "nobody reads a sealed copy", open_ones)
    for it in ("/etc/temolunai", "/var/backups/temolunai", FILES, "/var/lib/private/temolunai"):
        shutil.rmtree(it, ignore_errors=True)
    shutil.copy("/ci/key", "/root/key")
    os.chmod("/root/key", 0o600)
    status, said = installs(f"{folder}/next", *BOTH)
    say(status == 0, "the packages on a new machine", said)
    status, said = run("/usr/lib/temolunai/seal", "--open", glob.glob("/mnt/elsewhere/site.2*.tar.age")[0], "/etc/hostname", "/root/no")
    say(status != 0 and not os.path.exists("/root/no"), "nor opens it without the key", said)
    first, *rest = blocks
    status, said = run("bash", "-eu", first, seconds=300)
    say(status == 0, "RETURN: the site comes back", said)
    say("private key: /etc/temolunai/key.pem" in said, "it says where the private key stood", said)
    for it in ("certificate.pem", "key.pem"):
        shutil.copy(f"/ci/{it}", "/etc/temolunai")
    for it in rest:
        status, said = run("bash", "-eu", it)
        say(status == 0, "RETURN: the gateway begins", said)
    say(is_well(parts), "all answer", asked("/health"))
    code, _, fields = asked("/login", FORM, b"name=bela&password=a+long+password+1")
    cookie = {"Cookie": fields.get("Set-Cookie", "").partition(";")[0]}
    say(code == 303 and "T6" in asked("/ch/1/tapes", cookie)[1], "users come in, and rows are there", code)
    say(asked("/ch/1/days/7", cookie)[0] == 200, "old days, too")
    say(shown("temolunai-backup@a.timer", "ActiveState") == "active", "backups are taken")
