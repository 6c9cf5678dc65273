"""What .ci/package tries of upgrades, under the systemd of a fresh Debian: from an older program whose files are of version 1,
by one that has no room for its backup, by one that can't begin, over files that the site has changed, and by a repository."""

import glob
import os
import re
import shutil

from package_tools import FILES, asked, run, say, shown, until

# In the order of their units.
PARTS = ("a-old", "a", "b", "cut")
# The barcodes of the tapes of channel 1 in tests/conversations/version-1.sql are asked of the file itself.
TAPES = "SELECT barcode FROM tape WHERE ch = 1 ORDER BY n"


def installs(folder, *packages):
    """dpkg, as apt has it done with -y: nobody is there to answer a question."""
    files = [it for package in packages for it in glob.glob(f"{folder}/{package}_*.deb")]
    return run("sh", "-c", f"DEBIAN_FRONTEND=noninteractive dpkg -i {' '.join(files)} < /dev/null", seconds=300)


def version():
    """Of the program that is installed."""
    return run("dpkg-query", "-W", "-f", "${Version} ${Status}", "temolunai")[1]


def numbers():
    """The processes of the offices."""
    return {it: shown(f"temolunai@{it}", "MainPID") for it in PARTS}


def no_backup(folder):
    """Where a part has no backup, the upgrade stops, and the offices run on."""
    before, place = numbers(), "/var/backups/temolunai/before-tables-3"
    with open(place, "w", encoding="ascii") as out:
        out.write("no room\n")
    status, said = installs(f"{folder}/next", "temolunai")
    say(status != 0 and numbers() == before, "an upgrade without its backup stops, and the offices run on", said)
    say("1.0.0 install ok installed" in version(), "the program is that of before", version())
    os.remove(place)
    os.makedirs(f"{FILES}/odd")
    run("sqlite3", f"{FILES}/odd/office.db", "CREATE TABLE office (one)")
    status, said = installs(f"{folder}/next", "temolunai")
    say(status != 0 and "part odd has no backup" in said and numbers() == before, "nor one of a file that can't be opened", said)
    say("1.0.0 install ok installed" in version(), "the program still is", version())
    shutil.rmtree(f"{FILES}/odd")
    shutil.rmtree(place)


def upgrade(folder, cookie):
    """The next version, with newer tables, by the site's repository: a backup first, and the offices one by one. Then back,
    which is refused."""
    before = numbers()
    for name in ("server.conf", "plain.conf"):
        with open(f"/etc/temolunai/{name}", "a", encoding="utf-8") as out:
            out.write("# The site's own.\n")
    with open("/etc/apt/sources.list.d/temolunai.list", "w", encoding="ascii") as out:
        out.write(f"deb [signed-by={folder}/repository/key.gpg] file:{folder}/repository stable main\n")
    only = "-o Dir::Etc::sourcelist=/etc/apt/sources.list.d/temolunai.list -o Dir::Etc::sourceparts=/nowhere"
    status, said = run("sh", "-c", f"apt-get {only} update && DEBIAN_FRONTEND=noninteractive apt-get {only} install -y temolunai "
                       "temolunai-gateway < /dev/null", seconds=400)
    say(status == 0 and "1.0.1" in version(), "the next version is installed from the site's repository, with -y", said)
    for name in ("server.conf", "plain.conf"):
        with open(f"/etc/temolunai/{name}", encoding="utf-8") as it:
            text = it.read()
        say("# The site's own." in text and "As version" not in text, f"{name} is the site's own still", text)
    with open("/etc/temolunai/login.conf", encoding="utf-8") as it:
        say("# As version 1.0.1 has it." in it.read(), "what the site has no own of is the package's new one")
    conffiles = run("dpkg-query", "-W", "-f", "${Conffiles}", "temolunai", "temolunai-gateway")[1]
    say("/etc/" not in conffiles, "no file of /etc is the packages'", conffiles)
    now = numbers()
    for it in PARTS:
        copies = glob.glob(f"/var/backups/temolunai/before-tables-3/{it}/2*/office.db")
        say(len(copies) == 1, f"a backup of part {it} was taken before", (copies, said))
        good = shown(f"temolunai@{it}", "ActiveState") == "active" and now[it] not in ("0", before[it])
        say(good, f"office {it} was begun anew", said)
    order = re.findall(r"temolunai: (temolunai@[\w-]+\.service) begins anew", said)
    say(order == [f"temolunai@{it}.service" for it in PARTS], "one by one", said)
    say("T1" in asked("/ch/1/tapes", cookie)[1], "sessions and rows stand")
    status, said = installs(f"{folder}/this", "temolunai")
    say(status != 0 and "/usr/lib/temolunai/restore" in said, "back to older tables is refused, and says how", said)
    say("1.0.1" in version(), "the newer one stays installed")
    say(run("systemctl", "is-active", "temolunai@a", "temolunai@b")[0] == 0, "its offices run")


def a_bad_program(folder, cookie):
    """A program that can't begin takes one office down, and no other; a good package brings it back."""
    before = numbers()
    status, said = installs(f"{folder}/bad", "temolunai")
    now = numbers()
    say(status != 0, "a program that can't begin: the package isn't configured", said)
    say({it: now[it] for it in PARTS[1:]} == {it: before[it] for it in PARTS[1:]}, "the other offices run on", (before, now, said))
    say(f"temolunai@{PARTS[0]}.service doesn't begin with this program" in said, "it says which one doesn't begin", said)
    status, said = installs(f"{folder}/next", "temolunai")
    good = status == 0 and until(lambda: all(shown(f"temolunai@{it}", "ActiveState") == "active" for it in PARTS), 30)
    say(good and "1.0.1 install ok installed" in version(), "the good package brings all back", said)
    say("T1" in asked("/ch/1/tapes", cookie)[1], "with their rows")


def from_version_1(folder):
    """An older program, whose file is of version 1, is upgraded to this one: a backup of version 1 is taken first, and the file
    is of version 2 then, with the same rows. That backup and the older program are a way back."""
    for it in (FILES, "/var/lib/private/temolunai"):
        shutil.rmtree(it, ignore_errors=True)
    status, said = installs(f"{folder}/old", "temolunai")
    say(status == 0 and version().startswith("0.9.0"), "an older program is installed", said)
    os.makedirs(f"{FILES}/v1", 0o700)
    file = f"{FILES}/v1/office.db"
    with open(f"{folder}/version-1.sql", encoding="utf-8") as it:
        status, said = run("sqlite3", file, given=it.read())
    rows = run("sqlite3", file, TAPES)[1]
    say(status == 0 and rows, "a file of version 1", said)
    # This stand-in is Python's.
    os.makedirs("/etc/systemd/system/temolunai@v1.service.d")
    with open("/etc/systemd/system/temolunai@v1.service.d/python.conf", "w", encoding="ascii") as out:
        out.write("[Service]\nExecPaths=/usr/bin\n")
    status, said = run("temolunai-part", "v1", "8141")
    say(status == 0 and shown("temolunai@v1", "ActiveState") == "active", "an office over it", said)
    status, said = installs(f"{folder}/this", "temolunai")
    say(status == 0 and "1.0.0 install ok installed" in version(), "this one is installed", said)
    [copy] = glob.glob("/var/backups/temolunai/before-tables-2/v1/2*") or [""]
    say(run("sqlite3", "-readonly", f"{copy}/office.db", "SELECT version FROM office")[1] == "1\n", "a backup of version 1", copy)
    say(shown("temolunai@v1", "ActiveState") == "active", "the office has begun anew", run("systemctl", "status", "temolunai@v1")[1])
    run("systemctl", "stop", "temolunai@v1")
    found = run("sqlite3", os.path.realpath(file), f"SELECT version FROM office; {TAPES}")[1]
    say(found == f"2\n{rows}", "the file is of version 2, with the same rows", found)
    run("sh", "-c", "dpkg --remove --force-depends temolunai")
    status, said = installs(f"{folder}/old", "temolunai")
    say(status == 0, "the older one again", said)
    run("systemctl", "stop", "temolunai@v1")
    status, said = run("/usr/lib/temolunai/restore", copy, file)
    run("systemctl", "reset-failed", "temolunai@v1")
    say(status == 0 and run("systemctl", "start", "temolunai@v1")[0] == 0, "its backup in the file's place, its office begins", said)
    say(run("temolunai-part", "remove", "v1")[0] == 0, "the part is removed")
    os.remove("/etc/systemd/system/temolunai@v1.service.d/python.conf")
    run("apt-get", "purge", "-y", "temolunai", seconds=300)
