"""How .ci/deploy tries an office's file without its old days, and one with these: deploy/archive, and how the gateway finds
the old days. `ci` is the module of .ci/deploy."""

import os
import shutil

# The tables whose rows are of a day.
OF_DAYS = ("'day'", "'item'", "'batch'", "'aired'")


def days_of(ci, file):
    """The numbers of the days in a file, each once."""
    return [int(it) for it in ci.run("sqlite3", file, "SELECT DISTINCT day FROM day ORDER BY day")[1].split()]


def is_of_day(row):
    return row.startswith(OF_DAYS)


def halves(ci, whole, day):
    """Nothing is lost: each row of a day is in one of the files, and all else is in both."""
    all_rows, new, old = (ci.rows_of(it).splitlines() for it in (whole, "new.db", "old.db"))
    ci.equal("the rows of both together", sorted(filter(is_of_day, all_rows)), sorted(filter(is_of_day, new + old)))
    for name, rows in (("new.db", new), ("old.db", old)):
        ci.equal(f"all else in {name}", [it for it in all_rows if not is_of_day(it)], [it for it in rows if not is_of_day(it)])
    days = days_of(ci, whole)
    ci.equal("the days from there on", [it for it in days if it >= day], days_of(ci, "new.db"))
    ci.equal("the days before it", [it for it in days if it < day], days_of(ci, "old.db"))


def answers(ci, gateway, days):
    """What each channel is answered of each day, and of what is of no day."""
    paths = [f"days/{day}{of}" for day in days for of in ("", "/list", "/match")] + ["tapes", "clips", "offers", "lent"]
    return {(channel, path): ci.User(gateway, f"u{channel}").ask("GET", f"/ch/{channel}/{path}").all
            for channel in ci.CHANNELS for path in paths}


def is_found(ci, whole, gateway, days, line):
    """The gateway asks the office of the old days for these, and each answer is that of the whole."""
    users = {f"u{channel}": f"[{channel}]" for channel in ci.CHANNELS}
    offices = {name: ci.Office(name, os.path.abspath(f"{name}.db")) for name in ("new", "old")}
    for it in (whole, *offices.values()):
        it.start()
    ports = {name: office.port for name, office in offices.items()}
    cut = ci.Gateway(os.path.abspath("gateway-days"), ports, {it: "new" for it in ci.CHANNELS}, users)
    cut.write("temolunai/days.map", line.replace(" archive;", " part_old;"))
    cut.start()
    ci.equal("each day is answered as by the whole", answers(ci, gateway, days), answers(ci, cut, days))
    later = {path: ci.User(cut, "u1").ask("GET", path).code for path in ("/ch/1/days", f"/ch/1/days/{max(days)}0", "/ch/1/days/1?x")}
    ci.equal("what is no old day", {"/ch/1/days": 200, f"/ch/1/days/{max(days)}0": 409, "/ch/1/days/1?x": 404}, later)
    for it in (whole, *offices.values()):
        it.stop()


def is_refused(ci, whole, day):
    """What can't be is refused, and no file is left."""
    shutil.copy(whole, "spoilt.db")
    ci.run("sqlite3", "spoilt.db", "UPDATE tape SET n = 30000 WHERE ch = 9 AND n = 1")
    refused = {
        (whole, "no-new.db", "no-old.db", "--before", "0"): (1, "0 is no day"),
        (whole, "no-new.db", "no-old.db", "--before", "1;"): (1, "1; is no day"),
        (whole, "no-new.db", "./no-new.db", "--before", day): (1, "no-new.db and ./no-new.db are one"),
        (whole, "new.db", "no-old.db", "--before", day): (1, "new.db is there already"),
        (whole, "no-new.db", "old.db", "--before", day): (1, "old.db is there already"),
        ("missing.db", "no-new.db", "no-old.db", "--before", day): (1, "there is no file missing.db"),
        (whole, "no-new.db", "no-old.db", day): (2, None),
    }
    for words, (code, why) in refused.items():
        status, said, faults = ci.script("archive", *words)
        ci.equal(f"an archive of {words}", (code, ""), (status, said))
        ci.check(f"an archive of {words}: words", why is None or faults == f"archive: {why}\n", faults)
    status, _, faults = ci.script("archive", "spoilt.db", "no-new.db", "no-old.db", "--before", day)
    ci.check("an archive of what is no centre", status == 1 and "97 NotOurs" in faults, faults)
    ci.check("no file was left", not [it for it in os.listdir(".") if it.startswith(("no-", ".archive"))], os.listdir("."))


def old_days_leave(ci, office, gateway):
    """All of it, over the file of an office that has ended, which this gateway has in front."""
    whole = "taken.db"
    shutil.copy(office.file, whole)
    before = ci.contents(whole)
    days = days_of(ci, whole)
    ci.check("there are days", len(days) > 1, days)
    day = str(days[len(days) // 2])
    status, line, faults = ci.script("archive", whole, "new.db", "old.db", "--before", day)
    ci.equal("old days are taken out", (0, ""), (status, faults))
    ci.equal("the copy is as it was", before, ci.contents(whole))
    halves(ci, whole, int(day))
    is_refused(ci, whole, day)
    is_found(ci, office, gateway, days, line)
    ci.equal("no day is before the first", (0, "", ""), ci.script("archive", whole, "from-first.db", "before-first.db", "--before", "1"))
    ci.equal("the days of neither", ([], days), (days_of(ci, "before-first.db"), days_of(ci, "from-first.db")))
