"""How .ci/deploy tries what tells whether a centre is well: /health, /metrics, the rules for alerts, the nightly backup, and
what a unit does before and behind the start of an office. `ci` is the module of .ci/deploy."""

import http.server
import json
import os
import re
import shutil
import threading
import time

import sign_on


def health(ci, gateway, offices):
    """Each office answers, opens or is away: 200 where all answer, else 503. This machine's programs may ask, and who has
    a password."""
    def asked(**words):
        answer = sign_on.asked(ci, gateway, "GET", "/health", **words)
        return answer.code, json.loads(answer.body)
    # The spied office of these checks answers nobody who isn't looked for; it isn't asked here.
    well = {"a": "answers", "b": "answers", "c": "answers"}
    ci.equal("all answer", (200, {"offices": well}), asked())
    unknown = asked(source="127.0.0.5")
    ci.equal("another machine without a word", (401, "Unauthorized"), (unknown[0], unknown[1].get("refused")))
    ci.equal("another machine's user who doesn't watch", 403, asked(source="127.0.0.5", fields=ci.User(gateway, "u1").fields)[0])
    # Another program that has come to an office's port is no office.
    class Another(http.server.BaseHTTPRequestHandler):
        def do_GET(self):
            self.send_error(404)

        def log_message(self, *_):
            pass
    office = offices["b"]
    office.kill()
    with http.server.HTTPServer(("127.0.0.1", office.port), Another) as it:
        thread = threading.Thread(target=it.serve_forever)
        thread.start()
        ci.check("another program on an office's port is no office",
                 ci.until(lambda: asked() == (503, {"offices": well | {"b": "away"}})), asked())
        it.shutdown()
        thread.join()
    office.start()
    ci.check("the office on it is one", ci.until(lambda: asked() == (200, {"offices": well})), asked())
    offices["b"].kill()
    ci.check("one is away", ci.until(lambda: asked() == (503, {"offices": well | {"b": "away"}})), asked())
    # Its unit has a process, which doesn't listen yet: as where it tests its rows.
    with open(f"{gateway.folder}/processes-b", "w", encoding="ascii") as out:
        out.write(f"{os.getpid()}\n")
    ci.check("one opens", ci.until(lambda: asked() == (503, {"offices": well | {"b": "opens"}})), asked())
    offices["b"].start()
    ci.check("all answer again", ci.until(lambda: asked() == (200, {"offices": well})), asked())
    os.remove(f"{gateway.folder}/processes-b")


def figures(text):
    """The figures of a text, by name and labels as it has them."""
    return {line.rpartition(" ")[0]: float(line.rpartition(" ")[2]) for line in text.splitlines() if line[:1] not in ("#", "")}


def metrics(ci, gateway, offices):
    """The log's requests are counted, and what the machine shows of the offices; Prometheus reads the text."""
    out = f"{gateway.folder}/figures/temolunai.prom"
    for name, office in offices.items():
        with open(f"{gateway.folder}/processes-{name}", "w", encoding="ascii") as it:
            it.write(f"{office.process.pid}\n")
    words = [ci.PYTHON, "-B", "-m", "watch", "--log", f"{gateway.folder}/asked", "--out", out, "--out", "/nowhere/temolunai.prom",
             "--offices", f"{gateway.folder}/temolunai/offices.conf", "--files", f"{os.getcwd()}/parts/{{}}/office.db",
             "--backups", f"{os.getcwd()}/nightly/{{}}", "--processes", f"{gateway.folder}/processes-{{}}"]

    def writes():
        done = ci.run(*words, surroundings={"PYTHONPATH": f"{ci.TOP}/deploy"})
        ci.equal("the figures are written", (0, "", ""), done)
        return figures(sign_on.asked(ci, gateway, "GET", "/metrics").body.decode())
    before = writes()
    asked = len(gateway.asked())
    for _ in range(3):
        ci.User(gateway, "u1").ask("GET", "/ch/1/tapes")
    known = ci.User(gateway, "u5").post("/ch/5/tapes", barcode="A1", slot=1)
    sign_on.asked(ci, gateway, "GET", "/ch/1/tapes")
    ci.check("the log has them", ci.until(lambda: len(gateway.asked()) >= asked + 5))
    after = writes()
    def more(name):
        return after.get(name, 0) - before.get(name, 0)
    ci.equal("what was asked", [3, 1, 1, 3, 3], [more(it) for it in (
        'temolunai_requests_total{part="a",status="200"}', 'temolunai_requests_total{part="b",status="409"}',
        'temolunai_requests_total{part="gateway",status="401"}', 'temolunai_request_seconds_count{part="a"}',
        'temolunai_request_seconds_bucket{le="+Inf",part="a"}')])
    number = json.loads(known.body)["code"]
    ci.equal("what was refused", [43, 1], [number, more(f'temolunai_refusals_total{{number="{number}",part="b"}}')])
    for name, office in offices.items():
        ci.equal(f"office {name}", [1, 1, os.path.getsize(office.file)], [after.get(it) for it in (
            f'temolunai_office_listens{{part="{name}"}}', f'temolunai_office_runs{{part="{name}"}}',
            f'temolunai_file_bytes{{part="{name}",what="file"}}')])
    ci.equal("its turns are counted from its process on", 3, more('temolunai_turns{part="a"}'))
    ci.equal("another machine doesn't see them", 401, sign_on.asked(ci, gateway, "GET", "/metrics", source="127.0.0.5").code)
    status, said, faults = ci.run("promtool", "check", "metrics", given=ci.contents(out))
    ci.equal("Prometheus reads them", (0, "", ""), (status, said, faults))
    return after


def rules(ci):
    """The rules, by promtool, which also has each fire; and the dashboard, whose every figure is one that is written."""
    os.makedirs("rules")
    for source, name in (("deploy/alerts.yml", "alerts.yml"), ("tests/gateway/alerts.yml", "one.yml"),
                         ("tests/gateway/alerts-backups.yml", "two.yml"), ("tests/gateway/alerts-gateway.yml", "three.yml"),
                         ("tests/gateway/alerts-replicas.yml", "four.yml")):
        shutil.copy(f"{ci.TOP}/{source}", f"rules/{name}")
    status, said, faults = ci.run("promtool", "check", "rules", "rules/alerts.yml")
    ci.check("twenty-one rules", status == 0 and "21 rules found" in said, said + faults)
    tests = [f"rules/{it}.yml" for it in ("one", "two", "three", "four")]
    status, said, faults = ci.run("promtool", "test", "rules", *tests)
    ci.equal("each fires where it should, and not beside", (0, 4), (status, said.count("SUCCESS")))
    ci.check("what promtool says", status == 0, said + faults)
    fired = {name for it in tests for name in re.findall(r"alertname: (\w+)\s+eval_time", ci.contents(it).decode())}
    ci.equal("each is tried", set(re.findall(r"alert: (\w+)", ci.contents("rules/alerts.yml").decode())), fired)
    dashboard(ci)


def dashboard(ci):
    """Prometheus reads each of its questions, and each names figures that are written."""
    board = json.loads(ci.contents(f"{ci.TOP}/deploy/dashboard.json"))
    asked = [target["expr"] for panel in board["panels"] for target in panel["targets"]]
    ci.check("it asks", len(asked) >= 10, asked)
    # As rules, so that promtool reads them.
    rules_of = [{"record": f"asked:{number}", "expr": it.replace("$part", ".*")} for number, it in enumerate(asked)]
    with open("rules/dashboard.yml", "w", encoding="ascii") as out:
        json.dump({"groups": [{"name": "dashboard", "rules": rules_of}]}, out)
    status, said, faults = ci.run("promtool", "check", "rules", "rules/dashboard.yml")
    ci.check("Prometheus reads the dashboard's questions", status == 0, said + faults)
    written = ci.contents(f"{ci.TOP}/deploy/watch/__main__.py").decode() + ci.contents(f"{ci.TOP}/deploy/watch/requests.py").decode()
    names = {name for it in asked for name in re.findall(r"temolunai_\w+", it)}
    ci.equal("figures that nobody writes", set(), {it for it in names if f'"{it}"' not in written})
    rules_text = ci.contents(f"{ci.TOP}/deploy/alerts.yml").decode()
    ci.equal("the rules' figures that nobody writes", set(),
             {it for it in re.findall(r"temolunai_\w+", rules_text) if f'"{it}"' not in written})


def nightly(ci, gateway, office):
    """The nightly backup under load: it is tested, figures tell of it, and a failure is told until one succeeds."""
    group, folder = ci.GROUPS[office.name], f"{os.getcwd()}/nightly/{office.name}"
    with ci.Load(gateway, group) as load:
        ci.check("the load runs", load.goes_on(), load.refused)
        before = {channel: set(it) for channel, it in load.done.items()}
        begun = time.monotonic()
        status, said, faults = ci.script("nightly", office.file, folder)
        took = time.monotonic() - begun
        ci.equal("a nightly backup", (0, ""), (status, faults))
        ci.check("the load goes on", load.goes_on(), load.refused)
    copy = said.strip()
    ci.check("the program has opened the first", os.path.exists(f"{copy}/opened"))
    ci.equal("nothing is refused meanwhile", [], [it for refused in load.refused.values() for it in refused])
    print(f"deploy: a nightly backup took {took:.2f} s, in which the slowest request took {max(load.slowest.values()):.3f} s",
          flush=True)
    status, said, faults = ci.script("nightly", office.file, folder)
    ci.equal("the next one", (0, ""), (status, faults))
    ci.equal("sqlite3 alone has tested it", [False, True],
             [os.path.exists(f"{said.strip()}/opened"), os.path.exists(f"{said.strip()}/office.db")])
    tables = ci.tables_of(f"{copy}/office.db", group)
    for at, channel in enumerate(group):
        ci.equal(f"the vault of channel {channel} in it", 0, tables[4 * at][0])
        ci.equal(f"it has what was answered to channel {channel}", set(), before[channel] - ci.barcodes(tables[4 * at][1]))
    status, _, faults = ci.script("nightly", f"{folder}/missing.db", folder)
    ci.check("a backup of nothing fails", status == 1 and "there is no file" in faults, faults)
    ci.check("and that is told", "there is no file" in ci.contents(f"{folder}/failed").decode())


def figures_of_backups(ci, after, name):
    """A failed backup is a figure, and the good one before it stays one."""
    ci.equal("the backups that are kept, and that the last failed", [2, 1],
             [after.get(f'temolunai_{it}{{part="{name}"}}') for it in ("backups", "backup_failed")])
    for it in ("backup_time_seconds", "backup_opened_time_seconds"):
        ci.check(f"{it} is that of today", time.time() - after.get(f'temolunai_{it}{{part="{name}"}}', 0) < 600, after)


def unit_begins(ci, office):
    """What the unit has done before an office begins, and behind it."""
    commands = {}
    with open(f"{ci.TOP}/deploy/temolunai@.service", encoding="utf-8") as it:
        text = it.read()
    for name, words in re.findall(r"^(ExecStart(?:Pre|Post))=\+/usr/local/lib/temolunai/ready (.*)$", text, re.MULTILINE):
        commands[name] = words.replace('"', "").split()

    def ready(name, file, port, process):
        places = {"%i": office.name, "/var/lib/temolunai/%i/office.db": file, "${PORT}": port, "$MAINPID": str(process)}
        return ci.script("ready", *(places.get(word, word) for word in commands[name]))
    os.makedirs("none")
    status, _, said = ready("ExecStartPre", f"{os.getcwd()}/none/office.db", "8101", 0)
    ci.check("a part without a file", status == 1 and "there is no file" in said and "temolunai-part" in said, said)
    status, _, said = ready("ExecStartPre", office.file, "", 0)
    ci.check("a part without a port", status == 1 and "it has no port" in said and "port.conf" in said, said)
    ci.equal("nothing was made", [], os.listdir("none"))
    ci.equal("a part that has both", (0, "", ""), ready("ExecStartPre", office.file, str(office.port), 0))
    ci.equal("an office that answers has begun", (0, "", ""), ready("ExecStartPost", "", str(office.port), office.process.pid))
    pid = office.process.pid
    office.stop()
    status, _, said = ready("ExecStartPost", "", str(office.port), pid)
    ci.check("one that ended hasn't", status == 1 and "the office ended before it answered" in said, said)
    office.start()
