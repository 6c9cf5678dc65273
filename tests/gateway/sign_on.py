"""How .ci/deploy tries the login service behind the gateway: sessions, tokens, what other sites' pages can't do, and what a
browser is told. `ci` is the module of .ci/deploy."""

import http.client
import json
import os
import re
import time
import urllib.parse
from concurrent.futures import ThreadPoolExecutor

# How long a session that was ended is good for, at most, in seconds: the five that nginx keeps it, and as long again for a
# busy machine.
KEPT = 10.0
COOKIE = re.compile(r"^__Host-temolunai=([a-z0-9._~-]+); Max-Age=43200; Path=/; HttpOnly; Secure; SameSite=Strict$", re.MULTILINE)


def form(ci, gateway, name, password, place="", fields=None, source=None):
    """The login's form as a browser sends it: the code, the fields, the page, and how long it took."""
    body = urllib.parse.urlencode({"name": name, "password": password, "place": place})
    given = {"Content-Type": "application/x-www-form-urlencoded", "Origin": f"https://127.0.0.1:{gateway.port}"}
    return asked(ci, gateway, "POST", "/login", body, given if fields is None else fields, source)


def asked(ci, gateway, method, path, body=None, fields=None, source=None):
    """An answer on a connection of its own."""
    connection = http.client.HTTPSConnection("127.0.0.1", gateway.port, timeout=ci.SECONDS, context=ci.trusted(),
                                             source_address=(source, 0) if source else None)
    begun = time.monotonic()
    try:
        connection.request(method, path, body=body, headers=fields or {})
        got = connection.getresponse()
        return ci.Answer(got.status, got.reason, got.getheaders(), got.read(), time.monotonic() - begun)
    finally:
        connection.close()


def session(ci, gateway, name):
    """The cookie of a new session."""
    answer = form(ci, gateway, name, f"password of {name}")
    found = COOKIE.search(answer.cookies)
    ci.check(f"{name} logs in", answer.code == 303 and found, f"{answer.code} {answer.fields}")
    return f"__Host-temolunai={found[1]}" if found else ""


def users(ci, gateway, *words, given=""):
    """deploy/users over the gateway's site."""
    reload = f"nginx -p {gateway.folder} -c {gateway.folder}/nginx.conf -g 'pid {gateway.folder}/pid;' -s reload"
    return ci.run(f"{ci.TOP}/deploy/users", *words, given=given.encode(),
                  surroundings={"SITE": f"{gateway.folder}/temolunai", "RELOAD": reload})


# ---- Sessions ----


def sessions(ci, gateway, spy):
    """A browser's way: to the page, in, and out again."""
    html = {"Accept": "text/html,application/xhtml+xml"}
    answer = asked(ci, gateway, "GET", "/", fields=html)
    ci.equal("a browser is sent to the login", (302, "/login"), (answer.code, answer.fields.get("Location")))
    answer = asked(ci, gateway, "GET", "/ch/1/tapes")
    ci.equal("a script is told where it is", (401, "/login"), (answer.code, answer.fields.get("Sign-On")))
    page = asked(ci, gateway, "GET", "/login", fields=html | {"Sec-Fetch-Site": "cross-site"})
    ci.check("the page, also from a link of another site", page.code == 200 and b'name="password"' in page.body, page)
    for path in ("/login/login.css", "/login/login.js"):
        ci.equal(f"{path} of the page", 200, asked(ci, gateway, "GET", path).code)
    word = ci.User(gateway, "u1").fields
    codes = [asked(ci, gateway, "GET", f"/login/{it}", fields=word).code for it in ("door.py", "x.js", "__init__.py")]
    ci.equal("no other file", [404] * 3, codes)
    ci.equal("nobody asks the service itself", 404, asked(ci, gateway, "GET", "/check").code)

    answer = form(ci, gateway, "u1", "wrong", "#/1/day/7")
    ci.equal("a wrong password", (401, None), (answer.code, answer.fields.get("Set-Cookie")))
    ci.check("the view that was asked for is kept", b'value="#/1/day/7"' in answer.body, answer)
    answer = form(ci, gateway, "U1 ", "password of u1", "#/1/day/7")
    ci.equal("a right one goes on to the view", (303, "/#/1/day/7"), (answer.code, answer.fields.get("Location")))
    one, other = session(ci, gateway, "u1"), session(ci, gateway, "u1")
    me = asked(ci, gateway, "GET", "/me", fields={"Cookie": f"a=b; {one}; c=d"})
    ci.equal("who has the session", ('200 {"user":"u1","channels":[1]}', "/logout"), (str(me), me.fields.get("Sign-Off")))
    ci.equal("its channel", 200, asked(ci, gateway, "GET", "/ch/1/tapes", fields={"Cookie": one}).code)
    for path in ("/ch/2/tapes", "/ch/11/tapes", f"/ch/{ci.SPIED}/tapes", "/ch/999/tapes"):
        ci.equal(f"{path} isn't", 403, asked(ci, gateway, "GET", path, fields={"Cookie": one}).code)
    for at in (17, len(one) // 2, len(one) - 1):
        changed = one[:at] + ("0" if one[at] != "0" else "1") + one[at + 1:]
        ci.equal("a changed cookie", 401, asked(ci, gateway, "GET", "/ch/1/tapes", fields={"Cookie": changed}).code)
    other_sites(ci, gateway, spy)
    goes_out(ci, gateway, one, other)


def other_sites(ci, gateway, spy):
    """A page of another site changes nothing by a cookie that the browser sends along, and none that says nothing does."""
    own, cookie = f"https://127.0.0.1:{gateway.port}", session(ci, gateway, "spied")
    path, refused = f"/ch/{ci.SPIED}/tapes", '403 {"code":403,"refused":"Forbidden"}'
    foreign = [
        {}, {"Origin": "https://elsewhere.example"}, {"Origin": "null"}, {"Sec-Fetch-Site": "cross-site"},
        {"Sec-Fetch-Site": "same-site"}, {"Sec-Fetch-Site": "none"}, {"Origin": own, "Sec-Fetch-Site": "cross-site"},
        {"Origin": own, "Sec-Fetch-Site": "same-site"}, {"Origin": "https://elsewhere.example", "Sec-Fetch-Site": "same-origin"},
        {"Origin": own.replace("https", "http")}, {"Origin": own + "0"},
    ]
    for fields in foreign:
        answer = asked(ci, gateway, "POST", path, "{}", {"Cookie": cookie, **fields})
        ci.equal(f"a change with {fields}", refused, str(answer))
        if fields:
            ci.equal(f"a login with {fields}", 403, form(ci, gateway, "u1", "password of u1", fields=fields).code)
            ci.equal(f"a logout with {fields}", 403, asked(ci, gateway, "POST", "/logout", "", {"Cookie": cookie, **fields}).code)
    ci.check("no office saw any of it", spy.is_left_alone())
    for fields in ({"Origin": own}, {"Sec-Fetch-Site": "same-origin"}, {"Origin": own, "Sec-Fetch-Site": "same-origin"}):
        with ThreadPoolExecutor(1) as pool:
            work = pool.submit(asked, ci, gateway, "POST", path, "{}", {"Cookie": cookie, **fields})
            seen = spy.sees()[0]
        ci.equal(f"a change of the own page, {fields}", "200 {}", str(work.result()))
        ci.check("the office isn't told of the session", seen.startswith(b"POST /ch/13/") and b"ookie" not in seen, seen)


def goes_out(ci, gateway, one, other):
    """A session that was ended is over, also after the service was begun anew, and others go on."""
    def codes():
        return [asked(ci, gateway, "GET", "/me", fields={"Cookie": it}).code for it in (one, other)]
    ci.equal("two sessions", [200, 200], codes())
    fields = {"Cookie": one, "Origin": f"https://127.0.0.1:{gateway.port}"}
    answer = asked(ci, gateway, "POST", "/logout", "", fields)
    ci.equal("out", (303, "/login"), (answer.code, answer.fields.get("Location")))
    ci.check("the browser forgets it", "__Host-temolunai=; Max-Age=0;" in answer.cookies, answer.fields)
    begun = time.monotonic()
    ci.check("the session is over", ci.until(lambda: codes() == [401, 200], KEPT), codes())
    print(f"deploy: a session that was ended was good for {time.monotonic() - begun:.1f} s more", flush=True)
    gateway.login.restart()
    ci.equal("after a new start of the service", [401, 200], codes())


# ---- Programs ----


def tokens(ci, gateway):
    """A program's word is made, is good, and is revoked; channels and passwords are set."""
    status, said, faults = users(ci, gateway, "token", "both", "ingest")
    ci.check("a token is made", status == 0 and re.fullmatch(r"[A-Za-z0-9_-]{43}\n", said), faults)
    fields = {"Authorization": f"Bearer {said.strip()}"}
    def asks(method="GET", path="/ch/2/tapes", body=None, more=None):
        return asked(ci, gateway, method, path, body, fields | (more or {})).code
    ci.equal("a token's own channels", [200, 200, 403], [asks(path=f"/ch/{it}/tapes") for it in (1, 2, 3)])
    ci.equal("a program says nothing of a page", 400, asks("POST", "/ch/1/tapes", "{"))
    ci.equal("a page of another site has no token", 403, asks("POST", "/ch/1/tapes", "{", {"Origin": "https://x.example"}))
    ci.equal("another word", 401, asks(more={"Authorization": "Bearer " + "A" * 43}))
    ci.equal("other channels", 0, users(ci, gateway, "channels", "both", "2", "3")[0])
    ci.check("they are seen", ci.until(lambda: [asks(path=f"/ch/{it}/tapes") for it in (1, 2, 3)] == [403, 200, 200]))
    ci.equal("the channels as they were", 0, users(ci, gateway, "channels", "both", "1", "2")[0])
    ci.check("they are seen again", ci.until(lambda: [asks(path=f"/ch/{it}/tapes") for it in (1, 2, 3)] == [200, 200, 403]))
    ci.equal("the token is revoked", 0, users(ci, gateway, "revoke", "both", "ingest")[0])
    ci.check("it is over", ci.until(lambda: asks() == 401, KEPT))
    cookie = session(ci, gateway, "both")
    ci.equal("a new password", 0, users(ci, gateway, "password", "both", given="password number 2\n")[0])
    ci.check("the sessions of the old one are over",
             ci.until(lambda: asked(ci, gateway, "GET", "/me", fields={"Cookie": cookie}).code == 401, KEPT))
    ci.equal("the old password", 401, form(ci, gateway, "both", "password of both").code)
    ci.equal("the new one", 303, form(ci, gateway, "both", "password number 2").code)
    ci.equal("the password as it was", 0, users(ci, gateway, "password", "both", given="password of both\n")[0])


# ---- The head of a page, the port without TLS, IPv6 ----


def heads(ci, gateway, basic):
    """What a browser is told of TLS, and where it may ask."""
    for it in (gateway, basic):
        for path in ("/", "/me", "/ch/1/tapes", "/nothing"):
            field = ci.User(it, "u1").ask("GET", path).fields.get("Strict-Transport-Security")
            ci.equal(f"HSTS of {path}", "max-age=31536000", field)
    connection = http.client.HTTPConnection("127.0.0.1", gateway.plain, timeout=ci.SECONDS)
    connection.request("GET", "/ch/1/tapes?x")
    got = connection.getresponse()
    got.read()
    ci.equal("the port without TLS", (301, "https://playout.example/ch/1/tapes?x"), (got.status, got.getheader("Location")))
    context = ci.trusted()
    context.check_hostname = False
    connection = http.client.HTTPSConnection("::1", gateway.port, timeout=ci.SECONDS, context=context)
    connection.request("GET", "/me", headers=ci.User(gateway, "u1").fields)
    got = connection.getresponse()
    ci.equal("by IPv6", (200, {"user": "u1", "channels": [1]}), (got.status, json.loads(got.read())))


def unit_tests(ci):
    """The modules by themselves, and their types."""
    # Their hashes take what processor time there is: beside other work more than a minute.
    words = ["/usr/bin/python3", "-B", "-m", "unittest", "discover", "-b", f"{ci.TOP}/tests/gateway"]
    status, _, faults = ci.run(*words, seconds=240)
    found = re.search(r"Ran (\d+) tests", faults)
    ci.check("the unit tests of the gateway", status == 0 and found and int(found[1]) >= 75, faults[-600:])
    os.makedirs("types")
    ci.run("cp", "-r", f"{ci.TOP}/deploy/login", f"{ci.TOP}/deploy/watch", "types")
    scripts = ("users", "ports", "addresses", "listens", "bill")
    for it in scripts:
        ci.run("cp", f"{ci.TOP}/deploy/{it}", f"types/{it}_script.py")
    # Where Debian's python3-typeshed is, it has the types of what else is passed over.
    words = ["--python-executable", "/usr/bin/python3", "--strict", "--no-warn-unused-ignores", "--cache-dir", "types/cache"]
    words += ["types/login", "types/watch", *(f"types/{it}_script.py" for it in scripts)]
    status, said, faults = ci.run("mypy", *words, surroundings={"MYPYPATH": "types"})
    ci.check("mypy --strict", status == 0, said + faults)
