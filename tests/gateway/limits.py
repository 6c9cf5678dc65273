"""How .ci/deploy tries who may stop the gateway: heads that never end, floods with a session and without, twenty addresses that
try passwords, slow clients at a stop, a login service that is away, and what is kept of tokens. `ci` is the module of
.ci/deploy."""

import os
import re
import signal
import socket
import ssl
import threading
import time
from concurrent.futures import ThreadPoolExecutor

import sign_on
from costs import wrk

# So many requests a second a user may have, an address without a session, and an address of the desk's files
# (deploy/nginx.conf); what waits meanwhile.
OF_USER, UNKNOWN, PAGES, WAITING = 1000, 20, 200, 256
FAULT = '500 {"code":500,"refused":"GatewayFault"}'


class HalfHeads(threading.Thread):
    """Heads that never end, on both ports, and how long it took until all of them were closed."""

    def __init__(self, ci, gateway):
        super().__init__()
        self.left = [socket.create_connection(("127.0.0.1", gateway.plain)) for _ in range(50)]
        self.left += [ci.opened(gateway) for _ in range(50)]
        for it in self.left:
            it.sendall(b"GET / HTTP/1.1\r\nHost: x\r\nX: ")
        self.begun, self.took = time.monotonic(), 0.0
        self.start()

    @staticmethod
    def is_closed(it):
        it.settimeout(0.001)
        try:
            while it.recv(4096):
                pass
            return True
        except (TimeoutError, ssl.SSLWantReadError):
            return False
        except OSError:
            return True

    def run(self):
        while self.left and self.took < 90:
            time.sleep(0.5)
            self.left = [it for it in self.left if not self.is_closed(it)]
            self.took = time.monotonic() - self.begun

    def were_closed(self, ci):
        self.join()
        ci.check("heads that never end are closed, without TLS and with it", not self.left and self.took < 35, (len(self.left), self.took))


def forward_secrecy(ci, gateway):
    """No connection whose key is got with that of the certificate."""
    for words, wanted in ((["-tls1_2", "-cipher", "AES128-GCM-SHA256"], False), (["-tls1_2", "-cipher", "AES256-SHA256"], False),
                          (["-tls1_2", "-cipher", "ECDHE-RSA-AES128-SHA"], False),
                          (["-tls1_2", "-cipher", "ECDHE-RSA-AES128-GCM-SHA256"], True), (["-tls1_3"], True)):
        status, said, _ = ci.run("openssl", "s_client", "-connect", f"127.0.0.1:{gateway.port}", *words)
        ci.equal(f"TLS by {words[-1]}", wanted, status == 0 and "Cipher is (NONE)" not in said and "Cipher    : 0000" not in said)


def raw(ci, gateway, head):
    """The first line of the answer to a head that no library would send."""
    with ci.opened(gateway) as it:
        it.sendall(head)
        return it.recv(4096).split(b"\r\n")[0]


def no_letters(ci, gateway):
    """What isn't ASCII is nobody's word, and no fault."""
    for word in (b"Basic \xff", b"Bearer \xff", b"Basic /w==", b"\xff", b"Basic dTE6cGFzc3dvcmQ=\xff"):
        head = b"GET /me HTTP/1.1\r\nHost: x\r\nConnection: close\r\nAuthorization: " + word + b"\r\n\r\n"
        ci.equal(f"Authorization: {word}", b"HTTP/1.1 401 Unauthorized", raw(ci, gateway, head))


def login_is_away(ci, gateway):
    """The login service is away: that is the gateway's fault, and no office's."""
    gateway.login.stop()
    for path in ("/login", "/me", "/ch/1/tapes", "/login/sign-on"):
        ci.equal(f"{path} without the login service", FAULT, str(sign_on.asked(ci, gateway, "GET", path)))
    ci.equal("/health without it", FAULT, str(sign_on.asked(ci, gateway, "GET", "/health")))
    gateway.login.start()
    ci.equal("with it", 200, sign_on.asked(ci, gateway, "GET", "/login").code)


def nothing_is_kept(ci, gateway):
    """What nginx keeps of a token and a session isn't these themselves."""
    word = sign_on.users(ci, gateway, "token", "both", "kept")[1].strip()
    cookie = sign_on.session(ci, gateway, "u4")
    ci.equal("both are good", [200, 200], [sign_on.asked(ci, gateway, "GET", "/me", fields=it).code for it in (
        {"Authorization": f"Bearer {word}"}, {"Cookie": cookie})])
    texts = [ci.contents(f"{folder}/{name}") for folder, _, names in os.walk(f"{gateway.folder}/who") for name in names]
    ci.check("answers are kept", texts)
    for what, secret in (("token", word), ("session", cookie.partition("=")[2])):
        ci.equal(f"no {what} is among them", [], [it[:200] for it in texts if secret.encode() in it])
    ci.equal("the token goes", 0, sign_on.users(ci, gateway, "revoke", "both", "kept")[0])


def floods(ci, gateway):
    """One user's flood is so many requests a second, and another's wait for no more than that; one address's flood without a
    session is a few."""
    cookie = sign_on.session(ci, gateway, "u1")
    times, ended = [], threading.Event()

    def asks():
        other = ci.User(gateway, "both")
        while not ended.is_set():
            answer = other.ask("GET", "/ch/2/tapes")
            times.append((answer.seconds, answer.code))
    thread = threading.Thread(target=asks)
    thread.start()
    seconds = 3
    # Four times as many connections as may be at work: to refuse them would take as much as to answer.
    count, said = wrk(ci, gateway, "flood", [(1, "Cookie", cookie)], 64, seconds)
    ended.set()
    thread.join()
    ci.check("one user's flood", count <= 1.25 * OF_USER * seconds, (count, said))
    ci.equal("another user of the same part meanwhile", {200}, {code for _, code in times})
    slow = sorted(it for it, _ in times)[int(len(times) * 0.99)]
    ci.check("nobody waits for a flood", slow < ci.PROMPT, slow)
    print(f"deploy: one user's flood was {count / seconds:.0f} requests a second; another's 99th percentile beside it "
          f"{1000 * slow:.1f} ms", flush=True)
    count, said = wrk(ci, gateway, "nobody", [(1, "X", "y")], 64, seconds)
    ci.check("a flood without a session", count <= 1.5 * UNKNOWN * (seconds + 1) + WAITING, (count, said))
    print(f"deploy: a flood without a session was {count / seconds:.0f} requests a second", flush=True)
    for path in ("/login/login.css", "/desk.css"):
        _, said, _ = ci.run("wrk", "-c64", "-t2", f"-d{seconds}", f"https://127.0.0.1:{gateway.port}{path}")
        found = re.search(r"(\d+) requests in", said)
        ci.check(f"a flood of {path}", found and int(found[1]) <= 1.5 * PAGES * (seconds + 1) + 2 * WAITING, said)


def a_part_has_its_share(ci, ports):
    """A part whose office answers nothing has so many requests at a time, and no more of the gateway's places: here 20."""
    spy, asked = ci.Spy(), "limit_conn requests_of_part 1024;"
    users = {"s1": f"[{ci.SPIED}]", "s2": f"[{ci.SPIED}]", "s3": f"[{ci.SPIED}]", "u1": "[1]"}
    gateway = ci.Gateway(os.path.abspath("gateway-share"), ports | {"hung": spy.port}, ci.GROUP_OF | {ci.SPIED: "hung"}, users)
    text = gateway.said("nginx.conf")
    ci.check("a part has a share of the gateway's places", asked in text)
    gateway.write("nginx.conf", text.replace(asked, asked.replace("1024", "20")))
    gateway.start()
    those = [ci.opened(gateway) for _ in range(20)]
    for number, it in enumerate(those):
        it.sendall(ci.head_of(f"s{1 + number % 2}", ci.SPIED, 0))
    spy.socket.settimeout(ci.SECONDS)
    those += [spy.socket.accept()[0] for _ in range(20)]
    refused = '503 {"code":100,"refused":"Unavailable"}'
    ci.equal("one more of that part is told so", refused, str(ci.User(gateway, "s3").ask("GET", f"/ch/{ci.SPIED}/tapes")))
    ci.equal("another part is served", 200, ci.User(gateway, "u1").ask("GET", "/ch/1/tapes").code)
    for it in those:
        it.close()


def twenty_addresses(ci, gateway):
    """Twenty addresses try passwords, as many as they may: who logs in from elsewhere waits for a moment."""
    def tries(number):
        try:
            return sign_on.form(ci, gateway, f"x{number % 600}", "wrong", source=f"127.0.1.{1 + number % 20}").code
        except OSError:
            return 0
    with ThreadPoolExecutor(200) as pool:
        asked = [pool.submit(tries, it) for it in range(600)]
        time.sleep(1.0)
        begun = time.monotonic()
        answer = sign_on.form(ci, gateway, "u6", "password of u6", source="127.0.0.66")
        took = time.monotonic() - begun
        for it in asked:
            it.cancel()
        codes = {it.result() for it in asked if not it.cancelled()}
    ci.equal("a log-in beside twenty addresses that try", 303, answer.code)
    ci.check("it waits for a moment", took < 2 * ci.PROMPT, took)
    ci.check("what they are told", codes <= {401, 429, 503}, codes)
    print(f"deploy: beside twenty addresses that try passwords a log-in took {took:.2f} s", flush=True)


def proxies(ci, gateway):
    """The site's proxy says whose a request is; nobody else does."""
    def address(source):
        asked = len(gateway.asked())
        sign_on.asked(ci, gateway, "GET", "/me", fields={"X-Forwarded-For": "198.51.100.9"}, source=source)
        ci.until(lambda: len(gateway.asked()) > asked)
        return gateway.asked()[-1].split()[1]
    ci.equal("by the site's proxy, and by another", ["198.51.100.9", "127.0.0.78"], [address(f"127.0.0.{it}") for it in (77, 78)])
    codes = [sign_on.asked(ci, gateway, "GET", "/health", fields={"X-Forwarded-For": "127.0.0.1"}, source="127.0.0.78").code]
    ci.equal("nobody is local by saying so", [401], codes)


def locked_out(ci, gateway):
    """Who tries a colleague's password elsewhere doesn't lock her out; nor where she was before, by that browser."""
    answer = sign_on.form(ci, gateway, "u7", "password of u7", source="127.0.0.70")
    found = re.search(r"^(__Host-temolunai-browser=[a-z0-9.~_-]+); Max-Age=31536000; .*SameSite=Strict$", answer.cookies, re.MULTILINE)
    ci.check("a browser is known from then on", found, answer.cookies)
    codes = [sign_on.form(ci, gateway, "u7", f"wrong {it}", source="127.0.0.71").code for it in range(11)]
    ci.equal("ten tries", [401] * 10 + [429], codes)
    ci.equal("the right one there", 429, sign_on.form(ci, gateway, "u7", "password of u7", source="127.0.0.71").code)
    ci.equal("she comes in elsewhere", 303, sign_on.form(ci, gateway, "u7", "password of u7", source="127.0.0.70").code)
    fields = {"Content-Type": "application/x-www-form-urlencoded", "Origin": f"https://127.0.0.1:{gateway.port}",
              "Cookie": found[1] if found else ""}
    ci.equal("and there, by a browser in which she was before", 303,
             sign_on.form(ci, gateway, "u7", "password of u7", fields=fields, source="127.0.0.71").code)


def words_of_maps(ci, gateway):
    """A user whose name is a word of nginx's maps would break each reload."""
    for name in ("default", "include", "hostnames", "volatile"):
        status, _, said = sign_on.users(ci, gateway, "add", name, "1", given="a long password\n")
        ci.check(f"a user {name} is refused", status == 1 and "isn't a word of nginx's maps" in said, said)
    ci.equal("channels are taken as ever", 0, sign_on.users(ci, gateway, "channels", "u1", "1")[0])


def a_slow_client_ends(ci, gateway):
    """A client that sends a byte each second holds up a stop for ten seconds, and no longer."""
    slow = ci.opened(gateway)
    slow.sendall(ci.head_of("u1", 1))
    ended = threading.Event()

    def drips():
        try:
            while not ended.wait(0.5):
                slow.sendall(b"x")
        except OSError:
            pass
    thread = threading.Thread(target=drips)
    thread.start()
    time.sleep(1.0)
    begun = time.monotonic()
    gateway.process.send_signal(signal.SIGQUIT)
    good = ci.until(lambda: gateway.process.poll() is not None, 20)
    took = time.monotonic() - begun
    ended.set()
    thread.join()
    slow.close()
    ci.check("a stop waits for a slow client ten seconds", good, took)
    print(f"deploy: a stop beside a slow client took {took:.1f} s", flush=True)


def all_of_it(ci, gateway):
    """All of this but the end."""
    heads = HalfHeads(ci, gateway)
    forward_secrecy(ci, gateway)
    no_letters(ci, gateway)
    nothing_is_kept(ci, gateway)
    words_of_maps(ci, gateway)
    locked_out(ci, gateway)
    floods(ci, gateway)
    twenty_addresses(ci, gateway)
    login_is_away(ci, gateway)
    heads.were_closed(ci)
