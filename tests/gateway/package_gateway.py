"""What .ci/package tries of the gateway and the login service, under the systemd of a fresh Debian: who may stop them, who may
reach an office, what their logs tell, and what becomes of them where IPv6, nginx or the disk isn't as before."""

import glob
import grp
import os
import pwd
import re
import resource
import socket
import ssl
import stat
import subprocess
import threading
import time

from package_tools import asked, run, say, shown, until

GATEWAY, LOG = "temolunai-gateway", "/var/log/temolunai"
# So many connections have the gateway's workers all at work: 8,192 each, and one for each processor.
MANY = 8192 * (os.cpu_count() or 1) + 200


def as_user(name, program):
    """What a Python program says that runs as this user, who has no other rights."""
    user = pwd.getpwnam(name)
    done = subprocess.run(["/usr/bin/python3", "-c", program], capture_output=True, text=True, timeout=60, check=False,
                          user=user.pw_uid, group=user.pw_gid, extra_groups=[])
    return done.stdout + done.stderr


def local_users():
    """Nobody of this machine but the gateway reaches an office, the login service, or what is kept of tokens."""
    tape = '{"barcode":"EVIL","slot":9}'
    evil = f"""
import socket
with socket.create_connection(("127.0.0.1", 8102), timeout=5) as it:
    it.sendall(b'POST /ch/3/tapes HTTP/1.1\\r\\nContent-Length: {len(tape)}\\r\\n\\r\\n{tape}')
    print(it.recv(100))
"""
    said = as_user("nobody", evil)
    say("Connection refused" in said, "a local user has no connection to an office", said)
    for name in ("www-data", "temolunai-login"):
        said = as_user(name, "import socket; socket.create_connection(('127.0.0.1', 8102), timeout=5); print('in')")
        wanted = "Connection refused" if name == "www-data" else "in"
        say(wanted in said, f"{name} has one, where it is the login service", said)
    login = "import socket; it = socket.socket(socket.AF_UNIX); it.connect('/run/temolunai-login/socket'); print('in')"
    for name in ("nobody", "www-data"):
        said = as_user(name, login)
        say("Permission denied" in said, f"{name} doesn't reach the login service", said)
    kept = glob.glob("/run/temolunai-gateway/who/**", recursive=True)
    files = [it for it in kept if os.path.isfile(it)]
    say(files and all(pwd.getpwuid(os.stat(it).st_uid).pw_name == GATEWAY for it in files), "what nginx keeps is the gateway's",
        kept)
    said = as_user("www-data", f"print([open(it).read() for it in {files!r}])")
    say("Permission denied" in said, "Debian's nginx doesn't read it", said)
    code, text, _ = asked("/health")
    say(code == 200, "the gateway and the login service reach the offices", (code, text))
    # As nftables.service does it. One that its timer has begun before may have looked at the rules already: the next one hasn't.
    run("nft", "flush", "ruleset")
    run("systemctl", "start", "temolunai-metrics")
    run("systemctl", "start", "temolunai-metrics")
    said = as_user("nobody", "import socket; socket.create_connection(('127.0.0.1', 8102), timeout=5); print('in')")
    tables = run("nft", "list", "tables")[1]
    good = "Connection refused" in said and "inet temolunai_gateway" in tables
    say(good, "rules that somebody has removed come again", (said, tables))


def refused(address):
    """Opens connections from an address that say half a head, until it has as many as it may, or MANY. Gives them back."""
    found = []
    most = resource.getrlimit(resource.RLIMIT_NOFILE)[1]
    resource.setrlimit(resource.RLIMIT_NOFILE, (most if most == resource.RLIM_INFINITY else min(MANY + 1000, most), most))
    for _ in range(MANY):
        it = socket.socket()
        it.settimeout(5)
        try:
            it.bind((address, 0))
            it.connect(("127.0.0.1", 80))
            it.sendall(b"GET / HTTP/1.1\r\nX: ")
            found.append(it)
        except OSError:
            it.close()
            break
    return found


def half_heads():
    """One host's half heads on port 80 leave room for all others, and are closed."""
    begun = time.monotonic()
    those = refused("127.0.0.9")
    say(len(those) <= 200, "an address has so many connections", len(those))
    code, text, _ = asked("/health")
    took = time.monotonic() - begun
    say(code == 200, f"others are served beside {len(those)} half heads of one host", (code, text))
    say(took < 20, "and at once", took)
    left = list(those)

    def closed():
        for it in list(left):
            it.settimeout(0.001)
            try:
                if it.recv(100) == b"" or True:
                    left.remove(it)
            except TimeoutError:
                pass
            except OSError:
                left.remove(it)
        return not left
    say(until(closed, 30), "half heads are closed after ten seconds", len(left))
    for it in those:
        it.close()
    again = refused("127.0.0.9")
    say(again, "the address has connections again")
    for it in again:
        it.close()
    begun, count = time.monotonic(), 0
    for _ in range(3000):
        with socket.socket() as it:
            it.bind(("127.0.0.10", 0))
            count += it.connect_ex(("127.0.0.1", 443)) == 0
    took = time.monotonic() - begun
    say(count <= 350 + 110 * took, "an address has so many new connections a second", (count, took))


def opened():
    """A connection with TLS to the gateway."""
    context = ssl.create_default_context(cafile="/etc/temolunai/certificate.pem")
    return context.wrap_socket(socket.create_connection(("127.0.0.1", 443), timeout=20), server_hostname="localhost")


def a_slow_post(cookie):
    """A body that comes byte by byte holds up a restart for ten seconds, and no longer."""
    ended = threading.Event()
    head = f"POST /ch/1/tapes HTTP/1.1\r\nHost: localhost\r\nOrigin: https://localhost\r\nCookie: {cookie['Cookie']}\r\n" \
           "Content-Length: 1000\r\n\r\n"
    slow = opened()
    slow.sendall(head.encode())

    def drips():
        try:
            while not ended.wait(0.5):
                slow.sendall(b"x")
        except OSError:
            pass
    thread = threading.Thread(target=drips)
    thread.start()
    time.sleep(1)
    begun = time.monotonic()
    status, said = run("systemctl", "restart", GATEWAY)
    took = time.monotonic() - begun
    ended.set()
    thread.join()
    slow.close()
    say(status == 0 and took < 25, "a restart beside a slow body takes ten seconds", (took, said))
    print(f"a restart of the gateway beside a slow body took {took:.1f} s", flush=True)


def mode(path):
    """A file's rights and group."""
    it = os.stat(path)
    return f"{stat.S_IMODE(it.st_mode):o}", grp.getgrgid(it.st_gid).gr_name


def logs():
    """The logs are root's and adm's from the first line on, have an end, and tell who did what."""
    said = as_user("nobody", f"import os; print(os.listdir('{LOG}'))")
    say(mode(LOG) == ("751", "adm") and "Permission denied" in said, "nobody looks into the folder of the logs", (mode(LOG), said))
    for name in ("temolunai.log", "error.log"):
        say(mode(f"{LOG}/{name}")[0] == "640", f"{name} is nobody else's", mode(f"{LOG}/{name}"))
    say(run("systemctl", "is-active", "temolunai-logs.timer")[0] == 0, "something looks how large they are")
    with open(f"{LOG}/temolunai.log", "ab") as out:
        out.truncate(300_000_000)
    status, said = run("systemctl", "start", "temolunai-logs")
    asked("/health")
    good = status == 0 and os.path.getsize(f"{LOG}/temolunai.log") < 1_000_000 and os.path.exists(f"{LOG}/temolunai.log.1")
    say(good, "a log that has grown large ends, and a new one is begun", (said, os.listdir(LOG)))
    say(mode(f"{LOG}/temolunai.log")[0] == "640", "the new one is nobody else's", mode(f"{LOG}/temolunai.log"))
    say(until(lambda: asked("/health") and os.path.getsize(f"{LOG}/temolunai.log") > 0), "requests are written into it")
    os.remove(f"{LOG}/temolunai.log.1")
    said = run("journalctl", "--no-pager", "-t", "temolunai-users", "-t", "temolunai-part", "-o", "cat")[1]
    for it in ("root: add anna 1", "root: token bela ingest 90", "root: remove chris", "root: a 8101 1,25,06:00:00:00,40"):
        say(it in said, f"the journal says by whom: {it}", said)
    say("a long password" not in said, "and no password", said)
    asked("/login", {"Origin": "https://localhost", "Content-Type": "application/x-www-form-urlencoded"}, b"name=anna&password=wrong")
    said = run("journalctl", "--no-pager", "-u", "temolunai-login", "-o", "cat")[1]
    for it in ("login: bela from 127.0.0.1: in", "login: anna from 127.0.0.1: wrong password"):
        say(it in said or it.replace("127.0.0.1", "::1") in said, f"the journal says who came in, and who didn't: {it}", said)


def figures(name):
    """A figure, as it is now."""
    run("systemctl", "start", "temolunai-metrics.service")
    with open("/var/lib/temolunai-metrics/temolunai.prom", encoding="ascii") as it:
        found = re.search(rf"^{re.escape(name)} (\S+)$", it.read(), re.MULTILINE)
    return float(found[1]) if found else None


def what_is_told():
    """Figures tell of a dead login service, a gateway that is down, and a certificate that ends."""
    names = ("temolunai_gateway_listens", "temolunai_login_answers")
    say([figures(it) for it in names] == [1, 1], "both are well", [figures(it) for it in names])
    left = (figures('temolunai_certificate_ends_seconds{file="certificate.pem"}') or 0) - time.time()
    say(363 * 86400 < left < 366 * 86400, "how long the certificate holds", left)
    run("systemctl", "stop", "temolunai-login")
    say(figures(names[1]) == 0, "a dead login service is told")
    code, text, _ = asked("/login")
    say((code, text) == (500, '{"code":500,"refused":"GatewayFault"}'), "the login page without it", (code, text))
    run("systemctl", "stop", GATEWAY)
    say(figures(names[0]) == 0, "a gateway that is down is told")
    run("systemctl", "start", "temolunai-login", GATEWAY)
    say(asked("/health")[0] == 200, "both begin again")


def drop_in(unit, name, text):
    """A drop-in of a unit; without a text it goes."""
    folder = f"/etc/systemd/system/{unit}.service.d"
    os.makedirs(folder, exist_ok=True)
    if text:
        with open(f"{folder}/{name}.conf", "w", encoding="ascii") as out:
            out.write(text)
    else:
        os.remove(f"{folder}/{name}.conf")
        os.rmdir(folder)
    run("systemctl", "daemon-reload")


def without_ipv6():
    """A machine that makes no socket of IPv6 has a gateway all the same."""
    drop_in(GATEWAY, "four", "[Service]\nRestrictAddressFamilies=\nRestrictAddressFamilies=AF_INET AF_UNIX\n")
    status, said = run("systemctl", "restart", GATEWAY)
    say(status == 0 and asked("/health")[0] == 200, "the gateway begins without IPv6", said)
    drop_in(GATEWAY, "four", "")
    run("systemctl", "restart", GATEWAY)
    with socket.socket(socket.AF_INET6) as it:
        it.settimeout(5)
        say(it.connect_ex(("::1", 443)) == 0, "and with it")


def another_nginx(folder):
    """Debian's nginx is replaced beneath the gateway: it begins anew, and takes the site's changes."""
    before = shown(GATEWAY, "MainPID")
    status, said = run("sh", "-c", f"DEBIAN_FRONTEND=noninteractive dpkg -i {folder}/nginx/*.deb", seconds=300)
    say(status == 0, "nginx is installed anew", said)
    say(until(lambda: shown(GATEWAY, "MainPID") not in ("0", before)), "the gateway begins anew", said)
    program = os.readlink(f"/proc/{shown(GATEWAY, 'MainPID')}/exe")
    say(program == "/usr/sbin/nginx", "it is the nginx that is there", program)
    status, said = run("systemctl", "reload", GATEWAY)
    say(status == 0 and asked("/health")[0] == 200, "it takes changes", said)


def a_full_disk():
    """Where nothing can be kept, the login service begins, people come in and go out, and nobody else's session ends."""
    form = {"Origin": "https://localhost", "Content-Type": "application/x-www-form-urlencoded"}

    def comes_in():
        code, _, fields = asked("/login", form, b"name=bela&password=a+long+password+1")
        return code, {"Cookie": fields.get("Set-Cookie", "").partition(";")[0]}
    code, other = comes_in()
    with open("/var/lib/temolunai-login/key", "rb") as it:
        key = it.read()
    run("systemctl", "stop", "temolunai-login")
    run("mount", "-t", "tmpfs", "-o", "size=4k,mode=700,uid=" + str(pwd.getpwnam("temolunai-login").pw_uid), "full",
        "/var/lib/temolunai-login")
    with open("/var/lib/temolunai-login/key", "wb") as out:
        out.write(key)
    os.chown("/var/lib/temolunai-login/key", pwd.getpwnam("temolunai-login").pw_uid, -1)
    status, said = run("systemctl", "start", "temolunai-login")
    say(status == 0, "the login service begins over a full disk", said)
    code, cookie = comes_in()
    say(code == 303, "who logs in comes in", code)
    code = asked("/logout", {**cookie, "Origin": "https://localhost"}, b"")[0]
    say(code == 303, "who logs out goes out", code)
    say(until(lambda: asked("/me", cookie)[0] == 401), "that session is over")
    say(asked("/me", other)[0] == 200, "another goes on")
    run("systemctl", "stop", "temolunai-login")
    run("umount", "/var/lib/temolunai-login")
    run("systemctl", "start", "temolunai-login")
    say(asked("/me", other)[0] == 200, "with room it goes on")
