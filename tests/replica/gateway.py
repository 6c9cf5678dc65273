"""nginx with deploy/nginx.conf as it is, and a site of the tests' own that asks replicas as deploy/example/replicas does."""

import os
import re
import shutil
import socket
import subprocess

from harness import TOP, check, free_ports, undo, until
from traffic import CHANNELS

EXAMPLE = f"{TOP}/deploy/example/replicas"
# Where the example waits and asks again, and what is asked in the place of one that is away. Each gateway of a test has ports
# of its own.
AGAIN, NOBODY = "127.0.0.1:8219", "127.0.0.1:8218"


def example(name):
    with open(f"{EXAMPLE}/{name}", encoding="utf-8") as it:
        return it.read()


class Gateway:
    """`offices` is the text of offices.conf. The users are u1 to u12, each of its channel. Passwords stand as they are, so
    that testing one costs next to nothing."""

    def __init__(self, folder, offices, replicas=True, certificates="", inside=(), host="127.0.0.1"):
        self.folder, self.inside, self.host = folder, list(inside), host
        self.port, again, nobody = free_ports(3)
        self.places = {AGAIN: f"127.0.0.1:{again}", NOBODY: f"127.0.0.1:{nobody}"}
        self.process = None
        site = f"{folder}/temolunai"
        os.makedirs(site)
        os.makedirs(f"{folder}/desk")
        for it in ("nginx.conf", "refusals.js"):
            shutil.copy(f"{TOP}/deploy/{it}", folder)
        secure = " ssl" if certificates else ""
        self.write("server.conf", f"listen {host}:{self.port}{secure};\nroot {folder}/desk;\naccess_log {folder}/asked asked;\n"
                   f"error_log {folder}/faults;\nclient_body_temp_path {folder}/bodies;\nproxy_temp_path {folder}/answers;\n"
                   + ("ssl_certificate temolunai/gateway.pem;\nssl_certificate_key temolunai/gateway.key;\n" if secure else ""))
        if certificates:
            for it in ("ca.pem", "gateway.pem", "gateway.key"):
                shutil.copy(f"{certificates}/{it}", site)
        if replicas:        # the entry's number is left in the answer, so that it can be compared
            self.write("replicas.conf", re.sub(r"proxy_hide_header .*\n", "", example("replicas.conf")))
            self.write("again.conf", self.placed(example("again.conf")))
        self.write("offices.conf", self.placed(offices))
        self.write("channels.map", "".join(f"{it} part_a;\n" for it in CHANNELS))
        self.write("users.map", "".join(f'u{it} "[{it}]";\n' for it in CHANNELS))
        self.write("passwords", "".join(f"u{it}:{{PLAIN}}password of u{it}\n" for it in CHANNELS))

    def placed(self, text):
        """With this gateway's own ports."""
        for it, own in self.places.items():
            text = text.replace(it, own)
        return text

    def write(self, name, text):
        with open(f"{self.folder}/temolunai/{name}", "w", encoding="utf-8") as out:
            out.write(text)

    def start(self):
        words = [*self.inside, "nginx", "-p", self.folder, "-c", f"{self.folder}/nginx.conf", "-g", f"daemon off; pid {self.folder}/pid;"]
        with open(f"{self.folder}/said", "wb") as said:
            self.process = subprocess.Popen(words, stdout=said, stderr=said)
        undo.append(self.stop)
        check("the gateway listens", until(self.listens), self.said("said"))

    def listens(self):
        if self.inside:
            probe = [*self.inside, "curl", "-sk", "-o", f"{self.folder}/probe", f"https://{self.host}:{self.port}/me"]
            return subprocess.run(probe, check=False).returncode == 0
        with socket.socket() as it:
            return it.connect_ex((self.host, self.port)) == 0

    def stop(self):
        if self.process and self.process.poll() is None:
            self.process.terminate()
            try:
                self.process.wait(10)
            except subprocess.TimeoutExpired:
                self.process.kill()
                self.process.wait()

    def why(self):
        """The faults that it told last, but for those of a replica that is away."""
        told = [it for it in self.said("faults").splitlines() if "Connection refused" not in it]
        return "\n".join(f"replicas: nginx: {it[:300]}" for it in told[-12:])

    def said(self, name):
        with open(f"{self.folder}/{name}", encoding="utf-8") as it:
            return it.read()


def part(ways, own=False):
    """The upstream of a part whose replicas are found at these ports: each asked in turn, or the first, as long as it answers,
    as the example has it."""
    others = " backup weight=1000" if own else ""
    servers = "".join(f"    server 127.0.0.1:{it} max_fails=0{others if at else ''};\n" for at, it in enumerate(ways))
    servers += f"    server {AGAIN} max_fails=0 backup;\n"
    return f"upstream part_a {{\n{servers}    keepalive 16;\n}}\ninclude temolunai/again.conf;\n"


def way(port, name, to, secure=False):
    """The example's way to a replica: of this machine, or (by TLS) of another one."""
    text = example("offices.conf")
    first, then = ("replica_b", "8212") if secure else ("replica_a", "8211")
    group = re.search(rf"^upstream {first} {{.*?^}}\n", text, re.MULTILINE | re.DOTALL)[0]
    server = re.search(rf"^server {{\n    listen 127.0.0.1:{then};.*?^}}\n", text, re.MULTILINE | re.DOTALL)[0]
    made = (group + server).replace(first, f"replica_{name}").replace(f"127.0.0.1:{then}", f"127.0.0.1:{port}")
    return made.replace("10.0.0.2:8200", to).replace("127.0.0.1:8201", to).replace("proxy_ssl_name b", f"proxy_ssl_name {name}")


def upstream(*ports, own=False):
    """Replicas of this machine, each by the example's way; the only one as on one machine."""
    if len(ports) == 1:
        return part(ports)
    ways = free_ports(len(ports))
    return part(ways, own) + "".join(way(it, f"n{at}", f"127.0.0.1:{port}") for at, (it, port) in enumerate(zip(ways, ports)))
