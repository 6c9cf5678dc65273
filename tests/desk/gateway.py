"""The gateway of deploy/nginx.conf in front of an office, for the checks that are about it: with TLS, passwords and
maps of its own. The configuration is the real one; only how long it waits for an office is shorter, where a check says
so."""

import os
import pathlib
import shutil
import socket
import subprocess
import time

from stand_in import DESK, TOP

USER, PASSWORD = 'bela', 'a long password'


def free_port():
    with socket.socket() as it:
        it.bind(('127.0.0.1', 0))
        return it.getsockname()[1]


def said(*words):
    return subprocess.run(words, stdout=subprocess.PIPE, stderr=subprocess.DEVNULL, check=True).stdout.decode().strip()


class Gateway:
    """With `login` it asks the login service, as deploy/example/login has it."""

    def __init__(self, directory, office_port, waits=60, login=False):
        self.folder = pathlib.Path(directory) / f'gateway-{office_port}'
        self.port = free_port()
        self.url = f'https://127.0.0.1:{self.port}'
        site = self.folder / 'temolunai'
        site.mkdir(parents=True)
        text = (TOP / 'deploy' / 'nginx.conf').read_text()
        assert 'proxy_read_timeout 60s;' in text
        text = text.replace('proxy_read_timeout 60s;', f'proxy_read_timeout {waits}s;')
        (self.folder / 'nginx.conf').write_text(text)
        for name in ('refusals.js', 'who.js'):
            shutil.copy(TOP / 'deploy' / name, self.folder)
        said('openssl', 'req', '-x509', '-newkey', 'rsa:2048', '-nodes', '-days', '2', '-subj', '/CN=127.0.0.1',
             '-addext', 'subjectAltName=IP:127.0.0.1', '-keyout', str(site / 'key.pem'), '-out',
             str(site / 'certificate.pem'))
        files = {
            'server.conf': f'listen 127.0.0.1:{self.port} ssl;\nssl_certificate temolunai/certificate.pem;\n'
                           f'ssl_certificate_key temolunai/key.pem;\nroot {DESK};\n'
                           f'access_log {self.folder}/asked asked;\n'
                           f'error_log {self.folder}/faults;\nclient_body_temp_path {self.folder}/bodies;\n'
                           f'proxy_temp_path {self.folder}/answers;\n',
            'offices.conf': f'upstream part_a {{\n    server 127.0.0.1:{office_port};\n}}\n',
            'channels.map': '1 part_a;\n2 part_a;\n3 part_a;\n',
            'users.map': f'{USER} "[1,2]";\n',
            'passwords': f'{USER}:{said("openssl", "passwd", "-6", PASSWORD)}\n',
        }
        for name, words in files.items():
            (site / name).write_text(words)
        os.chmod(self.folder, 0o755)
        os.chmod(directory, 0o755)
        self.site, self.service = site, None
        if login:
            self.begin_login()
        words = ['nginx', '-p', str(self.folder), '-c', str(self.folder / 'nginx.conf'), '-g',
                 f'daemon off; pid {self.folder}/pid;']
        environment = {**os.environ, 'PATH': f'{os.environ["PATH"]}:/usr/sbin:/sbin'}
        with open(self.folder / 'said', 'wb') as out:
            self.process = subprocess.Popen(words, stdout=out, stderr=out, env=environment)
        self.listens()

    def begin_login(self):
        example = TOP / 'deploy' / 'example' / 'login'
        (self.site / 'login.conf').write_text((example / 'login.conf').read_text())
        text = (example / 'service.conf').read_text()
        for place, ours in {'/run/temolunai-login/socket': 'socket', '/run/temolunai-who': 'who'}.items():
            assert place in text
            text = text.replace(place, f'{self.folder}/{ours}')
        (self.site / 'service.conf').write_text(text)
        self.users('import', str(self.site / 'passwords'))
        (self.folder / 'state').mkdir()
        words = ['/usr/bin/python3', '-B', '-m', 'login', '--accounts', f'{self.site}/accounts.json',
                 '--offices', f'{self.site}/offices.conf', '--state', f'{self.folder}/state',
                 '--socket', f'{self.folder}/socket']
        self.service = subprocess.Popen(words, stdout=subprocess.PIPE,
                                        env={**os.environ, 'PYTHONPATH': str(TOP / 'deploy')})
        assert self.service.stdout.readline().startswith(b'login: ')

    def users(self, *words, given=''):
        environment = {**os.environ, 'SITE': str(self.site), 'RELOAD': 'true'}
        subprocess.run([TOP / 'deploy' / 'users', *words], input=given.encode(), env=environment, check=True)

    def listens(self):
        end = time.monotonic() + 10
        while time.monotonic() < end:
            with socket.socket() as it:
                if it.connect_ex(('127.0.0.1', self.port)) == 0:
                    return
            time.sleep(0.05)
        raise AssertionError(f'the gateway doesn\'t listen: {(self.folder / "said").read_text()[-300:]}')

    def asked(self):
        """What went through it, as its log has it."""
        return (self.folder / 'asked').read_text().splitlines()

    def stop(self):
        if self.service:
            self.service.terminate()
            self.service.wait()
        self.process.terminate()
        try:
            self.process.wait(5)
        except subprocess.TimeoutExpired:
            self.process.kill()
            self.process.wait(5)
