"""A stand-in for the web server in front of the office: static files, /me, and /ch/... passed on to the office, one
connection at a time. Besides, it can lose a connection, lose an answer, forge a refusal, or be slow, as the tests want
it."""

import http.client
import http.server
import json
import mimetypes
import os
import pathlib
import threading
import time

TOP = pathlib.Path(__file__).resolve().parents[2]
# The desk that is tried: with a bug planted in it, another one.
DESK = pathlib.Path(os.environ.get('DESK', TOP / 'desk'))
POLICY = "default-src 'self'"
mimetypes.add_type('text/javascript', '.js')


class Front(http.server.ThreadingHTTPServer):
    daemon_threads = True
    request_queue_size = 64

    def __init__(self, office_port, user='M. Traffic', channels=(1, 2)):
        super().__init__(('127.0.0.1', 0), Handler)
        self.office_port = office_port
        self.me = {'user': user, 'channels': list(channels)}
        self.turn = threading.Lock()
        self.cut = False
        self.keeps = False
        self.lose_answers = 0
        self.forged = []
        self.forged_at = None  # (the end of a path, status, refusal): the next such message is refused
        self.lose_at = ''  # the answer to the next message whose path ends so is lost
        self.cut_at = ''  # messages whose path ends so never reach the office
        self.site = None
        self.delay = 0
        self.asked = []
        threading.Thread(target=self.serve_forever, args=(0.05,), daemon=True).start()

    @property
    def url(self):
        return f'http://127.0.0.1:{self.server_address[1]}'

    def handle_error(self, request, client_address):
        """A browser that goes away in the middle is no matter."""


class Handler(http.server.BaseHTTPRequestHandler):
    protocol_version = 'HTTP/1.1'
    wbufsize = 1 << 16
    disable_nagle_algorithm = True

    def log_message(self, *words):
        """Nothing is printed."""

    def answer(self, status, kind, body):
        self.send_response(status)
        self.send_header('Content-Type', kind)
        self.send_header('Content-Length', str(len(body)))
        self.send_header('Content-Security-Policy', POLICY)
        self.send_header('X-Content-Type-Options', 'nosniff')
        self.send_header('Cache-Control', 'no-store')
        if not self.server.keeps:
            # A browser sends a request again by itself where a connection that it kept breaks.
            self.send_header('Connection', 'close')
        self.end_headers()
        self.wfile.write(body)

    def do_GET(self):
        if self.path == '/site.json' and self.server.site is not None:
            self.answer(200, 'application/json', json.dumps(self.server.site).encode())
        elif self.path == '/me':
            self.answer(200, 'application/json', json.dumps(self.server.me).encode())
        elif self.path.startswith('/ch/'):
            self.passed_on(b'')
        else:
            self.file()

    def do_POST(self):
        body = self.rfile.read(int(self.headers.get('Content-Length', 0)))
        self.passed_on(body)

    def passed_on(self, body):
        front = self.server
        front.asked.append((self.command, self.path, body))
        if front.delay:
            time.sleep(front.delay)
        if front.cut or (front.cut_at and self.path.endswith(front.cut_at)):
            self.close_connection = True
            self.connection.close()
            return
        if self.command == 'POST' and front.forged:
            status, refusal = front.forged.pop(0)
            self.answer(status, 'application/json', json.dumps(refusal).encode())
            return
        if front.forged_at and self.path.endswith(front.forged_at[0]):
            (_, status, refusal), front.forged_at = front.forged_at, None
            self.answer(status, 'application/json', json.dumps(refusal).encode())
            return
        with front.turn:
            office = http.client.HTTPConnection('127.0.0.1', front.office_port, timeout=120)
            office.request(self.command, self.path, body)
            answer = office.getresponse()
            status, kind, text = answer.status, answer.getheader('Content-Type'), answer.read()
            office.close()
        meant = front.lose_at and self.path.endswith(front.lose_at)
        if self.command == 'POST' and (front.lose_answers > 0 or meant):
            front.lose_answers = max(0, front.lose_answers - 1)
            front.lose_at = '' if meant else front.lose_at
            self.close_connection = True
            self.connection.close()
            return
        self.answer(status, kind, text)

    def file(self):
        path = self.path.split('?')[0].lstrip('/') or 'index.html'
        file = (DESK / path).resolve()
        if DESK.resolve() not in file.parents or not file.is_file():
            self.answer(404, 'text/plain', b'no such file')
            return
        self.answer(200, mimetypes.guess_type(file.name)[0] or 'application/octet-stream', file.read_bytes())
