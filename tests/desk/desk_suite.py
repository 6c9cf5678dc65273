"""What all checks of the desk share: offices, the browser, and the count of what passed."""

import os
import pathlib
import time
import traceback
import urllib.error
import urllib.request

from desk_browser import PATIENCE, Page, driver_of, office_of, scratch
from stand_in import Front, TOP

ROWS = ['1,25,06:00:00:00,40', '2,25,06:00:00:00,40']
UMID = '060a2b340101010501010d201300000000112233445566778899aabbccddee'


FULL = 0.9  # of all processors' time: with less left, what takes time takes longer for others' sake


def spent():
    """What all processors have done since the machine began, and all their time."""
    with open('/proc/stat', encoding='ascii') as file:
        user, nice, system, idle, waiting, *others = (int(word) for word in file.readline().split()[1:9])
    rest = idle + waiting
    return user + nice + system + sum(others), user + nice + system + sum(others) + rest


class Busy:
    """How much of all processors' time was taken since it was begun."""

    def __init__(self):
        self.begun = spent()

    def part(self):
        (work, time_), (worked, timed) = self.begun, spent()
        return (worked - work) / max(1, timed - time_)


class Suite:
    def __init__(self, program):
        self.unjudged = []  # figures of time that were too high on a machine that had no time left
        self.program = program
        self.directory = scratch()
        self.passed = 0
        self.failed = 0
        self.offices = []
        self.gateways = []
        self.beside = {}  # what runs beside the browser, by its name
        self.browser = None
        self.name = ''
        self.files = 0
        self.makes_pictures = False

    @property
    def driver(self):
        """The browser, which is begun once a check wants it."""
        if self.browser is None:
            self.browser = driver_of(self.directory)
        return self.browser

    def stop(self):
        if self.browser:
            self.browser.quit()
        for each in self.beside.values():
            each.stop()
        for gateway in self.gateways:
            gateway.stop()
        for process in self.offices:
            process.kill()
            process.wait()

    def passes(self):
        self.passed += 1

    def fails(self, what):
        self.failed += 1
        print(f'desk: failed: {self.name}: {what}', flush=True)

    def holds(self, what, true):
        if true:
            self.passes()
        else:
            self.fails(what)

    def equals(self, what, wanted, got):
        if wanted == got:
            self.passes()
        else:
            self.fails(f'{what}: {got!r}, not {wanted!r}')

    def figure(self, what, value, most, busy):
        """A figure of time is at most so much. One that was too high while others took the machine isn't judged."""
        if value <= most:
            self.passes()
        elif busy.part() >= FULL:
            self.unjudged.append(f'{self.name}: {what}: {value:.2f}, at most {most}')
            print(f'desk: not judged: {self.unjudged[-1]}: {busy.part():.0%} of all processors were taken', flush=True)
        else:
            self.fails(f'{what}: {value:.2f}, at most {most}, with {busy.part():.0%} of all processors taken')

    def run(self, name, check):
        self.name = name
        begun = time.monotonic()
        try:
            check(self)
        except Exception as fault:
            self.fails(f'{type(fault).__name__} {fault}')
            if os.environ.get('TRACE'):
                traceback.print_exc()
                if self.browser:
                    self.browser.save_screenshot(f'/tmp/desk-{name}.png')
        print(f'desk: {name}: {time.monotonic() - begun:.1f} s', flush=True)

    def office(self, rows=None, file=None):
        """A new office behind a new stand-in, and a page of it. What was typed before is forgotten."""
        self.files += 1
        process, port = office_of(self.program, self.directory, file or f'office-{self.files}.db', rows or ROWS)
        self.offices.append(process)
        return self.page_of(port)

    def page_of(self, port):
        front = Front(port)
        page = Page(self.driver, front.url)
        page.front = front
        page.office = f'http://127.0.0.1:{port}'
        return page

    def console(self, page):
        self.equals('no error on the console', [], page.log())


def asks(page, path, body=None):
    """What the office itself answers, past the desk."""
    data = body.encode() if isinstance(body, str) else body
    request = urllib.request.Request(f'{page.office}/ch/{path}', data=data, method='GET' if body is None else 'POST')
    try:
        with urllib.request.urlopen(request, timeout=2 * PATIENCE) as answer:
            return answer.read().decode()
    except urllib.error.HTTPError as refused:
        return refused.read().decode()


def day_file(name):
    return str(TOP / 'docs' / 'broadcast-day' / name)


def said_tables():
    """What docs/broadcast-day/said has for each GET, the last one of each path."""
    tables, path = {}, None
    for line in pathlib.Path(day_file('said')).read_text().splitlines():
        if line.startswith('GET '):
            path = line.split()[1].removeprefix('/ch/')
            tables[path] = ''
        elif not line or line.startswith(('POST ', '#')):
            path = path if path and not line and path.endswith('list') else None
            if path:
                tables[path] += '\n'
        elif path and line != '200':
            tables[path] += line + '\n'
    return {path: text.rstrip('\n') + '\n' for path, text in tables.items()}
