#!/usr/bin/env python3
"""Many peers of one office at once, over sockets of this machine. `.ci/serve` runs it.

    .ci/lib/peers_checks.py PROGRAM [CHECK..]

Each check begins an office of its own. Prints each that fails and why; the last line is 'peers: N passed, M failed'.
"""
import contextlib, os, pathlib, re, signal, socket, struct, subprocess, sys, tempfile, time

PLAN = '1,25,06:00:00:00,9999'
# How long anything may take on a machine that is busy with other work.
LONG = 20
# A table of so many rows, as the longest that a channel has.
MANY = 9_999


def message(body, path='/ch/1/tapes'):
    """A request that posts this body."""
    return f'POST {path} HTTP/1.1\r\nContent-Length: {len(body)}\r\n\r\n{body}'.encode()


def tape(number):
    """A request that adds a tape to channel 1."""
    return message(f'{{"barcode":"T{number}","slot":{number}}}')


GET = b'GET /ch/1/tapes HTTP/1.1\r\n\r\n'
MATCH = b'GET /ch/1/days/1/match HTTP/1.1\r\n\r\n'
NOT_FOUND = b'GET /none HTTP/1.1\r\n\r\n'


class Peer:
    """A connection of which answers are read whole."""

    def __init__(self, port):
        self.socket = socket.create_connection(('127.0.0.1', port), timeout=LONG)
        self.socket.setsockopt(socket.IPPROTO_TCP, socket.TCP_NODELAY, 1)
        self.left = b''

    def send(self, data):
        self.socket.sendall(data)

    def answer(self):
        """The status and the body of the next answer."""
        while b'\r\n\r\n' not in self.left:
            self.more()
        head, _line, self.left = self.left.partition(b'\r\n\r\n')
        length = int(re.search(rb'Content-Length: (\d+)', head)[1])
        while len(self.left) < length:
            self.more()
        body, self.left = self.left[:length], self.left[length:]
        return int(head.split()[1]), body

    def more(self):
        data = self.socket.recv(1 << 16)
        if not data:
            raise EOFError('the connection has ended')
        self.left += data

    def asks(self, data):
        self.send(data)
        return self.answer()

    def is_closed(self, within=LONG):
        """Whether the office has ended the connection, and said nothing more."""
        self.socket.settimeout(within)
        try:
            return self.socket.recv(1) == b''
        except ConnectionResetError:
            return True
        except TimeoutError:
            return False

    def reset(self):
        """Breaks it off."""
        self.socket.setsockopt(socket.SOL_SOCKET, socket.SO_LINGER, struct.pack('ii', 1, 0))
        self.socket.close()

    def close(self):
        self.socket.close()


class Office:
    """A program that serves, with what it said on standard error."""

    def __init__(self, program, folder, words, files=None, tapes=0):
        self.faults = folder / 'faults'
        database = folder / 'office.db'
        sent = b''.join(tape(n) for n in range(1, tapes + 1))
        subprocess.run([program, 'answer', '--db', database, PLAN], input=sent, stdout=subprocess.DEVNULL, check=True)

        def limits():
            if files:
                import resource
                resource.setrlimit(resource.RLIMIT_NOFILE, (files, files))

        with self.faults.open('w') as faults:
            self.process = subprocess.Popen([program, 'serve', '--db', database, '--port', '0', *words], stdout=subprocess.PIPE,
                                            stderr=faults, preexec_fn=limits)
        line = self.process.stdout.readline().decode()
        self.port = int(re.fullmatch(r'serving 127\.0\.0\.1:(\d+)\n', line)[1])
        self.peers = []

    def peer(self):
        self.peers.append(Peer(self.port))
        return self.peers[-1]

    def said(self):
        return self.faults.read_text()

    def memory(self):
        """Bytes that it holds in memory."""
        status = pathlib.Path(f'/proc/{self.process.pid}/status').read_text()
        return int(re.search(r'VmRSS:\s+(\d+) kB', status)[1]) * 1024

    def ends(self):
        """Its exit status, once it has ended by itself."""
        return self.process.wait(timeout=LONG)

    def stop(self):
        for peer in self.peers:
            peer.close()
        if self.process.poll() is None:
            self.process.send_signal(signal.SIGKILL)
            self.process.wait()
        self.process.stdout.close()


def equal(found, wanted, what):
    if found != wanted:
        raise AssertionError(f'{what}: {found!r}, not {wanted!r}')


def is_quick(times, what):
    """Half of them took at most 50 ms."""
    middle = sorted(times)[len(times) // 2]
    if middle > 0.05:
        raise AssertionError(f'{what} took {middle * 1000:.0f} ms')


def timed(peer, data):
    begun = time.monotonic()
    status, _body = peer.asks(data)
    return status, time.monotonic() - begun


def answered(peer, data, times, what):
    """So many requests of a peer are answered, and at once."""
    took = []
    for _ in range(times):
        status, seconds = timed(peer, data)
        equal(status, 200, what)
        took.append(seconds)
    is_quick(took, what)


def silent_peers(begin):
    """Behind 100 that say nothing a request is answered at once."""
    office = begin('--peers', '256')
    silent = [office.peer() for _ in range(100)]
    answered(office.peer(), GET, 20, 'a request behind silent peers')
    equal(silent[0].asks(tape(1))[0], 200, 'a silent peer that speaks at last')


def half_heads(begin):
    """One whose head comes in two parts holds nobody up, and is answered once it is whole."""
    office = begin('--peers', '8')
    slow, other = office.peer(), office.peer()
    slow.send(tape(1)[:30])
    answered(other, GET, 10, 'a request behind half a head')
    equal(slow.asks(tape(1)[30:]), (200, b'{"tape":1}'), 'the message that came in halves')
    for at in range(1, len(tape(2))):
        part = office.peer()
        part.send(tape(2)[:at])
        part.close()
    equal(other.asks(tape(2)), (200, b'{"tape":2}'), 'the message of which others sent a part')


def byte_by_byte(begin):
    """So one whose bytes come one by one."""
    office = begin('--peers', '8', '--idle', '2')
    slow, other = office.peer(), office.peer()
    text = tape(1)
    for at in range(len(text)):
        slow.send(text[at:at + 1])
        time.sleep(0.05)
        if at % 10 == 0:
            equal(other.asks(GET)[0], 200, 'a request behind a byte')
    equal(slow.answer(), (200, b'{"tape":1}'), 'the message that came byte by byte')


def label(position):
    """The label at this frame of a day of 25 frames a second that begins at 06:00:00:00."""
    second, frame = divmod((position + 6 * 90_000) % 2_160_000, 25)
    return f'{second // 3_600:02}:{second // 60 % 60:02}:{second % 60:02}:{frame:02}'


def full_day(peer):
    """Has channel 1 seal a day of 9,999 black items, each of 216 frames but the last one, of which each second one aired."""
    begins = range(0, 216 * MANY, 216)
    ends = [*begins[1:], 2_160_000]
    events = ''.join(f'{number:03} BL V C 00:00:00:00 {label(end - begin - 6 * 90_000)} {label(begin)} {label(end)}\n'
                     for number, (begin, end) in enumerate(zip(begins, ends), 1))
    aired = ''.join(f'{label(begin)},{end - begin},BL,00:00:00:00\n' for begin, end in list(zip(begins, ends))[::2])
    equal(peer.asks(message('{"day":1}', '/ch/1/days'))[0], 200, 'a day')
    wanted = f'{{"items":{MANY},"skipped":0}}'.encode()
    equal(peer.asks(message(events, '/ch/1/days/1/import/strict')), (200, wanted), 'its items')
    equal(peer.asks(message('', '/ch/1/days/1/seal'))[0], 200, 'its seal')
    equal(peer.asks(message(aired, '/ch/1/days/1/asrun/1')), (200, b'{"batch":1,"frames":1080216}'), 'what aired')


def hold_nobody_up(office, other, asked, length):
    """Twenty that never read what they asked for cost one answer each, and hold nobody up."""
    before = office.memory()
    for _ in range(20):
        office.peer().send(asked * 1_000)
    # What the system keeps for them fills up first.
    begun, quick = time.monotonic(), 0
    while quick < 20:
        quick = quick + 1 if timed(other, tape(MANY))[1] < 0.05 else 0
        if time.monotonic() - begun > LONG:
            raise AssertionError('a request waits for peers that never read')
    grown = office.memory() - before
    if grown > 20 * (2 * length + 300_000):
        raise AssertionError(f'{grown} bytes for 20 answers of {length}')


def never_reads(begin):
    """Of a table of 9,999 rows."""
    office = begin('--peers', '64', tapes=MANY)
    other = office.peer()
    status, table = other.asks(GET)
    equal((status, table.count(b'\n')), (200, MANY + 1), 'the table')
    hold_nobody_up(office, other, GET, len(table))


def never_reads_a_match(begin):
    """And of a match of a day of 9,999 items."""
    office = begin('--peers', '64')
    other = office.peer()
    full_day(other)
    status, match = other.asks(MATCH)
    last = b'OK 1080216 SLIP 0 WRONG 0 MISSED 1079784'
    equal((status, match.count(b'\n'), match.splitlines()[-1]), (200, MANY + 1, last), 'the match')
    hold_nobody_up(office, other, MATCH, len(match))


def resets(begin):
    """One that breaks off behind each byte of a message did nothing, or all of it."""
    office = begin('--peers', '8')
    text = tape(1)
    for at in range(len(text)):
        peer = office.peer()
        peer.send(text[:at])
        peer.reset()
    for number in range(2, 40):
        peer = office.peer()
        peer.send(tape(number))
        peer.reset()
    other = office.peer()
    status, table = other.asks(GET)
    equal(status, 200, 'the table')
    if b' T1 ' in table:
        raise AssertionError('a part of a message was done')
    for number in range(2, 40):
        is_there = f' T{number} '.encode() in table
        equal(other.asks(tape(number))[0], 409 if is_there else 200, f'tape {number}')
    equal(set(office.said().split('\n')) <= {'read fault', 'write fault', ''}, True, 'what is said')


def come_and_go(begin):
    """10,000 connections that come and go, and others beside them."""
    office = begin('--peers', '64')
    stays = office.peer()
    for number in range(10_000):
        peer = Peer(office.port)
        equal(peer.asks(NOT_FOUND)[0], 404, f'connection {number}')
        peer.close()
        if number % 1_000 == 0:
            equal(stays.asks(GET)[0], 200, 'the one that stays')
    equal(office.said(), '', 'what is said')
    if office.memory() > 64 << 20:
        raise AssertionError(f'{office.memory()} bytes afterwards')


def few_files(begin):
    """Where no descriptor is left that is said, and the office goes on once one is free."""
    office = begin('--peers', '256', files=64)
    peers = [office.peer() for _ in range(100)]
    equal(peers[0].asks(GET)[0], 200, 'the first')
    begun = time.monotonic()
    while not office.said() and time.monotonic() - begun < LONG:
        time.sleep(0.05)
    equal(office.said(), 'read fault\n', 'what is said')
    for peer in peers[:80]:
        peer.close()
    equal(peers[99].asks(GET)[0], 200, 'the last, once others have gone')
    equal(set(office.said().split('\n')), {'read fault', ''}, 'what is said')


def pipelines(begin):
    """A pipeline of 1,000 messages is answered in order, and another's message among them."""
    office = begin('--peers', '8')
    long, other = office.peer(), office.peer()
    long.send(b''.join(tape(n) for n in range(1, 1_001)))
    answered(other, GET, 10, 'a request beside a pipeline')
    for number in range(1, 1_001):
        equal(long.answer(), (200, f'{{"tape":{number}}}'.encode()), f'answer {number}')


def ends_its_side(begin):
    """One that sends no more and still reads is given its answers, and then closed."""
    office = begin('--peers', '8', '--turns', '1')
    peer = office.peer()
    peer.send(b''.join(tape(n) for n in range(1, 4)) + tape(4)[:20])
    peer.socket.shutdown(socket.SHUT_WR)
    for number in range(1, 4):
        equal(peer.answer(), (200, f'{{"tape":{number}}}'.encode()), f'answer {number}')
    equal(peer.is_closed(), True, 'it is closed')
    equal((office.ends(), office.said()), (0, ''), 'the status')


def idle_peers(begin):
    """One that says nothing is closed after so many seconds, and one that speaks isn't."""
    office = begin('--peers', '8', '--idle', '1')
    silent, other = office.peer(), office.peer()
    begun = time.monotonic()
    while not silent.is_closed(0.3):
        equal(other.asks(GET)[0], 200, 'the one that speaks')
        if time.monotonic() - begun > LONG:
            raise AssertionError('the silent one stays')
    if time.monotonic() - begun < 0.9:
        raise AssertionError('the silent one went too early')
    equal(other.asks(GET)[0], 200, 'the one that speaks')
    equal(office.said(), 'read fault\n', 'what is said')


def no_place(begin):
    """One for which there is no place waits until one has gone."""
    office = begin('--peers', '2')
    first, second, third = office.peer(), office.peer(), office.peer()
    equal([first.asks(GET)[0], second.asks(GET)[0]], [200, 200], 'those with a place')
    third.send(GET)
    equal(third.is_closed(0.3), False, 'the third waits')
    first.close()
    third.socket.settimeout(LONG)
    equal(third.answer()[0], 200, 'the third')


def so_many_turns(begin):
    """The office ends once so many connections have, and a bad message ends its own alone."""
    office = begin('--peers', '8', '--turns', '3')
    bad, other = office.peer(), office.peer()
    equal(bad.asks(b'GET /\r\n\r\n')[0], 400, 'a bad message')
    equal(bad.is_closed(), True, 'its connection')
    equal(other.asks(GET)[0], 200, 'another')
    other.close()
    equal(office.peer().asks(GET)[0], 200, 'a third')
    office.peers[-1].close()
    equal((office.ends(), office.said()), (0, ''), 'the status')


def words(begin):
    """Peers are 1 to 10,000; with one, the turns have to be said."""
    program = begin.program
    for given, status in ((['--peers', '0'], 2), (['--peers', '10001'], 2), ([], 2), (['--peers', '1'], 2), (['--peers', 'x'], 2),
                          (['--peers', '2', '--turns', '0'], 2), (['--peers', '2'], 1)):
        ran = subprocess.run([program, 'serve', '--db', 'none.db', '--port', '0', *given], capture_output=True, timeout=LONG)
        equal(ran.returncode, status, f'the status of {given}')


CHECKS = (words, silent_peers, half_heads, byte_by_byte, never_reads, never_reads_a_match, resets, come_and_go, few_files,
          pipelines, ends_its_side, idle_peers, no_place, so_many_turns)


@contextlib.contextmanager
def beginning(program):
    """What begins an office in a folder of its own, and ends it."""
    offices = []
    with tempfile.TemporaryDirectory() as folder:
        def begin(*words, **given):
            offices.append(Office(program, pathlib.Path(folder), words, **given))
            return offices[-1]

        begin.program = program
        here = os.getcwd()
        os.chdir(folder)
        try:
            yield begin
        finally:
            os.chdir(here)
            for office in offices:
                office.stop()


def main(program, names):
    passed = failed = 0
    for check in CHECKS:
        if names and check.__name__ not in names:
            continue
        try:
            with beginning(os.path.abspath(program)) as begin:
                check(begin)
            passed += 1
        except (AssertionError, OSError, EOFError, TypeError, subprocess.SubprocessError) as error:
            failed += 1
            print(f'peers: failed: {check.__name__}: {error!r}', flush=True)
    print(f'peers: {passed} passed, {failed} failed')
    return 1 if failed else 0


if __name__ == '__main__':
    sys.exit(main(sys.argv[1], sys.argv[2:]))
