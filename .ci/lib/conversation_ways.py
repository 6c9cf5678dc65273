"""The ways in which messages go to the program: over memory, over a file, by a process for each, over a port."""

import os
import re
import socket
import subprocess
import threading

from conversation_items import BEHIND, NOT_FOUND, Message, Wrong, answer_of, shown
from conversation_reader import BY_ITSELF, streams_of

# How long the program may take for one stream or command.
SECONDS = 120
# And to refuse a file: a server that doesn't waits for its peer.
REFUSAL_SECONDS = 20


def with_one_behind(stream):
    """The stream and one message behind its last, which is not answered where that one's answer ends the stream."""
    if not stream or stream[-1].ends == "cut short":
        return stream
    behind = Message(stream[-1].line, BEHIND)
    if not stream[-1].ends:
        behind.wanted = answer_of(404, "application/json", NOT_FOUND)
    return [*stream, behind]


def compare(stream, output):
    """What a stream is answered is this."""
    at = 0
    for message in stream:
        end = at + len(message.wanted)
        if output[at:end] != message.wanted:
            got = output[at : max(end, at + 300)]
            raise Wrong(message.line, f"wanted {shown(message.wanted)}\n    got {shown(got)}")
        at = end
    if at != len(output):
        raise Wrong(stream[-1].line if stream else 1, f"wanted nothing more\n    got {shown(output[at:])}")


def run(program, words, sent, line, folder=None, seconds=SECONDS):
    try:
        return subprocess.run([program, *words], input=sent, capture_output=True, timeout=seconds, cwd=folder, check=False)
    except subprocess.TimeoutExpired as late:
        raise Wrong(line, f"no end in {seconds} seconds") from late


def ends(done, line, wanted):
    """A process has ended with this exit status, standard output and standard error."""
    got = (done.returncode, done.stdout, done.stderr)
    if got != wanted:
        wanted, got = (f"exit status {s}, output {shown(o)}, faults {shown(f)}" for s, o, f in (wanted, got))
        raise Wrong(line, f"wanted {wanted}\n    got {got}")


def answers(program, words, stream):
    """A stream on standard input is answered so, with exit status 0 and no fault."""
    line = stream[0].line if stream else 1
    stream = with_one_behind(stream)
    done = run(program, ["answer", *words], b"".join(it.sent for it in stream), line)
    compare(stream, done.stdout)
    if (done.returncode, done.stderr) != (0, b""):
        raise Wrong(line, f"exit status {done.returncode}, faults {shown(done.stderr)}")


# One process for all messages that leave the stream open; and for each other one, a process that is sent those first.
def over_memory(program, _, plan, messages):
    before = []
    for stream in streams_of(messages):
        answers(program, plan, before + stream)
        before += [it for it in stream if not it.ends]


# One process for each stream.
def over_a_file(program, file, plan, messages):
    words = plan
    for stream in streams_of(messages):
        answers(program, ["--db", file, *words], stream)
        words = []


def state(file):
    """The bytes of a database that is closed, and the length of its log, of which only a head is left."""
    with open(file, "rb") as database:
        return database.read(), os.path.getsize(f"{file}-wal")


# One process that makes the tables, and then one for each message. What is read or refused leaves the file as it was.
def message_by_message(program, file, plan, messages):
    answers(program, ["--db", file, *plan], [])
    before = state(file)
    for message in messages:
        answers(program, ["--db", file], [message])
        after = state(file)
        if message.changes_nothing() and after != before:
            raise Wrong(message.line, "the file has other bytes, and this changes nothing")
        before = after


def heard(peer, count):
    """So many bytes of a peer, or those that come before it closes. It may close before it read all that was sent."""
    got = b""
    while len(got) < count:
        try:
            piece = peer.recv(min(1 << 16, count - len(got)))
        except ConnectionResetError:
            piece = b""
        if not piece:
            break
        got += piece
    return got


def converses(port, stream):
    """A connection, on which each message waits for the answer to the one before it."""
    with socket.create_connection(("127.0.0.1", port), timeout=SECONDS) as peer:
        for message in with_one_behind(stream):
            try:
                peer.sendall(message.sent)
            except ConnectionError:
                pass  # Some of it wasn't read.
            compare([message], heard(peer, len(message.wanted)))
        try:
            peer.shutdown(socket.SHUT_WR)
        except OSError:
            pass  # The program closed the connection before.
        rest = heard(peer, 1)
        if rest:
            raise Wrong(stream[-1].line if stream else 1, f"wanted nothing more\n    got {shown(rest)}")


def serves(program, file, streams):
    """A server answers so, one connection for each stream, and ends."""
    words = ["serve", "--db", file, "--port", "0", "--turns", str(len(streams))]
    with subprocess.Popen([program, *words], stdout=subprocess.PIPE, stderr=subprocess.PIPE) as server:
        late = threading.Timer(SECONDS, server.kill)
        late.start()
        try:
            found = re.fullmatch(rb"serving 127\.0\.0\.1:(\d+)\n", server.stdout.readline())
            if not found:
                raise Wrong(1, f"the server doesn't say where: {shown(server.stderr.read())}")
            for stream in streams:
                converses(int(found[1]), stream)
            output, faults = server.communicate()
        finally:
            late.cancel()
            server.kill()
    if (server.returncode, output, faults) != (0, b"", b""):
        raise Wrong(1, f"exit status {server.returncode}, output {shown(output)}, faults {shown(faults)}")


def over_a_port(program, file, plan, messages):
    answers(program, ["--db", file, *plan], [])
    serves(program, file, streams_of(messages))


def over_connections(program, file, plan, messages):
    answers(program, ["--db", file, *plan], [])
    serves(program, file, [[it] for it in messages] or [[]])


# How messages go to the program, and the words with which it opens a file in this way.
WAYS = {
    "memory": over_memory,
    "file": over_a_file,
    "messages": message_by_message,
    "port": over_a_port,
    "connections": over_connections,
    BY_ITSELF: over_a_file,
}


def opening(way, file):
    if way in ("port", "connections"):
        return ["serve", "--db", file, "--port", "0", "--turns", "1"]
    return ["answer", "--db", file]
