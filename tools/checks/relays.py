#!/usr/bin/env python3
"""Checks what the relay of examples/c lets through, and in which order.

usage: tools/checks/relays.py order RELAY..       lines and replies in pieces; lines that are sent and refused, whose replies have to be in order
       tools/checks/relays.py pipelines RELAY..   the same with many lines at once
       tools/checks/relays.py refusals RELAY..    lines that the server must not get, or not as they came
       tools/checks/relays.py replies RELAY..     replies that end the session
       tools/checks/relays.py log RELAY..         what it writes of them, without a password
       tools/checks/relays.py ends RELAY..        clients and servers that close, or are gone
       tools/checks/relays.py memory PRELOAD RELAY..  sessions without memory: PRELOAD is tools/checks/c/fail_allocation.c
       tools/checks/relays.py many RELAY..        more clients than it serves at a time
       tools/checks/relays.py servers RELAY..     no server, and wrong arguments
       tools/checks/relays.py pressure RELAY..    clients and servers that don't read
       tools/checks/relays.py idle RELAY..        clients that send nothing, and a server that takes its time
       tools/checks/relays.py real PYTHON RELAY..  real clients before pyftpdlib's server, which this Python has

RELAY.. is the program and what runs it. The last line says what was compared; the status is 0 where all is right.
"""

import contextlib
import ftplib
import os
import pathlib
import random
import re
import shutil
import signal
import socket
import struct
import subprocess
import sys
import tempfile
import threading
import time

from downloads import LARGE, PASSWORD, RealServer, USER
from started_server import GREETING, HOST, PATIENCE, StartedServer, Wrong, processor_time, receive, run_check, send_pieces, wait_until, wants

LINE_LIMIT, REPLY_LIMIT, SESSIONS_MOST = 2048, 65536, 100
OKAY, BYE = b"200 OK\r\n", b"221 Bye\r\n"
NOT_ALLOWED, TIMEOUT = b"502 not allowed here\r\n", b"421 timeout\r\n"
OUT_OF_MEMORY = b"421 out of memory\r\n"
CLOSED = b"421 the server has closed the connection\r\n"
# how long something is waited for that must not come
SILENCE = 0.3
# how many lines are more than the system keeps of a connection
MANY = 1_000_000
# what it writes of each line, reply and answer, after its name and the number of the process
SAID = re.compile(r"relay \d+: ((?:line|reply|answer) .*)")


def sessions_of(pid):
    """The processes of the sessions that have not ended."""
    found = []
    for child in pathlib.Path(f"/proc/{pid}/task/{pid}/children").read_text(encoding="ascii").split():
        with contextlib.suppress(FileNotFoundError):
            if pathlib.Path(f"/proc/{child}/stat").read_text(encoding="ascii").rpartition(")")[2].split()[0] != "Z":
                found.append(int(child))
    return found


class Relay(StartedServer):
    """The relay before a port, while it runs. At the end its sessions have to end by themselves, and it has to have written nothing but
    what passed."""

    def __init__(self, program, port, *options):
        self.errors = tempfile.TemporaryFile()
        words = [*program, *options, "0", HOST, str(port)]
        super().__init__(["sh", "-c", 'echo $$; exec "$@"', "sh", *words], self.errors)

    def __enter__(self):
        self.pid = int(self.process.stdout.readline())
        return super().__enter__()

    def said(self):
        """What it has written, without the numbers of its processes."""
        self.errors.seek(0)
        lines = self.errors.read().decode().splitlines()
        for line in lines:
            if not SAID.fullmatch(line):
                raise Wrong(f"it writes {line!r}")
        return [SAID.fullmatch(line)[1] for line in lines]

    def wait_for_sessions(self):
        wait_until("the end of a session without its client", lambda: not sessions_of(self.pid))

    def __exit__(self, kind, *rest):
        try:
            if kind is None:
                self.wait_for_sessions()
                self.said()
                self.process.send_signal(signal.SIGTERM)
                self.process.wait(PATIENCE)
        finally:
            super().__exit__(kind, *rest)
            self.errors.close()


class Ends:
    """The ends of a client and of a server, with the relay between them."""

    def __init__(self, relay, listener):
        self.relay = relay
        self.client = relay.connect()
        self.server = listener.accept()[0]
        self.server.settimeout(PATIENCE)
        self.server.setsockopt(socket.IPPROTO_TCP, socket.TCP_NODELAY, 1)

    def __enter__(self):
        return self

    def __exit__(self, *_):
        self.client.close()
        self.server.close()

    def greet(self):
        self.server.sendall(GREETING)
        self.client_gets(GREETING)

    def client_gets(self, expected):
        wants("the client gets", receive(self.client, len(expected)), expected)

    def server_gets(self, expected):
        wants("the server gets", receive(self.server, len(expected)), expected)

    def passes(self, line=b"NOOP\r\n", reply=OKAY):
        """A line and its reply come through."""
        self.client.sendall(line)
        self.server_gets(line)
        self.server.sendall(reply)
        self.client_gets(reply)

    def client_ends_with(self, expected):
        wants("the client gets at the end", receive(self.client), expected)

    def server_ends_with(self, expected):
        wants("the server gets at the end", receive(self.server), expected)


def wants_silence(what, connection):
    """Nothing comes for a while."""
    connection.settimeout(SILENCE)
    with contextlib.suppress(TimeoutError):
        raise Wrong(f"{what} gets {connection.recv(65536)!r} too early")
    connection.settimeout(PATIENCE)


def wants_same(what, found, expected):
    """They are the same, and are not shown."""
    if found != expected:
        raise Wrong(f"{what}: {len(found)} bytes are not the {len(expected)} that were sent")


@contextlib.contextmanager
def listening(program, *options):
    """The relay before a server of this script's."""
    with socket.create_server((HOST, 0)) as listener:
        listener.settimeout(PATIENCE)
        with Relay(program, listener.getsockname()[1], *options) as relay:
            yield lambda: Ends(relay, listener), relay


@contextlib.contextmanager
def relayed(program, *options):
    """The ends of a session, after the greeting."""
    with listening(program, *options) as (connect, _), connect() as ends:
        ends.greet()
        yield ends


def check_order(*program):
    """A line that is refused waits for all replies before its own, and the lines after it wait too."""
    with listening(program) as (connect, _):
        with connect() as ends:
            ends.client.sendall(b"DELE a\r\nNOOP\r\n")
            wants_silence("the client", ends.client)
            ends.server.sendall(b"120 Wait\r\n")
            ends.client_gets(b"120 Wait\r\n")
            wants_silence("the client", ends.client)
            ends.server.sendall(GREETING)
            ends.client_gets(GREETING + NOT_ALLOWED)
            ends.server_gets(b"NOOP\r\n")
        with connect() as ends:
            ends.greet()
            ends.client.sendall(b"LIST\r\nPWD\r\nDELE a\r\nSTOR a\r\nNOOP\r\n")
            ends.server_gets(b"LIST\r\nPWD\r\n")
            ends.server.sendall(b"150 Here\r\n226 Done\r\n")
            ends.client_gets(b"150 Here\r\n226 Done\r\n")
            wants_silence("the client", ends.client)
            wants_silence("the server", ends.server)
            ends.server.sendall(b"257-a\r\n200 b\r\n257 c\r\n")
            ends.client_gets(b"257-a\r\n200 b\r\n257 c\r\n" + NOT_ALLOWED * 2)
            ends.server_gets(b"NOOP\r\n")
        with connect() as ends:
            send_pieces(ends.server, GREETING, 1)
            ends.client_gets(GREETING)
            send_pieces(ends.client, b"retr a b\r\nDELE a\r\nxpwd\r\n", 1)
            ends.server_gets(b"RETR a b\r\n")
            send_pieces(ends.server, b"150-\r\n \r\n150 Here\r\n226 Done\r\n", 1)
            ends.client_gets(b"150-\r\n \r\n150 Here\r\n226 Done\r\n" + NOT_ALLOWED)
            ends.server_gets(b"PWD\r\n")
    return "3 sessions, with lines that wait for a greeting, a reply of more lines and a transfer"


LONG = b"RETR " + b"a" * (LINE_LIMIT - 7) + b"\r\n"
UNCLEAR = b"501 CR, NUL or 255 in a parameter\r\n"
REFUSED = [
    (b"AUTH TLS\r\n", NOT_ALLOWED),
    (b"PORT 127,0,0,1,4,1\r\n", NOT_ALLOWED),
    (b"EPRT |1|127.0.0.1|1025|\r\n", NOT_ALLOWED),
    (b"STOR a\r\n", NOT_ALLOWED),
    (b"SITE CHMOD 644 a\r\n", NOT_ALLOWED),
    (b"XMKD a\r\n", NOT_ALLOWED),
    (b"PASS:secret\r\n", NOT_ALLOWED),
    (b"\r\n", NOT_ALLOWED),
    (b"RETR\r\n", b"500 invalid command\r\n"),
    (b"\xff\xf3ABOR\r\n", b"500 not UTF-8\r\n"),
    (b"TYPE A\rSITE x\r\n", UNCLEAR),
    (b"RETR a\rSITE x\r\n", b"500 invalid end of line\r\n"),
    (b"RETR a\r\0b\r\n", UNCLEAR),
    (b"RETR \rb\r\n", UNCLEAR),
    (b"RETR a\0b\r\n", UNCLEAR),
    (b"RETR \xff\xf4a\r\n", UNCLEAR),
    (b"a" + LONG, b"500 line too long\r\n"),
    (b"a" * 300_000 + LONG, b"500 line too long\r\n"),
]
# what the server gets of a line
SENT = [
    (b"noop\n", b"NOOP\r\n"),
    (b"type a\r\n", b"TYPE a\r\n"),
    (b"xcwd a\r\n", b"XCWD a\r\n"),
    (b"list -la x\r\n", b"LIST -la x\r\n"),
    (b"RETR \xe9\r\n", b"RETR \xe9\r\n"),
    (LONG, LONG),
    (LONG[:-2] + b"a\n", LONG[:-2] + b"a\r\n"),
    (b"ABOR\r\n", b"ABOR\r\n"),
    (b"\xff\xf4\xff\xf2ABOR\r\n", b"ABOR\r\n"),
    (b"\xff\xf4\xff\xf2\xff\xf2abor\r\n", b"ABOR\r\n"),
    (b"EPSV\r\n", b"EPSV\r\n"),
]


def check_refusals(*program):
    """The server gets nothing of a refused line, whose reply comes at once where nothing is owed. Urgent data is read in its place."""
    with relayed(program) as ends:
        for line, answer in REFUSED:
            ends.client.sendall(line)
            ends.client_gets(answer)
        wants_silence("the server", ends.server)
        for size in [None, 1]:
            for line, forwarded in SENT:
                send_pieces(ends.client, line, size) if size else ends.client.sendall(line)
                ends.server_gets(forwarded)
                ends.server.sendall(OKAY)
                ends.client_gets(OKAY)
        ends.client.sendall(b"\xff\xf4\xff")
        ends.client.send(b"\xf2", socket.MSG_OOB)
        ends.client.sendall(b"ABOR\r")
        ends.client.send(b"\n", socket.MSG_OOB)
        ends.server_gets(b"ABOR\r\n")
    return f"{len(REFUSED)} lines that are refused, and {len(SENT) + 1} that are sent"


# the server's replies to lines, and the answers to those that it doesn't get
REPLIES = {
    b"NOOP\r\n": OKAY,
    b"PWD\r\n": b'257-Here\r\n250 it is\r\n257 "/"\r\n',
    b"RETR a\r\n": b"150 Here\r\n226 Done\r\n",
    b"STAT\r\n": b"211-" + b"a line\r\n" * 3000 + b"211 End\r\n",
    b"DELE a\r\n": NOT_ALLOWED,
    b"AUTH TLS\r\n": NOT_ALLOWED,
    b"RETR\r\n": b"500 invalid command\r\n",
}
SESSIONS, LINES = 20, 100


def send_at_random(connection, sent, chance):
    """Sends pieces of any size."""
    while sent:
        end = chance.choice([1, 7, 61, 1021, 65536])
        connection.sendall(sent[:end])
        sent = sent[end:]


def serve(server, chance):
    """Replies to each line up to QUIT, in pieces, unless the relay ends the session."""
    with contextlib.suppress(OSError):
        send_at_random(server, GREETING, chance)
        for line in server.makefile("rb"):
            send_at_random(server, REPLIES.get(line, BYE), chance)
            if line == b"QUIT\r\n":
                break
        server.shutdown(socket.SHUT_WR)


def check_pipelines(*program):
    """A client that sends all of its lines at once gets to each its own replies, and the server only what it may get."""
    chance = random.Random(1)
    with listening(program) as (connect, _):
        for _ in range(SESSIONS):
            lines = chance.choices([*REPLIES], k=LINES)
            with connect() as ends:
                server = threading.Thread(target=serve, args=(ends.server, random.Random(chance.random())), daemon=True)
                client = threading.Thread(target=send_at_random, args=(ends.client, b"".join([*lines, b"QUIT\r\n"]), chance), daemon=True)
                server.start()
                client.start()
                wants_same("the replies", receive(ends.client), b"".join([GREETING, *map(REPLIES.get, lines), BYE]))
                client.join(PATIENCE)
                server.join(PATIENCE)
    return f"{SESSIONS} sessions of {LINES} lines"


# what the client gets of what the server sends to one line, and then says no more
LAST_REPLIES = [
    (b"", CLOSED),
    (b"200 O", CLOSED),
    (b"200 OK\r\n421 Idle\r\n", b"200 OK\r\n421 Idle\r\n"),
    (b"421 Stopping\r\n", b"421 Stopping\r\n"),
    (b"200 OK\r\n", b"200 OK\r\n" + CLOSED),
    (b"150 Here\r\n", b"150 Here\r\n" + CLOSED),
]
# what ends a session whose server stays
FAULTS = [
    (b"200 OK\r\n200 Twice\r\n", b"200 OK\r\n421 the server replies to nothing\r\n"),
    (b"200 OK\r\n421 Idle\r\n", b"200 OK\r\n421 Idle\r\n"),
    (b"200 OK\r\n421 Idle\r\n421 Again\r\n", b"200 OK\r\n421 Idle\r\n"),
    (b"Hello\r\n", b"421 the server's reply is malformed\r\n"),
    (b"200-" + b"a" * REPLY_LIMIT, b"421 the server's reply is too long\r\n"),
]


def check_replies(*program):
    """What the server says at its end is not lost, nor doubled. A reply to nothing goes to no client, but for a 421."""
    with listening(program) as (connect, _):
        for said, got in LAST_REPLIES + FAULTS:
            with connect() as ends:
                ends.greet()
                ends.client.sendall(b"NOOP\r\n")
                ends.server_gets(b"NOOP\r\n")
                ends.server.sendall(said)
                if (said, got) in LAST_REPLIES:
                    ends.server.close()
                ends.client_ends_with(got)
        with connect() as ends:
            ends.server.sendall(b"421 Busy\r\n")
            ends.server.close()
            ends.client_ends_with(b"421 Busy\r\n")
        longest = b"200-" + b"a" * (REPLY_LIMIT - 14) + b"\r\n200 OK\r\n"
        wants("the length of the longest reply", len(longest), REPLY_LIMIT)
        with connect() as ends:
            ends.greet()
            ends.passes(reply=longest)
            ends.passes()
    return f"{len(LAST_REPLIES) + len(FAULTS) + 1} ends of a session, and the longest reply"


def check_log(*program):
    """Each line and the code of each reply, and nothing of a password."""
    passed = [b"USER anna\r\n", b"PASS secret\r\n", b"ACCT secret\r\n"]
    refused = [(b"PSAS secret\r\n", NOT_ALLOWED), (b"secret\r\n", NOT_ALLOWED), (b"pass se\rcret\r\n", b"500 invalid end of line\r\n")]
    logged = ["reply 220", "line USER anna", "reply 200", "line PASS ***", "reply 200", "line ACCT ***", "reply 200", "line ***",
              "answer 502 not allowed here", "line ***", "answer 502 not allowed here", "line refused PASS: Invalid end-of-line",
              "answer 500 invalid end of line", r"line RETR a\tb", "reply 150", "reply 226"]
    with listening(program) as (connect, relay):
        with connect() as ends:
            ends.greet()
            for line in passed:
                ends.passes(line)
            for line, answer in refused:
                ends.client.sendall(line)
                ends.client_gets(answer)
            ends.passes(b"RETR a\tb\r\n", b"150 secret\r\n226 secret\r\n")
            wants("the log", relay.said(), logged)
    return f"{len(logged)} lines of the log"


def fill(connection, sent):
    """Sends as much as is taken: how many bytes, once no more are taken for a while."""
    taken, sent = 0, memoryview(sent)
    connection.settimeout(SILENCE)
    with contextlib.suppress(TimeoutError):
        while taken < len(sent):
            taken += connection.send(sent[taken : taken + 65536])
    connection.settimeout(PATIENCE)
    return taken


def reset(connection):
    """Closes the connection by a reset."""
    connection.setsockopt(socket.SOL_SOCKET, socket.SO_LINGER, struct.pack("ii", 1, 0))
    connection.close()


def half_closed(ends):
    """A client that sends no more gets all its replies, also those of a transfer."""
    ends.client.sendall(b"NOOP\r\nDELE a\r\nPWD\r\nNO")
    ends.client.shutdown(socket.SHUT_WR)
    ends.server.sendall(GREETING)
    ends.server_gets(b"NOOP\r\n")
    ends.server.sendall(OKAY)
    ends.server_gets(b"PWD\r\n")
    for reply in [b"150 Here\r\n", b"226 Done\r\n"]:
        time.sleep(SILENCE)
        ends.server.sendall(reply)
    ends.client_ends_with(GREETING + OKAY + NOT_ALLOWED + b"150 Here\r\n226 Done\r\n")
    ends.server_ends_with(b"")


def without_line(ends):
    """A client that sends nothing gets the greeting."""
    ends.client.shutdown(socket.SHUT_WR)
    ends.server.sendall(GREETING)
    ends.client_ends_with(GREETING)


def quits(ends):
    """The reply to QUIT is not lost, whatever is sent after it."""
    ends.greet()
    ends.client.sendall(b"QUIT\r\n" + b"NOOP\r\n" * 1000)
    ends.server_gets(b"QUIT\r\n")
    wants_silence("the server", ends.server)
    ends.server.sendall(BYE)
    ends.server.close()
    ends.client_ends_with(BYE)


def quits_early(ends):
    """A transfer ends after the reply to QUIT, as before some servers."""
    replies = b"150 Here\r\n221 Bye\r\n226 Done\r\n"
    ends.greet()
    ends.client.sendall(b"RETR a\r\nQUIT\r\n")
    ends.server_gets(b"RETR a\r\nQUIT\r\n")
    ends.server.sendall(replies)
    ends.server.close()
    ends.client_ends_with(replies)


def client_is_gone(ends):
    """The server learns of it."""
    ends.greet()
    reset(ends.client)
    ends.server_ends_with(b"")


def client_is_gone_early(ends):
    """The server learns of it, also where it owes a reply."""
    ends.greet()
    ends.client.sendall(b"NOOP\r\n")
    ends.server_gets(b"NOOP\r\n")
    reset(ends.client)
    ends.server_ends_with(b"")


def both_stay(ends):
    """The session ends after the reply to QUIT, where neither end closes."""
    ends.greet()
    ends.client.sendall(b"QUIT\r\n")
    ends.server_gets(b"QUIT\r\n")
    ends.server.sendall(BYE)
    ends.client_ends_with(BYE)
    ends.server_ends_with(b"")


def client_sends_on(ends):
    """A client that goes on after QUIT, byte by byte, has a limited time."""
    ends.greet()
    ends.client.sendall(b"QUIT\r\n")
    ends.server_gets(b"QUIT\r\n")
    ends.server.sendall(BYE)
    ends.server.close()
    with contextlib.suppress(ConnectionError):
        for _ in range(int(PATIENCE / SILENCE)):
            ends.client.sendall(b"x")
            time.sleep(SILENCE)
        raise Wrong("a client sends on after QUIT")


def client_has_closed(ends):
    """Its replies come when it has closed. Until then the session takes no time of a processor."""
    ends.greet()
    ends.client.sendall(b"NOOP\r\n" * 3)
    ends.server_gets(b"NOOP\r\n" * 3)
    ends.client.close()
    session = sessions_of(ends.relay.pid)[-1]
    taken = processor_time(session)
    time.sleep(1)
    taken = processor_time(session) - taken
    if taken > 0.5:
        raise Wrong(f"a session that waits takes {taken} seconds of a processor")
    for _ in range(3):
        time.sleep(SILENCE)
        with contextlib.suppress(ConnectionError):
            ends.server.sendall(OKAY)
    ends.relay.wait_for_sessions()


def server_is_gone(ends):
    """The client is told."""
    ends.greet()
    ends.client.sendall(b"NOOP\r\n")
    ends.server_gets(b"NOOP\r\n")
    reset(ends.server)
    ends.client_ends_with(CLOSED)


def server_is_gone_unread(ends):
    """The client is told, also where lines wait that the server has not read."""
    ends.greet()
    fill(ends.client, b"NOOP\r\n" * MANY)
    reset(ends.server)
    ends.client_gets(CLOSED)


def server_is_done(ends):
    """A 421 is the last reply, and is not lost where the client sends on."""
    ends.greet()
    ends.server.sendall(b"421 Idle\r\n")
    ends.server.close()
    for _ in range(2):
        time.sleep(SILENCE)
        ends.client.sendall(b"NOOP\r\n" * 1000)
    ends.client_ends_with(b"421 Idle\r\n")


SESSION_ENDS = [half_closed, without_line, quits, quits_early, client_is_gone, client_is_gone_early, both_stay, client_sends_on,
                client_has_closed, server_is_gone, server_is_gone_unread, server_is_done]


def check_ends(*program):
    """However a session ends, the next client is served."""
    with listening(program) as (connect, _):
        for end in SESSION_ENDS:
            with connect() as ends:
                end(ends)
        with connect() as ends:
            ends.greet()
            ends.passes()
    return f"{len(SESSION_ENDS)} sessions that end, and another one"


def memory(pid):
    """How many bytes of memory a process has."""
    status = pathlib.Path(f"/proc/{pid}/status").read_text(encoding="ascii")
    return int(re.search(r"VmRSS:\s+(\d+) kB", status)[1]) * 1024


def check_pressure(*program):
    """A client whose server doesn't read has to wait, and a server whose client doesn't. Then all passes in order."""
    line, reply = b"RETR " + b"a" * 57 + b"\r\n", b"200 " + b"a" * 250 + b"\r\n"
    with listening(program) as (connect, relay), connect() as ends:
        ends.greet()
        session, = sessions_of(relay.pid)
        before = memory(session)
        count, rest = divmod(fill(ends.client, line * MANY), len(line))
        if count == MANY:
            raise Wrong("a client sends on, and its server doesn't read")
        ends.client.settimeout(None)
        wants_same("the lines", receive(ends.server, count * len(line)), line * count)
        ends.client.settimeout(PATIENCE)
        answered = fill(ends.server, reply * count) // len(reply)
        if answered == count:
            raise Wrong("a server sends on, and its client doesn't read")
        wants_same("the replies", receive(ends.client, answered * len(reply)), reply * answered)
        more = memory(session) - before
        if more > 1_000_000:
            raise Wrong(f"the session takes {more} bytes more")
        ends.client.sendall(line[rest:])
        ends.server_gets(line)
    return f"{count} lines and {answered} replies"


def check_idle(*program):
    """A client that says nothing is told so, but not one whose transfer takes long."""
    with listening(program, "-i", "2") as (connect, _):
        begun = time.monotonic()
        with connect() as silent, connect() as idle:
            idle.greet()
            silent.client_ends_with(TIMEOUT)
            idle.client_ends_with(TIMEOUT)
        took = time.monotonic() - begun
        if took < 2:
            raise Wrong(f"the limit of two seconds took {took:.3f} seconds")
        with connect() as ends:
            ends.greet()
            ends.client.sendall(b"RETR a\r\n")
            ends.server_gets(b"RETR a\r\n")
            ends.server.sendall(b"150 Here\r\n")
            ends.client_gets(b"150 Here\r\n")
            time.sleep(3)
            ends.server.sendall(b"226 Done\r\n")
            ends.client_gets(b"226 Done\r\n")
            ends.client_ends_with(TIMEOUT)
    return "2 clients that are idle, and one that is not"


def replies_without(preload, program, number):
    """The replies of a session in which this allocation fails, and whether the relay has said so. None where it doesn't begin."""
    lines = [b"noop\r\n", b"dele a\r\n", b"retr a\r\n", b"quit\r\n"]
    wanted = GREETING + OKAY + NOT_ALLOWED + REPLIES[b"RETR a\r\n"] + BYE
    environment = ["env", f"LD_PRELOAD={preload}", f"FAIL_AT={number}"]
    with socket.create_server((HOST, 0)) as listener:
        words = [*environment, *program, "0", HOST, str(listener.getsockname()[1])]
        with tempfile.TemporaryFile() as errors, StartedServer(words, errors) as relay:
            if not relay.port:
                return None
            with Ends(relay, listener) as ends:
                server = threading.Thread(target=serve, args=(ends.server, random.Random(1)), daemon=True)
                server.start()
                ends.client.sendall(b"".join(lines))
                received = receive(ends.client)
                ends.client.close()
                server.join(PATIENCE)
            errors.seek(0)
            said = b"out of memory" in errors.read()
    begins = received.removesuffix(OUT_OF_MEMORY)
    if not wanted.startswith(begins) or (begins == received and received != wanted):
        raise Wrong(f"at failed allocation {number} the client gets {received!r}")
    return said


def check_memory(preload, *program):
    """At a failed allocation a session ends with 421, or its log has less."""
    failed, number, last = 0, 1, 0
    while number < last + 20 or not last:
        if replies_without(preload, program, number) is not False:
            failed, last = failed + 1, number
        number += 1
    return f"{failed} failed allocations"


def check_many(*program):
    """A client too many is served once another one has ended."""
    with socket.create_server((HOST, 0)) as listener, Relay(program, listener.getsockname()[1]) as relay, contextlib.ExitStack() as stack:
        sessions = [stack.enter_context(Ends(relay, listener)) for _ in range(SESSIONS_MOST)]
        for ends in sessions:
            ends.greet()
        with relay.connect() as waiting:
            wants_silence("a client too many", waiting)
            wants("the number of sessions", len(sessions_of(relay.pid)), SESSIONS_MOST)
            sessions[-1].client.close()
            with listener.accept()[0] as server:
                server.sendall(GREETING)
                wants("a client that has waited gets", receive(waiting, len(GREETING)), GREETING)
        sessions[0].passes()
    return f"{SESSIONS_MOST} clients at a time, and another one"


def check_servers(*program):
    """Where there is no server, the client is told. What is no argument is an error in its usage, or has no address."""
    with socket.create_server((HOST, 0)) as listener:
        port = listener.getsockname()[1]
    words = [*program, "0", HOST, str(port)]
    with StartedServer(words, subprocess.PIPE) as relay, relay.connect() as client:
        wants("without a server", receive(client), b"421 no connection to the server\r\n")
    for words, status in [([], 2), (["0", HOST], 2), (["-i", "0", "0", HOST, "21"], 2), (["65536", HOST, "21"], 2), (["0", "", "none"], 1)]:
        run = subprocess.run([*program, *words], capture_output=True, timeout=PATIENCE)
        wants(f"the status of {words}", (run.returncode, run.stdout), (status, b""))
    return "a server that is not there, and 5 wrong lists of arguments"


def run_client(*words, typed=None, folder=None):
    """A real client, which has to end well: its standard output."""
    environment = os.environ | {"HOME": str(folder)}
    run = subprocess.run(words, input=typed, capture_output=True, timeout=PATIENCE, env=environment, cwd=folder)
    if run.returncode:
        raise Wrong(f"{words[0]}: status {run.returncode}: {run.stderr.decode()[-400:]}")
    return run.stdout.decode()


def take_by_curl(port, folder):
    base = ["curl", "-q", "-sS", "-u", f"{USER}:{PASSWORD}"]
    run_client(*base, "-o", "output", f"ftp://{HOST}:{port}/a%20large%20file", folder=folder)
    return run_client(*base, "--list-only", f"ftp://{HOST}:{port}/", folder=folder)


def take_by_lftp(port, folder):
    settings = "set net:max-retries 1; set ftp:ssl-allow no"
    commands = f"{settings}; open -u {USER},{PASSWORD} -p {port} {HOST}; get 'a large file' -o output; cls -1"
    return run_client("lftp", "--norc", "-c", commands, folder=folder)


def take_by_ncftp(port, folder):
    base = ["-u", USER, "-p", PASSWORD]
    run_client("ncftpget", *base, "-P", str(port), HOST, ".", "a large file", folder=folder)
    pathlib.Path(folder, "a large file").rename(pathlib.Path(folder, "output"))
    return run_client("ncftpls", *base, "-l", f"ftp://{HOST}:{port}/", folder=folder)


def take_by_tnftp(port, folder):
    lines = [f"open {HOST} {port}", f"user {USER} {PASSWORD}", 'get "a large file" output', "nlist", "quit", ""]
    return run_client("tnftp", "-n", "-i", typed="\n".join(lines).encode(), folder=folder)


def take_by_ftplib(port, folder):
    with ftplib.FTP(timeout=PATIENCE) as client, open(f"{folder}/output", "wb") as output:
        client.connect(HOST, port)
        client.login(USER, PASSWORD)
        client.retrbinary("RETR a large file", output.write)
        with contextlib.suppress(ftplib.error_perm):
            raise Wrong(f"it may delete: {client.delete('empty')}")
        return "\n".join(client.nlst())


TAKES = {"curl": take_by_curl, "lftp": take_by_lftp, "ncftpget": take_by_ncftp, "tnftp": take_by_tnftp}


def check_real(python, *program):
    """Real clients list a folder, and get a file in passive mode."""
    files = {"a large file": random.Random(1).randbytes(LARGE), "empty": b""}
    takes = [take_by_ftplib, *(take for name, take in TAKES.items() if shutil.which(name))]
    with tempfile.TemporaryDirectory() as served:
        for name, content in files.items():
            pathlib.Path(served, name).write_bytes(content)
        with RealServer(python, served) as server, Relay(program, server.port) as relay:
            for take in takes:
                with tempfile.TemporaryDirectory() as folder:
                    listed = take(relay.port, folder)
                    wants(f"{take.__name__}: what the list has", [name for name in files if name in listed], [*files])
                    wants_same(take.__name__, pathlib.Path(folder, "output").read_bytes(), files["a large file"])
            if any(PASSWORD in line for line in relay.said()):
                raise Wrong("the log has the password")
        wants("what is served", sorted(os.listdir(served)), [*files])
    return f"{len(takes)} clients"


CHECKS = {
    "order": check_order,
    "pipelines": check_pipelines,
    "refusals": check_refusals,
    "replies": check_replies,
    "log": check_log,
    "ends": check_ends,
    "memory": check_memory,
    "many": check_many,
    "servers": check_servers,
    "pressure": check_pressure,
    "idle": check_idle,
    "real": check_real,
}


if __name__ == "__main__":
    sys.exit(run_check(CHECKS, __doc__))
