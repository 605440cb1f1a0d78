#!/usr/bin/env python3
"""Checks the programs over examples/c/control_connection.h: the server on epoll and the filter, and a session of the server of files.

usage: tools/checks/control_connections.py lines EPOLL..       lines in pieces and at once: logins, lines that are refused, and one that is too long
       tools/checks/control_connections.py unread EPOLL..      a client that sends lines and doesn't read
       tools/checks/control_connections.py many EPOLL..        many clients at once
       tools/checks/control_connections.py ends EPOLL..        clients that close, quit, or are gone
       tools/checks/control_connections.py descriptors EPOLL..  no descriptor is left for a client, or for a program that is started
       tools/checks/control_connections.py unlogged EPOLL FILTER  nobody reads the log
       tools/checks/control_connections.py turns FILTER..      a DELE between other lines, and ends of a session
       tools/checks/control_connections.py real PYTHON FILTER..  real clients before pyftpdlib's server, which this Python has
       tools/checks/control_connections.py stopped FILES..     a process that is stopped in a transfer, and goes on

EPOLL.., FILTER.. and FILES.. are the program and what runs it. The last line says what was compared; the status is 0 where all is right.
"""

import contextlib
import ftplib
import os
import pathlib
import random
import shutil
import signal
import socket
import subprocess
import sys
import tempfile
import time

from downloads import LARGE, PASSWORD, RealServer
from relays import BYE, MANY, NOT_ALLOWED, OKAY, SILENCE, TAKES, Ends, fill, memory, reset, sessions_of, take_by_ftplib, wants_same, wants_silence
from started_server import GREETING, HOST, PATIENCE, StartedServer, Wrong, open_descriptors, processor_time, receive, run_check, send_pieces
from started_server import wait_until, wants, without_descriptors

CLIENTS = 200
LINES = 10_000
LINE_LIMIT = 4096
# lines of a session, with the codes of their replies (RFC 959, section 5.4)
SESSION = [
    (b"PWD\r\n", b"530"),
    (b"PASS secret\r\n", b"503"),
    (b"NOOP\r\n", b"200"),
    (b"USER anna\r\n", b"331"),
    (b"PASS secreT\r\n", b"530"),
    (b"PASS secret\r\n", b"503"),
    (b"USER other\r\n", b"331"),
    (b"PASS secret\r\n", b"530"),
    (b"user anna\n", b"331"),
    (b"NOOP\r\n", b"200"),
    (b"pass secret\r\n", b"230"),
    (b"PWD\r\n", b"257"),
    (b"TYPE I\r\n", b"200"),
    (b"SYST\r\n", b"215"),
    (b"FEAT\r\n", b"211"),
    (b"DELE a\r\n", b"502"),
    (b"XCRC a\r\n", b"502"),
    (b"RETR\r\n", b"501"),
    (b"\xff\r\n", b"500"),
    (b"RETR a\rb\r\n", b"500"),
    (b"RETR " + b"a" * (LINE_LIMIT - 7) + b"\r\n", b"502"),
    (b"RETR " + b"a" * (LINE_LIMIT - 6) + b"\r\n", b"500"),
    (b"a" * 300_000 + b"\r\n", b"500"),
    (b"NOOP\r\n", b"200"),
    (b"QUIT\r\n", b"221"),
]
LOGIN = SESSION[8:11]
# a line whose reply is longer
LONG_REPLY = b"FEAT\r\n"


class Program(StartedServer):
    """A program while it runs, and what it has written to standard error."""

    def __init__(self, *words):
        self.errors = tempfile.TemporaryFile()
        super().__init__(["sh", "-c", 'echo $$; exec "$@"', "sh", *map(str, words)], self.errors)

    def __enter__(self):
        self.pid = int(self.process.stdout.readline())
        return super().__enter__()

    def __exit__(self, *raised):
        self.process.terminate()
        self.process.wait(PATIENCE)
        super().__exit__(*raised)
        self.errors.seek(0)
        wants("whether the password is in the log", PASSWORD.encode() in self.errors.read(), False)
        self.errors.close()


def codes_of(received):
    """The codes of the replies, without the lines before the last one of each."""
    lines = received.splitlines()
    return [line[:3] for line in lines if line[:3].isdigit() and line[3:4] == b" "]


def wants_codes(what, connection, expected):
    """As many replies as these have these codes, in order."""
    codes, pending = [], b""
    while len(codes) < len(expected):
        piece = connection.recv(65536)
        if not piece:
            break
        whole, end, pending = (pending + piece).rpartition(b"\r\n")
        codes += codes_of(whole + end)
    if codes != expected:
        raise Wrong(f"{what}: the codes are {codes[:50]}, and not {expected[:50]}")


def wants_session(connection, lines):
    """The lines get their replies, in order."""
    wants_codes("a session", connection, [code for _, code in lines])


def check_lines(*program):
    """In pieces, byte by byte and at once."""
    sent = b"".join(line for line, _ in SESSION)
    with Program(*program, 0) as server:
        for size in [None, 61, 65536, len(sent)]:
            with server.greeted() as connection:
                send_pieces(connection, sent, size)
                wants_session(connection, SESSION)
                wants("the end", receive(connection), b"")
        with ftplib.FTP(timeout=PATIENCE) as client:
            client.connect(HOST, server.port)
            codes = [client.login("anna", PASSWORD)[:3], client.quit()[:3]]
            wants("the codes of ftplib", codes, ["230", "221"])
        codes = log_in_by_curl(server.port) if shutil.which("curl") else [0, 67]
        wants("the statuses of curl", codes, [0, 67])
    return f"{len(SESSION)} lines in each of 4 sessions, and the logins of real clients"


def log_in_by_curl(port):
    """The statuses of curl with the right password and with a wrong one, for which it has 67."""
    words = ["curl", "-q", "-sS", "--head", f"ftp://{HOST}:{port}/", "-u"]
    return [subprocess.run([*words, f"anna:{word}"], capture_output=True, timeout=PATIENCE).returncode for word in [PASSWORD, "wrong"]]


def check_unread(*program):
    """Its lines wait in bounded areas, and others are served. Then it reads, and gets all of its replies."""
    chance = random.Random(1)
    lines = LOGIN + chance.choices([(b"NOOP\r\n", b"200"), (b"PWD\r\n", b"257"), (b"FEAT\r\n", b"211"), (b"DELE a\r\n", b"502")], k=LINES)
    with Program(*program, 0) as server:
        with server.greeted() as connection, server.greeted() as beside:
            connection.sendall(b"".join(line for line, _ in lines))
            wants_silence("another client", beside)
            beside.sendall(b"NOOP\r\n")
            wants_session(beside, [(b"NOOP\r\n", b"200")])
            wants_session(connection, lines)
        with server.greeted() as connection:
            before = memory(server.pid)
            count, rest = divmod(fill(connection, LONG_REPLY * MANY), len(LONG_REPLY))
            if count == MANY:
                raise Wrong("a client sends on, and doesn't read")
            if memory(server.pid) - before > 1_000_000:
                raise Wrong(f"the client takes {memory(server.pid) - before} bytes more")
            wants_codes("the replies", connection, [b"211"] * count)
            connection.sendall(LONG_REPLY[rest:])
            wants_codes("the last reply", connection, [b"211"])
    return f"{len(lines)} lines, and {count} of a client that sends as much as is taken"


def check_many(*program):
    """All are served at once, and nothing is left of them."""
    with Program(*program, 0) as server:
        before = open_descriptors(server.pid)
        with contextlib.ExitStack() as stack:
            connections = [stack.enter_context(server.connect()) for _ in range(CLIENTS)]
            for connection in connections:
                wants("the greeting", receive(connection, len(GREETING)), GREETING)
            for line in SESSION:
                for connection in connections:
                    connection.sendall(line[0])
                for connection in connections:
                    wants_session(connection, [line])
        wait_until("the end of all clients", lambda: open_descriptors(server.pid) == before)
    return f"{CLIENTS} clients, each with {len(SESSION)} lines"


def half_closed(connection):
    """All of its lines are answered."""
    connection.sendall(b"NOOP\r\n" * LINES + b"NO")
    connection.shutdown(socket.SHUT_WR)
    wants_same("the replies", codes_of(receive(connection)), [b"200"] * LINES)


def quits(connection):
    """The reply to QUIT is the last, whatever comes after it, and is not lost."""
    connection.sendall(b"QUIT\r\n" + b"NOOP\r\n" * LINES)
    wants("the codes", codes_of(receive(connection)), [b"221"])


def stays(connection):
    """The server's side is at its end, and the client's is dropped up to a bound."""
    quits(connection)
    with contextlib.suppress(ConnectionError):
        for _ in range(1000):
            connection.sendall(b"x" * 65536)
        raise Wrong("a client sends on for ever after QUIT")


def silent(connection):
    """It closes at once."""
    connection.shutdown(socket.SHUT_WR)
    wants("the end", receive(connection), b"")


def is_gone(connection):
    """Its replies can't be sent."""
    connection.sendall(b"NOOP\r\n" * LINES)
    reset(connection)


def aborts(connection):
    """The line feed of an ABOR is urgent, and is read in its place (RFC 959, section 4.1.3)."""
    connection.sendall(b"ABOR\r")
    connection.send(b"\n", socket.MSG_OOB)
    wants_session(connection, [(b"ABOR\r\n", b"530")])


SESSION_ENDS = [half_closed, quits, stays, silent, is_gone, aborts]


def check_ends(*program):
    """However a session ends, nothing is left of it."""
    with Program(*program, 0) as server:
        before = open_descriptors(server.pid)
        for end in SESSION_ENDS:
            with server.greeted() as connection:
                end(connection)
        wait_until("the end of all sessions", lambda: open_descriptors(server.pid) == before)
    return f"{len(SESSION_ENDS)} sessions that end"


def inherited(pid):
    """The sockets that a program would have which a process starts."""
    numbers = [path.name for path in pathlib.Path(f"/proc/{pid}/fd").iterdir() if os.readlink(path).startswith("socket:")]
    flags = {number: pathlib.Path(f"/proc/{pid}/fdinfo/{number}").read_text(encoding="ascii").split("flags:")[1].split()[0] for number in numbers}
    return [number for number in numbers if not int(flags[number], 8) & os.O_CLOEXEC]


def check_descriptors(*program):
    """A client waits in the queue, the server without haste, and other clients are served. Then it is served too."""
    with Program(*program, 0) as server, server.greeted() as beside:
        wants("the sockets that stay open at exec", inherited(server.pid), [])
        with without_descriptors(server.pid), server.connect() as waiting:
            taken = processor_time(server.pid)
            for _ in range(3):
                wants_silence("a client for which no descriptor is left", waiting)
                beside.sendall(b"NOOP\r\n")
                wants_session(beside, [(b"NOOP\r\n", b"200")])
            taken = processor_time(server.pid) - taken
        with server.greeted() as connection:
            connection.sendall(b"NOOP\r\n")
            wants_session(connection, [(b"NOOP\r\n", b"200")])
    if taken > 0.25:
        raise Wrong(f"a second without descriptors took {taken} seconds of a processor")
    return f"a client waits, with {taken} seconds of a processor"


@contextlib.contextmanager
def unlogged(*words):
    """A program whose log nobody reads any more."""
    reader, writer = os.pipe()
    os.close(reader)
    with os.fdopen(writer, "wb"), StartedServer([*map(str, words)], writer) as server:
        yield server


def check_unlogged(epoll, proxy):
    """Its clients are served."""
    with unlogged(epoll, 0) as server, server.greeted() as connection:
        for _ in range(2):
            connection.sendall(b"NOOP\r\n")
            wants_session(connection, [(b"NOOP\r\n", b"200")])
    with socket.create_server((HOST, 0)) as listener:
        listener.settimeout(PATIENCE)
        with unlogged(proxy, 0, listener.getsockname()[1]) as server, Ends(server, listener) as ends:
            ends.greet()
            ends.passes()
            ends.passes()
    return "2 lines to each program"


@contextlib.contextmanager
def filtered(program):
    """The filter before a server of this script's."""
    with socket.create_server((HOST, 0)) as listener:
        listener.settimeout(PATIENCE)
        with Program(*program, 0, listener.getsockname()[1]) as server:
            yield lambda: Ends(server, listener)


def check_turns(*program):
    """A DELE waits for the replies before it, and the lines after it wait too."""
    with filtered(program) as connect:
        with connect() as ends:
            ends.client.sendall(b"USER anna\r\nPASS secret\r\nNOOP\r\nDELE a\r\nNOOP\r\n")
            ends.server_gets(b"USER anna\r\nPASS secret\r\nNOOP\r\n")
            ends.greet()
            ends.server.sendall(b"331 Password\r\n230 In\r\n")
            ends.client_gets(b"331 Password\r\n230 In\r\n")
            wants_silence("the client", ends.client)
            wants_silence("the server", ends.server)
            ends.server.sendall(OKAY)
            ends.client_gets(OKAY + NOT_ALLOWED)
            ends.server_gets(b"NOOP\r\n")
            ends.server.sendall(OKAY)
            ends.client_gets(OKAY)
            for line in [b"RNFR a\r\n", b"SITE CHMOD 0 a\r\n", b"AUTH TLS\r\n", b"PORT 127,0,0,1,4,1\r\n"]:
                ends.client.sendall(line)
                ends.client_gets(NOT_ALLOWED)
            ends.passes(b"STOR a\r\n")
            ends.client.sendall(b"TYPE A\rDELE a\r\n")
            ends.client_gets(b"501 CR, NUL or 255 in a parameter\r\n")
            ends.client.sendall(b"QUIT\r\nNOOP\r\n")
            ends.server_gets(b"QUIT\r\n")
            wants_silence("the server", ends.server)
            ends.server.sendall(BYE)
            ends.server.close()
            ends.client_ends_with(BYE)
        with connect() as ends:
            ends.greet()
            ends.client.close()
            ends.server_ends_with(b"")
        with connect() as ends:
            ends.greet()
            ends.server.close()
            ends.client_ends_with(b"421 the server has closed the connection\r\n")
    return "a session with lines that are refused in their turn, and 2 that end"


def check_real(python, *program):
    """Real clients list a folder, and get a file; none may delete one."""
    files = {"a large file": random.Random(1).randbytes(LARGE), "empty": b""}
    takes = [take_by_ftplib, *(take for name, take in TAKES.items() if shutil.which(name))]
    with tempfile.TemporaryDirectory() as served:
        for name, content in files.items():
            pathlib.Path(served, name).write_bytes(content)
        with RealServer(python, served) as server, Program(*program, 0, server.port) as program:
            for take in takes:
                with tempfile.TemporaryDirectory() as folder:
                    listed = take(program.port, folder)
                    wants(f"{take.__name__}: what the list has", [name for name in files if name in listed], [*files])
                    wants_same(take.__name__, pathlib.Path(folder, "output").read_bytes(), files["a large file"])
        wants("what is served", sorted(path.name for path in pathlib.Path(served).iterdir()), [*files])
    return f"{len(takes)} clients"


def check_stopped(*program):
    """A stop interrupts the calls of sockets that have a limit on waiting (signal(7)). The upload goes on after it."""
    with tempfile.TemporaryDirectory() as folder, Program(*program, folder, f"{HOST}:0") as server, ftplib.FTP(timeout=PATIENCE) as client:
        client.connect(HOST, server.port)
        client.login("anna", PASSWORD)
        with client.transfercmd("STOR new") as data:
            data.sendall(b"first,")
            session = sessions_of(server.pid)[-1]
            for number in [signal.SIGSTOP, signal.SIGCONT]:
                time.sleep(SILENCE)
                os.kill(session, number)
            time.sleep(SILENCE)
            data.sendall(b"second")
        wants("the code of the upload", client.voidresp()[:3], "226")
        wants("the file", pathlib.Path(folder, "new").read_bytes(), b"first,second")
    return "an upload over a stop"


CHECKS = {
    "lines": check_lines,
    "unread": check_unread,
    "many": check_many,
    "ends": check_ends,
    "descriptors": check_descriptors,
    "unlogged": check_unlogged,
    "turns": check_turns,
    "real": check_real,
    "stopped": check_stopped,
}


if __name__ == "__main__":
    sys.exit(run_check(CHECKS, __doc__))
