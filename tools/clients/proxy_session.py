"""One of the programs ftp-proxy and ftp-record between a client and a server that are both a script's."""

import contextlib
import pathlib
import re
import socket
import struct
import subprocess
import sys
import tempfile
import time

sys.path.append(str(pathlib.Path(__file__).resolve().parents[1] / "checks"))
from started_server import HOST, PATIENCE, StartedServer, is_asleep, receive, wait_until, wants

OTHER_HOST = "127.0.0.2"
GREETING = b"220 Ready\r\n"
REFUSED = b"502 Not allowed here\r\n"
# how long nothing may come where nothing is to come
QUIET = 0.1


class Program(StartedServer):
    """One of the programs, which may listen at several ports: the last one is that of the session."""

    def __enter__(self):
        self.ports = [int(port) for port in self.process.stdout.readline().split()]
        self.port = self.ports[-1] if self.ports else 0
        return self


class Session:
    """A client, a server, and one of the programs between them."""

    # how it listens, and how the server is named
    listens, named = ["--listen", f"{HOST}:0"], HOST

    def __init__(self, command, client_host=HOST, errors=None):
        self.command, self.host, self.errors = command, client_host, errors

    def __enter__(self):
        self.begin()
        self.server.sendall(GREETING)
        self.gets(GREETING)
        return self

    def begin(self):
        """Connects both sides. No greeting is sent."""
        with contextlib.ExitStack() as stack:
            self.listener = stack.enter_context(socket.create_server((HOST, 0)))
            self.listener.settimeout(PATIENCE)
            log = self.errors or stack.enter_context(tempfile.TemporaryFile())
            words = [*self.command, *self.listens, f"{self.named}:{self.listener.getsockname()[1]}"]
            self.program = stack.enter_context(Program(words, log))
            self.client = stack.enter_context(self.connect())
            self.server = stack.enter_context(self.accept())
            self.stack, self.log = stack.pop_all(), log

    def __exit__(self, *_):
        self.client.close()  # also one that was put in place of the first
        self.stack.close()

    def connect(self):
        client = socket.create_connection((HOST, self.program.port), PATIENCE, (self.host, 0))
        client.setsockopt(socket.IPPROTO_TCP, socket.TCP_NODELAY, 1)
        return client

    def accept(self):
        server, _ = self.listener.accept()
        server.settimeout(PATIENCE)
        server.setsockopt(socket.IPPROTO_TCP, socket.TCP_NODELAY, 1)
        return server

    def gets(self, expected):
        """The client gets exactly this next."""
        wants("the client's next bytes", receive(self.client, len(expected)), expected)

    def reaches(self, expected):
        """The server gets exactly this next."""
        wants("the server's next bytes", receive(self.server, len(expected)), expected)

    def is_quiet(self, *ends):
        for end in ends or (self.client, self.server):
            wants("whether nothing comes", received_soon(end), None)

    def answers(self, line, reply):
        """The program itself answers the line. What the server gets next shows that it didn't get this."""
        self.client.sendall(line)
        self.gets(reply)

    def passes(self, line, sent=None, reply=b"200 OK\r\n"):
        """The server gets the line, or this one, and the client its reply."""
        self.client.sendall(line)
        self.reaches(line if sent is None else sent)
        self.server.sendall(reply)
        self.gets(reply)

    def ends(self, last):
        """The client gets this, and the end."""
        wants("the client's last bytes", receive(self.client), last)

    def logged(self):
        self.log.seek(0)
        return self.log.read()


def received_soon(end):
    """What comes within a while: None where nothing does."""
    before = end.gettimeout()
    end.settimeout(QUIET)
    try:
        return end.recv(65536)
    except TimeoutError:
        return None
    finally:
        end.settimeout(before)


def is_closed(end):
    """Whether the other end closes or resets the connection."""
    try:
        return end.recv(1) == b""
    except ConnectionResetError:
        return True


def is_reset(end):
    try:
        end.recv(1)
    except ConnectionResetError:
        return True
    return False


def reset(end):
    end.setsockopt(socket.SOL_SOCKET, socket.SO_LINGER, struct.pack("ii", 1, 0))
    end.close()


def numbers(host, port):
    """The six numbers of an address."""
    return ",".join([*host.split("."), str(port >> 8), str(port & 255)]).encode()


@contextlib.contextmanager
def passive(session, line=b"PASV\r\n", host=HOST, before=lambda: None):
    """A data connection that the client asks for: the client's end and the server's. The client opens it after `before`."""
    with socket.create_server((HOST, 0)) as listener:
        listener.settimeout(PATIENCE)
        port = listener.getsockname()[1]
        session.client.sendall(line)
        session.reaches(line)
        if line == b"PASV\r\n":
            session.server.sendall(b"227 At (" + numbers("192.0.2.1", port) + b")\r\n")
            named = re.fullmatch(rb"227 [^(]*\((127,0,0,1),(\d+),(\d+)\)\.\r\n", session.client.recv(100))
            own = int(named[2]) * 256 + int(named[3])
        else:
            session.server.sendall(b"229 At (|||%d|)\r\n" % port)
            own = int(re.fullmatch(rb"229 [^(]*\(\|\|\|(\d+)\|\)\r\n", session.client.recv(100))[1])
        wants("whether the port is the program's", own != port, True)
        with socket.create_connection((HOST, own), PATIENCE, (OTHER_HOST, 0)) as foreign:
            wants("whether another address is refused", is_closed(foreign), True)
        before()
        with socket.create_connection((HOST, own), PATIENCE, (host, 0)) as client:
            server, peer = listener.accept()
            server.settimeout(PATIENCE)
            wants("from where the program connects", peer[0], HOST)
            with server:
                yield client, server


@contextlib.contextmanager
def active(session, extended=False):
    """One that the client awaits."""
    with socket.create_server((HOST, 0)) as listener:
        listener.settimeout(PATIENCE)
        port = listener.getsockname()[1]
        line = b"EPRT |1|127.0.0.1|%d|" % port if extended else b"PORT " + numbers(HOST, port)
        session.client.sendall(line + b"\r\n")
        sent = session.server.recv(100)
        session.server.sendall(b"200 OK\r\n")
        session.gets(b"200 OK\r\n")
        named = re.fullmatch(rb"EPRT \|1\|127\.0\.0\.1\|(\d+)\|\r\n" if extended else rb"PORT 127,0,0,1,(\d+),(\d+)\r\n", sent)
        own = int(named[1]) if extended else int(named[1]) * 256 + int(named[2])
        wants("whether the port is the program's", own != port, True)
        with socket.create_connection((HOST, own), PATIENCE, (OTHER_HOST, 0)) as foreign:
            wants("whether another address is refused", is_closed(foreign), True)
        with socket.create_connection((HOST, own), PATIENCE) as server:
            client, peer = listener.accept()
            client.settimeout(PATIENCE)
            wants("from where the program connects", peer[0], HOST)
            with client:
                yield client, server


def begin(session, line=b"RETR a\r\n"):
    session.client.sendall(line)
    session.reaches(line)
    session.server.sendall(b"150 Opening\r\n")
    session.gets(b"150 Opening\r\n")


def fill(session, server, content):
    """Sends as much as is taken while the client doesn't read: until that is nothing for a while in which the program sleeps."""
    content, turns = memoryview(content), 0
    server.setblocking(False)
    while content and turns < 5:
        try:
            content, turns = content[server.send(content) :], 0
        except BlockingIOError:
            time.sleep(QUIET / 5)
            turns = turns + 1 if is_asleep(program_of(session)) else 0
    server.settimeout(PATIENCE)


@contextlib.contextmanager
def held(session):
    """A download whose final reply the program holds, as the client has not read the data: the client's end of it."""
    with passive(session) as (client, server):
        begin(session)
        fill(session, server, b"a" * 100_000_000)
        server.shutdown(socket.SHUT_WR)
        session.server.sendall(b"226 Done\r\n")
        session.is_quiet(session.client)
        client.settimeout(PATIENCE)
        yield client


WAYS = [passive, lambda session: passive(session, b"EPSV\r\n"), active, lambda session: active(session, True)]


def certificate(folder):
    """A certificate and its key, which openssl makes."""
    words = ["openssl", "req", "-x509", "-newkey", "rsa:2048", "-nodes", "-days", "2", "-subj", "/CN=localhost"]
    files = [str(pathlib.Path(folder, name)) for name in ["certificate.pem", "key.pem"]]
    subprocess.run([*words, "-out", files[0], "-keyout", files[1]], check=True, capture_output=True, timeout=PATIENCE)
    return files


def until_logged(session, words, count):
    wait_until(f"{words!r} {count} times in the log", lambda: session.logged().count(words) >= count)


def program_of(session):
    """The process that `timeout` has started."""
    timeout = session.program.process.pid
    return int(pathlib.Path(f"/proc/{timeout}/task/{timeout}/children").read_text(encoding="ascii").split()[0])
