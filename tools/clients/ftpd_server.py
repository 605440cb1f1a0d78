"""The server ftpd as its checks start it, and a client's control connection to it."""

import functools
import os
import pathlib
import re
import shutil
import signal
import socket
import ssl
import subprocess
import sys
import tempfile

sys.path.append(str(pathlib.Path(__file__).resolve().parents[1] / "checks"))
from started_server import HOST, LIFE, PATIENCE, StartedServer, Wrong, has_ipv6, wait_until, wants

USER, READER, PASSWORD = "anna", "ben", "secret"
SECRET = b"outside"
LARGE = 256 * 1024 * 1024
OTHER_HOST = "127.0.0.2"
# runs a program without the right of root to pass over the modes of files
BY_MODES = [sys.executable, "-c", "import ctypes, os, sys; [ctypes.CDLL(None).prctl(24, each) for each in range(64)]; os.execv(sys.argv[1], sys.argv[1:])"]


class Control:
    """A control connection: lines, and the codes of the replies."""

    def __init__(self, connection):
        self.connection = connection
        self.received = b""

    def __enter__(self):
        return self

    def __exit__(self, *_):
        self.connection.close()

    def line(self):
        while b"\n" not in self.received:
            piece = self.connection.recv(65536)
            if not piece:
                raise Wrong(f"the connection ends after {self.received!r}")
            self.received += piece
        line, _, self.received = self.received.partition(b"\n")
        return line.decode("utf-8", "surrogateescape").rstrip("\r")

    def reply(self):
        """The code and the text of the next reply."""
        lines = [self.line()]
        if lines[0][3:4] == "-":
            while not lines[-1].startswith(lines[0][:3] + " "):
                lines.append(self.line())
        return int(lines[0][:3]), "\n".join(lines)

    def send(self, line):
        self.connection.sendall((line.encode() if isinstance(line, str) else line) + b"\r\n")

    def ask(self, line):
        self.send(line)
        return self.reply()

    def wants(self, line, *codes):
        """Sends a line, and checks the codes of the replies: the text of the last one."""
        self.send(line)
        replies = [self.reply() for _ in codes]
        wants(f"the replies to {line!r}", [code for code, _ in replies], [*codes])
        return replies[-1][1]

    def login(self, name=USER, password=PASSWORD):
        self.wants(f"USER {name}", 331)
        self.wants(f"PASS {password}", 230)
        self.wants("TYPE I", 200)
        return self

    def passive(self, host=HOST):
        """The port that the server listens on for data."""
        return int(re.search(r"\|\|\|(\d+)\|", self.wants("EPSV", 229))[1])

    def open_data(self):
        return socket.create_connection((HOST, self.passive()), PATIENCE)

    def get(self, line):
        """What a transfer sends."""
        with self.open_data() as data:
            self.wants(line, 150)
            received = read_all(data)
        wants(f"the end of {line!r}", self.reply()[0], 226)
        return received

    def put(self, line, content, code=226):
        with self.open_data() as data:
            self.wants(line, 150)
            data.sendall(content)
        wants(f"the end of {line!r}", self.reply()[0], code)


def make_file(path, size):
    """A file of so many bytes, which takes no room."""
    path.touch()
    os.truncate(path, size)


def read_all(connection):
    pieces = []
    while piece := connection.recv(1 << 20):
        pieces.append(piece)
    return b"".join(pieces)


class Server(StartedServer):
    """ftpd on a folder of its own, which has another one beside it."""

    def __init__(self, program, *options, command=(), errors=None, folder=None):
        self.place = pathlib.Path(tempfile.mkdtemp(prefix="ftpd-"))
        self.folder, self.outside = self.place / "folder", self.place / "outside"
        self.folder.mkdir()
        self.outside.mkdir()
        (self.outside / "secret").write_bytes(SECRET)
        users = self.place / "users"
        users.write_text(f"{USER}:{hashed(program)}\n{READER}:{hashed(program)}:read\n", encoding="ascii")
        self.log = open(self.place / "log", "wb")
        arguments = [folder or str(self.folder), "--listen", f"{HOST}:0", "--users", str(users), *map(str, options)]
        super().__init__([*command, program, *arguments], self.log if errors is None else errors)

    def __enter__(self):
        self.ports = [int(port) for port in self.process.stdout.readline().split()]
        self.port = self.ports[0] if self.ports else 0
        return self

    def __exit__(self, *exception):
        super().__exit__(*exception)
        self.log.close()
        log = (self.place / "log").read_bytes()
        shutil.rmtree(self.place)
        if b"panicked" in log:
            raise Wrong(f"the log has {log[-2000:]!r}")

    def logged(self):
        return (self.place / "log").read_text(encoding="utf-8")

    def reads_again(self, count):
        """Lets it read its files again, which it has done so often then."""
        os.kill(child(self), signal.SIGHUP)
        until_logged(self, "read again", count)

    def control(self, source=HOST, port=None):
        connection = socket.create_connection((HOST, port or self.port), PATIENCE, (source, 0))
        control = Control(connection)
        wants("the greeting", control.reply()[0], 220)
        return control

    def login(self, *user):
        return self.control().login(*user)


@functools.cache
def hashed(program):
    command = [program, "--hash-password", "--rounds", "1000"]
    return subprocess.run(command, input=PASSWORD, capture_output=True, text=True, timeout=PATIENCE, check=True).stdout.strip()


@functools.cache
def certificate():
    """The options for a certificate and its key."""
    return make_certificate(tempfile.mkdtemp(prefix="ftpd-certificate-"), "rsa:2048")


def make_certificate(place, *kind):
    """The options for a new certificate and its key, which is of this kind."""
    files = [f"{place}/certificate.pem", f"{place}/key.pem"]
    command = ["openssl", "req", "-x509", "-newkey", *kind, "-nodes", "-days", "2", "-subj", "/CN=localhost", "-out", files[0], "-keyout", files[1]]
    subprocess.run(command, capture_output=True, timeout=PATIENCE, check=True)
    return ["--certificate", files[0], "--key", files[1]]


def tls_context():
    context = ssl.SSLContext(ssl.PROTOCOL_TLS_CLIENT)
    context.check_hostname, context.verify_mode = False, ssl.CERT_NONE
    return context


def child(server):
    """The process that `timeout` has started."""
    return int(pathlib.Path(f"/proc/{server.process.pid}/task/{server.process.pid}/children").read_text(encoding="ascii").split()[0])


def until_logged(server, words, count):
    """Waits until the log has these words so often."""
    wait_until(f"{words!r} {count} times in the log", lambda: server.logged().count(words) >= count)
