"""The load part of tools/clients/transfers: many clients at once, and speed."""

import argparse
import concurrent.futures
import contextlib
import ftplib
import hashlib
import io
import multiprocessing
import random
import re
import signal
import socket
import statistics
import sys
import threading
import time

from ftp_clients import Wrong, wants
from peers import HOST, PEERS, NoServer
from transfer_servers import add_server, read_server, served

USAGE = """Lets a hundred clients transfer files at once, makes many sessions, and measures speed, for one server or for two in turn.

usage: tools/clients/transfers load [OPTIONS] --peer NAME
       tools/clients/transfers load [OPTIONS] -- COMMAND..

The server's options are those of tools/clients/transfers. With --against NAME, that server's speed is measured in the same rounds; each figure
is the median of the rounds, and the last column is the first server's part of the second one's. The folder is on the disk of TMPDIR.
"""

LIMIT = 300
MEGABYTE = 1_000_000
CLIENTS, FILES = 100, 5
AT_ONCE = 20
BUFFER = 1 << 20
# how many lines are sent before their replies are read
PIPELINED = 500
# how many sessions get small files at once
TOGETHER = 4
# the replies that are as good as this one
BEGINNINGS = {b"150": [b"125"], b"331": [b"230"]}


class Session:
    """A client that takes hardly any time itself."""

    def __init__(self, account):
        self.account = account
        self.socket = socket.create_connection((HOST, account.ports[HOST]), LIMIT)
        self.socket.setsockopt(socket.IPPROTO_TCP, socket.TCP_NODELAY, 1)
        self.pending = b""
        wants("the greeting", self.reply()[:3], b"220")
        self.command(f"USER {account.user}", b"331")
        self.command(f"PASS {account.password}", b"230")

    def __enter__(self):
        return self

    def __exit__(self, *_):
        self.socket.close()

    def line(self):
        while b"\n" not in self.pending:
            received = self.socket.recv(65536)
            if not received:
                raise Wrong("the server ends the connection")
            self.pending += received
        line, _, self.pending = self.pending.partition(b"\n")
        return line

    def reply(self):
        """The last line of a reply."""
        line = self.line()
        code = line[:3]
        while line[3:4] == b"-" or line[:3] != code:
            line = self.line()
            if line[:3] != code:
                line = code + b"-"
        return line

    def command(self, line, code):
        self.socket.sendall(f"{line}\r\n".encode())
        reply = self.reply()
        if reply[:3] != code and reply[:3] not in BEGINNINGS.get(code, []):
            raise Wrong(f"the reply to {line!r} is {reply!r}")
        return reply

    def data(self, line):
        """Begins a transfer: its connection."""
        port = int(re.search(rb"\|(\d+)\|", self.command("EPSV", b"229"))[1])
        connection = socket.create_connection((HOST, port), LIMIT)
        try:
            self.command(line, b"150")
        except Wrong:
            connection.close()
            raise
        return connection

    def ended(self):
        wants("the end of the transfer", self.reply()[:3], b"226")

    def get(self, path):
        """Downloads a file: how many bytes it has."""
        count, area = 0, memoryview(bytearray(BUFFER))
        with self.data(f"RETR {path}") as connection:
            while read := connection.recv_into(area):
                count += read
        self.ended()
        return count

    def put(self, source, path):
        with self.data(f"STOR {path}") as connection:
            connection.sendfile(source)
        self.ended()

    def noops(self, count):
        """Sends so many lines at once, and reads their replies."""
        self.socket.sendall(b"NOOP\r\n" * count)
        for _ in range(count):
            wants("the reply to NOOP", self.line()[:3], b"200")


def client_at_work(account, number, barrier):
    """A client that logs in as all others do, and then puts, lists, gets and deletes small files, whose content it checks."""
    generator = random.Random(number)
    with ftplib.FTP(timeout=LIMIT, encoding="utf-8") as ftp:
        ftp.connect(HOST, account.ports[HOST])
        ftp.login(account.user, account.password)
        barrier.wait(LIMIT)
        folder = f"client {number}"
        ftp.mkd(folder)
        ftp.cwd(folder)
        contents = {f"file {index}": generator.randbytes(generator.randrange(30_000)) for index in range(FILES)}
        for name, content in contents.items():
            ftp.storbinary(f"STOR {name}", io.BytesIO(content))
        wants("the names", sorted(name for name in ftp.nlst() if not name.startswith(".")), sorted(contents))
        for name, content in contents.items():
            pieces = []
            ftp.retrbinary(f"RETR {name}", pieces.append)
            wants("the digest", hashlib.sha256(b"".join(pieces)).digest(), hashlib.sha256(content).digest())
            ftp.delete(name)
        ftp.cwd("/" if ftp.pwd() == f"/{folder}" else "..")
        ftp.rmd(folder)
        ftp.quit()


def check_clients(account, count=CLIENTS):
    """So many clients at once, each of which transfers its own files."""
    barrier = threading.Barrier(count)
    begun = time.monotonic()
    with concurrent.futures.ThreadPoolExecutor(count) as pool:
        found = [pool.submit(client_at_work, account, number, barrier) for number in range(count)]
        errors = [repr(each.exception()) for each in found if each.exception()]
    if errors:
        raise Wrong(f"{len(errors)} of {count} clients fail, the first with {errors[0]}")
    return f"{count} at once, {2 * FILES} transfers each, {time.monotonic() - begun:.1f} seconds"


def one_session(account):
    with Session(account) as session:
        session.command("NOOP", b"200")
        session.command("QUIT", b"221")
        wants("the end", session.socket.recv(1), b"")


def check_sessions(account, count):
    """So many sessions, some at a time: login, NOOP, QUIT."""
    begun = time.monotonic()
    with concurrent.futures.ThreadPoolExecutor(AT_ONCE) as pool:
        for _ in pool.map(lambda _: one_session(account), range(count)):
            pass
    taken = time.monotonic() - begun
    return f"{count} sessions, {count / taken:,.0f} a second"


class Speed:
    """What is measured of a server. Each measure returns a number that is greater where the server is faster."""

    def __init__(self, place, account, size):
        self.place, self.account, self.size = place, account, size
        self.source = place.work / "source"
        with open(self.source, "wb") as file:
            generator = random.Random(1)
            for _ in range(size // MEGABYTE):
                file.write(generator.randbytes(MEGABYTE))
        for name in ["large", "small"]:
            path = place.folder / name
            path.write_bytes(b"x" * 1000)
            path.chmod(0o644)
        (place.folder / "large").write_bytes(self.source.read_bytes())

    def timed(self, call, units):
        with Session(self.account) as session:
            session.command("TYPE I", b"200")
            begun = time.monotonic()
            call(session)
            return units / (time.monotonic() - begun)

    def get(self):
        return self.timed(lambda session: wants("the size", session.get("large"), self.size), self.size / MEGABYTE)

    def put(self):
        with open(self.source, "rb") as source:
            speed = self.timed(lambda session: session.put(source, "uploaded"), self.size / MEGABYTE)
        path = self.place.folder / "uploaded"
        wants("the size", path.stat().st_size, self.size)
        path.unlink()
        return speed

    def noops(self, count=2000):
        return self.timed(lambda session: [session.noops(1) for _ in range(count)], count)

    def pipelined(self, turns=40):
        return self.timed(lambda session: [session.noops(PIPELINED) for _ in range(turns)], turns * PIPELINED)

    def get_small(self, session, count):
        for _ in range(count):
            wants("the size", session.get("small"), 1000)

    def small_files(self, count=300):
        return self.timed(lambda session: self.get_small(session, count), count)

    def client_of_several(self, barrier, count):
        with Session(self.account) as session:
            session.command("TYPE I", b"200")
            barrier.wait(LIMIT)
            self.get_small(session, count)

    def small_files_together(self, count=300):
        """Each session is a process, so that the clients don't wait for each other."""
        forked = multiprocessing.get_context("fork")
        barrier = forked.Barrier(TOGETHER + 1)
        clients = [forked.Process(target=self.client_of_several, args=(barrier, count)) for _ in range(TOGETHER)]
        for client in clients:
            client.start()
        barrier.wait(LIMIT)
        begun = time.monotonic()
        for client in clients:
            client.join(LIMIT)
        wants("the ends of the clients", [client.exitcode for client in clients], [0] * TOGETHER)
        return TOGETHER * count / (time.monotonic() - begun)

    def sessions(self, count=100):
        begun = time.monotonic()
        for _ in range(count):
            one_session(self.account)
        return count / (time.monotonic() - begun)


MEASURES = {
    "get, MB a second": Speed.get,
    "put, MB a second": Speed.put,
    "NOOPs a second": Speed.noops,
    f"NOOPs a second, {PIPELINED} at once": Speed.pipelined,
    "files of 1 kB a second": Speed.small_files,
    f"files of 1 kB a second, in {TOGETHER} sessions": Speed.small_files_together,
    "sessions a second": Speed.sessions,
}


def measure(speeds, rounds):
    """Measures the servers in turn: for each measure the medians, and a line that shows them."""
    for name, call in MEASURES.items():
        found = [[] for _ in speeds]
        for _ in range(rounds):
            for each, speed in zip(found, speeds):
                each.append(call(speed))
        medians = [statistics.median(each) for each in found]
        line = f"{name}: {medians[0]:,.0f}"
        if len(medians) > 1:
            line += f", against {medians[1]:,.0f}: {medians[0] / medians[1]:.2f}"
        yield name, medians, line


class Checks:
    """Runs the checks, and counts what passed."""

    def __init__(self):
        self.passed = self.failed = 0

    def report(self, line, good):
        self.passed += good
        self.failed += not good
        print(f"load: {line}: {'ok' if good else 'FAILED'}", flush=True)

    def check(self, name, call):
        """Runs a check that returns what it has found."""
        try:
            self.report(f"{name}: {call()}", True)
        except Exception as error:  # whatever a client raises is a failure of the server's
            self.report(f"{name}: {error if isinstance(error, Wrong) else repr(error)}", False)

    def check_speed(self, speeds, rounds, least):
        """The speed, which for large files has to be at least this part of the second server's."""
        try:
            for name, medians, line in measure(speeds, rounds):
                slow = least and len(medians) > 1 and "MB" in name and medians[0] < least * medians[1]
                self.report(line, not slow)
        except Exception as error:
            self.report(f"speed: {error if isinstance(error, Wrong) else repr(error)}", False)


def parser_of_load():
    parser = argparse.ArgumentParser(description=USAGE, formatter_class=argparse.RawDescriptionHelpFormatter, prog="transfers load")
    add_server(parser)
    extent = parser.add_mutually_exclusive_group()
    extent.add_argument("--quick", action="store_true", help="300 sessions, and 100 MB in one round")
    extent.add_argument("--long", action="store_true", help="10,000 sessions, and 1 GB in seven rounds")
    parser.add_argument("--against", choices=sorted(PEERS), help="a second server, whose speed is measured in turn")
    parser.add_argument("--least", type=float, help="fails where large files are slower than this part of the second server's speed")
    parser.add_argument("--only", default="", help="of clients, sessions and speed, a regular expression that names some")
    return parser


def second_server(stack, options):
    """The server to compare with."""
    other = argparse.Namespace(**vars(options))
    other.peer, other.command, other.through, other.at, other.folder = options.against, [], None, None, None
    return stack.enter_context(served(other, ["ipv6"]))


def main(words):
    options, without = read_server(parser_of_load(), words)
    checks = Checks()
    size, rounds = (100, 1) if options.quick else (1000, 7) if options.long else (1000, 3)
    chosen = [name for name in ["clients", "sessions", "speed"] if re.search(options.only, name)]
    try:
        with contextlib.ExitStack() as stack:
            place, account = stack.enter_context(served(options, [*without, "ipv6"]))
            if "clients" in chosen:
                checks.check("clients", lambda: check_clients(account))
            if "sessions" in chosen:
                checks.check("sessions", lambda: check_sessions(account, 10_000 if options.long else 300))
            if "speed" in chosen:
                servers = [(place, account)] + ([second_server(stack, options)] if options.against else [])
                checks.check_speed([Speed(*server, size * MEGABYTE) for server in servers], rounds, options.least)
    except NoServer as error:
        print(f"load: {error}")
        checks.failed += 1
    print(f"{checks.passed} passed, {checks.failed} failed")
    return 0 if checks.passed and not checks.failed else 1
