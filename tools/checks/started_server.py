"""A server that a check starts, what a client of it does, and how a check is run. On a busy machine all takes longer: a check waits for what
happens, and fails where it never does."""

import contextlib
import inspect
import os
import pathlib
import resource
import signal
import socket
import subprocess
import sys
import time

HOST = "127.0.0.1"
# how many seconds a server may run, and how long it and a client may take to answer: ways out where nothing happens, and no measure of anything
LIFE, PATIENCE = 600, 60
# how many bytes are sent at a time, by turns
PIECES = [1, 61, 3, 1021, 7, 509]
GREETING = b"220 Ready\r\n"


class Wrong(Exception):
    """A check failed."""


def wants(what, found, expected):
    if found != expected:
        raise Wrong(f"{what}: it has {found!r}, and not {expected!r}")


class StartedServer:
    """A server while it runs: the command prints its port. `timeout` ends it, even where this script was killed before it could, and
    hands each signal on to it."""

    def __init__(self, command, errors=None):
        limited = ["timeout", "--foreground", f"--kill-after={PATIENCE}", str(LIFE), *command]
        self.process = subprocess.Popen(limited, stdout=subprocess.PIPE, stderr=errors, start_new_session=True)

    def __enter__(self):
        self.port = int(self.process.stdout.readline() or 0)
        return self

    def __exit__(self, *_):
        try:
            os.killpg(self.process.pid, signal.SIGKILL)
        except ProcessLookupError:
            pass  # none is left
        self.process.communicate()

    def connect(self):
        connection = socket.create_connection((HOST, self.port), PATIENCE)
        connection.setsockopt(socket.IPPROTO_TCP, socket.TCP_NODELAY, 1)
        return connection

    def greeted(self, greeting=GREETING):
        """A connection after its greeting."""
        connection = self.connect()
        wants("the greeting", receive(connection, len(greeting)), greeting)
        return connection


def receive(connection, count=None):
    """So many bytes, or all up to the end."""
    received = b""
    while count is None or len(received) < count:
        piece = connection.recv(65536 if count is None else count - len(received))
        if not piece:
            break
        received += piece
    return received


def send_pieces(connection, sent, size=None):
    """Sends pieces of this size, or of PIECES by turns."""
    turn = 0
    while sent:
        end = size or PIECES[turn % len(PIECES)]
        connection.sendall(sent[:end])
        sent = sent[end:]
        turn += 1


def wait_until(what, call):
    """Waits until the call returns what is true, and returns that."""
    deadline = time.monotonic() + PATIENCE
    while not (found := call()):
        if time.monotonic() > deadline:
            raise Wrong(f"{what}: not within {PATIENCE} seconds")
        time.sleep(0.01)
    return found


def stays(connect, ask, idle):
    """A client that asks again and again stays connected for twice as long as it may be idle. Where it was late itself, which shows nothing, it
    begins again."""
    deadline = time.monotonic() + PATIENCE
    while True:
        asked = [time.monotonic()]
        with connect() as connection:
            try:
                while asked[-1] < asked[0] + 2 * idle:
                    asked.append(time.monotonic())
                    ask(connection)
                    time.sleep(0.1)
                return
            except (Wrong, OSError):
                if not asked[-2] + idle < time.monotonic() < deadline:
                    raise


def has_ipv6():
    """Whether the machine has the loopback address of IPv6."""
    try:
        with socket.create_server(("::1", 0), family=socket.AF_INET6):
            return True
    except OSError:
        return False


def processor_time(pid):
    """How many seconds of a processor a process has taken."""
    fields = pathlib.Path(f"/proc/{pid}/stat").read_text(encoding="ascii").rpartition(")")[2].split()
    return (int(fields[11]) + int(fields[12])) / os.sysconf("SC_CLK_TCK")


def is_asleep(pid):
    """Whether no thread of a process would run if it had a processor."""
    try:
        states = [path.read_text(encoding="ascii").rpartition(")")[2].split()[0] for path in pathlib.Path(f"/proc/{pid}/task").glob("*/stat")]
    except (FileNotFoundError, ProcessLookupError):  # a thread has ended just now
        return False
    return set(states) == {"S"}


def open_descriptors(pid):
    """How many descriptors a process has open, once the number stays the same for a while in which it sleeps."""
    found = []
    while len(found) < 5 or len(set(found[-5:])) > 1:
        time.sleep(0.05)
        found = [*found, len(os.listdir(f"/proc/{pid}/fd"))] if is_asleep(pid) else []
    return found[-1]


@contextlib.contextmanager
def without_descriptors(pid, further=0):
    """Lets a process open no further descriptor (EMFILE), or only so many, while this lasts."""
    before = resource.prlimit(pid, resource.RLIMIT_NOFILE)
    resource.prlimit(pid, resource.RLIMIT_NOFILE, (open_descriptors(pid) + further, before[1]))
    try:
        yield
    finally:
        resource.prlimit(pid, resource.RLIMIT_NOFILE, before)


def run_check(checks, usage):
    """Runs the check that the command line names, prints what it found, and returns the exit status."""
    check, arguments = checks.get("".join(sys.argv[1:2])), sys.argv[2:]
    try:
        inspect.signature(check).bind(*arguments)
    except TypeError:  # there is no such check, or it takes other arguments
        print(usage, file=sys.stderr)
        return 2
    for number in [signal.SIGHUP, signal.SIGTERM]:
        signal.signal(number, lambda number, _: sys.exit(128 + number))
    try:
        print(check(*arguments))
    except (Wrong, OSError, subprocess.SubprocessError, ValueError) as error:
        print(error)
        return 1
    return 0
