#!/usr/bin/env python3
"""Checks that the server of examples/c goes on where it has to, and ends what it has to end.

usage: tools/checks/server_checks.py addresses SERVER          an IPv4 and an IPv6 address that it listens on, and what is neither
       tools/checks/server_checks.py abort SERVER              urgent data: the ABOR of Python's ftplib
       tools/checks/server_checks.py descriptors SERVER         no descriptor is left for a client (EMFILE)
       tools/checks/server_checks.py files PRELOAD SERVER       the system has none left (ENFILE): PRELOAD is tools/checks/c/fail_calls.c
       tools/checks/server_checks.py fork PRELOAD SERVER        no process can be made
       tools/checks/server_checks.py connections SERVER         more clients than it may have, and those that come after them
       tools/checks/server_checks.py idle SERVER                clients that send nothing, no line feed, or slowly
       tools/checks/server_checks.py unread SERVER              a client that doesn't read
       tools/checks/server_checks.py late SERVER                clients that go on sending after QUIT
       tools/checks/server_checks.py staying SERVER             clients that stay after QUIT, and one that goes on sending for ever
       tools/checks/server_checks.py gone SERVER                clients that are gone before they are answered
       tools/checks/server_checks.py killed SERVER              a session that is killed
       tools/checks/server_checks.py children SERVER            children that are no sessions
       tools/checks/server_checks.py stop SERVER                SIGTERM, SIGINT, SIGHUP and SIGKILL while clients are served
       tools/checks/server_checks.py twice SERVER               another signal while the sessions end

The last line says what was compared; the status is 0 where all is right.
"""

import contextlib
import ftplib
import os
import pathlib
import resource
import signal
import socket
import struct
import subprocess
import sys
import threading
import time

from embedding import REPLIES, Server
from started_server import GREETING, HOST, LIFE, PATIENCE, Wrong, processor_time, receive, run_check, stays, wait_until, wants

NOOP, QUIT = b"NOOP\r\n", b"QUIT\r\n"
OKAY, BYE = REPLIES["Noop"], REPLIES["Quit"]
TIMEOUT = b"421 Timeout\r\n"
TOO_MANY = b"421 Too many connections\r\n"
NO_PROCESS = b"421 No process for this connection\r\n"
STOPPING = b"421 Service is stopping\r\n"

# how many clients send more after QUIT, and what each sends, at how many times
IMPATIENT, LATE, TIMES = 20, NOOP * 10_000, 6


def all_of(connection):
    """All that the server sends, or the error that it ends with."""
    try:
        return receive(connection)
    except OSError as error:
        return repr(error)


def asked(connection, line=NOOP, reply=OKAY):
    """Sends a line, which has to get this reply."""
    connection.sendall(line)
    wants(f"the reply to {line!r}", receive(connection, len(reply)), reply)


def lasts(what, least, call):
    """Calls, which has to take so many seconds at least. The call itself says how long it may take at most."""
    start = time.monotonic()
    call()
    took = time.monotonic() - start
    if took < least:
        raise Wrong(f"{what} took {took:.3f} seconds, and not {least}")


def until_refused(connection, piece, pause=0.0):
    """Sends the piece again and again until the connection is closed: how many bytes it took."""
    sent = 0
    deadline = time.monotonic() + PATIENCE
    try:
        while time.monotonic() < deadline:
            sent += connection.send(piece)
            time.sleep(pause)
    except (ConnectionResetError, BrokenPipeError):
        return sent
    raise Wrong(f"the connection stays open, after {sent} bytes")


def side_by_side(*calls):
    """Makes the calls at once. The first that fails is what failed."""
    failures = []

    def make(call):
        try:
            call()
        except (Wrong, OSError) as error:
            failures.append(error)

    threads = [threading.Thread(target=make, args=[call], daemon=True) for call in calls]
    for thread in threads:
        thread.start()
    for thread in threads:
        thread.join()
    if failures:
        raise failures[0]


def code_of(call, *arguments):
    """The code of the reply to a call of ftplib."""
    try:
        return call(*arguments)[:3]
    except ftplib.Error as error:
        return str(error)[:3]


def has_ipv6():
    """Whether the machine has the loopback address of IPv6."""
    try:
        with socket.create_server(("::1", 0), family=socket.AF_INET6):
            return True
    except OSError:
        return False


def check_addresses(program):
    """It listens on an address of either family, and not on another of that family. What is no address is an error in its usage."""
    listens = [HOST, "127.0.0.2"] + (["::1"] if has_ipv6() else [])
    for address in listens:
        with Server([program, "-a", address]) as server:
            with socket.create_connection((address, server.port), PATIENCE) as connection:
                wants(f"the greeting at {address}", receive(connection, len(GREETING)), GREETING)
                asked(connection)
            for other in listens:
                if other != address:
                    try:
                        socket.create_connection((other, server.port), PATIENCE).close()
                        raise Wrong(f"-a {address} listens on {other} too")
                    except ConnectionRefusedError:
                        pass
    for word in ["", "localhost", "127.0.0.256", "::1::", "127.0.0.1 "]:
        run = subprocess.run([program, "-a", word, "0"], capture_output=True, timeout=PATIENCE, check=False)
        wants(f"-a {word!r}", (run.returncode, run.stdout, run.stderr[:6]), (2, b"", b"usage:"))
    return f"it listens on {', '.join(listens)}, and on no other address"


def check_abort(program):
    """The line feed of ftplib's ABOR is urgent. The server has to find it where it was sent."""
    with Server([program]) as server, ftplib.FTP(timeout=PATIENCE) as ftp:
        ftp.connect(HOST, server.port)
        said = [code_of(ftp.login, "anna", "secret"), code_of(ftp.abort), code_of(ftp.abort), code_of(ftp.quit)]
    wants("the replies", said, ["230", "502", "502", "221"])
    return "an ABOR with urgent data gets its reply"


def check_descriptors(program):
    """Where `ulimit -n` has no descriptor for a client, it waits in the queue, and the server without haste. Then it is served."""
    with Server([program]) as server, server.greeted() as beside:
        server.said = b"server: accept: Too many open files\n"
        before = resource.prlimit(server.pid, resource.RLIMIT_NOFILE)
        opened = len(os.listdir(f"/proc/{server.pid}/fd"))
        resource.prlimit(server.pid, resource.RLIMIT_NOFILE, (opened, before[1]))
        taken = processor_time(server.pid)
        with server.connect() as waiting:
            waiting.settimeout(1)
            try:
                raise Wrong(f"a client has {waiting.recv(1)!r} where no descriptor is left")
            except TimeoutError:
                pass
            asked(beside)
            taken = processor_time(server.pid) - taken
            resource.prlimit(server.pid, resource.RLIMIT_NOFILE, before)
            waiting.settimeout(PATIENCE)
            wants("the greeting", receive(waiting, len(GREETING)), GREETING)
            asked(waiting)
    if taken > 0.25:
        raise Wrong(f"a second without descriptors took {taken} seconds of a processor")
    return f"a client waits while no descriptor is left, with {taken} seconds of a processor for one second, and is served then"


def check_files(preload, program):
    """The system has no file left for some calls of accept."""
    with Server(["env", f"LD_PRELOAD={preload}", "FAIL_ACCEPT=3", program]) as server:
        server.said = b"server: accept: Too many open files in system\n"
        with server.greeted() as connection:
            asked(connection)
    return "a client is served after three failures"


def check_fork(preload, program):
    """No process can be made for the first two clients."""
    with Server(["env", f"LD_PRELOAD={preload}", "FAIL_FORK=2", program]) as server:
        server.said = b"server: fork: Resource temporarily unavailable\n"
        for _ in range(2):
            with server.greeted(NO_PROCESS) as connection:
                wants("the end", all_of(connection), b"")
        with server.greeted() as connection:
            asked(connection)
    return "421 where there is no process, and the next client is served"


def connected_in_time(server):
    """A connection, once the server has counted out those that have ended."""

    def greeted():
        with contextlib.suppress(Wrong):
            return server.greeted()

    return wait_until("a client that is served after those that have ended", greeted)


def children(pid):
    """The children of a process, those that have ended among them."""
    found = []
    for path in pathlib.Path("/proc").glob("[0-9]*/stat"):
        try:
            if int(path.read_text(encoding="ascii", errors="replace").rpartition(")")[2].split()[1]) == pid:
                found.append(int(path.parent.name))
        except OSError:
            pass  # it ended just now
    return found


def wants_children(pid, count):
    """A process has so many children, after a while at least."""
    wait_until(f"{count} children", lambda: len(children(pid)) == count)
    return children(pid)


def come_and_go(server, count):
    """So many clients connect, and reset the connection at once."""
    for _ in range(count):
        with socket.create_connection((HOST, server.port), PATIENCE) as connection:
            connection.setsockopt(socket.SOL_SOCKET, socket.SO_LINGER, struct.pack("ii", 1, 0))


def check_connections(program):
    """Two clients at a time, and thirty one after the other; no process is left of them. Nothing is said of those that are refused."""
    with Server([program, "-c", "2"]) as server:
        with server.greeted() as first, server.greeted() as second:
            for _ in range(5):
                with server.greeted(TOO_MANY) as third:
                    wants("the end", all_of(third), b"")
            come_and_go(server, 20)
            asked(first)
            asked(second)
        for _ in range(30):
            with connected_in_time(server) as connection:
                asked(connection, QUIT, BYE)
        wants_children(server.pid, 0)
    return "421 for 5 clients too many, and 30 are served after that"


def check_idle(program):
    """With an idle timeout of two seconds: that a command comes is what counts."""
    with Server([program, "-i", "2"]) as server:

        def silent():
            with server.greeted() as connection:
                wants("a silent client", all_of(connection), TIMEOUT)

        def slow():
            with server.greeted() as connection:
                until_refused(connection, b"N", 0.1)
                wants("a slow client", receive(connection, len(TIMEOUT)), TIMEOUT)

        def endless():
            with server.greeted() as connection:
                until_refused(connection, b"N" * 4096, 0.001)

        side_by_side(
            lambda: lasts("a silent client", 1.9, silent),
            lambda: lasts("a slow client", 1.9, slow),
            lambda: lasts("a line without an end", 1.9, endless),
            lambda: stays(server.greeted, asked, 2),
        )
    return "421 for a silent client, and for one that sends a line byte by byte; not for one that sends commands"


def check_unread(program):
    """A client that sends commands and doesn't read is ended too."""
    with Server([program, "-i", "2"]) as server:

        def unread():
            with server.greeted() as connection:
                until_refused(connection, b"HELP\r\n" * 1000)

        lasts("a client that doesn't read", 1.9, unread)
        with server.greeted() as other:
            asked(other)
    return "a client that doesn't read is ended"


def check_late(program):
    """Each can go on sending after QUIT, and then reads the last reply and the end."""
    size = len(LATE) // TIMES
    with Server([program, "-d", str(PATIENCE)]) as server:
        endings = []
        for _ in range(IMPATIENT):
            with server.greeted() as connection:
                connection.sendall(QUIT)
                for _ in range(TIMES):
                    connection.sendall(LATE[:size])
                    time.sleep(0.005)
                endings.append(all_of(connection))
    wants("what they get", endings, [BYE] * IMPATIENT)
    return f"{IMPATIENT} clients that send {size * TIMES} bytes after QUIT get 221"


def check_staying(program):
    """After QUIT the server's side is at its end at once. What is dropped then has a bound in seconds and one in bytes."""
    with Server([program, "-d", str(LIFE)]) as server, server.greeted() as staying:
        asked(staying, QUIT, BYE)
        wants("what comes after 221", all_of(staying), b"")
        sent = until_refused(staying, b"x" * 65536)
    with Server([program, "-d", "2"]) as server:

        def stay():
            with server.greeted() as staying:
                asked(staying, QUIT, BYE)
                until_refused(staying, b"x", 0.1)

        lasts("a client that stays", 1.9, stay)
    return f"a client that stays is ended in time, and one that sends for ever after {sent} bytes"


def check_gone(program):
    """Clients that have sent all that they have to, and go while the server is sending: writing to them would raise SIGPIPE."""
    with Server([program]) as server:
        for _ in range(IMPATIENT):
            with socket.socket() as connection:
                connection.setsockopt(socket.SOL_SOCKET, socket.SO_RCVBUF, 4096)
                connection.settimeout(PATIENCE)
                connection.connect((HOST, server.port))
                connection.sendall(b"HELP\r\n" * 10_000)
                connection.shutdown(socket.SHUT_WR)
                wants("how many bytes come", len(receive(connection, len(GREETING) + 1)), len(GREETING) + 1)
        with server.greeted() as connection:
            asked(connection)
    return f"{IMPATIENT} clients are gone, and the next is served"


def check_killed(program):
    """A session that is killed is named, and the next client is served."""
    with Server([program, "-c", "1"]) as server:
        server.said = b"server: a session has ended with status 0x9\n"
        with server.greeted() as connection:
            os.kill(wants_children(server.pid, 1)[0], signal.SIGKILL)
            wants("what the client gets", all_of(connection), b"")
        with connected_in_time(server) as connection:
            asked(connection)
    return "a session that is killed is named"


def check_children(program):
    """The program had children before it was this server. One ends, which takes off no session; the server doesn't wait for the other."""
    sleeps = f'sleep {LIFE} & sleep {LIFE} & exec "$@"'
    with Server(["sh", "-c", sleeps, "sh", program, "-c", "1"]) as server:
        sleeping = wants_children(server.pid, 2)
        with server.greeted() as connection:
            os.kill(sleeping[0], signal.SIGKILL)
            wants_children(server.pid, 2)
            with server.greeted(TOO_MANY) as second:
                wants("the end", all_of(second), b"")
            asked(connection, QUIT, BYE)
        wants("the server's end", server.stop(), (0, b""))
    return "children that are no sessions are not counted"


def check_stop(program):
    """Each client gets 421, also in the midst of a line, and no other is served. The server ends after its sessions, which here drop
    what comes for a second, since these clients stay. Where it is killed itself, each client gets 421 too."""
    for number in [signal.SIGTERM, signal.SIGINT, signal.SIGHUP, signal.SIGKILL]:
        with Server([program, "-d", "1"]) as server, server.greeted() as idle, server.greeted() as midst:
            midst.sendall(b"NOO")
            if number == signal.SIGKILL:
                os.kill(server.pid, number)
                server.status, _ = server.stop()  # as `timeout` reports it
            else:
                lasts("the server's end", 0.9, lambda: wants("the server's end", server.stop(number), (0, b"")))
            wants("what the clients get", [all_of(idle), all_of(midst)], [STOPPING] * 2)
            try:
                server.greeted()
                raise Wrong("a client is served after the end")
            except ConnectionRefusedError:
                pass
    return "each client gets 421 at SIGTERM, SIGINT and SIGHUP, and where the server is killed"


def check_twice(program):
    """While the sessions end, another signal ends the server at once. They go on dropping what comes, and then end too."""
    for number in [signal.SIGTERM, signal.SIGINT, signal.SIGHUP]:
        with Server([program, "-d", str(LIFE)]) as server, server.greeted() as staying:
            session = wants_children(server.pid, 1)[0]
            os.kill(server.pid, signal.SIGTERM)
            wants("what the client gets", all_of(staying), STOPPING)
            os.kill(server.pid, number)
            server.process.wait(PATIENCE)
            wants("the session goes on", pathlib.Path(f"/proc/{session}").exists(), True)
            server.status, _ = server.stop()  # as `timeout` reports it
            wants("whether the server ended well", server.status == 0, False)
            until_refused(staying, b"x" * 65536)
    return "a second SIGTERM, SIGINT or SIGHUP ends the server at once"


CHECKS = {
    "addresses": check_addresses,
    "abort": check_abort,
    "descriptors": check_descriptors,
    "files": check_files,
    "fork": check_fork,
    "connections": check_connections,
    "idle": check_idle,
    "unread": check_unread,
    "late": check_late,
    "staying": check_staying,
    "gone": check_gone,
    "killed": check_killed,
    "children": check_children,
    "stop": check_stop,
    "twice": check_twice,
}


if __name__ == "__main__":
    sys.exit(run_check(CHECKS, __doc__))
