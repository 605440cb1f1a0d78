#!/usr/bin/env python3
"""Checks what the clients of examples/c and bindings/rust download.

usage: tools/checks/downloads.py real PYTHON GET..      from pyftpdlib's server, which this Python has: files, one that is missing, and a login that fails
       tools/checks/downloads.py replies GET..          from a server whose replies are in order, or not

GET.. is the program and what runs it. The last line says what was compared; the status is 0 where all is right.
"""

import contextlib
import pathlib
import random
import re
import socket
import subprocess
import sys
import tempfile
import threading

from started_server import HOST, PATIENCE, StartedServer, Wrong, run_check, wants

USER, PASSWORD = "anna", "secret"
LARGE = 1_000_000


class RealServer(StartedServer):
    """pyftpdlib's server of a folder, which prints its port in a line of its log."""

    def __init__(self, python, folder):
        options = ["-i", HOST, "-p", "0", "-d", folder, "-u", USER, "-P", PASSWORD]
        super().__init__(["sh", "-c", 'exec "$@" 2>&1', "sh", python, "-u", "-m", "pyftpdlib", *options])

    def __enter__(self):
        for line in self.process.stdout:
            found = re.search(rf"server on {re.escape(HOST)}:(\d+)", line.decode())
            if found:
                self.port = int(found[1])
                return self
        raise Wrong("pyftpdlib's server has no port")


def download(program, port, path, password=PASSWORD):
    """The client's status, its standard error, and what it has downloaded, which is None where it made no file."""
    with tempfile.TemporaryDirectory() as folder:
        output = pathlib.Path(folder, "output")
        words = [*program, HOST, str(port), USER, password, path, str(output)]
        run = subprocess.run(words, capture_output=True, timeout=PATIENCE)
        wants("its standard output", run.stdout, b"")
        return run.returncode, run.stderr.decode(), output.read_bytes() if output.exists() else None


def wants_file(found, content):
    """This file was downloaded. The last line shows its size."""
    status, said, output = found
    wants("the status", (status, said.replace("\r", "\n").splitlines()[-1:]), (0, [f"{len(content)} bytes, 100%"]))
    if output != content:
        raise Wrong("the file has other bytes")


def wants_failure(found, begins):
    """No file was downloaded. The one line says why."""
    status, said, output = found
    wants("the status, and the file", (status, output), (1, None))
    if not said.startswith(f"get: {begins}") or said.count("\n") != 1 or not said.endswith("\n"):
        raise Wrong(f"it says {said!r}, and not {begins!r}")


def check_real(python, *program):
    """A large file, an empty one, one that is missing, and what fails before."""
    files = {"a large file": random.Random(1).randbytes(LARGE), "empty": b""}
    with tempfile.TemporaryDirectory() as folder:
        for name, content in files.items():
            pathlib.Path(folder, name).write_bytes(content)
        with RealServer(python, folder) as server:
            for name, content in files.items():
                wants_file(download(program, server.port, name), content)
            wants_failure(download(program, server.port, "missing"), "missing: 550 ")
            wants_failure(download(program, server.port, "empty", "wrong"), "login failed: 530 ")
            for path in ["empty\r", "a\nDELE empty"]:
                wants_failure(download(program, server.port, path), "a name, a password and a path are of one line")
    return f"{len(files)} files, and 4 failures"


# The lines of a client that downloads a file, each with the replies to it. The server puts its port for PORT, sends the file at DATA, and
# closes the connection at CLOSE.
CONTENT = b"one\r\ntwo\n"
ORDERLY = [
    ("", "120 Wait\r\n220-Hello\r\n 421 no\r\n220 Ready\r\n"),
    (f"USER {USER}", "331 Password\r\n"),
    (f"PASS {PASSWORD}", "230 Hello\r\n"),
    ("TYPE I", "200 OK\r\n"),
    ("SIZE a", f"213 {len(CONTENT)}\r\n"),
    ("EPSV", "229 Passive (!!!PORT!)\r\n"),
    ("RETR a", "150 Here\r\nDATA226 Done\r\n"),
    ("QUIT", "221 Bye\r\n"),
]


def changed(line, replies):
    """The dialogue with other replies to this line."""
    return [(sent, replies if sent == line else told) for sent, told in ORDERLY]


# what differs from an orderly dialogue, and how the client's only line begins then, or "" where it downloads the file
DISORDERLY = {
    "": ("", ORDERLY[0][1]),
    "a reply to nothing: 200 Early": ("", "220 Ready\r\n200 Early\r\n"),
    "the server ends the session: 421 Bye": ("", "220 Ready\r\n421 Bye\r\n"),
    "no session: 421 Busy": ("", "421 Busy\r\n"),
    "malformed reply": ("", "Hello\r\n"),
    "reply too long": ("", "220-" + "a" * 20_000),
    "the server has closed": ("", "220 ReadyCLOSE"),
    "login failed: 332 Account": (f"PASS {PASSWORD}", "332 Account\r\n"),
    "login failed: 530 ?[2J": (f"USER {USER}", "530 \x1b[2J\r\n"),
    "no binary mode: 504 No": ("TYPE I", "504 No\r\n"),
    "no passive mode: 522 No": ("EPSV", "522 No\r\n"),
    "no port: 229 (|||0|)": ("EPSV", "229 (|||0|)\r\n"),
    "no port: 229 (|||65536|)": ("EPSV", "229 (|||65536|)\r\n"),
    "no port: 229 (|||21)": ("EPSV", "229 (|||21)\r\n"),
    "no port: 229 (||!21|)": ("EPSV", "229 (||!21|)\r\n"),
    "a: 226 Done": ("RETR a", "226 Done\r\n"),
}


def serve(listener, dialogue):
    """Replies as the dialogue says, over one connection: to its end, or to the client's."""
    gone = contextlib.suppress(ConnectionError)  # a client that refuses a reply reads no more
    with gone, listener.accept()[0] as control, socket.create_server((HOST, 0)) as passive:
        lines = control.makefile("rb")
        for line, replies in dialogue:
            if line and lines.readline() != f"{line}\r\n".encode():
                return
            before, closes, _ = replies.partition("CLOSE")
            before, _, after = before.replace("PORT", str(passive.getsockname()[1])).partition("DATA")
            control.sendall(before.encode())
            if after:
                with passive.accept()[0] as data:
                    data.sendall(CONTENT)
                control.sendall(after.encode())
            if closes:
                return


def downloaded(program, dialogue):
    """What the client downloads from a server with this dialogue."""
    with socket.create_server((HOST, 0)) as listener:
        server = threading.Thread(target=serve, args=(listener, dialogue), daemon=True)
        server.start()
        found = download(program, listener.getsockname()[1], "a")
        server.join(PATIENCE)
    return found


def check_replies(*program):
    """The client takes each reply as that to its line, and refuses one to nothing; but 421 may come once all is done."""
    for begins, (line, replies) in DISORDERLY.items():
        found = downloaded(program, changed(line, replies))
        if begins:
            wants_failure(found, begins)
        else:
            wants_file(found, CONTENT)
    wants_file(downloaded(program, changed("RETR a", "150 Here\r\nDATA226 Done\r\n421 Bye\r\n")), CONTENT)
    status, said, output = downloaded(program, changed("RETR a", "150 Here\r\nDATA426 Aborted\r\n"))
    wants("a transfer that is aborted", (status, said.splitlines()[-1:], output), (1, ["get: a: 426 Aborted"], CONTENT))
    status, said, output = downloaded(program, changed("SIZE a", f"213 {len(CONTENT) + 1}\r\n"))
    wants("a file that is cut", (status, said.splitlines()[-1:], output), (1, [f"get: a: only {len(CONTENT)} of {len(CONTENT) + 1} bytes came"], CONTENT))
    for replies in ["550 No\r\n", "213 many\r\n", f"213 {len(CONTENT) - 1}\r\n"]:
        status, _, output = downloaded(program, changed("SIZE a", replies))
        wants(f"a file whose size is {replies!r}", (status, output), (0, CONTENT))
    return f"{len(DISORDERLY) + 6} dialogues"


CHECKS = {
    "real": check_real,
    "replies": check_replies,
}


if __name__ == "__main__":
    sys.exit(run_check(CHECKS, __doc__))
