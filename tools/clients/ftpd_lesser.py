"""Further commands of ftpd, and clients that are none: checks of tools/clients/ftpd."""

import contextlib
import time

from ftpd_server import LARGE, PASSWORD, PATIENCE, USER, Server, certificate, make_file, read_all, tls_context, wants


def check_foreign(program):
    """A client that speaks HTTP, or sends what is no command again and again, doesn't come to a login."""
    login = f"USER {USER}\r\nPASS {PASSWORD}\r\n".encode()
    lines = [
        b"POST / HTTP/1.1\r\n" + login,
        b"GET /x HTTP/1.0\r\nHost: a\r\n\r\n" + login,
        b"xyz\r\n" * 20 + login,
        b"\r\n" * 20 + login,
    ]
    with Server(program) as server:
        for sent in lines:
            with server.control() as control:
                control.connection.sendall(sent)
                with contextlib.suppress(ConnectionResetError):
                    received = read_all(control.connection)
                    wants(f"the last reply to {sent[:20]!r}", received.rstrip().split(b"\n")[-1][:3], b"421")
                    wants("whether it logs in", b"230" in received, False)
        with server.login() as control:
            control.connection.sendall(b"xyz\r\n" * 100 + b"GET / HTTP/1.1\r\n")
            wants("the replies after a login", {control.reply()[0] for _ in range(101)}, {500})


def check_trickle(program):
    """An upload of a byte now and then ends, after five times the seconds in which it may stand still."""
    with Server(program, "--stall", 2) as server, server.login() as control:
        with control.open_data() as data:
            begun = time.monotonic()
            control.wants("STOR file", 150)
            with contextlib.suppress(ConnectionError):
                while time.monotonic() < begun + PATIENCE:
                    data.sendall(b"x")
                    time.sleep(0.1)
            taken = time.monotonic() - begun
            wants(f"whether it ended by itself, and not too soon, in {taken:.1f} seconds", 10 <= taken < PATIENCE, True)
            wants("the end of STOR", control.reply()[0], 426)


def check_abort_after_lines(program):
    """ABOR ends a transfer, however many lines came before it."""
    with Server(program) as server, server.login() as control:
        make_file(server.folder / "large", LARGE)
        with control.open_data() as data:
            control.wants("RETR large", 150)
            data.recv(1000)
            control.send("\r\n".join(["NOOP"] * 500 + ["ABOR"]))
            wants("the replies", [control.reply()[0] for _ in range(502)], [426] + [200] * 500 + [226])


def check_answered(program):
    """STAT of a path, SITE HELP and REIN."""
    with Server(program, *certificate()) as server, server.login() as control:
        (server.folder / "directory").mkdir()
        for name in ["a", "b"]:
            (server.folder / "directory" / name).write_bytes(b"12345")
        lines = control.wants("STAT directory", 212).split("\n")
        wants("the names", [line.split(" ")[-1] for line in sorted(lines[1:-1])], ["a", "b"])
        wants("the sizes", [line.split()[4] for line in lines[1:-1]], ["5", "5"])
        wants("the line of a file", control.wants("STAT directory/a", 213).split("\n")[1].split(" ")[-1], "a")
        control.wants("STAT nothing", 450)
        wants("SITE HELP", "CHMOD" in control.wants("SITE HELP", 214), True)
        control.wants("CWD directory", 250)
        control.wants("REIN", 220)
        control.wants("PWD", 530)
        control.wants(f"PASS {PASSWORD}", 503)
        control.login()
        wants("the directory", control.wants("PWD", 257), '257 "/"')
        control.wants("REIN", 220)
        control.wants("AUTH TLS", 234)
        control.connection = tls_context().wrap_socket(control.connection)
        control.login()
        control.wants("REIN", 502)
