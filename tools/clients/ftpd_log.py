"""What the log of ftpd has of transfers, changes and logins: checks of tools/clients/ftpd."""

import contextlib
import json
import os
import pathlib
import re

from ftpd_server import HOST, LARGE, LIFE, PASSWORD, USER, Server, Wrong, certificate, has_ipv6, make_file, read_all, tls_context, until_logged, wants

PAGE = pathlib.Path(__file__).resolve().parents[2] / "docs" / "PROGRAMS.md"
# a line of the log as text
LINE = re.compile(r"(\S+Z) +([A-Z]+) session\{address=(\S+) port=\d+\}: (.*)")
FIELD = re.compile(r' ([a-z]+)=("(?:[^"\\]|\\.)*"|\S+)')


def entries(server, *messages):
    """The log's lines of these messages: the message, and the fields as text."""
    found = []
    for line in server.logged().splitlines():
        parts = LINE.fullmatch(line)
        message = parts and FIELD.sub("", parts[4])
        if message in messages:
            found.append((message, {"address": parts[3], **dict(FIELD.findall(parts[4]))}))
    return found


def shown(entry, *names):
    return tuple(entry[1].get(name) for name in names)


def check_logged_transfers(program):
    """A line for each transfer: whose, of what, how much, how long, and what came of it."""
    with Server(program) as server, server.login() as control:
        make_file(server.folder / "large", LARGE)
        control.put('STOR a "b"', b"content")
        control.get('RETR a "b"')
        control.get("MLSD")
        name = None
        with control.open_data() as data:
            name = control.wants("STOU", 150).split("FILE: ")[1]
            data.sendall(b"unique")
        wants("the end of STOU", control.reply()[0], 226)
        control.passive()
        control.wants("RETR none", 550)
        with control.open_data() as data:
            control.wants("RETR large", 150)
            data.recv(1000)
            control.wants("ABOR", 426, 226)
        with control.open_data() as data:
            control.wants("RETR large", 150)
            data.recv(1000)
        wants("the reply to a broken RETR", control.reply()[0], 426)
        data = control.open_data()
        control.wants("RETR large", 150)
        data.recv(1000)
        control.connection.close()
        with data, contextlib.suppress(ConnectionResetError):
            read_all(data)
        until_logged(server, ": transfer ", 8)
        found = entries(server, "transfer")
        wants("who did it", {shown(entry, "user", "address") for entry in found}, {(f'"{USER}"', HOST)})
        wants("whether the seconds are numbers", all(0 <= float(entry[1]["seconds"]) < LIFE for entry in found), True)
        wants("the first ones", [shown(entry, "verb", "path", "bytes", "result") for entry in found[:5]], [
            ("STOR", r'"/a \"b\""', "7", '"ok"'),
            ("RETR", r'"/a \"b\""', "7", '"ok"'),
            ("MLSD", '"/"', found[2][1]["bytes"], '"ok"'),
            ("STOU", f'"/{name}"', "6", '"ok"'),
            ("RETR", '"/none"', "0", '"550 No such file or directory"'),
        ])
        wants("the others", [shown(entry, "verb", "path", "result") for entry in found[5:]], [
            ("RETR", '"/large"', '"426 Aborted"'),
            ("RETR", '"/large"', '"426 The data connection was closed"'),
            ("RETR", '"/large"', '"the client is gone"'),
        ])
        wants("whether their bytes are counted", [entry for entry in found[5:] if not 1000 <= int(entry[1]["bytes"]) < LARGE], [])


def check_logged_changes(program):
    """A line for each change, which stays a line whatever a path has."""
    with Server(program) as server, server.login() as control:
        for line, code in [
            (b"MKD a\r\0b\x1b[m\xc2\x85\xe2\x80\xa8\xff", 257),
            ("MKD c", 257),
            ("RNFR c", 350),
            ("RNTO d", 250),
            ("CWD d", 250),
            ("SITE CHMOD 700 /d", 200),
            ("MFMT 20200101000000 ../d", 213),
            ("DELE none", 550),
            ("CWD /", 250),
            ("XRMD d", 250),
        ]:
            control.wants(line, code)
        until_logged(server, ": change ", 7)
        found = entries(server, "change")
        wants("the changes", [shown(entry, "verb", "path", "from", "result", "user") for entry in found], [
            ("MKD", r'"/a\rb\u{1b}[m\u{85}\u{2028}�"', None, '"ok"', f'"{USER}"'),
            ("MKD", '"/c"', None, '"ok"', f'"{USER}"'),
            ("RNTO", '"/d"', '"/c"', '"ok"', f'"{USER}"'),
            ("CHMOD", '"/d"', None, '"ok"', f'"{USER}"'),
            ("MFMT", '"/d"', None, '"ok"', f'"{USER}"'),
            ("DELE", '"/d/none"', None, '"550 No such file or directory"', f'"{USER}"'),
            ("RMD", '"/d"', None, '"ok"', f'"{USER}"'),
        ])


def documented_pattern():
    """The regular expression for failed logins that the page has for fail2ban, with a group for its <ADDR>."""
    line = re.search(r"^failregex = (.*)$", PAGE.read_text(encoding="utf-8"), re.M)
    if not line:
        raise Wrong(f"{PAGE.name} has no failregex")
    return re.compile(line[1].replace("<ADDR>", r"(?P<address>[0-9a-f.:]+)"))


def check_logged_logins(program):
    """A line for each login. Those of failed ones are as PROGRAMS says, with one form of an address. No password is shown."""
    pattern = documented_pattern()
    names = ["nobody", 'x}: login address=192.0.2.1', "WARN session{address=192.0.2.1 port=1}: login failed", "caf\xe9\x1b"]
    with Server(program, "--listen", "[::]:0" if has_ipv6() else f"{HOST}:0", *certificate(), "--log", "debug") as server:
        for port in server.ports:
            with server.control(port=port) as control:
                control.wants(f"USER {USER}", 331)
                control.wants(f"PASS {PASSWORD}", 230)
                for name in names[:2]:
                    control.wants(f"USER {name}", 331)
                    control.wants("PASS hunter2", 530)
        with server.control() as control:
            for name in names[2:]:
                control.wants(f"USER {name}", 331)
                control.wants("PASS hunter2", 530)
        with server.control() as control:
            control.wants("AUTH TLS", 234)
            control.connection.sendall(b"this is no TLS\r\n" * 4)
            until_logged(server, "TLS handshake failed", 1)
        log = server.logged()
        # fail2ban takes the time away
        found = [pattern.search(line.partition("Z ")[2]) for line in log.splitlines()]
        wants("the addresses of failed logins", [match["address"] for match in found if match], [HOST] * 6)
        wants("the logins", [shown(entry, "address", "user") for entry in entries(server, "login")], [(HOST, f'"{USER}"')] * 2)
        failed = entries(server, "login failed")
        wants("the names", {entry[1]["user"] for entry in failed}, {f'"{name}"'.replace("\x1b", r"\u{1b}") for name in names})
        wants("the failed handshake", entries(server, "TLS handshake failed")[0][1]["address"], HOST)
        wants("whether a password is shown", [word for word in ["hunter2", PASSWORD] if word in log], [])


def check_logged_json(program):
    """The same as a JSON object for each line, also of lines that are dropped."""
    reading, writing = os.pipe()
    with open(reading, encoding="utf-8") as log, Server(program, "--log-format", "json", "--log", "debug", errors=writing) as server:
        os.close(writing)
        with server.login() as control:
            control.put("STOR caf\xe9 \"1\"", b"content")
            control.connection.sendall(b"NOOP\r\n" * 10_000)
            wants("the replies", {control.reply()[0] for _ in range(10_000)}, {200})
        lines = []
        while not lines or "dropped" not in lines[-1]["fields"]["message"]:
            lines.append(json.loads(log.readline()))
        transfer = next(line for line in lines if line["fields"]["message"] == "transfer")
        fields = transfer["fields"]
        wants("whether the seconds are a number", isinstance(fields.pop("seconds"), float), True)
        wants("the transfer", fields, {
            "message": "transfer", "verb": "STOR", "path": '/caf\xe9 "1"', "bytes": 7, "result": "ok", "user": USER,
        })
        span = transfer["span"]
        wants("its session", (span["name"], span["address"], type(span["port"])), ("session", HOST, int))
        wants("the last line's fields", ([*lines[-1]["fields"]], lines[-1]["level"]), (["message", "count"], "WARN"))


def check_logged_handshakes(program):
    """A data connection whose TLS fails is in the line of its transfer."""
    with Server(program, *certificate()) as server, server.control() as control:
        control.wants("AUTH TLS", 234)
        control.connection = tls_context().wrap_socket(control.connection)
        control.login()
        control.wants("PBSZ 0", 200)
        control.wants("PROT P", 200)
        with control.open_data() as data:
            control.wants("STOR file", 150)
            data.sendall(b"this is no TLS\r\n" * 4)
            wants("the end of STOR", control.reply()[0], 425)
        until_logged(server, ": transfer ", 1)
        (_, fields), = entries(server, "transfer")
        wants("its result", fields["result"], '"425 No TLS, which has to resume the session of this connection"')
        wants("whether it says TLS", "TLS" in fields["error"], True)
