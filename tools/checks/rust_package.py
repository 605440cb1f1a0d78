#!/usr/bin/env python3
"""Makes the checks of tools/checks/rust_package that are no test of the package itself, most of them on its server.

usage: tools/checks/rust_package.py codes              the package's codes of replies are the header's
       tools/checks/rust_package.py public [--write]   what is public of the package is what bindings/rust/public.txt lists
       tools/checks/rust_package.py start FOLDER WORD LAST    README's commands with this word print this line, in a folder with bindings/rust
       tools/checks/rust_package.py memory PRELOAD REPLAY     the answer at each failed allocation: PRELOAD is tools/checks/c/fail_allocation.c
       tools/checks/rust_package.py version REPLAY     each call over a library of another version, 9.9.9
       tools/checks/rust_package.py arguments SERVER..      addresses, and what is no argument, of each of these servers
       tools/checks/rust_package.py descriptors SERVER..    a client for which no descriptor is left, of each
       tools/checks/rust_package.py session SERVER     lines in pieces, bad ones among them
       tools/checks/rust_package.py urgent SERVER      an ABOR whose end is urgent data
       tools/checks/rust_package.py late SERVER        the last reply, whatever is sent after QUIT
       tools/checks/rust_package.py idle SERVER        clients that send too little
       tools/checks/rust_package.py limit SERVER       more connections than may be open
       tools/checks/rust_package.py stop SERVER        sessions that are open at a signal
       tools/checks/rust_package.py files SERVER       what clients put, list and get over IPv4 and IPv6, and what they may not
       tools/checks/rust_package.py transfer SERVER CLIENT     what this client puts, lists and gets there, and what it says of a refusal
       tools/checks/rust_package.py in_memory SERVER CLIENT    what ftplib stores in the server of files in memory, and what this client lists and prints of it
       tools/checks/rust_package.py proxy PROXY SERVER     what clients get through the proxy of the server of files, and what they may not
       tools/checks/rust_package.py filter PROXY SERVER    lines through the proxy without data connections of the server of files
       tools/checks/rust_package.py speed SERVER [COUNT [CONNECTIONS]]  NOOPs a second

The last line says what was compared; the status is 0 where all is right.
"""

import ftplib
import io
import os
import pathlib
import re
import select
import shutil
import signal
import socket
import subprocess
import sys
import tempfile
import threading
import time

from started_server import (GREETING, HOST, PATIENCE, StartedServer, Wrong, has_ipv6, processor_time, receive, run_check, send_pieces, stays,
                            wait_until, wants, without_descriptors)

TOP = pathlib.Path(__file__).resolve().parents[2]
LINE_LIMIT = 8192

OK = b"200 OK\r\n"
BYE = b"221 Bye\r\n"
MISSING = b"502 Not implemented\r\n"


def started(program, *arguments):
    """The server on a port that the system chooses."""
    return StartedServer([program, "0", *map(str, arguments)])


def check_codes():
    """The names and numbers of enum unftp_code, and those of ReplyCode."""
    found = [
        dict(re.findall(pattern, (TOP / path).read_text(encoding="utf-8"), re.M))
        for path, pattern in [
            ("include/unftp_control.h", r"^    UNFTP_CODE_(\w+) = (\d+)"),
            ("bindings/rust/src/code.rs", r'^    (\w+) = (\d+) "'),
        ]
    ]
    wants("code.rs beside the header", set(found[1].items()) ^ set(found[0].items()), set())
    wants("whether there are codes", len(found[0]) > 0, True)
    return f"{len(found[0])} codes"


RUST = TOP / "bindings/rust"
# what other packages may use of a source: nothing else is declared pub, which a lint of the package sees to
PUBLIC = re.compile(r"^ *(?:#\[cfg\((?P<feature>.*)\)\]\n *)?(?P<item>pub (?:(?:async )?fn|struct|enum|trait) [^{;]*|pub (?:const|type|use) [^{;=]*|pub \w+: [^,\n]*|(?:unsafe )?impl\b[^{;]* for (?:\[[^]]*\]|[^{;[])*)", re.M)
HIDDEN = re.compile(r"^pub use ")
INNER = re.compile(r"^(?:pub\(crate\) )?struct (\w+)", re.M)


def public_items():
    """The items that are public, with the file that each is in."""
    for path in sorted((RUST / "src").glob("*.rs")):
        text = path.read_text(encoding="utf-8")
        inner = tuple(f" for {name}" for name in INNER.findall(text))
        for found in PUBLIC.finditer(text):
            item = " ".join(found["item"].split())
            if not item.endswith(inner) and (not HIDDEN.match(item) or path.name == "lib.rs"):
                yield f"{path.stem}: {item}" + (f" [{found['feature']}]" if found["feature"] else "")


def check_public(*arguments):
    """A change of what is public shows in a change of public.txt."""
    listed, items = RUST / "public.txt", [*public_items()]
    if arguments == ("--write",):
        listed.write_text("".join(f"{item}\n" for item in items), encoding="utf-8")
    wants("public.txt", listed.read_text(encoding="utf-8").splitlines(), items)
    return f"{len(items)} public items"


def start_commands(word):
    """README's commands that have this word, without those that install packages. Its server listens on a port that the system chooses."""
    blocks = re.findall(r"^```sh\n(.*?)^```$", (TOP / "README.md").read_text(encoding="utf-8"), re.M | re.S)
    [found] = [block for block in blocks if word in block]
    return re.sub(r"^apt-get .*\n", "", found, flags=re.M).replace("--example framed", "--example framed 0")


def check_start(folder, word, last):
    """The commands print this line. A server that goes on after it is ended."""
    lines = []
    with subprocess.Popen(["bash", "-c", start_commands(word)], cwd=folder, stdout=subprocess.PIPE, encoding="utf-8", start_new_session=True) as run:
        try:
            while last not in lines and (line := run.stdout.readline()):
                lines.append(line.strip())
        finally:
            os.killpg(run.pid, signal.SIGTERM)
    wants("the last line", lines[-1:], [last])
    return f"{len(lines)} lines"


# each calls a function of the library that takes memory
CASE = 'parse\t"RETR a\\r\\0b\\r\\n"\nlog\tnone\t"retr a\\r\\0b\\r\\n"\nwrite_address\tPORT\t127.0.0.1\t50000\n'
ANSWER = 'ok Retr path="a\\rb"\n"RETR a\\\\rb"\n"127,0,0,1,195,80"\n'


def check_memory(preload, program):
    """Each allocation that fails is no matter, or ends the program by an error of the package or by Rust itself."""
    errors, ended, number = 0, 0, 1
    while number < 1000:
        environment = os.environ | {"LD_PRELOAD": preload, "FAIL_AT": str(number), "RUST_BACKTRACE": "0"}
        run = subprocess.run([program], input=CASE, env=environment, capture_output=True, text=True, timeout=PATIENCE)
        if run.stderr == "replay: out of memory\n":
            errors += 1
        elif "memory allocation of" in run.stderr:
            ended += 1
        else:
            wants(f"at allocation {number}", (run.returncode, run.stdout), (0, ANSWER))
            if errors:
                break
        number += 1
    wants("whether an allocation of the library failed", errors > 1, True)
    return f"{errors} times out of memory, and {ended} times in Rust itself"


CALLS = ['parse\t"NOOP\\r\\n"', 'encode\tmsg\t200\t"OK"', 'read\t"220 a\\r\\n"', 'canonical\t"NOOP\\r\\n"', 'forward\t"NOOP\\r\\n"',
         'read_address\tPORT\t""', "write_address\t229\t-\t1"]


def check_version(program):
    """Each call ends before it is made."""
    version = (TOP / "VERSION").read_text(encoding="utf-8").strip()
    major, minor, _ = version.split(".")
    wanted = f"linked with a library of version 9.9.9, and needs {version} or later, and before {major}.{int(minor) + 1}.0"
    for case in CALLS:
        run = subprocess.run([program], input=case + "\n", capture_output=True, text=True, timeout=PATIENCE)
        said = wanted in run.stderr
        wants(f"{case} ends with", (run.returncode, run.stdout, said), (101, "", True))
    return f"{len(CALLS)} calls"


def wants_usage(program, *words):
    """These words are no arguments: a line says what are, and the status is 2."""
    run = subprocess.run([program, *words], capture_output=True, text=True, timeout=PATIENCE)
    wants(f"with {words}", (run.returncode, run.stdout, run.stderr.count("\n")), (2, "", 1))
    wants(f"the usage with {words}", run.stderr.startswith(f"usage: {pathlib.Path(program).name} "), True)


def check_arguments(*programs):
    """All that are servers take a port. That of server.rs may have an address before it."""
    for program in programs:
        for word in ["70000", "-1", "port", "", "65536", "0x50"]:
            wants_usage(program, word)
    for words in [["0", "x"], ["0", "1", "-1"], ["0", "1", "1", "1"], ["0", "4294967296"], ["[::1]"], ["::1"], ["127.0.0.256:0"]]:
        wants_usage(programs[0], *words)
    addresses = ["127.0.0.2"] + (["::1"] if has_ipv6() else [])
    for address in addresses:
        with StartedServer([programs[0], f"[{address}]:0" if ":" in address else f"{address}:0"]) as server:
            with socket.create_connection((address, server.port), PATIENCE) as connection:
                wants(f"the greeting at {address}", receive(connection, len(GREETING)), GREETING)
    taken = subprocess.run([programs[0], "192.0.2.1:0"], capture_output=True, text=True, timeout=PATIENCE)
    wants("an address of another machine", (taken.returncode, taken.stderr[:20]), (1, "server: 192.0.2.1:0:"))
    return f"it listens on {' and '.join(addresses)}"


def check_waiting(program):
    """While no descriptor is left for a client, it waits, and the server takes hardly a processor. Then it is served."""
    named = ["sh", "-c", 'echo $$ >&2; exec "$@"', "sh", program, "0"]  # the process that sh was is the server
    with tempfile.TemporaryFile() as said, StartedServer(named, said) as server, server.greeted() as beside:
        said.seek(0)
        pid = int(said.readline())
        with without_descriptors(pid):
            taken = processor_time(pid)
            waiting = server.connect()
            waiting.settimeout(1)
            try:
                raise Wrong(f"a client has {waiting.recv(1)!r} where no descriptor is left")
            except TimeoutError:
                pass
            beside.sendall(b"NOOP\r\n")
            wants("the reply beside it", receive(beside, len(OK)), OK)
            taken = processor_time(pid) - taken
        with waiting:
            waiting.settimeout(PATIENCE)
            wants("the greeting", receive(waiting, len(GREETING)), GREETING)
    wants("whether a second without descriptors took less than a quarter of a processor", taken < 0.25, True)


def check_descriptors(*programs):
    for program in programs:
        check_waiting(program)
    return f"a client of each of {len(programs)} servers waits"


SESSION = [
    (b"pwd\r\n", b"530 Not logged in\r\n"),
    (b"PASS secret\r\n", b"503 USER comes first\r\n"),
    (b"user anna\n", b"331 Password required\r\n"),
    (b"PASS secr\xff\r\0\r\n", b"230 Logged in\r\n"),
    (b"NOOP x\r\n", b"501 Invalid parameter\r\n"),
    (b"NOOP\r\n", OK),
    (b"\xff\r\n", b"500 The command is not UTF-8\r\n"),
    (b"RETR a\rb\r\n", b"500 Invalid line ending\r\n"),
    (b"XPWD\r\n", b'257 "/" is the directory\r\n'),
    (b"x" * LINE_LIMIT + b"\r\n", b"500 Line too long\r\n"),
    (b"RETR " + b"x" * (LINE_LIMIT - 7) + b"\r\n", MISSING),
    (b"x" * 100_000 + b"\n", b"500 Line too long\r\n"),
    (b"TYPE A\r\n", OK),
    (b"SYST\r\n", b"215 UNIX Type: L8\r\n"),
    (b"FEAT\r\n", b"211-Features:\r\n UTF8\r\n211 End\r\n"),
    (b"\r\n", MISSING),
    (b"SITE CHMOD 644 a\r\n", MISSING),
    (b"BYE\r\n", BYE),
]


def check_session(program):
    lines = b"".join(line for line, _ in SESSION)
    replies = GREETING + b"".join(reply for _, reply in SESSION)
    with started(program) as server:
        for size in [None, len(lines), 4096, 1000, 61]:
            with server.connect() as connection:
                sender = threading.Thread(target=send_pieces, args=(connection, lines, size), daemon=True)
                sender.start()
                wants(f"the session in pieces of {size}", receive(connection), replies)
                sender.join()
        short = [(line, reply) for line, reply in SESSION if len(line) < 100]
        with server.greeted() as connection:
            # each byte by itself, and its reply before the next line
            for line, reply in short:
                send_pieces(connection, line, 1)
                wants(f"the reply to {line!r}", receive(connection, len(reply)), reply)
            wants("the end after QUIT", receive(connection), b"")
        with server.greeted() as connection:
            connection.sendall(b"NOOP\r\nQUI")
            connection.shutdown(socket.SHUT_WR)
            wants("a session that ends within a line", receive(connection), OK)
    return f"{len(SESSION)} lines in pieces of 6 kinds"


def check_urgent(program):
    with started(program) as server, server.greeted() as connection:
        for _ in range(20):
            connection.send(b"ABOR\r\n", socket.MSG_OOB)
            wants("the reply to an urgent ABOR", receive(connection, len(MISSING)), MISSING)
            connection.sendall(b"NOOP\r\n")
            wants("the reply to NOOP after it", receive(connection, len(OK)), OK)
    return "20 urgent commands answered"


def check_late(program):
    with started(program) as server:
        for _ in range(20):
            with server.connect() as connection:
                connection.sendall(b"QUIT\r\n" + b"NOOP\r\n" * 10_000)
                wants("what comes before the end", receive(connection), GREETING + BYE)
    return "20 sessions ended by their last reply"


def check_idle(program):
    late, idle = b"421 Idle too long\r\n", 2

    def ask(busy):
        busy.sendall(b"NOOP\r\n")
        wants("a client that is not idle", receive(busy, len(OK)), OK)

    def is_answered(slow):
        slow.sendall(b"N")
        return select.select([slow], [], [], 0.2)[0]

    with started(program, idle) as server:
        begun = time.monotonic()
        with server.greeted() as silent, server.greeted() as slow:
            wait_until("the end of a client that sends a part of a line", lambda: is_answered(slow))
            wants("a client that sends a part of a line", receive(slow), late)
            wants("a client that sends nothing", receive(silent), late)
        wants("whether a part of a line had its time", time.monotonic() - begun >= idle, True)
        with server.greeted() as silent:
            stays(server.greeted, ask, idle)
            wants("a client that sends nothing beside another", receive(silent), late)
    return "4 clients"


def check_limit(program):
    full = b"421 Too many connections\r\n"
    with started(program, PATIENCE, 2) as server:
        with server.greeted() as first, server.greeted():
            with server.connect() as third:
                wants("the third connection", receive(third), full)
            first.sendall(b"NOOP\r\nQUIT\r\n")
            wants("the first connection beside it", receive(first), OK + BYE)

        def is_served():
            with server.connect() as another:
                return receive(another, len(GREETING)) == GREETING

        wait_until("a connection in the place of one that ended", is_served)
    return "3 connections, and another in the place of the first"


def check_stop(program):
    for number in [signal.SIGINT, signal.SIGTERM]:
        with started(program) as server, server.greeted() as idle, server.greeted() as busy:
            busy.sendall(b"NOOP\r\nNO")
            wants("a reply before the signal", receive(busy, len(OK)), OK)
            server.process.send_signal(number)
            for connection in [idle, busy]:
                wants("the last reply", receive(connection), b"421 Stopping\r\n")
                connection.close()
            wants("the status", server.process.wait(PATIENCE), 0)
    return "2 sessions ended at each of 2 signals"


def codes(text, mark=""):
    """The codes of the replies that a client shows."""
    return re.findall(rf"^{mark}([1-5][0-9][0-9])(?=[ :])", text, re.MULTILINE)


def run_client(arguments, typed=""):
    with tempfile.TemporaryDirectory() as home:
        environment = {"HOME": home, "NCFTPDIR": home, "LC_ALL": "C", "TERM": "dumb", "PATH": os.environ["PATH"]}
        run = subprocess.run(arguments, input=typed, env=environment, cwd=home, capture_output=True, text=True, timeout=PATIENCE)
    return run.stdout, run.stderr


def talk_by_curl(port):
    _, err = run_client(["curl", "-q", "-sS", "-v", "-I", "-Q", "NOOP", "-Q", "QUIT", "-u", "anna:secret", f"ftp://{HOST}:{port}/"])
    return codes(err, "< ")


def talk_by_lftp(port):
    typed = f"set ftp:ssl-allow no\nopen -u anna,secret -p {port} {HOST}\nquote NOOP\nclose\n"
    _, err = run_client(["lftp", "--norc", "-d"], typed)
    return codes(err, "<--- ")


def talk_by_ncftp(port):
    out, _ = run_client(["ncftp"], f"debug 1\nopen -u anna -p secret -P {port} {HOST}\nquote NOOP\nquit\n")
    return codes(out)


def talk_by_tnftp(port):
    out, _ = run_client(["tnftp", "-n", "-v", "-i"], f"open {HOST} {port}\nuser anna secret\nquote NOOP\nquit\n")
    return codes(out)


TALKS = {"curl": talk_by_curl, "lftp": talk_by_lftp, "ncftp": talk_by_ncftp, "tnftp": talk_by_tnftp}


def check_client(talk, program):
    """A real client logs in to the server, sends NOOP, and quits."""
    with started(program) as server:
        found = talk(server.port)
    logged_in = found.index("230") if "230" in found else -1
    if found[:1] != ["220"] or logged_in < 0 or "200" not in found[logged_in:] or found[-1:] != ["221"]:
        raise Wrong(f"the client has the replies {found}")
    return f"{len(found)} replies"


def check_speed(program, count="100000", connections="4"):
    """Each connection sends all of its lines while it reads."""
    lines, replies = b"NOOP\r\n" * int(count), int(count) * len(OK)
    with started(program) as server:
        sockets = [server.connect() for _ in range(int(connections))]
        for each in sockets:
            each.recv(4096)  # the greeting
        begun = time.monotonic()
        threads = [threading.Thread(target=each.sendall, args=(lines,), daemon=True) for each in sockets]
        threads += [threading.Thread(target=receive, args=(each, replies), daemon=True) for each in sockets]
        for thread in threads:
            thread.start()
        for thread in threads:
            thread.join()
        taken = time.monotonic() - begun
    return f"{int(count) * len(sockets) / taken:,.0f} NOOPs a second in {connections} connections"


def refused_code(client, line):
    """The code of a reply that refuses a line."""
    try:
        return f"{client.sendcmd(line)[:3]}, no refusal"
    except ftplib.Error as error:
        return str(error)[:3]


NAMES = ["new", "caf\udce9"]  # the second is one in Latin-1


def wants_transfers(host, port, folder, content):
    """What ftplib puts, lists and gets. Names are read as their bytes."""
    with ftplib.FTP(timeout=PATIENCE, encoding="latin-1") as client:
        client.connect(host, port)
        wants("the code of PWD without a login", refused_code(client, "PWD"), "530")
        wants("the code of another password", refused_code(client, "USER anna") + refused_code(client, "PASS x"), "331, no refusal530")
        client.login("anna", "secret")
        for name in NAMES:
            sent = os.fsencode(name).decode("latin-1")
            client.storbinary(f"STOR {sent}", io.BytesIO(content))
            wants(f"what is stored as {name!r}", (folder / name).read_bytes(), content)
            received = []
            client.retrbinary(f"RETR /{sent}", received.append)
            wants("what is read", b"".join(received), content)
        lines, names = [], sorted(os.fsencode(name).decode("latin-1") for name in NAMES)
        client.retrlines("LIST", lines.append)
        wants("the listing", sorted(line.split()[4::4] for line in lines), [[str(len(content)), name] for name in names])
        for line in ["RETR ../outside", "RETR /../outside", "STOR ../outside", "RETR below/x", "RETR ..", "RETR absent"]:
            wants(f"the code of {line}", refused_code(client, line), "550")
        wants("the code of RETR without a data connection", refused_code(client, "RETR new"), "425")
        if host != HOST:
            wants("the code of PASV", refused_code(client, "PASV"), "425")
        wants("the code of an ABOR whose end is urgent", client.abort()[:3], "226")
        client.set_pasv(False)
        wants("the names, in active mode", sorted(client.nlst()), names)
        wants("the code of an address of another", refused_code(client, "PORT 192,0,2,7,4,1"), "504")
        wants("the code of QUIT", client.quit()[:3], "221")


def wants_data_ports(port):
    """The refusals of data connections (RFC 2428, RFC 2577), and one that another address opens, which is closed."""
    with ftplib.FTP(timeout=PATIENCE) as client:
        client.connect(HOST, port)
        client.login("anna", "secret")
        for line, code in [("PORT 127,0,0,1,3,255", "504"), ("EPRT |1|127.0.0.2|1024|", "504"), ("EPRT |2|::1|1024|", "522"), ("EPSV 2", "522"),
                           ("EPRT |3|a|1|", "522"), ("EPRT", "501"), ("PORT 127,0,0,1,0,0", "501"), ("PORT 1,2,3", "501"), ("EPSV x", "501"),
                           ("EPRT\0|1|127.0.0.1|1024|", "502")]:
            wants(f"the code of {line}", refused_code(client, line), code)
        wants("the code of EPSV 1", client.sendcmd("EPSV 1")[:3], "229")
        address = client.makepasv()
        client.putcmd("NLST")
        with socket.create_connection(address, PATIENCE, ("127.0.0.2", 0)) as other:
            wants("the code of NLST", client.getresp()[:3], "150")
            wants("what another address gets", receive(other), b"")
        with socket.create_connection(address, PATIENCE) as own:
            wants("the names that its own address gets", len(receive(own).splitlines()), len(NAMES))
        wants("the code after it", client.getresp()[:3], "226")
        wants("the code of EPSV ALL", client.sendcmd("EPSV ALL")[:3], "200")
        for line in ["PASV", "PORT 127,0,0,1,4,0", "EPRT |1|127.0.0.1|1024|"]:
            wants(f"the code of {line} after EPSV ALL", refused_code(client, line), "503")
        wants("the names after EPSV", client.sendcmd("EPSV")[:3], "229")


def wants_downloads(port, content):
    """What curl and lftp list and get, by EPSV and by PASV. Those that are not installed are left out: how many are not."""
    clients = {
        "curl": ["curl", "-q", "-sS", "-u", "anna:secret", f"ftp://{HOST}:{port}/new"],
        "curl by PASV": ["curl", "-q", "-sS", "--disable-epsv", "-u", "anna:secret", f"ftp://{HOST}:{port}/new"],
        "lftp": ["lftp", "--norc", "-c", f"set ftp:ssl-allow no; open -u anna,secret -p {port} {HOST}; ls; cat new"],
    }
    found = [name for name, words in clients.items() if shutil.which(words[0])]
    for name in found:
        run = subprocess.run(clients[name], capture_output=True, timeout=PATIENCE)
        wants(f"whether {name} has the file", (run.returncode, run.stdout.endswith(content)), (0, True))
    return found


def check_files(program):
    """Files are put, listed and read. A name of another folder is refused, and so is a transfer without a data connection."""
    content = bytes(range(256)) * 5000
    run = subprocess.run([program, "/absent"], capture_output=True, text=True, timeout=PATIENCE)
    wants("a folder that is not there", (run.returncode, run.stderr[:16]), (1, "files: /absent: "))
    hosts = [HOST] + (["::1"] if has_ipv6() else [])
    for host in hosts:
        with tempfile.TemporaryDirectory() as place, tempfile.TemporaryFile() as log:
            folder, outside = pathlib.Path(place, "folder"), pathlib.Path(place, "outside")
            (folder / "below").mkdir(parents=True)
            outside.write_bytes(b"outside")
            (folder / "two\nlines").write_bytes(b"no line has this name")
            with StartedServer([program, folder, f"[{host}]:0" if ":" in host else f"{host}:0"], log) as server:
                wants_transfers(host, server.port, folder, content)
                if host == HOST:
                    wants_data_ports(server.port)
                    found = wants_downloads(server.port, content)
            wants("what is outside", outside.read_bytes(), b"outside")
            log.seek(0)
            lines = log.read().splitlines()
            wants("what is logged of a password", f"{host}: PASS ***".encode() in lines and b"secret" not in b"".join(lines), True)
    return f"{len(content):,} bytes at {' and '.join(hosts)}, with {', '.join(['ftplib', *found])}"


def check_proxy(program, server):
    """Clients get files through the proxy. What would change one is refused, and the answer waits for the replies before it."""
    content = bytes(range(256)) * 5000
    with tempfile.TemporaryDirectory() as place, tempfile.TemporaryFile() as log:
        folder = pathlib.Path(place)
        (folder / "new").write_bytes(content)
        with StartedServer([server, folder, f"{HOST}:0"], log) as behind, StartedServer([program, f"{HOST}:{behind.port}", f"{HOST}:0"]) as proxy:
            found = wants_downloads(proxy.port, content)
            with ftplib.FTP(timeout=PATIENCE) as client:
                client.connect(HOST, proxy.port)
                client.login("anna", "secret")
                received = []
                client.retrbinary("RETR new", received.append)
                wants("what is read", b"".join(received), content)
                for line in ["DELE new", "STOR new", "PORT 127,0,0,1,8,1"]:
                    wants(f"the code of {line}", refused_code(client, line), "502")
                wants("the code of EPSV 2", refused_code(client, "EPSV 2"), "522")
                wants("the code of QUIT", client.quit()[:3], "221")
            with proxy.connect() as connection:
                connection.sendall(b"DELE new\r\nNOOP\r\nTYPE A\rDELE new\r\nUSER anna\r\nQUIT\r\n")
                codes = [line[:3] for line in receive(connection).splitlines()]
            wants("the order of replies", codes, [b"220", b"502", b"200", b"501", b"331", b"221"])
    return f"{len(content):,} bytes, with {', '.join(['ftplib', *found])}"


def check_filter(program, server):
    """Clients log in through the proxy. It logs each line, and no DELE gets through."""
    clients = {"curl": talk_by_curl, "lftp": talk_by_lftp}
    found = [name for name in clients if shutil.which(name)]
    with tempfile.TemporaryDirectory() as folder, tempfile.TemporaryFile() as passed, tempfile.TemporaryFile() as log:
        with StartedServer([server, folder, f"{HOST}:0"], passed) as behind, StartedServer([program, f"{HOST}:{behind.port}", f"{HOST}:0"], log) as proxy:
            for name in found:
                replies = clients[name](proxy.port)
                wants(f"the replies to {name}", (replies[0], "230" in replies, replies[-1]), ("220", True, "221"))
            with ftplib.FTP(timeout=PATIENCE) as client:
                client.connect(HOST, proxy.port)
                client.login("anna", "secret")
                for line in ["DELE new", "dele new", "EPSV", "SITE DELE new", "XRMD new"]:
                    wants(f"the code of {line}", refused_code(client, line), "502")
                wants("the directory", client.pwd(), "/")
                wants("the code of QUIT", client.quit()[:3], "221")
            with proxy.connect() as connection:
                connection.sendall(b"DELE new\r\nNOOP\r\nDELE\tnew\r\nNOOP\rDELE new\r\nUSER anna\r\nQUIT\r\n")
                codes = [line[:3] for line in receive(connection).splitlines()]
            wants("the order of replies", codes, [b"220", b"502", b"200", b"502", b"501", b"331", b"221"])
        for file in [passed, log]:
            file.seek(0)
        sent, lines = passed.read(), [line.split(b": ", 1)[-1] for line in log.read().splitlines()]
    wants("whether the server has the lines that are allowed", (b"PASS ***" in sent, b"DELE" in sent), (True, False))
    wants("the lines of the log", {b"PASS ***", b"DELE new", b"PWD", b"QUIT"} - set(lines), set())
    wants("whether the log has the password", b"secret" in b"".join(lines), False)
    return f"{len(lines)} lines, of {', '.join(['ftplib', *found])}"


def check_transfer(program, client):
    """The client puts, lists and gets a file. It says why there is none, and sends no name of two lines."""
    content = bytes(range(256)) * 100_000
    hosts = [HOST] + (["::1"] if has_ipv6() else [])
    for host in hosts:
        with tempfile.TemporaryDirectory() as place:
            folder, source, copy, none = (pathlib.Path(place, name) for name in ["folder", "source", "copy", "none"])
            folder.mkdir()
            source.write_bytes(content)
            with StartedServer([program, folder, f"[{host}]:0" if ":" in host else f"{host}:0"]) as server:

                def run(*words):
                    run = subprocess.run([client, host, str(server.port), "anna", "secret", *words], capture_output=True, text=True, timeout=PATIENCE)
                    return run.returncode, run.stdout, run.stderr

                wants("how it puts", run("put", source, "new"), (0, "", ""))
                wants("what is stored", (folder / "new").read_bytes(), content)
                status, listing, _ = run("list")
                wants("the listing", (status, [(line.split()[4], line.split()[-1]) for line in listing.splitlines()]), (0, [(str(len(content)), "new")]))
                wants("how it gets", run("get", "new", copy), (0, "", ""))
                wants("what it got", copy.read_bytes(), content)
                status, _, said = run("get", "absent", none)
                wants("a file that is absent", (status, said[:34], none.exists()), (1, "transfer: the server refuses: 550 ", False))
                wants("a name of two lines", run("get", "a\nDELE new", none), (1, "", "transfer: not one line\n"))
    return f"{len(content):,} bytes at {' and '.join(hosts)}"


MOST_IN_MEMORY = 1024 * 1024


def refusal_of_storing(client, content):
    """The code of the final reply to an upload that the server refuses, before or after it closes the data connection."""
    client.voidcmd("TYPE I")
    with client.transfercmd("STOR large") as data:
        try:
            data.sendall(content)
            data.shutdown(socket.SHUT_WR)
        except OSError:
            pass
    try:
        return f"{client.voidresp()[:3]}, no refusal"
    except ftplib.Error as error:
        return str(error)[:3]


def check_in_memory(program, client):
    """Files are stored, listed, measured, read and deleted. One that is too large isn't kept, and one that is absent is refused."""
    content = bytes(range(256)) * 1000
    with StartedServer([program, f"{HOST}:0"], subprocess.DEVNULL) as server, ftplib.FTP(timeout=PATIENCE) as ftp:

        def run(*words):
            run = subprocess.run([client, HOST, str(server.port), "anna", "secret", *words], capture_output=True, timeout=PATIENCE)
            return run.returncode, run.stdout

        ftp.connect(HOST, server.port)
        wants("the code of another password", refused_code(ftp, "USER anna") + refused_code(ftp, "PASS x"), "331, no refusal530")
        ftp.login("anna", "secret")
        ftp.storbinary("STOR new", io.BytesIO(content))
        too_large = refusal_of_storing(ftp, bytes(MOST_IN_MEMORY + 1))
        wants("the code of too large a file", too_large, "451")
        status, listing = run()
        wants("the listing", (status, [(line.split()[4], line.split()[-1]) for line in listing.splitlines()]), (0, [(b"256000", b"new")]))
        wants("the file", run("new"), (0, content))
        wants("a file that is absent", run("absent"), (1, b""))
        wants("its size", ftp.size("new"), len(content))
        wants("the code of DELE", ftp.sendcmd("DELE new")[:3], "250")
        for line in ["DELE new", "SIZE new", "CWD below"]:
            wants(f"the code of {line}", refused_code(ftp, line)[:1], "5")
        wants("the names that are left", ftp.nlst(), [])
        wants("the code of QUIT", ftp.quit()[:3], "221")
    return f"{len(content):,} bytes"


CHECKS = {
    "codes": check_codes,
    "public": check_public,
    "start": check_start,
    "memory": check_memory,
    "version": check_version,
    "arguments": check_arguments,
    "descriptors": check_descriptors,
    "session": check_session,
    "urgent": check_urgent,
    "late": check_late,
    "idle": check_idle,
    "limit": check_limit,
    "stop": check_stop,
    "files": check_files,
    "transfer": check_transfer,
    "in_memory": check_in_memory,
    "proxy": check_proxy,
    "filter": check_filter,
    "speed": check_speed,
}


if __name__ == "__main__":
    sys.exit(run_check(CHECKS, __doc__))
