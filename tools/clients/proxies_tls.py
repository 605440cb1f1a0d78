"""TLS of the programs ftp-proxy and ftp-record, toward clients and toward the server: checks of tools/clients/proxies."""

import contextlib
import os
import shutil
import signal
import socket
import ssl
import subprocess
import tempfile
import time

from proxy_session import (GREETING, HOST, PATIENCE, QUIET, REFUSED, WAYS, Program, Session, begin, certificate, held, is_closed, is_reset, passive,
                           program_of, receive, until_logged, wants)

FEATURES = b"211-Features:\r\n AUTH SSL\r\n\tAUTH TLS\r\n EPSV\r\n LPRT\r\n PBSZ\r\n PROT C;P\r\n UTF8\r\n211 End\r\n"


def unchecked():
    """A client's side of TLS that takes any certificate."""
    context = ssl.create_default_context()
    context.check_hostname, context.verify_mode = False, ssl.CERT_NONE
    return context


def check_tls(proxy, _):
    """The program speaks TLS to the client, and uses nothing that came in clear text after AUTH."""
    context = unchecked()
    with tempfile.TemporaryDirectory() as folder:
        files = certificate(folder)
        with Session([proxy, "--certificate", files[0], "--key", files[1]]) as session:
            session.client.sendall(b"FEAT\r\n")
            session.reaches(b"FEAT\r\n")
            session.server.sendall(FEATURES)
            session.gets(b"211-Features:\r\n EPSV\r\n UTF8\r\n AUTH TLS\r\n PBSZ\r\n PROT\r\n211 End\r\n")
            session.answers(b"AUTH SSL\r\n", b"504 AUTH TLS only\r\n")
            session.answers(b"PBSZ 0\r\n", b"503 AUTH TLS, PBSZ 0 and PROT come in this order\r\n")
            session.answers(b"AUTH TLS\r\nDELE a\r\nPWD\r\nSIT", b"234 Begin TLS\r\n")
            session.client = context.wrap_socket(session.client)
            session.answers(b"PROT P\r\n", b"503 AUTH TLS, PBSZ 0 and PROT come in this order\r\n")
            session.answers(b"AUTH TLS\r\n", b"503 Under TLS already\r\n")
            session.answers(b"PBSZ 0\r\nPROT S\r\n", b"200 PBSZ=0\r\n536 The levels are C and P\r\n")
            session.answers(b"PROT P\r\n", b"200 Protection level set\r\n")
            session.passes(b"USER a\r\n")
            for way in WAYS:
                with way(session) as (client, server):
                    begin(session, b"STOR a\r\n")
                    with context.wrap_socket(client, session=session.client.session) as client:
                        client.sendall(b"content")
                        client.settimeout(QUIET)
                        with contextlib.suppress(TimeoutError):
                            client.unwrap()  # its end is sent, and the server has not closed yet
                        wants("what is stored", receive(server), b"content")
                    server.close()
                    session.server.sendall(b"226 Done\r\n")
                    session.gets(b"226 Done\r\n")
                with way(session) as (client, server):
                    begin(session, b"STOR a\r\n")
                    with context.wrap_socket(client, session=session.client.session) as client:
                        client.sendall(b"cut off")
                        wants("what is stored", receive(server, 7), b"cut off")
                        client.shutdown(socket.SHUT_WR)
                        wants("whether the server sees a fault", is_reset(server), True)
                    session.server.sendall(b"426 Lost\r\n")
                    session.gets(b"426 Lost\r\n")
            session.passes(b"QUIT\r\n", reply=b"221 Bye\r\n")
            session.server.close()
            session.ends(b"")
        with Session([proxy, "--certificate", files[0], "--key", files[1]]) as session:
            session.passes(b"USER a\r\n")
            session.answers(b"AUTH TLS\r\n", b"503 AUTH comes before USER\r\n")
            session.answers(b"CCC\r\n", REFUSED)
            session.is_quiet()
    with Session([proxy]) as session:
        for line in [b"AUTH TLS\r\n", b"PBSZ 0\r\n", b"PROT P\r\n"]:
            session.answers(line, b"502 No TLS here\r\n")
        session.client.sendall(b"FEAT\r\n")
        session.reaches(b"FEAT\r\n")
        session.server.sendall(FEATURES)
        session.gets(b"211-Features:\r\n EPSV\r\n UTF8\r\n211 End\r\n")
        session.client.sendall(b"FEAT\r\n")
        session.reaches(b"FEAT\r\n")
        session.server.sendall(b"211-AUTH TLS\r\n EPSV\r\n211-AUTH TLS\r\n211 End\r\n")
        session.gets(b"211- EPSV\r\n211 End\r\n")


def check_level(proxy, _):
    """A data connection has the level of the last PROT, also where PASV came before it. One that is open then is closed, but not one whose final
    reply waits for its data: PROT waits for that reply."""
    context = unchecked()
    with tempfile.TemporaryDirectory() as folder:
        files = certificate(folder)
        with Session([proxy, "--allow", "PASV,STOR,RETR,REIN", "--certificate", files[0], "--key", files[1]]) as session:
            session.answers(b"AUTH TLS\r\n", b"234 Begin TLS\r\n")
            session.client = context.wrap_socket(session.client)
            session.answers(b"REIN\r\n", b"502 No REIN under TLS\r\n")
            session.answers(b"PBSZ 0\r\n", b"200 PBSZ=0\r\n")
            private = lambda: session.answers(b"PROT P\r\n", b"200 Protection level set\r\n")
            with passive(session, before=private) as (client, server):
                begin(session, b"STOR a\r\n")
                with context.wrap_socket(client, session=session.client.session) as client:
                    client.sendall(b"content")
                    wants("what is stored", receive(server, 7), b"content")
                session.server.sendall(b"426 Lost\r\n")
                session.gets(b"426 Lost\r\n")
            session.answers(b"PROT C\r\n", b"200 Protection level set\r\n")
            with held(session) as client:
                session.client.sendall(b"PROT P\r\n")
                session.is_quiet(session.client)
                receive(client)
                session.gets(b"226 Done\r\n200 Protection level set\r\n")
            session.answers(b"PROT C\r\n", b"200 Protection level set\r\n")
            with passive(session) as (client, server):
                client.sendall(b"a")
                wants("what passes before", receive(server, 1), b"a")
                private()
                wants("whether both ends are closed", (is_closed(client), is_closed(server)), (True, True))


def presented(session):
    """The certificate that a new session is shown."""
    context = unchecked()
    with session.connect() as client, session.accept() as server:
        server.sendall(GREETING)
        wants("the greeting", receive(client, len(GREETING)), GREETING)
        client.sendall(b"AUTH TLS\r\n")
        wants("the reply", receive(client, 15), b"234 Begin TLS\r\n")
        with context.wrap_socket(client) as secured:
            return ssl.DER_cert_to_PEM_cert(secured.getpeercert(binary_form=True))


def private(session, context):
    """Turns the client's connections to TLS."""
    session.answers(b"AUTH TLS\r\n", b"234 Begin TLS\r\n")
    session.client = context.wrap_socket(session.client)
    session.answers(b"PBSZ 0\r\nPROT P\r\n", b"200 PBSZ=0\r\n200 Protection level set\r\n")


def stores(session, context, tls_session):
    """Whether a data connection with this session is taken, and whether it resumes one."""
    with passive(session) as (client, server):
        begin(session, b"STOR a\r\n")
        try:
            with context.wrap_socket(client, session=tls_session) as client:
                is_resumed = client.session_reused
                client.sendall(b"content")
                wants("what is stored", receive(server, 7), b"content")
                session.server.sendall(b"426 Lost\r\n")
        except (ssl.SSLError, ConnectionResetError):
            session.server.sendall(b"426 Lost\r\n")
            is_resumed = None
        session.gets(b"426 Lost\r\n")
    return is_resumed


def check_resumed(proxy, record):
    """A client resumes the TLS session of its control connection on each data connection, and no other one."""
    context = unchecked()
    with tempfile.TemporaryDirectory() as folder:
        files = certificate(folder)
        options = ["--certificate", files[0], "--key", files[1]]
        for words in [[proxy], [record, "--output", "/dev/null"]]:
            with Session([*words, *options]) as session:
                private(session, context)
                session.passes(b"USER anna\r\n", reply=b"331 Password\r\n")
                session.passes(b"PASS secret\r\n", reply=b"230 OK\r\n")
                own = session.client.session
                wants("whether it resumes", [stores(session, context, found) for found in [own, own, None]], [True, True, None])
                # another client of the same address, and another connection of the same user
                for name, expected in [(b"ben", None), (b"anna", True)]:
                    client, server = session.client, session.server
                    session.client, session.server = session.connect(), session.accept()
                    session.server.sendall(GREETING)
                    session.gets(GREETING)
                    private(session, context)
                    session.passes(b"USER %s\r\n" % name, reply=b"331 Password\r\n")
                    session.passes(b"PASS secret\r\n", reply=b"230 OK\r\n")
                    other = session.client.session
                    wants(f"whether {name} resumes another one's", stores(session, context, own), expected)
                    wants(f"whether {name} resumes the own one", stores(session, context, other), True)
                    session.client.close()
                    session.server.close()
                    session.client, session.server = client, server
        with Session([proxy, *options, "--any-data-session"]) as session:
            private(session, context)
            wants("whether any is taken", stores(session, context, None), False)


def check_required(proxy, record):
    """With --require-tls no name, password or transfer is in clear text."""
    context = unchecked()
    with tempfile.TemporaryDirectory() as folder:
        files = certificate(folder)
        for words in [[proxy], [record, "--output", "/dev/null"]]:
            with Session([*words, "--certificate", files[0], "--key", files[1], "--require-tls"]) as session:
                session.passes(b"NOOP\r\n")
                for line in [b"USER a", b"PASS b", b"ACCT c"]:
                    session.answers(line + b"\r\n", b"534 AUTH TLS comes first\r\n")
                session.answers(b"AUTH TLS\r\n", b"234 Begin TLS\r\n")
                session.client = context.wrap_socket(session.client)
                session.passes(b"USER a\r\n", reply=b"331 Password\r\n")
                session.passes(b"PASS b\r\n", reply=b"230 OK\r\n")
                for line in [b"RETR a", b"STOR a", b"APPE a", b"STOU", b"LIST", b"NLST", b"MLSD"]:
                    session.answers(line + b"\r\n", b"521 Data connections are under TLS only: use PROT P\r\n")
                session.answers(b"PBSZ 0\r\nPROT C\r\n", b"200 PBSZ=0\r\n534 Data connections are under TLS only\r\n")
                session.answers(b"PROT P\r\n", b"200 Protection level set\r\n")
                wants("whether data is taken", stores(session, context, session.client.session), True)


class Implicit(Session):
    """One whose program begins TLS at once."""

    listens = ["--implicit-tls", f"{HOST}:0"]

    def connect(self):
        self.context = unchecked()
        return self.context.wrap_socket(super().connect())


def check_implicit(proxy, record):
    """TLS begins at once, and data connections are under it without PBSZ and PROT. It listens nowhere else."""
    with tempfile.TemporaryDirectory() as folder:
        files = certificate(folder)
        for words in [[proxy], [record, "--output", "/dev/null"]]:
            with Implicit([*words, "--certificate", files[0], "--key", files[1], "--require-tls"]) as session:
                wants("how many ports it prints", len(session.program.ports), 1)
                session.answers(b"AUTH TLS\r\n", b"503 Under TLS already\r\n")
                session.passes(b"USER a\r\n", reply=b"331 Password\r\n")
                session.passes(b"PASS b\r\n", reply=b"230 OK\r\n")
                wants("whether data is taken", stores(session, session.context, session.client.session), True)
                session.answers(b"PBSZ 0\r\nPROT P\r\n", b"200 PBSZ=0\r\n200 Protection level set\r\n")
                wants("whether data is taken", stores(session, session.context, session.client.session), True)
    run = subprocess.run([proxy, "--implicit-tls", f"{HOST}:0", f"{HOST}:21"], capture_output=True, text=True, timeout=PATIENCE, check=False)
    wants("whether it asks for a certificate", (run.returncode, "--certificate" in run.stderr), (2, True))


def authority(folder, name):
    """The certificate of an authority, and that of a server of this name which it has signed, with its key."""
    files = {each: f"{folder}/{each}.pem" for each in ["ca", "ca-key", "server", "server-key"]}
    new = ["openssl", "req", "-x509", "-newkey", "rsa:2048", "-nodes", "-days", "2"]
    for words in [
        ["-subj", "/CN=authority", "-out", files["ca"], "-keyout", files["ca-key"]],
        ["-subj", "/CN=server", "-out", files["server"], "-keyout", files["server-key"], "-CA", files["ca"], "-CAkey", files["ca-key"],
         "-addext", f"subjectAltName=DNS:{name}", "-addext", "basicConstraints=critical,CA:FALSE"],
    ]:
        subprocess.run([*new, *words], check=True, capture_output=True, timeout=PATIENCE)
    return files


class Protected(Session):
    """One whose server speaks TLS, with the certificate and the key of two files."""

    def __init__(self, command, files, named="localhost", auth=b"234 Go on\r\n"):
        super().__init__(command)
        self.named, self.auth = named, auth
        self.secured = ssl.SSLContext(ssl.PROTOCOL_TLS_SERVER)
        self.secured.load_cert_chain(*files)

    def __enter__(self):
        self.begin()
        self.gets(GREETING)
        return self

    def accept(self):
        server = super().accept()
        server.sendall(GREETING)
        wants("the first line", receive(server, 10), b"AUTH TLS\r\n")
        server.sendall(self.auth)
        server = self.secured.wrap_socket(server, server_side=True)
        for line in [b"PBSZ 0\r\n", b"PROT P\r\n"]:
            wants("the next line", receive(server, 8), line)
            server.sendall(b"200 OK\r\n")
        return server


def check_protected(proxy, record):
    """The program speaks TLS to the server, whatever it speaks to the client. Each data connection resumes the session of the control connection."""
    with tempfile.TemporaryDirectory() as folder:
        files = authority(folder, "localhost")
        pair = (files["server"], files["server-key"])
        own = certificate(folder)
        trusting = ["--server-tls", "--server-ca", files["ca"]]
        for words, keys, named in [
            ([proxy, *trusting], pair, "localhost"),
            ([record, "--output", "/dev/null", *trusting], pair, "localhost"),
            ([proxy, *trusting, "--server-name", "localhost"], pair, HOST),
            # the certificate itself, which another name has signed: its own
            ([proxy, "--server-tls", "--server-ca", own[0]], own, HOST),
            ([proxy, *trusting, "--certificate", own[0], "--key", own[1]], pair, "localhost"),
        ]:
            with Protected(words, keys, named) as session:
                context = unchecked() if "--certificate" in words else None
                if context:
                    private(session, context)
                session.passes(b"USER a\r\n")
                session.passes(b"TYPE I\r\nPWD\r\n", reply=b"200 OK\r\n257 a\r\n")
                session.answers(b"REIN\r\n", b"502 No REIN under TLS\r\n" if record in words else REFUSED)
                for way in WAYS:
                    for line in [b"STOR a\r\n", b"RETR a\r\n"]:
                        with way(session) as (client, server):
                            begin(session, line)
                            moves(session, context, client, server, line)


def moves(session, context, client, server, line):
    """Moves a content over a data connection, of which the server's end is under TLS."""
    with session.secured.wrap_socket(server, server_side=True) as server:
        wants("whether it resumes the session", server.session_reused, True)
        if context:
            client = context.wrap_socket(client, session=session.client.session)
        sender, receiver = (client, server) if line.startswith(b"STOR") else (server, client)
        sender.sendall(b"content")
        wants("what is moved", receive(receiver, 7), b"content")
        for end in [sender, receiver]:
            end.settimeout(PATIENCE)
            if isinstance(end, ssl.SSLSocket):
                with contextlib.suppress(TimeoutError, OSError):
                    end.settimeout(QUIET)
                    end.unwrap()
            with contextlib.suppress(OSError):
                end.shutdown(socket.SHUT_WR)
        session.server.sendall(b"226 Done\r\n")
        session.gets(b"226 Done\r\n")


def check_other_authorities(proxy, _):
    """At SIGHUP the authorities are read again, for sessions that begin then."""
    with tempfile.TemporaryDirectory() as folder, tempfile.TemporaryDirectory() as strange:
        files, others = authority(folder, "localhost"), authority(strange, "localhost")
        with Protected([proxy, "--server-tls", "--server-ca", files["ca"]], (files["server"], files["server-key"])) as session:
            shutil.copy(others["ca"], files["ca"])
            os.kill(program_of(session), signal.SIGHUP)
            until_logged(session, b"read again", 1)
            with session.connect() as client:
                with contextlib.suppress(OSError):  # the handshake fails
                    session.accept().close()
                wants("what a new client gets", receive(client), b"421 The server can't be reached under TLS\r\n")
            session.passes(b"NOOP\r\n")


def check_abort_protected(proxy, _):
    """ABOR of a transfer ends the data connection of a server under TLS, which has no urgent data, after a second, unless the server answers it: some
    only look at lines after a transfer."""
    with tempfile.TemporaryDirectory() as folder:
        own = certificate(folder)
        with Protected([proxy, "--server-tls", "--server-ca", own[0]], own, HOST) as session:
            for line in [b"STOR a\r\n", b"RETR a\r\n"]:
                with passive(session) as (client, server):
                    begin(session, line)
                    with session.secured.wrap_socket(server, server_side=True) as server:
                        begun = time.monotonic()
                        session.client.sendall(b"ABOR\r\n")
                        session.reaches(b"ABOR\r\n")
                        wants("whether both ends are closed", (is_closed(client), is_closed(server)), (True, True))
                        wants("whether the server had its time", time.monotonic() - begun >= 1, True)
                session.server.sendall(b"426 Aborted\r\n225 Nothing\r\n")
                session.gets(b"426 Aborted\r\n225 Nothing\r\n")


def refused(session, said):
    """The client of such a session gets a 421, and the log has these words."""
    with tempfile.TemporaryFile() as session.log, socket.create_server((HOST, 0)) as session.listener:
        session.listener.settimeout(PATIENCE)
        words = [*session.command, *session.listens, f"{session.named}:{session.listener.getsockname()[1]}"]
        with Program(words, session.log) as session.program, session.connect() as client:
            with contextlib.suppress(OSError):  # the handshake fails
                session.accept().close()
            wants(f"what the client gets where {said} is logged", receive(client), b"421 The server can't be reached under TLS\r\n")
            until_logged(session, said, 1)


def check_server_refused(proxy, _):
    """A server without TLS, or whose certificate is not right, gets no line of the client, which is told; and the log says why."""
    with tempfile.TemporaryDirectory() as folder, tempfile.TemporaryDirectory() as strange:
        files, others = authority(folder, "localhost"), authority(strange, "localhost")
        pair = (files["server"], files["server-key"])
        for words, named, auth, said in [
            (["--server-ca", others["ca"]], "localhost", b"234 Go on\r\n", b"UnknownIssuer"),
            (["--server-ca", files["ca"], "--server-name", "other.example"], "localhost", b"234 Go on\r\n", b"CertNotValidForName"),
            (["--server-ca", files["ca"]], HOST, b"234 Go on\r\n", b"given by its address"),
            ([], "localhost", b"234 Go on\r\n", b"UnknownIssuer"),
            (["--server-ca", files["ca"]], "localhost", b"502 No\r\n", b"answers AUTH TLS by 502"),
            (["--server-ca", files["ca"]], "localhost", b"234 Go on\r\n200 x\r\n", b"clear text after 234"),
        ]:
            refused(Protected([proxy, "--server-tls", *words], pair, named, auth), said)
    for words, said in [
        (["--server-ca", "/dev/null", f"{HOST}:21"], "--server-tls"),
        (["--server-tls", "--server-ca", "/dev/null", f"{HOST}:21"], "/dev/null: no certificate"),
        (["--server-tls", "--server-ca", "/none/x", f"{HOST}:21"], "/none/x"),
    ]:
        run = subprocess.run([proxy, "--listen", f"{HOST}:0", *words], capture_output=True, text=True, timeout=PATIENCE, check=False)
        wants(f"whether it says {said} in {run.stderr!r}", (run.returncode != 0, said in run.stderr), (True, True))
