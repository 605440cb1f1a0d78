"""FTP servers of others on loopback, and the folder that a server serves in a check: vsftpd, proftpd, pure-ftpd and pyftpdlib."""

import base64
import contextlib
import crypt
import hashlib
import os
import pathlib
import re
import shutil
import signal
import socket
import subprocess
import sys
import tempfile
import time
from typing import NamedTuple

HOST, HOST6 = "127.0.0.1", "::1"
USER, PASSWORD = "anna", "secret"
# how long a server may take until it listens, also on a busy machine
PATIENCE = 60
# how many clients at a time a server has to serve
CLIENTS = 500
# where the programs are that are not on the path
PROGRAMS = ["", "usr/sbin", "usr/bin", "usr/local/sbin"]
ROUNDS = 1_000
# the user whose rights pure-ftpd takes, which are none
OWNER = 65534


class NoServer(Exception):
    """A server is not there, or doesn't start."""


class Place:
    """What a server is given: the folder that it serves, its user, and its certificate. It is gone at the end."""

    def __init__(self, packages=None, secure=True):
        self.work = pathlib.Path(tempfile.mkdtemp(prefix="transfers."))
        self.work.chmod(0o755)
        self.folder = self.work / "folder"
        self.folder.mkdir()
        self.folder.chmod(0o777)
        self.packages = packages
        self.owner = os.geteuid()
        self.certificate, self.key = self.work / "certificate.pem", self.work / "key.pem"
        self.users = self.work / "users"
        self.users.write_text(f"{USER}:{hashed(PASSWORD)}\n", encoding="ascii")
        if secure:
            make_certificate(self.certificate, self.key)

    def __enter__(self):
        return self

    def __exit__(self, *_):
        shutil.rmtree(self.work, ignore_errors=True)

    def program(self, name):
        """The path of a program: among the unpacked packages, or on the system."""
        folders = [pathlib.Path(self.packages, part) for part in PROGRAMS] if self.packages else []
        found = shutil.which(name, path=os.pathsep.join([*map(str, folders), os.environ["PATH"], "/usr/sbin"]))
        if not found:
            raise NoServer(f"{name} is not installed")
        return found

    def file(self, name, text):
        """A file of the server's configuration."""
        path = self.work / name
        path.write_text(text, encoding="ascii")
        return str(path)


def hashed(password):
    """The password in the PHC string format, by PBKDF2."""
    salt = os.urandom(16)
    digest = hashlib.pbkdf2_hmac("sha256", password.encode(), salt, ROUNDS)
    fields = [base64.b64encode(field).decode().rstrip("=") for field in (salt, digest)]
    return f"$pbkdf2-sha256$i={ROUNDS},l={len(digest)}${'$'.join(fields)}"


def make_certificate(certificate, key):
    """A certificate for the addresses of loopback, signed by itself. Without openssl there is none, and no TLS."""
    if not shutil.which("openssl"):
        return
    words = ["openssl", "req", "-x509", "-newkey", "rsa:2048", "-nodes", "-days", "30", "-subj", "/CN=localhost", "-addext",
             "subjectAltName=DNS:localhost,IP:127.0.0.1,IP:::1", "-keyout", str(key), "-out", str(certificate)]
    subprocess.run(words, check=True, capture_output=True, timeout=PATIENCE)
    key.chmod(0o600)


def free_port(host):
    """A port that nothing listens on, for a server that has to be told one."""
    with socket.create_server((host, 0), family=family_of(host)) as listener:
        return listener.getsockname()[1]


def family_of(host):
    return socket.AF_INET6 if ":" in host else socket.AF_INET


def vsftpd(place, host, port):
    """Its user is the anonymous one, who may write. It has no chroot, so that any user may run it."""
    address = "listen_ipv6=YES\nlisten=NO\nlisten_address6" if ":" in host else "listen=YES\nlisten_ipv6=NO\nlisten_address"
    tls = f"ssl_enable=YES\nallow_anon_ssl=YES\nrequire_ssl_reuse=NO\nforce_local_data_ssl=NO\nforce_local_logins_ssl=NO\n" \
          f"rsa_cert_file={place.certificate}\nrsa_private_key_file={place.key}\n"
    text = f"{address}={host}\nlisten_port={port}\nbackground=NO\nrun_as_launching_user=YES\n" \
           f"anonymous_enable=YES\nno_anon_password=NO\nanon_root={place.folder}\nwrite_enable=YES\nanon_upload_enable=YES\n" \
           "anon_mkdir_write_enable=YES\nanon_other_write_enable=YES\nanon_world_readable_only=NO\nanon_umask=022\n" \
           f"{tls if place.certificate.exists() else ''}" \
           f"async_abor_enable=YES\nport_promiscuous=NO\nconnect_from_port_20=NO\nmax_clients={CLIENTS}\nmax_per_ip={CLIENTS}\n" \
           "seccomp_sandbox=NO\nisolate=NO\nisolate_network=NO\nxferlog_enable=NO\nuse_localtime=NO\n"
    return [place.program("vsftpd"), place.file(f"vsftpd.{port}", text)], "ftp"


def proftpd(place, host, port):
    """Its user has the id of the one who runs it."""
    user = f"{USER}:{crypt.crypt(PASSWORD, crypt.METHOD_SHA256)}:{os.getuid()}:{os.getgid()}::{place.folder}:/bin/sh\n"
    accounts = place.file(f"proftpd.{port}.users", user)
    os.chmod(accounts, 0o600)
    tls = f"LoadModule mod_tls.c\nTLSEngine on\nTLSRSACertificateFile {place.certificate}\nTLSRSACertificateKeyFile {place.key}\n" \
          "TLSOptions NoSessionReuseRequired\nTLSRequired off\nTLSLog none\n"
    text = f"ServerType standalone\nDefaultAddress {host}\nPort {port}\nUseIPv6 {'on' if ':' in host else 'off'}\nSocketBindTight on\n" \
           f"ModulePath /usr/lib/proftpd\nUser {name_of(os.getuid())}\nGroup {group_of(os.getgid())}\n" \
           f"AuthUserFile {accounts}\nAuthOrder mod_auth_file.c\nRequireValidShell off\nRootLogin on\nUseFtpUsers off\nWtmpLog off\n" \
           f"PidFile {place.work}/proftpd.{port}.pid\nScoreboardFile {place.work}/proftpd.{port}.board\n" \
           f"ControlsEngine off\nDelayTable none\nSystemLog {place.work}/proftpd.{port}.log\nTransferLog none\n" \
           f"UseReverseDNS off\nMaxInstances {CLIENTS}\nAllowOverwrite on\nAllowStoreRestart on\nAllowRetrieveRestart on\nUmask 022\n" \
           f"{tls if place.certificate.exists() else ''}"
    return [place.program("proftpd"), "-n", "-q", "-c", place.file(f"proftpd.{port}", text)], USER


def pure_ftpd(place, host, port):
    """It only starts as root, and gives its user the rights of another one, who owns the folder."""
    if os.geteuid() != 0:
        raise NoServer("pure-ftpd needs root")
    place.owner = OWNER
    program = place.program("pure-ftpd")
    user = f"{USER}:{crypt.crypt(PASSWORD, crypt.METHOD_SHA256)}:{OWNER}:{OWNER}::{place.folder}/./::::::::::::\n"
    accounts = place.file(f"pure-ftpd.{port}.users", user)
    database = f"{place.work}/pure-ftpd.{port}.database"
    subprocess.run([place.program("pure-pw"), "mkdb", database, "-f", accounts], check=True, capture_output=True, timeout=PATIENCE)
    options = ["-S", f"{host},{port}", "-l", f"puredb:{database}", "-E", "-H", "-c", str(CLIENTS), "-C", str(CLIENTS), "-u", "1",
               "-g", f"{place.work}/pure-ftpd.{port}.pid", "-U", "022:022"]
    if place.certificate.exists():
        options += ["-Y", "1", "-2", f"{place.certificate},{place.key}"]
    return [program, *options, *([] if ":" in host else ["-4"])], USER


PYFTPDLIB = """
import sys
from pyftpdlib import authorizers, handlers, servers
folder, host, port, user, password, certificate, key = sys.argv[1:]
handler = handlers.TLS_FTPHandler if certificate else handlers.FTPHandler
if certificate:
    handler.certfile, handler.keyfile = certificate, key
handler.authorizer = authorizers.DummyAuthorizer()
handler.authorizer.add_user(user, password, folder, perm="elradfmwMT")
handler.timeout = 600
servers.ThreadedFTPServer((host, int(port)), handler).serve_forever()
"""


def pyftpdlib(place, host, port):
    """Debian's Python has it, which needn't be the one that runs this. Each session has a thread: where one serves all, now and then a session
    is no longer served."""
    python = next((name for name in [sys.executable, "/usr/bin/python3"] if imports(name, "pyftpdlib")), None)
    if python is None:
        raise NoServer("pyftpdlib is not installed")
    secure = place.certificate.exists() and imports(python, "OpenSSL")
    pem = [str(place.certificate), str(place.key)] if secure else ["", ""]
    return [python, "-W", "ignore", "-c", PYFTPDLIB, str(place.folder), host, str(port), USER, PASSWORD, *pem], USER


def imports(python, module):
    """Whether this Python has the module."""
    run = subprocess.run([python, "-W", "ignore", "-c", f"import {module}"], capture_output=True, check=False, timeout=PATIENCE)
    return run.returncode == 0


def name_of(number):
    return subprocess.run(["id", "-un", str(number)], capture_output=True, text=True, check=True).stdout.strip()


def group_of(number):
    found = subprocess.run(["getent", "group", str(number)], capture_output=True, text=True, check=True).stdout
    return found.partition(":")[0]


class Known(NamedTuple):
    """Cases that fail before a server, and why; where `proxy` is set, only with or without a proxy between."""

    cases: str
    why: str
    proxy: bool | None = None


KNOWN = {
    "vsftpd": [
        Known("rclone: .*TLS", "the TLS of Go ends its data connections", False),
        Known("lftp: put .*TLS", "it sends session tickets on data connections, which lftp doesn't read: then the upload is reset", False),
        Known("ftplib: abort get, urgent .*clear", "the line feed that is urgent data is missing in its line", False),
    ],
    "proftpd": [
        Known("ftplib: abort .*TLS", "the reply to ABOR after the end of a transfer is 426", False),
        Known("ftplib: abort get, urgent .*clear", "the line feed that is urgent data is missing in its line", False),
        Known("ftplib: abort put .*clear", "the reply to ABOR after the end of a transfer is 426"),
        Known("tnftp: abort get", "no reply to ABOR follows 426"),
    ],
    "pure-ftpd": [
        Known("ncftp: list names", "the option in NLST is taken as a name"),
        Known("ftplib: get a part", "a second 150 comes where the data connection is closed early"),
        Known("lftp: abort get", "ABOR in a transfer isn't answered"),
        Known("ftplib: abort put", "ABOR in an upload isn't answered, or by 451"),
        Known("ftplib: abort get, urgent .*clear", "the line feed that is urgent data is missing in its line", False),
    ],
    "pyftpdlib": [
        Known("ncftp: list names", "the option in NLST is taken as a name"),
        Known("lftp: .*PORT", "the reply to PORT comes after those of later lines"),
        Known("TLS", "bytes are lost as TLS ends on a data connection", False),
        Known("ftplib: abort put", "ABOR before the data connection is open has one reply, and the transfer none", True),
        Known("rclone: put a folder", "MKD of a folder that another session makes has 501"),
    ],
}
PEERS = {"vsftpd": vsftpd, "proftpd": proftpd, "pure-ftpd": pure_ftpd, "pyftpdlib": pyftpdlib}


class Process:
    """A server while it runs. `timeout` ends it, even where this script was killed before it could."""

    def __init__(self, words, log, life):
        self.log = log
        limited = ["timeout", "--foreground", "--kill-after=5", str(life), *words]
        with open(log, "ab") as errors:
            self.process = subprocess.Popen(limited, stdin=subprocess.DEVNULL, stdout=subprocess.PIPE, stderr=errors, start_new_session=True)

    def stop(self):
        """Ends it and what it has started, first by a signal that it can take."""
        for number in [signal.SIGTERM, signal.SIGKILL]:
            with contextlib.suppress(ProcessLookupError):
                os.killpg(self.process.pid, number)
            with contextlib.suppress(subprocess.TimeoutExpired):
                self.process.wait(2)
        self.process.stdout.close()

    def said(self, length=2000):
        """The end of what it has written on standard error."""
        return pathlib.Path(self.log).read_text(encoding="utf-8", errors="replace")[-length:]

    def await_line(self):
        """The last number of the first line that it prints: its port."""
        line = self.process.stdout.readline().decode(errors="replace")
        numbers = re.findall(r"\d+", line)
        if not numbers:
            raise NoServer(f"it prints {line!r} and not its port: {self.said()}")
        return int(numbers[-1])

    def await_port(self, host, port):
        """Waits until it listens on a port."""
        deadline = time.monotonic() + PATIENCE
        while time.monotonic() < deadline and self.process.poll() is None:
            with contextlib.suppress(OSError), socket.create_connection((host, port), PATIENCE) as connection:
                connection.recv(1)
                return
            time.sleep(0.05)
        raise NoServer(f"it doesn't listen on {host} {port}: {self.said()}")


def start_peer(name, place, host, life, port=None):
    """Starts the server of this name: its process, its port, and its user."""
    port = port or free_port(host)
    words, user = PEERS[name](place, host, port)
    process = Process(words, place.work / f"{name}.{port}.errors", life)
    try:
        process.await_port(host, port)
    except NoServer:
        process.stop()
        raise
    return process, port, user


def start_command(words, place, host, life, server="", port=0):
    """Starts a server by a command line that has names in braces for what it is given, and that prints its port: its process and its port."""
    listen = f"[{host}]:{port}" if ":" in host else f"{host}:{port}"
    values = {"folder": place.folder, "certificate": place.certificate, "key": place.key, "users": place.users, "listen": listen, "host": host}
    values["server"] = server
    filled = [re.sub(r"\{(\w+)\}", lambda found: str(values.get(found[1], found[0])), word) for word in words]
    process = Process(filled, place.work / f"command.{len(list(place.work.iterdir()))}.errors", life)
    try:
        return process, process.await_line()
    except NoServer:
        process.stop()
        raise
