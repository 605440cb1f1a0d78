"""Real FTP clients: how each is told to transfer files in a mode, and what it shows.

FileZilla is not among them: it has no command line. `secure`, `choices` and `ipv6` of a client say which modes it has.
"""

import contextlib
import ftplib
import functools
import json
import os
import re
import shutil
import signal
import socket
import ssl
import subprocess
import tempfile
import time
import urllib.parse
from typing import NamedTuple

from peers import HOST, HOST6, family_of

# the end of a client's output that a failure shows
SHOWN = 1500
# the exit statuses of `timeout` where the client takes longer
TIMED_OUT = [124, 137]
# a line of LIST, as `ls -l` writes it: what it is, its size and its name
LISTED = re.compile(r"([-dl])[-rwxsStT]{9}[+.]?\s+\d+\s+\S+\s+\S+\s+(\d+)\s+\w{3}\s+\d+\s+[\d:]+ (.*)")
# IAC IP and IAC DM, which Telnet's Synch sends before the command (RFC 959, section 4.1.3); the DM is urgent
INTERRUPT, MARK = b"\xff\xf4\xff", b"\xf2"


class Wrong(Exception):
    """A case failed."""


def wants(what, found, expected):
    if found != expected:
        raise Wrong(f"{what}: it has {found!r}, and not {expected!r}")


def wants_one_of(what, found, expected):
    if found not in expected:
        raise Wrong(f"{what}: it has {found!r}, and none of {expected!r}")


class Mode(NamedTuple):
    """How the client connects: to which address, with TLS, and with which command for the data connection."""

    host: str = HOST
    secure: bool = False
    command: str = "EPSV"

    @property
    def active(self):
        return self.command in ("EPRT", "PORT")

    def __str__(self):
        return f"{'IPv6' if self.host == HOST6 else 'IPv4'} {'TLS' if self.secure else 'clear'} {self.command}"


class Account(NamedTuple):
    """Where the server listens, and who logs in."""

    ports: dict
    user: str
    password: str
    certificate: str


class Client:
    """A client in one mode. It runs in an empty folder of its own, without a terminal."""

    name = ""
    programs = []
    secure = True
    ipv6 = True
    choices = ["EPSV", "PASV", "EPRT", "PORT"]
    choices6 = ["EPSV", "EPRT"]

    def __init__(self, account, mode, limit):
        self.account, self.mode, self.limit = account, mode, limit
        self.home = tempfile.mkdtemp(prefix=f"{self.name}.")
        self.written = ""

    @classmethod
    def missing(cls):
        """Its first program that is not installed."""
        return next((program for program in cls.programs if not shutil.which(program)), None)

    @classmethod
    def can(cls, mode):
        if mode.host == HOST6:
            return cls.ipv6 and mode.command in cls.choices6 and (cls.secure or not mode.secure)
        return mode.command in cls.choices and (cls.secure or not mode.secure)

    @property
    def port(self):
        return self.account.ports[self.mode.host]

    @property
    def bracketed(self):
        return f"[{self.mode.host}]" if self.mode.host == HOST6 else self.mode.host

    def close(self):
        shutil.rmtree(self.home, ignore_errors=True)

    def environment(self):
        kept = {name: os.environ[name] for name in ["PATH", "TMPDIR"] if name in os.environ}
        trusted = {"SSL_CERT_FILE": self.account.certificate}  # rclone has no option for it
        return kept | trusted | {"HOME": self.home, "NCFTPDIR": self.home, "LC_ALL": "C.UTF-8", "TZ": "UTC", "TERM": "dumb"}

    def run_bytes(self, words, typed=""):
        """Runs the client: what it writes on standard output. It has to end with status 0."""
        limited = ["timeout", "--kill-after=1", str(self.limit), *map(str, words)]
        run = subprocess.run(limited, input=typed.encode(), env=self.environment(), cwd=self.home, capture_output=True, check=False)
        out, err = (stream.decode(errors="replace") for stream in (run.stdout, run.stderr))
        self.written += f"$ {' '.join(limited[3:])}\n{typed}{out[-SHOWN:]}{err}"
        if run.returncode in TIMED_OUT:
            raise Wrong(f"{words[0]} takes more than {self.limit} seconds")
        wants(f"the status of {words[0]}", run.returncode, 0)
        return run.stdout

    def run(self, words, typed=""):
        return self.run_bytes(words, typed).decode(errors="replace")


def listed(text):
    """The names and sizes of the files in the lines of LIST; a folder has no size."""
    found = (LISTED.fullmatch(line.rstrip("\r")) for line in text.splitlines())
    return {match[3]: int(match[2]) if match[1] == "-" else None for match in found if match and match[3] not in (".", "..")}


def named(text):
    """The names in the lines of NLST."""
    names = (line.rpartition("/")[2] for line in text.replace("\r", "").split("\n"))
    return sorted(name for name in names if name not in ("", ".", ".."))


class Curl(Client):
    """Before version 8 it doesn't begin TLS on a data connection that the server opens."""

    name = "curl"
    programs = ["curl"]

    @classmethod
    def can(cls, mode):
        return super().can(mode) and not (mode.active and mode.secure and cls.version() < 8)

    @classmethod
    @functools.cache
    def version(cls):
        shown = subprocess.run(["curl", "--version"], capture_output=True, text=True, check=False).stdout if not cls.missing() else ""
        return int((re.findall(r"^curl (\d+)", shown) or [0])[0])

    def words(self, *options):
        """The command, with the options for the mode."""
        words = ["-sS", "-v", "--max-time", self.limit, "-u", f"{self.account.user}:{self.account.password}"]
        if self.mode.secure:
            words += ["--ssl-reqd", "--cacert", self.account.certificate]
        if self.mode.active:
            words += ["--ftp-port", "-", "--eprt" if self.mode.command == "EPRT" else "--disable-eprt"]
        else:
            words += ["--ftp-pasv", "--epsv" if self.mode.command == "EPSV" else "--disable-epsv"]
        return [*words, *options]

    def url(self, path):
        return f"ftp://{self.bracketed}:{self.port}/{urllib.parse.quote(path)}"

    def curl(self, *options):
        return self.run(["curl", "-q", *self.words(*options)])

    def quote(self, *lines):
        """Sends these commands after the login."""
        self.curl(*[word for line in lines for word in ("-Q", line)], "-I", self.url(""))

    def put(self, local, remote):
        self.curl("-T", local, self.url(remote))

    def get(self, remote, local):
        self.curl("-o", local, self.url(remote))

    def lists(self, folder):
        return {"LIST": listed(self.curl(self.url(f"{folder}/"))), "NLST": named(self.curl("-l", self.url(f"{folder}/")))}

    def resume_get(self, remote, local):
        self.curl("-C", "-", "-o", local, self.url(remote))

    def resume_put(self, local, remote):
        self.curl("-C", "-", "-T", local, self.url(remote))

    def get_part(self, remote, begin, end, local):
        """It closes the data connection in the midst, and sends ABOR."""
        self.curl("-r", f"{begin}-{end - 1}", "-o", local, self.url(remote))

    def get_two(self, first, second, folder):
        """Downloads two files in one session."""
        self.curl("-o", f"{folder}/first", self.url(first), "-o", f"{folder}/second", self.url(second))
        wants("the number of logins", len(re.findall("^< 230", self.written, re.M)), 1)

    def delete(self, path):
        self.quote(f"DELE {path}")

    def rename(self, old, new):
        self.quote(f"RNFR {old}", f"RNTO {new}")

    def make_folder(self, path):
        self.quote(f"MKD {path}")

    def remove_folder(self, path):
        self.quote(f"RMD {path}")


class Lftp(Client):
    """Its EPRT names the address `::`, which a server refuses."""

    name = "lftp"
    programs = ["lftp"]
    choices = ["EPSV", "PASV", "PORT"]
    choices6 = ["EPSV"]

    def settings(self):
        yield from ["set net:max-retries 1", f"set net:timeout {self.limit}", "set cmd:fail-exit yes", "set cmd:interactive no"]
        yield from ["set ftp:sync-mode no", "set net:reconnect-interval-base 1", "set xfer:clobber yes", "set ftp:use-abor yes"]
        yield f"set ftp:passive-mode {'no' if self.mode.active else 'yes'}"
        yield f"set ftp:prefer-epsv {'yes' if self.mode.command == 'EPSV' else 'no'}"
        if self.mode.secure:
            yield from ["set ftp:ssl-force yes", "set ftp:ssl-protect-data yes", "set ftp:ssl-protect-list yes"]
            yield f"set ssl:ca-file {self.account.certificate}"
            yield "set ssl:use-sni no"  # it would name an address, which RFC 6066 forbids and rustls refuses
        else:
            yield "set ftp:ssl-allow no"
        yield f"open -u {self.account.user},{self.account.password} -p {self.port} {self.mode.host}"

    def lftp(self, *lines):
        return self.run(["lftp", "--norc", "-d", "-c", "\n".join([*self.settings(), *lines])])

    def put(self, local, remote, option=""):
        self.lftp(f"put {option} {word(local)} -o {word(remote)}")

    def get(self, remote, local, option=""):
        self.lftp(f"get {option} {word(remote)} -o {word(local)}")

    def lists(self, folder):
        """Its own listing is of MLSD, where the server has it."""
        lines = self.lftp("set ftp:use-mlsd yes", f"cd {word(folder)}", "cls -1 -s --block-size=1 -q")
        fields = re.findall(r"^ *(\d*) (.*?)(/?)$", lines, re.M)
        return {
            "LIST": listed(self.lftp(f"cd {word(folder)}", "ls")),
            "MLSD": {name: None if slash else int(size) for size, name, slash in fields},
            "NLST": named(self.lftp(f"cd {word(folder)}", "nlist")),
        }

    def resume_get(self, remote, local):
        self.get(remote, local, "-c")

    def resume_put(self, local, remote):
        self.put(local, remote, "-c")

    def get_segments(self, remote, local):
        """Four connections, each of which downloads a part."""
        self.lftp(f"pget -n 4 {word(remote)} -o {word(local)}")

    def abort_get(self, big, small, local):
        part = word(local + ".part")
        lines = ["set net:limit-rate 1000000", f"get {word(big)} -o {part} &", f"!until [ -s {part} ]; do sleep 0.1; done", "kill all"]
        self.lftp(*lines, "set net:limit-rate 0", f"get {word(small)} -o {word(local)}")
        if not re.search("^---> .*ABOR", self.written, re.M):
            raise Wrong("it sends no ABOR")

    def delete(self, path):
        self.lftp(f"rm {word(path)}")

    def rename(self, old, new):
        self.lftp(f"mv {word(old)} {word(new)}")

    def make_folder(self, path):
        self.lftp(f"mkdir {word(path)}")

    def remove_folder(self, path):
        self.lftp(f"rmdir {word(path)}")


def word(text):
    """A word in a script of lftp, tnftp or ncftp."""
    return '"' + str(text).replace("\\", "\\\\").replace('"', '\\"') + '"'


class Ncftp(Client):
    """Its commands for one file, and its shell for what they don't do."""

    name = "ncftp"
    programs = ["ncftpget", "ncftpput", "ncftpls", "ncftp"]
    secure = ipv6 = False
    choices = ["PASV", "PORT"]

    def words(self):
        login = ["-u", self.account.user, "-p", self.account.password, "-P", self.port, "-t", self.limit]
        return [*login, "-E" if self.mode.active else "-F"]

    def ncftp(self, *lines):
        opened = f"open -u {self.account.user} -p {self.account.password} -P {self.port} {HOST}"
        self.run(["ncftp"], "\n".join([f"set passive {'off' if self.mode.active else 'on'}", "debug 1", opened, *lines, "quit", ""]))

    def put(self, local, remote):
        self.run(["ncftpput", "-V", *self.words(), "-C", HOST, local, remote])

    def get(self, remote, local):
        self.run(["ncftpget", "-V", *self.words(), "-Z", "-C", HOST, remote, local])

    def lists(self, folder):
        return {"LIST": listed(self.run(["ncftpls", *self.words(), "-l", f"ftp://{HOST}/{folder}/"]))}

    def names(self, folder):
        """It sends NLST with an option of `ls`."""
        return named(self.run(["ncftpls", *self.words(), "-1", f"ftp://{HOST}/{folder}/"]))

    def resume_get(self, remote, local):
        self.run(["ncftpget", "-V", *self.words(), "-z", HOST, os.path.dirname(local), remote])

    def resume_put(self, local, remote):
        """By sendfile it would send the file from its first byte."""
        self.run(["ncftpput", "-V", "-s", *self.words(), "-z", HOST, os.path.dirname(remote), local])

    def delete(self, path):
        self.ncftp(f"rm {word(path)}")

    def rename(self, old, new):
        self.ncftp(f"rename {word(old)} {word(new)}")

    def make_folder(self, path):
        self.ncftp(f"mkdir {word(path)}")

    def remove_folder(self, path):
        self.ncftp(f"rmdir {word(path)}")


class Tnftp(Client):
    """It ends with status 0 whatever was refused, so that only the files say what it has done."""

    name = "tnftp"
    programs = ["tnftp"]
    secure = False

    def lines(self, *lines):
        """What is typed before these lines, and after them."""
        yield f"epsv4 {'on' if self.mode.command in ('EPSV', 'EPRT') else 'off'}"
        yield f"open {self.mode.host} {self.port}"
        yield f"user {self.account.user} {self.account.password}"
        yield from ["binary", f"passive {'off' if self.mode.active else 'on'}", *lines]

    def tnftp(self, *lines):
        return self.run(["tnftp", "-n", "-v", "-i", "-V"], "\n".join([*self.lines(*lines), "quit", ""]))

    def put(self, local, remote):
        self.tnftp(f"put {word(local)} {word(remote)}")

    def get(self, remote, local):
        self.tnftp(f"get {word(remote)} {word(local)}")

    def lists(self, folder):
        self.tnftp(f"ls {word(folder)} list", f"nlist {word(folder)} names")
        with open(f"{self.home}/list", encoding="utf-8") as lines, open(f"{self.home}/names", encoding="utf-8") as names:
            return {"LIST": listed(lines.read()), "NLST": named(names.read())}

    def resume_get(self, remote, local):
        self.tnftp(f"reget {word(remote)} {word(local)}")

    def resume_put(self, local, remote):
        half = os.path.getsize(local) // 2
        self.tnftp(f"restart {half}", f"put {word(local)} {word(remote)}")

    def abort_get(self, big, small, local):
        """A signal in the midst of a transfer lets it send ABOR as urgent data after Telnet's bytes."""
        pipes = {"stdin": subprocess.PIPE, "stdout": subprocess.PIPE, "stderr": subprocess.STDOUT}
        process = subprocess.Popen(["tnftp", "-n", "-v", "-i"], env=self.environment(), cwd=self.home, **pipes)
        part = f"{self.home}/part"
        try:
            process.stdin.write("\n".join([*self.lines("rate get 1000000", f"get {word(big)} part"), ""]).encode())
            process.stdin.flush()
            await_bytes(part, self.limit)
            process.send_signal(signal.SIGINT)
            out, _ = process.communicate("\n".join(["rate get 0", f"get {word(small)} {word(local)}", "quit", ""]).encode(), self.limit)
            self.written += out.decode(errors="replace")
        finally:
            process.kill()
            process.wait()

    def delete(self, path):
        self.tnftp(f"delete {word(path)}")

    def rename(self, old, new):
        self.tnftp(f"rename {word(old)} {word(new)}")

    def make_folder(self, path):
        self.tnftp(f"mkdir {word(path)}")

    def remove_folder(self, path):
        self.tnftp(f"rmdir {word(path)}")


def await_bytes(path, limit):
    """Waits until the file has some."""
    deadline = time.monotonic() + limit
    while not os.path.exists(path) or os.path.getsize(path) == 0:
        if time.monotonic() > deadline:
            raise Wrong("the transfer doesn't begin")
        time.sleep(0.02)


class Wget(Client):
    """It only downloads."""

    name = "wget"
    programs = ["wget"]
    choices = ["PASV", "PORT"]

    def wget(self, path, *options):
        words = ["wget", "--no-config", "--tries=1", f"--timeout={self.limit}", "-nv", "-d"]
        words += ["--no-passive-ftp"] if self.mode.active else []
        words += [f"--ca-certificate={self.account.certificate}"] if self.mode.secure else []
        place = f"{self.account.user}:{self.account.password}@{self.bracketed}:{self.port}/{urllib.parse.quote(path)}"
        return self.run([*words, *options, f"{'ftps' if self.mode.secure else 'ftp'}://{place}"])

    def get(self, remote, local):
        self.wget(remote, "-O", local)

    def lists(self, folder):
        self.wget(f"{folder}/", "--no-remove-listing", "-O", "index")
        with open(f"{self.home}/.listing", encoding="utf-8") as lines:
            return {"LIST": listed(lines.read())}

    def resume_get(self, remote, local):
        self.wget(remote, "-c", "-O", local)

    def get_folder(self, folder, local):
        """Downloads the folder with all that is in it."""
        self.wget(f"{folder}/", "-r", "-nH", f"--cut-dirs={folder.count('/') + 1}", "-P", local)


class Rclone(Client):
    name = "rclone"
    programs = ["rclone"]
    choices = ["EPSV", "PASV"]
    choices6 = ["EPSV"]

    def words(self, *words):
        password = subprocess.run(["rclone", "obscure", self.account.password], capture_output=True, check=True, text=True).stdout.strip()
        options = ["--config", "", "--retries=1", "--low-level-retries=1", "-vv", f"--ftp-host={self.bracketed}", f"--ftp-port={self.port}"]
        # a large file by one connection: with four, each cut off where its part ends, it takes the server's 426 for a fault
        options += [f"--ftp-user={self.account.user}", f"--ftp-pass={password}", "--multi-thread-streams=0"]
        options += ["--ftp-explicit-tls"] if self.mode.secure else []
        options += ["--ftp-disable-epsv"] if self.mode.command == "PASV" else []
        return ["rclone", *options, *words]

    def rclone(self, *words):
        return self.run(self.words(*words))

    def put(self, local, remote):
        self.rclone("copyto", local, f":ftp:{remote}")

    def get(self, remote, local):
        self.rclone("copyto", f":ftp:{remote}", local)

    def lists(self, folder):
        ways = {"MLSD": [], "LIST": ["--ftp-disable-mlsd"]}
        found = {way: json.loads(self.rclone(*options, "lsjson", f":ftp:{folder}")) for way, options in ways.items()}
        return {way: {item["Path"]: None if item["IsDir"] else item["Size"] for item in items} for way, items in found.items()}

    def get_part(self, remote, begin, end, local):
        with open(local, "wb") as file:
            file.write(self.run_bytes(self.words("cat", "--offset", begin, "--count", end - begin, f":ftp:{remote}")))

    def get_folder(self, folder, local):
        self.rclone("copy", f":ftp:{folder}", local)

    def put_folder(self, local, folder):
        """Uploads the folder with all that is in it, four files at a time."""
        self.rclone("copy", local, f":ftp:{folder}")

    def delete(self, path):
        self.rclone("deletefile", f":ftp:{path}")

    def rename(self, old, new):
        self.rclone("moveto", f":ftp:{old}", f":ftp:{new}")

    def make_folder(self, path):
        self.rclone("mkdir", f":ftp:{path}")

    def remove_folder(self, path):
        self.rclone("rmdir", f":ftp:{path}")


class Choosing:
    """What lets ftplib use either command for the data connection."""

    command = "EPSV"

    def makepasv(self):
        if self.command == "EPSV":
            return ftplib.parse229(self.sendcmd("EPSV"), self.sock.getpeername())
        return ftplib.parse227(self.sendcmd("PASV"))

    def sendport(self, host, port):
        return self.sendeprt(host, port) if self.command == "EPRT" else super().sendport(host, port)


class Clear(Choosing, ftplib.FTP):
    """Without TLS."""


class Secure(Choosing, ftplib.FTP_TLS):
    """With TLS. Its data connections resume the session of the control connection, as some servers ask for; those of the library don't."""

    def ntransfercmd(self, cmd, rest=None):
        data, size = ftplib.FTP.ntransfercmd(self, cmd, rest)
        if self._prot_p:
            data = self.context.wrap_socket(data, server_hostname=self.host, session=self.sock.session)
        return data, size


class Ftplib(Client):
    """Python's own, of the interpreter that runs this."""

    name = "ftplib"

    @contextlib.contextmanager
    def session(self):
        """A connection that is logged in; it ends with QUIT."""
        if self.mode.secure:
            ftp = Secure(timeout=self.limit, context=ssl.create_default_context(cafile=self.account.certificate), encoding="utf-8")
        else:
            ftp = Clear(timeout=self.limit, encoding="utf-8")
        ftp.command = self.mode.command
        ftp.connect(self.mode.host, self.port)
        try:
            ftp.login(self.account.user, self.account.password)
            if self.mode.secure:
                ftp.prot_p()
            ftp.set_pasv(not self.mode.active)
            yield ftp
            wants("the reply to QUIT", ftp.quit()[:3], "221")
        finally:
            ftp.close()

    def put(self, local, remote):
        with self.session() as ftp, open(local, "rb") as file:
            ftp.storbinary(f"STOR {remote}", file)

    def get(self, remote, local):
        with self.session() as ftp, open(local, "wb") as file:
            ftp.retrbinary(f"RETR {remote}", file.write)

    def lists(self, folder):
        lines = []
        with self.session() as ftp:
            features = ftp.sendcmd("FEAT")
            ftp.cwd(folder)
            ftp.dir(lines.append)
            found = {"LIST": listed("\n".join(lines)), "NLST": named("\n".join(ftp.nlst()))}
            if "MLST" in features:
                items = [(name, facts) for name, facts in ftp.mlsd() if facts["type"] in ("file", "dir")]
                found["MLSD"] = {name: int(facts["size"]) if facts["type"] == "file" else None for name, facts in items}
        return found

    def resume_get(self, remote, local):
        with self.session() as ftp, open(local, "ab") as file:
            ftp.retrbinary(f"RETR {remote}", file.write, rest=file.tell())

    def resume_put(self, local, remote):
        with self.session() as ftp, open(local, "rb") as file:
            ftp.voidcmd("TYPE I")
            file.seek(ftp.size(remote))
            ftp.storbinary(f"STOR {remote}", file, rest=file.tell())

    def append(self, local, remote):
        """Appends what the file on the server lacks of the local one."""
        with self.session() as ftp, open(local, "rb") as file:
            ftp.voidcmd("TYPE I")
            file.seek(ftp.size(remote))
            ftp.storbinary(f"APPE {remote}", file)

    def get_two(self, first, second, folder):
        with self.session() as ftp:
            for name, path in [("first", first), ("second", second)]:
                with open(f"{folder}/{name}", "wb") as file:
                    ftp.retrbinary(f"RETR {path}", file.write)

    def get_part(self, remote, begin, end, local):
        """It closes the data connection in the midst, without ABOR."""
        with self.session() as ftp, open(local, "wb") as file:
            ftp.voidcmd("TYPE I")
            with ftp.transfercmd(f"RETR {remote}", rest=begin) as data:
                while file.tell() < end - begin:
                    file.write(data.recv(end - begin - file.tell()))
            wants_one_of("the reply to RETR", closing_code(ftp), ["226", "426", "451"])
            ftp.voidcmd("NOOP")

    def abort_get(self, big, small, local, send=None):
        """ABOR in the midst of a download has two replies; the session goes on."""
        with self.session() as ftp, open(local, "wb") as file:
            ftp.voidcmd("TYPE I")
            with ftp.transfercmd(f"RETR {big}") as data:
                data.recv(1)
                (send or send_plain)(ftp)
                with contextlib.suppress(OSError):
                    while data.recv(65536):
                        pass
            wants_aborted(ftp)
            ftp.retrbinary(f"RETR {small}", file.write)

    def abort_get_urgent(self, big, small, local):
        self.abort_get(big, small, local, send_urgent)

    def abort_get_telnet(self, big, small, local):
        self.abort_get(big, small, local, send_telnet)

    def abort_put(self, local, remote, other):
        """ABOR in the midst of an upload, and another upload in the same session."""
        with self.session() as ftp, open(local, "rb") as file:
            ftp.voidcmd("TYPE I")
            with ftp.transfercmd(f"STOR {remote}") as data:
                data.sendall(b"x" * 100_000)
                send_telnet(ftp)
            wants_aborted(ftp)
            ftp.storbinary(f"STOR {other}", file)

    def delete(self, path):
        with self.session() as ftp:
            ftp.delete(path)

    def rename(self, old, new):
        with self.session() as ftp:
            ftp.rename(old, new)

    def make_folder(self, path):
        with self.session() as ftp:
            wants("the folder that was made", os.path.basename(ftp.mkd(path)), os.path.basename(path))

    def remove_folder(self, path):
        with self.session() as ftp:
            ftp.rmd(path)


def send_plain(ftp):
    ftp.putcmd("ABOR")


def send_urgent(ftp):
    """As ftplib's abort does; TLS has no urgent data."""
    if isinstance(ftp.sock, ssl.SSLSocket):
        send_plain(ftp)
    else:
        ftp.sock.sendall(b"ABOR\r\n", socket.MSG_OOB)


def send_telnet(ftp):
    """As RFC 959 has it."""
    if not isinstance(ftp.sock, ssl.SSLSocket):
        ftp.sock.sendall(INTERRUPT, socket.MSG_OOB)
        ftp.sock.sendall(MARK)
    send_plain(ftp)


def closing_code(ftp):
    """The code of the reply that ends a transfer."""
    return ftp.getmultiline()[:3]


def wants_aborted(ftp):
    """A reply to the transfer, and one to ABOR; and then the session is in step."""
    codes = [closing_code(ftp), closing_code(ftp)]
    wants_one_of("the reply to the transfer", codes[0], ["226", "425", "426", "451"])
    wants_one_of("the reply to ABOR", codes[1], ["225", "226"])
    wants("the reply to NOOP", ftp.sendcmd("NOOP")[:1], "2")


CLIENTS = [Curl, Lftp, Ncftp, Tnftp, Wget, Rclone, Ftplib]


def all_modes(hosts, without):
    """The modes that the server has."""
    for host in hosts:
        for secure in [False] if "tls" in without else [False, True]:
            for command in ["EPSV", "EPRT"] if family_of(host) == socket.AF_INET6 else ["EPSV", "PASV", "EPRT", "PORT"]:
                if "active" not in without or command in ("EPSV", "PASV"):
                    yield Mode(host, secure, command)
