"""Implicit TLS, the user that ftpd is, and the modes of new files: checks of tools/clients/ftpd."""

import grp
import os
import pathlib
import pwd
import shutil
import socket
import ssl
import stat
import subprocess
import sys
import tempfile

from ftpd_server import HOST, PATIENCE, Control, Server, StartedServer, certificate, child, hashed, read_all, wants
from ftpd_tls import context_of

# an address of loopback whose lower ports nobody else takes
LOW = ("127.0.0.3", 990)
NOBODY = "nobody"


def begun(context, address):
    """A control connection that is under TLS from its beginning."""
    control = Control(context.wrap_socket(socket.create_connection(address, PATIENCE)))
    wants("the greeting", control.reply()[0], 220)
    return control


def check_implicit(program):
    """TLS begins at once, and data connections are under it without PBSZ and PROT."""
    context = context_of(ssl.TLSVersion.TLSv1_2)
    with Server(program, *certificate(), "--implicit-tls", f"{HOST}:0", "--per-address", 2) as server:
        (server.folder / "file").write_bytes(b"content")
        wants("how many ports it prints", len(server.ports), 2)
        with server.login() as plain, begun(context, (HOST, server.ports[1])) as control:
            wants("what there is in clear text", plain.get("RETR file"), b"content")
            control.wants("AUTH TLS", 503)
            control.login()
            for _ in range(2):
                with control.open_data() as data:
                    control.wants("RETR file", 150)
                    with context.wrap_socket(data, session=control.connection.session) as secured:
                        wants("the file", read_all(secured), b"content")
                wants("the end of RETR", control.reply()[0], 226)
            control.wants("PROT C", 200)
            wants("the file in clear text", control.get("RETR file"), b"content")
            third = Control(context.wrap_socket(socket.create_connection((HOST, server.ports[1]), PATIENCE)))
            with third:
                wants("what one too many gets", third.reply()[0], 421)
    # a server of its own, since that one may still count what was closed
    with Server(program, *certificate(), "--implicit-tls", f"{HOST}:0") as server:
        (server.folder / "file").write_bytes(b"content")
        command = ["curl", "-s", "--insecure", "--tls-max", "1.2", f"ftps://{HOST}:{server.ports[1]}/file"]
        found = subprocess.run(command, capture_output=True, timeout=PATIENCE, check=False)
        wants("what curl gets", (found.returncode, found.stdout), (0, b"content"))
    with subprocess.Popen([program, "/", "--implicit-tls", f"{HOST}:0", *certificate()], stdout=subprocess.PIPE, stderr=subprocess.DEVNULL) as process:
        wants("how many ports it prints", len(process.stdout.readline().split()), 1)
        process.terminate()
    refused = subprocess.run([program, "/", "--implicit-tls", f"{HOST}:0"], capture_output=True, text=True, timeout=PATIENCE, check=False)
    wants("whether it asks for a certificate", (refused.returncode, "--certificate" in refused.stderr), (2, True))


# runs a program with sockets as systemd does: their descriptors, their names, and the program's words
ACTIVATED = """
import fcntl, os, sys
numbers, names, *words = sys.argv[1:]
high = [fcntl.fcntl(int(number), fcntl.F_DUPFD, 100) for number in numbers.split(":")]
for index, number in enumerate(high):
    os.dup2(number, 3 + index)
os.environ |= {"LISTEN_PID": str(os.getpid()), "LISTEN_FDS": str(len(high)), "LISTEN_FDNAMES": names}
os.execv(words[0], words)
"""


def activated(sockets, names, *words):
    """Starts a program with sockets of systemd."""
    numbers = ":".join(str(each.fileno()) for each in sockets)
    command = [sys.executable, "-c", ACTIVATED, numbers, names, *words]
    return subprocess.Popen(command, stdout=subprocess.PIPE, stderr=subprocess.PIPE, pass_fds=[each.fileno() for each in sockets])


def check_activated(program):
    """Sockets of systemd take the place of --listen. One that is named implicit-tls begins TLS at once."""
    context = context_of(ssl.TLSVersion.TLSv1_2)
    with tempfile.TemporaryDirectory(prefix="ftpd-") as folder, socket.create_server((HOST, 0)) as plain, socket.create_server((HOST, 0)) as secure:
        ports = [each.getsockname()[1] for each in [plain, secure]]
        with activated([plain, secure], "ftp:implicit-tls", program, folder, "--listen", f"{HOST}:0", *certificate()) as process:
            try:
                wants("the ports that it prints", [int(word) for word in process.stdout.readline().split()], ports)
                with Control(socket.create_connection((HOST, ports[0]), PATIENCE)) as control:
                    wants("the greeting", control.reply()[0], 220)
                with begun(context, (HOST, ports[1])) as control:
                    control.wants("QUIT", 221)
            finally:
                process.terminate()
        with activated([secure], "implicit-tls", program, folder) as process:
            wants("whether it asks for a certificate", (process.wait(PATIENCE), b"--certificate" in process.stderr.read()), (1, True))


def check_umask(program):
    """New files and directories lack the modes of --umask."""
    for mask, file, directory in [("027", 0o640, 0o750), ("0", 0o666, 0o777)]:
        with Server(program, "--umask", mask) as server, server.login() as control:
            control.put("STOR new", b"content")
            control.put("APPE added", b"content")
            control.wants("MKD made", 257)
            modes = [stat.S_IMODE((server.folder / name).stat().st_mode) for name in ["new", "added", "made"]]
            wants(f"the modes with {mask}", modes, [file, file, directory])
    refused = subprocess.run([program, "/", "--umask", "8"], capture_output=True, text=True, timeout=PATIENCE, check=False)
    wants("whether it refuses 8", (refused.returncode, "octal" in refused.stderr), (2, True))


def identities(pid):
    """The users, the groups and the further groups of all threads of a process."""
    found = set()
    for task in pathlib.Path(f"/proc/{pid}/task").iterdir():
        fields = dict(line.split(":", 1) for line in (task / "status").read_text(encoding="utf-8").splitlines())
        found.add(tuple(" ".join(sorted(set(fields[name].split()))) for name in ["Uid", "Gid", "Groups"]))
    return found


def refusal(*command, **identity):
    run = subprocess.run(command, capture_output=True, text=True, timeout=PATIENCE, check=False, **identity)
    return run.returncode, run.stderr


def check_user(program):
    """Once it has its ports it is another user for good, and so are its files. Each of the three programs does so."""
    if os.geteuid() != 0:
        return
    nobody = pwd.getpwnam(NOBODY)
    daemon = grp.getgrnam("daemon").gr_gid
    with tempfile.TemporaryDirectory(prefix="ftpd-") as place:
        folder, users = pathlib.Path(place, "folder"), pathlib.Path(place, "users")
        folder.mkdir()
        users.write_text(f"anna:{hashed(program)}\n", encoding="ascii")
        os.chmod(place, 0o755)
        os.chown(folder, nobody.pw_uid, nobody.pw_gid)
        # where that user may run it
        copy = str(shutil.copy(program, f"{place}/ftpd"))
        words = [program, str(folder), "--users", str(users), "--listen", f"{LOW[0]}:{LOW[1]}", "--user", NOBODY]
        for more, group, further in [([], nobody.pw_gid, nobody.pw_gid), (["--group", "daemon"], daemon, daemon)]:
            with StartedServer([*words, *more], subprocess.DEVNULL) as server:
                wants("who it is", identities(child(server)), {(str(nobody.pw_uid), str(group), str(further))})
                with Control(socket.create_connection(LOW, PATIENCE)) as control:
                    wants("the greeting", control.reply()[0], 220)
                    control.login()
                    control.wants("MKD made", 257)
                    control.wants("SITE CHMOD 700 made", 200)
                    made = (folder / "made").stat()
                    wants("whose it is", (made.st_uid, made.st_gid), (nobody.pw_uid, group))
                    control.wants("RMD made", 250)
        for name, more in [("ftp-proxy", []), ("ftp-record", ["--output", f"{place}/record"])]:
            built = pathlib.Path(program).with_name(name)
            if built.exists():
                options = ["--listen", f"{LOW[0]}:{LOW[1]}", "--user", NOBODY, f"{HOST}:21"]
                with StartedServer([str(built), *more, *options], subprocess.DEVNULL) as server:
                    wants(f"who {name} is", identities(child(server)), {(str(nobody.pw_uid), str(nobody.pw_gid), str(nobody.pw_gid))})
        # the files have to be readable to that user
        os.chmod(users, 0o600)
        status, said = refusal(*words)
        wants(f"whether it says why in {said!r}", (status, "the users" in said), (1, True))
        for more, identity, words_said in [
            (["--user", "no-such-user"], {}, "there is no user no-such-user"),
            (["--user", NOBODY, "--group", "no-such-group"], {}, "there is no group no-such-group"),
            (["--user", "root"], {"user": nobody.pw_uid, "group": nobody.pw_gid}, "only root can become root"),
        ]:
            for check in [[], ["--check"]]:
                status, said = refusal(copy, str(folder), "--listen", f"{HOST}:0", *more, *check, **identity)
                wants(f"whether {said!r} says {words_said!r}", (status, words_said in said), (1, True))
        with StartedServer(["setpriv", f"--reuid={nobody.pw_uid}", "--clear-groups", copy, str(folder), "--listen", f"{HOST}:0", "--user", NOBODY]) as server:
            wants("whether that user may name itself", server.port > 0, True)
