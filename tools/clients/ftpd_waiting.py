"""What of ftpd waits for whom: checks of tools/clients/ftpd."""

import pathlib
import shutil
import socket
import subprocess
import tempfile

from ftpd_server import HOST, PATIENCE, Server, wait_until, wants

SLOW = pathlib.Path(__file__).with_name("slow_files.c")


def check_slow_files(program):
    """A file system that doesn't answer keeps only those waiting who want a file of it."""
    if not shutil.which("cc"):
        return
    with tempfile.TemporaryDirectory(prefix="ftpd-slow-") as place:
        library = f"{place}/slow.so"
        subprocess.run(["cc", "-shared", "-fPIC", "-o", library, SLOW], timeout=PATIENCE, check=True)
        held, begun = pathlib.Path(place, "held"), pathlib.Path(place, "begun")
        command = ["env", f"LD_PRELOAD={library}", f"SLOW_WHILE={held}", f"SLOW_BEGUN={begun}"]
        with Server(program, command=command) as server, server.login() as waiting, server.login() as other:
            (server.folder / "slow").write_bytes(b"content")
            (server.folder / "file").write_bytes(b"content")
            other.get("RETR file")
            for line in ["RETR slow", "SIZE slow", "MLST slow", "STOR slow"]:
                port = waiting.passive()
                begun.unlink(missing_ok=True)
                held.touch()
                waiting.send(line)
                wait_until(f"the file of {line}", begun.exists)
                other.wants("NOOP", 200)
                wants("the file of another", other.get("RETR file"), b"content")
                held.unlink()
                code, _ = waiting.reply()
                if code == 150:
                    socket.create_connection((HOST, port), PATIENCE).close()
                    waiting.reply()
