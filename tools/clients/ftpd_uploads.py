"""Uploads of ftpd beside readers, and beside each other: checks of tools/clients/ftpd."""

import contextlib
import os
import socket
import stat

from ftpd_server import BY_MODES, Server, until_logged, wants

OLD, NEW = b"old" * 4, b"new" * 8


def files(server):
    return sorted(path.name for path in server.folder.iterdir())


@contextlib.contextmanager
def upload(control, line, part):
    """An upload under way, of which the server has this part."""
    with control.open_data() as data:
        control.wants(line, 150)
        data.sendall(part)
        while int(control.wants("STAT", 211).split(":")[1].split()[0]) < len(part):
            pass
        yield data
    wants(f"the end of {line!r}", control.reply()[0], 226)


def check_whole_files(program):
    """A reader beside an upload gets the file as it was before, and two uploads of a name aren't mixed."""
    with Server(program) as server, server.login() as first, server.login() as second:
        (server.folder / "file").write_bytes(OLD)
        (server.folder / "file").chmod(0o640)
        with upload(first, "STOR file", NEW):
            wants("the file beside its upload", second.get("RETR file"), OLD)
            wants("the listing beside it", second.get("NLST"), b"file\r\n")
            wants("its size", second.wants("SIZE file", 213), f"213 {len(OLD)}")
        wants("the file after it", second.get("RETR file"), NEW)
        wants("its mode", stat.S_IMODE((server.folder / "file").stat().st_mode), 0o640)
        for name in ["file", "other"]:
            with upload(first, f"STOR {name}", b"1" * 5):
                second.put(f"STOR {name}", b"2" * 9)
                wants("what the first to end has left", second.get(f"RETR {name}"), b"2" * 9)
            wants("what the last to end has left", second.get(f"RETR {name}"), b"1" * 5)
        wants("the files", files(server), ["file", "other"])
        # a folder in which no file can be made, and a link, which stays one
        (server.folder / "link").symlink_to("file")
        first.put("STOR link", OLD)
        wants("what the link leads to", ((server.folder / "link").is_symlink(), (server.folder / "file").read_bytes()), (True, OLD))


def check_locked(program):
    """REST and APPE write in place: a second upload of that name is refused."""
    with Server(program) as server, server.login() as first, server.login() as second:
        (server.folder / "file").write_bytes(OLD)
        (server.folder / "link").symlink_to("file")
        for before, line in [("NOOP", "APPE file"), (f"REST {len(OLD)}", "STOR file"), ("NOOP", "APPE link")]:
            first.wants(before, 350 if "REST" in before else 200)
            with upload(first, line, b"more"):
                for other, code in [("NOOP", 200), ("REST 10", 350)]:
                    for verb in ["STOR", "APPE"]:
                        second.wants(other, code)
                        second.passive()
                        wants(f"the reply to {other} and {verb} beside {line}", second.ask(f"{verb} file")[0], 450)
            os.truncate(server.folder / "file", len(OLD))
        with upload(first, "STOR file", NEW):
            second.passive()
            second.wants("APPE file", 450)
        wants("the file", second.get("RETR file"), NEW)
        # one that is made by APPE while STOR receives it
        with first.open_data() as data:
            first.wants("STOR new", 150)
            data.sendall(b"x")
            with upload(second, "APPE new", b"appended"):
                data.shutdown(socket.SHUT_WR)
                first.wants("NOOP", 450, 200)
        wants("what is left", ((server.folder / "new").read_bytes(), files(server)), (b"appended", ["file", "link", "new"]))


def cut(control, line, part):
    """An upload that ABOR ends."""
    with control.open_data() as data:
        control.wants(line, 150)
        data.sendall(part)
        while int(control.wants("STAT", 211).split(":")[1].split()[0]) < len(part):
            pass
        control.wants("ABOR", 426, 226)


def check_cut_uploads(program):
    """What came of an upload that is cut is kept, for REST, or removed where an option says so."""
    with Server(program) as server, server.login() as control:
        cut(control, "STOR file", b"part")
        wants("what is kept", control.get("RETR file"), b"part")
        control.wants("REST 4", 350)
        control.put("STOR file", b"whole")
        wants("the file after REST", control.get("RETR file"), b"partwhole")
        cut(control, "STOR file", b"new")
        wants("what is kept", (control.get("RETR file"), files(server)), (b"new", ["file"]))
    with Server(program, "--cut-uploads", "remove") as server, server.login() as control:
        cut(control, "STOR file", b"part")
        wants("the files", files(server), [])
        (server.folder / "file").write_bytes(OLD)
        cut(control, "STOR file", b"part")
        with control.open_data() as data:
            name = control.wants("STOU", 150).split("FILE: ")[1]
            data.sendall(b"part")
            control.wants("ABOR", 426, 226)
        wants("the files", (name, files(server), control.get("RETR file")), (name, ["file"], OLD))
        # the client is away
        with server.login() as another:
            with another.open_data() as data:
                another.wants("STOR file", 150)
                data.sendall(b"part")
                another.connection.close()
                with contextlib.suppress(ConnectionResetError):
                    data.recv(1)
        until_logged(server, "the client is gone", 1)
        wants("the files", (files(server), control.get("RETR file")), (["file"], OLD))
        cut(control, "APPE file", b"end")
        wants("what APPE has left", control.get("RETR file"), OLD + b"end")


def check_closed_folder(program):
    """A file in a folder where no other can be made is written in place, and one that may not be written is not replaced."""
    with Server(program, command=BY_MODES) as server, server.login() as control:
        folder = server.folder / "closed"
        folder.mkdir()
        (folder / "file").write_bytes(OLD)
        (server.folder / "fixed").write_bytes(OLD)
        (server.folder / "fixed").chmod(0o444)
        folder.chmod(0o555)
        control.put("STOR closed/file", NEW)
        wants("the file", control.get("RETR closed/file"), NEW)
        control.passive()
        control.wants("STOR fixed", 550)
        folder.chmod(0o755)
