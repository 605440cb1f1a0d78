"""The configuration file of ftpd, and what its users may do: checks of tools/clients/ftpd."""

import pathlib
import re
import shutil
import subprocess
import tempfile

from ftpd_server import HOST, PATIENCE, Server, certificate, hashed, wants


def checked(program, *options):
    """The status, and what it says, of a server that is only to check what it reads."""
    run = subprocess.run([program, "--check", *map(str, options)], capture_output=True, text=True, timeout=PATIENCE, check=False)
    return run.returncode, run.stdout, run.stderr


def check_configured(program):
    """A file has the options, and the command line overrides it. --check reads all and ends."""
    with tempfile.TemporaryDirectory(prefix="ftpd-") as place:
        folder, users, config = pathlib.Path(place, "folder"), pathlib.Path(place, "users"), pathlib.Path(place, "ftpd.toml")
        folder.mkdir()
        (folder / "file").write_bytes(b"content")
        users.write_text(f"anna:{hashed(program)}\n", encoding="ascii")
        files = certificate()
        good = f"""
            # a server
            folder = "{folder}"
            listen = ["{HOST}:0", "127.0.0.2:0"]
            users = "{users}"
            no-anonymous = true
            require-tls = false
            certificate = "{files[1]}"
            key = "{files[3]}"
            passive-ports = "42100-42109"
            idle = 77
            """
        config.write_text(good, encoding="ascii")
        wants("what --check says", checked(program, "--config", config), (0, "", ""))
        # the options and the folder of Server come after the file's
        with Server(program, "--config", config, "--idle", 30) as server, server.control() as control:
            (server.folder / "mine").write_bytes(b"mine")
            wants("the number of ports", len(server.ports), 1)
            control.wants("USER anonymous", 331)
            control.wants("PASS x", 530)
            control.login()
            wants("whether its port is in the range", 42100 <= control.passive() <= 42109, True)
            control.wants("SIZE mine", 213)
        for wrong, said in [
            ('listen = "x"\n', "invalid"),
            ('foldre = "/"\n', "foldre"),
            ("idle = true\n", "idle"),
            ('idle = "0"\n', "0"),
            ('hash-password = true\n', "hash-password"),
            ("idle = \n", "line 1"),
            (good.replace("users = ", "users = '/none' #"), "the users"),
            (good.replace(str(folder), "/none"), "/none"),
            (good.replace(files[3], files[1]), "private key"),
            (good.replace("folder = ", "#"), "FOLDER"),
        ]:
            config.write_text(wrong, encoding="ascii")
            status, out, error = checked(program, "--config", config)
            wants(f"whether it refuses {wrong!r}, and says {error!r}", (status != 0, out, said in error), (True, "", True))
        status, _, error = checked(program, "--config", "/none/x")
        wants(f"whether it says {error!r}", (status != 0, "/none/x" in error), (True, True))


def set_users(server, *lines):
    """Gives a running server other users."""
    (server.place / "users").write_text("".join(f"{line}\n" for line in lines), encoding="ascii")
    server.reads_again((server.place / "log").read_text(encoding="utf-8").count("read again") + 1)


def check_rights(program):
    """What each user may do, in a folder of the user's own."""
    password = hashed(program)
    with Server(program) as server:
        for name in ["own", "other"]:
            (server.folder / name).mkdir()
        (server.folder / "own" / "file").write_bytes(b"content")
        (server.outside / "own").mkdir()
        users = [f"{name}:{password}:{name}:own" for name in ["read", "write", "upload", "add"]]
        set_users(server, *users, f"away:{password}:write:{server.outside}/own", f"all:{password}:write")
        reads = ["RETR file", "LIST", "NLST", "MLSD", "SIZE file", "MDTM file", "MLST file"]
        adds = ["STOR new", "APPE new", "STOU"]
        changes = ["STOR file", "APPE file", "DELE file", "RNFR file", "SITE CHMOD 600 file", "MFMT 20200101000000 file", "RMD made"]
        for name, allowed in [("read", reads), ("write", reads + adds + changes), ("upload", adds), ("add", reads + adds)]:
            with server.login(name) as control:
                wants(f"the folder of {name}", control.wants("PWD", 257), '257 "/"')
                control.wants("MKD made", 257 if adds[0] in allowed else 550)
                for line in reads + adds + changes:
                    (server.folder / "own" / "file").write_bytes(b"content")
                    for made in ["new", "upload.0"]:
                        (server.folder / "own" / made).unlink(missing_ok=True)
                    transfers = line.split()[0] in ["RETR", "LIST", "NLST", "MLSD", "STOR", "APPE", "STOU"]
                    if line not in allowed:
                        control.passive() if transfers else None
                        control.wants(line, 450 if line in ["LIST", "NLST"] else 550)
                        wants(f"the file after {line} of {name}", (server.folder / "own" / "file").read_bytes(), b"content")
                    elif transfers and line in reads:
                        control.get(line)
                    elif transfers:
                        control.put(line, b"x")
                    else:
                        wants(f"the code of {line} for {name}", control.ask(line)[0] // 100 in [2, 3], True)
                if (server.folder / "own" / "made").exists():
                    (server.folder / "own" / "made").rmdir()
        with server.login("away") as control:
            control.put("STOR new", b"away")
            wants("what is outside", (server.outside / "own" / "new").read_bytes(), b"away")
        with server.login("all") as control:
            control.wants("CWD own", 250)
        # one that another user makes meanwhile
        with server.login("add") as control:
            with control.open_data() as data:
                control.wants("STOR late", 150)
                data.sendall(b"x")
                (server.folder / "own" / "late").write_bytes(b"another's")
            wants("the end of STOR", control.reply()[0], 550)
            wants("the file of another", (server.folder / "own" / "late").read_bytes(), b"another's")
            wants("the names", sorted(path.name for path in (server.folder / "own").glob(".*")), [])


def check_units(program):
    """The words of systemd's units are those of the programs."""
    units = pathlib.Path(__file__).resolve().parents[2] / "programs" / "systemd"
    for name in ["ftpd", "ftp-proxy", "ftp-record"]:
        text = (units / f"{name}.service").read_text(encoding="utf-8")
        lines = re.findall(rf"^ExecStart(?:Pre)?=/usr/local/bin/{name} (.*)$", text, re.M)
        wants(f"whether a unit starts {name}", bool(lines), True)
        built = pathlib.Path(program).with_name(name)
        if built.exists():
            said = subprocess.run([built, "--help"], capture_output=True, text=True, timeout=PATIENCE, check=True).stdout
            options = {word for line in lines for word in line.split() if word.startswith("--")}
            wants(f"the options that {name} doesn't have", {option for option in options if option not in said}, set())


def helped(program):
    """The options that --help shows, with their defaults."""
    said = subprocess.run([program, "--help"], capture_output=True, text=True, timeout=PATIENCE, check=True).stdout
    lines = re.findall(r"^ +(?:-\w, |    )--([\w-]+)(.*)$", said, re.M)
    return {name: "".join(re.findall(r"\[default: (.*)\]", text)) for name, text in lines}


def check_manuals(program):
    """The manual page of each program has the options of --help, with their defaults, and no others."""
    pages = pathlib.Path(__file__).resolve().parents[2] / "programs" / "man"
    for name in ["ftpd", "ftp-proxy", "ftp-record"]:
        page = pages / f"{name}.8"
        if shutil.which("mandoc"):
            lint = subprocess.run(["mandoc", "-T", "lint", "-W", "warning", page], capture_output=True, text=True, timeout=PATIENCE, check=False)
            wants(f"what mandoc says of {name}", (lint.returncode, lint.stdout), (0, ""))
        text = page.read_text(encoding="utf-8")
        items = re.findall(r"^\.It Fl (?:\w , Fl )?-([\w-]+).*\n((?:(?!\.It|\.El).*\n)*)", text, re.M)
        built = pathlib.Path(program).with_name(name)
        if built.exists():
            options = helped(built)
            wants(f"the options in the page of {name}", sorted(item for item, _ in items), sorted(options))
            words = {item: set(re.split(r"[\s;]+", text.replace(". ", " ").replace(".\n", " "))) for item, text in items}
            wants(f"the defaults that the page of {name} lacks", {item for item, default in options.items() if default and default not in words[item]}, set())
