#!/usr/bin/env python3
"""Stands in for proftpd in its own tests: reads the configuration that a test has written, and starts another server for it."""

import json
import os
import pathlib
import signal
import socket
import subprocess
import sys
import time

from peers import HOST, PATIENCE, NoServer, Place, start_command, start_peer

LIFE = 600
# the directives that ask for nothing that a server wouldn't do
PLAIN = set("""AllowOverride AllowOverwrite AllowRetrieveRestart AllowStoreRestart AuthGroupFile AuthOrder AuthUserFile DebugLevel DefaultAddress
    DefaultRoot DefaultServer DelayEngine Group MaxInstances PidFile Port RequireValidShell ScoreboardFile ServerType SystemLog TimeoutIdle
    TimeoutLinger Trace TraceLog TransferLog UseFtpUsers UseIPv6 UseReverseDNS UseSendfile User WtmpLog""".split())


def directives(path):
    """The directives of a configuration, and the sections in it."""
    lines = [line.strip() for line in pathlib.Path(path).read_text(encoding="utf-8").splitlines()]
    words = [line.split(None, 1) for line in lines if line and line[0] != "#" and not line.startswith(("<IfModule", "</"))]
    return {each[0]: each[1] if len(each) > 1 else "" for each in words}


def home_of(config):
    """The home directory of the first account, or of none that a test has written."""
    accounts = pathlib.Path(config.get("AuthUserFile", os.devnull)).read_text(encoding="utf-8").split(":")
    return pathlib.Path(accounts[5]) if len(accounts) > 5 else pathlib.Path(config["PidFile"]).parent


def make_files(config):
    """Makes the files that proftpd would: tests count those of a listing."""
    board = pathlib.Path(config["ScoreboardFile"])
    board.touch()
    board.with_name(f"{board.name}.lck").touch()


def start(config, settings):
    """Starts the server that the settings name, on the configuration's port."""
    place = Place(settings["packages"], secure=False)
    place.folder = home_of(config)
    port = int(config["Port"])
    if settings["peer"]:
        process, _, _ = start_peer(settings["peer"], place, HOST, LIFE, port)
    else:
        process, _ = start_command(settings["command"], place, HOST, LIFE, port=port)
    return place, process


def serve(config, settings):
    """Starts the server in a process that goes on, and ends it at the signal that the test sends."""
    if os.fork():
        return
    os.setsid()
    pid_file = pathlib.Path(config["PidFile"])
    pid_file.write_text(f"{os.getpid()}\n", encoding="ascii")  # the test may end as soon as the server listens
    make_files(config)
    place, process = start(config, settings)

    def stop(*_):
        process.stop()
        pid_file.unlink(missing_ok=True)
        place.__exit__()
        os._exit(0)

    signal.signal(signal.SIGTERM, stop)
    process.process.wait()
    stop()


def main():
    """The words are those of proftpd: only -c is a server to start."""
    words = sys.argv[1:]
    if "-c" not in words:
        return subprocess.call(["proftpd", *words])
    path = words[words.index("-c") + 1]
    config = directives(path)
    other = sorted(set(config) - PLAIN)
    if other:
        pathlib.Path(path).with_name("unsupported").write_text(f"it needs {', '.join(other)}", encoding="ascii")
        return 1
    serve(config, json.loads(os.environ["PEER_TESTS_SERVER"]))
    deadline = time.monotonic() + PATIENCE
    while time.monotonic() < deadline:
        try:
            with socket.create_connection((HOST, int(config["Port"])), 1):
                return 0
        except OSError:
            time.sleep(0.02)
    return 1


if __name__ == "__main__":
    try:
        sys.exit(main())
    except NoServer as error:
        sys.exit(str(error))
