"""The server that the options of tools/clients/transfers name, while it runs."""

import contextlib
import pathlib
import shlex

from ftp_clients import Account
from peers import HOST, HOST6, PASSWORD, PEERS, USER, NoServer, Place, start_command, start_peer

FEATURES = ["tls", "active", "ipv6", "write", "abort", "resume_put"]


def start_servers(options, place, hosts, running):
    """Starts the server for each address, and the proxy before it: the ports, and the user."""
    ports, user = {}, options.user.partition(":")[0]
    for host in hosts:
        if options.peer:
            process, port, user = start_peer(options.peer, place, host, options.life)
            running.append(process)
        elif options.command:
            process, port = start_command(options.command, place, host, options.life)
            running.append(process)
        else:
            port = options.at
        if options.through:
            server = f"[{host}]:{port}" if ":" in host else f"{host}:{port}"
            process, port = start_command(shlex.split(options.through), place, host, options.life, server)
            running.append(process)
        ports[host] = port
    return ports, user


@contextlib.contextmanager
def served(options, without):
    """The server while it runs: the place that it serves, and how clients log in."""
    with Place(options.packages) as place:
        if options.folder:
            place.folder = pathlib.Path(options.folder).resolve()
        if not place.certificate.exists():
            without.append("tls")
        running = []
        try:
            ports, user = start_servers(options, place, [HOST] if "ipv6" in without else [HOST, HOST6], running)
            yield place, Account(ports, user, options.user.partition(":")[2], str(place.certificate))
        finally:
            for process in reversed(running):
                process.stop()
            if options.log:
                for process in running:
                    print(f"transfers: the server's standard error:\n{process.said(10_000_000)}")


def add_server(parser):
    """The options that say which server it is."""
    parser.add_argument("--peer", choices=sorted(PEERS))
    parser.add_argument("--packages", help="the folder of unpacked packages of servers")
    parser.add_argument("--at", type=int, metavar="PORT")
    parser.add_argument("--folder")
    parser.add_argument("--through", help="the command line of a proxy")
    parser.add_argument("--user", default=f"{USER}:{PASSWORD}", help="NAME:PASSWORD, for the server of --at or of a command")
    parser.add_argument("--without", default="", help=f"what the server doesn't have, with commas: {', '.join(FEATURES)}")
    parser.add_argument("--life", type=int, default=3600, help="after how many seconds the server is ended")
    parser.add_argument("--log", action="store_true", help="shows the server's standard error")


def read_server(parser, words):
    """The options, and what the server doesn't have. The words after -- are its command."""
    command = words[words.index("--") + 1 :] if "--" in words else []
    options = parser.parse_args(words[: words.index("--")] if "--" in words else words)
    options.command = command
    if sum([bool(command), bool(options.peer), bool(options.at and options.folder)]) != 1:
        parser.error("one server is needed: a command, --peer, or --at with --folder")
    without = options.without.split(",") if options.without else []
    if options.at or (command and not any("{listen}" in word or "{host}" in word for word in command)):
        without.append("ipv6")
    return options, without
