"""TLS sessions of ftpd's data connections: checks of tools/clients/ftpd."""

import ssl
import tempfile

from ftpd_server import READER, Server, certificate, make_certificate, read_all, tls_context, until_logged, wants

VERSIONS = [ssl.TLSVersion.TLSv1_2, ssl.TLSVersion.TLSv1_3]


def context_of(version):
    context = tls_context()
    context.minimum_version = context.maximum_version = version
    return context


def private(server, context, *user):
    """A control connection under TLS, whose data connections are to be under it too."""
    control = server.control()
    control.wants("AUTH TLS", 234)
    control.connection = context.wrap_socket(control.connection)
    control.login(*user)
    control.wants("PBSZ 0", 200)
    control.wants("PROT P", 200)
    return control


def read_privately(control, context, line, session):
    """What a data connection gets that has this session, None where it gets nothing, and the code of the last reply."""
    with control.open_data() as data:
        control.wants(line, 150)
        try:
            with context.wrap_socket(data, session=session) as secured:
                found = read_all(secured) or None
        except (ssl.SSLError, ConnectionResetError):
            found = None
    return found, control.reply()[0]


def tie(program, options):
    """Tries it with a certificate."""
    with Server(program, *options) as server:
        (server.folder / "file").write_bytes(b"content")
        context = context_of(ssl.TLSVersion.TLSv1_2)
        with private(server, context) as control, private(server, context, READER) as thief, private(server, context) as other:
            session = control.connection.session
            for found in [thief.connection.session, None]:
                wants("what others get", read_privately(control, context, "RETR file", found), (None, 425))
            for found in [session, session, other.connection.session]:
                wants("what the client gets", read_privately(control, context, "RETR file", found), (b"content", 226))
            with control.open_data() as data:
                control.wants("STOR new", 150)
                with context.wrap_socket(data, session=session) as secured:
                    secured.sendall(b"new")
                    secured.unwrap()
            wants("the end of STOR", control.reply()[0], 226)
            wants("the new file", (server.folder / "new").read_bytes(), b"new")
            control.wants("QUIT", 221)
            control.connection.close()
            until_logged(server, ": closed", 1)
            wants("what an ended session gets", read_privately(other, context, "RETR file", session), (None, 425))
            # one that has not logged in
            with server.control() as early:
                early.wants("AUTH TLS", 234)
                early.connection = context.wrap_socket(early.connection)
                wants("what it gets", read_privately(other, context, "RETR file", early.connection.session), (None, 425))


def check_tied(program):
    """A data connection is only taken of who has the secrets of its control connection's TLS session, or of another one's of the same user."""
    with tempfile.TemporaryDirectory(prefix="ftpd-certificate-") as place:
        for options in [certificate(), make_certificate(place, "ec", "-pkeyopt", "ec_paramgen_curve:P-256")]:
            tie(program, options)
    with Server(program, *certificate(), "--any-data-session") as server:
        (server.folder / "file").write_bytes(b"content")
        for version in VERSIONS:
            context = context_of(version)
            with private(server, context) as control:
                for session in [None, control.connection.session]:
                    wants("what the client gets", read_privately(control, context, "RETR file", session), (b"content", 226))
