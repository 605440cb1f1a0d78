"""Runs the tests of Twisted's FTP server, or of Python's ftplib, at another server. tools/clients/peer_tests starts it by a Python that has
them. It prints a line for each test: its name, `ok`, `failed` or `skipped`, and why, with tabs between.

usage: python3 peer_suites.py twisted|cpython SETTINGS      SETTINGS is JSON: see start
"""

import gc
import json
import os
import re
import socket
import sys
import types
import unittest

from peers import HOST, HOST6, Place, start_command, start_peer

LIFE = 600
# how many seconds a test of Twisted may take, also on a busy machine
PATIENCE = 60


class Server:
    """The server that is tested, with this folder."""

    def __init__(self, settings, folder=None, host=HOST):
        self.host = host
        self.place = Place(settings["packages"], secure=False)
        if folder:
            self.place.folder = folder
        if settings["peer"]:
            self.process, self.port, self.user = start_peer(settings["peer"], self.place, host, LIFE)
        else:
            self.process, self.port = start_command(settings["command"], self.place, host, LIFE)
            self.user = settings["user"]
        self.password = settings["password"]

    def stop(self):
        self.process.stop()
        self.place.__exit__()


class Result(unittest.TestResult):
    """Prints what each test has found. What a test asks of its own server's objects no other one has."""

    OWN = re.compile(r"serverProtocol|handler_instance|'factory'|has no attribute")

    def report(self, test, verdict, why=""):
        line = next((line for line in reversed(why.splitlines()) if line.strip()), "").strip()
        print(test.id().split(".", 2)[-1], verdict, line.replace("\t", " "), sep="\t", flush=True)

    def addSuccess(self, test):
        self.report(test, "ok")

    def addError(self, test, err):
        why = self.text(err)
        self.report(test, "skipped" if self.OWN.search(why) else "failed", f"it needs its own server: {why}" if self.OWN.search(why) else why)

    addFailure = addError

    def addSkip(self, test, reason):
        self.report(test, "skipped", str(reason))

    @staticmethod
    def text(err):
        """The first line of an error, whether it is Twisted's or Python's."""
        error = getattr(err, "value", None) or err[1]
        return f"{type(error).__name__}: " + " ".join(str(error).split())[:300]


def twisted_suite(settings):
    """Twisted's tests of a server over connections, whose texts of replies aren't compared."""
    from twisted.internet import protocol, reactor
    from twisted.python import filepath
    from twisted.test import test_ftp

    class Port:
        """What the tests ask of their listening port."""

        def __init__(self, server):
            self.server = server

        def getHost(self):
            return self.server

    def set_up(self):
        self.directory = self.mktemp()
        os.makedirs(self.directory)
        os.chmod(self.directory, 0o755)
        self.dirPath = filepath.FilePath(self.directory)
        server = Server(settings, os.path.abspath(self.directory))
        self.addCleanup(server.stop)
        self.username, self.password, self.port = server.user, server.password, Port(server)

        def connected(client):
            self.client = client
            self.addCleanup(client.transport.loseConnection)

        return protocol.ClientCreator(reactor, self.clientFactory).connectTCP(HOST, server.port).addCallback(connected)

    def codes(lines):
        """The codes of the first and the last line."""
        lines = [line.decode() if isinstance(line, bytes) else str(line) for line in lines or []]
        return [line[:3] for line in (lines[0], lines[-1])] if lines else []

    def without_text(found):
        """A reply's code in the place of the reply."""
        if isinstance(found, list):
            return [without_text(each) for each in found]
        return found[:3] if isinstance(found, str) and re.match(r"[1-5]\d\d ", found) else found

    class Comparing:
        """Replies by their codes."""

        def assertCommandResponse(self, command, expected, chainDeferred=None):
            chain = chainDeferred or test_ftp.defer.succeed(None)
            chain.addCallback(lambda _: self.client.queueStringCommand(command))
            return chain.addCallback(lambda lines: self.assertEqual(codes(expected), codes(lines), command))

        def assertCommandFailed(self, command, expected=None, chainDeferred=None):
            chain = chainDeferred or test_ftp.defer.succeed(None)
            chain.addCallback(lambda _: self.client.queueStringCommand(command))
            self.assertFailure(chain, test_ftp.ftp.CommandFailed)
            return chain.addCallback(lambda error: expected and self.assertEqual(codes(expected), codes(error.args[0]), command))

    class Downloader(protocol.Protocol):
        """What comes over a data connection, also where that isn't open yet."""

        def __init__(self):
            self.buffer, self.d = b"", test_ftp.defer.Deferred()
            self.transport = types.SimpleNamespace(loseConnection=lambda: None)

        def dataReceived(self, data):
            self.buffer += data

        def connectionLost(self, reason=protocol.connectionDone):
            self.d.callback(self)

    def listen(self, _=None):
        """Sends PORT. The server may connect after the next command, and not before it answers PORT as Twisted's does."""
        downloader, factory = Downloader(), protocol.ServerFactory()
        factory.buildProtocol = lambda _: downloader
        port = reactor.listenTCP(0, factory, interface=HOST)
        self.dataPorts.append(port)
        command = f"PORT {test_ftp.ftp.encodeHostPort(HOST, port.getHost().port)}"
        return self.client.queueStringCommand(command).addCallback(lambda _: downloader)

    def patch(self, *_):
        raise unittest.SkipTest("it needs its own server: it replaces a part of it")

    compare = test_ftp.FTPServerTestCase.assertEqual

    def assert_equal(self, first, second, message=None):
        return compare(self, without_text(first), without_text(second), message)

    gc.disable()  # else an error that a test has left unseen is one of whichever test runs when it is collected
    base = test_ftp.FTPServerTestCase
    base.setUp, base.timeout, base.patch, base.assertEqual = set_up, PATIENCE, patch, assert_equal
    test_ftp.FTPServerPortDataConnectionTests._makeDataConnection = listen
    base.assertCommandResponse, base.assertCommandFailed = Comparing.assertCommandResponse, Comparing.assertCommandFailed
    from twisted.trial.runner import TestLoader

    classes = [test_ftp.BasicFTPServerTests, test_ftp.FTPServerAdvancedClientTests, test_ftp.FTPServerPasvDataConnectionTests,
               test_ftp.FTPServerPortDataConnectionTests]
    return unittest.TestSuite(TestLoader().loadClass(each) for each in classes)


def cpython_suite(settings):
    """Python's tests of ftplib. Most compare what a server in the test itself answers, whatever it is asked."""
    import ftplib

    from test import test_ftplib

    class Standing(Server):
        """In the place of the test's own server."""

        encoding = "utf-8"

        def __init__(self, address, af=socket.AF_INET, encoding="utf-8"):
            super().__init__(settings, None, HOST6 if af == socket.AF_INET6 else HOST)

        def start(self):
            """It runs already."""

    login = ftplib.FTP.connect

    def connect(self, *arguments, **options):
        welcome = login(self, *arguments, **options)
        ftplib.FTP.login(self, settings["user"], settings["password"])
        return welcome

    ftplib.FTP.connect = connect
    test_ftplib.DummyFTPServer = Standing
    loader = unittest.TestLoader()
    return unittest.TestSuite(map(loader.loadTestsFromTestCase, [test_ftplib.TestFTPClass, test_ftplib.TestIPv6Environment]))


def main():
    settings = json.loads(sys.argv[2])
    suite = {"twisted": twisted_suite, "cpython": cpython_suite}[sys.argv[1]](settings)
    suite.run(Result())


if __name__ == "__main__":
    main()
