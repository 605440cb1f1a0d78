"""Guessed passwords at ftpd: checks of tools/clients/ftpd."""

import contextlib
import os
import signal
import subprocess
import threading
import time

from ftpd_server import HOST, OTHER_HOST, PASSWORD, PATIENCE, READER, USER, Server, Wrong, until_logged, wait_until, wants

GUESSES = 140
# about how many seconds a password takes to be hashed
HASHING = 0.3


def hash_in(program, rounds):
    """The hash of the password, in so many rounds."""
    command = [program, "--hash-password", "--rounds", str(rounds)]
    return subprocess.run(command, input=PASSWORD, capture_output=True, text=True, timeout=PATIENCE, check=True).stdout.strip()


def guess(server, source, name=USER, count=1, asks=lambda: None):
    """Connects and guesses anew, so often, and returns the codes of the replies."""
    codes = []
    for _ in range(count):
        with contextlib.suppress(OSError, Wrong), server.control(source) as control:
            control.wants(f"USER {name}", 331)
            asks()
            codes.append(control.ask("PASS wrong")[0])
    return codes


def beside_guesses(server):
    """How many guesses are looked at while a right password waits and is looked at, beside connections of another address that guess."""
    asked = []
    for _ in range(GUESSES):
        threading.Thread(target=guess, args=(server, OTHER_HOST), kwargs={"asks": lambda: asked.append(None)}, daemon=True).start()
    wait_until(f"{GUESSES} guesses", lambda: len(asked) == GUESSES)
    with server.control() as control:
        control.wants(f"USER {USER}", 331)
        before = server.logged().count("login failed")
        control.wants(f"PASS {PASSWORD}", 230)
        return server.logged().count("login failed") - before


def check_guessed_beside(program):
    """Connections that guess don't keep a right login waiting: of each of the processors, few guesses come before it. Connecting anew doesn't help
    them."""
    begun = time.monotonic()
    hash_in(program, 20_000)
    rounds = int(20_000 * HASHING / (time.monotonic() - begun))
    with Server(program) as server:
        (server.place / "users").write_text(f"{USER}:{hash_in(program, rounds)}\n", encoding="ascii")
        server.reads_again(1)
        count, most = beside_guesses(server), 8 * os.cpu_count()
        wants(f"whether {count} of {GUESSES} guesses are looked at before it, and no more than {most}", count <= most, True)


def check_guesses_limited(program):
    """So many wrong passwords of an address are looked at, and no more. Those of others are. One is forgiven in 30 seconds, so that no server is
    asked for long."""
    with Server(program, "--wrong-per-address", 4) as server:
        begun = time.monotonic()
        wants("the replies", guess(server, OTHER_HOST, count=6), [530] * 4 + [421] * 2)
        with server.control(OTHER_HOST) as control:
            control.wants(f"USER {USER}", 331)
            control.wants(f"PASS {PASSWORD}", 421)
        wants("whether it took time", time.monotonic() - begun >= 7, True)
        server.reads_again(1)
        with server.control(OTHER_HOST) as control:
            control.wants("USER nobody", 331)
            control.wants("PASS x", 421)
        until_logged(server, "login failed", 8)
        server.login().connection.close()
        server.login("ftp").connection.close()
    # of an address that also guesses, a user may go on who was there before, and no other
    with Server(program, "--wrong-per-address", 4) as server:
        server.login().connection.close()
        wants("the replies", guess(server, HOST, "nobody", count=5), [530] * 4 + [421])
        server.login().connection.close()
        with server.control() as control:
            control.wants(f"USER {READER}", 331)
            control.wants(f"PASS {PASSWORD}", 421)


def check_guesses_of_a_name(program):
    """So many wrong passwords of a name are looked at, of all addresses. A right one is taken of an address that it came from before."""
    with Server(program, "--wrong-per-name", 3) as server:
        server.login().connection.close()
        wants("the replies", [guess(server, f"127.0.1.{number}") for number in range(1, 6)], [[530]] * 3 + [[421]] * 2)
        server.login().connection.close()
        with server.control(OTHER_HOST) as control:
            control.wants(f"USER {USER}", 331)
            control.wants(f"PASS {PASSWORD}", 421)
        wants("the reply for another name", guess(server, OTHER_HOST, "nobody"), [530])


def check_delayed(program):
    """The replies to further wrong passwords of an address take longer, also on new connections."""
    with Server(program) as server:
        taken = []
        for _ in range(6):
            begun = time.monotonic()
            guess(server, OTHER_HOST)
            taken.append(time.monotonic() - begun)
        wants(f"whether {taken} grow", 1 <= min(taken) < 2 <= taken[5], True)


def check_delayed_end(program):
    """A session whose reply is delayed ends with the server: the last ones are delayed for 16 seconds."""
    with Server(program, "--wrong-per-address", 30) as server:
        for _ in range(25):
            threading.Thread(target=guess, args=(server, OTHER_HOST), daemon=True).start()
        until_logged(server, "login failed", 25)
        begun = time.monotonic()
        server.process.send_signal(signal.SIGTERM)
        wants("the status", server.process.wait(PATIENCE), 0)
        taken = time.monotonic() - begun
        wants(f"whether it ends in 12 seconds, and not in {taken:.1f}", taken < 12, True)
