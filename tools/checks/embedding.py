#!/usr/bin/env python3
"""Makes the checks of tools/checks/embedding that compare answers with the vector files, and what the header says with the sources.

usage: tools/checks/embedding.py sessions|session SERVER..        the replies of the server: to all lines, or to one line of each kind
       tools/checks/embedding.py memory PRELOAD SERVER              what it sends at each failed allocation: PRELOAD is tools/checks/c/fail_allocation.c
       tools/checks/embedding.py answers REPLAY.. FILE SKIPPED      the answers to a vector file, of which so many may be skipped
       tools/checks/embedding.py worked REPLAY..                    the answers to the rows by hand whose call REPLAY has
       tools/checks/embedding.py read|canonical|forward REPLAY..    the replies that servers wrote; the lines that are written for clients' lines
       tools/checks/embedding.py addresses REPLAY..                 the addresses of the rows by hand, which are also written and read back; and
                                                             those that servers named
       tools/checks/embedding.py exchanges REPLAY..                 the lines of a log for exchanges, of the rows by hand
       tools/checks/embedding.py valgrind LOG..                     whether each process ended without an error
       tools/checks/embedding.py numbers                            the numbers of the header and of bindings/rust are the definition's, and those
                                                             of replies also the documents'
       tools/checks/embedding.py structs                            header, library and bindings/rust have the same structs: names, order and
                                                             types of their fields
       tools/checks/embedding.py exports                            they have the same functions, which it lists
       tools/checks/embedding.py parameters FUNCTION                names, order and types of its parameters in the three, and of its result
       tools/checks/embedding.py symbols FOLDER                     the libraries there have these functions and no other global name
       tools/checks/embedding.py results PROGRAM                    the version of the library, and a text for each result: PROGRAM is
                                                             tools/checks/c/results.c
       tools/checks/embedding.py calls CALLS..                      what the header says of rooms and lengths: CALLS is tools/checks/c/calls.c
       tools/checks/embedding.py stack STACK                        what it says of the stack: STACK is tools/checks/c/stack.c
       tools/checks/embedding.py allocations ALLOCATIONS            unftp_next asks for memory as often as parse does where it puts a value together, and else never:
                                                             ALLOCATIONS is tools/checks/c/allocations.c
       tools/checks/embedding.py shortcuts SHORTCUTS                the instructions of calls over long values: the short ways are taken.
                                                             SHORTCUTS is tools/checks/c/shortcuts.c

SERVER.., REPLAY.. and CALLS.. may be the program and what runs it. The last line says what was compared; the status is 0 where all is right.
"""

import os
import pathlib
import re
import signal
import socket
import struct
import subprocess
import sys
import tempfile
import threading

from rows import command_of, differences, quoted, rows, unquoted
from started_server import GREETING, HOST, LIFE, PATIENCE, StartedServer, Wrong, receive, run_check, send_pieces, wants

sys.path.append(str(pathlib.Path(__file__).resolve().parents[1]))
from library import SHARED, STATIC, TOP, calls, global_names, header, names_of, output_of, shared_names, version

RUST = TOP / "bindings/rust/src/ffi.rs"
LINE_FILES = ["parse.tsv", "client_lines.tsv"]

LINE_LIMIT = 4096

TOO_LONG = b"500 Line too long\r\n"
OUT_OF_MEMORY = b"421 Out of memory\r\n"

REFUSALS = {
    "InvalidCommand": b"501 Invalid parameter\r\n",
    "InvalidUtf8": b"500 The command is not UTF-8\r\n",
    "InvalidEol": b"500 Invalid line ending\r\n",
}

REPLIES = {
    "Acct": b"202 No account is needed\r\n",
    "Syst": b"215 UNIX Type: L8\r\n",
    "TypeCode": b"200 OK\r\n",
    "Noop": b"200 OK\r\n",
    "Feat": b"211-Features:\r\n UTF8\r\n211 End\r\n",
    "Help": b"214-Commands:\r\n ACCT FEAT HELP NOOP PASS PWD\r\n QUIT SITE SYST TYPE USER\r\n214 End\r\n",
    "Pwd": b'257 "/" is the current directory\r\n',
    "Quit": b"221 Bye\r\n",
}

# the values that the vector files name
WORDS = {
    "Stru": {"File": b"F", "Record": b"R", "Page": b"P"},
    "Mode": {"Stream": b"S", "Block": b"B", "Compressed": b"C"},
    "Opts": {"true": b"UTF8 ON", "false": b"UTF8 OFF"},
    "Auth": {"Tls": b"TLS", "Ssl": b"SSL"},
    "Prot": {"Clear": b"C", "Safe": b"S", "Confidential": b"E", "Private": b"P"},
}


def one_lines():
    """The lines whose one line feed is their last byte, with their answers."""
    cases = [(unquoted(row.case.split("\t")[1]), row.answer) for name in LINE_FILES for row in rows(name)]
    return [(line, answer) for line, answer in cases if line.find(b"\n") == len(line) - 1 >= 0]


def name_and_value(variant, fields):
    """How the server names a command, and what it says after that."""
    last = [*fields.values()][-1] if fields else None
    if variant in WORDS:
        return variant.upper().encode(), WORDS[variant][last]
    if variant == "Rest":
        return b"REST", last.encode()
    if variant == "Pbsz":
        return b"PBSZ", b"0"
    value = last or b""
    if variant in ["Site", "Other"]:
        name = [*fields.values()][0]
        return b"SITE " + name if variant == "Site" else name, value
    return b"SITE MD5" if variant == "Md5" else variant.upper().encode(), value


def reply_to(answer):
    """The server's reply to a line with this answer."""
    if answer.startswith("err "):
        return REFUSALS[answer.removeprefix("err ")]
    variant, fields = command_of(answer)
    if variant in REPLIES:
        return REPLIES[variant]
    name, value = name_and_value(variant, fields)
    if name == b"SITE ECHO":
        return b"200 " + value + b"\r\n" if value else b"200\r\n"
    text = b" ".join([name, value] if value else [name]) + b": not implemented"
    return b"502 " + text + b"\r\n"


# what needs no login (docs/TOPICS.md)
WITHOUT_LOGIN = {"Quit", "Auth", "Pbsz", "Prot", "Feat", "Help", "Noop", "Syst"}
ACCOUNT = {"User": b"anna", "Pass": b"secret"}
NEED_PASSWORD, LOGGED_IN = b"331 User name okay, need password\r\n", b"230 User logged in, proceed\r\n"


class Replies:
    """The replies of a session, by the answers of its lines: those of the login, and after one those of `reply_to`."""

    def __init__(self):
        self.name, self.is_member = None, False

    def to(self, answer):
        """The reply to the next line."""
        variant, fields = command_of(answer) if answer.startswith("ok ") else ("", {})
        if variant == "Pass":
            return self.to_password([*fields.values()][-1])
        if variant in ["User", "Auth"]:
            self.name, self.is_member = None, False
        if variant == "User":
            self.name = [*fields.values()][-1]
            return NEED_PASSWORD
        if variant == "" or variant in WITHOUT_LOGIN or self.is_member:
            return reply_to(answer)
        return b"530 Log in with USER and PASS\r\n"

    def to_password(self, password):
        name, self.name = self.name, None
        if name is None:
            return b"503 Send USER first\r\n"
        self.is_member = (name, password) == (ACCOUNT["User"], ACCOUNT["Pass"])
        return LOGGED_IN if self.is_member else b"530 Login incorrect\r\n"

    def log_in(self):
        """The lines of a login, and their replies."""
        self.name, self.is_member = None, True
        return [(b"USER anna\r\n", NEED_PASSWORD), (b"PASS secret\r\n", LOGGED_IN)]


class Server(StartedServer):
    """The server while it runs, with these words before its port. At the end it is stopped as an administrator stops it, and has to end
    with this status, having written `said` to standard error."""

    def __init__(self, arguments):
        named = ["sh", "-c", 'echo $$; exec "$@"', "sh", *arguments, "0"]  # the process that sh was is the server
        self.errors = tempfile.TemporaryFile()
        self.status, self.said = 0, b""
        super().__init__(named, self.errors)

    def __enter__(self):
        self.pid = int(self.process.stdout.readline())
        return super().__enter__()

    def stop(self, number=signal.SIGTERM):
        """Its status and what it has written to standard error, once it has ended at this signal."""
        self.process.send_signal(number)
        status = self.process.wait(PATIENCE)
        self.errors.seek(0)
        return status, self.errors.read()

    def __exit__(self, raised, *_):
        try:
            ended = self.stop()
        except subprocess.TimeoutExpired:
            ended = "it goes on"
        super().__exit__()
        if raised is None:
            wants("the server's end", ended, (self.status, self.said))


def send_all(connection, sent, ends):
    send_pieces(connection, sent)
    if ends:
        connection.shutdown(socket.SHUT_WR)


def converse(server, lines, replies):
    """Sends these lines in pieces, while it reads: exactly these replies come, and then the end of the connection. After QUIT the
    client sends another line, and leaves its side open."""
    quits = replies[-1:] == [REPLIES["Quit"]]
    sent = b"".join(lines) + (b"NOOP\r\n" if quits else b"")
    with server.greeted() as connection:
        sender = threading.Thread(target=send_all, args=(connection, sent, not quits), daemon=True)
        sender.start()
        received = receive(connection)
        sender.join()
    expected = b"".join(replies)
    if received != expected:
        at = len(os.path.commonprefix([received, expected]))
        raise Wrong(f"the reply from byte {at}: it has {received[at:at + 80]!r}, and not {expected[at:at + 80]!r}")


def sessions_of(lines):
    """The lines with their replies, up to each QUIT: after a login, and after another one where a line ends it."""
    session, replies = [], Replies()
    for line, answer in lines:
        if not replies.is_member and not answer.startswith("ok Pass "):
            session += replies.log_in()
        session.append((line, replies.to(answer)))
        if answer == "ok Quit":
            yield session
            session, replies = [], Replies()
    yield session


def long_lines():
    """Lines at the limit, longer ones, and one between them, of somebody who has logged in."""
    fitting = b"SITE ECHO ".ljust(LINE_LIMIT - 2, b"x")
    noop = (b"NOOP\r\n", REPLIES["Noop"])
    yield fitting + b"\r\n", b"200 " + fitting[10:] + b"\r\n"
    yield fitting + b"x\r\n", TOO_LONG
    yield noop
    yield b"x" * 4998 + b"\r\n", TOO_LONG
    yield noop
    yield b"SITE ECHO " + b"\xff" * 4000 + b"\r\n", b"200 " + "\ufffd".encode() * 4000 + b"\r\n"
    yield b"x" * 100_000 + b"\n", TOO_LONG
    yield noop


def check_sessions(*arguments):
    """All lines, over as many connections as there are QUITs, and one beside them."""
    lines = one_lines()
    with Server(arguments) as server, server.greeted() as beside:
        sessions = [*sessions_of(lines), [*Replies().log_in(), *long_lines()]]
        for session in sessions:
            converse(server, [line for line, _ in session], [reply for _, reply in session])
        beside.sendall(b"noop\n")
        wants("the first connection at the end", receive(beside, 8), REPLIES["Noop"])
    return f"{len(lines)} lines answered over {len(sessions)} connections"


def kinds_of_lines():
    """One line of each command and of each refusal, a QUIT last."""
    kinds = {}
    for line, answer in one_lines():
        kinds.setdefault(" ".join(answer.split(" ")[:2]), (line, answer))
    kinds["not UTF-8"] = (b"STAT \xff\r\n", 'ok Stat path="\\xff"')
    kinds["no subcommand"] = (b"SITE\n", 'ok Site command="" arguments=""')
    kinds["echo"] = (b"SITE ECHO hello\r\n", 'ok Site command="ECHO" arguments="hello"')
    quit_line = kinds.pop("ok Quit")
    return [*kinds.values(), quit_line]


def check_session(*arguments):
    """One line of each kind, over one connection after a login, and over one without."""
    replies = Replies()
    without = [(line, replies.to(answer)) for line, answer in kinds_of_lines()]
    [session, _] = sessions_of(kinds_of_lines())
    session[-1:-1] = [*Replies().log_in(), *long_lines()]
    with Server(arguments) as server:
        for each in [session, without]:
            converse(server, [line for line, _ in each], [reply for _, reply in each])
    return f"{len(session)} lines answered, and {len(without)} without a login"


def replies_without(preload, program, number):
    """What the server sends where this allocation fails, and whether it has come to that."""
    lines = [b"RETR a\r\0b\r\n", b"FEAT\r\n", b"STAT \xff\r\n", b"SITE ECHO a\r\n"]
    answers = ['ok Retr path="a\\rb"', "ok Feat", 'ok Stat path="\\xff"', 'ok Site command="ECHO" arguments="a"']
    login = Replies().log_in()
    lines = [line for line, _ in login] + lines
    replies = [GREETING, *[reply for _, reply in login], *map(reply_to, answers)]
    with Server(["env", f"LD_PRELOAD={preload}", f"FAIL_AT={number}", program]) as server:
        with socket.create_connection((HOST, server.port), PATIENCE) as connection:
            send_all(connection, b"".join(lines), ends=True)
            received = receive(connection)
    if received == b"".join(replies):
        return False
    ended = [b"".join(replies[:count]) + OUT_OF_MEMORY for count in range(len(replies))]
    if received not in ended:
        raise Wrong(f"at allocation {number}: it has {received!r}")
    return True


def check_memory(preload, program):
    """At a failed allocation the replies before it, 421, and then the end of the connection."""
    first = number = 2  # the first one is that of standard output
    while replies_without(preload, program, number):
        number += 1
    if number == first:
        raise Wrong("no allocation failed")
    return f"421 at {number - first} failed allocations"


def answers_of(program, asked):
    """What the program answers to these rows."""
    text = "".join(f"{row.case}\n" for row in asked)
    run = subprocess.run(program, input=text, capture_output=True, encoding="ascii", timeout=LIFE)
    wants("the program's status", (run.returncode, run.stderr), (0, ""))
    answers = run.stdout.splitlines()
    wants("the number of answers", len(answers), len(asked))
    return answers


def compare(program, asked):
    """Compares the answers that are not `skipped` with those of the rows, and returns them with their rows."""
    compared = [(row, answer) for row, answer in zip(asked, answers_of(program, asked)) if answer != "skipped"]
    wrong, shown = differences(compared)
    if wrong:
        raise Wrong(f"{wrong} of {len(compared)} rows differ\n{shown}")
    return compared


def check_answers(*arguments):
    """A vector file: of its rows no more than so many are skipped."""
    *program, name, most = arguments
    asked = rows(name)
    compared = len(compare(program, asked))
    skipped = len(asked) - compared
    if skipped > int(most) or compared == 0:
        raise Wrong(f"{skipped} of {len(asked)} rows are skipped, and not at most {most}")
    return f"{compared} of {len(asked)} rows compared, {skipped} skipped"


# the calls of the rows that a program in C answers
IN_C = [
    "canonical",
    "client",
    "decode",
    "encode",
    "forward",
    "lines",
    "list_path",
    "log",
    "parameter",
    "parse",
    "quoted_path",
    "read",
]


def check_worked(*program):
    """The rows by hand of the calls that C has. Of `canonical` the line alone is compared."""
    asked = [row.asked(row.case, re.sub('" is (ok|err) .*', '"', row.answer)) if row.call == "canonical" else row for row in rows("worked.tsv")]
    compared = compare(program, asked)
    wants("the calls", sorted({row.call for row, _ in compared}), IN_C)
    return f"{len(compared)} of {sum(row.call in IN_C for row in asked)} rows of these calls compared"


def shown_replies(case, answer):
    """What the program has to answer to a stream with this answer, which has the lines of each reply: each ends with CR LF."""
    lines = unquoted(case.split("\t")[1]).split(b"\r\n")
    shown = []
    at = 0
    while answer[at] != " ":
        code, size = answer[at:at + 3], 0
        at += 3
        while answer[at] in ":,":
            at += 1
            line = lines.pop(0)
            size += len(line) + 2
            # the first line and the last are there without their code
            words = [word for word in [quoted(line[4:]), quoted(line)] if answer.startswith(word, at) and answer[at + len(word)] in ",; "]
            wants("a line of the answer", len(words) > 0, True)
            at += len(words[0])
        shown.append(f"{code}:{size}")
        at += answer[at] == ";"
    return ";".join(shown) + answer[at:]


def check_read(*program):
    """What servers wrote: the code and the length of each reply, and what is left."""
    asked = [row.asked(row.case, shown_replies(row.case, row.answer)) for row in rows("server_replies.tsv")]
    compare(program, asked)
    return f"{len(asked)} streams of {sum(row.answer.count(':') for row in asked)} replies compared"


def read_back(program, call):
    """The line that the call writes for a client's line is read as its command; a refused line has the same refusal."""
    asked = [row.asked(re.sub("^parse", call, row.case)) for row in rows("client_lines.tsv")]
    written = [*zip(asked, answers_of(program, asked))]
    refused = [(row, line) for row, line in written if not line.startswith('"')]
    wrong, shown = differences(refused)
    if wrong:
        raise Wrong(f"{wrong} of {len(refused)} refusals differ\n{shown}")
    read = [row.asked(f"parse\t{line}", how=", its written line") for row, line in written if line.startswith('"')]
    if len(compare(program, read)) != len(read) or not read:
        raise Wrong("a line that was written was skipped")
    return f"{len(read)} commands read back, {len(refused)} lines refused"


def check_canonical(*program):
    """The canonical line of each command is read as that command."""
    return read_back(program, "canonical")


def check_forward(*program):
    """So is the line that is forwarded; and the rows by hand say what it keeps."""
    asked = [row for row in rows("worked.tsv") if row.call == "forward"]
    compare(program, asked)
    return f"{read_back(program, 'forward')}, {len(asked)} rows compared"


# what shows the address in the replies 227 and 229 of real servers
SHOWN = {b"227": rb"\((\d+),(\d+),(\d+),(\d+),(\d+),(\d+)\)", b"229": rb"\(\|\|\|(\d+)\|\)"}


def named_addresses():
    """The last lines of the replies 227 and 229 that servers wrote, each with the address that it shows."""
    for row in rows("server_replies.tsv") + rows("connections.tsv"):
        words = row.case.split("\t")
        written = b"".join(unquoted(word) for before, word in zip(words, words[1:]) if before != "send" and word.startswith('"'))
        for code, text in re.findall(rb"^(227|229) (.*)\r$", written, re.M):
            numbers = [int(number) for number in re.search(SHOWN[code], text).groups()]
            *host, port = [*numbers[:4], 256 * numbers[4] + numbers[5]] if code == b"227" else numbers
            host = f"ip={'.'.join(map(str, host))} " if host else ""
            yield row.asked(f"read_address\t{code.decode()}\t{quoted(text)}", f"{host}port={port}")


def written_addresses(asked):
    """The calls that write the addresses which these rows read, in each form that has such a host; their texts are read as this answer."""
    for row in asked:
        read = re.fullmatch(r"(?:ip=(\S+) )?port=(\d+)", row.answer)
        if not read:
            continue
        host, port = read.groups()
        yield row.asked(f"write_address\t229\t-\t{port}", f"port={port}")
        for form in [] if host is None else ["PORT", "227", "EPRT"] if "." in host else ["EPRT"]:
            yield row.asked(f"write_address\t{form}\t{host}\t{port}")


def check_addresses(*program):
    """The rows by hand; what is written for each of their addresses; and what servers named."""
    by_hand, named = rows("addresses.tsv"), [*named_addresses()]
    written = [*written_addresses(by_hand)]
    texts = answers_of(program, written)
    read_back = [row.asked("\t".join(["read_address", row.case.split("\t")[1], text]), how=", read back") for row, text in zip(written, texts)]
    for asked in [by_hand, read_back, named]:
        wants("the number of rows that are compared", len(compare(program, asked)), len(asked))
    return f"{len(by_hand)} rows, {len(read_back)} texts read back, {len(named)} replies of servers"


def check_exchanges(*program):
    """The rows by hand; REPLAY may skip those that are of a room."""
    asked = rows("exchanges.tsv")
    compared, without_room = len(compare(program, asked)), sum(row.case.split("\t")[1] == "any" for row in asked)
    if compared not in [len(asked), without_room]:
        raise Wrong(f"{compared} of {len(asked)} rows are compared, of which {without_room} are of no room")
    return f"{compared} rows"


# the vector files with lines and streams that clients sent, and those with texts of replies, of addresses and of exchanges
INPUT_FILES = [*LINE_FILES, "decode.tsv", "client_streams.tsv", "encode.tsv", "addresses.tsv", "exchanges.tsv"]


# the lengths of long texts; under valgrind, of which only the first
LONG_TEXTS = [100_000, 1_000_000, 10_000_000]
# what the text of a 227 from a hostile server may repeat: no call would end in time that reads all of it again at each word
HOSTILE_TEXTS = [b"1,", b"1 ", b"1,2,3,4,5,6,7 ", b"127,0,0,1,195,"]


def said_of(program, inputs):
    """What the program prints, to these inputs."""
    given = b"".join(struct.pack("<I", len(each)) + each for each in inputs)
    run = subprocess.run(program, input=given, capture_output=True, timeout=LIFE)
    said = run.stdout.decode(errors="replace").strip()
    if run.returncode != 0 or run.stderr:
        raise Wrong(f"status {run.returncode}: {said} {run.stderr!r}")
    return said


def said_of_inputs(*program):
    """What the program prints, to all that the vector files have between quotes, and to long lines."""
    words = [word for name in INPUT_FILES for row in rows(name) for word in re.findall(r'"(?:[^"\\]|\\.)*"', row.case)]
    lengths = LONG_TEXTS[:1] if len(program) > 1 else LONG_TEXTS
    long = {b"RETR " + b"a" * length + b"\r\n" for length in lengths} | {line for line, _ in long_lines()}
    long |= {text * (length // len(text)) for length in lengths for text in HOSTILE_TEXTS}
    inputs = sorted({unquoted(word) for word in words} | long)
    said = said_of(program, inputs)
    wants("the number of inputs", said.split(" ")[0], str(len(inputs)))
    return said


def check_calls(*program):
    """What the header says of rooms and lengths."""
    return said_of_inputs(*program)


def check_stack(program):
    """No call takes more stack than the header and its page say."""
    inputs, *lines = said_of_inputs(program).splitlines()
    took = {name: int(size) for name, size in (line.split("\t") for line in lines)}
    wants("the calls", sorted(took), sorted(calls()))
    for name in ["include/unftp_control.h", "packaging/unftp_control.3", "docs/C.md"]:
        [most] = re.findall(r"at most ([\d,]+) bytes of stack", (TOP / name).read_text(encoding="utf-8"))
        if max(took.values()) > int(most.replace(",", "")):
            raise Wrong(f"{name} has {most} bytes of stack: {took}")
    return f"{inputs}, at most {max(took.values())} bytes of stack"


def check_valgrind(*logs):
    """The logs of the server and of its children."""
    for log in logs:
        text = pathlib.Path(log).read_text(encoding="utf-8", errors="replace")
        if "ERROR SUMMARY: 0 errors" not in text:
            raise Wrong(f"a process has errors, or did not end:\n{text}")
    if len(logs) < 2:
        raise Wrong(f"{len(logs)} processes ran, and not the server and its child")
    return f"{len(logs)} processes without an error"


def constant(name):
    """The header's name, without UNFTP_, of a constructor: InvalidUtf8 is INVALID_UTF8, and InNMinutes IN_N_MINUTES."""
    special = {"TypeCode": "TYPE", "Listing": "LIST", "Reply227": "227", "Reply229": "229"}
    return special.get(name) or re.sub(r"(?<=[a-z])(?=[A-Z])|(?<=[A-Z])(?=[A-Z][a-z])", "_", name).upper()


def numbers_in(path, pattern):
    """The names that the pattern finds in the file, each with its number; the pattern gives both, in either order."""
    found = {}
    for row in re.findall(pattern, (TOP / path).read_text(encoding="utf-8"), re.M):
        name, number = sorted(row, key=str.isdigit)
        found[constant(name) if not name.isupper() else name] = int(number)
    return found


def wants_numbers(what, found, expected):
    if found != expected:
        raise Wrong(f"{what} has other numbers: {sorted(set(found.items()) ^ set(expected.items()))}")


def check_codes():
    """The codes of ReplyCode are those that docs/REFERENCE.md lists; those of three digits, and the others that it names, are the header's."""
    codes = numbers_in("crates/unftp_control_message/src/reply/code.rt", r"^    (\w+) = (\d+),$")
    wants_numbers("the table of REFERENCE.md", numbers_in("docs/REFERENCE.md", r"\b(\d+) `(\w+)`"), codes)
    others = numbers_in("docs/REFERENCE.md", r"^\| (\d{3}) \| `(\w+)` \|")
    named = {name: number for name, number in codes.items() if number >= 100} | others
    wants_numbers("enum unftp_code", numbers_in("include/unftp_control.h", r"^    UNFTP_CODE_(\w+) = (\d+)"), named)
    if not others or len({*codes.values(), *others.values()}) != len(codes) + len(others):
        raise Wrong("REFERENCE.md names no other code, or one twice")
    return f"{len(named)} codes of replies"


def header_numbers():
    """The results of the header, with their numbers."""
    return numbers_in("include/unftp_control.h", r"^    UNFTP_(?!CODE_|TO_|LOGIN_|ADDRESS_|KIND_)(\w+) = (\d+)")


def equations(function):
    """What finds the numbers of a definition's equations."""
    return rf"^{function} \(?(\w+)(?: \w+\))? = (\d+)$"


# the other enums of the header: what their names begin with, and what finds their numbers in a module of definitions
ENUMS = {
    "TO": ("Clients", equations("to_number")),
    "LOGIN": ("Logins", equations("step_number")),
    "ADDRESS": ("Addresses", r"\bif number == (\d+)\s+then Some (\w+)"),
    "KIND": ("FileLines", r"\bif number == (\d+) then Some kind\.(\w+)"),
}


def check_enums():
    """The numbers of the header's other enums are those of the definitions."""
    for prefix, (module, pattern) in ENUMS.items():
        defined = numbers_in(f"crates/unftp_control_c/specs/{module}.antt", pattern)
        wants_numbers(f"UNFTP_{prefix}", numbers_in("include/unftp_control.h", rf"^    UNFTP_{prefix}_(\w+) = (\d+)"), defined)
        if not defined:
            raise Wrong(f"{module} has no number of UNFTP_{prefix}")
    return f"{len(ENUMS)} other enums"


def check_numbers():
    """The definitions' numbers, which the contracts tie to the code, are those of the header, and those of bindings/rust are among them."""
    commands = numbers_in("crates/unftp_control_defs/specs/FtpCommand.antt", r"^row verb\.(\w+) = entry (\d+) ")
    statuses = numbers_in("crates/unftp_control_c/specs/Numbers.antt", r"^status_number (\w+) = (\d+)$")
    declared = header_numbers()
    wants_numbers("the header", declared, {**commands, **statuses})
    wants("the number of the header's names", len(declared), len(commands) + len(statuses))
    if RUST.exists():
        used = numbers_in(RUST, r"^pub(?:\(crate\))? const (\w+): u32 = (\d+);")
        all_declared = numbers_in("include/unftp_control.h", r"^    UNFTP_(?!CODE_)(\w+) = (\d+)")
        if not used.items() <= all_declared.items():
            raise Wrong(f"{RUST.name} has other numbers: {sorted(set(used.items()) - set(all_declared.items()))}")
        wants_numbers("command.rs of bindings/rust", numbers_in("bindings/rust/src/command.rs", r'^ {12}(\d+) (\w+) "\w*" \w+ \{'), commands)
    return f"{len(commands)} commands, {len(statuses)} other results, {check_enums()} and {check_codes()}"


# what a type of the library's functions and structs is to C: the type, and what follows the name, for each parameter that it is; a u32
# as a result is an enum too, each of which results.c finds to have the size of a uint32_t
TYPES_IN_C = {
    "Global": [],
    "&[u8]": [("const char *", ""), ("size_t", "_len")],
    "&mut [u8]": [("char *", ""), ("size_t", "_room")],
    "&mut usize": [("size_t *", "")],
    "&mut u32": [("uint32_t *", "")],
    "&mut u64": [("uint64_t *", "")],
    "usize": [("size_t", "")],
    "u32": [("uint32_t", "")],
    "u64": [("uint64_t", "")],
    "i64": [("int64_t", "")],
}

# what a type of bindings/rust is to C
FROM_RUST = {
    "*const u8": "const char *",
    "*mut u8": "char *",
    "*mut usize": "size_t *",
    "*mut u32": "uint32_t *",
    "*mut u64": "uint64_t *",
    "usize": "size_t",
    "u32": "uint32_t",
    "u64": "uint64_t",
    "i64": "int64_t",
}

# the types of results in the header, and what each is in Rust
RESULTS = {"enum unftp_result": "u32", "enum unftp_to": "u32", "enum unftp_login_step": "u32", "uint32_t": "u32", "uint64_t": "u64"}


def struct_name(name):
    """The name in C of a struct of the library: that of FoundReply is struct unftp_found_reply."""
    return "struct unftp_" + constant(name).lower()


def type_in_c(kind):
    """What a type of the library is to C."""
    reference = re.fullmatch(r"&(mut )?([A-Z]\w*)", kind)
    if kind not in TYPES_IN_C and reference:
        return [(f"{'' if reference[1] else 'const '}{struct_name(reference[2])} *", "")]
    return TYPES_IN_C[kind]


def type_from_rust(kind):
    """What a type of bindings/rust is to C."""
    pointer = re.fullmatch(r"\*(mut|const) ([A-Z]\w*)", kind)
    if kind not in FROM_RUST and pointer:
        return f"{'' if pointer[1] == 'mut' else 'const '}{struct_name(pointer[2])} *"
    return FROM_RUST[kind]


def names_and_types(parameters):
    """The parameters or fields of a source in Rust: their names and types."""
    return [re.sub(r"^pub(\(crate\))? ", "", parameter).split(": ") for parameter in parameters]


def split_at(sign, text):
    """The parts of the text that the sign divides, with one space for each run of spaces."""
    parts = [" ".join(part.split()) for part in text.split(sign)]
    return [part for part in parts if part]


def functions_in(text, pattern):
    """The functions that the pattern finds, by name: the texts of their parameters, and that of the result."""
    found = {}
    for match in re.finditer(pattern, text):
        if match["name"] in found:
            raise Wrong(f"{match['name']} is declared twice")
        found[match["name"]] = (split_at(",", match["parameters"]), match["result"])
    return found


def in_the_library(parameters, result):
    """The result of a function of the library, and its parameters, as C has them."""
    return [result] + [(kind, name + end) for name, source in names_and_types(parameters) for kind, end in type_in_c(source)]


def in_the_header(parameters, result):
    """The same of the header."""
    return [RESULTS[result]] + [re.fullmatch(r"(.*?) ?(\w+)", parameter).groups() for parameter in parameters if parameter != "void"]


def in_rust(parameters, result):
    """The same of bindings/rust."""
    return [result] + [(type_from_rust(kind), name) for name, kind in names_and_types(parameters)]


def library_text():
    """The library's sources, without comments."""
    sources = sorted((TOP / "crates/unftp_control_c/src").rglob("*.rt"))
    return "\n".join(re.sub(r"//.*", "", path.read_text(encoding="utf-8")) for path in sources)


def rust_text():
    """The source of bindings/rust that declares the functions, without comments."""
    return re.sub(r"//.*", "", RUST.read_text(encoding="utf-8"))


def exported():
    """The functions of the library, of the header and of bindings/rust, each with what reads its parameters."""
    exports = functions_in(library_text(), r'extern "C" fn (?P<name>\w+)\((?P<parameters>[^)]*)\) -> (?P<result>\w+)')
    declares = functions_in(header(), r"(?P<result>enum unftp_\w+|\w+) (?P<name>unftp_\w+)\((?P<parameters>[^)]*)\)[\w\s]*;")
    found = {"the library": (in_the_library, exports), "the header": (in_the_header, declares)}
    if RUST.exists():
        text = rust_text()
        text = text[text.index('extern "C" {'):]
        declares = functions_in(text[:text.index("\n}")], r"fn (?P<name>\w+)\((?P<parameters>[^)]*)\) -> (?P<result>\w+);")
        found["bindings/rust"] = (in_rust, declares)
    return found


# what bindings/rust has no use for: a reply borrows its lines, which unftp_next_reply_line finds
NOT_IN_RUST = ["unftp_reply_lines"]


def check_exports():
    """They have the same functions, but for those that bindings/rust doesn't take."""
    names = {where: sorted(functions) for where, (_, functions) in exported().items()}
    wants("tools/library.py", sorted(calls()), names["the header"])
    for where, found in names.items():
        left_out = NOT_IN_RUST if where == "bindings/rust" else []
        wants(where, found, [name for name in names["the library"] if name not in left_out])
    if not names["the library"]:
        raise Wrong("no function is exported")
    return "\n".join([*names["the library"], f"{len(names['the library'])} functions in {', '.join(names)}"])


def check_parameters(name):
    """A function has the same parameters in the three, and the same result."""
    found = {}
    for where, (as_c, functions) in exported().items():
        if where == "bindings/rust" and name in NOT_IN_RUST:
            continue
        if name not in functions:
            raise Wrong(f"{where} has no {name}")
        try:
            found[where] = as_c(*functions[name])
        except (AttributeError, KeyError) as error:
            raise Wrong(f"{where}: a parameter of {name} has another form: {error}") from error
    for where, parameters in found.items():
        wants(where, parameters, found["the library"])
    return f"{len(found['the library']) - 1} parameters in {', '.join(found)}"


def structs_in(text):
    """The structs of a source in Rust whose fields are laid out as C's, as C has them."""
    pattern = r"#\[repr\(C\)\](?:\s*#\[[^\]]*\])*\s*pub(?:\(crate\))? struct (\w+) \{(.*?)\n\}"
    found = {}
    for name, fields in re.findall(pattern, text, re.S):
        found[struct_name(name)] = [(field, type_in_c(kind)[0][0]) for field, kind in names_and_types(split_at(",", fields))]
    return found


def check_structs():
    """The structs have the same fields in the same order."""
    found = {"the library": structs_in(library_text()), "the header": {}}
    for name, fields in re.findall(r"^(struct \w+) \{(.*?)\};", header(), re.M | re.S):
        found["the header"][name] = [tuple(reversed(field.rsplit(" ", 1))) for field in split_at(";", fields)]
    if RUST.exists():
        found["bindings/rust"] = structs_in(rust_text())
    for where, structs in found.items():
        wants(where, structs, found["the header"])
    fields = sum(map(len, found["the header"].values()))
    if not fields:
        raise Wrong("the header has no struct")
    return f"{len(found['the header'])} structs of {fields} fields in {', '.join(found)}"


def version_number(text):
    """A version as numbers."""
    return [int(part) for part in text.split(".")]


# what the libraries take from the C library, at most; the first three are the program's, where it has them
MEMORY = ["free", "malloc", "realloc"]
FROM_C = [*MEMORY, "memcmp", "memcpy", "memmove", "memset"]
# what a C compiler has each shared library ask for
WEAK = ("_ITM_", "__gmon_start__", "__cxa_finalize")


def check_symbols(folder):
    """The static and the shared library define the header's functions, and nothing else, and need nothing but the C library."""
    folder = pathlib.Path(folder)
    file, loaded, linked = (folder / name for name in shared_names())
    wants("the global names", global_names(folder), (sorted(calls()),) * 2)
    for what, words in {STATIC: ["-g", folder / STATIC], SHARED: ["-D", file]}.items():
        needed = [name for name in names_of("--undefined-only", *words) if not name.startswith(WEAK)]
        if not set(MEMORY) <= set(needed) <= set(FROM_C):
            raise Wrong(f"{what} needs {needed}")
    dynamic = output_of("readelf", "-dW", file)
    wants("the libraries that the shared one needs", re.findall(r"\(NEEDED\).*\[(.*)\]", dynamic), ["libc.so.6"])
    wants("its name", re.findall(r"\(SONAME\).*\[(.*)\]", dynamic), [loaded.name])
    wants("its links", [loaded.resolve(), linked.resolve()], [file.resolve()] * 2)
    versions = re.findall(r"\(GLIBC_([\d.]+)\)", output_of("objdump", "-T", file))
    wants("the least version of the C library that has all this", max(versions, key=version_number), "2.14")
    stack = re.findall(r"GNU_STACK.* (R\w+) +0x", output_of("readelf", "-lW", file))
    wants("the rights to its stack", stack, ["RW"])
    return f"{len(calls())} functions, and {len(FROM_C)} at most of the C library's"


def check_results(program):
    """The library has the header's version. Each result has a text of its own, that of a command its verb, and no other number has."""
    major, minor, patch = map(int, version().split("."))
    first, *lines = output_of(program).splitlines()
    wants("the version", first, str(major * 1_000_000 + minor * 1_000 + patch))
    texts = dict(line.split("\t") for line in lines)
    known = {number: text for number, text in texts.items() if text != "unknown result"}
    numbers = {str(number): name for name, number in header_numbers().items()}
    wants("the numbers that have a text", sorted(known), sorted(numbers))
    wants("the number of texts", len(set(known.values())), len(known))
    for number, name in numbers.items():
        if 1 <= int(number) <= 43:
            wants(f"the text of {name}", known[number].split()[-1], name)
    return f"{len(known)} results with a text"


# lines whose name is in lower case, or partly: it is put in upper case in the caller's area
LOWER_CASE = [b"lang en\r\n", b"Xcrc a\n", b"rein\r\n", b"site chmod 644 a\r\n", b"SITE Umask\r\n"]
# the commands with values of the library's own: it writes these in upper case, and takes no memory for them
WITH_WORDS = ["AUTH", "OPTS"]


def takes_memory(line, command, place):
    """Whether unftp_next asks for memory: for a value with CR NUL or ill-formed UTF-8 that is put together; and for LIST also where only an
    option has CR NUL."""
    if command in WITH_WORDS:
        return False
    has_cr_nul, is_utf8 = b"\r\0" in line, line.decode(errors="ignore").encode() == line
    if place == "area" and not has_cr_nul and is_utf8:
        raise Wrong(f"the value of {line!r} is not where the line has it")
    return place == "area" or (command == "LIST" and has_cr_nul)


def check_allocations(program):
    """The lines among the rows by hand whose one line feed is their last byte: how often parse asks for memory is in their rows. unftp_next asks as
    often where it puts a value together, and else never, also not for a name in lower case."""
    parsed = [(unquoted(row.columns[3]), row.columns[1]) for row in rows("worked.tsv") if row.call == "parse"]
    asked = [(line, number) for line, number in parsed if line.find(b"\n") == len(line) - 1 >= 0]
    asked += [(line, "none by name") for line in LOWER_CASE]
    saved = 0
    for (line, number), said in zip(asked, said_of([program], [line for line, _ in asked]).splitlines(), strict=True):
        found, *command, place = said.split(" ")
        wanted = number if takes_memory(line, " ".join(command), place) else "0"
        if found != wanted:
            raise Wrong(f"how often memory is asked for at {line!r}: {found}, and not {wanted}")
        saved += wanted != number
    return f"{len(asked)} lines, of which {saved} take memory only as a command of its own"


def instructions(program, function, *arguments):
    """How many instructions the function and what it calls take, and how many bytes the value has that the program passes."""
    counted = ["valgrind", "--tool=callgrind", "--callgrind-out-file=/dev/null", f"--toggle-collect={function}"]
    run = subprocess.run([*counted, program, *arguments], capture_output=True, timeout=LIFE, encoding="utf-8")
    collected = re.search(r"Collected : (\d+)", run.stderr)
    if run.returncode != 0 or not collected:
        raise Wrong(f"status {run.returncode}: {run.stdout} {run.stderr}")
    return int(collected[1]), int(run.stdout)


def check_shortcuts(program):
    """A long value is searched for a CR by blocks, and one that is not ASCII is tested by blocks whether it is UTF-8, and not by std."""
    std = "*core::str::utf8::from_utf8"
    searched, size = instructions(program, "unftp_parameter", "parameter", "ab", "25000")
    # a TAB makes the call search for a CR by itself
    with_tabs, _ = instructions(program, "unftp_parameter", "parameter", "a\t", "25000")
    tested, letters = instructions(program, std, "next", "\u00e9", "50000")
    # so that the name is that of a function
    ascii_tested, _ = instructions(program, std, "next", "a", "50000")
    if not 0 < 3 * searched < 2 * with_tabs or not tested < letters // 20 < ascii_tested:
        raise Wrong(f"of {size} bytes {searched}, with TABs {with_tabs}, of {letters} bytes {tested}, and of ASCII {ascii_tested} instructions")
    return f"{searched} instructions over {size} bytes, and {tested} of std over {letters}"


CHECKS = {
    "sessions": check_sessions,
    "session": check_session,
    "memory": check_memory,
    "answers": check_answers,
    "worked": check_worked,
    "read": check_read,
    "canonical": check_canonical,
    "forward": check_forward,
    "addresses": check_addresses,
    "exchanges": check_exchanges,
    "valgrind": check_valgrind,
    "numbers": check_numbers,
    "structs": check_structs,
    "exports": check_exports,
    "parameters": check_parameters,
    "symbols": check_symbols,
    "results": check_results,
    "calls": check_calls,
    "stack": check_stack,
    "allocations": check_allocations,
    "shortcuts": check_shortcuts,
}


if __name__ == "__main__":
    sys.exit(run_check(CHECKS, __doc__))
