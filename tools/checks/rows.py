"""The rows of vectors/ (vectors/README.md), the bytes in them, and how an answer differs from that of its row.

usage: python3 tools/checks/rows.py FILE WANTED FOUND     prints the first rows of FILE whose line of WANTED is not that of FOUND
"""

import pathlib
import re
import sys
from typing import NamedTuple

VECTORS = pathlib.Path(__file__).resolve().parents[2] / "vectors"
# the files whose rows begin with a name and a number of allocations
BY_HAND = ["worked.tsv", "sessions.tsv", "relays.tsv"]
# how many columns a row has before its case; the first of them is its name
BEFORE = {"worked.tsv": 2, "sessions.tsv": 2, "relays.tsv": 2, "programs.tsv": 1}

# how many bytes are shown before what differs and after it, how many of it at most, and how many rows
AROUND, MOST, FEW = 30, 60, 5

ESCAPES = {0: "\\0", 10: "\\n", 13: "\\r", 92: "\\\\"}
UNESCAPED = {text[1]: bytes([byte]) for byte, text in ESCAPES.items()}
# the variants whose command has two fields; the first of them has no space
TWO_FIELDS = ["List", "Opts", "Site", "Other"]


def quoted(data):
    """The bytes between quotes."""
    return '"' + "".join(ESCAPES.get(byte) or (chr(byte) if 32 <= byte <= 126 else f"\\x{byte:02x}") for byte in data) + '"'


def unquoted(word):
    """The bytes that a word has between quotes."""
    if len(word) < 2 or word[0] != '"' or word[-1] != '"':
        raise ValueError(f"no bytes between quotes: {word}")
    parts = re.split(r"\\(x[0-9a-f]{2}|.)", word[1:-1])
    escaped = [bytes.fromhex(part[1:]) if part[0] == "x" else UNESCAPED[part] for part in parts[1::2]]
    return b"".join(part for pair in zip((text.encode("ascii") for text in parts[0::2]), [*escaped, b""]) for part in pair)


class Row(NamedTuple):
    """A row of a file, or what a check makes of one."""

    # its file and its line there, and its name where it has one
    where: str
    # the call and what it is given, with tabs between
    case: str
    # the last column
    answer: str
    columns: tuple = ()

    @property
    def call(self):
        return self.case.split("\t")[0]

    def asked(self, case, answer=None, how=""):
        """The row with another case, and with another answer where one is given."""
        return Row(self.where + how, case, self.answer if answer is None else answer, self.columns)


def rows(name):
    """The rows of a file."""
    found, before = [], BEFORE.get(name, 0)
    with open(VECTORS / name, encoding="ascii", newline="\n") as file:
        for number, line in enumerate(file, 1):
            if not line.startswith("#"):
                columns = tuple(line.rstrip("\n").split("\t"))
                where = f"vectors/{name}:{number}" + (f": {columns[0]}" if before else "")
                found.append(Row(where, "\t".join(columns[before:-1]), columns[-1], columns))
    return found


def made(case, answer):
    """A row that is in no file."""
    start = case.replace("\t", " ")
    return Row(start if len(start) <= MOST else f"{start[:MOST]}..", case, answer)


def around(parts, first, last):
    """The parts of a text from the first to the last, of many only the first, with those around them; and how long the ones before are."""
    start, end = max(first - AROUND, 0), last + AROUND if last - first <= MOST else first + MOST
    before = ".." * (start > 0) + "".join(parts[start:first])
    return before + "".join(parts[first:end]) + ".." * (end < len(parts)), len(before)


def difference(where, found, wanted):
    """How a text differs from the one that is wanted: from which byte on, and what differs with a few bytes around it. Both are written with a
    row's escapes, and each of these is one byte."""
    is_so, wants = (re.findall(r"\\x[0-9a-f]{2}|\\.|.", text, re.S) for text in (found, wanted))
    shorter = min(len(is_so), len(wants))
    first = next((at for at in range(shorter) if is_so[at] != wants[at]), shorter)
    same = next((at for at in range(shorter - first) if is_so[-1 - at] != wants[-1 - at]), shorter - first)
    shown, column = around(is_so, first, len(is_so) - same)
    wanted_so, _ = around(wants, first, len(wants) - same)
    return f"  {where}, from byte {first + 1}\n    it is   {shown}\n    and not {wanted_so}\n            {' ' * column}^"


def differences(answered):
    """How many of these rows have another answer than the one beside them, and how the first of them differ."""
    wrong = [(row, answer) for row, answer in answered if answer != row.answer]
    return len(wrong), "\n".join(difference(row.where, answer, row.answer) for row, answer in wrong[:FEW])


def beginnings(output):
    """The first replies of an output, whole: none, one, and so on. A reply ends with a line of a code and a space."""
    ends = [end.end() for end in re.finditer(rb"^[0-9]{3} .*\r\n", output, re.M)]
    return [b"", *(output[:end] for end in ends)]


def command_of(answer):
    """The variant of a command, and its fields: each has bytes, a word, or nothing."""
    variant, *values = answer.removeprefix("ok ").split(" ", 2 if answer.split(" ")[1] in TWO_FIELDS else 1)
    fields = dict(value.split("=", 1) for value in values)
    return variant, {name: unquoted(value) if value.startswith('"') else None if value == "None" else value for name, value in fields.items()}


def main(name, wanted, found):
    """Compares two files, each with a line for each row of a file."""
    wants, lines = (pathlib.Path(path).read_text(encoding="ascii", errors="backslashreplace").split("\n")[:-1] for path in (wanted, found))
    of = rows(name)
    _, shown = differences((row.asked(row.case, want), line) for row, want, line in zip(of, wants, lines))
    print(shown or f"  {len(lines)} lines for {len(of)} rows")


if __name__ == "__main__":
    if len(sys.argv) != 4:
        sys.exit(__doc__)
    main(*sys.argv[1:])
