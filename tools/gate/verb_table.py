"""The verbs and commands of the control protocol: the table of FtpCommand.antt, and beside each row
the variant of the enum `Command` in Rattle, with its documentation and its fields."""

import functools
import re
from collections import namedtuple

from definitions import File
from documents import read
from edit_files import TOP

TABLE = TOP / "crates/unftp_control_defs/specs/FtpCommand.antt"
ENUM = TOP / "crates/unftp_control_message/src/lib.rt"
ROW = re.compile(r'row verb\.(\w+) = entry (\d+) (?:\(codes "(\w+)"\)|\[\]) kinds\.(\w+) ')
VERB = re.compile(r'\(codes "(\w+)", verb\.(\w+)\)')
VARIANT = re.compile(r"^    (\w+)(?:,| \{\},| \{)$")
FIELD = re.compile(r"^        (\w+): (.*),$")
RFC = re.compile(r"RFC (\d+), section ([\d.]+)")

# a field of a command: its name and type in Rattle, and its documentation
Field = namedtuple("Field", "name type about")
# a command: its number for C, its variant, its canonical word or "", all verbs of lines that are
# it, what these take, its documentation, and its fields
Command = namedtuple("Command", "number variant word verbs kind about fields")


@functools.cache
def code_of(name):
    """The code of a definition of the table."""
    return "\n".join(File(TABLE).definitions[name].code())


@functools.cache
def commands():
    """All commands, in the order of their numbers."""
    rows, documented = ROW.findall(code_of("row")), variants()
    return [
        Command(int(number), variant, word, verbs_of(variant, word), kind, *documented[variant])
        for variant, number, word, kind in rows
    ]


def verbs_of(variant, word):
    """The verbs of lines that are a command; that of a subcommand is SITE and its word."""
    canonical, _, others = code_of("verbs").partition("++")
    found = [word] * bool(re.search(rf"\bverb\.{variant}\b", canonical))
    found += [verb for verb, it in VERB.findall(others) if it == variant]
    return found or [f"SITE {word}"] * bool(word)


def words():
    """The canonical words of all commands that have one."""
    return [it.word for it in commands() if it.word]


def forwarded():
    """The verbs whose line is forwarded as the canonical one: they take no value, or one of a type
    of its own."""
    return [verb for it in commands() if it.kind in ("Alone", "Typed") for verb in it.verbs]


def variants():
    """The documentation and the fields of each variant of `Command`, by its name."""
    text = read(ENUM)
    found, about, variant = {}, [], None
    for line in text[text.index("pub enum Command {") :].partition("\n}\n")[0].split("\n")[1:]:
        if line.lstrip().startswith("///"):
            about.append(line.strip().removeprefix("///").strip())
            continue
        if named := VARIANT.match(line):
            variant, found[named[1]] = named[1], (" ".join(about), [])
        elif field := FIELD.match(line):
            found[variant][1].append(Field(field[1], field[2], " ".join(about)))
        about = []
    return found


def purpose_of(command):
    """What a command is for: the first sentence of its documentation, without verbs and RFCs."""
    sentence = command.about.partition(". ")[0].rstrip(".")
    said = re.sub(r" \(RFC .*\)$|; of no RFC$", "", sentence)
    return said.partition(": ")[2] or said.replace("A verb", "a verb")


def rfcs_of(command):
    """The RFCs that the documentation of a command names, each with the section."""
    return RFC.findall(command.about)
