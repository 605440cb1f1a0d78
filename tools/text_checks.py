"""What the assembly texts in generated/ have to be, as far as it shows without the toolchain."""

import re

from assembly import PROCESSORS, exported, head_of, sources, texts_of
from library import RUST_TEXTS, TEXTS, TOP
from proved import NAME, NotMade
from statements import unknown_line

# the toolchains that a text may name, all of one logic
TOOLCHAINS = [f"{kit} logic dac8208d650f15bf" for kit in ["rattle-kit-13b", "rattle-kit-13f"]]


def path_of(file):
    """The path of a file below the top."""
    return file.relative_to(TOP)


def read(text):
    """The text as it is: a character for each byte."""
    return text.file.read_bytes().decode("latin-1")


def head(text):
    """What the head of a text says: its toolchain and its sources."""
    found = dict(re.findall(r"^ \* (toolchain|sources): (.*)$", read(text).split("*/", 1)[0], re.M))
    if sorted(found) != ["sources", "toolchain"]:
        raise NotMade(f"{path_of(text.file)} names no toolchain or no sources")
    return found["toolchain"], found["sources"].removeprefix("sha256 ")


def check_toolchain(name):
    """A text may name this toolchain."""
    if name not in TOOLCHAINS:
        raise NotMade(f"a text is made by {' or by '.join(TOOLCHAINS)}, and not by {name or 'no toolchain'}")


def check_files():
    """The two folders have these files and no other, which might be assembled or packed too, and no link."""
    here = [TEXTS / "README.md", *(text.file for text in texts_of(PROCESSORS))]
    of_rust = [RUST_TEXTS / text.file.name for text in texts_of([NAME])]
    for folder, wanted in [(TEXTS, here), (RUST_TEXTS, of_rust)]:
        found = [folder, *folder.rglob("*")]
        if linked := [path for path in found if path.resolve() != path]:
            raise NotMade(f"{path_of(linked[0])} is a link")
        if others := sorted({path for path in found if not path.is_dir()} ^ set(wanted)):
            raise NotMade(f"{path_of(others[0])} is {'missing' if others[0] in wanted else 'no file that is made'}")
    return "only these files"


def check_form(text, toolchain):
    """The head is as it is made; then each line is one statement or label, up to the last, which say what is global."""
    found, first, last = read(text), head_of(text, toolchain), [*exported(text), ""]
    if not found.startswith(first):
        raise NotMade(f"{path_of(text.file)} has another head: run tools/generated --write")
    lines = found.removeprefix(first).split("\n")
    if number := unknown_line(lines[: -len(last)], text.processor):
        raise NotMade(f"{path_of(text.file)} has a line that is no statement: {lines[number - 1]!r}")
    if lines[-len(last) :] != last:
        raise NotMade(f"{path_of(text.file)} ends with other lines")


def check_sources(text):
    """Says of which toolchain a text is, where it is of the sources that are here; and the crate in Rust has the same of the library."""
    toolchain, summed = head(text)
    check_toolchain(toolchain)
    if summed != sources(text.crate):
        raise NotMade(f"{path_of(text.file)} is of other sources: run tools/generated --write")
    check_form(text, toolchain)
    if text.crate == NAME and read(text) != (RUST_TEXTS / text.file.name).read_bytes().decode("latin-1"):
        raise NotMade(f"{path_of(RUST_TEXTS)} has another {text.file.name}: run tools/generated --write")
    return f"of these sources, by {toolchain}"
