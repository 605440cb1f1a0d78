"""What the documents name of the crates, and pages that are made of the sources."""

import re
import sys
import textwrap

from edit_files import TOP

QUOTED = re.compile(r"`([^`]+)`")


def read(path):
    return path.read_text(encoding="utf-8")


def in_crates(path):
    """The files that PROOFS means by a path, which begins with a crate, or by a name."""
    crate, _, below = path.removeprefix("crates/").partition("/")
    places = [f"unftp_control_{crate}/{below}", f"{crate}/{below}"]
    if not below:
        places = [f"*/{folder}/{path}" for folder in ["src", "specs"]]
    found = [file for place in places for file in (TOP / "crates").glob(place.rstrip("/"))]
    return [file for each in found for file in ([each] if each.is_file() else each.glob("**/*.*"))]


def of_brackets(inner):
    """The clauses of a bracket, and what they cite: after a colon, or after "by"."""
    clauses, fields = set(), set()
    for part in inner.split(";"):
        head, _, tail = part.partition(":")
        cited = set(re.findall(r"by `([^`]*)`", head))
        clauses |= set(QUOTED.findall(head)) - cited
        fields |= set(QUOTED.findall(tail)) | cited
    return clauses, fields


def named_in(part):
    """What a part of a cell has in backquotes, each with its bracket, or "" where none follows."""
    return re.findall(r"`([^`]+)`(?: \(([^)]*)\))?", part)


def is_path(quoted):
    return "/" in quoted or quoted.endswith((".rt", ".antt"))


def contracts_of(cell):
    """The contracts that a cell of PROOFS names: a function, its file, and its clauses, or none
    where all are meant."""
    for part in re.split(r"; (?![^(]*\))", cell):
        named = named_in(part)
        file = next(file for quoted, _ in named if is_path(quoted) for file in in_crates(quoted))
        for quoted, inner in named:
            if not is_path(quoted):
                yield quoted, file, of_brackets(inner)[0]


def link(path, folder):
    """A link from a page in a folder to a file, which is named below its crate."""
    target = str(path.relative_to(TOP))
    name = target.removeprefix("crates/").removeprefix("unftp_control_")
    return f"[{name}]({'../' * len(folder.relative_to(TOP).parts)}{target})"


def filled(text, indent=""):
    """A paragraph in lines of at most 100 columns, all but the first indented."""
    lines = textwrap.wrap(
        text, 100, subsequent_indent=indent, break_long_words=False, break_on_hyphens=False
    )
    return "\n".join(lines)


def titled(about):
    """A title of the first sentence of a text, up to what explains it, mostly of at most 72
    letters; and what the text says besides."""
    sentence = re.match(r".*?(?:\.(?= |$)|: |$)", about)[0]
    title = sentence.rstrip(".: ")
    for cut in (" (", ", ", "; "):
        if len(title) > 72 or title.count("(") > title.count(")"):
            title = title.partition(cut)[0]
    is_whole = title == sentence.rstrip(".")
    return title, about.removeprefix(sentence).strip() if is_whole else about


def compare(pages, folder, tool, write):
    """Writes the pages of a folder, by their names, or compares them; returns what is wrong with
    each page that is there or ought to be."""
    if write:
        folder.mkdir(exist_ok=True)
        for path in folder.glob("*.md"):
            path.unlink()
        for name, text in pages.items():
            (folder / name).write_text(text, encoding="utf-8")
    there = {path.name: read(path) for path in folder.glob("*.md")}
    said = f"is stale: tools/gate/{tool} --write makes it"
    return {
        name: [] if there.get(name) == pages.get(name) else [f"{folder.name}/{name} {said}"]
        for name in sorted(there.keys() | pages.keys())
    }


def told(checks):
    """Prints what is wrong in each check, and 'N passed, M failed' last; returns the status."""
    for fault in (fault for faults in checks for fault in faults):
        print(fault)
    failed = sum(bool(faults) for faults in checks)
    print(f"{len(checks) - failed} passed, {failed} failed")
    return int(failed > 0)


def is_write():
    """Whether the one argument is `--write`; without any the pages are compared."""
    if sys.argv[1:] not in ([], ["--write"]):
        sys.exit(f"usage: {sys.argv[0]} [--write]")
    return sys.argv[1:] == ["--write"]
