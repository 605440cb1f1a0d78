"""Archives of the library and of sources: the same bytes whenever they are made of the same files."""

import ast
import gzip
import os
import re
import subprocess
import tarfile

from library import TOP, place

RUST = "bindings/rust"


def said_by_git(*words):
    """What git prints, or nothing where it fails: an archive's sources are in no repository."""
    try:
        return subprocess.run(["git", *words], cwd=TOP, capture_output=True, text=True, check=True).stdout.strip()
    except (OSError, subprocess.SubprocessError):
        return ""


def commit():
    """The commit of the sources, by its tag if it has one, and whether they were changed since."""
    return said_by_git("describe", "--always", "--dirty")


def copy(folder, patterns, root):
    """Copies the files of a folder of the repository that the patterns find, below root: of a folder all."""
    found = [path for pattern in patterns for path in (TOP / folder).glob(pattern)]
    for path in sorted({file for path in found for file in ([path] if path.is_file() else path.rglob("*")) if file.is_file()}):
        place(root / path.relative_to(TOP / folder), path.read_bytes())


def copy_crate(root):
    """Copies what cargo packs of the crate in Rust, below root: what its Cargo.toml includes."""
    included = re.search(r"^include = (\[.*\])$", (TOP / RUST / "Cargo.toml").read_text(encoding="utf-8"), re.M)
    copy(RUST, ["Cargo.toml", "README.md", *(pattern.lstrip("/") for pattern in ast.literal_eval(included[1]))], root)


def pack(root, archive):
    """Makes the archive of a folder."""
    moment = int(os.environ.get("SOURCE_DATE_EPOCH") or said_by_git("log", "-1", "--format=%ct") or 0)

    def plain(entry):
        entry.uid = entry.gid = 0
        entry.uname = entry.gname = "root"
        entry.mtime = moment
        if entry.isdir():
            entry.mode = 0o755
        return entry

    with open(archive, "wb") as file, gzip.GzipFile("", "wb", fileobj=file, mtime=moment) as zipped:
        with tarfile.open(fileobj=zipped, mode="w", format=tarfile.PAX_FORMAT) as entries:
            entries.add(root, root.name, filter=plain)
