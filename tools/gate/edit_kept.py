"""What trials of edits came to, kept on this machine under the sum of all that they read."""

import hashlib
import json
import os
import pathlib
import subprocess

from edit_copies import PARTS

HERE = pathlib.Path(__file__).resolve().parent
TOOL = [HERE / "edits", *sorted(HERE.glob("edit_*.py")), HERE / "examples.py"]


class Kept:
    """The edits that were refused in earlier runs, in a folder, or none where there is no folder."""

    def __init__(self, folder, toolchain):
        self.folder, self.toolchain, self.sums = folder, toolchain, {}
        version = subprocess.run(["rt", "version"], capture_output=True, check=True).stdout
        self.base = [version, *(path.read_bytes() for path in TOOL)]

    def sum_of(self, source):
        """The sum of a crate, of the libraries below it as they were built, and of this tool."""
        if source.folder not in self.sums:
            made = [self.toolchain.library(it) / "format" for it in self.toolchain.below(source.name)]
            own = [at for part in PARTS for at in sorted(source.folder.glob(f"{part}/**/*")) if at.is_file()]
            words = repr([source.name, self.toolchain.uses[source.name]]).encode()
            names = repr([str(at.relative_to(source.folder)) for at in own]).encode()
            total = hashlib.sha256()
            for part in [*self.base, words, names, *(at.read_bytes() for at in [*own, *made])]:
                total.update(hashlib.sha256(part).digest())
            self.sums[source.folder] = total.digest()
        return self.sums[source.folder]

    def path(self, change):
        own = self.sum_of(change.source) + change.edit.text.encode()
        return self.folder / hashlib.sha256(own).hexdigest()

    def verdict(self, change):
        """What an earlier run came to, or None."""
        try:
            return tuple(json.loads(self.path(change).read_text(encoding="utf-8"))) if self.folder else None
        except (OSError, ValueError):
            return None

    def keep(self, change):
        if self.folder:
            self.folder.mkdir(parents=True, exist_ok=True)
            new = self.folder / f"new-{os.getpid()}"
            new.write_text(json.dumps(change.verdict), encoding="utf-8")
            new.rename(self.path(change))
