"""What each crate took in a run from nothing, and how far a run is by it."""

import re
import time

from edit_files import TOP

# a crate's proof, and the try of one of its edits, as `rt ci` prints that they are done
PROVED = re.compile(r"rt: (\w+) (?:proved$|is kept: )")
TRIED = re.compile(r"rt: must-fail (\w+)/")


def seconds():
    """The seconds of a processor that each crate took: its proofs, its must-fail edits and its others."""
    found = {}
    for line in (TOP / "tools" / "gate" / "seconds").read_text(encoding="utf-8").splitlines():
        if line and not line.startswith("#"):
            name, *taken = line.split()
            found[name] = [int(it) for it in taken]
    return found


class Progress:
    """How far `rt ci` is: what is done, of what all crates took in it."""

    def __init__(self):
        self.seconds = {name: taken[:2] for name, taken in seconds().items()}
        self.edits = {name: len(list((TOP / "crates" / name / "must-fail").glob("*.edit"))) for name in self.seconds}
        self.start = time.time()
        self.done, self.told = 0.0, 0

    def after(self, line):
        """What to say after a line, or None: each tenth of the whole is told once."""
        if found := PROVED.match(line):
            self.done += self.seconds.get(found[1], [0, 0])[0]
        elif found := TRIED.match(line):
            self.done += self.seconds[found[1]][1] / self.edits[found[1]]
        tenths = int(10 * self.done / sum(map(sum, self.seconds.values())))
        if tenths <= self.told:
            return None
        self.told = tenths
        return f"{10 * tenths} % of the proofs and edits are done, after {(time.time() - self.start) / 60:.0f} minutes"
