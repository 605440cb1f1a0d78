"""Edits that make a wrong body, what each changes, and the words by which a check names the goals of a function.

An edit is a file of a crate's must-fail/, edits/ or more-edits/: a line '# refused at: CLAUSE of FUNCTION', and then
'file:', and pairs of 'old:' and 'new:', each text one line."""

import os
import pathlib
import re

TOP = pathlib.Path(__file__).resolve().parents[2]
FOLDERS = ["must-fail", "edits", "more-edits"]
WANTED = re.compile(r"^# refused at: (\S+) of (\S+)$", re.MULTILINE)
# a goal that is left open, by the place of its function
OPEN = re.compile(r"(?:note: )?(?:\./)?(src/\S+?):(\d+):\d+: .*?\(`([\w'+-]+)`\)")
# a goal whose written answer doesn't fit any more, by the folder of its function
ANSWERED = re.compile(
    r"(?:\./)?proofs/(\S+)/(?:Answers|Invariants)\.antt:\d+:\d+: error: `([\w'+-]+)`"
)


class Misfit(Exception):
    """Why an edit can't be applied."""


class Edit:
    """An edit, its crate, and the clause that has to refuse it, or None where any may."""

    def __init__(self, path, crate=None):
        self.path = pathlib.Path(path)
        self.crate = crate or self.path.parts[-3]
        self.label = f"{self.crate}/{self.path.parent.name}/{self.path.name}"
        self.text = self.path.read_text(encoding="utf-8", errors="replace")
        wanted = WANTED.findall(self.text)
        self.wanted = wanted[0] if len(wanted) == 1 else None

    def pairs(self):
        """The file and the texts of each replacement."""
        file = old = None
        for line in self.text.split("\n"):
            if line.startswith("file: "):
                file = line.removeprefix("file: ").strip()
                parts = ("src/", "specs/", "proofs/")
                if os.path.normpath(file) != file or not file.startswith(parts):
                    raise Misfit("a 'file:' line names no file below src/, specs/ or proofs/")
            elif line.startswith("old: "):
                if old is not None:
                    raise Misfit("an old text has no new one")
                old = line.removeprefix("old: ")
            elif line.startswith("new:"):
                if not file or not old:
                    raise Misfit("a new text has no file or no old text")
                yield file, old, line.removeprefix("new:").removeprefix(" ")
                old = None
        if old is not None:
            raise Misfit("an old text has no new one")

    def applied(self, text_of):
        """The files that it changes, with their new texts; `text_of` gives a file as it is."""
        texts = {}
        for file, old, new in self.pairs():
            try:
                text = texts.get(file) or text_of(file)
            except OSError:
                raise Misfit(f"there is no file {file}") from None
            if text.count(old) != 1:
                raise Misfit(f"in {file} {text.count(old)} times, and not once: {old.strip()}")
            texts[file] = text.replace(old, new)
        if not texts:
            raise Misfit("it has no pair of texts")
        return texts


def edits_of(crate, folders):
    """The edits of a crate in these folders."""
    at = TOP / "crates" / crate
    return [Edit(path) for folder in folders for path in sorted(at.glob(f"{folder}/*.edit"))]


def crates():
    """The crates of crates.txt in their order, and what each uses."""
    uses = {}
    for line in (TOP / "crates.txt").read_text(encoding="utf-8").splitlines():
        head, colon, names = line.partition("#")[0].partition(":")
        if colon:
            uses[head.split()[0]] = names.split()
    return uses


def functions(lines):
    """The functions of a file: the name of each, and its first and last line, with its attributes."""
    head = re.compile(r"( *)(?:pub(?:\([^)]*\))? |const |unsafe |extern \"C\" )*fn (\w+)")
    for start, line in enumerate(lines, 1):
        if begins := head.match(line):
            last = re.compile(begins[1] + r"(\{?\}|\S.*;$)")
            ends = (at for at, it in enumerate(lines[start - 1 :], start) if last.match(it))
            first = start
            while first > 1 and re.match(r" *(#\[|///)", lines[first - 2]):
                first -= 1
            yield begins[2], first, next(ends, len(lines))


def is_goal_of(goal, clause):
    """Whether the goal is of this clause: in some arm, and as one of several. A function whose one
    `ensures` has no name has the clause `returns`."""
    if goal == clause or goal.endswith(f"-clause-{clause}"):
        return True
    return clause == "returns" and goal.startswith("returns") and "-clause-" not in goal


def definitions(text):
    """The definitions of an Answers.antt: what comes before them, and the name and text of each."""
    starts = [at.start() for at in re.finditer(r"^(?:pub )?[\w+'-]+ :", text, re.MULTILINE)]
    blocks = [text[start:end] for start, end in zip(starts, [*starts[1:], len(text)])]
    names = [block.partition(" :")[0].removeprefix("pub ") for block in blocks]
    return text[: starts[0] if starts else len(text)], list(zip(names, blocks))


def without_answers(text, is_left_out):
    """The text of an Answers.antt without those of the goals of these names."""
    begins, every = definitions(text)
    return begins + "".join(block for name, block in every if not is_left_out(name))
