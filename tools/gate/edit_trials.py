"""Trials of a crate's edits: checks of copies of the crate in which edits are made, several in one where they
don't touch one another. docs/CONTRIBUTING.md says how it is decided that an edit is refused."""

import os
import pathlib
import re
import shutil
import subprocess
import tempfile
import threading

from edit_copies import ITEMS, PARTS
from edit_files import ANSWERED, OPEN, TOP, Misfit, crates, is_goal_of, without_answers

REFUSED, ELSEWHERE, MISSED, PROVED = "REFUSED", "REFUSED ELSEWHERE", "NOT REFUSED", "PROVED"
BAD, UNSURE = "BAD EDIT", "NOT TRIED"
# what a check says of a function whose own goals are open, and not only those of what it calls
OWN = re.compile(r"not proved|no proof: (?!it calls)")
# how antt says that it can't read a text
UNREAD = re.compile(
    r"is not in scope|has no field|is not a field|is no name|operand is missing|expected the end"
    r"|cannot continue"
)


class Toolchain:
    """The words by which `rt` has a crate of this repository checked."""

    def __init__(self):
        page = subprocess.run(["rt", "doc"], capture_output=True, text=True, check=True)
        self.kit = os.path.dirname(page.stdout.strip())
        self.uses = crates()
        lines = (TOP / "crates.txt").read_text(encoding="utf-8").splitlines()
        self.static = {line.split()[0] for line in lines if " staticlib" in line.partition(":")[0]}

    def below(self, name):
        """The repository's libraries below a crate, each after those that it uses."""
        found = []
        for use in self.uses[name]:
            if use in self.uses:
                found += [it for it in [*self.below(use), use] if it not in found]
        return found

    def library(self, name):
        return TOP / "crates" / name / "out" / "rlib" / f"{name}.rlib"

    def words(self, name):
        root = "main.rt" if (TOP / "crates" / name / "src" / "main.rt").is_file() else "lib.rt"
        words = [f"{self.kit}/bin/rattle", "check", "--crate-name", name, f"src/{root}"]
        of_kit = ["std", *(it for it in self.uses[name] if it not in self.uses)]
        rlibs = {it: f"{self.kit}/rlibs/{it}.rlib" for it in of_kit}
        rlibs |= {it: str(self.library(it)) for it in self.uses[name] if it in self.uses}
        for use, rlib in rlibs.items():
            words += ["--extern", f"{use}={rlib}"]
        folders = [f"{self.kit}/rlibs", *(str(self.library(it).parent) for it in self.below(name))]
        for folder in folders:
            words += ["-L", f"dependency={folder}"]
        words += ["--antt-project", f"{self.kit}/rattle/logic/antt-project.json"]
        words += ["--logic-built", f"{self.kit}/logic_built", "--links", f"{name}=", "--jobs", "1"]
        return words + (["--crate-type", "staticlib"] if name in self.static else [])


class Run:
    """What a check printed, and what it took."""

    def __init__(self, status, said, processor):
        self.status, self.processor = status, processor
        self.lines = said.rstrip("\n").split("\n")
        found = (re.match(r"fn (\S+): (.*)", line) for line in self.lines)
        self.verdicts = {it[1]: it[2] for it in found if it}

    def is_judged(self):
        """Whether the prover gave a verdict."""
        last = re.match(r"logic=(not-)?proved|only=\d+ proved=\d+", self.lines[-1])
        return self.status in (0, 1) and bool(last)

    def told(self):
        """The lines that say why something isn't proved, without those on a name that is gone."""
        told = [it for it in self.lines if re.match(r"(note: )?\S+:\d+:\d+:", it)]
        told = [it for it in told if ": error" in it or it.startswith("note: ")] or told
        gone = r"(note: )?(\./)?proofs/.*(has no field|is not in scope|has no `|was not admitted)"
        return [it for it in told if not re.match(gone, it)]

    def unread(self, changed):
        """The line that says that antt can't read a text of src/, specs/ or a changed file."""
        for line in self.lines:
            at = re.match(r"(?:\./)?(\S+?):\d+:\d+: error: (?:(`[^`]*`): )?(.*)", line)
            if at and (at[1] in changed or at[1].startswith(("src/", "specs/"))):
                if not at[2] or UNREAD.search(re.sub(r"`[^`]*`", "", at[3])):
                    return line
        return None


class Change:
    """What an edit changes: its lines by file and number, and the functions whose bodies have them."""

    def __init__(self, source, edit):
        self.source, self.edit, self.name = source, edit, edit.path.stem
        self.wanted, self.verdict, self.functions = edit.wanted, None, []
        self.is_unedited = False
        try:
            self.texts = edit.applied(source.text)
        except Misfit as why:
            self.verdict = BAD, str(why)
            return
        self.lines = {}
        for path, text in self.texts.items():
            # (a text of an edit is one line, so no line moves)
            before = source.text(path).split("\n")
            for number, (was, line) in enumerate(zip(before, text.split("\n")), 1):
                if was != line:
                    self.lines[path, number] = line
        shares = [self.is_within_a_body(*it) for it in self.lines.items()]
        self.is_alone = not self.wanted or not all(shares)
        self.is_copied = (
            not self.is_alone
            and len(self.functions) == 1
            and source.can_copy(self.functions[0])
        )
        self.is_quick = not self.is_alone and self.has_answer()

    def is_within_a_body(self, at, line):
        """Whether a line changes nothing but the body of one function."""
        path, number = at
        function = self.source.function_at(path, number)
        if function and function not in self.functions:
            self.functions.append(function)
        was = self.source.text(path).split("\n")[number - 1]
        return (
            path.endswith(".rt")
            and function is not None
            and function.is_plain
            and function.body < number < function.last
            and sorted(ITEMS.findall(line)) == sorted(ITEMS.findall(was))
            and depth(line) == depth(was)
            and not self.source.is_named_by_a_proof(function)
        )

    def has_answer(self):
        """Whether the named clause has a written answer, and the edit adds no further way out of the
        function: what it spoils is then seen at that answer, and no tactic has to be tried."""
        if not self.wanted or len(self.functions) != 1 or "tactic(" in self.functions[0].above:
            return False
        clause, name = self.wanted
        answers = self.source.proofs.get(self.functions[0].answers(), "")
        if name.split("::")[-1] != self.functions[0].name or self.adds_a_return():
            return False
        goals = re.findall(r"^(?:pub )?([\w+'-]+) :", answers, re.M)
        return any(is_goal_of(goal, clause) for goal in goals)

    def leave_out_its_answer(self):
        """Has the named clause's goal tried by tactics, as if it had no written answer."""
        self.is_quick = self.is_copied = False
        answers = self.functions[0].answers()
        is_its = lambda goal: is_goal_of(goal, self.wanted[0])
        self.texts[answers] = without_answers(self.source.proofs[answers], is_its)

    def adds_a_return(self):
        was = [self.source.text(path).split("\n")[number - 1] for path, number in self.lines]
        returns = [sum(line.count("return ") for line in it) for it in (self.lines.values(), was)]
        return returns[0] > returns[1]

    def conflicts(self, other):
        """Whether both change one function in place."""
        if self.is_copied or other.is_copied:
            return False
        files = {(it.file, it.first) for it in self.functions}
        return any((it.file, it.first) in files for it in other.functions)

    def paths(self):
        """The paths of the functions that it changes, and of that which it names; of an edit that
        names none, the examples of definitions."""
        named = []
        if self.wanted:
            name = self.wanted[1].split("::")[-1]
            changed = [it for it in self.functions if it.name == name]
            named = changed or self.source.named(name)
        elif (self.source.folder / "src" / "examples.rt").is_file():
            return ["examples"]
        return list(dict.fromkeys(it.path for it in [*named, *self.functions]))


def depth(line):
    """How many braces, parentheses and brackets a line leaves open."""
    line = re.sub(r'b?"(?:\\.|[^"\\])*"|b?\'(?:\\.|[^\'\\])\'', "", line)
    return [line.count(one) - line.count(other) for one, other in ("{}", "()", "[]")]


def grouped(changes, most, is_single):
    """Groups of changes that can be tried in one check, few and of like size; a change that can't
    share one is a group of its own."""
    shared = [it for it in changes if not it.is_alone and not is_single]
    alone = [[it] for it in changes if it not in shared]
    room = -(-len(shared) // max(1, -(-len(shared) // most)))
    groups = []
    # (first those that are tried in place)
    in_place = lambda it: sum(it.conflicts(other) for other in shared)
    for change in sorted(shared, key=lambda it: (it.is_copied, -in_place(it), it.name)):
        fits = [
            group
            for group in groups
            if len(group) < room and not any(change.conflicts(other) for other in group)
        ]
        if fits:
            min(fits, key=len).append(change)
        else:
            groups.append([change])
    return [*sorted(groups, key=len, reverse=True), *alone]


def linked(folder, to):
    """Copies what was kept, by links where these can be made: a check replaces such a file, and
    changes none."""

    def copy(one, other):
        if one.endswith(".oantt"):
            try:
                return os.link(one, other)
            except OSError:
                pass
        return shutil.copy2(one, other)

    shutil.copytree(folder, to, symlinks=True, copy_function=copy)


class Trial:
    """The trial of a crate's edits, over what its checks keep in a folder."""

    def __init__(self, toolchain, source, room, note):
        self.toolchain, self.source, self.note = toolchain, source, note
        self.room = pathlib.Path(tempfile.mkdtemp(prefix=f"{source.name}-", dir=room))
        self.base, self.whole = self.room / "base", self.room / "whole"
        self.base.mkdir()
        self.proving = threading.Lock()

    def check(self, texts, only, over, what):
        """Checks the crate with these texts, all of it or the named functions, over what was kept."""
        with tempfile.TemporaryDirectory(prefix="rt-edit-copy-") as copy:
            for part in PARTS:
                if (self.source.folder / part).is_dir():
                    shutil.copytree(self.source.folder / part, f"{copy}/{part}")
            for path, text in texts.items():
                pathlib.Path(copy, path).parent.mkdir(parents=True, exist_ok=True)
                pathlib.Path(copy, path).write_text(text, encoding="utf-8")
            words = self.toolchain.words(self.source.name)
            words += [word for name in only for word in ("--only", name)]
            words += ["--incremental", str(over)] if over else []
            run = self.run(words, copy)
        self.note(run, f"{self.source.name}: {what}")
        return run

    @staticmethod
    def run(words, folder):
        with open(f"{folder}/said", "w+", encoding="utf-8", errors="replace") as said:
            process = subprocess.Popen(
                words, cwd=folder, stdin=subprocess.DEVNULL, stdout=said, stderr=subprocess.STDOUT
            )
            _, status, used = os.wait4(process.pid, 0)
            process.returncode = os.waitstatus_to_exitcode(status)
            said.seek(0)
            return Run(process.returncode, said.read(), used.ru_utime + used.ru_stime)

    def over_a_copy(self, texts, only, what):
        """Checks over a copy of what was kept, so that this stays as it is."""
        kept = self.base if only else self.whole_base()
        with tempfile.TemporaryDirectory(prefix="over-", dir=self.room) as room:
            linked(kept, f"{room}/kept")
            return self.check(texts, only, f"{room}/kept", what)

    def whole_base(self):
        """What a check of the whole crate as it stands keeps."""
        with self.proving:
            if not self.whole.is_dir():
                linked(self.base, self.whole)
                self.check({}, [], self.whole, "all of it as it stands")
        return self.whole

    def prove(self, changes):
        """Proves what the changes need of the crate as it stands. Returns why that isn't proved, or None."""
        wanted = [it.paths() for it in changes]
        only = sorted({path for it in wanted for path in it}) if all(wanted) else []
        run = self.check({}, only, self.base, "as it stands")
        return run.lines[-1][:200] if run.status else None

    def made(self, changes):
        """The crate's texts with these changes, in copies of functions where that can be, and the
        paths of each change's functions there."""
        texts, places = {}, {}
        text = lambda path: texts[path] if path in texts else self.source.text(path)
        for change in changes:
            if not change.is_copied:
                self.make_in_place(change, texts, text)
                places[change] = change.paths()
        for number, change in enumerate(changes, 1):
            if change.is_copied:
                path, copy, files = self.copy_of(change, number)
                file = change.functions[0].file
                texts.update(files)
                texts[file] = f"{text(file).rstrip()}\n\n{copy}\n"
                places[change] = [path]
        return texts, places

    def make_in_place(self, change, texts, text):
        for (path, number), line in change.lines.items():
            lines = text(path).split("\n")
            lines[number - 1] = line
            texts[path] = "\n".join(lines)
        if change.is_quick:
            function = change.functions[0]
            lines = text(function.file).split("\n")
            lines[function.head - 1] = without_tactics(lines[function.head - 1])
            texts[function.file] = "\n".join(lines)
        else:
            for function in change.functions:
                file = function.answers()
                answers = change.texts.get(file) or self.source.proofs.get(file, "")
                texts[file] = self.source.with_error(function.path, answers)

    def copy_of(self, change, number):
        """A copy of the changed function: its path, its text and its proof files."""
        function = change.functions[0]
        lines = {at: line for (_, at), line in change.lines.items()}
        if change.is_quick and not change.is_unedited:
            head = self.source.text(function.file).split("\n")[function.head - 1]
            lines[function.head] = without_tactics(lines.get(function.head, head))
        # (a written answer of another clause may be what closes a goal of the named one)
        is_bare = change.is_quick or function.answers() not in self.source.proofs
        clause = change.wanted[0] if is_bare else None
        path, copy, files = self.source.copied(function, number, lines, clause)
        if not change.is_quick and not change.is_unedited:
            file = f"proofs/{path.replace('::', '/')}/Answers.antt"
            files[file] = self.source.with_error(path, files.get(file, ""))
        return path, copy, files

    def goal_in(self, line, texts):
        """The goal that a line tells of, and the path of the function whose goal it is."""
        if found := OPEN.match(line):
            path, number = found[1], int(found[2])
            function = self.source.function_at(path, number, texts.get(path))
            return found[3], function.path if function else None
        if found := ANSWERED.match(line):
            return found[2], found[1].replace("/", "::")
        return None, None

    def refusal(self, change, run, texts, own, is_quick):
        """The line by which a run shows that the change is refused where it says: the first line about
        its own functions is a goal of the named clause, and the check says of that function that
        it itself isn't proved, and not only what it calls."""
        clause, name = change.wanted
        for line in run.told():
            goal, at = self.goal_in(line, texts)
            if at not in own:
                continue
            is_it = re.sub(r"__\d+$", "", at.split("::")[-1]) == name.split("::")[-1]
            if not is_it or not is_goal_of(goal, clause):
                return None
            path = f"{self.source.name}::{at}"
            # (a goal that waits for a callee's proof wasn't tried, nor one without tactics)
            untried = f"has not tried the goals of `{path}`"
            waits = is_quick or any(untried in it for it in run.lines)
            is_own = OWN.match(run.verdicts.get(path, ""))
            return line if is_own and not (waits and OPEN.match(line)) else None
        return None

    def try_alone(self, change):
        """Tries a change by itself: its functions or the examples, then, of a definition, the whole
        crate, and from nothing where nothing refuses it. Only the last says NOT REFUSED."""
        kinds = [(", the whole crate", []), (", from nothing", [])][bool(change.wanted) :]
        if only := change.paths():
            kinds.insert(0, ("", only))
        for kind, names in kinds:
            what = change.name + kind
            if kind == ", from nothing":
                run = self.check(change.texts, [], None, what)
            else:
                run = self.over_a_copy(change.texts, names, what)
            if run.status == 1 and (line := run.unread(change.texts)):
                return BAD, f"the prover cannot read the edited text: {line}"
            if run.status == 1 and not run.is_judged():
                why = next((it for it in run.lines if it.startswith("error")), run.lines[-1])
                return BAD, f"it did not reach the prover: {why}"
            if run.status == 1 and (verdict := self.verdict(change, run, not names)):
                return verdict
        if run.status == 0:
            return MISSED, "the crate is still proved with it"
        return UNSURE, f"its check ended with status {run.status}: {run.lines[-1]}"

    def verdict(self, change, run, is_whole):
        """What a check that isn't proved says of a change by itself, or None where another has to."""
        told = run.told()
        if not change.wanted:
            if told:
                return REFUSED, told[0]
            return (ELSEWHERE, "only a proof file names what it took away") if is_whole else None
        if line := self.refusal(change, run, change.texts, change.paths(), False):
            return REFUSED, line
        if not is_whole:
            return None
        goals = (self.goal_in(line, change.texts) for line in told)
        goal, at = next((it for it in goals if it[0]), (None, None))
        place = f"at {goal} of {at}" if goal else "at no goal"
        wanted = " of ".join(change.wanted)
        return ELSEWHERE, f"{place}, and not at {wanted}: {told[0] if told else run.lines[-1]}"

    def try_group(self, changes, is_first=False):
        """Tries changes in one check. What this doesn't show to be refused where it says is tried
        again by itself; a group that can't be read is tried in two halves."""
        if len(changes) == 1:
            changes[0].verdict = self.try_alone(changes[0])
            return
        texts, places = self.made(changes)
        only = sorted({path for it in changes for path in places[it]})
        what = " ".join(it.name for it in changes)
        if is_first:
            run = self.check(texts, only, self.base, what)
        else:
            run = self.over_a_copy(texts, only, what)
        if not run.is_judged() or run.unread({path for it in changes for path, _ in it.lines}):
            self.try_group(changes[: len(changes) // 2])
            self.try_group(changes[len(changes) // 2 :])
            return
        for change in changes:
            line = self.refusal(change, run, texts, places[change], change.is_quick)
            change.verdict = (REFUSED, line) if line else None
        self.try_again([it for it in changes if not it.verdict])

    def try_unedited(self, changes):
        """Tries the copies as they are without the edits, which have to be proved: a trial of the
        trial itself."""
        for change in changes:
            change.lines, change.is_unedited = {}, True
        texts, places = self.made(changes)
        only = [places[it][0] for it in changes]
        run = self.over_a_copy(texts, sorted(only), "without the edits")
        for change, path in zip(changes, only):
            said = run.verdicts.get(f"{self.source.name}::{path}", run.lines[-1])
            kind = PROVED if said == "proved" else UNSURE
            change.verdict = kind, f"{path} without the edit: {said}"

    def try_again(self, changes):
        """Tries what wasn't seen at a written answer once more with tactics, and the others alone."""
        quick = [it for it in changes if it.is_quick]
        for change in quick:
            change.is_quick = False
        if len(quick) > 1:
            self.try_group(quick)
        for change in changes:
            change.verdict = change.verdict or self.try_alone(change)


def without_tactics(line):
    return re.sub(r"^( *)", r"\1#[tactic(none)] ", line)
