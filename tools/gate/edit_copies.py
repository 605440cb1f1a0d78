"""A crate's functions, and copies of them under other names, in which edits are tried side by side."""

import collections
import re

from edit_files import TOP, functions, is_goal_of, without_answers

# words of a line that may change more than one body
ITEMS = re.compile(
    r"\b(fn|ghost|requires|ensures|impl|struct|enum|trait|mod|macro_rules|const|static|type"
    r"|extern|pub|unsafe)\b|#!?\["
)
PARTS = ("src", "specs", "proofs")


class Function:
    """A function of a file: its lines with its attributes, its head, and where its body begins."""

    def __init__(self, file, lines, name, first, last):
        self.file, self.name, self.first, self.last = file, name, first, last
        within = range(first, last + 1)
        self.head = next(at for at in within if re.search(rf"\bfn {name}\b", lines[at - 1]))
        indent = re.match(" *", lines[self.head - 1])[0]
        self.above = "\n".join(lines[first - 1 : self.head])
        self.inside = "\n".join(lines[self.head : last])
        self.body = body_of(lines, self.head, last, indent)
        self.owner = owner(lines, self.head) if indent else ""
        self.frame = frame(lines, self.head) if indent else ("", "")
        # (a constant's value, a test, and the proof of a cycle reach further than the body)
        reaches = re.search(r"\bconst fn|\bcycle\(|#\[test|#\[cfg", self.above)
        is_outer = self.owner is not None and len(indent) <= 4
        self.is_plain = self.body is not None and is_outer and not reaches
        *modules, stem = file.removeprefix("src/").removesuffix(".rt").split("/")
        is_root = stem == "mod" or not modules and stem in ("lib", "main")
        names = [*modules, "" if is_root else stem, self.owner, name]
        self.path = "::".join(it for it in names if it)

    def proofs(self):
        """The folder of its proof files."""
        return f"proofs/{self.path.replace('::', '/')}"

    def answers(self):
        return f"{self.proofs()}/Answers.antt"

    def path_of(self, name):
        """The path of a copy of this name."""
        return "::".join([*self.path.split("::")[:-1], name])


def body_of(lines, head, last, indent):
    """The line that opens the body: a brace by itself, or the end of a signature with no clause."""
    signature = lines[head - 1].rstrip()
    if signature.endswith("{") and not ITEMS.search(signature.partition("fn ")[2]):
        return head
    found = {at: lines[at - 1] for at in range(head, last + 1)}
    alone = next((at for at, line in found.items() if line == indent + "{"), None)
    ends = (at for at, line in found.items() if re.match(indent + r"\).*\{$", line))
    return alone or next(ends, None)


def owner(lines, head):
    """The impl or trait that a line is in, as a check names it, or None where that isn't plain."""
    name = r"(?:\w+::)*(\w+)"
    impl = re.compile(rf"impl(<.*?>)? (?:{name}(?:<.*>)? for )?(?:&(?:mut )?)?{name}(?:<(\w+)>)?")
    for line in reversed(lines[: head - 1]):
        if found := re.match(r"(?:pub(?:\([^)]*\))? )?trait (\w+)", line):
            return found[1]
        if found := impl.match(line):
            # (an impl for each type that has a trait)
            taken = lambda word: re.search(rf"[<,] *{word} *[:,>]", found[1] or "")
            of = "" if not found[4] or taken(found[4]) else found[4][0].upper() + found[4][1:]
            return ("Any" if taken(found[3]) else found[3] + of) + (found[2] or "")
        if line == "}":
            return None
    return None


def frame(lines, head):
    """The first lines of a method's impl and its last, or None where that can't be written twice."""
    start = next((at for at in range(head - 1, 0, -1) if re.match(r"impl\b", lines[at - 1])), None)
    if not start:
        return None
    opens = next(at for at in range(start, head) if lines[at - 1].rstrip().endswith("{"))
    ends = (at for at in range(head, len(lines) + 1) if lines[at - 1] == "}")
    inner = lines[opens : next(ends, len(lines))]
    header = "\n".join(lines[start - 1 : opens])
    has_items = any(re.match(r"    (ghost|type|const)\b", line) for line in inner)
    return None if " for " in header or "ghost" in header or has_items else (header, "}")


class Source:
    """A crate's files, and the functions in them."""

    def __init__(self, name, folder=None):
        self.name, self.folder = name, folder or TOP / "crates" / name
        self.texts, self.made = {}, {}
        self.proofs = {
            str(path.relative_to(self.folder)): path.read_text(encoding="utf-8")
            for path in sorted(self.folder.glob("proofs/**/*.antt"))
        }

    def text(self, path):
        if path not in self.texts:
            self.texts[path] = (self.folder / path).read_text(encoding="utf-8")
        return self.texts[path]

    def functions(self, path, text=None):
        """The functions of a file, with another text of it where one is given."""
        if text is not None and text != self.text(path):
            lines = text.split("\n")
            return [Function(path, lines, *it) for it in functions(lines)]
        if path not in self.made:
            lines = self.text(path).split("\n") if path.endswith(".rt") else []
            self.made[path] = [Function(path, lines, *it) for it in functions(lines)]
        return self.made[path]

    def function_at(self, path, number, text=None):
        """The function that has a line; of one in another, the inner one."""
        found = [it for it in self.functions(path, text) if it.first <= number <= it.last]
        return max(found, key=lambda it: it.first, default=None)

    def named(self, name):
        """The functions of this name."""
        files = [str(it.relative_to(self.folder)) for it in sorted(self.folder.glob("src/**/*.rt"))]
        return [it for file in files for it in self.functions(file) if it.name == name]

    def is_named_by_a_proof(self, function):
        """Whether a proof file names the function's code, and not only its contract."""
        code = re.compile(rf"\b{function.name}\.(Met|Code|Proof)\b")
        return any(code.search(text) for text in self.proofs.values())

    def can_copy(self, function):
        """Whether a copy under another name is the same to the prover: the function doesn't name
        itself, and only its own proof files name it."""
        own = f"{function.proofs()}/"
        kept = {path.removeprefix(own) for path in self.proofs if path.startswith(own)}
        dotted = f"Rattle.{self.name}.proofs.{function.path.replace('::', '.')}."
        others = [text for path, text in self.proofs.items() if not path.startswith(own)]
        return (
            function.is_plain
            and function.frame is not None
            and kept <= {"Answers.antt", "Invariants.antt"}
            and "no_mangle" not in function.above
            and not re.search(rf"\b{function.name}\b", function.inside)
            and not any(dotted in text for text in others)
        )

    def clauses(self, function):
        """The names of the `ensures` of a function, with the lines of each: none where one has no
        name, or they can't be told apart."""
        found, name = collections.OrderedDict(), None
        lines = self.text(function.file).split("\n")
        for number in range(function.head + 1, function.body):
            if begins := re.match(r" *(ensures|requires)\b *(\w*)", lines[number - 1]):
                name = begins[2] if begins[1] == "ensures" else None
                if begins[1] == "ensures" and (not name or name in found):
                    return {}
            elif re.match(r" *(ghost|//|ensures\*|requires\*)", lines[number - 1]):
                name = None
            if name:
                found.setdefault(name, []).append(number)
        return found

    def copied(self, function, number, lines, clause):
        """A copy of the function with these lines of the file in place of its own, to be put at the
        end of it. Where it has the clause that is named, it has one that says nothing in place of
        all others, so that goals keep their names. Returns its path, its text, and its proof files
        by their paths."""
        name = f"{function.name}__{number}"
        path = function.path_of(name)
        clauses = self.clauses(function)
        others = {it: clauses[it] for it in clauses if clause in clauses and it != clause}
        left_out = sorted(at for numbers in others.values() for at in numbers)
        body = []
        for at, line in enumerate(self.text(function.file).split("\n"), 1):
            if not function.first <= at <= function.last or re.match(" *///", line):
                continue
            line = lines.get(at, line)
            if at == function.head:
                line = re.sub(rf"\bfn {function.name}\b", f"fn {name}", line)
            if at in left_out:
                line = "    ensures nothing { Unit {0} }" if at == left_out[0] else None
            if line is not None:
                body.append(line)
        above, below = function.frame
        text = "\n".join(it for it in [above, *body, below] if it)
        return path, text, self.copied_proofs(function, path, others)

    def copied_proofs(self, function, path, left_out):
        """The proof files of a copy at this path, by their paths, without answers of these clauses."""
        old, new = (
            f"Rattle.{self.name}.proofs.{it.replace('::', '.')}." for it in (function.path, path)
        )
        files = {}
        for file in ("Answers.antt", "Invariants.antt"):
            if text := self.proofs.get(f"{function.proofs()}/{file}"):
                is_left = lambda goal: any(is_goal_of(goal, clause) for clause in left_out)
                text = without_answers(text, is_left).replace(old, new)
                files[f"proofs/{path.replace('::', '/')}/{file}"] = text
        return files

    def with_error(self, path, answers):
        """Answers with one more, of a goal that there isn't. A check that finds such an error has no
        proof file to offer for the goals that are open, and doesn't try these once more for it.
        What it says of that goal is no evidence, and isn't read."""
        use = f"use Rattle.{self.name}.proofs.{path.replace('::', '.')}.Goals as goal"
        begins = answers if use in answers else f"{use}\n{answers}"
        return f"{begins.rstrip()}\n\npub no_such_goal : goal.no_such_goal\nno_such_goal = goal.no_such_goal\n"
