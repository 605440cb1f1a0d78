"""The definitions of the crates' specs/: their texts and comments, and what each of them names.

A definition is an `abbrev`, a `record` or a `data` of a file, or of a `module` in it. A name means
what its file defines or imports, unless a parameter, pattern, field, `λ` or `let` binds it. A
constructor means its `data`. What a `declared` file has is a type of Rust."""

import re
from collections import namedtuple

from edit_files import TOP

ROOT = "Rattle."
IMPORT = re.compile(
    r"^ *(?:pub |ghost )?use (Rattle\.[\w.]+)(?:\.\{([^}]*)\}| as ([\w-]+))?;?$", re.M
)
MODULES = re.compile(r"^(?:pub )?mod \w+$", re.M)
NAME = r"[^\s(){}\[\],;:]+"
HEAD = re.compile(
    rf"^( {{0,2}})(?:(?:abbrev|unfoldable) (?:pub )?({NAME}) :|(?:pub )?(record|data) ({NAME}))"
)
MODULE = re.compile(r"^module .*")
CONSTRUCTOR = re.compile(rf"^ +({NAME}(?: {NAME})*) :( |$)")
FIELD = re.compile(rf"^ +pub ({NAME}(?: {NAME})*) :( |$)")
TOKEN = re.compile(r"\[\]|[(){}\[\],;]|[^\s(){}\[\],;]+")
STRING = re.compile(r'"(?:\\.|[^"\\])*"')
CLOSING = {"(": ")", "{": "}", "[": "]"}
# words of the language, which no file defines
SIGNS = set("→ × ↔ λ = : let in module record data where abbrev pub _ Type Unit".split())
WORD = re.compile(r"[^\W\d_][^.]*")

# a name that another file defines: its module, and its own name there
Import = namedtuple("Import", "module name")
# a type of Rust that a definition names, or a name of the standard library
Declared = namedtuple("Declared", "name file")
Foreign = namedtuple("Foreign", "name file")


def imports_of(text):
    """What the `use` lines of a text bring in: names, and modules by their short names."""
    names, modules = {}, {}
    for module, listed, other in IMPORT.findall(text):
        for part in filter(None, (it.strip() for it in listed.split(","))):
            name, _, renamed = part.partition(" as ")
            names[renamed or name] = Import(module, name)
        if not listed:
            modules[other or module.rpartition(".")[2]] = module
    return names, modules


def tokens(text):
    """The tokens of a text without its strings."""
    return TOKEN.findall(STRING.sub(" ", text))


def is_comment(line):
    return line.lstrip().startswith("--")


def code_of(lines):
    """The lines that are neither empty nor comments."""
    return [line for line in lines if line.strip() and not is_comment(line)]


class Definition:
    """A definition: its name and kind, its comment, its lines, and the module that it is in."""

    def __init__(self, file, name, kind, comment, lines, module):
        self.file, self.name, self.kind = file, name, kind
        self.comment, self.lines, self.module = comment, lines, module
        pattern = {"data": CONSTRUCTOR, "record": FIELD}.get(kind)
        found = [pattern.match(line) for line in code_of(lines[1:])] if pattern else []
        self.members = [name for it in found if it for name in it[1].split()]

    def code(self):
        return code_of(self.lines)

    def parts(self):
        """Its parts with names of their own: a type and equations, or a head and members."""
        indent = re.match(" *", self.lines[0])[0]
        equation = re.compile(rf"{indent}{re.escape(self.name)}(?= |$)")
        begins = {"data": CONSTRUCTOR, "record": FIELD}.get(self.kind, equation)
        parts = [[]]
        for line in self.code():
            if begins.match(line):
                parts.append([])
            parts[-1].append(line)
        return [tokens(" ".join(part)) for part in parts if part]


class File:
    """A file of specs/: the sentence that it begins with, its imports and its definitions."""

    def __init__(self, path):
        self.path = path
        text = path.read_text(encoding="utf-8")
        self.lines = text.split("\n")
        self.imports, self.aliases = imports_of(text)
        self.about = self.comment_before(self.first_code())
        self.definitions = {it.name: it for it in self.read()}
        every = self.definitions.values()
        self.constructors = {name: it for it in every if it.kind == "data" for name in it.members}

    def meaning(self, name):
        """The definition of a name, or the `data` that it makes, if it is one of this file."""
        return self.definitions.get(name) or self.constructors.get(name)

    def first_code(self):
        return next((at for at, it in enumerate(self.lines) if it and not is_comment(it)), 0)

    def comment_before(self, at):
        """The comment that ends before a line."""
        first = at
        while first and is_comment(self.lines[first - 1]):
            first -= 1
        return self.lines[first:at]

    def read(self):
        """Its definitions, each up to the comment of the next one or of a module."""
        heads = [at for at, it in enumerate(self.lines) if HEAD.match(it) or MODULE.match(it)]
        starts = [at - len(self.comment_before(at)) for at in heads]
        module = []
        for at, end in zip(heads, [*starts[1:], len(self.lines)]):
            lines = "\n".join(self.lines[at:end]).rstrip("\n").split("\n")
            if MODULE.match(lines[0]):
                module = [*self.comment_before(at), *lines]
                continue
            indent, abbrev, kind, name = HEAD.match(lines[0]).groups()
            module = module if indent else []
            comment = self.comment_before(at)
            yield Definition(self, abbrev or name, kind or "abbrev", comment, lines, module)


class Definitions:
    """All files of specs/, by their modules; and the names that mean nothing, each with the
    definition that has it."""

    def __init__(self, folder=TOP / "crates"):
        self.folder, self.files, self.unknown = folder, {}, []
        for path in sorted(folder.glob("*/specs/**/*.antt")):
            module = ".".join(path.relative_to(folder).with_suffix("").parts)
            self.files[ROOT + module] = File(path)

    def every(self):
        return [it for file in self.files.values() for it in file.definitions.values()]

    def found(self, module, name):
        """What a name of a module is, or None where the module hasn't got it."""
        if file := self.files.get(module):
            again = file.imports.get(name)
            return file.meaning(name) or (again and self.found(*again))
        crate, _, rest = module.removeprefix(ROOT).partition(".specs.")
        if not (self.folder / crate).is_dir():
            return Foreign(name, f"{crate}/specs/{rest.replace('.', '/')}")
        folder, *path = rest.removesuffix(".TheVariants").split(".")
        return self.declared(crate, path) if folder == "declared" else None

    def declared(self, crate, path):
        """The type of Rust of a `declared` file, and the file that has it."""
        *modules, name = path
        source = self.folder / crate / "src"
        places = [source.joinpath(*modules, "mod.rt"), source / "lib.rt"]
        if modules:
            places.insert(0, source.joinpath(*modules).with_suffix(".rt"))
        return Declared(name, next(it for it in places if it.is_file()).relative_to(self.folder))

    def named(self, definition):
        """What a definition names, in the order of first use, itself left out."""
        text = Names(self, definition.file.imports, definition.file.aliases, definition.file)
        bound = text.read(tokens(" ".join(code_of(definition.module))), set())
        for part in definition.parts():
            bound |= text.read_part(part, definition, bound)
        self.unknown += [(definition, word) for word in text.unknown]
        return [it for it in text.found if it is not definition]


class Names:
    """What the names of some texts mean, in the order of first use."""

    def __init__(self, definitions, imports, aliases, file=None):
        self.definitions, self.file = definitions, file
        self.imports, self.aliases = imports, aliases
        self.found, self.unknown = [], []
        self.operators = {
            part: name for name in imports if "◌" in name for part in name.split("◌") if part
        }

    def meaning(self, word):
        """What a word means that nothing binds, or None."""
        head, _, rest = word.partition(".")
        if head in self.aliases and rest:
            return self.definitions.found(self.aliases[head], rest.partition(".")[0])
        if self.file and (own := self.file.meaning(head)):
            return own
        imported = self.imports.get(self.operators.get(word, head))
        return self.definitions.found(*imported) if imported else None

    def note(self, word):
        it = self.meaning(word) if word not in SIGNS else None
        if it and it not in self.found:
            self.found.append(it)
        if not it and word not in SIGNS and WORD.match(word):
            self.unknown.append(word)

    def read_part(self, words, definition, bound):
        """Reads a part of a definition; returns the names that it binds in the later ones."""
        if definition.kind == "abbrev" and words[0] == definition.name:
            sign = outer(words, "=")
            self.read(words[sign + 1 :], bound | self.bound_by(words[1:sign]))
            return set()
        sign = words.index(":") if ":" in words else 0
        names = {it for it in words[:sign] if it in definition.members}
        found = self.read(words[sign if names else 0 :], bound)
        if definition.kind == "record":
            return found | names
        return found if definition.kind == "data" and not names else set()

    def bound_by(self, patterns):
        """The names that patterns bind: those that are no constructors."""
        names = {it for it in patterns if re.match(r"[^\W\d]", it) and "." not in it}
        bound = {it for it in names if not self.is_constructor(it)}
        for word in patterns:
            if word not in bound:
                self.note(word)
        return bound

    def is_constructor(self, word):
        it = self.meaning(word)
        if isinstance(it, Definition):
            return it.kind == "data" and (it.name != word or word in it.members)
        return it is not None

    def read(self, words, bound):
        """Notes what the words name that isn't bound; returns what is bound at their end."""
        at = 0
        while at < len(words):
            word = words[at]
            if word in CLOSING:
                end = closing(words, at)
                bound = bound | self.read_group(words[at + 1 : end], bound)
                at = end
            elif word == "λ":
                end = next(it for it in range(at, len(words)) if words[it].endswith("."))
                bound = bound | {it.rstrip(".") for it in words[at + 1 : end + 1]}
                at = end
            elif word == "let":
                bound = bound | {words[at + 1]}
                at += 1
            elif words[at + 1 : at + 2] != ["="] and word.partition(".")[0] not in bound:
                self.note(word)
            at += 1
        return bound

    def read_group(self, words, bound):
        """Reads what is in brackets; returns the names that it binds after them, as `(n : ℕ)`."""
        names = words[: words.index(":")] if ":" in words else []
        if names and not set(names) & set(CLOSING):
            self.read(words[len(names) + 1 :], bound)
            return set(names)
        self.read(words, bound)
        return set()


def closing(words, at):
    """The place of the bracket that closes the one here."""
    opened, depth = words[at], 0
    for place in range(at, len(words)):
        depth += (words[place] == opened) - (words[place] == CLOSING[opened])
        if depth == 0:
            return place
    return len(words)


def outer(words, sign):
    """The place of a sign outside of brackets."""
    at = 0
    while words[at] != sign:
        at = closing(words, at) + 1 if words[at] in CLOSING else at + 1
    return at


def closure(roots, uses):
    """What the roots stand on, themselves too, in the order of first use."""
    found = list(dict.fromkeys(roots))
    known = set(found)
    for it in found:
        new = [used for used in dict.fromkeys(uses(it)) if used not in known]
        found += new
        known.update(new)
    return found


def after_users(found, uses):
    """The same, each after all that use it, as far as that can be."""
    left, ordered = list(found), []
    while left:
        used = {used for it in left for used in uses(it) if used is not it}
        ordered.append(next((it for it in left if it not in used), left[0]))
        left.remove(ordered[-1])
    return ordered
