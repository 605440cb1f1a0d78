"""Which functions the crates' functions call, as the words of their bodies say.

A call is seen where its words name the function: `name(..)` of the same file or of a `use` line, `Type::name(..)`, and
`value.name(..)` where the value's type is written: of `self`, a field, a parameter, or a local that is what such a call
returns. Where that type is a parameter, as in `K: Sink`, the call is of each impl of the trait. Of any other
`value.name(..)` only the name is known: it may be any method of this name, and isn't counted. Nor are operators, `?`,
`for`, formats and drops, which call functions that no word names. Clauses, comments and strings aren't read."""

import re

from edit_copies import body_of
from edit_files import TOP, crates, functions

TOKEN = re.compile(r"[A-Za-z_]\w*|\d\w*|::|->|=>|'\w+|\S")
NAME = re.compile(r"[A-Za-z_]\w*$")
UNREAD = re.compile(r'b?"(?:\\.|[^"\\])*"|//[^\n]*|b?\'(?:\\[^\']+|[^\'\\])\'', re.S)
PUBLIC = r"(?:pub(?:\([^)]*\))? )?"
GENERICS = r"impl\b(?P<generics><.*?>)? "
IMPL = re.compile(rf"{GENERICS}(?:(?:\w+::)*(?P<trait>\w+)(?:<.*>)? for )?&?(?:mut )?(?:\w+::)*(?P<type>\w+)")
TRAIT = re.compile(rf"{PUBLIC}trait (?P<trait>\w+)")
CONST = re.compile(rf"{PUBLIC}(?:const|static) (?P<name>[A-Z][A-Z_0-9]*):")
MACRO = re.compile(r"macro_rules! (?P<name>\w+)")
FIELD = re.compile(rf" +(?:{PUBLIC}(\w+): (.*)|(\w+)\((.*)\)),$")
USE = re.compile(rf"^{PUBLIC}use ([^;]*);", re.M)
# what a crate's root makes public by name, and its public modules
EXPORT = re.compile(r"^pub (?:use|mod) ([^;]*);", re.M)
# a method of what these hold is called on it once it is taken out
WRAPPERS = {"Option", "Result", "Box"}
# crates whose functions are examples and tests, and the program that answers the rows of vectors/
EXAMPLES = {"example_callers", "unftp_control_tests", "vector_replay"}
# the standard library's methods that return what they are called on, or what that holds
SAME = {"as_ref", "as_mut", "clone", "ok", "ok_or", "unwrap", "unwrap_or", "expect", "map_err", "take", "iter"}


def words_of(lines):
    """The words of some lines, without comments, strings and what is ghost."""
    text = "\n".join(line for line in lines if not re.match(r" *(ghost|#!?\[)", line))
    return TOKEN.findall(UNREAD.sub(lambda it: '""' if '"' in it[0][:2] else " ", text))


def closing(words):
    """The place of each closing bracket, by that of its opening one."""
    found, opened = {}, []
    for at, word in enumerate(words):
        if word in "([{":
            opened.append(at)
        elif word in ")]}" and opened:
            found[opened.pop()] = at
    return found


def after_generics(words, at):
    """The place after `<..>`, where that comes here."""
    depth = 0
    for place in range(at, len(words)):
        depth += {"<": 1, ">": -1}.get(words[place], 0)
        if depth == 0:
            return at if place == at else place + 1
    return at


def split(words):
    """The parts that commas divide, outside of all brackets."""
    parts, depth = [[]], 0
    for word in words:
        depth += (word in "([{<") - (word in ")]}>")
        if word == "," and depth == 0:
            parts.append([])
        else:
            parts[-1].append(word)
    return [part for part in parts if part]


def bounds_of(words):
    """The traits of each parameter of a list of generics."""
    return {part[0]: [it for it in part[1:] if it[0].isupper()] for part in split(words)}


def base(words):
    """The name of a type, or of what it holds where it is one of WRAPPERS; none for one such as `&[u8]`."""
    return next((it for it in words if it[0].isupper() and it not in WRAPPERS), "")


def brought_by(use):
    """The names that a `use` line brings in, each with the crate that it is from and its own name there."""
    root = re.match(r"\w*", use)[0]
    for part in re.findall(r"\w+(?: as \w+)?", " ".join(use.split())):
        name, _, other = part.partition(" as ")
        yield other or name, (root, name)


class Item:
    """A function, a constant or a macro: where it is, whose it is, and the words of its body."""

    def __init__(self, crate, file, name, lines, first, last):
        self.crate, self.file, self.name, self.first, self.last = crate, file, name, first, last
        self.owner = self.trait = self.returns = ""
        self.types, self.bounds = {}, {}
        self.is_public = lines[first - 1].lstrip().startswith("pub ")
        self.is_for_c = ' extern "C" ' in lines[first - 1]
        self.is_function = False
        self.words = words_of(lines[first - 1 : last])

    def __str__(self):
        return "::".join(it for it in (self.owner or self.trait, self.name) if it)

    def is_law(self):
        """Whether it is a function that does nothing, whose contract is a law."""
        is_called = self.owner or self.trait or self.types or self.returns or self.is_for_c
        return not (is_called or self.name == "main")

    def read_function(self, lines):
        """Reads whose method it is, and its signature; its words are then those of its body."""
        self.is_function = True
        indent = re.match(" *", lines[self.first - 1])[0]
        above = reversed(lines[: self.first - 1] if indent else [])
        if found := next(filter(None, (IMPL.match(it) or TRAIT.match(it) for it in above)), None):
            parts = found.groupdict("")
            self.owner, self.trait = parts.get("type", ""), parts["trait"]
            self.bounds = bounds_of(TOKEN.findall(parts.get("generics", "")[1:-1]))
            self.is_public = self.is_public or bool(self.owner and self.trait)
        opened = body_of(lines, self.first, self.last, indent)
        self.read_signature(words_of(lines[self.first - 1 : opened or self.last]))
        if opened:
            self.words = words_of(lines[opened - 1 : self.last])

    def read_signature(self, head):
        """The types of its parameters, the bounds of its generics, and what it returns."""
        head = head[: next((at for at, it in enumerate(head) if it in ("ensures", "requires")), len(head))]
        generics = head.index(self.name) + 1
        opened = after_generics(head, generics)
        ends = closing(head).get(opened, opened)
        self.bounds |= bounds_of(head[generics + 1 : opened - 1])
        for names, _, of in (split_at(part, ":") for part in split(head[opened + 1 : ends])):
            self.types[names[-1]] = base(of) if names[-1] != "self" else self.owner
        if head[ends + 1 : ends + 2] == ["->"]:
            self.returns = base(head[ends + 2 :]).replace("Self", self.owner)


def split_at(words, sign):
    """What comes before a sign, the sign, and what comes after it, where it is there."""
    at = words.index(sign) if sign in words else len(words)
    return words[:at], words[at : at + 1], words[at + 1 :]


class Calls:
    """The items of the crates of a folder, and which of them call which."""

    def __init__(self, folder=TOP / "crates", uses=None):
        self.uses = crates() if uses is None else uses
        self.items, self.fields, self.imports, self.exports = [], {}, {}, {}
        self.by_name, self.below, self.made = {}, {}, {}
        for crate in self.uses:
            self.exports[crate] = set()
            for path in sorted((folder / crate / "src").rglob("*.rt")):
                self.read(crate, str(path.relative_to(folder / crate)), path.read_text(encoding="utf-8"))
        for item in self.items:
            self.by_name.setdefault(item.name, []).append(item)

    def read(self, crate, file, text):
        """Reads the items of a file, the types of its fields, and what it brings in and exports."""
        lines = text.split("\n")
        self.imports[crate, file] = dict(it for use in USE.findall(text) for it in brought_by(use))
        self.exports[crate].update(re.findall(r"\w+", " ".join(EXPORT.findall(text))))
        for number, line in enumerate(lines, 1):
            last = next((at for at in range(number, len(lines) + 1) if re.match(r".*;$|.*\}$", lines[at - 1])), number)
            if found := CONST.match(line) or MACRO.match(line):
                self.items.append(Item(crate, file, found["name"], lines, number, last))
            elif found := re.match(rf"{PUBLIC}(?:struct|enum) (\w+)", line):
                fields = filter(None, map(FIELD.match, lines[number - 1 : last]))
                types = {it[1] or it[3]: base(TOKEN.findall(it[2] or it[4])) for it in fields}
                self.fields.setdefault(found[1], {})[crate] = types
        for name, first, last in functions(lines):
            head = next(at for at in range(first, last + 1) if re.search(rf"\bfn {name}\b", lines[at - 1]))
            self.items.append(Item(crate, file, name, lines, head, last))
            self.items[-1].read_function(lines)

    def is_public(self, item):
        """Whether its crate's callers can call it: it is in the root or in a public module, or exported, or for C."""
        modules = re.findall(r"\w+", item.file.removeprefix("src/").removesuffix(".rt"))
        is_open = modules in (["lib"], ["main"]) or set(modules) <= self.exports[item.crate]
        is_open = is_open or item.is_for_c or (item.owner or item.name) in self.exports[item.crate]
        return item.is_public and is_open

    def programs(self):
        """The crates that have a function `main`."""
        return {it.crate for it in self.items if it.name == "main"}

    def libraries(self):
        """The other crates but those of examples and tests, lowest first."""
        return [crate for crate in self.uses if crate not in self.programs() | EXAMPLES]

    def seen(self, crate):
        """The crates that a crate's words may name: itself, and those below it."""
        if crate not in self.below:
            self.below[crate] = {crate}.union(*(self.seen(use) for use in self.uses[crate] if use in self.uses))
        return self.below[crate]

    def named(self, item, name, has_owner):
        """What may be meant by a name in an item: methods, or all else."""
        seen = self.seen(item.crate)
        return [it for it in self.by_name.get(name, []) if it.crate in seen and bool(it.owner or it.trait) == has_owner]

    def methods(self, item, of, name):
        """The methods of this name of a type, or of each impl of a parameter's bounds."""
        named = self.named(item, name, True)
        if of in item.bounds:
            return [it for it in named if it.trait in item.bounds[of]]
        if (own := [it for it in named if it.owner == of]) or of not in self.fields:
            return own
        # (of an impl for each type that has a trait, or of the trait itself)
        return [it for it in named if it.trait and (not it.owner or it.owner in it.bounds)]

    def free(self, item, name):
        """The function, constant or macro that a name means in an item's file."""
        named = self.named(item, name, False)
        if own := [it for it in named if (it.crate, it.file) == (item.crate, item.file)]:
            return own
        if name not in self.imports[item.crate, item.file]:
            return [it for it in named if it.crate == item.crate and it.words[:1] == ["macro_rules"]]
        root, name = self.imports[item.crate, item.file][name]
        crate = root if root in self.uses else item.crate
        return [it for it in self.named(item, name, False) if it.crate in self.seen(crate)]

    def field(self, item, of, name):
        """The type of a field, or of what a variant holds, where that is known."""
        crates_with = sorted(self.seen(item.crate) & set(self.fields.get(of, {})), key=lambda it: it != item.crate)
        return self.fields[of][crates_with[0]].get(name, "") if crates_with else ""

    def calls(self, item):
        """What an item calls for sure, and which methods it may call by their names."""
        if item not in self.made:
            body = Body(self, item)
            self.made[item] = body.sure, body.by_name
        return self.made[item]

    def reached(self, item):
        """What an item runs for sure, itself too."""
        found = [item]
        for caller in found:
            found += [it for it in self.calls(caller)[0] if it not in found]
        return found


class Body:
    """The calls of a body, whose words are read once from the first to the last."""

    def __init__(self, graph, item):
        self.graph, self.item, self.words = graph, item, item.words
        self.ends, self.types = closing(self.words), dict(item.types)
        self.sure, self.by_name = set(), set()
        for at, word in enumerate(self.words):
            if word == "let":
                self.bind(at)
            elif word in ("for", "|"):
                self.bind_unknown(at + 1)
            elif word == "match":
                opened = self.words.index("{", at) if "{" in self.words[at:] else at
                self.bind_arms(self.words[opened : self.ends.get(opened, opened)], self.chain(at + 1))
            elif NAME.match(word) and self.words[max(at - 1, 0)] not in (".", "::"):
                self.chain(at)

    def bind(self, at):
        """Notes the types of the names of a `let`."""
        sign = self.words.index("=", at) if "=" in self.words[at:] else at
        first = sign + 1
        while self.words[first : first + 1] and self.words[first] in ("&", "mut", "match"):
            first += 1
        names, is_typed, written = split_at([it for it in self.words[at + 1 : sign] if it != "mut"], ":")
        of = base(written) if is_typed else self.chain(first)
        if len(names) == 1:
            self.types[names[0]] = of
        self.bind_arms(names, of)

    def bind_unknown(self, at):
        """Notes the names of a `for`, or of a closure, of which no type is known."""
        for word in self.words[at:]:
            if word == "in" or not (NAME.match(word) or word in "&,("):
                break
            self.types.setdefault(word, "")

    def bind_arms(self, words, of):
        """Notes the types of what `Some(name)`, `Ok(name)` and `Enum::Variant(name)` hold."""
        for at in range(2, len(words) - 1):
            if words[at - 1] == "(" and words[at + 1] == ")" and NAME.match(words[at]):
                enum = words[at - 4] if words[at - 3] == "::" else ""
                held = self.graph.field(self.item, enum, words[at - 2])
                self.types.setdefault(words[at], of if words[at - 2] in ("Some", "Ok") else held)

    def chain(self, at):
        """Notes the calls of an expression that begins here with a name, and returns its type, if that is known."""
        path, at = self.path(at)
        of = self.first(path) if path else ""
        while at < len(self.words):
            if self.words[at] == "?":
                at += 1
            elif self.words[at] == "(":
                at = self.ends.get(at, at) + 1
            elif self.words[at] == "." and NAME.match(" ".join(self.words[at + 1 : at + 2])):
                (name, *_), at = self.path(at + 1)
                is_call = self.words[at : at + 1] == ["("]
                of = self.method(of, name) if is_call else self.graph.field(self.item, of, name)
            else:
                break
        return of

    def path(self, at):
        """The names of a path, and the place after it."""
        found = []
        while at < len(self.words) and NAME.match(self.words[at]):
            found.append(self.words[at])
            at += 1
            if self.words[at : at + 2] == ["::", "<"]:
                at = after_generics(self.words, at + 1)
            if self.words[at : at + 1] != ["::"]:
                break
            at += 1
        return found, at

    def first(self, path):
        """Notes what a path names, and returns the type of what it is."""
        name = path[-1]
        if len(path) == 1:
            known = self.types.get(name)
            return self.note(self.graph.free(self.item, name)) or base([name]) if known is None else known
        of = path[-2].replace("Self", self.item.owner)
        if of[:1].isupper():
            return self.note(self.graph.methods(self.item, of, name)) or of
        # (of a module, or of a crate)
        named = self.graph.named(self.item, name, False)
        return self.note([it for it in named if it.crate == of or of in re.findall(r"\w+", it.file)])

    def method(self, of, name):
        """Notes the call of a method of this type, and returns the type of what it returns."""
        if not of:
            self.by_name.update(self.graph.named(self.item, name, True))
            return ""
        return self.note(self.graph.methods(self.item, of, name)) or (of if name in SAME else "")

    def note(self, found):
        self.sure.update(found)
        return next((it.returns for it in found if it.returns), "")
