"""What a function of a file states: the sentence of its documentation, its signature in a line, and
its clauses, each with the comment above it."""

import re
from collections import namedtuple

from calls import UNREAD
from edit_copies import body_of

# what only contracts see begins so: clauses, the facts of loops, `ghost` items, and tactics
UNSEEN = re.compile(r" *(?:requires|ensures|invariant|decreases|ghost|#!?\[tactic)\b")
BEGINS = re.compile(r" *(requires|ensures)(?: (\w+))? \{")
# imports and modules
OTHER = re.compile(r" *(?:pub(?:\([a-z]+\))? )?(?:use|mod)\b")
SENTENCE = re.compile(r"(.+?[.!?])(?= |$)")
# a clause: `requires` or `ensures`, its name or "", the words above it, and its lines
Clause = namedtuple("Clause", "kind name words lines")


def indent_of(line):
    return re.match(" *", line)[0]


def end_of_clause(lines, at):
    """The line after what begins here: a clause, a `ghost` item or an attribute. Its brackets are
    closed there."""
    depth = 0
    for place in range(at, len(lines)):
        code = UNREAD.sub(" ", lines[place])
        depth += sum(code.count(it) for it in "{[(") - sum(code.count(it) for it in "}])")
        if depth == 0:
            return place + 1
    return len(lines)


def seen_and_unseen(lines, laws):
    """How many lines of a file are code, and how many only contracts see: laws are all of these.
    Comments, empty lines and `use` are neither."""
    in_laws = {at for law in laws for at in range(law.first - 1, law.last)}
    seen, unseen, at = 0, 0, 0
    while at < len(lines):
        end = end_of_clause(lines, at) if UNSEEN.match(lines[at]) else at + 1
        if UNSEEN.match(lines[at]) or at in in_laws:
            unseen += sum(is_code(it) for it in lines[at:end])
        elif OTHER.match(lines[at]):
            while not lines[end - 1].endswith((";", "{")):
                end += 1
        else:
            seen += is_code(lines[at])
        at = end
    return seen, unseen


def is_code(line):
    return bool(line.strip()) and not line.lstrip().startswith("//")


def clauses_of(lines, item):
    """The clauses of a function of these lines, which are those of its file."""
    last = body_of(lines, item.first, item.last, indent_of(lines[item.first - 1])) or item.last
    at, words, found = item.first, [], []
    while at < last:
        if begins := BEGINS.match(lines[at]):
            end = end_of_clause(lines, at)
            *within, ending = lines[at:end]
            found.append(Clause(begins[1], begins[2] or "", words, [*within, ending.rstrip(";")]))
            words, at = [], end
            # (a method of a trait that has no body)
            if ending.endswith(";"):
                break
        else:
            is_comment = re.match(r" *// ", lines[at])
            words = [*words, lines[at].strip().removeprefix("// ")] if is_comment else []
            at += 1
    return found


def documentation(lines, item):
    """The text above a function, without its signs."""
    at = item.first - 1
    while at and lines[at - 1].strip() and not is_other(lines[at - 1]):
        at -= 1
    above = (line.strip() for line in lines[at : item.first - 1])
    return "\n".join(it.removeprefix("///").strip() for it in above if it.startswith("///"))


def is_other(line):
    """Whether a line above a function belongs to something else."""
    return not line.lstrip().startswith("///") and line.rstrip().endswith(("{", "}", ";"))


def first_sentence(text):
    """The first sentence of a text, in one line."""
    paragraph = " ".join(text.partition("\n\n")[0].split())
    found = SENTENCE.match(paragraph)
    return found[1] if found else paragraph


def signature(lines, item, most=96):
    """The signature of a function in one line: where it is longer, without types of parameters."""
    head = []
    for line in lines[item.first - 1 : item.last]:
        if BEGINS.match(line) or re.match(r" *(//|\{)", line):
            break
        head.append(line.strip())
        if line.endswith(("{", "{}", ";")):
            break
    whole = " ".join(" ".join(head).rstrip("{;} ").split())
    whole = re.sub(r"^.*?\bfn ", "fn ", whole).replace("( ", "(").replace(", )", ")")
    if len(whole) <= most:
        return whole
    returned = re.search(r"\) (-> .*)$", whole)
    names = ", ".join(it for it in item.types)
    return f"fn {item.name}({names})" + (f" {returned[1]}" if returned else "")
