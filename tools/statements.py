"""The lines of an assembly text, in the syntax of GNU's assembler: what one may be, and how its symbols are renamed."""

import re

QUOTED = r'"(?:[^"\\]|\\.)*"'
NAME = rf"{QUOTED}|[A-Za-z_.][\w.$]*"
# the directives whose operands have symbols, and those whose operands have none
WITH_SYMBOLS = ["byte", "comm", "hword", "local", "long", "quad", "short", "size", "type", "word", "xword"]
WITHOUT = ["ascii", "asciz", "ident", "p2align", "section", "string", "text", "zero"]
# no character of an operand begins a comment or another statement; on aarch64 `#` is before a number
OPERAND = {"x86_64": r"[\w.$%@:,()<>+\-*\t ]", "aarch64": r"[\w.#@:,()<>+\-\[\]{}!\t ]"}
# no symbol: a register, a type or a relocation, and a number
OTHER = r"[%@]\w+|:\w+:|\d\w*"


class Unknown(ValueError):
    """A line that may not be in the text."""


def parts(line, processor):
    """A line in three: what is before its symbols, the part that may have symbols, and what is after them."""
    operands = rf"(?:{QUOTED}|{OPERAND[processor]})*"
    if label := re.fullmatch(rf"({NAME})(:)", line, re.A):
        return "", label[1], label[2]
    if found := re.fullmatch(rf"(\t\.(?:{'|'.join(WITH_SYMBOLS)})\t)({operands})", line, re.A):
        return found[1], found[2], ""
    if re.fullmatch(rf"|\t\.(?:{'|'.join(WITHOUT)})(?:\t{operands})?", line, re.A):
        return line, "", ""
    if found := re.fullmatch(rf"(\t(?:(?:lock|rep\w*)[\t ]+)?[a-z][\w.]*)((?:[\t ]{operands})?)", line, re.A):
        return found[1], found[2], ""
    raise Unknown(line)


def defined(text):
    """The names that a text defines."""
    return {label or local for label, local in re.findall(rf"^({NAME}):|^\t\.local\t({NAME})$", text, re.A | re.M)}


def renamed(line, names, processor):
    """A line whose symbols have these names in place of theirs: no other word is one."""
    before, symbols, after = parts(line, processor)
    return before + re.sub(rf"{OTHER}|{NAME}", lambda found: names.get(found[0], found[0]), symbols, flags=re.A) + after


def unknown_line(lines, processor):
    """The number of the first line that isn't one statement or label in ASCII, or nothing. A comment isn't."""
    for number, line in enumerate(lines, 1):
        try:
            if not re.fullmatch(r"[\t -~]*", line):
                return number
            parts(line, processor)
        except Unknown:
            return number
    return None
