"""What is made of the table of verbs: parts of the header, of the crate in Rust, of REFERENCE and
of tests, each of lines that are alike for all commands."""

import re
import textwrap

from verb_table import commands, forwarded, purpose_of, rfcs_of

# what a value is that is not any text or bytes, as the header and REFERENCE say it
VALUES = {
    "Stru": "F, R or P, in upper case only",
    "Mode": "S, B or C, in upper case only",
    "Opts": "UTF8 ON or UTF8 OFF; the line may have it all in lower case",
    "Auth": "TLS or SSL; the line may have it in letters of any case",
    "Pbsz": "0",
    "Prot": "C, S, E or P, in upper case only",
    "Rest": "decimal digits of a number below 2^64; the line may have + before them",
}
# the commands with a name, in the header's words
NAMED = {
    "Site": "[arguments]; its name is the subcommand",
    "Other": "[arguments]; its name is the line's verb, which is none of the above",
}
# what REFERENCE says of the parameter
PARAMETERS = {
    "Ignored": "is ignored, with its line ending",
    "Alone": "no value",
    "Text": "a text that is not empty",
    "OptionalText": "a text; none where it is empty",
    "Listing": "a text, of which the path is kept; none where it is empty",
    "Subcommand": "a subcommand and any text, cut as a line is",
}
BYTES = ["a value as bytes; it may be empty", "a value as bytes; none where it is empty"]
# a field's name for readers of C
IN_WORDS = {"username": "name", "addr": "address", "file": "path"}
# how a field is written in a row of vectors/: by the letters of tools/checks/c/replay.c
SHOWN_BY_TYPE = {"Bytes": "%v", "Password": "%v", "String": "%v", "Opt": "Utf8 on=%w", "u64": "%p"}
# the types of the crate in Rust, and what makes one of a line
IN_RUST = {"Bytes": "RawBytes<'a>", "Password": "Password<'a>", "String": "Cow<'a, str>"}
MAKERS = {
    "Bytes": "bytes",
    "Option<Bytes>": "optional_bytes",
    "Password": "password",
    "String": "text",
    "Option<String>": "optional_text",
    "StruParam": "structure",
    "ModeParam": "mode",
    "Opt": "option",
    "AuthParam": "mechanism",
    "ProtParam": "protection",
    "u64": "offset",
}


def name_in_c(command):
    """The name of a command in the header: its word, or its variant where it has none."""
    return f"UNFTP_{command.word or command.variant.upper()}"


def is_optional(command):
    return command.fields[-1].type.startswith("Option")


def value_in_c(command):
    """What the header says of a value."""
    if command.kind == "Ignored":
        return "no value: its parameter is ignored"
    if command.variant in VALUES | NAMED:
        return (VALUES | NAMED)[command.variant]
    if command.kind == "Alone":
        return ""
    name = IN_WORDS.get(command.fields[-1].name, command.fields[-1].name)
    endings = {"Raw": ", any bytes", "Listing": ", without options"}
    said = f"[{name}]{endings.get(command.kind, '')}" if command.kind != "Text" else name
    return f"{said}; {command.verbs[0]}" if " " in command.verbs[0] else said


def enum_in_c():
    """The results of the header that are commands."""
    for it in commands():
        said = value_in_c(it)
        line = f"    {name_in_c(it)} = {it.number},"
        yield f"{line:<23}/* {said} */" if said else line


def texts_in_c():
    """The cases of unftp_result_text."""
    for it in commands():
        yield f'    case {name_in_c(it)}: return "{it.verbs[0] if it.verbs else "another verb"}";'


def replay_in_c():
    """The commands of tools/checks/c/replay.c."""
    for it in commands():
        shown = "".join(f" {field.name}={shown_by(it, field)}" for field in it.fields)
        yield f'    [{name_in_c(it)}] = "{it.variant}{shown}",'


def shown_by(command, field):
    """How replay.c shows a field: the first of two is the name, or None of options."""
    if len(command.fields) == 2 and field is command.fields[0]:
        return "None" if command.kind == "Listing" else "%n"
    return "%o" if field.type.startswith("Option") else SHOWN_BY_TYPE.get(field.type, "%w")


def variant_in_rust(command):
    """The variant of a command in the crate in Rust."""
    return command.variant.removesuffix("Code")


def documented(text, indent):
    """A doc comment, in which the parser is the crate's."""
    said = text.replace("from `parse`", "from [`Pending`](crate::Pending)")
    return textwrap.wrap(
        said, 100, initial_indent=f"{indent}/// ", subsequent_indent=f"{indent}/// ",
        break_long_words=False, break_on_hyphens=False,
    )


def enum_in_rust():
    """The variants of `Command`."""
    for it in commands():
        yield from documented(it.about, "    ")
        if not it.fields:
            yield f"    {variant_in_rust(it)},"
            continue
        yield f"    {variant_in_rust(it)} {{"
        for field in it.fields:
            yield from documented(field.about, "        ")
            yield f"        {field.name}: {type_in_rust(field)},"
        yield "    },"


def type_in_rust(field):
    return re.sub(r"\b(Bytes|Password|String)\b", lambda it: IN_RUST[it[0]], field.type)


def maker_in_rust(command):
    """What makes the fields of a command."""
    if len(command.fields) == 2:
        return "listing" if command.kind == "Listing" else "named"
    return MAKERS[command.fields[0].type] if command.fields else "nothing"


def fields_in_rust(command, empty="{}"):
    return f"{{ {', '.join(it.name for it in command.fields)} }}" if command.fields else empty


def rows_in_rust():
    """The rows of `for_each_command`."""
    for it in commands():
        verb = it.verbs[0].partition(" ")[0] if it.verbs else ""
        row = f'{it.number} {variant_in_rust(it)} "{verb}" {maker_in_rust(it)}'
        yield f"            {row} {fields_in_rust(it)}"


def shown_in_rust():
    """The arms of `shown` of the example `replay`."""
    for it in commands():
        named = ", ".join([f'"{it.variant}"', *(field.name for field in it.fields)])
        pattern = f"{variant_in_rust(it)} {fields_in_rust(it, '')}".rstrip()
        yield f"        {pattern} => shown!({named}),"


def forwarded_in_rust():
    """The verbs whose line is forwarded as the canonical one."""
    listed = [f'"{it}",' for it in forwarded()]
    yield f"const CANONICAL: [&str; {len(listed)}] = ["
    yield from textwrap.wrap(" ".join(listed), 100, initial_indent="    ", subsequent_indent="    ")
    yield "];"


def parameter_of(command):
    """What REFERENCE says of the parameter of a verb."""
    if command.variant in VALUES:
        return VALUES[command.variant]
    if command.kind == "Raw":
        return BYTES[is_optional(command)]
    return PARAMETERS[command.kind] if command.verbs else "any text"


def reference():
    """The table of verbs of REFERENCE."""
    yield "| verbs | which command | the parameter | RFC: section |"
    yield "|---|---|---|---|"
    for it in commands():
        verbs = " or ".join(it.verbs) or "any other"
        rfcs = "; ".join(f"{number}: {section}" for number, section in rfcs_of(it))
        yield f"| {verbs} | {purpose_of(it)} | {parameter_of(it)} | {rfcs} |"


# what is made: the file, the name of the part, and its lines
MADE = [
    ("include/unftp_control.h", "numbers", enum_in_c),
    ("include/unftp_control.h", "verbs", texts_in_c),
    ("bindings/rust/src/command.rs", "variants", enum_in_rust),
    ("bindings/rust/src/command.rs", "rows", rows_in_rust),
    ("bindings/rust/examples/replay/shown.rs", "arms", shown_in_rust),
    ("bindings/rust/tests/vectors.rs", "canonical", forwarded_in_rust),
    ("tools/checks/c/replay.c", "commands", replay_in_c),
    ("docs/REFERENCE.md", "verbs", reference),
]
