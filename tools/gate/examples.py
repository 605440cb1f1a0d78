"""The definitions' crate together with their examples, which are modules of the facade."""

import re
import shutil

from edit_files import TOP

DEFINITIONS, FACADE = "unftp_control_defs", "unftp_control"
MODULE = "laws/examples/definitions"
LEMMAS = ["DefinitionExampleLemmas", "ReadExampleLemmas"]


def with_examples(folder):
    """Copies the definitions' crate to a folder, in which the examples are modules of it. An edit of
    a definition is refused by them."""
    source, facade = TOP / "crates" / DEFINITIONS, TOP / "crates" / FACADE
    for part in ("src", "specs", "proofs"):
        shutil.copytree(source / part, folder / part)
    shutil.copytree(facade / "src" / MODULE, folder / "src" / "examples")
    shutil.copy(facade / "src" / f"{MODULE}.rt", folder / "src" / "examples.rt")
    shutil.copytree(facade / "proofs" / MODULE, folder / "proofs" / "examples")
    for lemmas in LEMMAS:
        shutil.copy(facade / "proofs" / f"{lemmas}.antt", folder / "proofs")
        with open(folder / "proofs" / "Lib.antt", "a", encoding="utf-8") as names:
            names.write(f"mod {lemmas}\n")
    rewrite(folder / "src" / "lib.rt", r"^pub mod parameters;$", "pub mod examples;\npub mod parameters;")
    for file in (folder / "src" / "examples").glob("*.rt"):
        rewrite(file, f"unfolding\\({DEFINITIONS}::proofs", "unfolding(crate::proofs")
    dotted = MODULE.replace("/", ".")
    for file in (folder / "proofs").glob("**/*.antt"):
        rewrite(file, rf"Rattle\.{FACADE}\.proofs\.(\w*ExampleLemmas)", rf"Rattle.{DEFINITIONS}.proofs.\1")
        rewrite(file, rf"Rattle\.{FACADE}\.proofs\.{dotted}\.", f"Rattle.{DEFINITIONS}.proofs.examples.")
    return folder


def rewrite(file, pattern, text):
    before = file.read_text(encoding="utf-8")
    after = re.sub(pattern, text, before, flags=re.MULTILINE)
    if after != before:
        file.write_text(after, encoding="utf-8")
