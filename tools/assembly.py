"""The assembly texts in generated/: how each is made."""

import hashlib
import pathlib
import re
import shlex
import subprocess
import tempfile
from typing import NamedTuple

import objects
import proved
from library import HEADER, TEXTS, TOP, calls, text_file, version
from proved import NAME, NotMade
from statements import Unknown, defined, renamed

# the functions that compiled code of the toolchain calls: for memory, for the error of a read or a write, and for a program's arguments
MEMORY, ERRNO, ARGUMENTS = (TOP / f"tools/{name}.c" for name in ["memory", "errno", "arguments"])
# the crates that generated/ has a text of: for which processors, and what of it is written in C
PROCESSORS = {NAME: ["x86_64", "aarch64"], "control_demo": ["x86_64", "aarch64"], "login_demo": ["x86_64", "aarch64"], "vector_replay": ["x86_64"]}
IN_C = {NAME: [MEMORY], "control_demo": [MEMORY, ERRNO], "login_demo": [MEMORY, ERRNO], "vector_replay": [MEMORY, ERRNO, ARGUMENTS]}
# what makes the text of the crates
MAKERS = ["generated", "assembly.py", "library.py", "objects.py", "proved.py", "statements.py"]
# what a text is made for: the processor as its file names it, as the toolchain does, and the oldest of its kind
TARGETS = {
    "x86_64": ("x86_64-unknown-linux-gnu", "x86-64", "x86-64"),
    "aarch64": ("aarch64-unknown-linux-gnu", "generic", "armv8-a"),
}
# a program that assembles the text for Rust defines this name before it
HIDDEN = ".Lunftp_hidden"
HEAD = """/*
 * unftp_control {version}: {what}, for Linux on {oldest}.
 * This file is generated: generated/README.md says how.
 *
 * made by: tools/generated --write
 * toolchain: {toolchain}
 * sources: sha256 {sources}
 */
"""
# what the compiler writes and the text has not: comments, the compiler's name and its files, and which names are global
LEFT_OUT = r'\t(#|//)(NO_)?APP$|\t\.(file|globl|section\t"\.note\.GNU-stack")|\t\.ident\t"(?!rattle )'
# the last line, as the compiler writes it too: no stack is executable
NO_STACK = '\t.section\t".note.GNU-stack","",@progbits'


class Text(NamedTuple):
    """A text in generated/: of the library for C, or of a program, for a processor."""

    crate: str
    processor: str

    @property
    def file(self):
        """Where it is: a program's is in a folder of its own."""
        file = text_file(self.processor)
        return file if self.crate == NAME else TEXTS / self.crate / file.name

    @property
    def in_c(self):
        """What of it is written in C."""
        return IN_C[self.crate]


def texts_of(crates):
    """The texts of these crates."""
    return [Text(crate, processor) for crate in crates for processor in PROCESSORS[crate]]


def source_files(crate):
    """The files that the text of a crate is made of, but for crates.txt."""
    folders = [proved.CRATES / each / part for each in proved.own_crates(crate) for part in ["src", "specs", "proofs"]]
    files = [path for folder in folders for kind in ["rt", "antt"] for path in folder.rglob(f"*.{kind}")]
    files += [*(TOP / "tools" / name for name in MAKERS), *IN_C[crate], *([HEADER] if crate == NAME else [])]
    return sorted(files, key=lambda path: path.relative_to(TOP).parts)


def sources(crate):
    """The checksum of the sources: of each file its path, its length and its bytes; and of crates.txt the lines of these crates."""
    uses = proved.libraries()
    lines = "".join(f"{each}: {' '.join(uses[each])}\n" for each in proved.own_crates(crate))
    summed = hashlib.sha256(lines.encode())
    for path in source_files(crate):
        content = path.read_bytes()
        summed.update(f"{path.relative_to(TOP).as_posix()}\n{len(content)}\n".encode() + content)
    return summed.hexdigest()


def head_of(text, toolchain):
    """The head of a text that this toolchain has made of the sources that are here."""
    what = "the calls of include/unftp_control.h" if text.crate == NAME else f"the program {text.crate}"
    return HEAD.format(version=version(), what=what, oldest=TARGETS[text.processor][2], toolchain=toolchain, sources=sources(text.crate))


def own_toolchain():
    """The name of the toolchain here and its logic, or nothing where there is none."""
    try:
        return subprocess.run(["rt", "version"], capture_output=True, encoding="utf-8", check=True).stdout.strip()
    except (OSError, subprocess.SubprocessError):
        return ""


def with_its_text(kit, folder, written):
    """A folder of tools like the toolchain's, whose compiler also writes the assembly text of its one object."""
    (folder / "bin").mkdir(parents=True)
    (folder / "lib").symlink_to(kit / "toolchain/lib")
    for tool in (kit / "toolchain/bin").iterdir():
        (folder / "bin" / tool.name).symlink_to(tool)
    compiler = folder / "bin/clang"
    real = compiler.readlink()
    compiler.unlink()
    real, written = shlex.quote(str(real)), shlex.quote(str(written))
    script = f"""#!/bin/sh
case " $* " in *" -c "*)
    set -- "$@" -fno-addrsig
    [ ! -e {written} ] && {real} "$@" -S -fno-verbose-asm -Wno-unused-command-line-argument -o {written} || exit ;;
esac
exec {real} "$@"
"""
    compiler.write_text(script, encoding="utf-8")
    compiler.chmod(0o755)


def compiled(text, work):
    """The texts as the toolchain's compiler writes them: that of the crates, and that of each part in C."""
    target, cpu, oldest = TARGETS[text.processor]
    kit, written = proved.toolchain(), [work / "crates.s", *(work / f"{part.stem}.s" for part in text.in_c)]
    with_its_text(kit, work / "tools", written[0])
    ran = proved.build(work / "built", "--target", target, "--cpu", cpu, tools=work / "tools", crate=text.crate)
    if ran.returncode != 0 or not written[0].is_file():
        raise NotMade(f"{text.crate} is not built for {target}:\n{ran.stdout[-4000:]}{ran.stderr[-4000:]}")
    flags = [f"--target={target}", f"-march={oldest}", "--no-default-config", "-O3", "-fPIC", "-ffunction-sections", "-fno-verbose-asm", "-fno-addrsig"]
    flags += ["-fno-asynchronous-unwind-tables", "-Wall", "-Wextra", "-Werror"]
    for part, made in zip(text.in_c, written[1:]):
        subprocess.run([kit / "toolchain/bin/clang", *flags, "-S", part, "-o", made], check=True)
    parts = [path.read_bytes().decode("latin-1") for path in written]
    check_object(text, work / "built", parts[0])
    return parts


def is_label(name):
    """Whether an object has no symbol of the name, quoted or not."""
    return name.startswith((".L", '".L'))


def with_version(name, part=""):
    """The name in the library's text of what the compiler calls so. Each has the version, labels too, so that two versions can be in one
    program: where Rust's compiler optimizes a whole program, it puts the texts of all its parts into one."""
    mark = f"unftp_{version().replace('.', '_')}"
    if is_label(name):
        return in_program(name, f"{mark}_{part}")
    return f'"{mark}::{name[1:]}' if name.startswith('"') else f"{mark}_{name.removeprefix('unftp_')}"


def in_program(name, part=""):
    """The name in a program's text: as the compiler has it, since nothing else is linked with it. A label says in which part it is."""
    return name.replace(".L", f".L{part}", 1) if is_label(name) else name


def new_names(text, parts):
    """For each part of a text the new names of what it may name: what it defines, and what the others define as global."""
    given = with_version if text.crate == NAME else in_program
    shared = {name for part in parts for name in defined(part) if f"\n\t.globl\t{name}\n" in part}
    marks = ["", *(f"{part.stem}_" for part in text.in_c)]
    names = [{name: given(name, mark) for name in shared | defined(part)} for part, mark in zip(parts, marks)]
    if ARGUMENTS in text.in_c:
        # the main of this part calls that of the crates
        names[0]["main"] = "program"
    return names


def kept_lines(part, names, processor):
    """The lines of a part with these names for its own. None is global, and none names the compiler or its files."""
    return [renamed(line, names, processor) for line in part.split("\n")[:-1] if not re.match(LEFT_OUT, line)]


def assembled(processor, lines, work):
    """The object that the toolchain's assembler makes of lines."""
    text, made = work.with_suffix(".s"), work.with_suffix(".o")
    text.write_bytes("".join(f"{line}\n" for line in lines).encode("latin-1"))
    # the gaps before loops are filled as where the compiler makes an object
    flags = [f"--target={TARGETS[processor][0]}", "--no-default-config"]
    flags += ["-Xclangas", "-target-cpu", "-Xclangas", "generic"]
    subprocess.run([proved.toolchain() / "toolchain/bin/clang", *flags, "-c", text, "-o", made], check=True)
    return made


def check_object(text, built, part):
    """The text that the compiler has written makes the same object as the one that the compiler has made: in the archive of the library, or
    a program's by itself."""
    object_file = built
    if text.crate == NAME:
        object_file = built.with_suffix(".o")
        with object_file.open("wb") as file:
            subprocess.run([proved.toolchain() / "toolchain/bin/llvm-ar", "p", built], stdout=file, check=True)
    made = assembled(text.processor, part.split("\n")[:-1], built.with_name("text"))
    if objects.read(object_file) != objects.read(made):
        raise NotMade("the compiler's text is assembled to something else than its object")


def check_names(processor, part, names):
    """The lines of a part, with its own names and with the new ones, make the same object but for these names."""
    with tempfile.TemporaryDirectory() as name:
        work = pathlib.Path(name)
        old = assembled(processor, kept_lines(part, {}, processor), work / "old")
        new = assembled(processor, kept_lines(part, names, processor), work / "new")
        if not objects.same_but_for_names(old, new, names):
            raise NotMade("with its new names the text is assembled to something else")


def exported(text):
    """The last lines. A program has its main. The calls of the library are hidden names for Rust, and for C those of the header."""
    if text.crate != NAME:
        return ["\t.globl\tmain", NO_STACK]
    lines = [f"\t.ifdef\t{HIDDEN}"]
    lines += [f"\t.{word}\t{with_version(call)}" for call in calls() for word in ["globl", "hidden"]]
    lines += ["\t.else"]
    for call in calls():
        lines += [f"\t.globl\t{call}", f"\t.type\t{call},@function", f"\t.set\t{call}, {with_version(call)}"]
    return [*lines, "\t.endif", NO_STACK]


def whole_text(text, parts, toolchain):
    """The text of what the compiler has written: that of the crates, and that of each part in C."""
    lines = []
    try:
        for part, names in zip(parts, new_names(text, parts)):
            check_names(text.processor, part, names)
            lines += kept_lines(part, names, text.processor)
    except Unknown as line:
        raise NotMade(f"tools/statements.py doesn't know what the compiler has written: {line}") from line
    return head_of(text, toolchain) + "\n".join([*lines, *exported(text)]) + "\n"


def make(text, toolchain):
    """A text of the crates that were proved in this copy, with the name of a toolchain."""
    if missing := proved.missing(text.crate):
        raise NotMade(f"{', '.join(missing)}: not proved in this copy")
    with tempfile.TemporaryDirectory() as work:
        made = whole_text(text, compiled(text, pathlib.Path(work)), toolchain)
    if work in made or str(TOP) in made:
        raise NotMade("the text has a path of this machine")
    return made
