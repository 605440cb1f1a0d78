"""The library for C: its version and its calls, which the header has, and its files."""

import contextlib
import os
import pathlib
import re
import subprocess
import tempfile

TOP = pathlib.Path(__file__).resolve().parent.parent
HEADER = TOP / "include/unftp_control.h"
# the assembly text, from which it is made without the toolchain
TEXTS = TOP / "generated"
# the same for the crate in Rust: cargo packs no file from outside the crate, and `rt ci` takes no link
RUST_TEXTS = TOP / "bindings/rust/generated"
# where tools/c_library puts it
OUT = TOP / "crates/unftp_control_c/out"

COMPILED = "libunftp_control_c.a"
STATIC = "libunftp_control.a"
SHARED = "libunftp_control.so"
# the C compiler, which also assembles and links
CC = os.environ.get("CC", "cc")
# a cell without text in a page of the manual
EMPTY = r"\&"


def header():
    """The header without its comments."""
    return re.sub(r"/\*.*?\*/", " ", HEADER.read_text(encoding="utf-8"), flags=re.S)


def version():
    """The version of the header: 0.1.0."""
    parts = [re.search(rf"^#define UNFTP_VERSION_{part} (\d+)$", header(), re.M)[1] for part in ["MAJOR", "MINOR", "PATCH"]]
    return ".".join(parts)


def calls():
    """The functions that the header declares, but does not define."""
    return re.findall(r"^(?:enum unftp_\w+|uint\d+_t) (unftp_\w+)\([^{;]*\;", header(), re.M)


def defined():
    """The functions that the header defines."""
    return re.findall(r"^static inline [^(]*?(unftp_\w+)\(", header(), re.M)


def listed(pattern):
    """Constants of the header with their numbers and what their comments say, as the items of a list in the manual."""
    rows = re.findall(rf"^    ({pattern}) = (\d+),? *(?:/\* (.*?) \*/)?$", HEADER.read_text(encoding="utf-8"), re.M)
    return "\n".join(f".It Dv {name} Ta {number} Ta {words or EMPTY}" for name, number, words in rows)


def series():
    """The versions that a program may have in place of each other: 0.1 are all 0.1.x, but not 0.2.0."""
    return version().rpartition(".")[0]


def shared_names():
    """The names of the shared library: the file, the one that programs load, and the one that a linker takes."""
    return f"{SHARED}.{version()}", f"{SHARED}.{series()}", SHARED


def output_of(*words):
    """What a command prints."""
    return subprocess.run(words, capture_output=True, encoding="utf-8", check=True).stdout


def names_of(*words):
    """The names that nm prints, without their versions."""
    lines = [line.split() for line in output_of("nm", *words).splitlines()]
    return sorted(line[-1].split("@")[0] for line in lines if len(line) > 1)


def global_names(folder):
    """The names that the static and the shared library of a folder define for programs."""
    return names_of("-g", "--defined-only", folder / STATIC), names_of("-D", "--defined-only", folder / shared_names()[0])


def text_file(processor):
    """The assembly text for a processor, as the compiler names it."""
    return TEXTS / f"{processor}-linux.s"


def run(*words):
    subprocess.run(words, check=True)


def share(merged, work):
    """The shared library. It takes memory from the program's malloc, since that is a name that it leaves undefined."""
    file, loaded, _ = shared_names()
    linking = [f"-Wl,-soname,{loaded}", "-Wl,-z,defs", "-Wl,-z,relro", "-Wl,-z,now"]
    run(CC, "-shared", *linking, merged, "-o", work / file)


def pack(merged, work):
    """Makes the two libraries of an object in a folder, and looks whether they have the calls of the header, and no other name."""
    run("ar", "rcsD", work / STATIC, merged)
    share(merged, work)
    for names in global_names(work):
        if names != sorted(calls()):
            raise OSError(f"the libraries have {names}, and not the calls of the header")


def processor():
    """The processor that the C compiler compiles for."""
    return output_of(CC, "-dumpmachine").split("-")[0]


def assemble(work):
    """Makes the two libraries of the assembly text for the compiler's processor, in a folder."""
    machine = output_of(CC, "-dumpmachine").strip()
    if "linux" not in machine or not text_file(processor()).is_file():
        raise OSError(f"{CC} compiles for {machine}, and generated/ has {', '.join(sorted(path.name for path in TEXTS.glob('*.s')))}")
    run(CC, "-c", text_file(processor()), "-o", work / "unftp_control.o")
    pack(work / "unftp_control.o", work)


@contextlib.contextmanager
def libraries_of(folder=None):
    """The folder of the two libraries: this one, or one in which they are made of the assembly text."""
    if folder is not None:
        yield pathlib.Path(folder)
        return
    with tempfile.TemporaryDirectory() as name:
        assemble(pathlib.Path(name))
        yield pathlib.Path(name)


def make_folder(at):
    """Makes a folder, and those above it that are missing. All may read them, whatever the umask."""
    if not at.is_dir():
        make_folder(at.parent)
        at.mkdir()
        at.chmod(0o755)


def place(at, content, mode=0o644):
    """Makes a file of these bytes, and the folders above it."""
    make_folder(at.parent)
    at.unlink(missing_ok=True)
    at.write_bytes(content)
    at.chmod(mode)


def link(at, target):
    """Makes a symbolic link, and the folders above it."""
    make_folder(at.parent)
    at.unlink(missing_ok=True)
    at.symlink_to(target)


def filled(name, **words):
    """A file of packaging/ as bytes, with its words, as @VERSION@, filled in."""
    file, loaded, _ = shared_names()
    words |= {"VERSION": version(), "SERIES": series(), "FILE": file, "LOADED": loaded}
    text = (TOP / "packaging" / name).read_text(encoding="utf-8")
    for word, value in words.items():
        text = text.replace(f"@{word}@", value)
    return text.encode()


def read_libraries(folder):
    """The two libraries of a folder: each name with its bytes and its mode."""
    file = shared_names()[0]
    return {STATIC: ((folder / STATIC).read_bytes(), 0o644), file: ((folder / file).read_bytes(), 0o755)}


def place_libraries(libraries, folder):
    """Puts the two libraries into a folder, with the links to the shared one; but into out/ without them, since rt refuses to write to a
    folder with a link."""
    for name, (content, mode) in libraries.items():
        place(folder / name, content, mode)
    file, loaded, linked = shared_names()
    if folder.resolve() != OUT:
        link(folder / loaded, file)
        link(folder / linked, loaded)


def texts(prefix, libdir):
    """The other files, by their paths below the prefix: the header, what pkg-config and CMake read, and the page of the manual."""
    words = {"PREFIX": prefix, "LIBDIR": libdir, "UP": "/".join([".."] * len(pathlib.PurePath(libdir, "cmake/unftp_control").parts))}
    found = {f"include/{HEADER.name}": HEADER.read_bytes(), f"{libdir}/pkgconfig/unftp_control.pc": filled("unftp_control.pc", **words)}
    for name in ["unftp_control-config.cmake", "unftp_control-config-version.cmake"]:
        found[f"{libdir}/cmake/unftp_control/{name}"] = filled(name, **words)
    lists = {"COMMANDS": listed(r"UNFTP_(?!CODE_|TO_|LOGIN_|ADDRESS_|DONE)\w+"), "CODES": listed(r"UNFTP_CODE_\w+")}
    found["share/man/man3/unftp_control.3"] = filled("unftp_control.3", **lists)
    return found


def install(libraries, root, prefix, libdir="lib"):
    """Puts all below root, the libraries in its folder libdir; what pkg-config reads has this prefix. It reads everything first, so that
    nothing is installed where one is missing."""
    read, others = read_libraries(libraries), texts(prefix, libdir)
    place_libraries(read, root / libdir)
    for path, content in others.items():
        place(root / path, content)
    for call in [*calls(), *defined()]:
        link(root / "share/man/man3" / f"{call}.3", "unftp_control.3")
