"""The crates that the library for C and the programs are made of, and what is built over those that were proved in this copy."""

import os
import pathlib
import subprocess

from library import TOP

CRATES = TOP / "crates"
# the crate of the library for C
NAME = "unftp_control_c"


class NotMade(OSError):
    """What is asked for can't be made here."""


def libraries():
    """The libraries that each crate uses, from crates.txt."""
    uses = {}
    for line in (TOP / "crates.txt").read_text(encoding="utf-8").splitlines():
        if line and not line.startswith("#"):
            name, _, names = line.partition(":")
            uses[name.split()[0]] = names.split()
    return uses


def below(crate, uses):
    """The repository's own crates that a crate stands on, directly or not."""
    found = set()
    for name in uses[crate]:
        if name in uses:
            found |= {name} | below(name, uses)
    return found


def own_crates(crate):
    """A crate, and those that it stands on."""
    return sorted({crate} | below(crate, libraries()))


def rlib(crate):
    """Where the toolchain keeps a library of the repository that was proved."""
    return CRATES / crate / "out" / "rlib" / f"{crate}.rlib"


def missing(crate):
    """The libraries below a crate that were not proved here."""
    return [each for each in own_crates(crate) if each != crate and not rlib(each).is_dir()]


def toolchain():
    """The toolchain's folder."""
    return pathlib.Path(subprocess.run(["rt", "doc"], capture_output=True, text=True, check=True).stdout.split("\n")[0]).parent


def prove(crate=NAME):
    """Proves what has changed of a crate and of those that it stands on, and makes its archive, or the program, in out/."""
    try:
        ran = subprocess.run(["rt", "lib" if crate == NAME else "run"], cwd=CRATES / crate, stdin=subprocess.DEVNULL, check=False)
    except FileNotFoundError as error:
        raise NotMade("the Rattle toolchain is missing: its command rt has to be on the path") from error
    if ran.returncode != 0:
        raise NotMade(f"{crate} is not proved")


def build(made, *flags, tools=None, crate=NAME):
    """Makes the archive of the library for C, or the object of a program, over the libraries that were proved here, and returns how that
    ended. The crate itself is proved again where no check has kept its proofs. What compiles it is in the folder `tools`."""
    uses, kit, out = libraries(), toolchain(), CRATES / crate / "out"
    root = ["src/lib.rt", "--crate-type", "staticlib"] if crate == NAME else ["src/main.rt"]
    words = ["build", "--crate-name", crate, *root, *flags]
    for name in ["std", *uses[crate]]:
        words += ["--extern", f"{name}={rlib(name) if name in uses else kit / 'rlibs' / f'{name}.rlib'}"]
    for folder in [kit / "rlibs", *(rlib(name).parent for name in sorted(below(crate, uses)))]:
        words += ["-L", f"dependency={folder}"]
    words += ["--antt-project", kit / "rattle/logic/antt-project.json", "--logic-built", kit / "logic_built"]
    words += ["--incremental", out / "incremental", "--jobs", str(min(4, os.cpu_count() or 1))]
    words += ["--toolchain", tools or kit / "toolchain", "--backend", "llvm", "-o", made]
    out.mkdir(exist_ok=True)
    return subprocess.run([kit / "bin" / "rattle", *words], cwd=CRATES / crate, capture_output=True, encoding="utf-8", errors="replace", check=False)
