"""The crates of a repository, their built libraries, and commands of `rattle` over these; for prove.py, tests/edits and
tests/build-library.

`rt ci` leaves the built libraries of the crates in their folders out/rlib. `rt` itself does not use them again, and
would prove the crates once more.
"""
import os
import re
import shutil

# The folders of a crate that a check reads.
PARTS = ("src", "specs", "proofs")
# The toolchain's folder.
KIT = os.path.dirname(os.path.dirname(os.path.realpath(shutil.which("rt") or "")))


def crates_in(top):
    """Each crate of crates.txt with the libraries that it names."""
    with open(f"{top}/crates.txt", encoding="utf-8") as file:
        lines = (it.split("#")[0].strip() for it in file)
        named = [it.partition(":") for it in lines if ":" in it and not it.startswith("Handles")]
    return {name.split()[0]: uses.split() for name, _, uses in named}


def below(crates, crate):
    """The crates below a crate, each after those that it uses."""
    found = []
    for name in crates[crate]:
        if name in crates:
            found += [it for it in [*below(crates, name), name] if it not in found]
    return found


def is_built(top, crates, crate):
    """Whether a library's build is newer than all sources of the crate and of those below it."""
    built = f"{top}/crates/{crate}/out/rlib/{crate}.rlib"
    folders = [f"{top}/crates/{name}/{part}" for name in [*below(crates, crate), crate] for part in PARTS]
    files = [f"{at}/{it}" for folder in folders for at, _, names in os.walk(folder) for it in ["", *names]]
    return os.path.isdir(built) and max(map(os.path.getmtime, files)) < os.path.getmtime(built)


def words(verb, top, crates, crate, library_of):
    """The words of a command of `rattle` that proves a crate, in the crate's folder or a copy of it. `library_of` returns
    the path of the built library of a crate."""
    root = "src/main.rt" if os.path.isfile(f"{top}/crates/{crate}/src/main.rt") else "src/lib.rt"
    found = [f"{KIT}/bin/rattle", verb, "--crate-name", crate, root, "--links", f"{crate}="]
    for name in ["std", *crates[crate]]:
        built = library_of(name) if name in crates else f"{KIT}/rlibs/{name}.rlib"
        found += ["--extern", f"{name}={built}"]
    for folder in dict.fromkeys(os.path.dirname(library_of(name)) for name in below(crates, crate)):
        found += ["-L", f"dependency={folder}"]
    found += ["-L", f"dependency={KIT}/rlibs", "--antt-project", f"{KIT}/rattle/logic/antt-project.json"]
    return [*found, "--logic-built", f"{KIT}/logic_built"]


def rattle(verb, top, crates, crate, jobs):
    """The words of such a command over the libraries that `rt ci` has built. It keeps what it proves in out/incremental
    for later commands."""
    def library_of(name):
        return f"{top}/crates/{name}/out/rlib/{name}.rlib"

    return [*words(verb, top, crates, crate, library_of), "--jobs", str(jobs), "--incremental", "out/incremental"]
