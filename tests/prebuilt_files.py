"""The prebuilt files, and the file PROVED beside them; for prove.py and tests/prebuilt.

PROVED has a line for the version of the prover, for the checksum of the toolchain, for the least version of glibc on
which the files run, and for the checksum of the sources. Then it has a line for each prebuilt file, with its checksum,
and for each crate. The lines are sorted by the names.
"""
import hashlib
import os
import re
import struct
import subprocess

import libraries

TOP = os.path.dirname(os.path.dirname(os.path.realpath(__file__)))
FOLDER = os.path.join(TOP, "prebuilt", "linux-x86_64")
PROVED = "PROVED"
# Each prebuilt program, with its crate.
PROGRAMS = {"drive_tests": "drive_tests", "mold": "mold_cmd"}
LIBRARY = "mold_ffi"
LIBRARIES = ARCHIVE, SHARED = ("libmold.a", "libmold.so")
NAMES = sorted([*PROGRAMS, ARCHIVE, SHARED])
HEAD = ("The files in this folder consist of the crates below, and of library/alloc.c.",
        "The prover has proved every function of these crates. `sh prove` proves them again, and compares the files.", "")


def checksum(data):
    return hashlib.sha256(data).hexdigest()


def read(path):
    with open(path, "rb") as file:
        return file.read()


def found_by(option):
    """The lines that prebuilt/find prints."""
    done = subprocess.run(["sh", os.path.join(TOP, "prebuilt", "find"), option], stdin=subprocess.DEVNULL,
                          stdout=subprocess.PIPE, text=True, check=True)
    return done.stdout.splitlines()


def crates():
    """The crates that the files consist of."""
    return found_by("--crates")


def sources():
    """The checksum of the sources."""
    return found_by("--sources")[0]


def toolchain():
    """The checksum of the toolchain, which changes with each version of it."""
    return checksum(read(os.path.join(libraries.KIT, "KIT-ID")))


def stripped(program):
    """A linked program without its table of symbols, which is the last of its sections but for the names of sections.
    The toolchain has no command for that."""
    sections_at, = struct.unpack_from("<Q", program, 0x28)
    size, count, names_index = struct.unpack_from("<3H", program, 0x3A)
    sections = [program[sections_at + size * it:][:size] for it in range(count)]
    kinds = [struct.unpack_from("<I", it, 4)[0] for it in sections]
    symbols, (_, _, _, _, names_from, names_size) = kinds.index(2), struct.unpack_from("<IIQQQQ", sections[names_index])
    kept = bytearray(program[:struct.unpack_from("<Q", sections[symbols], 0x18)[0]])
    names_at = len(kept)
    kept += program[names_from:names_from + names_size]
    kept += bytes(-len(kept) % 8)
    struct.pack_into("<Q", kept, 0x28, len(kept))
    struct.pack_into("<2H", kept, 0x3C, symbols + 1, symbols)
    names = bytearray(sections[names_index])
    struct.pack_into("<Q", names, 0x18, names_at)
    return bytes(kept) + b"".join(sections[:symbols]) + bytes(names)


def least_glibc(files):
    """The least version of glibc that has everything which the programs and the shared library import."""
    found = {it for name in (*PROGRAMS, SHARED) for it in re.findall(rb"\0GLIBC_([\d.]+)(?=\0)", files[name])}
    return max(found, key=lambda it: [int(part) for part in it.split(b".")]).decode()


def built_files(folder):
    """The files that `rt ci` has built of the sources, with the libraries in a folder."""
    programs = {name: os.path.join(TOP, "crates", it, "out", it) for name, it in PROGRAMS.items()}
    made = {name: stripped(read(path)) for name, path in programs.items()}
    return made | {name: read(os.path.join(folder, name)) for name in LIBRARIES}


def text_of_proved(files):
    prover = subprocess.run(["rt", "version"], stdout=subprocess.PIPE, text=True, check=True).stdout.strip()
    lines = [*HEAD, f"prover: {prover}", f"toolchain: {toolchain()}", f"glibc: {least_glibc(files)}"]
    lines += [f"sources: {sources()}", *(f"file: {checksum(files[name])} {name}" for name in NAMES)]
    lines += [f"crate: {name}" for name in crates()]
    return "".join(f"{line}\n" for line in lines)


def stated():
    """What PROVED states: the value of each word that has one, and the checksum of each file. Empty without PROVED."""
    try:
        lines = read(os.path.join(FOLDER, PROVED)).decode().splitlines()
    except FileNotFoundError:
        return {}, {}
    pairs = [line.split(": ", 1) for line in lines if ": " in line]
    files = (value.split(" ") for word, value in pairs if word == "file")
    return dict(pairs), {name: value for value, name in files}


def write(files):
    """Replaces the prebuilt files, and PROVED last."""
    os.makedirs(FOLDER, exist_ok=True)
    texts = {**files, PROVED: text_of_proved(files).encode()}
    for name in (*NAMES, PROVED):
        path = os.path.join(FOLDER, name)
        with open(f"{path}.new", "wb") as file:
            file.write(texts[name])
        os.chmod(f"{path}.new", 0o755 if name in PROGRAMS else 0o644)
        os.replace(f"{path}.new", path)


def differences(files):
    """For each file whether it is another one than the prebuilt one."""
    def kept(name):
        path = os.path.join(FOLDER, name)
        return read(path) if os.path.isfile(path) else None

    return {name: kept(name) != files[name] for name in NAMES}


def why_not_comparable(made):
    """Why the prebuilt files cannot be compared with those that this toolchain has made, or None. Another toolchain may
    make other files from the same sources. If it has made the same files, they can be compared."""
    words, files = stated()
    if not files:
        return "there are no prebuilt files"
    is_other = words.get("toolchain") != toolchain()
    return "other toolchain" if is_other and any(differences(made).values()) else None
