"""The list of the parts of the gate, for tests/gate.py and tests/changed.py."""
import dataclasses
import fnmatch
import functools
import os
import re
import shlex
import shutil
import subprocess

TOP = os.path.dirname(os.path.dirname(os.path.realpath(__file__)))
# The documents whose command lines tests/documents runs.
DOCUMENTS = ("README.md", "docs/HEADLINE.md", "docs/USING.md", "docs/TROUBLESHOOTING.md", "docs/LIBRARY.md")
# The root crates of the program, of the library, and of the program of tests/repair-network, tests/durable and
# tests/devices.
PROGRAM, LIBRARY, DRIVER = "mold_cmd", "mold_ffi", "drive_tests"
COMPILERS = ("cc", "gcc", "clang")
# Runs a command in a separate network, in which the system assigns only ports above those that the parts use.
ISOLATED = ("unshare", "-rn", "sh", "-c", "ip link set lo up && "
            "echo '50000 60999' >/proc/sys/net/ipv4/ip_local_port_range && exec \"$@\"", "sh")


@dataclasses.dataclass(frozen=True)
class Part:
    """A command of the gate, which runs at the top of the repository or in one of its folders."""

    command: str
    # Patterns of the files that it reads, in addition to its script in tests/ and the modules that the script imports.
    reads: tuple = ()
    # The root crate of what it runs. The part is affected if that crate or one that it uses is changed.
    crate: str = ""
    # Whether it runs the program out/mold, which has to be built first.
    runs_program: bool = False
    needs_compiler: bool = False
    # Whether it needs the toolchain's `rt`.
    needs_rt: bool = False
    # Whether it uses fixed ports, so that it should not share the network with other processes.
    has_fixed_ports: bool = False
    folder: str = "."
    # Whether its last line is 'N passed, M failed'. Otherwise the part counts as one check, by its status.
    is_counted: bool = True

    def arguments(self):
        return shlex.split(self.command)

    def isolated(self):
        """The arguments, preceded by what isolates the part if it uses fixed ports and the system allows that."""
        is_isolated = self.has_fixed_ports and can_isolate()
        return [*ISOLATED, *self.arguments()] if is_isolated else self.arguments()

    def described(self):
        return self.command if self.folder == "." else f"{self.command}, in {self.folder}"

    def script(self):
        """The script in tests/ that it runs, if any."""
        return next((it for it in self.arguments() if it.startswith("tests/")), "")

    def why_skipped(self):
        """What is missing for the part, or None."""
        if self.needs_compiler and not any(map(shutil.which, COMPILERS)):
            return "there is no C compiler"
        return None


@functools.cache
def can_isolate():
    """Whether the system lets this process make a network."""
    try:
        return subprocess.run([*ISOLATED, "true"], stderr=subprocess.DEVNULL).returncode == 0
    except OSError:
        return False


def over_program(command, *reads, crate=PROGRAM, **needs):
    return Part(command, reads, crate, True, **needs)


# Compares the checksums of the prebuilt files, before anything else.
CHECKSUMS = Part("tests/prebuilt --checksums", ("prebuilt/*",))
# Copies the prebuilt libraries.
LIBRARIES = Part("sh library/build", is_counted=False)
RT_CI = Part("rt ci", needs_rt=True)
# Build a program with the kept proofs, and run it on empty input.
BUILD = Part("rt run -- show", folder=f"crates/{PROGRAM}", is_counted=False)
BUILD_DRIVER = Part("rt run", folder=f"crates/{DRIVER}", is_counted=False)
# Builds the library over what `rt ci` has built, before the edits, which start with what this proves.
BUILD_LIBRARY = Part("tests/build-library", ("library/build", "library/alloc.c"), LIBRARY, needs_rt=True,
                     is_counted=False)
# The same in another folder than the one that has the prebuilt libraries.
BUILT = "out/built"
BUILD_AGAIN = dataclasses.replace(BUILD_LIBRARY, command=f"{BUILD_LIBRARY.command} {BUILT}")
COMPARE = Part(f"tests/prebuilt {BUILT}", needs_rt=True)
EDITS = Part("tests/edits --proved", needs_rt=True)
# Parts that need what `rt ci` has built, or `rt` itself.
AFTER_PROOFS = (
    Part("tests/edits-test", ("tests/edits", "tests/edit_files.py", "tests/libraries.py"), needs_rt=True),
    over_program("tests/out-of-memory --only tests", "tests/inject_faults.c", needs_rt=True),
)
# Parts that do not need the program. They run one after the other.
WITHOUT_PROGRAM = (
    Part("tests/changed-test", ("tests/run",)),
    Part("tests/prove-test", ("prove", "prove.py", "prebuilt/find", "tests/libraries.py")),
    Part("tests/links", ("*.md",)),
    Part("tests/prose", ("*.md", "docs/*.1", "library/mold.h*", "library/rust/src/*", "crates/*/specs/*",
                         "tests/prose-allowed")),
    Part("tests/contracts --check", ("docs/CONTRACTS.md", "crates.txt", "crates/*/src/*", "crates/*/specs/*",
                                     "crates/*/wrong/*", "crates/*/must-fail/*")),
    Part("tests/join", ("mold-join", "crates/mold_words/src/command.rt")),
    # Longer runs with other seeds are not part of the gate.
    Part("tests/repair-network gate 200", (), DRIVER),
    # Kills at random moments, a thousand of them, are not part of the gate.
    Part("tests/durable gate", ("tests/record_writes.c", "examples/read-journal.py"), DRIVER),
    # The ports are chosen by the system.
    Part("tests/devices", (), DRIVER),
)
# Lanes run in parallel; the parts of a lane run one after the other. The parts of the first lane use fixed ports and mostly
# wait. In the second lane, and in tests/repair and tests/options, each process has a separate loopback address.
LANES = (
    (
        over_program("tests/program-checks", "mold", "examples/*", "tests/checks.sh", "tests/table*",
                     "tests/udp-sessions", "tests/model.py", has_fixed_ports=True),
        over_program("tests/library", "library/*", "docs/LIBRARY.md", "install.sh", "mold-join", "tests/udp-sessions",
                     "tests/model.py", crate=LIBRARY, needs_compiler=True),
        Part("tests/python", ("library/build", "library/alloc.c", "library/mold.h", "library/python/*",
                              "library/bench/python", "docs/LIBRARY.md"), LIBRARY),
        over_program("tests/documents " + " ".join(DOCUMENTS), *DOCUMENTS, "examples/*", "library/*", "install.sh",
                     "mold-join", has_fixed_ports=True),
    ),
    (
        over_program("tests/command-cases", "tests/cases*"),
        over_program("tests/out-of-memory --only calls", "examples/*", "tests/inject_faults.c", needs_compiler=True),
        over_program("tests/io-errors", "examples/*", "tests/inject_faults.c", needs_compiler=True),
        over_program("tests/failing-calls", "tests/inject_faults.c", needs_compiler=True),
        over_program("tests/recorded-calls", "tests/record_writes.c", needs_compiler=True),
        over_program("tests/descriptors", "examples/*"),
        over_program("tests/mutations", "examples/packets.*", "tests/table*"),
        # Longer runs with other seeds are not part of the gate.
        over_program("tests/long-run gate 200"),
        # More captures with other seeds are not part of the gate. What tshark reads is left out if it is not installed.
        over_program("tests/captures"),
    ),
    (
        Part("sh tests/launcher", ("mold", "try", "prebuilt/find", "tests/checks.sh")),
        over_program("tests/manual", "docs/*.1", "mold-join", "completions/*"),
        over_program("tests/dist", "dist", "dist.py", "install.sh", "mold-join", "library/*", crate=LIBRARY),
        over_program("tests/install", "install.sh", "mold", "mold-join", "docs/*.1", "completions/*", "LICENSE*",
                     "library/*", "tests/checks.sh"),
        # Longer conditions of the network are not part of the gate.
        over_program("tests/repair"),
        over_program("tests/strangers"),
        over_program("tests/options", "tests/cases/*", "tests/repair", "tests/strangers", "tests/feed", "tests/follow",
                     "tests/program-checks", "tests/recorded-calls", "tests/journal_scenes.py",
                     "tests/captures_worked.py"),
        over_program("tests/feed", "tests/record_writes.c"),
        over_program("tests/long-lines"),
        over_program("tests/day"),
        over_program("tests/follow", "tests/durable", "tests/libraries.py", "tests/model.py",
                     f"crates/{DRIVER}/src/*"),
    ),
)


def parts():
    """All parts except the proofs and the edits, in their order."""
    over_prebuilt = [CHECKSUMS, *WITHOUT_PROGRAM, *(part for lane in LANES for part in lane)]
    return [*over_prebuilt, BUILD_LIBRARY, COMPARE, *AFTER_PROOFS]


def files_read(script):
    """A script of tests/, and all modules that it imports, directly or indirectly."""
    found, new = set(), {script}
    while new:
        found |= new
        new = {module for path in new for module in imported(path)} - found
    return found


def imported(path):
    """The modules of tests/ that a script imports. The list is empty if the script is not a file."""
    if not os.path.isfile(f"{TOP}/{path}"):
        return []
    with open(f"{TOP}/{path}", encoding="utf-8") as file:
        modules = (f"tests/{name}.py" for name in re.findall(r"^import (\w+)(?: as \w+)?$", file.read(), re.M))
        return [it for it in modules if os.path.isfile(f"{TOP}/{it}")]


def is_reader(part, paths):
    """Whether a part reads one of these files: by its patterns, or as its script or an imported module."""
    own = files_read(part.script()) if part.script() else set()
    return any(path in own or any(fnmatch.fnmatch(path, it) for it in part.reads) for path in paths)
