"""Runs a program and compares its outcome with what is expected, for the scripts in this folder. The program's
standard streams are files, so no pipe can fill up."""
import os
import re
import shutil
import subprocess
import tempfile
import threading
from contextlib import contextmanager
from dataclasses import dataclass, field

TOP = os.path.dirname(os.path.dirname(os.path.realpath(__file__)))
# The program that the launcher `mold` has built. The launcher itself is slower, because it examines all sources.
PROGRAM = os.path.join(TOP, "out", "mold")
# The time limit of a program, in seconds. Then it is killed.
PATIENCE = 60
OWN = threading.local()


class Report:
    """Prints a line for each check, and counts what was checked."""

    def __init__(self):
        self.passed = self.failed = 0

    def add(self, name, count, why, text=""):
        """A check of this number of things. It failed if there is a reason why."""
        self.passed += 0 if why else count
        self.failed += bool(why)
        outcome = f"FAILED  {name}: {why}" if why else f"passed  {name}"
        print(f"{outcome}: {text}" if text and not why else outcome, flush=True)

    def end(self):
        """Prints the counts as the last line, and returns the status. To check nothing is a failure."""
        print(f"{self.passed} passed, {self.failed} failed")
        return 0 if self.passed and not self.failed else 1


def built_library(name, folder):
    """Builds tests/NAME.c as a library to preload. Returns its path, or None if there is no C compiler."""
    compiler = next(filter(shutil.which, ("cc", "gcc", "clang")), None)
    if not compiler:
        return None
    library = os.path.join(folder, f"{name}.so")
    source = os.path.join(TOP, "tests", f"{name}.c")
    subprocess.run([compiler, "-O1", "-shared", "-fPIC", "-o", library, source, "-ldl"], check=True)
    return library


@dataclass
class Outcome:
    """The outcome of a call: status, standard output and standard error. After a signal the status is 128 plus its
    number."""

    status: int
    text: bytes
    errors: bytes
    # Other results to compare by name, such as files that the call made.
    made: dict = field(default_factory=dict)


def streams():
    """The three files that serve this thread as standard streams."""
    if not hasattr(OWN, "streams"):
        OWN.streams = [tempfile.TemporaryFile() for _ in range(3)]
    return OWN.streams


def filled(file, some_bytes):
    file.seek(0)
    file.truncate()
    file.write(some_bytes)
    file.flush()
    file.seek(0)


@contextmanager
def running(command, some_bytes=b"", environment=None, descriptors=(), folder=None, output=None):
    """Runs a program with the files of this thread as its streams, and with these descriptors besides. It runs in the
    folder, if one is given, and writes to the output, if one is given. A thread runs one program at a time. The program
    is killed when the context ends, or after PATIENCE seconds."""
    standard_input, own_output, errors = streams()
    for file, content in zip(streams(), (some_bytes, b"", b"")):
        filled(file, content)
    process = subprocess.Popen(command, stdin=standard_input, stdout=own_output if output is None else output,
                               stderr=errors, env=environment, pass_fds=descriptors, cwd=folder)
    watch = threading.Timer(PATIENCE, process.kill)
    watch.start()
    try:
        yield process
    finally:
        watch.cancel()
        process.kill()
        process.wait()


def finish(process):
    """Waits for the program that this thread has started, and returns its outcome."""
    status = process.wait()
    return Outcome(status if status >= 0 else 128 - status, *[read_all(it) for it in streams()[1:]])


def read_all(file):
    file.seek(0)
    return file.read()


def call(command, some_bytes=b"", environment=None):
    with running(command, some_bytes, environment) as process:
        return finish(process)


def differing(what, got, wanted):
    """How two values differ, or None."""
    if got == wanted:
        return None
    if isinstance(got, bytes) and isinstance(wanted, bytes):
        for one, other in zip(got.split(b"\n"), wanted.split(b"\n")):
            if one != other:
                return f"{what} has {one[:300]!r} instead of {other[:300]!r}"
    return f"{what} is {str(got)[:300]}, expected {str(wanted)[:300]}"


def difference(outcome, text, status, *others, wanted_errors=b""):
    """What is wrong with an outcome, or None. The others are triples of a name, the actual and the expected value."""
    compared = [("standard error", outcome.errors, wanted_errors), ("standard output", outcome.text, text)]
    compared += [("the status", outcome.status, status), *others]
    return next(filter(None, (differing(*them) for them in compared)), None)


def content_of(path):
    """The bytes of a file, or None if it does not exist."""
    try:
        with open(path, "rb") as file:
            return file.read()
    except FileNotFoundError:
        return None


def put(path, some_bytes):
    """Writes a file, or removes it if the bytes are None."""
    if some_bytes is not None:
        with open(path, "wb") as file:
            file.write(some_bytes)
    elif os.path.lexists(path):
        os.remove(path)


def put_folder(path, entries):
    """Replaces a folder. The entries are names with bytes, or with None for a subfolder."""
    shutil.rmtree(path, ignore_errors=True)
    os.mkdir(path)
    for name, some_bytes in entries:
        if some_bytes is None:
            os.mkdir(os.path.join(path, name))
        else:
            put(os.path.join(path, name), some_bytes)


def parsed(parser):
    """Parses the arguments of a script. Its option --mold has to name an executable program."""
    parser.add_argument("--mold", default=PROGRAM, metavar="PROGRAM")
    order = parser.parse_args()
    if not os.access(order.mold, os.X_OK):
        parser.error(f"there is no program {order.mold}")
    return order


def peak_memory(process):
    """The peak memory of a process so far, in bytes, or 0 if it has ended."""
    with open(f"/proc/{process.pid}/status", encoding="ascii") as status:
        found = re.search(r"VmHWM:\s*(\d+) kB", status.read())
        return int(found[1]) << 10 if found else 0


def processors():
    return len(os.sched_getaffinity(0))
