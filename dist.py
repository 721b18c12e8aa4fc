"""Makes a release, which needs no toolchain, or checks one.

    sh dist [FOLDER]        makes mold-VERSION-linux-x86_64.tar.gz in FOLDER, by default in out/
    sh dist --check FILE    unpacks a release into an empty folder, and runs its programs and examples there

A release is a folder that works wherever it is unpacked. It has the programs mold and mold-join with their man pages
and completions, the library as an archive and as a shared library, its headers and mold.pc, the bindings for Rust and
Python, the examples, the documents and the licences. SHA256SUMS has the checksum of each file. PROVED has the version
of the prover, and the crates of which it has proved every function. The version of a release is that of the program and the library.

The program is the one that ./mold runs, and the library the one that library/build provides. If they were not built from
the present sources, they are proved and built first, which may take an hour and needs the toolchain. The same files make
the same release, byte for byte. The script prints the path, the size and the checksum of
the release.

The check hides this repository and the folder of the toolchain, if the system lets it mount an empty folder over each
of them, and removes the toolchain from the PATH. An example whose compiler is missing is skipped and reported. Its last
line is 'N passed, M failed'.

The status is 0 on success, 1 on failure, and 2 for invalid arguments.
"""
import argparse
import contextlib
import gzip
import hashlib
import os
import re
import shutil
import socket
import subprocess
import sys
import tarfile
import tempfile
import time

TOP = os.path.dirname(os.path.realpath(__file__))
HOST = "127.0.0.1"
# What a release has besides the installed files: each folder with the files and folders of the repository that it gets.
FOLDERS = {
    "examples": ("examples", "library/examples"),
    "rust": ("library/rust",),
    "python": ("library/python",),
    "share/doc/mold": ("README.md", "CHANGELOG.md", "docs"),
}
# The tests of the bindings need other files of the repository, so they are left out.
LEFT_OUT = ("library/rust/tests/", "library/python/tests/")
# The root crates of the program and of the library.
ROOTS = ("mold_cmd", "mold_ffi")
# The environment variable that is set while the toolchain and the repository are hidden.
HIDDEN = "DIST_IS_HIDDEN"
# Runs a command that may mount folders which no other process sees.
NAMESPACE = ("unshare", "--user", "--map-root-user", "--mount")
# The time limit of a program in seconds.
PATIENCE = 300
# The session that the examples receive, and its messages in hexadecimal digits.
SESSION, MESSAGES = "DEMO", [f"{number:04}" for number in range(1001, 1101)]


class Failed(Exception):
    """Something failed, for the given reason."""


def need(holds, why):
    if not holds:
        raise Failed(why)


def run(*command, **how):
    """Runs a program, which has to end with status 0, and returns its standard output."""
    words = [str(it) for it in command]
    done = subprocess.run(words, stdin=subprocess.DEVNULL, stdout=subprocess.PIPE, stderr=subprocess.PIPE, text=True,
                          **how)
    need(done.returncode == 0, f"{' '.join(words)} ended with status {done.returncode}:\n{done.stdout}{done.stderr}")
    return done.stdout


def passed_through(given, *command):
    """The standard output of a program that reads these bytes, or this text."""
    data = given.encode() if isinstance(given, str) else given
    return subprocess.run(command, input=data, stdout=subprocess.PIPE, check=True, timeout=PATIENCE).stdout


def read(path):
    with open(path, encoding="utf-8") as file:
        return file.read()


def write(path, text):
    os.makedirs(os.path.dirname(path), exist_ok=True)
    with open(path, "w", encoding="utf-8") as file:
        file.write(text)


# ---- Making a release ----

def version():
    """The version of the library."""
    return re.search(r'^#define MOLD_LIBRARY_VERSION_TEXT "(.*)"$', read(f"{TOP}/library/mold.h"), re.M)[1]


def crates():
    """The crates that the program and the library consist of, in alphabetical order."""
    lines = re.findall(r"^(\w+)[\w ]*:(.*)$", read(f"{TOP}/crates.txt"), re.M)
    uses = {name: used.split() for name, used in lines}
    found = list(ROOTS)
    for name in found:
        found += [it for it in uses[name] if it in uses and it not in found]
    return sorted(found)


def prover():
    """The version of the prover: that of the prebuilt files, if they were built from the present sources."""
    if subprocess.run(["sh", f"{TOP}/prebuilt/find", "mold"], stdout=subprocess.DEVNULL).returncode == 0:
        return re.search("^prover: (.*)$", read(f"{TOP}/prebuilt/linux-x86_64/PROVED"), re.M)[1]
    return run("rt", "version").strip()


def proved():
    """The text of the file PROVED."""
    commit = run("git", "-C", TOP, "rev-parse", "HEAD").strip()
    head = (f"The program and the library consist of the crates below. The prover has proved every function of them.\n"
            f"prover: {prover()}\ncommit: {commit}\n")
    return head + "".join(f"crate: {name}\n" for name in crates())


def copy_files(release):
    """Copies the files of FOLDERS that git knows. Each keeps its path below the folder that is listed there."""
    for target, source in ((target, source) for target, sources in FOLDERS.items() for source in sources):
        for path in run("git", "-C", TOP, "ls-files", "--", source).splitlines():
            if not path.startswith(LEFT_OUT):
                below = os.path.basename(path) if path == source else os.path.relpath(path, source)
                made = os.path.join(release, target, below)
                os.makedirs(os.path.dirname(made), exist_ok=True)
                shutil.copy(os.path.join(TOP, path), made)


def make_relocatable(release):
    """Removes what an installation has for its own place: its list, and the prefix in mold.pc."""
    os.remove(f"{release}/share/doc/mold/installed")
    path = f"{release}/lib/pkgconfig/mold.pc"
    write(path, re.sub(r"^prefix=.*$", "prefix=${pcfiledir}/../..", read(path), flags=re.M))


def files_below(folder):
    """The paths of all files below a folder, in alphabetical order."""
    return sorted(os.path.relpath(os.path.join(at, name), folder) for at, _, names in os.walk(folder) for name in names)


def checksum(path):
    with open(path, "rb") as file:
        return hashlib.sha256(file.read()).hexdigest()


def pack(release, made):
    """Packs a release. The owner and the times of its files are left out."""
    def plain(entry):
        entry.uid = entry.gid = entry.mtime = 0
        entry.uname = entry.gname = ""
        return entry

    with open(made, "wb") as file, gzip.GzipFile("", "wb", 9, file, mtime=0) as packed, \
            tarfile.open(fileobj=packed, mode="w") as archive:
        for path in files_below(release):
            archive.add(os.path.join(release, path), os.path.join(os.path.basename(release), path), filter=plain)


def make(folder):
    """Makes a release in a folder, and prints its path, size and checksum."""
    name = f"mold-{version()}-linux-x86_64"
    os.makedirs(folder, exist_ok=True)
    with tempfile.TemporaryDirectory() as room:
        release, made = f"{room}/{name}", f"{folder}/{name}.tar.gz"
        run("sh", f"{TOP}/install.sh", "--library", "--prefix", release)
        copy_files(release)
        make_relocatable(release)
        write(f"{release}/PROVED", proved())
        sums = "".join(f"{checksum(os.path.join(release, path))}  {path}\n" for path in files_below(release))
        write(f"{release}/SHA256SUMS", sums)
        pack(release, f"{made}.new")
        os.replace(f"{made}.new", made)
    print(f"{made} {os.stat(made).st_size} bytes sha256 {checksum(made)}")


# ---- Checking a release ----

def toolchain():
    """The folder of the toolchain, if it is one that can be hidden."""
    rt = shutil.which("rt")
    folder = os.path.dirname(os.path.dirname(os.path.realpath(rt))) if rt else "/"
    return None if folder in ("/", "/usr", "/usr/local") else folder


def path_without_toolchain():
    folders = os.environ["PATH"].split(os.pathsep)
    return os.pathsep.join(it for it in folders if not os.access(os.path.join(it, "rt"), os.X_OK))


def can_mount():
    """Whether the system lets this process mount an empty folder over another one."""
    try:
        command = [*NAMESPACE, "mount", "-t", "tmpfs", "none", TOP]
        return subprocess.run(command, stderr=subprocess.DEVNULL, check=False).returncode == 0
    except OSError:
        return False


def check(file):
    """Unpacks a release, and checks it in a process that does not see the repository and the toolchain."""
    with tempfile.TemporaryDirectory() as room:
        with tarfile.open(file) as archive:
            archive.extractall(room)
        release = os.path.join(room, *os.listdir(room))
        script = shutil.copy(os.path.realpath(__file__), room)
        command = [sys.executable, script, "--check", release]
        if can_mount():
            hidden = " && ".join(f"mount -t tmpfs none '{it}'" for it in (TOP, toolchain()) if it)
            command = [*NAMESPACE, "sh", "-c", f'{hidden} && exec "$@"', "sh", *command]
        else:
            print("the repository and the toolchain are only removed from the PATH")
        how = {**os.environ, "PATH": path_without_toolchain(), HIDDEN: "1"}
        return subprocess.run(command, cwd=room, env=how, check=False).returncode


def checksums(release):
    """Each file has its checksum, and no file is missing."""
    stated = dict(reversed(line.split("  ", 1)) for line in read(f"{release}/SHA256SUMS").splitlines())
    there = set(files_below(release)) - {"SHA256SUMS"}
    need(there == set(stated), f"files without a checksum, or missing: {there ^ set(stated)}")
    wrong = [path for path in stated if checksum(os.path.join(release, path)) != stated[path]]
    need(not wrong, f"wrong checksums: {wrong}")


def no_toolchain(release):
    """Neither the toolchain nor a path of the machine that made the release is there."""
    need(shutil.which("rt") is None, "the toolchain is on the PATH")
    need("prefix=${pcfiledir}" in read(f"{release}/lib/pkgconfig/mold.pc"), "mold.pc has an absolute path")


def program(release):
    """`mold` prints a packet and the version of the release, and mold-join becomes `mold`."""
    shown = passed_through("53455353494f4e30303100000000000000010000\n", f"{release}/bin/mold", "show")
    need(shown == b"heartbeat 53455353494f4e303031 1\n", f"mold show printed {shown}")
    joined = run(f"{release}/bin/mold-join", "--a", "239.192.1.1:26477", "--interface-a", HOST, "--", "--version")
    printed = run(f"{release}/bin/mold", "--version")
    need(joined == printed, f"mold-join printed {joined}")
    need(os.path.basename(release).startswith(f"mold-{printed.split()[-1]}-"), f"{release} has {printed}")


def free_ports(count):
    """Ports that are free now, and differ."""
    with contextlib.ExitStack() as open_sockets:
        found = [open_sockets.enter_context(socket.socket(socket.AF_INET, socket.SOCK_DGRAM)) for _ in range(count)]
        for made in found:
            made.bind((HOST, 0))
        return [made.getsockname()[1] for made in found]


def await_ports(handler, ports):
    """Waits until a handler uses these ports."""
    wanted, end = {f":{port:04X}" for port in ports}, time.monotonic() + PATIENCE
    while wanted:
        need(handler.poll() is None and time.monotonic() < end, "the handler does not use its ports")
        time.sleep(0.01)
        table = read("/proc/net/udp")
        wanted = {it for it in wanted if f"{it} " not in table}


def publish(release, room, a, b, server):
    """Publishes the session on two lines. `mold serve` then responds to requests until it is killed."""
    write(f"{room}/messages", "\n".join(MESSAGES) + "\n")
    with open(f"{room}/messages", encoding="ascii") as lines:
        subprocess.run([f"{release}/bin/mold", "publish", "--session", SESSION, "--a", f"{HOST}:{a}", "--b",
                        f"{HOST}:{b}", "--journal", f"{room}/journal", "--ends", "3"], stdin=lines,
                       stdout=subprocess.DEVNULL, timeout=PATIENCE, check=True)
    return subprocess.Popen([f"{release}/bin/mold", "serve", "--journal", f"{room}/journal", "--bind",
                             f"{HOST}:{server}", "--turns", "1000"], stdout=subprocess.DEVNULL)


def receives(release, room, *command):
    """Runs a handler until it has received a session, and returns the lines that it prints. In its arguments, A, B and
    SERVER stand for addresses, and PORT_A, PORT_B and PORT_SERVER for their ports."""
    ports = a, b, server = free_ports(3)
    places = {"A": f"{HOST}:{a}", "B": f"{HOST}:{b}", "SERVER": f"{HOST}:{server}"}
    places |= {f"PORT_{name}": str(port) for name, port in zip(places, ports)}
    words = [re.sub(r"\b(PORT_)?(A|B|SERVER)\b", lambda found: places[found[0]], it) for it in command]
    how = {"stdin": subprocess.DEVNULL, "stdout": subprocess.PIPE, "text": True}
    with subprocess.Popen(words, **how) as handler, contextlib.ExitStack() as at_the_end:
        at_the_end.callback(handler.kill)
        await_ports(handler, [a, b])
        serving = at_the_end.enter_context(publish(release, room, a, b, server))
        at_the_end.callback(serving.kill)
        printed = handler.communicate(timeout=PATIENCE)[0].splitlines()
    need(handler.returncode == 0, f"{words[0]} ended with status {handler.returncode}")
    return printed


def built(release, room, compiler, name, *options):
    """Compiles an example with the flags of mold.pc, as far as pkg-config is there."""
    flags = [f"-I{release}/include", f"-L{release}/lib", "-l:libmold.a"]
    if shutil.which("pkg-config"):
        flags = run("pkg-config", "--cflags", "--libs", f"{release}/lib/pkgconfig/mold.pc").split()
    made = f"{room}/{name.replace('.', '-')}"
    run(compiler, "-O2", *options, f"{release}/examples/{name}", *flags, f"-Wl,-rpath,{release}/lib", "-o", made)
    return made


def numbered(printed):
    """The printed messages, without their numbers, and without the lines that do not begin with a number."""
    return [line.split(" ")[1] for line in printed if line[:1].isdigit()]


def c_example(release, room):
    """The handler in C prints all messages."""
    made = built(release, room, shutil.which("cc") or "gcc", "handler.c")
    printed = receives(release, room, made, "--session", SESSION, "--a", "A", "--b", "B", "--server", "SERVER")
    need(numbered(printed) == MESSAGES, f"the handler printed {printed[-5:]}")


def cpp_example(release, room):
    """The handler for several channels, in C++, writes all messages of its one channel."""
    made = built(release, room, shutil.which("c++") or "g++", "channels.cpp", "-std=c++20")
    output = f"{room}/received"
    receives(release, room, made, "--output", output, f"{SESSION},A,B,SERVER")
    got = [line.split(" ")[2] for line in read(output).splitlines()]
    need(got == MESSAGES, f"the handler wrote {got[-5:]}")


def rust_example(release, room):
    """The handler in Rust prints all messages."""
    run("cargo", "build", "--offline", "--quiet", "--release", "--example", "handler", "--target-dir", f"{room}/target",
        cwd=f"{release}/rust")
    made = f"{room}/target/release/examples/handler"
    need(numbered(receives(release, room, made, SESSION, "A", "B", "SERVER")) == MESSAGES, "a message is missing")


def python_example(release, room):
    """The handler in Python prints all messages."""
    printed = receives(release, room, "env", f"PYTHONPATH={release}/python", sys.executable,
                       f"{release}/python/examples/receive.py", SESSION, "PORT_A", "PORT_B", "PORT_SERVER")
    need(numbered(printed) == MESSAGES, f"the handler printed {printed[-5:]}")


def captured_example(release):
    """A script in Python prints the messages of a capture."""
    packets = passed_through("\n".join(MESSAGES) + "\n", f"{release}/bin/mold", "pack", "--session", SESSION)
    capture = passed_through(packets, sys.executable, f"{release}/examples/write-capture.py", "239.192.1.1:26477")
    with tempfile.NamedTemporaryFile(suffix=".pcap") as file:
        file.write(capture)
        file.flush()
        printed = run("env", f"PYTHONPATH={release}/python", sys.executable, f"{release}/python/examples/messages.py",
                      file.name)
    need(numbered(printed.splitlines()) == MESSAGES, f"the script printed {printed[-100:]}")


CHECKS = (
    ((), checksums),
    ((), no_toolchain),
    ((), program),
    (("cc", "gcc"), c_example),
    (("c++", "g++"), cpp_example),
    (("cargo",), rust_example),
    ((), python_example),
    ((), captured_example),
)


def check_here(release):
    """Runs all checks of an unpacked release. Returns the exit status."""
    passed = failed = 0
    for compilers, one in CHECKS:
        title = one.__doc__.splitlines()[0]
        if compilers and not any(map(shutil.which, compilers)):
            print(f"skipped, because {compilers[0]} is missing: {title}")
            continue
        with tempfile.TemporaryDirectory() as room:
            arguments = (release, room) if one.__code__.co_argcount == 2 else (release,)
            try:
                one(*arguments)
                passed += 1
                print(f"ok      {title}", flush=True)
            except (Failed, OSError, subprocess.SubprocessError) as why:
                failed += 1
                print(f"FAILED  {title}\n{why}", flush=True)
    print(f"{passed} passed, {failed} failed")
    return 1 if failed else 0


def main():
    parser = argparse.ArgumentParser(prog="sh dist", usage="sh dist [FOLDER] | sh dist --check FILE")
    parser.add_argument("--check", metavar="FILE")
    parser.add_argument("folder", nargs="?", default=os.path.join(TOP, "out"))
    order = parser.parse_args()
    try:
        if order.check:
            return check_here(order.check) if HIDDEN in os.environ else check(order.check)
        make(order.folder)
        return 0
    except (Failed, OSError, tarfile.TarError) as why:
        print(f"dist: {why}", file=sys.stderr)
        return 1


if __name__ == "__main__":
    sys.exit(main())
