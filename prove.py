"""Proves everything that the program and the libraries consist of, and builds them.

    sh prove [--jobs N] [--memory GB]             compares what it built with the files in prebuilt/
    sh prove --update [--jobs N] [--memory GB]    replaces the files in prebuilt/ by what it built
    sh prove --build FILE [..]                    builds out/proved/FILE: mold, drive_tests or libmold_ffi.a

Without --build nothing is reused that an earlier run proved: everything is built in out/prove, which is removed in the
end. With --build each proved library is kept in the folder out/rlib of its crate, and a crate is proved only if its
sources, or those of a crate below, have changed since. In both cases the prover loads its own standard library without
proving it again.

A separate process proves each crate, after the crates that it uses: up to N at a time, and as many as fit in the free
memory, or in GB gigabytes. Standard output has a line for each proved crate. The status is 0 if all is proved and equal,
1 if not, and 2 for invalid arguments. Files of another toolchain are not compared if this one makes other files.
"""
import argparse
import contextlib
import fcntl
import os
import shutil
import signal
import subprocess
import sys
import time
from dataclasses import dataclass

TOP = os.path.dirname(os.path.realpath(__file__))
sys.path.insert(0, os.path.join(TOP, "tests"))
sys.dont_write_bytecode = True

import libraries
import prebuilt_files

# The file that is built of each crate at the top, and of which crate. The library's archive still lacks alloc.c.
ROOTS = {**prebuilt_files.PROGRAMS, "libmold_ffi.a": prebuilt_files.LIBRARY}
# The folder for what --build makes, and the one for what the other calls make.
KEPT, FRESH = os.path.join(TOP, "out", "proved"), os.path.join(TOP, "out", "prove")
# The memory that a process may need, in bytes: most need less than 2.4 GB, and mold_cmd 4.0 GB.
NEED, NEED_OF = 2_400_000_000, {"mold_cmd": 4_200_000_000}
# What a verdict may take on trust: what the toolchain has proved, and what this script has.
TRUSTED = {"logic-built", "libraries-built", "statements"}
# Words of a verdict on a crate that may break off, or calls code in C of its own.
REFUSED = {"bugs", "foreign", "hides", "may-abort", "partial"}
# How many lines of the prover's output are printed if it fails.
LAST = 20


class Failed(Exception):
    """Something was not proved or not built, for the given reason."""


@dataclass
class Running:
    """A process that proves a crate."""

    process: subprocess.Popen
    crate: str
    began: float


def files_of(crate):
    """The files of a crate that the prover reads, in a fixed order."""
    folders = [f"{TOP}/crates/{crate}/{part}" for part in libraries.PARTS]
    found = (os.path.join(at, it) for folder in folders for at, _, names in os.walk(folder) for it in names)
    return sorted(it for it in found if it.endswith((".rt", ".antt")))


def why_refused(crate, said):
    """Why a verdict of the prover does not count, or None."""
    verdict = next((line for line in reversed(said.splitlines()) if line.startswith("logic=")), "")
    words = dict(it.partition("=")[::2] for it in verdict.split())
    if words.get("logic") != "proved":
        return f"{crate} was not proved"
    wrong = {it for it, value in words.items() if value == "trusted" and it not in TRUSTED} | REFUSED & set(words)
    return f"the verdict on {crate} does not count, because it has {', '.join(sorted(wrong))}" if wrong else None


class Stamps(dict):
    """For each crate a checksum of the toolchain, of the crate's sources, and of those of the crates below it."""

    def __init__(self, crates):
        self.crates, self.toolchain = crates, prebuilt_files.toolchain()
        super().__init__()

    def __missing__(self, crate):
        texts = [self.toolchain, *self.crates[crate], *(self[it] for it in self.crates[crate] if it in self.crates)]
        for path in files_of(crate):
            texts += [os.path.relpath(path, TOP), prebuilt_files.checksum(prebuilt_files.read(path))]
        self[crate] = prebuilt_files.checksum("\n".join(texts).encode())
        return self[crate]


class Proofs:
    """Proves crates. What is built of them is in a folder. If it is kept, each library is in the folder of its crate."""

    def __init__(self, folder, order, is_kept=False):
        self.folder, self.jobs, self.memory, self.is_kept = folder, order.jobs, order.memory, is_kept
        self.crates = libraries.crates_in(TOP)
        self.stamps, self.running, self.built, self.proved = Stamps(self.crates), {}, set(), 0
        self.began = time.monotonic()

    def built_path(self, crate):
        root = next((name for name, it in ROOTS.items() if it == crate), None)
        folder = f"{TOP}/crates/{crate}/out/rlib" if self.is_kept and not root else self.folder
        return os.path.join(folder, root or f"{crate}.rlib")

    def is_built(self, crate):
        """Whether an earlier run has proved and built the crate."""
        stamp = self.built_path(crate) + ".stamp"
        return self.is_kept and os.path.exists(self.built_path(crate)) and os.path.exists(stamp) and \
            prebuilt_files.read(stamp).decode() == self.stamps[crate]

    def command(self, crate):
        words = libraries.words("build", TOP, self.crates, crate, self.built_path)
        if crate not in ROOTS.values():
            return [*words, "--statements", "-o", self.built_path(crate)]
        words += ["--crate-type", "staticlib"] if crate == prebuilt_files.LIBRARY else ["--backend", "llvm"]
        made = self.built_path(crate) + (".o" if crate in prebuilt_files.PROGRAMS.values() else "")
        return [*words, "--toolchain", f"{libraries.KIT}/toolchain", "-o", made]

    def log(self, crate):
        return os.path.join(self.folder, f"{crate}.log")

    def start(self, crate):
        built = self.built_path(crate)
        if self.is_kept and crate not in ROOTS.values():
            # Also removes what `rt` has kept of another version of the library.
            shutil.rmtree(os.path.dirname(built), ignore_errors=True)
            os.makedirs(os.path.dirname(built))
        with contextlib.suppress(FileNotFoundError):
            os.remove(f"{built}.stamp")
        with open(self.log(crate), "wb") as log:
            process = subprocess.Popen(self.command(crate), cwd=f"{TOP}/crates/{crate}", stdin=subprocess.DEVNULL,
                                       stdout=log, stderr=subprocess.STDOUT)
        self.running[process.pid] = Running(process, crate, time.monotonic())

    def fits(self, crate):
        """Whether the memory is enough for one more process."""
        needed = sum(NEED_OF.get(it, NEED) for it in [crate, *(it.crate for it in self.running.values())])
        return not self.running or needed <= self.memory

    def finish(self, names):
        """Waits until a process has ended, and checks its verdict."""
        pid, status, used = os.wait4(-1, 0)
        ended = self.running.pop(pid)
        ended.process.returncode = os.waitstatus_to_exitcode(status)
        said = prebuilt_files.read(self.log(ended.crate)).decode(errors="replace")
        why = why_refused(ended.crate, said) or (ended.process.returncode and f"{ended.crate} was not built")
        if why:
            print("\n".join(said.splitlines()[-LAST:]))
            raise Failed(f"{why} (status {ended.process.returncode})")
        if Stamps(self.crates)[ended.crate] != self.stamps[ended.crate]:
            raise Failed(f"{ended.crate} does not count as proved, because its sources changed meanwhile")
        if ended.crate in prebuilt_files.PROGRAMS.values():
            self.link(ended.crate)
        with open(self.built_path(ended.crate) + ".stamp", "w", encoding="utf-8") as file:
            file.write(self.stamps[ended.crate])
        self.built.add(ended.crate)
        self.proved += 1
        print(f"{self.proved} of {len(names)} crates after {(time.monotonic() - self.began) / 60:.0f} minutes: "
              f"{ended.crate} ({time.monotonic() - ended.began:.0f} s, {used.ru_utime + used.ru_stime:.0f} processor "
              f"seconds, {used.ru_maxrss / 1000:.0f} MB)", flush=True)

    def link(self, crate):
        """Links a program, and removes its table of symbols."""
        program = self.built_path(crate)
        kit, target = libraries.KIT, ["--target", "x86_64-unknown-linux-gnu"]
        words = [f"{kit}/bin/rattle-link", *target, "--toolchain", f"{kit}/toolchain", "-o", f"{program}.linked",
                 f"{program}.o", f"{kit}/c/libos_c.a", f"{kit}/c/liblibc_c.a"]
        how = {"stdin": subprocess.DEVNULL, "stdout": subprocess.PIPE, "stderr": subprocess.STDOUT}
        done = subprocess.run(words, text=True, **how)
        if done.returncode:
            raise Failed(f"{crate} was not linked:\n{done.stdout}")
        with open(program, "wb") as file:
            file.write(prebuilt_files.stripped(prebuilt_files.read(f"{program}.linked")))
        os.chmod(program, 0o755)

    def longest_first(self, names):
        """The crates in an order of decreasing work on the way from each of them to the top."""
        work = {name: sum(os.path.getsize(it) for it in files_of(name)) for name in names}
        above = {name: [it for it in names if name in self.crates[it]] for name in names}
        total = {}

        def total_of(name):
            if name not in total:
                total[name] = work[name] + max(map(total_of, above[name]), default=0)
            return total[name]

        return sorted(names, key=total_of, reverse=True)

    def prove(self, roots):
        """Proves and builds these crates and all below them. Fails as soon as a crate fails."""
        every = dict.fromkeys(it for root in roots for it in [*libraries.below(self.crates, root), root])
        # Before the first proof, so that each crate's stamp is that of the libraries over which it is proved.
        self.built |= {it for it in every if self.is_built(it)}
        names = [it for it in every if self.stamps[it] and it not in self.built]
        if names:
            print(f"proving {len(names)} of {len(every)} crates, up to {self.jobs} at a time", flush=True)
        waiting = self.longest_first(names)
        try:
            while waiting or self.running:
                ready = [it for it in waiting if not set(self.crates[it]) & set(self.crates) - self.built]
                for crate in ready:
                    if len(self.running) < self.jobs and self.fits(crate):
                        waiting.remove(crate)
                        self.start(crate)
                self.finish(names)
        finally:
            for it in self.running.values():
                it.process.kill()
                it.process.wait()
        return len(every)

    def library(self):
        """Makes both libraries from the archive of mold_ffi."""
        made = os.path.join(self.folder, "library")
        done = subprocess.run(["sh", f"{TOP}/library/build", self.built_path(prebuilt_files.LIBRARY), made],
                              stdin=subprocess.DEVNULL, stdout=subprocess.DEVNULL)
        if done.returncode:
            raise Failed("the libraries were not built")
        return {name: prebuilt_files.read(os.path.join(made, name)) for name in prebuilt_files.LIBRARIES}


@contextlib.contextmanager
def only_one_run():
    """Waits until no other call of this script proves."""
    os.makedirs(os.path.join(TOP, "out"), exist_ok=True)
    with open(os.path.join(TOP, "out", "prove.lock"), "w", encoding="utf-8") as lock:
        fcntl.flock(lock, fcntl.LOCK_EX)
        yield


def interrupt(*_):
    raise KeyboardInterrupt


def prove_all(order):
    """Proves and builds everything in an empty folder, and compares the files or replaces them."""
    sources, proofs = prebuilt_files.sources(), Proofs(FRESH, order)
    with only_one_run():
        shutil.rmtree(FRESH, ignore_errors=True)
        os.makedirs(FRESH)
        try:
            every = proofs.prove(ROOTS.values())
            made = {name: prebuilt_files.read(proofs.built_path(it)) for name, it in prebuilt_files.PROGRAMS.items()}
            made |= proofs.library()
        finally:
            shutil.rmtree(FRESH)
    print(f"{proofs.proved} of {every} crates were proved in this run")
    if prebuilt_files.sources() != sources:
        raise Failed("nothing is compared, because the sources changed meanwhile")
    if order.update:
        prebuilt_files.write(made)
        print(f"replaced: {' '.join(prebuilt_files.NAMES)}")
        return
    why, differing = prebuilt_files.why_not_comparable(made), prebuilt_files.differences(made)
    if why:
        print(f"not compared: {why}")
    else:
        for name, is_other in differing.items():
            print(f"{'different' if is_other else 'equal'}: {name}")
        if any(differing.values()):
            raise Failed("the prebuilt files are not those that were built from these sources")


def build(order):
    """Builds one file over what earlier calls have proved."""
    with only_one_run():
        os.makedirs(KEPT, exist_ok=True)
        Proofs(KEPT, order, is_kept=True).prove([ROOTS[order.build]])


def free_memory():
    """The free memory in bytes."""
    with open("/proc/meminfo", encoding="ascii") as file:
        [found] = [line.split()[1] for line in file if line.startswith("MemAvailable:")]
    return int(found) * 1024


def main():
    parser = argparse.ArgumentParser(prog="sh prove", description=__doc__,
                                     formatter_class=argparse.RawDescriptionHelpFormatter)
    what = parser.add_mutually_exclusive_group()
    what.add_argument("--update", action="store_true")
    what.add_argument("--build", choices=sorted(ROOTS))
    parser.add_argument("--jobs", type=int, default=len(os.sched_getaffinity(0)), metavar="N")
    parser.add_argument("--memory", type=float, default=free_memory() / 1e9, metavar="GB")
    order = parser.parse_args()
    order.memory *= 1e9
    if shutil.which("rt") is None:
        print("prove: the toolchain's rt is not on the PATH", file=sys.stderr)
        return 1
    for it in (signal.SIGHUP, signal.SIGTERM):
        signal.signal(it, interrupt)
    try:
        build(order) if order.build else prove_all(order)
    except (Failed, KeyboardInterrupt) as why:
        print(f"prove: {str(why) or 'interrupted'}", file=sys.stderr)
        return 1
    return 0


if __name__ == "__main__":
    sys.exit(main())
