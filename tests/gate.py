"""Runs the gate, or the part of it that the changes since a commit affect. tests/run calls this script.

    sh tests/run [--no-proofs | --complete]
    sh tests/run --since COMMIT [--plan]

Without options everything runs. First the checksums of the prebuilt files are compared; if one is wrong, nothing more
runs. Then the parts in tests/parts.py run over the prebuilt files. Then `rt ci` proves everything, what it builds is
compared with the prebuilt files, and the edits are tried. Without the toolchain, or with --no-proofs, the parts that
need it are skipped. With --complete a missing toolchain is a failure, and so is another one that makes other files.

With --since only those parts run that the changes since COMMIT affect, over what is built with kept proofs.
tests/changed.py makes that plan, which does not replace the gate. --plan prints the plan and runs nothing.

The last line is 'N passed, M failed' over all parts, followed by ', K skipped' if K parts were skipped. The status is 0
if nothing failed.
"""
import argparse
import os
import re
import shutil
import subprocess
import sys
import tempfile
import threading
import time
from concurrent.futures import ThreadPoolExecutor

import changed
import parts
import prebuilt_files

COUNTS = re.compile(r"(\d+) passed, (\d+) failed")
# The program that `rt` builds, and the one that the launcher runs. With --since the first is copied to the second.
BUILT = os.path.join(parts.TOP, "crates", parts.PROGRAM, "out", parts.PROGRAM)
PROGRAM = os.path.join(parts.TOP, "out", "mold")


def counts_of(part, last_line, status):
    """How many checks of a part passed and failed. A part that fails or counts no passed check has at least one
    failure."""
    if not part.is_counted:
        return (1, 0) if status == 0 else (0, 1)
    found = COUNTS.fullmatch(last_line)
    passed, failed = map(int, found.groups()) if found else (0, 0)
    is_bad = status != 0 or passed == 0
    return passed, failed or int(is_bad)


class Gate:
    """Runs parts and adds up their counts."""

    def __init__(self):
        self.passed = self.failed = self.skipped = 0
        self.lock = threading.Lock()
        # The time at which the run began, by the clock of the file system, for comparison with the times of files.
        with tempfile.NamedTemporaryFile() as mark:
            self.began = os.stat(mark.name).st_mtime_ns

    def run(self, part, is_parallel=False):
        """Runs a part, and returns whether nothing failed. The output of a parallel part is printed when it ends."""
        began, printed = time.monotonic(), []
        streams = {"stdin": subprocess.DEVNULL, "stdout": subprocess.PIPE, "stderr": subprocess.STDOUT}
        folder, title = os.path.join(parts.TOP, part.folder), f"== {part.described()}\n"
        print("" if is_parallel else title, end="", flush=True)
        try:
            process = subprocess.Popen(part.isolated(), cwd=folder, text=True, errors="replace", **streams)
        except OSError as why:
            self.fail(f"{part.described()}: {why}")
            return False
        for line in process.stdout:
            printed.append(line)
            if not is_parallel:
                print(line, end="", flush=True)
        # `wait4` also returns the processor time of the part, unlike `wait`.
        _, status, used = os.wait4(process.pid, 0)
        process.returncode = os.waitstatus_to_exitcode(status)
        passed, failed = counts_of(part, printed[-1].rstrip("\n") if printed else "", process.returncode)
        with self.lock:
            self.passed, self.failed = self.passed + passed, self.failed + failed
            print("".join([title, *printed]) if is_parallel else "", end="")
            print(f"{'FAILED  ' if failed else ''}{part.described()}: {time.monotonic() - began:.0f} s, "
                  f"{used.ru_utime + used.ru_stime:.0f} processor seconds", flush=True)
        return failed == 0

    def run_all(self, some_parts):
        for part in some_parts:
            self.run(part)

    def run_lanes(self, lanes):
        """Runs lanes in parallel, and the parts of each lane one after the other."""
        with ThreadPoolExecutor(len(lanes) or 1) as pool:
            list(pool.map(self.run_lane, lanes))

    def run_lane(self, lane):
        for part in lane:
            if part.why_skipped():
                self.skip(part, part.why_skipped())
            else:
                self.run(part, is_parallel=True)

    def skip(self, part, why):
        self.skipped += 1
        self.say(f"skipped: {part.described()}, because {why}")

    def fail(self, why):
        with self.lock:
            self.failed += 1
            print(f"FAILED  {why}", flush=True)

    def say(self, text):
        with self.lock:
            print(text, flush=True)

    def is_edited(self):
        """Whether a source of a crate was edited since this run began."""
        files = [os.path.join(parts.TOP, "crates.txt")]
        for at, folders, names in os.walk(os.path.join(parts.TOP, "crates")):
            folders[:] = [it for it in folders if it != "out"]
            files += [os.path.join(at, it) for it in names]
        return any(os.stat(it).st_mtime_ns > self.began for it in files)

    def keep_program(self):
        """Copies the program that `rt` has built to the path that the launcher runs, so that nothing is proved twice.
        Does nothing if a source was edited meanwhile. The copy gets the time at which this run began."""
        if not self.is_edited():
            os.makedirs(os.path.dirname(PROGRAM), exist_ok=True)
            with open(f"{PROGRAM}.new", "wb") as file:
                file.write(prebuilt_files.stripped(prebuilt_files.read(BUILT)))
            os.chmod(f"{PROGRAM}.new", 0o755)
            os.utime(f"{PROGRAM}.new", ns=(self.began, self.began))
            os.replace(f"{PROGRAM}.new", PROGRAM)

    def has_program(self):
        """Whether the launcher runs the program. The launcher builds the program first if it is out of date."""
        command = [os.path.join(parts.TOP, "mold"), "--help"]
        if subprocess.run(command, stdin=subprocess.DEVNULL, stdout=subprocess.DEVNULL).returncode == 0:
            return True
        self.fail("the program could not be built")
        return False

    def run_gate(self, order):
        if not self.run(parts.CHECKSUMS):
            self.say("The rest does not run, because the prebuilt files are not those of the sources.")
            return
        if self.has_program() and self.run(parts.LIBRARIES):
            self.run_lanes([parts.WITHOUT_PROGRAM])
            self.run_lanes(parts.LANES)
        if order.no_proofs or not shutil.which("rt"):
            self.skip_proofs(order)
        else:
            self.run_proofs(order)

    def run_proofs(self, order):
        """Proves everything, compares the prebuilt files with what is built, and tries the edits."""
        is_proved = self.run(parts.RT_CI)
        if self.run(parts.BUILD_AGAIN) and is_proved:
            self.compare(order)
        self.run_lanes([parts.AFTER_PROOFS])
        self.run(parts.EDITS)

    def compare(self, order):
        """Compares the prebuilt files with those that were built, unless another toolchain has made other ones."""
        why = prebuilt_files.why_not_comparable(prebuilt_files.built_files(os.path.join(parts.TOP, parts.BUILT)))
        if not why:
            self.run(parts.COMPARE)
            return
        self.skip(parts.COMPARE, f"nothing can be compared: {why}")
        if order.complete:
            self.fail(f"not compared: {why}")

    def skip_proofs(self, order):
        """Skips the parts that need the toolchain."""
        why = "--no-proofs was given" if order.no_proofs else "the toolchain's rt is not on the PATH"
        for part in (parts.RT_CI, parts.BUILD_AGAIN, parts.COMPARE, *parts.AFTER_PROOFS, parts.EDITS):
            self.skip(part, why)
        if order.complete:
            self.fail(f"nothing was proved or compared, because {why}")
        self.say(f"Nothing was proved, because {why}: the other parts ran over the prebuilt files.")

    def run_plan(self, plan):
        """Runs a plan of tests/changed.py. If a proof or a test fails, the rest is skipped."""
        if not all(self.run(part) for part in (*plan.proofs, *plan.build)):
            self.say("skipped: the rest of the plan, because a proof or a test failed")
            return
        if parts.BUILD in plan.build:
            self.keep_program()
        self.run_all([*plan.edits, *plan.without_program])
        if not plan.runs_program() or self.has_program():
            self.run_lanes(plan.lanes)


def main():
    parser = argparse.ArgumentParser(prog="sh tests/run", description=__doc__,
                                     formatter_class=argparse.RawDescriptionHelpFormatter)
    what = parser.add_mutually_exclusive_group()
    what.add_argument("--since", metavar="COMMIT")
    what.add_argument("--no-proofs", action="store_true")
    what.add_argument("--complete", action="store_true")
    parser.add_argument("--plan", action="store_true")
    order = parser.parse_args()
    if order.plan and not order.since:
        parser.error("--plan needs --since")
    if order.since and not changed.is_commit(order.since):
        parser.error(f"there is no commit {order.since}")
    began, gate = time.monotonic(), Gate()
    if order.since:
        plan = changed.plan_since(order.since)
        print("\n".join(plan.lines()), flush=True)
        if order.plan:
            return 0
        gate.run_plan(plan)
    else:
        gate.run_gate(order)
    used = os.times()
    print(f"total: {time.monotonic() - began:.0f} s, "
          f"{used.children_user + used.children_system:.0f} processor seconds")
    if order.since:
        print("This is not the whole gate. Run `sh tests/run` for that.")
    print(f"{gate.passed} passed, {gate.failed} failed{f', {gate.skipped} skipped' if gate.skipped else ''}")
    return 0 if gate.failed == 0 else 1


if __name__ == "__main__":
    sys.exit(main())
