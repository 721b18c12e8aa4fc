"""Plans the proofs, tests, edits and parts of the gate that a change affects.

A commit is compared with the current files, committed or not. A crate is changed if one of its files or its line in
crates.txt differs. A crate is affected if it is changed or uses an affected crate. `tests/run --since COMMIT` runs the
plan; with --plan it only prints the plan.
"""
import dataclasses
import glob
import os
import re
import subprocess

import parts

# The folders of a crate that contain its edits.
WRONG, MUST_FAIL = "wrong/", "must-fail/"
# What builds each root crate, if it is affected.
ROOTS = ((parts.BUILD, parts.PROGRAM), (parts.BUILD_DRIVER, parts.DRIVER), (parts.BUILD_LIBRARY, parts.LIBRARY))


def git(*arguments):
    return subprocess.run(["git", *arguments], cwd=parts.TOP, stdout=subprocess.PIPE, text=True, check=True).stdout


def is_commit(name):
    command = ["git", "rev-parse", "--quiet", "--verify", f"{name}^{{commit}}"]
    return subprocess.run(command, cwd=parts.TOP, stdout=subprocess.DEVNULL).returncode == 0


def crates_in(text):
    """Each crate of a crates.txt with the crates that it uses, in the order of the file."""
    lines = (line.split("#")[0].strip() for line in text.split("\n"))
    named = (line.partition(":") for line in lines if ":" in line)
    return {name.split()[0]: uses.split() for name, _, uses in named}


def changed_files(commit):
    """The files that differ from the commit, whether the change is committed or not, and untracked files."""
    changed = git("diff", "--name-only", "--no-renames", "-z", commit)
    new = git("ls-files", "--others", "--exclude-standard", "-z")
    return sorted(set(filter(None, (changed + new).split("\0"))))


def changed_lines(commit, crates):
    """The crates whose line in crates.txt differs from the commit."""
    listed = git("ls-tree", "--name-only", commit, "crates.txt")
    before = crates_in(git("show", f"{commit}:crates.txt")) if listed else {}
    return {name for name, uses in crates.items() if before.get(name) != uses}


def crate_of(path):
    """The crate that contains a file, or the empty string, and the path of the file in the crate."""
    found = re.match(r"crates/([^/]+)/(.*)", path)
    return (found[1], found[2]) if found else ("", path)


def in_order(crates, names):
    return [name for name in crates if name in names]


def affected(crates, changed):
    """The changed crates and all crates that use them, in the order of crates.txt."""
    found = set(changed)
    for name, uses in crates.items():
        if found & set(uses):
            found.add(name)
    return in_order(crates, found)


def has_files(crate, pattern):
    return bool(glob.glob(f"{parts.TOP}/crates/{crate}/{pattern}"))


def has_tests(crate):
    for path in glob.glob(f"{parts.TOP}/crates/{crate}/src/**/*.rt", recursive=True):
        with open(path, encoding="utf-8") as file:
            if "#[test]" in file.read():
                return True
    return False


def proofs(names, checked):
    """The proofs of the crates `checked`, and the tests of those in `names`. `rt test` also proves a test crate."""
    for name in checked:
        is_of_tests = name.startswith("test_")
        if not is_of_tests:
            yield parts.Part("rt check", folder=f"crates/{name}", is_counted=False)
        if name in names and (is_of_tests or has_tests(name)):
            yield parts.Part("rt test", folder=f"crates/{name}", is_counted=False)


def edits(with_must_fail, with_wrong):
    """The edits in `must-fail` of some crates, each of which costs a check, and the edits in `wrong` of others."""
    names = [name for name in with_must_fail if has_files(name, "must-fail/*.edit")]
    if names:
        yield parts.Part(f"rt must-fail {' '.join(names)}")
    names = [name for name in with_wrong if has_files(name, "wrong/*.edit")]
    if names:
        yield parts.Part(f"{parts.EDITS.command} {' '.join(names)}")


def narrowed(part, names):
    """The part, limited to the tests of affected crates, since the test programs of the others may not be built."""
    if not part.command.startswith("tests/out-of-memory --only tests"):
        return part
    tests = ",".join(name for name in names if name.startswith("test_")) or "none"
    return dataclasses.replace(part, command=f"{part.command} --test-crates {tests}")


@dataclasses.dataclass
class Plan:
    """The parts to run, in this order, and the changed files that no part reads."""

    proofs: list
    build: list
    edits: list
    without_program: list
    lanes: list
    unread: list

    def runs_program(self):
        return any(part.runs_program for lane in self.lanes for part in lane)

    def lines(self):
        """A line for each part, and one for each file that no part reads."""
        single = [*self.proofs, *self.build, *self.edits, *self.without_program]
        lines = [described(part) for part in (*single, *(part for lane in self.lanes for part in lane))]
        return ["To run:", *lines, *(f"  no part reads {path}" for path in self.unread)]


def described(part):
    count = count_of_edits(part) if part.command.startswith(parts.EDITS.command) else 0
    return f"  {part.described()}{f', {count} edits' if count else ''}"


def count_of_edits(part):
    return sum(len(glob.glob(f"{parts.TOP}/crates/{name}/wrong/*.edit")) for name in part.arguments())


def plan(crates, paths, lines):
    """The plan for changed files. `lines` are the crates whose line in crates.txt changed."""
    inside = [(name, path) for name, path in map(crate_of, paths) if name in crates]
    code = lines | {name for name, path in inside if not path.startswith((WRONG, MUST_FAIL))}
    names = affected(crates, code)
    with_wrong = in_order(crates, {*names, *(name for name, path in inside if path.startswith(WRONG))})
    with_must_fail = in_order(crates, code | {name for name, path in inside if path.startswith(MUST_FAIL)})

    def needed(some_parts):
        return [narrowed(it, names) for it in some_parts if it.crate in names or parts.is_reader(it, paths)]

    return Plan(
        list(proofs(names, in_order(crates, {*with_wrong, *with_must_fail}))),
        [it for it, root in ROOTS if root in names],
        list(edits(with_must_fail, with_wrong)),
        needed((parts.CHECKSUMS, *parts.WITHOUT_PROGRAM)),
        [lane for lane in map(needed, (*parts.LANES, parts.AFTER_PROOFS)) if lane],
        [path for path in paths if is_unread(crates, path)],
    )


def is_unread(crates, path):
    is_known = crate_of(path)[0] in crates or path == "crates.txt"
    return not is_known and not any(parts.is_reader(part, [path]) for part in parts.parts())


def plan_since(commit):
    """The plan for the changes since a commit."""
    with open(f"{parts.TOP}/crates.txt", encoding="utf-8") as file:
        crates = crates_in(file.read())
    return plan(crates, changed_files(commit), changed_lines(commit, crates))
