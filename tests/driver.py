"""Finds the program drive_tests, for the scripts that run it."""
import os
import subprocess

import libraries
import parts

# The program that `rt` builds, and the one that prove.py builds.
BUILT = os.path.join(parts.TOP, "crates", parts.DRIVER, "out", parts.DRIVER)
PROVED = os.path.join(parts.TOP, "out", "proved", parts.DRIVER)


def is_current():
    """Whether the program that `rt` has built is newer than its sources."""
    crates = libraries.crates_in(parts.TOP)
    names = [*libraries.below(crates, parts.DRIVER), parts.DRIVER]
    folders = [f"{parts.TOP}/crates/{name}/{part}" for name in names for part in ("src", "specs")]
    files = [f"{at}/{it}" for folder in folders for at, _, found in os.walk(folder) for it in found]
    return os.path.exists(BUILT) and max(map(os.path.getmtime, files)) < os.path.getmtime(BUILT)


def program():
    """The path of the program: the prebuilt one if it was built from the present sources, otherwise the one that `rt`
    has built, and otherwise one that is proved and built now. None if that fails, which is then reported."""
    finding = ["sh", os.path.join(parts.TOP, "prebuilt", "find"), parts.DRIVER]
    found = subprocess.run(finding, stdin=subprocess.DEVNULL, stdout=subprocess.PIPE, text=True)
    if found.returncode == 0:
        return found.stdout.rstrip("\n")
    if is_current():
        return BUILT
    building = ["sh", os.path.join(parts.TOP, "prove"), "--build", parts.DRIVER]
    return PROVED if subprocess.run(building, stdin=subprocess.DEVNULL).returncode == 0 else None
