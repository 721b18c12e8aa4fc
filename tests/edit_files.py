"""The files of edits, for tests/edits and tests/contracts."""
import os

import libraries


def read(path):
    with open(path, encoding="utf-8") as file:
        return file.read()


def pairs_of(text):
    """A triple of path, old and new text for each pair of an edit. Raises ValueError for an invalid line."""
    path, old, found = None, None, []
    for line in text.split("\n"):
        if line.startswith("file: "):
            path = line[6:].strip()
        elif line.startswith("old: "):
            old = line[5:]
        elif line.startswith("new:"):
            if not path or not old:
                raise ValueError("a line 'new:' has no 'file:' or 'old:' above it")
            found.append((path, old, line[4:].removeprefix(" ")))
            old = None
        elif line.strip() and not line.startswith("what: "):
            raise ValueError(f"it has an unknown line: {line}")
    if not found or old is not None:
        raise ValueError("it has no complete pair of 'old:' and 'new:'")
    return found


def replaced(path, text, old, new):
    """The text with the old text replaced, which is in it exactly once, or is all of exactly one line."""
    found = text.count(old)
    if found == 1:
        return text.replace(old, new)
    lines = text.split("\n")
    whole = [k for k, line in enumerate(lines) if line.strip() == old.strip()]
    if len(whole) != 1:
        raise ValueError(f"its old text occurs {found} times in {path}, not once")
    lines[whole[0]] = lines[whole[0]].replace(old.strip(), new.strip())
    return "\n".join(lines)


def changed_texts(folder, text):
    """The texts of the changed files before and after the edit, by path."""
    before, after = {}, {}
    for path, old, new in pairs_of(text):
        if os.path.normpath(path) != path or path.split("/")[0] not in libraries.PARTS:
            raise ValueError(f"{path} is not in src, specs or proofs")
        if path not in before:
            before[path] = after[path] = read(f"{folder}/{path}")
        after[path] = replaced(path, after[path], old, new)
    return before, after
