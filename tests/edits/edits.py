"""Holds the must-fail edits of a repository, crates/NAME/must-fail/*.edit, against the files that they change.

`rt` passes over every line of an edit that it cannot read, so an edit with such a line tries something else than it
says. Here each line is a comment or one of `file: `, `old: ` and `new:`; the pairs are applied one after the other, as
`rt` does it, and each `old:` text stands exactly once in its file when its turn comes.
"""

import pathlib
import re
import sys

# The edits that state one claim of the definitions and of the code, or of two functions: the crates of each name.
SHARED = {
    "no_schedule_unsearched": ["best", "model"],
}


class Fault(Exception):
    """What is wrong with an edit."""


def texts_of(edit):
    """The (file, old, new) of each pair of an edit, whose lines all have a form that `rt` reads."""
    lines = edit.removesuffix("\n").split("\n")
    if not lines[0].startswith("# ") or not lines[0][2:].strip():
        raise Fault("line 1 is not '# ' and the fact that must no longer hold")
    changes, file, old = [], None, None
    for number, line in enumerate(lines, start=1):
        if line.startswith("#"):
            continue
        if line.startswith("file: ") and old is None:
            file = line.removeprefix("file: ")
        elif line.startswith("old: ") and file is not None and old is None:
            old = line.removeprefix("old: ")
        elif line.startswith("new:") and old is not None:
            changes.append((file, old, line.removeprefix("new:").removeprefix(" ")))
            old = None
        else:
            raise Fault(f"line {number} is neither a comment nor the next of 'file: ', 'old: ' and 'new:'")
    if old is not None:
        raise Fault("the last 'old: ' has no 'new:'")
    if not changes:
        raise Fault("it changes nothing")
    return changes


def applied(text, old, new):
    """The text with its one `old` replaced."""
    if old == new:
        raise Fault(f"'{old}' is replaced by itself")
    if not old.strip():
        raise Fault("an 'old: ' has no text")
    before, found, after = text.partition(old)
    if not found:
        raise Fault(f"'{old}' is not in its file")
    if old in after:
        raise Fault(f"'{old}' is in its file more than once")
    return before + new + after


def hold(crate, edit):
    """Applies an edit to the files of a crate, and gives how many changes it has."""
    sources, edited = {}, {}
    changes = texts_of(edit)
    for file, old, new in changes:
        parts = pathlib.PurePosixPath(file).parts
        if parts[0] not in ("src", "specs") or ".." in parts or not (crate / file).is_file():
            raise Fault(f"{file} is no file of the crate under src/ or specs/")
        if file not in sources:
            sources[file] = edited[file] = (crate / file).read_text(encoding="utf-8")
        edited[file] = applied(edited[file], old, new)
    for file, text in edited.items():
        if text == sources[file]:
            raise Fault(f"its changes leave {file} as it is")
    return len(changes)


def name_faults(places, readme):
    """What is wrong with the names of the edits, each with its crates."""
    words = set(re.findall(r"\w+", readme))
    for name, crates in sorted(places.items()):
        if len(crates) > 1 and SHARED.get(name) != crates:
            yield f"{name} is the name of an edit of each of {', '.join(crates)}"
        if name not in words:
            yield f"{name} of {crates[0]} is not in README.md"
    for name, crates in sorted(SHARED.items()):
        if places.get(name) != crates:
            yield f"{name} is not the name of an edit of each of {', '.join(crates)}, as SHARED says"


def examine(root):
    """The number of edits under a root, the number of their changes, and their faults."""
    faults, places, changes = [], {}, 0
    paths = sorted(root.glob("crates/*/must-fail/*"))
    for path in paths:
        crate = path.parents[1]
        places.setdefault(path.stem, []).append(crate.name)
        try:
            if path.suffix != ".edit":
                raise Fault("its name does not end in .edit")
            changes += hold(crate, path.read_text(encoding="utf-8"))
        except Fault as fault:
            faults.append(f"{path.relative_to(root)}: {fault}")
    if not paths:
        faults.append("no crate has an edit")
    faults += name_faults(places, (root / "README.md").read_text(encoding="utf-8"))
    return len(paths), changes, faults


def main(root):
    edits, changes, faults = examine(pathlib.Path(root))
    for fault in faults:
        print(f"edits: {fault}", file=sys.stderr)
    print(f"{edits} edits with {changes} changes, {len(faults)} faults")
    return 1 if faults else 0


if __name__ == "__main__":
    sys.exit(main(sys.argv[1]))
