"""Finds names that are brought in or declared and never used, and places of a proof that should have a name.

In every .antt and .rt file of crates/: a name of a `use` line that the file does not speak of again. In the law
files: a lemma that nothing cites, in its own file if it is private, in any file of crates/ if it is public. A
ruleset's name, an operator and a constructor that a pattern matches count as spoken of wherever their word stands. A
place of a function that a proof goes more than four steps back to has a name: a `let` or an equation of its own.
"""

import collections
import pathlib
import re
import sys

ROOT = pathlib.Path(__file__).resolve().parents[2]

USE = re.compile(r"^\s*(?:ghost )?use [^\n{;]*\{([^}]*)\};?$", re.MULTILINE)
LEMMA = re.compile(r"^( *)(pub )?([a-z][^\s:(){}]*) :(?: |$)", re.MULTILINE)
COMMENT = re.compile(r"^\s*(--|//).*$", re.MULTILINE)

# a way of over four steps back, and what stands before one that gets a name
BACK = re.compile(r"(?:\s*\.before\b){5,}")
NAMING = re.compile(r"(?:\blet [^\s:]+ =|^[ \t]*[^\s:=]+(?: [^\s:=]+)* =)\s+[^\s.()]+\s*$", re.MULTILINE)

# files whose names rt asks for, and the record of promises
UNCITED = ("Proof.antt", "Answers.antt", "Invariants.antt", "Promises.antt")

# laws of the order of ℤ that stand beside those that are cited
BESIDE = ("add_mono", "add_cancel")

# what ends a word
EDGE = r"[\s(){}\[\];,.λ:<>&]"


def speaks(text, name):
    """Whether a word or an operator stands in a text."""
    if "◌" in name:
        return all(part in text for part in name.split("◌") if part)
    return re.search(rf"(?:^|{EDGE}|[·]){re.escape(name)}(?:$|{EDGE})", text) is not None


def brought(text):
    """The names of the `use` lines, as the file calls them, and the text without those lines."""
    names = []
    for line in USE.finditer(text):
        for item in line.group(1).split(","):
            item = item.strip()
            if item and item != "self":
                names.append(item.split(" as ")[-1].strip())
    return names, USE.sub("", text)


def unused(path):
    """The names that a file brings in and does not speak of."""
    names, rest = brought(path.read_text())
    rest = COMMENT.sub("", rest)
    return [name for name in names if not speaks(rest, name.removeprefix("syntax "))]


def lemmas(path):
    """The lemmas of a law file: indentation, name, and whether it is public."""
    return [(found.group(1), found.group(3), found.group(2) is not None) for found in LEMMA.finditer(path.read_text())]


def uncited(paths):
    """The lemmas that nothing cites."""
    texts = {path: COMMENT.sub("", path.read_text()) for path in paths}
    words = {path: collections.Counter(re.split(rf"{EDGE}|·", text)) for path, text in texts.items()}
    everything = sum(words.values(), collections.Counter())
    found = []
    for path in paths:
        if path.suffix != ".antt" or path.name in UNCITED or "proofs" not in path.parts:
            continue
        for indent, name, public in lemmas(path):
            if name in BESIDE:
                continue
            spoken = (everything if public else words[path])[name]
            word = re.escape(name)
            own = len(re.findall(rf"^{indent}(?:pub )?{word}(?: :| =|\s.* =$|\s.* = )", texts[path], re.MULTILINE))
            if spoken <= own:
                found.append((path, name))
    return found


def unnamed(path):
    """The lines on which a proof goes over four steps back to a place that gets no name."""
    text = path.read_text()
    found = []
    for way in BACK.finditer(text):
        if not NAMING.search(text, max(0, way.start() - 200), way.start()):
            found.append(text.count("\n", 0, way.start()) + 1)
    return found


def main():
    paths = sorted(p for part in ("src", "specs", "proofs") for p in ROOT.glob(f"crates/*/{part}/**/*"))
    paths = [path for path in paths if path.suffix in (".antt", ".rt")]
    faults = [f"{path.relative_to(ROOT)}: {name} is brought in and not used" for path in paths for name in unused(path)]
    faults += [f"{path.relative_to(ROOT)}: nothing cites {name}" for path, name in uncited(paths)]
    proofs = [path for path in paths if path.suffix == ".antt" and "proofs" in path.parts]
    for path in proofs:
        faults += [f"{path.relative_to(ROOT)}: line {line}: a place without a name" for line in unnamed(path)]
    for fault in faults:
        print(f"tidy: {fault}", file=sys.stderr)
    if not paths or faults:
        print(f"tidy: {len(faults)} faults in {len(paths)} files", file=sys.stderr)
        return 1
    print(f"tidy: {len(paths)} files, every name used, every place named")
    return 0


if __name__ == "__main__":
    sys.exit(main())
