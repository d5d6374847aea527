"""Holds every number of the code that is not wrapped against tests/units/bare.txt, which says why it is not.

Megawatts, hours, mills and half-mills are `Output`, `Hour`, `Mills` and `HalfMills`, so that none stands in for
another. A field, a parameter or a result of a plain number type is a fault unless the table has its name and type for
its crate; so is a line of the table that nothing needs. Arrays and slices are what a caller lends or what the search
works in: an entry is wrapped as it is read. Constants have a name each, and a comment that says their unit.
"""

import pathlib
import re
import sys

ROOT = pathlib.Path(__file__).resolve().parents[2]

NUMBER = "u8|u16|u32|u64|usize|i8|i16|i32|i64|isize"
COMMENT = re.compile(r"//.*")
CONSTANT = re.compile(r"^\s*(?:pub )?const .*$", re.MULTILINE)
NAMED = re.compile(rf"\b(\w+): ({NUMBER})\b")
RESULT = re.compile(rf"\bfn (\w+)\([^)]*\) -> ({NUMBER})\b", re.DOTALL)


def bare(text):
    """Each field, parameter and result of a file that is a plain number: its name, and its type."""
    for pattern in (COMMENT, CONSTANT):
        text = pattern.sub("", text)
    return set(NAMED.findall(text)) | {(f"{name}()", kind) for name, kind in RESULT.findall(text)}


def table(text):
    """The lines of the table: crate, name and type, under the reason that stands above them."""
    found, reason = {}, None
    for number, line in enumerate(text.splitlines(), 1):
        if not line.strip() or line.startswith("#"):
            continue
        if not line.startswith(" "):
            reason = line.strip()
            continue
        words = re.fullmatch(r"  (\w+): (.+)", line)
        if reason is None or words is None:
            raise ValueError(f"line {number} of the table is not `  crate: name type, name type`")
        for entry in words.group(2).split(", "):
            name, kind = entry.split(" ")
            found[words.group(1), name, kind] = reason
    return found


def faults(root, allowed):
    """What is bare and not in the table, and what is in the table and nowhere bare; and how many are bare."""
    there = set()
    for path in sorted((root / "crates").glob("*/src/**/*.rt")):
        crate = path.relative_to(root / "crates").parts[0]
        there |= {(crate, name, kind) for name, kind in bare(path.read_text(encoding="utf-8"))}
    found = [f"{crate}: {name} is a bare {kind}" for crate, name, kind in sorted(there - set(allowed))]
    found += [f"{crate}: no {name} is a bare {kind}" for crate, name, kind in sorted(set(allowed) - there)]
    return found, len(there)


def main():
    allowed = table((ROOT / "tests/units/bare.txt").read_text(encoding="utf-8"))
    found, count = faults(ROOT, allowed)
    for fault in found:
        print(f"units: {fault}", file=sys.stderr)
    if found or not count:
        print(f"units: {len(found)} faults", file=sys.stderr)
        return 1
    print(f"units: {count} bare numbers, each with why")
    return 0


if __name__ == "__main__":
    sys.exit(main())
