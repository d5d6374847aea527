"""Finds limits, sizes and bounds that stand as literals in crates/ where their names should.

A limit of document 01 has one name in crates/cases/src/lib.rt and one in its specs/Limits, a width of a file one in its
specs/Forms, a bound of a sum one in crates/machine/specs/Bounds, the room of a wrapped number one in crates/quantities;
those of a curve and of a float's pattern have theirs in crates/curve; a size is derived from them by formula. The
second views, Days, the Promises and the program known_days hold the published numbers on purpose. A
number that is a limit in one place and a rule's or a refusal's number in another counts only after a comparison, where
it bounds something.
"""

import pathlib
import re
import sys

ROOT = pathlib.Path(__file__).resolve().parents[2]

NAMED = ("cases/src/lib.rt", "cases/specs/Limits.antt", "cases/specs/Forms.antt", "machine/specs/Bounds.antt")
NAMED += ("quantities/specs/Widths.antt", "curve/src/lib.rt", "curve/specs/Pattern.antt", "curve/specs/Cost.antt")
VIEWS = tuple(f"{crate}/specs/Promises.antt" for crate in ("curve", "cases", "day", "model", "promises"))
VIEWS += ("cases/specs/Published.antt", "day/specs/Words.antt", "model/specs/Windows.antt", "promises/specs/Days.antt")
VIEWS += ("promises/proofs/Days.antt", "known_days/src/main.rt")
# what stands for something else: the number of a refusal, the size of a 64-bit number
NUMBERED = {"laws/proofs/Magnitude.antt": ["2 ^ 63"], "limits/proofs/FirstLaws.antt": ["≡ 7", "≡ 8"]}

# hours, megawatts, working numbers, bytes, mills, energies; sizes of the search, of the check and of the text
ALWAYS = [25, 48, 49, 56, 63, 64, 144, 400, 796, 2800, 4096, 4097, 6400, 8192, 8784, 10000, 65535, 65536]
ALWAYS += [168, 800, 801, 1000000, 9999999, 10000000, 11000000, 100000000, 600000000, 640801000000]
ALWAYS += [2147483647, 2147483648, 4294967295, 4294967296]
# stages, minimum times, offsets and their sums
BOUNDS = [7, 8, 9, 15, 16, 17, 20, 32, 34, 52, 54]

NUMBERS = "|".join(map(str, ALWAYS))
LITERAL = re.compile(rf"(?<![\w.'·])(?<!\^ )(?:{NUMBERS})(?:[iu](?:8|16|32|64|size)\b|(?![\w.']))")
COMPARED = re.compile(rf"(?:≤|<|≡|<=|>=|==)\s(?:{'|'.join(map(str, BOUNDS))})(?![\w.'])")
POWER = re.compile(r"(?<![\w'])2 \^ \d+")
ASIDE = re.compile(r"(--|//).*$|^\s*(ghost )?use .*$|^#\[.*$")


def literals(line):
    """The literals of a line that should be names; comments and imports have none."""
    text = ASIDE.sub("", line)
    return [found.group() for pattern in (LITERAL, COMPARED, POWER) for found in pattern.finditer(text)]


def faults(root):
    """Each literal with its place, and how many files were read."""
    found, files = [], 0
    for path in sorted(p for part in ("src", "specs", "proofs") for p in (root / "crates").glob(f"*/{part}/**/*")):
        part = path.relative_to(root / "crates").as_posix()
        if path.suffix not in (".rt", ".antt") or part in NAMED + VIEWS:
            continue
        files += 1
        for number, line in enumerate(path.read_text(encoding="utf-8").splitlines(), 1):
            wrong = [literal for literal in literals(line) if literal not in NUMBERED.get(part, [])]
            found += [f"crates/{part}:{number}: {literal}" for literal in wrong]
    return found, files


def main():
    found, files = faults(ROOT)
    for fault in found:
        print(f"constants: {fault} stands for a limit, a size or a bound, which has a name", file=sys.stderr)
    if found or not files:
        print(f"constants: {len(found)} literals in {files} files", file=sys.stderr)
        return 1
    print(f"constants: {files} files, every limit, size and bound by its name")
    return 0


if __name__ == "__main__":
    sys.exit(main())
