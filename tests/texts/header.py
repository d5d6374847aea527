"""Prints a table of the comment in include/giqapsun.h as rows of texts/: header.py refusals, header.py rules."""

import re
import sys
from pathlib import Path

TITLES = {"refusals": " * Refusals: ", "rules": " * Rules that a list may break: "}


def rows(comment):
    """Numbers and texts, from the first numbered line to the paragraph's end; a text may go on in further lines."""
    table = re.search(r"^ \*   \d+ .*(?:\n \*   .*)*", comment, re.MULTILINE)[0]
    for number, text in re.findall(r"^ \*   (\d+) +(.*(?:\n \*       .*)*)", table, re.MULTILINE):
        yield number, re.sub(r"\n \* +", " ", text)


def main(table):
    """The rows of one table."""
    header = Path(__file__).resolve().parents[2] / "include/giqapsun.h"
    for row in rows(header.read_text(encoding="utf-8").split(TITLES[table], 1)[1]):
        print(*row, sep="\t")


main(sys.argv[1])
