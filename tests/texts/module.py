"""Prints a table of the Python module as rows of texts/: module.py refusals, module.py rules."""

import sys

import giqapsun

for number, text in getattr(giqapsun, sys.argv[1].upper()).items():
    print(number, text, sep="\t")
