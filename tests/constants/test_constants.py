"""Tries the search for literals on lines that have one and on lines that have none."""

import pathlib
import tempfile
import unittest

import constants


class Literals(unittest.TestCase):
    """Which numbers of a line count."""

    def test_limits_and_sizes(self):
        self.assertEqual(constants.literals("  few : n ≤ 48"), ["48"])
        self.assertEqual(constants.literals("let row = [0i64; 400];"), ["400"])
        self.assertEqual(constants.literals("const MOST: u16 = 10000u16;"), ["10000u16"])
        self.assertEqual(constants.literals("    requires { x < 65536 }"), ["65536"])

    def test_bounds_of_sums(self):
        self.assertEqual(constants.literals("→ nat_abs z ≤ 2 ^ 42"), ["2 ^ 42"])
        self.assertEqual(constants.literals("→ nat_abs z ≤ 10 ^ 19"), [])

    def test_small_numbers_count_where_they_bound(self):
        self.assertEqual(constants.literals("requires { n ≤ 8 }"), ["≤ 8"])
        self.assertEqual(constants.literals("offset0 : offset_at file 0 ≡ 16"), ["≡ 16"])
        self.assertEqual(constants.literals("∷ (8, rule8 c l)"), [])
        self.assertEqual(constants.literals("variable = number_at unit 16 4"), [])

    def test_comments_and_imports_have_none(self):
        self.assertEqual(constants.literals("// up to 4,096 bytes, 400 outputs"), [])
        self.assertEqual(constants.literals("-- 48 hours"), [])
        self.assertEqual(constants.literals("use lib.Laws48.{of48}"), [])

    def test_parts_of_words_and_of_numbers_are_none(self):
        self.assertEqual(constants.literals("rule48 = x48 + 14855 + y.48"), [])


class Files(unittest.TestCase):
    """Which files may hold them."""

    def test_only_where_they_are_named(self):
        with tempfile.TemporaryDirectory() as folder:
            root = pathlib.Path(folder)
            for part in ("cases/specs/Limits.antt", "cases/specs/Published.antt", "cases/proofs/Laws.antt"):
                path = root / "crates" / part
                path.parent.mkdir(parents=True, exist_ok=True)
                path.write_text("most = 400\n", encoding="utf-8")
            found, files = constants.faults(root)
            self.assertEqual(found, ["crates/cases/proofs/Laws.antt:1: 400"])
            self.assertEqual(files, 1)


if __name__ == "__main__":
    unittest.main()
