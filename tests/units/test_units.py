"""Tries the check of bare numbers on code and on tables."""

import pathlib
import tempfile
import unittest

import units


class Bare(unittest.TestCase):
    """What counts as a bare number."""

    def test_fields_parameters_and_results(self):
        code = "pub struct Numbers {\n    pub falling: u8,\n    pub output: Output,\n}\n"
        code += "fn word(part: &[u8], at: usize) -> u16\n    requires { at + 2 ≤ 4 }\n{\n}\n"
        self.assertEqual(units.bare(code), {("falling", "u8"), ("at", "usize"), ("word()", "u16")})

    def test_arrays_constants_and_comments_do_not(self):
        code = "const ROW: usize = 400;\n// at: usize\nfn f(row: &mut [i64; ROW], prices: [u16; HOURS]) {\n}\n"
        self.assertEqual(units.bare(code), set())

    def test_result_after_parameters_on_lines_of_their_own(self):
        self.assertIn(("f()", "usize"), units.bare("fn f(\n    a: Output,\n    b: Hour,\n) -> usize\n"))


class Table(unittest.TestCase):
    """What the table may leave out, and what it may not hold."""

    def held(self, table):
        with tempfile.TemporaryDirectory() as folder:
            source = pathlib.Path(folder) / "crates/hours/src/lib.rt"
            source.parent.mkdir(parents=True)
            source.write_text("fn at(k: usize) -> u8 {\n}\n", encoding="utf-8")
            return units.faults(pathlib.Path(folder), units.table(table))

    def test_whole(self):
        self.assertEqual(self.held("# why\nplaces\n  hours: k usize\nmarks\n  hours: at() u8\n"), ([], 2))

    def test_left_out(self):
        self.assertEqual(self.held("places\n  hours: k usize\n")[0], ["hours: at() is a bare u8"])

    def test_needless(self):
        found = self.held("places\n  hours: k usize, at() u8, j usize\n")[0]
        self.assertEqual(found, ["hours: no j is a bare usize"])

    def test_unreadable(self):
        with self.assertRaises(ValueError):
            units.table("  hours: k usize\n")


if __name__ == "__main__":
    unittest.main()
