"""Tries the search for divisions on machine code of planted divisions, and on code."""

import pathlib
import subprocess
import tempfile
import unittest

import division


class Machine(unittest.TestCase):
    """What counts as a division in machine code. Each function is planted in C and compiled."""

    def planted(self, text, level="-O2"):
        with tempfile.TemporaryDirectory() as folder:
            path = pathlib.Path(folder) / "planted.o"
            command = ["gcc", "-std=gnu99", level, "-ffreestanding", "-xc", "-", "-c", "-o", path]
            subprocess.run(command, input=text, check=True, encoding="utf-8")
            return division.machine_faults(path, division.OUTSIDE)[0]

    def assert_planted(self, fault, text, level="-O2"):
        found = self.planted(text, level)
        self.assertEqual(len(found), 1, found)
        self.assertRegex(found[0], fault)

    def test_quotient_and_remainder(self):
        for kind, name in ("unsigned", "div"), ("int", "idiv"), ("unsigned short", "div"), ("long long", "idiv"):
            for sign in "/%":
                for level in "-O0", "-O2", "-Os":
                    with self.subTest(kind=kind, sign=sign, level=level):
                        text = f"{kind} planted({kind} a, {kind} b) {{ return a {sign} b; }}"
                        self.assert_planted(f"^planted: {name}", text, level)

    def test_float(self):
        self.assert_planted("^planted: divsd ", "double planted(double a, double b) { return a / b; }")
        self.assert_planted("^planted: fdivr?p? ", "long double planted(long double a) { return 1 / a; }")
        self.assert_planted("^planted: fprem$", 'void planted(void) { __asm__("fprem"); }')

    def test_helper(self):
        wide = "unsigned __int128 planted(unsigned __int128 a, unsigned __int128 b) { return a / b; }"
        self.assert_planted("^__udivti3 is elsewhere and may divide$", wide)
        own = "unsigned __umodsi3(unsigned a, unsigned b) { while (a >= b) a -= b; return a; }"
        self.assertIn("__umodsi3 is called for a division", self.planted(own))

    def test_call_elsewhere(self):
        self.assert_planted("^other is elsewhere", "int other(int); int planted(int a) { return other(a) + 1; }")

    def test_bytes_that_are_no_instruction(self):
        self.assert_planted(r"^planted: \(bad\)", 'void planted(void) { __asm__(".byte 0x06"); }')

    def test_no_code(self):
        self.assertEqual(self.planted("extern int planted;"), ["no code"])

    def test_by_a_constant(self):
        text = "unsigned planted(unsigned a) { return a / 256 + a % 256 + a / 10 + a % 65536; }"
        self.assertEqual(self.planted(text), [])

    def test_counted(self):
        text = "unsigned planted(unsigned a, unsigned b)"
        text += "{ unsigned n = 0; for (; n < 48 && a >= b; n++) a -= b; return n; }"
        self.assertEqual(self.planted(text), [])

    def test_memory_is_copied_elsewhere(self):
        text = "struct s { char a[9999]; }; void planted(struct s *a, struct s *b) { *a = *b; }"
        self.assertEqual(self.planted(text), [])


class Code(unittest.TestCase):
    """What counts as a division in the code, and what the table may leave out."""

    def test_operators(self):
        code = "fn f(x: u16) -> u16\n{\n    let n = part.len() / width;\n    x %= 3;\n    (x % 256) / at(n)\n}\n"
        self.assertEqual(division.quotients(code), {"part.len / width", "x %= 3", "x % 256", "256 / at(n"})

    def test_contracts_and_comments_do_not(self):
        code = "// a / b\nghost use Rattle.std.specs.Prelude.{◌≡◌,\n ◌/◌};\nfn f()\n    requires less { T (g { 0 = a / b }) }\n"
        code += "    ensures { result ≡\n a / b }\n{\n}\n"
        self.assertEqual(division.quotients(code), set())

    def held(self, kept):
        with tempfile.TemporaryDirectory() as folder:
            source = pathlib.Path(folder) / "crates/hours/src/lib.rt"
            source.parent.mkdir(parents=True)
            source.write_text("fn at(k: usize) -> usize {\n    k / 8\n}\n", encoding="utf-8")
            return division.code_faults(pathlib.Path(folder), kept)

    def test_table(self):
        self.assertEqual(self.held({"hours": {"k / 8"}}), [])
        self.assertEqual(self.held({}), ["hours: k / 8"])
        self.assertEqual(self.held({"hours": {"k / 8", "k % 8"}}), ["hours: no k % 8"])
        self.assertEqual(self.held({"hours": {"k / 8"}, "rows": {"k / 8"}}), ["rows: no k / 8"])


if __name__ == "__main__":
    unittest.main()
