"""Tries tools/mutants on small specs files: the mutants that it makes, the names that they bring in, the verdict."""

import importlib.machinery
import importlib.util
import pathlib
import tempfile
import unittest

TOOL = pathlib.Path(__file__).resolve().parents[2] / "tools/mutants"
loader = importlib.machinery.SourceFileLoader("mutants", str(TOOL))
mutants = importlib.util.module_from_spec(importlib.util.spec_from_loader("mutants", loader))
loader.exec_module(mutants)

HEAD = "-- A file of definitions.\nuse lib.Dec.{leb}\n\n"


def changes(definition):
    """The changes of one definition, each old text with what takes its place."""
    return [(mutant.old, mutant.new) for mutant in mutants.mutants_of("Here", HEAD + definition)]


class Changes(unittest.TestCase):
    """What takes the place of what."""

    def test_comparison(self):
        found = changes("unfoldable pub f : ℕ → ℕ → Bool\nf a b = leb a b\n")
        expected = [("leb", "ltb"), ("leb", "eqb"), ("leb a b", "(not (leb a b))"), ("a", "b"), ("b", "a")]
        self.assertEqual(found, expected)

    def test_constants(self):
        self.assertEqual(changes("abbrev pub f : ℕ\nf = 0\n"), [("0", "1")])
        self.assertEqual(changes("abbrev pub f : ℕ\nf = 8\n"), [("8", "9"), ("8", "7")])

    def test_name_of_a_field_is_no_constant(self):
        self.assertEqual(changes("abbrev pub f : Output\nf = record { 0 = x }\n"), [])

    def test_conjuncts(self):
        found = changes("abbrev pub f : Bool\nf = g\n    && (d\n    && i)\n")
        expected = [("&&", "||"), ("g\n    && ", ""), ("&& (d\n    && i)", "")]
        expected += [("&&", "||"), ("d\n    && ", ""), ("&& i", "")]
        self.assertEqual(found, expected)

    def test_conjunct_within_a_disjunct(self):
        found = changes("abbrev pub f : Bool\nf = g || i && j\n")
        self.assertEqual([old for old, new in found if new == ""], ["g || ", "|| i && j", "i && ", "&& j"])

    def test_entries_of_a_list(self):
        found = changes("abbrev pub f : List Bool\nf = g ∷ i ∷ []\n")
        self.assertEqual(found, [("g ∷ ", ""), ("i ∷ ", "")])

    def test_operands_of_one_kind(self):
        self.assertEqual(changes("abbrev pub f : ℕ\nf = RU c\n"), [("RU", "RD")])
        self.assertEqual(changes("abbrev pub f : ℕ\nf = rule12 c\n"), [("rule12", "rule1")])

    def test_fields(self):
        found = changes("abbrev pub f : Case\nf = record { rises = c.rises; }\n")
        self.assertEqual(found, [(".rises", ".falls")])

    def test_hours(self):
        found = changes("unfoldable pub f : ℕ → ℕ\nf k = g k (before k) (suc k)\n")
        expected = [("k", "(suc k)"), ("k", "(before k)")]
        expected += [("(before k)", "k"), ("(before k)", "(suc k)"), ("(suc k)", "k")]
        self.assertEqual(found, expected)

    def test_branches(self):
        found = changes("abbrev pub f : ℕ\nf = cond g (d j) l\n")
        self.assertIn(("(d j) l", "l (d j)"), found)

    def test_value_for_none_and_a_test_for_its_negation(self):
        self.assertEqual(changes("abbrev pub f : Option ℕ\nf = some l\n"), [("some l", "none")])
        self.assertEqual(changes("abbrev pub f : Bool\nf = not g\n"), [("not", "")])

    def test_variables_of_one_type_alone(self):
        module = "module _ (c : Case) (l : List ℕ) where\n"
        found = changes(module + "  unfoldable pub f : List ℕ → ℕ → Case\n  f (a ∷ m) b = g l a\n")
        self.assertEqual(found, [("l", "m"), ("a", "b")])

    def test_variable_of_a_function(self):
        found = changes("unfoldable pub f : ℕ → ℕ\nf b = g (λ i. d i) b\n")
        self.assertEqual(found, [("i", "b"), ("i", "(suc i)")])

    def test_field_of_a_record_type(self):
        found = changes("pub record R (l m : List ℕ) : Type 0 where\n  pub tops : T (g l m)\n")
        self.assertEqual(found, [("l", "m"), ("m", "l")])

    def test_signatures_comments_and_uses_stay(self):
        self.assertEqual(changes("-- y and 3\nunfoldable pub f : (ℕ → ℕ) → ℕ\nf g = x -- z\n"), [])

    def test_place(self):
        (first, *_) = mutants.mutants_of("Here", HEAD + "abbrev pub f : ℕ\nf =\n    g + RU c\n")
        self.assertEqual((first.line, first.column, first.old, first.new), (6, 7, "+", "-"))
        self.assertEqual(first.text, HEAD + "abbrev pub f : ℕ\nf =\n    g - RU c\n")


class Brought(unittest.TestCase):
    """Names that a change brings in."""

    def setUp(self):
        folder = tempfile.TemporaryDirectory()
        self.addCleanup(folder.cleanup)
        self.paths = []
        below = "use lib.Dec.{leb, ltb}\nuse Prim.Native.Nat.{ℕ, ◌-◌}\n\nabbrev pub low : ℕ\nlow = 1\n"
        above = "use lib.Dec.{leb}\nuse Rattle.model.specs.Below.{low}\n\nabbrev pub high : ℕ\nhigh = low\n"
        for name, text in (("Below", below), ("Above", above)):
            path = pathlib.Path(folder.name) / f"{name}.antt"
            path.write_text(text, encoding="utf-8")
            self.paths.append(path)
        self.names = mutants.Names(self.paths)

    def completed(self, file, new):
        path = next(path for path in self.paths if path.stem == file)
        text = path.read_text(encoding="utf-8")
        return self.names.completed(mutants.Mutant(file, 1, 1, "", new, text)), text

    def test_name_that_is_there(self):
        text, whole = self.completed("Above", "(not_there leb low)")
        self.assertEqual(text, whole)

    def test_name_that_is_not_there(self):
        text, _ = self.completed("Above", "ltb")
        self.assertIn("Below.{low}\nuse lib.Dec.{ltb}\n\n", text)

    def test_operator(self):
        text, _ = self.completed("Above", "-")
        self.assertIn("use Prim.Native.Nat.{◌-◌}\n", text)

    def test_name_from_above(self):
        text, _ = self.completed("Below", "high")
        self.assertIsNone(text)


class Copies(unittest.TestCase):
    """What a scratch copy has."""

    def test_crates_below(self):
        listed = (mutants.ROOT / "crates.txt").read_text(encoding="utf-8").splitlines()
        uses = dict(line.split(":") for line in listed if not line.startswith("#"))
        for crate, below in mutants.BELOW.items():
            with self.subTest(crate):
                self.assertEqual(set(below), set(uses[crate].split()))

    def test_no_function(self):
        with tempfile.TemporaryDirectory() as folder:
            scratch = mutants.Scratch.__new__(mutants.Scratch)
            scratch.home = pathlib.Path(folder)
            (scratch.home / "src").mkdir()
            for name, text in (("lib", "pub mod kinds;\npub mod records;\n"), ("kinds", "pub struct Kind;\n")):
                (scratch.home / f"src/{name}.rt").write_text(text, encoding="utf-8")
            (scratch.home / "src/records.rt").write_text("pub fn of() {}\n", encoding="utf-8")
            scratch.leave_out_functions()
            self.assertEqual(sorted(path.name for path in (scratch.home / "src").iterdir()), ["kinds.rt", "lib.rt"])
            self.assertEqual((scratch.home / "src/lib.rt").read_text(encoding="utf-8"), "pub mod kinds;\n")


class Verdict(unittest.TestCase):
    """What the check printed."""

    def test_refused_for_their_own_sake(self):
        scratch = mutants.Scratch.__new__(mutants.Scratch)
        said = (
            "note: nothing\n"
            "./proofs/Days.antt:1:2: error: `known_days`: expected type `A`\n"
            "  more of it\n"
            "./proofs/Days.antt:3:2: error: `known_days`: again\n"
            "./proofs/Promises.antt:1:2: error: 1 declaration that depends on `known_days`, which was not admitted, "
            "was not checked: promises\n"
            "logic=not-proved\n"
        )
        self.assertEqual(scratch.refused(said), ["proofs/Days.known_days"])


if __name__ == "__main__":
    unittest.main()
