"""Tries the check of tests/edits/edits.py on edits that are right and on edits that are wrong in one way each."""

import pathlib
import tempfile
import unittest

import edits

HEAD = "# b comes before c\nfile: src/lib.rt\n"


class Hold(unittest.TestCase):
    """One edit against a crate of two files."""

    def setUp(self):
        folder = tempfile.TemporaryDirectory()
        self.addCleanup(folder.cleanup)
        self.crate = pathlib.Path(folder.name)
        for file, text in (("src/lib.rt", "a\nb\nc\nc d\n"), ("proofs/Lib.antt", "a\n")):
            (self.crate / file).parent.mkdir()
            (self.crate / file).write_text(text)

    def refused(self, edit, words):
        with self.assertRaises(edits.Fault) as caught:
            edits.hold(self.crate, edit)
        self.assertIn(words, str(caught.exception))

    def test_one_change(self):
        self.assertEqual(edits.hold(self.crate, HEAD + "old: b\nnew: e\n"), 1)

    def test_two_changes_one_after_the_other(self):
        self.assertEqual(edits.hold(self.crate, HEAD + "old: b\nnew:\nold: c d\nnew: b\n"), 2)

    def test_comment_and_a_text_of_spaces_before_its_words(self):
        self.assertEqual(edits.hold(self.crate, HEAD + "# so\nold:  d\nnew: d\n"), 1)

    def test_no_head(self):
        self.refused("file: src/lib.rt\nold: b\nnew: e\n", "line 1")

    def test_empty_head(self):
        self.refused("# \nfile: src/lib.rt\nold: b\nnew: e\n", "line 1")

    def test_old_of_two_lines(self):
        self.refused(HEAD + "old: b\nc\nnew: c\nb\n", "line 4")

    def test_new_of_two_lines(self):
        self.refused(HEAD + "old: b\nnew: c\nb\n", "line 5")

    def test_empty_line(self):
        self.refused(HEAD + "\nold: b\nnew: e\n", "line 3")

    def test_old_before_file(self):
        self.refused("# a\nold: b\nnew: e\nfile: src/lib.rt\n", "line 2")

    def test_new_without_old(self):
        self.refused(HEAD + "new: e\n", "line 3")

    def test_old_after_old(self):
        self.refused(HEAD + "old: b\nold: c\nnew: e\n", "line 4")

    def test_old_without_new(self):
        self.refused(HEAD + "old: b\n", "no 'new:'")

    def test_no_change(self):
        self.refused(HEAD, "changes nothing")

    def test_old_not_there(self):
        self.refused(HEAD + "old: e\nnew: f\n", "is not in its file")

    def test_old_there_twice(self):
        self.refused(HEAD + "old: c\nnew: f\n", "more than once")

    def test_old_there_twice_after_a_change(self):
        self.refused(HEAD + "old: b\nnew: a\nold: a\nnew: b\n", "more than once")

    def test_old_gone_after_a_change(self):
        self.refused(HEAD + "old: b\nnew: e\nold: b\nnew: f\n", "is not in its file")

    def test_old_of_spaces(self):
        self.refused(HEAD + "old:  \nnew: e\n", "has no text")

    def test_old_and_new_the_same(self):
        self.refused(HEAD + "old: b\nnew: b\n", "by itself")

    def test_changed_and_changed_back(self):
        self.refused(HEAD + "old: b\nnew: e\nold: e\nnew: b\n", "as it is")

    def test_file_not_there(self):
        self.refused("# a\nfile: src/main.rt\nold: b\nnew: e\n", "no file of the crate")

    def test_file_of_the_proofs(self):
        self.refused("# a\nfile: proofs/Lib.antt\nold: a\nnew: e\n", "no file of the crate")

    def test_file_outside_the_crate(self):
        self.refused("# a\nfile: src/../proofs/Lib.antt\nold: a\nnew: e\n", "no file of the crate")


class Names(unittest.TestCase):
    """The names of the edits of all crates."""

    def faults(self, places):
        return list(edits.name_faults(edits.SHARED | places, " ".join(["one", "two", *edits.SHARED])))

    def test_each_name_once(self):
        self.assertEqual(self.faults({"one": ["best"], "two": ["model"]}), [])

    def test_name_in_two_crates(self):
        self.assertEqual(self.faults({"one": ["best", "model"]}), ["one is the name of an edit of each of best, model"])

    def test_shared_name_in_another_crate(self):
        self.assertEqual(len(self.faults({min(edits.SHARED): ["best", "rows"]})), 2)

    def test_shared_name_in_one_crate(self):
        (fault,) = self.faults({min(edits.SHARED): ["best"]})
        self.assertIn("SHARED", fault)

    def test_name_missing_in_the_readme(self):
        self.assertEqual(self.faults({"on": ["best"]}), ["on of best is not in README.md"])


if __name__ == "__main__":
    unittest.main()
