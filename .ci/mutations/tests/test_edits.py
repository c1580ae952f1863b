"""Tests how mutations are read."""
import unittest

from .. import edits
from .crates import EDITS, crate


def read(text):
    """Returns the mutations of a small crate with these, and what is told of those that can't be applied."""
    told = []
    with crate(text) as folder:
        return edits.edits(folder, lambda *words: told.append(words)), told


class Read(unittest.TestCase):
    def test_mutations_of_a_source(self):
        (first, second), told = read(EDITS)
        self.assertEqual((first.name, second.name, told), ("first_is_the_second", "first_is_none", []))
        self.assertEqual((first.file, first.function), ("src/pairs/pair.rt", "small::pairs::pair::Pair::first"))
        self.assertIn("let first = self.1;", first.part)
        self.assertIn("let first = self.0;", first.was)
        self.assertEqual([it.strip() for it in first.attributes], ["#[inline]"])
        self.assertTrue(first.is_plain)

    def test_what_shows_that_it_is_wrong(self):
        (first, second), told = read(f"{EDITS}witness: let two = 2;\nwitness: two == 2\n")
        self.assertEqual((first.said["witness"], second.said["witness"], told), ([], ["let two = 2;", "two == 2"], []))
        self.assertEqual(read(f"{EDITS}reason: a ghost\n")[0][1].said["reason"], ["a ghost"])
        self.assertEqual(read(f"{EDITS}compile-error: moved\n")[0][1].said["compile-error"], ["moved"])
        self.assertIn("more than one of", read(f"{EDITS}reason: a ghost\nwitness: true\n")[1][0][1])

    def test_a_text_of_several_functions_is_that_of_the_one(self):
        (first, _), told = read(EDITS.replace("old: let first = self.0;\nnew: let first = self.1;", "old: self.0\nnew: self.1"))
        self.assertEqual(told, [])
        self.assertIn("let first = self.1;", first.part)
        self.assertIn("self.0.checked_add(self.1)", first.text)

    def test_right_bodies_are_told_apart(self):
        with crate() as folder:
            (folder / "right-bodies").mkdir()
            (folder / "right-bodies/right.edits").write_text(EDITS.replace("[first", "[other"))
            found = edits.edits(folder, self.fail)
        self.assertEqual([it.is_right for it in found], [True, True, False, False])

    def test_what_can_not_be_applied(self):
        for old, new, why in [
            ("old: let first = self.0;", "old: first", "4 times, and not once"),
            ("new: let first = self.1;", "new: let first = self.0;", "it changes nothing"),
            ("Pair::first\nold: let", "Pair::sum\nold: let", "not all in one function"),
            ("[first_is_none]", "[first_is_the_second]", "another mutation of this crate has its name"),
            ("new: let first = self.1;\n", "", "an old text without a new one"),
            ("[first_is_none]", "first_is_none", "a line that is not read"),
            ("[first_is_none]", "file: src/pairs/pair.rt\n[first_is_none]", "stand in two places"),
            ("file: src/pairs/pair.rt", "", "a line that is not read"),
            ("function: small::pairs::pair::Pair::first\nold: first = self.0\nnew: first = 0\n", "", "lacks a pair of texts"),
        ]:
            with self.subTest(why):
                self.assertIn(old, EDITS)
                told = read(EDITS.replace(old, new, 1))[1]
                self.assertIn(why, told[0][1])

    def test_names(self):
        edit = read(EDITS)[0][0]
        for word in ("small", "small/first_is_the_second", "small::Pair::first", "small::first", "small::pairs::pair"):
            self.assertTrue(edits.is_named(edit, "small", [word]), word)
        for word in ("smaller", "small/first_is_none", "small::Pair::sum", "small::Pair::fir", "small::pairs::Pair", "first"):
            self.assertFalse(edits.is_named(edit, "small", [word]), word)
