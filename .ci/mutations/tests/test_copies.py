"""Tests what a copy of a crate has."""
import unittest

from .. import copies, edits, rounds, verdicts
from .crates import SOURCE, crate

KNOWN = ["small::pairs::pair::Pair::first", "small::pairs::pair::Pair::sum"]


class Copies(unittest.TestCase):
    def setUp(self):
        self.folder = self.enterContext(crate())
        self.edits = edits.edits(self.folder, self.fail)
        self.copy = copies.Copy("small", self.folder, self.folder / "copy")

    def written(self, some, known=()):
        self.copy.write(some, known)
        return (self.copy.folder / "src/pairs/pair.rt").read_text()

    def test_nothing_changes_without_edits(self):
        self.assertEqual(self.written([]), SOURCE)

    def test_one_edit_and_no_copy(self):
        text = self.written([self.edits[0].moved(0)])
        self.assertEqual(text, SOURCE.replace("let first = self.0;", "let first = self.1;"))

    def test_copies_stand_below_their_function(self):
        (round_of_both,) = rounds.rounds(self.edits)
        text = self.written(round_of_both)
        self.assertEqual([it.function.split("::")[-1] for it in round_of_both], ["first", "first_1"])
        self.assertLess(text.index("let first = self.1;"), text.index("    #[inline]\n    pub fn first_1"))
        for edit in round_of_both:
            name = edit.function.split("::")[-1]
            self.assertIn(f"fn {name}(", text.split("\n")[edit.line - 1])

    def test_other_functions_have_neither_body_nor_proof(self):
        text = self.written([self.edits[0].moved(0)], KNOWN)
        self.assertNotIn("checked_add", text)
        self.assertIn("let first = self.1;", text)
        proof = self.copy.folder / "proofs/pairs/pair/Pair"
        self.assertIn("sum_spec = ?", (proof / "sum/Proof.antt").read_text())
        self.assertFalse((proof / "first").exists())

    def test_a_copy_has_the_proof_files_of_its_function(self):
        place = self.folder / "proofs/pairs/pair/Pair/first"
        place.mkdir(parents=True)
        (place / "Answers.antt").write_text("use Rattle.small.proofs.pairs.pair.Pair.first.Goals as goal\n")
        self.written([self.edits[0].moved(2)])
        copied = self.copy.folder / "proofs/pairs/pair/Pair/first_2/Answers.antt"
        self.assertEqual(copied.read_text(), "use Rattle.small.proofs.pairs.pair.Pair.first_2.Goals as goal\n")

    def test_answers_are_left_out(self):
        place = self.folder / "proofs/pairs/pair/Pair/first"
        place.mkdir(parents=True)
        (place / "Answers.antt").write_text("use a.Goals as goal\n\npub one : goal.one\none = 1\n\npub two : goal.two\ntwo = 2\n")
        edit = self.edits[0].without(verdicts.Verdict(False, "", by_answers=frozenset({"one"})))
        self.written([edit])
        text = (self.copy.folder / "proofs/pairs/pair/Pair/first/Answers.antt").read_text()
        self.assertEqual(text, "use a.Goals as goal\n\npub two : goal.two\ntwo = 2\n")

    def test_the_right_body_returns_by_a_name(self):
        found = copies.right_body(self.folder, self.edits, 7)
        text = self.written([found])
        self.assertEqual(found.function, "small::pairs::pair::Pair::first_0")
        self.assertIn("let right_7 = {\n        let first = self.0;\n        first\n}; right_7\n    }", text)
        self.assertEqual(text.count("let first = self.0;"), 2)
