"""Tests what a key covers: a change of it makes a line stale."""
import types
import unittest
from unittest import mock

from .. import edits, keys
from .crates import SOURCE, crate

ANTT = "-- what it is\npub word : ℕ\nword = 1\n"
FIRST = "pub fn first(&self) -> u32\n    {\n        let first = self.0;"


class Keys(unittest.TestCase):
    def key(self, source=SOURCE, antt=ANTT, answers="pub a : b\na = c\n", of="1"):
        """Returns the key of the first mutation of a small crate with this source, definition and proof file."""
        with crate() as folder:
            for path, text in (
                ("src/pairs/pair.rt", source),
                ("specs/Words.antt", antt),
                ("proofs/pairs/pair/Pair/first/Answers.antt", answers),
                ("proofs/pairs/pair/Pair/sum/Answers.antt", of),
            ):
                (folder / path).parent.mkdir(parents=True, exist_ok=True)
                (folder / path).write_text(text)
            (folder.parent / "HANDLES").write_text("none")
            (folder.parent / "crates").symlink_to(folder.parent)
            small = types.SimpleNamespace(lines="small:\n", below=[])
            for it in (keys.statements, keys.base, keys.answers):
                it.cache_clear()
            with mock.patch.object(keys.proved, "ROOT", folder.parent), mock.patch.object(keys.proved, "Crate", lambda _: small):
                with mock.patch.object(keys.proved, "kit", lambda: ("", "kit logic 01")):
                    return keys.key("small", edits.edits(folder, self.fail)[0])

    def test_comments_and_layout_are_no_part(self):
        was = self.key()
        self.assertEqual(was, self.key(SOURCE.replace("/// The first.", "/// The other.").replace("Pair(u32, u32)", "Pair(u32,  u32)")))
        self.assertEqual(was, self.key(antt=f"-- another word\n\n{ANTT}"))
        self.assertEqual(was, self.key(answers="-- why\npub a : b\na =  c\n"))

    def test_the_body_of_another_function_is_no_part(self):
        changed = SOURCE.replace("self.0.checked_add(self.1)", "None").replace("Pair(self.0, self.1)", "Pair(self.1, self.0)")
        self.assertNotEqual(changed, SOURCE)
        self.assertEqual(self.key(), self.key(changed))
        self.assertEqual(self.key(), self.key(of="2"))

    def test_the_function_and_its_proof_are_part(self):
        was = self.key()
        self.assertNotEqual(was, self.key(SOURCE.replace("        first\n", "        first + 0\n")))
        self.assertNotEqual(was, self.key(SOURCE.replace("#[inline]", "#[inline(never)]")))
        self.assertNotEqual(was, self.key(answers="pub a : b\na = d\n"))

    def test_statements_are_part(self):
        was = self.key()
        self.assertNotEqual(was, self.key(SOURCE.replace("ensures { True }", "ensures { False }")))
        self.assertNotEqual(was, self.key(SOURCE.replace("Pair(u32, u32)", "Pair(u32, u64)")))
        self.assertNotEqual(was, self.key(antt=ANTT.replace("1", "2")))
        with mock.patch.object(keys, "RULES", 0):
            self.assertNotEqual(was, self.key())
