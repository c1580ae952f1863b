"""Tests how a source is cut into functions."""
import unittest

from .. import source
from .crates import SOURCE


class Cut(unittest.TestCase):
    def test_parts_are_the_whole(self):
        found = source.parts(SOURCE)
        self.assertEqual("".join(found), SOURCE)
        self.assertEqual([source.FUNCTION.match(it)[1] for it in found[1:]], ["first", "sum", "clone"])

    def test_a_method_of_a_trait_stands_once(self):
        parts = source.parts(SOURCE)
        plain = [source.is_plain("".join(parts[:at]), parts[at]) for at in (1, 2, 3)]
        self.assertEqual(plain, [True, True, False])

    def test_a_body_is_between_its_braces(self):
        lines = source.parts(SOURCE)[2].split("\n")
        self.assertEqual(source.body(lines), (2, 4))
        self.assertIsNone(source.body(["fn f() -> u32 { 0 }"]))

    def test_what_has_no_body_keeps_its_lines_and_its_contract(self):
        part = source.parts(SOURCE)[2]
        bare = source.bodiless(part)
        self.assertEqual(bare.count("\n"), part.count("\n"))
        self.assertIn("ensures { True }", bare)
        self.assertIn("loop {}", bare)
        self.assertNotIn("checked_add", bare)

    def test_a_constant_keeps_its_value(self):
        self.assertEqual(source.bodiless("const N: u32 = 3;\n"), "const N: u32 = 3;\n")
        self.assertEqual(source.bodiless("const fn f() -> u32 {\n    3\n}\n"), "const fn f() -> u32 {\n    3\n}\n")
