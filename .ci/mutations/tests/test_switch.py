"""Tests how a function gets the bodies of its mutations."""
import types
import unittest

from .. import edits, switch
from .crates import EDITS, crate


class Bodies(unittest.TestCase):
    def read(self, text=EDITS):
        with crate(text) as folder:
            return edits.edits(folder, self.fail), (folder / "src/pairs/pair.rt").read_text()

    def test_a_function_has_all_bodies(self):
        some, source = self.read()
        numbered = types.SimpleNamespace(numbers={}, functions={})
        text = switch.Switched.with_bodies(numbered, "small", source, some)
        self.assertEqual(numbered.numbers, {("small", "first_is_the_second"): 1, ("small", "first_is_none"): 2})
        self.assertEqual(set(numbered.functions.values()), {1})
        self.assertIn("{ match mutation_switch::chosen(1u32) {\n1u32 => {\n        let first = self.1;", text)
        self.assertIn("2u32 => {\n        let first = 0;", text)
        self.assertIn("_ => {\n        let first = self.0;", text)
        self.assertIn("self.0.checked_add(self.1)", text)

    def test_a_change_of_the_contract_has_no_place_there(self):
        text = EDITS.replace("Pair::first\nold: let first = self.0;\nnew: let first = self.1;", "Pair::sum\nold: True\nnew: False")
        self.assertEqual([switch.switched(it) for it in self.read(text)[0]], [False, True])
        self.assertFalse(any(map(switch.switched, self.read(f"{EDITS}compile-error: moved\n")[0][1:])))

    def test_a_witness_is_a_test(self):
        some, _ = self.read(f"{EDITS}witness: let pair = Pair(1, 2);\nwitness: pair.first() == 1\n")
        text = switch.tests_of(some)
        self.assertIn("fn first_is_none(rt: HostRuntime)", text)
        self.assertIn("let pair = Pair(1, 2);", text)
        self.assertIn("let holds = { pair.first() == 1 };", text)
        self.assertNotIn("first_is_the_second", text)
        self.assertEqual(switch.own_test(some[1]), "pairs::pair::witnesses_of_mutations::first_is_none")
        self.assertEqual(switch.tests_of(some[:1]), "")
