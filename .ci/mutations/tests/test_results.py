"""Tests what is concluded of mutations, and what the ledgers say of them."""
import contextlib
import io
import pathlib
import tempfile
import types
import unittest
from unittest import mock

from .. import keys, ledger, results
from ..verdicts import SHAPE, Verdict

REFUSED = Verdict(True, "clause value: ..", by=("clause value", "goal loop-x-preserved"))
FALSE = REFUSED._replace(has_values=True)
SAID = {"witness": [], "reason": [], "compile-error": []}


def edit(name, key, is_right=False, **said):
    return types.SimpleNamespace(name=name, wanted=key, is_right=is_right, said={**SAID, **said})


class Conclusions(unittest.TestCase):
    def setUp(self):
        self.folder = pathlib.Path(self.enterContext(tempfile.TemporaryDirectory()))
        (self.folder / "crates/small/wrong-bodies").mkdir(parents=True)
        self.enterContext(contextlib.redirect_stdout(io.StringIO()))
        self.sums = {"small::bench::a": "01234567"}
        for patch in (
            mock.patch.object(ledger, "ROOT", self.folder),
            mock.patch.object(ledger, "test_text", self.sums.get),
            mock.patch.object(keys, "key", lambda _, it: it.wanted),
            mock.patch.object(results, "sampled", lambda names: {it for it in names if it[1] in self.again}),
        ):
            self.enterContext(patch)
        self.again = []

    def run_of(self, edits, verdicts, tests={}, is_anew=False):
        """Returns the names that a run tries, which then finds these verdicts and tests, and what fails; it writes the ledger."""
        run = results.Results(is_anew, True)
        run.take("small", edits)
        tried = [name for _, name in run.choose()]
        for name in tried:
            run.tell("small", name, verdicts[name])
        for at in run.unshown():
            run.show(at, tests.get(at[1]))
        run.write()
        return tried, {name: why for (_, name), why in run.failed.items()}

    def test_what_the_prover_says_alone_is_no_refusal(self):
        some = [edit("a", "1"), edit("b", "2"), edit("c", "3", reason=["a ghost"])]
        tried, failed = self.run_of(some, {"a": REFUSED, "b": FALSE, "c": REFUSED})
        self.assertEqual((tried, list(failed)), (["a", "b", "c"], ["a"]))
        self.assertIn("nothing shows that it is wrong", failed["a"])
        lines = ledger.read("small")
        self.assertEqual({name: it.kind() for name, it in lines.items()}, {"b": ledger.VALUES, "c": ledger.REASON})
        self.assertEqual(lines["b"].by, ("clause value", "goal loop-x-preserved"))

    def test_a_witness_shows_it(self):
        found = self.run_of([edit("a", "1")], {"a": REFUSED}, {"a": ledger.witness("small::bench::a")})
        self.assertEqual(found, (["a"], {}))
        self.assertEqual(ledger.read("small")["a"].test(), "small::bench::a")
        self.assertEqual(self.run_of([edit("a", "1")], {}), ([], {}))

    def test_a_line_holds_until_its_key_or_its_test_changes(self):
        told = {"a": ledger.witness("small::bench::a")}
        self.run_of([edit("a", "1")], {"a": REFUSED}, told)
        self.assertEqual(self.run_of([edit("a", "2")], {"a": REFUSED}, told), (["a"], {}))
        self.sums["small::bench::a"] = "another"
        self.assertEqual(self.run_of([edit("a", "2")], {"a": FALSE})[0], ["a"])
        self.assertEqual(self.run_of([edit("a", "2")], {}), ([], {}))
        self.assertEqual(self.run_of([edit("a", "2")], {"a": FALSE}, is_anew=True)[0], ["a"])

    def test_a_line_of_a_stated_witness_holds_until_that_changes(self):
        stated = lambda code: edit("a", "1", witness=[code])
        told = {"a": ledger.own_witness(stated("first() == 1"))}
        self.assertEqual(self.run_of([stated("first() == 1")], {"a": REFUSED}, told), (["a"], {}))
        self.assertEqual(self.run_of([stated("first() == 1")], {}), ([], {}))
        self.assertEqual(self.run_of([stated("first() == 2")], {"a": FALSE})[0], ["a"])

    def test_lines_of_no_mutation_go(self):
        self.run_of([edit("a", "1"), edit("b", "2")], {"a": FALSE, "b": FALSE})
        self.run_of([edit("b", "2")], {})
        self.assertEqual(list(ledger.read("small")), ["b"])

    def test_what_is_tried_again_has_to_agree_with_its_line(self):
        self.run_of([edit("a", "1")], {"a": FALSE})
        self.again = ["a"]
        self.assertEqual(self.run_of([edit("a", "1")], {"a": FALSE}), (["a"], {}))
        other = FALSE._replace(by=("clause other",))
        for verdict, why in [
            (Verdict(False, "still proved"), "still proved"),
            (other, "clause value refuses it, and now clause other does"),
            (REFUSED, "now it has none"),
        ]:
            self.assertIn(why, self.run_of([edit("a", "1")], {"a": verdict})[1]["a"])

    def test_right_bodies_are_tried_and_have_no_line(self):
        some = [edit("a", "1", is_right=True)]
        self.assertEqual(self.run_of(some, {"a": REFUSED}), (["a"], {}))
        self.assertEqual(self.run_of(some, {"a": Verdict(False, f"{SHAPE}error")}), (["a"], {}))
        self.assertIn("with values", self.run_of(some, {"a": FALSE})[1]["a"])
        self.assertIn("has no field", self.run_of(some, {"a": Verdict(False, "has no field")})[1]["a"])
        shown = self.run_of(some, {"a": REFUSED}, {"a": ledger.witness("small::bench::a")}, is_anew=True)[1]
        self.assertIn("a right body is shown to be wrong", shown["a"])
        self.assertEqual(ledger.read("small"), {})


class Sample(unittest.TestCase):
    def test_it_is_a_twentieth_that_the_commit_determines(self):
        names = [("small", str(it)) for it in range(1000)]
        self.assertEqual(len(results.sampled(names)), 50)
        self.assertEqual(results.sampled(names), results.sampled(names[::-1]))
