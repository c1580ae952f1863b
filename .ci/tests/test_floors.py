"""How what passed is compared with a list of names: what fails, and what is said of it."""
import contextlib
import io
import os
import pathlib
import runpy
import shutil
import subprocess
import sys
import tempfile
import unittest
from unittest import mock

import floors
import trial

TOP = pathlib.Path(__file__).resolve().parents[1]
# A script whose list is in the folder of its first word. It notes one thing, and another that needs a tool.
SCRIPT = """
import pathlib, sys
import floors, trial
floors.FOLDER = pathlib.Path(sys.argv.pop(1))
trial.note(True, "here")
trial.needs("cargo")(trial.note)(GOOD, "there")
sys.exit(trial.finish("some"))
"""
# What bash scripts end with.
BASH = """
. "$top/.ci/expect"
cd "$top"
program=it
for word in $cases; do
    run ''
    (exit "${status-0}")
    expect "$word" 0 '' ''
done
report some
"""


class WithFloor(unittest.TestCase):
    """Tests with a folder of lists, in which that of `some` has two names."""

    def setUp(self):
        folder = tempfile.TemporaryDirectory()
        self.addCleanup(folder.cleanup)
        self.folder = pathlib.Path(folder.name)
        patch = mock.patch.object(floors, "FOLDER", self.folder)
        patch.start()
        self.addCleanup(patch.stop)
        self.path = self.folder / "some.txt"
        self.path.write_text("here\nthere [needs cargo]\n")

    def hold(self, passed, **more):
        """Returns how much is wrong with what passed, and what is said."""
        with contextlib.redirect_stdout(io.StringIO()) as said:
            return floors.hold("some", passed, **more), said.getvalue()


class Names(WithFloor):
    def test_the_names_of_the_list_pass(self):
        self.assertEqual(self.hold(["there [needs cargo]", "here"]), (0, ""))

    def test_a_missing_name_fails(self):
        said = "some: .ci/floors/some.txt has this, and it didn't pass: there [needs cargo]\n"
        self.assertEqual(self.hold(["here"]), (1, said))

    def test_a_new_name_fails(self):
        said = "some: this passed, and .ci/floors/some.txt lacks it (--update-floor adds it): new\n"
        self.assertEqual(self.hold(["here", "new", "there [needs cargo]"]), (1, said))

    def test_an_empty_run_fails(self):
        number, said = self.hold([])
        self.assertEqual(number, 3)
        self.assertTrue(said.startswith("some: nothing passed\n"))
        self.path.unlink()
        self.assertEqual(self.hold([]), (1, "some: nothing passed\n"))
        self.path.write_text("there [needs cargo]\n")
        self.assertEqual(self.hold([], gone={"cargo"}), (1, "some: nothing passed\n"))

    def test_a_name_that_is_there_twice_has_to_pass_twice(self):
        self.path.write_text("here\nhere\n")
        self.assertEqual(self.hold(["here"])[0], 1)
        self.assertEqual(self.hold(["here", "here"])[0], 0)
        self.assertEqual(self.hold(["here", "here", "here"])[0], 1)

    def test_what_failed_is_not_said_again(self):
        self.assertEqual(self.hold(["here"], failed=["there [needs cargo]"]), (0, ""))

    def test_what_was_skipped_is_not_looked_for(self):
        self.assertEqual(self.hold(["here"], skipped=["there [needs cargo]"]), (0, ""))

    def test_what_needs_a_tool_that_is_gone_is_not_looked_for(self):
        self.assertEqual(self.hold(["here"], gone={"cargo"}), (0, ""))
        self.assertEqual(self.hold(["here"], gone={"go"})[0], 1)

    def test_a_list_that_is_not_there_has_no_name(self):
        self.path.unlink()
        self.assertEqual(self.hold(["here"])[0], 1)


class Lines(unittest.TestCase):
    def test_tools_are_sorted_and_each_is_there_once(self):
        self.assertEqual(floors.line_of("a", ["go", "cc", "go"]), "a [needs cc, go]")
        self.assertEqual(floors.needs_of("a [needs cc, go]"), {"cc", "go"})

    def test_a_name_without_tools(self):
        self.assertEqual(floors.line_of("a [b]"), "a [b]")
        self.assertEqual(floors.needs_of("a [b]"), set())

    def test_a_name_that_is_not_plain_is_quoted(self):
        self.assertEqual([floors.line_of(it) for it in ("", "a ", "a\nb")], ["''", "'a '", "'a\\nb'"])


class Updates(WithFloor):
    def test_the_list_is_written_sorted(self):
        self.assertEqual(self.hold(["new", "here"], is_updated=True), (0, ""))
        self.assertEqual(self.path.read_text(), "here\nnew\n")

    def test_what_was_skipped_or_needs_a_tool_that_is_gone_is_kept(self):
        for more in ({"gone": {"cargo"}}, {"skipped": ["there [needs cargo]", "never"]}):
            self.hold(["a"], is_updated=True, **more)
            self.assertEqual(self.path.read_text(), "a\nthere [needs cargo]\n")

    def test_the_list_stays_where_something_failed_or_nothing_passed(self):
        before = self.path.read_text()
        for passed, failed, why in ((["here"], ["there"], "something failed"), ([], [], "nothing passed")):
            number, said = self.hold(passed, failed=failed, is_updated=True)
            self.assertGreater(number, 0)
            self.assertIn(f"some: the list of names isn't written, since {why}\n", said)
            self.assertEqual(self.path.read_text(), before)


class Scripts(WithFloor):
    def end(self, *words, good=True, path=os.environ["PATH"]):
        """Returns the status of a script in Python with these words, and what it says."""
        settings = {"PATH": path, "PYTHONPATH": str(TOP), "PYTHONDONTWRITEBYTECODE": "1"}
        command = [sys.executable, "-c", SCRIPT.replace("GOOD", str(good)), self.folder, *words]
        told = subprocess.run(command, env=settings, capture_output=True, text=True)
        self.assertEqual(told.stderr, "")
        return told.returncode, told.stdout

    def tools(self, *names):
        """Returns a path on which these tools are."""
        folder = self.folder / "tools"
        folder.mkdir(exist_ok=True)
        for it in names:
            (folder / it).touch(0o755)
        return str(folder)

    def test_all_is_there(self):
        for words in ([], ["--strict"]):
            self.assertEqual(self.end(*words, path=self.tools("cargo")), (0, "some: 2 passed, 0 failed\n"))

    def test_a_missing_tool_is_named(self):
        said = "some: no cargo: what needs it isn't tried\nsome: 1 passed, 0 failed\n"
        self.assertEqual(self.end(path=self.tools()), (0, said))

    def test_a_missing_tool_fails_where_it_is_strict(self):
        status, said = self.end("--strict", path=self.tools())
        self.assertEqual(status, 1)
        self.assertIn("some: no cargo", said)
        self.assertTrue(said.endswith("some: 1 passed, 1 failed\n"), said)

    def test_a_test_that_is_skipped_is_named_and_fails_where_it_is_strict(self):
        said = "some: skipped: there [needs cargo]\nsome: 1 passed, 0 failed\n"
        self.assertEqual(self.end(good=None, path=self.tools("cargo")), (0, said))
        status, said = self.end("--strict", good=None, path=self.tools("cargo"))
        self.assertEqual(status, 1)
        self.assertTrue(said.endswith("some: 1 passed, 1 failed\n"), said)

    def test_what_fails_fails_once(self):
        status, said = self.end(good=False, path=self.tools("cargo"))
        self.assertEqual((status, said), (1, "there\nsome: 1 passed, 1 failed\n"))

    def test_the_list_is_written(self):
        self.path.unlink()
        self.assertEqual(self.end("--update-floor", path=self.tools("cargo"))[0], 0)
        self.assertEqual(self.path.read_text(), "here\nthere [needs cargo]\n")


class Bash(unittest.TestCase):
    def end(self, cases, *words, **settings):
        """Returns the status of a script in bash that tries these cases, and what it says."""
        with tempfile.TemporaryDirectory() as folder:
            top = pathlib.Path(folder)
            (top / ".ci/floors").mkdir(parents=True)
            for it in ("expect", "floors.py"):
                shutil.copy2(TOP / it, top / ".ci")
            (top / "some").write_text(BASH)
            (top / "it").write_text("#!/bin/sh\n")
            (top / "it").chmod(0o755)
            (top / ".ci/floors/some.txt").write_text("it: one\nit: two\n")
            settings |= {"PATH": f"{folder}:{os.environ['PATH']}", "top": folder, "cases": cases}
            told = subprocess.run(["bash", top / "some", *words], env=settings, capture_output=True, text=True)
            return told.returncode, told.stdout + told.stderr

    def test_the_names_of_the_list_pass(self):
        self.assertEqual(self.end("one two"), (0, "some: 2 passed, 0 failed\n"))

    def test_a_missing_and_a_new_name_fail(self):
        status, said = self.end("one new")
        self.assertEqual(status, 1)
        self.assertIn("some: .ci/floors/some.txt has this, and it didn't pass: it: two\n", said)
        self.assertIn("some: this passed, and .ci/floors/some.txt lacks it (--update-floor adds it): it: new\n", said)

    def test_an_empty_run_fails(self):
        status, said = self.end("")
        self.assertEqual(status, 1)
        self.assertTrue(said.startswith("some: nothing passed\n"), said)

    def test_what_fails_fails_once(self):
        status, said = self.end("one two", status="1")
        self.assertEqual(status, 1)
        self.assertTrue(said.endswith("some: nothing passed\nsome: 0 passed, 3 failed\n"), said)
        self.assertNotIn("didn't pass", said)

    def test_the_list_is_written(self):
        self.assertEqual(self.end("one new", "--update-floor"), (0, "some: 2 passed, 0 failed\n"))


# The stages without a list of names.
UNLISTED = {"widths", "documents", "promises", "promises_tests", "clauses", "wrong_bodies"}


class Stages(unittest.TestCase):
    def test_the_gate_ends_with_the_list_of_its_stages(self):
        lines = (TOP / "run").read_text().splitlines()
        self.assertEqual(lines[-1], ".ci/floors.py stages out/stages")
        stages = [it.split()[1] for it in lines if it.startswith("stage ")]
        self.assertEqual(sorted(stages), (TOP / "floors/stages.txt").read_text().splitlines())

    def test_each_list_is_that_of_a_stage(self):
        names = {pathlib.Path(it).name for it in (TOP / "floors/stages.txt").read_text().splitlines()}
        lists = {it.stem for it in (TOP / "floors").iterdir()}
        self.assertEqual(lists - {"stages"}, names - UNLISTED)


class Runners(unittest.TestCase):
    """What runners of tests print, as they print it."""

    def test_cargo(self):
        text = """
     Running unittests src/lib.rs (target/release/deps/some-7d941e4c2017561e)

running 0 tests

     Running tests/keys.rs (target/release/deps/keys-3210f5e88ee5da80)
test sizes::each ... ok
test late ... ignored
test wrong ... FAILED
test panics - should panic ... ok
   Doc-tests some
test src/lib.rs - Set::new (line 12) ... ok
test src/lib.rs - Set::run (line 30) - compile ... ok
test result: ok. 3 passed; 0 failed; 0 ignored; 0 measured; 0 filtered out; finished in 0.00s
"""
        names = [("tests/keys.rs: sizes::each", True), ("tests/keys.rs: late", None), ("tests/keys.rs: wrong", False)]
        names += [("tests/keys.rs: panics", True)]
        names += [("doc: src/lib.rs - Set::new", True), ("doc: src/lib.rs - Set::run", True)]
        self.assertEqual(trial.tests_of_cargo(text), names)

    def test_python(self):
        text = """test_one (tests.test_sets.Sets.test_one) ... ok
test_two (tests.test_sets.Sets)
It is a sentence. ... ok
test_three (tests.test_sets.Sets) ... skipped 'no pip'
test_four (tests.test_sets.Sets.test_four) ... FAIL
read (some.sets.SetView)
Doctest: some.sets.SetView.read ... ok
some ()
Doctest: some ... ok
"""
        names = [("tests.test_sets.Sets.test_one", True), ("tests.test_sets.Sets.test_two", True)]
        names += [("tests.test_sets.Sets.test_three", None), ("tests.test_sets.Sets.test_four", False)]
        names += [("some.sets.SetView.read", True), ("some", True)]
        self.assertEqual(trial.tests_of_python(text), names)

    def test_go(self):
        text = """{"Action":"run","Package":"some","Test":"TestOne"}
go: a line that isn't an event
{"Action":"pass","Package":"some","Test":"TestOne/part","Elapsed":0.1}
{"Action":"fail","Package":"some","Test":"TestOne","Elapsed":0.1}
{"Action":"skip","Package":"some","Test":"TestTwo","Elapsed":0}
{"Action":"pass","Package":"some","Elapsed":0.2}
"""
        self.assertEqual(trial.tests_of_go(text), [("TestOne/part", True), ("TestOne", False), ("TestTwo", None)])

    def test_rt_ci(self):
        text = """== low
rt: low proved
rt: high is kept: an earlier run on this machine proved the same files over the same libraries
rt: high: its tests are proved
rt: wrong NOT PROVED
test rows::one ... ok
test rows::two ... FAILED
test result: FAILED. 1 passed; 1 failed
rt: high: its tests FAILED
test rows::one ... ok
rt: high: its tests passed
rt: program ran, and wrote what its file stdout has
rt: program ran (built by Rattle's own compiler), and wrote what its file stdout has
"""
        names = [("low: its proof", True), ("high: its proof", True)]
        names += [("high: rows::one", True), ("high: rows::two", False), ("high: its tests", False)]
        names += [("high: rows::one", True), ("high: its tests", True)]
        names += [("program: it runs", True), ("program: it runs, built by Rattle's own compiler", True)]
        self.assertEqual(runpy.run_path(str(TOP / "rattle_tests"))["tests_of"](text), names)

    def test_lines(self):
        text = "ok a: b\nnot ok c\n    why\n# 3 cases\nokay\n"
        self.assertEqual(trial.tests_of_lines(text), [("a: b", True), ("c", False)])
