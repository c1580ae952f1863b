"""Shows by a test that a mutation means something else: one that passes with the function as it is, and fails with the mutation.

The tests are those of this repository, and the witnesses that mutations state. A program of tests has all mutations (switch.py),
and each test runs in a process of its own. Only tests that call the function are tried, those that take least first.
"""
import concurrent.futures
import functools
import itertools
import os
import pathlib
import re
import shutil
import signal
import subprocess
import tempfile
import time

from proved import ROOT

from . import keys
from .switch import Switched, own_test, switched, tests_of

# The seconds after which the build of a program ends, and those that a test may take beside ten times what it takes by itself.
BUILD_SECONDS, TEST_SECONDS = 1500, 10
LISTED = re.compile(r"(?m)^(\S+): test$")
TEST = re.compile(r"#\[test\]\n(?:.*\n)*? *fn (\w+)")


def test_crates():
    """Returns the crates of this repository that have tests."""
    sources = {it.parent.name: it.glob("**/*.rt") for it in sorted(ROOT.glob("crates/*/src"))}
    return [name for name, files in sources.items() if any("#[test]" in it.read_text() for it in files)]


@functools.cache
def test_text(name):
    """Returns a checksum of the module of a test, crate::module::test, or None where there is no such test."""
    crate, *modules, test = name.split("::")
    for form in ("src/{}.rt", "src/{}/mod.rt"):
        path = ROOT / "crates" / crate / form.format("/".join(modules) or "lib")
        if path.is_file() and test in TEST.findall(path.read_text()):
            return keys.digest(keys.plain(path.read_text()))[:8]
    return None


class Program:
    """A program of tests with all mutations: its crate, and of each test the seconds that it takes and the functions it calls."""

    def __init__(self, crate, path):
        self.crate, self.path, self.tests = crate, path, {}

    def run(self, test, number, seconds, trace=""):
        """Runs a test with a mutation, or with 0 for none, and returns whether it passed."""
        with tempfile.TemporaryDirectory() as room:
            words = {"MUTATION": str(number), "LANG": "C.UTF-8", **({"TRACE": trace} if trace else {})}
            pipes = dict.fromkeys(("stdin", "stdout", "stderr"), subprocess.DEVNULL)
            ran = subprocess.Popen([self.path, test], cwd=room, env=words, start_new_session=True, **pipes)
            try:
                return ran.wait(seconds) == 0
            except subprocess.TimeoutExpired:
                os.killpg(ran.pid, signal.SIGKILL)
                ran.wait()
                return False

    def names(self):
        """Returns the names of its tests."""
        words = {"env": {"MUTATION": "0"}, "capture_output": True, "text": True}
        return LISTED.findall(subprocess.run([self.path, "--list"], **words).stdout)

    def trace(self, test):
        """Runs a test by itself, and notes what it takes and calls; one that fails shows nothing."""
        with tempfile.NamedTemporaryFile() as file:
            begun = time.monotonic()
            if self.run(test, 0, 600, file.name):
                numbers = pathlib.Path(file.name).read_text().split()
                self.tests[test] = time.monotonic() - begun, frozenset(map(int, numbers))
            return test in self.tests

    def fails(self, test, number):
        """Tells whether a test that passes by itself fails with a mutation."""
        taken, _ = self.tests[test]
        return not self.run(test, number, TEST_SECONDS + 10 * taken)


class Witnesses:
    """Looks for witnesses among the tests of crates, in a folder, where the programs have all edits, by crate."""

    def __init__(self, all_edits, room, jobs):
        self.jobs, self.room, self.programs, self.troubles = jobs, pathlib.Path(room), {}, {}
        self.builds = itertools.count()
        self.switched = Switched(self.room / "crates", all_edits)

    def build(self, crate, top):
        """Builds the program of a crate's tests from the crates in a folder."""
        path = self.room / f"{crate}-{next(self.builds)}"
        words = {"RT_ALLOW_C": "mutation_switch", "CFLAGS": f"-DCOPY_TO='\"{path}\"'"}
        pipes = {"stdin": subprocess.DEVNULL, "stdout": subprocess.PIPE, "stderr": subprocess.STDOUT}
        folder = top / "crates" / crate
        told = subprocess.run(["rt", "try", "--test"], cwd=folder, env={**os.environ, **words}, timeout=BUILD_SECONDS, **pipes)
        if not path.is_file():
            self.troubles[crate] = told.stdout.decode(errors="replace").strip()[-600:]
            return None
        return Program(crate, path)

    def program(self, crate):
        """Returns the program of a crate's tests, each of which has run by itself, or None where it can't be built."""
        if crate not in self.programs:
            program = self.programs[crate] = self.build(crate, self.switched.folder)
            if program:
                self.each(program.trace, program.names())
        return self.programs[crate]

    def each(self, call, some):
        with concurrent.futures.ThreadPoolExecutor(self.jobs) as pool:
            return list(pool.map(call, some))

    def of(self, crate, edit, program):
        """Returns the name of a test of a program that fails with an edit, or None."""
        number, function = self.switched.numbers[crate, edit.name], self.switched.functions[crate, edit.name]
        tests = sorted((taken, test) for test, (taken, called) in program.tests.items() if function in called)
        return next((f"{program.crate}::{test}" for _, test in tests if program.fails(test, number)), None)

    def is_shown(self, crate, edit):
        """Tells whether the witness that an edit states holds for its function, and not for the edit."""
        program = self.program(crate)
        if not program or own_test(edit) not in program.tests:
            return False
        if switched(edit):
            return program.fails(own_test(edit), self.switched.numbers[crate, edit.name])
        with tempfile.TemporaryDirectory(dir=self.room) as top:
            shutil.copytree(self.switched.folder, top, dirs_exist_ok=True)
            pathlib.Path(top, "crates", crate, edit.file).write_text(edit.text + tests_of([edit]))
            changed = self.build(crate, pathlib.Path(top))
            return bool(changed) and own_test(edit) in changed.names() and not changed.run(own_test(edit), 0, TEST_SECONDS)

    def tested(self, some, crate):
        """Returns by crate and name those of these edits that a test of a crate tells apart, with the test."""
        program = self.program(crate) if some else None
        if not program:
            return {}
        tests = self.each(lambda pair: self.of(*pair, program), some)
        return {(of, edit.name): test for (of, edit), test in zip(some, tests) if test}
