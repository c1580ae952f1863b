"""What scripts share that run commands and compare what passed with their list of names (floors.py).

Each takes the word --strict, by which a tool that isn't there is a failure, and --update-floor, which writes the list.
"""
import atexit
import contextvars
import functools
import json
import os
import pathlib
import re
import shutil
import subprocess
import sys
import tempfile
import unittest

import floors

ROOT = pathlib.Path(__file__).resolve().parent.parent
# What a contributor's environment may say of compilers and packages, which nothing here is to go by.
UNSET = ("COMMONWARE_C_LIB", "COMMONWARE_CASES", "CGO_CFLAGS", "CGO_LDFLAGS", "RUSTFLAGS", "CARGO_ENCODED_RUSTFLAGS", "PYTHONPATH")
# Node has 64-bit memory by itself from 24 on, and from 20 on by this word.
MEMORY64 = "--experimental-wasm-memory64"
STRICT = "--strict"
# What isn't there, what the words of the command leave out, and what is no command and was looked for otherwise.
missing, left_out, supplied = set(), set(), {}
passed, failed, skipped = [], [], []
# The tools that what is noted now needs.
NEEDED = contextvars.ContextVar("NEEDED", default=())


def words(*known):
    """Returns the words of the command beside those that each script takes. A word that isn't known ends the script."""
    given = [it for it in sys.argv[1:] if it not in (STRICT, floors.UPDATE)]
    if not set(given) <= set(known):
        sys.exit(sys.modules["__main__"].__doc__)
    return given


def supply(what, is_there):
    """Notes whether something that is no command is there, so that `has` knows it by this name; returns that."""
    supplied[what] = bool(is_there)
    return supplied[what]


def has(*tools):
    """Tells whether all of these tools are there, and notes those that aren't."""
    gone = {it for it in tools if not (supplied[it] if it in supplied else shutil.which(it))}
    missing.update(gone - left_out)
    return not gone and not left_out.intersection(tools)


def needs(*tools):
    """Makes of a function one that does nothing where one of these tools isn't there. What it notes needs them."""

    def made(function):
        @functools.wraps(function)
        def called(*given, **named):
            if not has(*tools):
                return None
            before = NEEDED.set((*NEEDED.get(), *tools))
            try:
                return function(*given, **named)
            finally:
                NEEDED.reset(before)

        return called

    return made


def submit(pool, function, *given):
    """Has a pool call a function, and returns the task. What it notes needs what is needed here too."""
    return pool.submit(contextvars.copy_context().run, function, *given)


def note(good, what, why=""):
    """Notes whether something holds, and says what doesn't. Where it isn't known, since a test was skipped, good is None."""
    (skipped if good is None else passed if good else failed).append(floors.line_of(what, NEEDED.get()))
    if good is not None and not good:
        print(f"{what}{why and ': ' + why}", flush=True)


def tell(words, folder=ROOT, text=None, **environment):
    """Runs a command and returns what came of it. A variable of the environment that is empty is taken away."""
    variables = {**os.environ, **dict.fromkeys(UNSET, ""), **environment}
    variables = {name: value for name, value in variables.items() if value}
    return subprocess.run([*map(str, words)], cwd=folder, input=text, capture_output=True, env=variables)


def run(what, words, folder=ROOT, text=None, **environment):
    """Runs a command, notes whether it ends well, and returns what it prints."""
    told = tell(words, folder, text, **environment)
    note(told.returncode == 0, what, (told.stdout + told.stderr).decode(errors="replace")[-2000:])
    return told.stdout


def run_tests(what, names_of, words, folder=ROOT, **environment):
    """Runs a command that runs tests, notes each by the names that a function takes from what is printed, and returns that.

    The function returns of each test its name and whether it passed, which is None where it was skipped.
    """
    told = tell(["sh", "-c", 'exec "$@" 2>&1', "sh", *words], folder, **environment)
    text = told.stdout.decode(errors="replace")
    found = names_of(text)
    for name, good in found:
        note(good, f"{what}: {name}")
    note(bool(found), f"{what}: a test is found", "none is")
    note(told.returncode == 0, f"{what}: they end well", text[-4000:])
    return text


# How runners of tests say that one has passed, failed, or was skipped.
ENDS = dict.fromkeys(("ok", "pass"), True) | dict.fromkeys(("FAILED", "FAIL", "ERROR", "fail"), False)
ENDS |= dict.fromkeys(("ignored", "skipped", "skip"))


def tests_of_cargo(text):
    """Returns the tests that cargo names, each after its file, with whether it passed. A name has no number of a line."""
    file, found = "", []
    for line in text.splitlines():
        head = re.match(r" +(?:Running (?:unittests )?(\S+) \(|(Doc-tests) )", line)
        file = (head[1] or "doc") if head else file
        test = re.match(r"test (.*?)(?: \(line \d+\))?(?: - should panic| - compile(?: fail)?)* \.\.\. (\w+)", line)
        found += [(f"{file}: {test[1]}", ENDS.get(test[2], False))] if test else []
    return found


def tests_of_python(text):
    """Returns the tests that unittest names, with whether each passed. Versions of Python write the path of one differently."""
    found = re.findall(r"(?m)^(\w+) \(([\w.]*)\)(?:\n.*)? \.\.\. (ok|FAIL|ERROR|skipped)\b", text)
    return [(path if path.endswith(f".{name}") else f"{path}.{name}".strip("."), ENDS[end]) for name, path, end in found]


def tests_of_go(text):
    """Returns the tests and examples that go test names, with whether each passed."""
    events = [json.loads(it) for it in text.splitlines() if it.startswith("{")]
    return [(it["Test"], ENDS[it["Action"]]) for it in events if it.get("Test") and it["Action"] in ENDS]


def tests_of_lines(text):
    """Returns what lines 'ok WHAT' and 'not ok WHAT' name, with whether it holds."""
    return [(what, word == "ok") for word, what in re.findall(r"(?m)^(ok|not ok) (.*)$", text)]


def node():
    """Returns how Node is called so that it has 64-bit memory."""
    has_word = tell(["node", MEMORY64, "-e", ""]).returncode == 0
    return ["node", *([MEMORY64] if has_word else [])]


def without_rt(folder):
    """Returns a folder with links to all that a folder of the path has, but for rt."""
    room = tempfile.mkdtemp()
    atexit.register(shutil.rmtree, room, ignore_errors=True)
    for path in pathlib.Path(folder).iterdir():
        if path.name != "rt":
            os.symlink(path, os.path.join(room, path.name))
    return room


@functools.cache
def path_without_rt():
    """Returns the folders of the path, where one that has rt is replaced by one without it."""
    folders = os.environ["PATH"].split(os.pathsep)
    return os.pathsep.join(without_rt(it) if os.access(os.path.join(it, "rt"), os.X_OK) else it for it in folders)


class Result(unittest.TextTestResult):
    """A result that notes each test."""

    def addSuccess(self, test):
        super().addSuccess(test)
        note(True, test.id())

    def addError(self, test, err):
        super().addError(test, err)
        note(False, test.id())

    def addFailure(self, test, err):
        super().addFailure(test, err)
        note(False, test.id())

    def addSubTest(self, test, subtest, err):
        super().addSubTest(test, subtest, err)
        if err:
            note(False, subtest.id())


def run_unittests(folder):
    """Runs the tests in Python of a folder beside this file, and notes each."""
    top = pathlib.Path(__file__).resolve().parent
    found = unittest.defaultTestLoader.discover(str(top / folder), top_level_dir=str(top))
    unittest.TextTestRunner(stream=sys.stdout, verbosity=0, resultclass=Result).run(found)


def finish(name):
    """Compares what passed with the list of names, says how many passed, and returns the status to end with."""
    lacks = [f"{name}: no {it}: what needs it isn't tried" for it in sorted(missing)]
    for it in lacks + [f"{name}: skipped: {it}" for it in sorted(skipped)]:
        if STRICT in sys.argv:
            note(False, it, f"{STRICT} refuses that")
        else:
            print(it)
    print("".join(f"{name}: what needs {it} is left out\n" for it in sorted(left_out)), end="")
    wrong = floors.hold(name, passed, failed, skipped, missing | left_out, floors.UPDATE in sys.argv)
    print(f"{name}: {len(passed)} passed, {len(failed) + wrong} failed")
    return bool(failed or wrong)
