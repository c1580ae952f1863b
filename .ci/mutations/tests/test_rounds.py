"""Tests how mutations are shared out and tried, with a prover that answers as it is told to."""
import contextlib
import io
import pathlib
import re
import tempfile
import unittest
from unittest import mock

from .. import rounds
from ..edits import edits
from ..verdicts import LATE
from .crates import EDITS, crate

SHARED = EDITS.replace("[first", "[other").replace("Pair::first", "PairClone::clone")
REFUSED = "note: src/pairs/pair.rt:{line}:1: it is not proved (`returns-clause-value`)\nfn {name}: 1 goal is open"


class Crate:
    """A crate that rt ci has proved."""

    name = "small"

    def __init__(self, folder):
        self.folder = folder

    def is_proved(self):
        return True

    def built(self):
        return ["small::pairs::pair::Pair::first", "small::pairs::pair::Pair::sum"]

    def words(self):
        return []


def prover(statuses, proved=()):
    """Returns what stands for a check: it takes these statuses in turn, and refuses all but right bodies and those proved."""

    def run(words, _):
        asked = [words[at + 1] for at, it in enumerate(words) if it == "--only"]
        status = statuses.pop(0) if statuses else 1
        lines = []
        for name in asked:
            is_fine = name.endswith("_0") or name in proved
            lines.append(f"fn {name}: proved" if is_fine else REFUSED.format(line=1, name=name))
        run.rounds.append(asked)
        return status, "\n".join([*lines, f"only={len(asked)} proved=0"]) if status != LATE else "ended"

    run.rounds = []
    return run


def tried(statuses, proved=()):
    """Returns what is told of each mutation, and which functions each check was asked for."""
    told, run = {}, prover(statuses, proved)
    patches = [mock.patch.object(rounds.CHECKS, "run", run), mock.patch.object(rounds.proved, "rattle", lambda: "rattle")]
    with crate() as folder, tempfile.TemporaryDirectory() as room, contextlib.ExitStack() as stack:
        for it in patches:
            stack.enter_context(it)
        stack.enter_context(contextlib.redirect_stdout(io.StringIO()))
        trial = rounds.Trial(Crate(folder), pathlib.Path(room), lambda name, verdict: told.update({name: verdict}))
        trial.run(False)
        if trial.late:
            trial.run_late()
    return told, [[re.sub(".*::", "", it) for it in some] for some in run.rounds]


class Rounds(unittest.TestCase):
    def test_one_check_tries_copies_of_a_function(self):
        told, asked = tried([])
        self.assertEqual(asked, [["first", "first_1", "first_0"]])
        self.assertEqual({name: it[0] for name, it in told.items()}, {"first_is_the_second": True, "first_is_none": True})
        self.assertTrue(told["first_is_none"][1].startswith("clause value"))

    def test_a_mutation_that_is_proved_fails(self):
        told, _ = tried([], ["small::pairs::pair::Pair::first_1"])
        self.assertEqual(told["first_is_none"][:2], (False, "still proved"))
        self.assertTrue(told["first_is_the_second"][0])

    def test_a_round_that_met_the_time_limit_is_tried_again_by_halves(self):
        told, asked = tried([LATE])
        self.assertEqual(asked, [["first", "first_1", "first_0"], ["first", "first_0"], ["first_1", "first_0"]])
        self.assertTrue(all(it[0] for it in told.values()))

    def test_a_mutation_that_meets_the_limit_alone_fails(self):
        told, asked = tried([LATE, LATE, 1])
        self.assertEqual(len(asked), 3)
        self.assertEqual([it[0] for it in told.values()], [False, True])
        self.assertTrue(told["first_is_the_second"][1].startswith("no verdict"))

    def test_a_body_that_must_not_compile_is_alone(self):
        with crate(f"{EDITS}compile-error: moved\n") as folder:
            found = edits(folder, self.fail)
        self.assertEqual([[it.name for it in some] for some in rounds.rounds(found)], [["first_is_the_second"], ["first_is_none"]])

    def test_halves(self):
        self.assertEqual(rounds.halves([1, 2, 3]), [[1, 2], [3]])
        self.assertEqual(rounds.halves([1]), [[1]])
