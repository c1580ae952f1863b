"""Tests how the prover's words are read, over outputs that were kept.

Each folder of .ci/prover_outputs has what the prover said in one check, word by word, without the paths of a machine (of a large
one the lines on some functions), and cases: a mutation's function before and after, where it stands in the file that was checked,
and what the words on it have to begin with. Each rule is needed: with lines that aren't joined, or all goals taken for reached, a
case is read otherwise.
"""
import pathlib
import re
import unittest
from unittest import mock

from .. import paths, verdicts

OUTPUTS = pathlib.Path(__file__).resolve().parents[2] / "prover_outputs"


def cases():
    """Returns the cases of each output: their name, their lines, the function before and after, and the output."""
    for path in sorted(OUTPUTS.glob("*/cases")):
        for case in re.split(r"(?m)^== ", path.read_text())[1:]:
            name, head, was, now = re.fullmatch(r"(.*?)\n(.*?)was:\n(.*?)now:\n(.*?)\n*", case, re.S).groups()
            given = dict(line.split(": ", 1) for line in head.splitlines())
            yield f"{path.parent.name}/{name}", given, was, now + "\n", (path.parent / "output").read_text()


def read(given, was, now, output, is_all_reached=False):
    """Returns what is read of a case: whether the mutation is refused, why, and by whose answers alone, if that is so."""
    change = None if is_all_reached else paths.Change(was, now, given["file"], int(given["line"]))
    verdict = verdicts.Said(int(given["status"]), output).verdict(given["function"], change)
    return f"{'refused' if verdict.is_refused else 'not refused'}: {verdict.why}", " ".join(sorted(verdict.by_answers))


def is_read(given, *more):
    """Tells whether a case is read as it has to be."""
    why, answers = read(given, *more)
    return why.startswith(given["read"]) and answers == given.get("answers", "")


class Words(unittest.TestCase):
    def test_cases(self):
        for name, given, was, now, output in cases():
            with self.subTest(name):
                self.assertTrue(is_read(given, was, now, output), read(given, was, now, output)[0][:200])

    def test_reached_goals_are_needed(self):
        self.assertFalse(all(is_read(*it[1:], True) for it in cases()))

    def test_joined_lines_are_needed(self):
        with mock.patch.object(verdicts, "CONTINUED", re.compile(r"(?!)")):
            self.assertFalse(all(is_read(*it[1:]) for it in cases()))

    def test_an_answer_that_fits_no_more_does_not_name_its_goal(self):
        open_goal = "note: src/lib.rt:3:5: not proved (`returns-clause-value`)\n"
        no_term = "proofs/f/Answers.antt:4:1: error: `returns-clause-cost`: record `Lts.View` expects a number\n"
        for text, by in (
            (open_goal, ("clause value",)),
            (no_term + open_goal, ("clause value",)),
            (no_term, ("clause cost",)),
        ):
            said = verdicts.Said(1, f"{text}fn a::f: not proved\nlogic=not-proved")
            self.assertEqual(said.verdict("a::f").by, by)

    def test_the_time_limit_is_no_verdict(self):
        said = verdicts.Said(verdicts.LATE, "fn a::f: proved\nended after 1200 seconds")
        self.assertTrue(said.is_late)
        self.assertFalse(said.verdict("a::f").is_refused)
