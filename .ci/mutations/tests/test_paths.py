"""Tests which goals a change of a body reaches."""
import unittest

from .. import paths

TWO_READS = """fn f(a: &[u8], b: &[u8]) -> Result<u8, E> {
    if a.len() < 2 {
        return Err(E::Short);
    }
    let one = read(a)?;
    let two = read(b)?;
    match join(one, two) {
        Ok(both) => Ok(both),
        Err(Cause::Few) => Err(E::Few),
        Err(Cause::Many) => Err(E::Many),
    }
}
"""
LOOP = """fn f(out: &mut Out, bytes: &[u8]) -> Result<(), E> {
    let mut rest = bytes;
    while !rest.is_empty() {
        match out.write(rest) {
            Ok(n) if n > 0 => rest = &rest[n..],
            _ => return Err(E::Write),
        }
    }
    Ok(())
}
"""
BRANCH = LOOP.replace("match out", "if !out.put(rest)? {\n            return Err(E::Full);\n        }\n        match out")
JOIN = """fn f(&mut self) -> Result<(), E> {
    let result = self.inner.flush();
    if result.is_err() {
        self.failed = true;
    }
    result
}
"""
DIGIT = """fn f(digit: u8) -> Option<u8> {
    match digit {
        b'0'..=b'9' => Some(digit - b'0'),
        b'a'..=b'f' => Some(digit - b'a' + 10),
        _ => None,
    }
}
"""
REST = """fn f<'a>(texts: &'a [u8]) -> &'a [u8] {
    match texts {
        [_, words @ ..] => words,
        none => none,
    }
}
"""
SHORT = """fn f(src: &mut Source) -> Result<u32, E> {
    if let Some((number, count)) = short(src) {
        src.advance(count);
        return Ok(number);
    }
    let count = long(src)?;
    if let Err(error) = src.check(count) {
        src.back(count);
        Err(error)
    } else {
        Ok(value(src))
    }
}
"""
# A body, what is changed in it and to what; goals that this reaches, and goals that it does not, each with a line and a column of
# the changed body where the prover would say them.
BODIES = [
    (
        "a value at one exit reaches that exit alone",
        (TWO_READS, "E::Short", "E::Few"),
        [("returns-then-len-lt2-clause-c", 3, 9)],
        [("returns-in_err-one-clause-c", 5, 15), ("returns-in-Ok-clause-c", 1, 1), ("returns-clause-c", 1, 1)],
    ),
    (
        "a test reaches what it leads to and what follows",
        (TWO_READS, "a.len() < 2", "a.len() < 3"),
        [("returns-then-len-lt3", 3, 9), ("returns-in_err-one", 5, 15), ("returns-in-Ok", 1, 1)],
        [],
    ),
    (
        "an arm at the end reaches its own exit",
        (TWO_READS, "Err(E::Few)", "Err(E::Many)"),
        [("returns-in-Err-Few-clause-c", 1, 1), ("returns-in-Err-Few", None, None)],
        [("returns-in-Ok", 1, 1), ("returns", 1, 1), ("returns-in_err-two", 6, 15), ("returns-in_err-two", None, None)],
    ),
    (
        "the last arm's exit has no name of its own",
        (TWO_READS, "Err(E::Many),", "Err(E::Few),"),
        [("returns-clause-c", 1, 1)],
        [("returns-in-Ok-clause-c", 1, 1), ("returns-in-Err-Few-clause-c", 1, 1)],
    ),
    (
        "an arm of bytes has their numbers as its name",
        (DIGIT, "b'a' + 10", "b'a' + 11"),
        [("returns-in-97-to-102-clause-c", 1, 1), ("overflow_add-result", 4, 29)],
        [("returns-in-48-to-57-clause-c", 1, 1), ("returns-in_default-clause-c", 1, 1), ("overflow_sub-result", 3, 29)],
    ),
    (
        "an arm of a slice has its length as its name",
        (REST, "=> words", "=> texts"),
        [("returns-in-len1-up", 1, 1)],
        [("returns-in_default", 1, 1)],
    ),
    (
        "an arm that takes what is left is the rest",
        (REST, "=> none", "=> &texts[..0]"),
        [("returns-in_default", 1, 1), ("slice_bounds-texts-end", 4, 18)],
        [("returns-in-len1-up", 1, 1)],
    ),
    (
        "a second read of the same reaches where it leaves, and nothing after it",
        (TWO_READS, "    let one", "    let _early = read(b)?;\n    let one"),
        [("returns-in_err-_early", 5, 18)],
        [("returns-in_err-one", 6, 15), ("returns-in_err-two", 7, 15), ("returns-in-Ok", 1, 1)],
    ),
    (
        "statements that trade places reach what is between them",
        (TWO_READS, "    let one = read(a)?;\n    let two = read(b)?;", "    let two = read(b)?;\n    let one = read(a)?;"),
        [("returns-in_err-two", 5, 15), ("returns-in_err-one", 6, 15)],
        [("returns-then-len-lt2", 3, 9), ("returns-in-Ok", 1, 1)],
    ),
    (
        "a return that was put in reaches itself alone",
        (TWO_READS, "    let two", "    if one > 9 {\n        return Ok(0);\n    }\n    let two"),
        [("returns-then-one-gt9", 7, 9)],
        [("returns-in_err-one", 5, 15), ("returns-in_err-two", 9, 15), ("returns-in-Ok", 1, 1)],
    ),
    (
        "a return before all the rest is the function's end",
        (TWO_READS, "    let one", "    return Ok(0);\n    let one"),
        [("returns-clause-c", 5, 5), ("returns-clause-c", None, None)],
        [("returns-then-len-lt2", 3, 9), ("returns-then-len-lt2", None, None)],
    ),
    (
        "a variable's first value reaches all that follows",
        (LOOP, "    let mut rest = bytes;\n", "    let mut rest = &bytes[1..];\n"),
        [("loop-rest-init", 3, 5), ("returns-in_default-clause-c", 6, 18), ("returns-clause-c", 1, 1)],
        [],
    ),
    (
        "a turn of a loop reaches what the invariant keeps, and nothing after the loop",
        (LOOP, "&rest[n..]", "&rest[1..]"),
        [("loop-rest-preserved", 3, 5), ("loop-rest-preserved", None, None), ("slice_bounds-rest-start", 5, 38)],
        [("loop-rest-init", 3, 5), ("write-requires", 4, 15), ("returns-in_default-clause-c", 6, 18), ("returns-clause-c", 1, 1)],
    ),
    (
        "an effect that is gone reaches all that follows",
        (JOIN, "    if result.is_err() {\n        self.failed = true;\n    }\n", ""),
        [("returns-clause-c", 1, 1)],
        [("flush-result-requires", 2, 29)],
    ),
    (
        "the first arm of an if let is called by its pattern",
        (SHORT, "advance(count)", "advance(1)"),
        [("returns-in-Some-clause-c", None, None), ("returns-in-Some-clause-c", 4, 9)],
        [("returns-in_err-long-clause-c", 6, 17), ("returns-in-Err-clause-c", 1, 1), ("returns-in_default-clause-c", 1, 1)],
    ),
    (
        "the other arm of an if let is the rest",
        (SHORT, "Ok(value(src))", "Ok(0)"),
        [("returns-in_default-clause-c", 1, 1)],
        [("returns-in-Err-clause-c", 1, 1), ("returns-in-Some-clause-c", 4, 9), ("returns-in_err-long-clause-c", 6, 17)],
    ),
    (
        "a test of a call with a question mark is called a branch",
        (BRANCH, "E::Full", "E::Write"),
        [("returns-then-not-branch-clause-c", None, None), ("returns-then-not-branch-clause-c", 5, 13)],
        [("returns-clause-c", 1, 1), ("loop-rest-preserved", 3, 5), ("returns-in_err-put", 4, 17)],
    ),
    (
        "an exit of a loop reaches itself",
        (LOOP, "return Err(E::Write)", "return Ok(())"),
        [("returns-in_default-clause-c", 6, 18), ("returns-in_default-2-clause-c", 6, 18)],
        [("loop-rest-preserved", 3, 5), ("returns-clause-c", 1, 1)],
    ),
    (
        "of two paths to one exit that which the branch is on",
        (JOIN, "self.failed = true", "self.failed = false"),
        [("returns-then-is_err-clause-c", 1, 1)],
        [("returns-else-is_err-clause-c", 1, 1), ("flush-result-requires", 2, 29)],
    ),
    (
        "an effect that was put in reaches all that follows",
        (JOIN, "    if result", "    self.failed = false;\n    if result"),
        [("returns-then-is_err-clause-c", 1, 1), ("returns-else-is_err-clause-c", 1, 1)],
        [("flush-result-requires", 2, 29)],
    ),
]


class Reaches(unittest.TestCase):
    def test_bodies(self):
        for name, (was, old, new), reached, beside in BODIES:
            self.assertEqual(was.count(old), 1, name)
            change = paths.Change(was, was.replace(old, new), "src/a.rt", 1)
            for is_reached, goals in ((True, reached), (False, beside)):
                for goal, line, column in goals:
                    with self.subTest(name, goal=goal):
                        self.assertEqual(change.reaches(goal, line and ("src/a.rt", line, column)), is_reached)
