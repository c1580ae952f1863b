"""The ledgers of refusals, which git has: what refused each mutation, by what it is shown to be wrong, and the key of both.

crates/NAME/wrong-bodies/refusals.tsv has a line for each mutation of a crate, with four columns: its name; its key (keys.py); the
clauses and goals that refused it; and what shows that it means something else: 'values', at which the prover finds a goal false;
'witness TEST SUM', a test of this repository that fails with it, with a checksum of that test's module; 'its own witness SUM', which
it states, with a checksum of it; 'reason', which it states; or 'compile error'.
"""
import typing

from proved import ROOT

from .keys import digest
from .witnesses import test_text

VALUES, OWN, REASON, COMPILER, WITNESS = "values", "its own witness", "reason", "compile error", "witness"
KINDS = (VALUES, WITNESS, OWN, REASON, COMPILER)


class Line(typing.NamedTuple):
    name: str
    key: str
    by: tuple
    shown: str

    def kind(self):
        return next(it for it in KINDS if self.shown.startswith(it))

    def test(self):
        """Returns the name of the test that fails with the mutation, or None where none is noted."""
        return self.shown.split()[1] if self.kind() == WITNESS else None

    def holds(self, edit):
        """Tells whether the line is of this edit, which has its key, and of a test or a witness that is as it was."""
        is_same = {WITNESS: lambda: self.shown == witness(self.test()), OWN: lambda: self.shown == own_witness(edit)}
        return self.key == edit.key and is_same.get(self.kind(), lambda: True)()


def witness(test):
    """Returns what a line has for a test that fails with a mutation."""
    return f"{WITNESS} {test} {test_text(test)}"


def own_witness(edit):
    """Returns what a line has for a witness that an edit states."""
    return f"{OWN} {digest(edit.said['witness'])[:8]}"


def place(crate):
    return ROOT / "crates" / crate / "wrong-bodies/refusals.tsv"


def read(crate):
    """Returns the lines of a crate's ledger by their names."""
    text = place(crate).read_text() if place(crate).is_file() else ""
    cut = (it.split("\t") for it in text.splitlines())
    return {name: Line(name, key, tuple(by.split(", ")), shown) for name, key, by, shown in cut}


def write(crate, lines):
    """Writes a crate's ledger."""
    rows = ("\t".join((it.name, it.key, ", ".join(it.by), it.shown)) for it in sorted(lines))
    place(crate).write_text("".join(f"{it}\n" for it in rows))
