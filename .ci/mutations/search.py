"""Looks for witnesses of the mutations that the prover refuses without values, first where an earlier run found one."""
import proved

from . import ledger
from .switch import switched
from .witnesses import Witnesses, test_crates


class Search:
    """The search for witnesses of what a run has refused, in a folder; every has all edits, by crate."""

    def __init__(self, results, every, room, jobs):
        self.results, self.every, self.room, self.jobs = results, every, room, jobs

    def run(self):
        """Looks for a witness of each, and tells of those that have none."""
        left = self.results.unshown()
        if not left:
            return
        witnesses, found = Witnesses(self.every, self.room, self.jobs), {}
        for at, edit in left.items():
            if edit.said["witness"]:
                found[at] = ledger.own_witness(edit) if witnesses.is_shown(at[0], edit) else None
        tests = [at for at, edit in left.items() if at not in found and switched(edit)]
        for crate in self.crates(tests):
            some = [(at[0], left[at]) for at in tests if at not in found and self.may_tell(crate, at)]
            found.update({at: ledger.witness(test) for at, test in witnesses.tested(some, crate).items()})
        for at in left:
            self.results.show(at, found.get(at))
        for crate, why in witnesses.troubles.items():
            print(f"{crate}: its program of tests isn't built: {why}", flush=True)

    def crates(self, tests):
        """Returns the crates with tests, of which those come first that the ledger names for these edits."""
        noted = [line.test().split("::")[0] for at in tests if (line := self.results.known.get(at)) and line.test()]
        return sorted(test_crates(), key=lambda it: -noted.count(it))

    def may_tell(self, name, at):
        """Tells whether the tests of a crate may call a function of the edit's crate."""
        return at[0] == name or at[0] in proved.Crate(name).below
