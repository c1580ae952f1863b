"""Concludes of each mutation whether it is refused for being wrong: the ledger says so, or this run has tried it."""
import random
import subprocess
import threading

from proved import ROOT

from . import keys, ledger

# The part of the lines that hold which a whole run tries again.
SHARE = 0.05


def sampled(names):
    """Returns a random part of these names, which the checksum of the commit determines."""
    head = subprocess.run(["git", "rev-parse", "HEAD"], cwd=ROOT, capture_output=True, text=True, check=True).stdout
    names = sorted(names)
    return set(random.Random(head).sample(names, round(SHARE * len(names))))


class Results:
    """What became of each edit: by its crate and name the verdict of the prover, and the line of the ledger that it has then."""

    def __init__(self, is_anew, is_whole):
        self.is_anew, self.is_whole, self.lock = is_anew, is_whole, threading.Lock()
        self.verdicts, self.edits, self.lines, self.known, self.failed, self.again = {}, {}, {}, {}, {}, set()
        # The right bodies.
        self.right = {}

    def take(self, crate, edits):
        """Notes the edits of a crate that a run is about, and the lines of its ledger that hold."""
        lines = ledger.read(crate)
        self.right.update({(crate, it.name): it for it in edits if it.is_right})
        for edit in (it for it in edits if not it.is_right):
            at = crate, edit.name
            self.edits[at] = edit
            self.known[at] = line = lines.get(edit.name)
            edit.key = keys.key(crate, edit)
            if line and not self.is_anew and line.holds(edit):
                self.lines[at] = line

    def choose(self):
        """Returns what is to be tried: what has no line that holds, and in a whole run a part of what has one."""
        self.again = sampled(self.lines) if self.is_whole else set()
        return {**self.right, **{at: it for at, it in self.edits.items() if at not in self.lines or at in self.again}}

    def tell(self, crate, name, verdict):
        """Notes the verdict of the prover on an edit, and says it."""
        with self.lock:
            self.verdicts[crate, name] = verdict
            word = "refused" if verdict.is_refused else "not refused" if (crate, name) in self.right else "FAILED"
            print(f"{crate} {name}: {word}: {verdict.why[:200]}", flush=True)

    def fail(self, at, why):
        self.failed[at] = why
        print(f"{' '.join(at)}: FAILED: {why}", flush=True)

    def unshown(self):
        """Concludes of what the prover or the edit itself shows to be wrong, and returns the other edits that were refused."""
        left = {}
        for at, verdict in self.verdicts.items():
            edit, line = self.edits.get(at), self.lines.get(at)
            if at in self.right:
                self.recognise(at, verdict)
                left.update({at: self.right[at]} if self.is_anew else {})
            elif not verdict.is_refused:
                self.failed[at] = verdict.why
            elif at in self.again:
                self.compare(at, line, verdict)
            elif shown := shown_by(edit, verdict):
                self.lines[at] = ledger.Line(edit.name, edit.key, verdict.by, shown)
            else:
                left[at] = edit
        return left

    def recognise(self, at, verdict):
        """Fails where a right body is shown to be wrong, or says nothing."""
        if verdict.has_values:
            self.fail(at, "a right body is refused, with values")
        elif not verdict.is_refused and not verdict.is_judged:
            self.fail(at, verdict.why)

    def compare(self, at, line, verdict):
        """Compares a line of the ledger with what the prover says now."""
        if line.by[0] not in verdict.by:
            self.fail(at, f"the ledger says that {line.by[0]} refuses it, and now {', '.join(verdict.by)} does")
        elif line.kind() == ledger.VALUES and not verdict.has_values:
            self.fail(at, "the ledger says that the prover has values at which a goal is false, and now it has none")

    def show(self, at, shown):
        """Notes what shows that an edit is wrong, or that nothing does, as of a right body nothing must."""
        if at in self.right:
            if shown:
                self.fail(at, f"a right body is shown to be wrong: {shown}")
        elif shown:
            self.lines[at] = ledger.Line(at[1], self.edits[at].key, self.verdicts[at].by, shown)
            print(f"{' '.join(at)}: {shown}", flush=True)
        else:
            self.fail(at, "nothing shows that it is wrong: the prover has no values, and no witness tells it apart")

    def write(self):
        """Writes the ledgers of the crates that this run is about; lines of other mutations stay, those of none go."""
        for crate in {crate for crate, _ in self.edits}:
            own = {name: line for (of, name), line in self.lines.items() if of == crate}
            names = {edit.name for (of, _), edit in self.edits.items() if of == crate}
            others = {} if self.is_whole else {name: it for name, it in ledger.read(crate).items() if name not in names}
            ledger.write(crate, {**others, **own}.values())

    def count(self, is_counted):
        """Returns how many of the lines are such."""
        return sum(map(bool, map(is_counted, self.lines.values())))


def shown_by(edit, verdict):
    """Returns what shows without a test that an edit is wrong, or None."""
    if edit.said["compile-error"]:
        return ledger.COMPILER
    if edit.said["reason"]:
        return ledger.REASON
    return ledger.VALUES if verdict.has_values else None
