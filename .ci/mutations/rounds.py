"""Shares mutations out into rounds, each a check of a copy of their crate, and tries them."""
import collections
import json
import re
import shutil

import proved

from .checks import CHECKS, LIBRARIES
from .copies import Copy, right_body
from .edits import edits, is_copy
from .verdicts import CALLEES, PROVED, Said, Verdict

# The most mutations of a round: on a loaded machine 150 of commonware_c took more than the seconds of a check.
MOST = 40


class Crate(proved.Crate):
    """A crate with mutations."""

    def functions(self, names):
        """Returns those of these names that are its functions, and no closures."""
        return [it for it in names if re.fullmatch(rf"{self.name}(::\w+)+", it) and "::fn::" not in it]

    def built(self):
        """Returns the functions of its library, as it is built."""
        file = self.library() / "toolchain/mir.json"
        return self.functions(it[0] for it in json.loads(file.read_text())) if file.is_file() else []

    def size(self):
        """Returns how many bytes its sources and proofs have."""
        return sum(it.stat().st_size for part in ("src", "proofs") for it in (self.folder / part).rglob("*.*t*"))


def is_alone(edit):
    """Tells whether an edit has a round of its own: it is in no function, or it must not compile."""
    return not edit.function or bool(edit.said["compile-error"])


def rounds(some):
    """Shares edits out so that each round has one of each function, or of each copy of it; some are alone."""
    shared, seen = [], collections.Counter()
    for edit in (it for it in some if not is_alone(it)):
        at = seen[edit.function]
        seen[edit.function] += 1
        if edit.is_plain:
            edit, at = edit.moved(at), 0
        shared += [[]] if at == len(shared) else []
        shared[at].append(edit)
    cut = [them[at : at + MOST] for them in shared for at in range(0, len(them), MOST)]
    return cut + [[it] for it in some if is_alone(it)]


def halves(some):
    """Returns a list in two, or one where it has one item."""
    at = (len(some) + 1) // 2
    return [it for it in (some[:at], some[at:]) if it]


class Trial:
    """Tries edits of a crate on a copy in a folder of its own, and tells of each as soon as it is known."""

    def __init__(self, crate, room, tell):
        self.crate, self.room, self.copy, self.tell = crate, room, Copy(crate.name, crate.folder, room / "copy"), tell
        # All edits, of which those that are tried may be some; the functions that are proved where nothing is changed; how many
        # rounds there were, and how many had no right body.
        self.all = self.edits = edits(crate.folder, lambda name, why: tell(name, Verdict(False, why)))
        self.known, self.tried, self.bare = [], 0, 0
        # The edits that their answers alone refuse, without them; the rounds that met the time limit, and whether these are tried.
        self.unanswered, self.late, self.is_last = [], [], False
        # What a check keeps here, which costs a tenth more, serves where the whole crate is checked, and goes on from rt check's.
        self.kept = room / "incremental"

    def run(self, is_named):
        """Tries the edits. Where they were named, rt lib proves the unchanged crate, which costs nothing again."""
        self.control(is_named)
        for some in rounds(self.edits):
            if some[0].said["compile-error"]:
                self.compile(some[0])
            else:
                self.round(some)
        self.round_unanswered()
        if self.bare:
            print(f"{self.crate.name}: {self.bare} rounds without a right body", flush=True)
        self.leave()

    def run_late(self):
        """Tries the rounds that met the time limit again, by halves: a loaded machine says nothing of a mutation."""
        self.is_last = True
        while self.late:
            some = self.late.pop()
            print(f"{self.crate.name}: {len(some)} edits that met the time limit are tried again", flush=True)
            for half in halves(some):
                self.round(half)
        self.round_unanswered()
        self.leave()

    def leave(self):
        """Removes the copy, if it isn't needed again."""
        if not self.late:
            shutil.rmtree(self.room, ignore_errors=True)

    def round_unanswered(self):
        some, self.unanswered = self.unanswered, []
        for them in rounds(some):
            self.round(them)

    def control(self, is_named):
        """Has the unchanged crate proved where rt ci has not, and lets go of the edits whose function isn't proved there."""
        if self.crate.is_proved():
            self.known = self.crate.built()
            return
        for below in reversed(self.crate.below):
            LIBRARIES.build(below)
        if is_named and (self.crate.folder / "src/lib.rt").is_file():
            LIBRARIES.build(self.crate.name)
            self.known = self.crate.built()
        else:
            said = Said(*CHECKS.run(["rt", "check"], self.crate.folder))
            ill = said.trouble or "; ".join(said.others([]))
            self.known = self.crate.functions(said.functions)
            for edit in list(self.edits):
                why = ill or said.verdict(edit.function).why
                if why != PROVED:
                    self.tell(edit.name, Verdict(False, f"before any edit: {why}"))
                    self.edits.remove(edit)
        if self.edits and (self.crate.folder / "out/incremental").is_dir():
            shutil.copytree(self.crate.folder / "out/incremental", self.kept)

    def compile(self, edit):
        """Tries an edit that must not compile: the compiler has to say what the edit says that it does."""
        words, said = edit.said["compile-error"][0], self.check([edit], False, False)
        is_refused = bool(said.compile_error) and words in said.compile_error
        why = said.compile_error if is_refused else f"no compile error says '{words}': {said.trouble or 'it compiles'}"
        self.tell(edit.name, Verdict(is_refused, why, by=("the compiler",) * is_refused))

    def check(self, some, is_alone, is_first):
        """Checks the crate with the bodies of these edits and no others, or these functions alone."""
        self.copy.write(some, self.known if is_alone else [])
        if is_first:
            self.copy.hush(some)
        words = [word for it in some if it.function for word in ("--only", it.function)]
        words += ["--incremental", str(self.kept)] if self.kept.is_dir() or not is_alone else []
        return Said(*CHECKS.run([proved.rattle(), "check", *self.crate.words(), *words], self.copy.folder))

    def round(self, some, is_first=True):
        """Tries edits in one check; those that no goal of their own refuses once more beside the whole crate, by halves
        where that judges no body or refuses something else as well. One that meets the time limit is left for later."""
        has_functions = all(edit.function for edit in some)
        is_first = is_first and has_functions
        is_alone = is_first and bool(self.known)
        self.tried += 1
        control = [right_body(self.crate.folder, self.all, self.tried)] if has_functions else []
        control = list(filter(None, control))
        said = self.check(some + control, is_alone, is_first)
        why = said.trouble or ("" if is_alone else ", ".join(said.others(some)))
        if said.is_late and (len(some) > 1 or not self.is_last):
            self.late.append(some)
        elif any(it.function in said.refused for it in control):
            for edit in some:
                self.tell(edit.name, Verdict(False, f"beside it a right body of {control[0].of} is refused"))
        elif is_first and why and not said.died:
            print(f"{self.crate.name}: {len(some)} edits are tried beside the whole crate: {why[:200]}", flush=True)
            self.round(some, False)
        elif len(some) > 1 and why and not said.died:
            print(f"{self.crate.name}: {len(some)} edits are tried by halves: {why[:200]}", flush=True)
            for half in halves(some):
                self.round(half, False)
        elif is_copy(some[0]) and why and not said.died:
            self.round([some[0].moved(0)])
        else:
            self.bare += not control
            for edit in some:
                self.judge(edit, said, len(some) > 1 or is_first)

    def judge(self, edit, said, may_be_tried_again):
        """Concludes what a check has said of an edit, or tries it otherwise."""
        verdict = said.verdict(edit.function, edit.change())
        if may_be_tried_again and verdict.why.startswith(CALLEES) and not edit.is_right:
            self.round([edit], False)
        elif verdict.by_answers and not edit.left_out:
            self.unanswered.append(edit.without(verdict))
        else:
            self.conclude(edit, verdict)

    def conclude(self, edit, verdict):
        """Tells of an edit. An answer that doesn't fit says little: where it is left out, the search may prove its goal."""
        if edit.left_out and verdict.why == PROVED:
            verdict = Verdict(False, f"{PROVED} without its answers to {', '.join(sorted(edit.left_out))}")
        elif edit.left_out and not (verdict.is_refused and (verdict.goal not in edit.left_out or verdict.has_values)):
            verdict = edit.verdict
        self.tell(edit.name, verdict)
