"""Reads what the prover says of mutations: how it judged each function, and by which goals it refused a changed one.

The prover has its verdicts and goals as text alone; no command of the kit gives them in another form.
"""
import re
import typing

# An open goal, with its place; an error in a file; how an item was judged.
GOAL = re.compile(r"note: (src/\S+):(\d+):(\d+): (.*?) \(`(\S+?)`\)(.*)")
ERROR = re.compile(r"(?:\./)?(\S+?):(\d+):\d+: error: (?:`([^`]*)`: )?(.*)")
JUDGED = re.compile(r"(?:fn|impl|struct|enum|trait|const|static) (\S+): (.*)")
# The prover goes on with what it says on lines that begin with spaces.
CONTINUED = re.compile(r"\n +(?=\S)")
# The front end's words for a text that does not compile, antt's for one that it cannot read, and those for a proof file
# that names what the edit took away, and for what cites that proof.
UNREAD = re.compile(r"is not in scope|has no field|is no name|operand is missing|expected the end|cannot continue")
GONE = re.compile(r"has no field|is not in scope|has no `|was not admitted|declarations? that depends? on")
PROVED, SHAPE, CALLEES = "still proved", "only the shape of its proof refuses it: ", "no goal of its own: "
BESIDE = "only goals that the change does not reach are open: "
# An error in the answers of a function that a round changes. The prover offers answers for goals that are left open, for which
# it starts a second time, but not for a function whose answers have an error; its goals it judges all the same.
UNASKED = "unasked"
# How an error begins where an answer is a tactic, which fails as a search does.
TACTIC = re.compile(r"`(search|grind|omega)`")
# The status of a check that met its time limit.
LATE = -999
# What the prover says of a goal that it has found to be false.
FALSE = "allow values at which this goal is false"


class Verdict(typing.NamedTuple):
    """Whether the prover refuses a mutation as it has to, why, by which goal, and without which goals' answers more may be known;
    which clauses and goals refuse it, and whether the prover has values at which one of these is false."""

    is_refused: bool
    why: str
    goal: str = ""
    by_answers: frozenset = frozenset()
    by: tuple = ()
    has_values: bool = False

    @property
    def is_judged(self):
        """Tells whether the prover has judged the function."""
        return self.is_refused or self.why.startswith((PROVED, SHAPE, BESIDE, CALLEES))


class Refusal:
    """Why a function, or a file, is refused: by a goal, which has a place where the search left it open, or by an error.

    A tactic has tried the goal, or else a term that is its answer doesn't fit."""

    def __init__(self, goal, place, words, is_tried=True, is_shape=False):
        self.goal, self.place, self.words, self.is_tried, self.is_shape = goal, place, words, is_tried, is_shape
        # Whether it is in a closure.
        self.is_inner = False

    def kind(self):
        """Returns the clause, the goal or the error that refuses."""
        clause = re.match(r"returns\S*-clause-(\w+)", self.goal)
        is_returned = self.goal.startswith("returns")
        return f"clause {clause[1]}" if clause else "its clause" if is_returned else f"goal {self.goal}" if self.goal else "error"

    def says(self):
        return f"{self.kind()}: {self.words}"

    def rank(self, is_reached):
        """Puts a clause first, and last what counts for nothing: a proof's shape, and what is beside the change."""
        return [not is_reached, self.is_shape, not self.goal.startswith("returns"), not self.goal]


def has_values(refusals):
    """Tells whether the prover has values at which one of these goals is false."""
    return any(FALSE in it.words for it in refusals)


class Said:
    """What a check said: how it judged each item (words), which are functions, and what refused one, or a file (refused)."""

    def __init__(self, status, text):
        self.words, self.functions, self.refused, goals, errors = {}, [], {}, [], []
        for line in CONTINUED.sub(" ", text).splitlines():
            if found := GOAL.match(line):
                place = found[1], int(found[2]), int(found[3])
                goals.append(Refusal(found[5], place, f"{found[1]}:{found[2]}: {found[4]}{found[6]}"))
            elif found := ERROR.match(line):
                errors.append(found.groups())
            elif found := JUDGED.match(line):
                self.words[found[1]] = found[2]
                self.functions += [found[1]] if line.startswith("fn ") else []
                for goal in goals if not found[2].startswith("proved") else []:
                    self.refused.setdefault(found[1], []).append(goal)
                goals = []
        for path, line, goal, words in (it for it in errors if it[2] != UNASKED):
            names = [it for it in self.words if path.startswith(f"proofs/{'/'.join(it.split('::')[1:])}/")]
            found = Refusal(goal or "", None, f"{path}:{line}: {words}", bool(TACTIC.match(words)), bool(GONE.search(words)))
            self.refused.setdefault(max(names, key=len, default=path), []).append(found)
        for name in [it for it in self.refused if "::fn::" in it]:
            self.pass_on(name)
        # What shows that the check judged no body.
        unread = (f"{path}: {why}" for path, _, _, why in errors if path.startswith(("src/", "specs/")) and UNREAD.search(why))
        compiled = re.search(r"(?m)^(?:\./)?(src/\S+: error(?:\[.*|: (?!`).*))", text)
        ended = status in (0, 1) and self.words and re.search(r"(?m)^(logic=(not-)?proved|only=\d+ proved=\d+)\b", text)
        last = (text.strip().splitlines() or ["nothing"])[-1]
        self.is_late = status == LATE
        self.died = "" if ended or compiled else f"no verdict (status {status}): {last}"
        self.compile_error = next(unread, compiled[1] if compiled else "")
        self.trouble = self.compile_error or self.died

    def pass_on(self, name):
        """A closure, a::fn::f::name, is part of the body of a::f."""
        outer = [it for it in self.words if name.replace("::fn::", "::", 1).startswith(f"{it}::")]
        passed = self.refused.pop(name)
        for refusal in passed:
            refusal.is_inner = True
        self.refused.setdefault(max(outer, key=len, default=name), []).extend(passed)

    def others(self, edits):
        """Returns what is refused beside the functions of these edits."""
        return sorted(self.refused.keys() - {it.function for it in edits})

    def verdict(self, function, change=None):
        """Returns the verdict on a function: a goal that the change of its body reaches has to refuse it."""
        if self.trouble:
            return Verdict(False, self.trouble)
        if not function:
            found = [it for some in self.refused.values() for it in some if not it.is_shape]
            return Verdict(bool(found), found[0].says() if found else PROVED, by=("another function",), has_values=has_values(found))
        words = self.words.get(function, "the check has no line for this function")
        if words.startswith("proved"):
            return Verdict(False, PROVED)
        if function not in self.refused:
            return Verdict(False, CALLEES + words)
        reached = lambda it: not change or not it.goal or change.reaches(it.goal, it.place, it.is_inner)
        ranked = sorted(((it.rank(reached(it)), it) for it in self.refused[function]), key=lambda it: it[0])
        (is_beside, is_shape, *_), refusal = ranked[0]
        # With an answer that doesn't fit, the prover may leave a function's other goals untried.
        is_refused = not (is_beside or is_shape)
        counted = [it for (beside, shape, *_), it in ranked if not (is_refused and (beside or shape))]
        untried = frozenset(it.goal for it in counted if it.goal and not it.is_tried)
        by_answers = frozenset() if is_refused and any(it.is_tried for it in counted) else untried
        why = (SHAPE if is_shape else BESIDE if is_beside else "") + refusal.says()
        # A term that doesn't fit says nothing of its own goal, where another goal was tried and left open.
        open_goals = [it for it in counted if it.is_tried] or counted
        by = tuple(dict.fromkeys(it.kind() for it in open_goals)) if is_refused else ()
        return Verdict(is_refused, why, refusal.goal, by_answers, by, is_refused and has_values(counted))
