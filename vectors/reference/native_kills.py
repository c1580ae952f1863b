"""Tries wrong implementations on the vectors of native calls.

Usage: python3 -B vectors/reference/native_kills.py [--update]

Each call has its own, by the rules of native_variants.py and native_slips.py, and the vectors of
its file alone are to kill them: one of these is answered otherwise, or not at all. What is killed
is written to vectors/native/KILLED.md with --update, and compared with it otherwise. Of each file
at least 95 of 100 have to be killed.
"""

import collections
import functools
import multiprocessing
import resource
import signal
import sys
import textwrap

import native_files
from native_slips import of_arguments, of_results
from native_variants import DEFINED, namespace, uses_of, variants_of

KILLED = native_files.FOLDER / "KILLED.md"
LEAST = 95
# How many are tried side by side, and how much memory, in bytes, and time of a processor, in
# seconds, a wrong implementation has for a call's vectors.
PROCESSES, MEMORY, SECONDS = 3, 2**31, 20
HEAD = """# Wrong implementations that the vectors of native calls kill

Each is a change of the reference by a rule of `vectors/reference/native_variants.py`, in one place of what the call uses, or of
`vectors/reference/native_slips.py`, in what it takes or returns. The vectors of the call's own file kill it if one of them is
answered otherwise, or isn't answered. Each file has to kill at least 95 of 100. `.ci/vectors --update` writes this page.

"""
SURVIVE = """These survive. Vectors of 16,384 items would kill those that end there, and are left out where they are long; the others answer
as the reference does, whatever they are asked.
"""


class Vectors:
    """The vectors of a call, what they ask and what the answer is: that which killed last comes
    first, then short ones."""

    def __init__(self, name):
        self.call = native_files.Call(name)
        asked, said = native_files.question_of, native_files.answer_of
        tests = ((asked(self.call, it), said(self.call, it)) for it in native_files.tests_of(name))
        size = lambda test: sum(len(word) for word in test[0] if not isinstance(word, int))
        self.tests = collections.deque(sorted(tests, key=size))

    def answered(self, function):
        return functools.partial(native_files.answered, self.call, function)

    def kill(self, answer):
        """Tells whether a vector is answered otherwise, or not at all."""
        for index, (question, expected) in enumerate(self.tests):
            try:
                is_right = answer(question) == expected
            except Exception:
                is_right = False
            if not is_right:
                self.tests.insert(0, self.tests[index])
                del self.tests[index + 1]
                return True
        return False


REFERENCE = namespace()
VECTORS = {name: Vectors(name) for name in native_files.names()}


def told_late(signum, frame):
    raise TimeoutError


def is_killed(name, answer):
    """Tells whether a vector of a call kills an implementation, by its answers."""
    signal.setitimer(signal.ITIMER_VIRTUAL, SECONDS)
    try:
        return VECTORS[name].kill(answer)
    finally:
        signal.setitimer(signal.ITIMER_VIRTUAL, 0)


def survivors_of_slips(name):
    """Yields for each wrong implementation of a call by what it takes or returns the call, and the
    words of it if it survives."""
    vectors = VECTORS[name]
    answered = vectors.answered(REFERENCE[name])
    for words, change in of_arguments(vectors.call):
        yield name, None if is_killed(name, lambda question: answered(change(question))) else words
    for words, change in of_results(vectors.call):
        yield name, None if is_killed(name, lambda question: change(*answered(question))) else words


def survivors_of_definition(definition, calls):
    """Yields the same for each wrong form of a definition, and each of the calls that use it."""
    right = REFERENCE[definition]
    for code, words in variants_of(definition):
        exec(code, REFERENCE)
        for name in calls:
            is_gone = is_killed(name, VECTORS[name].answered(REFERENCE[name]))
            yield name, None if is_gone else words()
    REFERENCE[definition] = right


def tried(task):
    definition, calls = task
    found = survivors_of_definition(*task) if calls else survivors_of_slips(definition)
    return [*found]


def limit():
    resource.setrlimit(resource.RLIMIT_AS, (MEMORY, MEMORY))
    signal.signal(signal.SIGVTALRM, told_late)


def results():
    """Returns for each call how many wrong implementations it has, and the words of those that
    survive."""
    names = native_files.names()
    used = {name: uses_of(name) for name in names}
    users = {it: [name for name in names if it in used[name]] for it in DEFINED}
    tasks = [it for it in users.items() if it[1]] + [(name, None) for name in names]
    counts, survivors = collections.Counter(), {name: [] for name in names}
    with multiprocessing.Pool(PROCESSES, limit) as pool:
        for name, words in (it for some in pool.imap(tried, tasks) for it in some):
            counts[name] += 1
            survivors[name] += [words] if words else []
    return {name: (counts[name], survivors[name]) for name in names}


def wrapped(text):
    return textwrap.fill(text, 130, break_on_hyphens=False, subsequent_indent="  ")


def page(found):
    """Returns the page: a row for each call, and what survives."""
    rows = ["| Call | Vectors | Wrong implementations | Killed |", "|---|---|---|---|"]
    for name, (count, survivors) in found.items():
        killed = count - len(survivors)
        share = f"{killed}, {100 * killed / count:.1f} %"
        rows.append(f"| `{name}` | {len(VECTORS[name].tests)} | {count} | {share} |")
    calls = collections.defaultdict(list)
    for name, (_, survivors) in found.items():
        for words in survivors:
            calls[words].append(name)
    told = [wrapped(f"- {words}: {', '.join(names)}") for words, names in calls.items()]
    return HEAD + "\n".join([*rows, "", SURVIVE, *told]) + "\n"


def main():
    """Returns whether something is wrong."""
    found = results()
    few = {name: it for name, it in found.items() if 100 * len(it[1]) > (100 - LEAST) * it[0]}
    failed = [f"{name}: {len(it)} of {count} survive" for name, (count, it) in few.items()]
    if sys.argv[1:] == ["--update"]:
        KILLED.write_text(page(found), encoding="utf-8")
    elif not KILLED.exists() or KILLED.read_text(encoding="utf-8") != page(found):
        failed.append(f"{KILLED.name} is not up to date: .ci/vectors --update writes it")
    print("".join(f"native kills: {it}\n" for it in failed), end="")
    total = sum(count for count, _ in found.values())
    survive = sum(len(it) for _, it in found.values())
    print(f"native kills: {total} wrong implementations, {survive} survive")
    return bool(failed)


if __name__ == "__main__":
    sys.exit(main())
