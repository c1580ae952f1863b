"""Returns checksums of what the verdict on a mutation rests on, so that a verdict holds until one of these changes.

That is the function with its body and its proof files, and what the mutation makes of it; the statements of its crate and of
those below: signatures with contracts, types, constants, definitions and lemmas; the kit's logic; and the rules by which a verdict
is reached. Bodies of other functions are none of it, nor are comments and layout.
"""
import functools
import hashlib

import proved

from .paths import TOKEN, body_span
from .source import FUNCTION, is_evaluated, parts

# The version of the rules by which a verdict is reached and of what a key covers: a change makes each line of a ledger stale.
RULES = 1
# What is said of one function alone, in a folder of its path.
ANSWERS = ("Answers.antt", "Invariants.antt", "Proof.antt")


def digest(*what):
    return hashlib.sha256(repr(what).encode()).hexdigest()[:16]


def plain(text):
    """Returns a text of Rattle without comments and layout."""
    return " ".join(it[1] for it in TOKEN.finditer(text) if it[1])


def plain_antt(text):
    """Returns a text of antt without comments and layout."""
    lines = (it for it in text.split("\n") if not it.lstrip().startswith("--"))
    return " ".join(" ".join(lines).split())


def without_body(part):
    """Returns a part of a source without the body of its function, but for one that the compiler evaluates."""
    span = body_span(part) if FUNCTION.match(part) and not is_evaluated(part) else None
    return part[: span[0]] + part[span[1] :] if span else part


@functools.cache
def statements(crate):
    """Returns a checksum of the statements of a crate."""
    folder, found = proved.ROOT / "crates" / crate, []
    for path in sorted(folder.glob("src/**/*.rt")):
        found += map(plain, map(without_body, parts(path.read_text())))
    for path in sorted([*folder.glob("specs/**/*.antt"), *folder.glob("proofs/**/*.antt")]):
        found += [plain_antt(path.read_text())] if path.name not in ANSWERS else []
    return digest(found)


@functools.cache
def base(crate):
    """Returns a checksum of what the verdicts on all mutations of a crate rest on."""
    of = proved.Crate(crate)
    handles = (proved.ROOT / "HANDLES").read_text()
    return digest(RULES, proved.kit()[1].split()[-1], handles, of.lines, [statements(it) for it in [crate, *of.below]])


@functools.cache
def answers(crate, function):
    """Returns the proof files of a function, without comments and layout."""
    folder = proved.ROOT / "crates" / crate / "proofs" / "/".join(function.split("::")[1:])
    return [(it, plain_antt((folder / it).read_text())) for it in ANSWERS if (folder / it).is_file()]


def key(crate, edit):
    """Returns the key of a mutation of this crate: a checksum of all that the verdict on it rests on."""
    if edit.function:
        own = plain(edit.was), plain(edit.part), edit.attributes, answers(crate, edit.of)
    else:
        own = plain((proved.ROOT / "crates" / crate / edit.file).read_text()), plain(edit.text)
    return digest(base(crate), edit.of, edit.file, own)
