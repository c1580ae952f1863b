"""Tries each mutation on the vectors: python3 -B vectors/reference/kills.py [--update]

The reference has to answer all vectors as they say. Each mutation has to answer one of them
otherwise: that vector kills it. Each sentence that a mutation breaks has to be in a document.
What kills which mutation is written to vectors/KILLED.md with --update, and compared with it
otherwise. The long vectors are tried where no other one kills, up to the first that does.
"""

import collections
import multiprocessing
import pathlib
import re
import resource
import sys
import textwrap

from known import read_long_vectors, read_vectors
from mutations import mutant, read_mutations, reference

ROOT = pathlib.Path(__file__).resolve().parent.parent.parent
KILLED = ROOT / "vectors/KILLED.md"
DOCUMENTS = ("docs/FORMAT.md", "docs/JUDGE.md", "vectors/README.md")
# How many vectors are named for a mutation that more kill.
NAMED = 3
VECTORS, LONG_VECTORS = read_vectors(), read_long_vectors()
# How many bytes of memory there are: a wrong implementation that asks for more fails.
MEMORY = 2**31
HEAD = """# Wrong implementations that the vectors kill

Each is a change of the reference in `vectors/reference`, by `vectors/reference/mutations.txt`, and
breaks the sentence that is quoted. A vector kills it where its answer is another one. Of more than
three those are named that kill the fewest of all; one of `vectors/long.recipes` is named where no
other vector kills. `.ci/vectors --update` writes this file.
"""


def wrong(answer_to, vectors):
    """Yields the vectors that are answered otherwise."""
    return (it for it in vectors if answer_to(it.question) != it.answer)


def killers_of(mutation):
    """Returns the ids of the vectors that kill a mutation."""
    answer_to = mutant(mutation)
    ids = [it.id for it in wrong(answer_to, VECTORS)]
    first_long = next(wrong(answer_to, LONG_VECTORS), None) if not ids else None
    return ids or ([first_long.id] if first_long else [])


def limit_memory():
    resource.setrlimit(resource.RLIMIT_AS, (MEMORY, MEMORY))


def killers(mutations):
    """Returns the ids of the vectors that kill each mutation, which are tried side by side."""
    with multiprocessing.Pool(initializer=limit_memory) as pool:
        ids = pool.map(killers_of, mutations.values(), chunksize=8)
    return dict(zip(mutations, ids))


def unquoted(mutations):
    """Returns the mutations whose sentence is in no document."""
    plain = lambda text: re.sub(r"\s+", " ", text)
    texts = [plain((ROOT / it).read_text()) for it in DOCUMENTS]
    found = lambda sentence: any(plain(sentence) in text for text in texts)
    return [name for name, it in mutations.items() if not found(it["sentence"])]


def table(mutations, found):
    """Returns the document: each sentence, and the mutations that break it with what kills them."""
    kills = collections.Counter(id for ids in found.values() for id in ids)
    sentences = dict.fromkeys(it["sentence"] for it in mutations.values())
    lines = [HEAD, f"There are {len(mutations)} of them.\n"]
    for sentence in sentences:
        names = [name for name, it in mutations.items() if it["sentence"] == sentence]
        rows = [row(name, found[name], kills) for name in names]
        lines += [wrapped(f"> {sentence}", "> "), "", *rows, ""]
    return "\n".join(lines).rstrip("\n") + "\n"


def wrapped(text, indent):
    """Returns the lines of a paragraph."""
    return textwrap.fill(text, 130, break_on_hyphens=False, subsequent_indent=indent)


def row(name, ids, kills):
    """Returns the line of a mutation."""
    named = sorted(sorted(ids, key=kills.get)[:NAMED], key=ids.index)
    more = f" and {len(ids) - NAMED} more" if len(ids) > NAMED else ""
    return wrapped(f"- {name}: {', '.join(named)}{more}", "  ")


def complaints(mutations, found, vectors):
    """Returns what is wrong with the vectors or with the mutations."""
    failed = [f"the reference answers {it.id} otherwise" for it in wrong(reference(), vectors)]
    failed += [f"no vector kills: {name}" for name, ids in found.items() if not ids]
    return failed + [f"in no document is the sentence of: {name}" for name in unquoted(mutations)]


def main():
    """Returns whether something is wrong."""
    mutations = read_mutations()
    found = killers(mutations)
    failed = complaints(mutations, found, VECTORS + LONG_VECTORS)
    document = table(mutations, found)
    if sys.argv[1:] == ["--update"]:
        KILLED.write_text(document)
    elif not KILLED.exists() or KILLED.read_text() != document:
        failed.append("vectors/KILLED.md is not up to date: .ci/vectors --update writes it")
    for it in failed:
        print(f"kills: {it}")
    print(f"kills: {len(found)} mutations, {sum(not ids for ids in found.values())} survive")
    return bool(failed)


if __name__ == "__main__":
    sys.exit(main())
