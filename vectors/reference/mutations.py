"""The reference with small changes: what a wrong implementation of the format might do."""

import pathlib
import re
import sys
import types

HERE = pathlib.Path(__file__).resolve().parent
# The modules of the reference, each after those that it imports.
MODULES = ["varints", "containers", "builders", "models", "certificates", "weights"]
MODULES += ["questions", "answers"]
SOURCES = {name: (HERE / f"{name}.py").read_text() for name in MODULES}
BLOCK = re.compile(
    r"== (?P<name>.+)\n(?:file: (?P<module>\w+)\.py\n)?(?:breaks: (?P<sentence>.+(?:\n  .+)*)\n)?"
    r"(?P<old>(?:-.*\n)+)(?P<new>(?:\+.*\n)+)"
)


def read_mutations():
    """Returns the mutations by their names: module, sentence, old and new lines."""
    text = re.sub(r"(?m)^#.*\n", "", (HERE / "mutations.txt").read_text())
    found, last = {}, {}
    for block in text.strip("\n").split("\n\n"):
        parts = BLOCK.fullmatch(block + "\n")
        if not parts or parts["name"] in found:
            raise ValueError(f"no mutation, or one of a name that is there: {block}")
        # Without a line for it, a mutation has the file, or the sentence, of the one before.
        last = {**last, **{word: it for word, it in parts.groupdict().items() if it}}
        found[last["name"]] = {**last, "sentence": " ".join(last["sentence"].split())}
    return found


def mutated(mutation):
    """Returns the text of the module that a mutation changes."""
    old, new = (re.sub(r"(?m)^[-+]", "", mutation[it]) for it in ("old", "new"))
    source = SOURCES[mutation["module"]]
    if ("\n" + source).count("\n" + old) != 1:
        raise ValueError(f"the lines are not in the file once: {mutation['name']}")
    return ("\n" + source).replace("\n" + old, "\n" + new)[1:]


def load(changed):
    """Returns the function that answers a question, from the reference with changed modules."""
    for name in MODULES:
        module = types.ModuleType(name)
        sys.modules[name] = module
        text = changed.get(name, SOURCES[name])
        exec(compile(text, name, "exec"), module.__dict__)
    return sys.modules["answers"].answer_to


def reference():
    """Returns the function that answers a question, as the reference has it."""
    return load({})


def mutant(mutation):
    """Returns the function that answers a question, as a mutation has it.

    Where a wrong implementation fails otherwise, the answer says how.
    """
    answer_to = load({mutation["module"]: mutated(mutation)})

    def answer(question):
        try:
            return answer_to(question)
        except Exception as failure:
            return f"failed: {type(failure).__name__}"

    return answer
