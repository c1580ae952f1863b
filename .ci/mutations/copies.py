"""Writes a copy of a crate with the bodies of some mutations, in functions or in copies of them."""
import re
import shutil

from proved import PARTS

from .edits import is_copy
from .source import bodiless, body, parts
from .verdicts import UNASKED

# A proof file of what has no body: a hole, which the prover doesn't look into.
HOLE = """use Rattle.{path}.Statement.{{statement}}

pub {name}_spec : {{M : Type 1}} → statement M
{name}_spec = ?
"""
USED_GOALS = re.compile(r"(?m)^use \S+\.Goals as (\w+)$")


def with_edits(part, place, line, edits, other):
    """Returns a part of a file, which begins on a line, as these edits have it, with the copies of its function below it."""
    here = [it for it in edits if it.place == place]
    for edit in here:
        edit.line = line
    text = next((it.part for it in here if not is_copy(it)), None) or other(part)
    copies = [it for it in here if is_copy(it)]
    if not copies:
        return text
    lines, after = text.split("\n"), len(part.split("\n")) - 1 - body(part.split("\n"))[1]
    begins = lines[: len(lines) - after]
    for edit in copies:
        edit.line = line + len(begins) + len(edit.attributes)
        begins += copied(edit, after)
    return "\n".join([*begins, *lines[len(lines) - after :]])


def copied(edit, after):
    """Returns the lines of a copy, where the part of the file ends in so many that aren't the function's."""
    lines, (old, new) = edit.part.split("\n"), (it.split("::")[-1] for it in (edit.of, edit.function))
    return [*edit.attributes, re.sub(rf"\bfn {old}\b", f"fn {new}", lines[0]), *lines[1 : len(lines) - after]]


def proof_files(folder, function):
    """Returns the place of a function's proof files."""
    return folder / "proofs" / "/".join(function.split("::")[1:])


class RightBody:
    """A copy of the function of an edit, whose body has another shape and means the same: it returns by a name."""

    name, left_out = "right_body", frozenset()

    def __init__(self, edit, lines, begins, ends, round_number):
        self.of, self.function, self.place = edit.function, f"{edit.function}_0", edit.place
        self.attributes = edit.attributes
        # The number has each round prove it anew.
        value = f"right_{round_number}"
        self.part = "\n".join([*lines[: begins + 1], f"let {value} = {{", *lines[begins + 1 : ends], f"}}; {value}", *lines[ends:]])


def right_body(folder, edits, round_number):
    """Returns a right body of the simplest of the functions of these edits that are proved without a proof file, or None."""
    found, least = None, None
    for edit in (it for it in edits if it.function and it.is_plain and not proof_files(folder, it.function).exists()):
        file, at = edit.place
        lines = parts((folder / file).read_text())[at].split("\n")
        begins, ends = body(lines)
        marks = len(re.findall(r"[^\w\s]", "".join(lines[:ends])))
        if least is None or marks < least:
            found, least = RightBody(edit, lines, begins, ends, round_number), marks
    return found


class Copy:
    """A copy of the crate of this name in the folder of."""

    def __init__(self, name, of, folder):
        self.name, self.of, self.folder = name, of, folder

    def write(self, edits, known):
        """Writes the copy, with the bodies of these edits, and with none of the other functions that are known, if any are."""
        shutil.rmtree(self.folder, ignore_errors=True)
        for part in filter(lambda it: (self.of / it).is_dir(), PARTS):
            shutil.copytree(self.of / part, self.folder / part)
        for path in self.folder.glob("src/**/*.rt"):
            file = str(path.relative_to(self.folder))
            whole = next((it.text for it in edits if not it.function and it.file == file), path.read_text())
            other, text = bodiless if known else str, ""
            for at, part in enumerate(parts(whole)):
                text += with_edits(part, (file, at), text.count("\n") + 1, edits, other)
            path.write_text(text)
        for edit in (it for it in edits if it.function and is_copy(it)):
            self.copy_proofs(edit)
        for edit in (it for it in edits if it.left_out):
            self.leave_out(edit)
        for name in set(known) - {it.function for it in edits}:
            self.leave_open(name)

    def proofs(self, name):
        """Returns the folder of a function's proof files, which it makes, and their place as a proof names it."""
        folder = proof_files(self.folder, name)
        folder.mkdir(parents=True, exist_ok=True)
        return folder, ".".join([self.name, "proofs", *name.split("::")[1:]])

    def leave_open(self, name):
        """Gives a function that has no body a hole as its proof."""
        folder, path = self.proofs(name)
        for file in ("Answers.antt", "Invariants.antt"):
            (folder / file).unlink(missing_ok=True)
        (folder / "Proof.antt").write_text(HOLE.format(path=path, name=path.split(".")[-1]))

    def copy_proofs(self, edit):
        """Gives the copy of a function the function's proof files, which name their own place."""
        given = proof_files(self.of, edit.of)
        if given.is_dir():
            folder, path = self.proofs(edit.function)
            for file in (it for it in given.iterdir() if it.is_file()):
                of = r"\.".join(["proofs", *edit.of.split("::")[1:]])
                (folder / file.name).write_text(re.sub(rf"\b{of}\b", path.partition(".")[2], file.read_text()))

    def leave_out(self, edit):
        """Leaves out answers of an edit's function."""
        file = proof_files(self.folder, edit.function) / "Answers.antt"
        named = lambda it: set(re.findall(r"(?m)^pub (\S+) :", it))
        file.write_text("\n\n".join(it for it in file.read_text().split("\n\n") if not named(it) & edit.left_out))

    def hush(self, edits):
        """Has the prover offer no answers for the functions of these edits."""
        for edit in edits:
            folder, path = self.proofs(edit.function)
            file = folder / "Answers.antt"
            answers = file.read_text() if file.exists() else f"use Rattle.{path}.Goals as goal\n"
            used = USED_GOALS.search(answers)
            if used and not (folder / "Proof.antt").exists():
                file.write_text(f"{answers}\npub {UNASKED} : {used[1]}.{UNASKED}\n{UNASKED} = ?\n")
