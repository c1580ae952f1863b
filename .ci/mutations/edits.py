"""Reads the mutations of a crate.

wrong-bodies/*.edits has for each source a line 'file: PATH', and below it of each of its mutations a line '[NAME]', a line
'function: PATH', as rt check prints it, that names the function to be refused, and pairs of lines 'old: TEXT' and 'new: TEXT',
which are read as those of a must-fail edit; but an old text that is in several functions may be once in this one. A mutation of
what is in no function has no line 'function:'.

What shows that a mutation means something else, where the prover has no values and no test of the repository tells it apart:
'witness: CODE' is code in the module of the function that holds for the function and not for the mutation (lines before the last
are statements; `alloc` is an allocator); 'reason: TEXT' says why no code can tell the two apart, or why it isn't run.
'compile-error: TEXT' says that the mutation must not compile, and what the error says.

right-bodies/*.edits has right bodies of another shape, in the same form: no proof of them may be found, and nothing may show that
they are wrong.
"""
import copy
import os
import re

from . import paths
from .source import FUNCTION, attributes, is_plain, parts

# What a mutation may say of how it is shown to be wrong.
SAYS = ("witness", "reason", "compile-error")


class Edit:
    """A mutation: its function, the part of a file that this is (place) and what it becomes; or else a whole text.

    The function to be refused may be a copy of that which the line names (of)."""

    def __init__(self, name, file, function, pairs, folder, said=()):
        self.name, self.file, self.of, self.function, self.place = name, file, function, function, None
        # The answers of its function that are left out, with the verdict on it with them; whether it means the same.
        self.left_out, self.verdict, self.is_right = frozenset(), None, False
        # What its lines say of how it is shown to be wrong, by the words before the colon.
        self.said = {word: [text for it, text in said if it == word] for word in SAYS}
        if sum(map(bool, self.said.values())) > 1:
            raise ValueError("more than one of 'witness', 'reason' and 'compile-error' says what shows that it is wrong")
        was = self.text = (folder / file).read_text()
        for old, new in pairs:
            self.text = replaced(self.text, old, new, function)
        if self.text == was:
            raise ValueError("it changes nothing")
        if function:
            self.place_in(parts(was), parts(self.text))

    def place_in(self, was, now):
        """Notes which part of the file the edit changes, which must be its function's."""
        at = len(os.path.commonprefix([was, now]))
        below = len(os.path.commonprefix([was[at:][::-1], now[at:][::-1]]))
        head = FUNCTION.match(was[at]) if at + 1 + below == len(was) else None
        if not head or head[1] != self.function.split("::")[-1]:
            raise ValueError(f"what it changes in {self.file} is not all in one function {self.function}")
        self.place, self.part, self.was = (self.file, at), "".join(now[at : len(now) - below]), was[at]
        self.is_plain, self.attributes = is_plain("".join(was[:at]), was[at]), attributes(was[at - 1])

    def moved(self, number):
        """Returns the same of a copy of the function, which has a name of its own and stands below it, or of itself, at 0."""
        found = copy.copy(self)
        found.function = f"{self.of}_{number}" if number else self.of
        return found

    def without(self, verdict):
        """Returns the same without the answers by which alone a verdict refuses it."""
        found = copy.copy(self)
        found.function, found.left_out, found.verdict = self.of, verdict.by_answers, verdict
        return found

    def change(self):
        """Returns what it changes, where it has been written to a file (line)."""
        return paths.Change(self.was, self.part, self.file, self.line) if self.function else None


def replaced(text, old, new, function):
    """Returns a text in which the one old text is replaced, which is the only one in the text, or at least in the function."""
    found, cut = text.count(old), parts(text)
    if found > 1 and function:
        name = function.split("::")[-1]
        here = [at for at, it in enumerate(cut) if (head := FUNCTION.match(it)) and head[1] == name and old in it]
        if len(here) == 1 and cut[here[0]].count(old) == 1:
            cut[here[0]] = cut[here[0]].replace(old, new)
            return "".join(cut)
    if found != 1:
        raise ValueError(f"an old text is there {found} times, and not once")
    return text.replace(old, new)


def is_copy(edit):
    """Tells whether what is edited is a copy of a function."""
    return edit.of != edit.function


def read(text):
    """Returns of each mutation of this text the file that it changes, its name, its function, its pairs of texts and what it says."""
    file, found, old = None, [], None
    for line in filter(str.strip, text.splitlines()):
        name = re.fullmatch(r"\[(\w+)\]", line)
        word, _, rest = line.partition(":")
        rest = rest.removeprefix(" ")
        if old is not None and word != "new":
            raise ValueError(f"an old text without a new one: {old}")
        here = [it for it in found if it[0] == file]
        if name and file:
            found.append((file, name[1], None, [], []))
        elif word == "file" and re.fullmatch(r"src/[\w/]+\.rt", rest):
            if any(it[0] == rest for it in found):
                raise ValueError(f"the mutations of {rest} stand in two places")
            file = rest
        elif word == "function" and here and not any(here[-1][2:]):
            found[-1] = (*here[-1][:2], rest, [], [])
        elif word in SAYS and here:
            found[-1][4].append((word, rest))
        elif word == "old" and here:
            old = rest
        elif word == "new" and old is not None:
            found[-1][3].append((old, rest))
            old = None
        else:
            raise ValueError(f"a line that is not read: {line}")
    if old is not None or not all(it[3] for it in found):
        raise ValueError("a mutation lacks a pair of texts")
    return found


def edits(folder, tell):
    """Returns the mutations of the crate in this folder and its right bodies, and tells of those that can't be applied."""
    found, seen = [], set()
    for path in sorted([*folder.glob("wrong-bodies/*.edits"), *folder.glob("right-bodies/*.edits")]):
        try:
            mutations = read(path.read_text())
        except (OSError, ValueError) as error:
            tell(path.name, f"not applicable: {error}")
            continue
        for file, name, function, pairs, said in mutations:
            try:
                if name in seen:
                    raise ValueError("another mutation of this crate has its name")
                seen.add(name)
                found.append(Edit(name, file, function, pairs, folder, said))
                found[-1].is_right = path.parent.name == "right-bodies"
            except (OSError, ValueError) as error:
                tell(name, f"not applicable: {error}")
    return found


def is_named(edit, crate, words):
    """Tells whether one of these words names a mutation: its crate, crate/NAME, or words of its function's path, side by side."""
    path = (edit.of or crate).split("::")
    for word in words:
        first, *rest = word.split("::")
        inner = [path[at : at + len(rest)] for at in range(1, len(path))]
        if word in (crate, f"{crate}/{edit.name}") or first == crate and rest in inner:
            return True
    return False
