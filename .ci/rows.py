"""Compares what a row of a table says of clauses with the contracts in the files that the row links.

A cell has parts between semicolons. Names in backticks before the word 'of' are clauses, or members of the logic, of all that is
named after it: functions (`conflict`), methods (`Set::position`), traits and types; 'of each' is of all functions that the
promise names. Names before the words 'in the clause of' are words of a clause of those. 'The clause of', 'implementations of',
'the invariant of' and 'the model of' have no names before them. Other names are items: functions, types, traits, their members,
or definitions.

In NATIVE.md the names in parentheses in the paragraph of an export are its clauses, or definitions that its contract reaches.
"""
import functools
import re

from contracts import MEMBER, ROOT, functions, heads, modules
from definitions import reached, specification, words

NAME = re.compile(r"`([A-Za-z_][\w-]*(?:::[A-Za-z_]\w*)*)(?:<[^`]*)?`")
# A part of a cell: what it says, what of it is before the word that leads to what it is of, and the rest.
# Of NATIVE.md the paragraph of an export, and names in parentheses.
EXPORT = re.compile(r"(?ms)^- `(\w+)\(.*?(?=^- |^$)")
IN_BRACKETS = re.compile(r"\((?:clauses?\s)?((?:`\w+`,?\s?)+)(?=[);:])")
PART = re.compile(r"(?P<names>.*?)(?P<way>\bin the clauses? of\b|\bof\b)(?P<targets>.*)")


class Holder:
    """A function, a trait or an implementation: its module, the names of its owner, its name, and the names that it has."""

    def __init__(self, module, owner, name, has, function=None):
        self.owner, self.name, self.has, self.function = owner, name, has, function
        self.module = module.split("::")
        self.ensures = [it for it in function.clauses if it.kind != "requires"] if function else []

    def is_called(self, target):
        """Tells whether a name is its own, with names of its owner, its module or its crate before it, which may lack prefixes."""
        *of, name = target.split("::")
        is_in = lambda it: it in self.owner or any(f"_{its}".endswith(f"_{it}") for its in self.module)
        return name == self.name and all(map(is_in, of))

    def is_told(self):
        """Tells whether it is a function with a contract of its own: a method of a trait may have the trait's."""
        return self.function is not None and bool(self.function.clauses or not re.match("(unsafe )?impl.* for ", self.function.owner or ""))


def owner_words(head):
    """Returns the names of the trait and the type of a head."""
    if not re.match(r"(unsafe )?impl\b", head):
        return set(re.findall(r"trait (\w+)", head))
    _, trait, of = heads(head)
    last = lambda it: re.sub(r"<.*", "", it).split("::")[-1].lstrip("&").removeprefix("'a ").removeprefix("mut ").strip()
    return {last(it) for it in (trait, of) if it}


@functools.cache
def read(crate):
    """Returns the functions and the modules of a crate."""
    return functions(crate), modules(crate)


@functools.cache
def holders(file):
    """Returns what of a source has clauses or members of the logic, and the names of all items of it."""
    all_functions, all_modules = read(file.relative_to(ROOT).parts[1])
    found, names = [], set()
    for it in (it for it in all_functions if it.file == file):
        owner = owner_words(it.owner) if it.owner else set()
        found.append(Holder(it.module.path, owner, it.name, {its.name for its in it.clauses}, it))
        names.add(it.name)
    for module in (it for it in all_modules if it.file == file):
        for it in module.items:
            members = {its.name for its in module.members(it) if its.kind in MEMBER} if it.kind in ("trait", "impl") else set()
            names |= members | ({it.name} if it.name else set())
            for word in owner_words(it.head) if it.kind in ("trait", "impl") else ():
                found.append(Holder(module.path, set(), word, members))
            derived = [its for its in it.attributes if its.startswith("derive")]
            found += [Holder(module.path, set(), word, set()) for its in derived for word in re.findall(r"\w+", its)[1:]]
    return found, names


@functools.cache
def definitions(file):
    """Returns the names that a file of specs/ defines."""
    parts = file.relative_to(ROOT).with_suffix("").parts[1:]
    found = specification(file, ".".join(parts))
    return set(found.names) | set(found.fields)


class Row:
    """A row: what its first cell promises, what its second cell names, and the files that it links."""

    def __init__(self, promise, cell, files):
        self.promise, self.cell, self.held, self.items = promise, cell, [], set()
        for file in files:
            found, names = holders(file) if file.suffix == ".rt" else ([], definitions(file) if file.suffix == ".antt" else set())
            self.held += found
            self.items |= names

    def find(self, target):
        """Returns what has this name."""
        return [it for it in self.held if it.is_called(target)]

    def targets(self, text):
        """Returns the names that stand for what a part of the cell is of."""
        if re.match(r" (each|both)\b", text):
            return [it for it in NAME.findall(self.promise) if any(its.function for its in self.find(it))]
        return NAME.findall(text)

    def problems(self):
        """Yields what is wrong with each part of the cell."""
        for part in map(str.strip, self.cell.split(";")):
            if found := PART.fullmatch(part):
                targets = self.targets(found["targets"])
                if not targets:
                    yield f"it isn't said of what this is: {part}"
                for target in targets:
                    yield from self.target(target, NAME.findall(found["names"]), found["way"], part)
            else:
                if re.search(r"\bclauses?\b", part) or not NAME.search(part):
                    yield f"it isn't said of what this is: {part}"
                yield from (f"{it} is no item" for it in NAME.findall(part) if it not in self.items and not self.find(it))

    def target(self, target, names, way, part):
        """Yields what is wrong with a part of the cell that is of this target."""
        found = self.find(target)
        told = [it for it in found if it.is_told()]
        if not found:
            yield f"there is no {target}"
        elif way != "of":
            said = {word for it in told for clause in it.ensures for word in words(clause.text)}
            yield from (f"no clause of {target} says {it}" for it in names if it not in said)
        elif told:
            yield from (f"{target} has no clause {name}" for name in names if not all(name in it.has for it in told))
            if not names and not all(it.ensures for it in told):
                yield f"{target} has no clause"
        else:
            yield from (f"{target} has no {name}" for name in names if not any(name in it.has for it in found))
            if word := re.search(r"\b(invariant|model)\b", part):
                wanted = {"invariant": "invariant", "model": "view"}[word[1]]
                yield from [] if any(wanted in it.has for it in found) else [f"{target} has no {word[1]}"]


def rows(text):
    """Returns the cells of each row of a text whose last cell has links, with those links."""
    for row in re.findall(r"(?m)^\|(.*\]\(.*)\|$", text):
        promise, cell, files = row.split(" | ")
        yield promise, cell, re.findall(r"\]\(([^)\s#]+)", files)


def in_brackets(text):
    return [it for some in IN_BRACKETS.findall(text) for it in re.findall(r"`(\w+)`", some)]


def native_problems(text):
    """Yields what NATIVE.md says of the exports that isn't so, and each export that it doesn't say."""
    section = re.search(r"(?ms)^## What is proved, function by function\n(.*?)^## ", text)[1]
    exports = {it.name: it for it in read("commonware_c")[0] if 'extern "C"' in it.signature}
    yield from (f"nothing is said of {it}" for it in exports.keys() - set(EXPORT.findall(section)))
    for paragraph in EXPORT.finditer(section):
        its = exports.get(paragraph[1])
        clauses = {it.name for it in its.clauses} if its else set()
        used = reached(" ".join(it.text for it in its.clauses), tuple(its.module.uses())) if its else {}
        known = clauses | {path.split(".")[-1] for path in used}
        yield from (f"{paragraph[1]} has no clause {it}" for it in in_brackets(paragraph[0]) if it not in known)
    rest = EXPORT.sub("", section)
    buffers = [it for it in exports.values() if "&mut " in it.signature]
    for name in in_brackets(rest):
        # Of each buffer it is said that it is unchanged; the others are clauses of an export.
        having = [it.name for it in exports.values() if any(clause.name == name for clause in it.clauses)]
        lacking = [it.name for it in buffers if name == "untouched" and it.name not in having]
        yield from [f"no export has a clause {name}"] if not having else (f"{it} has no clause {name}" for it in lacking)
