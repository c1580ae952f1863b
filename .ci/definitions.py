"""Finds the definitions of specs/ that a contract reaches, through the lines 'use' of its source and of the definitions' files.

reached(words, uses) returns them: those that a word names by an import, and all that these name in turn, types of the sources
(specs.declared) among them. A word of the standard library has none here. Of a law, which is proved, the statement counts.
"""
import functools
import hashlib
import re

from contracts import ROOT, flat, heads, modules

# A string, and a comment, which begins a line or stands behind a space.
COMMENT = re.compile(r'"(?:[^"\\\n]|\\.)*"|(?<!\S)--(?:\s.*)?$', re.M)
USE = re.compile(r"(?:pub )?use (.*)", re.S)
HEAD = re.compile(r"(?P<kind>(?:abbrev |unfoldable |pub |record |data )*)(?P<name>[^\s(){}:]+)")
BOUND = re.compile(r"(?m)^\s+(?:pub )?([^\s(){}:]+) :(?=\s)")


def words(text):
    """Returns the words of a text of the logic, and the parts of those with dots."""
    return set(re.findall(r'[^\s(){}\[\];,.⟦⟧"<>]+', text))


def checksum(text):
    return hashlib.sha256(text.encode()).hexdigest()[:16]


class Definition:
    """A definition: its path, its text in one line, the file that it is in or else what the lines 'ghost use' beside it name."""

    def __init__(self, path, text, near, is_law=False):
        self.path, self.text, self.is_law = path, text, is_law
        self.near, self.uses = (near, near.uses) if isinstance(near, Specification) else (None, near)

    @functools.cached_property
    def checksum(self):
        return checksum(self.text)

    @functools.cached_property
    def named(self):
        """The definitions that it names."""
        return named(self.text, self.uses, self.near)


def chunks(lines):
    """Cuts lines at each that is as little indented as the first; what only closes a bracket belongs to what is before it."""
    depth = min((len(it) - len(it.lstrip()) for it in lines if it.strip()), default=0)
    found = []
    for line in filter(str.strip, lines):
        if found and (line[:depth].strip() == "" and line[depth] in " )]}"):
            found[-1].append(line)
        else:
            found.append([line])
    return found


class Specification:
    """A file of specs/: what its lines 'use' name, and its definitions by each name that they bind."""

    def __init__(self, path, name):
        text = COMMENT.sub(lambda it: it[0] if it[0].startswith('"') else "", path.read_text())
        self.name, self.is_of_laws = name, ".laws." in f"{name}."
        # Names is without the fields of records, which stand behind a value whose type is reached.
        self.uses, self.parts, self.names, self.fields = [], {}, {}, {}
        self.read(text.split("\n"), "")
        self.found = {it: Definition(f"{name}.{it}", flat(" ".join(said[:2])), self, said[2]) for it, said in self.parts.items()}

    def read(self, lines, context):
        """Notes the definitions of these lines, which are in modules with these heads."""
        before = ""
        for chunk in chunks(lines):
            text, first = "\n".join(chunk), chunk[0].strip()
            if first.startswith("unfolding "):
                before = f"{first} "
            elif use := USE.fullmatch(flat(text)):
                self.uses.append(use[1])
            elif first.startswith("module "):
                head, _, inner = text.partition("where\n")
                self.read(inner.split("\n"), f"{context} {head}")
            elif not first.startswith("pub mod "):
                self.define(before + text, context)
                before = ""

    def define(self, text, context):
        """Notes a definition, or one more equation of one."""
        head = HEAD.match(re.sub(r"^unfolding .*? (?=\S)", "", text).strip())
        name, kind = head["name"], head["kind"]
        if not kind and name in self.parts:
            were, said, is_law = self.parts[name]
            self.parts[name] = (were, said if is_law else f"{said} {text}", is_law)
            return
        is_law = self.is_of_laws and not re.search("abbrev|unfoldable|record|data", kind)
        self.parts[name] = (context, text, is_law)
        self.names.setdefault(name, []).append(name)
        for bound in BOUND.findall(text) if re.search("record|data", kind) else []:
            (self.fields if "record" in kind else self.names).setdefault(bound, []).append(name)

    def all_of(self, name):
        """Returns the definitions that bind a name here, or to which a line 'use' leads."""
        here = [self.found[it] for it in self.names.get(name, []) or self.fields.get(name, [])]
        brought = ((path, there) for use in self.uses for known, path, there in imports(use) if known == name)
        return here or [it for path, there in brought for it in resolve(path, there)]


@functools.cache
def imports(use):
    """Returns of a line 'use' each name that it brings, with the path and the name there, or None for all of a module."""
    path, _, listed = use.rstrip(";").partition(".{")
    if not listed:
        path, _, known = path.partition(" as ")
        return [(known.strip() or path.split(".")[-1], path, None)]
    pairs = [it.strip().partition(" as ") for it in listed.rstrip("}").split(",")]
    return [(known or there, path, there) for there, _, known in pairs if there]


@functools.cache
def resolve(path, name):
    """Returns the definitions that a name of a module of the logic stands for; none for one of another library."""
    _, crate, *parts = path.split(".")
    if not (ROOT / "crates" / crate).is_dir():
        return []
    if parts[:1] != ["specs"]:
        raise ValueError(f"what is no part of specs is used: {path}")
    if parts[1:2] in (["declared"], ["contracts"]):
        return [declared(crate, tuple(parts[2:]))]
    file = (ROOT / "crates" / crate / "specs").joinpath(*parts[1:]).with_suffix(".antt")
    if not file.is_file():
        raise ValueError(f"a module of definitions is not there: {path}")
    found = specification(file, f"{crate}.{'.'.join(parts)}")
    if name is None:
        return list(found.found.values())
    if not (named := found.all_of(name)):
        raise ValueError(f"{path} has no {name}")
    return named


@functools.cache
def specification(file, name):
    return Specification(file, name)


@functools.cache
def declared(crate, parts):
    """Returns a type of a source as a definition: its text, and how the logic sees it, by its implementation of Model."""
    for module in modules(crate):
        inner = tuple(module.path.split("::")[1:])
        if parts[: len(inner)] == inner and len(parts) > len(inner):
            its = [it for it in module.items if it.kind in ("struct", "enum", "union") and it.name == parts[len(inner)]]
            if its:
                views = [it for it in module.items if it.kind == "impl" and is_model(it, its[0].name)]
                seen = [it.head for view in views for it in module.members(view)]
                uses = module.uses() + [it for view in views for it in module.uses(view)]
                text = " ".join([its[0].head, *module.fields(its[0]), *seen])
                return Definition(f"{module.path.replace('::', '.')}.{its[0].name}", flat(text), uses)
    raise ValueError(f"no source of {crate} declares {'.'.join(parts)}")


def is_model(it, name):
    _, trait, of = heads(it.head)
    return trait is not None and trait.split("::")[-1] == "Model" and re.match(rf"{name}\b", of)


def named(text, uses, near=None):
    """Returns the definitions that the words of a text name, by imports or in the same file."""
    said, found = words(text), []
    for use in uses:
        for known, path, there in imports(use):
            if known in said or "◌" in known and said.intersection(known.replace("◌", " ").split()):
                found += resolve(path, there)
    return found + [near.found[it] for word in said if near for it in near.names.get(word, [])]


@functools.cache
def reached(text, uses):
    """Returns the definitions that a text reaches, by their paths."""
    found, todo = {}, named(text, uses)
    while todo:
        it = todo.pop()
        if it.path not in found:
            found[it.path] = it
            todo += it.named
    return found
