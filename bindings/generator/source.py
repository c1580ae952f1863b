"""Reads what the proved sources declare for C: their exports, the structs that these return, and the statuses."""
import dataclasses
import pathlib
import re

ROOT = pathlib.Path(__file__).resolve().parents[2]
SOURCES = ROOT / "crates/commonware_c/src"
# The order in which a reader meets the exports: by their files. Those of other files come last.
FILES = [
    *("version", "numbers", "committees", "sets", "places", "written", "maps", "bimaps", "pairs", "unique"),
    *("certificates", "encoded", "slots", "checks", "conflicts", "equivocations"),
    *("weights", "weighted_checks", "weighted_conflicts", "weighted_equivocations"),
]
# How many bytes a number has on the machines that the library is for, which is its alignment too.
SIZES = {"u8": 1, "u32": 4, "u64": 8, "usize": 8}


@dataclasses.dataclass
class Field:
    """A field of a struct, with its offset in bytes."""

    name: str
    type: str
    doc: str
    offset: int


@dataclasses.dataclass
class View:
    """A struct that exports return. Its name in other languages is made of `stem`: `set` of SetView."""

    name: str
    doc: str
    fields: list
    stem: str = ""
    size: int = 0

    def __post_init__(self):
        self.stem = re.sub(r"(?<!^)(?=[A-Z])", "_", self.name.removesuffix("View")).lower()
        at = 0
        for field in self.fields:
            field.offset = -(-at // SIZES[field.type]) * SIZES[field.type]
            at = field.offset + SIZES[field.type]
        most = max(SIZES[it.type] for it in self.fields)
        self.size = -(-at // most) * most


@dataclasses.dataclass
class Argument:
    """A parameter as C has it: a number, or a pointer to items. `of` is what the length after it is that of."""

    name: str
    type: str
    is_pointer: bool = False
    is_written: bool = False
    of: str = ""


@dataclasses.dataclass
class Export:
    """A function. Its name in other languages is made of `stem`, and `result` is a type or a View."""

    name: str
    doc: str
    arguments: list
    result: object
    clauses: list
    allocates: bool
    stem: str = ""

    def __post_init__(self):
        self.stem = self.name.removeprefix("commonware_")


@dataclasses.dataclass
class Status:
    """A status: its name, its number, and what it means. `text` is one line, and `is_numbered` whether a view tells more."""

    name: str
    number: int
    doc: str
    text: str
    is_numbered: bool


@dataclasses.dataclass
class Interface:
    """All that the sources declare, in a reader's order. Each struct comes where it is first returned."""

    exports: list
    views: list
    statuses: list


def prose(lines):
    """Returns the text of `///` lines."""
    return "\n".join(re.sub(r"^\s*/// ?", "", it) for it in lines.strip("\n").split("\n"))


def one_line(text):
    return " ".join(text.split())


def hold(found, pattern, text, what):
    """Ends the run where a text has more or fewer of something than were read: what isn't read would be left out unseen."""
    there = len(re.findall(pattern, text, re.MULTILINE))
    if len(found) != there:
        raise SystemExit(f"generate: of {there} {what} {len(found)} can be read: each has a form that is known, and a comment above")


def views_of(text):
    """Returns the structs of a source that have C's layout."""
    found = []
    pattern = r"((?:^///[^\n]*\n)+)#\[repr\(C\)\]\n(?:#\[[^\n]*\n)*pub struct (\w+) \{\n(.*?)^\}"
    for doc, name, body in re.findall(pattern, text, re.MULTILINE | re.DOTALL):
        fields = re.findall(r"((?:^ +///[^\n]*\n)+) +pub (\w+): (\w+),", body, re.MULTILINE)
        hold(fields, r"^    pub ", body, f"fields of {name}")
        found.append(View(name, prose(doc), [Field(it, kind, one_line(prose(said)), 0) for said, it, kind in fields]))
    hold(found, r"^#\[repr\(C\)\]$", text, "structs with C's layout")
    return found


def arguments_of(name, kind):
    """Returns what a parameter is in C: one argument, two for items and how many there are, or none for the allocator."""
    if kind == "Global":
        return []
    if kind in SIZES:
        return [Argument(name, kind)]
    shape = re.fullmatch(r"&(mut )?(?:\[(u8|u32|u64)\]|(\[\[u8; \d+\]\])|\[u8; \d+\])", kind)
    if not shape:
        raise SystemExit(f"generate: no form in other languages is known of {name}: {kind}")
    written, inner, rows = shape.groups()
    items = Argument(name, inner or "u8", True, bool(written))
    if not inner and not rows:
        return [items]
    return [items, Argument(f"{name}_{'count' if rows else 'length'}", "usize", of=name)]


def exports_of(text, views):
    """Returns the functions of a source that C can call."""
    found = []
    head = r'((?:^///[^\n]*\n)+)(?:#\[[^\n]*\n)*pub extern "C" fn (\w+)\(([^)]*)\)(?: -> (\w+))?(.*?)^\{'
    for doc, name, words, result, contract in re.findall(head, text, re.MULTILINE | re.DOTALL):
        kinds = re.findall(r"(\w+): ((?:&(?:mut )?)?(?:\[+[^\]]*\]+|\w+))", words)
        hold(kinds, r"\w+: ", words, f"parameters of {name}")
        if result not in views and result not in SIZES:
            raise SystemExit(f"generate: {name} returns {result or 'nothing'}, which has no form in other languages")
        arguments = [it for part in kinds for it in arguments_of(*part)]
        clauses = re.findall(r"^    ensures (\w*) ?\{", contract, re.MULTILINE)
        allocates = any(kind == "Global" for _, kind in kinds)
        hold(clauses, r"^    ensures ", contract, f"clauses of {name}")
        found.append(Export(name, prose(doc), arguments, views.get(result, result), clauses, allocates))
    hold(found, r'extern "C" fn ', text, "functions for C")
    return found


def statuses_of(text):
    """Returns the statuses, in the order of their numbers."""
    found = []
    for doc, name, number in re.findall(r"((?:^///[^\n]*\n)+)pub\(crate\) const (\w+): u32 = (\d+);", text, re.MULTILINE):
        said = one_line(prose(doc))
        first = re.match(r"(.*?)\.(?: |$)", said)[1]
        found.append(Status(name, int(number), said, first[0].lower() + first[1:], "`number`" in said))
    hold(found, r"^pub\(crate\) const ", text, "statuses")
    assert [it.number for it in found] == list(range(len(found))), "the statuses are numbered from 0 on"
    return found


def read(folder=SOURCES):
    """Returns what the sources in a folder declare."""
    paths = sorted(folder.glob("*.rt"), key=lambda it: (FILES.index(it.stem) if it.stem in FILES else len(FILES), it.stem))
    texts = [it.read_text() for it in paths]
    views = {it.name: it for text in texts for it in views_of(text)}
    exports = [it for text in texts for it in exports_of(text, views)]
    met = list(dict.fromkeys(it.result.name for it in exports if isinstance(it.result, View)))
    return Interface(exports, [views[it] for it in met], statuses_of((folder / "statuses.rt").read_text()))
