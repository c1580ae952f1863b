"""Reads the sources of Rattle: which contract each function has, and which types, members and definitions it speaks of.

functions(crate) returns each function of a crate with its path as the prover prints it; the other scripts import it. Nothing is
proved or built: sources are cut at their brackets. definitions.py finds what the words of a clause mean.
"""
import collections
import functools
import pathlib
import re

ROOT = pathlib.Path(__file__).resolve().parent.parent
# A string, a character and a comment, none of which has brackets that count.
OPAQUE = re.compile(
    r"""//[^\n]*|/\*.*?\*/|b?r(#*)".*?"\1|b?"(?:[^"\\]|\\.)*"|(?<![\w'])b?'(?:\\x[0-9a-f]{2}|\\u\{\w+\}|\\.|[^'\\\n])'""", re.S
)
PAIRS = {"(": ")", "[": "]", "{": "}"}
VISIBLE = r"(?:pub(?:\([^)]*\))?\s+)?"
FUNCTION = re.compile(VISIBLE + r"""(?:(?:const|unsafe|async|final|extern\s+"[^"]*")\s+)*fn\s+(\w+)""")
KINDS = r"ghost\s+use|ghost|use|mod|struct|enum|union|trait|impl|const|static|type|macro_rules!"
ITEM = re.compile(VISIBLE + rf"(?:unsafe\s+)?({KINDS})(?:\s+(\w+))?")
MACRO = re.compile(r"[\w:]+!")
CLAUSE = re.compile(r"\s*(requires|ensures)\b(\*?)\s*(\w+)?\s*(?=\{)")
ATTRIBUTE = re.compile(r"#!?(?=\[)")
# What of a member is a value of the logic, and what stands for it in the running program.
MEMBER = ("ghost", "const", "type")
# The parts of the paths of implementations whose plain names would be the same, as the prover prints them.
SAME_NAMES = {
    ("commonware_sequence::u64", "From<u64> for U64"): "U64FromImplb079ca5c",
    ("commonware_sequence::u64", "From<U64> for u64"): "U64FromImpl0ab08f5c",
}

# The crates of the library and of its programs; all others are tests, examples and equipment.
LIBRARY = re.compile("commonware_|committee_certificates$|committee_votes$|committee_vote_weights$|committee_weights$")
PROGRAMS = re.compile("(program_io|committee|judge|speed|quickstart)(_core|_questions|_verdicts)?$")

Clause = collections.namedtuple("Clause", "kind name text place")
PARTS = "crate path file name clauses has_body is_public signature owner module item holder"
Function = collections.namedtuple("Function", PARTS)


def flat(text):
    """Returns a text in one line, without the layout of rt fmt."""
    text = re.sub(r"\s+", " ", text).strip()
    text = re.sub(r"([(\[]|(?<=\w)<) ", r"\1", text)
    return re.sub(r",? ([)\]])", r"\1", text)


class Source:
    """A text without comments, where each bracket ends, and what of it isn't in strings or characters."""

    def __init__(self, text):
        blank = lambda it: re.sub(r"[^\n]", " ", it[0])
        self.text = OPAQUE.sub(lambda it: blank(it) if it[0].startswith("/") else it[0], text)
        self.shape = OPAQUE.sub(lambda it: re.sub(r"[^\n\"]", "_", it[0]), self.text)
        self.ends, opened = {}, []
        for at in (it.start() for it in re.finditer(r"[()\[\]{}]", self.shape)):
            if self.shape[at] in PAIRS:
                opened.append(at)
            elif not opened or PAIRS[self.shape[opened[-1]]] != self.shape[at]:
                raise ValueError(f"a bracket ends that hasn't begun: line {self.text.count(chr(10), 0, at) + 1}")
            else:
                self.ends[opened.pop()] = at + 1
        if opened:
            raise ValueError("a bracket has no end")

    def find(self, at, ends, form):
        """Returns the first match of a form from a place on, outside of all brackets."""
        wanted, either = re.compile(form), re.compile(rf"{form}|[(\[{{]")
        while (found := either.search(self.shape, at, ends)) and not wanted.match(self.shape, found.start(), ends):
            at = self.ends[found.start()]
        return found


class Item:
    """An item of a source: its kind and name, its attributes, its head, what is between its brackets, and its clauses."""

    def __init__(self, kind, name, attributes, head, inside=None, clauses=()):
        self.kind, self.name, self.attributes, self.head = kind, name, attributes, head
        self.inside, self.clauses = inside, list(clauses)
        self.is_public = bool(re.match(r"pub\s", head))
        self.is_test = any(re.match(r"cfg\(test\)|test$", it) for it in attributes)


def items(source, at, ends):
    """Yields the items of a source between two places."""
    while True:
        attributes = []
        at += len(re.match(r"\s*", source.shape[at:ends])[0])
        while ATTRIBUTE.match(source.shape, at, ends):
            begins = source.shape.index("[", at)
            attributes.append(flat(source.text[begins + 1 : source.ends[begins] - 1]))
            at = source.ends[begins]
            at += len(re.match(r"\s*", source.shape[at:ends])[0])
        if at >= ends:
            return
        found, at = item(source, at, ends, attributes)
        yield found


def item(source, at, ends, attributes):
    """Returns the item that begins at a place, and where it ends."""
    if head := FUNCTION.match(source.shape, at, ends):
        return function(source, at, ends, attributes, head[1])
    if not (head := ITEM.match(source.shape, at, ends)):
        stop = source.find(at, ends, ";") if MACRO.match(source.shape, at, ends) else None
        if not stop:
            raise ValueError(f"an item that is not read: {flat(source.text[at : at + 60])}")
        return Item("macro", None, attributes, ""), stop.end()
    kind = flat(head[1])
    braced = kind in ("struct", "enum", "union", "mod", "trait", "impl", "macro_rules!")
    stop = source.find(head.end(), ends, r";|\{" if braced else ";")
    text = flat(source.text[at : stop.start()])
    if stop[0] == "{":
        inside = (stop.start() + 1, source.ends[stop.start()] - 1)
        return Item(kind, head[2], attributes, text, inside), inside[1] + 1
    return Item(kind, head[2], attributes, text), stop.end()


def function(source, at, ends, attributes, name):
    """Returns the function that begins at a place, with its clauses, and where it ends."""
    stop = source.find(at, ends, r";|\{|\brequires\b|\bensures\b")
    here, clauses = stop.start(), []
    signature = flat(source.text[at:here]).removesuffix(",")
    while clause := CLAUSE.match(source.shape, here, ends):
        begins, here = here, source.ends[clause.end()]
        text = flat(source.text[clause.end() + 1 : here - 1])
        clauses.append(Clause(clause[1] + clause[2], clause[3], text, (begins, here)))
    stop = source.find(here, ends, r";|\{")
    if flat(source.shape[here : stop.start()]):
        raise ValueError(f"what follows the contract of {name} is not read: {flat(source.text[here : stop.start()])}")
    inside = (stop.start() + 1, source.ends[stop.start()] - 1) if stop[0] == "{" else None
    found = Item("fn", name, attributes, signature, inside, clauses)
    return found, inside[1] + 1 if inside else stop.end()


class Module:
    """A module: its crate, its path, its file, its items, and the sources that it is read from."""

    def __init__(self, crate, path, file, source, inside):
        self.crate, self.path, self.file, self.source = crate, path, file, source
        self.items = [it for it in items(source, *inside) if not it.is_test]

    def members(self, it):
        """Returns the items of a trait or an implementation."""
        return [] if it.inside is None else list(items(self.source, *it.inside))

    def fields(self, it):
        """Returns the fields of a structure that has names for them, or the variants of an enumeration."""
        inside = slice(*(it.inside or (0, 0)))
        return [flat(its) for its in arguments(self.source.text[inside], self.source.shape[inside])]

    def uses(self, it=None):
        """Returns what the lines 'ghost use' name, those of the module and of an item of it."""
        found = self.items + (self.members(it) if it and it.kind in ("trait", "impl") else [])
        return [re.sub(r"^(pub )?ghost use ", "", it.head) for it in found if it.kind == "ghost use"]


@functools.cache
def parsed(crate, path, file, text):
    """Returns the modules of a file with this text: that with this path, and those that it has inside."""
    try:
        source = Source(text)
        found = [Module(crate, path, file, source, (0, len(source.text)))]
        for module in found:
            inner = [it for it in module.items if it.kind == "mod" and it.inside]
            found += [Module(crate, f"{module.path}::{it.name}", file, source, it.inside) for it in inner]
        return found
    except ValueError as error:
        raise ValueError(f"{file.relative_to(ROOT)}: {error}") from error


def modules(crate):
    """Returns the modules of a crate, as its root names them one after another; those of tests aside."""
    top = ROOT / "crates" / crate / "src"
    found, todo = [], [(crate, next(it for it in (top / "lib.rt", top / "main.rt") if it.is_file()), top)]
    while todo:
        path, file, folder = todo.pop(0)
        here = parsed(crate, path, file, file.read_text())
        found += here
        names = [it.name for it in here[0].items if it.kind == "mod" and not it.inside]
        todo += [(f"{path}::{it}", folder / f"{it}.rt", folder / it) for it in names]
    return found


def crates(form=re.compile("")):
    """Returns the crates of crates.txt whose names have a form."""
    return [it for it in re.findall(r"(?m)^(\w+)", (ROOT / "crates.txt").read_text()) if form.match(it)]


def arguments(text, shape=None):
    """Cuts what is between brackets at its commas, where it may have a shape without strings."""
    found, depth, begins = [], 0, 0
    for at, sign in enumerate((shape or text).replace("->", "  ").replace("=>", "  ")):
        depth += (sign in "<([{") - (sign in ">)]}")
        if sign == "," and depth == 0:
            found.append(text[begins:at])
            begins = at + 1
    return [it.strip() for it in [*found, text[begins:]] if it.strip()]


def angles(text):
    """Cuts a text after the angle brackets that it begins with, which it returns without them."""
    depth = 0
    for at, sign in enumerate(text.replace("->", "  ")):
        depth += (sign == "<") - (sign == ">")
        if depth == 0:
            return (text[1:at], text[at + 1 :].strip()) if at else ("", text)
    raise ValueError(f"an angle bracket has no end: {text}")


def names_of(generics):
    """Returns the names of the parameters between angle brackets."""
    return {re.match(r"(?:const )?('?\w+)", it)[1] for it in arguments(generics)}


def type_name(text, parameters):
    """Returns the part of a path that the prover makes of a type: parameters are left out."""
    text = re.sub(r"^(\s*'\w+\s*)+", "", text.strip())
    if text.startswith("&"):
        rest = re.sub(r"^&\s*('\w+\s*)?", "", text)
        is_mutable = rest.startswith("mut ")
        return ("RefMut" if is_mutable else "Ref") + type_name(rest.removeprefix("mut "), parameters)
    if text.startswith("["):
        item_of, _, size = text[1:-1].partition(";")
        return ("Array" if size else "Slice") + type_name(item_of, parameters)
    if text.startswith("("):
        parts = arguments(text[1:-1])
        return f"Tuple{len(parts)}" + "".join(type_name(it, parameters) for it in parts)
    path, _, inner = text.partition("<")
    words = [it for it in path.strip().split("::") if it]
    if not words or text in parameters or "=" in path or text == "_":
        return ""
    inside = angles("<" + inner)[0] if inner else ""
    return "".join(it[:1].upper() + it[1:] for it in words) + "".join(type_name(it, parameters) for it in arguments(inside))


def heads(head):
    """Returns of the head of an implementation its parameters, its trait or None, and its type."""
    rest = re.sub(r"^(unsafe )?impl", "", head).strip()
    generics, rest = angles(rest) if rest.startswith("<") else ("", rest)
    rest = re.split(r"\bwhere\b", rest)[0].strip()
    cut = re.search(r" for (?!<)", rest)
    return names_of(generics), rest[: cut.start()].strip() if cut else None, rest[cut.end() if cut else 0 :].strip()


def impl_name(module, head):
    """Returns the part of a path that the prover makes of an implementation."""
    parameters, trait, of = heads(head)
    if trait is None:
        base, _, inner = of.partition("<")
        given = [it for it in arguments(angles("<" + inner)[0] if inner else "") if type_name(it, parameters)]
        return "+".join([base.strip().split("::")[-1], *(it for it in given if not it.startswith("'"))])
    known = SAME_NAMES.get((module.path, f"{trait} for {of}"))
    base, _, inner = trait.partition("<")
    given = "".join(type_name(it, parameters) for it in arguments(angles("<" + inner)[0] if inner else ""))
    return known or (type_name(of, parameters) or "Any") + base.strip().split("::")[-1] + given


def path_of(module, it, homes):
    """Returns the path of an item as the prover prints it: methods of a type's own are where the type is."""
    if it.kind != "impl":
        return f"{module.path}::{it.name}"
    name = impl_name(module, it.head)
    if heads(it.head)[1] is not None:
        return f"{module.path}::{name}"
    of = homes[name.partition("+")[0]]
    near = [path for path in of if f"{module.path}::".startswith(f"{path}::")]
    if len(of) > 1 and not near:
        raise ValueError(f"more than one type has the name of {it.head}")
    return f"{max(near, key=len) if near else of[0]}::{name}"


def homes_of(found):
    """Returns of the name of each type in these modules the paths of the modules that it is in."""
    homes = collections.defaultdict(list)
    for module in found:
        for it in (it for it in module.items if it.kind in ("struct", "enum", "union", "type")):
            homes[it.name].append(module.path)
    return homes


def private_names(found):
    """Returns the names of types and traits that are not public in these modules."""
    types = [it for module in found for it in module.items if it.kind in ("struct", "enum", "union", "trait", "type")]
    return {it.name for it in types if not it.is_public} - {it.name for it in types if it.is_public}


def is_shown(it, private):
    """Tells whether an item is public: by its word, or as an implementation of a public trait for a public type."""
    if it.kind != "impl":
        return it.is_public
    _, trait, of = heads(it.head)
    return not private.intersection(re.findall(r"\w+", f"{(trait or '').partition('<')[0]} {of.partition('<')[0]}"))


def functions(crate):
    """Returns each function of a crate, tests aside: its crate, its path as the prover prints it, its file, its name, its clauses
    (requires and ensures, in order, each with its place in the file), whether it has a body, whether it is public, its signature,
    the head of its trait or implementation (owner, or None), and the module, the item and the owner's item that it was read from.

    Public are functions and methods that are so by their word; methods of a public trait; those of an implementation of a trait,
    which have clauses of their own or those of the trait; and in a program each function of its root."""
    found, all_of = [], modules(crate)
    private, homes = private_names(all_of), homes_of(all_of)
    for module in all_of:
        for it in (it for it in module.items if it.kind in ("fn", "trait", "impl")):
            is_alone, path = it.kind == "fn", path_of(module, it, homes)
            is_trait = it.kind == "trait" or it.kind == "impl" and heads(it.head)[1] is not None
            for each in [it] if is_alone else [its for its in module.members(it) if its.kind == "fn" and not its.is_test]:
                of_program = is_alone and module.file.name == "main.rt"
                is_public = of_program or is_shown(it, private) and (is_trait or each.is_public)
                full, owner, holder = (path, None, None) if is_alone else (f"{path}::{each.name}", it.head, it)
                told = (each.clauses, each.inside is not None, is_public, each.head, owner)
                found.append(Function(crate, full, module.file, each.name, *told, module, each, holder))
    paths = collections.Counter(it.path for it in found)
    if twice := [it for it, number in paths.items() if number > 1]:
        raise ValueError(f"functions have one path, and SAME_NAMES has to say how the prover prints them: {', '.join(twice)}")
    return found
