"""Wrong implementations of the native calls, made of the reference by rules.

A rule changes one place of one definition that a call uses: a comparison, a number, a status, a
field, a check that is left out, or two neighbours that change places. native_slips.py has those
that change what a call gets or returns as a whole.
"""

import ast
import copy
import functools
import pathlib

HERE = pathlib.Path(__file__).resolve().parent
# The modules of the reference of the native calls, as one text of definitions.
MODULES = ["varints", "models", "native_views", "native_items", "native_signers"]
TREE = ast.Module([], [])
for module in MODULES:
    TREE.body += ast.parse((HERE / f"{module}.py").read_text(encoding="utf-8")).body
TREE.body = [it for it in TREE.body if not isinstance(it, ast.ImportFrom) or it.module == "bisect"]
DEFINED = {it.name: it for it in TREE.body if isinstance(it, (ast.FunctionDef, ast.ClassDef))}
# What the reference has beside the rules: where it is in the bytes, and how a fault is passed on.
FRAME = {"Source", "Fault", "DecodingError", "viewed", "written"}
CONSTANTS = [it.targets[0].id for it in TREE.body if isinstance(it, ast.Assign)]
STATUSES = CONSTANTS[CONSTANTS.index("OK") : CONSTANTS.index("TOO_LIGHT") + 1]
COMPARED = {ast.Lt: ast.LtE, ast.LtE: ast.Lt, ast.Gt: ast.GtE, ast.GtE: ast.Gt}
COMPARED |= {ast.Eq: ast.NotEq, ast.NotEq: ast.Eq, ast.In: ast.NotIn, ast.NotIn: ast.In}
COMPUTED = {ast.Add: ast.Sub, ast.Sub: ast.Add, ast.Mult: ast.Add, ast.BitAnd: ast.BitOr}
COMPUTED |= {ast.Mod: ast.FloorDiv, ast.FloorDiv: ast.Mult}


def changed(node, **fields):
    """Returns a node with other fields."""
    made = copy.copy(node)
    for name, value in fields.items():
        setattr(made, name, value)
    return made


def without(items, index):
    return items[:index] + items[index + 1 :]


def exchanged(items, index):
    """Returns a list in which an item and the one after it change places."""
    return items[:index] + [items[index + 1], items[index]] + items[index + 2 :]


def neighbours(items):
    """Yields the lists in which two neighbours change places."""
    return (exchanged(items, it) for it in range(len(items) - 1))


def names_in(node):
    return {it.id for it in ast.walk(node) if isinstance(it, ast.Name)}


def refusing():
    """Returns the names of the definitions that may find a fault, or use one that may."""
    found, more = set(), {"Fault"}
    while more:
        found |= more
        more = {name for name, node in DEFINED.items() if names_in(node) & found} - found
    return found


def is_check(statement):
    """Tells whether a function without this statement is still one: a check, and no comment."""
    if isinstance(statement, ast.Expr):
        return not isinstance(statement.value, ast.Constant)
    return isinstance(statement, ast.If) and not statement.orelse


REFUSING = refusing()


def is_refusing(statement):
    """Tells whether a statement may find a fault: in which order others stand makes no difference
    that can be seen."""
    is_found = isinstance(statement, ast.Assign) and bool(names_in(statement) & REFUSING)
    return is_check(statement) or is_found


def of_numbers(node):
    """Yields what a number, a comparison or a sum may be by mistake."""
    if isinstance(node, ast.Constant) and type(node.value) is bool:
        yield ast.Constant(not node.value)
    elif isinstance(node, ast.Constant) and isinstance(node.value, int):
        yield from (ast.Constant(it) for it in (node.value + 1, node.value - 1) if it >= 0)
    elif isinstance(node, ast.Name) and node.id in STATUSES:
        # One other status stands for all: the view has it, or hasn't.
        yield ast.Name(STATUSES[STATUSES.index(node.id) - 1], node.ctx)
    elif isinstance(node, ast.Compare) and type(node.ops[0]) in COMPARED:
        yield changed(node, ops=[COMPARED[type(node.ops[0])]()])
    elif isinstance(node, ast.BinOp) and type(node.op) in COMPUTED:
        yield changed(node, op=COMPUTED[type(node.op)]())
    elif isinstance(node, ast.BoolOp):
        yield from node.values


def of_parts(node):
    """Yields what a call, a view or a condition may be by mistake."""
    if isinstance(node, ast.Call):
        for it in range(len(node.keywords)):
            yield changed(node, keywords=without(node.keywords, it))
        # The least of two is the same in both orders.
        if not (isinstance(node.func, ast.Name) and node.func.id == "min"):
            yield from (changed(node, args=it) for it in neighbours(node.args))
    elif isinstance(node, ast.Dict):
        for it in range(len(node.keys)):
            yield changed(node, keys=without(node.keys, it), values=without(node.values, it))
        # Views that are put together have different fields, so their order makes no difference.
        if None not in node.keys:
            yield from (changed(node, values=it) for it in neighbours(node.values))
    elif isinstance(node, ast.Tuple) and isinstance(node.ctx, ast.Load):
        yield from (changed(node, elts=it) for it in neighbours(node.elts))
    elif isinstance(node, (ast.If, ast.IfExp)):
        yield from (changed(node, test=ast.Constant(it)) for it in (True, False))


def of_statements(node):
    """Yields what statements may be by mistake: one is left out, or two change places."""
    body = getattr(node, "body", None)
    if not isinstance(body, list) or isinstance(node, ast.ClassDef):
        return
    for it in range(len(body)):
        if is_check(body[it]):
            yield changed(node, body=without(body, it) or [ast.Pass()])
        if it + 1 < len(body) and is_refusing(body[it]) and is_refusing(body[it + 1]):
            yield changed(node, body=exchanged(body, it))


def places_of(root):
    """Yields each node below another one, with a function that puts a node in its place. Loops
    that have no condition are left as they are."""
    for parent in ast.walk(root):
        for name, part in ast.iter_fields(parent):
            if isinstance(parent, ast.While) and isinstance(part, ast.Constant):
                continue
            if isinstance(part, ast.AST):
                yield part, functools.partial(setattr, parent, name)
            elif isinstance(part, list):
                nodes = ((index, it) for index, it in enumerate(part) if isinstance(it, ast.AST))
                yield from ((it, functools.partial(part.__setitem__, index)) for index, it in nodes)


def words_of(name, node, made):
    """Returns the first line in which a node and what is made of it differ, in words."""
    before, after = (ast.unparse(it).split("\n") for it in (node, made))
    differ = (it for it, (one, other) in enumerate(zip(before, after)) if one != other)
    index = next(differ, len(after))
    line = lambda lines: f"`{lines[index].strip()}`" if index < len(lines) else "nothing"
    return f"`{name}`: {line(before)} becomes {line(after)}"


def wrong_forms(node):
    """Returns what a node may be by mistake, without what reads as it does."""
    made = (*of_numbers(node), *of_parts(node), *of_statements(node))
    return [it for it in made if ast.unparse(it) != ast.unparse(node)]


def variants_of(name):
    """Yields each wrong form of a definition as code, with a function that says what is wrong."""
    module = ast.Module([DEFINED[name]], [])
    for node, put in [*places_of(module)]:
        for made in wrong_forms(node):
            put(ast.fix_missing_locations(ast.copy_location(made, node)))
            yield compile(module, "variant", "exec"), functools.partial(words_of, name, node, made)
            put(node)


def uses_of(name):
    """Returns the names of the definitions that one uses, itself among them."""
    found, rest = set(), {name}
    while rest:
        found |= rest
        used = set().union(*(names_in(DEFINED[it]) for it in rest))
        rest = (used & DEFINED.keys()) - found
    return found - FRAME


def fields_of(name):
    """Returns the names that the fields of views have in what a call uses: all others are 0."""
    nodes = [node for one in uses_of(name) for node in ast.walk(DEFINED[one])]
    texts = {it.value for it in nodes if isinstance(it, ast.Constant)}
    return texts | {it.arg for it in nodes if isinstance(it, ast.keyword)} | {"status"}


def namespace():
    """Returns the reference: in its place a wrong form of a definition can be run."""
    names = {"__name__": "reference"}
    exec(compile(TREE, "reference", "exec"), names)
    return names
