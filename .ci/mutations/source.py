"""Cuts a source of Rattle, in the layout of rt fmt, into its functions."""
import re

# A function, or a constant with a type: rt check prints that of an impl as a function.
FUNCTION = re.compile(r"(?m)^(?!\s*//).*?\b(?:fn|const) (\w+)[(<:]")


def parts(text):
    """Cuts a source at each line that begins a function."""
    cuts = [0, *(it.start() for it in FUNCTION.finditer(text)), len(text)]
    return [text[start:end] for start, end in zip(cuts, cuts[1:])]


def attributes(before):
    """Returns the lines of the attributes with which what is before a function ends; some say how it is proved, or export it."""
    lines = before.split("\n")[:-1]
    outside = [at for at, it in enumerate(lines) if not it.strip() or it.strip().startswith(("//", "}")) or it.endswith((";", "{"))]
    return lines[max(outside, default=-1) + 1 :]


def is_plain(before, part):
    """Tells whether a function can stand twice: it is no method of a trait, and rt fmt's layout says where it ends."""
    blocks = re.findall(r"(?m)^(?:pub )?(?:unsafe )?(?:impl|trait)\b[^{]*", before) if part.startswith(" ") else ["impl"]
    is_own = blocks and blocks[-1].startswith("impl") and not re.search(r"\bfor\b", blocks[-1])
    return bool(is_own and re.search(r"\bfn \w", part.split("\n")[0]) and body(part.split("\n")))


def body(lines):
    """Returns between which lines the body of a function is, in the layout of rt fmt, or None where it is in one line."""
    depth = len(lines[0]) - len(lines[0].lstrip())
    outer = [at for at, it in enumerate(lines) if it.strip() and len(it) - len(it.lstrip()) <= depth]
    head = [at for at in outer if at == 0 or lines[at].strip().startswith(")") or lines[at].strip() in ("where", "{")]
    begins = next((at for at in head if lines[at].endswith("{")), None)
    # Nothing but the signature is before the body.
    if begins is None or outer[: outer.index(begins)] != head[: head.index(begins)] or lines[0].endswith(("}", ";")):
        return None
    ends = outer[outer.index(begins) + 1 :][:1]
    return (begins, ends[0]) if ends and lines[ends[0]] == " " * depth + "}" else None


def is_evaluated(part):
    """Tells whether a part of a source begins with what the compiler evaluates, as a constant is."""
    return not re.search(r"\bfn \w", part.split("\n")[0]) or bool(re.search(r"\bconst\b.*\bfn\b", part.split("\n")[0]))


def bodiless(part):
    """Returns a function with a loop as its body, which costs no proof, in as many lines; what the compiler evaluates stays."""
    lines = part.split("\n")
    is_run = re.search(r"\bfn \w", lines[0]) and not re.search(r"\b(const|extern)\b.*\bfn\b", lines[0])
    found = body(lines) if FUNCTION.match(part) and is_run else None
    if not found:
        return part
    begins, ends = found
    return "\n".join([*lines[: begins + 1], "loop {}", *[""] * (ends - begins - 2), *lines[ends:]])
