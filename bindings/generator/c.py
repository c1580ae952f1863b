"""Writes the header: a page by hand, in which the statuses, the structs and the functions come from the sources."""
import re
import textwrap

from .source import ROOT, View

PAGE, PATH = ROOT / "bindings/generator/commonware.h", ROOT / "bindings/c/commonware.h"
TYPES = {"u8": "uint8_t", "u32": "uint32_t", "u64": "uint64_t", "usize": "size_t"}
WIDTH = 100


def comment(doc, indent=""):
    """Returns a comment of a text, whose blocks of code stand four spaces in."""
    lines, in_code, room = [], False, []

    def flush():
        width = WIDTH - 6 - len(indent)
        lines.extend(textwrap.wrap(" ".join(room), width, break_long_words=False, break_on_hyphens=False))
        room.clear()

    for line in doc.split("\n"):
        if line.startswith("```"):
            flush()
            in_code = not in_code
            lines += [""] if lines and lines[-1] else []
        elif in_code:
            lines.append(f"    {line}")
        elif line:
            room.append(line)
        else:
            flush()
            lines += [""] if lines and lines[-1] else []
    flush()
    while lines and not lines[-1]:
        lines.pop()
    body = f"\n{indent} * ".join(lines)
    return "\n".join(it.rstrip() for it in f"{indent}/* {body} */".split("\n")) + "\n"


def declared(argument):
    """Returns the declaration of a parameter."""
    if not argument.is_pointer:
        return f"{TYPES[argument.type]} {argument.name}"
    const = "" if argument.is_written else "const "
    return f"{const}{TYPES[argument.type]} *{argument.name}"


def type_of(view):
    return f"commonware_{view.stem}_view"


def struct(view):
    """Returns the definition of a struct."""
    fields = "".join(f"{comment(it.doc, '    ')}    {TYPES[it.type]} {it.name};\n" for it in view.fields)
    return f"{comment(view.doc)}typedef struct {{\n{fields}}} {type_of(view)};\n"


def prototype(export):
    """Returns the declaration of a function."""
    result = type_of(export.result) if isinstance(export.result, View) else TYPES[export.result]
    words = ", ".join(map(declared, export.arguments)) or "void"
    line = f"COMMONWARE_CHECKED {result} {export.name}({words});"
    if len(line) > WIDTH:
        head, _, rest = line.partition("(")
        line = f"{head}(\n" + textwrap.fill(rest, WIDTH, initial_indent="    ", subsequent_indent="    ")
    return f"{comment(export.doc)}{line}\n"


def statuses(interface):
    """Returns the enum of the statuses, and the function that tells the text of each."""
    last = interface.statuses[-1]
    lines = [f"{comment(it.doc, '    ')}    COMMONWARE_{it.name} = {it.number}{'' if it is last else ','}\n" for it in interface.statuses]
    texts = "".join(f'        "{it.text}",\n' for it in interface.statuses)
    return (
        f"enum commonware_status {{\n{''.join(lines)}}};\n\n"
        "/* One line of text for a status, without an end of line. Never NULL, for no other number either. */\n"
        "COMMONWARE_CHECKED static inline const char *commonware_status_text(uint32_t status) {\n"
        f"    static const char *const texts[] = {{\n{texts}    }};\n"
        '    return status < sizeof texts / sizeof *texts ? texts[status] : "no status of this version";\n'
        "}\n"
    )


def calls(interface):
    """Returns the functions, each after the struct that it is the first to return."""
    found, met = [], set()
    for export in interface.exports:
        if isinstance(export.result, View) and export.result.name not in met:
            met.add(export.result.name)
            found.append(struct(export.result))
        found.append(prototype(export))
    return "\n".join(found)


def write(interface):
    """Returns the header."""
    parts = {"statuses": statuses(interface), "calls": calls(interface)}
    return re.sub(r"@(\w+)\n", lambda it: parts[it[1]], PAGE.read_text())


def assertions(interface):
    """Returns a program in C that compiles exactly where a compiler lays the structs out as the sources do."""
    lines = ['#include "commonware.h"\n']
    for view in interface.views:
        lines.append(f"_Static_assert(sizeof({type_of(view)}) == {view.size}, \"{view.name}\");\n")
        for field in view.fields:
            place = f"offsetof({type_of(view)}, {field.name}) == {field.offset}"
            size = f"sizeof((({type_of(view)} *)0)->{field.name}) == sizeof({TYPES[field.type]})"
            lines.append(f'_Static_assert({place} && {size}, "{view.name}.{field.name}");\n')
    return "".join(lines)
