"""Writes crates whose functions have the bodies of all their mutations beside their own, so that one program of tests can run each.

Each such body asks which mutation runs (switch.c). What a mutation says as its witness becomes a test beside its function: code
that has to hold for the function, and not for the mutation. Nothing is proved here: `rt try` builds what it is given.
"""
import pathlib
import re
import shutil

from proved import ROOT

from .paths import body_span
from .source import parts

CRATE = """//! Which mutation runs.
#![tactic(auto)]

unsafe extern "C" {
    fn mutation_switch_chosen(function: u32) -> u32;
}

pub fn chosen(function: u32) -> u32 {
    unsafe { mutation_switch_chosen(function) }
}
"""
# The crate that says which mutation runs, which all crates name, and the one whose equipment a witness may use.
SWITCH, EQUIPMENT = "mutation_switch", "test_equipment"
# The module of the tests that are made of the witnesses of a source.
MODULE = "witnesses_of_mutations"
TESTS = """
#[cfg(test)]
mod {module} {{
    use super::*;
    use std::prelude::*;
{tests}
}}
"""
TEST = """
    #[test]
    fn {name}(rt: HostRuntime) {{
        let alloc = rt.alloc();
        let _ = alloc;
        {lines}
        let holds = {{ {value} }};
        assert!(rt; holds);
    }}
"""


def switched(edit):
    """Tells whether an edit is of the body of a function alone, so that the function can have both bodies."""
    if not edit.function or edit.said["compile-error"]:
        return False
    was, now = body_span(edit.was), body_span(edit.part)
    return bool(was and now) and edit.was[: was[0]] == edit.part[: now[0]]


def with_more(line):
    """Returns a line of crates.txt whose crate names these two crates as well."""
    name, colon, below = line.partition("#")[0].partition(":")
    more = {SWITCH, *({EQUIPMENT} if name.strip() != EQUIPMENT else ())} - set(below.split())
    return f"{name}: {' '.join([*below.split(), *sorted(more)])}\n" if colon else ""


class Switched:
    """The crates of this repository in a folder, with the bodies of these edits by crate where they can stand side by side, and
    with the tests that their witnesses are. The numbers are those of the edits, and of the functions that they change."""

    def __init__(self, folder, edits):
        self.folder, self.numbers, self.functions, files = pathlib.Path(folder), {}, {}, {}
        self.copy()
        for crate, edit in ((crate, it) for crate, them in edits.items() for it in them):
            if switched(edit) or edit.said["witness"]:
                files.setdefault((crate, edit.file), []).append(edit)
        for (crate, file), them in files.items():
            path = self.folder / "crates" / crate / file
            path.write_text(self.with_bodies(crate, path.read_text(), list(filter(switched, them))) + tests_of(them))

    def copy(self):
        """Copies the sources, and adds the crate that says which mutation runs."""
        for source in sorted(ROOT.glob("crates/*/src")):
            shutil.copytree(source, self.folder / source.relative_to(ROOT))
        shutil.copy(ROOT / "HANDLES", self.folder)
        listed = "".join(map(with_more, (ROOT / "crates.txt").read_text().splitlines()))
        (self.folder / "crates.txt").write_text(f"{listed}{SWITCH}:\n")
        for path, text in (("src/lib.rt", CRATE), ("c/switch.c", pathlib.Path(__file__).with_name("switch.c").read_text())):
            (self.folder / "crates" / SWITCH / path).parent.mkdir(parents=True)
            (self.folder / "crates" / SWITCH / path).write_text(text)

    def with_bodies(self, crate, text, edits):
        """Returns a source in which the functions of these edits have the bodies of all."""
        cut = parts(text)
        for at in {it.place[1] for it in edits}:
            here = [it for it in edits if it.place[1] == at]
            function = len(set(self.functions.values())) + 1
            begins, ends = body_span(cut[at])
            arms = ""
            for edit in here:
                self.functions[crate, edit.name], self.numbers[crate, edit.name] = function, len(self.numbers) + 1
                span = body_span(edit.part)
                arms += f"{self.numbers[crate, edit.name]}u32 => {{{edit.part[span[0] + 1 : span[1]]}}}\n"
            own = f"_ => {{{cut[at][begins + 1 : ends]}}}"
            cut[at] = f"{cut[at][:begins]}{{ match mutation_switch::chosen({function}u32) {{\n{arms}{own} }} {cut[at][ends:]}"
        return "".join(cut)


def tests_of(edits):
    """Returns the module of tests that the witnesses of these edits of one source are, if there are any."""
    found = ""
    for edit in (it for it in edits if it.said["witness"]):
        *lines, value = edit.said["witness"]
        found += TEST.format(name=edit.name, lines="\n        ".join(lines), value=value)
    return TESTS.format(module=MODULE, tests=found) if found else ""


def own_test(edit):
    """Returns the name of the test that the witness of an edit is, in the program of its crate's tests."""
    path = re.sub(r"^src/|(/mod)?\.rt$", "", edit.file)
    return "::".join([*([] if path in ("lib", "main") else path.split("/")), MODULE, edit.name])
