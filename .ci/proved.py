#!/usr/bin/env python3
"""Notes what rt ci has proved, for the scripts that check more over its libraries.

Usage: .ci/proved.py forget    before rt ci: removes what an earlier rt ci left
       .ci/proved.py note      once rt ci has passed: notes of each crate which files it proved

rt ci leaves the statements of each library in the crate's folder out/rlib, without rt's own stamp. Once it has passed, rattle
can check a crate over them and prove nothing below it again. A note is a checksum of all that the crate's proof rests on, so
that no library is taken for other sources. The other scripts import what is here.
"""
import functools
import hashlib
import json
import os
import pathlib
import re
import shutil
import subprocess
import sys

ROOT = pathlib.Path(__file__).resolve().parent.parent
# What of a crate a check reads.
PARTS = ("src", "specs", "proofs")


@functools.cache
def kit():
    """Returns the folder of the toolchain, and its identity line."""
    said = lambda verb: subprocess.run(["rt", verb], stdout=subprocess.PIPE, check=True).stdout.decode().strip()
    return pathlib.Path(said("doc")).parent, said("version")


@functools.cache
def listed():
    """Returns what crates.txt has: of each crate its line, its words before the colon, and the libraries that it names."""
    lines = re.findall(r"(?m)^((\w+)([^:#\n]*):(.*)\n)", (ROOT / "crates.txt").read_text())
    return {name: (line, words.split(), below.split()) for line, name, words, below in lines}


class Crate:
    """A crate: its folder, the crates that it rests on, lowest last, and their lines in crates.txt."""

    def __init__(self, name):
        found = [name]
        for one in found:
            found += [it for it in listed()[one][2] if it in listed() and it not in found]
        self.name, self.folder, self.below = name, ROOT / "crates" / name, found[1:]
        self.lines = "".join(listed()[it][0] for it in found)

    def stamp(self, *more):
        """Returns a checksum of all that its proofs rest on, and of the files and folders that are given."""
        total = hashlib.sha256(repr((kit()[1], self.lines, (ROOT / "HANDLES").read_text())).encode())
        folders = [ROOT / "crates" / name / part for name in [self.name, *self.below] for part in PARTS]
        for folder in [*folders, *more]:
            for path in [folder] if folder.is_file() else sorted(folder.rglob("*")):
                if path.is_file():
                    total.update(repr((os.path.relpath(path, ROOT), path.read_bytes())).encode())
        return total.hexdigest()

    def library(self):
        """Returns the folder of its library, whoever built it."""
        return self.folder / "out/rlib" / f"{self.name}.rlib"

    def is_stamped(self):
        """Tells whether a command of rt other than rt ci built its library."""
        return (self.folder / "out/rlib/stamp").exists()

    def has_note(self):
        """Tells whether rt ci proved just these files."""
        note = self.folder / "out/proved"
        return note.is_file() and note.read_text() == self.stamp()

    def is_proved(self):
        """Tells whether rt ci proved it as it is now, over libraries that are all there."""
        below = [Crate(it) for it in self.below]
        there = all(it.library().is_dir() and not it.is_stamped() and it.has_note() for it in below)
        return there and self.has_note()

    def words(self):
        """Returns what rattle is told to check this crate in a folder with its sources, over the libraries as they are built."""
        folder, used = kit()[0], ["std", *(it for it in listed()[self.name][2] if it not in listed())]
        root = "src/main.rt" if (self.folder / "src/main.rt").is_file() else "src/lib.rt"
        found = ["--crate-name", self.name, root]
        for name in used:
            found += ["--extern", f"{name}={folder}/rlibs/{name}.rlib"]
        found += ["-L", f"dependency={folder}/rlibs"]
        for name in self.below:
            library = Crate(name).library()
            found += ["--extern", f"{name}={library}"] if name in listed()[self.name][2] else []
            found += ["-L", f"dependency={library.parent}"]
        found += ["--antt-project", f"{folder}/rattle/logic/antt-project.json", "--logic-built", f"{folder}/logic_built"]
        found += ["--links", f"{self.name}="]
        return found + (["--crate-type", "staticlib"] if "staticlib" in listed()[self.name][1] else [])


def rattle():
    """Returns the path of the prover, which rt calls as well."""
    return f"{kit()[0]}/bin/rattle"


def main():
    crates, begun = [Crate(it) for it in listed()], ROOT / "out/begun.json"
    if sys.argv[1:] == ["forget"]:
        for crate in crates:
            (crate.folder / "out/proved").unlink(missing_ok=True)
            # rt ci would put it back over the library that it builds.
            if not crate.is_stamped():
                shutil.rmtree(crate.library().parent, ignore_errors=True)
        begun.parent.mkdir(exist_ok=True)
        begun.write_text(json.dumps({it.name: it.stamp() for it in crates}))
    elif sys.argv[1:] == ["note"]:
        stamps = json.loads(begun.read_text())
        begun.unlink()
        # Of a file that was changed meanwhile nobody knows whether it was read before or after.
        for crate in (it for it in crates if it.stamp() == stamps[it.name]):
            (crate.folder / "out").mkdir(exist_ok=True)
            (crate.folder / "out/proved").write_text(stamps[crate.name])
    else:
        sys.exit(__doc__)


if __name__ == "__main__":
    main()
