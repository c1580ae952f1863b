"""The files of vectors: JSON, one for each type and verb."""

import json
import pathlib

FOLDER = pathlib.Path(__file__).resolve().parent.parent
# What isn't a file of vectors.
SCHEMA = FOLDER / "schema.json"


def paths():
    """Returns the paths of the files, in the order of their names."""
    return sorted(it for it in FOLDER.glob("*.json") if it != SCHEMA)


def read_file(path):
    """Returns what a file of vectors, or the schema, says."""
    return json.loads(path.read_text(encoding="utf-8"))


def text_of(file):
    """Returns the text of a file of vectors: a line for each test."""
    said = json.dumps
    lines = [f"  {said(key)}: {said(value)}," for key, value in file.items() if key != "tests"]
    tests = ",\n".join(f"    {said(test)}" for test in file["tests"])
    return "\n".join(["{", *lines, '  "tests": [', tests, "  ]", "}"]) + "\n"
