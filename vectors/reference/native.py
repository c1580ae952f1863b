"""Compares the vectors of native calls with the reference.

Usage: python3 -B vectors/reference/native.py [--update]

Each call has a file. A file is as vectors/native/schema.json says, its tests are numbered from 1
on, and each test is what the reference, which takes nothing of the library, returns and writes.
--update writes the files anew, with their numbers.
"""

import sys

import native_files
import native_items
import native_signers
import schema

REFERENCE = {**vars(native_items), **vars(native_signers)}


def faults_of_tests(call, tests):
    """Yields what of the tests of a call isn't as the reference has it."""
    for test in tests:
        said = native_files.answered(call, REFERENCE[call.name], native_files.question_of(call, test))
        if said != native_files.answer_of(call, test):
            yield f"test {test['tcId']}: the reference has {str(said)[:300]}"
    questions = [str((it["arguments"], it.get("room"))) for it in tests]
    yield from (f"test {number}: it is there twice" for number, it in enumerate(questions, 1) if questions.index(it) != number - 1)


def faults(name):
    """Yields what is wrong with the file of a call."""
    path = native_files.path_of(name)
    if not path.is_file():
        yield "there is no such file"
        return
    tests = native_files.tests_of(name)
    if path.read_text(encoding="utf-8") != native_files.text_of(name, tests):
        yield "it isn't written as it should be: native.py --update writes it"
    wrong = [it.get("tcId") for it in tests if not schema.matches(native_files.SCHEMA["$defs"][name], it, native_files.SCHEMA)]
    yield from (f"test {it} isn't as the schema has it" for it in wrong)
    if not wrong:
        yield from faults_of_tests(native_files.Call(name), tests)


def stray():
    """Returns the files that are of no call."""
    return sorted({it.stem for it in native_files.FOLDER.glob("*.json")} - {"schema", *native_files.names()})


def main():
    if sys.argv[1:] == ["--update"]:
        for name in native_files.names():
            text = native_files.text_of(name, native_files.tests_of(name))
            native_files.path_of(name).write_text(text, encoding="utf-8")
    failed = [f"{name}: {it}" for name in native_files.names() for it in faults(name)]
    failed += [f"{it}: there is no such call" for it in stray()]
    print("".join(f"native: {it}\n" for it in failed), end="")
    return bool(failed)


if __name__ == "__main__":
    sys.exit(main())
