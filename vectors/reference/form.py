"""What a file of vectors has to be beside what schema.json says of it."""

from lines import line_of_parts
from vectors import text_of

# The flags that follow from a question and its answer.
FOLLOWING = {
    "Unreadable": lambda asked, said: said.get("error") == "unreadable",
    "EndOfBuffer": lambda asked, said: said.get("error") == "EndOfBuffer",
    "LeftOver": lambda asked, said: said.get("left", 0) > 0,
    "Outside": lambda asked, said: said.get("error") == "Outside",
    "NoQuorum": lambda asked, said: said.get("error") in ("TooFew", "TooLight"),
    "Weights": lambda asked, said: said.get("error") in ("NoWeights", "ZeroWeight", "WeightOverflow"),
    "Range": lambda asked, said: any(it != ".." for it in asked.get("ranges", [])),
}


def is_line_needed(question):
    """Says whether the line that is kept is that of the parts with zeros before a number."""
    kept, made = question["line"].split(" "), line_of_parts(question).split(" ")
    others = [(one, other) for one, other in zip(kept, made) if one != other]
    return others and len(kept) == len(made) and all(one.lstrip("0") == it for one, it in others)


def faults_of_test(test):
    """Yields what is wrong with a test."""
    asked, said, flags = test["question"], test["answer"], test["flags"]
    if (test["result"] == "invalid") != ("error" in said):
        yield "its result isn't that of its answer"
    if asked.keys() > {"line"} and "line" in asked and not is_line_needed(asked):
        yield "its line isn't its parts with zeros before a number"
    for flag, follows in FOLLOWING.items():
        if (flag in flags) != follows(asked, said):
            yield f"its flag {flag}"
    if "Normal" in flags and flags != ["Normal"]:
        yield "its flag Normal isn't alone"


def faults(path, file, flags):
    """Yields what is wrong with a file of vectors. The flags are all that there are, in order."""
    tests = file["tests"]
    if file["name"] != path.stem:
        yield "its name isn't that of the file"
    if [it["tcId"] for it in tests] != list(range(1, file["numberOfTests"] + 1)):
        yield "the numbers of the tests don't count from 1 up to how many there are"
    if list(file["notes"]) != [it for it in flags if any(it in test["flags"] for test in tests)]:
        yield "the notes aren't those of the flags that tests have"
    if path.read_text(encoding="utf-8") != text_of(file):
        yield "a line isn't written as it should be: .ci/vectors --update writes it"
    for test in tests:
        yield from (f"test {test['tcId']}: {it}" for it in faults_of_test(test))
