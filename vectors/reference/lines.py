"""Writes vectors out as lines: python3 -B vectors/reference/lines.py questions|answers NAME..

NAME is that of a file of vectors in JSON, without its folder and ending. A comment before each
question has its id and the reason why it is there.
"""

import sys

from vectors import FOLDER, read_file

# The words of a question after its verb, by their names in JSON.
WORDS = {
    "build": ["type", "listed"],
    "build-unique": ["type", "listed"],
    "position": ["type", "set", "item"],
    "faults": ["model", "members"],
    "refute": ["model", "members", "faulty"],
    "quorum": ["model", "members", "certificate"],
    "conflict": ["model", "members", "first", "second"],
    "equivocation": ["model", "members", "first", "second"],
    "weights": ["model", "weights"],
    "weighted-quorum": ["model", "weights", "certificate"],
    "weighted-conflict": ["model", "weights", "first", "second"],
    "weighted-equivocation": ["model", "weights", "first", "second"],
}
# The words that are bytes: none are written as a dash.
BYTES = {"bytes", "listed", "set", "item", "certificate", "first", "second", "weights"}
# The answers by the names of their parts. A slot stands for itself and its decision.
ANSWERS = {
    "items left": "accepted {items} {left}",
    "built": "built {built}",
    "position": "position {position}",
    "faults quorum mQuorum": "faults {faults} quorum {quorum} m-quorum {mQuorum}",
    "firstRange secondRange shared needed": (
        "first {firstRange} second {secondRange} shared {shared} needed {needed}"
    ),
    "tolerated": "tolerated",
    "signers slot decision": "quorum {signers} {slot}",
    "both": "members {both}",
    "totalWeight toleratedWeight quorumWeight mQuorumWeight": (
        "total {totalWeight} tolerated {toleratedWeight} quorum {quorumWeight}"
        " m-quorum {mQuorumWeight}"
    ),
    "signers weight slot decision": "quorum {signers} weight {weight} {slot}",
    "both weight": "members {both} weight {weight}",
    "error": "{error}",
    "error length": "{error} {length}",
    "error left": "{error} {left}",
    "error collection rule": "{error} {collection}: {rule}",
    "error participant": "{error} {participant}",
    "error part": "{error} {part}",
}
FORMS = {frozenset(names.split()): form for names, form in ANSWERS.items()}


def word(name, value):
    """Returns the word that a part of a question is."""
    return value or "-" if name in BYTES else str(value)


def line_of_parts(question):
    """Returns the line that the parts of a question make, each number without zeros before it."""
    ask = question["ask"]
    if ask == "read":
        words = [question["type"], *question["ranges"], word("bytes", question["bytes"])]
    else:
        words = [ask, *(word(name, question[name]) for name in WORDS[ask])]
    return " ".join(words)


def question_line(question):
    """Returns the line of a question: as it is kept, or else of its parts."""
    return question["line"] if "line" in question else line_of_parts(question)


def said_of_slot(answer):
    """Returns the words for a slot and a decision, or for none."""
    if answer["slot"] is None:
        return "no slot"
    return f"slot {answer['slot'] or '-'} decision {answer['decision'] or '-'}"


def answer_line(answer):
    """Returns the line of an answer."""
    if answer == {"position": None}:
        return "none"
    said = dict(answer)
    if "slot" in answer:
        said["slot"] = said_of_slot(answer)
    for name in answer.keys() & {"firstRange", "secondRange"}:
        said[name] = "{}..{}".format(*answer[name])
    return FORMS[frozenset(answer)].format(**said)


def questions_of(file):
    """Returns the lines of a file's questions, each after a comment with its id and reason."""
    for test in file["tests"]:
        yield f"# {file['name']}/{test['tcId']} {test['comment']}"
        yield question_line(test["question"])


def answers_of(file):
    """Returns the lines of a file's answers."""
    return (answer_line(test["answer"]) for test in file["tests"])


def main():
    """Writes the questions or the answers of the files that are named."""
    write = {"questions": questions_of, "answers": answers_of}
    if len(sys.argv) < 3 or sys.argv[1] not in write:
        sys.exit("usage: lines.py questions|answers NAME..")
    # A character of a question is what UTF-8 makes of it, wherever this runs.
    sys.stdout.reconfigure(encoding="utf-8", newline="\n")
    for name in sys.argv[2:]:
        for line in write[sys.argv[1]](read_file(FOLDER / f"{name}.json")):
            print(line)


if __name__ == "__main__":
    main()
