"""All vectors as questions and answers in lines, each with its id."""

from collections import namedtuple

from lines import answer_line, question_line
from recipes import read_recipes
from vectors import FOLDER, paths, read_file

Vector = namedtuple("Vector", "id question answer")


def vectors_of(file):
    """Returns the vectors of a file."""
    return [
        Vector(f"{file['name']}/{it['tcId']}", question_line(it["question"]), answer_line(it["answer"]))
        for it in file["tests"]
    ]


def read_vectors():
    """Returns the vectors of all types and verbs, in the order of the files' names."""
    return [vector for path in paths() for vector in vectors_of(read_file(path))]


def read_long_vectors():
    """Returns the vectors that are recipes, written out."""
    recipes = read_recipes((FOLDER / "long.recipes").read_text())
    return [Vector(f"long/{number}", *recipe) for number, recipe in enumerate(recipes, 1)]
