"""What of JSON Schema vectors/schema.json says, in the standard library alone: a value is compared
with a schema of draft 2020-12 that has these keywords and no others."""

import re

TYPES = {"object": dict, "array": list, "string": str, "null": type(None)}
# What says nothing of a value.
REMARKS = {"$schema", "$defs", "title", "description"}


def is_type(name, value):
    """Says whether a value is of a type. True and false are no numbers."""
    if name == "integer":
        return isinstance(value, int) and not isinstance(value, bool)
    return isinstance(value, TYPES[name])


def are_properties(schemas, value, whole):
    """Says whether the members of an object that have a schema are as it says."""
    return all(matches(schemas[key], value[key], whole) for key in schemas.keys() & value.keys())


# For each keyword whether a value is as it says, beside the schema that it is of, and the whole.
KEYWORDS = {
    "type": lambda said, value, beside, whole: is_type(said, value),
    "const": lambda said, value, beside, whole: type(value) is type(said) and value == said,
    "enum": lambda said, value, beside, whole: value in said,
    "pattern": lambda said, value, beside, whole: bool(re.search(said, value)),
    "minimum": lambda said, value, beside, whole: value >= said,
    "maximum": lambda said, value, beside, whole: value <= said,
    "minItems": lambda said, value, beside, whole: len(value) >= said,
    "maxItems": lambda said, value, beside, whole: len(value) <= said,
    "uniqueItems": lambda said, value, beside, whole: not said or len(set(value)) == len(value),
    "items": lambda said, value, beside, whole: all(matches(said, it, whole) for it in value),
    "required": lambda said, value, beside, whole: value.keys() >= set(said),
    "properties": lambda said, value, beside, whole: are_properties(said, value, whole),
    "additionalProperties": lambda said, value, beside, whole: (
        said or value.keys() <= beside["properties"].keys()
    ),
    "anyOf": lambda said, value, beside, whole: any(matches(it, value, whole) for it in said),
    "oneOf": lambda said, value, beside, whole: sum(matches(it, value, whole) for it in said) == 1,
    "$ref": lambda said, value, beside, whole: (
        matches(whole["$defs"][said.removeprefix("#/$defs/")], value, whole)
    ),
}


def matches(schema, value, whole):
    """Says whether a value is as a schema says, which is a part of the whole one."""
    # The type comes first: other keywords are about values of it.
    if "type" in schema and not is_type(schema["type"], value):
        return False
    keywords = schema.keys() - REMARKS
    return all(KEYWORDS[it](schema[it], value, schema, whole) for it in keywords)


def faults(schema, file):
    """Yields what of a file of vectors isn't as the schema says."""
    for test in file["tests"]:
        if not matches(schema["$defs"]["test"], test, schema):
            yield f"test {test.get('tcId')}"
    if not matches(schema, {**file, "tests": file["tests"][:1]}, schema):
        yield "what isn't a test"
