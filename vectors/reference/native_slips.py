"""Wrong implementations of the native calls by what they take their arguments for and what they
return: a number that is cut, a list that ends at a constant, a field that is another one."""

from native_variants import fields_of, neighbours

# The lengths at which a list ends in an implementation with a buffer, and the bits to which a
# number is cut.
ENDS = [127, 128, 255, 256, 16_383]
BITS = [8, 16, 31, 32]
# What is below 256 in each view: an offset after one varint, or after two.
SMALL = {"status", "which", "start", "keys", "value_start", "slot_start"}


def at(index, change):
    """Returns a function that changes the argument at an index."""
    return lambda given: [change(it) if place == index else it for place, it in enumerate(given)]


def of_argument(kind, index, label):
    """Yields what an argument may be taken for, by its kind."""
    if kind in ("u32", "usize"):
        for bits in [it for it in BITS if it < 32 or kind == "usize"]:
            yield f"{label} is cut to {bits} bits", at(index, lambda it, bits=bits: it % 2**bits)
    elif kind == "room":
        yield "the room is one shorter", at(index, lambda it: max(it - 1, 0))
        yield "the room is one longer", at(index, lambda it: it + 1)
        yield "the room is long enough", at(index, lambda it: 2**64)
    elif kind != "member":
        for end in ENDS:
            yield f"{label} ends at {end}", at(index, lambda it, end=end: it[:end])
        yield f"{label} lacks its last item", at(index, lambda it: it[:-1])


def of_arguments(call):
    """Yields wrong implementations by their arguments: words, and a function of the arguments."""
    kinds = [*call.arguments.values()] + (["room"] if call.room else [])
    labels = [*call.arguments] + (["the room"] if call.room else [])
    for index, (kind, label) in enumerate(zip(kinds, labels)):
        yield from of_argument(kind, index, label)
    for index in range(1, len(kinds)):
        if kinds[index - 1] == kinds[index]:
            said = f"{labels[index - 1]} and {labels[index]} change places"
            yield said, lambda given, it=index - 1: [*neighbours(given)][it]


def of_view(call):
    """Yields wrong implementations by a field of the view. One that is 0 in all views of a call is
    another one only where that isn't."""
    named = fields_of(call.name)
    of_field = lambda name, change: lambda view, data: ({**view, name: change(view)}, data)
    for name in call.fields:
        yield f"{name} is one more", of_field(name, lambda view, name=name: view[name] + 1)
        if name in named:
            yield f"{name} is 0", of_field(name, lambda view: 0)
        if name in named - SMALL:
            cut = lambda view, name=name: view[name] % 2**8
            yield f"{name} is cut to 8 bits", of_field(name, cut)
        for other in call.fields:
            if other != name and {name, other} & named:
                yield f"{name} is {other}", of_field(name, lambda view, other=other: view[other])


def of_results(call):
    """Yields wrong implementations by what they return: words, and a function of it and of what is
    written."""
    yield from of_view(call)
    if not call.fields:
        yield "it is one more", lambda number, data: (number + 1, data)
        for bits in (8, 16):
            cut = lambda number, data, bits=bits: (number % 2**bits, data)
            yield f"it is cut to {bits} bits", cut
    if call.room:
        yield "the last item isn't written", lambda view, data: (view, data and data[:-1])
        turned = lambda view, data: (view, data and data[::-1])
        yield "the items are written in the other order", turned
        yield "an item more is written", lambda view, data: (view, data and data + data[:1])
        yield "nothing is written", lambda view, data: (view, None)
        for end in ENDS:
            words = f"items from {end} on aren't written"
            yield words, lambda view, data, end=end: (view, data and data[:end])
