"""The vectors at the repository's root that are about what the library has: their answers were worked out by hand."""

import json
import pathlib
import unittest

import cases
import plain
from commonware import (
    BiMapView,
    Certificate,
    MapView,
    SetView,
    Weights,
    check,
    conflict,
    equivocation,
    max_faults,
    quorum,
    smaller_quorum,
    weighted_check,
    weighted_conflict,
    weighted_equivocation,
)

VECTORS = pathlib.Path(__file__).resolve().parents[3] / "vectors"

# What a result of the library is called in the vectors.
ERRORS = {
    "EndOfInput": "EndOfBuffer",
    "NotStrict": ("Invalid", "Set"),
    "RepeatedValue": ("Invalid", "BiMap"),
    "RepeatedKey": "DuplicateKey",
    "SameValue": "EqualValues",
    "NoMembers": "NoWeights",
}
# The parts of the answer that have the number of an error.
NUMBERS = {"InvalidLength": "length", "LeftOver": "left", "ZeroWeight": "participant", "WeightOverflow": "participant"}
# How many bytes an item of each type of a fixed length has.
SIZES = {"u8": 1, "u32": 4, "u64": 8, "member": 32, "bytes20": 20, "bytes33": 33, "bytes48": 48, "bytes96": 96}


def asked(name):
    """Returns the tests of a file whose question can be read."""
    tests = json.loads((VECTORS / f"{name}.json").read_text())["tests"]
    return [it for it in tests if "ask" in it["question"]]


def sizes_of(kind):
    """Returns how many bytes the items of a type have, or its keys and its values; None stands for any number."""
    return [SIZES.get(it) for it in kind[kind.find("<") + 1 : -1].split(",")]


def limits(word):
    """Returns the least and the greatest number of a range."""
    least, end = word.split("..")
    most = int(end[1:]) if end.startswith("=") else int(end) - 1 if end else None
    return (int(least or 0), most) if most is None or most >= 0 else (1, 0)


def k_of(word):
    return {"n3f1": 3, "n5f1": 5}.get(word) or int(word.removeprefix("k="))


def answer(result, parts):
    """Returns the answer of the vectors to a result, whose parts are returned where it isn't an error."""
    if not isinstance(result, tuple) or not result or not isinstance(result[0], str):
        return parts(result)
    name, number, *_ = result
    name = ERRORS.get(name, name)
    if isinstance(name, tuple):
        return {"error": name[0], "collection": name[1]}
    return {"error": name, **({NUMBERS[name]: number} if name in NUMBERS else {})}


def weights_of(question):
    """Returns the weights that the bytes of a question list, or None where they list none."""
    data = bytes.fromhex(question["weights"])
    try:
        count, at = plain.read_varint(data, 0)
        items, at = plain.read_items(8, count, data, at)
    except plain.Fault:
        return None
    return [int.from_bytes(it, "big") for it in items] if at == len(data) else None


class Vectors(unittest.TestCase):
    def are_answered(self, name, call, parts, least):
        """Compares what a call says of each question, which it has as names, or NotImplemented."""
        tried = 0
        for test in asked(name):
            question, expected = test["question"], {**test["answer"]}
            expected.pop("rule", None)
            result = cases.outcome(call, question)
            if result is not NotImplemented:
                self.assertEqual(answer(result, parts), expected, test)
                tried += 1
        self.assertGreaterEqual(tried, least)

    def items(self, result):
        value, rest = result
        return {"items": len(value), "left": len(rest)}

    def test_sets(self):
        def read(question):
            [size], [length] = sizes_of(question["type"]), question["ranges"]
            return SetView.read(size, bytes.fromhex(question["bytes"]), *limits(length))

        for name in ("u8", "u32", "member", "bytes20", "bytes33", "bytes48", "bytes96"):
            self.are_answered(f"set_{name}", read, self.items, 60)

    def pairs(self, view):
        def read(question):
            [length] = question["ranges"]
            return view.read(*sizes_of(question["type"]), bytes.fromhex(question["bytes"]), *limits(length))

        return read

    def test_maps(self):
        for name in ("map_u8_u8", "map_member_u8", "map_member_u64"):
            self.are_answered(name, self.pairs(MapView), self.items, 60)

    def test_bimaps(self):
        for name in ("bimap_u8_u8", "bimap_member_member"):
            self.are_answered(name, self.pairs(BiMapView), self.items, 60)

    def test_certificates(self):
        def read(question):
            value, signers = map(limits, question["ranges"])
            if value[0] > 0 or signers[0] > 0:
                # The call takes no lower bounds.
                return NotImplemented
            return Certificate.read(bytes.fromhex(question["bytes"]), value[1], signers[1])

        self.are_answered("certificate", read, lambda it: {"items": len(it[0].signers), "left": len(it[1])}, 20)

    def test_positions(self):
        def position(question):
            [size], item = sizes_of(question["type"]), bytes.fromhex(question["item"])
            if size != len(item):
                # The call takes whole items.
                return NotImplemented
            return SetView.decode(size, bytes.fromhex(question["set"])).position(item)

        self.are_answered("position", position, lambda at: {"position": at}, 40)

    def built(self, name, encode, least):
        """Tries what is built of whole sets and maps, whose items the bytes list one after another."""

        def build(question):
            kind, listed = question["type"], bytes.fromhex(question["listed"])
            sizes = sizes_of(kind)
            if None in sizes or kind.startswith("bimap"):
                return NotImplemented
            count, at = plain.read_varint(listed, 0)
            keys, at = plain.read_items(sizes[0], count, listed, at)
            if kind.startswith("set"):
                is_tried = encode is MapView.encode_dedup and at == len(listed)
                return SetView.encode_dedup(sizes[0], keys) if is_tried else NotImplemented
            again, at = plain.read_varint(listed, at)
            values, at = plain.read_items(sizes[1], count, listed, at)
            return encode(*sizes, zip(keys, values)) if again == count and at == len(listed) else NotImplemented

        def tried(question):
            try:
                return build(question)
            except plain.Fault:
                return NotImplemented

        self.are_answered(name, tried, lambda it: {"built": it.hex()}, least)

    def test_builders(self):
        self.built("build", MapView.encode_dedup, 50)
        self.built("build_unique", MapView.encode, 10)

    def test_numbers_of_faults(self):
        def numbers(question):
            ours = k_of(question["model"]), question["members"]
            return max_faults(*ours), quorum(*ours), smaller_quorum(*ours)

        self.are_answered("faults", numbers, lambda it: dict(zip(("faults", "quorum", "mQuorum"), it)), 10)

    def test_quorums(self):
        def checked(question):
            return list(check(k_of(question["model"]), question["members"], bytes.fromhex(question["certificate"])))

        def parts(it):
            slot, decision = (None if part is None else part.hex() for part in it[1:3])
            return {"signers": it[3], "slot": slot, "decision": None if slot is None else decision}

        self.are_answered("quorum", checked, parts, 30)

    def named(self, call):
        def name(question):
            both = (bytes.fromhex(question[it]) for it in ("first", "second"))
            return call(k_of(question["model"]), question["members"], *both)

        return name

    def members(self, named):
        return {"both": cases.list_bytes([plain.varint(it) for it in named]).hex()}

    def test_conflicts(self):
        self.are_answered("conflict", self.named(conflict), self.members, 20)

    def test_equivocations(self):
        ERRORS["SameValue"] = "SameDecision"
        self.addCleanup(ERRORS.update, SameValue="EqualValues")
        self.are_answered("equivocation", self.named(equivocation), self.members, 20)

    def weighed(self, call):
        """Returns a call for a question that has a list of weights: it gets k, the weights, and the question."""

        def weigh(question):
            weights = weights_of(question)
            return NotImplemented if weights is None else call(k_of(question["model"]), weights, question)

        return weigh

    def test_weights(self):
        def numbers(k, weights, _):
            it = Weights(weights)
            return [it.total, it.max_faulty_weight(k), it.quorum_weight(k), it.smaller_quorum_weight(k)]

        names = "totalWeight", "toleratedWeight", "quorumWeight", "mQuorumWeight"
        self.are_answered("weights", self.weighed(numbers), lambda it: dict(zip(names, map(str, it))), 80)

    def test_weighted_quorums(self):
        def checked(k, weights, question):
            return list(weighted_check(k, weights, bytes.fromhex(question["certificate"])))

        def parts(it):
            slot, decision = (None if part is None else part.hex() for part in it[1:3])
            said = {"signers": it[3], "weight": str(it[4]), "slot": slot}
            return {**said, "decision": None if slot is None else decision}

        self.are_answered("weighted_quorum", self.weighed(checked), parts, 80)

    def named_by_weight(self, call):
        def name(k, weights, question):
            return list(call(k, weights, *(bytes.fromhex(question[it]) for it in ("first", "second"))))

        return self.weighed(name)

    def heavy_members(self, named):
        return {**self.members(named[0]), "weight": str(named[1])}

    def test_weighted_conflicts(self):
        call = self.named_by_weight(weighted_conflict)
        self.are_answered("weighted_conflict", call, self.heavy_members, 60)

    def test_weighted_equivocations(self):
        ERRORS["SameValue"] = "SameDecision"
        self.addCleanup(ERRORS.update, SameValue="EqualValues")
        call = self.named_by_weight(weighted_equivocation)
        self.are_answered("weighted_equivocation", call, self.heavy_members, 60)


if __name__ == "__main__":
    unittest.main()
