"""What the package takes and refuses: types, numbers at the edges, who owns the bytes, and what results are."""

import array
import copy
import gc
import mmap
import pickle
import sys
import unittest

import commonware
from cases import outcome
from commonware import (
    BiMapView,
    Certificate,
    Committee,
    CommonwareError,
    InvalidLength,
    MapView,
    NoSize,
    NotStrict,
    OutOfRange,
    RepeatedValue,
    SetView,
    WrongSize,
    check,
    conflict,
    equivocation,
    max_faults,
    quorum,
    slot_value,
    smaller_quorum,
)

SIZES = [0, 1, 20, 32, 33, 48, 96]
HUGE = [2**63, 2**64 - 1]
CERTIFICATE = bytes([1, 0xAA, 3, 0, 1, 2])
OTHER = bytes([1, 0xBB, 3, 1, 2, 3])


class Addresses(SetView):
    """A program's own class of sets."""


class Weights(MapView):
    """A program's own class of maps."""


class Types(unittest.TestCase):
    def test_inputs_that_have_no_bytes(self):
        calls = [
            lambda it: SetView.read(1, it),
            lambda it: SetView.decode(1, it),
            lambda it: SetView.encode_dedup(1, it),
            lambda it: SetView.encode_dedup(1, [it]),
            lambda it: SetView.decode(1, b"\1a").position(it),
            lambda it: it in SetView.decode(1, b"\1a"),
            lambda it: Committee.read(it),
            lambda it: Committee.decode(it),
            lambda it: Committee.encode_dedup(it),
            lambda it: Committee.from_keys_dedup([it]),
            lambda it: Committee.decode(b"\0").position(it),
            lambda it: MapView.decode(1, 1, it),
            lambda it: MapView.encode(1, 1, [(it, b"a")]),
            lambda it: MapView.encode_dedup(1, 1, [(b"a", it)]),
            lambda it: MapView.decode(1, 1, b"\0\0")[it],
            lambda it: BiMapView.decode(1, 1, it),
            lambda it: BiMapView.decode(1, 1, b"\0\0").get_key(it),
            lambda it: Certificate.read(it),
            lambda it: Certificate.encode(it, []),
            lambda it: check(3, 4, it),
            lambda it: conflict(3, 4, it, CERTIFICATE),
            lambda it: conflict(3, 4, CERTIFICATE, it),
            lambda it: equivocation(3, 4, CERTIFICATE, it),
            lambda it: slot_value(it, b""),
            lambda it: slot_value(b"", it),
        ]
        for call in calls:
            for it in ("text", 7, 2.5, None, [1, 2], object()):
                with self.assertRaises(TypeError, msg=repr(it)):
                    call(it)

    def test_pairs_that_are_none(self):
        for pairs in (7, None, [b"ab"], [(b"a", "b")], [(b"a", 1)], {b"a": 1}, [7]):
            with self.assertRaises(TypeError, msg=repr(pairs)):
                MapView.encode_dedup(1, 1, pairs)
        for pairs in ([(b"a",)], [(b"a", b"b", b"c")]):
            with self.assertRaises(ValueError, msg=repr(pairs)):
                MapView.encode_dedup(1, 1, pairs)

    def test_numbers(self):
        calls = [
            ("k", 32, lambda it: max_faults(it, 4)),
            ("n", 32, lambda it: max_faults(3, it)),
            ("k", 32, lambda it: quorum(it, 4)),
            ("n", 32, lambda it: smaller_quorum(3, it)),
            ("k", 32, lambda it: check(it, 4, CERTIFICATE)),
            ("members", 32, lambda it: check(3, it, CERTIFICATE)),
            ("k", 32, lambda it: conflict(it, 4, CERTIFICATE, OTHER)),
            ("members", 32, lambda it: equivocation(3, it, CERTIFICATE, OTHER)),
            ("size", 64, lambda it: SetView.read(it, b"\1a")),
            ("least", 64, lambda it: SetView.read(1, b"\1a", it)),
            ("most", 64, lambda it: SetView.read(1, b"\1a", 0, it)),
            ("size", 64, lambda it: SetView.encode_dedup(it, b"a")),
            ("least", 64, lambda it: Committee.read(b"\0", it)),
            ("most", 64, lambda it: Committee.decode(b"\0", most=it)),
            ("key_size", 64, lambda it: MapView.read(it, 1, b"\0\0")),
            ("value_size", 64, lambda it: MapView.read(1, it, b"\0\0")),
            ("key_size", 64, lambda it: MapView.encode_dedup(it, 1, b"")),
            ("value_size", 64, lambda it: MapView.encode(1, it, b"")),
            ("value_size", 64, lambda it: BiMapView.read(1, it, b"\0\0")),
            ("most", 64, lambda it: BiMapView.read(1, 1, b"\0\0", 0, it)),
            ("most_bytes", 64, lambda it: Certificate.read(CERTIFICATE, it)),
            ("most_signers", 64, lambda it: Certificate.read(CERTIFICATE, None, it)),
            ("signer", 32, lambda it: Certificate.encode(b"", [it])),
        ]
        for name, bits, call in calls:
            for number in (-1, 2**bits, 2**bits + 1, -(2**bits), 10**30):
                with self.assertRaises(OutOfRange, msg=name) as caught:
                    call(number)
                error = caught.exception
                self.assertEqual((error.name, error.number, error.most), (name, number, 2**bits - 1))
                self.assertIsInstance(error, OverflowError)
            for wrong in ("3", 3.0, b"3", []) + ((None,) if "most" not in name else ()):
                with self.assertRaises(TypeError, msg=name):
                    call(wrong)
            try:
                call(2**bits - 1)
            except CommonwareError as error:
                self.assertNotIsInstance(error, OutOfRange)

    def test_lists_of_another_kind_are_refused(self):
        others = [b"\3\7", bytearray(b"\3"), memoryview(b"\3"), "37"]
        others += [{1000: 32}, {3: 7}.keys(), {3, 7}, frozenset([3])]
        calls = [
            lambda it: Certificate.encode(b"v", it),
            lambda it: commonware.Weights(it),
            lambda it: commonware.weighted_check(3, it, CERTIFICATE),
            lambda it: commonware.weighted_conflict(3, it, CERTIFICATE, CERTIFICATE),
            lambda it: commonware.weighted_equivocation(3, it, CERTIFICATE, CERTIFICATE),
        ]
        for call in calls:
            for it in others:
                with self.assertRaisesRegex(TypeError, "a list of numbers is required"):
                    call(it)
            with self.assertRaisesRegex(TypeError, "is a number, not a bool"):
                call([True])
        for call in (lambda: max_faults(True, 4), lambda: quorum(3, True), lambda: check(3, True, CERTIFICATE)):
            with self.assertRaisesRegex(TypeError, "is a number, not a bool"):
                call()

    def test_numbers_at_the_edges(self):
        most = 2**32 - 1
        self.assertEqual((max_faults(2, most), quorum(2, most), smaller_quorum(2, most)), (2**31 - 1, 2**31, most))
        self.assertEqual((max_faults(most, most), quorum(most, most), smaller_quorum(most, most)), (0, most, 1))
        self.assertEqual((max_faults(3, 1), quorum(3, 1), quorum(True + 1, 3)), (0, 1, 2))
        with self.assertRaises(commonware.NoModel):
            quorum(1, 0)
        with self.assertRaises(commonware.NoMembers):
            quorum(2, 0)
        self.assertEqual(Certificate.encode(b"", [most]), bytes([0, 1, 255, 255, 255, 255, 15]))
        self.assertEqual(Certificate.decode(bytes([0, 1, 255, 255, 255, 255, 15])).signers, (most,))

    def test_keys_of_another_size_are_not_there(self):
        committee, keys = Committee.from_keys_dedup(64 * b"a"), SetView.decode(32, b"\1" + 32 * b"a")
        for size in (0, 1, 31, 33, 64):
            for view in (committee, keys):
                self.assertEqual((view.position(size * b"a"), size * b"a" in view), (None, False))

    def test_keys_of_a_wrong_size(self):
        with self.assertRaises(WrongSize) as caught:
            SetView.encode_dedup(2, [b"ok", b"a", b"abc"])
        self.assertEqual((caught.exception.index, caught.exception.length, caught.exception.size), (1, 1, 2))
        self.assertEqual(caught.exception.part, "key")
        with self.assertRaises(WrongSize) as caught:
            Committee.from_keys_dedup([b"short"])
        self.assertEqual((caught.exception.size, caught.exception.part), (32, "key"))
        with self.assertRaises(commonware.NotWhole):
            Committee.from_keys_dedup(33 * b"a")

    def test_the_first_key_or_value_of_a_wrong_size_is_told(self):
        rows = [
            ([(b"ok", b"1"), (b"a", b"bc")], (1, 1, 2, "key")),
            ([(b"ok", b"12"), (b"a", b"1")], (0, 2, 1, "value")),
            ({b"ok": b"1", b"am": b"12", b"a": b"1"}, (1, 2, 1, "value")),
        ]
        for pairs, numbers in rows:
            for call in (MapView.encode_dedup, MapView.encode):
                with self.assertRaises(WrongSize) as caught:
                    call(2, 1, pairs)
                error = caught.exception
                self.assertEqual((error.index, error.length, error.size, error.part), numbers)
                index, length, size, part = numbers
                self.assertEqual(str(error), f"{part} {index} has {length} bytes, and should have {size}")
                again = pickle.loads(pickle.dumps(error))
                self.assertEqual((again.args, again.part), (numbers, part))
        self.assertEqual(WrongSize(1, 7, 2).part, "key")

    def test_no_one_makes_what_was_not_decoded(self):
        for kind in (SetView, Committee, MapView, BiMapView, Certificate):
            with self.assertRaises(TypeError):
                kind()

    def test_every_other_object_with_bytes(self):
        with mmap.mmap(-1, 4096) as pages:
            pages[:3] = b"\2ab"
            keys, rest = SetView.read(1, pages)
            self.assertEqual((list(keys), len(rest)), ([b"a", b"b"], 4093))
        self.assertEqual(list(SetView.decode(1, array.array("H", [0x6101]))), [b"a"])

        class Longer(bytes):
            def __len__(self):
                return 10**6

        for call in (lambda it: SetView.decode(1, it), lambda it: SetView.decode(1, memoryview(it))):
            self.assertEqual(list(call(Longer(b"\2ab"))), [b"a", b"b"])

        class Others(bytes):
            def __buffer__(self, flags):
                return memoryview(b"\2xyz" + bytes(1000))

        keys, rest = SetView.read(1, Others(b"\2ab"))
        # Python 3.12 and later call the method.
        wanted = ([b"x", b"y"], 1001) if sys.version_info >= (3, 12) else ([b"a", b"b"], 0)
        self.assertEqual((list(keys), len(rest), keys.position(keys[1])), (*wanted, 1))
        self.assertEqual(list(SetView.decode(1, memoryview(b"\2ab").cast("B", (3, 1)))), [b"a", b"b"])
        self.assertEqual(list(SetView.decode(4, memoryview(b"\1abc\2ab\0")[:5])), [b"abc\2"])


class Ownership(unittest.TestCase):
    def test_bytes_are_used_where_they_are(self):
        data = b"\2" + 32 * b"a" + 32 * b"b" + b"more"
        for given in (data, memoryview(data), memoryview(b"--" + data)[2:]):
            keys, rest = SetView.read(32, given)
            owner = given if isinstance(given, bytes) else given.obj
            self.assertIs(keys.data.obj, owner)
            self.assertIs(rest.obj, owner)
            self.assertTrue(keys.data.readonly and rest.readonly)
            self.assertEqual((bytes(rest), keys[1]), (b"more", 32 * b"b"))

    def test_views_keep_their_bytes_alive(self):
        data = bytes([2]) + 5000 * b"a" + 5000 * b"b"
        before = sys.getrefcount(data)
        keys = SetView.decode(5000, data)
        self.assertGreater(sys.getrefcount(data), before)
        del keys
        gc.collect()
        self.assertEqual(sys.getrefcount(data), before)
        keys = SetView.decode(5000, bytes(bytearray(data)))
        others = [bytes(10_001) for _ in range(100)]
        self.assertEqual((keys[1], keys.position(5000 * b"b"), len(others)), (5000 * b"b", 1, 100))
        keys, rest = SetView.read(1, b"".join([b"\2ab", bytes(3)]))
        del keys
        gc.collect()
        self.assertEqual(bytes(rest), bytes(3))

    def test_a_bytearray_may_change_and_grow(self):
        data = bytearray(b"\2ab\2xy")
        kept = SetView.read(1, data)[0], MapView.decode(1, 1, data), BiMapView.decode(1, 1, data)
        certificate = Certificate.decode(bytearray(CERTIFICATE))
        data[1:] = b"zzzzzzzz"
        data.extend(bytes(1000))
        data.clear()
        self.assertEqual(list(kept[0]), [b"a", b"b"])
        for pairs in kept[1:]:
            self.assertEqual(dict(pairs), {b"a": b"x", b"b": b"y"})
        self.assertEqual(kept[2].get_key(b"y"), b"b")
        self.assertEqual(certificate.signers, (0, 1, 2))
        pairs, keys = bytearray(b"b1a2"), bytearray(b"ba")
        self.assertEqual((MapView.encode_dedup(1, 1, pairs), SetView.encode_dedup(1, keys)), (b"\2ab\2" b"21", b"\2ab"))
        pairs.clear()
        keys.clear()

    def test_a_view_may_be_released(self):
        data = memoryview(b"\2ab--")
        keys, rest = SetView.read(1, data)
        data.release()
        rest.release()
        keys.data.release()
        self.assertEqual((list(keys), keys.position(b"b"), bytes(keys)), ([b"a", b"b"], 1, b"\2ab"))
        with self.assertRaises(ValueError):
            SetView.read(1, data)

    def test_results_do_not_change(self):
        pairs = BiMapView.decode(1, 1, b"\2ab\2xy")
        others = Committee.decode(b"\0"), Certificate.decode(CERTIFICATE), MapView.decode(1, 1, b"\0\0")
        for result in (pairs, pairs.key_set, *others):
            for name in ("size", "value", "signers", "data", "key_size", "more"):
                with self.assertRaises(AttributeError):
                    setattr(result, name, 1)
        with self.assertRaises(TypeError):
            pairs.key_set.data[0] = 1
        with self.assertRaises(TypeError):
            pairs[b"a"] = b"z"
        with self.assertRaises(AttributeError):
            check(3, 4, CERTIFICATE).value = b""

    def test_results_are_compared_copied_and_pickled(self):
        keys, again = SetView.decode(1, b"\2ab"), SetView.read(1, b"\2ab--")[0]
        self.assertEqual((keys, hash(keys)), (again, hash(again)))
        self.assertNotEqual(keys, SetView.decode(2, b"\1ab"))
        self.assertNotEqual(SetView.decode(0, b"\0"), SetView.decode(0, b"\1"))
        self.assertNotEqual(keys, (b"a", b"b"))
        committee = Committee.from_keys_dedup(64 * b"a")
        self.assertNotEqual(committee, SetView.decode(32, bytes(committee)))
        pairs, bimap = MapView.decode(1, 1, b"\2ab\2xy"), BiMapView.decode(1, 1, b"\2ab\2xy")
        self.assertEqual((pairs, hash(pairs), pairs), (bimap, hash(bimap), {b"b": b"y", b"a": b"x"}))
        certificate = Certificate.decode(CERTIFICATE)
        for result in (keys, committee, pairs, bimap, certificate):
            for other in (pickle.loads(pickle.dumps(result)), copy.copy(result), copy.deepcopy(result)):
                self.assertEqual((type(other), other, bytes(other)), (type(result), result, bytes(result)))
        self.assertEqual(pickle.loads(pickle.dumps(bimap)).get_key(b"y"), b"b")
        for result in (Addresses.decode(1, b"\2ab"), Weights.decode(1, 1, b"\2ab\2xy")):
            self.assertEqual(type(pickle.loads(pickle.dumps(result))), type(result))
        error = pickle.loads(pickle.dumps(RepeatedValue(2, 3)))
        self.assertEqual((error.first, error.second), (2, 3))
        for result in (keys, committee, pairs, bimap, certificate):
            self.assertIn(type(result).__name__, repr(result))


class Sequences(unittest.TestCase):
    def test_sets_are_sequences(self):
        keys = SetView.decode(1, b"\3abc")
        self.assertEqual((keys[0], keys[-1], keys[1:], keys[::-2]), (b"a", b"c", (b"b", b"c"), (b"c", b"a")))
        self.assertEqual((list(reversed(keys)), keys.index(b"b"), keys.index(b"c", -1)), ([b"c", b"b", b"a"], 1, 2))
        for index in (3, -4, 2**70):
            with self.assertRaises(IndexError):
                keys[index]
        with self.assertRaises(TypeError):
            keys["a"]
        for call in (lambda: keys.index(b"d"), lambda: keys.index(b"a", 1), lambda: keys.index(b"c", 0, 2)):
            with self.assertRaises(ValueError):
                call()
        self.assertFalse(SetView.decode(1, b"\0"))

    def test_maps_are_mappings(self):
        pairs = MapView.decode(1, 2, b"\2ab\2xxyy")
        self.assertEqual(list(pairs.items()), [(b"a", b"xx"), (b"b", b"yy")])
        self.assertEqual((list(pairs.values()), list(pairs.keys())), ([b"xx", b"yy"], [b"a", b"b"]))
        self.assertEqual((pairs.get(b"c"), pairs.get(b"c", 1), pairs.get(b"long")), (None, 1, None))
        self.assertEqual((pairs.keys() & {b"b", b"c"}, (b"a", b"xx") in pairs.items()), ({b"b"}, True))
        self.assertEqual((pairs.value_at(-1), list(reversed(pairs)), len(pairs.values())), (b"yy", [b"b", b"a"], 2))
        self.assertEqual(bytes(pairs.key_set), b"\2ab")
        with self.assertRaises(KeyError):
            pairs[b"c"]
        with self.assertRaises(IndexError):
            pairs.value_at(2)


class Sizes(unittest.TestCase):
    def test_no_input(self):
        for call in (
            lambda: SetView.read(1, b""),
            lambda: SetView.read(1, bytearray()),
            lambda: SetView.read(1, memoryview(b"")),
            lambda: Committee.decode(b""),
            lambda: MapView.decode(1, 1, b""),
            lambda: BiMapView.decode(1, 1, b""),
            lambda: Certificate.decode(b""),
            lambda: check(3, 4, b""),
            lambda: conflict(3, 4, b"", b""),
        ):
            with self.assertRaises(commonware.EndOfInput):
                call()
        self.assertEqual((SetView.encode_dedup(1, b""), SetView.encode_dedup(1, []), Committee.encode_dedup([])), 3 * (b"\0",))
        self.assertEqual((MapView.encode_dedup(1, 1, b""), MapView.encode(1, 0, {})), 2 * (b"\0\0",))
        self.assertEqual((Certificate.encode(b"", []), slot_value(b"", b"")), (b"\0\0", b"\0"))
        empty = Certificate.decode(b"\0\0")
        self.assertEqual((empty.value, empty.signers, empty.slot, empty.decision), (b"", (), None, None))

    def test_sizes_in_use(self):
        for size in SIZES[1:]:
            keys = [bytes([i]) + bytes(size - 1) for i in (9, 3, 7)]
            view = SetView.decode(size, SetView.encode_dedup(size, keys))
            self.assertEqual((list(view), view.size), (sorted(keys), size))
            self.assertEqual([view.position(key) for key in keys], [2, 0, 1])
            for value_size in SIZES:
                pairs = {key: bytes([key[0]]) * value_size for key in keys}
                again = MapView.decode(size, value_size, MapView.encode_dedup(size, value_size, pairs))
                self.assertEqual(again, pairs)
                if value_size > 0:
                    bimap = BiMapView.decode(size, value_size, bytes(again))
                    self.assertEqual({bimap.get_key(value): value for value in pairs.values()}, pairs)

    def test_keys_and_values_of_no_bytes(self):
        none, one = SetView.decode(0, b"\0"), SetView.decode(0, b"\1")
        self.assertEqual((list(none), list(one)), ([], [b""]))
        self.assertEqual((none.position(b""), one.position(b""), one.position(b"a"), len(one)), (None, 0, None, 1))
        for data in (b"\2", b"\xff\xff\xff\xff\x0f"):
            with self.assertRaises(NotStrict):
                SetView.decode(0, data)
        with self.assertRaises(NoSize):
            SetView.encode_dedup(0, b"")
        with self.assertRaises(NoSize):
            MapView.encode_dedup(0, 1, [(b"", b"a")])
        self.assertEqual(dict(MapView.decode(0, 2, b"\1\1ab")), {b"": b"ab"})
        many = MapView.decode(1, 0, b"\3abc\3")
        self.assertEqual((dict(many), many.value_at(2)), ({b"a": b"", b"b": b"", b"c": b""}, b""))
        with self.assertRaises(RepeatedValue) as caught:
            BiMapView.decode(1, 0, b"\3abc\3")
        self.assertEqual((caught.exception.first, caught.exception.second), (0, 1))
        self.assertEqual(BiMapView.decode(1, 0, b"\1a\1").get_key(b""), b"a")

    def test_large_sizes(self):
        for size in (*HUGE, 2**64 // 2 + 1, 2**64 // 3):
            self.assertEqual(list(SetView.decode(size, b"\0")), [])
            self.assertEqual(len(MapView.decode(size, size, b"\0\0")), 0)
            self.assertEqual(len(BiMapView.decode(size, size, b"\0\0")), 0)
            for data in (b"\1", b"\2ab", b"\3abc", b"\xff\xff\xff\xff\x0f"):
                for call in (
                    lambda: SetView.decode(size, data),
                    lambda: MapView.decode(size, 1, data),
                    lambda: MapView.decode(1, size, b"\1a\1x"),
                    lambda: BiMapView.decode(1, size, b"\1a\1x"),
                ):
                    with self.assertRaises(commonware.EndOfInput):
                        call()
            self.assertEqual(SetView.decode(size, b"\0").position(b"a"), None)
            with self.assertRaises(commonware.NotWhole):
                SetView.encode_dedup(size, b"abc")
            with self.assertRaises(commonware.NotWhole):
                MapView.encode(size, size, b"abc")

    def test_limits_at_the_edges(self):
        data = b"\3abc"
        right = (0, None), (3, 3), (3, 2**64 - 1), (0, 3)
        for least, most in (*right, (0, 2), (4, 9), (3, 2)):
            if (least, most) in right:
                self.assertEqual(len(SetView.decode(1, data, least, most)), 3)
                self.assertEqual(len(MapView.decode(1, 0, data + b"\3", least, most)), 3)
            else:
                with self.assertRaises(InvalidLength) as caught:
                    SetView.decode(1, data, least, most)
                self.assertEqual(caught.exception.length, 3)
        self.assertEqual(Certificate.decode(CERTIFICATE, 1, 3).signers, (0, 1, 2))
        for limits, length in (((0, 3), 1), ((1, 2), 3), ((0, 0), 1)):
            with self.assertRaises(InvalidLength) as caught:
                Certificate.decode(CERTIFICATE, *limits)
            self.assertEqual(caught.exception.length, length)

    def test_many_items(self):
        keys = [i.to_bytes(4, "big") for i in range(70_000)]
        data = SetView.encode_dedup(4, b"".join(reversed(keys)))
        self.assertEqual(data[3:], b"".join(keys))
        view = SetView.decode(4, data)
        self.assertEqual((len(view), view[69_999], view.position(keys[65_536])), (70_000, keys[-1], 65_536))
        bimap = BiMapView.decode(4, 4, MapView.encode(4, 4, zip(reversed(keys), keys)))
        self.assertEqual((bimap[keys[0]], bimap.get_key(keys[0])), (keys[-1], keys[-1]))
        signers = list(range(0, 350_000, 5))
        value = bytes(1_000_000)
        certificate = Certificate.decode(Certificate.encode(value, signers))
        self.assertEqual((certificate.signers, certificate.value == value), (tuple(signers), True))
        first, second = (Certificate.encode(slot_value(b"7", it), range(60_000)) for it in (b"A", b"B"))
        self.assertEqual(equivocation(3, 70_000, first, second), tuple(range(60_000)))


class Errors(unittest.TestCase):
    def test_which_certificate(self):
        short, more = CERTIFICATE[:-1], CERTIFICATE + b"\0"
        outside, few = bytes([1, 0xCC, 3, 1, 2, 4]), bytes([1, 0xCC, 1, 0])
        for wrong, kind in (
            (short, commonware.EndOfInput),
            (more, commonware.LeftOver),
            (outside, commonware.Outside),
            (few, commonware.TooFew),
        ):
            for which in (1, 2):
                with self.assertRaises(kind) as caught:
                    conflict(3, 4, *((wrong, CERTIFICATE) if which == 1 else (CERTIFICATE, wrong)))
                self.assertEqual(caught.exception.which, which)
                self.assertTrue(str(caught.exception).startswith(f"certificate {which}: "))
            with self.assertRaises(kind) as caught:
                check(3, 4, wrong)
            self.assertIsNone(caught.exception.which)
        with self.assertRaises(commonware.NoSlot) as caught:
            equivocation(3, 4, CERTIFICATE, OTHER)
        self.assertEqual(caught.exception.which, 1)
        with self.assertRaises(commonware.SameValue) as caught:
            conflict(3, 4, CERTIFICATE, CERTIFICATE)
        self.assertIsNone(caught.exception.which)

    def test_decoded_certificates_are_inputs_too(self):
        first, second = Certificate.decode(CERTIFICATE), Certificate.read(OTHER + b"more")[0]
        self.assertEqual(conflict(3, 4, first, second), (1, 2))
        self.assertEqual(check(3, 4, second).value, b"\xbb")

    def test_a_committee_is_taken_for_its_number_of_members(self):
        first, second = (Certificate.encode(slot_value(b"7", it), [0, 1, 2]) for it in (b"A", b"B"))
        calls = [
            lambda it: check(3, it, first),
            lambda it: conflict(3, it, first, second),
            lambda it: equivocation(3, it, first, second),
        ]
        names = ["NoMembers", "Outside", "Outside", None, None, "TooFew", "TooFew"]
        for count, name in enumerate(names):
            committee = Committee.from_keys_dedup([bytes([i]) * 32 for i in range(count)])
            for call in calls:
                results = outcome(call, committee), outcome(call, count)
                self.assertEqual(results[0], results[1])
                if name is not None:
                    self.assertEqual(results[0][0], name)

    def test_every_error_has_words(self):
        made = {
            commonware.InvalidLength: (7,),
            commonware.LeftOver: (7,),
            commonware.RepeatedValue: (1, 7),
            commonware.RepeatedKey: (7,),
            commonware.NotWhole: (7,),
            commonware.WrongSize: (1, 7, 2),
            commonware.OutOfRange: ("k", 7, 2),
            commonware.ZeroWeight: (7,),
            commonware.WeightOverflow: (7,),
        }
        kinds = [it for it in vars(commonware).values() if isinstance(it, type) and issubclass(it, CommonwareError)]
        self.assertEqual(len(kinds), 23)
        for kind in set(kinds) - {CommonwareError}:
            error = kind(*made.get(kind, ()))
            self.assertEqual(("7" in str(error), len(str(error)) > 5), (kind in made, True), kind)
            self.assertTrue(issubclass(kind, (ValueError, OverflowError, MemoryError)))
            again = pickle.loads(pickle.dumps(error))
            self.assertEqual((type(again), str(again)), (kind, str(error)))


if __name__ == "__main__":
    unittest.main()
