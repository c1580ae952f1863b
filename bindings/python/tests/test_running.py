"""The examples, which library is loaded and which version it has, threads, and memory."""

import doctest
import importlib
import os
import pathlib
import pkgutil
import re
import resource
import shutil
import subprocess
import sys
import tempfile
import threading
import time
import unittest
import unittest.mock

import commonware
from commonware import (
    BiMapView,
    Certificate,
    Committee,
    CommonwareError,
    MapView,
    SetView,
    Weights,
    _calls,
    _library,
    _native,
    check,
    conflict,
    equivocation,
    slot_value,
    weighted_check,
    weighted_conflict,
    weighted_equivocation,
)

HERE = pathlib.Path(__file__).resolve().parents[1]
PAGE = HERE.parent / "README.md"
NAMES = [f"commonware.{it.name}" for it in pkgutil.iter_modules(commonware.__path__)]
MODULES = [commonware, *map(importlib.import_module, NAMES)]


def load_tests(loader, tests, pattern):
    for module in MODULES:
        if ">>> " in pathlib.Path(module.__file__).read_text():
            tests.addTests(doctest.DocTestSuite(module))
    return tests


def python(*words, **environment):
    """Runs Python over this package, and returns what it prints and its status."""
    settings = {**os.environ, "PYTHONPATH": str(HERE), "PYTHONDONTWRITEBYTECODE": "1", **environment}
    settings = {name: text for name, text in settings.items() if text is not None}
    told = subprocess.run([sys.executable, *words], env=settings, cwd="/", capture_output=True, text=True)
    return told.stdout + told.stderr, told.returncode


class Examples(unittest.TestCase):
    def test_the_programs_of_the_page(self):
        page = PAGE.read_text()
        blocks = [re.findall(rf"```{word}\n(.*?)```", page, re.DOTALL) for word in ("python", "text")]
        for name, program, prints in zip(("committee", "stakes"), *blocks):
            path = HERE / f"examples/{name}.py"
            self.assertEqual(path.read_text(), program)
            self.assertEqual(python(str(path)), (prints, 0))

    def test_every_name_is_documented(self):
        for name in commonware.__all__:
            it = getattr(commonware, name)
            self.assertTrue(it is commonware.BytesLike or isinstance(it, int) or it.__doc__, name)
            for part, member in vars(it).items() if isinstance(it, type) else ():
                if not part.startswith("_") and callable(member):
                    self.assertTrue(member.__doc__, f"{name}.{part}")
        text, status = python("-m", "pydoc", "commonware")
        self.assertEqual(status, 0)
        for name in commonware.__all__:
            self.assertIn(name, text)


class Library(unittest.TestCase):
    def test_the_folder_that_is_said(self):
        said = pathlib.Path(_library.LIBRARY._name)
        with tempfile.TemporaryDirectory() as folder:
            text, status = python("-c", "import commonware", COMMONWARE_C_LIB=folder)
            self.assertNotEqual(status, 0)
            sentence = text.splitlines()[-1]
            self.assertRegex(sentence, r"^ImportError: commonware can't load its library \(.*\): set COMMONWARE_C_LIB ")
            (pathlib.Path(folder) / _library.NAME).write_bytes(b"no library")
            text, status = python("-c", "import commonware", COMMONWARE_C_LIB=folder)
            self.assertIn("ImportError: ", text.splitlines()[-1])
            if said.is_file():
                shutil.copy(said, folder)
                asked = "import commonware; print(commonware._library.LIBRARY._name)"
                text, status = python("-c", asked, COMMONWARE_C_LIB=folder)
                self.assertEqual((text, status), (f"{pathlib.Path(folder) / _library.NAME}\n", 0))

    def test_the_folder_beside_the_package(self):
        said = pathlib.Path(_library.LIBRARY._name)
        if not said.is_file():
            self.skipTest("the library is the system's")
        with tempfile.TemporaryDirectory() as folder:
            top = pathlib.Path(folder).resolve()
            shutil.copytree(HERE / "commonware", top / "python/commonware")
            asked = "import commonware; print(commonware._library.LIBRARY._name)"
            settings = {"PYTHONPATH": str(top / "python"), "COMMONWARE_C_LIB": None}
            self.assertIn("ImportError: ", python("-c", asked, **settings)[0])
            beside = top / "prebuilt/x86_64-linux"
            beside.mkdir(parents=True)
            shutil.copy(said, beside)
            self.assertEqual(python("-c", asked, **settings), (f"{beside / _library.NAME}\n", 0))

    def test_another_module_declares_what_python_has(self):
        program = """
import ctypes
ctypes.pythonapi.PyObject_GetBuffer.argtypes = [ctypes.c_char_p]
ctypes.pythonapi.PyBuffer_Release.argtypes = []
import commonware
print(list(commonware.SetView.decode(1, memoryview(b"-\\2ab")[1:])))
"""
        self.assertEqual(python("-c", program), ("[b'a', b'b']\n", 0))

    def test_every_function_of_the_header_is_declared(self):
        header = HERE.parent / "c/commonware.h"
        text = re.sub(r"/\*.*?\*/", "", header.read_text(), flags=re.DOTALL)
        declared = dict(re.findall(r"\bcommonware_(\w+)\(([^()]*)\);", text))
        self.assertGreater(len(declared), 15)
        self.assertEqual((declared.pop("version"), _library.version_number.argtypes), ("void", ()))
        for name, arguments in declared.items():
            self.assertEqual(len(getattr(_calls, name).argtypes), arguments.count(",") + 1, name)

    def test_every_result_of_the_header_is_declared(self):
        text = re.sub(r"/\*.*?\*/", "", (HERE.parent / "c/commonware.h").read_text(), flags=re.DOTALL)
        results = dict((name, body) for body, name in re.findall(r"typedef struct \{(.*?)\} (\w+);", text, re.DOTALL))
        kinds = {"uint32_t": _calls.c_uint32, "size_t": _calls.c_size_t, "uint64_t": _calls.c_uint64}
        for result, name in re.findall(r"\b(commonware_\w+_view) commonware_(\w+)\(", text):
            lines = re.findall(r"(\w+) ([\w, ]+);", results[result])
            fields = [(field, kinds[kind]) for kind, names in lines for field in names.split(", ")]
            self.assertEqual(getattr(_calls, name).restype._fields_, fields, name)

    def test_every_status_of_the_header_has_an_error(self):
        text = (HERE.parent / "c/commonware.h").read_text()
        for name, number in re.findall(r"COMMONWARE_(\w+) = (\d+)", text):
            kind = {**_native._PLAIN, **_native._NUMBERED}.get(int(number))
            words = {"MEMORY": "OutOfMemory"}.get(name, name.title().replace("_", ""))
            if name not in ("OK", "ROOM", "ABSENT", "REPEATED_VALUE"):
                self.assertEqual(kind.__name__, words, name)


class Version(unittest.TestCase):
    def test_the_version_is_that_of_the_header(self):
        text = (HERE.parent / "c/commonware.h").read_text()
        parts = re.findall(r"(?m)^#define COMMONWARE_VERSION_(?:MAJOR|MINOR|PATCH) (\d+)$", text)
        self.assertEqual(commonware.version(), tuple(map(int, parts)))

    def test_the_number_is_split(self):
        for number, parts in (
            (1_000_000, (1, 0, 0)),
            (12_345_678, (12, 345, 678)),
            (999, (0, 0, 999)),
        ):
            with unittest.mock.patch.object(_library, "version_number", lambda: number):
                self.assertEqual(commonware.version(), parts)

    def test_the_version_is_that_of_the_project(self):
        project = (HERE / "pyproject.toml").read_text()
        self.assertEqual(re.findall(r'(?m)^version = "(.*)"$', project), [commonware.__version__])

    def refusal(self, source):
        """Returns the last line of an import over a library that is compiled from a source in C."""
        with tempfile.TemporaryDirectory() as folder:
            library = pathlib.Path(folder) / _library.NAME
            words = ["cc", "-shared", "-fPIC", "-x", "c", "-", "-o", str(library)]
            subprocess.run(words, input=source, text=True, check=True)
            text, status = python("-c", "import commonware", COMMONWARE_C_LIB=folder)
            self.assertNotEqual(status, 0)
            return text.splitlines()[-1].replace(str(library), "LIBRARY")

    @unittest.skipUnless(shutil.which("cc"), "no cc")
    def test_libraries_of_other_versions_are_refused(self):
        for number, said in ((3_004_005, "3.4.5"), (1_999_999, "1.999.999"), (20_000_000, "20.0.0")):
            sentence = f"LIBRARY is version {said} of the library: this package needs version 2."
            source = f"unsigned commonware_version(void) {{ return {number}; }}"
            self.assertEqual(self.refusal(source), f"ImportError: {sentence}")
        sentence = (
            "ImportError: LIBRARY is another version of the library, without commonware_{}: "
            "this package needs version 2.0.0."
        )
        self.assertEqual(self.refusal("int nothing;"), sentence.format("version"))
        source = "unsigned commonware_version(void) { return 2000000; }"
        self.assertEqual(self.refusal(source), sentence.format("max_faults"))


KEYS = [bytes([i // 250, i % 250]) * 24 for i in range(300)]
SET = SetView.encode_dedup(48, KEYS)
MAP = MapView.encode_dedup(48, 48, zip(KEYS, KEYS))
FIRST = Certificate.encode(slot_value(b"view 7", b"A"), range(201))
SECOND = Certificate.encode(slot_value(b"view 7", b"B"), range(99, 300))
WEIGHTS = Weights([7] * 300)


def each_call():
    """Calls each function of the library once, and some that refuse."""
    assert SetView.encode_dedup(48, SetView.decode(48, bytearray(SET)).data) == SET
    assert SetView.decode(48, memoryview(b"-" + SET)[1:]).position(KEYS[290]) == 290
    assert MapView.encode_dedup(48, 48, MapView.decode(48, 48, MAP)) == MAP
    assert MapView.encode(48, 48, zip(KEYS, KEYS)) == MAP
    assert BiMapView.decode(48, 48, MAP).get_key(KEYS[7]) == KEYS[7]
    assert Committee.from_keys_dedup([bytes([i]) * 32 for i in range(99)]).position(98 * bytes(1)) is None
    assert Certificate.encode(Certificate.decode(FIRST).value, range(201)) == FIRST
    assert check(3, 300, FIRST).slot == Certificate.decode(FIRST).slot == b"view 7"
    assert conflict(3, 300, FIRST, SECOND) == equivocation(3, 300, FIRST, SECOND) == tuple(range(99, 201))
    assert weighted_check(3, [7] * 300, FIRST).weight == 7 * 201
    for call in (weighted_conflict, weighted_equivocation):
        assert call(3, WEIGHTS, FIRST, SECOND) == (tuple(range(99, 201)), 7 * 102)
    for call in (
        lambda: SetView.decode(48, SET[:-1]),
        lambda: BiMapView.decode(48, 0, MAP),
        lambda: MapView.encode(1, 1, b"abab"),
        lambda: Certificate.encode(b"", [3, 3]),
        lambda: conflict(3, 300, FIRST, FIRST),
        lambda: weighted_conflict(3, [*WEIGHTS, 0], FIRST, SECOND),
    ):
        try:
            call()
        except CommonwareError:
            continue
        raise AssertionError("it is refused")


def pages():
    """Returns how many bytes the process has in memory."""
    return int(pathlib.Path("/proc/self/statm").read_text().split()[1]) * resource.getpagesize()


class Running(unittest.TestCase):
    def test_eight_threads(self):
        failed = []

        def work():
            try:
                for _ in range(60):
                    each_call()
            except BaseException as error:
                failed.append(error)

        threads = [threading.Thread(target=work) for _ in range(8)]
        for thread in threads:
            thread.start()
        for thread in threads:
            thread.join()
        self.assertEqual(failed, [])

    def test_the_lock_is_not_held(self):
        keys = os.urandom(32 * 200_000)
        counted, done = 0, threading.Event()

        def work():
            SetView.encode_dedup(32, keys)
            done.set()

        thread = threading.Thread(target=work)
        thread.start()
        while not done.is_set():
            counted += 1
            time.sleep(0.0005)
        thread.join()
        self.assertGreater(counted, 3)

    def test_no_memory_is_lost(self):
        for _ in range(100):
            each_call()
        before = pages()
        for _ in range(2000):
            each_call()
        # Each round takes more than 100,000 bytes.
        self.assertLess(pages() - before, 4_000_000)

    def test_allocation_failures_are_errors(self):
        program = """
import array, resource
from commonware import *
data, keys, pairs = bytes(60_000_000), bytes(48_000_000), bytes(48_000_000)
signers = Certificate.encode(b"", range(4_000_000))
column = array.array("I", range(4_000_000))
column.byteswap()
column = bytes([0x80, 0x92, 0xF4, 1]) + column.tobytes()
bimap = column + column
size = int(open("/proc/self/statm").read().split()[0]) * resource.getpagesize()
resource.setrlimit(resource.RLIMIT_AS, (size + 6_000_000, size + 6_000_000))
for call in (
    lambda: SetView.encode_dedup(32, keys),
    lambda: Committee.encode_dedup(keys),
    lambda: MapView.encode_dedup(16, 16, pairs),
    lambda: MapView.encode(16, 16, pairs),
    lambda: Certificate.encode(data, []),
    lambda: slot_value(b"", data),
    lambda: Certificate.decode(signers),
    lambda: BiMapView.decode(4, 4, bimap),
):
    try:
        call()
    except OutOfMemory as error:
        print(type(error).__name__, error)
"""
        text, status = python("-c", program)
        self.assertEqual((text, status), (8 * "OutOfMemory out of memory\n", 0))

    def test_allocation_failures_of_what_is_copied_and_returned_are_errors(self):
        program = """
import itertools, resource
from commonware import *
LARGE, MANY = 60_000_000, 4_000_000
long = Certificate.encode(bytes(LARGE), [0])
first, second = (Certificate.encode(slot_value(b"7", it), range(MANY)) for it in (b"A", b"B"))
given, weights = bytearray(LARGE), Weights(itertools.repeat(1, MANY))
keys, pairs = [bytes(32)] * 1_000_000, [(bytes(16), bytes(16))] * 500_000
bimap, value = BiMapView.decode(1, 1, b"\\1a\\1b"), bytes(LARGE)
hard = resource.getrlimit(resource.RLIMIT_AS)[1]
# Beside each how much memory there is: for the last ones enough for the indices, and not for the tuple of them.
for room, call in (
    (6_000_000, lambda: Certificate.decode(long)),
    (6_000_000, lambda: check(2, 1, long)),
    (6_000_000, lambda: weighted_check(2, [1], long)),
    (6_000_000, lambda: SetView.decode(32, given)),
    (6_000_000, lambda: Committee.decode(memoryview(given))),
    (6_000_000, lambda: MapView.decode(32, 32, given)),
    (6_000_000, lambda: SetView.encode_dedup(32, keys)),
    (6_000_000, lambda: MapView.encode_dedup(16, 16, pairs)),
    (6_000_000, lambda: Weights(itertools.repeat(1, LARGE))),
    (6_000_000, lambda: Certificate.encode(b"", range(LARGE))),
    (6_000_000, lambda: bimap.get_key(value)),
    (24_000_000, lambda: Certificate.decode(first)),
    (24_000_000, lambda: conflict(3, MANY, first, second)),
    (24_000_000, lambda: equivocation(3, MANY, first, second)),
    (24_000_000, lambda: weighted_conflict(3, weights, first, second)),
    (24_000_000, lambda: weighted_equivocation(3, weights, first, second)),
):
    size = int(open("/proc/self/statm").read().split()[0]) * resource.getpagesize()
    resource.setrlimit(resource.RLIMIT_AS, (size + room, hard))
    try:
        call()
    except MemoryError as error:
        print(type(error).__name__, error)
    resource.setrlimit(resource.RLIMIT_AS, (hard, hard))
"""
        text, status = python("-c", program)
        self.assertEqual((text, status), (16 * "OutOfMemory out of memory\n", 0))

    def test_allocation_failures_of_the_library_are_errors(self):
        program = """
import os, resource, traceback
from commonware import *
keys = os.urandom(20_000_000)
hard = resource.getrlimit(resource.RLIMIT_AS)[1]
for call in (
    lambda: SetView.encode_dedup(32, keys),
    lambda: Committee.encode_dedup(keys),
    lambda: MapView.encode_dedup(16, 16, keys),
    lambda: MapView.encode(16, 16, keys),
):
    # Enough for what is written, and not for what the library takes beside that.
    size = int(open("/proc/self/statm").read().split()[0]) * resource.getpagesize()
    resource.setrlimit(resource.RLIMIT_AS, (size + 25_000_000, hard))
    try:
        call()
    except OutOfMemory as error:
        print(traceback.extract_tb(error.__traceback__)[-1].name)
    resource.setrlimit(resource.RLIMIT_AS, (hard, hard))
print(len(SetView.encode_dedup(32, keys)) - len(keys))
"""
        text, status = python("-c", program)
        self.assertEqual((text, status), (4 * "check_status\n" + "3\n", 0))


if __name__ == "__main__":
    unittest.main()
