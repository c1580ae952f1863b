"""What pip gets and installs: a wheel and an archive of the sources, with the library in them."""

import hashlib
import importlib.util
import os
import pathlib
import re
import shutil
import subprocess
import sys
import tarfile
import tempfile
import unittest
import zipfile

from commonware import _library

HERE = pathlib.Path(__file__).resolve().parents[1]
PREBUILT = HERE.parent / "prebuilt/x86_64-linux"
LOADED = pathlib.Path(_library.LIBRARY._name)
MODULES = [str(it.relative_to(HERE)) for it in HERE.glob("commonware/*.py")]
FILES = [f"commonware/lib/{it}" for it in (_library.NAME, "PROVED")]
WHEEL = "commonware_proved-2.0.0-py3-none-manylinux_2_17_x86_64.whl"
SOURCES = "commonware_proved-2.0.0.tar.gz"
BUILD = """
import sys, wheels
print(wheels.build_wheel(sys.argv[1]), wheels.build_sdist(sys.argv[1]))
"""
PROGRAM = """
import commonware
print(commonware._library.LIBRARY._name)
print(*commonware.version())
print(commonware.quorum(commonware.N3F1, 100), commonware.SetView.encode_dedup(1, [b"b", b"a"]))
"""


def run(*words, **environment):
    """Runs Python with these environment variables alone; returns what it prints and its status."""
    settings = {"PATH": os.environ["PATH"], "PYTHONDONTWRITEBYTECODE": "1", **environment}
    told = subprocess.run(
        [sys.executable, *map(str, words)], env=settings, cwd="/", capture_output=True, text=True
    )
    return told.stdout + told.stderr, told.returncode


def checksum(data):
    return hashlib.sha256(data).hexdigest()


def build(package, folder):
    """Builds the wheel and the archive of the sources into a new folder, by `run`."""
    folder.mkdir()
    return run("-c", BUILD, folder, PYTHONPATH=str(package))


def tree(top):
    """Copies the package, and beside it the library that is loaded, as the repository has them;
    returns where the package is."""
    package, built = top / "python", top / "prebuilt/x86_64-linux"
    built.mkdir(parents=True)
    shutil.copytree(HERE, package, ignore=shutil.ignore_patterns("__pycache__"))
    shutil.copy(LOADED, built)
    proved = f"# of a test\n{checksum(LOADED.read_bytes())}  {_library.NAME}\n"
    (built / "PROVED").write_text(proved)
    return package


@unittest.skipUnless(LOADED.is_file(), "the library is the system's, and no wheel is made of that")
class Installing(unittest.TestCase):
    def setUp(self):
        room = tempfile.TemporaryDirectory()
        self.addCleanup(room.cleanup)
        self.top = pathlib.Path(room.name).resolve()
        self.package = tree(self.top)

    def built(self, name):
        """Returns a new folder with the wheel and the archive of the sources."""
        text, status = build(self.package, self.top / name)
        self.assertEqual((text, status), (f"{WHEEL} {SOURCES}\n", 0))
        return self.top / name

    def test_what_the_wheel_has(self):
        with zipfile.ZipFile(self.built("out") / WHEEL) as wheel:
            files = {name: wheel.read(name) for name in wheel.namelist()}
        about = "commonware_proved-2.0.0.dist-info"
        *records, last = files.pop(f"{about}/RECORD").decode().splitlines()
        self.assertEqual(last, f"{about}/RECORD,,")
        self.assertEqual([it.split(",")[0] for it in records], list(files))
        sizes = [int(it.split(",")[2]) for it in records]
        self.assertEqual(sizes, [len(it) for it in files.values()])
        others = ["commonware/py.typed", f"{about}/METADATA", f"{about}/WHEEL"]
        self.assertEqual(sorted(files), sorted([*MODULES, *FILES, *others]))
        library, proved = (files[it] for it in FILES)
        self.assertEqual(library, LOADED.read_bytes())
        self.assertIn(checksum(library), proved.decode())
        tag = b"\nRoot-Is-Purelib: false\nTag: py3-none-manylinux_2_17_x86_64\n"
        self.assertIn(tag, files[f"{about}/WHEEL"])

    def test_what_the_archive_of_the_sources_has(self):
        with tarfile.open(self.built("out") / SOURCES) as archive:
            names = [it.split("/", 1)[1] for it in archive.getnames()]
        others = ["commonware/py.typed", "PKG-INFO", "pyproject.toml", "wheels.py"]
        self.assertEqual(sorted(names), sorted([*MODULES, *FILES, *others]))

    def test_the_tag_is_right(self):
        data = LOADED.read_bytes()
        # Of 64 bits, for x86-64.
        self.assertEqual(data[:5] + data[18:20], b"\x7fELF\2\x3e\0")
        versions = re.findall(rb"\0GLIBC_(\d+)\.(\d+)", data)
        self.assertLessEqual(max((int(major), int(minor)) for major, minor in versions), (2, 17))
        libraries = set(re.findall(rb"\0(lib\w+\.so[.0-9]*)(?=\0)", data))
        self.assertEqual(libraries, {_library.NAME.encode(), b"libc.so.6"})

    def test_two_builds_give_the_same_bytes(self):
        first = self.built("first")
        for path in self.package.rglob("*"):
            os.utime(path, (1_000_000_000, 1_000_000_000))
            path.chmod(0o700)
        second = self.built("second")
        for name in (WHEEL, SOURCES):
            self.assertEqual((first / name).read_bytes(), (second / name).read_bytes())
        with zipfile.ZipFile(second / WHEEL) as wheel:
            self.assertEqual({it.date_time for it in wheel.infolist()}, {(1980, 1, 1, 0, 0, 0)})
        with tarfile.open(second / SOURCES) as archive:
            self.assertEqual({it.mtime for it in archive.getmembers()}, {0})
        self.assertEqual((second / SOURCES).read_bytes()[4:8], bytes(4))

    @unittest.skipUnless(importlib.util.find_spec("pip"), "no pip")
    def test_what_pip_installs_runs(self):
        out = self.built("out")
        for given in (out / WHEEL, out / SOURCES, self.package):
            target = self.top / "target" / given.name
            words = ["-m", "pip", "install", "--no-index", "--no-deps", "--no-cache-dir"]
            text, status = run(*words, "--target", target, given)
            self.assertEqual(status, 0, text)
            library = target / "commonware/lib" / _library.NAME
            told = f"{library}\n2 0 0\n67 b'\\x02ab'\n"
            self.assertEqual(run("-c", PROGRAM, PYTHONPATH=str(target)), (told, 0))
            settings = {"PYTHONPATH": str(target), "COMMONWARE_C_LIB": str(LOADED.parent)}
            self.assertEqual(run("-c", PROGRAM, **settings)[0].splitlines()[0], str(LOADED))

    def test_no_wheel_without_the_library(self):
        built = self.top / "prebuilt/x86_64-linux"
        (built / "PROVED").write_text(f"{64 * '0'}  {_library.NAME}\n")
        text, status = build(self.package, self.top / "other")
        self.assertEqual(status, 1)
        sentence = f"ValueError: {built / _library.NAME} is not the one that was proved"
        self.assertEqual(text.splitlines()[-1], sentence)
        (built / _library.NAME).unlink()
        text, status = build(self.package, self.top / "none")
        self.assertEqual(status, 1)
        self.assertIn(f"FileNotFoundError: [Errno 2] No such file or directory: '{built}", text)
        self.assertEqual([*(self.top / "other").iterdir(), *(self.top / "none").iterdir()], [])

    @unittest.skipUnless((PREBUILT / "PROVED").is_file(), "no bindings/prebuilt/x86_64-linux")
    def test_the_wheel_of_the_repository(self):
        text, status = build(HERE, self.top / "out")
        self.assertEqual((text, status), (f"{WHEEL} {SOURCES}\n", 0))
        with zipfile.ZipFile(self.top / "out" / WHEEL) as wheel:
            for name in (_library.NAME, "PROVED"):
                data = wheel.read(f"commonware/lib/{name}")
                self.assertEqual(data, (PREBUILT / name).read_bytes())
            for name in ("LICENSE", "NOTICE"):
                data = wheel.read(f"commonware_proved-2.0.0.dist-info/licenses/{name}")
                self.assertEqual(data, (HERE.parents[1] / name).read_bytes())


if __name__ == "__main__":
    unittest.main()
