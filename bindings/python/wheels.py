"""Builds the package for pip (PEP 517) without any other package, so that installing it needs no
network. The built library goes along, so that an installed package finds it. The same files give
the same bytes."""

import base64
import gzip
import hashlib
import io
import pathlib
import re
import tarfile
import zipfile

HERE = pathlib.Path(__file__).resolve().parent
PROJECT = dict(re.findall(r'(?m)^([\w-]+) = "(.*)"$', (HERE / "pyproject.toml").read_text()))
NAME = f"{PROJECT['name'].replace('-', '_')}-{PROJECT['version']}"
LIBRARY = "libcommonware.so.2"
# The library asks the C library for nothing that is later than version 2.17 of glibc.
TAG = "py3-none-manylinux_2_17_x86_64"
METADATA = f"""Metadata-Version: 2.1
Name: {PROJECT['name']}
Version: {PROJECT['version']}
Summary: {PROJECT['description']}
License: Apache-2.0
Requires-Python: {PROJECT['requires-python']}
"""
WHEEL = f"Wheel-Version: 1.0\nGenerator: wheels\nRoot-Is-Purelib: false\nTag: {TAG}\n"


def package():
    """Returns the sources of the package, by their paths."""
    paths = sorted([*HERE.glob("commonware/*.py"), HERE / "commonware/py.typed"])
    return {str(path.relative_to(HERE)): path.read_bytes() for path in paths}


def library():
    """Returns the built library and PROVED, which says what it was made of, by their paths.

    They are those of the repository, or of an archive of the sources. Where there is none it is a
    FileNotFoundError, and where the library is another one than PROVED says, a ValueError."""
    inside = HERE / "commonware/lib"
    folder = inside if inside.is_dir() else HERE.parent / "prebuilt/x86_64-linux"
    files = {f"commonware/lib/{it}": (folder / it).read_bytes() for it in (LIBRARY, "PROVED")}
    built, proved = files.values()
    if f"{hashlib.sha256(built).hexdigest()}  {LIBRARY}" not in proved.decode().splitlines():
        raise ValueError(f"{folder / LIBRARY} is not the one that was proved")
    return files


def record(folder, files):
    """Returns RECORD, the list of the files of a wheel with their checksums."""
    lines = []
    for path, data in files.items():
        digest = base64.urlsafe_b64encode(hashlib.sha256(data).digest()).decode().rstrip("=")
        lines.append(f"{path},sha256={digest},{len(data)}\n")
    return "".join([*lines, f"{folder}/RECORD,,\n"]).encode()


def licences():
    """Returns the licence and the notice, which an unpacked archive of the sources has beside this file."""
    folder = HERE if (HERE / "LICENSE").is_file() else HERE.parents[1]
    return {it: (folder / it).read_bytes() for it in ("LICENSE", "NOTICE") if (folder / it).is_file()}


def build_wheel(wheel_directory, config_settings=None, metadata_directory=None):
    """Writes the wheel into a folder, and returns its name."""
    folder = f"{NAME}.dist-info"
    about = {f"{folder}/METADATA": METADATA.encode(), f"{folder}/WHEEL": WHEEL.encode()}
    about |= {f"{folder}/licenses/{name}": text for name, text in licences().items()}
    files = {**package(), **library(), **about}
    files[f"{folder}/RECORD"] = record(folder, files)
    name = f"{NAME}-{TAG}.whl"
    with zipfile.ZipFile(pathlib.Path(wheel_directory) / name, "w") as wheel:
        for path, data in files.items():
            # The time of an entry, and what a version of zlib makes of its bytes, would show.
            entry = zipfile.ZipInfo(path, (1980, 1, 1, 0, 0, 0))
            entry.external_attr = 0o644 << 16
            wheel.writestr(entry, data, zipfile.ZIP_STORED)
    return name


def build_sdist(sdist_directory, config_settings=None):
    """Writes the archive of the sources into a folder, and returns its name."""
    name = f"{NAME}.tar.gz"
    sources = {it: (HERE / it).read_bytes() for it in ("pyproject.toml", "wheels.py")}
    files = {**package(), **library(), **sources, **licences(), "PKG-INFO": METADATA.encode()}
    packed = io.BytesIO()
    with tarfile.open(fileobj=packed, mode="w", format=tarfile.PAX_FORMAT) as archive:
        for path, data in files.items():
            entry = tarfile.TarInfo(f"{NAME}/{path}")
            entry.size = len(data)
            archive.addfile(entry, io.BytesIO(data))
    (pathlib.Path(sdist_directory) / name).write_bytes(gzip.compress(packed.getvalue(), mtime=0))
    return name
