"""Packs this folder for pip, by the standard library alone, so that `pip install ./bindings/python`
needs no network. From an archive of pslink the package has the shared object in it."""

import base64
import hashlib
import io
import re
import tarfile
import zipfile
from pathlib import Path

HERE = Path(__file__).resolve().parent
PACKAGE = (HERE / "pslink/__init__.py").read_text(encoding="utf-8")
VERSION = re.search(r'^__version__ = "(.*)"$', PACKAGE, re.M)[1]
PROJECT = (HERE / "pyproject.toml").read_text(encoding="utf-8")
SUMMARY = re.search(r'^description = "(.*)"$', PROJECT, re.M)[1]
AUTHOR = re.search(r'^authors = \[{ name = "(.*)" }\]$', PROJECT, re.M)[1]
LIBRARY = re.search(r'^_LIBRARY = "(.*)"$', PACKAGE, re.M)[1]
INFO = f"pslink-{VERSION}.dist-info"
METADATA = f"""Metadata-Version: 2.1
Name: pslink
Version: {VERSION}
Summary: {SUMMARY}
Author: {AUTHOR}
License: MIT
Requires-Python: >=3.8
Description-Content-Type: text/markdown

{(HERE / "README.md").read_text(encoding="utf-8")}"""
SOURCES = ["pyproject.toml", "build_backend.py", "LICENSE", "README.md", "pslink/__init__.py",
           "pslink/py.typed"]
OLDEST = 17  # the C library of the oldest system that pip has a name for with this one, 2.17


def recorded(name, data):
    digest = base64.urlsafe_b64encode(hashlib.sha256(data).digest()).rstrip(b"=").decode()
    return f"{name},sha256={digest},{len(data)}\n"


def shared_object():
    """The bytes of the library of the archive, in the folder `lib` beside `bindings`; None where
    there is none."""
    beside = HERE.parent.parent / "lib" / LIBRARY
    return beside.read_bytes() if beside.is_file() else None


def tags_of(library):
    """For which systems a package with this library is: those whose C library is no older."""
    if library is None:
        return ["any"]
    needed = max(map(int, re.findall(rb"\0GLIBC_2\.(\d+)(?=[.\0])", library)))
    older = ["manylinux2014_x86_64"] if needed <= OLDEST else []
    return [f"manylinux_2_{max(needed, OLDEST)}_x86_64", *older]


def build_wheel(wheel_directory, config_settings=None, metadata_directory=None):
    """The package, with the library in it where there is one."""
    files = {name: (HERE / name).read_bytes() for name in SOURCES if name.startswith("pslink/")}
    library = shared_object()
    if library is not None:
        files[f"pslink/{LIBRARY}"] = library
    return packed(wheel_directory, files, tags_of(library))


def build_editable(wheel_directory, config_settings=None, metadata_directory=None):
    """What `pip install -e` installs: the path of this folder."""
    return packed(wheel_directory, {"pslink.pth": f"{HERE}\n".encode()}, ["any"])


def packed(wheel_directory, files, tags):
    """Writes the wheel with these files for these systems, and returns its name."""
    pure = str(tags == ["any"]).lower()
    files[f"{INFO}/METADATA"] = METADATA.encode()
    files[f"{INFO}/WHEEL"] = "".join(
        [f"Wheel-Version: 1.0\nGenerator: pslink\nRoot-Is-Purelib: {pure}\n"]
        + [f"Tag: py3-none-{tag}\n" for tag in tags]).encode()
    files[f"{INFO}/LICENSE"] = (HERE / "LICENSE").read_bytes()
    record = f"{INFO}/RECORD"
    lines = [recorded(name, data) for name, data in files.items()] + [f"{record},,\n"]
    files[record] = "".join(lines).encode()
    name = f"pslink-{VERSION}-py3-none-{'.'.join(tags)}.whl"
    with zipfile.ZipFile(Path(wheel_directory) / name, "w") as wheel:
        for path, data in files.items():
            wheel.writestr(zipfile.ZipInfo(path), data, zipfile.ZIP_DEFLATED)
    return name


def build_sdist(sdist_directory, config_settings=None):
    name = f"pslink-{VERSION}"
    with tarfile.open(Path(sdist_directory) / f"{name}.tar.gz", "w:gz") as packed:
        for path in SOURCES:
            packed.add(HERE / path, f"{name}/{path}")
        info = tarfile.TarInfo(f"{name}/PKG-INFO")
        info.size = len(METADATA)
        packed.addfile(info, io.BytesIO(METADATA.encode()))
    return f"{name}.tar.gz"
