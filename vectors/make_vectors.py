#!/usr/bin/env python3
"""Writes the cases and their index from the descriptions in the folder descriptions. What is
expected is described there, and no linker is run. Usage: make_vectors.py [--cases PATTERN]..
[FOLDER], with --cases for the cases of these names alone, or make_vectors.py --large FOLDER for the
cases of megabytes, with the script 'run' beside them. Without FOLDER it writes to the folder of
this script. Cases that are there already, and no older than the descriptions, are copied to another
folder, and not made again."""
import argparse
import fnmatch
import hashlib
import json
import pathlib
import shutil
import sys

sys.dont_write_bytecode = True
from descriptions import (codes, dictionaries, everywhere, faults, large, limits, links, names,
                          orders, pairs, places, records, requests, turned, varied)
from descriptions.cases import described, map_of, summary
from descriptions.model import REASONS, file_bytes, laid_out, show_of

HERE = pathlib.Path(__file__).resolve().parent
FORMAT = 1  # of the index
VERSION = 4  # of the cases: 1 more where a case is added, changed or removed in a release


def all_cases():
    little = list(described_cases())
    yield from little
    yield from turned.cases(little)


def described_cases():
    yield from faults.unchanged()
    yield from links.cases()
    yield from limits.cases()
    yield from requests.cases()
    yield from codes.cases()
    yield from dictionaries.cases()
    yield from records.cases()
    yield from names.cases()
    yield from faults.cases()
    yield from pairs.cases()
    yield from orders.cases()
    yield from places.cases()
    yield from everywhere.cases()
    yield from varied.cases()


def text(lines):
    return "".join(f"{line}\n" for line in lines).encode()


class Folder:
    """The folder of a case."""

    def __init__(self, path):
        self.path, self.files = path, {}
        path.mkdir(parents=True)

    def write(self, name, content):
        (self.path / name).write_bytes(content)
        self.files[name] = content
        return name

    def write_file(self, stem, file, laid):
        """Writes a code file and its show, and gives what show answers."""
        self.write(f"{stem}.code", file_bytes(file, laid))
        if file.refused:
            line = f"pslink: refused {file.refused} {REASONS[file.refused]} file 0\n"
            return {"status": 1, "stdout": None, "stderr": line}
        return {"status": 0, "stdout": self.write(f"{stem}.show", text(show_of(file, laid))),
                "stderr": ""}

    def digest(self):
        """The SHA-256 of all files of the case, one after another by name."""
        return hashlib.sha256(b"".join(content for _, content in sorted(
            self.files.items()))).hexdigest()


def written(top, case):
    """Writes the files of a case, and gives its entry of the index."""
    folder = Folder(top / "cases" / case.name)
    stems = ["host", *(f"library-{k}" for k in range(1, len(case.libraries) + 1))]
    shows = {f"{stem}.code": folder.write_file(stem, file, laid_out(file))
             for stem, file in zip(stems, case.files())}
    entry = {
        "name": case.name, "about": case.about, "folder": f"cases/{case.name}",
        "host": "host.code", "libraries": [f"library-{k}.code" for k in case.order_given()],
        "status": 1 if case.fault else 0, "stdout": "", "stderr": "", "linked": None, "map": None,
        "shows": shows,
        "fault": case.fault and case.fault.described(),
        "later": case.later and case.later.described(), "link": None,
    }
    if case.fault:
        entry["stderr"] = f"pslink: {case.fault.line()}\n"
    else:
        shows["linked.code"] = folder.write_file("linked", *case.linked)
        entry |= {"stdout": f"{summary(case)}\n", "linked": "linked.code", "link": described(case),
                  "map": folder.write("linked.map", text(map_of(case)))}
    entry["sha256"] = folder.digest()
    return entry


def index_text(entries):
    """The index, with one line for each field of a case."""
    cases = ",\n".join(
        "{\n" + ",\n".join(
            f' "{field}": {json.dumps(value)}' for field, value in entry.items()) + "\n}"
        for entry in entries)
    return f'{{"format": {FORMAT}, "version": {VERSION}, "cases": [\n{cases}\n]}}\n'


def is_new():
    """The index is there beside this script, and the descriptions are no newer."""
    index, sources = HERE / "index.json", [HERE / "make_vectors.py",
                                           *(HERE / "descriptions").glob("*.py")]
    return index.exists() and all(
        source.stat().st_mtime <= index.stat().st_mtime for source in sources)


def copied(top, entry):
    """Copies the files of a case that is there beside this script; whether they are those of its
    entry."""
    path, folder = HERE / entry["folder"], Folder(top / entry["folder"])
    for file in path.iterdir() if path.is_dir() else ():
        folder.write(file.name, file.read_bytes())
    return folder.digest() == entry["sha256"]


def are_copied(top, patterns):
    """Copies the cases of these names that are beside this script, if they are those of the
    descriptions."""
    if top.resolve() == HERE or not is_new():
        return False
    entries = [entry
               for entry in json.loads((HERE / "index.json").read_text())["cases"]
               if is_named(entry["name"], patterns)]
    if not all(copied(top, entry) for entry in entries):
        shutil.rmtree(top / "cases")
        return False
    (top / "index.json").write_text(index_text(entries))
    return True


def is_named(name, patterns):
    return any(fnmatch.fnmatch(name, one) for one in patterns)


def write(top, cases=None, patterns=("*",)):
    """Writes the index and these cases, or those of these names. A folder of cases without an index
    is not one that this script made."""
    if (top / "cases").exists():
        if not (top / "index.json").exists():
            sys.exit(f"make_vectors.py: {top} has a folder 'cases' and no index.json")
        shutil.rmtree(top / "cases")
    top.mkdir(parents=True, exist_ok=True)
    if cases is None and are_copied(top, patterns):
        return
    entries = [written(top, case) for case in cases or all_cases() if is_named(case.name, patterns)]
    names = [entry["name"] for entry in entries]
    assert len(names) == len(set(names)), "two cases have one name"
    (top / "index.json").write_text(index_text(entries))


def write_large(folder):
    """Writes the cases of megabytes, and the script that runs a linker over them."""
    write(folder, large.cases())
    shutil.copy(HERE / "run", folder)


def main():
    parser = argparse.ArgumentParser(prog="make_vectors.py", description=__doc__)
    parser.add_argument("--large", action="store_true", help="write the cases of megabytes")
    parser.add_argument(
        "--cases", metavar="PATTERN", action="append",
        help="write the cases of these names alone, as 'faults/*'")
    parser.add_argument("folder", metavar="FOLDER", nargs="?", type=pathlib.Path)
    given = parser.parse_args()
    if not given.folder and (given.large or given.cases):
        parser.error("FOLDER is missing")
    if given.large:
        write_large(given.folder)
    else:
        write(given.folder or HERE, patterns=given.cases or ("*",))


if __name__ == "__main__":
    main()
