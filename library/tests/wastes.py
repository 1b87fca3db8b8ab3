#!/usr/bin/env python3
"""Segments that share their link information have it read once and linked once: counts the
instructions of a link of nine units that are one entry of a library by nine names, and of a link of
nine units whose entries are copies of it. Such records take most of either link, so the first takes
less than half of the second. Prints what is otherwise. Usage: wastes.py PROGRAM, which links as
pslink does; valgrind counts"""
import pathlib
import re
import subprocess
import sys
import tempfile

sys.dont_write_bytecode = True
ROOT = pathlib.Path(__file__).resolve().parents[2]
sys.path.insert(0, str(ROOT / "vectors"))
from descriptions.links import unit_of, wanting
from descriptions.model import File, Segment, const_def, publ_ref, written

NAMES = [f"UNIT{number}" for number in range(9)]
MANY = 3000
# Records that are read and of which nothing is linked, and such that are looked up.
LISTS = {
    "records that are known are read again": [const_def(f"C{number}", 1) for number in range(MANY)],
    "records that are shared are linked again": [publ_ref("COUNT", []) for _ in range(MANY)],
}


def library(records, copies):
    """A library of units of these names: of so many copies of one segment, the last of which the
    names that are left share."""
    units = {slot: unit_of(name, ["D7"], records) if slot < copies else Segment(name, shares=0)
             for slot, name in enumerate(NAMES)}
    return written(File(units))


def instructions(program, folder, host, library):
    """How many a link takes."""
    (folder / "host").write_bytes(host)
    (folder / "library").write_bytes(library)
    words = ["valgrind", "--tool=callgrind", "--callgrind-out-file=/dev/null", program, "link",
             "host", "out", "library"]
    ran = subprocess.run(words, cwd=folder, capture_output=True, text=True, check=True)
    return int(re.search(r"Collected : (\d+)", ran.stderr)[1])


def main():
    program = pathlib.Path(sys.argv[1]).resolve()
    host = written(File(wanting(*NAMES)))
    differences = 0
    with tempfile.TemporaryDirectory() as folder:
        for waste, records in LISTS.items():
            of_one, of_copies = (instructions(program, pathlib.Path(folder), host,
                                              library(records, copies))
                                 for copies in (1, len(NAMES)))
            if 2 * of_one >= of_copies:
                differences += 1
                print(f"wastes: {waste}: {of_one} instructions where nine units share them, "
                      f"{of_copies} where each has its own")
    return 1 if differences else 0


if __name__ == "__main__":
    sys.exit(main())
