#!/usr/bin/env python3
"""Writes the tables of docs/PROVED.md of what the proofs assume: which C functions, by
docs/verdicts.txt, and how many lines of C and JavaScript stand unproved beside what is proved.
.ci/assumptions compares docs/verdicts.txt with what rattle says.
Usage: make_assumptions.py [FOLDER], which is docs/ if none is given."""
import pathlib
import re
import sys

from make_instructions import with_table

ROOT = pathlib.Path(__file__).resolve().parent.parent
VERDICTS = ROOT / "docs/verdicts.txt"
PAGE = ROOT / "docs/PROVED.md"
ASSUMED = "| What is built | Assumed | Of which | Functions |\n|---|---|---|---|\n"
UNPROVED = "| What is used | Lines | In |\n|---|---|---|\n"
# what a function belongs to, by the beginning of its name
HOMES = {
    "libc::heap::": "the heap of the kit, over malloc and free",
    "libc::": "the C library",
    "os::c::": "the kit's own C",
    "page_heap::host::": "`pslink.mjs`",
    "host_files::host::": "`host.c` or `host.mjs`",
}
HOST = ["everywhere/c/host.c", "everywhere/c/host.h", "everywhere/c/host_parts.h"]
# What stands unproved beside the proved code, by what is used: files, and files of JavaScript with
# all that they import.
PATHS = [
    ("the program", [], []),
    ("the library for C", ["library/*.c", "library/*.h"], []),
    ("Python, over the library", ["library/*.c", "library/*.h", "bindings/python/pslink/*.py"], []),
    ("Rust, over the library", ["library/*.c", "library/*.h", "bindings/rust/src/*.rs"], []),
    ("the module in JavaScript", [], ["web/pslink.mjs"]),
    ("the command for node", ["everywhere/c/builtins_wasm64.c"],
     ["web/pslink.mjs", "web/command.mjs"]),
    ("the command for Linux on aarch64",
     [*HOST, "everywhere/c/host_unix.c",
      "everywhere/c/main.c", "everywhere/c/heap.c"], []),
    ("the command for Windows",
     [*HOST, "everywhere/c/host_windows.c",
      "everywhere/c/main.c", "everywhere/c/heap_windows.ll"], []),
    ("the command as C, for a Unix",
     [*HOST, "everywhere/c/host_unix.c",
      "everywhere/c/module.c", "everywhere/c/instance.h",
      "everywhere/c/builtins_wasm64.c"], []),
    ("the library as C",
     ["library/*.c", "library/*.h",
      "everywhere/c/portable.c", "everywhere/c/instance.h"], []),
    ("the page", [], ["web/page/page.mjs"]),
]


def verdicts():
    """Of each thing that is built, the words of its verdict and the functions that it assumes."""
    found, name = {}, None
    for line in VERDICTS.read_text().splitlines():
        if line.startswith("    "):
            found[name][1].append(line.strip())
        elif line and not line.startswith("#"):
            name, _, words = line.partition(": ")
            found[name] = (words.split(), [])
    return found


def by_home(functions):
    """The functions of each home, with the names that they have there."""
    left = list(functions)
    for start, home in HOMES.items():
        of_home = [name for name in left if name.startswith(start)]
        left = [name for name in left if name not in of_home]
        if of_home:
            yield home, [name.removeprefix(start).removeprefix("net::") for name in of_home]
    if left:
        raise ValueError(f"no home of {left} is known")


def assumed_rows():
    for name, (_, functions) in verdicts().items():
        for row, (home, names) in enumerate(by_home(functions)):
            total = str(len(functions)) if row == 0 else ""
            yield (f"| {name if row == 0 else ''} | {total} | {len(names)} of {home} | "
                   f"{', '.join(names)} |\n")


def imported(path, found):
    """The file and the files that it imports, each once."""
    if path not in found:
        found.append(path)
        for other in re.findall(
            r'^(?:import|export) [^;]*?from "(\.[^"]+)";', path.read_text(), re.M
        ):
            imported((path.parent / other).resolve(), found)
    return found


def unproved_rows():
    for what, patterns, scripts in PATHS:
        files = [path for pattern in patterns for path in sorted(ROOT.glob(pattern))]
        for script in scripts:
            imported(ROOT / script, files)
        lines = sum(1 for path in files for line in path.read_text().splitlines() if line.strip())
        folders = sorted({str(path.parent.relative_to(ROOT)) for path in files})
        yield f"| {what} | {lines:,} | {', '.join(folders) or 'none of this repository'} |\n"


def main():
    folder = pathlib.Path(sys.argv[1]) if len(sys.argv) > 1 else ROOT / "docs"
    page = with_table(PAGE.read_text(), ASSUMED, assumed_rows())
    (folder / "PROVED.md").write_text(with_table(page, UNPROVED, unproved_rows()))


main()
