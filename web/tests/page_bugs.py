#!/usr/bin/env python3
"""Plants bugs in copies of the page's own files, one in each, and sees that test_page.py,
made_page.py or lines_test.mjs tells it. Prints what told each, and each that nothing tells. Usage:
page_bugs.py MODULE PSLINK [WORDS], of the bugs whose name has WORDS, or that are in the file WORDS:
it takes some ten seconds for each. page_bugs.py --texts only sees that the files have the text of
each"""
import pathlib
import re
import shutil
import subprocess
import sys
import tempfile

import picture_bugs

ROOT = pathlib.Path(__file__).resolve().parent.parent.parent
NEEDED = ["web/page", "web/tests", *(f"web/{path.name}" for path in (ROOT / "web").glob("*.mjs")),
          "man/pslink.1", "LICENSE", "NOTICES", "samples"]


def rows_of(lines):
    """The rows of page_bugs.tsv: a tab stands between their items."""
    for line in lines:
        if line and not line.startswith("#"):
            yield tuple(map(text_of, line.split("\t")))


def text_of(item):
    return re.sub(r"\\(.)", lambda it: "\n" if it[1] == "n" else it[1], item)


# What is wrong, the file, its text, the text in its place, and what is to tell it: a part of
# test_page.py, or another test.
BUGS = [
    *rows_of(pathlib.Path(__file__).with_suffix(".tsv").read_text().split("\n")),
    *picture_bugs.BUGS,
]


def path_in(tree, name):
    """The path of a file of the page, or of one that it shares with the command for node."""
    return next(path for path in (tree / "web/page" / name, tree / "web" / name) if path.exists())


def unplanted():
    for what, name, text, _, _ in BUGS:
        count = path_in(ROOT, name).read_text().count(text)
        if count != 1:
            yield f"'{what}' cannot be planted: {name} has its text {count} times"


def words_of(test, tree, module, program, cases):
    """The command of a test."""
    tests, page = tree / "web/tests", tree / "page.html"
    if test == "made":
        return [sys.executable, "-B", tests / "made_page.py", module, page]
    if test == "values":
        return ["node", tests / "pictured_test.mjs", module, cases, tree / "web/pictured.mjs", "4"]
    if test == "lines":
        return ["node", tests / "lines_test.mjs", page]
    return [sys.executable, "-B", tests / "test_page.py", "--part", test, page, program]


def told_by(tree, test, *given):
    """What the test prints first of the page in this tree; None if it tells nothing."""
    made = subprocess.run(
        [sys.executable, "-B", tree / "web/page/make_page.py", given[0], tree / "page.html"],
        capture_output=True, text=True, check=False)
    if made.returncode:
        return f"make_page: {made.stderr.strip()[-140:]}"
    try:
        done = subprocess.run(
            [*map(str, words_of(test, tree, *given))], capture_output=True, text=True, timeout=300,
            check=False)
    except subprocess.TimeoutExpired:
        return f"{test}: it does not end in five minutes"
    lines = [line for line in (done.stdout + done.stderr).splitlines() if line.strip()]
    return f"{test}: {lines[0][:140] if lines else ''}" if done.returncode else None


def plant(bug, *given):
    _, name, text, other, test = bug
    with tempfile.TemporaryDirectory() as folder:
        tree = pathlib.Path(folder)
        for needed in NEEDED:
            (tree / needed).parent.mkdir(parents=True, exist_ok=True)
            (shutil.copytree if (ROOT / needed).is_dir() else shutil.copy)(
                ROOT / needed, tree / needed)
        (tree / "web/out").mkdir()
        shutil.copy(given[0], tree / "web/out/pslink.wasm")
        path = path_in(tree, name)
        path.write_text(path.read_text().replace(text, other))
        return told_by(tree, test, *given)


def plant_all(bugs, *given):
    """Plants each bug, and gives the number of those that nothing tells."""
    untold = 0
    with tempfile.TemporaryDirectory() as cases:
        if any(bug[4] == "values" for bug in bugs):
            subprocess.run(
                [sys.executable, "-B", ROOT / "vectors/make_vectors.py", cases], check=True)
        for bug in bugs:
            told = plant(bug, *given, cases)
            untold += told is None
            print(f"page: {bug[0]}: {told or 'NOTHING TELLS IT'}", flush=True)
    return untold


def main(*given):
    found = list(unplanted())
    for line in found:
        print(f"page: {line}")
    if found or given[0] == "--texts":
        return 1 if found else 0
    module, program, words = pathlib.Path(given[0]).resolve(), pathlib.Path(given[1]).resolve(), (
        *given, "")[2]
    bugs = [bug for bug in BUGS if words in bug[0] or bug[1] == words]
    untold = plant_all(bugs, module, program)
    print(f"page: {len(bugs)} planted bugs, {untold} that nothing tells")
    return 1 if untold or not bugs else 0


sys.exit(main(*sys.argv[1:]))
