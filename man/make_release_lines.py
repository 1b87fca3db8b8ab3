#!/usr/bin/env python3
"""Writes into each page which release it is of: a line below its title, or where the page has that
line. While CHANGES.md lists changes that are not released, the line says that the page has them
too.
Usage: make_release_lines.py [FOLDER], which is the repository if none is given."""
import os
import pathlib
import re
import sys

import release

ROOT = pathlib.Path(__file__).resolve().parent.parent
# (releases/README.md is of all releases)
PAGES = [
    "README.md",
    "docs/*.md",
    "samples/README.md",
    "vectors/README.md",
    "web/README.md",
    "everywhere/README.md",
]


def line(page):
    """The line of a page, with the way from there to CHANGES.md."""
    if not release.AHEAD:
        return f"*Of release {release.RELEASE}.*"
    changes = pathlib.PurePath(os.path.relpath(release.CHANGES, page.parent)).as_posix()
    return (f"*Of release {release.RELEASE} and of the sources after it: [CHANGES]({changes}) says "
            "what they change.*")


def with_line(page):
    text = page.read_text()
    if release.LINE.search(text):
        return release.LINE.sub(lambda _: line(page), text, count=1)
    return re.sub(r"\A(# .*\n\n)", lambda title: f"{title[1]}{line(page)}\n\n", text)


def main():
    folder = pathlib.Path(sys.argv[1]) if len(sys.argv) > 1 else ROOT
    for pattern in PAGES:
        for page in sorted(ROOT.glob(pattern)):
            to = folder / page.relative_to(ROOT)
            to.parent.mkdir(parents=True, exist_ok=True)
            to.write_text(with_line(page))


main()
