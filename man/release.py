"""The newest release and its day, as CHANGES.md has them: all other places are written from there,
or compared with it."""
import datetime
import pathlib
import re

CHANGES = pathlib.Path(__file__).resolve().parent.parent / "CHANGES.md"
RELEASE, _DAY = re.search(
    r"^## (\d+\.\d+\.\d+)\n\n(\d+ \w+ \d+)\.$", CHANGES.read_text(), re.M).groups()
# whether the sources have changes that no release has
AHEAD = "\n**In the sources, not released yet:**\n" in CHANGES.read_text()
DAY = datetime.datetime.strptime(_DAY, "%d %B %Y").date().isoformat()
FIRST, SECOND, THIRD = map(int, RELEASE.split("."))
# the same as a number to compare
NUMBER = 10000 * FIRST + 100 * SECOND + THIRD
# the last number that a release of the same second part can have
LAST_NUMBER = 10000 * FIRST + 100 * SECOND + 99
# the line of a page that says which release it is of
LINE = re.compile(r"^\*Of release .*\*$", re.M)


def without_line(text):
    return re.sub(rf"{LINE.pattern}\n\n", "", text, flags=re.M)
