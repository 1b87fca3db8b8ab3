#!/usr/bin/env python3
"""Writes the examples of programs to a folder, for .ci/library to compile and run: header.c of
include/pslink.h, whose function gets a main; embedding.c and CMakeLists.txt of docs/EMBEDDING.md,
embedding.py of docs/PYTHON.md and embedding.rs of docs/RUST.md, and report.c, found.c, found.py,
shelf.c, shelf.py and shelf.rs, whose functions get a main too; manual.c of man/pslink.3; and
declarations.c, the declarations of that page. Prints where the page's types are not those of the
header. Usage: examples.py FOLDER"""
import pathlib
import re
import shlex
import sys

ROOT = pathlib.Path(__file__).resolve().parents[2]
HEADER = (ROOT / "include/pslink.h").read_text()
PAGE = (ROOT / "man/pslink.3").read_text()
ENDINGS = {"c": ".c", "python": ".py", "rust": ".rs"}
# functions of examples, which get the main of this name beside, and the example's name
FUNCTIONS = {"show_report": "report", "link_found": "found", "keep_libraries": "shelf",
             "link_folder": "shelf"}


def of_header():
    """The lines of the header's first comment that are set off, as ` *     return 1;`."""
    comment = HEADER.split("*/", 1)[0]
    found = re.findall(r"^ \*(?:     (.*))?$", comment[comment.index(" *     #include") :], re.M)
    return "\n".join(found).rstrip() + "\n"


def of_manual():
    """The text between .EX and .EE, as it is read."""
    return (PAGE.split("\n.EX\n", 1)[1].split("\n.EE\n", 1)[0].replace("\\e", "\\").replace(
        "\\-", "-") + "\n")


def declarations():
    """What the page's synopsis declares."""
    synopsis = PAGE.split(".SH SYNOPSIS\n", 1)[1].split("\n.SH ", 1)[0]
    for line in synopsis.splitlines():
        if line.startswith(".BI "):
            yield "".join(shlex.split(line[4:]))
        elif line.startswith(".B "):
            yield line[3:]


def types(text):
    """Each structure of a text, without comments and spaces."""
    found = re.findall(r"typedef struct \w+ \{.*?\} \w+;",
                       re.sub(r"/\*.*?\*/", "", text, flags=re.S), re.S)
    return sorted(" ".join(structure.split()) for structure in found)


def main():
    folder = pathlib.Path(sys.argv[1])
    (folder / "header.c").write_text(of_header()
                                     + (ROOT / "library/tests/link_two_main.c").read_text())
    (folder / "manual.c").write_text(of_manual())
    (folder / "declarations.c").write_text(
        "\n".join(declarations()) + "\nint main(void) { return 0; }\n")
    embedding = "".join((ROOT / f"docs/{page}.md").read_text()
                        for page in ("EMBEDDING", "PYTHON", "RUST"))
    for language, text in re.findall(r"^```(\w+)\n(.*?)^```$", embedding, re.M | re.S):
        if language == "cmake":
            (folder / "CMakeLists.txt").write_text(text)
            continue
        ending, name = ENDINGS[language], "embedding"
        for function in FUNCTIONS:
            if f"{function}(" in text:
                text += (ROOT / f"library/tests/{function}_main{ending}").read_text()
                name = FUNCTIONS[function]
        (folder / f"{name}{ending}").write_text(text)
    if not types(HEADER) or types(HEADER) != types(PAGE):
        print(f"the types of pslink(3) are {types(PAGE)}, and those of the header {types(HEADER)}")
        return 1
    functions = set(re.findall(r"^(?:uint32_t|size_t|const char \*)\s*(pslink_\w+)\(", HEADER,
                               re.M))
    named = set(re.findall(r"pslink_\w+", PAGE.split("\n.SH NAME\n", 1)[1].split("\n", 1)[0]))
    installed = set(re.search(r"^CALLS = (.*?[^\\])\n", (ROOT / "Makefile").read_text(),
                              re.M | re.S)[1].split()) - {"\\"}
    if functions != named or functions != installed:
        print(f"pslink(3) names {named ^ functions} otherwise than the header, and the Makefile "
              f"{installed ^ functions}")
        return 1
    return 0


sys.exit(main())
