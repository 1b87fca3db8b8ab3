#!/usr/bin/env python3
"""Writes man/pslink.5 from docs/FORMAT.md, and the parts of man/pslink.1 and man/pslink.3 that lie
between a line '.\\" made from ..' and a line '.\\" end' from docs/OUTPUT.md, docs/LINKING.md,
docs/USING.md, the sentences of check, and the texts of the library, so that each fact has one home;
and into the head of each page the release of CHANGES.md and its day.
Usage: make_pages.py [FOLDER], which is man/ if none is given."""
import pathlib
import re
import sys
import textwrap

import make_constants
import make_fault_table
import release

HERE = pathlib.Path(__file__).resolve().parent
DOCS = HERE.parent / "docs"
WIDTH = 76
SHORT = 22  # a column whose cells are all as short is not wrapped

HEAD = r"""'\" t
.\" written by make_pages.py from docs/FORMAT.md: change that page, and not this one
.TH PSLINK 5 "" "pslink" "File Formats"
.SH NAME
pslink \- code files and link information of UCSD Pascal II.0
.SH DESCRIPTION
"""

FOOT = r""".SH SEE ALSO
.BR pslink (1)
.PP
LINKING.md, PCODE.md, and the samples and the script that writes them, in the sources of
.BR pslink (1).
Its section FILES says where the documents are.
"""


def code(match):
    return r"\fB" + match[1].replace("-", r"\-") + r"\fR"


def inline(text):
    """The text with the fonts of a manual page in place of marks."""
    text = text.replace("\\", r"\e")
    text = re.sub(r"\[([^]]*)\]\([^)]*\)", r"\1", text)
    text = re.sub(r"\*\*([^*]+)\*\*", r"\\fB\1\\fR", text)
    text = re.sub(r"`([^`]+)`", code, text)
    return re.sub(r"(?<!\w)\*(\([a-z]+\)|[A-Za-z][A-Za-z -]*)\*(?!\w)", r"\\fI\1\\fR", text)


def lines_of(text):
    wrapped = textwrap.wrap(inline(text), WIDTH, break_long_words=False, break_on_hyphens=False)
    return [r"\&" + line if line[:1] in (".", "'") else line for line in wrapped]


def heading(line):
    marks, text = line.split(" ", 1)
    text = text.replace("*", "").replace("`", "")
    return f".SH {text.upper()}" if marks == "##" else f".SS {text}"


def cells_of(row):
    return [cell.strip() for cell in row.strip().strip("|").split("|")]


def table(rows):
    """A table with these cells, of which a long one is wrapped."""
    wide = [max(len(row[column]) for row in rows) > SHORT for column in range(len(rows[0]))]
    yield ".TS"
    yield "tab(|);"
    yield " ".join("lx" if is_wide else "l" for is_wide in wide) + "."
    for row in rows:
        line = ""
        for column, cell in enumerate(row):
            line += "|" if column else ""
            if wide[column]:
                yield line + "T{"
                yield from lines_of(cell)
                line = "T}"
            else:
                line += inline(cell)
        yield line
    yield ".TE"


def listed(rows):
    """A list of lines that a command prints, each with what there is one for."""
    for line, meaning in rows:
        yield ".TP"
        yield inline(line)
        yield from lines_of(f"For {meaning}.")


def page(lines):
    """The lines of a manual page for the lines of a document; its examples are left out, with the
    words before them."""
    first = True
    lines = re.sub(
        r"(?m)^[^|\-#\n].*:\n\n(?=```)|^```\n(?:.*\n)*?```$", "", "\n".join(lines)).splitlines()
    while lines:
        line = lines.pop(0)
        if not line:
            continue
        if line.startswith("#"):
            yield heading(line)
            first = True
        elif line.startswith("|"):
            rows = [line]
            while lines and lines[0].startswith("|"):
                rows.append(lines.pop(0))
            cells = [cells_of(row) for row in rows]
            if cells[0] == ["Line", "One line for"]:
                yield from listed(cells[2:])
            else:
                yield from [] if first else [".PP"]
                yield from table([cells[0], *cells[2:]])
            first = False
        elif line.startswith("- "):
            yield r".IP \(bu 2"
            yield from lines_of(line[2:])
            first = False
        else:
            if not first:
                yield ".PP"
            yield from lines_of(line)
            first = False


class Document:
    """A document by its headings."""

    def __init__(self, name):
        self.text = release.without_line((DOCS / name).read_text())

    def section(self, title):
        """The lines below the heading with this title, up to the next heading."""
        parts = re.split(r"^#+ (.*)\n", self.text, flags=re.M)
        return dict(zip(parts[1::2], parts[2::2]))[title].splitlines()

    def tables(self, title):
        """The tables of a section, each as the cells of its rows below the head."""
        found, inside = [], False
        for line in self.section(title):
            if line.startswith("|"):
                found += [] if inside else [[]]
                found[-1].append(cells_of(line))
            inside = line.startswith("|")
        return [rows[2:] for rows in found]


LINKING, USING, OUTPUT = Document("LINKING.md"), Document("USING.md"), Document("OUTPUT.md")


def texts():
    """What each command prints: the page but for its first paragraph, with its sections as parts of
    one."""
    lines = OUTPUT.text.split("\n\n", 2)[2].splitlines()
    return page("#" + line if line.startswith("#") else line for line in lines)


def faults():
    """A row for each fault: its number, its name, what is wrong, and what to do."""
    yield ".TS"
    yield "tab(|);"
    yield "r lx"
    yield "r lx."
    yield "No.|Name, what is wrong, and what to do"
    for number, name, wrong, remedy in make_fault_table.faults():
        yield f"{number}|T{{"
        yield from lines_of(f"**{name}**: {wrong}")
        yield from lines_of(remedy)
        yield "T}"
    yield ".TE"


def order():
    for line in LINKING.section("The order of faults"):
        if match := re.match(r"(\d+)\. (.*)", line):
            yield f".IP {match[1]}. 4"
            yield from lines_of(match[2])


def damage():
    """What may have happened, by what is reported, and what to do."""
    signs, given = USING.tables("Damaged files")
    yield from table([["Sign", "What may have happened", "What to do"], *signs])
    yield ".PP"
    yield from lines_of("Files that were given in place of others:")
    yield ".PP"
    yield from table([["What was given", "What is reported", "What to do"], *given])


def warnings():
    """What the line of each finding says, with the word that it begins with, what it means and what
    to do: the warnings, then the others."""
    for word, text, meaning in sorted(
            make_fault_table.findings(), key=lambda finding: finding[0] != "warning"):
        yield ".TP"
        yield inline(f"{text} ({word})")
        yield from lines_of(meaning)


def constants(kinds):
    """What pslink_text makes, by its constants: what is said of each, and the command that prints
    it."""
    for kind in kinds:
        yield ".TP"
        yield f".B {kind.constant}"
        yield from lines_of(
            f"{kind.words}; the command `{kind.command}`" if kind.command else kind.words)


PARTS = {
    "the warnings": warnings,
    "the texts": texts,
    "the faults": faults,
    "the line of a fault": lambda: page(LINKING.section("The line of a fault")),
    "the order of faults": order,
    "damaged files": damage,
    "the limits": lambda: table(LINKING.tables("Limits")[0]),
    "the texts of the library": lambda: constants(make_constants.TEXTS),
    "the names of units": lambda: constants(make_constants.NAMES),
    "the type of a file": lambda: constants(make_constants.TYPES),
}


def with_parts(manual):
    """The manual page with each part as the documents have it."""

    def part(match):
        return match[1] + "".join(line + "\n" for line in PARTS[match[2]]()) + match[3]

    return re.sub(
        r'(^\.\\" made from [\w/.]+: ([a-z ]+)\n).*?(^\.\\" end\n)', part, manual,
        flags=re.M | re.S)


def dated(manual):
    """The manual page with the release and its day in its head."""
    return re.sub(
        r'^(\.TH PSLINK \d) "[^"]*" "pslink[^"]*"',
        rf'\1 "{release.DAY}" "pslink {release.RELEASE}"', manual, flags=re.M)


def main():
    folder = pathlib.Path(sys.argv[1]) if len(sys.argv) > 1 else HERE
    pages = {
        "pslink.1": with_parts((HERE / "pslink.1").read_text()),
        "pslink.3": with_parts((HERE / "pslink.3").read_text()),
        "pslink.5": HEAD + "\n".join(page(release.without_line(
            (DOCS / "FORMAT.md").read_text()).splitlines()[1:])) + "\n" + FOOT,
    }
    for name, manual in pages.items():
        (folder / name).write_text(dated(manual))


main()
