#!/usr/bin/env python3
"""Writes the faults into include/pslink.h and bindings/rust/src/reason.rs, between the comment that
names this script and the next one, from the variants of `Reason`, so that they have one home; the
highest number of them into the comments of reason.rs and into docs/json-schema.json;
library/faults.h and web/pslink.mjs, which have the name of each with the sentences that `pslink
check` prints; the texts of `kinds.rt` into include/pslink.h, docs/EMBEDDING.md and the Rust crate,
each with what is said of it there, library/kinds.h, web/pslink.mjs, web/README.md and the Python
package; the calls for names of units into the bindings and the pages on them, and the number of the
type of a file; and the
release of CHANGES.md into the header and the bindings.
Usage: make_constants.py [FOLDER], which is the files' own if none is given."""
import pathlib
import re
import sys
import textwrap
from typing import NamedTuple

import release
from make_fault_table import ROOT, numbers, sentences
from make_instructions import with_table

FAULTS_FROM = "crates/ps_words/src/fault.rt"
KINDS_FROM = "crates/ps_c_texts/src/kinds.rt"
SOURCE, KINDS = ROOT / FAULTS_FROM, ROOT / KINDS_FROM
HEADER = ROOT / "include/pslink.h"
REASONS = ROOT / "bindings/rust/src/reason.rs"
SCHEMA = ROOT / "docs/json-schema.json"
SAID = ROOT / "library/faults.h"
TABLE = ROOT / "library/kinds.h"
SCRIPT, OF_SCRIPT = ROOT / "web/pslink.mjs", ROOT / "web/README.md"
PAGE = ROOT / "docs/EMBEDDING.md"
HEAD = "| `what` | What it makes | The program prints it by |\n|---|---|---|\n"
RUST, PYTHON = ROOT / "bindings/rust/src/lib.rs", ROOT / "bindings/python/pslink/__init__.py"
OF_RUST, OF_PYTHON = ROOT / "docs/RUST.md", ROOT / "docs/PYTHON.md"
PACKAGE, OF_NODE = ROOT / "bindings/rust/Cargo.toml", ROOT / "web/package.json"
# what a status says, by its number
STATUSES = [
    "done", "the files are refused", "the call is not as pslink.h says", None, "out of memory",
    "out is smaller than the result",
    "a name of a file is no UTF-8",
]
# where there are no names of units
NONE = ("There is none where the {} is linked already, or where its list says that it is something "
        "else than a code file.")
# each file that has the highest number, and what stands around it
HIGHEST = {
    REASONS: r"(number, 1 to )\d+()\b",
    SCHEMA: r'("fault_number": \{"type": "integer", "minimum": 1, "maximum": )\d+(\})',
}
# each file that has the release, what stands around it, and as what it is there
RELEASES = [
    (HEADER, r'(#define PSLINK_RELEASE ")[\d.]+(")', release.RELEASE),
    (HEADER, r"(#define PSLINK_RELEASE_NUMBER )\d+(u)", release.NUMBER),
    (PYTHON, r'^(__version__ = ")[\d.]+(")', release.RELEASE),
    (PACKAGE, r'^(version = ")[\d.]+(")', release.RELEASE),
    (OF_NODE, r'^(  "version": ")[\d.]+(")', release.RELEASE),
    (RUST, r"^(const LAST_RELEASE_NUMBER: u32 = )\d+(;)", release.LAST_NUMBER),
]


def in_order():
    """The name and the number of each fault, in the order of the numbers."""
    return sorted(numbers().items(), key=lambda fault: fault[1])


def constants():
    """The faults as C has them, in one column."""
    words = {name: "PSLINK_FAULT_" + re.sub(r"(?<!^)(?=[A-Z])", "_", name).upper()
             for name in numbers()}
    width = max(map(len, words.values()))
    return "".join(f"#define {words[name]:{width}} {number}\n" for name, number in in_order())


def variants():
    """The faults as Rust has them, each with what the source says of it."""
    source = SOURCE.read_text()
    for name, number in in_order():
        words = re.search(rf"((?:    /// .*\n)+)    {name}\b", source)[1]
        yield f"{words}    {name} = {number},\n"


def said(begin, end):
    """What there is to say of each fault: its name, its meaning and its remedy, between what a row
    begins and ends with."""
    meanings, remedies = sentences("MEANINGS"), sentences("REMEDIES")
    rows = [(name, meanings[name], remedies[name]) for name, _ in in_order()]
    return [begin + f",\n{' ' * len(begin)}".join(f'"{text}"' for text in row) + end
            for row in rows]


class Kind(NamedTuple):
    """A text of pslink_text: its name, its number, what is said of it, the command that prints it,
    and what the source makes of it."""

    name: str
    number: str
    words: str
    command: str
    made: str

    @property
    def constant(self):
        return f"PSLINK_{self.name}"

    @property
    def word(self):
        return self.name.lower()

    @property
    def is_of_host(self):
        """The text is of the first file alone."""
        return self.made.startswith("TextKind::OfHost(")

    @property
    def is_type(self):
        """The text is the line of what a file is."""
        return self.made == "TextKind::OfHost(HostText::CodeType)"

    @property
    def names(self):
        """Which names a call for names of units gives, and all else that is said of them, in
        sentences."""
        words = self.words.replace("the first file", "the file") if self.is_of_host else self.words
        first, _, more = f"The names of {words}.".partition(". ")
        file = "file" if self.is_of_host else "host"
        return first.removesuffix("."), f"{more} {NONE.format(file)}".lstrip()


def kinds(function):
    """The texts that a function of the source gives by their numbers, in their order: `kind_in`
    those that have a document, `text_kind` names of units and the type of a file."""
    source = KINDS.read_text()
    body = re.search(rf"(?s)fn {function}\(.*?\n\}}", source)[0]
    made = dict(re.findall(r"^ +TEXT_(\w+) => Some\((.*)\),$", body, re.M))
    found = []
    for comment, name, number in re.findall(r"((?:^///.*\n)+)^pub const TEXT_(\w+): u32 = (\d+);",
                                            source, re.M):
        if name in made:
            said = re.sub(r"(?m)^///(?: |$)", "", comment)
            words, _, command = said.partition("\n\n")
            words = " ".join(words.split()).removesuffix(".")
            printed = re.fullmatch(r"The command `(.*)` prints it\.\n", command)
            found.append(Kind(name, number, words[0].lower() + words[1:],
                              printed[1] if printed else "", made[name]))
    return found


TEXTS, PLAIN = kinds("kind_in"), kinds("text_kind")
NAMES, TYPES = ([kind for kind in PLAIN if kind.is_type == is_type] for is_type in (False, True))


def defined(kinds):
    """Texts as C has them, in one column, each with what is said of it in lines of at most 102
    characters."""
    lines = [f"#define {kind.constant} {kind.number}u" for kind in kinds]
    width = max(map(len, lines))
    for line, kind in zip(lines, kinds):
        # (what is between marks stays whole)
        words = re.sub(r"`[^`]*`", lambda quoted: quoted[0].replace(" ", "\0"), kind.words)
        said = textwrap.wrap(words + "\0*/", 102 - width - 4, break_long_words=False,
                             break_on_hyphens=False)
        yield f"{line:{width}} /* " + f"\n{' ' * (width + 4)}".join(said).replace("\0", " ") + "\n"


def table():
    """What pslink_text knows of the texts, as C has it."""
    yield (f"/* made by man/make_constants.py from {KINDS_FROM}: of each text by its number, "
           "whether it has a document, and whether files\n")
    yield " * have names in it */\n#include <pslink.h>\n\n"
    yield ("static const struct {\n    unsigned char is_there, has_document, has_names;\n} kinds[] "
           "= {\n")
    for kind in TEXTS + PLAIN:
        has_names = kind.made.startswith("TextKind::Named(")
        yield f"    [{kind.constant}] = {{1, {int(kind in TEXTS)}, {int(has_names)}}},\n"
    yield "};\n"


def texts():
    """What the library says of faults and of statuses, as C has it."""
    rows = said("    {", "},\n")
    of_statuses = [f'    "{text}",\n' if text else "    NULL,\n" for text in STATUSES]
    yield ("/* made by man/make_constants.py: what the library says of each fault, its name, its "
           "meaning and its remedy; and of each status */\n")
    yield ("#include <stddef.h>\n\nstatic const char *const faults[][3] = {\n    {NULL, NULL, "
           "NULL},\n")
    yield from rows
    yield "};\n\nstatic const char *const statuses[] = {\n"
    yield from of_statuses
    yield "};\n"


def page():
    """The page on the library in C, with the texts: what is said of each, and the command that
    prints it."""
    rows = [f"| `{kind.constant}` | {kind.words} | {kind.command and f'`pslink {kind.command}`'} "
            "|\n"
            for kind in TEXTS + PLAIN]
    return with_table(PAGE.read_text(), HEAD, rows)


def between(text, source, lines):
    """The text of a file with these lines between the comment that names this script, with what it
    makes them from, and the next one."""
    pattern = rf"(make_constants\.py from {re.escape(source)}(?: \*/)?\n).*?(^ *(?:/\*|//|#) end)"
    text, count = re.subn(pattern, lambda match: match[1] + "".join(lines) + match[2], text,
                          flags=re.M | re.S)
    if count != 1:
        raise ValueError(f"{count} places are made from {source}")
    return text


def with_highest(file, text):
    """The text of this file with the highest number of a fault wherever it has one."""
    highest = max(numbers().values())
    text, count = re.subn(HIGHEST[file], rf"\g<1>{highest}\g<2>", text)
    if count == 0:
        raise ValueError(f"{file} has no highest number of a fault")
    return text


def header():
    """The header, with the faults and the texts."""
    text = between(HEADER.read_text(), FAULTS_FROM, constants())
    text = between(text, f"{KINDS_FROM}: the texts", defined(TEXTS))
    text = between(text, f"{KINDS_FROM}: the names of units", defined(NAMES))
    return between(text, f"{KINDS_FROM}: the type of a file", defined(TYPES))


def replaced(text, *places):
    """The text with what each place has, by what stands around it."""
    for pattern, value in places:
        text, count = re.subn(pattern, lambda match: match[1] + value + match[2], text, flags=re.M)
        if count != 1:
            raise ValueError(f"there are {count} places of: {pattern}")
    return text


def script():
    """The module in JavaScript, with the faults, and with the texts by their numbers."""
    listed = textwrap.fill(", ".join(f"{kind.word}: {kind.number}" for kind in TEXTS + PLAIN), 99,
                           initial_indent="  ", subsequent_indent="  ").removeprefix("  ")
    of_names = ", ".join(f'"{kind.word}"' for kind in NAMES)
    text = between(SCRIPT.read_text(), FAULTS_FROM, said("  [", "],\n"))
    of_texts = r"(TEXTS = Object\.freeze\(\{\n  )[^}]*(,\n\})"
    return replaced(text, (of_texts, listed), (r"^(const OF_NAMES = .*\[).*(\])", of_names))


def calls_in_python():
    """The calls for names of units as Python has them, each with what is said of it in lines of at
    most 100 characters."""
    for kind in NAMES:
        first, more = kind.names
        given, files = (("file: File", "file") if kind.is_of_host
                        else ("host: File, libs: Iterable[File] = ()", "host, libs"))
        said = [*textwrap.wrap(f'"""{first}, as \'UTIL\'.', 96, break_on_hyphens=False), "",
                *textwrap.wrap(f"{more} Raises what `show` raises.", 96, break_on_hyphens=False),
                '"""']
        yield f"def units_{kind.word}({given}) -> List[str]:\n"
        yield from (f"    {line}".rstrip() + "\n" for line in said)
        yield f'    return _Files({files}).units(_PLAIN["{kind.word}"])\n\n\n'


def package():
    """The module in Python, with the texts by their numbers, and the calls for names of units."""
    words = ", ".join(f'"{kind.word}"' for kind in TEXTS)
    listed, plain = (", ".join(f'"{kind.word}": {kind.number}' for kind in kinds)
                     for kinds in (TEXTS, PLAIN))
    calls = ", ".join(f'"units_{kind.word}"' for kind in NAMES)
    text = between(PYTHON.read_text(), f"{KINDS_FROM}: the names of units", calls_in_python())
    places = (r"^(_TEXTS = \{).*(\})", listed), (r"^(_PLAIN = \{).*(\})", plain)
    return replaced(text, (r"^(Text = Literal\[).*(\])", words), (r'^(    )"units_.*(,)$', calls),
                    *places)


def page_of_script():
    """The page on the module in JavaScript, with the words of the texts; of names of units also the
    first sentence of what is said of them."""
    *most, last = (f'`"{kind.word}"`' for kind in TEXTS)
    of_names = ". ".join(f'`"{kind.word}"`: {kind.words.partition(". ")[0]}' for kind in NAMES)
    places = ((r"(as the program prints it: kind is ).*( \|)$", f"{', '.join(most)} or {last}"),
              (r"(\| `names` of units\. ).*( \|)$", of_names))
    return replaced(OF_SCRIPT.read_text(), *places)


def commented(indent, *paragraphs):
    """These paragraphs, as a comment in Rust."""
    for number, words in enumerate(paragraphs):
        lines = textwrap.wrap(words, 88, break_long_words=False, break_on_hyphens=False)
        yield from (f"{indent}/// {line}".rstrip() + "\n" for line in [""][:number] + lines)


def variants_of_texts():
    """The texts that have a document as Rust has them, each with what is said of it."""
    for kind in TEXTS:
        printed = [f"The command `{kind.command}` prints it."] if kind.command else []
        yield from commented("    ", f"{kind.words[0].upper()}{kind.words[1:]}.", *printed)
        yield f"    {kind.word.capitalize()} = {kind.number},\n"


def calls_in_rust():
    """The texts without a document by their numbers, and the calls for names of units as Rust has
    them, each with what is said of it."""
    yield from (f"const {kind.name}: u32 = {kind.number};\n" for kind in PLAIN)
    for kind in NAMES:
        first, more = kind.names
        of_file = "file: impl Into<File<'a>>"
        of_files = ("\n    host: impl Into<File<'a>>,\n    libs: impl IntoIterator<Item = "
                    "File<'a>>,\n")
        given, files = (of_file, "file, []") if kind.is_of_host else (of_files, "host, libs")
        yield from ("\n", *commented("", f"{first}.", more, "# Errors"), "/// Those of [`show`].\n")
        yield f"pub fn units_{kind.word}<'a>({given}) -> Result<Vec<Name>, Error> {{\n"
        yield f"    Files::new({files}).units({kind.name})\n}}\n"


def crate():
    """The Rust crate, with the texts by their numbers, and the calls for names of units."""
    text = between(RUST.read_text(), f"{KINDS_FROM}: the texts", variants_of_texts())
    return between(text, f"{KINDS_FROM}: the names of units", calls_in_rust())


def page_of_binding(page, prefix):
    """The page on a binding, with the calls for names of units."""
    calls = ", ".join(f"`{prefix}units_{kind.word}({'file' if kind.is_of_host else 'host, libs'})`"
                      for kind in NAMES)
    return replaced(page.read_text(), (rf"^(\| )`{re.escape(prefix)}units_.*?( \| )", calls))


def with_release(file, text):
    """The text of this file with the release wherever it has it."""
    for pattern, value in [(pattern, value) for it, pattern, value in RELEASES if it == file]:
        text, count = re.subn(pattern, rf"\g<1>{value}\g<2>", text, flags=re.M)
        if count != 1:
            raise ValueError(f"{file} has the release {count} times in: {pattern}")
    return text


def made():
    """Each file, as this script writes it."""
    yield HEADER, with_release(HEADER, header())
    yield PYTHON, with_release(PYTHON, package())
    yield RUST, with_release(RUST, crate())
    yield PACKAGE, with_release(PACKAGE, PACKAGE.read_text())
    yield OF_NODE, with_release(OF_NODE, OF_NODE.read_text())
    yield REASONS, with_highest(REASONS, between(REASONS.read_text(), FAULTS_FROM, variants()))
    yield SCHEMA, with_highest(SCHEMA, SCHEMA.read_text())
    yield SAID, "".join(texts())
    yield TABLE, "".join(table())
    yield SCRIPT, script()
    yield OF_SCRIPT, page_of_script()
    yield PAGE, page()
    yield OF_PYTHON, page_of_binding(OF_PYTHON, "pslink.")
    yield OF_RUST, page_of_binding(OF_RUST, "")


def main():
    for file, text in made():
        (pathlib.Path(sys.argv[1]) / file.name if len(sys.argv) > 1 else file).write_text(text)


if __name__ == "__main__":
    main()
