#!/usr/bin/env python3
"""Writes the last column of the faults in docs/LINKING.md, what to do about each, from the
sentences that `pslink check` prints, so that they have one home. man/make_pages.py takes what check
says of faults, warnings and notes from here for man/pslink.1.
Usage: make_fault_table.py [FOLDER], which is docs/ if none is given."""
import pathlib
import re
import sys

ROOT = pathlib.Path(__file__).resolve().parent.parent
LINKING = ROOT / "docs/LINKING.md"
SENTENCES = next((ROOT / "crates").glob("*/src/sentences.rt"))
FINDING = ROOT / "crates/ps_warnings/src/finding.rt"
# In the order of the rows.
FINDINGS = ["FileFinding", "DictionaryFinding", "EntryFinding", "NameFinding", "CodeFinding",
            "ProcedureFinding", "OperandFinding", "RecordFinding", "LinkFinding"]
# A reader of LINKING and of pslink(1) has the section at hand.
OF_THE_PAGE = " in pslink(1)"
HEAD = "| No. | Name | Occurs when | What to do |\n|---|---|---|---|\n"


def numbers():
    """The number of each fault, by the variants of `Reason`."""
    source = (ROOT / "crates/ps_words/src/fault.rt").read_text()
    return {name: int(number)
            for name, number in re.findall(r"Reason::(\w+)(?: \{ \.\. \})? => (\d+),", source)}


def sentences(table):
    """The sentences of a table, by the variants of `Reason`: a row for each number from 0 on, below
    a comment with the number and the variant."""
    body = SENTENCES.read_text().split(f"const {table}: ", 1)[1].split("\n];\n", 1)[0]
    found = re.findall(r'// (\d+)(?: (\w+))?\n    "((?:[^"\\]|\\.)*)"', body)
    known = {number: name for name, number in numbers().items()}
    if [(int(number), name) for number, name, _ in found] != [
            (number, known.get(number, "")) for number in range(1 + len(known))]:
        raise ValueError(f"the rows of {table} are not those of the faults, by their numbers")
    return {name: text for _, name, text in found if name}


def faults():
    """Of each fault, by its number, the number, the name, what is wrong and what to do."""
    meanings, remedies = sentences("MEANINGS"), sentences("REMEDIES")
    for name, number in sorted(numbers().items(), key=lambda fault: fault[1]):
        yield number, name, meanings[name].replace(OF_THE_PAGE, ""), remedies[name].replace(
            OF_THE_PAGE, "")


def shown(text):
    """A text with the names of its parts in capitals."""
    return re.sub(r"\{(\w+)(:[^}]*)?\}", lambda part: part[1].upper(), text.replace('\\"', '"'))


def said_of(enum):
    """For each variant of an enum of findings its name, what is printed, and the comment on it."""
    source = FINDING.read_text()
    variants = source.split(f"pub enum {enum} {{", 1)[1].split("\n}\n", 1)[0]
    meanings = re.findall(r"((?:^    ///.*\n)+)^    (\w+)", variants, re.M)
    display = source.split(f"impl fmt::Display for {enum} {{", 1)[1].split("\n}\n", 1)[0]
    texts = dict(re.findall(enum + r'::(\w+)\b[^"]*?"((?:[^"\\]|\\.)*)"', display))
    for comment, name in meanings:
        meaning = " ".join(
            line.strip().removeprefix("///").strip() for line in comment.splitlines())
        yield name, texts[name], meaning


def weight(enum, name):
    """The word for the weight of a variant of an enum of findings: that of the arm that names it,
    or of the one for all of the enum."""
    (arms,) = re.findall(r"fn weight\(.*?\n    \}\n", FINDING.read_text(), re.S)
    subject = enum.removesuffix("Finding")
    found = [
        weight.lower()
        for arm, weight in re.findall(r"((?:(?!=>).)*)=>\s*Weight::(\w+)", arms, re.S)
        if re.search(rf"\b{enum}::{name}\b|\bFinding::{subject}\(_\)", arm)
    ]
    (only,) = found
    return only


def findings():
    """For each finding the word that its line begins with, what is printed, and the comment on its
    variant."""
    for enum in FINDINGS:
        for name, text, meaning in said_of(enum):
            yield weight(enum, name), shown(text), meaning


def with_remedies(page):
    """The page with what to do in the last cell of each row of the table of the faults."""
    remedies = {str(number): remedy for number, _, _, remedy in faults()}
    before, rest = page.split(HEAD, 1)
    rows, after = re.fullmatch(r"((?:\|.*\n)+)(.*)", rest, re.S).groups()
    return before + HEAD + re.sub(
        r"^(\| (\d+) \|.*\| )[^|]*( \|)$", lambda row: row[1] + remedies[row[2]] + row[3], rows,
        flags=re.M) + after


def main():
    folder = pathlib.Path(sys.argv[1]) if len(sys.argv) > 1 else ROOT / "docs"
    (folder / LINKING.name).write_text(with_remedies(LINKING.read_text()))


if __name__ == "__main__":
    main()
