"""Wrong linkers: each is .ci/linker.py with a change of a few words, and a row of
wrong_linkers.tsv. A row has what is wrong, the function that is changed (or "" for the whole file),
what stands there once, and what stands in its place; more such pairs may follow. What somebody may
misread in docs/FORMAT.md or docs/LINKING.md is a row, in the order of those pages."""
import pathlib
import re

# Rows that no case tells, since the linker is not wrong: each has its reason in vectors/README.md
UNTOLD = {
    "a library of unknown order is read as little-endian",
    "a word of the dictionary is read with a sign",
}

# The tables of linkers that the cases tell, and LARGE, of those that only files of megabytes tell
KEPT = [
    "FILES", "ROLES", "CODES", "RECORDS", "SOURCES", "ADDED", "VALUES", "REFERENCES", "WRITTEN",
]


def tables_of(lines):
    """The rows of each table: `[NAME]` begins one, and a tab stands between the items of a row."""
    tables = {}
    for line in lines:
        if line.startswith("["):
            rows = tables[line.strip("[]")] = []
        elif line and not line.startswith("#"):
            rows.append(tuple(map(text_of, line.split("\t"))))
    return tables


def text_of(item):
    return re.sub(r"\\(.)", lambda it: "\n" if it[1] == "n" else it[1], item)


TABLES = tables_of(pathlib.Path(__file__).with_suffix(".tsv").read_text().split("\n"))

# Names that are not compared as eight bytes, in each place where names are compared
LOOSE = {
    "without regard to capitals": "{}.lower()", "in seven bits": "bytes(byte % 128 for byte in {})",
    "in seven characters": "{}[:7]",
    "with zero bytes as blanks": '{}.replace(bytes(1), b" ")',
    "without blanks around": '{}.strip(b" ")',
    "up to a zero byte": "{}.split(bytes(1))[0]", "without the first byte": "{}[1:]",
    "up to a blank": '{}.split(b" ")[0]',
}
COMPARED = [
    ("entries of libraries", "entries_of", "entry.name == name", "{entry.name} == {name}"),
    ("slots of the host", "check_slots", "slot.name in units",
     "{slot.name} in [{one} for one in units]"),
    ("a UNITREF and the units of the host", "request", "record.name in self.units",
     "{record.name} in [{one} for one in self.units]", "value_of", "self.units[record.name]",
     "next(slot for one, slot in self.units.items() if {one} == {record.name})"),
    ("names that are requested", "request", "record.name == name", "{record.name} == {name}",
     "value_of", "self.units[record.name]",
     "next(slot for one, slot in self.units.items() if {one} == {record.name})"),
    ("a PUBLREF and the definitions", "value_of", "self.definitions.get(record.name)",
     "next((two for one, two in self.definitions.items() if {one} == {record.name}), None)"),
    ("definitions", "define", "record.name in definitions",
     "{record.name} in [{one} for one in definitions]"),
    ("private variables", "allot", "(segment.slot, record.name) in self.offsets",
     "(segment.slot, {record.name}) in [(slot, {one}) for slot, one in self.offsets]"),
    ("show: the units of a file", "record_line", "record.name not in units",
     "{record.name} not in [{one} for one in units]"),
]
