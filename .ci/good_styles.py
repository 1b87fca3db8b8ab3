"""The styles of good files: those that a UCSD compiler may have, and those that docs/FORMAT.md
allows besides. Each sentence of the page that allows something is here by its words, with the
styles that try it, or why none does."""
import dataclasses
import pathlib
import random
import re

from good_code import Style
from good_files import SEPRTSEG, Maker

PAGE = pathlib.Path(__file__).resolve().parent.parent / "docs/FORMAT.md"

COMMENT = b"(c) 1979 Regents of the University of California. All rights reserved."


def told(machine, version):
    """What II.1 has of each slot: its number, a machine type and a version."""
    kinds = {SEPRTSEG: 7}
    return lambda source, slots: {256: [slot
                                        + 256 * (kinds.get(slots[slot], machine) + 32 * version)
                                        if slot in slots else 0
                                        for slot in range(16)]}


def text_at(*places):
    return lambda source, slots: {place: COMMENT[: min(len(COMMENT), 40 if place < 432 else 80)]
                                  for place in places}


def written():
    """The styles that a UCSD compiler may have: nothing is noted of them, but that a link leaves out
    words of II.1."""
    return [
        Style("plain"),
        Style("plain, for a big-endian machine", order="big"),
        Style("EXIT of procedures of units", exits=True),
        Style("tabs and letters above 127 in strings",
              strings=bytes([9, 10, 12, 13, 27, *range(32, 127), *range(160, 256)])),
        Style("a comment at 432", tail=text_at(432)),
        Style("text at 256", tail=text_at(256)),
        Style("text at 296 and at 432", tail=text_at(296, 432)),
        Style("numbers, machines and versions of slots", tail=told(2, 1), words=True),
        Style("the same for a big-endian machine", order="big", tail=told(1, 2), words=True),
        Style("the same with assembled entries", tail=told(2, 2), assembled=True, words=True),
        Style("blocks that are not cleared", cleared=False),
        Style("old records after the end mark", old_records=True),
        Style("words and a name in the end mark", old_mark=True),
        Style("more than 31 definitions, and a block that is not cleared", old_records=True,
              definitions=40),
        Style("assembled entries", assembled=True),
        Style("assembled entries, and blocks that are not cleared", assembled=True, cleared=False),
        Style("an empty unit", empty_unit=True),
        Style("text of interfaces", text=True),
        Style("units in the host", in_place=True),
        Style("units that were moved to other slots", moved=True),
        Style("names in small letters", small=True),
        Style("names that are no identifiers", other_names=True),
        Style("UNITREF records in the host", host_refs=True),
        Style("operands of two bytes everywhere", long=True),
        Style("no instructions of one byte", short=False),
        Style("rows of constants", rows=True),
        Style("returns in the middle", returns=True),
        Style("values over jumps", held=True),
        Style("all jumps by the table", tables=True),
        Style("NOP as padding", padding=0xD7),
        Style("segment number 0", numbers=False),
        Style("empty slots and wanted ones with half of an entry", half=True),
        Style("bytes from 288 on in the dictionary",
              tail=lambda source, slots: {288: source.randbytes(224)}),
        Style("all at once", exits=True, cleared=False, old_mark=True, rows=True, returns=True,
              held=True, assembled=True, empty_unit=True, in_place=True, host_refs=True,
              definitions=35, tail=text_at(256, 432)),
    ]


# Of the styles below those that a file can have at once.
AT_ONCE = """short_end clear_bits free_words free_bytes other_numbers odd_tables one_table between
operand_numbers host_numbers free_records several empty_records unit_definitions high_mark
no_procedures other_kinds linked_parts linked_library anywhere empty_addresses free_texts gaps half
host_refs in_place old_mark noted""".split()


def allowed():
    """The styles that FORMAT.md allows besides. A note is said of sets of those that have `noted`,
    and .ci/good counts these."""
    return [
        Style("a short last block", short_end=True),
        Style("a short last block, for a big-endian machine", order="big", short_end=True),
        Style("any bytes in the tail", tail=lambda source, slots: {256: source.randbytes(256)}),
        Style("bit 7 of operands clear", clear_bits=True, noted=True),
        Style("any words in tables", free_words=True),
        Style("any bytes as instructions", free_bytes=True),
        Style("any numbers in tables", other_numbers=True, noted=True),
        Style("tables at odd places", odd_tables=True),
        Style("procedures without a body", absent=True),
        Style("two procedures of one table", one_table=True, noted=True),
        Style("bytes between procedures", between=True),
        Style("numbers in the operands of UNITREF", operand_numbers=True, exits=True, noted=True),
        Style("numbers of units in the code of the host", host_numbers=True),
        Style("any words in records", free_records=True, old_mark=True, unit_definitions=True,
              definitions=5),
        Style("a record for each reference", several=True, host_refs=True),
        Style("records without references", empty_records=True),
        Style("variables of no words", no_words=True),
        Style("public variables of no words", empty_public=True),
        Style("definitions in units", unit_definitions=True),
        Style("a high end mark", high_mark=True),
        Style("zeros as the end mark of a unit", no_mark=True),
        Style("units without procedures", no_procedures=True),
        Style("other kinds in libraries", other_kinds=True),
        Style("linked segments in the host", linked_parts=True, noted=True),
        Style("a library of linked segments", linked_library=True, noted=True),
        Style("segments in any slots", anywhere=True, in_place=True),
        Style("addresses in empty slots", empty_addresses=True, half=True),
        Style("any text addresses", free_texts=True),
        Style("blocks between segments", gaps=True, old_records=True),
        Style("names that differ in bit 7",
              near=lambda name: [name, name[:-1] + chr(128 + ord(name[-1]))], noted=True),
        Style("names that differ in a byte inside",
              near=lambda name: [name[0] + pad + name[2:] for pad in " \0"], noted=True),
        Style("names that differ in capitals of national letters",
              near=lambda name: [name[0] + letter + name[2:] for letter in "\xc4\xe4"], noted=True),
        Style("a library that is another program", other_program=True),
        Style("entries of other kinds that share bytes", other_kinds=True, shared=True),
        *(Style(f"all that is allowed at once, {order}-endian", order=order,
                **dict.fromkeys(AT_ONCE, True))
          for order in ("little", "big")),
    ]


def styles():
    later = written()
    earlier = [dataclasses.replace(style, name=f"{style.name}, earlier release", release="earlier")
               for style in later]
    return later + earlier + allowed()


STYLES = styles()


def sets(count):
    """So many sets of files: of each the style, the host and the libraries."""
    for number in range(count):
        style = STYLES[number % len(STYLES)]
        yield (style, *Maker(style, random.Random(number)).files())


# Permissions
# ---------------------------------------------------------------------------------------------------------

# Words of a sentence that allows something.
ALLOWS = (
    r"\b(may|can|accepts?|allowed|ignore[sd]?|harmless|any|needs? no|as good as|not interpret|not "
    r"read|not check(ed)?|neither reads|not used|"
    r"nothing|unchanged|without references|unknown order|means that|only with 0|whatever)\b"
)
# Each of these sentences by some of its words, and the styles that try it.
PERMISSIONS = {
    "The last block may be short": ["a short last block",
                                    "a short last block, for a big-endian machine"],
    "A link ignores this bit": ["bit 7 of operands clear"],
    "the tail, which a link does not interpret": ["any bytes in the tail",
                                                  "bytes from 288 on in the dictionary",
                                                  "text at 256"],
    "A library of unknown order": ["a library of linked segments"],
    "| any | length 0 | empty |": ["addresses in empty slots"],
    "linked already, and copied unchanged": ["linked segments in the host"],
    "| 1 | any other |": ["plain"],
    "| 3 | any other |": ["units in the host"],
    "also with a code that is invalid": ["linked segments in the host", "other kinds in libraries"],
    "to a unit for which the host has no slot": ["plain"],
    "that the procedure has no body here": ["procedures without a body"],
    "Tables may coincide or overlap": ["two procedures of one table"],
    "A unit may have no procedure": ["units without procedures", "an empty unit"],
    "Bytes after the end mark are ignored": ["old records after the end mark",
                                             "blocks between segments"],
    "Words that the table leaves blank": ["any words in records",
                                          "words and a name in the end mark"],
    "The rest is ignored": ["any words in records"],
    "The host may or may not have a slot": ["plain"],
    "but for word 0 of a variable of no words": ["variables of no words"],
    "one at the end mark may be of a variable of no words": ["public variables of no words"],
    "entries of other kinds may share bytes": ["entries of other kinds that share bytes"],
    "may be the names of two units": ["names that differ in bit 7",
                                      "names that differ in a byte inside",
                                      "names that differ in capitals of national letters"],
    "may be of any type": ["a library that is another program"],
    "The host's own segments may be in any slot": ["segments in any slots",
                                                   "linked segments in the host"],
    "In a library, a unit may be in any slot": ["segments in any slots",
                                                "units that were moved to other slots"],
    "so a code can be moved unchanged": ["plain"],
    "whatever number its table has": ["any numbers in tables"],
    "It does not check that t is even": ["tables at odd places"],
    "accepts procedures in any order": ["plain", "bytes between procedures"],
    "two of any value, then its number": ["units without procedures"],
    "**What is not checked**": ["all that is allowed at once, little-endian",
                                "all that is allowed at once, big-endian",
                                "any bytes as instructions", "any words in tables",
                                "bytes between procedures"],
    "A reference may point to any byte": ["any bytes as instructions"],
    "compares it with nothing": ["a high end mark"],
    "so a missing one may pass": ["zeros as the end mark of a unit"],
    "Several PUBLREF or UNITREF records": ["a record for each reference"],
    "needs no CONSTDEF": ["plain", "more than 31 definitions, and a block that is not cleared"],
    "A PUBLDEF or CONSTDEF in a unit is read and then ignored": ["definitions in units"],
    "A library needs no slot for a unit": ["plain"],
    "The host needs no slot for AUX": ["plain"],
    "may already contain the slot numbers": ["numbers of units in the code of the host"],
    "accepts UNITREF records in the host": ["UNITREF records in the host"],
    "a UNITREF without references": ["records without references"],
    "| dictionary | the text addresses": ["plain",
                                          "empty slots and wanted ones with half of an entry",
                                          "addresses in empty slots", "any text addresses"],
    "eight zero bytes are as good": ["empty slots and wanted ones with half of an entry"],
    "| code | the segment number": ["segment number 0", "blocks that are not cleared",
                                    "bytes between procedures"],
    "| operand of a UNITREF |": ["plain", "numbers in the operands of UNITREF"],
    "| UNITREF, PUBLREF | word C |": ["plain", "any words in records"],
    "| PUBLDEF, CONSTDEF |": ["plain", "any words in records", "definitions in units"],
    "| EOFMARK | the name": ["plain", "any words in records"],
    "| list | the words after": ["plain", "any words in records"],
    "| link information | what follows": ["plain", "old records after the end mark"],
    "A link does not read enter IC": ["any words in tables"],
    "may be 0 before the link": ["bit 7 of operands clear"],
    "what fills a block after its last byte": ["blocks that are not cleared"],
}
# Those that have such a word and allow nothing that a compiler writes.
OTHERS = {
    "A host of unknown order": "it has no host segment",
    "| 2, 4, 5 to 7, any other |": "of a host that is refused; of a library, `other kinds in "
                                   "libraries`",
    "A link accepts codes that overlap": "a compiler does not write it",
    "No operand of a reference may use them": "a prohibition",
    "and so are types above 14 and any other format": "a refusal",
    "accepts the samples": "of the samples",
    "so it needs no host": "of a command",
    "A link accepts each of these": "a compiler does not write it",
    "leads to the end mark or past it": "a compiler does not write it",
    "an end mark below half": "a compiler does not write it",
    "a unit that refers to a name, defines it itself": "a compiler does not write it",
    "an empty slot of the host with a name": "a compiler does not write it",
    "whose names differ in capitals A to Z": "a compiler does not write it",
    "is a note, which may be wrong": "of the notes",
    "may change other bytes without a fault": "an error",
    "Only native code can refer to a constant": "of native code",
    "### What may be 0": "a heading",
    "A link reads none of the following": "the rows below",
    "| Where | What |": "a heading",
    "which bytes no operand may use": "of the sources",
}


def sentences():
    """The sentences of FORMAT.md that allow something, and each row of a table or item of a list
    that such a sentence introduces."""
    introduced = False
    for line in PAGE.read_text().splitlines():
        is_row = line.startswith(("| ", "- "))
        parts = [line] if line.startswith("|") else re.split(r"(?<=[.:])\s+(?=[A-Z`*])", line)
        yield from (part for part in parts if introduced and is_row or re.search(ALLOWS, part))
        if line and not line.startswith(("|", "- ")):
            introduced = line.endswith(":") and bool(re.search(ALLOWS, parts[-1]))


def differences():
    """Each sentence that allows something and that no style tries, and each permission that is no
    sentence of the page."""
    said, names = list(sentences()), {style.name for style in STYLES}
    for sentence in said:
        cited = [words for words in (*PERMISSIONS, *OTHERS) if words in sentence]
        if not cited:
            yield f"FORMAT.md allows something that no style tries: {sentence}"
    for words in (*PERMISSIONS, *OTHERS):
        if (count := sum(words in sentence for sentence in said)) != 1:
            yield f"FORMAT.md has {count} sentences that allow something with the words: {words}"
    for words, tried in PERMISSIONS.items():
        yield from (f"no style is `{name}`, which tries: {words}"
                    for name in tried
                    if name not in names)
    tried = {name for names in PERMISSIONS.values() for name in names}
    yield from (f"no sentence of FORMAT.md asks for the style `{style.name}`"
                for style in allowed()
                if style.name not in tried)
