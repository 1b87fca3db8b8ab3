#!/usr/bin/env python3
"""Writes the sample files from the descriptions at the end of this file. docs/FORMAT.md says what
each part means.
Usage: make_samples.py [FOLDER]. Without FOLDER it writes to the folder of this script and, where
that is the folder of the repository, updates the files of ELSEWHERE too.

For files of your own copy this script and change the descriptions. An instruction is a text: its
name and its operands, as 'LDCI 1000' or 'CXP 7 1'. An operand that the Linker fills in has a name
and may have a displacement: 'LAO COUNT', 'SRO STATE+2', 'CXP AUX 1'. Its reference and its record
are made of that: a name in place of a segment is a UNITREF, one of the segment's own variables a
PRIVREF, and any other a PUBLREF. A mistake in a description is a sentence."""
import dataclasses
import pathlib
import re
import sys

LINKED, HOSTSEG, SEGPROC, UNITSEG, SEPRTSEG = range(5)
BLOCK, SLOTS, LARGEST_CODE = 512, 16, 32767
WANTED = None  # the code of a unit that a library must supply
UNITREF, PUBLREF, PRIVREF = 1, 3, 4


class Mistake(SystemExit):
    """What is wrong in a description. The script ends with this sentence."""


def number_in(text, least, most, what):
    if not re.fullmatch(r"-?\d+", text) or not least <= int(text) <= most:
        raise Mistake(f"{what} is a number from {least} to {most}, and not '{text}'")
    return int(text)


# P-code. A linker reads only the operands to which a reference points -----------------------------
# The names of instructions, what they do, and the lex levels below do not come from the sources of
# this project: docs/FORMAT.md and docs/PCODE.md mark them (unsourced).

# By form of the operands the instructions, each with its opcode
TABLE = {
    "": "ABI 80 ABR 81 ADI 82 ADR 83 LAND 84 DIF 85 DVI 86 DVR 87 CHK 88 FLO 89 FLT 8A INN 8B INT "
    "8C LOR 8D MODI 8E MPI 8F MPR 90 NGI 91 "
    "NGR 92 LNOT 93 SRS 94 SBI 95 SBR 96 SGS 97 SQI 98 SQR 99 STO 9A IXS 9B UNI 9C LDCN 9F LDP BA "
    "STP BB LDB BE STB BF EQUI C3 GEQI C4 "
    "GRTI C5 LEQI C8 LESI C9 NEQI CB XIT D6 NOP D7",
    "byte": "CSP 9E ADJ A0 FJP A1 SAS AA RNP AD CIP AE UJP B9 LDM BC STM BD RBP C1 CBP C2 CLP CE "
    "CGP CF EFJ D3 NFJ D4",
    "byte byte": "IXP C0",
    "word": "LDCI C7",
    "big": "INC A2 IND A3 IXA A4 LAO A5 MOV A8 LDO A9 SRO AB LLA C6 LDL CA STL CC BPT D5",
    "byte big": "LDA B2 LOD B6 STR B8",
    "segment big": "LDE 9D LAE A7 STE D1",
    "segment byte": "CXP CD",
    "type": "EQU AF GEQ B0 GRT B1 LEQ B4 LES B5 NEQ B7",
    "text": "LCA A6 LPA D0",
    "words": "LDC B3",
    "case": "XJP AC",
}
# What earlier releases have under six of the opcodes: for these, INSTRUCTIONS.update(rows(EARLIER))
EARLIER = {"": "S2P 9D S1P D0 IXB D1 BYT D2", "big": "LDO A7 MVB A9"}
# Instructions with the operand in the opcode: the first opcode, and the least and the largest
# operand
SHORT = {"SLDC": (0x00, 0, 127), "SLDL": (0xD8, 1, 16), "SLDO": (0xE8, 1, 16), "SIND": (0xF8, 0, 7)}
FORMS = {"word": "one word", "case": "two indices, a distance, and a word for each index",
         "type": "a type, and of arrays a length", "byte": "one byte", "byte byte": "two bytes",
         "big": "one number or name", "byte big": "a byte, and a number or a name",
         "segment byte": "a segment and a procedure",
         "segment big": "a segment, and a number or a name"}
# of the two last a length follows
TYPES = {"REAL": 2, "STRING": 4, "BOOLEAN": 6, "SET": 8, "BYTES": 10, "WORDS": 12}


def rows(table):
    """By name the form of the operands and the opcode."""
    words = {form: text.split() for form, text in table.items()}
    return {name: (form, int(code, 16)) for form, text in words.items() for name, code in zip(
                text[::2], text[1::2])}


INSTRUCTIONS = rows(TABLE)


@dataclasses.dataclass
class Code:
    """Bytes of a segment so far, and what the Linker has to fill in: the type of the record, its
    name, and the place."""

    word: object
    privates: dict
    bytes: bytearray = dataclasses.field(default_factory=bytearray)
    fixes: list = dataclasses.field(default_factory=list)

    def byte(self, text, what="an operand of one byte"):
        self.bytes.append(number_in(text, 0, 255, what))

    def segment(self, text):
        if re.match(r"\d", text):
            return self.byte(text, "a segment")
        self.fixes.append((UNITREF, text, len(self.bytes)))
        self.bytes.append(0)

    def big(self, text, is_long=False):
        """One byte for a number below 128, and two for a larger one and for a name."""
        name, _, displacement = text.rpartition("+")
        if re.match(r"-?\d", text):
            number = number_in(text, 0, 32767, "an operand")
        else:
            name, is_long = name or text, True
            number = number_in(
                displacement, 0, 32767, f"the displacement of {name}") if "+" in text else 0
            self.fixes.append(
                (PRIVREF if name in self.privates else PUBLREF, name, len(self.bytes)))
        self.bytes += bytes(
            [128 + number // 256, number % 256]) if is_long or number > 127 else bytes([number])

    def words(self, *texts):
        """Words at an even place."""
        self.bytes += bytes(len(self.bytes) % 2)
        for text in texts:
            self.bytes += self.word(number_in(text, -32768, 65535, "a word") % 65536)


def operands_of(code, form, operands, text):
    """Adds the operands of an instruction of this form."""
    if form == "text":
        inside = re.fullmatch(r"\S+ '(.{0,255})'", text)
        if not inside:
            raise Mistake("a text of up to 255 characters stands between two marks '")
        code.bytes += bytes([len(inside[1])]) + inside[1].encode()
    elif form == "words":
        code.byte(str(len(operands)), "the number of words")
        code.words(*operands)
    elif form == "case" and len(operands) > 3:
        code.words(*operands[:2])
        code.bytes += bytes([INSTRUCTIONS["UJP"][1], number_in(operands[2], 0, 255, "a distance")])
        code.words(*operands[3:])
    elif form == "type" and operands:
        kind = TYPES.get(operands[0]) or number_in(
            operands[0], 0, 255, f"a type is one of {', '.join(TYPES)}, or it")
        code.bytes.append(kind)
        if len(operands) != 1 + (kind in (10, 12)):
            raise Mistake("arrays have a length after their type, and other types have none")
        for length in operands[1:]:
            code.big(length)
    elif form == "word" and len(operands) == 1:
        code.bytes += number_in(operands[0], -32768, 65535, "a word").to_bytes(
            3, "little", signed=True)[:2]
    elif form == "big" and operands[:1] == ["BIG"] and len(operands) == 2:
        code.big(operands[1], True)
    elif form in ("case", "type", "word") or len(operands) != len(form.split()):
        raise Mistake(f"its operands are {FORMS.get(form, form) or 'none'}")
    else:
        for part, operand in zip(form.split(), operands):
            getattr(code, part)(operand)


def add_instruction(code, text):
    """Adds 'LAO COUNT+2', 'LAO BIG 2' for a number in two bytes, 'CXP 7 1', "LCA 'TEXT'", 'XJP 1 2
    DISTANCE WORD WORD', or any bytes: 'BYTES A5 80 02'."""
    name, *operands = text.split() or [""]
    if name == "BYTES":
        if not re.fullmatch(r"(?:[0-9A-Fa-f]{2})+", "".join(operands)):
            raise Mistake("bytes are pairs of hexadecimal digits")
        code.bytes += bytes.fromhex("".join(operands))
        return
    if name in SHORT and len(operands) == 1:
        first, least, most = SHORT[name]
        code.bytes.append(
            first + number_in(operands[0], least, most, f"the operand of {name}") - least)
        return
    if name not in INSTRUCTIONS:
        raise Mistake(
            "there is no such instruction" if name not in SHORT else "its operand is one number")
    form, opcode = INSTRUCTIONS[name]
    code.bytes.append(opcode)
    operands_of(code, form, operands, text)


@dataclasses.dataclass
class Procedure:
    """Its instructions, of which the last is the exit; sizes in bytes."""

    number: int
    code: list
    parameters: int = 0
    data: int = 0
    lex_level: int = 0


def add_procedure(code, procedure):
    """Adds the instructions, padded to an even offset, and the table; gives the table's offset."""
    start = leave = len(code.bytes)
    for text in procedure.code:
        leave = len(code.bytes)
        try:
            add_instruction(code, text)
        except Mistake as mistake:
            raise Mistake(f"procedure {procedure.number}, '{text}': {mistake}")
    code.words(*map(str, (procedure.data, procedure.parameters)))
    for place in (leave, start):  # exit IC and enter IC
        code.words(str(len(code.bytes) - place))
    code.byte(str(procedure.number), "the number of a procedure")
    code.byte(str(procedure.lex_level), "a lex level")
    return len(code.bytes) - 2


def segment_code(number, segment, word):
    """The procedures in order, then the procedure dictionary, the segment number and the number of
    procedures."""
    code, tables = Code(word, segment.privates), {}
    for procedure in segment.procedures:
        if procedure.number in tables or not 1 <= procedure.number <= 255:
            raise Mistake(
                "the numbers of procedures are from 1 to 255 and each another, and "
                f"{procedure.number} is not")
        tables[procedure.number] = add_procedure(code, procedure)
    if segment.kind == HOSTSEG and 1 not in tables:
        raise Mistake("a program has a procedure 1, its outer block")
    if not tables:
        code.bytes += bytes(2)  # (a code has four bytes at least)
    for n in range(max(tables, default=0), 0, -1):
        code.words(str(len(code.bytes) - tables[n] if n in tables else 0))
    code.bytes += bytes([number, max(tables, default=0)])
    if len(code.bytes) > LARGEST_CODE:
        raise Mistake(
            f"the code has {len(code.bytes)} bytes, and at most {LARGEST_CODE} are possible")
    return code


# Link information ---------------------------------------------------------------------------------


def record(name, kind, *words):
    return name, [kind, *words, 0, 0, 0][:4], []


def references(name, kind, form, places, words=0):
    return name, [kind, form, len(places), words], places


def eof_mark(next_offset):
    return record("", 0, next_offset)


def unit_ref(name, places):
    return references(name, 1, 1, places)


def publ_ref(name, places):
    return references(name, 3, 2, places)


def priv_ref(name, words, places):
    return references(name, 4, 2, places, words)


def publ_def(name, value):
    return record(name, 7, value)


def const_def(name, value):
    return record(name, 8, value)


def padded_name(name):
    if len(name.encode()) > 8:
        raise Mistake(f"a name has at most eight characters, and '{name}' has {len(name)}")
    return name.encode().ljust(8)


def records_of(segment, fixes):
    """The definitions of a segment, a record for each name that its code has and for each variable
    of its own, and its end mark."""
    found = {}
    for type, name, place in fixes:
        found.setdefault((type, name), []).append(place)
    for name in segment.privates:
        found.setdefault((PRIVREF, name), [])
    makers = {UNITREF: unit_ref, PUBLREF: publ_ref,
              PRIVREF: lambda name, places: priv_ref(name, segment.privates[name], places)}
    made = [makers[type](name, places) for (type, name), places in found.items()]
    links = segment.links if segment.links is not None or segment.kind != UNITSEG else [eof_mark(0)]
    if not made:
        return links or []
    if not links or links[-1][1][0] != 0:
        raise Mistake("its link information has no end mark at its end")
    return [*links[:-1], *made, links[-1]]


def record_bytes(one, word):
    name, words, places = one
    return padded_name(name) + b"".join(map(word, words)) + whole(b"".join(map(word, places)), 16)


# Code files ---------------------------------------------------------------------------------------


@dataclasses.dataclass
class Segment:
    """A name, a kind, the procedures and the link information: definitions and the end mark, to
    which the records of the names in the code are added. A unit without definitions needs none.
    `privates` has the words of each variable of its own, by name. The number in the code is that of
    the slot."""

    name: str
    kind: int
    procedures: list = None
    links: list = None
    privates: dict = dataclasses.field(default_factory=dict)


def whole(part, size):
    """Padded with zeros to a multiple of `size`."""
    return part + bytes(-len(part) % size)


def code_file(slots, order="little", tail=None):
    """The file with these segments, by slot; `tail` has bytes of the dictionary's second half, by
    offset."""

    def word(value):
        if not 0 <= value <= 65535:
            raise Mistake(f"a word is from 0 to 65535, and not {value}")
        return value.to_bytes(2, order)

    for slot in slots:
        if slot not in range(SLOTS):
            raise Mistake(
                f"make_samples.py: a file has the slots 0 to {SLOTS - 1}, and no slot {slot}")
    pairs, names, kinds, blocks = [], [], [], b""
    for slot in range(SLOTS):
        segment = slots.get(slot, Segment("", LINKED))
        try:
            place, made = segment_in_file(slot, segment, 1 + len(blocks) // BLOCK, word)
            pairs += map(word, place)
            names.append(padded_name(segment.name))
            kinds.append(word(segment.kind))
        except Mistake as mistake:
            raise Mistake(f"make_samples.py: slot {slot}, {segment.name}: {mistake}")
        blocks += made
    dictionary = bytearray(whole(b"".join(pairs + names + kinds), BLOCK))
    for place, value in (tail or {}).items():
        dictionary[place] = value
    return bytes(dictionary) + blocks


def segment_in_file(slot, segment, block, word):
    """The address and the length of a segment that begins in this block, and its blocks."""
    if segment.procedures is WANTED:
        return (0, 0), b""
    code = segment_code(slot, segment, word)
    records = b"".join(record_bytes(one, word) for one in records_of(segment, code.fixes))
    return (block, len(code.bytes)), whole(bytes(code.bytes), BLOCK) + whole(records, BLOCK)


# The samples --------------------------------------------------------------------------------------

# A program of five words of data, after two of parameters: base offsets 3 to 7, so 8 is free next.
PROGRAM = [Procedure(1, ["NOP", "NOP", "RBP 0"], parameters=4, data=10)]
PROGRAM_LINKS = [publ_def("COUNT", 3), eof_mark(8)]
DEMO = Segment("DEMO", HOSTSEG, PROGRAM, PROGRAM_LINKS)

# A unit's procedure: COUNT of the program at byte 1, and the third word of STATE, its own, at byte
# 4.
UNIT_OF_NAMES = [Procedure(1, ["LAO COUNT", "SRO STATE+2", "NOP", "NOP", "RNP 0"])]
STATE = {"STATE": 4}

HOST = {1: DEMO, 7: Segment("UTIL", UNITSEG, WANTED)}
LIBRARY = {2: Segment("UTIL", UNITSEG, UNIT_OF_NAMES, privates=STATE)}
TAIL = {300: 0x2A}

# A program of three procedures, of which the second has one local word and the third a parameter.
PROCEDURES = [
    Procedure(2, ["SLDC 5", "STL 1", "RNP 0"], data=2, lex_level=1),
    Procedure(3, ["CGP 2", "RNP 0"], parameters=2, lex_level=1),
    Procedure(1, ["CLP 2", "SLDC 1", "CLP 3", "RBP 0"], parameters=4, data=10),
]

# A unit that refers to nine words from COUNT on: a list of nine references takes two pieces.
NINE = [Procedure(
    1, ["LAO COUNT", *(f"LAO COUNT+{displacement}" for displacement in range(1, 9)), "RNP 0"])]

SAMPLES = {
    # a host that wants UTIL, and a library that has it
    "host.code": code_file(HOST, tail=TAIL),
    "library.code": code_file(LIBRARY),
    # the same for a big-endian machine
    "big_host.code": code_file(HOST, "big", TAIL),
    "big_library.code": code_file(LIBRARY, "big"),
    # a UTIL that calls procedure 1 of AUX, for which the host has no slot, and the library of AUX
    "using.code": code_file({2: Segment("UTIL", UNITSEG, [Procedure(1, ["CXP AUX 1", "RNP 0"])])}),
    "used.code": code_file({3: Segment("AUX", UNITSEG, UNIT_OF_NAMES, privates=STATE)}),
    # a host with two units in it, of which AUX calls procedure 1 of UTIL. Each has its own STATE
    "two_units.code": code_file({
        1: DEMO,
        7: Segment(
            "UTIL", UNITSEG, [Procedure(1, ["LAO COUNT", "SRO STATE", "RNP 0"])], privates=STATE),
        8: Segment(
            "AUX", UNITSEG, [Procedure(1, ["CXP UTIL 1", "LAO STATE+1", "RNP 0"])],
            privates={"STATE": 2}),
    }),
    # a host with a constant, and with a unit of nine references
    "nine.code": code_file({
        1: Segment(
            "DEMO", HOSTSEG, PROGRAM,
            [publ_def("COUNT", 3), const_def("LIMIT", 100), eof_mark(12)]),
        7: Segment("UTIL", UNITSEG, NINE),
    }),
    # a host with several procedures, and a segment that is linked already
    "procedures.code": code_file({
        1: Segment("DEMO", HOSTSEG, PROCEDURES, PROGRAM_LINKS),
        7: Segment("UTIL", UNITSEG, WANTED),
        9: Segment("TOOLS", LINKED, [Procedure(1, ["NOP", "RNP 0"], lex_level=1)]),
    }),
}

# A volume -----------------------------------------------------------------------------------------
DIRECTORY, AFTER_DIRECTORY, CODE = 2, 6, 2


def volume(name, blocks, files):
    """The image of a little-endian volume with these code files, by name, one after another.
    docs/VOLUMES.md has the directory."""

    def words(*values):
        return b"".join(value.to_bytes(2, "little") for value in values)

    def named(text):
        return bytes([len(text)]) + text.encode()

    directory = (words(0, AFTER_DIRECTORY, 0) + named(name).ljust(8, b"\0")
                 + words(blocks, len(files))).ljust(26, b"\0")
    contents = b""
    for title, file in files.items():
        first, last = AFTER_DIRECTORY + len(contents) // BLOCK, len(file) % BLOCK or BLOCK
        contents += whole(file, BLOCK)
        directory += words(first, AFTER_DIRECTORY + len(contents) // BLOCK, CODE) + named(
            title).ljust(16, b"\0") + words(last, 0)
    return (bytes(DIRECTORY * BLOCK) + directory.ljust((AFTER_DIRECTORY - DIRECTORY) * BLOCK, b"\0")
            + contents).ljust(blocks * BLOCK, b"\0")


VOLUMES = {"disk.po": volume(
    "DISK", 280, {"HOST.CODE": SAMPLES["host.code"], "LIBRARY.CODE": SAMPLES["library.code"]})}

# Files elsewhere in the repository: the host with UTIL in it, with which the tests run the program.
UNIT = [Procedure(1, ["LAO BIG 0", "SRO BIG 2", "NOP", "NOP", "RNP 0"])]
ELSEWHERE = {"crates/ps_linker/data/host.code": code_file(
    {1: DEMO, 7: Segment("UTIL", UNITSEG, UNIT, [publ_ref("COUNT", [1]), eof_mark(0)])}, tail=TAIL
)}


def main():
    here = pathlib.Path(__file__).resolve().parent
    folder = pathlib.Path(sys.argv[1]) if len(sys.argv) > 1 else here
    folder.mkdir(parents=True, exist_ok=True)
    for name, file in [*SAMPLES.items(), *VOLUMES.items()]:
        (folder / name).write_bytes(file)
    if folder == here:
        for name, file in ELSEWHERE.items():
            path = here.parent / name
            if path.parent.is_dir():
                path.write_bytes(file)


if __name__ == "__main__":
    try:
        main()
    except OSError as error:
        sys.exit(f"make_samples.py: {error}")
