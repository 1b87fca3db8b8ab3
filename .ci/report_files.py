"""Files for `check` of one kind and another, and the words that a report has for several of them.
For reported_faults.py, reported.py and who checks the same files."""
import pathlib
import random
import re
import sys

ROOT = pathlib.Path(__file__).resolve().parent.parent
sys.path[:0] = [str(ROOT / "vectors")]
import linker
from descriptions import model as m
from descriptions.links import code_of, program, wanting
from damaged_files import changed, of_later_release, swapped, volume

SAMPLES = {path.name: path.read_bytes() for path in (ROOT / "samples").glob("*.code")}
HOST, LIBRARY, USING, USED = (SAMPLES[name]
                              for name in ("host.code", "library.code", "using.code", "used.code"))
BIG_HOST, BIG_LIBRARY = (SAMPLES[f"big_{name}.code"] for name in ("host", "library"))
HOSTS, LIBRARIES = {"little": HOST, "big": BIG_HOST}, {"little": LIBRARY, "big": BIG_LIBRARY}

CODE, LINKS = 512, 1024  # where the one code of each sample and its link information begin
NOP, RETURN = "D7", "AD 00"  # instructions
COUNT, STATE, END = m.publ_ref("COUNT", [1]), m.priv_ref("STATE", 4, [4]), m.eof_mark(0)
# the program and the unit of the sample pair
PROGRAM, PROGRAM_LINKS = program().procedures, program().records
UNIT, UNIT_LINKS = code_of("A5 80 00", "AB 80 02", NOP * 2), [COUNT, STATE, END]
# a unit that calls procedure 1 of another
CALLING = code_of("CD 00 01")


def word(value):
    return value.to_bytes(2, "little")


def entry(slot, name, kind, address, length):
    """The changes that give a slot this entry."""
    return [
        (4 * slot, word(address) + word(length)),
        (64 + 8 * slot, m.name_bytes(name)),
        (192 + 2 * slot, word(kind)),
    ]


def slot_of(file, slot):
    """This slot of a little-endian file, as it is read."""
    return linker.CodeFile(file, 0, "little").slots[slot]


def code_file(slots, order="little"):
    return m.written(m.File(slots, order))


def unit_named(name, links=UNIT_LINKS, procedures=UNIT):
    return m.Segment(name, m.UNITSEG, procedures, links)


def tools(procedures):
    """A linked segment."""
    return m.Segment("TOOLS", m.LINKED, procedures)


def host_with(links, procedures=PROGRAM):
    return code_file(wanting("UTIL", host=m.Segment("DEMO", m.HOSTSEG, procedures, links)))


def host_and(slots):
    """The sample host with more slots."""
    return code_file(wanting("UTIL") | slots)


def unit_with(links, procedures=UNIT, slot=2):
    return code_file({slot: unit_named("UTIL", links, procedures)})


def library_and(slots):
    """The sample library with more slots."""
    return code_file({2: unit_named("UTIL"), **slots})


def text_library():
    """A library with the text of its unit's interface, whose lines end with 0D alone."""
    text = b"UNIT UTIL;\rINTERFACE\r" * 12
    return changed(LIBRARY + bytes(1024), (224 + 2 * 2, word(len(LIBRARY) // m.BLOCK)),
                   (len(LIBRARY), text))


def short_text():
    """A library with a text, whose unit has many bytes 0D in its code and ends the file inside a
    block."""
    file = code_file({2: unit_named("OTHER", [], code_of("0D" * 40))})
    return changed(file[: m.BLOCK + slot_of(file, 2).length], (224 + 2 * 2, word(1)))


def native_host():
    """A host of which a block of code was not read, with the table of procedure 2 in it."""
    long = [m.Procedure([NOP * 600, RETURN], number) for number in (2, 3)]
    return changed(host_with(PROGRAM_LINKS, [*long, *PROGRAM]), (1024, bytes(512)))


def full_host():
    """A host that wants UTIL, and whose other slots from 8 to 15 are filled."""
    return host_and({slot: tools(code_of(NOP)) for slot in range(8, 16)})


def short_unit(code):
    """A library whose unit has these bytes of code."""
    return changed(unit_with([END]), (4 * 2 + 2, word(len(code))), (CODE, code + bytes(24)))


def dead_unit():
    """A library whose unit has 1058 bytes of code, of which those from 512 on before 1024 are
    E5."""
    return changed(unit_with([END], code_of(NOP * 1042)), (CODE + 512, b"\xe5" * 512))


def exchanged(file, one, other):
    """The file with the addresses and lengths of two entries exchanged."""
    return changed(file, (4 * one, file[4 * other : 4 * other + 4]),
                   (4 * other, file[4 * one : 4 * one + 4]))


def linked_segment(procedures, *changes):
    """A host with a linked segment in slot 9, with other bytes from some places of its code on."""
    file = host_and({9: tools(procedures)})
    return changed(file,
                   *((m.BLOCK * slot_of(file, 9).address + place, new) for place, new in changes))


def with_native(end, level=0):
    """A host with a linked segment of two procedures. The table of the second, from byte 412 of its
    code on, says that it is native, and has the lex level; the bytes from 128 on before the end are
    zeros."""
    long = [m.Procedure([NOP * 100, RETURN]), m.Procedure([NOP * 290, RETURN], 2)]
    return linked_segment(long, (128, bytes(end - 128)), (412, bytes([0, level])))


def beside_native():
    """A library with UTIL, and in slot 5 an assembled entry with two sectors of zeros in its code.
    Its table is at byte 410."""
    file = library_and({5: m.Segment("NATIVE", m.LINKED, code_of(NOP * 400))})
    place = m.BLOCK * slot_of(file, 5).address
    return changed(file, (192 + 2 * 5, b"\4"), (place + 128, bytes(256)), (place + 410, b"\0"))


OWN = m.publ_ref("OWN", [1]), m.publ_def("OWN", 1)


def counted(many, how, led):
    """The note of a unit of so many references, all of which lead to operands if they are counted
    so."""
    return (f"note: LIB1, segment UTIL: {many} of its {many} references lead to operands if they "
            f"are counted {how}, and {led} as pslink counts them: "
            "its compiler may count otherwise; see WARNINGS in pslink(1)")


def past_mark(place, words, value=3, following=8, record=0):
    """The warning of an operand of COUNT in the unit."""
    return (f"warning: LIB1, segment UTIL, record {record}: the operand at byte {place} is word "
            f"{words} of COUNT at base offset {value}, and the end mark says that {following} is "
            "free")


def seven_bits():
    """A unit of 146 bytes without bit 7 of each byte: its length is 18."""
    procedures = [m.Procedure([NOP, RETURN]), m.Procedure([NOP * 114, RETURN], 2)]
    return bytes(byte & 127 for byte in unit_with([END], procedures))


SEVEN = seven_bits()
LONG = code_of(NOP * 80)
TWO = [m.Procedure([NOP, RETURN]), m.Procedure([NOP, RETURN], 2)]
# instructions of which no 64 bytes are those of another place, and the same that come again and
# again
MIXED = bytes(random.Random(39).choices(range(128), k=1500))
AGAIN = MIXED[:128] * 6
AUX_UNIT, OTHER_UNIT = (unit_named(name) for name in ("AUX", "OTHER"))
AUX_FILE = code_file({3: AUX_UNIT})
TOOL = LIBRARY.replace(b"UTIL", b"TOOL")
# a host that wants two units of four private words each, and a library that has both
TWO_WANTED = host_and({8: m.Segment("AUX")})
TWO_UNITS = library_and({3: AUX_UNIT})
# the sample pair as it is linked, as far as a dictionary and codes say
LINKED = code_file({1: m.Segment("DEMO", m.LINKED, PROGRAM), 7: m.Segment("UTIL", m.LINKED, UNIT)})
# a unit that requests a unit without a name, and a library that has both
BLANK_LIBRARY = code_file({2: unit_named("UTIL", [m.unit_ref("", [1]), END], CALLING),
                           3: unit_named("")})


def fitting(count):
    """Procedures from 1 on whose instructions fit."""
    return [m.Procedure([NOP, RETURN], number) for number in range(1, 1 + count)]


def of_bytes(number, digits):
    """A procedure of these bytes, in hexadecimal digits, and a return."""
    return m.Procedure([digits, RETURN], number)


def long_fitting(count):
    """Procedures from 1 on that are long, and whose instructions fit."""
    return [m.Procedure([NOP * 59, RETURN], number) for number in range(1, 1 + count)]


def ordered_pair(order, procedures, links=None):
    """The host of a byte order, and a library with these procedures."""
    library = code_file({2: unit_named("UTIL", links or [END], procedures)}, order)
    return HOSTS[order], [library]


# A code of four operands, at bytes 1, 4, 7 and 10.
ZEROS = "A5 80 00 AB 80 00 A5 80 00 AB 80 00"
# A code that refers to COUNT twice, at bytes 1 and 5, and another with large operands.
TWICE, LARGE = "A5 80 00 D7 AB 80 00", "A5 80 04 D7 AB 80 80"


def referring(digits, *links, order="little"):
    """The host, and a library whose first procedure has these bytes and whose eight others are
    long."""
    return ordered_pair(order, [of_bytes(1, digits), *long_fitting(9)[1:]], [*links, END])


def with_units_in_place(order, kind):
    """A host with two units in place, the second of this kind."""
    links = [m.unit_ref("UTIL", [1]), m.priv_ref("STATE", 2, [4]), END]
    aux = m.Segment("AUX", kind, code_of("CD 00 01", "A5 80 01"), links)
    return code_file({1: program(),
                      7: unit_named("UTIL", UNIT_LINKS, code_of("A5 80 00", "AB 80 00")), 8: aux},
                     order)


def beside_four(code, slot=2, order="little"):
    """A library with UTIL in a slot, whose code ends with these bytes, and OTHER, whose four
    procedures fit."""
    pair = {slot: unit_named("UTIL", [END], code_of(NOP)),
            5: unit_named("OTHER", [END], fitting(4))}
    place = 4 * slot + (2 if order == "little" else 3)
    return changed(code_file(pair, order), (place, bytes([len(code)])), (CODE, code))


def lost_quiet():
    """References of P-code, names and tails of dictionaries of which nothing is found, as in
    quiet()."""
    count, state = (lambda *places: m.publ_ref("COUNT", places),
                    lambda *places: m.priv_ref("STATE", 4, places))
    aux = lambda pair: (pair[0], [*pair[1], USED])
    # comments of 80 characters at 256, 296 and 432, in letters above 127 too, tabs, and what is
    # before 336 and from 432 on
    for at in (256, 296, 432):
        yield changed(HOST, (at, b"(C) THE AUTHOR OF THE PROGRAM" + b" " * 51)), [LIBRARY]
        yield changed(BIG_HOST, (at, b"\xc4\xcf\xcd" * 26 + b"..")), [BIG_LIBRARY]
    yield changed(HOST, (336, b"A" * 40)), [LIBRARY]
    yield changed(HOST, (350, b"\1" * 15 + b"\t\n" * 10)), [LIBRARY]
    yield changed(HOST, (256, b"\x21" * 80), (432, b"\1" * 80)), [LIBRARY]
    for name in (b"D MO", b"DEM:", b"DEM ", b"D_90", b"AZMO", b"DEMODEMO"):
        yield changed(HOST, (72, name)), [LIBRARY]
    for order in ("little", "big"):
        yield referring(TWICE, count(1, 5), order=order)
        yield with_units_in_place(order, m.UNITSEG), []
        yield HOSTS[order], [beside_four(bytes([0xD7, 0xD7, 2, 0]), order=order)]
    yield referring("A9 80 00 AB 80 00", count(1), state(4))
    # a reference to a unit on a constant, and references of files that show no P-code
    yield aux(referring("05 D7 AB 03", m.unit_ref("AUX", [0])))
    yield referring(LARGE, count(1))
    yield HOST, [unit_with([END], [of_bytes(1, TWICE), *fitting(4)[1:]])]
    yield host_with(PROGRAM_LINKS, [of_bytes(2, TWICE), *PROGRAM]), [
        unit_with([END], long_fitting(4))]


def stripped(count):
    """A host with a linked segment of so many bytes and 16, none of them above 127."""
    file = host_and({9: tools(code_of(NOP * count))})
    start = m.BLOCK * slot_of(file, 9).address
    return changed(file, (start, bytes(byte & 127 for byte in file[start:])))


# a unit of the other byte order whose bytes are exchanged, but for its name
EXCHANGED = swapped(unit_with(UNIT_LINKS, slot=1)).replace(b"TULI", b"UTIL")


LATER_HOST, DISK = of_later_release(HOST), volume(HOST + LIBRARY)


def small(file):
    """The file with the names of the sample pair in small letters."""
    return re.sub(b"DEMO|UTIL|COUNT|STATE", lambda found: found[0].lower(), file)


def native(name, kind=9, *words):
    """A record that is not linked, EXTPROC if no other type is given."""
    return m.Record(name, kind, [2, *words])


def not_linked(*records, path="LIB1", segment="UTIL"):
    """The lines of records that are not linked: the index of each, and what it is."""
    return [f"not linked: {path}, segment {segment}, record {index}: {what}"
            for index, what in records]


# the words for the types of records that are not linked, by their numbers: FORMAT.md, Link
# information
NOT_LINKED = {2: "GLOBREF", 5: "CONSTREF", 6: "GLOBDEF", 9: "EXTPROC", 10: "EXTFUNC", 11: "SEPPROC",
              12: "SEPFUNC", 13: "SEPPREF", 14: "SEPFREF"}
# what the compiler leaves to the library of the p-System, by the names of its routines
LEFT_TO_LIBRARY = {"FSEEK": "SEEK",
                   **dict.fromkeys(("FREADREA", "FWRITERE"),
                                   "the reading and writing of real numbers"),
                   **dict.fromkeys(("FREADDEC", "FWRITEDE", "DECOPS"), "long integers")}
NATIVE_HOST = host_with([m.publ_def("COUNT", 3), native("FWRITERE"), m.eof_mark(8)])
LATER_NATIVE_HOST = of_later_release(NATIVE_HOST)


def in_other_order(file):
    """The file with its sectors of 128 bytes in another order: of each two blocks the second and
    the fourth are exchanged, and so are the fifth and the sixth."""
    file += bytes(-len(file) % 1024)
    order = [0, 3, 2, 1, 5, 4, 6, 7]
    return b"".join(file[start + 128 * k : start + 128 * (k + 1)]
                    for start in range(0, len(file), 1024)
                    for k in order)


# the last sector of a library's first block of link information, read twice, and the note of it
TWICE_READ = (1152, LIBRARY[1024:1152])
READ_TWICE = ("note: LIB1: bytes 1024 to 1151 are there twice, one after the other: they may have "
              "been read twice")


# what is found of the host whose sectors are in that order
LOST_CODE = [
    "note: HOST, segment DEMO: each byte of its code is 00: it may never have been written",
    "warning: HOST: slot 07 has the name UTIL, kind 0 and no code: no segment is linked there",
]

UTIL, DEMO = "  segment UTIL, of slot 07 of the host", "  segment DEMO, of slot 01 of the host"
AUX = "  segment AUX, of slot 08 of the host"
again = lambda path: (f"  Copy {path} again, as binary, or compile it again. Damage is in DAMAGED "
                      "FILES of pslink(1).")
LEFT = "bytes of the file are left for it"
give = lambda name: f"  Give a library that has {name}, after HOST."
WANTED = ["  No library has the unit that the slot wants.", give("UTIL")]
REQUESTED = ["  No library has the unit that the UNITREF in this record requests.", give("AUX")]
whole = lambda advice: ("  Copy LIB1 again, as binary, or compile it again. If it is whole, "
                        f"{advice}")
COUNTED = ("  The compiler of LIB1 may count its references otherwise, as the note says. pslink "
           "links no such file.")
SMALLER = whole("make the host program's data before this variable smaller.")
NO_CODE = ["  The host is no code file of release II.0, so nothing is said of its segments."]
LATER = "a code file of segments of version 3, which is not supported"
COMPILE = ("  Compile the program of HOST by a compiler of release II.0, and give the code file "
           "that it makes.")
NOT_READ = ["  The code is damaged: a part of it was not read, or never written.",
            "  Copy HOST again, as binary."]


def with_run(start, end, byte, links=None):
    unit = unit_with(links or [END], code_of(NOP * 1030))
    return changed(unit, (CODE + start, bytes([byte]) * (end - start)))
