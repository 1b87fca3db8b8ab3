"""Files for `check`, with what a report says of them: for each finding and each thing that is given
in place of a code file, and files of which nothing is found. For .ci/report."""
import base64
import bz2
import gzip
import io
import lzma
import zipfile
import zlib

from report_files import (
    AGAIN, AUX_FILE, AUX_UNIT, BIG_HOST, BIG_LIBRARY, CALLING, CODE, COUNT, DISK, END, HOST, HOSTS,
    LIBRARIES, LIBRARY, LINKED, LINKS, LONG, MIXED, NOP, OTHER_UNIT, OWN, SAMPLES, STATE, TWICE,
    TWO, UNIT_LINKS, USED, USING, ZEROS, again, beside_four, beside_native, code_file, counted,
    entry, exchanged, fitting, full_host, host_and, host_with, library_and, linked_segment,
    long_fitting, lost_quiet, of_bytes, past_mark, short_text, short_unit, slot_of, small, stripped,
    text_library, tools, unit_named, unit_with, with_native, with_run, word,
)
from descriptions import model as m
from descriptions.links import code_of
from damaged_files import changed, hex_dump, macbinary, swapped, uuencoded, volume


def text_of(lines, end=b"\n"):
    return (end.join([b"PROGRAM DEMO;", b"USES UTIL;", b"BEGIN", b"  COUNT := 1", b"END."] * lines)
            + end)


def zipped(file):
    """A zip file that has it."""
    with io.BytesIO() as room:
        with zipfile.ZipFile(room, "w") as archive:
            archive.writestr(zipfile.ZipInfo("DEMO.CODE"), file)
        return room.getvalue()


def apple(number, file):
    return (bytes.fromhex("000516") + bytes([number]) + bytes.fromhex("00020000")
            + b"Mac OS X        " + bytes(88) + file)


def dump(file):
    return b"".join(b"%08x: %s\n" % (at, file[at : at + 16].hex().encode())
                    for at in range(0, len(file), 16))


def words_dump(file):
    """As `hexdump` writes it: words in the byte order of this machine, and places of seven
    digits."""
    return b"".join(b"%07x %s\n"
                    % (at,
                       b" ".join(b"%04x" % int.from_bytes(file[k : k + 2], "little")
                                 for k in range(at, at + 16, 2)))
                    for at in range(0, len(file) // 16 * 16, 16))


def forms():
    """What is given in place of a code file: what it is, its bytes, and what to do with it."""
    boot = bytes(range(1, 256)) * 4
    head = "  Remove the header: (set -C; tail -c +{} @ > @.whole). Then give @.whole."
    source = "  Give the code file that the compiler made of @, or of its program."
    lost = "  Copy @ again: nothing of the code file is in it."
    return [
        ("an empty file", b"", lost),
        ("a file of the byte 00 alone", bytes(1536), lost),
        ("a file of the byte 1A alone", b"\x1a" * 1536, lost),
        ("a file of the byte E5 alone", b"\xe5" * 1536, lost),
        ("a file of the byte FF alone", b"\xff" * 1536, lost),
        ("a gzip file", gzip.compress(HOST, mtime=0),
         "  Unpack it: (set -C; gzip -dc < @ > @.whole). Then give @.whole."),
        ("a bzip2 file", bz2.compress(HOST),
         "  Unpack it: (set -C; bzip2 -dc < @ > @.whole). Then give @.whole."),
        ("an xz file", lzma.compress(HOST),
         "  Unpack it: (set -C; xz -dc < @ > @.whole). Then give @.whole."),
        ("a file of zlib data", zlib.compress(HOST),
         "  Unpack @ by a program that reads zlib data, as zlib-flate of qpdf does, and give what "
         "it makes."),
        ("a zip file", zipped(HOST),
         "  Unpack @ by unzip, and give the code file that is in it. Of several files in it, "
         "pslink list says what each is."),
        ("an ELF file, of another system", b"\x7fELF\2\1\1".ljust(1024, b"\7"),
         "  Give a code file of a p-System in place of @."),
        ("a code file behind the 128 bytes of a MacBinary header", macbinary(HOST),
         head.format(129)),
        ("a code file behind a header of 128 bytes", b"\xff" * 128 + HOST, head.format(129)),
        ("a code file behind a header of 512 bytes", b"\xff" * 512 + HOST, head.format(513)),
        ("an AppleSingle file", apple(0, HOST),
         "  Take the data fork out of @, and give that: it is the code file."),
        ("an AppleDouble file, which has no byte of the code file", apple(7, bytes(4000)),
         "  Give the file beside @ that has the same name without ._ before it."),
        ("a disk image, of the volume DISK", DISK,
         "  Take the code file off the volume in @, as binary, and give that."),
        ("a disk image, of the volume DISK", volume(HOST + LIBRARY, boot),
         "  Take the code file off the volume in @, as binary, and give that."),
        ("a text", text_of(20), source),
        ("a text", text_of(20, b"\r\n"), source),
        # a file that was turned into a text, in some ways, and a text whose first line has one word
        *(("a text that a file was turned into, as a hexadecimal dump", encoded,
           "  Turn @ back into the file of which it was made, as binary, and give that.")
          for encoded in (base64.encodebytes(HOST), uuencoded(HOST), dump(HOST), hex_dump(HOST),
                          words_dump(HOST), HOST.hex().encode() + b"\n",
                          b":10000000" + HOST.hex().encode() + b"\r\n")),
        *(("a text", first + b"\n" + text_of(20), source)
          for first in (b"PROGRAM", b"PROGRAMVERYLONG;", b"BEGIN;", b"FACADE FADED", b"FAC 10 11")),
        ("a text of a p-System", bytes(1024) + text_of(8, b"\r").ljust(1024, b"\0"), source),
        ("a file whose line ends were converted: each 0A in it comes after a 0D",
         b"\1" * 200 + b"\r\n\2" * 40 + b"\3" * 600,
         "  Copy @ again, as binary, so that no line end is converted."),
        ("a file whose line ends were converted: it has bytes 0D and none 0A",
         b"\1" * 200 + b"\r\2" * 40 + b"\3" * 600,
         "  Copy @ again, as binary, so that no line end is converted."),
        ("no code file of a known form", b"\1\2" * 300, again("@")),
    ]


def runs():
    """Units of 1030 instructions and a return with a run of one byte in their code: the first byte,
    the one after the last, and the byte. Then those of which nothing is said: a run is as long as a
    sector, and begins or ends where a sector does."""
    found = [(128, 256, byte)
             for byte in (0xE5, 0xF6, 0x1A, 0xFF, 0xAA, 0x55, 0x4E, 0x40, 0x21, 0xD6)]
    found += [(512, 1024, 0), (128, 300, 0xE5), (100, 256, 0xE5), (0, 128, 0xFF)]
    silent = [(129, 257, 0xE5), (100, 300, 0), (128, 255, 0xE5), (129, 256, 0xFF), (128, 256, 0x20),
              (128, 256, 0xD7)]
    return found, silent


# A jump into an instruction.
INTO = "B9 01 CA 05 CC 01"


def numbered(order, *words, file=None):
    """The library of a byte order, and numbers of II.1 in it: the slot, the high byte of its word,
    and the segment number."""
    halves = lambda high, low: bytes([low, high] if order == "little" else [high, low])
    return changed(file or LIBRARIES[order],
                   *((256 + 2 * slot, halves(high, low)) for slot, high, low in words))


def blank_slot(name, kind):
    """The host with this name and kind in slot 8, and no code there."""
    return changed(HOST, (64 + 8 * 8, name), (192 + 2 * 8, bytes([kind])))


def two_segments(others):
    """A library with a procedure in UTIL whose instructions do not fit, beside so many that do;
    eight more are in OTHER."""
    own = unit_named("UTIL", [END], [*long_fitting(others), of_bytes(1 + others, INTO)])
    return code_file({2: own, 5: unit_named("OTHER", [END], long_fitting(8))})


def left_out(file, name, place, own, octal):
    """The note of a unit whose word the linked file leaves 0."""
    return (f"note: {file}, segment {name}: the linked file has 0 for it at byte {place}, and its "
            f"own file has {own}: a system of II.1 may not start it; set it by printf '{octal}' | "
            f"dd of=LINKED bs=1 seek={place} conv=notrunc")


def of_release_2_1():
    """Files with words of II.1 for their segments: a segment number in the low byte, a machine type
    and a version in the high one."""
    at = lambda slot: 256 + 2 * slot
    host = changed(HOST, (at(1), b"\x01\x42"))
    library = changed(LIBRARY, (at(2), b"\x02\x42"))
    big = (changed(BIG_HOST, (at(1), b"\x21\x01")), changed(BIG_LIBRARY, (at(2), b"\xe1\x02")))
    added = changed(library_and({5: unit_named("AUX", [END])}), (at(2), b"\x02\x42\0\0\0\0\5\xa2"))
    asking = changed(host_with([m.publ_def("COUNT", 3), m.unit_ref("AUX", []), m.eof_mark(8)]),
                     (at(1), b"\x01\x42"))
    util = left_out("LIB1", "UTIL", 270, "4202", r"\007\102")
    intrinsic = lambda path: (f"harmless: {path}: bytes 288 to 291 of its dictionary are not 0: "
                              "Apple Pascal keeps there which intrinsic units a program uses")
    return [
        ([util], host, [library]),
        ([left_out("LIB1", "UTIL", 270, "E102", r"\341\007")], big[0], [big[1]]),
        # in the order of their slots: a unit that a slot wants, and one that a record requests
        ([util, left_out("LIB1", "AUX", 272, "A205", r"\010\242")], asking, [added]),
        # (the note of the second file alone)
        ([left_out("LIB2", "UTIL", 270, "4202", r"\007\102")], host,
         [library.replace(b"UTIL", b"XTIL"), library]),
        # a machine type without a number
        ([left_out("LIB1", "UTIL", 270, "4200", r"\007\102")], changed(HOST, (259, b"\x62")),
         [changed(LIBRARY, (261, b"\x42"))]),
        *(([intrinsic("HOST")], changed(HOST, (place, b"\x10")), [LIBRARY])
          for place in (288, 289, 290, 291)),
        ([intrinsic("HOST"), intrinsic("LIB1"), util], changed(host, (288, b"\1\1\1\1")),
         [changed(library, (290, b"\x80"))]),
    ]


def warnings():
    """For each finding: the lines, the host and its libraries."""
    in_unit, in_host = "LIB1, segment UTIL", "HOST, segment DEMO"
    unit = lambda *changes: [changed(LIBRARY, *changes)]
    plain = host_and({9: tools(LONG)})
    start, length = (slot_of(plain, 9).address * m.BLOCK, slot_of(plain, 9).length)
    mixed = unit_with([END], code_of(MIXED))
    long = m.Segment("LONG", m.LINKED, code_of(MIXED[:900]))
    linked = host_and({8: long, 9: tools(code_of(MIXED[900:1400]))})
    in_small = lambda name: (f"the name {name} has small letters, and other names have capitals: "
                             "it may not be found")
    spelled = code_file({2: unit_named("UTIL", [m.unit_ref("util", [1]), END], CALLING),
                         3: unit_named("util")})
    lost = lambda name, kind, slot=7: (f"warning: HOST: slot {slot:02} has the name {name}, kind "
                                       f"{kind} and no code: no segment is linked there")
    misfit = lambda number: (f"note: {in_unit}: procedure {number} may be damaged: its "
                             "instructions do not fit together, as those of the others do")
    exchange = lambda found, slot: (f"its code has segment number {found}, and that of slot "
                                    f"{found} has {slot}: the two may be exchanged")
    twice = lambda start, end: (f"bytes {start} to {end} are there twice, one after the other: "
                                "they may have been read twice")
    all_one = lambda start, end, byte: (f"bytes {start} to {end - 1} of its code are all "
                                        f"{byte:02X}: they may not have been read")
    other_info = lambda found, number: (f"its code has segment number {found}, and bytes 256 to "
                                        f"287 of the dictionary have {number} for it: the code may "
                                        "be another one")
    converted = lambda what: f"note: LIB1: {what}: its line ends may have been converted"
    odd = lambda name, how: f"note: HOST: the name {name} {how}: it may not be found"
    zeros = (f"note: {in_unit}: its code ends with zeros, so it has no procedure and no segment "
             "number: its end may be lost")
    no_end = "it does not end with a procedure dictionary: the end of its code may be lost"
    overlap = "warning: LIB1, segment OTHER: its bytes in the file overlap those of slot 02"
    clear = lambda place: (f"note: {in_unit}, record 0: the operand at byte {place} may be "
                           "damaged: its bit 7 is clear, and a compiler sets it")
    three = unit_with([END], fitting(3))
    end = start + length
    other = lambda *links: [library_and({5: unit_named("OTHER", links)})]
    narrow = unit_with([COUNT, m.priv_ref("STATE", 1, [4]), END])
    taken = lambda name: ("warning: LIB2, segment AUX: it is added in slot 08, which the host has "
                          f"for {name}: calls of {name} go to it")
    return [
        *of_release_2_1(),
        (["note: LIB2: it may be a disk image, of the volume DISK"], HOST, [LIBRARY, DISK]),
        (["harmless: LIB1: its last 2 bytes are 1A: it was padded, as by CP/M"], HOST,
         [LIBRARY + b"\x1a\x1a"]),
        (["harmless: LIB1: its last 300 bytes are 1A: it was padded, as by CP/M"], HOST,
         [LIBRARY[:-300] + b"\x1a" * 300]),
        ([f"note: LIB1: {twice(1024, 1535)}"], HOST, [LIBRARY + LIBRARY[-512:]]),
        ([f"note: LIB1: {twice(1024, 1151)}"], HOST, unit((1152, LIBRARY[1024:1152]))),
        ([f"note: LIB1: {twice(1024, 1279)}"], HOST,
         unit((1152, b"X"), (1280, LIBRARY[1024:1152] + b"X"))),
        *(([f"note: LIB1: {twice(at, at + size - 1)}"], HOST,
           [changed(mixed, (at + size, mixed[at : at + size]))])
          for at, size in ((512, 512), (768, 256), (1152, 128))),
        ([f"note: HOST: {twice(2048, 2559)}"], changed(linked, (2560, linked[2048:2560])),
         [LIBRARY]),
        (["note: HOST: bytes 384 to 511 of its dictionary are all E5: they may not have been read"],
         changed(HOST, (384, b"\xe5" * 128)), [LIBRARY]),
        ([converted("each 0A in it comes after a 0D")], HOST, unit((600, b"\r\n" * 32))),
        ([converted("it has bytes 0A and none 0D")], HOST, unit((600, b"\n" * 32))),
        ([converted("it has bytes 0D and none 0A")], HOST, unit((600, b"\r" * 32))),
        ([converted("it has bytes 0D and none 0A")], HOST,
         [changed(text_library(), (600, b"\r" * 32))]),
        (["note: LIB2: it may be no code file of a known form"], HOST,
         [LIBRARY, LIBRARY.replace(b"UTIL", b"    ")]),
        (["note: LIB2: it may be no code file of a known form"], HOST,
         [LIBRARY, LIBRARY.replace(b"UTIL    ", bytes(8))]),
        (["harmless: LIB1: slot 04 is of kind 5, an intrinsic unit of Apple Pascal or its data"],
         HOST, unit(*entry(4, "TURTLE", 5, 1, 24))),
        *(([f"harmless: LIB1: slot 04 is of kind {kind}, an intrinsic unit of Apple Pascal or its "
            "data"], HOST, unit(*entry(4, "TURTLE", kind, address, length)))
          for kind, address, length in ((5, 9, 24), (6, 0, 200), (7, 0, 200), (7, 0, 23))),
        ([odd("demo", "has small letters, and other names have capitals")],
         changed(HOST, (72, b"demo")), [LIBRARY]),
        # a unit that the host wants by an odd name, which is that of the library too
        ([odd("Util", "has small letters, and other names have capitals"),
          odd("Util", "has small letters, and other names have capitals").replace("HOST", "LIB1")],
         HOST.replace(b"UTIL", b"Util"), [LIBRARY.replace(b"UTIL", b"Util")]),
        # a pair in small letters, but for the last letter of the alphabet
        ([f"note: HOST, segment Z, record 0: {in_small('count')}",
          *(f"note: {path}: {in_small('util')}" for path in ("HOST", "LIB1")),
          f"note: LIB1, segment util, record 0: {in_small('count')}"],
         changed(small(HOST), (72, b"Z   ")), [small(LIBRARY)]),
        ([odd('"DEMO\\x00\\x00\\x00\\x00"', "is padded with zeros where blanks are expected")],
         changed(plain, (72, b"DEMO\0\0\0\0")), [LIBRARY]),
        ([odd('"DEM\\x01"', "has control bytes")], changed(plain, (75, b"\1")), [LIBRARY]),
        ([odd('"DEM\\x7f"', "has control bytes")], changed(plain, (75, b"\x7f")), [LIBRARY]),
        ([odd('"DEM\\xcf"', "has bytes above 127")], changed(plain, (75, b"\xcf")), [LIBRARY]),
        ([f"note: {in_host}, record 1: the name Count has small letters, and other names have "
          "capitals: it may not be found"],
         host_with([m.publ_def("COUNT", 3), m.publ_def("Count", 4), m.eof_mark(8)]), [LIBRARY]),
        # a slot without code that no unit takes: of any kind where it has a name, else of one that
        # a compiler does not leave there
        *(([lost("UTIL", kind)], changed(HOST, (206, bytes([kind]))), [])
          for kind in (0, 1, 2, 4, 5, 6, 7, 8, 9)),
        ([lost("TOOLS", 0)], changed(HOST, (206, b"\0"), (120, b"TOOLS")), []),
        ([lost("TOOLS", 0, 9)], changed(plain, (38, word(0))), [LIBRARY]),
        *(([lost('""', kind, 8)], blank_slot(b" " * 8, kind), [LIBRARY])
          for kind in (1, 5, 6, 7, 8)),
        ([lost('"\\x00\\x00\\x00\\x00\\x00\\x00\\x00\\x00"', 1, 8)], blank_slot(bytes(8), 1),
         [LIBRARY]),
        ([overlap], HOST, unit(*entry(5, "OTHER", 0, 1, 24))),
        ([f"note: LIB1, segment OTHER: {no_end}", overlap], HOST,
         unit(*entry(5, "OTHER", 0, 2, 24))),
        (["note: HOST, segment TOOLS: each byte of its code is D7: it may never have been written"],
         changed(plain, (start, b"\xd7" * length)), [LIBRARY]),
        ([f"note: {in_unit}: each byte of its code is 00: it may never have been written"], HOST,
         [short_unit(bytes(16))]),
        *(([f"note: {in_unit}: {all_one(start, end, byte)}"], HOST, [with_run(start, end, byte)])
          for start, end, byte in runs()[0]),
        # zeros of a linked segment with a native procedure whose table is among them, also where it
        # is the last of them
        ([f"note: HOST, segment TOOLS: {all_one(128, 414, 0)}"], with_native(414), [LIBRARY]),
        ([f"note: HOST, segment TOOLS: {all_one(128, 413, 0)}"], with_native(413, level=1),
         [LIBRARY]),
        # converted line ends of a segment that the file is too short for
        ([converted("it has bytes 0D and none 0A").replace("LIB1", "LIB2")], HOST,
         [LIBRARY, short_text()]),
        # a run silences the other notes of its segment: a number of another procedure, and an
        # operand without bit 7
        ([f"note: {in_unit}: {all_one(128, 256, 0xE5)}"], HOST,
         [changed(with_run(128, 256, 0xE5), (CODE + 1040, b"\3"))]),
        ([f"note: {in_unit}: {all_one(128, 256, 0)}"], HOST,
         [with_run(128, 256, 0, [m.publ_ref("COUNT", [130]), END])]),
        ([clear(130)], HOST, [with_run(129, 257, 0, [m.publ_ref("COUNT", [130]), END])]),
        ([zeros], HOST, unit((CODE + 22, b"\0\0"))),
        ([zeros], HOST, [short_unit(b"\xd7" * 14 + bytes(2))]),
        # a unit that has more bytes than one without procedures, and the number of another slot
        ([f"note: {in_unit}: {no_end}"], HOST, unit((CODE + 22, b"\x09\0"))),
        *(([f"note: {in_unit}: {no_end}"], HOSTS[order],
           [beside_four(b"\xd7" * 14 + bytes([3, 0]), order=order)])
          for order in HOSTS),
        ([f"note: {in_host}: its code has segment number 9, and its slot is 1: the code may be "
          "another one"], changed(HOST, (CODE + 16, b"\x09")), [LIBRARY]),
        # two entries of a host whose addresses are exchanged, or whose codes have the number of the
        # other: at the first of them
        ([f"note: HOST, segment LONG: {exchange(9, 8)}"], exchanged(linked, 8, 9), [LIBRARY]),
        ([f"note: {in_host}: {exchange(9, 1)}"],
         changed(plain, (CODE + 16, b"\x09"), (end - 2, b"\1")), [LIBRARY]),
        # the numbers that a dictionary of II.1 has of its segments: each slot with code has a word
        # with a number or P-code
        ([f"note: {in_unit}: {other_info(2, 3)}"], HOST, unit((260, b"\3"))),
        *(([f"note: {in_unit}: {other_info(2, 3)}"], host, [numbered(order, (2, high, 3))])
          for order, host, machine in (("little", HOST, 2), ("big", BIG_HOST, 1))
          for high in (machine, 0x20 | machine, 0x40 | machine)),
        ([f"note: HOST, segment TOOLS: {other_info(9, 31)}"],
         numbered("little", (1, 2, 1), (9, 2, 31), file=plain), [LIBRARY]),
        ([f"note: {in_unit}: the attribute table of procedure 2 says that it is procedure 3: the "
          "code may be damaged"], HOST, [changed(unit_with([END], TWO), (CODE + 26, b"\3"))]),
        # a jump into an instruction
        ([misfit(9)], HOST, [unit_with([END], [*long_fitting(8), of_bytes(9, INTO)])]),
        ([misfit(9)], HOST, [two_segments(8)]),
        ([f"note: HOST, segment TOOLS: {no_end}"], changed(plain, (end - 1, b"\0")), [three]),
        ([f"note: HOST, segment TOOLS: {no_end}"], changed(plain, (end - 1, b"\xc8")), [three]),
        (["note: HOST, segment TOOLS: the attribute table of procedure 1 says that it is procedure "
          "3: the code may be damaged"], changed(plain, (end - 6, b"\3")), [three]),
        ([clear(1)], HOST, unit((CODE + 1, b"\0"))),
        *(([past_mark(1, 256 * byte), clear(1)], HOST, unit((CODE + 1, bytes([byte]))))
          for byte in (0x3F, 0x40, 0x7E, 0x7F)),
        # an operand of a public variable that leads to the end mark or past it, and of one at the
        # end mark
        ([past_mark(1, 5)], HOST, unit((CODE + 2, b"\5"))),
        ([past_mark(1, 300)], HOST, unit((CODE + 1, b"\x81\x2c"))),
        ([past_mark(4, 6, record=1)], HOST,
         [changed(unit_with([m.unit_ref("UTIL", []), m.publ_ref("COUNT", [1, 4]), END]),
                  (CODE + 5, b"\6"))]),
        # a reference that is too small by one
        ([past_mark(4, 0x2B80)], HOST,
         [unit_with([m.publ_ref("COUNT", [4]), END], [of_bytes(1, TWICE), *long_fitting(7)[1:]])]),
        ([past_mark(1, 1, value=8)], host_with([m.publ_def("COUNT", 8), m.eof_mark(8)]),
         unit((CODE + 2, b"\1"))),
        ([f"warning: {in_unit}, record 1: the operand at byte 4 is word 2 of a variable that has "
          "2"], HOST, [unit_with([COUNT, m.priv_ref("STATE", 2, [4]), END])]),
        ([f"warning: {in_unit}, record 1: the operand at byte 4 is word 1 of a variable that has "
          "0"], HOST,
         [changed(unit_with([COUNT, m.priv_ref("STATE", 0, [4]), END]), (CODE + 5, b"\1"))]),
        ([f"harmless: {in_unit}, record 1: the unit defines MORE, which has no effect: only the "
          "host program defines variables"], HOST,
         [unit_with([COUNT, m.publ_def("MORE", 3), END])]),
        # what a unit defines and refers to: where the host defines it too, and in a unit that the
        # link does not take
        ([f"harmless: {in_unit}, record 1: the unit defines COUNT, which has no effect: only the "
          "host program defines variables"], HOST,
         [unit_with([COUNT, m.publ_def("COUNT", 3), END])]),
        (["harmless: LIB1, segment OTHER, record 1: the unit defines OWN, which has no effect: "
          "only the host program defines variables"], HOST, other(*OWN, END)),
        (["harmless: LIB2, segment UTIL, record 1: the unit defines OWN, which has no effect: only "
          "the host program defines variables"], HOST, [LIBRARY, unit_with([*OWN, END])]),
        ([f"warning: {in_host}: the end mark 4 is below half the data size of 10 bytes"],
         host_with([m.publ_def("COUNT", 3), m.eof_mark(4)]), [LIBRARY]),
        # half of an odd data size is no whole number
        ([f"warning: {in_host}: the end mark 5 is below half the data size of 11 bytes"],
         changed(host_with([m.publ_def("COUNT", 3), m.eof_mark(5)]), (CODE + 4, b"\x0b")),
         [LIBRARY]),
        ([f"warning: {in_host}, record 0: COUNT has base offset 9, and the end mark says that 8 is "
          "free"], host_with([m.publ_def("COUNT", 9), m.eof_mark(8)]), [LIBRARY]),
        # bytes that are exchanged in pairs, of a linked file
        (["note: LIB2: it may be a code file whose bytes are exchanged in pairs"], HOST,
         [LIBRARY, swapped(LINKED)]),
        (["note: LIB2: it may be a code file whose bytes are exchanged in pairs"], BIG_HOST,
         [BIG_LIBRARY, swapped(LINKED)]),
        # a unit that lost its references, a record behind zeros, and line ends that became others
        ([f"note: {in_unit}: it has no reference, and 3 operands of two bytes for variables of the "
          "program: its references may be lost"], HOST,
         [unit_with([END], [of_bytes(1, "A5 80 00 A9 80 01 AB 81 02 A5 7F")])]),
        ([f"note: {in_unit}: its end mark is zeros, and a record of STATE is behind it: records "
          "may be lost"], HOST, unit((LINKS, bytes(32)))),
        # the same in a file that ends with its last record, and of names in small letters
        ([f"note: {in_unit}: its end mark is zeros, and a record of STATE is behind it: records "
          "may be lost"], HOST, [changed(LIBRARY, (LINKS, bytes(32)))[:1104]]),
        (["note: LIB1, segment util: its end mark is zeros, and a record of state is behind it: "
          "records may be lost"], small(HOST), [changed(small(LIBRARY), (LINKS, bytes(32)))]),
        ([f"note: {in_host}: its data size of 13 bytes is odd, and the program is entered or left "
          "before its code: its table may be damaged"],
         changed(HOST, (CODE + 4, b"\x0d"), (CODE + 10, b"\x0d")), [LIBRARY]),
        # a compiler that counts its references from another place: the file is not to be copied
        # again
        ([past_mark(2, 171), clear(2), counted(4, "from one byte earlier", 0)], HOST,
         [unit_with([m.publ_ref("COUNT", [2, 5, 8, 11]), END], [of_bytes(1, ZEROS)])]),
        ([taken("OLD")], changed(HOST, *entry(8, "OLD", 0, 0, 0)), [USING, USED]),
        ([taken('""')], blank_slot(b" " * 8, 1), [USING, USED]),
        ([f"note: LIB1, segment UTIL, record 0: {in_small('util')}",
          f"note: LIB1: {in_small('util')}",
          "warning: LIB1, segment util: another unit of the link is UTIL, nearly the same name"],
         HOST, [spelled]),
        # the lines come in the order of the files and of their entries, whatever they begin with
        ([f"note: LIB1: {twice(1024, 1535)}",
          f"warning: {in_unit}, record 1: the operand at byte 4 is word 2 of a variable that has 1",
          "harmless: LIB2: its last 2 bytes are 1A: it was padded, as by CP/M"],
         HOST, [narrow + narrow[-512:], LIBRARY + b"\x1a\x1a"]),
    ]


def quiet():
    """Files of which nothing is found: what FORMAT.md allows, the samples, and files beside those
    of warnings()."""
    pairs = [("host.code", "library.code"), ("big_host.code", "big_library.code"),
             ("host.code", "using.code", "used.code"),
             ("two_units.code",), ("procedures.code", "library.code")]
    machine = lambda file: changed(file, *((257 + 2 * slot, b"\x42") for slot in range(16)))
    nothing = code_of(NOP)
    once = m.Segment("ONCE", m.LINKED, code_of(MIXED[:400]))
    same = host_and({9: once, 10: once})
    same = changed(same, (m.BLOCK * slot_of(same, 10).address + 400 + 14, b"\x09"))
    plain = host_and({9: tools(LONG)})
    crossed = library_and({5: OTHER_UNIT})
    unit = lambda *changes: [changed(LIBRARY, *changes)]
    other = lambda *links: [library_and({5: unit_named("OTHER", links)})]
    return [
        *((SAMPLES[host], [SAMPLES[name] for name in libraries]) for host, *libraries in pairs),
        (HOST, [unit_with(UNIT_LINKS, slot=9)]),
        (HOST, [text_library()]),
        (HOST, [changed(LIBRARY, (CODE + 22, b"\x09"))]),
        # units without procedures, of four bytes and of as many as no procedure has; and codes of a
        # single byte
        *((HOST, [short_unit(code)])
          for code in (bytes(4), b"\1\0\2\0", b"\xd7" * 4 + b"\2\0", bytes(14),
                       b"\xd7" * 12 + bytes(2))),
        *((changed(linked_segment(TWO, (0, code + bytes(24))), (4 * 9 + 2, word(len(code)))),
           [LIBRARY])
          for code in (bytes(4), b"\1\0\x09\0", b"\7", b"\0")),
        # old records after the end mark, and words and a name of it
        (HOST, [unit_with([COUNT, END, STATE, END])]),
        *((HOST, [changed(LIBRARY, (LINKS + at, new))])
          for at, new in ((64, b"OLDNAME "), (71, b"X"), (76, b"\1\2\3\4"))),
        # assembled entries: of another machine, and with zeros; those of another release in a host;
        # a comment where II.1 has machines
        (changed(HOST, (258, b"\1\x42")), [changed(beside_native(), (256 + 10, b"\5\7"))]),
        (with_native(400), [LIBRARY]),
        (changed(HOST, (256, b"PROGRAM DEMO, FOR ALL MACHINES.")),
         [changed(LIBRARY, (256, b"FG" * 16))]),
        (changed(HOST, (256, b"\0\x17" * 16)), [changed(LIBRARY, (256, b"\x20\x07" * 16))]),
        # one byte 1A, and blanks in the second half of a dictionary
        (HOST, [LIBRARY + b"\x1a"]),
        (changed(HOST, (384, b" " * 128)), [LIBRARY]),
        # less than 32 line ends
        *((HOST, [changed(LIBRARY, (600, line * 31))]) for line in (b"\r\n", b"\n", b"\r")),
        # texts of blanks, and of no operation
        *((HOST, [changed(unit_with([END], code_of(NOP * 1030)), (640, bytes([byte]) * 128))])
          for byte in (0x20, 0xD7)),
        (HOST, [changed(unit_with([END], nothing), (LINKS, bytes(16)))]),
        (small(HOST), [small(LIBRARY)]),
        (HOST, [LIBRARY[:1104]]),
        (HOST, [LIBRARY[:1200]]),
        (machine(HOST), [machine(LIBRARY)]),
        (machine(HOST), [LIBRARY]),
        (changed(HOST, (259, b"\x62")), [LIBRARY]),
        # words of II.1 in one of the files alone, a word for the slot in the host, another machine
        # in one word of the library, a word of a slot without a code there
        (changed(HOST, (258, b"\1\x42")), [LIBRARY]),
        (HOST, [changed(LIBRARY, (260, b"\2\x42"))]),
        (changed(HOST, (258, b"\1\x42"), (270, b"\7\x42")), [changed(LIBRARY, (260, b"\2\x42"))]),
        (changed(HOST, (258, b"\1\x42")), [changed(LIBRARY, (260, b"\2\x41"))]),
        (changed(HOST, (258, b"\1\x42")), [changed(LIBRARY, (260, b"\2\x42\3\x42"))]),
        # bytes beside those of the set of intrinsic units
        (changed(HOST, (287, b"\1\0\0\0\0\1")), [LIBRARY]),
        (changed(machine(full_host()), (257 + 2 * 9, b"\x62")), [machine(LIBRARY)]),
        (small(HOST), [changed(small(LIBRARY), (64 + 8 * 5, b"OLD"))]),
        (stripped(46), [LIBRARY]),
        (same, [LIBRARY]),
        *((HOST, [unit_with([END], code_of(NOP * before, body))])
          for before, body in ((0, AGAIN), (3, AGAIN), (0, MIXED[:32] * 40))),
        (changed(HOST + bytes(1024), (1536, LIBRARY[512:1024] * 2)), [LIBRARY]),
        (HOST, [changed(library_and({5: OTHER_UNIT}), (CODE + 22, b"\5"))]),
        (host_with([m.publ_def("COUNT", 3), m.eof_mark(5)]), [LIBRARY]),
        # later libraries with the unit, and many
        (HOST, [LIBRARY, *(unit_with(UNIT_LINKS, slot=slot) for slot in (5, 9))]),
        (HOST, [LIBRARY] * 4),
        (HOST, [USING, USED, *[LIBRARY] * 30]),
        (HOST, [USING, USED, AUX_FILE, AUX_FILE]),
        (HOST, [LIBRARY, code_file({3: AUX_UNIT, 7: m.Segment("UTIL")})]),
        *lost_quiet(),
        # runs that are too short, or begin and end within a sector
        *((HOST, [with_run(start, end, byte)]) for start, end, byte in runs()[1]),
        # segments without a name, a slot that has half of an entry, and empty slots as a compiler
        # leaves them
        (plain.replace(b"TOOLS", b"     "), [LIBRARY]),
        *((changed(HOST, (28 + place, word(value))), [LIBRARY])
          for place, value in ((0, 2), (2, 24))),
        *((blank_slot(name, kind), libraries)
          for name in (b" " * 8, bytes(8))
          for kind in (0, 2, 3, 4)
          for libraries in ([LIBRARY], [USING, USED])),
        # units that the link does not take and by which one that takes them is refused
        *((HOST, unit(*entry(5, "OTHER", kind, address, length)))
          for kind, address, length in ((3, 9, 24), (3, 9, 23), (4, 0, 24))),
        *((HOST, [changed(other(END)[0], (CODE + 1024 + place, byte))])
          for place, byte in ((23, b"\xc8"), (18, b"\0"))),
        (HOST, other(COUNT, m.Record("COUNT", 15, [1]), END)),
        # a code without a byte above 127
        (stripped(48), [LIBRARY]),
        # files of which no end mark is read: cut in the link information, and another program with
        # what is not supported
        (HOST, [LIBRARY, HOST[: LINKS + 16]]),
        *((HOST,
           [LIBRARY,
            host_with([m.publ_def("COUNT", 3), m.Record("NATIVE", kind, [1]), m.eof_mark(8)])])
          for kind in (5, 9, 11)),
        # a public variable without words at the end mark, and the last word below it
        (host_with([m.publ_def("COUNT", 8), m.eof_mark(8)]), [LIBRARY]),
        (HOST, unit((CODE + 2, b"\4"))),
        # an end mark that is half of an odd data size, rounded up
        (changed(host_with([m.publ_def("COUNT", 3), m.eof_mark(6)]), (CODE + 4, b"\x0b")),
         [LIBRARY]),
        # entries of other kinds that share bytes: a link takes no code of them
        *((HOST, unit(*entry(5, "OTHER", kind, 1, 24))) for kind in (2, 4)),
        # operands of two bytes of a unit without references: two, and more of one byte; and more
        # records behind a mark of zeros
        (HOST, [unit_with([END], [of_bytes(1, "A5 80 00 A9 05 AB 81 02 A5 7F")])]),
        (HOST, [changed(unit_with([m.Record("", 0, [0]), COUNT, STATE]), (LINKS, bytes(16)))]),
        # an odd data size alone, and an entry outside the code alone
        *((changed(HOST, (CODE + at, b"\x0d")), [LIBRARY]) for at in (4, 10)),
        # names in small letters, and a control byte in the name of an end mark
        (small(HOST), [changed(small(LIBRARY), (LINKS + 64, b"a\1b     "))]),
        # a word of slot 0 that is none of II.1
        (HOST, [numbered("little", (0, 0, 1), (2, 2, 3))]),
        # zeros of a separate segment without a native procedure
        (HOST,
         [changed(beside_native(), (m.BLOCK * slot_of(beside_native(), 5).address + 410, b"\1"))]),
        # more than 16 bytes before two equal sectors repeat, and less than 64
        (HOST,
         [unit_with([END],
                    code_of(NOP * 96, MIXED[96:128], MIXED[:128], MIXED[:128], MIXED[200:700]))]),
        # units without a procedure that have more bytes, and the number of their slot or none
        (HOST, unit((CODE + 23, b"\0"))),
        *((HOSTS[order], [beside_four(b"\xd7" * 14 + bytes([2, 0]), order=order)])
          for order in HOSTS),
        (HOST, [beside_four(b"\xd7" * 14 + bytes(2), slot=0)]),
        # codes of a library with the numbers of one another
        (HOST, [exchanged(crossed, 2, 5)]),
        (HOST, [changed(crossed, (CODE + 22, b"\5"), (CODE + 1024 + 22, b"\2"))]),
        # segment number 0 is none
        (changed(HOST, (CODE + 16, b"\0")), [changed(LIBRARY, (CODE + 22, b"\0"))]),
        (HOST, [numbered("little", (2, 2, 3), file=changed(LIBRARY, (CODE + 22, b"\0")))]),
        # words that are no numbers of II.1: of a slot with code one is 0, is of another machine,
        # has a bit that says nothing or too large a number; or one of a slot without code is not 0;
        # or the number is right
        (changed(plain, (256 + 18, b"\x1f\x02")), [LIBRARY]),
        *((host, [numbered(order, *words)])
          for order, host, machine in (("little", HOST, 2), ("big", BIG_HOST, 1))
          for words in ([(2, 3 - machine, 3)], [(2, 0x47, 3)], [(2, 0x10 | machine, 3)],
                        [(2, machine, 32)], [(2, machine, 3), (3, 0, 1)],
                        [(2, machine, 3), (3, machine, 0)], [(2, machine, 2)], [(2, machine, 0)])),
        (changed(HOST, (259, b"\x47")), unit((261, b"\x41"))),
        (changed(HOST, (258, b"\1\x42")), unit((260, b"\2\7"), (286, b"\x1f\xef"))),
        # a procedure that does not fit beside seven long ones of its segment, and more in another
        # one
        (HOST, [two_segments(7)]),
        # word 0 of a variable without words
        (HOST, [changed(unit_with([COUNT, m.priv_ref("STATE", 0, [4]), END]), (CODE + 5, b"\0"))]),
    ]
