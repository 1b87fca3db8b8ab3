"""Codes: their segment numbers, procedure tables in each form, reserved bytes, lengths, and codes
that overlap."""
from .cases import Fault
from .links import (DEMO, UTIL, linked, private, program, public, refused, unit, unit_of, using,
                    wanting)
from .model import (HOSTSEG, LINKED, UNITSEG, File, Procedure, Record, Segment, eof_mark, priv_ref,
                    publ_def, publ_ref, unit_ref)

COUNT = publ_def("COUNT", 3)


def host_of(procedures, *records, next_free=8, **fields):
    """A host program of these procedures. The definition COUNT comes before its other records."""
    return Segment("DEMO", HOSTSEG, procedures, [COUNT, *records, eof_mark(next_free)], **fields)


def raw(text, *records, linked=None, kind=UNITSEG, name="UTIL"):
    """A segment whose code is typed, and what the link makes of it."""
    return Segment(
        name, kind, code=bytes.fromhex(text), records=[*records, eof_mark(8)], linked=linked or {})


# What the link stores in each code ----------------------------------------------------------------


def numbers():
    """Segment numbers that are not those of the slots, and the data size of procedure 1 alone."""
    host = {1: program(unit_ref("MORE", []), number=99), 7: Segment("UTIL"),
            9: unit_of("AUX", number=0),
            10: Segment("TOOLS", LINKED, code=bytes.fromhex("D7 AD 00 63 01"))}
    for order in ("little", "big"):
        yield linked(
            f"numbers-of-the-slots-{order}-endian",
            "The segment numbers are 99 in the program, 0 in a unit, 255 in the "
            "wanted unit and 1 in the added one: they become those of the slots. That of a plain "
            "segment stays.",
            host, [{2: unit_of("UTIL", number=255), 3: unit_of("MORE", number=1)}],
            [DEMO, UTIL, (8, 1, 3, True), (9, 0, 9), (10, 0, 10)], order=order)
    host = {0: program(number=15), 15: unit_of("AUX", number=240)}
    yield linked(
        "numbers-of-slots-0-and-15",
        "The program is in slot 0 with the number 15, and a unit in slot 15 with 240.", host, [],
        [(0, 0, 0), (15, 0, 15)])
    for order in ("little", "big"):
        three = [Procedure(["D7 AD 00"], number=2, data=20),
                 Procedure(["D7 D7 C1 00"], data=10, parameters=4),
                 Procedure(["AD 00"], number=3, data=30)]
        util = Segment(
            "UTIL", UNITSEG, [Procedure(["AB", private(displacement=1), "AD 00"], data=6)],
            [priv_ref("STATE", 300, [1]), eof_mark(0)])
        yield linked(
            f"data-of-procedure-1-{order}-endian",
            "Of three procedures of the program and one of a unit, the data size of "
            "the program's first " "grows alone, from 10 to 610.",
            {1: host_of(three), 7: Segment("UTIL")}, [{2: util}], [DEMO, UTIL],
            [(7, "STATE", 8, 300)], 308, 610, order)
    two = [Procedure(["D7 AD 00"], number=2, data=20, said=1),
           Procedure(["D7 D7 C1 00"], data=10, said=2)]
    yield linked(
        "numbers-in-tables",
        "The tables of the program's two procedures have each other's number: the dictionary says "
        "which "
        "is the first.",
        {1: host_of(two, priv_ref("OWN", 4, []))}, [], [DEMO], [(1, "OWN", 8, 4)], 12, 18)
    three = [Procedure(["D7 D7 C1 00"], data=10, said=255),
             Procedure(["AD 00"], number=2, said=255),
             Procedure(["AD 00"], number=3, said=3, level=255)]
    yield linked(
        "numbers-in-tables-255",
        "Two tables of the program have the number 255, and one the lex level 255.",
        {1: host_of(three, priv_ref("OWN", 1, []))}, [], [DEMO], [(1, "OWN", 8, 1)], 9, 12)
    two = [Procedure(["D7 D7 C1 00"], data=10), Procedure([], number=2, at=0)]
    yield linked(
        "program-without-a-second-body", "Procedure 2 of the program has no body.",
        {1: host_of(two)}, [], [DEMO])


def tables():
    """Tables that overlap, lie at odd places or leave no other byte."""
    # DEMO: the table of procedure 2 is at 12, that of 1 at 20. The data size of 1, at 12, is 254,
    # so its low byte is the number in the table of 2; with one private word it becomes 256, whose
    # low byte is 0
    code = "D7 D7 C1 00 02 00 00 00 06 00 0A 00 FE 00 04 00 0E 00 12 00 01 00 0A 00 04 00 01 02"
    demo = raw(code, COUNT, priv_ref("OWN", 1, []), kind=HOSTSEG, name="DEMO", linked={12: "00 01"})
    yield linked(
        "data-size-over-a-table",
        "The program's data size grows from 254 to 256; its low byte is the number in "
        "another table too.",
        {1: demo}, [], [DEMO], [(1, "OWN", 8, 1)], 9, 256)
    # DEMO with one table, at the odd offset 13: its data size is at 5, and one byte follows it
    for order, code, data in [
            ("little", "D7 D7 D7 C1 00 0A 00 04 00 06 00 0B 00 01 00 00 03 00 63 01", "12 00"),
            ("big", "D7 D7 D7 C1 00 00 0A 00 04 00 06 00 0B 01 00 00 00 03 63 01", "00 12")]:
        demo = raw(
            code, COUNT, priv_ref("OWN", 4, []), kind=HOSTSEG, name="DEMO",
            linked={5: data, 18: "01"})
        yield linked(
            f"table-at-an-odd-place-{order}-endian",
            "The program's table is at byte 13, and a byte between it and the " "dictionary.",
            {1: demo}, [], [DEMO], [(1, "OWN", 8, 4)], 12, 18, order)
    # UTIL with the table of procedure 1 at 9, next to nothing: bytes 1 to 10, a byte 0 before it
    # that is an operand, then 11
    util = raw(
        "EE 0A 00 04 00 06 00 0A 00 01 00 EE 03 00 63 01", unit_ref("UTIL", [0, 11]),
        linked={0: "07", 11: "07", 14: "07"})
    yield linked(
        "operands-beside-an-odd-table",
        "The unit's table is at byte 9: the bytes 0 and 11 beside it are operands.",
        wanting("UTIL"), [{2: util}], [DEMO, UTIL])
    yield linked(
        "dictionary-is-the-code",
        "The unit's code is its dictionary: one procedure without a body, in four bytes.",
        wanting("UTIL"), [{2: raw("00 00 63 01", linked={2: "07"})}], [DEMO, UTIL])
    yield linked(
        "dictionary-of-two-is-the-code",
        "The unit's code is its dictionary: two procedures without bodies, in six bytes.",
        wanting("UTIL"), [{2: raw("00 00 00 00 63 02", linked={4: "07"})}], [DEMO, UTIL])
    yield linked(
        "dictionary-of-255-is-the-code",
        "The unit's code is its dictionary: 255 procedures without bodies.", wanting("UTIL"),
        [{2: raw("00 00" * 255 + "63 FF", linked={510: "07"})}], [DEMO, UTIL])
    yield refused(
        "17-dictionary-by-two",
        "The unit's dictionary would begin two bytes before its code of four bytes.",
        wanting("UTIL"), [{2: raw("00 00 63 02")}], Fault(17, 1, 7))
    yield linked(
        "table-is-the-code",
        "The program's code is a table and its dictionary: its data size is at byte 0.",
        {1: raw(
             "0A 00 04 00 06 00 08 00 01 00 02 00 01 01", COUNT, priv_ref("OWN", 4, []),
             kind=HOSTSEG, name="DEMO", linked={0: "12 00"})},
        [], [DEMO], [(1, "OWN", 8, 4)], 12, 18)
    # UTIL: the table of 1 at 14 and that of 2 at 12, two bytes before it, whose number is the enter
    # IC's low byte
    util = "05 EE D7 D7 01 00 02 00 06 00 0C 00 0E 00 01 00 04 00 04 00 63 02"
    yield linked(
        "tables-overlap-by-eight",
        "The tables of the unit's two procedures overlap in eight bytes, and the byte before them "
        "is an operand.",
        wanting("UTIL"),
        [{2: raw(util, unit_ref("UTIL", [1, 3]), linked={1: "07", 3: "07", 20: "07"})}],
        [DEMO, UTIL])
    for byte in (4, 5, 14, 15):
        yield refused(
            f"32-tables-overlap-{byte}",
            f"The tables of the unit's two procedures are at 12 and at 14; a UNITREF refers to "
            f"byte {byte}.",
            wanting("UTIL"), [{2: raw(util, unit_ref("UTIL", [1, byte]))}], Fault(32, 1, 7, 0, 1))
    yield linked(
        "operands-without-procedures",
        "The unit has no procedure, and both bytes before its number are operands.",
        wanting("UTIL"),
        [{2: raw("05 06 63 00", unit_ref("UTIL", [0, 1]), linked={0: "07", 1: "07", 2: "07"})}],
        [DEMO, UTIL])
    for byte in (2, 3):
        yield refused(
            f"32-without-procedures-{byte}",
            f"The unit has no procedure and four bytes; a UNITREF refers to byte {byte}.",
            wanting("UTIL"), [{2: raw("05 06 63 00", unit_ref("UTIL", [byte]))}],
            Fault(32, 1, 7, 0, 0))
    for byte in (0, 1, 2, 3):
        yield refused(
            f"32-dictionary-is-the-code-{byte}",
            f"The unit's code is its dictionary; a UNITREF refers to byte {byte}.", wanting("UTIL"),
            [{2: raw("00 00 63 01", unit_ref("UTIL", [byte]))}], Fault(32, 1, 7, 0, 0))


# Which bytes are reserved -------------------------------------------------------------------------


def beside():
    """Operands that reach to a table from both sides, of one byte and of two."""
    around = [Procedure([unit("UTIL", 9), unit("UTIL", 9)]),
              Procedure([unit("UTIL", 9), "D7 D7", unit("UTIL", 9)], number=2),
              Procedure([unit("UTIL", 9), unit("UTIL", 9)], number=3, at=0)]
    util = Segment("UTIL", UNITSEG, around, [unit_ref("UTIL", [0, 1, 12, 15, 26, 27]), eof_mark(0)])
    yield linked(
        "operands-beside-tables",
        "UNITREFs to the bytes beside two tables and before the dictionary.", wanting("UTIL"),
        [{2: util}], [DEMO, UTIL])
    around = [Procedure([public()]),
              Procedure([public(displacement=1), public(displacement=2)], number=2),
              Procedure([public(displacement=3)], number=3, at=0)]
    util = Segment("UTIL", UNITSEG, around, [publ_ref("COUNT", [0, 12, 14, 26]), eof_mark(0)])
    yield linked(
        "big-operands-beside-tables",
        "PUBLREFs to the bytes beside two tables and before the dictionary.", wanting("UTIL"),
        [{2: util}], [DEMO, UTIL])


def two_tables(*records):
    """A unit of which the tables are at 10 (bytes 2 to 11) and at 24 (16 to 25), with two free
    bytes 26 and 27 and the dictionary from 28 to 35: its words are those of 3, which has no body, 2
    and 1."""
    procedures = [Procedure(["AD 00"]), Procedure(["D7 D7 AD 00"], number=2),
                  Procedure(["D7 D7"], number=3, at=0)]
    return Segment("UTIL", UNITSEG, procedures, [*records, eof_mark(0)])


def reserved():
    what = {2: "the first byte of the first table", 11: "the last byte of the first table",
            16: "the first byte of the second table",
            28: "the dictionary's word of procedure 3, which has no body", 34: "the segment number",
            35: "the number of procedures"}
    for byte in [*range(2, 12), *range(16, 26), *range(28, 36)]:
        about = what.get(byte, "a table" if byte < 26 else "the dictionary")
        yield refused(
            f"32-byte-{byte}", f"A UNITREF refers to byte {byte}: {about}.", wanting("UTIL"),
            [{2: two_tables(unit_ref("UTIL", [byte]))}], Fault(32, 1, 7, 0, 0))
    for byte, about in [(1, "of which the second is the table's first"),
                        (11, "of which the first is the table's last"),
                        (15, "of which the second is the table's first"),
                        (25, "of which the first is the table's last"),
                        (27, "of which the second is the dictionary's first"),
                        (34, "which are the number and the count")]:
        yield refused(
            f"32-big-{byte}", f"A PUBLREF refers to bytes {byte} and {byte + 1}, {about}.",
            wanting("UTIL"), [{2: two_tables(publ_ref("COUNT", [byte]))}], Fault(32, 1, 7, 0, 0))
        yield refused(
            f"32-private-{byte}", f"A PRIVREF refers to bytes {byte} and {byte + 1}, {about}.",
            wanting("UTIL"), [{2: two_tables(priv_ref("STATE", 1, [byte]))}], Fault(32, 1, 7, 0, 0))
    # the program's data size is at byte 4, and its last byte is 17
    for byte in (4, 5, 12, 13, 14, 16, 17):
        yield refused(
            f"32-byte-{byte}-demo", f"A UNITREF of the host program refers to byte {byte}.",
            {1: program(unit_ref("UTIL", [byte])), 7: unit_of("UTIL")}, [], Fault(32, 0, 1, 1, 0))
    more = {1: program(unit_ref("MORE", []))}
    for byte in (2, 11, 12, 15):
        yield refused(
            f"32-byte-{byte}-more", f"A UNITREF of an added unit refers to byte {byte}.", more,
            [{3: unit_of("MORE", (), [unit_ref("MORE", [byte])])}], Fault(32, 1, 7, 0, 0))


def refused_tables():
    """17 and 18: what is wrong with a dictionary or a table."""
    def demo(*procedures, **fields):
        return {1: host_of(list(procedures), **fields)}

    body = Procedure(["D7 D7 C1 00"], data=10)
    second = Procedure(["D7 D7 C1 00"], number=2, data=10)
    yield refused(
        "17-second-alone-demo", "The host program has a body of procedure 2 alone.", demo(second),
        [], Fault(17, 0, 1))
    yield refused(
        "17-native-second-alone-demo",
        "The host program has a body of procedure 2 alone, which is native.",
        demo(Procedure(["D7 D7 C1 00"], number=2, said=0)), [], Fault(17, 0, 1))
    yield refused("17-no-procedures-demo", "The host program has no procedure.",
                  {1: raw("D7 D7 01 00", COUNT, kind=HOSTSEG, name="DEMO")}, [], Fault(17, 0, 1))
    yield refused(
        "17-no-bodies-demo", "The host program has two procedures, and a body of neither.",
        {1: raw("00 00 00 00 01 02", COUNT, kind=HOSTSEG, name="DEMO")}, [], Fault(17, 0, 1))
    yield refused(
        "18-demo", "The outer block of the host program is native.",
        demo(Procedure(["D7 D7 C1 00"], said=0)), [], Fault(18, 0, 1))
    yield refused("18-second-demo", "The second procedure of the host program is native.",
                  demo(body, Procedure(["AD 00"], number=2, said=0)), [], Fault(18, 0, 1))
    three = [Procedure(["AD 00"]), Procedure(["AD 00"], number=2), Procedure(["AD 00"], number=3)]
    # tables at 10, 22 and 34; the dictionary is from 36 on: the words of 3, 2 and 1 are at 36, 38
    # and 40
    for place, number in [(36, 3), (38, 2), (40, 1)]:
        yield refused(
            f"17-of-three-{number}",
            f"Of three procedures, the table of procedure {number} would be before the code.",
            wanting("UTIL"),
            [{2: Segment("UTIL", UNITSEG, three, [eof_mark(0)], changes={place: "FF FF"})}],
            Fault(17, 1, 7))
    for place, number in [(10, 1), (22, 2), (34, 3)]:
        yield refused(
            f"18-of-three-{number}", f"Of three procedures, procedure {number} is native.",
            wanting("UTIL"),
            [{2: Segment("UTIL", UNITSEG, three, [eof_mark(0)], changes={place: "00"})}],
            Fault(18, 1, 7))
    # dictionaries of 200 and of 255 words, of which the first, of the last procedure, leads to the
    # table at 8 (its offset, less 8)
    for count, text in [(200, "02 00"), (255, "02 00")]:
        yield refused(
            f"18-procedure-{count}",
            f"Of {count} procedures of the unit, the last alone has a body, which is native.",
            wanting("UTIL"),
            [{2: raw("00" * 10 + text + "00 00" * (count - 1) + f"07 {count:02X}")}],
            Fault(18, 1, 7))
        yield refused(
            f"17-procedure-{count}",
            f"Of {count} procedures of the unit, the last alone has a body, whose table would "
            f"be at byte 6.",
            wanting("UTIL"),
            [{2: raw("01" * 10 + "04 00" + "00 00" * (count - 1) + f"07 {count:02X}")}],
            Fault(17, 1, 7))
    # of three procedures of the unit the second and the third have a body, with the tables at 10
    # and 22; the dictionary is from 24 on
    hollow = [Procedure(["AD 00"], number=2), Procedure(["AD 00"], number=3),
              Procedure([], number=1, at=0)]
    for name, number, changes in [("18-after-no-body", 18, {22: "00"}),
                                  ("17-after-no-body", 17, {24: "FF FF"}),
                                  ("17-second-after-no-body", 17, {26: "FF FF"})]:
        yield refused(
            name, f"Procedure 1 of the unit has no body, and a later one is fault {number}.",
            wanting("UTIL"),
            [{2: Segment("UTIL", UNITSEG, hollow, [eof_mark(0)], changes=changes)}],
            Fault(number, 1, 7))
    for byte in (2, 23):
        yield refused(
            f"32-after-no-body-{byte}",
            f"Procedure 1 of the unit has no body, and a UNITREF refers to byte {byte}, of the "
            f"table of a later one.",
            wanting("UTIL"),
            [{2: Segment("UTIL", UNITSEG, hollow, [unit_ref("UTIL", [byte]), eof_mark(0)])}],
            Fault(32, 1, 7, 0, 0))
    # UTIL has 14 bytes: its one table may be at byte 8 alone, between its data size at 0 and the
    # dictionary at 10
    for name, text, about in [
        ("7", "00 00 00 00 00 00 00 01 00 00 03 00 07 01",
         "at byte 7, and its data size would begin before the code"),
        ("9", "00 00 00 00 00 00 00 00 00 01 01 00 07 01",
         "at byte 9, and its level is the dictionary's first byte"),
        ("11", "00 00 00 00 00 00 00 00 00 00 FF FF 07 01",
         "at byte 11, in the dictionary, if its word is read as -1"),
        ("32768", "00 00 00 00 00 00 00 00 00 00 00 80 07 01", "32758 bytes before the code"),
    ]:
        yield refused(
            f"17-table-at-{name}", f"The unit's table would be {about}.", wanting("UTIL"),
            [{2: raw(text)}], Fault(17, 1, 7))
    yield refused(
        "17-before-18-of-an-earlier",
        "The first procedure is native, and the table of the second would be before the code.",
        wanting("UTIL"),
        [{2: Segment("UTIL", UNITSEG, three, [eof_mark(0)], changes={38: "FF FF", 10: "00"})}],
        Fault(17, 1, 7), folder="orders")
    yield refused(
        "17-before-18-of-a-later",
        "The third procedure is native, and the table of the first would be before the code.",
        wanting("UTIL"),
        [{2: Segment("UTIL", UNITSEG, three, [eof_mark(0)], changes={40: "FF FF", 34: "00"})}],
        Fault(17, 1, 7), folder="orders")
    yield refused(
        "17-of-no-body-before-18-demo",
        "The host program has no body of procedure 1, and its procedure 3 is native.",
        demo(Procedure([], at=0), second, Procedure(["AD 00"], number=3, said=0)), [],
        Fault(17, 0, 1), folder="orders")


# Where codes are, and how long they are -----------------------------------------------------------


def lengths():
    for size in (510, 512, 514, 1024):
        # 2 bytes of instructions and 14 of the table and the dictionary follow these parts
        demo = program(
            publ_ref("COUNT", [1]),
            parts=["A5", public(displacement=4), "D7" * (size - 3 - 2 - 14)])
        yield linked(
            f"code-{size}-of-the-program",
            f"A host program of {size} bytes, with link information after its blocks, and a "
            f"plain segment of {size + 1}.",
            {1: demo, 7: Segment("UTIL"), 8: Segment("TOOLS", LINKED, code=b"\xd7" * (size + 1))},
            [{2: unit_of("UTIL")}], [DEMO, UTIL, (8, 0, 8)])
    for block, slots in [(129, (3, 4)), (257, (3, 4, 5, 6))]:
        library = {**{slot: Segment(f"TOOL{slot}", LINKED, code=bytes(32767)) for slot in slots},
                   9: unit_of("UTIL", ["A5", public(displacement=1)], [publ_ref("COUNT", [1])])}
        yield linked(
            f"address-{block}", f"The unit's code is in block {block} of the library.",
            wanting("UTIL"), [library], [DEMO, (7, 1, 9)])
    tools = Segment("TOOLS", LINKED, code=bytes(k % 253 for k in range(32767)))
    host = {1: program(), **{slot: Segment("TOOLS", LINKED, shares=3) for slot in range(4, 8)},
            3: tools, 9: unit_of("LAST")}
    yield linked(
        "blocks-322",
        "Five plain segments of 32767 bytes share one code, so the linked file has a segment in "
        "block 322.",
        host, [], [DEMO, *((slot, 0, slot) for slot in range(3, 8)), (9, 0, 9)])


def refused_lengths():
    for address in (129, 257, 32769, 65535):
        yield refused(
            f"16-address-{address}", f"The unit has address {address}, past the end of the file.",
            wanting("UTIL"), [{2: unit_of("UTIL", address=address, fault=16), 3: unit_of("OTHER")}],
            Fault(16, 1, 7))
    for length, name in [(32768, "32768"), (65534, "65534"), (32767, "32767"), (3, "3"),
                         (0x8010, "32784")]:
        yield refused(
            f"11-length-{name}", f"The unit has a length of {length} bytes.", wanting("UTIL"),
            [File(
                 {2: unit_of("UTIL", length=length, fault=11)},
                 more=bytes(33000) if length == 32784 else b"")],
            Fault(11, 1, 7))
        yield refused(f"11-length-{name}-demo", f"The host program has a length of {length} bytes.",
                      {1: program(length=length, fault=11)}, [], Fault(11, 0, 1))
    yield refused(
        "11-length-2-demo", "The host program has a length of 2 bytes.",
        {1: program(length=2, fault=11)}, [], Fault(11, 0, 1))
    for length in (2, 32768):
        yield refused(
            f"11-length-{length}-more", f"An added unit has a length of {length} bytes.",
            wanting("UTIL"),
            [{2: using("UTIL", "MORE"), 3: unit_of("MORE", length=length, fault=11)}],
            Fault(11, 1, 8))
    yield refused(
        "11-length-65535-tools", "A plain segment has a length of 65535 bytes.",
        {1: program(), 9: Segment("TOOLS", LINKED, address=1, length=65535)}, [], Fault(11, 0, 9))
    yield refused(
        "16-by-one-tools", "The file ends one byte before the end of a plain segment.",
        File({1: program(), 9: Segment("TOOLS", LINKED, code=b"\1\2\3\4\5")}, cut=512 * 3 + 4), [],
        Fault(16, 0, 9))
    for name, kind, slot, address, length, number in [
        ("11-before-12", HOSTSEG, 1, 0, 17, 11), ("11-before-16", HOSTSEG, 1, 900, 17, 11),
        ("12-before-16", LINKED, 3, 0, 32767, 12),
        ("12-before-16-demo", HOSTSEG, 1, 0, 32766, 12),
        ("11-before-12-tools", LINKED, 3, 0, 32768, 11),
    ]:
        what = "The host program" if kind == HOSTSEG else "A plain segment"
        segment = (program(address=address, length=length, fault=number)
                   if kind == HOSTSEG
                   else Segment("TOOLS", LINKED, address=address, length=length))
        yield refused(
            name, f"{what} has address {address} and length {length}.",
            {1: program(), slot: segment}, [], Fault(number, 0, slot), folder="orders")


def overlaps():
    # UTIL has 600 bytes, and from its second block on, at byte 512, AUX has 88: its table,
    # dictionary and link information are the same
    records = [unit_ref("AUX", [1]), priv_ref("STATE", 3, []), eof_mark(0)]
    util = Segment(
        "UTIL", UNITSEG,
        [Procedure(["CD", unit("AUX", 5), "D7" * 510, "CD 05", "D7" * 70, "AD 00"])], records)
    end = bytes.fromhex("CD 05" + "D7" * 70 + "AD 00" + "00 00 00 00 06 00 50 02 01 00 02 00 02 01")
    aux = Segment(
        "AUX", UNITSEG, code=end, inside=(2, 1), records=records, linked={1: "08", 86: "08"})
    yield (linked(
               "codes-overlap",
               "The code of AUX is the second block of that of UTIL, with the same link "
               "information: each has "
               "its own copy.",
               wanting("UTIL", "AUX"), [{2: util, 5: aux}], [DEMO, UTIL, (8, 1, 5)],
               [(7, "STATE", 8, 3), (8, "STATE", 11, 3)], 14, 22))
    tools = bytes(k % 251 for k in range(700))
    host = {1: program(), 7: unit_of("UTIL"), 3: Segment("TOOLS", LINKED, code=tools),
            4: Segment("ONE", LINKED, code=tools[:1], inside=(3, 0)),
            5: Segment("END", LINKED, code=tools[512:], inside=(3, 1)),
            0: Segment("FIRST", LINKED, code=tools[512:600], inside=(3, 1))}
    yield linked(
        "plain-codes-overlap",
        "Three plain segments lie in the code of another, from its first and from its "
        "second block on.",
        host, [], [(0, 0, 0), DEMO, (3, 0, 3), (4, 0, 4), (5, 0, 5), (7, 0, 7)])
    demo = program(priv_ref("OWN", 1, [1]), parts=["AB", private("OWN"), "D7"])
    host = {1: demo, 3: Segment("TOOLS", LINKED, shares=1), 8: Segment("AUX", UNITSEG, shares=1)}
    yield linked(
        "code-of-the-program-shared",
        "A plain segment and a unit of the host have the program's code: the program's data "
        "size grows alone, and the unit has a private variable of its own.",
        host, [], [DEMO, (3, 0, 3), (8, 0, 8)], [(1, "OWN", 8, 1), (8, "OWN", 9, 1)], 10, 14)
    wrong = Record("X", 15, [1, 2, 3], fault=20)
    yield linked(
        "records-after-a-plain-segment",
        "A record that would be refused follows a plain segment: it is not read.",
        {1: program(), 9: Segment("TOOLS", LINKED, code=b"\xd7\x00\xff\xff", records=[wrong])}, [],
        [DEMO, (9, 0, 9)])
    # the code of UTIL ends at byte 528 of the library, that of MORE at 1552; of the host DEMO's at
    # 530, AUX's at 1552 and TOOLS' at
    # 2565
    host = File(
        {1: program(), 7: Segment("UTIL"), 9: unit_of("AUX"),
         10: Segment("TOOLS", LINKED, code=b"\1\2\3\4\5")},
        changes={530: "AA" * 494, 1552: "BB" * 496, 2565: "CC" * 507})
    library = File(
        {2: unit_of("UTIL", (), [unit_ref("MORE", [])]), 3: unit_of("MORE")},
        changes={528: "DD" * 496, 1552: "EE" * 496})
    yield linked(
        "bytes-after-codes",
        "The rest of the last block of each code is not 0, of a segment of each role: it is not "
        "copied.",
        host, [library], [DEMO, UTIL, (8, 1, 3, True), (9, 0, 9), (10, 0, 10)])


def cases():
    for made in (numbers, tables, beside, reserved, refused_tables, lengths, refused_lengths,
                 overlaps):
        yield from made()
