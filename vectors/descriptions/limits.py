"""Files that are linked and meet a limit exactly, variables of 0 words, and slots, codes and files
of special forms."""
from .links import (
    DEMO, ORDERS, UTIL, linked, one_unit, private, program, public, unit, unit_of, using, wanting,
)
from .model import (HOSTSEG, LINKED, UNITSEG, File, Procedure, Segment, eof_mark, priv_ref,
                    publ_def, publ_ref, unit_ref)


def numbers():
    """The largest numbers that are accepted (docs/LINKING.md, Limits)."""
    host = program(publ_def("LARGE", 32767), publ_def("TWO", 2))
    yield one_unit(
        "operand-32767", "Operands of 32767: the value alone, and the displacement 32765 and 2.",
        ["A5", public("LARGE"), "A5", public("TWO", 32765, 0)],
        [publ_ref("LARGE", [1]), publ_ref("TWO", [4])], host=host)
    yield one_unit("operand-32767-private", "An operand of 32767 of a private variable at 8.",
                   ["AB", private(displacement=32759)], [priv_ref("STATE", 1, [1])],
                   privates=[(7, "STATE", 8, 1)], next_free=9, data=12)
    yield one_unit("next-32767", "The last private variable ends at 32767.", ["AB", private()],
                   [priv_ref("STATE", 7, [1])], host=program(next_free=32760),
                   privates=[(7, "STATE", 32760, 7)], next_free=32767, data=24)
    yield one_unit(
        "words-32767",
        "A private variable of 32767 words from 0 on, and a data size of 65535 bytes.",
        ["AB", private(displacement=32767)], [priv_ref("STATE", 32767, [1])],
        host=program(next_free=0, data=1), privates=[(7, "STATE", 0, 32767)], next_free=32767,
        data=65535)
    yield one_unit(
        "data-65535", "The data size grows from 65527 to 65535.", ["AB", private()],
        [priv_ref("STATE", 4, [1])], host=program(data=65527), privates=[(7, "STATE", 8, 4)],
        next_free=12, data=65535)
    yield one_unit("data-65535-unchanged", "A data size of 65535, and no private words.", [], [],
                   host=program(data=65535), data=65535)
    yield one_unit("end-mark-65535", "An end mark of 65535, and no private variable.", [], [],
                   host=program(next_free=65535), next_free=65535)


def no_words():
    """Private variables of 0 words."""
    parts = ["AB", private("NONE", 4)]
    yield one_unit(
        "no-words", "A private variable of 0 words, with a reference: 8 + 4 is 12.", parts,
        [priv_ref("NONE", 0, [1])], privates=[(7, "NONE", 8, 0)])
    parts = ["AB", private("FIRST"), "AB", private("NONE"), "AB", private("LAST")]
    records = [priv_ref("FIRST", 2, [1]), priv_ref("NONE", 0, [4]), priv_ref("LAST", 3, [7])]
    yield one_unit(
        "no-words-between", "A private variable of 0 words between others.", parts, records,
        privates=[(7, "FIRST", 8, 2), (7, "NONE", 10, 0), (7, "LAST", 10, 3)], next_free=13,
        data=20)
    yield one_unit(
        "no-words-at-32767", "A private variable of 0 words at 32767.", ["AB", private("NONE")],
        [priv_ref("NONE", 0, [1])], host=program(next_free=32767), privates=[(7, "NONE", 32767, 0)],
        next_free=32767)
    yield one_unit(
        "no-words-no-references", "A private variable of 0 words without references.", [],
        [priv_ref("NONE", 0, [])], privates=[(7, "NONE", 8, 0)])


def codes():
    """The longest and the shortest codes, and where operands and tables may be."""
    # 32766 bytes: a table of ten bytes and four more follow the 32752 of instructions
    parts = ["D7" * 509, "A5", public(displacement=255), "D7" * 32235, public(displacement=1)]
    procedure = Procedure(parts)
    segment = Segment("UTIL", UNITSEG, [procedure], [publ_ref("COUNT", [510, 32747]), eof_mark(0)])
    procedure.parts = [*parts, "D7" * (32752 - 509 - 1 - 2 - 32235 - 2)]
    yield linked(
        "code-32766", "A unit of 32766 bytes, with an operand on the border of two blocks.",
        wanting("UTIL"), [{2: segment}], [DEMO, UTIL])
    host = {**wanting("UTIL"),
            8: Segment("TOOLS", LINKED, code=bytes(k % 251 for k in range(32767)))}
    yield linked("code-32767", "A plain segment of 32767 bytes.", host, [{2: unit_of("UTIL")}], [
        DEMO, UTIL, (8, 0, 8)])
    yield linked(
        "code-1", "A plain segment of one byte.",
        {1: program(), 3: Segment("ONE", LINKED, code=b"\xff")}, [], [DEMO, (3, 0, 3)])
    unit_of_4 = Segment("UTIL", UNITSEG, code=bytes.fromhex("D7 D7 07 00"), records=[eof_mark(0)])
    yield linked("code-4", "A unit of four bytes, which has no procedure.", wanting("UTIL"),
                 [{7: unit_of_4}], [DEMO, (7, 1, 7)])
    host = {**wanting("UTIL"), 8: Segment("TOOLS", LINKED, code=b"\xd7" * 512),
            9: Segment("LAST", LINKED, code=b"\xd7")}
    util = unit_of("UTIL", ["A5", public(), "D7" * 493], [publ_ref("COUNT", [1])])
    yield linked(
        "code-512", "A unit and a plain segment of 512 bytes, which is a whole block.", host,
        [{2: util}], [DEMO, UTIL, (8, 0, 8), (9, 0, 9)])
    # the table of procedure 255 is at byte 12, after four bytes of instructions; all others have it
    # too
    many = [Procedure(["D7 D7 AD 00"], number=255),
            *(Procedure([], number=k, at=12) for k in range(1, 255))]
    yield linked(
        "procedures-255", "A unit of 255 procedures, which have one table.", wanting("UTIL"),
        [{2: Segment("UTIL", UNITSEG, many, [eof_mark(0)])}], [DEMO, UTIL])
    yield linked(
        "table-at-8", "A procedure without instructions: its table is at byte 8.", wanting("UTIL"),
        [{2: Segment("UTIL", UNITSEG, [Procedure([])], [eof_mark(0)])}], [DEMO, UTIL])
    parts = [public(), public(displacement=1), unit("UTIL"), unit("UTIL", 255),
             public(displacement=2)]
    util = Segment("UTIL", UNITSEG, [Procedure(parts)], [
        publ_ref("COUNT", [6, 2, 0]), unit_ref("UTIL", [5, 4]), eof_mark(0)])
    yield linked(
        "operands-side-by-side",
        "Operands from byte 0 to the last before the table, without a gap.", wanting("UTIL"),
        [{2: util}], [DEMO, UTIL])
    yield linked(
        "procedures-without-a-body", "Procedures 1 and 3 of a unit have no body.", wanting("UTIL"),
        [{2: Segment(
             "UTIL", UNITSEG, [Procedure(["D7", "AD 00"], number=2), Procedure([], number=3, at=0)],
             [eof_mark(0)])}],
        [DEMO, UTIL])


def slots():
    """Every slot filled, and slots and files of special forms."""
    tools = {slot: Segment(f"TOOL{slot}", LINKED, code=bytes([slot] * slot))
             for slot in range(1, 15)}
    host = {0: unit_of("LOW", ["AB", private()], [priv_ref("STATE", 2, [1])]), **tools}
    host |= {5: Segment("UTIL"),
             15: program(priv_ref("OWN", 3, [1]), parts=["AB", private("OWN"), "D7"])}
    placed = [(slot, 0, slot) if slot != 5 else (5, 1, 2) for slot in range(16)]
    yield linked(
        "slots-16",
        "All slots are filled: a unit in slot 0, a wanted one in 5 and the program in 15.", host,
        [{2: unit_of("UTIL", ["CD", unit("LOW"), "01"], [unit_ref("LOW", [1])])}], placed,
        [(0, "STATE", 8, 2), (15, "OWN", 10, 3)], 13, 20)
    tools = Segment("TOOLS", LINKED, code=b"\x01\x02\x03\x04\x05")
    util = unit_of("UTIL", ["A5", public()], [publ_ref("COUNT", [1])])
    for order in ORDERS:
        yield linked(
            f"slots-16-program-first-{order}-endian",
            "All slots are filled: the program in slot 0, a unit in slot 7.",
            {**{slot: tools for slot in range(16)}, 0: program(), 7: util}, [],
            [(slot, 0, slot) for slot in range(16)], order=order)
    host = {1: program(text=7), 7: Segment("UTIL", text=9),
            12: Segment("EMPTY", LINKED, text=5, address=4)}
    yield linked(
        "texts-and-tail", "Text addresses, an address without a length, and a tail of other bytes.",
        File(host, tail={place: place % 256 for place in range(256, 512)}),
        [File({2: unit_of("UTIL", text=11)}, tail={300: 1})], [DEMO, UTIL])
    host = {**wanting("UTIL"), 8: Segment("AUX", address=0, length=24),
            9: Segment("LAST", address=900, length=0), 10: Segment("", address=0, length=24),
            11: Segment(bytes(8), address=0, length=24)}
    yield linked(
        "wanted-and-empty", "Wanted units with an address or a length, and empty slots of kind 3.",
        host, [{2: unit_of("UTIL"), 3: unit_of("AUX"), 4: unit_of("LAST")}],
        [DEMO, UTIL, (8, 1, 3), (9, 1, 4)])
    util = unit_of("UTIL", ["A5", public()], [publ_ref("COUNT", [1])], number=99)
    yield linked(
        "number-of-the-slot", "The library's code has the segment number 99.", wanting("UTIL"),
        [{2: util}], [DEMO, UTIL])
    host = {1: program(), 7: unit_of("UTIL", ["CD", unit("AUX"), "01"], [unit_ref("AUX", [1])]),
            8: Segment("AUX", UNITSEG, shares=7)}
    yield linked(
        "shared-code", "Two units of the host have one code: each gets the number of its slot.",
        host, [], [DEMO, (7, 0, 7), (8, 0, 8)])

    parts, records = ["AB", private(displacement=2)], [priv_ref("STATE", 4, [1])]
    library = {2: unit_of("UTIL", parts, records), 3: Segment("AUX", UNITSEG, shares=2)}
    yield linked(
        "shared-code-of-a-library",
        "Two units of the library have one code: each has its own private words.",
        wanting("UTIL", "AUX"), [library], [DEMO, UTIL, (8, 1, 3)],
        [(7, "STATE", 8, 4), (8, "STATE", 12, 4)], 16, 26)


def files():
    """Libraries in order, and files that end early or late."""
    util = {2: unit_of("UTIL", ["A5", public()], [publ_ref("COUNT", [1])])}
    other = {3: unit_of("UTIL", ["D7 D7"])}
    yield linked(
        "first-library", "Two libraries have the unit: it comes from the first.", wanting("UTIL"),
        [other, util], [DEMO, (7, 1, 3)])
    hidden = {2: unit_of("UTIL", length=0), 3: unit_of("NAME")}
    yield linked(
        "hidden-in-the-first", "The first library has the unit with length 0.", wanting("UTIL"),
        [hidden, util], [DEMO, (7, 2, 2)])
    plain = {2: Segment("TOOLS", LINKED, code=b"\xd7\xad")}
    yield linked(
        "library-of-unknown-order", "The first library has kinds of 0 alone, so no byte order.",
        wanting("UTIL"), [plain, util], [DEMO, (7, 2, 2)])
    yield linked(
        "libraries-40", "The fortieth library has the unit; the others are one file.",
        wanting("UTIL"), [{2: unit_of("OTHER")}, util], [DEMO, (7, 40, 2)], given=[1] * 39 + [2])
    yield linked(
        "unused-entries", "Entries of a library that the link does not use are not checked.",
        wanting("UTIL"),
        [{**util, 4: Segment("BAD", 9, address=900, length=40000),
          5: unit_of("LATE", address=900, fault=16), 6: unit_of("UTILS", length=3, fault=11)}],
        [DEMO, UTIL])
    # UTIL's information: a PUBLREF and its list of 32 bytes, and the end mark, from byte 1024 on
    yield linked(
        "cut-after-the-end-mark", "The library ends with the end mark, and not with a block.",
        wanting("UTIL"), [File(util, cut=1072)], [DEMO, UTIL])
    host = {1: program(), 9: Segment("TOOLS", LINKED, code=b"\x01\x02\x03\x04\x05")}
    yield linked("cut-after-the-code", "The host ends with the last byte of a plain segment.",
                 File(host, cut=512 * 3 + 5), [], [DEMO, (9, 0, 9)])
    # the code of the host program ends at byte 530, that of UTIL at 528
    yield linked(
        "padding",
        "The bytes between a code and the end of its block are not 0: they are not copied.",
        File(wanting("UTIL"), changes={530: "D7 D7", 1023: "D7"}),
        [File({2: unit_of("UTIL")}, changes={528: "D7"})], [DEMO, UTIL])
    yield linked(
        "longer", "Bytes after the last block that the link does not read.",
        File({1: program()}, more=b"\x1a" * 700),
        [File({2: using("OTHER", "NOBODY")}, more=b"\xff")], [DEMO])


def behind_a_mebibyte():
    """Codes in block 2049 and later, of a library and of a host."""
    util = unit_of("UTIL", ["A5", public(displacement=1)], [publ_ref("COUNT", [1])])
    util.before = 2048
    yield linked(
        "address-2049", "The library has the unit behind a mebibyte.", wanting("UTIL"), [{2: util}],
        [DEMO, UTIL])
    host = {1: program(), 9: Segment("TOOLS", LINKED, code=b"\1\2\3\4\5", before=2048),
            10: unit_of("AUX", ["D7"])}
    yield linked(
        "address-2051-of-the-host-big-endian",
        "The host has a plain segment and a unit behind a mebibyte.", host, [],
        [DEMO, (9, 0, 9), (10, 0, 10)], order="big")


def ends_of_hosts():
    """A host that ends with the end mark of a unit: two blocks of the program, one of the unit's
    code, and a record and its list."""
    for order in ORDERS:
        host = {1: program(), 9: unit_of("AUX", ["A5", public()], [publ_ref("COUNT", [1])])}
        yield linked(
            f"cut-after-a-unit-of-the-host-{order}-endian",
            "The host ends with the end mark of a unit.", File(host, order, cut=512 * 4 + 48), [],
            [DEMO, (9, 0, 9)], order=order)


def amounts():
    """Many procedures, segments, private variables and definitions, and a unit that a late library
    has."""
    records = [publ_ref("COUNT", [1]), priv_ref("STATE", 4, [4]), eof_mark(0)]
    for count in (250, 255):
        # the ten bytes of instructions are those of the last procedure, so its table is at byte 18,
        # and all others have it too
        last = Procedure(
            ["A5", public(), "AB", private(displacement=2), "D7 D7 AD 00"], number=count)
        many = [last, *(Procedure([], number=k, at=18) for k in range(1, count))]
        yield linked(
            f"procedures-{count}-operands", f"A unit of {count} procedures, with operands.",
            wanting("UTIL"), [{2: Segment("UTIL", UNITSEG, many, records)}], [DEMO, UTIL],
            [(7, "STATE", 8, 4)], 12, 18)
    alone = Segment("DEMO", HOSTSEG, [Procedure(["D7 D7 C1 00"], parameters=4, data=10)], [
        eof_mark(8)])
    for count in range(12, 17):
        host = {slot: alone if slot == 1 else Segment(f"TOOL{slot}", LINKED, code=bytes([slot] * 5))
                for slot in range(count)}
        yield linked(f"segments-{count}", f"{count} segments, and no definition.", host, [],
                     [(slot, 0, slot) for slot in range(count)])
    other = {2: unit_of("OTHER")}
    for count in (3, 4, 5):
        libraries = [{2: using("UTIL", "MORE")}, other,
                     {3: unit_of("MORE", ["A5", public()], [publ_ref("COUNT", [1])])}]
        yield linked(
            f"added-from-library-{count}",
            f"Library {count} has the added unit; the one before it is given "
            f"{count - 2} times.",
            wanting("UTIL"), libraries, [DEMO, UTIL, (8, count, 3, True)],
            given=[1, *[2] * (count - 2), 3])
    # offsets 8 to 1506, and 1507 with the displacement 2; the data size is 10 and two bytes for
    # each of 1500 words
    numbered = [(7, f"{k:08}", 8 + k, 1) for k in range(1499)]
    yield one_unit(
        "privates-1500", "A unit of 1500 private variables of one word each.",
        ["A5", public(), "AB", private(displacement=2)],
        [publ_ref("COUNT", [1]), *(priv_ref(name, 1, []) for _, name, _, _ in numbered),
         priv_ref("STATE", 1, [4])],
        privates=[*numbered, (7, "STATE", 1507, 1)], next_free=1508, data=3010)
    for count in (4095, 4096, 4097):
        last = f"{count - 1:08}"
        host = program(*(publ_def(f"{k:08}", 5) for k in range(1, count)))
        yield one_unit(
            f"definitions-{count}", f"A host of {count} definitions.", ["A5", public(last, 1)],
            [publ_ref(last, [1])], host=host)


def cases():
    yield from numbers()
    yield from no_words()
    yield from codes()
    yield from slots()
    yield from files()
    yield from behind_a_mebibyte()
    yield from ends_of_hosts()
    yield from amounts()
