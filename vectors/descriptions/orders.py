"""Several faults at one place: of one reference, of one list, of one segment, and of segments whose
slots are in another order than their files. The first is reported (docs/LINKING.md, The order of
faults)."""
from .cases import Fault
from .links import code_of, program, refused, unit_of, wanting
from .model import (UNITSEG, Record, Segment, const_def, eof_mark, priv_ref, publ_def, publ_ref,
                    unit_ref)

# The code of UTIL: displacements of 0 at byte 0 and of 32767 at 8 and, with the data size, at 11; a
# table at 20, whose reserved bytes begin at 12; and 26 bytes in all. COUNT is 3 and ZERO is 0, so
# COUNT at 8 is fault 34, a PUBLREF at 12 is 32 and at 25 is 31
CODE = "80 00 7F FF 80 00 80 00 FF FF 80 FF"
FREE, LARGE, LAST, TABLE, END = 0, 8, 11, 12, 25


def util(*records, name="UTIL"):
    [procedure] = code_of()
    procedure.parts, procedure.data = [CODE], 255
    return Segment(name, UNITSEG, [procedure], [*records, eof_mark(0)])


def host(**fields):
    return program(publ_def("ZERO", 0), const_def("LIMIT", 5), **fields)


def case(name, about, records, fault):
    return refused(
        name, about, wanting("UTIL", host=host()), [{2: util(*records)}], fault, folder="orders")


def of_one_reference():
    byte = unit_ref("UTIL", [LAST])
    yield case(
        "32-before-33-and-34",
        "An operand whose first byte an earlier one has, whose second is reserved, and which "
        "is too large.",
        [byte, publ_ref("COUNT", [LAST])], Fault(32, 1, 7, 1, 0))
    yield case(
        "32-before-33",
        "An operand whose first byte an earlier one has, and whose second is reserved.",
        [byte, publ_ref("ZERO", [LAST])], Fault(32, 1, 7, 1, 0))
    yield case(
        "32-before-34", "An operand whose second byte is reserved, and which is too large.",
        [publ_ref("COUNT", [LAST])], Fault(32, 1, 7, 0, 0))
    yield case("32-before-33-twice", "A reserved byte to which two references of a list refer.",
               [publ_ref("ZERO", [FREE]), unit_ref("UTIL", [TABLE, TABLE])],
               Fault(32, 1, 7, 1, 0))
    for first, about in [(LARGE, "first"), (LARGE + 1, "second")]:
        yield case(
            f"33-before-34-{about}",
            f"An operand whose {about} byte that of a UNITREF has, and which is too large.",
            [unit_ref("UTIL", [first]), publ_ref("COUNT", [LARGE])], Fault(33, 1, 7, 1, 0))
        yield case(
            f"33-over-a-unitref-{about}", f"An operand whose {about} byte that of a UNITREF has.",
            [unit_ref("UTIL", [first]), publ_ref("ZERO", [LARGE])], Fault(33, 1, 7, 1, 0))
    yield case(
        "33-before-34-of-one-place",
        "Two PUBLREFs refer to one operand, which is too large for the second alone.",
        [publ_ref("ZERO", [LARGE]), publ_ref("COUNT", [LARGE])], Fault(33, 1, 7, 1, 0))
    yield case(
        "33-unitref-twice", "A UNITREF refers to one byte twice.", [unit_ref("UTIL", [FREE, FREE])],
        Fault(33, 1, 7, 0, 1))
    yield case(
        "33-unitref-in-an-operand", "A UNITREF refers to the first byte of an earlier operand.",
        [publ_ref("ZERO", [FREE]), unit_ref("UTIL", [FREE])], Fault(33, 1, 7, 1, 0))
    yield case(
        "33-third", "The third reference of a list shares a byte with the first.",
        [publ_ref("ZERO", [FREE, 4, FREE + 1])], Fault(33, 1, 7, 0, 2))
    yield case(
        "33-far-record", "The fourth record shares a byte with the first.",
        [publ_ref("ZERO", [4]), priv_ref("STATE", 1, []), publ_def("X", 1), unit_ref("UTIL", [5])],
        Fault(33, 1, 7, 3, 0))
    yield case(
        "31-before-32",
        "An operand whose first byte is reserved and whose second is past the code.",
        [priv_ref("STATE", 1, [END])], Fault(31, 1, 7, 0, 0))
    for number, name in [(28, "NONE"), (29, "LIMIT")]:
        for later, place in [(31, END), (32, TABLE), (34, LARGE), (33, FREE)]:
            yield case(
                f"{number}-before-{later}-of-its-reference",
                f"The name of a PUBLREF is fault {number}, and its reference would " f"be {later}.",
                [unit_ref("UTIL", [FREE]), publ_ref(name, [place])], Fault(number, 1, 7, 1))


PLACES = {31: END, 32: TABLE, 33: FREE, 34: LARGE}  # after a UNITREF to byte 0


def of_one_list():
    """A reference of a higher number before one of a lower number: in one list, and in two
    records."""
    first = unit_ref("UTIL", [FREE])
    for number in (32, 33, 34):
        for later in range(31, number):
            yield case(
                f"{number}-before-{later}-in-a-list",
                f"The second reference of a list is fault {number}, and the " f"third {later}.",
                [first, publ_ref("COUNT", [4, PLACES[number], PLACES[later]])],
                Fault(number, 1, 7, 1, 1))
            yield case(
                f"{number}-before-{later}-in-a-record",
                f"A reference of a record is fault {number}, and one of the next "
                f"record {later}.",
                [first, publ_ref("COUNT", [4, PLACES[number]]), publ_ref("COUNT", [PLACES[later]])],
                Fault(number, 1, 7, 1, 1))
    for number in (31, 32, 33, 34):
        for later, name in [(28, "NONE"), (29, "LIMIT")]:
            yield case(
                f"{number}-before-{later}-in-a-record",
                f"A reference of a record is fault {number}, and the name of the " f"next {later}.",
                [first, publ_ref("COUNT", [PLACES[number]]), publ_ref(name, [])],
                Fault(number, 1, 7, 1, 0))
    yield case(
        "29-before-28-in-a-record", "The name of a record is fault 29, and that of the next 28.",
        [publ_ref("LIMIT", []), publ_ref("NONE", [])], Fault(29, 1, 7, 0))
    yield case(
        "34-of-a-private-before-31",
        "A PRIVREF's operand is too large, and the next record's is past the code.",
        [priv_ref("STATE", 1, [LARGE]), publ_ref("COUNT", [END])], Fault(34, 1, 7, 0, 0))


def of_one_segment():
    """Private variables in record order, and the first of each step."""
    yield case(
        "26-before-25", "A private variable does not fit, and the next has the name of one before.",
        [priv_ref("A", 1, []), priv_ref("B", 32767, []), priv_ref("A", 1, [])], Fault(26, 1, 7, 1))
    yield case(
        "26-before-25-of-its-name", "A private variable does not fit, and the next has its name.",
        [priv_ref("B", 32767, []), priv_ref("B", 1, [])], Fault(26, 1, 7, 0))
    yield case(
        "25-before-26", "A private variable has the name of one before, and the next does not fit.",
        [priv_ref("A", 1, []), priv_ref("A", 1, []), priv_ref("B", 32767, [])], Fault(25, 1, 7, 1))
    yield case(
        "25-before-26-of-one-record",
        "A private variable has the name of one before, and does not fit.",
        [priv_ref("A", 1, []), priv_ref("A", 32767, [])], Fault(25, 1, 7, 1))
    yield (case(
               "26-before-28",
               "A private variable does not fit, and the record before it has a name without a "
               "definition.",
               [publ_ref("NONE", []), priv_ref("B", 32767, [])], Fault(26, 1, 7, 1)))
    yield case(
        "25-before-34", "A private variable is there twice, and an operand before is too large.",
        [publ_ref("COUNT", [LARGE]), priv_ref("A", 1, []), priv_ref("A", 1, [])],
        Fault(25, 1, 7, 2))
    large = wanting("UTIL", host=host(data=65535))
    yield refused(
        "26-before-27", "A private variable does not fit, and the data size would be too large.",
        large, [{2: util(priv_ref("B", 32767, []))}], Fault(26, 1, 7, 0), folder="orders")
    yield refused(
        "27-before-28", "The data size would be too large, and a name has no definition.", large,
        [{2: util(publ_ref("NONE", []), priv_ref("B", 1, []))}], Fault(27, 0, 1), folder="orders")
    yield refused(
        "24-before-25", "The host defines a name twice, and UTIL has a private variable twice.",
        wanting("UTIL", host=host()) | {1: program(publ_def("COUNT", 1))},
        [{2: util(priv_ref("A", 1, []), priv_ref("A", 1, []))}], Fault(24, 0, 1, 1),
        folder="orders")
    for number, type in [(20, 15), (21, 9), (22, 12)]:
        later = {20: Record("X", 9, [0, 0, 0], fault=21), 21: Record("X", 15, [0, 0, 0], fault=20),
                 22: Record("X", 15, [0, 0, 0], fault=20)}[number]
        yield case(
            f"{number}-of-the-first-record",
            f"A record has type {type}, and the next another one that is refused.",
            [publ_def("X", 1), Record("X", type, [0, 0, 0], fault=number), later],
            Fault(number, 1, 7, 1))


def wrong_record(number):
    type, words = {20: (15, [0, 0, 0]), 21: (9, [0, 0, 0]), 22: (12, [0, 0, 0]),
                   23: (3, [1, 0, 0])}[number]
    return Record("X", type, words, [] if type == 3 else None, fault=number)


def by_slot():
    """The program is in a slot behind those of units, which come before it in each step."""
    def segments(low, high, name, about, fault, libraries=()):
        return refused(name, about, {7: low, 12: high}, libraries, fault, folder="orders")

    behind = "The program is in slot 12 and a unit in slot 7:"
    native, no_dictionary = {"changes": {10: "00"}}, {"changes": {15: "FF"}}
    demo_native, demo_dictionary = {"changes": {12: "00"}}, {"changes": {17: "FF"}}
    yield segments(unit_of("UTIL", length=15, fault=11), program(length=17, fault=11), "11-by-slot",
                   f"{behind} both have an odd length.", Fault(11, 0, 7))
    yield segments(
        unit_of("UTIL", address=900, fault=16), program(address=0, fault=12), "16-by-slot",
        f"{behind} its code is past the file, and the program's at 0.", Fault(16, 0, 7))
    yield segments(
        unit_of("UTIL", **native), program(**demo_dictionary), "18-by-slot",
        f"{behind} its procedure is native, and the program's dictionary is too long.",
        Fault(18, 0, 7))
    yield segments(
        unit_of("UTIL", **no_dictionary), program(**demo_native), "17-by-slot",
        f"{behind} its dictionary is too long, and the program's procedure is native.",
        Fault(17, 0, 7))
    yield segments(
        Segment("UTIL"), program(**demo_dictionary), "13-by-slot",
        "The program is in slot 12, with a dictionary that is too long, and slot 7 wants a unit.",
        Fault(13, 0, 7))
    for number, later in [(20, 21), (21, 20), (22, 20), (23, 20)]:
        yield segments(
            unit_of("UTIL", (), [wrong_record(number)]), program(wrong_record(later)),
            f"{number}-by-slot",
            f"{behind} a record of it is fault {number}, and one of the program {later}.",
            Fault(number, 0, 7, 0))
    yield segments(
        unit_of("UTIL", (), [wrong_record(20)]), program(**demo_dictionary), "20-by-slot-before-17",
        f"{behind} a record of it has type 15, and the program's dictionary is too long.",
        Fault(20, 0, 7, 0))
    twice = [priv_ref("A", 1, []), priv_ref("A", 1, [])]
    yield segments(
        unit_of("UTIL", (), twice), program(*twice), "25-by-slot",
        f"{behind} both have a private variable twice.", Fault(25, 0, 7, 1))
    full = [priv_ref("A", 32700, [])]
    yield segments(
        unit_of("UTIL", (), full), program(*full, next_free=100), "26-by-slot-of-the-unit",
        f"{behind} neither has room for its private variable.", Fault(26, 0, 7, 0))
    yield segments(
        unit_of("UTIL", (), [priv_ref("A", 20000, [])]), program(priv_ref("A", 20000, [])),
        "26-by-slot-of-the-program",
        f"{behind} the program has no room for its private variable after that of the unit.",
        Fault(26, 0, 12, 1))
    yield segments(
        unit_of("UTIL", (), [publ_ref("NONE", [])]), program(publ_ref("NONE", [])), "28-by-slot",
        f"{behind} both refer to a name without a definition.", Fault(28, 0, 7, 0))
    yield segments(
        unit_of("UTIL", (), [publ_ref("COUNT", [2])]), program(publ_ref("NONE", [])), "32-by-slot",
        f"{behind} a reference of it is reserved, and the program refers to a name without a "
        "definition.",
        Fault(32, 0, 7, 0, 0))
    yield segments(
        unit_of("UTIL", (), [publ_ref("COUNT", [15])]), program(publ_ref("COUNT", [17])),
        "31-by-slot", f"{behind} both have a reference past the code.", Fault(31, 0, 7, 0, 0))
    yield segments(
        unit_of("UTIL", (), [unit_ref("NOBODY", [])]), program(unit_ref("NOBODY", [])),
        "13-by-slot-of-the-asking", f"{behind} both request what no library has.",
        Fault(13, 0, 7, 0))
    # a wanted unit in slot 3, the program in 5 and a unit of the host in 9: 28 in each, in turn
    undefined = [publ_ref("NONE", [])]
    for first, slot, file in [("wanted", 3, 1), ("program", 5, 0), ("unit", 9, 0)]:
        records = {name: undefined if name in ("wanted", "program", "unit")[
                       ("wanted", "program", "unit").index(first):] else []
                   for name in ("wanted", "program", "unit")}
        yield refused(
            f"28-from-the-{first}-on",
            f"A wanted unit is in slot 3, the program in 5 and a unit in 9: those from the "
            f"{first} on refer to a name without a definition.",
            {3: Segment("UTIL"), 5: program(*records["program"]),
             9: unit_of("AUX", (), records["unit"])},
            [{2: unit_of("UTIL", (), records["wanted"])}],
            Fault(28, file, slot, 1 if first == "program" else 0), folder="orders")
    yield refused(
        "34-before-28-of-a-later-slot",
        "A unit in slot 0 has an operand that is too large, and the program in slot 1 refers "
        "to a name without a definition.",
        {0: util(publ_ref("COUNT", [LARGE]), name="LOW"), 1: program(publ_ref("NONE", []))}, [],
        Fault(34, 0, 0, 0, 0), folder="orders")
    yield refused(
        "24-slot-15-big-endian", "The program is in slot 15 and defines a name twice.",
        {15: program(publ_def("COUNT", 9))}, [], Fault(24, 0, 15, 1), "big")
    yield refused(
        "28-slot-15-big-endian",
        "The program is in slot 15 and refers to a name without a definition.",
        {15: program(publ_ref("NONE", []))}, [], Fault(28, 0, 15, 1), "big")
    yield refused(
        "31-slot-15-big-endian",
        "The program is in slot 15 and refers to the last byte of its code.",
        {15: program(publ_ref("COUNT", [17]))}, [], Fault(31, 0, 15, 1, 0), "big")


def cases():
    for made in (of_one_reference, of_one_list, of_one_segment, by_slot):
        yield from made()
