"""Dictionaries and the texts of files: what is copied of the host's, how a byte order is found,
which slots are of which role, and shows and maps with numbers of sixteen bits in each part."""
from .cases import Fault
from .links import (DEMO, UTIL, linked, one_unit, private, program, public, refused, unit, unit_of,
                    wanting)
from .model import (HOSTSEG, LINKED, PRIVREF, PUBLREF, UNITREF, UNITSEG, File, Record, Segment,
                    const_def, eof_mark, priv_ref, publ_def, publ_ref, unit_ref)

TOOLS = Segment("TOOLS", LINKED, code=b"\xd7\xad\x00\x01\x01")


# What the linked file has of the host's dictionary ------------------------------------------------


def copied():
    texts = {slot: Segment(f"EMPTY{slot}", LINKED, text=65535 - slot) for slot in range(16)}
    host = {**texts, 1: program(text=257), 7: Segment("UTIL", text=513),
            9: Segment("TOOLS", LINKED, code=b"\xd7", text=7)}
    for order in ("little", "big"):
        yield linked(
            f"tail-and-texts-{order}-endian",
            "No byte of the tail is 0, each slot has a text address, and each empty "
            "slot a name.",
            File(host, order, tail={place: 1 + place % 255 for place in range(256, 512)}),
            [{2: unit_of("UTIL", text=11)}], [DEMO, UTIL, (9, 0, 9)], order=order)
    for place in (256, 511):
        yield linked(
            f"tail-byte-{place}",
            f"Of the host's tail byte {place} alone is not 0, and of the library's every byte.",
            File(wanting("UTIL"), tail={place: 0xEE}),
            [File({2: unit_of("UTIL")}, tail={at: 0x55 for at in range(256, 512)})], [DEMO, UTIL])
    yield linked(
        "text-of-slot-15", "Slot 15 alone has a text address, in the last byte before the tail.",
        {1: program(), 15: Segment("LAST", LINKED, text=0x2A00)}, [], [DEMO])
    names = {slot: Segment(bytes([slot] * 8), LINKED) for slot in range(16)}
    yield linked("names-of-empty-slots", "The empty slots have names of bytes that are no text.",
                 {**names, 1: program(), 7: Segment("UTIL")},
                 [{2: unit_of("UTIL")}], [DEMO, UTIL])
    kinds = {8: 8, 9: 255, 10: 2, 11: 4, 12: 5}
    host = {1: program(),
            **{slot: Segment("", kind, address=slot, length=0) for slot, kind in kinds.items()}}
    for order in ("little", "big"):
        yield linked(
            f"kinds-of-empty-slots-{order}-endian", "Empty slots have kinds above 1 and addresses.",
            host, [], [DEMO], order=order)


# Byte orders --------------------------------------------------------------------------------------


def orders():
    util = {2: unit_of("UTIL")}
    for place, what in [(193, "slot 0"), (207, "slot 7"), (223, "slot 15")]:
        yield refused(
            f"2-byte-{place}",
            f"The little-endian host has 1 in byte {place}: the high byte of the kind of {what}.",
            File(wanting("UTIL"), changes={place: "01"}, refused=2), [util], Fault(2, 0))
    for place, what in [(192, "slot 0"), (222, "slot 15")]:
        yield refused(
            f"2-byte-{place}-big-endian",
            f"The big-endian host has 1 in byte {place}: the high byte of the kind of {what}.",
            File(wanting("UTIL"), "big", changes={place: "01"}, refused=2), [File(util, "big")],
            Fault(2, 0))
    yield refused("2-of-one-pair", "The host's one kind that is not 0 has two bytes, 01 01.",
                  File({1: Segment("DEMO", LINKED)}, changes={194: "01 01"}, refused=2),
                  [], Fault(2, 0))
    yield refused("2-large", "The kind of slot 15 of the library is 65535.", wanting("UTIL"),
                  [File(util, changes={222: "FF FF"}, refused=2)], Fault(2, 1))
    yield refused(
        "2-unused", "A library that the link does not need has kinds in both orders.",
        {1: program()}, [File(util, changes={223: "80"}, refused=2)], Fault(2, 1))
    yield refused(
        "1-unused", "A library that the link does not need has 511 bytes.", {1: program()},
        [File(util, cut=511, refused=1)], Fault(1, 1))
    yield refused(
        "3-unused", "A library that the link does not need is big-endian.", {1: program()},
        [File(util, "big")], Fault(3, 1))
    for cut in (0, 1):
        yield refused(
            f"1-of-{cut}-bytes", f"The library has {cut} bytes.", wanting("UTIL"),
            [File(util, cut=cut, refused=1)], Fault(1, 1))
        yield refused(
            f"1-of-{cut}-bytes-host", f"The host has {cut} bytes.",
            File({1: program()}, cut=cut, refused=1), [], Fault(1, 0))
    yield linked(
        "library-of-512-bytes",
        "The library has a dictionary alone, in which one slot wants a unit.", {1: program()},
        [{2: Segment("UTIL")}], [DEMO])
    yield linked(
        "library-of-zeros", "The library has 512 zero bytes.", wanting("UTIL"),
        [File({slot: Segment(bytes(8), LINKED) for slot in range(16)}), util], [DEMO, (7, 2, 2)])
    # the kind of one empty slot decides the order of a library
    for slot in (0, 15):
        host_big = File({1: program()}, "big")
        yield refused(
            f"3-kind-of-slot-{slot}",
            f"The library has linked segments, and in the empty slot {slot} the kind 3, "
            f"little-endian. The host is big-endian.",
            host_big, [{slot: Segment(""), 4: TOOLS}], Fault(3, 1))
        yield linked(
            f"order-by-slot-{slot}-alone",
            f"The library's one kind that is not 0 is that of the empty slot {slot}, "
            f"big-endian as the host.",
            host_big, [File({slot: Segment(""), 4: TOOLS}, "big")], [DEMO], order="big")
    yield refused(
        "3-large-kind", "The library's one kind that is not 0 is 255, big-endian.", {1: program()},
        [File({9: Segment("X", 255, address=1, length=0)}, "big")], Fault(3, 1))
    yield linked(
        "library-of-unknown-order-big-endian",
        "The host is big-endian, and the library has linked segments alone.",
        File({1: program()}, "big"),
        [File({2: TOOLS, 3: Segment("EMPTY", LINKED, text=258, address=4660)}, "big")], [DEMO],
        order="big")
    yield refused(
        "14-of-a-linked-file-big-endian",
        "The host is big-endian, and the library's UTIL is a linked segment.",
        File(wanting("UTIL"), "big"), [File({2: Segment("UTIL", LINKED, code=b"\xd7")}, "big")],
        Fault(14, 1, 7, kind=0))
    yield refused(
        "4-linked-file", "The host is a linked file.",
        File({1: Segment("DEMO", LINKED, code=b"\xd7\xd7")}), [util], Fault(4, 0))
    yield refused(
        "4-library", "The host is a library: it has a unit and no program.", {2: unit_of("UTIL")},
        [util], Fault(4, 0))
    yield refused(
        "4-before-13", "The host has no program, and wants a unit that no library has.",
        {2: Segment("NOBODY")}, [util], Fault(4, 0), folder="orders")
    yield refused(
        "4-before-12", "The host has no program, and a plain segment with address 0.",
        {2: Segment("TOOLS", LINKED, address=0, length=5), 3: unit_of("UTIL")}, [], Fault(4, 0),
        folder="orders")


# Roles of the host's slots ------------------------------------------------------------------------


def roles():
    for number, kind in [(7, 2), (8, 4), (9, 5), (9, 6), (9, 7), (10, 8), (10, 9), (10, 128)]:
        yield refused(
            f"{number}-kind-{kind}-no-address",
            f"Slot 12 has kind {kind}, a length and no address, so it is filled.",
            {1: program(), 12: Segment("PART", kind, address=0, length=18)}, [],
            Fault(number, 0, 12))
    yield refused(
        "5-no-address", "Slot 12 has kind 1, a length and no address, so it is a second program.",
        {1: program(), 12: Segment("PART", HOSTSEG, address=0, length=18, fault=12)}, [],
        Fault(5, 0, 12))
    yield refused(
        "5-before-11", "Slot 12 has kind 1 and an odd length, so it is a second program.",
        {1: program(), 12: Segment("PART", HOSTSEG, address=1, length=1, fault=11)}, [],
        Fault(5, 0, 12), folder="orders")
    yield refused(
        "5-third", "Slots 3, 9 and 15 are programs.", {slot: program() for slot in (3, 9, 15)}, [],
        Fault(5, 0, 9))
    yield refused(
        "7-length-1", "Slot 12 has kind 2 and one byte.",
        {1: program(), 12: Segment("PART", 2, code=b"\xd7")}, [], Fault(7, 0, 12))
    for name, unit_there in [("wanted-with-an-address", Segment("UTIL", address=7)),
                             ("wanted-with-a-length", Segment("UTIL", length=18))]:
        yield refused(
            f"6-{name}", "Slot 12 wants UTIL, as slot 7 does.", {**wanting("UTIL"), 12: unit_there},
            [{2: unit_of("UTIL")}], Fault(6, 0, 12))
    yield refused("6-third", "Slots 3, 7 and 12 have one name.",
                  {1: program(), 3: unit_of("UTIL"), 7: unit_of("UTIL"), 12: unit_of("UTIL")}, [],
                  Fault(6, 0, 7))
    yield refused(
        "12-plain-without-a-name", "A plain segment has a blank name, a length and no address.",
        {1: program(), 12: Segment("", LINKED, address=0, length=5)}, [], Fault(12, 0, 12))
    yield linked(
        "doubled-plain-segments",
        "Plain segments have one name, that of the program and that of a unit.",
        {1: program(), 3: Segment("DEMO", LINKED, code=b"\x01"),
         4: Segment("DEMO", LINKED, code=b"\x02"), 5: Segment("UTIL", LINKED, code=b"\x03"),
         6: Segment("UTIL", LINKED, code=b"\x04"), 7: unit_of("UTIL")},
        [], [DEMO, *((slot, 0, slot) for slot in range(3, 8))])


# Numbers of sixteen bits --------------------------------------------------------------------------


def shown():
    """A library that the link does not use, with large numbers in each part of its show."""
    for order in ("little", "big"):
        records = [Record("ONE", UNITREF, [1, 3], [65535, 4660, 256]),
                   Record("TWO", PUBLREF, [2, 3], [32768, 52651, 255]),
                   Record("THREE", PRIVREF, [2, 2, 65535], [65534, 258]), publ_def("FOUR", 65535),
                   const_def("FIVE", 65534), publ_def("SIX", 4660), const_def("SEVEN", 13330),
                   priv_ref("EIGHT", 4660, []), publ_def("NINE", 32768), eof_mark(65535)]
        library = {2: Segment("UTIL", UNITSEG, code=bytes.fromhex("D7 D7 02 00"), records=records),
                   3: Segment("A", 255, address=65535, length=65535, text=65535),
                   4: Segment("B", 18, address=4660, length=22136, text=39612),
                   5: Segment("C", LINKED, address=32768, length=256, text=255),
                   15: Segment("D", 5, address=255, length=32768, text=256),
                   0: Segment("E", address=513, length=0, text=1027)}
        yield linked(
            f"show-large-numbers-{order}-endian",
            "A library that is not used has numbers of sixteen bits in each part " "of its show.",
            {1: program()}, [library], [DEMO], order=order)
        records = [publ_def("A", 65535), const_def("B", 65535), publ_def("C", 4660),
                   const_def("D", 13330), priv_ref("E", 4660, []), publ_ref("COUNT", [1])]
        host = program(
            *records, parts=["A5", public(displacement=4660)], next_free=13330, data=4660)
        yield linked(
            f"map-large-numbers-{order}-endian",
            "The map has numbers of sixteen bits: 4660 is 12 34 in hexadecimal, and "
            "13330 34 12.",
            {1: host}, [], [DEMO], [(1, "E", 13330, 4660)], 17990, 13980, order)
        yield linked(
            f"map-next-65535-{order}-endian",
            "The end mark and the data size are 65535, and there is no private variable.",
            {1: program(next_free=65535, data=65535)}, [], [DEMO], next_free=65535, data=65535,
            order=order)
        yield linked(
            f"map-next-4660-{order}-endian",
            "The end mark is 4660 and the data size 13330, and there is no private variable.",
            {1: program(next_free=4660, data=13330)}, [], [DEMO], next_free=4660, data=13330,
            order=order)


def shown_faults():
    """A library that the link does not use, whose codes and records are refused when they are
    shown."""
    def unit_with(record, count):
        return unit_of(f"RECORD{record.fault}", (), [
            *(publ_def(f"N{k}", k) for k in range(count)), record])

    library = {
        0: Segment("ADDRESS", HOSTSEG, address=0, length=18, fault=12),
        1: Segment("ODD", HOSTSEG, address=1, length=17, fault=11),
        2: Segment("SHORT", UNITSEG, address=1, length=2, fault=11),
        3: Segment("LONG", UNITSEG, address=1, length=32768, fault=11),
        4: Segment("CUT", UNITSEG, address=900, length=18, fault=16),
        5: Segment("BOTH", UNITSEG, address=900, length=17, fault=11),
        6: Segment("FAR", HOSTSEG, address=65535, length=32766, fault=16),
        7: Segment("ZERO", HOSTSEG, address=0, length=3, fault=11),
        8: unit_with(Record("A", 15, [1, 2, 3], fault=20), 1),
        9: unit_with(Record("B", 6, [1, 2, 3], fault=21), 2),
        10: unit_with(Record("C", UNITREF, [0, 1], [1], fault=21), 3),
        11: unit_with(Record("D", 14, [1, 2, 3], fault=22), 4),
        12: unit_with(Record("E", PRIVREF, [1, 1, 3], [1], fault=23), 5),
        13: unit_with(Record("F", PUBLREF, [2, 65535, 0], [], fault=19), 10),
        14: Segment("OTHER", 2, address=900, length=18),
        15: Segment("WANTED", UNITSEG, address=0, length=18),
    }
    for order in ("little", "big"):
        yield linked(
            f"show-faults-{order}-endian",
            "A library that is not used has codes and records that are refused, which "
            "its show says.",
            {1: program()}, [library], [DEMO], order=order)
    # the procedure tables, the definitions and the places of references of a unit are no matter to
    # show
    bad = Segment(
        "BAD", UNITSEG, code=bytes.fromhex("FF FF FF FF 00 FF"),
        records=[publ_def("A", 1), publ_def("A", 2), priv_ref("P", 1, [9]),
                 priv_ref("P", 1, [9, 9]), publ_ref("NONE", [65535]), eof_mark(3)])
    yield linked(
        "show-checks-no-tables",
        "A library that is not used has a unit whose tables, definitions and references a link "
        "would refuse.",
        {1: program()},
        [{2: bad, 3: Segment("TWO", HOSTSEG, shares=2), 4: Segment("TWO", UNITSEG, shares=2),
          5: Segment("TWO", UNITSEG, shares=2)}],
        [DEMO])
    # which names are units of the file: that of an empty slot with a name of another kind, and of
    # the program, are not
    user = unit_of(
        "USER", (),
        [unit_ref(name, []) for name in ("EMPTY", "PROGRAM", "WANTED", "USER", "PLAIN", "user",
                                         "USER\0", "", "ZEROLEN")])
    yield (linked(
               "show-unlisted",
               "A library that is not used has UNITREFs to names of an empty slot, of a program, "
               "of wanted units "
               "and of none.",
               {1: program()},
               [{2: user, 3: Segment("EMPTY", HOSTSEG, address=1, length=0),
                 4: Segment("PROGRAM", HOSTSEG, shares=2), 5: Segment("WANTED"),
                 6: Segment("PLAIN", LINKED, code=b"\xd7"), 7: Segment(""),
                 8: Segment("ZEROLEN", UNITSEG, address=0, length=9)}],
               [DEMO]))
    names = {slot: Segment(bytes(range(8 * slot, 8 * slot + 8)), LINKED) for slot in range(16)}
    high = {slot: Segment(bytes(range(128 + 8 * slot, 136 + 8 * slot)), LINKED)
            for slot in range(16)}
    yield linked(
        "show-names", "Libraries that are not used have every byte in the names of their slots.",
        {1: program()}, [names, high], [DEMO])
    every = [publ_def(bytes(range(8 * k, 8 * k + 8)), k) for k in range(32)]
    yield (linked(
               "map-names",
               "The definitions of the host and a unit's private variables have every byte in "
               "their names.",
               {1: program(*every),
                7: unit_of("UTIL", (), [priv_ref(one.name, 1, []) for one in every])},
               [], [DEMO, (7, 0, 7)], [(7, one.name, 8 + k, 1) for k, one in enumerate(every)], 40,
               74))
    yield one_unit(
        "map-of-a-name-of-a-slot",
        "The map has the name of the slot and of the unit, which are one, and a "
        "variable of blanks.",
        ["AB", private("", 1)], [priv_ref("", 2, [1])], privates=[(7, "", 8, 2)], next_free=10,
        data=14)
    yield linked(
        "added-of-the-name-of-a-plain-segment",
        "The host has a UNITREF to a plain segment's name, which is a unit in the library.",
        {1: program(unit_ref("TOOLS", [1]), parts=["CD", unit("TOOLS"), "01", "D7"]), 9: TOOLS},
        [{15: unit_of("TOOLS")}], [DEMO, (7, 1, 15, True), (9, 0, 9)])


def cases():
    for made in (copied, orders, roles, shown, shown_faults):
        yield from made()
