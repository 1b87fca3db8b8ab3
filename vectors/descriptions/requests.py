"""Where segments come from: which library is searched, which entry of it counts, which slot an
added unit gets, and who asks for it."""
from .cases import Fault
from .links import (DEMO, ORDERS, UTIL, host_using, linked, private, program, public, refused, unit,
                    unit_of, using, wanting)
from .model import (HOSTSEG, LINKED, UNITSEG, File, Record, Segment, const_def, eof_mark, priv_ref,
                    publ_def, publ_ref, unit_ref)

TOOLS = Segment("TOOLS", LINKED, code=b"\xd7\xad\x00\x01\x01")


def plain(slots):
    """These slots are filled with plain segments."""
    return {slot: TOOLS for slot in slots}


def coded(name, *bytes_of, records=()):
    """A unit whose code begins with these bytes: units of one name differ in them."""
    return unit_of(name, bytes_of, records)


# Which library is searched, and what counts in it -------------------------------------------------


def searched():
    """Each unit is looked for from the first library on, whoever asks for it."""
    asking = using("UTIL", "MORE")
    yield linked(
        "search-from-the-first",
        "The second library has UTIL, and all three have MORE: it comes from the first.",
        wanting("UTIL"),
        [{3: coded("MORE", "01")}, {2: asking, 4: coded("MORE", "02")}, {5: coded("MORE", "03")}],
        [DEMO, (7, 2, 2), (8, 1, 3, True)])
    yield linked(
        "search-before-the-asking",
        "The third library has UTIL, and the second MORE, which only UTIL uses.", wanting("UTIL"),
        [{2: unit_of("OTHER")}, {4: coded("MORE", "02")}, {2: asking}],
        [DEMO, (7, 3, 2), (8, 2, 4, True)])
    yield linked(
        "search-after-the-asking", "The first library has UTIL, and the third MORE.",
        wanting("UTIL"), [{2: asking}, {2: unit_of("OTHER")}, {4: coded("MORE", "02")}],
        [DEMO, UTIL, (8, 3, 4, True)])
    chain = [{2: coded("LAST", "01")}, {2: asking},
             {4: using("MORE", "LAST"), 5: coded("LAST", "03")}, {2: coded("LAST", "04")}]
    yield linked(
        "search-of-an-added-unit",
        "MORE, which is added, uses LAST: its own library and two others have that.",
        wanting("UTIL"), chain, [DEMO, (7, 2, 2), (8, 3, 4, True), (9, 1, 2, True)])
    yield linked(
        "search-anew", "The host wants A and then B: the second library has A, and both have B.",
        wanting("A", "B"), [{3: coded("B", "01")}, {2: unit_of("A"), 3: coded("B", "02")}],
        [DEMO, (7, 2, 2), (8, 1, 3)])
    yield linked(
        "search-for-the-program", "The host program uses MORE, which two libraries have.",
        {1: host_using("MORE")},
        [{2: unit_of("OTHER")}, {3: coded("MORE", "01")}, {3: coded("MORE", "02")}],
        [DEMO, (7, 2, 3, True)])
    yield refused(
        "14-before-the-asking",
        "The first library has MORE with kind 5. The second has UTIL, which uses it, and the unit.",
        wanting("UTIL"),
        [{3: Segment("MORE", 5, code=b"\xd7\xd7")}, {2: asking, 4: unit_of("MORE")}],
        Fault(14, 1, 8, kind=5))
    two = {3: coded("MORE", "01"), 4: coded("MORE", "02")}
    yield refused(
        "15-before-the-asking",
        "The first library has MORE twice. The second has UTIL, which uses it, and MORE.",
        wanting("UTIL"), [two, {2: asking, 4: unit_of("MORE")}], Fault(15, 1, 8))
    yield linked(
        "doubled-in-a-later",
        "The first library has UTIL and MORE, and the second each of them twice.", wanting("UTIL"),
        [{2: asking, 4: unit_of("MORE")}, {**two, 1: coded("UTIL", "01"), 2: coded("UTIL", "02")}],
        [DEMO, UTIL, (8, 1, 4, True)])
    host = {**wanting("UTIL"), 8: unit_of("AUX", ["D7"]), 9: TOOLS}
    library = {2: unit_of("UTIL", (), [unit_ref("AUX", [])]), 3: coded("AUX", "05"),
               4: coded("TOOLS", "05"), 5: coded("DEMO", "05")}
    yield linked(
        "host-before-libraries",
        "The library has units of the names of the host's own unit, plain segment and program.",
        host, [library], [DEMO, UTIL, (8, 0, 8), (9, 0, 9)])
    good = {5: unit_of("UTIL"), 6: unit_of("MORE")}
    for name, about, unit_there, fault in [
        ("11-first", "with an odd length", unit_of("UTIL", length=15, fault=11), Fault(11, 1, 7)),
        ("16-first", "past the end of its file", unit_of("UTIL", address=900, fault=16),
         Fault(16, 1, 7)),
        ("17-first", "with a dictionary that is too long", unit_of("UTIL", changes={15: "FF"}),
         Fault(17, 1, 7)),
        ("18-first", "with a native procedure", unit_of("UTIL", changes={10: "00"}),
         Fault(18, 1, 7)),
        ("14-first-kind-2", "with kind 2", Segment("UTIL", 2, code=b"\xd7\xd7"),
         Fault(14, 1, 7, kind=2)),
    ]:
        yield refused(
            f"{name}-of-two",
            f"The first library has UTIL {about}, and the second has it without a fault.",
            wanting("UTIL"), [{2: unit_there, 3: unit_of("OTHER")}, good], fault)
    yield refused(
        "15-first-of-two", "The first library has UTIL twice, and the second once.",
        wanting("UTIL"), [{2: unit_of("UTIL"), 3: Segment("UTIL", UNITSEG, shares=2)}, good],
        Fault(15, 1, 7))
    yield refused(
        "16-added-first-of-two",
        "The first library has MORE, which UTIL uses, past the end of its file, and the second "
        "without a fault.",
        wanting("UTIL"), [{2: asking, 3: unit_of("MORE", address=900, fault=16)}, good],
        Fault(16, 1, 8))
    yield linked(
        "other-kind-in-a-later",
        "The first library has UTIL and MORE, and the second each of them with kind 5.",
        wanting("UTIL"),
        [{2: asking, 4: unit_of("MORE")},
         {2: Segment("MORE", 5, code=b"\xd7"), 3: Segment("UTIL", 5, code=b"\xd7")}],
        [DEMO, UTIL, (8, 1, 4, True)])


def many_libraries():
    asking = {2: using("UTIL", "MORE")}
    yield linked(
        "library-twice", "One library is given twice: its units come from file 1.", wanting("UTIL"),
        [{**asking, 3: unit_of("MORE")}], [DEMO, UTIL, (8, 1, 3, True)], given=[1, 1])
    yield linked(
        "library-twice-later", "The second library is given a second time as the third.",
        wanting("UTIL"), [{2: unit_of("OTHER")}, {**asking, 3: unit_of("MORE")}],
        [DEMO, (7, 2, 2), (8, 2, 3, True)], given=[1, 2, 2])
    yield refused(
        "28-library-twice",
        "The second library is given a second time as the third: UTIL, of file 2, has a PUBLREF to "
        "a name without a definition.",
        wanting("UTIL"), [{2: unit_of("OTHER")}, {2: unit_of("UTIL", (), [publ_ref("CUONT", [])])}],
        Fault(28, 2, 7, 0), given=[1, 2, 2])
    other, given = {2: unit_of("OTHER")}, [1] * 256 + [2]
    for name, unit_there in [("256", {2: unit_of("UTIL")}), (
            "of-300", {2: unit_of("UTIL", ["A5", public()], [publ_ref("COUNT", [1])])})]:
        before = [1] * (255 if name == "256" else 299)
        yield linked(
            f"libraries-{name}",
            f"Library {len(before) + 1} has the unit; those before it are one file.",
            wanting("UTIL"), [other, unit_there], [DEMO, (7, len(before) + 1, 2)],
            given=[*before, 2])
    yield refused(
        "14-library-257", "Library 257 has UTIL with kind 5.", wanting("UTIL"),
        [other, {2: Segment("UTIL", 5, code=b"\xd7\xd7")}], Fault(14, 257, 7, kind=5), given=given)
    yield refused(
        "1-library-257", "Library 257 has 511 bytes.", wanting("UTIL"),
        [other, File({2: unit_of("UTIL")}, cut=511, refused=1)], Fault(1, 257), given=given)
    yield refused(
        "31-library-257", "The unit of library 257 refers to the last byte of its code.",
        wanting("UTIL"), [other, {2: unit_of("UTIL", ["A5", public()], [publ_ref("COUNT", [19])])}],
        Fault(31, 257, 7, 0, 0), given=given)


def entries():
    """What a library has of a name that the link wants."""
    util, more = using("UTIL", "MORE"), unit_of("MORE")
    without_code = {3: ("UTIL", UNITSEG, 1, 0), 4: ("UTIL", UNITSEG, 0, 24), 5: ("UTIL", 5, 1, 0),
                    0: ("UTIL", LINKED, 9, 0), 6: ("UTIL", HOSTSEG, 1, 0),
                    7: ("MORE", UNITSEG, 1, 0), 8: ("MORE", UNITSEG, 0, 24), 9: ("MORE", 2, 1, 0),
                    10: ("MORE", 255, 1, 0), 15: ("MORE", 4, 0, 0)}
    empty = {slot: Segment(name, kind, address=address, length=length)
             for slot, (name, kind, address, length) in without_code.items()}
    yield linked(
        "second-entry-without-a-code",
        "The library has more entries of UTIL and MORE, of many kinds, that are not filled.",
        wanting("UTIL"), [{**empty, 2: util, 12: more}], [DEMO, UTIL, (8, 1, 12, True)])
    yield linked(
        "entry-without-a-code-first",
        "The first library has entries of UTIL and MORE that are not filled; the second "
        "has the units.",
        wanting("UTIL"), [{**empty, 2: unit_of("OTHER")}, {2: util, 12: more}],
        [DEMO, (7, 2, 2), (8, 2, 12, True)])
    program_there = Segment("DEMO", HOSTSEG, program().procedures, [
        publ_def("COUNT", 77), eof_mark(99)])
    yield linked(
        "library-with-a-program",
        "The library is a host itself, with a program, wanted units and other kinds.",
        wanting("UTIL"),
        [{1: program_there, 2: util, 3: more, 7: Segment("UTIL"), 8: Segment("MORE", address=5),
          9: Segment("PART", 2, shares=1), 10: Segment("PART", 4, shares=1),
          11: Segment("DEMO", HOSTSEG, shares=1)}],
        [DEMO, UTIL, (8, 1, 3, True)])
    yield linked(
        "unused-doubles", "The library has three entries of a name that the link does not use.",
        wanting("UTIL"),
        [{2: unit_of("UTIL"), 3: unit_of("OTHER"), 4: Segment("OTHER", UNITSEG, shares=3),
          5: Segment("OTHER", 5, shares=3)}],
        [DEMO, UTIL])
    for kind in (1, 2, 6, 7, 8, 255):
        yield refused(
            f"14-kind-{kind}", f"The library's UTIL has kind {kind}.", wanting("UTIL"),
            [{2: Segment("UTIL", kind, program().procedures, [eof_mark(8)])}],
            Fault(14, 1, 7, kind=kind))
    for kind in (0, 1, 2, 5, 255):
        stops = {2: (None, 12)} if kind == HOSTSEG else {}
        entry = Segment("UTIL", kind, address=0, length=24, fault=12 if kind == HOSTSEG else 0)
        yield refused(
            f"14-no-address-{kind}",
            f"The library's UTIL has kind {kind}, address 0 and a length, so its slot is filled.",
            wanting("UTIL"), [File({2: entry, 3: unit_of("OTHER")}, stops=stops)],
            Fault(14, 1, 7, kind=kind))
    yield refused(
        "13-no-length", "The library's UTIL has kind 5 and length 0, so its slot is not filled.",
        wanting("UTIL"), [{2: Segment("UTIL", 5, address=1, length=0), 3: unit_of("OTHER")}],
        Fault(13, 0, 7))
    yield refused(
        "14-added-kind-0", "MORE, which UTIL uses, is a linked segment of the second library.",
        wanting("UTIL"), [{2: util}, {2: Segment("MORE", LINKED, code=b"\xd7\xd7")}],
        Fault(14, 2, 8, kind=0))
    seconds = [("plain", {3: Segment("UTIL", LINKED, code=b"\xd7")}),
               ("no-address", {3: Segment("UTIL", 5, address=0, length=24)}),
               ("program", {0: Segment("UTIL", HOSTSEG, shares=2)}),
               ("slot-15", {15: Segment("UTIL", UNITSEG, shares=2)}),
               ("slot-0", {0: Segment("UTIL", UNITSEG, shares=2)}),
               ("three", {1: Segment("UTIL", UNITSEG, shares=2), 9: Segment("UTIL", 2, shares=2)})]
    for name, more_of_it in seconds:
        slots = ", ".join(f"{slot} (kind {segment.kind})" for slot, segment in more_of_it.items())
        yield refused(
            f"15-{name}",
            f"The library has UTIL in slot 2, and another filled entry of it in slot {slots}.",
            wanting("UTIL"), [{2: unit_of("UTIL"), **more_of_it}], Fault(15, 1, 7))
    yield refused(
        "15-second", "The first library has no UTIL, and the second has it twice.", wanting("UTIL"),
        [{2: unit_of("OTHER")}, {2: unit_of("UTIL"), 5: Segment("UTIL", UNITSEG, shares=2)}],
        Fault(15, 2, 7))
    yield refused(
        "15-before-14", "The library has two filled entries of UTIL, neither of which is a unit.",
        wanting("UTIL"),
        [{2: Segment("UTIL", 5, code=b"\xd7\xd7"), 5: Segment("UTIL", 0, shares=2)}],
        Fault(15, 1, 7), folder="orders")
    yield refused(
        "15-before-14-added",
        "The library has two filled entries of MORE, which UTIL uses, neither of which is a unit.",
        wanting("UTIL"),
        [{2: util, 3: Segment("MORE", 5, code=b"\xd7\xd7"), 5: Segment("MORE", 4, shares=3)}],
        Fault(15, 1, 8), folder="orders")


# Which slot an added unit gets --------------------------------------------------------------------


def slots():
    kinds = {7: (2, 5, "PART"), 8: (HOSTSEG, 3, "DEMO"), 9: (8, 9, "UTIL"), 10: (LINKED, 7, "MORE"),
             11: (UNITSEG, 4, ""), 12: (UNITSEG, 0, bytes(8)), 13: (5, 1, "LAST"),
             14: (4, 65535, "A"), 15: (255, 1, "B")}
    empty = {slot: Segment(name, kind, text=slot, address=address, length=0)
             for slot, (kind, address, name) in kinds.items()}
    names = [f"CHAIN{k}" for k in range(9)]
    library = {k: using(name, *names[k + 1 : k + 2]) for k, name in enumerate(names)}
    yield linked(
        "added-in-slots-of-each-kind",
        "Nine units are added in empty slots that have names, kinds, addresses and texts.",
        {1: host_using("CHAIN0"), **empty}, [library],
        [DEMO, *((7 + k, 1, k, True) for k in range(9))])
    library = {k: unit_of(name) for k, name in enumerate(names)}
    yield linked(
        "added-in-slots-of-some-kinds",
        "Two units are added. The empty slots that are left have names, kinds, "
        "addresses and texts.",
        {1: host_using("CHAIN0", "CHAIN1"), **empty}, [library],
        [DEMO, (7, 1, 0, True), (8, 1, 1, True)])
    low = {slot: Segment(name, kind, address=address, length=0) for slot, kind, address, name in [
               (0, 2, 5, "DEMO"), (2, 1, 1, "DEMO"), (3, 4, 1, "UTIL"), (4, 5, 1, "UTIL"),
               (5, 6, 1, ""), (6, 7, 1, ""), (12, 8, 1, "UTIL"), (13, 0, 1, "UTIL")]}
    yield linked(
        "empty-slots-of-each-kind",
        "Slots of each kind have an address and no length, so they are empty.",
        {**low, 1: program(), 7: Segment("UTIL")}, [{2: unit_of("UTIL")}], [DEMO, UTIL])
    host = {**wanting("UTIL"), 9: Segment("MORE", LINKED),
            12: Segment("MORE", 5, address=3, length=0)}
    yield linked(
        "added-beside-its-name",
        "Two empty slots have the name of the added unit, which gets the one before them.", host,
        [{2: using("UTIL", "MORE"), 12: unit_of("MORE")}], [DEMO, UTIL, (8, 1, 12, True)])
    yield linked(
        "added-in-slot-15", "Slot 15 is the one empty slot from 7 on.",
        {1: host_using("MORE"), **plain(range(7, 15))}, [{3: unit_of("MORE")}],
        [DEMO, *((slot, 0, slot) for slot in range(7, 15)), (15, 1, 3, True)])
    variables = ["AB", private("STATE", 1)]
    host = {1: program(
                priv_ref("OWN", 1, [1]), unit_ref("MORE", []), parts=["AB", private("OWN"), "D7"]),
            12: Segment("UTIL"), 10: unit_of("AUX", variables, [priv_ref("STATE", 5, [1])])}
    library = {2: unit_of("UTIL", ["AB", private("STATE", 2), "CD", unit("MORE"), "01"],
                          [priv_ref("STATE", 3, [1]), unit_ref("MORE", [4])]),
               5: unit_of("MORE", ["AB", private("CACHE")], [priv_ref("CACHE", 2, [1])])}
    yield linked(
        "added-below",
        "The added unit is in slot 7, below the units in 10 and 12, and its words come before "
        "theirs.",
        host, [library], [DEMO, (7, 1, 5, True), (10, 0, 10), (12, 1, 2)],
        [(1, "OWN", 8, 1), (7, "CACHE", 9, 2), (10, "STATE", 11, 5), (12, "STATE", 16, 3)], 19, 32)
    host = {13: program(
                priv_ref("OWN", 4, [1]), unit_ref("MORE", [4]),
                parts=["AB", private("OWN", 3), "CD", unit("MORE"), "01"])}
    yield linked(
        "added-below-the-program", "The added unit is in slot 7 and the host program in slot 13.",
        host, [{5: unit_of("MORE", ["AB", private("CACHE")], [priv_ref("CACHE", 2, [1])])}],
        [(7, 1, 5, True), (13, 0, 13)], [(7, "CACHE", 8, 2), (13, "OWN", 10, 4)], 14, 22)
    host = {0: using("LOW", "B"), 9: program(unit_ref("C", []), unit_ref("A", [])),
            8: using("AUX", "A", "B")}
    yield linked(
        "added-by-slot-of-the-asking",
        "The program is in slot 9: units in 0 and 8 ask before it, for B and A, and it for C.",
        host, [{1: unit_of("A"), 2: unit_of("B"), 3: unit_of("C")}],
        [(0, 0, 0), (7, 1, 2, True), (8, 0, 8), (9, 0, 9), (10, 1, 1, True), (11, 1, 3, True)])
    library = {1: using("A", "C", "D"), 2: using("B", "E", "C"), 3: using("C", "F"),
               4: unit_of("D"), 5: unit_of("E"), 6: unit_of("F")}
    yield linked(
        "added-in-rounds",
        "The program uses A and B; A uses C and D, B uses E and C, C uses F: they follow round by "
        "round.",
        {1: host_using("A", "B")}, [library], [DEMO, *((6 + k, 1, k, True) for k in range(1, 7))])


# Who asks -----------------------------------------------------------------------------------------


def asking(name, *before):
    """MORE, which refers to COUNT, to UTIL and then to a unit of this name, and has these records
    before."""
    parts = ["A5", public(), "CD", unit("UTIL"), "01", "CD", unit(name), "01"]
    return unit_of(
        "MORE", parts,
        [*before, publ_ref("COUNT", [1]), unit_ref("UTIL", [4]), unit_ref(name, [7])])


def who_asks():
    first = {2: using("UTIL", "MORE")}
    few = [priv_ref("STATE", 1, []), const_def("LIMIT", 1)]
    for name, what in [("NOBODY", "no library has"), ("", "is blank"),
                       (bytes(8), "is of zero bytes")]:
        end = {"NOBODY": "", "": "-blank"}.get(name, "-zeros")
        entry = {} if name == "NOBODY" else {9: Segment(name, UNITSEG, shares=5)}
        yield refused(
            f"13-by-an-added-unit{end}",
            f"MORE, which is added, requests a unit whose name {what}.", wanting("UTIL"),
            [first, {5: asking(name), **entry}], Fault(13, 2, 8, 2))
    yield refused(
        "13-by-an-added-unit-late",
        "MORE, of the third library, is in slot 9, and its fifth record requests what no "
        "library has.",
        {**wanting("UTIL"), 8: TOOLS}, [first, {2: unit_of("OTHER")}, {5: asking("NOBODY", *few)}],
        Fault(13, 3, 9, 4))
    chain = [{**first, 7: using("LAST", "UTIL", "NOBODY")}, {5: using("MORE", "LAST")}]
    yield refused(
        "13-by-the-second-added-unit",
        "UTIL uses MORE, which uses LAST, which requests what no library has.", wanting("UTIL"),
        chain, Fault(13, 1, 9, 1))
    yield refused(
        "13-empty-slot-of-the-name",
        "A unit of the host's name that only an empty slot of the host has " "is missing.",
        {**wanting("UTIL"), 9: Segment("MORE", 5, address=1, length=0)}, [first],
        Fault(13, 1, 7, 0))
    yield refused(
        "35-by-an-added-unit", "MORE, which is added in the last empty slot, requests LAST.",
        {**wanting("UTIL"), **plain(range(9, 16))},
        [first, {5: asking("LAST"), 6: unit_of("LAST")}], Fault(35, 2, 8, 2))
    yield refused(
        "35-by-an-added-unit-late",
        "MORE, of the third library, is in slot 11, and its fifth record requests LAST.",
        {**wanting("UTIL"), **plain([8, 9, 10, 12, 13, 14, 15])},
        [first, {2: unit_of("OTHER")}, {5: asking("LAST", *few), 6: unit_of("LAST")}],
        Fault(35, 3, 11, 4))
    full = plain(range(7, 16))
    yield refused(
        "35-by-the-program", "All slots from 7 on are filled, and the host program requests MORE.",
        {1: host_using("MORE"), **full}, [{5: unit_of("MORE")}], Fault(35, 0, 1, 1))
    yield refused(
        "35-by-a-unit-of-the-host",
        "All slots from 7 on are filled, and the unit in slot 9 requests MORE.",
        {1: program(), **full, 9: using("AUX", "AUX", "MORE")}, [{5: unit_of("MORE")}],
        Fault(35, 0, 9, 1))
    names = [f"UNIT{k}" for k in range(10)]
    library = {k: unit_of(name) for k, name in enumerate(names)}
    yield refused(
        "35-tenth", "The host program requests ten units, and nine slots are empty from 7 on.",
        {1: host_using(*names)}, [library], Fault(35, 0, 1, 10))
    forty = [f"N{k:02}" for k in range(40)]
    yield refused(
        "35-of-forty",
        "The host program requests forty units, of which the library has the first sixteen.",
        {1: host_using(*forty)}, [{k: unit_of(name) for k, name in enumerate(forty[:16])}],
        Fault(35, 0, 1, 10))
    library = {k: using(name, *names[k + 1 : k + 2]) for k, name in enumerate(names)}
    yield refused(
        "35-tenth-of-a-chain",
        "A chain of ten units, of which each uses the next, and nine slots are empty from 7 on.",
        {1: host_using(names[0])}, [library], Fault(35, 1, 15, 0))
    yield refused(
        "13-tenth-of-a-chain",
        "A chain of nine units, of which the last requests what no library has.",
        {1: host_using(names[0])}, [{k: library[k] for k in range(9)}], Fault(13, 1, 15, 0))
    host = {0: using("LOW", "LOW", "NOBODY"), 1: host_using("NOBODY"), 8: using("AUX", "NOBODY")}
    yield refused(
        "13-asked-thrice",
        "Three segments of the host request what no library has: the first of them is reported.",
        host, [], Fault(13, 0, 0, 1))
    host = {**wanting("UTIL"), 12: using("AUX", "AUX", "NOBODY")}
    yield refused(
        "13-asked-by-an-added-unit-too",
        "MORE, added in slot 8, and before it AUX in slot 12 of the host request what no "
        "library has.",
        host, [{2: using("UTIL", "MORE"), 3: using("MORE", "NOBODY")}], Fault(13, 0, 12, 1))
    twice = using("UTIL", "NOBODY", "UTIL")
    twice.records.insert(-1, unit_ref("NOBODY", []))
    yield refused(
        "13-asked-twice", "Two records of UTIL request what no library has.", wanting("UTIL"),
        [{2: twice}], Fault(13, 1, 7, 0))
    yield refused(
        "13-no-reference", "A UNITREF without references requests what no library has.",
        wanting("UTIL"), [{2: unit_of("UTIL", (), [unit_ref("NOBODY", [])])}], Fault(13, 1, 7, 0))
    yield refused(
        "35-no-reference",
        "All slots from 7 on are filled, and a UNITREF without references requests MORE.",
        {**full, **wanting("UTIL")},
        [{2: unit_of("UTIL", (), [unit_ref("MORE", [])]), 3: unit_of("MORE")}], Fault(35, 1, 7, 0))


# The order of faults of what is requested ---------------------------------------------------------


def order():
    def case(name, about, host, libraries, fault):
        return refused(name, about, host, libraries, fault, folder="orders")

    full = {**plain(range(7, 16)), **wanting("UTIL")}
    both = using("UTIL", "MORE", "NOBODY")
    yield case(
        "35-before-13-of-a-later-name",
        "No slot is left: MORE, which is there, is requested before NOBODY.", full,
        [{2: both, 3: unit_of("MORE")}], Fault(35, 1, 7, 0))
    yield case(
        "13-before-35-of-a-later-name",
        "No slot is left: NOBODY is requested before MORE, which is there.", full,
        [{2: using("UTIL", "NOBODY", "MORE"), 3: unit_of("MORE")}], Fault(13, 1, 7, 0))
    yield case(
        "13-before-35", "No slot is left, and no library has the unit.", full,
        [{2: using("UTIL", "NOBODY")}], Fault(13, 1, 7, 0))
    yield case("13-blank-before-35", "No slot is left, and the name is blank.", full,
               [{2: using("UTIL", ""), 3: Segment("", UNITSEG, shares=2)}], Fault(13, 1, 7, 0))
    yield case(
        "35-before-14", "No slot is left, and MORE has kind 5.", full,
        [{2: using("UTIL", "MORE"), 3: Segment("MORE", 5, code=b"\xd7\xd7")}], Fault(35, 1, 7, 0))
    yield case(
        "35-before-15", "No slot is left, and the library has MORE twice.", full,
        [{2: using("UTIL", "MORE"), 3: unit_of("MORE"), 4: Segment("MORE", UNITSEG, shares=3)}],
        Fault(35, 1, 7, 0))
    yield case(
        "35-before-11", "No slot is left, and the code of MORE has an odd length.", full,
        [{2: using("UTIL", "MORE"), 3: unit_of("MORE", length=17, fault=11)}], Fault(35, 1, 7, 0))
    yield case(
        "14-before-13-of-a-later-name",
        "MORE has kind 5, and NOBODY, requested after it, is missing.", wanting("UTIL"),
        [{2: both, 3: Segment("MORE", 5, code=b"\xd7\xd7")}], Fault(14, 1, 8, kind=5))
    yield case(
        "18-before-13-of-a-later-name",
        "The procedure of MORE has number 0, and NOBODY, requested after it, is missing.",
        wanting("UTIL"), [{2: both, 3: unit_of("MORE", changes={10: "00"})}], Fault(18, 1, 8))
    wrong = unit_of("MORE", (), [publ_ref("COUNT", [])])
    wrong.records[0].type, wrong.records[0].fault = 15, 20
    yield case(
        "20-before-14-of-a-later-name",
        "A record of MORE has type 15, and LAST, requested after it, has kind 5.", wanting("UTIL"),
        [{2: using("UTIL", "MORE", "LAST"), 3: wrong, 4: Segment("LAST", 5, code=b"\xd7\xd7")}],
        Fault(20, 1, 8, 0))
    yield case(
        "13-of-the-first-round",
        "UTIL requests MORE and then NOBODY; MORE requests LAST, which is missing too.",
        wanting("UTIL"), [{2: both, 3: using("MORE", "LAST")}], Fault(13, 1, 7, 1))
    yield case(
        "14-of-the-first-round",
        "UTIL requests MORE and then OTHER, of kind 5; MORE requests LAST, which is missing.",
        wanting("UTIL"),
        [{2: using("UTIL", "MORE", "OTHER"), 3: using("MORE", "LAST"),
          4: Segment("OTHER", 5, code=b"\xd7\xd7")}],
        Fault(14, 1, 9, kind=5))
    host = {1: host_using("MORE"), 12: unit_of("AUX", (), [publ_ref("CUONT", [])])}
    undefined = unit_of("MORE", (), [publ_def("COUNT", 1), publ_ref("CUONT", [])])
    yield case(
        "28-of-an-added-unit-first",
        "MORE, added in slot 7, and AUX in slot 12 refer to a name without a definition.", host,
        [{3: undefined}], Fault(28, 1, 7, 1))
    doubled = [priv_ref("STATE", 1, []), priv_ref("STATE", 1, [])]
    host = {1: host_using("MORE"), 12: unit_of("AUX", (), doubled)}
    yield case(
        "25-of-an-added-unit-first",
        "MORE, added in slot 7, and AUX in slot 12 have a private variable twice.", host,
        [{3: unit_of("MORE", (), [publ_def("COUNT", 1), *doubled])}], Fault(25, 1, 7, 2))
    host = {1: host_using("MORE"), 12: unit_of("AUX", (), [priv_ref("STATE", 20000, [])])}
    yield case(
        "26-by-slot",
        "MORE, added in slot 7, has 20000 private words and AUX in slot 12 as many: those of AUX "
        "do not fit.",
        host, [{3: unit_of("MORE", (), [priv_ref("CACHE", 20000, [])])}], Fault(26, 0, 12, 0))
    host = {1: host_using("MORE"), 12: unit_of("AUX", changes={10: "00"})}
    yield case(
        "18-of-the-host-before-17-of-an-added-unit",
        "AUX in slot 12 of the host has a native procedure; MORE, which would be "
        "in slot 7, a dictionary that is too long.",
        host, [{3: unit_of("MORE", changes={15: "FF"})}], Fault(18, 0, 12))
    yield case(
        "13-of-a-slot-before-13-of-a-name",
        "NOBODY is requested, and slot 12 wants a unit that is missing too.",
        {1: host_using("NOBODY"), 12: Segment("NONE")}, [], Fault(13, 0, 12))
    yield case(
        "18-before-13-of-a-later-slot",
        "The procedure of UTIL has number 0, and slot 8 wants a unit that is missing.",
        wanting("UTIL", "NOBODY"), [{2: unit_of("UTIL", changes={10: "00"})}], Fault(18, 1, 7))
    yield case(
        "11-before-13-of-a-later-slot",
        "The code of UTIL has an odd length, and slot 8 wants a unit that is missing.",
        wanting("UTIL", "NOBODY"), [{2: unit_of("UTIL", length=15, fault=11)}], Fault(11, 1, 7))
    yield case(
        "12-before-13-of-a-later-slot",
        "The plain segment in slot 3 has address 0, and slot 7 wants a unit that is missing.",
        {**wanting("NOBODY"), 3: Segment("TOOLS", LINKED, address=0, length=5)}, [],
        Fault(12, 0, 3))
    yield case(
        "14-before-13-of-a-later-slot", "UTIL has kind 5, and slot 8 wants a unit that is missing.",
        wanting("UTIL", "NOBODY"), [{2: Segment("UTIL", 5, code=b"\xd7\xd7")}],
        Fault(14, 1, 7, kind=5))

    # MORE is the first that UTIL requests, and its code or its records are refused; LAST, the
    # second, is no unit or is there twice
    broken = [("11", unit_of("MORE", length=15, fault=11), None),
              ("16", unit_of("MORE", address=900, fault=16), None),
              ("17", unit_of("MORE", changes={15: "FF"}), None),
              ("18", unit_of("MORE", changes={10: "00"}), None),
              ("21", unit_of("MORE", (), [Record("X", 9, [0, 0, 0], fault=21)]), 0)]
    for name, more, record in broken:
        for later, last in ((14, {5: Segment("LAST", 5, code=b"\xd7\xd7")}),
                            (15, {5: unit_of("LAST"), 6: unit_of("LAST")})):
            for order in ORDERS if later == 15 else ORDERS[:1]:
                yield refused(
                    f"{name}-before-{later}-of-a-second-name-{order}-endian",
                    f"MORE, which UTIL requests first, is fault {name}, and "
                    f"LAST, which it requests second, {later}.",
                    wanting("UTIL"), [{2: using("UTIL", "MORE", "LAST"), 3: more, **last}],
                    Fault(int(name), 1, 8, record), order, folder="orders")


def cases():
    for made in (searched, many_libraries, entries, slots, who_asks, order):
        yield from made()
