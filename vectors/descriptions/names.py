"""Names that are nearly the same. Names are compared as eight bytes, exactly (docs/FORMAT.md, What
a slot is for)."""
from .cases import Fault
from .links import (DEMO, UTIL, linked, one_unit, private, program, public, refused, unit, unit_of,
                    using, wanting)
from .model import (HOSTSEG, LINKED, Segment, const_def, eof_mark, name_bytes, priv_ref, publ_def,
                    publ_ref, unit_ref)


WAYS = ("small", "bit-7", "zeros", "blank-before", "eighth", "cut", "first")


def alike(name):
    """Names that a linker takes for this one if it does not compare eight bytes exactly: in small
    letters, with bit 7, padded with zero bytes, after a blank, with another eighth byte, cut off,
    and with another first byte."""
    text = name_bytes(name)
    return [text.lower(), bytes(byte | 0x80 for byte in text), text.replace(b" ", b"\0"),
            b" " + text[:7], text[:7] + b"X", text[:-5].ljust(8), b"X" + text[1:]]


def in_libraries():
    library = {slot: unit_of(name, ["05"]) for slot, name in enumerate(alike("UTIL"))}
    yield linked(
        "names-alike-in-a-library",
        "The first library has units of seven names that are nearly UTIL, and the second UTIL.",
        wanting("UTIL"), [library, {2: unit_of("UTIL")}], [DEMO, (7, 2, 2)])
    yield linked(
        "names-alike-beside",
        "The library has units of seven names that are nearly UTIL, and UTIL.", wanting("UTIL"),
        [{**library, 9: unit_of("UTIL")}], [DEMO, (7, 1, 9)])
    yield refused(
        "13-names-alike", "The library has units of seven names that are nearly UTIL.",
        wanting("UTIL"), [library], Fault(13, 0, 7))
    library = {slot: unit_of(name, ["05"]) for slot, name in enumerate(alike("MORE"))}
    yield linked(
        "names-alike-of-an-added-unit",
        "UTIL uses MORE. The first library has units of seven names that are nearly MORE.",
        wanting("UTIL"), [library, {2: using("UTIL", "MORE"), 3: unit_of("MORE")}],
        [DEMO, (7, 2, 2), (8, 2, 3, True)])
    for name, wanted in zip(WAYS, alike("UTIL")):
        yield linked(
            f"names-alike-wanted-{name}",
            "The host wants a unit of a name that is nearly UTIL. The library has it, and UTIL.",
            wanting(wanted), [{2: unit_of("UTIL", ["05"]), 3: unit_of(wanted)}], [DEMO, (7, 1, 3)])


def in_the_host():
    """Units in the host of names that are nearly the same, and a UNITREF to each."""
    every = ["UTIL", *alike("UTIL")]
    slots = [2, 3, 4, 5, 6, 7, 8, 9]
    parts = [part for name in every for part in ("CD", unit(name), "01")]
    records = [unit_ref(name, [1 + 3 * k]) for k, name in enumerate(every)]
    host = {1: program(*records, parts=parts),
            **{slot: unit_of(name) for slot, name in zip(slots, every)}}
    yield linked(
        "names-alike-in-the-host",
        "The host has UTIL and units of seven names that are nearly so, and refers to each.", host,
        [], [DEMO, *((slot, 0, slot) for slot in slots)])
    every = ["MORE", *alike("MORE")]
    parts = [part for name in every for part in ("CD", unit(name), "01")]
    records = [unit_ref(name, [1 + 3 * k]) for k, name in enumerate(every)]
    library = {0: unit_of("UTIL", parts, records),
               **{1 + k: unit_of(name) for k, name in enumerate(every)}}
    yield linked(
        "names-alike-requested",
        "UTIL uses MORE and units of seven names that are nearly so: eight units are added.",
        wanting("UTIL"), [library], [DEMO, (7, 1, 0), *((8 + k, 1, 1 + k, True) for k in range(8))])
    user = unit_of(
        "USER", (), [unit_ref(name, []) for name in ["USER", *alike("USER"), "", bytes(8)]])
    yield linked(
        "show-names-alike",
        "A library that is not used has UNITREFs to seven names that are nearly that of its unit, "
        "and to "
        "blank ones.",
        {1: program()}, [{2: user, 3: Segment("")}], [DEMO])
    plain = {2 + k: Segment(name, LINKED, code=b"\xd7") for k, name in enumerate(alike("UTIL"))}
    yield linked(
        "wanted-and-plain-of-one-name",
        "A plain segment has the name of a unit that a later slot wants, and " "others nearly so.",
        {**plain, 9: Segment("UTIL", LINKED, code=b"\xd7"), 1: program(), 10: Segment("UTIL")},
        [{2: unit_of("UTIL")}],
        [DEMO, *((2 + k, 0, 2 + k) for k in range(7)), (9, 0, 9), (10, 1, 2)])
    yield linked(
        "wanted-of-the-programs-name",
        "A slot before that of the program wants a unit of its name.",
        {0: Segment("DEMO"), 3: program()}, [{2: unit_of("DEMO")}], [(0, 1, 2), (3, 0, 3)])


def of_definitions():
    every = alike("COUNT")
    host = program(
        *(publ_def(name, 10 + k) for k, name in enumerate(every)), const_def("COUNTS", 5))
    parts = [part for k, name in enumerate(["COUNT", *every]) for part in ("A5", public(name, k))]
    records = [publ_ref(name, [1 + 3 * k]) for k, name in enumerate(["COUNT", *every])]
    yield one_unit(
        "names-alike-defined", "The host defines COUNT and seven names that are nearly so.", parts,
        records, host=host)
    every = ["STATE", *alike("STATE"), "", bytes(8)]
    parts = [part for name in every for part in ("AB", private(name, 1))]
    records = [priv_ref(name, 2, [1 + 3 * k]) for k, name in enumerate(every)]
    yield one_unit(
        "names-alike-of-privates",
        "A unit has private variables of names that are nearly the same, and of blank ones.", parts,
        records, privates=[(7, name, 8 + 2 * k, 2) for k, name in enumerate(every)], next_free=28,
        data=50)
    for name, other in zip(WAYS, alike("COUNT")):
        yield refused(
            f"28-name-{name}",
            "UTIL refers to a name that is nearly COUNT, and the host defines COUNT.",
            wanting("UTIL"), [{2: unit_of("UTIL", ["A5", public(other)], [publ_ref(other, [1])])}],
            Fault(28, 1, 7, 0))


def with_zeros():
    """Names that differ after a zero byte alone."""
    one, two = b"N\0ONE   ", b"N\0TWO   "
    host = {1: program(publ_def(one, 5), publ_def(two, 6)), 7: unit_of(one), 8: unit_of(two),
            9: Segment(b"N\0THREE ")}
    parts = [part for name in (one, two) for part in (
                 "A5", public(name), "AB", private(name), "CD", unit(name), "01")]
    records = [record for k, name in enumerate((one, two)) for record in (
        publ_ref(name, [1 + 9 * k]), priv_ref(name, 2, [4 + 9 * k]), unit_ref(name, [7 + 9 * k]))]
    user = unit_of(b"N\0THREE ", [*parts, "CD", unit(b"N\0FOUR  "), "01"], [
        *records, unit_ref(b"N\0FOUR  ", [19])])
    library = {2: unit_of(b"N\0FIVE  ", ["05"]), 3: user, 4: unit_of(b"N\0FOUR  ")}
    yield linked(
        "names-that-differ-after-a-zero-byte",
        "Units, definitions and private variables whose names differ after a zero " "byte alone.",
        host, [library], [DEMO, (7, 0, 7), (8, 0, 8), (9, 1, 3), (10, 1, 4, True)],
        [(9, one, 8, 2), (9, two, 10, 2)], 12, 18)


def that_are_blank():
    """Names of blanks, of zero bytes, and of some of each, which are not blank."""
    mixed = bytes(4) + b"    "
    zero_and_blanks = b" " * 7 + b"\0"
    for name, about in [(mixed, "four zero bytes and four blanks"),
                        (zero_and_blanks, "seven blanks and a zero byte")]:
        end = "half" if name == mixed else "one-zero"
        yield linked(
            f"name-{end}-blank-wanted", f"A slot wants a unit whose name is {about}.",
            wanting(name),
            [{2: unit_of("", ["05"]), 3: unit_of(bytes(8), ["05"]), 4: unit_of(name)}],
            [DEMO, (7, 1, 4)])
        yield linked(
            f"name-{end}-blank-requested", f"UTIL uses a unit whose name is {about}.",
            wanting("UTIL"), [{2: using("UTIL", name), 4: unit_of(name)}],
            [DEMO, UTIL, (8, 1, 4, True)])
        yield refused(
            f"13-{end}-blank", f"A slot of kind 3 without a code has a name that is {about}.",
            wanting(name), [{2: unit_of("UTIL")}], Fault(13, 0, 7))
    host = {1: program(
                unit_ref("", [1]), unit_ref(bytes(8), [4]),
                parts=["CD", unit(""), "01", "CD", unit(bytes(8)), "01"]),
            7: unit_of(bytes(8)), 9: unit_of("")}
    yield linked(
        "units-without-names",
        "Units in the host have a name of eight zero bytes and one of eight blanks.", host, [],
        [DEMO, (7, 0, 7), (9, 0, 9)])
    yield refused(
        "13-blanks-for-zeros",
        "A unit in the host has a name of eight blanks, and the UNITREF one of eight zero bytes.",
        {1: program(unit_ref(bytes(8), [])), 7: unit_of("")}, [{2: unit_of(bytes(8))}],
        Fault(13, 0, 1, 1))
    yield refused(
        "13-zeros-for-blanks",
        "A unit in the host has a name of eight zero bytes, and the UNITREF one of eight blanks.",
        {1: program(unit_ref("", [])), 7: unit_of(bytes(8))}, [{2: unit_of("")}],
        Fault(13, 0, 1, 1))
    for name, end in [("", ""), (bytes(8), "-zeros")]:
        yield refused(
            f"6-blank{end}",
            f"Two units in the host have one blank name{' of zero bytes' if end else ''}.",
            {1: program(), 7: unit_of(name), 8: unit_of(name)}, [], Fault(6, 0, 8))
    empty = {slot: Segment(name, address=address, length=length)
             for slot, name, address, length in [
                     (7, "", 0, 0), (8, "", 0, 24), (9, "", 4, 0), (10, bytes(8), 0, 0),
                     (11, bytes(8), 0, 24), (12, bytes(8), 4, 0)]}
    yield linked(
        "empty-slots-of-kind-3",
        "Slots of kind 3 with blank names, without an address or a length: none is wanted.",
        {1: program(), **empty}, [{2: unit_of(""), 3: unit_of(bytes(8))}], [DEMO])


def of_units():
    """What only units define."""
    records = [publ_def("COUNT", 99), const_def("COUNT", 98), publ_def("COUNT", 97),
               const_def("OTHER", 1), publ_ref("COUNT", [1])]
    yield one_unit(
        "definitions-of-a-unit",
        "A unit defines COUNT three times, also as a constant: its definitions are ignored.",
        ["A5", public(displacement=1)], records)
    host = program(
        priv_ref("OWN", 1, [1]), publ_ref("LATE", [4]), publ_def("LATE", 6), unit_ref("UTIL", []),
        const_def("LIMIT", 9), publ_def("LAST", 7),
        parts=["AB", private("OWN"), "A5", public("LATE")])
    yield one_unit(
        "definitions-after-references",
        "The host defines names after its reference records, and uses them before.",
        ["A5", public("LAST")], [publ_ref("LAST", [1])], host=host, privates=[(1, "OWN", 8, 1)],
        next_free=9, data=12)
    host = {**wanting("UTIL"),
            0: unit_of("LOW", ["A5", public(displacement=2)], [
                const_def("COUNT", 5), publ_ref("COUNT", [1])])}
    yield linked(
        "definitions-of-a-unit-in-the-host",
        "A unit in slot 0 of the host defines COUNT as a constant: that is ignored.", host,
        [{2: unit_of("UTIL", ["A5", public()], [publ_ref("COUNT", [1])])}], [(0, 0, 0), DEMO, UTIL])
    host = {1: program(
                priv_ref("COUNT", 2, [4]), publ_ref("COUNT", [1]),
                parts=["A5", public(), "AB", private("COUNT", 1)]),
            7: Segment("UTIL")}
    yield linked(
        "private-of-a-public-of-the-program",
        "The host program has a private variable of the name that it defines.", host,
        [{2: unit_of("UTIL", ["A5", public(displacement=1)], [publ_ref("COUNT", [1])])}],
        [DEMO, UTIL], [(1, "COUNT", 8, 2)], 10, 14)
    host = {**wanting("UTIL"),
            8: unit_of("AUX", ["AB", private("COUNT", 1)], [priv_ref("COUNT", 2, [1])])}
    yield linked(
        "private-of-a-public-of-another",
        "A unit has a private variable of the name of a definition to which " "another refers.",
        host, [{2: unit_of("UTIL", ["A5", public(displacement=1)], [publ_ref("COUNT", [1])])}],
        [DEMO, UTIL, (8, 0, 8)], [(8, "COUNT", 8, 2)], 10, 14)
    host = {**wanting("UTIL"), 8: unit_of("AUX", (), [priv_ref("STATE", 2, [])])}
    yield refused(
        "28-private-of-another", "UTIL has a PUBLREF to a name that is a private variable of AUX.",
        host, [{2: unit_of("UTIL", ["A5", public("STATE")], [publ_ref("STATE", [1])])}],
        Fault(28, 1, 7, 0))
    yield refused(
        "28-private-of-its-own",
        "UTIL has a PUBLREF to a name that is a private variable of its own.", wanting("UTIL"),
        [{2: unit_of("UTIL", ["A5", public("STATE")], [
              priv_ref("STATE", 2, []), publ_ref("STATE", [1])])}],
        Fault(28, 1, 7, 1))
    host = {1: program(priv_ref("STATE", 2, [])), 7: Segment("UTIL")}
    yield refused(
        "28-private-of-the-program",
        "UTIL has a PUBLREF to a name that is a private variable of the host program.", host,
        [{2: unit_of("UTIL", ["A5", public("STATE")], [publ_ref("STATE", [1])])}],
        Fault(28, 1, 7, 0))
    program_there = Segment("LIB", HOSTSEG, program().procedures, [
        publ_def("CUONT", 7), eof_mark(99)])
    yield refused(
        "28-of-a-library",
        "UTIL has a PUBLREF to a name that only a program in the library defines.", wanting("UTIL"),
        [{2: unit_of("UTIL", ["A5", public("CUONT")], [publ_ref("CUONT", [1])]), 1: program_there}],
        Fault(28, 1, 7, 0))
    yield refused(
        "29-no-reference", "UTIL has a PUBLREF without references to a constant.",
        wanting("UTIL", host=program(const_def("LIMIT", 5))),
        [{2: unit_of("UTIL", (), [publ_ref("LIMIT", [])])}], Fault(29, 1, 7, 0))
    for name, later in [("24-public-and-constant", const_def("COUNT", 3)),
                        ("24-of-one-value", publ_def("COUNT", 3))]:
        yield refused(
            name, "The host defines COUNT a second time, with the same value.",
            {1: program(publ_def("OTHER", 1), later)}, [], Fault(24, 0, 1, 2))
    for name, later in [("24-two-constants", const_def("LIMIT", 5)),
                        ("24-constant-and-public", publ_def("LIMIT", 5))]:
        yield refused(
            name, "The host defines the constant LIMIT, and then LIMIT again.",
            {1: program(const_def("LIMIT", 4), later)}, [], Fault(24, 0, 1, 2))
    host = program(priv_ref("STATE", 1, []), publ_ref("COUNT", []), publ_def("COUNT", 9))
    yield refused(
        "24-after-other-records",
        "The host defines COUNT a second time, after records of other kinds.", {1: host}, [],
        Fault(24, 0, 1, 3))
    host = program(
        const_def("LIMIT", 4), publ_def("LIMIT", 5), publ_def("COUNT", 6), const_def("LIMIT", 7))
    yield refused(
        "24-two-names",
        "The host defines LIMIT a second time, then COUNT, and then LIMIT a third time.", {1: host},
        [], Fault(24, 0, 1, 2))
    for name, library in [("wanted", {2: unit_of("UTIL"), 3: unit_of("UTIL2")}), ("unit", {})]:
        low = Segment("UTIL") if name == "wanted" else unit_of("UTIL")
        other = unit_of("UTIL") if name == "wanted" else Segment("UTIL")
        yield refused(
            f"6-{name}-then-{'unit' if name == 'wanted' else 'wanted'}",
            "Two slots have one name: one has the unit, and " "one wants it.",
            {1: program(), 3: low, 9: other}, [library] if library else [], Fault(6, 0, 9))


def cases():
    for made in (in_libraries, in_the_host, of_definitions, with_zeros, that_are_blank, of_units):
        yield from made()
