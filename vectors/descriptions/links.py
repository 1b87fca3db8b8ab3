"""Files that are linked: each kind of record and lists of each length in both byte orders, units
that only units use, and names that several things have. limits.py has more."""
from .cases import Case, Link, Placed, Private
from .model import (HOSTSEG, LINKED, PRIVREF, PUBLREF, UNITREF, UNITSEG, File, Operand, Procedure,
                    Record, Segment, const_def, eof_mark, places, priv_ref, publ_def, publ_ref,
                    unit_ref)

ORDERS = ("little", "big")
LENGTHS = (0, 1, 8, 9, 300)


# Makers -------------------------------------------------------------------------------------------


def public(name="COUNT", displacement=0, mark=0x80):
    return Operand(PUBLREF, name, displacement, mark)


def private(name="STATE", displacement=0, mark=0x80):
    return Operand(PRIVREF, name, displacement, mark)


def unit(name, old=0):
    return Operand(UNITREF, name, old)


def program(*records, parts=("D7 D7",), next_free=8, data=10, name="DEMO", **fields):
    """A host program of 4 bytes of parameters. The definition COUNT, at 3, comes before its other
    records."""
    procedure = Procedure([*parts, "C1 00"], parameters=4, data=data)
    return Segment(
        name, HOSTSEG, [procedure], [publ_def("COUNT", 3), *records, eof_mark(next_free)], **fields)


def code_of(*parts):
    return [Procedure([*parts, "AD 00"])]


def unit_of(name, parts=(), records=(), next_free=0, **fields):
    return Segment(name, UNITSEG, code_of(*parts), [*records, eof_mark(next_free)], **fields)


def referring(name, maker, type, parts, **fields):
    """A record with each operand of its name in these parts, in order."""
    return maker(
        name, *fields.values(), places(Segment("", procedures=code_of(*parts)), type, name))


def wanting(*names, first=7, host=None):
    """A host with the program in slot 1, and with slots from 7 on that want these units."""
    return {1: host or program(), **{first + k: Segment(name) for k, name in enumerate(names)}}


def as_file(described, order):
    return described if isinstance(described, File) else File(described, order)


def linked(
        name, about, host, libraries, placed, privates=(), next_free=8, data=10, order="little",
        given=None):
    """A case whose files are linked. A segment of `placed` is its slot, its file and its entry, and
    True if it is added; a private variable is its slot, its name, its base offset and its words."""
    link = Link(
        [Placed(*one) for one in placed], [Private(*one) for one in privates], next_free, data)
    files = [as_file(one, order) for one in libraries]
    return Case(f"links/{name}", about, as_file(host, order), files, link=link, given=given)


def refused(name, about, host, libraries, fault, order="little", given=None, folder="faults"):
    """A case whose files are refused."""
    files = [as_file(one, order) for one in libraries]
    return Case(f"{folder}/{name}", about, as_file(host, order), files, fault=fault, given=given)


DEMO, UTIL = (1, 0, 1), (7, 1, 2)  # where most cases have them: slot, file and entry


def one_unit(name, about, parts, records, *, host=None, order="little", **link):
    """DEMO and UTIL, which is entry 2 of the one library."""
    library = {2: unit_of("UTIL", parts, records)}
    return linked(
        name, about, wanting("UTIL", host=host), [library], [DEMO, UTIL], order=order, **link)


# Records of each kind -----------------------------------------------------------------------------


def kinds(order):
    """A case for each kind of record. COUNT is 3, and private variables begin at 8."""
    at = f"-{order}-endian"
    yield one_unit(
        f"publref{at}", "A PUBLREF: 3 + 2 is 5.", ["A5", public(displacement=2)],
        [publ_ref("COUNT", [1])], order=order)
    yield one_unit(
        f"privref{at}",
        "A PRIVREF of 4 words at 8: its third word is 10. The data size grows by 8.",
        ["AB", private(displacement=2)], [priv_ref("STATE", 4, [1])], order=order,
        privates=[(7, "STATE", 8, 4)], next_free=12, data=18)
    host = {**wanting("UTIL"),
            8: unit_of("AUX", ["CD", unit("UTIL", 5), "02"], [unit_ref("UTIL", [1])])}
    yield linked(
        f"unitref{at}", "A UNITREF of AUX, in the host, to UTIL, in slot 7.", host,
        [{2: unit_of("UTIL")}], [DEMO, UTIL, (8, 0, 8)], order=order)
    yield one_unit(
        f"publdef-of-a-unit{at}", "A PUBLDEF of a unit is not used.", ["A5", public()],
        [publ_def("COUNT", 99), publ_ref("COUNT", [1]), publ_def("OTHER", 5)], order=order)
    host = program(const_def("LIMIT", 100), publ_def("LAST", 65535), const_def("ZERO", 0))
    yield one_unit(
        f"definitions{at}", "Constants and variables of the host, in the order of the map.",
        ["A5", public()], [publ_ref("COUNT", [1])], host=host, order=order)
    yield one_unit(
        f"eofmark{at}", "A unit whose link information is its end mark alone.", ["D7"], [],
        order=order)
    parts = ["A5", public(displacement=1), "AB", private("OWN", 1), "CD", unit("UTIL"), "01"]
    records = [publ_ref("COUNT", [1]), priv_ref("OWN", 2, [4]), unit_ref("UTIL", [7])]
    yield linked(
        f"records-of-the-host{at}", "The host program has a reference record of each kind itself.",
        wanting("UTIL", host=program(*records, parts=parts)), [{2: unit_of("UTIL")}], [DEMO, UTIL],
        [(1, "OWN", 8, 2)], 10, 14, order)


def in_each_order():
    for order in ORDERS:
        yield from kinds(order)
        for count in LENGTHS:
            yield from lists(count, order)


def lists(count, order):
    """A record of each kind with a list of `count` references. Displacements and old bytes
    differ."""
    end = f"-{count}-{order}-endian"
    about = f"with a list of {count} references."
    parts = [part for k in range(count) for part in (
                 "A5", public(displacement=k % 9, mark=128 * (k % 2)))]
    yield one_unit(
        f"list-publref{end}", f"A PUBLREF {about}", parts,
        [referring("COUNT", publ_ref, PUBLREF, parts)], order=order)
    parts = [part for k in range(count) for part in ("AB", private(displacement=k))]
    yield one_unit(f"list-privref{end}", f"A PRIVREF {about}", parts,
                   [referring("STATE", priv_ref, PRIVREF, parts, words=300)], order=order,
                   privates=[(7, "STATE", 8, 300)], next_free=308, data=610)
    parts = [part for k in range(count) for part in ("CD", unit("UTIL", k % 256), "01")]
    yield one_unit(
        f"list-unitref{end}", f"A UNITREF {about}", parts,
        [referring("UTIL", unit_ref, UNITREF, parts)], order=order)


# Records that are read in some special way --------------------------------------------------------


def record_details():
    parts = ["A5", public(), "A5", public()]
    yield one_unit("list-descending", "The references of a list in descending order.", parts, [
        publ_ref("COUNT", [4, 1])])
    record = publ_ref("COUNT", [1, 4])
    record.rest = b"\xff"
    yield one_unit("list-rest", "The unused words of a list are FF FF.", parts, [record])
    yield one_unit("records-of-one-name", "Two PUBLREF records of one name.", parts, [
        publ_ref("COUNT", [1]), publ_ref("COUNT", [4])])
    parts = ["CD", unit("UTIL"), "01", "CD", unit("UTIL"), "01"]
    yield one_unit(
        "unitrefs-of-one-name", "Two UNITREF records of one name, which is the unit's own.", parts,
        [unit_ref("UTIL", [4]), unit_ref("UTIL", [1])])
    words = [Record("COUNT", PUBLREF, [2, 1, 65535], [1]), Record("OTHER", 7, [1, 2, 3])]
    yield one_unit(
        "words-without-meaning", "Words of records to which the format gives no meaning are not 0.",
        ["A5", public()], words)
    library = {2: unit_of("UTIL", ["A5", public()], [publ_ref("COUNT", [1])], next_free=500)}
    library[2].records[-1].name = "NOTHING"
    yield linked(
        "end-mark-of-a-unit", "The end mark of a unit has a name and a value, which are not used.",
        wanting("UTIL"), [library], [DEMO, UTIL])
    library = {2: unit_of("UTIL", ["A5", public()], [publ_ref("COUNT", [1])])}
    library[2].records += [Record("AFTER", 15, [1, 2, 3]), Record("AFTER", 3, [9, 9, 9])]
    yield linked("after-the-end-mark", "Bytes after the end mark that would be refused as records.",
                 wanting("UTIL"), [library], [DEMO, UTIL])
    library = {2: unit_of("UTIL", ["A5", public()], [publ_ref("COUNT", [1])])}
    library[2].records[-1].name = bytes(8)
    yield linked(
        "zeros-as-end-mark", "Sixteen zero bytes are an end mark.", wanting("UTIL"), [library],
        [DEMO, UTIL])


# Units that only units use ------------------------------------------------------------------------


def using(name, *names):
    """A unit that uses others, with a reference to each."""
    parts = [part for used in names for part in ("CD", unit(used), "01")]
    return unit_of(name, parts, [unit_ref(used, [1 + 3 * k]) for k, used in enumerate(names)])


def host_using(*names):
    parts = [part for used in names for part in ("CD", unit(used), "01")]
    return program(*(unit_ref(used, [1 + 3 * k]) for k, used in enumerate(names)), parts=parts)


def chains():
    """UTIL is in slot 7, and the units that are added follow it."""
    for length in (1, 2, 8):
        names = ["UTIL", *(f"CHAIN{k}" for k in range(1, length + 1))]
        libraries = [{k % 16: using(name, *names[k + 1 : k + 2])} for k, name in enumerate(names)]
        placed = [DEMO, (7, 1, 0), *((7 + k, k + 1, k, True) for k in range(1, length + 1))]
        yield linked(
            f"added-{length}", f"A chain of {length} added units, each in a library of its own.",
            wanting("UTIL"), libraries, placed)
    names = [f"CHAIN{k}" for k in range(9)]
    library = {k: using(name, *names[k + 1 : k + 2]) for k, name in enumerate(names)}
    for end, order in (("", "little"), ("-big-endian", "big")):
        yield (linked(
                   f"added-9{end}",
                   "A chain of nine units that the host program's UNITREF begins: slots 7 to 15 "
                   "are taken.",
                   {1: host_using("CHAIN0")}, [library],
                   [DEMO, *((7 + k, 1, k, True) for k in range(9))], order=order))


def added():
    library = {2: using("UTIL", "MORE"), 3: using("MORE", "UTIL", "MORE")}
    yield linked(
        "added-in-a-cycle", "UTIL uses MORE, which uses UTIL and itself.", wanting("UTIL"),
        [library], [DEMO, UTIL, (8, 1, 3, True)])
    library = {2: using("UTIL", "LEFT", "RIGHT"), 3: using("LEFT", "LOW"),
               4: using("RIGHT", "LOW", "LEFT"), 5: using("LOW")}
    yield linked(
        "added-once", "Two units use a third: it is added once, after both.", wanting("UTIL"),
        [library], [DEMO, UTIL, (8, 1, 3, True), (9, 1, 4, True), (10, 1, 5, True)])
    record = unit_ref("MORE", [])
    yield linked(
        "added-without-references", "A UNITREF with an empty list adds the unit.", wanting("UTIL"),
        [{2: unit_of("UTIL", (), [record])}, {3: unit_of("MORE")}], [DEMO, UTIL, (8, 2, 3, True)])
    tools = Segment("TOOLS", LINKED, code=b"\xd7\xad")
    host = {**wanting("UTIL"), 8: tools, 9: Segment("OLD", 5, text=3), 10: tools,
            0: Segment("", LINKED)}
    yield linked(
        "added-between",
        "Slots 8 and 10 are filled, and the empty slot 9 has another name and kind.", host,
        [{2: using("UTIL", "MORE", "LAST"), 3: unit_of("MORE"), 4: unit_of("LAST")}],
        [DEMO, UTIL, (8, 0, 8), (9, 1, 3, True), (10, 0, 10), (11, 1, 4, True)])
    other = {5: unit_of("MORE", ["D7 D7 D7 D7"])}
    yield linked(
        "added-from-the-first",
        "Two libraries have the added unit: the first has it with no other code.", wanting("UTIL"),
        [{2: using("UTIL", "MORE")}, other, {3: unit_of("MORE")}], [DEMO, UTIL, (8, 2, 5, True)])
    parts = ["A5", public(displacement=1), "AB", private(displacement=1)]
    library = {3: unit_of("MORE", parts, [publ_ref("COUNT", [1]), priv_ref("STATE", 5, [4])])}
    first = {2: unit_of("UTIL", ["CD", unit("MORE"), "01", "AB", private()], [
                 unit_ref("MORE", [1]), priv_ref("STATE", 2, [4])])}
    yield (linked(
               "added-with-variables",
               "An added unit refers to a variable of the host and to one of its own.",
               wanting("UTIL"), [first, library], [DEMO, UTIL, (8, 2, 3, True)],
               [(7, "STATE", 8, 2), (8, "STATE", 10, 5)], 15, 24))
    host = {**wanting("UTIL"), 9: Segment("MORE", LINKED, code=b"\xd7\xad")}
    yield linked(
        "added-beside-a-plain-one",
        "A plain segment has the name of the unit: it is not what UTIL uses.", host,
        [{2: using("UTIL", "MORE"), 3: unit_of("MORE")}], [DEMO, UTIL, (8, 1, 3, True), (9, 0, 9)])
    host = {**wanting("UTIL"), 8: Segment(bytes(8), address=0, length=24)}
    yield linked(
        "added-in-a-slot-of-zeros",
        "The added unit takes an empty slot of kind 3 that is named by zero bytes.", host,
        [{2: using("UTIL", "MORE"), 3: unit_of("MORE")}], [DEMO, UTIL, (8, 1, 3, True)])
    # in slot 0 TOOLS names B and C, then the host program C and A, then UTIL E and A; each of these
    # units names AUX
    host = {0: using("TOOLS", "B", "C"), 1: host_using("C", "A"), 2: Segment("UTIL")}
    letters = {0: using("A", "AUX"), 1: using("B", "AUX"), 2: using("C", "AUX"),
               4: using("E", "AUX")}
    aux = unit_of("AUX", ["A5", public(), "AB", private(displacement=2)], [
        publ_ref("COUNT", [1]), priv_ref("STATE", 4, [4])])
    yield linked(
        "added-by-first-record",
        "Names are requested in the order of the first record of each: B, C, A, E, AUX.", host,
        [{2: using("UTIL", "E", "A"), 3: aux}, letters],
        [(0, 0, 0), (1, 0, 1), (2, 1, 2), (7, 2, 1, True), (8, 2, 2, True), (9, 2, 0, True),
         (10, 2, 4, True), (11, 1, 3, True)],
        [(11, "STATE", 8, 4)], 12, 18)
    host = {1: host_using("MORE", "DEMO"), 9: Segment("MORE", LINKED, code=b"\xd7\xad")}
    yield linked(
        "added-of-names-of-the-host",
        "The host uses units of the names of its plain segment and of itself.", host,
        [{3: unit_of("MORE"), 4: unit_of("DEMO")}],
        [DEMO, (7, 1, 3, True), (8, 1, 4, True), (9, 0, 9)])


# Names that several things have -------------------------------------------------------------------


def names():
    parts = ["AB", private(displacement=1)]
    records = [priv_ref("STATE", 3, [1])]
    host = {**wanting("UTIL"), 8: unit_of("AUX", parts, records)}
    yield linked(
        "privates-of-one-name",
        "Two units have a private variable of one name: each has its own words.", host,
        [{2: unit_of("UTIL", parts, records)}], [DEMO, UTIL, (8, 0, 8)],
        [(7, "STATE", 8, 3), (8, "STATE", 11, 3)], 14, 22)
    yield one_unit(
        "private-and-public", "A unit has a private variable of a public one's name.",
        ["A5", public(), "AB", private("COUNT", 1)],
        [publ_ref("COUNT", [1]), priv_ref("COUNT", 2, [4])], privates=[(7, "COUNT", 8, 2)],
        next_free=10, data=14)
    yield linked(
        "unit-and-definition",
        "A unit has the name of a definition and of a private variable of its own.",
        wanting("COUNT"),
        [{2: unit_of("COUNT", ["A5", public(), "AB", private("COUNT"), "CD", unit("COUNT"), "01"], [
              publ_ref("COUNT", [1]), priv_ref("COUNT", 1, [4]), unit_ref("COUNT", [7])])}],
        [DEMO, UTIL], [(7, "COUNT", 8, 1)], 9, 12)
    yield linked("unit-and-program", "A unit has the name of the host program.", wanting("DEMO"),
                 [{2: using("DEMO", "DEMO")}], [DEMO, UTIL])
    host = program(publ_def("Count", 4), publ_def("count", 5))
    yield one_unit(
        "small-letters", "Names that differ in capitals alone.",
        ["A5", public("count"), "A5", public("Count"), "A5", public()],
        [publ_ref("count", [1]), publ_ref("Count", [4]), publ_ref("COUNT", [7])], host=host)
    odd, other = bytes.fromhex("FF 00 41 80 7F 20 1F 7E"), b"COUNT\0\0\0"
    host = {1: program(publ_def(odd, 6), publ_def(other, 7)), 7: Segment(odd)}
    yield linked(
        "bytes-in-names",
        "Names of bytes that are no letters, and one that is padded with zero bytes.", host,
        [{2: unit_of(
              odd,
              ["A5", public(odd), "A5", public(other), "AB", private(odd), "CD", unit(odd), "01"],
              [publ_ref(odd, [1]), publ_ref(other, [4]), priv_ref(odd, 1, [7]),
               unit_ref(odd, [10])])}],
        [DEMO, UTIL], [(7, odd, 8, 1)], 9, 12)
    host = {1: host_using(""), 7: unit_of("", ["D7"])}
    yield linked(
        "unit-without-a-name",
        "A unit in the host has a blank name, and so does the UNITREF to it.", host, [],
        [DEMO, (7, 0, 7)])
    tools = Segment("UTIL", LINKED, code=b"\x01\x02\x03\x04\x05")
    yield linked(
        "plain-of-the-name", "A plain segment has the name of the unit before it.",
        {1: program(), 7: unit_of("UTIL", ["A5", public()], [publ_ref("COUNT", [1])]), 8: tools},
        [], [DEMO, (7, 0, 7), (8, 0, 8)])
    # of the names that USER uses, UTIL and LATE are units of this file and WANTED is a unit that it
    # wants
    user = using("USER", "USER", "UTIL", "PLAIN", "OTHER", "WANTED", "LATE", "NOBODY")
    user.records[-1:-1] = [publ_ref("NOBODY", []), priv_ref("NOBODY", 4, []),
                           unit_ref(bytes(8), [])]
    first = {0: Segment("WANTED"), 2: unit_of("UTIL"), 3: Segment("PLAIN", LINKED, code=b"\xd7"),
             4: Segment("OTHER", 5, shares=2), 6: user, 9: unit_of(bytes(8), length=0),
             15: unit_of("LATE", address=900, fault=16)}
    zeros = unit_of(bytes(8), (), [unit_ref(bytes(8), []), unit_ref(b"\1" * 8, [])])
    host = {1: program(unit_ref("UTIL", [2]), parts=["CD", "D7", unit("UTIL")]), 7: Segment("UTIL")}
    yield linked(
        "unlisted",
        "UNITREF records of units that their file has, that it wants, and that it has not.", host,
        [first, {2: zeros}], [DEMO, UTIL])
    host = {1: program(publ_def("", 9), publ_def(bytes(8), 10)), 7: Segment("UTIL")}
    yield linked(
        "definitions-without-a-name",
        "Definitions with names of eight blanks and of eight zero bytes.", host,
        [{2: unit_of("UTIL", ["A5", public(""), "A5", public(bytes(8))], [
              publ_ref("", [1]), publ_ref(bytes(8), [4])])}],
        [DEMO, UTIL])


def cases():
    yield from in_each_order()
    yield from record_details()
    yield from chains()
    yield from added()
    yield from names()
