"""A set of files for each fault, in each kind of place: a host and two libraries that can be
linked, with one change. The pairs of faults are made of two of these changes (pairs.py)."""
import dataclasses

from .cases import Case, Fault, Link, Placed, Private
from .model import (HOSTSEG, LINKED, PRIVREF, PUBLREF, UNITREF, UNITSEG, File, Operand, Procedure,
                    Segment, const_def, eof_mark, priv_ref, publ_def, publ_ref, unit_ref)

CHANGES = {}


# The files that can be linked. Each segment to be linked has 12 bytes of instructions with a
# PUBLREF's operand at byte 1, a PRIVREF's at 4 and a UNITREF's at 7, then its table at byte 20 and
# the procedure dictionary from 22 to 25 ------------


def code(public, private, displacement, unit, leave, **sizes):
    parts = ["A5", Operand(PUBLREF, public), "AB", Operand(PRIVREF, private, displacement)]
    return [Procedure([*parts, "CD", Operand(UNITREF, unit), "01", leave], **sizes)]


def references(public, private, words, unit):
    return [publ_ref(public, [1]), priv_ref(private, words, [4]), unit_ref(unit, [7])]


@dataclasses.dataclass
class Files:
    """DEMO, AUX and TOOLS are in the host, and UTIL in the first library. UTIL uses AUX or, if
    there is a second library, MORE, which is there and for which the host has no slot."""

    host: File
    first: File
    second: File = None

    def libraries(self):
        return [self.first, self.second] if self.second else [self.first]

    def segment(self, name):
        file, slot = {"demo": (self.host, 1), "aux": (self.host, 8), "tools": (self.host, 9),
                      "util": (self.first, 2), "more": (self.second, 3)}[name]
        return file.slots[slot]


def files(two_libraries):
    demo = code("COUNT", "OWN", 0, "UTIL", "C1 00", data=10, parameters=4)
    definitions = [publ_def("COUNT", 3), publ_def("TOTAL", 5), const_def("LIMIT", 100),
                   publ_def("SPARE", 7)]
    used = "MORE" if two_libraries else "AUX"
    host = {
        1: Segment(
            "DEMO", HOSTSEG, demo,
            [*definitions, *references("COUNT", "OWN", 2, "UTIL"), eof_mark(8)]),
        7: Segment("UTIL", UNITSEG),
        8: Segment("AUX", UNITSEG, code("TOTAL", "STATE", 1, "UTIL", "AD 00"), [
            *references("TOTAL", "STATE", 3, "UTIL"), eof_mark(0)]),
        9: Segment("TOOLS", LINKED, code=bytes.fromhex("D7 AD 00 01 01")),
    }
    util = Segment("UTIL", UNITSEG, code("COUNT", "STATE", 2, used, "AD 00"),
                   [*references("COUNT", "STATE", 4, used), eof_mark(0)])
    more = Segment("MORE", UNITSEG, code("TOTAL", "CACHE", 0, "UTIL", "AD 00"),
                   [*references("TOTAL", "CACHE", 1, "UTIL"), eof_mark(0)])
    made = Files(File(host, tail={300: 0x2A}), File({2: util}))
    if two_libraries:
        made.second = File({3: more})
    return made


# Changes ------------------------------------------------------------------------------------------


@dataclasses.dataclass
class Change:
    """What is wrong, what is done to the files, and the fault that is then reported if nothing else
    is wrong."""

    about: str
    change: object
    fault: Fault
    two_libraries: bool


def fault(name, about, change, file, *parts, two_libraries=False, **more):
    """Adds the change of this name, which begins with the fault's number."""
    assert name not in CHANGES, name
    number = int(name.split("-")[0])
    CHANGES[name] = Change(
        about, change, Fault(number, file, *parts, **more), two_libraries or file == 2)


# by segment: the file that a fault reports, the slot, and the indices of its first reference record
# and its end mark
SEGMENTS = {"demo": (0, 1, 4, 7), "util": (1, 7, 0, 3), "aux": (0, 8, 0, 3), "more": (2, 10, 0, 3)}
CODES = {**SEGMENTS, "tools": (0, 9, None, None)}
WHERE = {"demo": "the host program", "util": "the wanted unit, of the first library",
         "aux": "the unit in the host", "more": "the added unit, of the second library",
         "tools": "the plain segment"}
FILES = {"host": 0, "first": 1, "second": 2}
FILE_NAMES = {"host": "The host", "first": "The first library", "second": "The second library"}
PUBLIC, PRIVATE, UNIT = range(3)  # of a segment's reference records


def each(names):
    """Of each of these segments: its name, what it is, and its row of CODES."""
    for name in names.split():
        yield name, WHERE[name], *CODES[name]


def setting(part, **values):
    """Sets fields of a file or a segment, which `part` finds among the files."""

    def change(given):
        for field, value in values.items():
            setattr(part(given), field, value)

    return change


def file_named(name):
    return lambda given: getattr(given, name)


def segment_named(name):
    return lambda given: given.segment(name)


def record_at(segment, index):
    return lambda given: given.segment(segment).records[index]


def operand_of(segment, type):
    return lambda given: next(part for part in given.segment(segment).procedures[0].parts
                              if isinstance(part, Operand) and part.type == type)


def slot_with(slot, new, *, name="host"):
    """Puts a segment into a slot of a file."""

    def change(given):
        getattr(given, name).slots[slot] = new()

    return change


def shared(name, kind, of):
    """A segment with the code of another slot of its file, and no records of its own to read."""
    return lambda: Segment(name, kind, shares=of)


def appended(segment, record):
    """Puts a record before the end mark."""
    return lambda given: given.segment(segment).records.insert(-1, record())


# 1 to 4: files

for name, number in FILES.items():
    about = FILE_NAMES[name]
    fault(
        f"1-{name}", f"{about} has 511 bytes.", setting(file_named(name), cut=511, refused=1),
        number)
    fault(f"2-{name}", f"{about} has kinds in both orders: byte 193 is 1.",
          setting(file_named(name), changes={193: "01"}, refused=2), number)
    if number:
        fault(
            f"3-{name}", f"{about} is big-endian.", setting(file_named(name), order="big"), number)


fault("2-big-endian", "The host is big-endian but for byte 192, which is 1.",
      setting(file_named("host"), order="big", changes={192: "01"}, refused=2), 0)
fault(
    "3-little-endian", "The host is big-endian, and the first library is not.",
    setting(file_named("host"), order="big"), 1)


def without_kinds(given):
    for segment in given.host.slots.values():
        segment.kind = LINKED


fault("4-unknown", "Every kind of the host is 0.", without_kinds, 0)
fault(
    "4-no-segment", "The host's slot 1 has length 0.", setting(segment_named("demo"), length=0), 0)
fault(
    "4-other-kind", "The host program has kind 0.", setting(segment_named("demo"), kind=LINKED), 0)

# 5 to 10: slots of the host

fault("5-slot-2", "Slot 2 is a host program too.", slot_with(2, shared("DEMO", HOSTSEG, 1)), 0, 2)
fault(
    "5-slot-12", "Slot 12 is a host program too.", slot_with(12, shared("OTHER", HOSTSEG, 1)), 0,
    12)
fault(
    "5-slot-0", "Slot 0 is a host program before that of slot 1.",
    slot_with(0, shared("DEMO", HOSTSEG, 1)), 0, 1)
fault(
    "6-wanted", "Slot 11 wants UTIL, as slot 7 does.", slot_with(11, lambda: Segment("UTIL")), 0,
    11)
fault("6-unit", "Slot 12 has AUX, as slot 8 does.", slot_with(12, shared("AUX", UNITSEG, 8)), 0, 12)
fault("6-low", "Slot 5 wants UTIL before slot 7 does.", slot_with(5, lambda: Segment("UTIL")), 0, 7)
for number, kind, low, high in [(7, 2, 3, 13), (8, 4, 4, 14), (9, 5, 5, 14), (10, 8, 6, 15)]:
    for slot in (low, high):
        fault(
            f"{number}-slot-{slot}", f"Slot {slot} has kind {kind}.",
            slot_with(slot, shared("", kind, 9)), 0, slot)
fault("9-kind-6", "Slot 12 has kind 6.", slot_with(12, shared("", 6, 9)), 0, 12)
fault("9-kind-7", "Slot 12 has kind 7.", slot_with(12, shared("", 7, 9)), 0, 12)
fault("10-kind-255", "Slot 12 has kind 255.", slot_with(12, shared("", 255, 9)), 0, 12)

# 11, 12, 16: where a code is

for name, where, number, slot, _, _ in each("util tools"):
    fault(f"11-long-{name}", f"The code of {where} has 32768 bytes.",
          setting(segment_named(name), length=32768, fault=11), number, slot)
for name, where, number, slot, _, _ in each("demo util more"):
    fault(f"11-odd-{name}", f"The code of {where} has 25 bytes.",
          setting(segment_named(name), length=25, fault=11), number, slot)
for name, where, number, slot, _, _ in each("util aux"):
    fault(f"11-short-{name}", f"The code of {where} has 2 bytes.",
          setting(segment_named(name), length=2, fault=11), number, slot)
for name, where, number, slot, _, _ in each("demo util aux tools more"):
    fault(f"16-{name}", f"The code of {where} would start in block 900, past the end of the file.",
          setting(segment_named(name), address=900, fault=16), number, slot)
fault(
    "12-demo", "The host program has address 0.",
    setting(segment_named("demo"), address=0, fault=12), 0, 1)
fault(
    "12-tools", "The plain segment has address 0.", setting(segment_named("tools"), address=0), 0,
    9)

# 13 to 15, 35: units of libraries. UTIL's record 2 requests MORE

NOBODY = 'The UNITREF requests "NOBODY", which no library has: that of '
fault(
    "13-wanted", "The library has the wanted unit as UTILS.",
    setting(segment_named("util"), name="UTILS"), 0, 7)
fault("13-address", "The library's UTIL has address 0, so its slot is not filled.",
      setting(segment_named("util"), address=0), 0, 7)
fault("13-length", "The library's UTIL has length 0, so its slot is not filled.",
      setting(segment_named("util"), length=0), 0, 7)
fault(
    "13-program", "Slot 12 wants a unit of the name of the host program.",
    slot_with(12, lambda: Segment("DEMO")), 0, 12)
fault(
    "13-requested", "No library has MORE, which only UTIL uses.",
    setting(segment_named("more"), name="MOST"), 1, 7, 2, two_libraries=True)
for name, where, number, slot, first, _ in each("demo util aux"):
    fault(f"13-requested-by-{name}", NOBODY + where + ".",
          setting(record_at(name, first + UNIT), name="NOBODY"), number, slot, first + UNIT)
fault("13-blank", "The UNITREF of the wanted unit has a name of eight blanks.",
      setting(record_at("util", UNIT), name=""), 1, 7, UNIT)


def requesting(name):
    """UTIL requests a blank name, and the library has a unit of that name."""

    def change(given):
        given.segment("util").records[UNIT].name = name
        given.first.slots[3] = Segment(name, UNITSEG, shares=2)

    return change


fault(
    "13-blank-there", "The UNITREF and a unit of the library have a name of eight blanks.",
    requesting(""), 1, 7, UNIT)
fault(
    "13-zeros-there", "The UNITREF and a unit of the library have a name of eight zero bytes.",
    requesting(bytes(8)), 1, 7, UNIT)
for kind in (0, 4, 5):
    fault(
        f"14-kind-{kind}", f"The library's UTIL has kind {kind}.",
        setting(segment_named("util"), kind=kind), 1, 7, kind=kind)


def two_of_util(given):
    """The second library has UTIL too."""
    given.second.slots[5] = Segment("UTIL", UNITSEG, shares=3)


def other_kind_first(given):
    two_of_util(given)
    given.first.slots[2].kind = 5


def other_kind_second(given):
    two_of_util(given)
    given.first.slots[2].length = 0
    given.second.slots[5].kind = 5


fault(
    "14-first", "The first library has UTIL with kind 5, and the second as a unit.",
    other_kind_first, 1, 7, kind=5, two_libraries=True)
fault(
    "14-second", "The first library has UTIL with length 0, and the second with kind 5.",
    other_kind_second, 2, 7, kind=5)
fault(
    "14-added", "The second library's MORE has kind 4.", setting(segment_named("more"), kind=4), 2,
    10, kind=4)
fault("15-wanted", "The first library has UTIL twice.",
      slot_with(3, shared("UTIL", UNITSEG, 2), name="first"), 1, 7)
fault("15-added", "The second library has MORE twice.",
      slot_with(12, shared("MORE", UNITSEG, 3), name="second"), 2, 10)
fault("15-other-kind", "The first library has UTIL as a unit and with kind 5.",
      slot_with(1, shared("UTIL", 5, 2), name="first"), 1, 7)


def without_slots(given):
    for slot in range(10, 16):
        given.host.slots[slot] = Segment("TOOLS", LINKED, shares=9)


fault("35", "The slots from 10 to 15 are filled, so none is left for MORE.", without_slots, 1, 7, 2,
      two_libraries=True)


def requesting_seven(there):
    """UTIL requests MORE and six more names, of which the second library has units of so many. Six
    slots are empty, from 10 on."""

    def change(given):
        for k in range(6):
            given.segment("util").records.insert(-1, unit_ref(f"MORE{k}", []))
        for k in range(there):
            given.second.slots[4 + k] = Segment(f"MORE{k}", UNITSEG, shares=3)

    return change


fault(
    "35-seventh", "UTIL requests seven units, and six slots are empty.", requesting_seven(6), 1, 7,
    8, two_libraries=True)
fault(
    "13-seventh", "UTIL requests seven units, the seventh is missing, and six slots are empty.",
    requesting_seven(5), 1, 7, 8, two_libraries=True)
fault(
    "13-sixth", "UTIL requests seven units, and the last two are missing.", requesting_seven(4), 1,
    7, 7, two_libraries=True)

# 17, 18: procedures. The table is at byte 20, the dictionary's one word at 22, the number of
# procedures at 25

for name, where, number, slot, _, _ in each("demo util aux more"):
    fault(
        f"17-count-{name}",
        f"The procedure dictionary of {where} is longer than the code: it has 255 procedures.",
        setting(segment_named(name), changes={25: "FF"}), number, slot)
for name, where, number, slot, _, _ in each("util aux more"):
    fault(f"18-{name}", f"The procedure of {where} has number 0: it is native code.",
          setting(segment_named(name), changes={20: "00"}), number, slot)
for name, where in [("util", "the wanted unit"), ("demo", "the host program")]:
    fault(
        f"17-table-{name}",
        f"The table of {where} is at byte 7: its data size would be before the code.",
        setting(segment_named(name), changes={22: "0F 00"}), *CODES[name][:2])
    fault(
        f"17-inside-{name}",
        f"The table of {where} is at byte 21: its lex level is in the dictionary.",
        setting(segment_named(name), changes={22: "01 00"}), *CODES[name][:2])
fault("17-before-aux", "The table of the unit in the host would be before the code.",
      setting(segment_named("aux"), changes={22: "15 00"}), 0, 8)
fault("17-before-demo", "The table of the host program would be before the code.",
      setting(segment_named("demo"), changes={22: "FF FF"}), 0, 1)
fault("17-no-outer-block", "The host program has no procedure 1.",
      setting(segment_named("demo"), changes={22: "00 00"}), 0, 1)


def with_a_second_procedure(references=(4,), **values):
    """UTIL has a procedure 2 too: its table is at byte 34, and the dictionary's words of 2 and 1
    are at 36 and 38."""

    def change(given):
        util = given.segment("util")
        util.procedures.append(Procedure(["D7", "AD 00"], number=2))
        util.records[PRIVATE].references = list(references)
        for field, value in values.items():
            setattr(util, field, value)

    return change


fault(
    "17-second",
    "The second procedure's table would be before the code, and the first procedure has number 0.",
    with_a_second_procedure(changes={36: "FF FF", 20: "00"}), 1, 7)
fault(
    "18-second", "The second procedure has number 0.", with_a_second_procedure(changes={34: "00"}),
    1, 7)
fault("32-second", "The PRIVREF refers to byte 26, the data size of the second procedure.",
      with_a_second_procedure(references=[26]), 1, 7, PRIVATE, 0)

# 19 to 23: records. The words of a record after its type are at its bytes 10, 12 and 14


def words_of(name, index, fault_number, **words):
    """Sets the type or words of a record, which is then refused."""
    return setting(record_at(name, index), fault=fault_number, **words)


for name, where, number, slot, first, end in each("demo util aux more"):
    fault(
        f"19-{name}",
        f"The PUBLREF of {where} has 65535 references, and the file ends before their list does.",
        words_of(name, first, 19, words=[2, 65535]), number, slot, first)
    for wrong, type, family in [(20, 15, "above 14"), (21, 9, "of native code"),
                                (22, 13, "of separate procedures")]:
        if (wrong, name) != (22, "more"):
            fault(f"{wrong}-{name}", f"The PRIVREF of {where} has type {type}, {family}.",
                  words_of(name, first + PRIVATE, wrong, type=type), number, slot, first + PRIVATE)
fault(
    "23-util", "The PUBLREF of the wanted unit has format 1.",
    words_of("util", 0, 23, words=[1, 1]), 1, 7, 0)
fault(
    "23-unit-util", "The UNITREF of the wanted unit has format 2.",
    words_of("util", 2, 23, words=[2, 1]), 1, 7, 2)
for type in (2, 5, 6, 10):
    fault(
        f"21-type-{type}", f"A record has type {type}, of native code.",
        words_of("util", 1, 21, type=type), 1, 7, 1)
for type in (11, 12, 14):
    fault(f"22-type-{type}", f"A record has type {type}, of separate procedures.",
          words_of("util", 1, 22, type=type), 1, 7, 1)
for type in (256, 65535):
    fault(
        f"20-type-{type}", f"A record has type {type}.", words_of("util", 1, 20, type=type), 1, 7,
        1)
for number, format in [(21, 0), (23, 1)]:
    fault(
        f"{number}-cut-list",
        f"A PUBLREF has format {format} and 65535 references, of which the file has not all.",
        words_of("util", 0, number, words=[format, 65535]), 1, 7, 0)
for index, kind in enumerate(("publref", "privref", "unitref")):
    fault(f"21-format-{kind}", f"A {kind.upper()} has format 0, of native code.",
          words_of("util", index, 21, words=[0, 1, 4][: 3 if index == 1 else 2]), 1, 7, index)
fault("23-privref", "A PRIVREF has format 3.", words_of("util", 1, 23, words=[3, 1, 4]), 1, 7, 1)
# (the information of UTIL is at byte 1024: two records and their lists of 32 bytes, a third, and
# the end mark at 1120)
fault("19-no-information", "The first library ends after the code of UTIL.",
      setting(file_named("first"), cut=1024, stops={2: (0, 19)}), 1, 7, 0)
fault("19-end-mark", "The first library ends one byte before the end of UTIL's end mark.",
      setting(file_named("first"), cut=1135, stops={2: (3, 19)}), 1, 7, 3)
fault("19-list", "The first library ends inside the list of UTIL's UNITREF.",
      setting(file_named("first"), cut=1119, stops={2: (2, 19)}), 1, 7, 2)
fault("16-cut", "The first library ends one byte before the end of UTIL's code.",
      setting(file_named("first"), cut=537, stops={2: (None, 16)}), 1, 7)

# (the code of the host program ends at byte 538, and its information begins with two records at
# byte 1024)
AFTER_DEMO = {slot: (None, 16) for slot in (7, 8)}
for number, name, about, cut, left in [
    (16, "cut", "one byte before the end of its program's code", 537, None),
    (19, "no-information", "after its program's code", 538, 0),
    (19, "block", "one byte before its program's information", 1023, 0),
    (19, "first-record", "one byte before the end of its program's first record", 1039, 0),
    (19, "second-record", "one byte before the end of its program's second record", 1055, 1),
]:
    fault(f"{number}-{name}-demo", f"The host ends {about}.",
          setting(file_named("host"), cut=cut, stops={1: (left, number), **AFTER_DEMO}), 0, 1, left)

# 24 to 27: definitions, private variables, data. With the second library ten words are private,
# without it nine


def duplicate_in_slot(slot):
    def change(given):
        record_at("demo", 3)(given).name = "COUNT"
        given.host.slots[slot] = given.host.slots.pop(1)

    return change


fault(
    "24", "The host's SPARE has the name COUNT too.", setting(record_at("demo", 3), name="COUNT"),
    0, 1, 3)
fault(
    "24-constant", "The host's constant LIMIT has the name TOTAL too.",
    setting(record_at("demo", 2), name="TOTAL"), 0, 1, 2)
for slot in (0, 2, 15):
    fault(
        f"24-slot-{slot}",
        f"The host's SPARE has the name COUNT too, and its program is in slot {slot}.",
        duplicate_in_slot(slot), 0, slot, 3)
for name, where, number, slot, first, end in each("demo util"):
    private = "OWN" if name == "demo" else "STATE"
    fault(f"25-{name}", f"A second PRIVREF of {where} has the name {private}.",
          appended(name, lambda private=private: priv_ref(private, 1, [])), number, slot, end)
fault(
    "25-too-large",
    "A second PRIVREF of the unit in the host has the name STATE, and has 32767 words.",
    appended("aux", lambda: priv_ref("STATE", 32767, [])), 0, 8, 3)
for name, where, number, slot, first, _ in each("demo util more"):
    fault(
        f"26-{name}", f"The private variable of {where} has 32767 words.",
        setting(record_at(name, first + PRIVATE), words=[2, 1, 32767]), number, slot,
        first + PRIVATE)


def second_private(given):
    given.segment("util").records[PRIVATE].words = [2, 1, 32757]
    given.segment("util").records.insert(-1, priv_ref("LAST", 1, []))


fault(
    "26-second", "A private variable from 10 on has 32757 words, and one more follows it.",
    second_private, 1, 7, 3)
fault(
    "26-word", "The host's end mark is 65535.", setting(record_at("demo", -1), words=[65535]), 0, 1,
    5)
fault("27", "The data size is 65520, and grows by 18 bytes or more.",
      lambda given: setattr(given.segment("demo").procedures[0], "data", 65520), 0, 1)
fault("27-exact", "The data size is 65518, so it would be 65536.",
      lambda given: setattr(given.segment("demo").procedures[0], "data", 65518), 0, 1)

# 28 to 34: references

for name, where, number, slot, first, _ in each("demo util aux"):
    public = (number, slot, first)
    fault(
        f"28-{name}", f"The PUBLREF of {where} has the name CUONT.",
        setting(record_at(name, first), name="CUONT"), *public)
    fault(f"29-{name}", f"The PUBLREF of {where} has the name of the constant LIMIT.",
          setting(record_at(name, first), name="LIMIT"), *public)
    fault(f"31-{name}", f"The PUBLREF of {where} refers to byte 25, the last of the code.",
          setting(record_at(name, first), references=[25]), *public, 0)
    fault(
        f"32-{name}",
        f"The PUBLREF of {where} refers to byte 11, before the reserved bytes of the table.",
        setting(record_at(name, first), references=[11]), *public, 0)
for name, where, number, slot, first, _ in each("demo util"):
    fault(
        f"33-{name}",
        f"The PRIVREF of {where} refers to byte 2, the second of the PUBLREF's operand.",
        setting(record_at(name, first + PRIVATE), references=[2]), number, slot, first + PRIVATE, 0)
    fault(f"34-{name}", f"The PUBLREF's operand of {where} has the displacement 32767.",
          setting(operand_of(name, PUBLREF), old=32767), number, slot, first, 0)
fault("28-next", "A second PUBLREF of the wanted unit has the name CUONT, and no reference.",
      appended("util", lambda: publ_ref("CUONT", [])), 1, 7, 3)
fault("28-no-reference", "The PUBLREF has the name CUONT and no reference.",
      setting(record_at("util", 0), name="CUONT", words=[2, 0], references=[]), 1, 7, 0)


def defined_by_a_unit(given):
    given.segment("util").records[0].name = "CUONT"
    given.segment("aux").records.insert(-1, publ_def("CUONT", 3))


def later_operand(references):
    """The PUBLREF of UTIL has these references, and the operand at byte 4, the PRIVREF's, the
    displacement 32767."""

    def change(given):
        util = given.segment("util")
        operand_of("util", PRIVREF)(given).old = 32767
        util.records[0].words, util.records[0].references = [2, len(references)], references
        util.records[PRIVATE].words, util.records[PRIVATE].references = [2, 0, 4], []

    return change


fault(
    "28-of-a-unit", "The PUBLREF has the name CUONT, which only a unit defines.", defined_by_a_unit,
    1, 7, 0)
fault(
    "31-unit", "The UNITREF refers to byte 26, behind the code.",
    setting(record_at("util", UNIT), references=[26]), 1, 7, 2, 0)
fault(
    "31-far", "The PRIVREF refers to byte 65535.",
    setting(record_at("util", PRIVATE), references=[65535]), 1, 7, 1, 0)
fault(
    "32-twice", "The PUBLREF refers to byte 11 twice.",
    setting(record_at("util", 0), words=[2, 2], references=[11, 11]), 1, 7, 0, 0)
fault(
    "32-dictionary", "The UNITREF refers to byte 25.",
    setting(record_at("util", UNIT), references=[25]), 1, 7, 2, 0)
fault("33-twice", "The PUBLREF refers to one byte twice.",
      setting(record_at("util", 0), words=[2, 2], references=[1, 1]), 1, 7, 0, 1)
fault("33-first-byte", "The PUBLREF refers to byte 1 and then to byte 0.",
      setting(record_at("util", 0), words=[2, 2], references=[1, 0]), 1, 7, 0, 1)
fault("33-second-byte", "The PUBLREF refers to byte 1 and then to byte 2.",
      setting(record_at("util", 0), words=[2, 2], references=[1, 2]), 1, 7, 0, 1)
fault("33-unit", "The UNITREF refers to byte 5, the second of the PRIVREF's operand.",
      setting(record_at("util", UNIT), references=[5]), 1, 7, 2, 0)
fault(
    "34-private",
    "The PRIVREF's operand has the displacement 32758, and its variable the base offset 10.",
    setting(operand_of("util", PRIVREF), old=32758), 1, 7, 1, 0)
fault("34-exact", "The PUBLREF's operand has the displacement 32765, and COUNT the value 3.",
      setting(operand_of("util", PUBLREF), old=32765), 1, 7, 0, 0)
fault(
    "34-later",
    "The first operand of the PUBLREF becomes 3, the second has the displacement 32767.",
    later_operand([1, 4]), 1, 7, 0, 1)
fault(
    "34-earlier", "The PUBLREF refers to the operand of the displacement 32767 first.",
    later_operand([4, 1]), 1, 7, 0, 0)


# Changes that are made to big-endian files too
BIG_ENDIAN = """1-first 4-no-segment 5-slot-2 6-wanted 7-slot-3 8-slot-4 9-slot-5
    9-kind-6 9-kind-7 10-slot-6 11-odd-util 12-tools 13-requested 14-kind-5 15-added
    16-util 17-count-demo 18-util 19-util 20-type-256 21-util 22-util 23-util 24
    24-constant 25-util 26-word 27-exact 28-util 29-util 31-util 32-util 33-util 34-exact
    35""".split()

# Changes that are made also where UTIL is in slot 7 of the host itself
IN_PLACE = """1-host 2-host 4-unknown 4-no-segment 5-slot-0 5-slot-2 6-wanted 7-slot-3
    8-slot-4 9-kind-6 10-slot-6 10-kind-255 11-odd-demo 12-demo 16-cut-demo
    17-no-outer-block 17-before-demo 17-table-demo 17-inside-demo 19-no-information-demo
    19-block-demo 19-first-record-demo 19-second-record-demo 24 24-constant""".split()


def cases():
    for name, made in CHANGES.items():
        given = files(made.two_libraries)
        made.change(given)
        yield Case(f"faults/{name}", made.about, given.host, given.libraries(), fault=made.fault)
    for name in BIG_ENDIAN:
        made = CHANGES[name]
        given = files(made.two_libraries)
        for file in (given.host, *given.libraries()):
            file.order = "big"
        made.change(given)
        about = f"{made.about} The files are big-endian."
        yield Case(
            f"faults/{name}-big-endian", about, given.host, given.libraries(), fault=made.fault)
    for name in IN_PLACE:
        made = CHANGES[name]
        given = files(False)
        given.host.slots[7] = given.first.slots.pop(2)
        made.change(given)
        yield Case(
            f"faults/{name}-in-place", f"{made.about} UTIL is in the host, without a library.",
            given.host, [], fault=made.fault)


def unchanged():
    """The files without a change. The privates start at the host's end mark, 8; the data size, 10,
    grows by two bytes for each of their words."""
    one, two = files(False), files(True)
    placed = [Placed(1, 0, 1), Placed(7, 1, 2), Placed(8, 0, 8), Placed(9, 0, 9)]
    privates = [Private(1, "OWN", 8, 2), Private(7, "STATE", 10, 4), Private(8, "STATE", 14, 3)]
    about = "The files of the cases of faults and pairs, without a change"
    yield Case(
        "links/before-changes", f"{about}.", one.host, one.libraries(),
        link=Link(placed, privates, 17, 28))
    placed, privates = [*placed, Placed(10, 2, 3, added=True)], [
        *privates, Private(10, "CACHE", 17, 1)]
    yield Case(
        "links/before-changes-two-libraries", f"{about}, with two libraries.", two.host,
        two.libraries(), link=Link(placed, privates, 18, 30))
