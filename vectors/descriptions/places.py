"""Each fault at each place: in the host program, in a unit of the host, in a plain segment, and in
a wanted and an added unit of the first, the second and a later library; by each kind of record that
refers; in both byte orders. The fault is the same at each place, but for its file, its slot and the
index of its record: the rules of docs/LINKING.md are those of all segments to be linked.

A *rule* below is a change of the segment that is tried, and the parts of the fault after its slot.
A rule stands at every place in both orders, or at every place in one of them (SPREAD): for each two
of place, kind and order there is a case then too."""
import dataclasses

from .cases import Case, Fault
from .links import ORDERS
from .model import (HOSTSEG, LINKED, PRIVREF, UNITREF, UNITSEG, File, Operand, Procedure, Record,
                    Segment, const_def, eof_mark, priv_ref, publ_def, publ_ref, unit_ref)
from .tried import (FORMATS, KINDS, LIBRARIES, LINKED_PLACES, PLAIN, PROGRAM, UNITS, WIDE, Files,
                    Place, small)
from .turns import spots_of, turn_of

# The rules ----------------------------------------------------------------------------------------

RULES = {}


@dataclasses.dataclass
class Rule:
    """`change` takes the files, and the kind of a record if the rule is one of several kinds; what
    it gives is the record and the reference of the fault."""

    name: str
    about: str
    change: object
    kinds: tuple
    places: list
    spread: bool

    def number(self):
        return int(self.name.split("-")[0])

    def cases(self):
        number = 0
        for p, place in enumerate(self.places):
            for k, kind in enumerate(self.kinds or (None,)):
                for o, order in enumerate(ORDERS):
                    # (one of its role, with both orders)
                    is_single = not place.library and not self.kinds
                    if not self.spread or is_single or (p + k) % 2 == o:
                        yield self.case(place, kind, order, turn_of(self.name, number))
                        number += 1

    def case(self, place, kind, order, turn, named="places/{}"):
        files = Files(place, order, turn)
        parts = self.change(files, kind) if kind else self.change(files)
        fault = Fault(self.number(), files.number, files.host_slot, *(parts or ()))
        name = "-".join([self.name, *([kind] if kind else []), str(place), order, "endian"])
        # {kind} and {it} stand for the record's kind and for the segment
        about = self.about.format(kind=(kind or "").upper(), it=place.about())
        return Case(
            named.format(name), about[0].upper() + about[1:], files.host, files.libraries,
            fault=fault, given=files.given)


def rule(name, about, kinds=(), places=None, spread=True):
    """Adds the rule of this name, which begins with the fault's number."""

    def add(change):
        assert name not in RULES, name
        RULES[name] = Rule(
            name, about, change, tuple(kinds), LINKED_PLACES if places is None else places, spread)
        return change

    return add


def setting(**values):
    """A change that sets fields of the segment."""

    def change(files):
        for field, value in values.items():
            setattr(files.segment, field, value)

    return change


# codes

EVERY = [*LINKED_PLACES, PLAIN]
rule("11-long", "The code of {it} has 32768 bytes.", places=EVERY)(setting(length=32768, fault=11))
rule("11-odd", "The code of {it} has an odd length.")(lambda files: setting(
    length=files.spots.length - 1, fault=11)(files))
rule("11-short", "The code of {it} has 2 bytes.")(setting(length=2, fault=11))
rule("12", "The code of {it} has address 0.", places=[PROGRAM, PLAIN])(setting(address=0, fault=12))
rule(
    "16-address", "The code of {it} would start in block 32769, past the end of the file.",
    places=EVERY)(setting(address=32769, fault=16))


@rule("16-cut", "The file ends one byte before the end of the code of {it}.", places=EVERY)
def cut_in_the_code(files):
    files.cut(1, None, 16)


rule(
    "17-count",
    "The procedure dictionary of {it} is longer than its code: it has 255 procedures.",
)(lambda files: setting(changes={files.spots.length - 1: "FF"})(files))
rule("18", "The first procedure of {it} is native.")(lambda files: setting(changes={
    files.spots.table: "00"})(files))


def leading(procedure, table):
    """The dictionary's word of this procedure leads to an offset, which `table` gives for the
    offsets of the code."""

    def change(files):
        files.segment.changes = files.pointer(procedure, table(files.spots))

    return change


for name, table, where in [("before", lambda spots: -1, "before the code"),
                           ("seven", lambda spots: 7, "at byte 7"),
                           ("inside", lambda spots: spots.dictionary - 1,
                            "at the last byte before the dictionary, so its level is in that"),
                           ("dictionary", lambda spots: spots.dictionary, "in the dictionary")]:
    for procedure, which in [(1, ""), (2, "-second")]:
        if name in ("seven", "inside") or procedure == 1:
            rule(f"17-{name}{which}", f"The table of procedure {procedure} of {{it}} is {where}.")(
                leading(procedure, table))
# (the lex level of procedure 1 is 0)
rule("18-second", "Procedure 2 of {it} is native.")(leading(2, lambda spots: spots.table + 1))
rule("17-no-outer-block", "{it} has no procedure 1.", places=[PROGRAM])(leading(
    1, lambda spots: spots.length - 4))


@rule(
    "17-by-two", "The dictionary of {it} would begin two bytes before its code of four.",
    places=LINKED_PLACES[1:])
def dictionary_of_two(files):
    files.segment.procedures, files.segment.code, files.segment.records = None, bytes.fromhex(
        "00 00 63 02"), [eof_mark(0)]


@rule(
    "17-before-20",
    "The table of procedure 1 of {it} is at byte 7, and its first record has type 15.")
def before_the_records(files):
    leading(1, lambda spots: 7)(files)
    files.segment.records[0].type, files.segment.records[0].fault = 15, 20


@rule("18-third", "Procedure 3 of {it} is native, and procedure 2 has no body.")
def third_native(files):
    first, second, *_ = sorted(files.segment.procedures, key=lambda one: one.number)
    files.segment.procedures = [first, second, Procedure(["AD 00"], number=3, said=0)]


@rule("18-procedure-255", "Procedure 255 of {it} is native, and those between have no body.")
def late_native(files):
    files.segment.procedures = [files.main(), Procedure(["AD 00"], number=255, said=0)]


@rule("17-before-18", "Procedure 1 of {it} is native, and the table of procedure 2 is at byte 7.")
def two_procedures(files):
    files.segment.changes = {files.spots.table: "00", **files.pointer(2, 7)}


# records


@rule("19-end-mark", "The file ends one byte before the end of the end mark of {it}.")
def cut_in_the_end_mark(files):
    index = len(files.segment.records) - 1
    files.cut(1, index, 19)
    return [index]


@rule("19-nothing", "The file ends with the code of {it}.")
def cut_after_the_code(files):
    files.cut(0, None, 19)
    files.file().stops = {files.slot_in_file(): (0, 19)}
    return [0]


@rule("19-list", "A {kind} of {it} has 32768 references, of which the file has not all.", KINDS)
def long_list(files, kind):
    index, record = files.record(kind)
    record.words[1], record.fault = 32768, 19
    return [index]


@rule("19-longest", "A UNITREF of {it} has 65535 references, of which the file has not all.")
def longest_list(files):
    index, record = files.record("unitref")
    record.words[1], record.fault = 65535, 19
    return [index]


@rule("19-after-the-list", "The file ends with the list of a UNITREF of {it}.")
def cut_after_a_list(files):
    index, _ = files.record("unitref")
    files.cut(0, index, 19)
    files.file().stops = {files.slot_in_file(): (index + 1, 19)}
    return [index + 1]


@rule("19-before-20", "The file ends after the type of a record of {it}, which is 15.")
def cut_after_a_type(files):
    index = files.append(Record("X", 15, [1, 2, 3]))
    files.cut(6, index, 19)
    return [index]


@rule("19-cut", "The file ends one byte before the end of the list of a {kind} of {it}.", KINDS)
def cut_in_a_list(files, kind):
    index, record = files.record(kind)
    if len(record.references) % 8 == 0:  # (the last piece has more than references)
        record.references.pop()
        record.words[1] -= 1
    files.cut(1, index, 19)
    return [index]


def typed(number, types):
    """The record after the PUBLREF has one of these types, another at each place. Where a format
    would be it has 0, and where the number of references would be 65535."""

    def change(files):
        index, record = files.record("privref")
        record.words = [0, 65535, 0]
        record.type, record.fault = types[
            (2 * LINKED_PLACES.index(files.place) + ORDERS.index(files.order)) % len(types)], number
        return [index]

    return change


rule("20", "A record of {it} has type 15.")(typed(20, [15]))
rule("20-high", "A record of {it} has a type whose low byte is that of a definition.")(
    typed(20, [264, 263, 65288]))
rule("20-highest", "A record of {it} has a type above 32767.")(typed(20, [32771, 32775]))
rule("21", "A record of {it} has a type of native code.")(typed(21, [2, 5, 6, 9, 10]))
rule("22", "A record of {it} has a type of separate procedures.", spread=False)(
    typed(22, [14, 11, 12, 13]))


def formatted(number, format, count=None):
    def change(files, kind):
        index, record = files.record(kind)
        record.words[0], record.fault = format(FORMATS[record.type]), number
        if count is not None:
            record.words[1], record.references = count, record.references if count else []
        return [index]

    return change


# (a format is checked before its list)
rule("21-format", "A {kind} of {it} has format 0, of native code, and 65535 references.", KINDS)(
    formatted(21, lambda right: 0, 65535))
rule("21-empty", "A {kind} of {it} has format 0, of native code, and no reference.", KINDS)(
    formatted(21, lambda right: 0, 0))
rule("23", "A {kind} of {it} has the format of another kind.", KINDS, spread=False)(formatted(
    23, lambda right: 3 - right))
rule(
    "23-high", "A {kind} of {it} has a format whose low byte is right, and 65535 references.",
    KINDS)(formatted(23, lambda right: 256 + right, 65535))
rule("23-highest", "A {kind} of {it} has a format whose low fifteen bits are right.", KINDS)(
    formatted(23, lambda right: 32768 + right))
rule("23-empty", "A {kind} of {it} has format 256 and no reference.", KINDS)(formatted(
    23, lambda right: 256, 0))


# units that are requested


@rule("13", "A UNITREF of {it} requests what no library has.")
def missing(files):
    index, record = files.record("unitref")
    record.name = "NOBODY"
    return [index]


@rule("13-twice", "Two UNITREFs of {it} request what no library has.")
def missing_twice(files):
    index = files.append(unit_ref("NOBODY", []))
    files.append(unit_ref("NOBODY", []))
    return [index]


@rule("13-blank", "A UNITREF of {it} has a blank name, without references.")
def blank(files):
    return [files.append(unit_ref(blank_of(files), []))]


def blank_of(files):
    return "" if files.order == "little" else bytes(8)


def with_library(files, segment):
    """A library has this unit too: the last one, or one that the host had not."""
    if not files.libraries:
        files.libraries = [File({}, files.order)]
    slots = files.libraries[-1].slots
    slots[next(slot for slot in range(16) if slot not in slots)] = segment


@rule(
    "13-blank-there", "A UNITREF of {it} has a blank name, which a unit of a library has.",
    spread=False)
def blank_there(files):
    with_library(files, small(blank_of(files)))
    return [files.append(unit_ref(blank_of(files), []))]


def without_slots(files):
    """No empty slot from 7 on is left, and a library has LAST."""
    for slot in range(7, 16):
        if files.place.role != "added" or slot != files.host_slot:
            files.host.slots.setdefault(slot, Segment("FULL", LINKED, shares=files.program_slot))
    with_library(files, small("LAST"))


@rule("35", "A UNITREF of {it} requests a unit, and no empty slot is left.")
def no_slot(files):
    without_slots(files)
    return [files.append(unit_ref("LAST", []))]


@rule("13-before-35", "A UNITREF of {it} requests what no library has, and no empty slot is left.")
def missing_without_slots(files):
    without_slots(files)
    return [files.append(unit_ref("NOBODY", []))]


# private variables and definitions


@rule("25", "{it} has a private variable twice.", spread=False)
def doubled(files):
    return [files.append(priv_ref(files.turn.private, 1, []))]


@rule("25-empty", "{it} has a private variable of 0 words twice, with another between.")
def doubled_of_no_words(files):
    files.append(priv_ref("NONE", 0, []))
    files.append(priv_ref("OTHER", 1, []))
    return [files.append(priv_ref("NONE", 0, []))]


@rule("25-before-26", "{it} has a private variable twice, the second time with 32767 words.")
def doubled_and_large(files):
    return [files.append(priv_ref(files.turn.private, 32767, []))]


@rule(
    "26", "The private variable of {it} has so many words that the next offset would be 32768.",
    spread=False)
def large_private(files):
    index, record = files.record("privref")
    record.words[2] = 32768 - files.offset()
    return [index]


@rule("26-empty", "{it} has a private variable up to the last offset, and then one of one word.")
def private_after_all(files):
    files.record("privref")[1].words[2] = 32767 - files.offset()
    return [files.append(priv_ref("LAST", 1, []))]


@rule(
    "26-none", "The end mark of the program is 32768, and {it} has a private variable of 0 words.")
def private_of_no_words(files):
    program = next(one for one in files.host.slots.values() if one.kind == HOSTSEG)
    program.records[-1].words = [32768]
    index, record = next(
        (index, record)
        for index, record in enumerate(files.segment.records)
        if record.type == PRIVREF)
    record.words[2] = 0
    return [index]


def named(which):
    """Its PUBLREF has another name: one of these of the case, `missing`, `constant`."""

    def change(files):
        index, record = files.record("publref")
        record.name = getattr(files.turn, which)
        return [index]

    return change


def named_last(which, *makers):
    """A PUBLREF of this name of the case and without references, after records that these make of
    the name."""

    def change(files):
        name = getattr(files.turn, which)
        for maker in makers:
            files.append(maker(name, 3))
        return [files.append(publ_ref(name, []))]

    return change


rule("28", "A PUBLREF of {it} has a name without a definition.", spread=False)(named("missing"))
rule("28-empty", "A PUBLREF of {it} has a name without a definition, and no reference.")(named_last(
    "missing"))
rule("28-private", "A PUBLREF of {it} has the name of its own private variable.")(named_last(
    "private"))
rule("29", "A PUBLREF of {it} has the name of a constant.", spread=False)(named("constant"))
rule("29-empty", "A PUBLREF of {it} has the name of a constant, and no reference.")(named_last(
    "constant"))
OTHERS = LINKED_PLACES[1:]
rule(
    "28-own", "A PUBLREF of {it} has a name that only its own PUBLDEF defines.", places=OTHERS,
    spread=False)(named_last("missing", publ_def))
rule(
    "28-own-constant", "A PUBLREF of {it} has a name that only its own CONSTDEF defines.",
    places=OTHERS)(named_last("missing", const_def))
rule(
    "29-own", "A PUBLREF of {it} has the name of a constant, which its own PUBLDEF has too.",
    places=OTHERS)(named_last("constant", publ_def))


@rule(
    "28-own-used",
    "A PUBLREF of {it} with references has a name that only its own PUBLDEF defines.",
    places=OTHERS)
def defined_by_itself(files):
    files.append(publ_def(files.turn.missing, 3))
    return named("missing")(files)


# references


def referring(wide, narrow):
    """The reference of a kind's record is what the first gives for the offsets of the code, and
    that of a UNITREF what the second gives."""
    return lambda files, kind: files.refer(
        kind, (narrow if kind == "unitref" else wide)(files.spots))


rule("31", "A {kind} of {it} refers to a byte past the code.", KINDS, spread=False)(referring(
    lambda spots: spots.length - 1, lambda spots: spots.length))


def referring_far(reference):
    """A reference is this one, and the next is good."""
    return lambda files, kind: files.refer(
        kind, reference, files.record(kind)[1].references[files.turn.listed])


rule("31-far", "A {kind} of {it} refers to byte 65535, and then to its operand.", KINDS)(
    referring_far(65535))
rule("31-high", "A {kind} of {it} refers to a byte from 32768 on, and then to its operand.", KINDS)(
    referring_far(32769))


@rule(
    "31-later", "The last reference of a {kind} of {it} is to a byte past the code.", KINDS,
    spread=False)
def outside_at_last(files, kind):
    index, record = files.record(kind)
    record.references.append(files.spots.length - (kind != "unitref"))
    record.words[1] += 1
    return [index, record.words[1] - 1]


for name, what, wide, narrow in [("", "the first byte of a table", lambda spots: spots.table - 9,
                                  lambda spots: spots.table - 8),
                                 ("-level", "the last byte of a table",
                                  lambda spots: spots.table + 1, lambda spots: spots.table + 1)]:
    rule(f"32{name}", f"A {{kind}} of {{it}} refers to {what}.", KINDS, spread=bool(name))(
        referring(wide, narrow))


@rule("32-dictionary", "A {kind} of {it} refers to the first byte of the dictionary.", KINDS)
def in_the_dictionary(files, kind):
    # (the procedure without a body is the last, so that no table is before the dictionary)
    files.segment.procedures.sort(key=lambda one: one.at is not None)
    return files.refer(kind, files.spots.dictionary - (kind != "unitref"))


rule("32-number", "A {kind} of {it} refers to the segment number.", ["unitref"], spread=False)(
    referring(None, lambda spots: spots.length - 2))
rule(
    "32-count", "A {kind} of {it} refers to the last byte of the code.", ["unitref"],
    spread=False)(referring(None, lambda spots: spots.length - 1))
rule("32-end", "A {kind} of {it} refers to the last two bytes of the code.", WIDE)(referring(
    lambda spots: spots.length - 2, None))


def of_three_tables(after):
    """Three tables: those of procedures 2 and 3, each after two bytes of instructions, follow that
    of the first, `after` in twelves."""

    def change(files, kind):
        before = files.spots.public
        files.segment.procedures = [files.main(), Procedure(["AD 00"], number=2),
                                    Procedure(["AD 00"], number=3)]
        files.spots = spots_of(files.segment.procedures, files.turn)
        for record in files.segment.records:
            record.references = record.references and [
                place + files.spots.public - before for place in record.references]
        place = files.spots.table - 8 + 12 * after
        return files.refer(kind, place - (kind != "unitref"))

    return change


rule(
    "32-first", "A {kind} of {it} refers to the table of the first of its three procedures.",
    KINDS)(of_three_tables(0))
rule(
    "32-third", "A {kind} of {it} refers to the table of the third of its three procedures.",
    KINDS)(of_three_tables(2))


def another(files, kind, references):
    """A second record of a kind, whose references begin with some to bytes that nothing else refers
    to. Gives the indices of the record and of the first of the others."""
    free = files.spots.free[: files.turn.more]
    record = {"publref": publ_ref(files.turn.public, [*free, *references]),
              "privref": priv_ref("OTHER", 1, [*free, *references]),
              "unitref": unit_ref(files.used, [*free, *references])}[kind]
    return [files.append(record), len(free)]


def sharing(wide, narrow):
    """A further record of a kind has this reference, as an offset from the operand of a PUBLREF
    on."""
    return lambda files, kind: another(files, kind, [
        files.spots.public + (narrow if kind == "unitref" else wide)])


# (wide: the second byte is that of the UNITREF, the first is the second of the PRIVREF, the second
# the first of the PUBLREF, and so on)
for name, what, wide, narrow in [
        ("", "the byte of a UNITREF, or to the second of a PRIVREF", 5, 4),
        ("-private-second", "the second byte of the PRIVREF's operand, or to that of the UNITREF",
         4, 6),
        ("-public-first", "the first byte of the PUBLREF's operand", -1, 0),
        ("-private-first", "the first byte of the PRIVREF's operand", 2, 3),
        ("-public-second", "the second byte of the PUBLREF's operand", 1, 1)]:
    rule(f"33{name}", f"A further {{kind}} of {{it}} refers to {what}.", KINDS, spread=bool(name))(
        sharing(wide, narrow))


@rule(
    "32-before-33", "A further {kind} of {it} refers to the byte of a UNITREF and to a table.",
    WIDE)
def reserved_and_shared(files, kind):
    files.append(unit_ref(files.used, [files.spots.table - 9]))
    return another(files, kind, [files.spots.table - 9])


@rule(
    "33-before-34", "A further {kind} of {it} refers to an operand that a PUBLREF has made 32767.",
    WIDE)
def shared_and_large(files, kind):
    files.main().parts[-2] = (32767 - files.turn.value).to_bytes(2, "big")
    files.append(publ_ref(files.turn.public, [files.spots.spare]))
    return another(files, kind, [files.spots.spare])


@rule("33-list", "A {kind} of {it} refers to one byte twice.", KINDS)
def listed_twice(files, kind):
    place = files.record(kind)[1].references[files.turn.listed]
    index, at = files.refer(kind, place, place)
    return [index, at + 1]


def overlapping(by):
    """An operand and the one that begins so many bytes after it are in one list."""

    def change(files, kind):
        place = files.record(kind)[1].references[files.turn.listed]
        index, at = files.refer(kind, place, place + by)
        return [index, at + 1]

    return change


rule(
    "33-list-second",
    "A {kind} of {it} refers to an operand, and then to one whose second byte is the first of it.",
    WIDE, spread=False)(overlapping(-1))
rule(
    "33-list-first",
    "A {kind} of {it} refers to an operand, and then to one whose first byte is the second of it.",
    WIDE, spread=False)(overlapping(1))


@rule(
    "34", "The displacement and the value of a {kind} of {it} are 32768 together.", WIDE,
    spread=False)
def large_operand(files, kind):
    files.operand(kind).old = 32768 - {"publref": files.turn.value, "privref": files.offset()}[kind]
    return [files.record(kind)[0], files.turn.listed]


@rule("34-later", "The last reference of a {kind} of {it} is to a displacement of 32767.", WIDE)
def later_operand(files, kind):
    files.main().parts[-2] = "7F FF"
    index, record = files.record(kind)
    record.references.append(files.spots.spare)
    record.words[1] += 1
    return [index, record.words[1] - 1]


# two faults of one segment: the first is reported


def first_of(number, name, about, at=None, references=(), names=("public", None)):
    """The PUBLREF has this name of the case, and in place of a reference these, each as an offset
    from a spot of the code: the one at `at` is reported. A record of the second name follows, if
    there is one."""

    @rule(f"{number}-before-{name}", about)
    def change(files):
        places = [getattr(files.spots, spot) + by for spot, by in references]
        index, first = files.refer("publref", *places) if places else (
            files.record("publref")[0], 0)
        files.segment.records[index].name = getattr(files.turn, names[0])
        if names[1]:
            files.append(publ_ref(getattr(files.turn, names[1]), []))
        return [index] if at is None else [index, first + at]


OPERAND, PAST, TABLE = ("public", 0), ("length", -1), ("table", -9)
first_of(
    28, "29", "A PUBLREF of {it} has a name without a definition, and the next that of a constant.",
    names=("missing", "constant"))
first_of(
    29, "28",
    "A PUBLREF of {it} has the name of a constant, and the next one without a definition.",
    names=("constant", "missing"))
first_of(
    28, "31",
    "A PUBLREF of {it} has a name without a definition, and refers to a byte past the code.", None,
    [PAST], ("missing", None))
first_of(
    31, "28",
    "A PUBLREF of {it} refers to a byte past the code, and the next has a name without a "
    "definition.",
    0, [PAST], ("public", "missing"))
first_of(32, "31", "A reference of a PUBLREF of {it} is reserved, and the next past the code.", 0, [
    TABLE, PAST])
first_of(
    33, "32", "A reference of a PUBLREF of {it} is the one before again, and the next is reserved.",
    1, [OPERAND, OPERAND, TABLE])


@rule("32-reference-256", "Reference 256 of a UNITREF of {it} is reserved.")
def late_reference(files):
    files.segment.procedures = [Procedure(
                                    [Operand(UNITREF, files.used) for _ in range(256)], data=10)]
    kept = [record for record in files.segment.records[:-1] if not record.references]
    files.segment.records[:-1] = [*kept, unit_ref(files.used, list(range(257)))]
    return [len(files.segment.records) - 2, 256]


@rule("28-record-256", "Record 256 of {it}, or one soon after, has a name without a definition.")
def late_record(files):
    for _ in range(256):
        files.append(publ_ref(files.turn.public, []))
    return [files.append(publ_ref(files.turn.missing, []))]


def valued(displacement):
    """A PUBLREF of a variable at 65535, with this displacement."""

    def change(files):
        program = next(one for one in files.host.slots.values() if one.kind == HOSTSEG)
        program.records.insert(2, publ_def("LARGE", 65535))
        files.main().parts[-2] = displacement.to_bytes(2, "big")
        return [files.append(publ_ref("LARGE", [files.spots.spare])), 0]

    return change


rule("34-value", "A PUBLREF of {it} has the value 65535, and its operand the displacement 0.")(
    valued(0))
rule("34-sum", "A PUBLREF of {it} has the value 65535, and its operand the displacement 1.")(
    valued(1))


# Where units come from ----------------------------------------------------------------------------


# What the entry of a unit in its library is not: the unit is missing then, or refused. By rule its
# name, what is said of the unit, what is set, and the kind that is reported, or None where the unit
# is missing
ENTRIES = [("13-length", "has length 0", {"length": 0}, None),
           ("13-address", "has address 0", {"address": 0}, None),
           ("13-name", "has another name", {"name": "OTHER"}, None),
           *((f"14-kind-{kind}", f"has kind {kind}", {"kind": kind}, kind)
             for kind in (0, 1, 2, 4, 5, 8))]
TWICE = [("15", UNITSEG), ("15-other-kind", 5)]
BROKEN = [(1, "has 511 bytes", {"cut": 511, "refused": 1}),
          (2, "has kinds in both orders", {"refused": 2, "changes": {192: "01 01"}}),
          (3, "is in the other order", {})]


def entry_case(rule, place, order, turn, named="places/{}"):
    name, what, values, kind = rule
    files = Files(place, order, turn)
    for field, value in values.items():
        setattr(files.segment, field, value)
    fault = files.asked() if kind is None else Fault(14, files.number, files.host_slot, kind=kind)
    about = f"{place.about()} {what}."
    return Case(
        named.format(f"{name}-{place}-{order}-endian"), about[0].upper() + about[1:], files.host,
        files.libraries, fault=fault, given=files.given)


def twice_case(rule, place, order, turn, named="places/{}"):
    name, kind = rule
    files = Files(place, order, turn)
    slots = files.file().slots
    free = [slot for slot in range(16) if slot not in slots]
    # (the unit is the second of the two)
    first, files.entry = sorted((files.entry, free[turn.slot % len(free)]))
    slots.pop(files.file().last)
    slots[files.entry], slots[first] = files.segment, Segment(
        files.segment.name, kind, shares=files.entry)
    files.file().last = files.entry
    about = f"The library has {place.about()} twice" + (", once with kind 5." if kind == 5 else ".")
    return Case(named.format(f"{name}-{place}-{order}-endian"), about, files.host, files.libraries,
                fault=Fault(15, files.number, files.host_slot), given=files.given)


def library_case(rule, place, order, turn, named="places/{}"):
    """1, 2 and 3 of a library."""
    number, what, values = rule
    files = Files(place, order, turn)
    for field, value in (values or {"order": "little" if order == "big" else "big"}).items():
        setattr(files.file(), field, value)
    which = ("first", "second", "third")[place.library - 1]
    return Case(
        named.format(f"{number}-library-{place.library}-{order}-endian"),
        f"The {which} library {what}.", files.host, files.libraries,
        fault=Fault(number, files.number), given=files.given)


def of_libraries():
    for rules, make, places in ((ENTRIES, entry_case, UNITS), (TWICE, twice_case, UNITS), (
            BROKEN, library_case, [Place("wanted", library) for library in LIBRARIES])):
        for rule in rules:
            for number, (place, order) in enumerate(
                    (place, order) for place in places for order in ORDERS):
                if make != entry_case or rule[3] in (None, 5) or place.role == "wanted":
                    yield make(rule, place, order, turn_of(f"{rule[0]} of a library", number))


def cases():
    for one in RULES.values():
        yield from one.cases()
    yield from of_libraries()
