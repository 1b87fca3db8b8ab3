"""Links of a segment at each place at once: the host program, a plain segment, a unit of the host,
and three wanted and three added units, one of each in each of three libraries. Each case is about
one thing that a link accepts, and each segment to be linked does it. The private variables are
allotted by slot and then by record from the end mark of the program on (docs/LINKING.md, What a
reference becomes)."""
from .cases import Case, Link, Placed, Private
from .links import ORDERS, private, public, unit
from .model import (BLOCK, EOFMARK, HOSTSEG, LINKED, PRIVREF, PUBLREF, UNITREF, UNITSEG, File,
                    Procedure, Record, Segment, const_def, eof_mark, laid_out, operands, priv_ref,
                    publ_def, publ_ref, unit_ref)

# by slot of the host: the name, the library, and the entry in its file. The program requests the
# last three
WANTED = {4: ("FIRST", 1, 2), 5: ("SECOND", 2, 2), 6: ("THIRD", 3, 2)}
ADDED = {7: ("MORE1", 1, 5), 8: ("MORE2", 2, 5), 9: ("MORE3", 3, 5)}
LIBRARIES = {**WANTED, **ADDED}
SLOTS = {1: ("DEMO", 0, 1), 3: ("AUX", 0, 3), **LIBRARIES}  # of the segments to be linked
PROGRAM, PLAIN = 1, 2
COUNT, START = 3, 8


def used_by(name):
    """The unit that a segment uses: itself, and AUX if it is the program."""
    return "AUX" if name == "DEMO" else name


class Everywhere:
    """The files of a case. `made` gives, for the number of a segment to be linked (from 0 on) and
    its name, its procedures or its code, and its records but for the end mark."""

    def __init__(self, made, order, definitions=(), next_free=START, data=10, **fields):
        self.order, self.next_free, self.data, self.plain = order, next_free, data, [PLAIN]
        self.segments = {}
        for number, (slot, (name, _, _)) in enumerate(SLOTS.items()):
            code, records = made(number, name)
            kind, end = (HOSTSEG, eof_mark(next_free)) if slot == PROGRAM else (
                UNITSEG, eof_mark(0))
            if slot == PROGRAM:
                next(one for one in code if one.number == 1).data = data
                requests = [unit_ref(name, []) for name, _, _ in ADDED.values()]
                records = [publ_def("COUNT", COUNT), *definitions, *records, *requests]
            what = {"code": code} if isinstance(code, bytes) else {"procedures": code}
            self.segments[slot] = Segment(name, kind, records=[*records, end], **what, **fields)
        self.host = File(
            {slot: self.segments[slot] for slot, (_, library, _) in SLOTS.items() if library == 0},
            order)
        self.host.slots[PLAIN] = Segment("TOOLS", LINKED, code=bytes.fromhex("D7 AD 00 63 01"))
        self.host.slots |= {slot: Segment(name) for slot, (name, _, _) in WANTED.items()}
        self.libraries = [File(
                              {entry: self.segments[slot]
                               for slot, (_, of, entry) in LIBRARIES.items()
                               if of == library},
                              order)
                          for library in (1, 2, 3)]

    def case(self, name, about):
        privates, next_free = [], self.next_free
        for slot in SLOTS:
            for record in self.segments[slot].records:
                if record.type == EOFMARK:
                    break
                if record.type == PRIVREF:
                    privates.append(Private(slot, record.name, next_free, record.words[2]))
                    next_free += record.words[2]
        placed = [Placed(slot, library, entry, slot in ADDED)
                  for slot, (_, library, entry) in SLOTS.items()]
        placed = sorted(
            [*placed, *(Placed(slot, 0, slot) for slot in self.plain)], key=lambda one: one.slot)
        link = Link(placed, privates, next_free, self.data + 2 * sum(one.words for one in privates))
        return Case(
            f"links/everywhere-{name}-{self.order}-endian",
            f"{about} The same in eight segments to be linked.", self.host, self.libraries,
            link=link)


def referred(parts, maker, type, name, *words):
    """A record of all operands of a name."""
    places = [place for place, one in operands(Segment("", procedures=parts)) if (
                  one.type, one.name) == (type, name)]
    return maker(name, *words, places)


# Operands -----------------------------------------------------------------------------------------


def side_by_side(number, name):
    """Three tables, with an operand of each kind before and after them, and one before the
    dictionary; another kind at each place."""
    # (values are 3 and, at most, 40: a displacement of 300 carries, and the largest sum is typed
    # where it is 32767)
    kinds = [lambda k: public("COUNT", 300 + k, 128 * (k % 2)),
             lambda k: private("STATE", k, 128 * (k % 2)), lambda k: unit(used_by(name), 200 + k)]
    turned = kinds[number % 3 :] + kinds[: number % 3]
    first, second, third = turned
    procedures = [
        Procedure([first(0), second(1), third(2), second(3), first(4), third(5)], data=6),
        Procedure([first(6), second(7)], number=2), Procedure([second(8), third(9)], number=3),
        Procedure(
            [second(10), third(11), first(12), second(13), third(14), first(15)], number=4, at=0)]
    records = [referred(procedures, publ_ref, PUBLREF, "COUNT"),
               referred(procedures, priv_ref, PRIVREF, "STATE", 5),
               referred(procedures, unit_ref, UNITREF, used_by(name))]
    return procedures, [*records[number % 2 :], *records[: number % 2]]


def turned(by):
    return lambda number, name: side_by_side(number + by, name)


def sums(number, name):
    """Displacements that are the largest for their value, with and without bit 7, and sums that
    carry."""
    start = START + 6 * number
    parts = ["A5", public("COUNT", 32764), "A5", public("COUNT", 32764, 0), "AB",
             private("LAST", 32767 - start - 2), "AB", private("STATE", 255, 0), "A5",
             public("COUNT", 253), "AB", private("STATE", 0, 0), "CD", unit(used_by(name), 255),
             "01", "A5", public("LARGE", 0), "A5", public("NONE", 32767, 0), "AD 00"]
    procedures = [Procedure(parts)]
    return procedures, [*(referred(procedures, publ_ref, PUBLREF, one)
                          for one in ("COUNT", "LARGE", "NONE")),
                        referred(procedures, priv_ref, PRIVREF, "STATE", 2),
                        referred(procedures, priv_ref, PRIVREF, "LAST", 4),
                        referred(procedures, unit_ref, UNITREF, used_by(name))]


def listing(counts):
    """Lists of these lengths, a record of each kind with each."""

    def made(number, name):
        parts, records = [], []
        for count in counts:
            parts += [part for k in range(count) for part in (
                          public("COUNT", k), private(f"OF{count}", k), unit(used_by(name), k))]
        for of, count in enumerate(counts):
            start = 5 * sum(counts[:of])
            places = [start + 5 * k for k in range(count)]
            made = [publ_ref("COUNT", places),
                    priv_ref(f"OF{count}", 3, [place + 2 for place in places]),
                    unit_ref(used_by(name), [place + 4 for place in reversed(places)])]
            for record in made:
                record.rest = b"\xff"
            records += made
        return [Procedure(parts)], records

    return made


# Private variables and definitions ----------------------------------------------------------------


def of_no_words(number, name):
    """Private variables of 0 words at 32767, which the program's own fill up."""
    words = 32767 - START if number == 0 else 0
    return [Procedure(["AB", private("STATE"), "AD 00"])], [
        priv_ref("STATE", words, [1]), priv_ref("NONE", 0, [])]


def exactly(at):
    """The private variables of one segment fill up all, and those of all others have no words."""

    def made(number, name):
        return [Procedure(["AB", private("STATE"), "AD 00"])], [priv_ref(
            "STATE", 32767 - START if number == at else 0, [1])]

    return made


def names(number, name):
    """Private variables of the names of definitions and of units, and records of one name twice."""
    parts = ["A5", public("COUNT"), "AB", private("COUNT", 1), "AB", private(name), "CD",
             unit(used_by(name)), "01", "A5", public("COUNT", 2), "A5", public(name), "CD",
             unit("AUX"), "01", "AD 00"]
    return [Procedure(parts)], [
        publ_ref("COUNT", [1]), priv_ref("COUNT", 2, [4]), priv_ref(name, 1, [7]),
        unit_ref(used_by(name), [10]), publ_ref("COUNT", [13]), publ_ref(name, [16]),
        unit_ref("AUX", [19]), unit_ref("AUX", []), publ_ref("COUNT", []), priv_ref("EMPTY", 3, []),
        publ_ref("HUGE", []), unit_ref("MORE1", [])]


# Names that somebody may take for COUNT, or for COUNTER1: in capitals, in seven bits or characters,
# and by zero bytes and blanks
ALIKE = ["Count", bytes.fromhex("C3 4F 55 4E 54 20 20 20"), b"COUNT\0\0\0", b"COUNT\0X ", " COUNT",
         "XOUNT", "COUNT X", "COUNTER1", "COUNTER2"]


def alike(number, name):
    """Variables of the program and private ones of such names. Each is one of its own."""
    parts = [part for one in ALIKE for part in (public(one), private(one))]
    records = [record for k, one in enumerate(ALIKE) for record in (
                   publ_ref(one, [4 * k]), priv_ref(one, 1, [4 * k + 2]))]
    return [Procedure(parts)], [*records, priv_ref("COUNT", 2, [])]


def many_procedures(number, name):
    """255 procedures, of which those between the first and the last have no body."""
    return ([Procedure(["A5", public("COUNT")]),
             Procedure(["AB", private("STATE"), "D7"], number=255)],
            [publ_ref("COUNT", [1]), priv_ref("STATE", 2, [15])])


def own_definitions(number, name):
    """Definitions of a unit, which are not used: of names that the program has, with other values
    and kinds, and twice."""
    parts = ["A5", public("COUNT"), "A5", public("TOTAL", 1), "AD 00"]
    records = [publ_ref("COUNT", [1]), publ_ref("TOTAL", [4])]
    own = [publ_def("COUNT", 99), const_def("TOTAL", 98), publ_def("LIMIT", 97), publ_def("OWN", 1),
           publ_def("OWN", 1), const_def("OWN", 2)]
    return [Procedure(parts)], records if number == 0 else [*own, *records, *own]


def ignored(number, name):
    """Words that have no meaning are not 0: of definitions, of reference records, and of an end
    mark of 0."""
    parts = ["A5", public("COUNT"), "AB", private("STATE"), "CD", unit(used_by(name)), "01",
             "AD 00"]
    records = [Record("COUNT", PUBLREF, [2, 1, 65535 - number], [1]),
               Record("STATE", PRIVREF, [2, 1, 2], [4]),
               Record(used_by(name), UNITREF, [1, 1, 256 + number], [7]),
               Record(f"OWN{number}", 8, [0, 9, 65535]), Record(f"VAR{number}", 7, [0, 65535, 9])]
    return [Procedure(parts)], records


# Codes --------------------------------------------------------------------------------------------


def tables(number, name):
    """A table at byte 8, a procedure without a body, one with the table of another, and tables with
    other numbers and levels."""
    procedures = [Procedure([], said=255, level=255, data=10), Procedure([], number=2, at=0),
                  Procedure(["AD 00"], number=3, said=1),
                  Procedure([unit(used_by(name), 9), "D7"], number=4, at=8)]
    return procedures, [referred(procedures, unit_ref, UNITREF, used_by(name))]


def swapped(number, name):
    """Procedure 1 is the last in the code, and the tables have each other's number."""
    procedures = [Procedure(["D7 AD 00", unit(used_by(name))], number=2, said=1, data=70),
                  Procedure([public("COUNT"), "AD 00"], said=2, data=10)]
    return procedures, [referred(procedures, publ_ref, PUBLREF, "COUNT"),
                        referred(procedures, priv_ref, PRIVREF, "STATE", 300),
                        referred(procedures, unit_ref, UNITREF, used_by(name))]


def shortest(number, name):
    """Units of four bytes, which have no procedure. The program has a table and a dictionary."""
    return [Procedure([])] if number == 0 else bytes.fromhex("D7 D7 63 00"), []


def dictionaries(number, name):
    """Units whose code is their dictionary: a procedure without a body."""
    return [Procedure([])] if number == 0 else bytes.fromhex("00 00 63 01"), []


def whole_block(number, name):
    """Codes of 512 bytes."""
    parts = ["A5", public("COUNT"), "D7" * 492, "AB", private("STATE")]
    return [Procedure(parts)], [publ_ref("COUNT", [1]), priv_ref("STATE", 2, [496])]


def largest(number, name):
    """Codes of 32766 bytes: ten of the table and four of the dictionary follow the instructions."""
    parts = ["A5", public("COUNT", number), "D7" * 32748, unit("AUX")]
    return [Procedure(parts)], [publ_ref("COUNT", [1]), unit_ref("AUX", [32751])]


def of_1025_blocks(made):
    """Sixteen segments of 64 blocks each. Those of one file share a code."""
    for slot, of in ((3, 1), *((slot, WANTED[slot - 3][2]) for slot in ADDED)):
        name, library, entry = SLOTS[slot]
        made.segments[slot] = (made.libraries[library - 1]
                               if library
                               else made.host).slots[entry] = Segment(name, UNITSEG, shares=of)
    made.plain = [0, PLAIN, *range(10, 16)]
    made.host.slots |= {slot: Segment("FULL", LINKED, shares=PROGRAM) for slot in made.plain}
    return made


def numbered(made):
    """The segment number of a code without procedures becomes that of its slot."""
    for slot, segment in made.segments.items():
        if segment.code is not None:
            segment.linked = {len(segment.code) - 2: f"{slot:02X}"}
    return made


# Files --------------------------------------------------------------------------------------------


def plain_use(number, name):
    parts = ["A5", public("COUNT"), "AB", private("STATE"), "CD", unit(used_by(name)), "01",
             "AD 00"]
    return [Procedure(parts)], [publ_ref("COUNT", [1]), priv_ref("STATE", 4, [4]),
                                unit_ref(used_by(name), [7])]


def in_other_entries(made):
    """Entries of the names in libraries that do not count: without a length, without an address,
    wanted; and all that a later library has."""
    for library, file in enumerate(made.libraries, 1):
        for of in (WANTED, ADDED):
            slot = next(slot for slot, (_, one, _) in of.items() if one == library)
            name, _, entry = of[slot]
            later = [one for one in of.values() if one[1] < library]
            file.slots[entry + 1] = Segment(name, UNITSEG, shares=entry, address=0)
            file.slots[entry - 1] = Segment(name, UNITSEG, shares=entry, length=0)
            for k, (other, _, _) in enumerate(later):
                file.slots[entry + 5 + k] = Segment(other, (5, 0)[k], shares=entry)
    # the first library wants the units of the later ones
    made.libraries[0].slots |= {12: Segment("SECOND"), 13: Segment("MORE2", length=4),
                                0: Segment("THIRD", 5, shares=2, length=0)}
    return made


def with_padding(made):
    """The rest of the last block of each code is not 0."""
    for file in (made.host, *made.libraries):
        for slot, (address, length) in laid_out(file)[0].items():
            if length:
                end = BLOCK * address + length
                file.changes[end] = "EE" * (BLOCK - end % BLOCK)
    return made


def cut_after(made, *last):
    """Each file ends with the end mark of one of these slots of it, or with the code of a plain
    segment."""
    for file, slot in zip((made.host, *made.libraries), last):
        file.last = slot
        address, length = laid_out(file)[0][slot]
        records = b"".join(one.encoded(made.order) for one in file.slots[slot].records)
        file.cut = BLOCK * (address + (length + BLOCK - 1) // BLOCK) + len(
            records) if records else BLOCK * address + length
    return made


def with_plain(made):
    """A plain segment in slot 15 of the host."""
    made.plain.append(15)
    made.host.slots[15] = Segment("LAST", LINKED, code=b"\1\2\3\4\5")
    return made


THREE = [publ_def("TOTAL", 5), const_def("LIMIT", 100)]


def cases():
    for order in ORDERS:
        for by in range(3):
            yield Everywhere(turned(by), order).case(
                f"operands-{by}", "Operands between three tables and a dictionary, without a gap.")
        yield Everywhere(sums, order, [publ_def("LARGE", 32767), publ_def("NONE", 0)]).case(
            "sums", "Operands that become 32767, and sums that carry.")
        for counts in ((0, 1, 8), (9,), (16, 7)):
            yield Everywhere(listing(counts), order).case(
                "lists-" + "-".join(map(str, counts)), f"Lists of {counts} references.")
        yield Everywhere(of_no_words, order).case(
            "no-words", "Private variables of 0 words at 32767.")
        for at in range(len(SLOTS)):
            if (at + ORDERS.index(order)) % 2 or at < 2:
                yield Everywhere(exactly(at), order).case(
                    f"next-32767-{at}", "The last offset is 32767.")
        own = [publ_def(name, 40 + slot) for slot, (name, _, _) in SLOTS.items()]
        yield Everywhere(names, order, [*own, publ_def("HUGE", 65535)]).case(
            "names", "Private variables, definitions and units of one name.")
        yield Everywhere(
            alike, order,
            [publ_def(name, 100 + k)
             for k, name in enumerate(ALIKE)]).case("alike", "Names that are nearly alike.")
        yield Everywhere(many_procedures, order).case("procedures-255", "Codes of 255 procedures.")
        made = Everywhere(plain_use, order, next_free=0)
        for segment in made.segments.values():
            segment.records[-1:] = [eof_mark(0, bytes(8)), Record("AFTER", 15, [1, 2, 3])]
        yield made.case("zeros", "End marks of sixteen zero bytes.")
        yield Everywhere(own_definitions, order, THREE).case(
            "definitions", "Definitions of units are not used.")
        made = Everywhere(ignored, order, next_free=0)
        for number, segment in enumerate(made.segments.values()):
            segment.records[-1:] = [Record(f"END{number}", EOFMARK, [
                                        0, 65535 - number, number + 1]),
                                    Record("AFTER", 15, [1, 2, 3])]
        yield made.case(
            "ignored",
            "Words that have no meaning, end marks of 0 with other words that are not, and records "
            "after them.")
        made = Everywhere(plain_use, order)
        for segment in made.segments.values():
            segment.records += [Record("AFTER", 15, [1, 2, 3]), eof_mark(9)]
        yield made.case("end-marks", "Records follow the end mark.")
        made = Everywhere(plain_use, order)
        for segment in made.segments.values():
            segment.records[-1:] = [eof_mark(*segment.records[-1].words, "END"),
                                    Record("AFTER", 15, [1, 2, 3])]
        yield made.case("named-end-marks", "End marks with a name.")
        yield Everywhere(tables, order).case(
            "tables",
            "A table at byte 8, which two procedures have, and a procedure without a body.")
        yield Everywhere(swapped, order).case("procedures", "Procedure 1 is the last in the code.")
        yield numbered(Everywhere(shortest, order)).case("shortest", "Units of four bytes.")
        yield numbered(Everywhere(dictionaries, order)).case(
            "dictionaries", "Units of four bytes, which are their dictionaries.")
        made = Everywhere(whole_block, order)
        made.host.slots[PLAIN].code = bytes.fromhex("D7") * BLOCK
        yield made.case("blocks", "Codes of 512 bytes.")
        yield of_1025_blocks(Everywhere(largest, order)).case(
            "1025-blocks", "Codes of 32766 bytes, in a linked file of 1025 blocks.")
        for number in (0, 255):
            yield Everywhere(plain_use, order, number=number).case(
                f"number-{number}", f"The segment number is {number} before the link.")
        yield in_other_entries(Everywhere(plain_use, order)).case(
            "entries", "Entries of a name that do not count.")
        yield with_padding(Everywhere(plain_use, order)).case(
            "padding", "The rest of the last block of each code is not 0.")
        yield cut_after(with_plain(Everywhere(plain_use, order)), 15, 5, 5, 5).case(
            "cut",
            "The libraries end with the end mark of an added unit, and the host with the code of a "
            "plain segment.")
        for name, slot in (("program", PROGRAM), ("unit", 3)):
            yield cut_after(Everywhere(plain_use, order), slot, 2, 2, 2).case(
                f"cut-{name}",
                "The libraries end with the end mark of a wanted unit, and the host with one.")
        made = Everywhere(plain_use, order)
        for slot, segment in made.segments.items():
            segment.records[-1:] = [eof_mark(START if slot == PROGRAM else 1000 + slot)]
        yield made.case(
            "larger-end-marks", "The end marks of units are larger than that of the program.")
