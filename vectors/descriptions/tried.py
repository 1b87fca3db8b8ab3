"""The files of a case with one segment that is tried: at a place, and with the values that turns.py
gives the case."""
import dataclasses

from .cases import Fault
from .model import (BLOCK, HOSTSEG, LINKED, PRIVREF, PUBLREF, UNITREF, UNITSEG, File, Operand,
                    Procedure, Segment, const_def, eof_mark, laid_out, publ_def, unit_ref)
from .turns import procedures_of, records_of, spots_of

KINDS = {"publref": PUBLREF, "privref": PRIVREF, "unitref": UNITREF}
WIDE = ("publref", "privref")  # with operands of two bytes
FORMATS = {PUBLREF: 2, PRIVREF: 2, UNITREF: 1}


@dataclasses.dataclass(frozen=True)
class Place:
    """What a segment is in a link: its role, and whether it is from the first library, the second
    or a later one, or 0."""

    role: str
    library: int = 0

    def __str__(self):
        return f"{self.role}-{self.library}" if self.library else self.role

    def about(self):
        of = ("the host", "the first library", "the second library",
              "a later library")[self.library]
        return {"program": "the host program", "unit": "a unit of the host",
                "plain": "a plain segment", "wanted": f"a wanted unit of {of}",
                "added": f"an added unit of {of}"}[self.role]


PROGRAM, UNIT, PLAIN = Place("program"), Place("unit"), Place("plain")
LIBRARIES = (1, 2, 3)
UNITS = [Place(role, library) for role in ("wanted", "added") for library in LIBRARIES]
LINKED_PLACES = [PROGRAM, UNIT, *UNITS]
NAMES = {"program": "DEMO", "unit": "AUX", "plain": "TOOLS", "wanted": "UTIL", "added": "MORE"}
# the unit that the segment itself uses: itself, and LOW of the host
USED = {**NAMES, "program": "LOW"}


def small(name, *records):
    """A unit of four bytes, without a procedure."""
    return Segment(
        name, UNITSEG, code=bytes.fromhex("D7 D7 63 00"), records=[*records, eof_mark(0)])


class Files:
    """A host and libraries, with the segment that is tried at a place, which is the last in its
    file; turns.py has what it is made of. Who requests the added unit is the wanted one in
    little-endian files and the program in big-endian ones."""

    def __init__(self, place, order, turn):
        self.place, self.order, self.turn = place, order, turn
        self.used = turn.titled(USED[place.role]) if place != PROGRAM else USED["program"]
        self.segment = self.tried()
        # (the file that is given before that of a later library is given several times)
        earlier = {0: 0, 1: 0, 2: 1, 3: turn.before}[place.library]
        self.number = earlier + 1 if place.library else 0
        self.fill_host()
        self.libraries = []
        if place.role == "added" or place.library > 1:
            self.libraries = [File({turn.other: self.first_unit()}, order)]
        if not self.libraries or place.library > 1:
            self.libraries.append(File({}, order))
        last = len(self.libraries)
        self.given = [*[1] * earlier, *[last] * (1 + turn.behind)] if place.library else None
        if place.library:
            self.entry = turn.entry if turn.entry not in self.file().slots else (
                turn.entry + 1) % 16
            self.libraries[-1].slots[self.entry] = self.segment
        self.file().last = self.slot_in_file()
        self.host.tail = {300: 0x2A}

    def tried(self):
        """The segment that is tried, and `spots`, the offsets in it."""
        turn, place = self.turn, self.place
        procedures = procedures_of(turn, self.used)
        self.spots = spots_of(procedures, turn)
        name, own = turn.titled(NAMES[place.role]), {
            "number": turn.number, "text": turn.text, "before": turn.blocks}
        if place == PLAIN:
            return Segment(name, LINKED, code=b"\xd7" * self.spots.length, **own)
        made = Segment(name, HOSTSEG if place == PROGRAM else UNITSEG, procedures, **own)
        made.records = records_of(turn, made, self.used)
        made.records = ([*self.definitions(), *made.records, eof_mark(turn.next_free)]
                        if place == PROGRAM
                        else [*made.records, eof_mark(turn.end)])
        return made

    def definitions(self):
        return publ_def(self.turn.public, self.turn.value), const_def(self.turn.constant, 5)

    def fill_host(self):
        """The slots of the host, from that of the segment that is tried on."""
        place, turn = self.place, self.turn
        asking = [unit_ref(self.segment.name, [])] if place.role == "added" else []
        by_program, self.by_unit = (asking, []) if self.order == "big" else ([], asking)
        self.host_slot = turn.added if place.role == "added" else turn.slot
        free = [slot % 16
                for slot in range(self.host_slot + 1, self.host_slot + 16)
                if place.role != "added" or slot % 16 < 7]
        self.program_slot = self.host_slot if place == PROGRAM else free.pop(0)
        slots = {}
        if place != PROGRAM:
            code = [Procedure(["D7 D7 C1 00"], parameters=4, data=10)]
            slots[self.program_slot] = Segment("DEMO", HOSTSEG, code, [
                *self.definitions(), *by_program, eof_mark(turn.next_free)])
        else:
            slots[free.pop(0)] = small("LOW")
        if place.role == "wanted":
            slots[self.host_slot] = Segment(self.segment.name, UNITSEG)
        if place.role == "added" or place.library > 1:
            # the unit that the first library has besides
            self.other_slot = free.pop(0)
            slots[self.other_slot] = Segment("LOW" if place.role == "wanted" else "UTIL", UNITSEG)
        if place.role == "added":
            slots |= {slot: Segment("FULL", LINKED, shares=self.program_slot)
                      for slot in range(7, self.host_slot)}
        if not place.library:
            slots[self.host_slot] = self.segment
        self.host = File(slots, self.order)

    def first_unit(self):
        return small("LOW") if self.place.role == "wanted" else small("UTIL", *self.by_unit)

    def file(self):
        return self.libraries[-1] if self.place.library else self.host

    def slot_in_file(self):
        return self.entry if self.place.library else self.host_slot

    def asked(self):
        """The fault where the segment is not found: the host's slot wants it, or a record requests
        it."""
        if self.place.role == "wanted":
            return Fault(13, 0, self.host_slot)
        return Fault(13, 1, self.other_slot, 0) if self.order == "little" else Fault(
            13, 0, self.program_slot, 2)

    def offset(self):
        """The base offset of its private variable, before which no other segment has one."""
        index, _ = self.record("privref")
        return self.turn.next_free + sum(
            one.words[2] for one in self.segment.records[:index] if one.type == PRIVREF)

    def word(self, value):
        return value.to_bytes(2, self.order).hex()

    def pointer(self, procedure, table):
        """The dictionary's word of a procedure leads to this offset."""
        place = self.spots.length - 2 - 2 * procedure
        return {place: self.word((place - table) % 65536)}

    def main(self):
        """The procedure with the operands."""
        return next(one for one in self.segment.procedures if one.number == 1)

    def operand(self, kind):
        """The operand that the rules change."""
        return [part
                for part in self.main().parts
                if isinstance(part, Operand) and part.type == KINDS[kind]][-1]

    def record(self, kind):
        """Its reference record of a kind that has references, and the index of it."""
        index = next(
            index
            for index, record in enumerate(self.segment.records)
            if record.type == KINDS[kind] and record.references)
        return index, self.segment.records[index]

    def refer(self, kind, *references):
        """Puts these in place of the reference to the operand in the record of a kind; gives the
        indices of the record and of the first."""
        index, record = self.record(kind)
        at = self.turn.listed
        record.references[at : at + 1] = references
        record.words[1] = len(record.references)
        return index, at

    def append(self, record):
        """Puts a record before the end mark, and gives its index."""
        self.segment.records.insert(-1, record)
        return len(self.segment.records) - 2

    def cut(self, less, record, number):
        """Ends the file so many bytes before the end of its record of this index, or of its code
        for None. Show stops there."""
        address, length = laid_out(self.file())[0][self.slot_in_file()]
        end = BLOCK * address + length
        if record is not None:
            before = b"".join(one.encoded(self.order) for one in self.segment.records[: record + 1])
            end = BLOCK * (address + (length + BLOCK - 1) // BLOCK) + len(before)
        self.file().cut, self.file().stops = end - less, {self.slot_in_file(): (record, number)}
