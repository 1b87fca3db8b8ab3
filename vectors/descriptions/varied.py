"""Links of which a number, the seed, chooses all that docs/FORMAT.md allows, each thing with values
of its own and all at once. The seeds are the first ones: none was chosen by what its case shows.
An odd seed makes a fault in the link of the seed before, so most of its files are files of that
link. What is expected follows from the description, as in the other cases."""
import random

from . import varied_faults
from .cases import Case, Link, Placed, Private
from .links import ORDERS
from .model import (
    BLANK,
    BLOCK,
    EOFMARK,
    HOSTSEG,
    LINKED,
    PRIVREF,
    PUBLREF,
    UNITREF,
    UNITSEG,
    File,
    Record,
    Segment,
    const_def,
    eof_mark,
    laid_out,
    name_bytes,
    operands,
    publ_def,
)
from .varied_segments import any_bytes, drafts_of, four_bytes, lead, names_of, place, procedures_of

SEEDS = 800  # a link of each even one, and a fault of each odd one
LONG = (None,) * 16 + ("code", "list", "records", "procedures")  # what a segment has much of
LIBRARIES = (0, 1, 1, 1, 1, 1, 2, 2, 2, 3)
VALUES = (0, 1, 3, 127, 128, 255, 256, 1000, 16384, 27000, 32766, 32767, 32768, 65535)
NEXT_FREE = (0, 1, 3, 8, 127, 128, 255, 256, 3000, 16000, 29000)
ENDS = (0, 0, 1, 9, 300, 32767, 32768, 65535)
DATA = (0, 1, 4, 10, 11, 255, 301, 32767, 32768, 40001)
DISPLACEMENTS = (0, 0, 1, 2, 127, 128, 255, 256, 511, 4660, 32767)
TEXTS = (0, 0, 1, 7, 300, 65535)
BEFORE = (0, 0, 0, 0, 0, 0, 1, 2)  # blocks before a code
EMPTY_KINDS = (0, 0, 2, 4, 5, 1, 200)
OTHER_KINDS = (0, 0, 1, 3, 3, 2, 4, 5, 7, 8, 255)
STRANGE = ((2, 21), (11, 22), (15, 20))  # types of records that no link takes, with their faults


class Varied:
    """The files of a link, and what it gives. `sources` has by name the library of a unit, which is
    0 for the host, its entry and, unless it is added, its slot."""

    def __init__(self, seed):
        self.numbers = numbers = random.Random(f"varied {seed}")
        self.seed, self.order = seed, numbers.choice(ORDERS)
        tail = {at: numbers.randrange(256) for at in numbers.sample(range(256, 512), 9)}
        self.host = File({}, self.order, tail=tail)
        self.libraries = [File({}, self.order) for _ in range(numbers.choice(LIBRARIES))]
        self.pool, self.variables = names_of(numbers), names_of(numbers)
        self.define()
        self.sources, self.made = {}, {}
        self.choose_slots()
        self.make_segments()
        self.request_added()
        self.given = self.order_given()
        self.placed, self.requests = self.found()
        self.allot()
        self.fill_operands()
        for file in self.libraries:
            self.add_others(file)
        if numbers.random() < 0.15:
            self.libraries.append(self.host)
            self.given.append(len(self.libraries))

    def define(self):
        """The definitions of the program, and names of private variables and of nothing."""
        numbers, names = self.numbers, self.variables
        publics = [names.pop() for _ in range(numbers.choice((1, 1, 2, 3, 5)))]
        self.publics = {name: numbers.choice(VALUES) for name in publics}
        self.constants = [names.pop() for _ in range(numbers.choice((0, 1, 1, 2)))]
        self.undefined = [names.pop() for _ in range(4)]
        # (names of private variables may be those of others)
        self.privates = names + publics

    def choose_slots(self):
        """Of each slot of the host what it is for; and where each unit is from."""
        numbers, slots = self.numbers, self.numbers.sample(range(16), 16)
        self.program = slots.pop()
        self.plain = [slots.pop() for _ in range(numbers.choice((0, 0, 1, 1, 2, 3)))]
        for _ in range(numbers.choice((0, 1, 2, 2, 3, 4))):
            self.sources[self.pool.pop()] = 0, None, slots.pop()
        if numbers.random() < 0.1:
            self.sources[numbers.choice(BLANK)] = 0, None, slots.pop()
        wanted = numbers.choice((0, 1, 1, 2, 3, 4)) if self.libraries else 0
        for _ in range(wanted):
            self.sources[self.pool.pop()] = self.any_library(), None, slots.pop()
        added = numbers.choice((0, 1, 1, 2, 3, 4, 9)) if self.libraries else 0
        for _ in range(min(added, sum(slot >= 7 for slot in slots))):
            self.sources[self.pool.pop()] = self.any_library(), None, None
        self.empty = slots

    def any_library(self):
        return self.numbers.randrange(1, 1 + len(self.libraries))

    def file(self, number):
        """The library of this number, which is not that in which it is given; 0 is the host."""
        return self.libraries[number - 1] if number else self.host

    # The segments

    def make_segments(self):
        numbers, host = self.numbers, self.host.slots
        host[self.program] = self.segment(numbers.choice((*self.pool, "DEMO")), HOSTSEG)
        self.define_in(host[self.program])
        for slot in self.plain:
            code = any_bytes(numbers, numbers.choice((1, 2, 5, 511, 512, 513, 700)))
            name = numbers.choice([*self.pool, *self.sources])
            host[slot] = Segment(name, LINKED, code=code, text=numbers.choice(TEXTS))
        for name, (library, _, slot) in self.sources.items():
            slots = self.file(library).slots
            entry = numbers.choice([one for one in range(16) if one not in slots])
            entry = entry if library else slot
            self.sources[name] = library, entry, slot
            slots[entry] = self.made[name] = self.unit(name, slots)
            if library and slot is not None:
                host[slot] = self.wanting(name)
        for slot in self.empty:
            if numbers.random() < 0.5:
                host[slot] = self.unfilled(numbers.choice(self.pool), numbers.choice(EMPTY_KINDS))
            elif numbers.random() < 0.2:
                host[slot] = self.wanting(numbers.choice(BLANK))

    def unit(self, name, slots):
        """A unit, which may have the code and the records of another of its file."""
        others = [entry for entry, one in slots.items() if one.kind == UNITSEG and one.has_blocks()]
        if others and self.numbers.random() < 0.08:
            text = self.numbers.choice(TEXTS)
            return Segment(name, text=text, shares=self.numbers.choice(others))
        return self.segment(name, UNITSEG)

    def wanting(self, name):
        """A slot of kind 3 without a segment: its address or its length may be there."""
        address, length = self.numbers.choice(((0, 0), (0, 0), (300, 0), (0, 44)))
        return Segment(name, UNITSEG, address=address, length=length)

    def unfilled(self, name, kind):
        address, text = self.numbers.choice((0, 1, 300)), self.numbers.choice(TEXTS)
        return Segment(name, kind, address=address, length=0, text=text)

    def segment(self, name, kind):
        """The program or a unit, without the displacements of its operands."""
        numbers, is_long = self.numbers, self.numbers.choice(LONG)
        units = numbers.sample([*self.sources], min(3, len(self.sources)))
        drafts = drafts_of(numbers, is_long, self.publics, units, self.privates)
        if kind == UNITSEG and numbers.random() < 0.06:
            drafts = [(record, listed) for record, listed in drafts if not listed]
            made = Segment(name, kind, four_bytes(numbers))
        else:
            listed = [operand for _, operands in drafts for operand in operands]
            made = Segment(name, kind, procedures_of(numbers, is_long, listed, kind == HOSTSEG))
        made.text, made.before = numbers.choice(TEXTS), numbers.choice(BEFORE)
        if numbers.random() < 0.004:
            made.before = 260  # (an address above 255)
        made.number = numbers.choice((None, 0, 1, 7, 15, 255))
        place(made, drafts, numbers)
        made.records = [*(record for record, _ in drafts), self.end_mark(), *self.ignored()]
        if kind == UNITSEG:
            names = [*self.publics, *self.constants, *self.undefined]
            for _ in range(numbers.choice((0, 0, 0, 1, 2))):  # (which no link reads)
                definition = numbers.choice((publ_def, const_def))(numbers.choice(names), 77)
                insert(numbers, made, definition)
        return made

    def end_mark(self):
        """Its name and its second and third words may be any."""
        words = [self.numbers.randrange(65536) for _ in range(2)]
        name = self.numbers.choice(self.variables)
        return Record(name, EOFMARK, [self.numbers.choice(ENDS), *words])

    def ignored(self):
        """What looks like records behind an end mark."""
        numbers = self.numbers
        for _ in range(numbers.choice((0, 0, 1, 2))):
            words = [numbers.randrange(65536) for _ in range(3)]
            yield Record(numbers.choice(self.variables), numbers.randrange(16), words)

    def define_in(self, program):
        numbers = self.numbers
        made = [publ_def(name, value) for name, value in self.publics.items()]
        made += [const_def(name, numbers.choice(VALUES)) for name in self.constants]
        for record in made:
            record.words += [numbers.randrange(65536), numbers.randrange(65536)]
            insert(numbers, program, record)

    # What is requested

    def request_added(self):
        """A segment before requests each unit that has no slot; others may do so too."""
        asking = [self.host.slots[self.program]]
        for name in sorted(self.sources, key=lambda name: self.sources[name][2] is None):
            made = self.made[name]
            if self.sources[name][2] is None:
                some = self.numbers.choice((asking, asking[-2:]))
                for segment in self.numbers.sample(some, min(2, len(some))):
                    insert(self.numbers, segment, Record(name, UNITREF, [1, 0, 0], []))
            if made.shares is None:
                asking.append(made)

    def order_given(self):
        """The libraries, some of them again after that."""
        given = []
        for number in range(1, 1 + len(self.libraries)):
            given.append(number)
            if self.numbers.random() < 0.2:
                again = self.numbers.choice(given)
                given += [again] * self.numbers.choice((1, 1, 2, 5))
        return given

    def number_of(self, library):
        return 1 + self.given.index(library) if library else 0

    def records_in(self, library, entry):
        """The records of an entry up to the end mark."""
        slots = self.file(library).slots
        segment = slots[entry] if slots[entry].shares is None else slots[slots[entry].shares]
        end = next(at for at, one in enumerate(segment.records) if one.type == EOFMARK)
        return segment.records[: end + 1]

    def found(self):
        """The segments by slot, and what is requested: each name with the first record that has it.
        Units without a slot get the empty ones from 7 on, in the order in which slots and their
        records request them, and then those that they request themselves (docs/LINKING.md)."""
        placed = {slot: Placed(slot, 0, slot) for slot in (self.program, *self.plain)}
        for library, entry, slot in self.sources.values():
            if slot is not None:
                placed[slot] = Placed(slot, self.number_of(library), entry)
        free = [slot for slot in range(7, 16) if slot not in placed]
        known = {name_bytes(name) for name, one in self.sources.items() if one[2] is not None}
        queue, requests = [placed[slot] for slot in sorted(placed) if slot not in self.plain], []
        for one in queue:
            for index, record in enumerate(self.records_in(self.library_of(one), one.entry)):
                if record.type == UNITREF and name_bytes(record.name) not in known:
                    known.add(name_bytes(record.name))
                    requests.append((record.name, one, index))
                    library, entry, _ = self.sources.get(record.name, (0, None, 0))
                    if free and entry is not None:
                        queue.append(Placed(free.pop(0), self.number_of(library), entry, True))
                        placed[queue[-1].slot] = queue[-1]
        return [placed[slot] for slot in sorted(placed)], requests

    def library_of(self, placed):
        return self.given[placed.file - 1] if placed.file else 0

    # The values

    def to_link(self):
        return [one for one in self.placed if one.file or one.slot not in self.plain]

    def allot(self):
        """The private variables, and the end mark and the data size of the program."""
        numbers, found = self.numbers, []
        for one in self.to_link():
            records = self.records_in(self.library_of(one), one.entry)
            found += [(one.slot, record) for record in records if record.type == PRIVREF]
        while sum(record.words[2] for _, record in found) > 32767:
            for _, record in found:
                record.words[2] //= 8
        words = sum(record.words[2] for _, record in found)
        most, most_data = 32767 - words, 65535 - 2 * words
        place = numbers.choice([one for one in (*NEXT_FREE, most) if one <= most])
        program = self.host.slots[self.program]
        next(one for one in program.records if one.type == EOFMARK).words[0] = place
        main = next(one for one in program.procedures if one.number == 1)
        main.data = numbers.choice([one for one in (*DATA, most_data) if one <= most_data])
        self.privates_made = []
        for slot, record in found:
            self.privates_made.append(Private(slot, record.name, place, record.words[2]))
            place += record.words[2]
        self.link = Link(self.placed, self.privates_made, place, main.data + 2 * words)

    def fill_operands(self):
        """The displacements, which leave room for each value; and tables that others share."""
        numbers = self.numbers
        for segment in [self.host.slots[self.program], *self.made.values()]:
            for _, operand in operands(segment):
                if operand.type == UNITREF:
                    operand.old = numbers.randrange(256)
                else:
                    most = 32767 - self.greatest(operand, segment)
                    some = [one for one in DISPLACEMENTS if one <= most]
                    operand.old = numbers.choice(
                        (numbers.choice(some), numbers.randrange(most + 1))
                    )
            if segment.procedures:
                lead(numbers, segment, self.order)

    def greatest(self, operand, segment):
        """The value of an operand, or the greatest, where two slots have its segment."""
        if operand.type == PUBLREF:
            return self.publics[operand.name]
        slots = [one.slot for one in self.to_link() if self.segment_of(one) is segment]
        return max(
            one.offset
            for one in self.privates_made
            if one.slot in slots and name_bytes(one.name) == name_bytes(operand.name)
        )

    def segment_of(self, placed):
        """The segment whose code and records a segment of the link has."""
        slots = self.file(self.library_of(placed)).slots
        segment = slots[placed.entry]
        return segment if segment.shares is None else slots[segment.shares]

    # What else is in the files

    def add_others(self, file):
        """Entries of a library that no link takes, of any kind, with names like those it takes. One
        that is filled may have the name of a unit that an earlier library has."""
        numbers, number = self.numbers, self.libraries.index(file) + 1
        earlier = [name for name, one in self.sources.items() if 0 < one[0] < number]
        free = [entry for entry in range(16) if entry not in file.slots]
        numbers.shuffle(free)
        for entry in free[: numbers.choice((0, 1, 2, 3, 4))]:
            name = numbers.choice([*self.pool, *earlier, *earlier])
            file.slots[entry] = self.other(file, name, numbers.choice(OTHER_KINDS))

    def other(self, file, name, kind):
        numbers = self.numbers
        units = [
            entry for entry, one in file.slots.items() if one.kind == UNITSEG and one.procedures
        ]
        form = numbers.choice(("own", "own", "shared", "unfilled", "outside"))
        if form == "unfilled":
            name = numbers.choice([name, *self.sources])
            return self.wanting(name) if kind == UNITSEG else self.unfilled(name, kind)
        if form == "outside":
            return Segment(name, kind, address=65000, length=100, fault=16)
        if form == "shared" and units:
            return Segment(name, kind, shares=numbers.choice(units))
        if kind not in (HOSTSEG, UNITSEG):
            return Segment(name, kind, code=any_bytes(numbers, numbers.choice((1, 4, 511, 512))))
        type, fault = numbers.choice(STRANGE)
        records = [publ_def(numbers.choice(self.variables), 5), eof_mark(0)]
        if numbers.random() < 0.5:
            records.insert(0, Record("X", type, [1, 2, 3], [], fault))
        code = any_bytes(numbers, 2 * numbers.choice((2, 3, 256)))
        return Segment(name, kind, code=code, records=records)

    def finish(self):
        """Puts any bytes behind codes and end marks, and ends some files with the last of these."""
        for number, file in enumerate((self.host, *self.libraries)):
            if number == 0 or file is not self.host:
                finish(random.Random(f"end {self.seed} {number}"), file)

    def case(self, name, about, **expected):
        self.finish()
        given = None if self.given == [*range(1, 1 + len(self.libraries))] else self.given
        return Case(f"varied/{name}", about, self.host, self.libraries, given=given, **expected)


def finish(numbers, file):
    chosen = [*ends_of(file)]
    if file.cut is None and file.last is None and chosen and numbers.random() < 0.4:
        file.last = numbers.choice(chosen)
        file.cut = ends_of(file)[file.last][1]
    elif file.cut is None and numbers.random() < 0.2:
        file.more = any_bytes(numbers, numbers.choice((1, 200, 512)))
    for end in (end for ends in ends_of(file).values() for end in ends):
        if end % BLOCK and numbers.random() < 0.5:
            file.changes[end] = any_bytes(numbers, -end % BLOCK).hex()


def ends_of(file):
    """By slot where the code and the records of a segment end in the file."""
    ends, entries = {}, laid_out(file)[0]
    for slot, segment in file.slots.items():
        if segment.has_blocks() and segment.address is None and segment.length is None:
            address, length = entries[slot]
            start = address + (length + BLOCK - 1) // BLOCK
            records = b"".join(one.encoded(file.order) for one in segment.records)
            ends[slot] = BLOCK * address + length, BLOCK * start + len(records)
    return ends


def insert(numbers, segment, record):
    """Puts a record somewhere before the end mark, and gives its index."""
    end = next(at for at, one in enumerate(segment.records) if one.type == EOFMARK)
    at = numbers.randrange(end + 1)
    segment.records.insert(at, record)
    return at


def case_of(seed):
    link = Varied(seed - seed % 2)
    if seed % 2:
        fault, about = varied_faults.planted(link, seed)
        return link.case(f"{fault.number}-{seed}", about, fault=fault)
    about = f"A link of {len(link.placed)} segments, with all values of seed {seed}."
    return link.case(f"link-{seed}", about, link=link.link)


def cases():
    return map(case_of, range(SEEDS))
