"""One fault in a link of varied.py: each fault of docs/LINKING.md, at a place that random numbers
choose. A function below makes it in the files, and gives its parts. Where a link has no place for
it the function gives nothing, and leaves the files as they were."""
import random

from .cases import Fault
from .model import (
    BLANK,
    BLOCK,
    CONSTDEF,
    HOSTSEG,
    LINKED,
    PRIVREF,
    PUBLDEF,
    PUBLREF,
    UNITREF,
    UNITSEG,
    Record,
    Segment,
    laid_out,
    name_bytes,
    operands,
    priv_ref,
    publ_ref,
    source_code,
    unit_ref,
)
from .turns import ends_of
from .varied_segments import FORMATS

WAYS = []  # each way to make a fault
MANY = 65535  # references, more than a file has
NAMES = ("NOBODY", "nobody", b"NOBODY\0\0", "N", "NOBODY X")


def way(make, times=1):
    """A way to make a fault; one of several forms comes round several times."""
    WAYS.extend([make] * times)
    return make


def ways(times):
    return lambda make: way(make, times)


def planted(link, seed):
    """The fault of a link, and what the case is. The ways go round; one that the link has no place
    for gives way to the next."""
    numbers, first = random.Random(f"fault {seed}"), seed // 2
    for number in range(len(WAYS)):
        make = WAYS[(first + number) % len(WAYS)]
        fault = make(Place(link, numbers))
        if fault:
            return fault, f"{make.__doc__.rstrip('.')}, in the link of seed {link.seed}."


class Place:
    """A segment of a link that is to be linked, has its code alone, and is chosen for a fault."""

    def __init__(self, link, numbers):
        self.link, self.numbers, self.host = link, numbers, link.host
        self.program, shared = link.host.slots[link.program], set()
        for file in (link.host, *link.libraries):
            sharing = [one.shares for one in file.slots.values() if one.shares is not None]
            shared |= {id(file.slots[entry]) for entry in sharing}
        self.alone = [one for one in link.to_link() if id(link.segment_of(one)) not in shared]
        self.take(numbers.choice(self.alone))

    def take(self, placed):
        """Goes to this segment of the link."""
        self.placed, self.segment = placed, self.entry_of(placed)
        self.file = self.link.file(self.link.library_of(placed))
        end = next((at for at, one in enumerate(self.segment.records) if one.type == 0), 0)
        self.end = end
        return self

    def entry_of(self, placed):
        return self.link.file(self.link.library_of(placed)).slots[placed.entry]

    def go(self, condition):
        """Goes to some segment of which this holds, if there is one."""
        some = [one for one in self.alone if condition(self.take(one))]
        return bool(some) and self.take(self.numbers.choice(some))

    def fault(self, number, *parts):
        return Fault(number, self.placed.file, self.placed.slot, *parts)

    def length(self):
        return laid_out(self.file)[0][self.placed.entry][1]

    def code(self):
        return source_code(self.file, self.placed.entry)

    def tables(self):
        """The offset of the table of each procedure, by its number."""
        ends = ends_of(self.segment.procedures)[1:]
        return {
            one.number: end - 2 if one.at is None else one.at
            for end, one in zip(ends, self.segment.procedures)
            if one.number and one.at != 0
        }

    def records(self, *types):
        """The indices of the records of these types that a link reads."""
        return [at for at, one in enumerate(self.segment.records[: self.end]) if one.type in types]

    def listed(self, *types):
        """Each record with references, by its index, and one of its references."""
        return [
            (at, k)
            for at in self.records(*types)
            for k in range(len(self.segment.records[at].references))
        ]

    def insert(self, record, first=0):
        """Puts a record somewhere before the end mark, and gives its index."""
        at = self.numbers.randrange(first, self.end + 1)
        self.segment.records.insert(at, record)
        return at

    def value(self, record):
        """The value of a record's operands."""
        if record.type == PUBLREF:
            return self.link.publics[record.name]
        return next(
            one.offset
            for one in self.link.privates_made
            if one.slot == self.placed.slot and name_bytes(one.name) == name_bytes(record.name)
        )

    def change(self, offset, content):
        """These bytes, as numbers, are in the code."""
        self.segment.changes[offset] = bytes(content).hex()

    def lead(self, procedure, table):
        """The dictionary's word of this procedure leads to this offset."""
        at = len(self.code()) - 2 - 2 * procedure
        self.change(at, ((at - table) % 65536).to_bytes(2, self.link.order))

    def a_file(self, is_good=lambda file: True):
        """Some file of which this holds, and the number by which it is given first."""
        files = [(0, self.host)]
        for k, file in enumerate(self.link.libraries, 1):
            files += [(self.link.number_of(k), file)] if file is not self.host else []
        some = [one for one in files if is_good(one[1])]
        return self.numbers.choice(some) if some else (None, None)


# Files


@way
def short(at):
    """A file has fewer than 512 bytes."""
    number, file = at.a_file()
    file.cut, file.refused = at.numbers.choice((0, 1, 255, 256, 510, 511)), 1
    return Fault(1, number)


@way
def mixed(at):
    """The kinds of a file are of both byte orders."""
    number, file = at.a_file(lambda file: not file.is_unknown())
    offset = 192 + 2 * at.numbers.randrange(16) + (file.order == "little")
    file.changes[offset] = bytes([at.numbers.randrange(1, 256)]).hex()
    file.refused = 2
    return Fault(2, number)


@way
def turned(at):
    """A library is of the other byte order."""
    number, file = at.a_file(lambda file: file is not at.host and not file.is_unknown())
    if not file:
        return None
    file.order = "big" if file.order == "little" else "little"
    return Fault(3, number)


# Slots of the host


def own_slots(at, *kinds):
    """The slots of the host with a segment of these kinds, and none that is wanted."""
    return [
        slot
        for slot, one in at.host.slots.items()
        if one.kind in kinds and (one.has_blocks() or one.shares is not None)
    ]


@way
def all_linked(at):
    """Every kind of the host is 0."""
    for one in at.host.slots.values():
        one.kind = LINKED
    return Fault(4, 0)


@ways(2)
def no_program(at):
    """No slot of the host is a program."""
    if not own_slots(at, UNITSEG):
        return None
    at.program.name = "PROGRAM"
    at.program.kind = at.numbers.choice((LINKED, UNITSEG, HOSTSEG))
    if at.program.kind == HOSTSEG:
        at.program.length = 0
    return Fault(4, 0)


@way
def two_programs(at):
    """The host has two programs."""
    units = own_slots(at, UNITSEG)
    if units and at.numbers.random() < 0.5:
        slot = at.numbers.choice(units)
        at.host.slots[slot].kind = HOSTSEG
    else:
        slot = free_slot(at)
        at.host.slots[slot] = Segment("OTHER", HOSTSEG, shares=at.link.program)
    return Fault(5, 0, max(slot, at.link.program))


def free_slot(at):
    """A slot of the host that is empty."""
    taken = {one.slot for one in at.link.placed if not one.added}
    return at.numbers.choice([slot for slot in range(16) if slot not in taken])


@way
def doubled_segment(at):
    """Two slots of the host are for units of one name."""
    slots = [slot for _, _, slot in at.link.sources.values() if slot is not None]
    if len(slots) < 2:
        return None
    first, later = sorted(at.numbers.sample(slots, 2))
    at.host.slots[later].name = at.host.slots[first].name
    return Fault(6, 0, later)


def of_kind(number, *kinds):
    """A way in which a slot of the host has a kind that is not linked."""

    def make(at):
        if at.numbers.random() < 0.5:
            slot = free_slot(at)
            at.host.slots[slot] = Segment(
                "OTHER", address=at.numbers.choice((1, 0, 60000)), length=9
            )
        else:
            slot = at.numbers.choice(own_slots(at, LINKED, HOSTSEG, UNITSEG))
        at.host.slots[slot].kind = at.numbers.choice(kinds)
        return Fault(number, 0, slot)

    make.__doc__ = f"A slot of the host has kind {' or '.join(map(str, kinds))}."
    way(make)


of_kind(7, 2)
of_kind(8, 4)
of_kind(9, 5, 6, 7)
of_kind(10, 8, 9, 127, 128, 255)


# Codes


@ways(4)
def bad_length(at):
    """The length of a code is too large, odd or below 4."""
    if at.link.plain and at.numbers.random() < 0.2:
        slot = at.numbers.choice(at.link.plain)
        at.host.slots[slot].length = at.numbers.choice((32768, 32769, 65535))
        return Fault(11, 0, slot)
    odd, large = (at.length() - 1, at.length() + 1), (32768, 32770, 40000, 65535)
    at.segment.length, at.segment.fault = at.numbers.choice((*odd, *odd, *large, 1, 2, 2, 3)), 11
    return at.fault(11)


@way
def no_address(at):
    """A code of the host has address 0."""
    slot = at.numbers.choice([at.link.program, *at.link.plain])
    at.host.slots[slot].address, at.host.slots[slot].fault = 0, 12
    return Fault(12, 0, slot)


@way
def far_code(at):
    """The address of a code is past the end of the file."""
    at.segment.address, at.segment.fault = at.numbers.choice((600, 32767, 32768, 32769, 65535)), 16
    return at.fault(16)


@way
def cut_code(at):
    """A file ends inside a code."""
    if at.link.plain and at.numbers.random() < 0.3:
        slot = at.numbers.choice(at.link.plain)
        at.placed, at.file = next(one for one in at.link.placed if one.slot == slot), at.host
    entry = at.placed.entry
    at.file.last = entry
    address, length = laid_out(at.file)[0][entry]
    at.file.cut = BLOCK * address + length - at.numbers.choice((1, 1, 2, length))
    at.file.stops = {entry: (None, 16)}
    return at.fault(16)


@way
def long_dictionary(at):
    """A procedure dictionary is longer than its code."""
    if not at.go(lambda at: at.length() < BLOCK):
        return None
    length = at.length()
    counts = length // 2, 255, at.numbers.randrange(length // 2, 256)
    at.change(length - 1, [at.numbers.choice(counts)])
    return at.fault(17)


@ways(2)
def bad_table(at):
    """A table is before byte 8 of its code, or has bytes of the procedure dictionary."""
    if not at.go(lambda at: at.code()[-1] > 0):
        return None
    code = at.code()
    procedure, end = at.numbers.randrange(1, 1 + code[-1]), len(code)
    dictionary, word = end - 2 - 2 * code[-1], end - 2 - 2 * procedure
    places = [7, 7, 6, 1, 0, -1, -500, dictionary - 1, dictionary - 1, dictionary, end - 1]
    at.lead(procedure, at.numbers.choice([one for one in places if one != word]))
    return at.fault(17)


@way
def no_outer_block(at):
    """The program has no procedure 1."""
    at.take(next(one for one in at.link.placed if one.slot == at.link.program))
    at.change(len(at.code()) - 4, [0, 0])
    return at.fault(17)


@way
def native(at):
    """A procedure is native."""
    if not at.go(lambda at: at.tables()):
        return None
    at.change(at.numbers.choice([*at.tables().values()]), [0])
    return at.fault(18)


# Records


@way
def cut_records(at):
    """A file ends before an end mark does."""
    at.file.last = at.placed.entry
    address, length = laid_out(at.file)[0][at.placed.entry]
    start, ends = BLOCK * (address + (length + BLOCK - 1) // BLOCK), [0]
    for record in at.segment.records[: at.end + 1]:
        ends.append(ends[-1] + len(record.encoded(at.file.order)))
    sizes = ends[-1] - 1, at.numbers.choice(ends[:-1]), at.numbers.randrange(ends[-1])
    size = at.numbers.choice(sizes)
    index = next(k for k, end in enumerate(ends[1:]) if end > size)
    at.file.cut, at.file.stops = start + size, {at.placed.entry: (index, 19)}
    return at.fault(19, index)


@way
def long_list(at):
    """A list of references is longer than its file."""
    if len(laid_out(at.file)[1]) > 2 * MANY - BLOCK or not at.records(*FORMATS):
        return None
    index = at.numbers.choice(at.records(*FORMATS))
    record = at.segment.records[index]
    record.words[1], record.fault = at.numbers.choice((MANY, MANY - 7)), 19
    return at.fault(19, index)


def of_type(number, times, *types):
    """A way in which a record has such a type."""

    def make(at):
        type, index = at.numbers.choice(types), at.numbers.randrange(at.end + 1)
        if at.numbers.random() < 0.5:
            words = [at.numbers.randrange(65536) for _ in range(3)]
            index = at.insert(Record("STRANGE", type, words, fault=number))
        else:
            at.segment.records[index].type, at.segment.records[index].fault = type, number
        return at.fault(number, index)

    make.__doc__ = f"A record has a type of fault {number}."
    way(make, times)


of_type(20, 2, 15, 16, 255, 256, 263, 260, 32768, 32771, 65535)
of_type(21, 1, 2, 5, 6, 9, 10)
of_type(22, 1, 11, 12, 13, 14)


@ways(3)
def bad_format(at):
    """A reference record has a format that its type cannot have."""
    if not at.go(lambda at: at.records(*FORMATS)):
        return None
    index = at.numbers.choice(at.records(*FORMATS))
    record = at.segment.records[index]
    right = FORMATS[record.type]
    formats = 0, 0, 0, 3 - right, 3 - right, 3, 255, 256, 512, 256 + right, 32768 + right, 65535
    record.words[0] = at.numbers.choice(formats)
    record.fault = 23 if record.words[0] else 21
    if at.numbers.random() < 0.3:
        record.words[1] = MANY
    return at.fault(record.fault, index)


# Where units come from


def unit_of(at):
    """The name of a unit that the host wants or a record requests, its library, its entry, and the
    slot that it gets."""
    link, some = at.link, [name for name, one in at.link.sources.items() if one[0]]
    if not some:
        return None
    name = at.numbers.choice(some)
    library, entry, _ = link.sources[name]
    number = link.number_of(library)
    [slot] = [one.slot for one in link.placed if (one.file, one.entry) == (number, entry)]
    return name, link.file(library), entry, Fault(14, number, slot)


@ways(2)
def missing(at):
    """No library has a unit that the host wants or a record requests."""
    link = at.link
    if not (unit := unit_of(at)):
        return None
    if at.host in link.libraries:  # (which may have a segment of that name)
        link.given = [one for one in link.given if link.file(one) is not at.host]
        link.libraries.remove(at.host)
    for entry in [one for file in link.libraries for one in file.slots.values()]:
        if name_bytes(entry.name) == name_bytes(unit[0]):
            entry.name = at.numbers.choice(("LOST", "lost", b"LOST\0\0\0\0", b"\xccOST    "))
    for name, one, index in link.requests:
        if name == unit[0]:
            return Fault(13, one.file, one.slot, index)
    return Fault(13, 0, link.sources[unit[0]][2])


@ways(2)
def missing_besides(at):
    """A record requests a unit of a name that no library has, or of a blank name."""
    own = [name_bytes(name) for name in at.link.sources]
    name = at.numbers.choice([*NAMES, *(one for one in BLANK if one not in own)])
    return at.fault(13, at.insert(unit_ref(name, [])))


@ways(2)
def no_unit(at):
    """The entry of a unit is of another kind."""
    if not (unit := unit_of(at)):
        return None
    _, file, entry, fault = unit
    fault.kind = file.slots[entry].kind = at.numbers.choice((0, 1, 2, 4, 5, 6, 7, 8, 255))
    return fault


@ways(2)
def doubled_unit(at):
    """A library has a unit twice, once perhaps as another kind."""
    if not (unit := unit_of(at)):
        return None
    name, file, entry, fault = unit
    slot = at.numbers.choice([one for one in range(16) if one not in file.slots])
    shared = entry if file.slots[entry].shares is None else file.slots[entry].shares
    file.slots[slot] = Segment(name, at.numbers.choice((3, 3, 0, 1, 5)), shares=shared)
    fault.number = 15
    return fault


@way
def no_slot(at):
    """A unit is requested, and no slot is left."""
    taken = {one.slot for one in at.link.placed}
    files = [file for file in at.link.libraries if file is not at.host and len(file.slots) < 16]
    if not files:
        return None
    file = at.numbers.choice(files)
    entry = at.numbers.choice([one for one in range(16) if one not in file.slots])
    library = at.link.libraries.index(file) + 1
    code = bytes.fromhex("D7 D7 63 00")
    file.slots[entry] = Segment("ONE MORE", code=code, records=[Record("", 0, [0])])
    at.link.sources["ONE MORE"] = library, entry, None
    at.insert(unit_ref("ONE MORE", []))
    for slot in range(7, 16):
        if slot not in taken:
            at.host.slots[slot] = Segment("FULL", LINKED, shares=at.link.program)
            at.link.plain.append(slot)
    added = sum(one.added for one in at.link.placed)
    _, one, index = at.link.found()[1][added]
    return Fault(35, one.file, one.slot, index)


# Definitions and private variables


@way
def doubled_definition(at):
    """A definition has the name of an earlier one."""
    at.take(next(one for one in at.link.placed if one.slot == at.link.program))
    first = at.numbers.choice(at.records(PUBLDEF, CONSTDEF))
    record = at.segment.records[first]
    type, value = at.numbers.choice((PUBLDEF, CONSTDEF)), at.numbers.choice((record.words[0], 9))
    other = Record(record.name, type, [value])
    return at.fault(24, at.insert(other, first + 1))


@way
def doubled_private(at):
    """A segment has a private variable twice."""
    if not at.go(lambda at: at.records(PRIVREF)):
        return None
    first = at.numbers.choice(at.records(PRIVREF))
    other = priv_ref(at.segment.records[first].name, at.numbers.choice((0, 1, 300, 65535)), [])
    return at.fault(25, at.insert(other, first + 1))


@way
def large_private(at):
    """The private variables end after 32767."""
    if not at.go(lambda at: at.records(PRIVREF)):
        return None
    index = at.numbers.choice(at.records(PRIVREF))
    record = at.segment.records[index]
    record.words[2] = 32768 - at.value(record) + at.numbers.choice((0, 0, 1, 500))
    return at.fault(26, index)


@way
def late_end_mark(at):
    """The private variables begin after 32767."""
    slots = {one.slot: one for one in at.alone}
    if not at.link.privates_made or at.link.privates_made[0].slot not in slots:
        return None
    end = next(one for one in at.program.records if one.type == 0)
    end.words[0] = at.numbers.choice((32768, 40000, 65535))
    at.take(slots[at.link.privates_made[0].slot])
    return at.fault(26, at.records(PRIVREF)[0])


@way
def large_data(at):
    """The data of the outer block would have more than 65535 bytes."""
    words = sum(one.words for one in at.link.privates_made)
    if not words:
        return None
    main = next(one for one in at.program.procedures if one.number == 1)
    main.data = min(65536 - 2 * words + at.numbers.choice((0, 0, 1, 40)), 65535)
    return Fault(27, 0, at.link.program)


# References


def named(number, *names):
    """A way in which a PUBLREF has a name that no variable of the program has."""

    def make(at):
        name = at.numbers.choice([one for some in names for one in some(at)] or [None])
        if name is None:
            return None
        if at.records(PUBLREF) and at.numbers.random() < 0.7:
            index = at.numbers.choice(at.records(PUBLREF))
            at.segment.records[index].name = name
        else:
            index = at.insert(publ_ref(name, []))
        return at.fault(number, index)

    make.__doc__ = f"A PUBLREF has a name of fault {number}."
    way(make, 2)


def privates(at):
    own = [at.segment.records[index].name for index in at.records(PRIVREF)]
    return [name for name in own if name not in at.link.publics]


named(28, lambda at: at.link.undefined, privates)
named(29, lambda at: at.link.constants)


def referring(number, times, chosen):
    """A way in which a reference is one of those that `chosen` gives for an operand's width."""

    def make(at):
        if not at.go(lambda at: at.listed(*FORMATS)):
            return None
        index, k = at.numbers.choice(at.listed(*FORMATS))
        record = at.segment.records[index]
        some = list(chosen(at, 1 if record.type == UNITREF else 2, (index, k)))
        if not some:
            return None
        record.references[k] = at.numbers.choice(some)
        return at.fault(number, index, k)

    make.__doc__ = f"A reference is to bytes of fault {number}."
    way(make, times)


def reserved_of(at):
    code = at.code()
    reserved = set(range(len(code) - 2 - 2 * code[-1], len(code)))
    for table in at.tables().values():
        reserved |= set(range(table - 8, table + 2))
    return reserved


def outside(at, width, _):
    length = at.length()
    return length + 1 - width, length, 32768, 65534, 65535


def in_the_dictionary(at, width, _):
    code = at.code()
    first = len(code) - 2 - 2 * code[-1]
    return first + 1 - width, first, len(code) - 2, len(code) - width


def in_a_table(at, width, _):
    for table in at.tables().values():
        yield from (table - 8, table - 8 + 1 - width, table + 1)


def overlapping(at, width, this):
    """References that have bytes of an earlier one and none that is reserved."""
    reserved, length = reserved_of(at), at.length()
    for index, k in at.listed(*FORMATS):
        if (index, k) < this:
            record = at.segment.records[index]
            first = record.references[k]
            last = first + (record.type != UNITREF)
            for place in range(max(first + 1 - width, 0), min(last, length - width) + 1):
                if reserved.isdisjoint(range(place, place + width)):
                    yield place


referring(31, 2, outside)
referring(32, 1, in_the_dictionary)
referring(32, 2, in_a_table)
referring(33, 2, overlapping)


@ways(2)
def large_operand(at):
    """A displacement and its value are more than 32767 together."""

    def large(at):
        found = at.listed(PUBLREF, PRIVREF)
        return [one for one in found if at.value(at.segment.records[one[0]])]

    if not at.go(large):
        return None
    index, k = at.numbers.choice(large(at))
    record = at.segment.records[index]
    operand = dict(operands(at.segment))[record.references[k]]
    operand.old = min(32768 - at.value(record) + at.numbers.choice((0, 0, 1, 90)), 32767)
    return at.fault(34, index, k)
