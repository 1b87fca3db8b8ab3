"""A linker, written from docs/FORMAT.md, docs/LINKING.md and docs/OUTPUT.md alone and apart from
pslink and from vectors/descriptions. It is no part of the product: .ci/vectors runs it over the
test vectors, and the wrong linkers of .ci/wrong_linkers.py, each of which is this one with a change
of a few words. So every rule is here once, and in plain words."""
import struct

BLOCK = 512
LINKED, HOSTSEG, SEGPROC, UNITSEG, SEPRTSEG = range(5)
EOFMARK, UNITREF, PUBLREF, PRIVREF, PUBLDEF, CONSTDEF = 0, 1, 3, 4, 7, 8
RECORDS = {0: "EOFMARK", 1: "UNITREF", 3: "PUBLREF", 4: "PRIVREF", 7: "PUBLDEF", 8: "CONSTDEF"}
FORMATS = {UNITREF: 1, PUBLREF: 2, PRIVREF: 2}
NATIVE, SEPARATE = (2, 5, 6, 9, 10), (11, 12, 13, 14)
BLANK = (b" " * 8, bytes(8))
EMPTY, WANTED, PLAIN, HOST, UNIT, OTHER = "empty", "wanted", "plain", "host", "unit", "other"
NAMES = """ShortFile NoOrder OrderMismatch NoHost TwoHosts DoubledSegment
    SegmentProcedure NativeSegment Intrinsic UnknownKind BadLength BadAddress MissingUnit
    NotAUnit DoubledUnit Truncated BadProcDict NativeProcedure RecordsTruncated
    UnknownRecord NativeRecord SeparateRecord BadFormat DoubledDefinition DoubledPrivate
    NoRoom DataTooLarge MissingDefinition IllKind MissingUnitRef OutsideCode
    ReservedPlace Overlap OperandTooLarge NoSlot""".split()


class Fault(Exception):
    """LINKING.md, What is refused: a number, and the parts that it has."""

    def __init__(self, number, file, slot=None, record=None, reference=None, kind=None):
        super().__init__(number)
        self.number, self.name = number, NAMES[number - 1]
        self.parts = {"kind": kind, "file": file, "slot": slot, "record": record,
                      "reference": reference}

    def line(self):
        parts = [f"{word} {value}" for word, value in self.parts.items() if value is not None]
        return " ".join([f"refused {self.number} {self.name}", *parts])


def blocks(length):
    return (length + BLOCK - 1) // BLOCK


# Files and slots (FORMAT.md, The segment dictionary) ----------------------------------------------


def order_of(data):
    """The byte order by the sixteen kinds: None if all are 0, and "mixed" if they name none."""
    first, second = data[192:224:2], data[193:224:2]
    if not any(first) and not any(second):
        return None
    if not any(second):
        return "little"
    if not any(first):
        return "big"
    return "mixed"


class Slot:
    """The entry of a slot in its file."""

    def __init__(self, file, index, address, length, name, kind, text):
        self.file, self.index, self.address, self.length = file, index, address, length
        self.name, self.kind, self.text = name, kind, text
        self.role, self.is_added = self.role_of(), False
        self.is_filled = self.role not in (EMPTY, WANTED)

    def role_of(self):
        if self.kind == UNITSEG and (self.address == 0 or self.length == 0):
            return EMPTY if self.name in BLANK else WANTED
        if self.length == 0:
            return EMPTY
        return {LINKED: PLAIN, HOSTSEG: HOST, UNITSEG: UNIT}.get(self.kind, OTHER)


class CodeFile:
    def __init__(self, data, number, order):
        self.data, self.number, self.order = data, number, order
        self.sign = "<" if order == "little" else ">"
        places = struct.unpack_from(f"{self.sign}32H", data, 0)
        kinds = struct.unpack_from(f"{self.sign}16H", data, 192)
        texts = struct.unpack_from(f"{self.sign}16H", data, 224)
        names = [data[64 + 8 * slot : 72 + 8 * slot] for slot in range(16)]
        self.slots = [Slot(
                          self, slot, places[2 * slot], places[2 * slot + 1], names[slot],
                          kinds[slot], texts[slot]) for slot in range(16)]

    def word(self, code, place):
        return int.from_bytes(code[place : place + 2], self.order)


# Codes and link information (FORMAT.md, The code of a slot, Link information) ---------------------


def code_of(entry, slot):
    """The code of an entry that the host's `slot` gets."""
    where = entry.file.number, slot
    is_resolved = entry.kind in (HOSTSEG, UNITSEG)
    if entry.length > 32767 or is_resolved and (entry.length % 2 or entry.length < 4):
        raise Fault(11, *where)
    if entry.address == 0:
        raise Fault(12, *where)
    start = BLOCK * entry.address
    if start + entry.length > len(entry.file.data):
        raise Fault(16, *where)
    return entry.file.data[start : start + entry.length]


def dictionary_of(code):
    """The offset of the procedure dictionary in a code."""
    return len(code) - 2 - 2 * code[-1]


def tables_of(entry, slot, code):
    """The offset of the attribute table of each procedure with a body."""
    tables, dictionary = {}, dictionary_of(code)
    where = entry.file.number, slot
    if dictionary < 0:
        raise Fault(17, *where)
    for procedure in range(1, code[-1] + 1):
        place = len(code) - 2 - 2 * procedure
        value = entry.file.word(code, place)
        if value == 0:
            continue
        table = place - value
        if table < 8 or table + 1 >= dictionary:
            raise Fault(17, *where)
        tables[procedure] = table
    if entry.role == HOST and 1 not in tables:
        raise Fault(17, *where)
    if any(code[table] == 0 for table in tables.values()):
        raise Fault(18, *where)
    return tables


def reserved_of(code, tables):
    """The bytes that no operand may use."""
    reserved = set(range(dictionary_of(code), len(code)))
    for table in tables.values():
        reserved.update(range(table - 8, table + 2))
    return reserved


class Record:
    def __init__(self, index, type, name, words):
        self.index, self.type, self.name, self.words = index, type, name, words
        self.value, self.count, self.size = words[0], words[1], words[2]
        self.references = ()


def records_of(entry, slot):
    """The records of an entry, one after another, up to the end mark or a fault."""
    data, sign = entry.file.data, entry.file.sign
    place, index = BLOCK * (entry.address + blocks(entry.length)), 0
    while True:
        where = entry.file.number, slot, index
        if place + 16 > len(data):
            raise Fault(19, *where)
        type, *words = struct.unpack_from(f"{sign}4H", data, place + 8)
        record = Record(index, type, data[place : place + 8], words)
        if type > 14:
            raise Fault(20, *where)
        if type in NATIVE:
            raise Fault(21, *where)
        if type in SEPARATE:
            raise Fault(22, *where)
        place += 16
        if type in FORMATS:
            if words[0] == 0:
                raise Fault(21, *where)
            if words[0] != FORMATS[type]:
                raise Fault(23, *where)
            pieces = (record.count + 7) // 8
            if place + 16 * pieces > len(data):
                raise Fault(19, *where)
            record.references = struct.unpack_from(f"{sign}{record.count}H", data, place)
            place += 16 * pieces
        yield record
        if type == EOFMARK:
            return
        index += 1


# Where segments come from (LINKING.md) ------------------------------------------------------------


class Segment:
    """A segment of the link: its slot in the host, and the entry that its code comes from."""

    def __init__(self, slot, entry, name, added=False):
        self.slot, self.entry, self.name, self.added = slot, entry, name, added
        entry.is_added = added
        self.file = entry.file
        self.code = bytearray(code_of(entry, slot))
        self.is_resolved = entry.role != PLAIN
        self.tables, self.records = {}, []
        if self.is_resolved:
            self.tables = tables_of(entry, slot, self.code)
            self.records = list(records_of(entry, slot))

    def fault(self, number, *parts):
        return Fault(number, self.file.number, self.slot, *parts)


class Link:
    """A link of a host and its libraries, given as bytes. Each step raises the first fault that it
    finds."""

    def __init__(self, host, libraries):
        self.host = self.host_of(host)
        self.check_slots()
        self.libraries = [self.library_of(data, number) for number, data in enumerate(libraries, 1)]
        self.segments = [self.own(slot) for slot in self.host.slots if slot.role != EMPTY]
        self.units = {one.name: one.slot for one in self.segments if one.entry.role == UNIT}
        self.add_units()
        self.segments.sort(key=lambda one: one.slot)
        self.program = next(one for one in self.segments if one.entry.role == HOST)
        self.definitions = self.define()
        self.privates = self.allot()
        self.grow()
        for segment in self.segments:
            if segment.is_resolved:
                self.resolve(segment)
                segment.code[len(segment.code) - 2] = segment.slot

    @staticmethod
    def host_of(data):
        if len(data) < BLOCK:
            raise Fault(1, 0)
        order = order_of(data)
        if order == "mixed":
            raise Fault(2, 0)
        if order is None:
            raise Fault(4, 0)
        return CodeFile(data, 0, order)

    def library_of(self, data, number):
        if len(data) < BLOCK:
            raise Fault(1, number)
        order = order_of(data)
        if order == "mixed":
            raise Fault(2, number)
        if order is not None and order != self.host.order:
            raise Fault(3, number)
        return CodeFile(data, number, self.host.order)

    def check_slots(self):
        """The slots of the host, ascending."""
        units, hosts = set(), 0
        for slot in self.host.slots:
            if slot.role == OTHER:
                raise Fault({2: 7, 4: 8, 5: 9, 6: 9, 7: 9}.get(slot.kind, 10), 0, slot.index)
            if slot.role == HOST and hosts > 0:
                raise Fault(5, 0, slot.index)
            hosts += slot.role == HOST
            if slot.role in (UNIT, WANTED):
                if slot.name in units:
                    raise Fault(6, 0, slot.index)
                units.add(slot.name)
        if hosts == 0:
            raise Fault(4, 0)

    def entries_of(self, name):
        """The filled entries of a name in the first library that has one."""
        for library in self.libraries:
            entries = [entry for entry in library.slots if entry.is_filled and entry.name == name]
            if entries:
                return entries
        return []

    @staticmethod
    def unit_of(entries, slot):
        """The one entry that the host's `slot` gets."""
        file = entries[0].file.number
        if len(entries) > 1:
            raise Fault(15, file, slot)
        if entries[0].kind != UNITSEG:
            raise Fault(14, file, slot, kind=entries[0].kind)
        return entries[0]

    def own(self, slot):
        """The segment of a slot of the host that is not empty."""
        if slot.role != WANTED:
            return Segment(slot.index, slot, slot.name)
        entries = self.entries_of(slot.name)
        if not entries:
            raise Fault(13, 0, slot.index)
        return Segment(slot.index, self.unit_of(entries, slot.index), slot.name)

    def add_units(self):
        """Units for which the host has no slot: a queue of the names, each with the record that
        requests it first."""
        queue = []
        free = [slot.index for slot in self.host.slots[7:16] if slot.role == EMPTY]
        for segment in self.segments:
            self.request(queue, segment)
        for name, segment, record in queue:
            entries = self.entries_of(name)
            if not entries or name in BLANK:
                raise segment.fault(13, record.index)
            if not free:
                raise segment.fault(35, record.index)
            slot = free.pop(0)
            unit = Segment(slot, self.unit_of(entries, slot), name, added=True)
            self.segments.append(unit)
            self.units[name] = slot
            self.request(queue, unit)

    def request(self, queue, segment):
        for record in segment.records:
            known = record.name in self.units or any(record.name == name for name, _, _ in queue)
            if record.type == UNITREF and not known:
                queue.append((record.name, segment, record))

    # What a reference becomes

    def define(self):
        definitions = {}
        for record in self.program.records:
            if record.type in (PUBLDEF, CONSTDEF):
                if record.name in definitions:
                    raise self.program.fault(24, record.index)
                definitions[record.name] = record
        return definitions

    def allot(self):
        """The private variables, by slot and then by record: slot, name, base offset and words."""
        privates, self.offsets = [], {}
        self.next = self.program.records[-1].value
        for segment in self.segments:
            for record in segment.records:
                if record.type != PRIVREF:
                    continue
                if (segment.slot, record.name) in self.offsets:
                    raise segment.fault(25, record.index)
                if self.next + record.size > 32767:
                    raise segment.fault(26, record.index)
                self.offsets[segment.slot, record.name] = self.next
                privates.append((segment.slot, record.name, self.next, record.size))
                self.next += record.size
        self.words = sum(words for _, _, _, words in privates)
        return privates

    def grow(self):
        """The data size of the host's outer block."""
        place = self.program.tables[1] - 8
        self.data = self.host.word(self.program.code, place) + 2 * self.words
        if self.data > 65535:
            raise Fault(27, 0, self.program.slot)
        self.program.code[place : place + 2] = self.data.to_bytes(2, self.host.order)

    def value_of(self, segment, record):
        if record.type == UNITREF:
            return self.units[record.name]
        if record.type == PRIVREF:
            return self.offsets[segment.slot, record.name]
        definition = self.definitions.get(record.name)
        if definition is None:
            raise segment.fault(28, record.index)
        if definition.type == CONSTDEF:
            raise segment.fault(29, record.index)
        return definition.value

    def resolve(self, segment):
        """The records of a segment, and the references of each, in order."""
        code, used = segment.code, set()
        reserved = reserved_of(code, segment.tables)
        for record in segment.records:
            if record.type not in FORMATS:
                continue
            value = self.value_of(segment, record)
            width = 1 if record.type == UNITREF else 2
            for index, reference in enumerate(record.references):
                places = range(reference, reference + width)
                if places[-1] >= len(code):
                    raise segment.fault(31, record.index, index)
                if not reserved.isdisjoint(places):
                    raise segment.fault(32, record.index, index)
                if not used.isdisjoint(places):
                    raise segment.fault(33, record.index, index)
                used.update(places)
                if width == 1:
                    code[reference] = value
                    continue
                operand = code[reference] % 128 * 256 + code[reference + 1] + value
                if operand > 32767:
                    raise segment.fault(34, record.index, index)
                code[reference : reference + 2] = 128 + operand // 256, operand % 256

    # The linked file, and the texts

    def file(self):
        """The bytes of the linked file, and by slot the first block of each segment in it."""
        names = [slot.name for slot in self.host.slots]
        places, starts, codes = [0] * 32, {}, b""
        for segment in self.segments:
            if segment.added:
                names[segment.slot] = segment.name
            starts[segment.slot] = 1 + len(codes) // BLOCK
            places[2 * segment.slot : 2 * segment.slot + 2] = starts[segment.slot], len(
                segment.code)
            codes += bytes(segment.code) + bytes(-len(segment.code) % BLOCK)
        block = struct.pack(f"{self.host.sign}32H", *places) + b"".join(names)
        block += bytes(64) + self.host.data[256:512]
        return block + codes, starts

    def summary(self):
        return (f"segments {len(self.segments)} private words {self.words} blocks "
                f"{len(self.file()[0]) // BLOCK}")

    def map(self):
        linked, starts = self.file()
        for one in self.segments:
            line = (f"segment {one.slot:02} {printed(one.name)} file {one.file.number} "
                    f"entry {one.entry.index:02}")
            end = " added" if one.added else ""
            yield f"{line} block {starts[one.slot]} length {len(one.code)}{end}"
        for name, record in self.definitions.items():
            kind = "public" if record.type == PUBLDEF else "constant"
            yield f"{kind} {printed(name)} value {record.value}"
        for slot, name, offset, words in self.privates:
            yield f"private {slot:02} {printed(name)} offset {offset} words {words}"
        yield f"next {self.next} data {self.data} blocks {len(linked) // BLOCK}"


def printed(name):
    return "".join(chr(byte) if 32 <= byte <= 126 else "?" for byte in name)


def show(data):
    """OUTPUT.md, Show: the lines of one file."""
    if len(data) < BLOCK:
        raise Fault(1, 0)
    order = order_of(data)
    if order == "mixed":
        raise Fault(2, 0)
    file = CodeFile(data, 0, order or "little")
    yield f"order {order or 'unknown'}"
    for slot in file.slots:
        yield (f"slot {slot.index:02} {printed(slot.name)} kind {slot.kind} address {slot.address} "
               f"length {slot.length} "
               f"text {slot.text}")
    units = {slot.name for slot in file.slots if slot.role in (UNIT, WANTED)}
    for slot in file.slots:
        if slot.role in (HOST, UNIT):
            yield f"links {slot.index:02}"
            yield from link_lines(slot, units)


def link_lines(slot, units):
    index = 0
    try:
        code_of(slot, slot.index)
        for record in records_of(slot, slot.index):
            yield f"{index} {record_line(record, units)}"
            index += 1
    except Fault as fault:
        start = f"{index} " if fault.number >= 19 else ""
        yield f"{start}fault {fault.number} {fault.name}"


def record_line(record, units):
    line = f"{RECORDS[record.type]} {printed(record.name)}"
    if record.type == EOFMARK:
        return f"EOFMARK next {record.value}"
    if record.type in (PUBLDEF, CONSTDEF):
        return f"{line} value {record.value}"
    if record.type == PRIVREF:
        line += f" words {record.size}"
    line += " at" + "".join(f" {reference}" for reference in record.references)
    return line + (" unlisted" if record.type == UNITREF and record.name not in units else "")
