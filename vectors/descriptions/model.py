"""How code files and links are described, and how a description becomes the bytes of a file, its
show and its map. Nothing here reads a code file: what is expected comes from the description alone.
docs/FORMAT.md and docs/LINKING.md have the rules; the comments name their sections."""
import dataclasses
import functools
import pathlib
import re
import struct
import sys

ROOT = pathlib.Path(__file__).resolve().parents[2]
sys.path.insert(0, str(ROOT / "samples"))
from make_samples import BLOCK, HOSTSEG, LINKED, UNITSEG, whole

UNUSED = {30}  # faults that no link reports
# LINKING.md, When each fault occurs: the names of the faults, by their numbers
REASONS = {int(number): name
           for number, name in re.findall(
                   r"^\| (\d+) \| ([A-Z]\w+) \|", (ROOT / "docs/LINKING.md").read_text(), re.M)
           if int(number) not in UNUSED}
EOFMARK, UNITREF, PUBLREF, PRIVREF, PUBLDEF, CONSTDEF = 0, 1, 3, 4, 7, 8
SHOWN = {EOFMARK: "EOFMARK", UNITREF: "UNITREF", PUBLREF: "PUBLREF", PRIVREF: "PRIVREF",
         PUBLDEF: "PUBLDEF", CONSTDEF: "CONSTDEF"}
BLANK = (bytes(8), b" " * 8)


@functools.cache
def name_bytes(name):
    """The eight bytes of a name, which is given as text without its blanks, or as its bytes."""
    return name if isinstance(name, bytes) else name.encode("latin-1").ljust(8)[:8]


@functools.cache
def printed(name):
    """OUTPUT.md: a byte from 32 to 126 as itself, any other as '?'."""
    return "".join(chr(byte) if 32 <= byte <= 126 else "?" for byte in name_bytes(name))


# Code (FORMAT.md, The code of a slot) -------------------------------------------------------------


@dataclasses.dataclass
class Operand:
    """An operand that the link fills in: the type of the record that refers to it, the record's
    name, and what it holds before: a displacement, or the byte of a UNITREF. `mark` is bit 7 of a
    BIG operand before the link."""

    type: int
    name: object
    old: int = 0
    mark: int = 0x80

    def size(self):
        return 1 if self.type == UNITREF else 2

    def before(self):
        return bytes([self.old]) if self.type == UNITREF else bytes(
            [self.mark + self.old // 256, self.old % 256])

    def after(self, value):
        """LINKING.md, What a reference becomes: the slot's number, or the displacement plus the
        value."""
        if self.type == UNITREF:
            return bytes([value])
        operand = self.old + value
        assert operand <= 32767, f"{self} becomes {operand}"
        return bytes([128 + operand // 256, operand % 256])


@dataclasses.dataclass
class Procedure:
    """Its instructions, as bytes, as text in hexadecimal and as operands; sizes in bytes. `at` is
    the offset of its attribute table where another procedure has the table, or 0 for no body.
    `said` is the number that its table has, if that is not its own. `pad` is the bytes between
    instructions and table, if they are not what makes its offset even."""

    parts: list
    number: int = 1
    parameters: int = 0
    data: int = 0
    level: int = 0
    at: int = None
    said: int = None
    pad: int = None

    def padding(self, end):
        """The bytes between its instructions, which end there, and its table."""
        return end % 2 if self.pad is None else self.pad


def parts_of(procedure):
    for part in procedure.parts:
        yield bytes.fromhex(part) if isinstance(part, str) else part


def size_of(part):
    return part.size() if isinstance(part, Operand) else len(part)


def operands(segment):
    """The offset of each operand that the code of a segment has, and the operand."""
    start = 0
    for procedure in segment.procedures or []:
        here = start
        for part in parts_of(procedure):
            if isinstance(part, Operand):
                yield here, part
            here += size_of(part)
        start = here + procedure.padding(here) + (10 if procedure.at is None else 0)


def places(segment, type, name):
    """The offsets of the operands of one name, ascending."""
    return [place for place, operand in operands(segment) if (operand.type, operand.name) == (
                type, name)]


def code_bytes(segment, number, order, value=None, data=None):
    """The code with this segment number: as a compiler writes it or, with the value of each operand
    and the data size of procedure 1, as it is linked."""

    def word(content):
        return content.to_bytes(2, order)

    code, tables = bytearray(), {}
    for procedure in segment.procedures:
        start = len(code)
        for part in parts_of(procedure):
            if isinstance(part, Operand):
                part = part.before() if value is None else part.after(value(part))
            code += part
        pad = procedure.padding(len(code))
        code += bytes(pad)
        tables[procedure.number] = procedure.at
        if procedure.at is None:
            size = procedure.data if data is None or procedure.number != 1 else data
            # enter IC and exit IC are self-relative; the exit is the last two bytes of the
            # instructions
            code += word(size) + word(procedure.parameters) + word(6 + pad) + word(
                len(code) + 6 - start)
            tables[procedure.number] = len(code)
            code += bytes(
                [procedure.number if procedure.said is None else procedure.said, procedure.level])
    count = max(tables, default=0)
    for number_of in range(count, 0, -1):
        code += word(len(code) - tables[number_of] if tables.get(number_of) else 0)
    return bytes(code) + bytes([number, count])


# Link information (FORMAT.md, Link information) ---------------------------------------------------


@dataclasses.dataclass
class Record:
    """A record, its words after the type, and the list after it. `fault` is the fault of a record
    that is refused; `rest` fills the last piece of the list."""

    name: object
    type: int
    words: list
    references: list = None
    fault: int = 0
    rest: bytes = b"\0"

    def encoded(self, order):
        references = self.references or []
        mark = "<" if order == "little" else ">"
        listed = struct.pack(f"{mark}{len(references)}H", *references)
        words = [self.type, *self.words, 0, 0, 0][:4]
        return struct.pack(f"{mark}8s4H", name_bytes(self.name), *words) + listed + (
            self.rest * 16)[: -len(listed) % 16]


def unit_ref(name, references):
    return Record(name, UNITREF, [1, len(references)], references)


def publ_ref(name, references):
    return Record(name, PUBLREF, [2, len(references)], references)


def priv_ref(name, words, references):
    return Record(name, PRIVREF, [2, len(references), words], references)


def publ_def(name, value):
    return Record(name, PUBLDEF, [value])


def const_def(name, value):
    return Record(name, CONSTDEF, [value])


def eof_mark(next_free, name=""):
    return Record(name, EOFMARK, [next_free])


# Code files (FORMAT.md, The segment dictionary) ---------------------------------------------------


@dataclasses.dataclass
class Segment:
    """A slot of a file. It has its procedures, or a code as bytes, or none. `shares` is the slot
    whose code and records it has; `inside` is the slot in whose code it lies, and from which of its
    blocks on. `before` is how many blocks of zeros come before its code. `address` and `length` are
    what the dictionary says, if that is not where its code is. `changes` are bytes of its code, by
    offset, that its procedures do not have; `linked` are bytes that the link gives to a code
    without procedures. `fault` is the fault of a code that is refused."""

    name: object
    kind: int = UNITSEG
    procedures: list = None
    records: list = dataclasses.field(default_factory=list)
    code: bytes = None
    text: int = 0
    shares: int = None
    inside: tuple = None
    before: int = 0
    address: int = None
    length: int = None
    number: int = None
    changes: dict = dataclasses.field(default_factory=dict)
    linked: dict = dataclasses.field(default_factory=dict)
    fault: int = 0

    def has_blocks(self):
        """Its code and its records have blocks of their own in the file."""
        return self.shares is None and self.inside is None and (
            self.procedures is not None or self.code is not None)


@dataclasses.dataclass
class File:
    """A code file. `tail` has bytes of the dictionary's second half; `cut` is the length of a file
    that is cut there; `changes` are bytes of the file, by offset. `refused` is the fault for which
    show refuses it. `stops` has, by slot, how many records are left of it and the fault that show
    prints after them, or None and the fault of the code. `last` is the slot whose code is the last
    in the file, if that is not the highest."""

    slots: dict
    order: str = "little"
    tail: dict = dataclasses.field(default_factory=dict)
    cut: int = None
    changes: dict = dataclasses.field(default_factory=dict)
    more: bytes = b""
    refused: int = 0
    stops: dict = dataclasses.field(default_factory=dict)
    last: int = None

    def is_unknown(self):
        return all(segment.kind == 0 for segment in self.slots.values())


def source_code(file, slot):
    """The code of a slot as it is in its file."""
    segment = file.slots[slot]
    if segment.shares is not None:
        return source_code(file, segment.shares)
    number = slot if segment.number is None else segment.number
    code = segment.code if segment.code is not None else code_bytes(segment, number, file.order)
    return changed(code, segment.changes)


def changed(content, changes):
    """These bytes with others, in hexadecimal, at these offsets."""
    content = bytearray(content)
    for place, new in changes.items():
        content[place : place + len(bytes.fromhex(new))] = bytes.fromhex(new)
    return bytes(content)


def laid_out(file):
    """The address and the length of each slot, as the dictionary says them, and the blocks after
    it."""
    entries, blocks = {}, b""
    for slot, segment in sorted(file.slots.items(), key=lambda one: (one[0] == file.last, one[0])):
        address = length = 0
        if segment.has_blocks():
            code = source_code(file, slot)
            blocks += bytes(BLOCK * segment.before)
            address, length = 1 + len(blocks) // BLOCK, len(code)
            blocks += whole(code, BLOCK) + whole(
                b"".join(one.encoded(file.order) for one in segment.records), BLOCK)
        entries[slot] = [address, length]
    for slot, segment in file.slots.items():
        if segment.shares is not None:
            entries[slot] = list(entries[segment.shares])
        if segment.inside is not None:
            of, block = segment.inside
            entries[slot] = [entries[of][0] + block, len(source_code(file, slot))]
        if segment.address is not None:
            entries[slot][0] = segment.address
        if segment.length is not None:
            entries[slot][1] = segment.length
    return entries, blocks


def dictionary_bytes(entries, names, kinds, texts, order, tail):
    """Block 0: each of these has a part of the entry of each slot, or nothing for it."""

    def words(values):
        values = list(values)
        return struct.pack(f"{'<' if order == 'little' else '>'}{len(values)}H", *values)

    pairs = words(value for slot in range(16) for value in entries.get(slot, (0, 0)))
    block = pairs + b"".join(name_bytes(names.get(slot, "")) for slot in range(16))
    block += words(kinds.get(slot, 0) for slot in range(16)) + words(
        texts.get(slot, 0) for slot in range(16))
    block = bytearray(whole(block, BLOCK))
    for place, byte in tail.items():
        block[place] = byte
    return bytes(block)


def file_bytes(file, laid):
    """The bytes of a file, of which `laid_out` says this."""
    entries, blocks = laid
    names, kinds, texts = ({slot: getattr(segment, part) for slot, segment in file.slots.items()}
                           for part in ("name", "kind", "text"))
    encoded = dictionary_bytes(
        entries, names, kinds, texts, file.order, file.tail) + blocks + file.more
    return changed(encoded, file.changes)[: file.cut]


def written(file):
    """The bytes of a file."""
    return file_bytes(file, laid_out(file))


def is_filled(segment, entry):
    """FORMAT.md, What a slot is for: none of its first three rows fits."""
    address, length = entry
    return length > 0 and not (segment.kind == UNITSEG and address == 0)


# Show (OUTPUT.md, Show) ---------------------------------------------------------------------------


def record_line(record, units):
    """The line of a record that can be read; `units` are the names that slots of the file have or
    want."""
    line = f"{SHOWN[record.type]} {printed(record.name)}"
    if record.type == EOFMARK:
        return f"EOFMARK next {record.words[0]}"
    if record.type in (PUBLDEF, CONSTDEF):
        return f"{line} value {record.words[0]}"
    if record.type == PRIVREF:
        line += f" words {record.words[2]}"
    line += " at" + "".join(f" {reference}" for reference in record.references)
    if record.type == UNITREF and name_bytes(record.name) not in units:
        line += " unlisted"
    return line


def link_lines(file, slot, units):
    segment = file.slots[slot]
    records = file.slots[segment.shares].records if segment.shares is not None else segment.records
    left, stop = file.stops.get(slot, (None, segment.fault))
    yield f"links {slot:02}"
    if stop and left is None:
        yield f"fault {stop} {REASONS[stop]}"
        return
    for index, record in enumerate(records[:left]):
        if record.fault:
            yield f"{index} fault {record.fault} {REASONS[record.fault]}"
            return
        yield f"{index} {record_line(record, units)}"
        if record.type == EOFMARK:
            return
    assert stop, f"the records of slot {slot} have no end"
    yield f"{left} fault {stop} {REASONS[stop]}"


def slot_line(slot, name, kind, address, length, text):
    return (f"slot {slot:02} {printed(name)} kind {kind} address {address} length {length} text "
            f"{text}")


def show_of(file, laid):
    """The lines of the show of a file that show does not refuse, and of which `laid_out` says
    this."""
    entries, _ = laid
    unknown = file.is_unknown()
    # words of a file of unknown order are shown as little-endian
    seen = swapped if unknown and file.order == "big" else int
    yield "order unknown" if unknown else f"order {file.order}"
    for slot in range(16):
        segment = file.slots.get(slot, Segment("", LINKED))
        yield slot_line(
            slot, segment.name, segment.kind,
            *map(seen, (*entries.get(slot, (0, 0)), segment.text)))
    units = {name_bytes(segment.name)
             for slot, segment in file.slots.items()
             if segment.kind == UNITSEG
             and (is_filled(segment, entries[slot]) or name_bytes(segment.name) not in BLANK)}
    for slot, segment in sorted(file.slots.items()):
        if segment.kind in (HOSTSEG, UNITSEG) and is_filled(segment, entries[slot]):
            yield from link_lines(file, slot, units)


def swapped(word):
    return word % 256 * 256 + word // 256
