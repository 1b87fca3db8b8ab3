"""A case: its files, and what a linker answers to them. What is expected of a link is described
(which segments stand where, the offset of each private variable); its bytes and its map follow from
that and from the descriptions of the files (docs/LINKING.md, What a reference becomes, The linked
file; docs/OUTPUT.md, Map)."""
import dataclasses
import functools
import itertools

from .model import (BLOCK, CONSTDEF, EOFMARK, LINKED, PRIVREF, PUBLDEF, PUBLREF, REASONS, UNITREF,
                    UNITSEG, File, Segment, changed, code_bytes, laid_out, name_bytes, operands,
                    printed, source_code)


@dataclasses.dataclass
class Fault:
    """The parts of the fault that is reported; those that its number does not have are None."""

    number: int
    file: int
    slot: int = None
    record: int = None
    reference: int = None
    kind: int = None

    def line(self):
        """LINKING.md, The line of a fault."""
        parts = [f"refused {self.number} {REASONS[self.number]}"]
        for word in ("kind", "file", "slot", "record", "reference"):
            if getattr(self, word) is not None:
                parts.append(f"{word} {getattr(self, word)}")
        return " ".join(parts)

    def described(self):
        return {"number": self.number, "name": REASONS[self.number],
                **{part: value for part, value in dataclasses.asdict(
                       self).items() if part != "number"}}


@dataclasses.dataclass
class Placed:
    """A segment of the linked file, and the entry of the file that its code is from."""

    slot: int
    file: int
    entry: int
    added: bool = False


@dataclasses.dataclass
class Private:
    slot: int
    name: object
    offset: int
    words: int


@dataclasses.dataclass
class Link:
    """What a link gives: its segments by slot, the private variables by slot and record, the next
    free base offset and the data size of the outer block."""

    placed: list
    privates: list
    next: int
    data: int


@dataclasses.dataclass
class Case:
    """`given` has the numbers of the libraries in the order in which they are given, if that is not
    each once. `later` is a fault that the files have too, and that is not reported."""

    name: str
    about: str
    host: File
    libraries: list
    fault: Fault = None
    later: Fault = None
    link: Link = None
    given: list = None

    def files(self):
        return [self.host, *self.libraries]

    def order_given(self):
        return self.given or list(range(1, len(self.libraries) + 1))

    def source(self, placed):
        """The file that a segment comes from; file k is the k-th that is given."""
        return self.host if placed.file == 0 else self.libraries[
            self.order_given()[placed.file - 1] - 1]

    def segment(self, placed):
        file = self.source(placed)
        segment = file.slots[placed.entry]
        if segment.shares is None:
            return segment
        return dataclasses.replace(file.slots[segment.shares], name=segment.name, kind=segment.kind)

    def host_segment(self):
        return next(self.segment(placed) for placed in self.link.placed if self.is_host(placed))

    def is_host(self, placed):
        return placed.file == 0 and self.host.slots[placed.entry].kind == 1

    @functools.cached_property
    def linked(self):
        """The linked file, and what `laid_out` says of it."""
        file = linked_file(self)
        return file, laid_out(file)

    def definitions(self):
        read = itertools.takewhile(
            lambda record: record.type != EOFMARK, self.host_segment().records)
        return [record for record in read if record.type in (PUBLDEF, CONSTDEF)]


def value_in(case, slot):
    """The value of each operand of the segment in this slot."""
    publics = {
        name_bytes(one.name): one.words[0] for one in case.definitions() if one.type == PUBLDEF}
    privates = {name_bytes(one.name): one.offset for one in case.link.privates if one.slot == slot}
    units = {name_bytes(case.segment(one).name): one.slot
             for one in case.link.placed
             if case.segment(one).kind == UNITSEG}
    values = {PUBLREF: publics, PRIVREF: privates, UNITREF: units}
    return lambda operand: values[operand.type][name_bytes(operand.name)]


def linked_code(case, placed):
    file, segment = case.source(placed), case.segment(placed)
    if segment.kind == LINKED or segment.procedures is None:
        return changed(source_code(file, placed.entry), segment.linked)
    listed = sorted(place for record in segment.records for place in record.references or [])
    assert listed == [place for place, _ in operands(
                          segment)], f"{case.name}: references of slot {placed.slot}"
    data = case.link.data if case.is_host(placed) else None
    return changed(
        code_bytes(segment, placed.slot, case.host.order, value_in(case, placed.slot), data),
        segment.changes)


def linked_file(case):
    """The linked file, as a description: the host's names and tail, every kind and every text
    address 0."""
    slots = {slot: Segment(segment.name, LINKED) for slot, segment in case.host.slots.items()}
    for placed in case.link.placed:
        name = case.segment(placed).name if placed.added else slots[placed.slot].name
        slots[placed.slot] = Segment(name, LINKED, code=linked_code(case, placed))
    return File(slots, case.host.order, case.host.tail)


def blocks_of(case):
    """By slot, the first block of each segment of the linked file and its length; and the blocks of
    the file."""
    entries, blocks = case.linked[1]
    return entries, 1 + len(blocks) // BLOCK


def words_of(case):
    return sum(private.words for private in case.link.privates)


def summary(case):
    return (f"segments {len(case.link.placed)} private words {words_of(case)} blocks "
            f"{blocks_of(case)[1]}")


def map_of(case):
    entries, blocks = blocks_of(case)
    for one in case.link.placed:
        block, length = entries[one.slot]
        line = (f"segment {one.slot:02} {printed(case.segment(one).name)} file {one.file} entry "
                f"{one.entry:02}")
        yield f"{line} block {block} length {length}" + (" added" if one.added else "")
    for record in case.definitions():
        yield (f"{'public' if record.type == PUBLDEF else 'constant'} {printed(record.name)} value "
               f"{record.words[0]}")
    for one in case.link.privates:
        yield f"private {one.slot:02} {printed(one.name)} offset {one.offset} words {one.words}"
    yield f"next {case.link.next} data {case.link.data} blocks {blocks}"


def described(case):
    """The link, for the index: its names are in hexadecimal."""
    entries, blocks = blocks_of(case)
    return {
        "segments": [{"slot": one.slot, "name": name_bytes(case.segment(one).name).hex(),
                      "file": one.file, "entry": one.entry, "block": entries[one.slot][0],
                      "length": entries[one.slot][1], "added": one.added}
                     for one in case.link.placed],
        "definitions": [{"kind": "public" if one.type == PUBLDEF else "constant",
                         "name": name_bytes(one.name).hex(), "value": one.words[0]}
                        for one in case.definitions()],
        "privates": [{"slot": one.slot, "name": name_bytes(one.name).hex(), "offset": one.offset,
                      "words": one.words}
                     for one in case.link.privates],
        "private_words": words_of(case), "next": case.link.next, "data": case.link.data,
        "blocks": blocks,
    }
