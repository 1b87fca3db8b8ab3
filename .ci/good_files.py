"""Good files: hosts and libraries as compilers write them, made at random in the styles of
good_styles.py, of code that good_code.py makes. Nothing of them is damaged, and all that
docs/FORMAT.md allows or says is ignored may be there."""
import dataclasses

from good_code import procedure  # (which adds the folder of the descriptions to the path)
from descriptions.model import (
    BLOCK, CONSTDEF, HOSTSEG, LINKED, PRIVREF, PUBLDEF, PUBLREF, UNITREF, UNITSEG, Record,
    dictionary_bytes, eof_mark,
)

SEGPROC, SEPRTSEG = 2, 4
NOT_SUPPORTED = 5, 9, 10, 11, 12  # CONSTREF, EXTPROC, EXTFUNC, SEPPROC and SEPFUNC


@dataclasses.dataclass
class Segment:
    name: str
    kind: int
    code: bytes = b""
    records: bytes = b""
    text: bytes = b""


class Maker:
    """A set of files of one style."""

    def __init__(self, style, source):
        self.style, self.source = style, source
        self.names_used = set()

    def word(self, value):
        return (value % 65536).to_bytes(2, self.style.order)

    def name(self):
        while True:
            letters = "ABCDEFGHIJKLMNOPQRSTUVWXYZ"
            name = (self.source.choice(letters)
                    + "".join(self.source.choice(letters + "0123456789")
                              for _ in range(self.source.randrange(2, 8))))
            if self.style.other_names:
                name = (name[:3] + self.source.choice(["$", "/", "?", ".", "_"]) + name[4:]).strip()
            name = name.lower() if self.style.small else name
            if name not in self.names_used:
                self.names_used.add(name)
                return name

    def record(self, name, kind, *words, places=(), rest=b"\0"):
        others = [self.source.randrange(65536) for _ in range(4)] if self.style.free_records else []
        return Record(name, kind, [*words, *others], places, rest=rest).encoded(self.style.order)

    def reference_record(self, kind, name, places, words=0):
        rest = self.source.randbytes(-2 * len(places) % 16) if self.style.free_records else b"\0"
        said = [1 if kind == UNITREF else 2, len(places),
                *([words] if kind == PRIVREF or not self.style.free_records else [])]
        return self.record(name, kind, *said, places=places, rest=rest)

    def mark_of_unit(self, records):
        """The end mark of a unit, whose value is not used; none where zeros of the last block
        follow."""
        if self.style.no_mark and len(records) % BLOCK:
            return b""
        return self.mark(self.source.randrange(65536) if self.style.free_records else 0)

    def mark(self, following):
        name = self.name() if self.style.old_mark else self.source.choice([b" " * 8, bytes(8)])
        made = eof_mark(following, name).encoded(self.style.order)
        return made[:12] + self.source.randbytes(4) if self.style.old_mark else made

    def segment_code(self, number, procedures, program=None):
        """The code of a segment, and what a link fills in."""
        code, tables, out = b"", {}, []
        for one in [*procedures, *([program] if program else [])]:
            code += (self.source.randbytes(2 * self.source.randrange(1, 30)) if self.style.between
                     else b"")
            made, tables[one.number], _ = one.made(len(code), out)
            code += made
        code += bytes(len(code) % 2)
        if self.style.one_table or self.style.absent:
            one, other = self.source.sample(range(2, 1 + len(tables)), 2)
            tables[one] = tables[other] if self.style.one_table else None
        pointers = [(len(code) + 2 * k, tables[n]) for k, n in enumerate(range(len(tables), 0, -1))]
        code += b"".join(self.word(0 if table is None else place - table)
                         for place, table in pointers)
        return code + bytes([number if self.style.numbers else 0, len(tables)]), out

    def records_of(self, out, privates):
        """The reference records of a segment."""
        found = b""
        keys = list(dict.fromkeys((kind, name) for kind, name, _ in out))
        self.source.shuffle(keys)
        for kind, name in keys:
            places = [place for other, named, place in out if (other, named) == (kind, name)]
            if self.style.several and kind != PRIVREF:
                found += b"".join(self.reference_record(kind, name, [place]) for place in places)
            elif kind == PRIVREF or len(places) < 9 or self.source.random() < 0.5:
                found += self.reference_record(kind, name, places, privates.get(name, 0))
            else:  # two records of one name
                found += (self.reference_record(kind, name, places[:8])
                          + self.reference_record(kind, name, places[8:]))
        return found

    def unit(self, name, publics, units, slot):
        """A unit that refers to these variables of the host, and to these units."""
        privates = {self.name(): 0 if self.style.no_words else self.source.randrange(1, 200)
                    for _ in range(self.source.randrange(1, 4))}
        names = {"publics": publics, "privates": privates, "units": units, "own": name}
        count = self.source.randrange(9, 14)
        procedures = [procedure(self.source, self.style, number, count, names)
                      for number in range(1, count + 1)]
        self.source.shuffle(procedures)
        code, out = self.segment_code(slot, procedures)
        records = self.records_of(out, privates)
        if self.style.no_procedures and self.source.random() < 0.5:
            code, records = (self.source.randbytes(2 * self.source.randrange(1, 20))
                             + bytes([slot, 0]), b"")
        records += self.more_records(publics, units)
        return Segment(name, UNITSEG, code, records + self.mark_of_unit(records),
                       self.interface() if self.style.text else b"")

    def more_records(self, publics, units):
        """Records of a unit that need no code: without references, and definitions, which have no
        effect."""
        found = b""
        if self.style.empty_records:
            found += b"".join(self.reference_record(UNITREF, unit, []) for unit in units)
            found += (self.reference_record(PUBLREF, self.source.choice(list(publics)), [])
                      + self.reference_record(PRIVREF, self.name(), [], 5))
        if self.style.unit_definitions:
            for name in (self.name(), self.source.choice(list(publics)), "\0" * 8):
                found += self.record(name, PUBLDEF, self.source.randrange(65536))
            found += self.record(self.name(), CONSTDEF, self.source.randrange(65536))
        return found

    def as_moved(self, unit, free):
        """The unit with the number of a slot that no entry of the library has."""
        return dataclasses.replace(unit,
                                   code=unit.code[:-2]
                                   + bytes([20 + self.source.choice(list(free))]) + unit.code[-1:])

    def interface(self):
        lines = [b"INTERFACE\r",
                 b"\x10\x22PROCEDURE " + self.name().encode() + b";\r"] * self.source.randrange(
                     1, 9)
        page = b"".join(lines)[:1000]
        return page.ljust(1024, b"\0")

    def host(self, name, publics, units, slot, numbers=()):
        """The host program: it defines these variables."""
        names = {"publics": {}, "privates": {}, "units": units if self.style.host_refs else [],
                 "own": "", "numbers": numbers}
        count = self.source.randrange(9, 14)
        procedures = [procedure(self.source, self.style, number, count, names)
                      for number in range(2, count + 1)]
        program = procedure(self.source, self.style, 1, count, names, is_program=True)
        code, out = self.segment_code(slot, procedures, program)
        values = dict(publics)
        following = 1 + program.parameters + program.locals
        end = following + (self.source.randrange(1, 3000) if self.style.high_mark else 0)
        records, value = b"", 3
        for defined, words in values.items():
            records += self.record(defined, PUBLDEF, value if words else end)
            value += words
        for _ in range(self.style.definitions):
            records += self.record(self.name(),
                                   *self.source.choice([
                                       (PUBLDEF, self.source.randrange(3, following)),
                                       (CONSTDEF, self.source.randrange(300))]))
        return Segment(name, HOSTSEG, code, records + self.records_of(out, {}) + self.mark(end))

    def assembled(self, slot):
        """An assembled procedure: native code, with long runs of zeros."""
        native = (self.source.randbytes(40) + bytes(self.source.choice([0, 200]))
                  + self.source.randbytes(40))
        code = native + self.word(0) * 3 + self.word(len(native) + 4) + bytes([0, 1])
        code += self.word(2) + bytes([slot, 1])
        kind = self.source.choice([SEPRTSEG, LINKED])
        return Segment(self.name(), kind, code,
                       self.record(self.name(), 7, 4) + self.mark(0) if kind == SEPRTSEG else b"")

    def linked_part(self):
        """A linked segment, which a link copies whatever it has."""
        return Segment(self.name(), LINKED, self.source.randbytes(self.source.randrange(1, 900)))

    def filled(self, part):
        """Whole blocks: the rest of the last has zeros, or what was there before."""
        rest = -len(part) % BLOCK
        return part + (bytes(rest) if self.style.cleared else self.source.randbytes(rest))

    def records_filled(self, records):
        """The blocks of link information, where a compiler may leave records that it wrote
        before."""
        if not records:
            return b""
        if self.style.old_records:
            old = b"".join(self.record(self.name(), PUBLDEF, self.source.randrange(300))
                           for _ in range(32))
            last = len(records) % BLOCK
            before = records[-last - BLOCK : -last] if len(records) > BLOCK and last else old
            return records + before[last:] if last else records
        return self.filled(records)

    def pair(self, one, pair):
        """The address and the length of an entry: a wanted one has neither, or one of them, and an
        empty one may have an address."""
        if self.style.empty_addresses and not one:
            return self.source.randrange(65536), 0
        if not self.style.half or not one or one.code:
            return pair
        return self.source.choice([pair, (self.source.randrange(1, 9), 0),
                                   (0, 2 * self.source.randrange(2, 900))])

    def blank(self):
        """The name of an empty slot."""
        return bytes(8) if self.style.half else b" " * 8

    def kind_of_empty(self):
        return (self.source.choice([LINKED, SEGPROC, UNITSEG, SEPRTSEG]) if self.style.half
                else LINKED)

    def file(self, slots):
        """The code file of these segments, by slot."""
        blocks, entries, used = b"", {}, 0
        for slot in self.source.sample(sorted(slots), len(slots)):
            one, text, address = slots[slot], 0, 0
            blocks += (self.source.randbytes(BLOCK * self.source.randrange(3)) if self.style.gaps
                       else b"")
            if one.text:
                text = 1 + len(blocks) // BLOCK
                blocks += one.text
                used = len(blocks)
            if one.code:
                address = 1 + len(blocks) // BLOCK
                whole = blocks + self.filled(one.code)
                used = len(whole + one.records) if one.records else len(blocks + one.code)
                blocks = whole + self.records_filled(one.records)
            text = self.source.randrange(65536) if self.style.free_texts else text
            entries[slot] = (address, len(one.code), text)
        if self.style.shared:
            units = [slot for slot, one in slots.items() if one.kind == UNITSEG and one.code]
            others = [slot for slot, one in slots.items() if one.kind in (SEGPROC, SEPRTSEG)]
            entries.update({slot: entries[self.source.choice(units)] for slot in others if units})
        blocks = blocks[:used] if self.style.short_end else blocks
        pairs = {slot: self.pair(slots.get(slot), entries.get(slot, (0, 0, 0))[:2])
                 for slot in range(16)}
        names = {slot: slots[slot].name if slot in slots else self.blank() for slot in range(16)}
        kinds = {slot: slots[slot].kind if slot in slots else self.kind_of_empty()
                 for slot in range(16)}
        texts = {slot: text for slot, (_, _, text) in entries.items()}
        tail = {}
        for place, part in self.style.tail(
                self.source, {slot: one.kind for slot, one in slots.items() if one.code}).items():
            part = part if isinstance(part, bytes) else b"".join(map(self.word, part))
            tail.update(enumerate(part, place))
        return dictionary_bytes(pairs, names, kinds, texts, self.style.order, tail) + blocks

    def files(self):
        """A host and its libraries."""
        publics = {self.name(): self.source.randrange(1, 20)
                   for _ in range(self.source.randrange(1, 6))}
        wanted = [self.name() for _ in range(self.source.randrange(1, 4))]
        added = [self.name() for _ in range(self.source.randrange(2))]
        if self.style.near:
            wanted[:2] = self.style.near(wanted[0])
        if self.style.empty_public:
            publics[self.name()] = 0
        slots = dict(zip([*wanted, *added], self.source.sample(range(7, 16), len(wanted + added))))
        at = self.source.choice([1, 1, 1, 2, 6])
        if self.style.anywhere:
            at, *others = self.source.sample(range(16), 1 + len(wanted + added))
            slots = dict(zip([*wanted, *added], others))
        host = {at: self.host(self.name(), publics, wanted, at, [slots[name] for name in wanted])}
        if self.style.linked_parts:
            host[next(slot
                      for slot in range(16)
                      if slot not in [at, *slots.values()])] = self.linked_part()
        libraries = [{} for _ in range(self.source.randrange(1, 3))]
        for index, name in enumerate([*wanted, *added]):
            uses = added if index < len(wanted) else []
            in_host = self.style.in_place and index == 0
            library = self.source.choice(libraries)
            free = [slot for slot in range(not self.style.anywhere, 16) if slot not in library]
            slot = slots[name] if in_host else self.source.choice(free)
            unit = self.unit(name, publics, [*uses, name] if self.source.random() < 0.5 else uses,
                             slot)
            if name in wanted:
                host[slots[name]] = unit if in_host else Segment(name, UNITSEG)
            if not in_host:
                library[slot] = self.as_moved(unit, slots.values()) if self.style.moved else unit
        for library in libraries:
            self.add_others(library)
        if self.style.linked_library:
            libraries.append({slot: self.linked_part()
                              for slot in self.source.sample(range(16), 3)})
        if self.style.other_program:
            libraries.append({1: self.other_program()})
        return self.file(host), [self.file(library) for library in libraries]

    def other_program(self):
        """A program that is not linked here, with a record that is not supported before its
        definitions."""
        program = self.host(self.name(), {self.name(): 5, self.name(): 7}, [], 1)
        return dataclasses.replace(program,
                                   records=self.record(self.name(),
                                                       self.source.choice(NOT_SUPPORTED), 1)
                                   + program.records)

    def add_others(self, library):
        """Entries that no link takes."""
        free = [slot for slot in range(1, 16) if slot not in library]
        if self.style.assembled:
            for slot in self.source.sample(free, 2):
                library[slot] = self.assembled(slot)
        if self.style.empty_unit:
            slot = self.source.choice([slot for slot in free if slot not in library])
            library[slot] = Segment(self.name(), UNITSEG, bytes(4), self.mark(0))
        if self.style.other_kinds:
            kinds = [SEGPROC, SEPRTSEG, 5, 6, 7, self.source.randrange(8, 256)]
            for kind, slot in zip(self.source.sample(kinds, 3),
                                  [slot for slot in range(16) if slot not in library]):
                library[slot] = Segment(self.name(), kind,
                                        self.source.randbytes(self.source.randrange(2, 900)))
        if not library:
            library[1] = self.unit(self.name(), {self.name(): 3}, [], 1)
