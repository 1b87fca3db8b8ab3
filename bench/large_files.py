#!/usr/bin/env python3
"""Times `pslink` on large and on hostile files: links of a host of many definitions with a unit of
many one-byte operands, of a unit of many private variables, of a host whose fifteen units share
many private variables, public or unit references or one-byte operands, of sixteen segments all of
whose bytes are operands in shuffled lists, and of definitions whose names would collide in a hash
table; and a show of many references.

Usage: large_files.py PSLINK

Twice the records should take about twice the time, and names that collide as long as names that do
not. docs/FORMAT.md says what the parts of the files mean. """

import random
import struct
import subprocess
import sys
import tempfile
import time
from itertools import cycle, islice, product
from pathlib import Path

BLOCK = 512
HOSTSEG, UNITSEG = 1, 3
EOFMARK, UNITREF, PUBLREF, PRIVREF, PUBLDEF = 0, 1, 3, 4, 7
BYTE, BIG = 1, 2
OPERANDS = 32_000
REFERENCES_OF_A_RECORD = 65_000
COLLIDING = 50_000
MILLION = 1_000_000


def words(*values):
    return struct.pack(f"<{len(values)}H", *values)


def whole_blocks(data):
    return data + bytes(-len(data) % BLOCK)


def dictionary(entries):
    """Block 0; each entry is (slot, name, kind, address, length)."""
    block = bytearray(BLOCK)
    block[64:192] = b" " * 128
    for slot, name, kind, address, length in entries:
        block[4 * slot : 4 * slot + 4] = words(address, length)
        block[64 + 8 * slot : 72 + 8 * slot] = name
        block[192 + 2 * slot : 194 + 2 * slot] = words(kind)
    return bytes(block)


def code(body, number):
    """A segment of one procedure: its body, its attribute table, and the procedure dictionary."""
    data_size, parameter_size, exit_ic, enter_ic = 10, 4, len(body) + 4, len(body) + 6
    table = words(data_size, parameter_size, exit_ic, enter_ic) + bytes([1, 0])
    return body + table + words(2) + bytes([number, 1])


def record(name, kind, a, b=0, c=0):
    return name + words(kind, a, b, c)


def end_mark(next_free=0):
    return record(bytes(8), EOFMARK, next_free)


def referring(name, kind, form, places, size=0):
    """A record with references, filled up to a whole number of records."""
    references = words(*places)
    return record(name, kind, form, len(places), size) + references + bytes(-len(references) % 16)


def records_of(count, *words_of_each):
    return b"".join(record(b"%08d" % n, *words_of_each) for n in range(count))


def file_of(segments):
    """A code file; each segment is (slot, name, kind, code, records), and one that is only asked
    for has no code."""
    entries, blocks = [], b""
    for slot, name, kind, code_of_it, records in segments:
        address = 1 + len(blocks) // BLOCK if code_of_it else 0
        entries.append((slot, name, kind, address, len(code_of_it)))
        if code_of_it:
            blocks += whole_blocks(code_of_it) + whole_blocks(records)
    return dictionary(entries) + blocks


def host_of(definitions):
    """A host with these records, that asks for the unit UTIL."""
    host = (1, b"DEMO    ", HOSTSEG, code(bytes(4), 1), definitions + end_mark(8))
    return file_of([host, (7, b"UTIL    ", UNITSEG, b"", b"")])


def host_of_definitions(count):
    return host_of(records_of(count, PUBLDEF, 3))


def unit(code_of_it, records):
    """A library with the unit UTIL."""
    return file_of([(2, b"UTIL    ", UNITSEG, code_of_it, records + end_mark())])


def operands(count):
    """A record of one-byte operands at the first places of a code."""
    return referring(b"UTIL    ", UNITREF, BYTE, range(count))


def library_of_operands():
    return unit(code(bytes(OPERANDS), 2), operands(OPERANDS))


def library_of_privates(privates):
    return unit(code(bytes(4), 2), records_of(privates, PRIVREF, BIG))


def library_of_references(count):
    places = [n % 32_000 for n in range(REFERENCES_OF_A_RECORD)]
    return unit(
        code(bytes(4), 2),
        referring(b"COUNT   ", PUBLREF, BIG, places) * (count // REFERENCES_OF_A_RECORD))


def host_of_a_shared_row(records, body=bytes(4)):
    """A host whose fifteen units, UTIL among them, share one code and one row of records."""
    segment, shared = code(bytes(4), 1), code(body, 1)
    after = 2 + len(whole_blocks(segment)) // BLOCK
    names = [b"UTIL    "] + [b"UNIT%04d" % slot for slot in range(2, 16)]
    units = [(slot, name, UNITSEG, after, len(shared)) for slot, name in enumerate(names, 1)]
    information = whole_blocks(record(b"COUNT   ", PUBLDEF, 3) + end_mark(8))
    entries = [(0, b"DEMO    ", HOSTSEG, 1, len(segment))] + units
    return dictionary(entries) + whole_blocks(segment) + information + whole_blocks(
        shared) + records + end_mark()


def shuffled_operands(shuffled, publics, privates, units):
    """Records whose references are all bytes of a code of OPERANDS bytes: public, private and unit
    references in turn, those of a name in no order."""
    kinds = cycle(
        ((PUBLREF, BIG, 2, publics), (PRIVREF, BIG, 2, privates), (UNITREF, BYTE, 1, units)))
    lists, place = {}, 0
    for kind, form, width, names in kinds:
        if place + width > OPERANDS:
            break
        lists.setdefault((shuffled.choice(names), kind, form), []).append(place)
        place += width
    for places in lists.values():
        shuffled.shuffle(places)
    records = [referring(*key, places, 20 if key[1] == PRIVREF else 0)
               for key, places in lists.items()]
    shuffled.shuffle(records)
    return b"".join(records)


def files_full_of_operands():
    """A host and three libraries with its fifteen units, each a segment all of whose bytes are
    operands."""
    shuffled = random.Random("operands")
    publics = [b"PUBL%04d" % n for n in range(200)]
    privates = [b"PRIV%04d" % n for n in range(40)]
    units = [b"UNIT%04d" % n for n in range(15)]

    def full(of_publics, of_privates):
        return shuffled_operands(shuffled, of_publics, of_privates, units)

    definitions = b"".join(record(name, PUBLDEF, 3 * n) for n, name in enumerate(publics))
    host = (0, b"DEMO    ", HOSTSEG, code(bytes(OPERANDS), 1),
            definitions + full(publics, privates) + end_mark(8))
    wanted = [(slot, name, UNITSEG, b"", b"") for slot, name in enumerate(units, 1)]
    files = {"host": file_of([host, *wanted])}
    for library in range(3):
        segments = []
        for slot, name in list(enumerate(units, 1))[5 * library : 5 * library + 5]:
            records = full(shuffled.sample(publics, 20), shuffled.sample(privates, 20))
            segments.append(
                (slot, name, UNITSEG, code(bytes(OPERANDS), slot), records + end_mark()))
        files[f"library{library}"] = file_of(segments)
    return files


def folded(state, number, length):
    """A step of the default hasher of the kit's tables, over a number of so many bytes."""
    whole = (state ^ number) * (0x9E37_79B9_7F4A_7C15 ^ 2 * length)
    return whole & (1 << 64) - 1 ^ whole >> 64


def colliding_names():
    """Names that a table with that hasher, whose seed is fixed, would all seek from neighbouring
    places: it goes by the lowest bits of their hashes, thirteen in a table of so many names, and of
    those the upper ten are zero."""
    letters = [(letter, letter * 0x01_01_01) for letter in b"ABCDEFGHIJKLMNOPQRSTUVWXYZ0123456789"]
    start = folded(0x243F_6A88_85A3_08D3, 8, 8)
    for front in product(letters, repeat=6):
        state = start
        for _, number in front:
            state = folded(state, number, 1)
        for (seventh, number), (eighth, last) in product(letters, repeat=2):
            hashed = folded(folded(state, number, 1), last, 1)
            if (hashed ^ hashed >> 32) & 0x1FF8 == 0:
                yield bytes([letter for letter, _ in front] + [seventh, eighth])


def spread_names():
    """Names that differ, in no order."""
    return (b"%08d" % (n * 40_692_001 % 100_000_000) for n in range(COLLIDING))


def host_of_names(names):
    return host_of(b"".join(record(name, PUBLDEF, 3) for name in islice(names, COLLIDING)))


class Bench:
    """Runs of one program in a folder of its own."""

    def __init__(self, program, folder):
        self.program, self.folder = program, folder

    def timed(self, what, *args, **files):
        """Times the program with these args over these files, and prints what it took and what it
        answered."""
        for name, data in files.items():
            (self.folder / name).write_bytes(data)
        start = time.perf_counter()
        ran = subprocess.run([self.program, *args], cwd=self.folder, capture_output=True, text=True)
        seconds = time.perf_counter() - start
        said = (ran.stdout + ran.stderr).strip().rsplit("\n", 1)[-1][:60]
        print(f"{what}: {seconds:.3f} s, status {ran.returncode}, {said}", flush=True)

    def of_count(self, count):
        """All kinds of large files with so many records each."""
        self.timed(f"{count} definitions, {OPERANDS} operands", "link", "host", "out", "library",
                   host=host_of_definitions(count), library=library_of_operands())
        self.timed(f"the map of {count} definitions", "map", "host", "library")
        self.timed(f"{count} private variables", "link", "host", "out", "library",
                   host=host_of_definitions(1), library=library_of_privates(count))
        for what, kind, form in (("private variables", PRIVREF, BIG),
                                 ("public references", PUBLREF, BIG),
                                 ("unit references", UNITREF, BYTE)):
            if kind == PRIVREF:
                records = records_of(count, kind, form)
            else:
                records = record(
                    b"COUNT   " if kind == PUBLREF else b"UNIT0015", kind, form) * count
            self.timed(
                f"15 times {count} {what}", "link", "host", "out",
                host=host_of_a_shared_row(records))

    def of_operands(self):
        """Segments all of whose bytes are operands."""
        self.timed(f"15 times {OPERANDS} operands", "link", "host", "out",
                   host=host_of_a_shared_row(operands(OPERANDS), bytes(OPERANDS)))
        files = files_full_of_operands()
        host, *libraries = files
        what = f"16 times {OPERANDS} bytes of shuffled operands"
        self.timed(what, "link", host, "out", *libraries, **files)
        self.timed(f"the map of {what}", "map", host, *libraries)

    def of_names(self):
        """Definitions whose names would collide in a hash table, and as many whose names would
        not."""
        for what, names in (("collide", colliding_names()), ("do not collide", spread_names())):
            self.timed(
                f"{COLLIDING} definitions whose names {what}", "link", "host", "out", "library",
                host=host_of_names(names), library=library_of_operands())


def main():
    if len(sys.argv) != 2:
        sys.exit(__doc__)
    with tempfile.TemporaryDirectory() as name:
        bench = Bench(Path(sys.argv[1]).resolve(), Path(name))
        for count in (MILLION, 2 * MILLION, 4 * MILLION):
            bench.of_count(count)
        bench.of_operands()
        bench.of_names()
        for count in (8 * MILLION, 16 * MILLION, 32 * MILLION):
            bench.timed(
                f"a show of {count} references", "show", "library",
                library=library_of_references(count))


if __name__ == "__main__":
    main()
