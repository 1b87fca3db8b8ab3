"""Links of generated files: for the scripts beside, which add the folders of the repository to the
path."""
from descriptions.model import (HOSTSEG, LINKED, PRIVREF, PUBLREF, UNITREF, UNITSEG, File, Operand,
                                Procedure, Segment, eof_mark, places, priv_ref, publ_def, publ_ref,
                                unit_ref, written)

PUBLICS = {"COUNT": 3, "LIMIT": 200, "TOTAL": 1024}
PRIVATES = {"STATE": 4, "CACHE": 1, "TABLE": 300}


def described(*files):
    """The bytes of files that are described."""
    return [*map(written, files)]


def segment_of(numbers, name, kind, units, first=(), next_free=0):
    """A segment with a few operands of publics, privates and units, and a record for each name of
    them; `first` are its other records."""
    chosen = numbers.choices(
        [(PUBLREF, each) for each in PUBLICS] + [(PRIVREF, each) for each in PRIVATES]
        + [(UNITREF, each) for each in units],
        k=numbers.randrange(9))
    parts = []
    for type, other in chosen:
        parts += ["A5" if type != UNITREF else "CD",
                  Operand(type, other, 0 if type == UNITREF else numbers.randrange(300)),
                  "D7" * numbers.randrange(1, 80)]
    end = "C1 00" if kind == HOSTSEG else "AD 00"
    procedures = [Procedure([*parts, end], data=2 * numbers.randrange(20))]
    procedures += [Procedure(["D7", end], number=2)] * numbers.randrange(2)
    drafted, records = Segment(name, kind, procedures), list(first)
    for type, other in dict.fromkeys(chosen):
        at = places(drafted, type, other)
        numbers.shuffle(at)
        records.append(
            {PUBLREF: publ_ref, UNITREF: unit_ref}[type](other, at)
            if type != PRIVREF
            else priv_ref(other, PRIVATES[other], at))
    numbers.shuffle(records)
    return Segment(
        name, kind, procedures, [*records, eof_mark(next_free)], number=numbers.randrange(1, 16))


def generated(numbers):
    """The bytes of a host and of its libraries. Units are wanted, in place, or named by a unit
    alone; a library may have a unit again, or one that nothing names. An empty slot of the host has
    a name."""
    order = numbers.choice(["little", "big"])
    units = [f"UNIT{index}" for index in range(numbers.randrange(1, 6))]
    in_place = set(units[: numbers.randrange(2)])
    definitions = [publ_def(name, value) for name, value in PUBLICS.items()]
    slots = {1: segment_of(numbers, "DEMO", HOSTSEG, [], definitions, 8)}
    free = numbers.sample(range(2, 12), len(units) + 1)
    for slot, name in zip(free, units):
        if name in in_place:
            slots[slot] = segment_of(numbers, name, UNITSEG, units)
        elif numbers.randrange(3):
            slots[slot] = Segment(name)
    slots[15] = Segment("GONE", LINKED)
    slots[free[-1]] = Segment("TOOLS", LINKED, code=numbers.randbytes(numbers.randrange(1, 1200)))
    libraries = [{} for _ in range(numbers.randrange(1, 4))]
    for name in [*units, "SPARE", numbers.choice(units)]:
        open_ones = [library for library in libraries if name not in [
                         each.name for each in library.values()]]
        if open_ones:
            library = numbers.choice(open_ones)
            library[numbers.choice([slot for slot in range(16) if slot not in library])] = (
                segment_of(numbers, name, UNITSEG, units))
    tail = {place: numbers.randrange(256) for place in numbers.sample(range(256, 512), 9)}
    return described(
        File(slots, order, tail=tail), *(File(library, order) for library in libraries))
