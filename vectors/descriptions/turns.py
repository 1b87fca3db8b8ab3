"""What a segment that is tried has otherwise from one case to the next, so that each rule is tried
with many values of all that it should not depend on: slots, entries, addresses, the lengths of
codes, lists and names, values, and places in a code."""
import dataclasses
import functools
import random

from .model import (PRIVREF, PUBLREF, UNITREF, Operand, Procedure, operands, parts_of, priv_ref,
                    publ_def, publ_ref, size_of, unit_ref)

# By axis the values: slots, entries, and libraries; what stands before and after the operands in
# the code; procedures, records and references besides; what operands, definitions and private
# variables have; and what the dictionary and the end mark have
AXES = {
    "slot": range(16), "added": range(7, 16), "entry": range(16), "other": range(16),
    "before": (2, 3, 4, 6), "behind": (0, 1, 0, 2),
    "lead": (0, 1, 2, 20, 250, 502, 503, 504, 507, 508, 510, 511, 1017, 2039),
    "gap": (0, 1, 2, 7, 32, 479), "odd": (0, 1),
    "procedures": (0, 1, 2, 3, 7, 14), "records": (0, 1, 2, 3, 4, 6, 9, 17, 40),
    "listed": (0, 1, 2, 6, 7, 8, 14, 15, 16, 30),
    "after": (0, 1, 0, 7, 9), "more": (0, 1, 2, 7, 8, 15, 16, 20), "first": (0, 1, 2),
    "rest": (0, 255, 1),
    "displacement": (0, 1, 127, 128, 255, 256, 511, 4660), "mark": (128, 0),
    "value": (3, 1, 127, 128, 255, 256, 1000, 16384, 27000),
    "next_free": (8, 1, 127, 255, 256, 3000, 16000), "words": (4, 1, 0, 2, 255, 256, 3000),
    "end": (0, 1, 9, 300, 32767, 32768, 65535),
    "number": (None, 0, 7, 255), "text": (0, 1, 300), "blocks": (0, 1, 2, 3, 9),
    "level": (1, 0, 2, 127, 128, 255), "names": range(7),
}
# Names of a variable of the program, of a private one, of a constant, and one that is not defined
NAMES = [("COUNT", "STATE", "LIMIT", "CUONT"), ("C", "S", "L", "D"),
         ("COUNTERS", "STATEFUL", "LIMITING", "COUNTERZ"), ("count", "state", "limit", "COUNT"),
         (b"COUNT\0\0\0", b"STATE\0\0\0", b"LIMIT\0\0\0", "COUNT"),
         (bytes.fromhex("C3 4F 55 4E 54 20 20 20"), " STATE", b"L\0IMIT  ", "COUNT"),
         ("A B", "A C", "A D", "A E")]
CORE = 12  # bytes, with an operand of each kind and two bytes to spare


class Turn:
    """A value of each axis."""

    def __init__(self, values):
        self.__dict__.update(values)
        self.public, self.private, self.constant, self.missing = NAMES[self.names]

    def titled(self, name):
        """The name of a unit in the form that the names of the case have."""
        forms = [name, name[:1], name.ljust(8, "X"), name.lower(), name.encode().ljust(8, b"\0"),
                 bytes([128 + ord(name[0])]) + name[1:].encode().ljust(7), f"{name[0]} {name[1:]}"]
        return forms[self.names]


def turn_of(rule, number):
    """The values of the case of this number of a rule: each axis goes over all its values, in an
    order of its own for each rule."""
    return Turn({axis: some[number % len(some)] for axis, some in shuffled(rule).items()})


@functools.cache
def shuffled(rule):
    return {axis: random.Random(f"{rule} {axis}").sample(list(some), len(some))
            for axis, some in AXES.items()}


@dataclasses.dataclass
class Spots:
    """Offsets in a code: of the operands of a PUBLREF, a PRIVREF and a UNITREF, of two bytes to
    spare, of the table after them and of the dictionary; its length; and pairs of zero bytes that
    no record refers to."""

    public: int
    private: int
    unit: int
    spare: int
    table: int
    dictionary: int
    length: int
    free: list


def operands_of(turn, used, number=0):
    """An operand of each kind, with other displacements for each number."""
    old, mark = (turn.displacement + 61 * number * number) % 5000, (turn.mark + 128 * number) % 256
    yield Operand(PUBLREF, turn.public, 32767 - turn.value if number == 3 else old, mark)
    yield Operand(PRIVREF, turn.private, old, 128 - mark)
    yield Operand(UNITREF, used, old % 256)


def procedures_of(turn, used):
    """The procedures of a segment: procedure 1 has the operands, procedure 2 has no body, and
    others stand before and after."""
    others = [Procedure(["D7" * (1 + k % 3)], number=3 + k, level=turn.level)
              for k in range(turn.procedures)]
    before, after = others[: len(others) // 2], others[len(others) // 2 :]
    if before:
        before[0].pad = 1 + turn.odd  # (so its table is at an odd offset, or at an even one)
    more = [operand for number in range(turn.listed + turn.after) for operand in operands_of(
                turn, used, number + 1)]
    start = sum(map(size_of, more)) + ends_of(before)[-1]
    public, private, unit = operands_of(turn, used)
    core = ["A5", public, "AB", private, "CD", unit, "01", "AD 00", "D7" * (1 + turn.gap)]
    main = Procedure(
        [*more, "00" * max(2 * turn.more, turn.lead - start), *core], parameters=4, data=10)
    return [*before, main, Procedure(["D7 D7"], number=2, at=0), *after]


def ends_of(procedures):
    """Where each procedure ends with its table, from 0 on."""
    ends = [0]
    for one in procedures:
        here = ends[-1] + sum(map(size_of, parts_of(one)))
        ends.append(here + one.padding(here) + (10 if one.at is None else 0))
    return ends


def spots_of(procedures, turn):
    """The offsets of a code that `procedures_of` made."""
    ends = ends_of(procedures)
    at = next(at for at, one in enumerate(procedures) if one.number == 1)
    table = ends[at + 1] - 2
    core = ends[at] + sum(map(size_of, parts_of(procedures[at]))) - CORE - turn.gap
    filler = size_of(bytes.fromhex(procedures[at].parts[-10]))
    free = list(range(core - filler, core - 1, 2))
    count = max(one.number for one in procedures)
    return Spots(
        core + 1, core + 4, core + 7, core + 9, table, ends[-1], ends[-1] + 2 + 2 * count, free)


def records_of(turn, segment, used):
    """The records of a segment without its definitions and its end mark: some without references,
    and then one of each kind, whose list has the operand that the rules change among others."""

    found = {PUBLREF: [], PRIVREF: [], UNITREF: []}
    for place, operand in operands(segment):
        found[operand.type].append(place)

    def listed(type):
        *others, last = found[type]
        return [*others[: turn.listed], last, *others[turn.listed :]]

    kinds = [publ_ref(turn.public, listed(PUBLREF)),
             priv_ref(turn.private, turn.words, listed(PRIVREF)), unit_ref(used, listed(UNITREF))]
    for record in kinds:
        record.rest = bytes([turn.rest])
    makers = [lambda k: publ_ref(turn.public, []), lambda k: unit_ref(used, []),
              lambda k: priv_ref(f"P{k}", k % 3, []), lambda k: publ_def(f"OWN{k}", k)]
    return [*(makers[k % 4](k) for k in range(turn.records)), *kinds[turn.first :],
            *kinds[: turn.first]]
