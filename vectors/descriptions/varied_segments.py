"""Names, codes and records of which random numbers choose all that docs/FORMAT.md allows. A list of
values has those at which something begins or ends, and the usual ones more than once."""
from .model import (
    PRIVREF,
    PUBLREF,
    UNITREF,
    Operand,
    Procedure,
    Record,
    code_bytes,
    name_bytes,
    operands,
)
from .turns import ends_of

STEMS = "UTIL COUNT STATE GRAPH EDITOR DISK FILEMAP9 LONGINTS".split()
BYTES = (0, 1, 127, 128, 215, 255)  # where no rule reads them
BODIES, LONG_BODIES = (0, 1, 1, 2, 2, 3, 4, 7), (15, 60)  # procedures with a table
LEVELS = (1, 1, 1, 0, 0, 2, 127, 128, 255)
SIZES = (0, 1, 2, 4, 10, 255, 256, 301, 32767, 32768, 40001, 65535)
PADS = (None, None, 0, 1, 2, 5)
FILLERS = (0, 0, 1, 1, 2, 3, 8, 31)  # bytes between operands
LENGTHS = (4, 510, 512, 512, 514, 768, 1022, 1024, 1026, 1536, 2048, 2050)
LONG_LENGTHS = (2560, 3000, 4096, 4098, 5000, 8192, 8194, 16386)
RECORDS, LONG_RECORDS = (0, 1, 2, 2, 3, 4, 5, 6, 9), (17, 40, 100, 130)
REFERENCES = (0, 0, 1, 1, 1, 2, 3, 4, 7, 8, 9, 10, 15, 16, 17, 24)
LONG_REFERENCES = (31, 32, 100, 255, 256, 257)
WORDS = (0, 1, 1, 2, 2, 3, 4, 5, 17, 255, 256, 257, 3000)
FORMATS = {UNITREF: 1, PUBLREF: 2, PRIVREF: 2}


def any_bytes(numbers, count):
    """One byte or two, again and again: an archive of the files stays small."""
    return (bytes(numbers.choices(BYTES, k=numbers.choice((1, 1, 2)))) * count)[:count]


def forms(stem):
    """Names that differ in case, in padding, in a byte or in their length."""
    raw = stem.encode()
    return [
        stem,
        stem.lower(),
        raw.ljust(8, b"\0"),
        (raw + b"\0")[:8].ljust(8),
        " " + stem,
        stem[:-1] + chr(ord(stem[-1]) + 1),
        bytes([raw[0] + 128, *raw[1:]]).ljust(8),
        stem[:1],
        stem.ljust(8, "X"),
        stem[:1] + " " + stem[1:],
        stem[:3],
        (raw[:1] + b"\0" + raw[1:7]).ljust(8),
    ]


def names_of(numbers):
    """Some forms of a few stems, each another name."""
    found = {}
    for stem in numbers.sample(STEMS, 4):
        found |= {name_bytes(form): form for form in forms(stem)}
    return numbers.sample(list(found.values()), len(found))


def record_of(numbers, type, name, count, words=None):
    """A reference record for so many references, whose places are not known yet."""
    third = numbers.choice((0, 0, numbers.randrange(65536))) if words is None else words
    rest = any_bytes(numbers, 1)
    return Record(name, type, [FORMATS[type], count, third], [], rest=rest)


def drafts_of(numbers, is_long, publics, units, privates):
    """Reference records, each with its operands. A private variable has one record."""
    drafts, privates = [], list(privates)
    for _ in range(numbers.choice(LONG_RECORDS if is_long == "records" else RECORDS)):
        kinds = [(PUBLREF, publics), (PRIVREF, privates), (UNITREF, units)]
        type, names = numbers.choice([one for one in kinds if one[1]])
        name = numbers.choice(list(names))
        if type == PRIVREF:
            privates.remove(name)
        count = numbers.choice((0, 1, 2) if is_long == "records" else REFERENCES)
        if is_long == "list" and not any(len(listed) > 30 for _, listed in drafts):
            count = numbers.choice(LONG_REFERENCES)
        if type == PUBLREF and publics[name] > 32767:
            count = 0  # (no operand has room for this value)
        words = numbers.choice(WORDS) if type == PRIVREF else None
        listed = [Operand(type, name, 0, numbers.choice((0, 128))) for _ in range(count)]
        drafts.append((record_of(numbers, type, name, count, words), listed))
    return drafts


def place(segment, drafts, numbers):
    """Gives each record of a segment the offsets of its operands, in some order."""
    at = {id(operand): offset for offset, operand in operands(segment)}
    for record, listed in drafts:
        record.references = [at[id(operand)] for operand in listed]
        if numbers.random() < 0.5:
            record.references.sort()


def procedures_of(numbers, is_long, listed, is_program):
    """The procedures of a code with these operands, in any order and with any bytes between. Those
    of number 0 are none: their bytes are of no procedure. One at -1 gets its table by `lead`."""
    count = numbers.choice(LONG_BODIES if is_long == "procedures" else BODIES)
    count = max(count, 1 if is_program else 0)
    top = count + numbers.choice((0, 0, 0, 1, 2, 5)) if count else 0
    if is_long == "procedures" and count:
        top = numbers.choice((count, 127, 128, 254, 255))
    chosen = numbers.sample(range(1, top + 1), count)
    if is_program and 1 not in chosen:
        chosen[0] = 1
    made = [body(numbers, number) for number in chosen]
    made += [Procedure([], 0, at=0, pad=0)]
    for operand in numbers.sample(listed, len(listed)):
        one = numbers.choice(made[: 1 + len(made) // 2])
        one.parts += [any_bytes(numbers, numbers.choice(FILLERS)), operand]
    numbers.shuffle(made)
    bodiless = [number for number in range(1, top + 1) if number not in chosen]
    made += [Procedure([], number, at=numbers.choice((0, 0, -1)), pad=0) for number in bodiless]
    return made + filling(numbers, is_long, made, top)


def four_bytes(numbers):
    """A code of four bytes, without a procedure."""
    return [Procedure([any_bytes(numbers, 2)], 0, at=0, pad=0)]


def body(numbers, number):
    said = numbers.choice((None, None, None, numbers.randrange(1, 256)))
    parts = [any_bytes(numbers, numbers.choice(FILLERS))]
    return Procedure(
        parts,
        number,
        numbers.choice(SIZES),
        numbers.choice(SIZES),
        numbers.choice(LEVELS),
        said=said,
        pad=numbers.choice(PADS),
    )


def filling(numbers, is_long, procedures, count):
    """Bytes of no procedure, which make the length of a code even, or one of those above. A few of
    them are before the procedures, and the others after them."""
    length = ends_of(procedures)[-1] + 2 + 2 * count
    wanted = numbers.choice(LONG_LENGTHS if is_long == "code" else LENGTHS)
    if is_long == "code" and wanted > length:
        first = next(one for one in procedures if one.number == 0)
        first.parts.insert(0, any_bytes(numbers, numbers.randrange(wanted - length)))
        length = ends_of(procedures)[-1] + 2 + 2 * count
    more = wanted - length if wanted >= length and numbers.random() < 0.6 else length % 2
    more += 2 if length + more < 4 else 0
    return [Procedure([any_bytes(numbers, more)], 0, at=0, pad=0)]


def lead(numbers, segment, order):
    """Gives procedures at -1 a table: that of another, or bytes that look like one and may overlap
    others. No operand is in a table."""
    code = code_bytes(segment, 0, order)
    used = {at + k for at, operand in operands(segment) for k in range(operand.size())}
    dictionary = len(code) - 2 - 2 * code[-1]
    tables = [
        end - 2
        for end, one in zip(ends_of(segment.procedures)[1:], segment.procedures)
        if one.at is None
    ]
    there = [
        at for at in range(8, dictionary - 1) if code[at] and used.isdisjoint(range(at - 8, at + 2))
    ]
    for one in segment.procedures:
        if one.at == -1:
            one.at = numbers.choice(numbers.choice((tables, there)) or [0])
