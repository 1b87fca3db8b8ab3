"""Files of a program with units of its own and of three libraries, for pictures of a link: by
samples/make_samples.py, and always the same. One library has units that an earlier one has too, and
one that nothing wants."""
import pathlib
import random
import sys

sys.dont_write_bytecode = True
sys.path.insert(0, str(pathlib.Path(__file__).resolve().parents[2] / "samples"))
import make_samples as samples

PLAIN = [
    "SLDC 1",
    "SLDC 7",
    "LDCI 1000",
    "ADI",
    "SBI",
    "STO",
    "LDO 4",
    "SLDL 1",
    "STL 2",
    "LLA 3",
    "EQUI",
    "FJP 6",
    "LDCI 32",
    "MPI",
    "SLDL 3",
    "IXA 1",
    "SIND 0",
    "LCA 'TOTAL: '",
]
PUBLICS = [("INPUT", 1), ("ACCOUNTS", 120), ("TOTAL", 2), ("TITLE", 41), ("PAGENO", 1)]
FIRST_PUBLIC = 3
TEXT = b"\r  procedure P(var N: integer);\r"


def code_file(slots, texts=None):
    """A code file with interface texts: `texts` has the blocks of text before the code of a
    slot."""
    word = lambda value: value.to_bytes(2, "little")
    parts, blocks = [[], [], [], []], b""
    for slot in range(16):
        segment, count = slots.get(slot, samples.Segment("", samples.LINKED)), (texts or {}).get(
            slot, 0
        )
        text = 1 + len(blocks) // 512 if count else 0
        blocks += ((b"  { interface of " + segment.name.encode() + b" }" + TEXT) * 99)[
            : 512 * count
        ]
        place, made = samples.segment_in_file(slot, segment, 1 + len(blocks) // 512, word)
        for part, value in zip(
            parts,
            (
                b"".join(map(word, place)),
                samples.padded_name(segment.name),
                word(segment.kind),
                word(text),
            ),
        ):
            part.append(value)
        blocks += made
    return samples.whole(b"".join(b"".join(part) for part in parts), 512) + blocks


def operand(numbers, publics, privates):
    """An instruction with a variable of the program or of the unit."""
    name, size = numbers.choice([*publics, *privates.items()])
    place = f"+{numbers.randrange(size)}" if size > 1 and numbers.random() < 0.5 else ""
    return f"{numbers.choice(['LAO', 'LDO', 'SRO'])} {name}{place}"


def body(numbers, count, publics, privates, units, density):
    code = []
    for _ in range(count):
        if numbers.random() >= density or not (publics or privates or units):
            code.append(numbers.choice(PLAIN))
        elif units and (numbers.random() < 0.3 or not (publics or privates)):
            code.append(f"CXP {numbers.choice(units)} {numbers.randint(1, 4)}")
        else:
            code.append(operand(numbers, publics, privates))
    return [*code, "RNP 0"]


def unit(numbers, name, size, procedures, publics, privates, units):
    bodies = [
        body(numbers, size // procedures, publics, privates, units, 0.3) for _ in range(procedures)
    ]
    return samples.Segment(
        name,
        samples.UNITSEG,
        [samples.Procedure(k + 1, code, lex_level=1) for k, code in enumerate(bodies)],
        privates=privates,
    )


def host_file(numbers):
    offset, definitions = FIRST_PUBLIC, []
    for name, size in PUBLICS:
        definitions.append(samples.publ_def(name, offset))
        offset += size
    definitions += [samples.const_def("LIMIT", 100), samples.eof_mark(offset)]
    wanted = ["SCREEN", "PRINT", "SORT"]
    bodies = [
        samples.Procedure(
            k, body(numbers, 65, [], {}, [*wanted, "MONEY"], 0.05), lex_level=1, data=10
        )
        for k in range(2, 6)
    ]
    outer = ["SLDC 1", *(f"CXP {name} 1" for name in wanted), "RBP 0"]
    bodies.append(samples.Procedure(1, outer, parameters=4, data=2 * (offset - FIRST_PUBLIC)))
    plain = lambda count: [
        samples.Procedure(k, body(numbers, count, [], {}, [], 0), lex_level=1) for k in (1, 2, 3)
    ]
    slots = {
        slot: samples.Segment(name, samples.LINKED, plain(count))
        for slot, name, count in (
            (0, "PASCALSY", 30),
            (2, "SETUP", 90),
            (3, "REPORTS", 160),
            (4, "HELP", 50),
            (5, "IMPORT", 110),
            (6, "EXPORT", 70),
        )
    }
    slots[1] = samples.Segment("LEDGER", samples.HOSTSEG, bodies, definitions)
    slots[7] = unit(numbers, "MONEY", 420, 6, PUBLICS, {"ROUNDING": 2, "RATES": 24}, ["STRINGS"])
    slots |= {
        8 + k: samples.Segment(name, samples.UNITSEG, samples.WANTED)
        for k, name in enumerate(wanted)
    }
    return code_file(slots)


def ledger():
    """The files by their names, the host first."""
    numbers = random.Random(7)
    host = host_file(numbers)
    terminal = {
        3: unit(
            numbers,
            "SCREEN",
            700,
            12,
            PUBLICS[2:],
            {"CURSOR": 2, "LINES": 24, "ATTRIBS": 12},
            ["KEYBOARD", "STRINGS"],
        ),
        4: unit(
            numbers, "PRINT", 380, 7, PUBLICS, {"COLUMN": 1, "BUFFER": 66}, ["STRINGS", "MONEY"]
        ),
        5: unit(numbers, "KEYBOARD", 210, 5, PUBLICS[:1], {"QUEUE": 16}, []),
        6: unit(numbers, "MODEM", 300, 5, PUBLICS[:1], {"RING": 64}, ["KEYBOARD"]),
    }
    base = {
        7: unit(numbers, "STRINGS", 320, 9, PUBLICS[3:4], {"WORK": 41}, []),
        8: unit(numbers, "SORT", 260, 4, PUBLICS[1:3], {"STACK": 40, "DEPTH": 1}, ["COMPARE"]),
        9: unit(numbers, "COMPARE", 150, 3, PUBLICS[1:2], {}, ["STRINGS"]),
        10: unit(numbers, "DATES", 240, 4, PUBLICS[4:], {"TODAY": 3}, ["STRINGS"]),
    }
    old = {
        7: unit(numbers, "STRINGS", 200, 3, PUBLICS[3:4], {"WORK": 20}, []),
        8: unit(numbers, "TRACE", 160, 2, PUBLICS[:1], {"LOG": 32}, ["DATES"]),
    }
    terminal[3].procedures[0].code.insert(0, "CXP DATES 1")
    base[9].procedures[0].code.insert(0, "CXP TRACE 1")
    return {
        "ledger.code": host,
        "terminal.code": code_file(terminal, {3: 4, 4: 2, 5: 2, 6: 2}),
        "base.code": code_file(base, {7: 2, 8: 2, 10: 2}),
        "old_base.code": code_file(old),
    }
