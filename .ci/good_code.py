"""The code of good files: procedures whose statements are made at random, in the style that is
given. The instructions are written from their names, by the tables of a later and of an earlier
release, apart from the table of crates/ps_pcode."""
import dataclasses
import pathlib
import sys
import typing

sys.path.append(str(pathlib.Path(__file__).resolve().parents[1] / "vectors"))
from descriptions.model import PRIVREF, PUBLREF, UNITREF

# What opcodes are called in both releases, and in one of them.
OPCODES = """80 ABI 81 ABR 82 ADI 83 ADR 84 LAND 85 DIF 86 DVI 87 DVR 88 CHK 89 FLO 8A FLT 8B INN 8C
INT 8D LOR 8E MODI 8F MPI 90 MPR 91 NGI 92 NGR 93 LNOT 94 SRS 95 SBI 96 SBR 97 SGS 98 SQI 99 SQR 9A
STO 9B IXS 9C UNI 9E CSP 9F LDCN A0 ADJ A1 FJP A2 INC A3 IND A4 IXA A5 LAO A6 LCA A8 MOV AA SAS AB
SRO AC XJP AD RNP AE CIP AF EQU B0 GEQ B1 GRT B2 LDA B3 LDC B4 LEQ B5 LES B6 LOD B7 NEQ B8 STR B9
UJP BA LDP BB STP BC LDM BD STM BE LDB BF STB C0 IXP C1 RBP C2 CBP C3 EQUI C4 GEQI C5 GRTI C6 LLA C7
LDCI C8 LEQI C9 LESI CA LDL CB NEQI CC STL CD CXP CE CLP CF CGP D3 EFJ D4 NFJ D5 BPT D6 XIT D7
NOP"""
LATER = "9D LDE A7 LAE A9 LDO D0 LPA D1 STE"
EARLIER = "9D S2P A7 LDO A9 MVB D0 S1P D1 IXB D2 BYT"
SLDL, SLDO, SIND = 0xD8, 0xE8, 0xF8
REALS, STRINGS, BOOLEANS, BYTES, WORDS = 2, 4, 6, 10, 12
IDLE_COMPARISON = [(BOOLEANS, 0), (STRINGS, 0), (BYTES, 1), (WORDS, 1)]


def opcodes(text):
    words = text.split()
    return {name: int(code, 16) for code, name in zip(words[::2], words[1::2])}


RELEASES = {"later": {**opcodes(OPCODES), **opcodes(LATER)},
            "earlier": {**opcodes(OPCODES), **opcodes(EARLIER)}}


@dataclasses.dataclass
class Style:
    """What a compiler does in its own way."""

    name: str
    release: str = "later"
    order: str = "little"
    # EXIT of a procedure of a unit: its segment is a constant that a link fills in
    exits: bool = False
    strings: bytes = b"ABCDEFGHIJKLMNOPQRSTUVWXYZ abcdefghijklmnopqrstuvwxyz0123456789.,:;-+*/()"
    long: bool = False  # operands take two bytes everywhere
    short: bool = True  # variables and constants have instructions of one byte
    rows: bool = False  # rows of constants
    returns: bool = False  # a return in the middle
    held: bool = False  # words are left on the evaluation stack over jumps
    cleared: bool = True  # what follows the code and the end mark in a block is zeros
    old_records: bool = False  # records of another segment follow the end mark
    old_mark: bool = False  # the end mark has a name, and words where it has no value
    tail: typing.Callable = lambda random, slots: {}  # what the tail of block 0 has
    assembled: bool = False  # assembled entries beside the units
    empty_unit: bool = False  # a unit of four zeros
    definitions: int = 0  # so many more definitions
    text: bool = False  # the text of interfaces
    in_place: bool = False  # units in the host
    small: bool = False  # names in small letters
    other_names: bool = False  # names that are no identifiers
    host_refs: bool = False  # UNITREF records in the host
    moved: bool = False  # units of a library have the numbers of other slots
    tables: bool = False  # each jump goes by the jump table
    padding: int = 0  # the byte that makes a length even
    numbers: bool = True  # each code has a segment number; without it is 0
    # empty slots have names of zeros and kinds that say nothing, and wanted ones an address or a
    # length
    half: bool = False
    # what a UCSD compiler does not write: a note may be said of it, and no warning
    noted: bool = False
    words: bool = False  # words of II.1 for the segments: a link leaves out those of libraries
    clear_bits: bool = False  # bit 7 of an operand that a link fills in is 0
    # the words of tables that a link does not read, and lex levels, are any
    free_words: bool = False
    free_bytes: bool = False  # bytes of any value are in place of instructions
    other_numbers: bool = False  # tables have numbers of other procedures
    odd_tables: bool = False  # tables at odd places
    absent: bool = False  # procedures without a body
    one_table: bool = False  # two procedures have one table
    between: bool = False  # bytes between procedures
    operand_numbers: bool = False  # the operand of a UNITREF has a number before the link
    host_numbers: bool = False  # the host calls units by their numbers
    # words of records that a link ignores, and the rest of lists, are any
    free_records: bool = False
    several: bool = False  # each reference has a record of its own
    empty_records: bool = False  # records without references
    no_words: bool = False  # private variables of no words
    unit_definitions: bool = False  # definitions in units
    # the last public variable has no words, and is where the end mark is
    empty_public: bool = False
    near: typing.Callable = None  # the names of the first two units, made from one
    # a library that is another program, with records that are not supported
    other_program: bool = False
    shared: bool = False  # entries of other kinds share the bytes of a unit
    high_mark: bool = False  # the end mark of the host is above what is free
    no_mark: bool = False  # the zeros of the last block are the end mark of a unit
    no_procedures: bool = False  # units without procedures
    other_kinds: bool = False  # entries of libraries that are of other kinds
    linked_parts: bool = False  # linked segments in the host
    linked_library: bool = False  # a library that has linked segments alone
    anywhere: bool = False  # segments are in any slots
    empty_addresses: bool = False  # empty slots have addresses
    free_texts: bool = False  # text addresses are any
    gaps: bool = False  # blocks between the segments
    short_end: bool = False  # the last block is short


# Procedures
# ----------------------------------------------------------------------------------------------------------


class Procedure:
    """The statements of a procedure, as parts: bytes, references, labels, jumps and cases."""

    def __init__(self, source, style, number, calls, names):
        self.source, self.style, self.number, self.calls, self.names = (
            source, style, number, calls, names)
        self.codes, self.parts, self.labels = RELEASES[style.release], [], 0
        self.locals, self.parameters = source.randrange(4, 24), source.randrange(0, 4)
        self.level = 1

    # Instructions

    def op(self, name, *operands):
        self.parts.append(("bytes", bytes([self.codes[name], *operands])))

    def big(self, name, value, *before):
        long = self.style.long or value > 127
        self.op(name, *before, *([128 + value // 256, value % 256] if long else [value]))

    def label(self):
        self.labels += 1
        return self.labels

    def put(self, label):
        self.parts.append(("label", label))

    def jump(self, name, label):
        self.parts.append(("jump", self.codes[name], label))

    def constant(self, value):
        if value < 0:
            self.constant(-value)
            self.op("NGI")
        elif value < 128:
            self.parts.append(("bytes", bytes([value])))
        else:
            self.op("LDCI", *value.to_bytes(2, self.style.order))

    def number_of_segment(self, name, before, *after):
        self.parts.append(("segment", bytes(before), name, bytes(after)))

    def variable(self, name):
        """An instruction for a variable of the program: of a unit, a link fills in its operand."""
        if self.names["publics"] or self.names["privates"]:
            kind = self.source.choice([kind
                                       for kind in ("publics", "privates")
                                       if self.names[kind]])
            words = self.names[kind]
            which = self.source.choice(list(words))
            self.parts.append(("variable", self.codes[name], kind, which,
                               self.source.randrange(max(1, words[which]))))
        elif name == "LDO" and self.style.short and self.source.random() < 0.7:
            self.parts.append(("bytes", bytes([SLDO + self.source.randrange(16)])))
        else:
            self.big(name, self.source.randrange(1, 300))

    def local(self):
        index = self.source.randrange(1, self.locals + self.parameters + 1)
        if index <= 16 and self.style.short:
            self.parts.append(("bytes", bytes([SLDL + index - 1])))
        else:
            self.big("LDL", index)

    # Expressions: each puts a word on the evaluation stack

    def address(self):
        form = self.source.randrange(5)
        if form == 0:
            self.variable("LAO")
        elif form == 1 and self.level > 1:
            self.big("LDA", self.source.randrange(1, 9), 1)
        elif form == 2:
            self.address()
            self.big("INC", self.source.randrange(1, 200))
        elif form == 3:
            self.address()
            self.word(1)
            self.big("IXA", self.source.randrange(1, 30))
        else:
            self.big("LLA", self.source.randrange(1, self.locals + 1))

    def text(self, longest=30):
        return bytes(self.source.choice(self.style.strings)
                     for _ in range(self.source.randrange(1, longest)))

    def word(self, depth=0):
        form = self.source.randrange(22 if depth < 3 else 6)
        if form < 2:
            self.constant(self.source.choice(
                [0, 1, 1, 2, 3, 10, 13, 32, 80, 127, 128, 255, 1000, -1, -5]))
        elif form < 4:
            self.local()
        elif form < 6:
            self.variable("LDO")
        elif form < 11:
            self.word(depth + 1)
            self.word(depth + 1)
            self.op(self.source.choice(["ADI", "SBI", "MPI", "DVI", "MODI"]))
        elif form == 11:
            self.word(depth + 1)
            self.op(self.source.choice(["ABI", "NGI", "SQI", "LNOT"]))
        elif form == 12:
            self.address()
            if self.style.short:
                self.parts.append(("bytes", bytes([SIND + self.source.randrange(8)])))
            else:
                self.big("IND", self.source.randrange(20))
        elif form == 13:
            self.address()
            self.big("IND", self.source.randrange(8, 90))
        elif form == 14:
            self.address()
            self.word(depth + 1)
            self.op("LDB")
        elif form == 15:
            self.word(depth + 1)
            self.constant(0)
            self.constant(79)
            self.op("CHK")
        elif form == 16:
            self.address()
            self.word(depth + 1)
            self.op("IXP", 8, 2)
            self.op("LDP")
        elif form == 17:
            self.function(depth + 1)
        elif form == 18:
            self.real()
            self.op("CSP", self.source.choice([22, 23]))  # TRUNC and ROUND
        elif form == 19:
            self.word(depth + 1)
            self.words(2)
            self.constant(2)
            self.op("INN")
        elif form == 20 and self.level > 1:
            self.big("LOD", self.source.randrange(1, 9), 1)
        else:
            self.condition(depth + 1)

    def words(self, count):
        self.parts.append(("constant", self.codes["LDC"],
                           [self.source.randrange(1 << 16) for _ in range(count)]))

    def real(self):
        self.words(2)
        if self.source.random() < 0.5:
            self.word(2)
            self.op("FLT")
            self.op(self.source.choice(["ADR", "SBR", "MPR", "DVR"]))
        self.op(self.source.choice(["ABR", "NGR", "SQR"]))

    def condition(self, depth=0):
        form = self.source.randrange(6)
        if form < 3:
            self.word(depth + 1)
            self.word(depth + 1)
            self.op(self.source.choice(["EQUI", "NEQI", "LEQI", "LESI", "GEQI", "GRTI"]))
        elif form == 3:
            self.real()
            self.real()
            self.op(self.source.choice(["EQU", "LES"]), REALS)
        elif form == 4:
            kind, length = self.source.choice(IDLE_COMPARISON)
            self.address()
            self.address()
            name = self.source.choice(["EQU", "NEQ"])
            self.big(name, self.source.randrange(2, 200), kind) if length else self.op(name, kind)
        else:
            self.word(depth + 1)
            self.word(depth + 1)
            self.op(self.source.choice(["LAND", "LOR"]))

    def function(self, depth):
        self.constant(0)
        self.constant(0)
        self.word(depth)
        self.op(self.source.choice(["CLP", "CGP"]), self.source.randrange(1, self.calls + 1))

    # Statements: each leaves the evaluation stack as it was

    def statement(self, depth=0):
        choices = ([self.assign] * 4 + [self.store] * 2 + [self.call] * 2
                   + [self.write, self.string, self.move, self.set_byte])
        choices += [self.choice, self.loop, self.repeat, self.count] if depth < 3 else []
        choices += ([self.case, self.exit, self.row, self.leave, *[self.hold] * 4] if depth < 2
                    else [])
        self.source.choice(choices)(depth)

    def statements(self, depth):
        for _ in range(self.source.randrange(1, 4)):
            self.statement(depth + 1)

    def assign(self, _):
        self.word()
        if self.source.random() < 0.6:
            self.big("STL", self.source.randrange(1, self.locals + 1))
        elif self.level > 1 and self.source.random() < 0.5:
            self.big("STR", self.source.randrange(1, 9), 1)
        else:
            self.variable("SRO")

    def store(self, _):
        self.address()
        self.word()
        self.op("STO")

    def call(self, _):
        if self.names["units"] and self.source.random() < 0.5:
            self.number_of_segment(self.source.choice(self.names["units"]), [self.codes["CXP"]],
                                   self.source.randrange(1, 9))
            return
        if self.style.host_numbers and self.names.get("numbers"):
            self.op("CXP", self.source.choice(self.names["numbers"]), self.source.randrange(1, 9))
            return
        for _ in range(self.source.randrange(3)):
            self.word(1)
        self.op(self.source.choice(["CLP", "CGP", "CIP"]), self.source.randrange(1, self.calls + 1))

    def write(self, _):
        self.variable("LAO")
        self.op("LCA", len(text := self.text()), *text)
        self.constant(0)
        self.op("CXP", 0, 19)
        self.op("CSP", 0)

    def string(self, _):
        self.address()
        if self.style.release == "later" and self.source.random() < 0.3:
            self.op("LPA", len(text := self.text()), *text)
            self.big("MOV", self.source.randrange(1, 40))
        elif self.style.release == "earlier" and self.source.random() < 0.3:
            self.op("LCA", len(text := self.text()), *text)
            self.op("S1P")
            self.big("MVB", self.source.randrange(1, 40))
        else:
            self.op("LCA", len(text := self.text()), *text)
            self.op("SAS", self.source.randrange(80, 255))

    def move(self, _):
        self.address()
        self.address()
        self.big("MOV", self.source.randrange(1, 300))

    def set_byte(self, _):
        self.address()
        if self.source.random() < 0.5:
            self.word(1)
            self.word(1)
            self.op("STB")
        else:
            self.address()
            self.op("LDM", words := self.source.randrange(1, 5))
            self.op("STM", words)

    def choice(self, depth):
        other, end = self.label(), self.label()
        self.condition()
        self.jump("FJP", other)
        self.statements(depth)
        if self.source.random() < 0.4:
            self.jump("UJP", end)
            self.put(other)
            self.statements(depth)
        else:
            self.put(other)
        self.put(end)

    def loop(self, depth):
        start, end = self.label(), self.label()
        self.put(start)
        if self.source.random() < 0.3:
            self.word()
            self.word()
            self.jump(self.source.choice(["EFJ", "NFJ"]), end)
        else:
            self.condition()
            self.jump("FJP", end)
        self.statements(depth)
        self.jump("UJP", start)
        self.put(end)

    def repeat(self, depth):
        start = self.label()
        self.put(start)
        self.statements(depth)
        self.condition()
        self.jump("FJP", start)

    def count(self, depth):
        index, start, end = self.source.randrange(1, self.locals + 1), self.label(), self.label()
        self.word()
        self.big("STL", index)
        self.put(start)
        self.big("LDL", index)
        self.word()
        self.op("LEQI")
        self.jump("FJP", end)
        self.statements(depth)
        self.big("LDL", index)
        self.constant(1)
        self.op("ADI")
        self.big("STL", index)
        self.jump("UJP", start)
        self.put(end)

    def case(self, depth):
        table, end = self.label(), self.label()
        low = self.source.choice([0, 1, 5, 65, -2])
        labels = [self.label() for _ in range(self.source.randrange(2, 6))]
        self.word()
        self.jump("UJP", table)
        for label in labels:
            self.put(label)
            self.statements(depth)
            self.jump("UJP", end)
        self.put(table)
        targets = [self.source.choice([*labels, *labels])
                   for _ in range(self.source.randrange(len(labels), 12))]
        self.parts.append(("case", self.codes["XJP"], low, self.codes["UJP"], end, targets))
        self.put(end)

    def exit(self, _):
        if self.style.exits and self.names["own"]:
            self.number_of_segment(self.names["own"], [])
            self.constant(self.source.randrange(1, self.calls + 1))
            self.op("CSP", 4)

    def row(self, _):
        if self.style.rows and self.source.random() < 0.5:
            for _ in range(count := self.source.randrange(33, 60)):
                self.constant(self.source.randrange(100))
            self.op("CSP", 50 + count % 20)

    def leave(self, _):
        if self.style.returns and self.source.random() < 0.5:
            end = self.label()
            self.condition()
            self.jump("FJP", end)
            self.op("RNP", 0)
            self.put(end)

    def hold(self, _):
        """A value that is chosen: both ways leave a word on the evaluation stack."""
        if self.style.held:
            other, end = self.label(), self.label()
            self.condition()
            self.jump("FJP", other)
            self.word(1)
            self.jump("UJP", end)
            self.put(other)
            self.word(1)
            self.put(end)
            self.big("STL", self.source.randrange(1, self.locals + 1))

    # Its bytes

    def size(self, part, place):
        kind, *rest = part
        if kind == "segment":
            return len(rest[0]) + 1 + len(rest[2])
        if kind == "constant":
            return 2 + place % 2 + 2 * len(rest[1])
        if kind == "case":
            return 1 + (1 - place % 2) + 6 + 2 * len(rest[4])
        return {"label": 0, "jump": 2, "variable": 3}[kind]

    def made(self, start, out):
        """Its bytes from an even place on, with its table, and the table's place; what a link fills
        in is added to `out`."""
        places, place, labels = [], start, {}
        for part in self.parts:
            places.append(place)
            if part[0] == "label":
                labels[part[1]] = place
            # (most parts are bytes)
            place += len(part[1]) if part[0] == "bytes" else self.size(part, place)
        leave, end = places[-1], place + (0 if self.style.odd_tables else place % 2)
        table = []  # the targets of its jump table

        def operand(target, after):
            distance = labels[target] - after
            if 0 <= distance < 128 and not self.style.tables:
                return distance
            if labels[target] not in table:
                table.append(labels[target])
            return 246 - 2 * table.index(labels[target])

        word = lambda value: (value % 65536).to_bytes(2, self.style.order)
        code, filled = bytearray(), len(out)
        for part, place in zip(self.parts, places):
            if part[0] == "bytes":
                code += part[1]
                continue
            kind, *rest = part
            if kind == "segment":
                before, name, after = rest
                out.append((UNITREF, name, place + len(before)))
                code += (before
                         + (self.source.randbytes(1) if self.style.operand_numbers else b"\0")
                         + after)
            elif kind == "variable":
                opcode, names, name, displacement = rest
                out.append(({"publics": PUBLREF, "privates": PRIVREF}[names], name, place + 1))
                code += bytes([opcode, 128 * (not self.style.clear_bits) + displacement // 256,
                               displacement % 256])
            elif kind == "constant":
                code += (bytes([rest[0], len(rest[1])]) + bytes(place % 2)
                         + b"".join(map(word, rest[1])))
            elif kind == "jump":
                code += bytes([rest[0], operand(rest[1], place + 2)])
            elif kind == "case":
                opcode, low, jump, other, targets = rest
                at = place + 1 + (1 - place % 2)
                code += (bytes([opcode]) + bytes(at - place - 1) + word(low)
                         + word(low + len(targets) - 1))
                code += bytes([jump, operand(other, at + 6)])
                code += b"".join(word(at + 6 + 2 * k - labels[target])
                                 for k, target in enumerate(targets))
        code = (self.with_any_bytes(code, start, out[filled:]) if self.style.free_bytes
                else bytes(code))
        code += bytes([self.style.padding]) * (start + len(code) - end and 1)
        last = start + len(code) + 2 * len(table) + 8
        words = [last - 10 - 2 * k - target for k, target in reversed(list(enumerate(table)))]
        words += self.words_of_table(2 * self.locals, 2 * self.parameters, last - 4 - leave,
                                     last - 2 - start)
        return code + b"".join(map(word, words)) + self.end_of_table(), last, len(table)

    def with_any_bytes(self, code, start, out):
        """The code with other bytes but for the operands that a link fills in."""
        kept = {place - start + k
                for kind, _, place in out
                for k in range(1 if kind == UNITREF else 2)}
        return bytes(byte if at in kept else self.source.randrange(256)
                     for at, byte in enumerate(code))

    def words_of_table(self, data, *others):
        """The data size and the other words: a link reads the data size of the program's outer
        block alone."""
        if not self.style.free_words:
            return [data, *others]
        any_word = lambda: self.source.randrange(65536)
        return [data if self.level == 0 else any_word(), *(any_word() for _ in others)]

    def end_of_table(self):
        """The procedure number and the lex level."""
        number = self.source.randrange(1, 256) if self.style.other_numbers else self.number
        return bytes([number, self.source.randrange(256) if self.style.free_words else self.level])


def procedure(source, style, number, calls, names, is_program=False, shortest=4):
    """A procedure of some hundred bytes; one that is too long for its jump table is made anew."""
    while True:
        made = Procedure(source, style, number, calls, names)
        made.level = source.randrange(1, 4)
        for _ in range(source.randrange(shortest, 14)):
            made.statement()
        if is_program:
            made.level, made.parameters, made.locals = 0, 2, 400
        made.op("RBP" if is_program else "RNP", source.choice([0, 0, 1]) * (not is_program))
        code, _, jumps = made.made(0, [])
        if len(code) < 1300 and jumps < 50:
            return made
