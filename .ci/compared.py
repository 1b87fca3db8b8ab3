"""What .ci/compare tries samples/compare.py on: links of the samples and of one more program, edits
of their linked files that leave them right or make them wrong, and linkers that choose otherwise.

An edit is a text. `206: 01` puts these bytes, in hexadecimal, from byte 206 of the file on, and
`7+22: 02` from byte 22 of the code in slot 7 on. `exchange: 1 2` exchanges two blocks, `cut: 511`
leaves so many bytes, and `more: E5 E5` adds bytes at the end."""
import pathlib
import re

import linker
from descriptions.model import (
    HOSTSEG, LINKED, PRIVREF, PUBLREF, UNITREF, File, Operand, Procedure, Segment, const_def,
    eof_mark, priv_ref, publ_def, publ_ref, unit_ref,
)
from generated_links import described

SAMPLES = pathlib.Path(__file__).resolve().parent.parent / "samples"
BLOCK = 512


def many(plain):
    """A program that wants UTIL and has a plain segment of this name. UTIL uses AUX, refers twice
    to its variable STATE, and not to SPARE."""
    parts = ["A5", Operand(PUBLREF, "COUNT", 1), "AB", Operand(PRIVREF, "STATE", 0), "A5",
             Operand(PRIVREF, "STATE", 2), "CD", Operand(UNITREF, "AUX"), "01 AD 00"]
    records = [publ_ref("COUNT", [1]), priv_ref("STATE", 4, [4, 7]), unit_ref("AUX", [10]),
               priv_ref("SPARE", 6, []), eof_mark(0)]
    definitions = [publ_def("COUNT", 3), const_def("LIMIT", 100), eof_mark(8)]
    host = {1: Segment("DEMO", HOSTSEG, [Procedure(["D7 C1 00"], data=10)], definitions),
            7: Segment("UTIL"), 9: Segment(plain, LINKED, code=bytes.fromhex("D7 D7 09 00"))}
    aux = Segment("AUX", procedures=[Procedure(["A5", Operand(PRIVREF, "STATE", 1), "AD 00"])],
                  records=[priv_ref("STATE", 2, [1]), eof_mark(0)], number=3)
    return described(File(host),
                     File({2: Segment("UTIL", procedures=[Procedure(parts)], records=records,
                                      number=2)}), File({3: aux}))


def links():
    """The bytes of the host and the libraries of each link."""
    samples = {
        "plain": ["host.code", "library.code"], "big": ["big_host.code", "big_library.code"],
        "added": ["host.code", "using.code", "used.code"],
        "two": ["two_units.code"], "nine": ["nine.code"],
        "procedures": ["procedures.code", "library.code"],
    }
    made = {name: [(SAMPLES / each).read_bytes() for each in names]
            for name, names in samples.items()}
    return {**made, "many": many("TOOLS"), "namesake": many("AUX")}


def edited(content, edits):
    """A little-endian code file, or a big-endian one whose codes are not edited by their slots,
    with these edits."""
    content = bytearray(content)
    for edit in edits:
        where, what = edit.split(": ")
        if where == "cut":
            del content[int(what) :]
        elif where == "more":
            content += bytes.fromhex(what)
        elif where == "exchange":
            one, other = (BLOCK * int(block) for block in what.split())
            content[one : one + BLOCK], content[other : other + BLOCK] = content[
                other : other + BLOCK], content[one : one + BLOCK]
        else:
            slot, place = re.fullmatch(r"(?:(\d+)\+)?(\d+)", where).groups()
            at = (int(place)
                  + (BLOCK * linker.CodeFile(content, 0, "little").slots[int(slot)].address if slot
                     else 0))
            content[at : at + len(bytes.fromhex(what))] = bytes.fromhex(what)
    return bytes(content)


# Edits that leave a link right: what another linker chooses, the link, the edits, and what is
# printed of it
RIGHT = [
    ("nothing else", "plain", [], []),
    ("nothing else, in the other byte order", "big", [], []),
    ("an added unit has the name of a plain segment", "namesake", [], []),
    ("another order of the codes", "plain", ["exchange: 1 2", "4: 02", "28: 01"],
     ["the codes are in the order of the slots 07 01"]),
    ("a gap between the codes", "plain",
     ["28: 04", "more: " + "E5" * 512, "exchange: 2 3", "exchange: 2 3", "more: " + "00" * 512,
      "exchange: 2 4"],
     ["the file has 2560 bytes, and not 1536",
      "there are bytes between or after the codes that are not 0"]),
    ("the end of the last block is left out", "plain", ["cut: 1048"],
     ["the file has 1048 bytes, and not 1536"]),
    ("blocks after the last code", "plain", ["more: " + "00" * 512],
     ["the file has 2048 bytes, and not 1536"]),
    ("blocks are filled with another byte", "plain", ["600: 1A 1A 1A"],
     ["there are bytes between or after the codes that are not 0"]),
    ("interface texts keep their addresses", "plain", ["238: 01 00"],
     ["there are text addresses in the slots 07"]),
    ("the end of the dictionary has other bytes", "plain", ["300: 00"],
     ["bytes 256 to 511 of the dictionary are not those of the host"]),
    ("text addresses are in empty slots", "plain", ["226: 01 00", "254: 01 00"],
     ["there are text addresses in the slots 01 15"]),
    ("empty slots have zeros for names", "plain", ["80: 00 00 00 00 00 00 00 00", "184: 41"],
     ["the names are not those of the host in the empty slots 02 15"]),
    ("an empty slot has an address", "plain", ["40: 05 00", "0: 00 01"],
     ["there are addresses in the empty slots 00 10"]),
    ("an added unit is in another slot", "added",
     ["36: 03 00 18 00", "32: 00 00 00 00", "136: 41 55 58 20 20 20 20 20", "7+1: 09",
      "9+22: 09"],
     ["AUX, which the host does not name, is in slot 09, and not 08",
      "the names are not those of the host in the empty slots 08"]),
    ("an added unit is in a slot of the system", "added",
     ["24: 03 00 18 00", "32: 00 00 00 00", "112: 41 55 58 20 20 20 20 20", "7+1: 06",
      "6+22: 06"],
     ["AUX, which the host does not name, is in slot 06, and not 08",
      "the codes are in the order of the slots 01 07 06",
      "the names are not those of the host in the empty slots 08"]),
    ("private variables are in another order", "two", ["7+4: 80 0A", "8+4: 80 09"],
     ["private variables with another base offset: 2"]),
    ("a variable with two references is moved", "many", ["7+4: 80 0E", "7+7: 80 10"],
     ["private variables with another base offset: 1"]),
    ("private variables begin at an even word", "plain", ["7+4: 80 0C", "1+4: 16"],
     ["private variables with another base offset: 1", "the data size is 22, and 18 is enough"]),
    ("a data size with its bytes exchanged, which is large enough", "big", ["516: 12 00"],
     ["the data size is 4608, and 18 is enough"]),
]

# Edits that make a link wrong: what is wrong, the link, the edits, and the first difference
WRONG = [
    ("the file is cut off in its dictionary", "plain", ["cut: 511"],
     "it has 511 bytes, and a segment dictionary has 512"),
    ("the file is cut off in a code", "plain", ["cut: 1047"],
     "slot 07 UTIL has the address 2, where its code is not in the file"),
    ("a code has the address 0", "plain", ["28: 00"],
     "slot 07 UTIL has the address 0, where its code is not in the file"),
    ("a code has an address behind the file", "plain", ["28: 03"],
     "slot 07 UTIL has the address 3, where its code is not in the file"),
    ("the words of the dictionary are in the other byte order", "plain",
     ["4: 00 01 00 12", "28: 00 02 00 18"], "slot 01 DEMO has the length 4608, and not 18"),
    ("the program is still one to be linked", "plain", ["194: 01"],
     "slot 01 has the kind 1, and not 0"),
    ("the unit is still one to be linked", "plain", ["206: 03"],
     "slot 07 has the kind 3, and not 0"),
    ("an empty slot has a kind", "plain", ["198: 03"], "slot 03 has the kind 3, and not 0"),
    ("the unit is still wanted", "plain", ["28: 00 00 00 00"],
     "slot 07 UTIL has the length 0, and not 24"),
    ("a length counts whole blocks", "plain", ["30: 00 02"],
     "slot 07 UTIL has the length 512, and not 24"),
    ("a length is that of another code", "plain", ["30: 12"],
     "slot 07 UTIL has the length 18, and not 24"),
    ("two slots have one code", "two", ["32: 02"], "the codes of slots 07 and 08 overlap"),
    ("the addresses of two codes are exchanged", "two", ["28: 03", "32: 02"],
     "slot 07 UTIL at 0: the byte is CD, and not A5; other bytes that differ: 1"),
    ("the unit has no name", "plain", ["120: 20 20 20 20"],
     "slot 07 has the name '        ', and not 'UTIL    '"),
    ("the unit's name has small letters", "plain", ["120: 75 74 69 6C"],
     "slot 07 has the name 'util    ', and not 'UTIL    '"),
    ("another unit of the library is linked too", "plain", ["12: 02 00 18 00"],
     "slot 03 has a code of 24 bytes, and no segment is linked there"),
    ("an added unit is left out", "added", ["32: 00 00 00 00"],
     "AUX, a unit that the host does not name, is in no slot"),
    ("an added unit has no name", "added", ["128: 20 20 20"],
     "AUX, a unit that the host does not name, is in no slot"),
    ("an added unit is there twice", "added", ["36: 03 00 18 00", "136: 41 55 58 20 20 20 20 20"],
     "AUX, a unit that the host does not name, is in slots 08 and 09"),
    ("an added unit is moved and a code is left in its slot", "added",
     ["36: 03 00 18 00", "128: 20 20 20", "136: 41 55 58 20 20 20 20 20", "7+1: 09", "9+22: 09"],
     "slot 08 has a code of 24 bytes, and no segment is linked there"),
    ("a unit keeps the segment number of its library", "plain", ["7+22: 02"],
     "slot 07 UTIL at 22: the segment number is 2, and not 7"),
    ("the program gets another segment number", "plain", ["1+16: 07"],
     "slot 01 DEMO at 16: the segment number is 7, and not 1"),
    ("a plain segment gets another segment number", "many", ["9+2: 07"],
     "slot 09 TOOLS at 2: the byte is 07, and not 09"),
    ("a plain segment is linked", "procedures", ["9+0: D8"],
     "slot 09 TOOLS at 0: the byte is D8, and not D7"),
    ("a public variable is not filled in", "plain", ["7+1: 80 00"],
     "slot 07 UTIL at 1: COUNT is used with the value 0, and not 3"),
    ("a public variable is one word off", "plain", ["7+1: 80 04"],
     "slot 07 UTIL at 1: COUNT is used with the value 4, and not 3"),
    ("the value takes the place of the displacement", "many", ["7+1: 80 03"],
     "slot 07 UTIL at 1: COUNT is used with the value 2, and not 3"),
    ("the value is added twice", "nine", ["7+4: 80 07"],
     "slot 07 UTIL at 4: COUNT is used with the value 6, and not 3"),
    ("the first of nine references alone is filled in", "nine",
     [f"7+{3 * k + 1}: 80 {k:02X}" for k in range(1, 9)],
     "slot 07 UTIL at 4: COUNT is used with the value 0, and not 3"),
    ("the ninth reference, in the second part of the list, is not filled in", "nine",
     ["7+25: 80 08"], "slot 07 UTIL at 25: COUNT is used with the value 0, and not 3"),
    ("a constant takes the place of a variable", "nine", ["7+1: 80 64"],
     "slot 07 UTIL at 1: COUNT is used with the value 100, and not 3"),
    ("the bytes of an operand are exchanged", "plain", ["7+1: 03 80"],
     "slot 07 UTIL at 1: the operand that refers to COUNT has no bit 7, so it is not of two bytes"),
    ("bit 7 of an operand is cleared", "plain", ["7+4: 00"],
     "slot 07 UTIL at 4: the operand that refers to STATE has no bit 7, so it is not of two bytes"),
    ("offsets of references begin a byte later", "plain", ["7+1: 80 00 AE 80 02 E1"],
     "slot 07 UTIL at 1: COUNT is used with the value 0, and not 3"),
    ("a unit is called by the number of its library", "added", ["7+1: 03"],
     "slot 07 UTIL at 1: the unit AUX is called by the segment number 3, and not 8"),
    ("a unit is not called yet", "added", ["7+1: 00"],
     "slot 07 UTIL at 1: the unit AUX is called by the segment number 0, and not 8"),
    ("an added unit is in another slot, and is called in the first", "added",
     ["36: 03 00 18 00", "32: 00 00 00 00", "136: 41 55 58 20 20 20 20 20", "9+22: 09"],
     "slot 07 UTIL at 1: the unit AUX is called by the segment number 8, and not 9"),
    ("a byte of an instruction is another", "plain", ["7+3: A5"],
     "slot 07 UTIL at 3: the byte is A5, and not AB"),
    ("the unit is that of another library", "plain", ["7+6: 00 00 AD"],
     "slot 07 UTIL at 6: the byte is 00, and not D7; other bytes that differ: 1"),
    ("a word of an attribute table is another", "plain", ["1+6: 06"],
     "slot 01 DEMO at 6: the byte is 06, and not 04"),
    ("the procedure dictionary is another", "plain", ["7+20: 04"],
     "slot 07 UTIL at 20: the byte is 04, and not 02"),
    ("the data size of another procedure grows", "procedures", ["1+6: 0A"],
     "slot 01 DEMO at 6: the byte is 0A, and not 02"),
    ("the data size does not grow", "plain", ["1+4: 0A"],
     "the data size grows by 0 bytes, and the private variables have 8"),
    ("the data size grows by words and not by bytes", "plain", ["1+4: 0E"],
     "the data size grows by 4 bytes, and the private variables have 8"),
    ("the data size grows by an odd number", "plain", ["1+4: 13"],
     "the data size grows by 9 bytes, and the private variables have 8"),
    ("the data size shrinks", "plain", ["1+4: 02"],
     "the data size grows by -8 bytes, and the private variables have 8"),
    ("a variable without references has no words", "many", ["1+4: 16"],
     "the data size grows by 12 bytes, and the private variables have 24"),
    ("a private variable is not filled in", "plain", ["7+4: 80 02"],
     "STATE of slot 07 has the base offset 0, where the program's own data is, which ends at 8"),
    ("a private variable loses its displacement", "plain", ["7+4: 80 08"],
     "STATE of slot 07 has the base offset 6, where the program's own data is, which ends at 8"),
    ("a private variable is in the program's own data", "plain", ["7+4: 80 09"],
     "STATE of slot 07 has the base offset 7, where the program's own data is, which ends at 8"),
    ("a private variable ends behind the data size", "plain", ["7+4: 80 0B"],
     "STATE of slot 07 has 4 words from the base offset 9 on, and the data size ends at 12"),
    ("a private variable has two base offsets", "many", ["7+7: 80 0B"],
     "slot 07 UTIL at 7: STATE is used with the base offset 9, and elsewhere with 8"),
    ("two references lose their displacements", "many", ["7+4: 80 08", "7+7: 80 08"],
     "slot 07 UTIL at 7: STATE is used with the base offset 6, and elsewhere with 8"),
    ("two units share a private variable", "two", ["8+4: 80 09"],
     "STATE of slot 08 and STATE of slot 07 share the word of base offset 8"),
    ("two private variables share a word", "two", ["8+4: 80 0C"],
     "STATE of slot 07 and STATE of slot 08 share the word of base offset 11"),
    ("no words are left together for a variable without references", "many",
     ["7+4: 80 0D", "7+7: 80 0F", "8+1: 80 13"],
     "no 6 words are left together for a private variable that has no reference"),
]

# Linkers that choose otherwise, as the rows of wrong_linkers.py: each is .ci/linker.py with a
# change of a few words
CHOICES = [
    ("added units take the last empty slots", "add_units", "free.pop(0)", "free.pop()"),
    ("added units take slots of the system", "add_units", "self.host.slots[7:16]",
     "self.host.slots[2:16]"),
    ("private variables go by their segments from the last on", "allot",
     "for segment in self.segments:", "for segment in reversed(self.segments):"),
    ("private variables go by their records from the last on", "allot",
     "for record in segment.records:", "for record in reversed(segment.records):"),
    ("there are words between private variables", "allot", "self.next += record.size",
     "self.next += record.size + 3", "self.words = sum(words for _, _, _, words in privates)",
     "self.words = self.next - self.program.records[-1].value"),
    ("the codes are in the order of their names", "file", "for segment in self.segments:",
     "for segment in sorted(self.segments, key=lambda one: one.name):"),
    ("blocks are filled with another byte", "file", "bytes(-len(segment.code) % BLOCK)",
     "b'\\xE5' * (-len(segment.code) % BLOCK)"),
    ("there is a block before each code", "file", "starts[segment.slot] = 1",
     "codes += bytes(BLOCK)\n            starts[segment.slot] = 1"),
    ("text addresses are kept", "file", "bytes(64) + self.host.data[256:512]",
     "bytes(32) + bytes([1]) * 32 + self.host.data[256:512]"),
    ("the end of the dictionary is empty", "file", "self.host.data[256:512]", "bytes(256)"),
    ("names of empty slots are blank", "file", "names = [slot.name for slot in self.host.slots]",
     "names = [b' ' * 8 if slot.role == EMPTY else slot.name for slot in self.host.slots]"),
]

# The rows of wrong_linkers.py that link otherwise than pslink and not wrong, as far as that can be
# seen: they choose the slots of added units, the order of codes, base offsets of private variables,
# a data size that is large enough, the end of the dictionary, and padding
CHOOSING = {
    "units are added in slots from 0 on", "units are added in slots from 2 on",
    "units are added in slots from 6 on", "units are added in slots from 8 on",
    "units are added from slot 15 down", "units are added after the last filled slot",
    "an added unit keeps its slot if that is empty",
    "the name asked for last is added first", "names are added by name",
    "the program asks first", "the program asks last", "units of libraries ask first",
    "the program does not ask", "units of the host do not ask",
    "the units that an added unit uses follow it at once", "the program comes first",
    "the program's private variables come first",
    "the text addresses stay", "the text address of slot 15 stays",
    "the names of empty slots are blank", "codes are padded with a block more",
    "added units come last", "codes begin in block 2", "the last code is not padded",
    "the program's private variables come last", "private variables of added units come last",
    "private variables come by file",
    "private variables come by slot from the highest", "private variables come by name",
    "the data size becomes that of all words", "the data size is little-endian",
    *(f"no unit is added in a slot with {what}"
      for what in ("an address", "a kind", "a name", "a text")),
    "private variables begin after the largest end mark",
    "the text addresses of empty slots stay", "the address of an empty slot stays",
    "codes are padded with what follows them",
    *(f"codes of {what} are padded with what follows them"
      for what in ("plain segments", "added units", "units of the host", "the program",
                   "wanted units")),
    "the tail is 0", "the first byte of the tail is 0", "the last byte of the tail is 0",
    "the last half of the tail is 0",
}
