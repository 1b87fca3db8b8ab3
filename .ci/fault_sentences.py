"""The faults: their numbers and names, typed apart from the code in linker.py, and what check says
of each, what is wrong and what to do. The sentences are typed here too, by what docs/LINKING.md
says of when each fault occurs, and not taken from the code: `manual` compares them with those of
the code, and `report` with what check prints. `the file` in what to do is printed as its path."""
import linker

NAMES = dict(enumerate(linker.NAMES, 1))
NUMBERS = NAMES.keys()
# no link reports it
UNUSED = 30

SEE = "see DAMAGED FILES in pslink(1)"
AGAIN = "Copy the file again, or compile it again."
BINARY = "Copy the file again, as binary."
KEEP = "Keep one of them in the file."
RENAME = "Rename one of the two, and compile the file again. A name has eight characters."
OTHER = "If it is whole, its compiler's format may differ."
NOT_OF_CODE = f"The link information does not belong to this code. {AGAIN} {OTHER}"
SAME = "Compile the unit in the file and the host program against the same declarations."
IN_RECORD = "the UNITREF in this record requests."

# of each fault what is wrong, and what to do about it
SENTENCES = {
    1: ("The file has less than the 512 bytes of a segment dictionary.",
        "The file is truncated, or no code file. Copy it again, as binary, or give the code file."),
    2: ("The segment kinds are neither little-endian nor big-endian.",
        f"The file is damaged, or no code file: {SEE}. Give the code file, or compile it again."),
    3: ("The library's byte order is not the host's.",
        "Compile the file for the machine of the host. If it was, the bytes of one of the two files"
        f" are swapped: {SEE}."),
    4: ("No segment of the file is a host program.",
        "The file may be a library, or linked already. Give the compiled program as the host."
        f" If it is one, {SEE}."),
    5: ("A second segment is a host program.", KEEP),
    6: ("A second slot has or wants a unit of this name.", KEEP),
    7: ("The slot has a segment procedure that is still to be linked. Such hosts are not"
        " supported.",
        "Make it a procedure of the program or of a unit, and compile the file again."),
    8: ("The slot has a separate segment, of kind 4. Such segments are not supported.",
        "Put what it does into a Pascal unit, and compile the file again."),
    9: ("The slot has an intrinsic unit or its data, of another release.",
        "Compile it as a unit of II.0, and then the file again."),
    10: ("The slot's kind is none of II.0.",
         "The dictionary of the file is damaged, or of another release. Copy the file again, or"
         " compile the program again."),
    11: ("The code is longer than 32767 bytes, or that of the host program or of a unit has an odd"
         " length or one under 4.",
         "Split a unit that is too long. Otherwise the dictionary of the file is damaged: copy the"
         " file again, or compile it again."),
    12: ("The code would be in block 0, where the segment dictionary is.",
         f"The dictionary of the file is damaged. {AGAIN}"),
    13: ("No library has the unit that the slot wants or, if a record is reported, that"
         f" {IN_RECORD}",
         f"Give the library that has it. If you gave it, {SEE}."),
    14: ("The first library that has a segment of the name has no unit there: the segment is of the"
         " kind that is reported.",
         "Give the unit's library before the file, or remove that segment from the file. Kind 0 is"
         " a linked file: leave it out."),
    15: ("The library has two segments of the name.", "Remove one of the two from the file."),
    16: ("The file ends before the code does.", BINARY),
    17: ("The procedure dictionary or a procedure's table is outside the code, or the host program"
         " has no outer block.",
         f"The code is damaged, as by a conversion of line ends or a lost block: {SEE}. {AGAIN}"
         f" {OTHER}"),
    18: ("A procedure of the segment is native code, which is not supported.",
         "Use the procedure as the compiler left it, in P-code. If it is P-code, the bytes of the"
         f" file are swapped: {SEE}."),
    19: ("The file ends before the link information does.",
         f"{BINARY} If it is whole, it was made without link information: compile it again."),
    20: ("The link record's type is none of II.0.",
         "The link information is damaged, as by a lost, repeated or exchanged block:"
         f" {SEE}. {AGAIN} {OTHER}"),
    21: ("The link record belongs to native code, which is not supported.",
         "Write the external procedure in Pascal, in a unit, and compile the file again."),
    22: ("The link record belongs to a separate procedure, which is not supported.",
         "Put the procedure into a unit, and compile the file again."),
    23: ("The operands of the reference record have a format that its type cannot have.",
         f"The link information is damaged. {AGAIN} {OTHER}"),
    24: ("The host program defines the name twice.", RENAME),
    25: ("The segment has the private variable twice.", RENAME),
    26: ("The private variables end past word 32767 of the host program's data.",
         "Make one of them smaller, and compile the file again."),
    27: ("The host program's data would exceed 65535 bytes.",
         "Make the variables of the file or of its units smaller, and compile it again."),
    28: ("The host program defines no such name.",
         f"{SAME} An older library may come before the one that you meant: {SEE}."),
    29: ("The segment uses the name as a variable, and the host program defines a constant.", SAME),
    30: ("No longer used.",
         "A unit for which the host has no slot is looked for in the libraries: see 13 and 35."),
    31: ("The reference is past the end of the segment's code.", NOT_OF_CODE),
    32: ("The reference is in a procedure's table or in the procedure dictionary.", NOT_OF_CODE),
    33: ("The reference shares a byte with an earlier one.", NOT_OF_CODE),
    34: ("The operand's displacement plus the value exceeds 32767.",
         "Make the host program's data before this variable smaller, and compile the program and"
         " the file again."),
    35: (f"The host has no empty slot from 7 to 15 left for the unit that {IN_RECORD}",
         "Join two units into one, or take linked segments out of the host."),
}
MEANINGS = {name: SENTENCES[number][0] for number, name in NAMES.items()}
REMEDIES = {name: SENTENCES[number][1] for number, name in NAMES.items()}
