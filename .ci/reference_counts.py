"""How the references of a segment lead to operands, written from docs/FORMAT.md and docs/PCODE.md
apart from pslink: what the lines of `check` say of it. For .ci/report and .ci/counts."""
import linker
from good_code import RELEASES

# the opcodes of the instructions whose operand is a variable of the program, in either release
VARIABLES = {opcodes[name] for opcodes in RELEASES.values() for name in ("LAO", "LDO", "SRO")}


def is_operand(code, place):
    """An operand of two bytes of such an instruction is at a place of a code."""
    return 1 <= place < len(code) - 1 and code[place - 1] in VARIABLES and code[place] >= 0x80


def references_in(slot):
    """The references to variables that the records of an entry have, up to the first record that
    cannot be read, and its code; None where its code cannot be read."""
    found = []
    try:
        code = linker.code_of(slot, slot.index)
        for record in linker.records_of(slot, slot.index):
            found += record.references if record.type in (linker.PUBLREF, linker.PRIVREF) else ()
    except linker.Fault as fault:
        return None if fault.number in (11, 12, 16) else (found, code)
    return found, code


def counts(references, code):
    """How many references there are, how many places of operands they name, and how many of these
    operands read 80 00."""
    led = [place for place in set(references) if is_operand(code, place)]
    return len(references), len(led), sum(code[place : place + 2] == b"\x80\0" for place in led)


def line(name, references, code):
    """The line of a segment that has references."""
    count, led, zeros = counts(references, code)
    return f"references of {name}: {led} of {count} lead to operands, {zeros} of them to 80 00"
