#!/usr/bin/env python3
"""Writes the tables of instructions of docs/PCODE.md from the table of the code, so that they have
one home.
Usage: make_instructions.py [FOLDER], which is docs/ if none is given."""
import pathlib
import re
import sys

ROOT = pathlib.Path(__file__).resolve().parent.parent
PCODE, TABLE = ROOT / "docs/PCODE.md", next((ROOT / "crates").glob("*/src/table.rt"))
HEAD = "| Opcode | Name | Operands | Takes | Puts |\n|---|---|---|---|---|\n"
HEAD_OF_EARLIER = ("| Opcode | Name in earlier releases | Operands | Takes | Puts |\n"
                   "|---|---|---|---|---|\n")
OPERANDS = {
    "Nothing": "", "Exit": "", "Byte": "a byte", "TwoBytes": "two bytes", "Big": "B",
    "ByteAndBig": "a byte, B",
    "Variable": "B: a variable of the program", "Call": "a segment, a procedure",
    "Jump": "a distance", "Return": "the words of a result",
    "Text": "a length, so many bytes", "WordList": "a count, so many words",
    "Type": "a type; of arrays a length, B",
    "Case": "two indices, a jump, a word for each index",
}
ROW = re.compile(r'Row\(0x(..), "(\w+)", (\w+), (\w+)(?:\((\d+)(?:, (\d+))?\))?\),')


def words(effect, first, second):
    """What an instruction takes from the evaluation stack, and what it puts there."""
    count = first if first != "0" else ""
    forms = {"Words": (first, second), "Loads": (first, "first operand"),
             "Compares": ("two values", "1"), "Unknown": ("?", "?")}
    return forms.get(effect) or (" + ".join(filter(None, ["first operand", count])), "0")


def table(name):
    """The rows of a table of the source, and their opcodes."""
    source = TABLE.read_text().split(f"static {name}: ", 1)[1].split("];", 1)[0]
    return [(int(code, 16), title, operands, words(*effect))
            for code, title, operands, *effect in ROW.findall(source)]


def line(opcodes, title, operands, effect):
    return f"| {opcodes} | {title} | {OPERANDS[operands]} | {effect[0]} | {effect[1]} |\n"


def lines(rows, last):
    """A line for each row; a row of the short instructions reaches up to the next opcode that has
    one."""
    firsts = sorted(code for code, *_ in rows) + [last + 1]
    for code, *rest in sorted(rows):
        end = firsts[firsts.index(code) + 1] - 1
        yield line(f"`{code:02X}`" if end == code else f"`{code:02X}` to `{end:02X}`", *rest)


def with_table(page, head, rows):
    """The page with these rows below the head of a table."""
    before, rest = page.split(head, 1)
    return before + head + "".join(rows) + re.sub(r"\A(?:\|.*\n)+", "", rest)


def main():
    folder = pathlib.Path(sys.argv[1]) if len(sys.argv) > 1 else ROOT / "docs"
    page = with_table(PCODE.read_text(), HEAD, lines(table("TABLE") + table("SHORT"), 255))
    earlier = [line(f"`{code:02X}`", *rest) for code, *rest in table("EARLIER")]
    (folder / PCODE.name).write_text(with_table(page, HEAD_OF_EARLIER, earlier))


if __name__ == "__main__":
    main()
