#!/usr/bin/env python3
"""Plants bugs in copies of volume.mjs, one in each, and sees that volume_test.mjs or
volume_hostile.mjs tells it. Prints what told each, and each that nothing tells; so for
volume_command.mjs by volume_command_test.mjs. Usage: volume_bugs.py [PART], of the bugs whose name
has PART; it takes seconds for each.
volume_bugs.py --texts only sees that volume.mjs has the text of each"""
import pathlib
import shutil
import subprocess
import sys
import tempfile

TESTS = pathlib.Path(__file__).resolve().parent
SOURCE = (TESTS.parent / "volume.mjs").read_text()
COMMAND = (TESTS.parent / "volume_command.mjs").read_text()
RANDOM_VOLUMES, HOSTILE_IMAGES = "60", "1500"

# What is wrong, the text in volume.mjs, and the text in its place.
BUGS = [
    # what is taken
    ("a byte too few is taken", "BLOCK * (next - first - 1) + used",
     "BLOCK * (next - first - 1) + used - 1"),
    ("whole blocks are taken", "slice(0, file.size)", "slice(0)"),
    ("a file is taken from a block too far", "this.#image.read(file.first, file",
     "this.#image.read(file.first + 1, file"),
    ("a file beyond the image is taken", "if (file.next > this.#image.blocks) {", "if (false) {"),
    ("names are compared with their capitals", "?? this.#allNamed(name)[0] ?? null", "?? null"),
    ("any name is taken as the first file", "?? this.#allNamed(name)[0] ?? null",
     "?? this.files[0] ?? null"),
    ("the exact name is not looked for first",
     "this.files.find((file) => file.name === name) ?? this", "this"),
    ("a file of another volume is taken", "this.files.includes(wanted) ? wanted",
     'typeof wanted === "object" ? wanted'),
    # where a file is put
    ("the first gap that has room", "(gap.blocks < best.blocks ? gap : best)", "best"),
    ("the largest gap", "(gap.blocks < best.blocks ? gap : best)",
     "(gap.blocks > best.blocks ? gap : best)"),
    ("the last of equal gaps", "(gap.blocks < best.blocks ? gap",
     "(gap.blocks <= best.blocks ? gap"),
    ("a gap that is a block too small", "gap.blocks >= blocks)", "gap.blocks >= blocks - 1)"),
    ("a gap of just the size is passed over", "gap.blocks >= blocks)", "gap.blocks > blocks)"),
    ("a file in place of another without regard to its room", "if (blocks <= inPlace) return",
     "if (old) return"),
    ("what is free behind a file is not used", "old.next - old.first + (gaps",
     "old.next - old.first + 0 * (gaps"),
    ("what is free behind a file counts a block more", "old.next - old.first + (gaps",
     "old.next - old.first + 1 + (gaps"),
    ("never in place", "if (blocks <= inPlace) return old.first;", ""),
    ("a file is never moved", "if (large.length)", "if (large.length && !old)"),
    ("the blocks of the replaced file count as free", "of [...this.files, {first: end, next: end}]",
     "of [...this.files.slice(1), {first: end, next: end}]"),
    ("the blocks behind the volume count as free",
     "this.#end = Math.min(directory.blocks, image.blocks)", "this.#end = image.blocks"),
    ("the blocks behind the image count as free",
     "this.#end = Math.min(directory.blocks, image.blocks)", "this.#end = directory.blocks"),
    ("the duplicate directory counts as free", "let from = this.#directory.end;",
     "let from = DUPLICATE_DIRECTORY;"),
    ("free blocks are counted once too often", "(sum, gap) => sum + gap.blocks, 0",
     "(sum, gap) => sum + gap.blocks, 1"),
    ("78 files", "this.files.length >= FILES_MAX", "this.files.length > FILES_MAX"),
    ("76 files", "this.files.length >= FILES_MAX", "this.files.length >= FILES_MAX - 1"),
    # the entry
    ("last bytes off by one", "contents.length - BLOCK * (blocks - 1),",
     "contents.length - BLOCK * (blocks - 1) - 1,"),
    ("last bytes 0 for a whole block", "contents.length - BLOCK * (blocks - 1),",
     "contents.length % BLOCK,"),
    ("blocks rounded down", "blocks = Math.ceil(length / BLOCK)",
     "blocks = Math.floor(length / BLOCK) || 1"),
    ("a block too many", "blocks = Math.ceil(length / BLOCK)",
     "blocks = Math.floor(length / BLOCK) + 1"),
    ("the last block in place of the block after it", "[2, first + blocks]",
     "[2, first + blocks - 1]"),
    ("a text file", "[4, CODE_KIND]", "[4, 3]"),
    ("the name in the letters that were given", "newEntry(\n      capitals(name),",
     "newEntry(\n      name,"),
    ("the length of the name is lost", "entry[6] = name.length;", "entry[6] = 15;"),
    ("words of little-endian volumes alone", "view.setUint16(place, value, !this.bigEndian)",
     "view.setUint16(place, value, true)"),
    ("the count of a little-endian volume alone", "setUint16(16, entries.length, !this.bigEndian)",
     "setUint16(16, entries.length, true)"),
    ("the count is not raised", "setUint16(16, entries.length,", "setUint16(16, this.count,"),
    ("the count is raised for each file", "setUint16(16, entries.length,",
     "setUint16(16, this.count + 1,"),
    ("day and month exchanged", "(day << 4) | month", "(month << 4) | day"),
    ("a year of four digits", "(year % 100) << 9", "(year & 127) << 9"),
    ("a year from 1900 on", "(year % 100) << 9", "(year - 1900) << 9"),
    ("no date", "blocks - 1), dateWord(date));", "blocks - 1), 0);"),
    ("yesterday", "day: now.getDate()", "day: now.getDate() - 1"),
    ("the year of a date in the last century", "year < 70 ? 2000 + year",
     "year < 20 ? 2000 + year"),
    ("a file that was never closed has a day", "if (year === UNCLOSED_YEAR) return null;", ""),
    ("a file that was never closed is as any other", "isUnclosed = yearOf(date) === UNCLOSED_YEAR",
     "isUnclosed = false"),
    ("a file that was never closed has a day too", "yearOf(date) === UNCLOSED_YEAR;",
     "yearOf(date) === UNCLOSED_YEAR && dateOf(date & 511) !== null;"),
    ("years behind 100 are of files that were never closed", "yearOf(date) === UNCLOSED_YEAR;",
     "yearOf(date) >= UNCLOSED_YEAR;"),
    ("the month of the language", "month: now.getMonth() + 1", "month: now.getMonth()"),
    ("a date of 0 is one", "if (month < 1 || month > 12 || day < 1) return null;", ""),
    ("any date is stored",
     "if (!isWithin(year, 1970, 2069) || !isWithin(month, 1, 12) || !isWithin(day, 1, 31)) {",
     "if (false) {"),
    # the directory
    ("the new entry is last", "entries.sort((one, other) => first(one) - first(other));",
     "entries.push(entries.shift());"),
    ("the new entry is first", "entries.sort((one, other) => first(one) - first(other));", ""),
    ("entries in descending order", "first(one) - first(other)", "first(other) - first(one)"),
    ("entries sorted as if little-endian", "this.#word(new DataView(entry.buffer), 0);",
     "new DataView(entry.buffer).getUint16(0, true);"),
    ("the replaced entry is kept", ".filter((entry) => entry.first !== old?.first)", ""),
    ("an entry loses its bytes that no rule reads", "ENTRY * (number + 1)))",
     "ENTRY * (number + 1) - 3))"),
    ("an entry is written a place too far", "bytes.set(entry, ENTRY * (index + 1))",
     "bytes.set(entry, ENTRY * (index + 1) + (index > 70 ? 26 : 0))"),
    ("the rest of the directory is zeroed", "const bytes = this.#bytes.slice();\n",
     "const bytes = this.#bytes.slice();\n    bytes.fill(0, ENTRY * (entries.length + 1));\n"),
    ("the duplicate directory is forgotten",
     "if (this.duplicate) copy.write(DUPLICATE_DIRECTORY, directory, DIRECTORY_BLOCKS);", ""),
    ("a duplicate directory where there is none", "if (this.duplicate) copy.write", "copy.write"),
    ("the directory is forgotten", "copy.write(FIRST_DIRECTORY, directory, DIRECTORY_BLOCKS);\n",
     "\n"),
    # the image
    ("the checksum is forgotten", "copy.mendChecksum();", ""),
    ("the checksum is turned left", "((sum >>> 1) | (sum << 31)) >>> 0",
     "((sum << 1) | (sum >>> 31)) >>> 0"),
    ("the checksum has the last word twice", "place < this.start + this.length; place += 2",
     "place <= this.start + this.length; place += 2"),
    ("the checksum is that of the tags too", "place < this.start + this.length; place += 2",
     "place < this.bytes.length - 1; place += 2"),
    ("the checksum of little-endian words", "sum + 256 * this.bytes[place] + this.bytes[place + 1]",
     "sum + this.bytes[place] + 256 * this.bytes[place + 1]"),
    ("the image that was given is written", "new DiskImage(this.bytes.slice(), this",
     "new DiskImage(this.bytes, this"),
    ("the order of DOS is forgotten in a copy", "const {order, start, stated, checksum} = this;",
     "const {start, stated, checksum} = this, order = IN_ORDER;"),
    ("the order of DOS is reversed in a copy", "const {order, start, stated, checksum} = this;",
     "const {start, stated, checksum} = this, order = this.order.toReversed?.() ?? "
     "[...this.order].reverse();"),
    ("the header is forgotten in a copy", "const {order, start, stated, checksum} = this;",
     "const {order, stated, checksum} = this, start = 0;"),
    ("two sectors of the order of DOS exchanged",
     "[0, 14, 13, 12, 11, 10, 9, 8, 7, 6, 5, 4, 3, 2, 1, 15]",
     "[0, 14, 13, 12, 11, 10, 9, 8, 7, 6, 5, 4, 3, 1, 2, 15]"),
    ("the bytes behind the end of a file are kept", "const whole = new Uint8Array(BLOCK * blocks);",
     "const whole = this.read(first, blocks);"),
    ("a buffer is taken as its whole memory",
     "new Uint8Array(bytes.buffer, bytes.byteOffset, bytes.byteLength);\n  if",
     "new Uint8Array(bytes.buffer);\n  if"),
    ("a buffer of node is kept", "if (ArrayBuffer.isView(bytes))",
     "if (bytes instanceof Uint8Array) return bytes;\n  if (ArrayBuffer.isView(bytes))"),
    # the format
    ("only little-endian volumes", "[false, true].map(", "[false].map("),
    ("2IMG: the data are behind 64 bytes always", "const start = field(24) || TWO_IMG_HEADER,",
     "const start = TWO_IMG_HEADER,"),
    ("2IMG: a length of 0 is no data", "field(28) || BLOCK * field(20) || bytes.length - start",
     "field(28)"),
    ("2IMG: the number of blocks is not looked at",
     "field(28) || BLOCK * field(20) || bytes.length - start", "field(28) || bytes.length - start"),
    ("2IMG: only the order of the header",
     "field(12) === 0 ? [inSectors, inBlocks] : [inBlocks, inSectors]",
     "field(12) === 0 ? [inSectors] : [inBlocks]"),
    ("2IMG: blocks alone", "field(12) === 0 ? [inSectors, inBlocks] : [inBlocks, inSectors]",
     "[inBlocks]"),
    ("DiskCopy: a header of 82 bytes", "DISK_COPY_HEADER = 84", "DISK_COPY_HEADER = 82"),
    ("DiskCopy: tags are data", "{start: DISK_COPY_HEADER, length, checksum",
     "{start: DISK_COPY_HEADER, checksum"),
    ("the order of DOS for any image", "if (isDisk(bytes.length))\n    images.push", "images.push"),
    ("no images of 40 tracks", "DISK_TRACKS = [35, 40]", "DISK_TRACKS = [35]"),
    ("CP/M is not named", "if (hasVolume(bytes, CPM_ORDER))", "if (false)"),
    # what is sound
    ("an overlap is sound", "first >= before.end,", "true,"),
    ("an overlap with a file before the last is sound", "if (entry.next > before.end) before =",
     "before ="),
    ("a file without blocks is sound", "[first < next, `has", "[first <= next, `has"),
    ("a file beyond the volume is sound", "next <= directory.blocks,", "true,"),
    ("a file beyond the image is sound", "next <= image.blocks,", "true,"),
    ("last bytes of 0 are sound", "lastBytes >= 1 && lastBytes <= BLOCK,",
     "lastBytes <= BLOCK,"),
    ("last bytes of 513 are sound", "lastBytes >= 1 && lastBytes <= BLOCK,",
     "lastBytes >= 1 && lastBytes <= BLOCK + 1,"),
    ("a name of any byte is sound", "/^[ -~]+$/.test(name)", "/^[^]+$/.test(name)"),
    ("a control character at the end of a name is sound", "/^[ -~]+$/.test(name)",
     "/^[ -~]+/.test(name)"),
    ("the number of files is not looked at", "if (count > FILES_MAX)",
     "if (false)"),
    ("a volume of fewer blocks than the directory is sound", "if (blocks < end)",
     "if (false)"),
    ("an image that is cut is sound", "if (image.stated > image.length) {", "if (false) {"),
    ("a put onto a volume that is not sound", "if (this.flaws.length)", "if (false)"),
    ("the duplicate is not read", "return duplicate ? readFromDuplicate(duplicate) : first;",
     "return first;"),
    ("the duplicate is put onto", "flaws: [flaw, ...reading.flaws]", "flaws: reading.flaws"),
    ("a former duplicate is read", "|| !first.directory.hasDuplicate", ""),
    ("a duplicate that differs is not noted", "if (directory.hasDuplicate && !isSame(",
     "if (false && !isSame("),
    ("a wrong checksum is not noted", "if (!image.isChecked)", "if (false)"),
    ("a file of bad blocks is replaced", "if (had[0]?.kind === BAD_BLOCKS_KIND)",
     "if (false)"),
    ("one of two files of a name is replaced", "if (had.length > 1)", "if (false)"),
    ("a name with a blank can be put", "[A-Za-z0-9._/\\\\-]{1,15}", "[A-Za-z0-9. _/\\\\-]{1,15}"),
    ("a name of 16 characters can be put", "\\\\-]{1,15}", "\\\\-]{1,16}"),
    ("a place says that no file is replaced", "blocks, old};\n  }", "blocks, old: null};\n  }"),
    ("a file of no bytes can be put", "if (!length)", "if (false)"),
    ("no limit of the files that are read", "Math.min(this.count, FILES_MAX)", "this.count"),
    ("a name beyond the entry is read", "length <= most ? String", "true ? String"),
    ("an image that ends in the directory is read",
     "if (image.blocks < block + DIRECTORY_BLOCKS) return [];", ""),
]


# The same of volume_command.mjs, which volume_command_test.mjs is to tell.
COMMAND_BUGS = [
    ("a file whose name ends with a dot is written", "/[. ]$/.test(name)", "/[ ]$/.test(name)"),
    ("a file whose name ends with a blank is written", "/[. ]$/.test(name)", "/[.]$/.test(name)"),
    ("a file of another folder is written", '\\u001f"*/:<>', '\\u001f"*:<>'),
    ("a file that is there is lost", "if (isThere(name))", "if (false)"),
]


def run(*words):
    done = subprocess.run(["node", *map(str, words)], stdout=subprocess.PIPE,
                          stderr=subprocess.STDOUT, text=True, timeout=300)
    return done.returncode, done.stdout


def told_by(cases, module):
    """What tells the bug in this module, and what it prints first; None if nothing does."""
    for test, words in (("volume_test", [module, "first"]),
                        ("volume_hostile", ["1", HOSTILE_IMAGES, module])):
        status, printed = run(TESTS / f"{test}.mjs", cases, *words)
        if status:
            return f"{test}: {printed.splitlines()[0][:140] if printed else ''}"
    return None


def without_text():
    """The bugs that cannot be planted, since volume.mjs has their text not once."""
    return [f"'{what}' cannot be planted: {name} has its text {source.count(text)} times"
            for name, source, bugs in (("volume.mjs", SOURCE, BUGS),
                                       ("volume_command.mjs", COMMAND, COMMAND_BUGS))
            for what, text, _ in bugs
            if source.count(text) != 1]


def untold(bugs):
    """Plants each of these bugs, prints what tells it, and gives the number of those that nothing
    tells."""
    count = 0
    with tempfile.TemporaryDirectory() as folder:
        cases, module = pathlib.Path(folder) / "cases", pathlib.Path(folder) / "volume.mjs"
        subprocess.run([sys.executable, "-B", TESTS / "volume_cases.py", cases, "2",
                        RANDOM_VOLUMES], check=True)
        for what, text, other in bugs:
            module.write_text(SOURCE.replace(text, other))
            told = told_by(cases, module)
            count += told is None
            print(f"volume: {what}: {told or 'NOTHING TELLS IT'}", flush=True)
    return count


def untold_of_command(bugs):
    """The same of the bugs of volume_command.mjs."""
    count = 0
    for what, text, other in bugs:
        with tempfile.TemporaryDirectory() as folder:
            for path in TESTS.parent.glob("*.mjs"):
                shutil.copy(path, folder)
            (pathlib.Path(folder) / "volume_command.mjs").write_text(COMMAND.replace(text, other))
            status, printed = run(TESTS / "volume_command_test.mjs", folder)
        lines = [line for line in printed.splitlines() if "Error" in line]
        count += status == 0
        print(f"volume: {what}: "
              f"{(lines or ['it fails'])[0][:140] if status else 'NOTHING TELLS IT'}", flush=True)
    return count


def main():
    part = sys.argv[1] if len(sys.argv) > 1 else ""
    found = without_text()
    for line in found:
        print(f"volume: {line}")
    if found or part == "--texts":
        return 1 if found else 0
    bugs, of_command = ([bug for bug in some if part in bug[0]] for some in (BUGS, COMMAND_BUGS))
    count = (untold(bugs) if bugs else 0) + untold_of_command(of_command)
    print(f"volume: {len(bugs) + len(of_command)} planted bugs, {count} that nothing tells")
    return 1 if count or not bugs + of_command else 0


sys.exit(main())
