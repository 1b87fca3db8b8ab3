#!/usr/bin/env python3
"""Writes the cases of volume_test.mjs, a JSON object in each line: an image of a volume, what is to
be read in it, and for each put the image that is to come of it. Usage: volume_cases.py FILE [SEED
[COUNT]], COUNT of random volumes."""
import base64
import hashlib
import itertools
import json
import random
import sys
import zlib

sys.dont_write_bytecode = True
import volumes
from volumes import BLOCK, File, Volume

DATE = {"year": 2026, "month": 11, "day": 29}
NOT_SOUND = "Nothing is put onto the volume {}, as it is not sound. {}"
DUPLICATE_DIFFERS = ("The duplicate directory in blocks 6 to 9 differs from the directory in "
                     "blocks 2 to 5.")
DUPLICATE_IS_READ = ("The directory in blocks 2 to 5 is not sound: the files are those of the "
                     "duplicate in blocks 6 to 9.")
CHECKSUM_IS_WRONG = "The checksum in the header is not that of the data: the image may be damaged."
IN_ORDER = ("blocks in order", volumes.in_order)


def packed(data):
    return base64.b64encode(zlib.compress(data, 1)).decode()


def marked(blocks, seed):
    """Blocks of bytes that no two half blocks have alike."""
    source = random.Random(seed)
    return b"".join(source.randbytes(8) * 32 for _ in range(2 * blocks))


def data(length, seed):
    return marked(length // BLOCK + 1, f"file {seed}")[:length]


def told(volume, form, notes=()):
    """What is read in an image of a sound volume."""
    image_blocks = len(volume.image) // BLOCK
    less = [f"The volume has {volume.blocks} blocks by its directory, and the image "
            f"{image_blocks}."] * (volume.blocks > image_blocks)
    differs = [DUPLICATE_DIFFERS] * (volume.duplicate not in (None, volume.directory()))
    return {
        "name": volume.name, "format": form, "bigEndian": volume.big, "blocks": volume.blocks,
        "duplicate": volume.end == 10,
        "freeBlocks": volume.owners().count(None), "flaws": [], "notes": [*less, *notes, *differs],
        "files": [told_file(volume, file) for file in volume.files],
    }


def told_file(volume, file):
    kind_name = volumes.KINDS[file.kind] if file.kind < len(volumes.KINDS) else f"kind {file.kind}"
    return {"name": file.name, "kind": file.kind, "kindName": kind_name, "first": file.first,
            "next": file.next, "size": file.size(),
            "date": volumes.date_told(file.date), "isUnclosed": volumes.is_unclosed(file.date),
            "contents": hashlib.sha256(volume.contents(file)).hexdigest()}


def is_read_back(volume):
    """The blocks that were made say what the volume has, as another reader finds it."""
    found = volumes.read(volume.bytes(), volume.big)
    files = [(file.name, file.first, file.next, file.kind, file.last, file.date)
             for file in volume.files]
    assert found == (volume.name, volume.end, volume.blocks, files), (found, files)


def case(what, volume, form=IN_ORDER, puts=(), notes=(), before=None):
    """A sound volume, and puts one after the other: (name, bytes) or (name, bytes, the block that
    it lands at, worked out by hand). The image has this form, or another one before the first
    put."""
    name, wrapped = form
    is_read_back(volume)
    made = {"what": what, "image": packed((before or wrapped)(volume.bytes())),
            "volume": told(volume, name, notes), "puts": []}
    for number, (title, contents, *at) in enumerate(puts):
        date = {"year": 1970 + (number * 37 + len(contents)) % 100, "month": number % 12 + 1,
                "day": len(contents) % 31 + 1}
        step = {"name": title, "contents": packed(contents), "date": date}
        try:
            volume, answer = volumes.put(volume, title, contents, date)
            is_read_back(volume)
            step |= {"answer": answer, "image": packed(wrapped(volume.bytes())),
                     "after": told(volume, name)}
        except volumes.Refused as refused:
            answer = {"first": None}
            step["refused"] = str(refused)
        assert at in ([], [answer["first"]]), (what, number, at, answer)
        made["puts"].append(step)
    return made


def sample(big=False, end=6, blocks=280, image_blocks=None, seed="sample"):
    """Files with gaps of 3, 2 and 2 blocks between them, and the rest of the volume free."""
    source = random.Random(seed)
    filler = source.randbytes
    files = [
        File("SYSTEM.PASCAL", end, 14, 512, 2, 0x9F5B, 0x123, filler(15)),
        File("HOST.CODE", 17, 20, 100, 2, date_of(1979, 12, 31), 0, filler(15)),
        File("LIBRARY.CODE", 22, 25, 1, 2, date_of(2026, 1, 1), 0xFFF, filler(15)),
        File("NOTES.TEXT", 27, 31, 512, 3, 0, 0, filler(15)),
        File("SIX.DATA", 31, 32, 6, 5, date_of(1970, 2, 3), 0, filler(15)),
    ]
    return Volume("DISK", blocks, files, marked(image_blocks or blocks, seed), end, big,
                  filler(4 * BLOCK))


def of_dates():
    """Days at the ends of what a word can have, and files that were never closed, which have a year
    of 100 and any day or none."""
    word = lambda year, month, day: 512 * year + 16 * day + month
    words = [word(99, 12, 31), word(100, 11, 29), word(100, 0, 0), word(100, 13, 31),
             word(101, 1, 1), word(0, 1, 1), word(69, 12, 31), word(70, 0, 1), 0, 0xFFFF]
    files = [File(f"FILE{number}.CODE", 10 + number, 11 + number, 512, 2, date)
             for number, date in enumerate(words)]
    unclosed = [number for number, file in enumerate(files) if volumes.is_unclosed(file.date)]
    assert unclosed == [1, 2, 3]
    for big in (False, True):
        yield case(f"dates, big {big}", Volume("DATES", 40, files, marked(40, 3), 10, big),
                   puts=[("FILE1.CODE", data(512, 1), 11), ("NEW.CODE", data(512, 2), 20)])


def date_of(year, month, day):
    return volumes.date_word({"year": year, "month": month, "day": day})


SAMPLE_PUTS = [
    ("NEW.CODE", data(1024, "a"), 20), ("host.code", data(1536, "b"), 17),
    ("Host.Code", data(1537, "c"), 32), ("LIBRARY.CODE", data(2560, "d"), 22),
    ("HOST.CODE", data(2048, "e"), 32), ("LIBRARY.CODE", data(300, "f"), 22),
    ("SIX.DATA", data(513, "g"), 23),
]


def forms():
    """Each format, with a number of blocks that its images may have."""
    dos = volumes.by_sectors(volumes.BY_DOS)
    in_order = volumes.in_order
    tags = marked(19, "tags")[:12 * 800]
    return [
        *((blocks, "blocks in order", in_order) for blocks in (280, 320, 560, 1600, 40)),
        (280, "sectors in the order of DOS 3.3", dos),
        (320, "sectors in the order of DOS 3.3", dos),
        (280, "2IMG, blocks in order", volumes.two_img(in_order, 1)),
        (1600, "2IMG, blocks in order", volumes.two_img(in_order, 1, behind=b"a comment")),
        (280, "2IMG, blocks in order",
         volumes.two_img(in_order, 1, start=100, before=b"before the data", behind=b"behind")),
        (280, "2IMG, blocks in order", volumes.two_img(in_order, 0)),
        (560, "2IMG, blocks in order",
         volumes.two_img(in_order, 1, length=0, blocks_field=560, behind=b"behind")),
        (280, "2IMG, blocks in order", volumes.two_img(in_order, 1, length=0)),
        (280, "2IMG, sectors in the order of DOS 3.3", volumes.two_img(dos, 0, behind=bytes(600))),
        (320, "2IMG, sectors in the order of DOS 3.3", volumes.two_img(dos, 0, start=65)),
        (280, "2IMG, sectors in the order of DOS 3.3", volumes.two_img(dos, 1)),
        (800, "DiskCopy 4.2", volumes.disk_copy(b"p-System", tags)),
        (60, "DiskCopy 4.2", volumes.disk_copy(b"")),
        (33, "DiskCopy 4.2", volumes.disk_copy(b"n" * 63, tags[:20], None)),
    ]


def of_formats():
    """The same volume in each format, in both byte orders, with a duplicate directory and
    without."""
    for (blocks, name, wrapped), (big, end) in itertools.product(forms(), ((False, 6), (True, 10))):
        puts = SAMPLE_PUTS[:{800: 1, 33: 0}.get(blocks)]
        yield case(f"{blocks} {name}, big {big}, end {end}", sample(big, end, blocks),
                   (name, wrapped), puts)
    yield case("big-endian, without a duplicate", sample(True, 6), puts=SAMPLE_PUTS)
    yield case("little-endian, with a duplicate", sample(False, 10), puts=SAMPLE_PUTS)
    wrong = volumes.disk_copy(checksum=7)
    yield case("a wrong checksum", sample(blocks=60), ("DiskCopy 4.2", volumes.disk_copy()),
               SAMPLE_PUTS, [CHECKSUM_IS_WRONG], wrong)


def of_sizes():
    """Volumes of fewer or more blocks than the image has."""
    end = ("LAST.CODE", data(512 * 8, "last"))
    yield case("fewer blocks than the image", sample(blocks=40, image_blocks=60),
               puts=[(*end, 32), ("MORE.CODE", data(1600, "m"), None)])
    yield case("more blocks than the image", sample(blocks=600, image_blocks=40),
               puts=[(*end, 32), ("MORE.CODE", data(1600, "m"), None)])
    blocks_alone = volumes.two_img(volumes.in_order, 1, length=0, blocks_field=40,
                                   behind=b"x" * 1024)
    yield case("2IMG with its number of blocks alone", sample(blocks=600, image_blocks=40),
               ("2IMG, blocks in order", blocks_alone), [(*end, 32)])
    yield case("a part of a block behind", sample(blocks=41, image_blocks=40),
               ("blocks in order", lambda blocks: blocks + b"x" * 511), [(*end, 32)])
    yield case("the smallest", Volume("V", 6, [], marked(6, 1)), puts=[("A", b"x", None)])
    yield case("a block for a file", Volume("SEVENTH", 7, [], marked(7, 1)),
               puts=[("A", b"x" * 513, None), ("A", b"x", 6)])
    yield case("no room behind a duplicate", Volume("D", 10, [], marked(10, 1), 10),
               puts=[("A", b"x", None)])
    large = Volume("LARGE", 65535, [File("FAR", 32900, 32902)], marked(2, 1) * 16500)
    yield case("33,000 blocks", large,
               puts=[("FAR", data(1025, 1), 32900), ("NEAR", data(97 * 512, 1), 32903)])


def packed_files(count, start, blocks=1):
    return [File(f"F{number}.CODE", start + blocks * number, start + blocks * (number + 1),
                 1 + number)
            for number in range(count)]


def of_full():
    """Volumes without room: full ones, and directories of 77 files."""
    full = Volume("FULL", 36, packed_files(10, 6, 3), marked(36, 1))
    yield case("a full volume", full,
               puts=[
                   ("NEW.CODE", b"x", None), ("F4.CODE", data(1536, 1), 18),
                   ("F4.CODE", data(1537, 1), None), ("F4.CODE", data(1024, 1), 18),
                   ("NEW.CODE", data(512, 1), 20), ("MORE.CODE", b"x", None),
                   ("F9.CODE", data(5, 1), 33), ("MORE.CODE", data(1024, 2), 34)])
    for big, end, moved in ((False, 6, 6), (True, 10, 88)):
        most = Volume("MOST", 120, packed_files(77, 10), marked(120, 2), end, big)
        yield case(f"77 files, end {end}", most,
                   puts=[
                       ("NEW.CODE", b"x", None), ("F0.CODE", data(512, 1), 10),
                       ("f76.code", data(513, 1), 86), ("F5.CODE", data(2000, 1), moved),
                       ("F5.CODE", data(7, 1), moved), ("F7.CODE", data(400, 1), 17),
                       ("F6.CODE", data(600, 1), moved + 1)])
        nearly = Volume("NEARLY", 120, packed_files(76, 20), marked(120, 3), end, big, marked(4, 4))
        yield case(f"76 files, end {end}", nearly,
                   puts=[("NEW.CODE", data(700, 1), 10 if end == 10 else 6),
                         ("NEWER.CODE", b"x", None)])
    files = [File("A", 10, 12), File("B", 15, 17), File("C", 20, 22), File("D", 24, 40),
             File("E", 43, 50)]
    yield case("gaps", Volume("GAPS", 60, files, marked(60, 5), 10),
               puts=[
                   ("F", data(1025, 1), 12), ("G", data(1025, 2), 17), ("H", data(1000, 3), 22),
                   ("I", data(1030, 4), 40), ("J", data(9 * 512, 5), 50),
                   ("K", data(512, 6), 59), ("L", b"x", None), ("E", data(512 * 7, 7), 43),
                   ("E", data(512 * 6, 8), 43), ("L", b"x", 49),
                   ("E", data(512 * 7, 9), None)])


def of_duplicates():
    """Duplicate directories that are others than the first."""
    in_sectors = ("sectors in the order of DOS 3.3", volumes.by_sectors(volumes.BY_DOS))
    volume = sample(end=10)
    for what, other in (("zeros", bytes(2048)),
                        ("the last entry",
                         volume.directory()[:130] + volume.directory()[156:] + bytes(26)),
                        ("bytes that no rule reads", volume.directory()[:2047] + b"\1")):
        volume = sample(end=10)
        volume.duplicate = other
        yield case(f"another duplicate: {what}", volume, puts=SAMPLE_PUTS)
        yield case(f"another duplicate: {what}, in sectors", volume, in_sectors, SAMPLE_PUTS)


def of_names():
    """Names as they are compared, of other programs too."""
    files = [File("small.code", 6, 8, 20), File("Mixed.Code", 8, 9), File("ODD +,:*=?.CODE", 9, 11),
             File("!", 11, 12),
             File("FIFTEEN.LETTERS", 12, 13)]
    yield case("names", Volume("a~ b!", 40, files, marked(40, 1)),
               puts=[
                   ("SMALL.CODE", data(500, 1), 6), ("mixed.code", data(800, 1), 13),
                   ("odd +,:*=?.code", data(3, 1), 9), ("!", data(4, 1), 11),
                   ("fifteen.letters", data(5, 1), 12), ("a-b/c\\d_e.09", data(6, 1), 10),
                   ("Z", data(7, 1), 7), ("ABCDEFGHIJKLMNO", data(8, 1), 8)])
    kinds = [File(f"KIND.{kind}", 10 + kind, 11 + kind, 512, kind)
             for kind in range(16)
             if kind != 1]
    yield case("kinds", Volume("KINDS", 40, kinds, marked(40, 2)),
               puts=[(file.name, data(512, 1), file.first) for file in kinds])


DAMAGED = Volume("HURT", 40,
                 [File("A.CODE", 6, 10), File("B.CODE", 10, 13, 9), File("C.TEXT", 20, 24, 512, 3)],
                 marked(40, 9))
NOT_WHOLE = "The file C.TEXT ends before block {}, and the image has {} blocks."
ALL = {"A.CODE": 2048, "B.CODE": 1033, "C.TEXT": 2048}
ENDS = (("1, A.CODE", 10), ("2, B.CODE", 13), ("3, C.TEXT", 24))
ONE_OFF = {name: size for name, size in ALL.items() if name != "B.CODE"}
# What is changed: an entry, the place in it, the byte or the word there; what is said of it, and
# the files that are still listed, with their size or what is said of a file that cannot be taken.
DAMAGE = [
    ([(2, 0, 9)],
     ["Entry 2, B.CODE, begins at block 9, and the blocks before 10 are those of entry 1, A.CODE."],
     ALL | {"B.CODE": 1545}),
    ([(2, 0, 6), (2, 2, 10)],
     ["Entry 2, B.CODE, begins at block 6, and the blocks before 10 are those of entry 1, A.CODE."],
     ALL | {"B.CODE": 1545}),
    ([(1, 0, 5)],
     ["Entry 1, A.CODE, begins at block 5, and the blocks before 6 are those of the directory."],
     ALL | {"A.CODE": 2560}),
    ([(1, 2, 22)],
     ["Entry 2, B.CODE, begins at block 10, and the blocks before 22 are those of entry 1, A.CODE.",
      "Entry 3, C.TEXT, begins at block 20, and the blocks before 22 are those of entry 1, "
      "A.CODE."], ALL | {"A.CODE": 8192}),
    ([(1, 0, 10), (1, 2, 13), (2, 0, 6), (2, 2, 10)],
     ["Entry 2, B.CODE, begins at block 6, and the blocks before 13 are those of entry 1, A.CODE."],
     ALL | {"A.CODE": 1536, "B.CODE": 1545}),
    ([(2, 2, 9)],
     ["Entry 2, B.CODE, has no blocks: it begins at block 10 and ends before block 9."], ONE_OFF),
    ([(2, 2, 10)],
     ["Entry 2, B.CODE, has no blocks: it begins at block 10 and ends before block 10."], ONE_OFF),
    ([(3, 2, 41)], ["Entry 3, C.TEXT, ends before block 41, and the volume has 40 blocks."],
     ALL | {"C.TEXT": NOT_WHOLE.format(41, 40)}),
    ([(0, 14, 50), (3, 2, 41)],
     ["Entry 3, C.TEXT, ends before block 41, and the image has 40 blocks."],
     ALL | {"C.TEXT": NOT_WHOLE.format(41, 40)}),
    ([(3, 2, 65535)], ["Entry 3, C.TEXT, ends before block 65535, and the volume has 40 blocks."],
     ALL | {"C.TEXT": NOT_WHOLE.format(65535, 40)}),
    ([(2, 6, b"\0")], ["Entry 2 has a name of 0 characters, and 1 to 15 are possible."], ONE_OFF),
    ([(2, 6, b"\x10")], ["Entry 2 has a name of 16 characters, and 1 to 15 are possible."],
     ONE_OFF),
    ([(2, 6, b"\xff")], ["Entry 2 has a name of 255 characters, and 1 to 15 are possible."],
     ONE_OFF),
    ([(2, 6, b"\x10SIXTEEN.LETTERSP")],
     ["Entry 2 has a name of 16 characters, and 1 to 15 are possible."], ONE_OFF),
    ([(2, 8, b"\7")], ["Entry 2 has a name with a byte that is no character of a name."], ONE_OFF),
    ([(2, 8, b"\xc1")], ["Entry 2 has a name with a byte that is no character of a name."],
     ONE_OFF),
    ([(2, 8, b"\x7f")], ["Entry 2 has a name with a byte that is no character of a name."],
     ONE_OFF),
    ([(2, 22, 0)], ["Entry 2, B.CODE, has 0 bytes in its last block, and 1 to 512 are possible."],
     ALL | {"B.CODE": 1536}),
    ([(2, 22, 513)],
     ["Entry 2, B.CODE, has 513 bytes in its last block, and 1 to 512 are possible."],
     ALL | {"B.CODE": 1536}),
    ([(0, 14, 23)], ["Entry 3, C.TEXT, ends before block 24, and the volume has 23 blocks."], ALL),
    ([(0, 14, 1)],
     ["The volume entry says that the volume has 1 block, and the directory ends before block 6.",
      *(f"Entry {which}, ends before block {end}, and the volume has 1 block."
        for which, end in ENDS)], ALL),
    ([(0, 16, 4)], ["Entry 4 has a name of 0 characters, and 1 to 15 are possible."], ALL),
    ([(0, 16, 78)],
     ["The volume entry says that there are 78 files, and a directory has 77 at most.",
      *(f"Entry {number} has a name of 0 characters, and 1 to 15 are possible."
        for number in range(4, 78))], ALL),
    ([(0, 16, 65535)],
     ["The volume entry says that there are 65535 files, and a directory has 77 at most.",
      *(f"Entry {number} has a name of 0 characters, and 1 to 15 are possible."
        for number in range(4, 78))], ALL),
    ([(2, 2, 9), (1, 22, 600)],
     ["Entry 1, A.CODE, has 600 bytes in its last block, and 1 to 512 are possible.",
      "Entry 2, B.CODE, has no blocks: it begins at block 10 and ends before block 9."], ONE_OFF),
]


def changed(directory, changes, big):
    made = bytearray(directory)
    for entry, place, value in changes:
        value = value.to_bytes(2, "big" if big else "little") if isinstance(value, int) else value
        made[26 * entry + place:26 * entry + place + len(value)] = value
    return bytes(made)


def damaged(big, end=6):
    files = [File(file.name, file.first + end - 6, file.next + end - 6, file.last, file.kind)
             for file in DAMAGED.files]
    return Volume("HURT", 40, files, DAMAGED.image, end, big)


def with_directory(volume, directory):
    blocks = volume.bytes()
    return blocks[:2 * BLOCK] + directory + blocks[2 * BLOCK + len(directory):]


def unsound(what, image, flaws, sizes=ALL, names=("NEW.CODE",)):
    """A volume that is not sound: nothing is put onto it."""
    refused = NOT_SOUND.format("HURT", flaws[0])
    puts = [{"name": name, "contents": packed(b"x"), "date": DATE, "refused": refused}
            for name in names]
    return {"what": what, "image": packed(image), "name": "HURT", "flaws": flaws, "sizes": sizes,
            "puts": puts}


def of_damage():
    """Directories that are not sound: the files can be taken, and nothing is put. One flaw is told
    for an entry."""
    for (number, (changes, flaws, sizes)), big in itertools.product(
            enumerate(DAMAGE), (False, True)):
        volume = damaged(big)
        blocks = with_directory(volume, changed(volume.directory(), changes, big))
        yield unsound(f"damage {number}, big {big}", blocks, flaws, sizes, ("A.CODE", "NEW.CODE"))


def of_cut_images():
    """Images that are cut, behind the files or in one of them, with a header that promises more."""
    beyond = "Entry 3, C.TEXT, ends before block 24, and the image has 22 blocks."
    forms = (("DiskCopy", volumes.disk_copy(), 84),
             ("2IMG", volumes.two_img(volumes.in_order, 1), 64))
    cuts = ((30 * BLOCK, [], ALL),
            (22 * BLOCK + 5, [beyond], ALL | {"C.TEXT": NOT_WHOLE.format(24, 22)}))
    for (what, wrapped, header), (length, flaws, sizes) in itertools.product(forms, cuts):
        flaw = (f"The header says that the data have 20480 bytes, and there are {length}: the "
                "image is cut.")
        yield unsound(f"{what}, cut to {length} bytes",
                      wrapped(damaged(False).bytes())[:header + length], [flaw, *flaws], sizes)


def of_damaged_duplicates(big):
    """A first directory that is not sound, beside a duplicate that is, and one that is not
    either."""
    volume = damaged(big, 10)
    for what, changes in (("an overlap", [(2, 0, 13)]), ("no volume entry", [(0, 0, b"\1\1")]),
                          ("a wrong name", [(0, 6, b"\x08")])):
        blocks = with_directory(volume, changed(volume.directory(), changes, big))
        yield unsound(f"{what} beside a duplicate, big {big}", blocks, [DUPLICATE_IS_READ],
                      names=("A.CODE",))
    hurt = changed(volume.directory(), [(3, 22, 0)], big)
    flaw = "Entry 3, C.TEXT, has 0 bytes in its last block, and 1 to 512 are possible."
    yield unsound(f"both are damaged, big {big}", with_directory(volume, hurt + hurt), [flaw])
    blocks = with_directory(volume, changed(hurt, [(0, 0, b"\1\1")], big) + hurt)
    yield unsound(f"both are damaged, and one has no volume entry, big {big}", blocks,
                  [DUPLICATE_IS_READ, flaw])


def of_former_duplicates():
    """A directory that is not sound and says that there is no duplicate, before what was one."""
    former = damaged(False, 10)
    volume = Volume("HURT", 40, DAMAGED.files[2:], former.bytes())
    blocks = with_directory(volume, changed(volume.directory(), [(1, 22, 0)], False))
    flaw = "Entry 1, C.TEXT, has 0 bytes in its last block, and 1 to 512 are possible."
    yield unsound("a former duplicate", blocks, [flaw], {"C.TEXT": 2048})


NO_DIRECTORY = "There is no directory of a p-System volume in block 2. The volume entry "
FROM_BLOCK = "says that the first file begins at block {}, and 6 or 10 is possible."


def of_others():
    """What is no volume, or one that is not opened, and what is said of it."""
    hurt = [([(0, 0, 1)], "begins with the word 1, and not with 0."),
            ([(0, 2, 7)], FROM_BLOCK.format(7)), ([(0, 2, 0)], FROM_BLOCK.format(0)),
            ([(0, 4, 2)], "has the kind 2, and not 0."),
            ([(0, 6, b"\0")], "has a name of 0 characters, and 1 to 7 are possible."),
            ([(0, 6, b"\x08")], "has a name of 8 characters, and 1 to 7 are possible."),
            ([(0, 7, b"\x80")], "has a name with a byte that is no character of a name.")]
    for changes, text in hurt:
        yield {"what": text,
               "image": packed(with_directory(DAMAGED,
                                              changed(DAMAGED.directory(), changes, False))),
               "error": NO_DIRECTORY + text}
    blocks = sample().bytes()
    small = lambda length: ("There is no volume: an image has 6 blocks at least, and there are "
                            f"{volumes.many(length, 'byte')}.")
    dump = lambda what: f"This {what}. Make an image of it that has its blocks in order."
    other_order = dump("image has its sectors in the order of CP/M, or as they lie on the disk")
    others = [
        ("nothing", b"", small(0)), ("a byte", b"\0", small(1)),
        ("less than 6 blocks", blocks[:3071], small(3071)),
        ("zeros", bytes(143360), NO_DIRECTORY + FROM_BLOCK.format(0)),
        ("gzip", b"\x1f\x8b" + blocks, "This is a gzip file. Unpack it first."),
        ("zip", b"PK\3\4" + blocks, "This is a zip file. Unpack it first."),
        ("CP/M", volumes.by_sectors(volumes.BY_CPM)(blocks), other_order),
        ("the disk", volumes.by_sectors(volumes.ON_DISK)(blocks), other_order),
        ("nibbles", b"\xd5\xaa" * 116480, dump("may be a disk image of nibbles")),
        ("2IMG", volumes.two_img(volumes.in_order, 2)(bytes(232960)),
         dump("is a 2IMG image of nibbles")),
        ("DOS order of another size",
         volumes.by_sectors(volumes.BY_DOS)(sample(blocks=288).bytes()), None),
        ("a 2IMG header alone", volumes.two_img(volumes.in_order, 1)(b""), small(64)),
        ("a DiskCopy header alone", volumes.disk_copy()(b""), small(84)),
    ]
    yield from ({"what": what, "image": packed(image), "error": error}
                for what, image, error in others)


def random_volume(source):
    """A sound volume: files from the directory on, with gaps between some of them."""
    blocks, end = source.choice([*[source.randint(12, 90)] * 4, 280]), source.choice([6, 10])
    image_blocks = blocks if blocks == 280 else max(12, blocks + source.choice([0, 0, 0, -3, 5]))
    files, at = [], end
    for number in range(source.choice([0, 3, 12, 40, 77])):
        at += source.choice([0, 0, 0, 1, 2, 3, 5])
        size = source.choice([1, 1, 1, 2, 3, 6])
        if at + size > min(blocks, image_blocks):
            break
        name = random_name(source, number)
        files.append(File(name, at, at + size, source.choice([1, 512, source.randint(1, 512)]),
                          source.choice([0, 2, 2, 2, 3, 4, 5, 6, 7, 8, 9, 15]),
                          source.getrandbits(16), source.getrandbits(12), source.randbytes(15)))
        at += size
    image, is_big, filler = (marked(image_blocks, source.random()), source.random() < 0.5,
                             source.randbytes(4 * BLOCK))
    volume = Volume(random_name(source, 0)[:7], blocks, files, image, end, is_big, filler)
    volume.duplicate = (source.choice([None, None, source.randbytes(4 * BLOCK)]) if end == 10
                        else None)
    return volume


def random_name(source, number):
    letters = "ABCXYZ0189._-/\\"
    return (f"{number}"
            + "".join(source.choice(letters) for _ in range(source.choice([1, 6, 14]))))[:15]


def random_form(source, blocks):
    dos = volumes.by_sectors(volumes.BY_DOS)
    two_img = ("2IMG, blocks in order",
               volumes.two_img(volumes.in_order, 1, source.randint(64, 600),
                               behind=source.randbytes(99)))
    in_sectors = ("2IMG, sectors in the order of DOS 3.3",
                  volumes.two_img(dos, source.randint(0, 1)))
    copied = ("DiskCopy 4.2",
              volumes.disk_copy(source.randbytes(source.randint(0, 63)),
                                source.randbytes(12 * source.randint(0, 40))))
    others = ([("sectors in the order of DOS 3.3", dos), in_sectors]
              if blocks == 280
              else [IN_ORDER, two_img, copied])
    return source.choice([IN_ORDER, two_img, *others])


def random_puts(source, volume):
    """Names that are there and new ones, with lengths about those of the gaps and of the places of
    files."""
    lengths = ([length for length, _ in volumes.runs(volume.owners())]
               + [file.next - file.first for file in volume.files] + [1])
    names = ([file.name for file in volume.files]
             + [random_name(source, number) for number in range(90, 94)]
             * (1 + len(volume.files) // 4))
    for number in range(6):
        blocks = max(1, source.choice(lengths) + source.choice([-1, 0, 0, 1, 2]))
        name = source.choice(names)
        length = BLOCK * blocks - source.choice([0, 0, 1, 511, source.randint(0, 511)])
        yield source.choice([name, name.lower(), name.capitalize()]), data(length, source.random())


def of_random(seed, count):
    for number in range(count):
        source = random.Random(f"{seed} {number}")
        volume = random_volume(source)
        form = random_form(source, len(volume.image) // BLOCK)
        yield case(f"random {seed} {number}", volume, form, list(random_puts(source, volume)))


def main():
    seed, count = (sys.argv[2] if len(sys.argv) > 2 else "1",
                   int(sys.argv[3]) if len(sys.argv) > 3 else 200)
    parts = [of_formats(), of_sizes(), of_full(), of_duplicates(), of_names(), of_dates(),
             of_damage(), of_cut_images(), of_damaged_duplicates(False),
             of_damaged_duplicates(True), of_former_duplicates(), of_others(),
             of_random(seed, count)]
    with open(sys.argv[1], "w", encoding="ascii") as file:
        file.writelines(json.dumps(made) + "\n" for made in itertools.chain(*parts))


main()
