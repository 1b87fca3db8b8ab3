"""Volumes of the p-System for the tests of volume.mjs, written apart from it: what a volume has,
the bytes of an image of it, and what a put is to make of it. Blocks are marked one by one as free
or not, where volume.mjs looks at gaps between entries."""
import copy
import dataclasses
import itertools
import struct

BLOCK = 512
ENTRIES = 78
KINDS = "untyped,bad blocks,code,text,info,data,graf,foto,securedir".split(",")
# Where the drive finds the sectors of a track one after the other, by the number that each system
# gives them.
BY_BLOCKS = [0, 2, 4, 6, 8, 10, 12, 14, 1, 3, 5, 7, 9, 11, 13, 15]
BY_DOS = [0, 7, 14, 6, 13, 5, 12, 4, 11, 3, 10, 2, 9, 1, 8, 15]
BY_CPM = [0, 11, 6, 1, 12, 7, 2, 13, 8, 3, 14, 9, 4, 15, 10, 5]
ON_DISK = list(range(16))


class Refused(Exception):
    """What volume.mjs is to say in place of a put."""


@dataclasses.dataclass
class File:
    name: str
    first: int
    next: int
    last: int = BLOCK
    kind: int = 2
    date: int = 0
    # what no rule reads: the other bits of the word of the kind, and the bytes after the name
    others: int = 0
    filler: bytes = bytes(15)

    def entry(self, big):
        name = self.name.encode("latin-1")
        order = ">" if big else "<"
        filled = (name + self.filler[len(name):])[:15]
        return struct.pack(f"{order}3HB15s2H", self.first, self.next, 16 * self.others + self.kind,
                           len(name), filled, self.last, self.date)

    def size(self):
        return BLOCK * (self.next - self.first) - BLOCK + self.last


@dataclasses.dataclass
class Volume:
    name: str
    blocks: int
    files: list
    # all blocks of the image, with anything in those of the directory
    image: bytes
    end: int = 6
    big: bool = False
    # what the directory has where no rule reads it; and the duplicate directory, if it is another
    filler: bytes = bytes(4 * BLOCK)
    duplicate: bytes = None

    def limit(self):
        """The block after the last that a file can have."""
        return min(self.blocks, len(self.image) // BLOCK)

    def owners(self):
        """For each block what has it: a file, the directory, or None."""
        blocks = [None] * self.limit()
        blocks[:self.end] = ["directory"] * min(self.end, len(blocks))
        for file in self.files:
            blocks[file.first:file.next] = [file] * (file.next - file.first)
        return blocks

    def directory(self):
        order = ">" if self.big else "<"
        name = self.name.encode("latin-1")
        head = struct.pack(f"{order}3HB7s2H", 0, self.end, 0, len(name), name, self.blocks,
                           len(self.files))
        entries = (head + self.filler[len(head):26]
                   + b"".join(file.entry(self.big) for file in self.files))
        return entries + self.filler[len(entries):]

    def bytes(self):
        """The blocks of the image with the directory in them."""
        image = bytearray(self.image)
        image[2 * BLOCK:6 * BLOCK] = self.directory()
        if self.end == 10:
            image[6 * BLOCK:10 * BLOCK] = (
                self.directory() if self.duplicate is None else self.duplicate)
        return bytes(image)

    def contents(self, file):
        return self.image[BLOCK * file.first:][:file.size()]


def date_word(date):
    return date["year"] % 100 * 512 + date["day"] * 16 + date["month"]


def is_unclosed(word):
    """A file that was made and never closed has this in place of a year."""
    return word // 512 == 100


def date_told(word):
    year, day, month = word // 512, word // 16 % 32, word % 16
    if day == 0 or month not in range(1, 13) or is_unclosed(word):
        return None
    return {"year": year + (2000 if year < 70 else 1900), "month": month, "day": day}


def many(number, what):
    return f"{number} {what}" + "s" * (number != 1)


def runs(owners):
    """The runs of blocks that nothing has: the length and the first block of each."""
    numbered = itertools.groupby(range(len(owners)), key=lambda block: owners[block] is None)
    blocks = [list(run) for is_free, run in numbered if is_free]
    return sorted((len(run), run[0]) for run in blocks)


def landing(volume, blocks, old):
    """The block from which on a file is put."""
    owners = volume.owners()
    usable = (itertools.takewhile(lambda owner: owner is None or owner is old, owners[old.first:])
              if old else [])
    in_place = len(list(usable))
    if old and in_place >= blocks:
        return old.first
    free = runs(owners)
    fitting = [run for run in free if run[0] >= blocks]
    if fitting:
        return min(fitting)[1]
    most, total = max((length for length, _ in free), default=0), sum(length for length, _ in free)
    others = f" In place of {old.name} there is room for {in_place}." if old else ""
    raise Refused(f"The file has {many(blocks, 'block')}, and the volume {volume.name} has {most} "
                  f"free together, {total} in all.{others}")


def put(volume, name, data, date):
    """The volume after a put, and where the file is; Refused if nothing is to be written. The name
    is one that a file can have."""
    old = next((file for file in volume.files if file.name.upper() == name.upper()), None)
    if old is None and len(volume.files) == ENTRIES - 1:
        raise Refused(f"The directory of {volume.name} is full: it has 77 files, and no room for "
                      "another.")
    blocks = len(data) // BLOCK + (len(data) % BLOCK > 0)
    first = landing(volume, blocks, old)
    new = File(name.upper(), first, first + blocks, len(data) % BLOCK or BLOCK, 2, date_word(date))
    after = copy.copy(volume)
    after.files = sorted([file for file in volume.files if file is not old] + [new],
                         key=lambda file: file.first)
    after.image = (volume.image[:BLOCK * first] + data + bytes(BLOCK * blocks - len(data))
                   + volume.image[BLOCK * (first + blocks):])
    after.duplicate = None
    # an entry that is no longer used stays as it was: there are never fewer
    return after, {"first": first, "blocks": blocks, "replaced": old is not None}


def read(blocks, big):
    """The name of a volume and its files, from the bytes of its blocks: for what was made, as
    another program would read it."""
    order = ">" if big else "<"
    directory = blocks[2 * BLOCK:6 * BLOCK]
    entries = [directory[place:place + 26] for place in range(0, ENTRIES * 26, 26)]
    end, total, count = struct.unpack(f"{order}2xH10x2H", entries[0][:18])
    files = []
    for entry in entries[1:count + 1]:
        first, after, kind, last, date = struct.unpack(f"{order}3H16x2H", entry)
        files.append((entry[7:7 + entry[6]].decode("latin-1"), first, after, kind % 16, last, date))
    return entries[0][7:7 + entries[0][6]].decode("latin-1"), end, total, files


# Images

def by_sectors(order):
    """The bytes of blocks with the sectors of each track in another order: those of blocks lie on
    the disk as BY_BLOCKS says."""
    def arranged(blocks):
        sectors = [blocks[place:place + 256] for place in range(0, len(blocks), 256)]
        image = [None] * len(sectors)
        for number, sector in enumerate(sectors):
            track, half = divmod(number, 16)
            image[16 * track + order[BY_BLOCKS[half]]] = sector
        return b"".join(image)
    return arranged


def in_order(blocks):
    return blocks


def two_img(arranged, order, start=64, length=None, before=b"", behind=b"", blocks_field=0):
    """2IMG: a header of little-endian words, the data from `start` on, and what may stand
    behind."""
    def wrapped(blocks):
        stated = len(blocks) if length is None else length
        header = struct.pack("<4s4s2H6L", b"2IMG", b"TEST", 64, 1, order, 0x80000001, blocks_field,
                             start, stated, 0)
        return (header.ljust(64, b"\7") + before).ljust(start, b"\0") + arranged(blocks) + behind
    return wrapped


def disk_copy_sum(data):
    total = 0
    for word in struct.unpack(f">{len(data) // 2}H", data):
        total = total + word & 0xFFFFFFFF
        total = total >> 1 | (total & 1) << 31
    return total


def disk_copy(title=b"disk", tags=b"", checksum=None):
    """DiskCopy 4.2: a header of big-endian numbers, the data, and tags."""
    def wrapped(blocks):
        told = disk_copy_sum(blocks) if checksum is None else checksum
        sizes = struct.pack(">4L", len(blocks), len(tags), told, disk_copy_sum(tags[12:]))
        return (bytes([len(title)]) + title.ljust(63, b"\xee") + sizes + b"\1\x22\1\0" + blocks
                + tags)
    return wrapped
