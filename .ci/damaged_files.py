"""What happens to code files on their way from one machine to another, and what is given in place
of them, as several scripts try it."""
import binascii
import struct

BLOCK, SECTOR, TRACK = 512, 256, 4096


def with_bytes(file, at, new):
    """The file with other bytes from a place on."""
    return file[:at] + new + file[at + len(new) :]


def changed(file, *changes):
    """The file with other bytes from some places on."""
    for at, new in changes:
        file = with_bytes(file, at, new)
    return file


def swapped(file):
    """Each two bytes exchanged."""
    return b"".join(file[at : at + 2][::-1] for at in range(0, len(file), 2))


def macbinary(file, name=b"DEMO.CODE", kind=b"BINApdos"):
    """The file as MacBinary: a header of 128 bytes, then the file in pieces of 128 bytes."""
    head = bytes([0, len(name)]) + name
    head = changed(head.ljust(128, b"\0"), (65, kind), (83, len(file).to_bytes(4, "big")))
    return head + file + bytes(-len(file) % 128)


def in_dos_order(file):
    """Whole tracks, with their sectors in the order of DOS 3.3: the first and the last of a track
    are where they were, and those between are in the other order."""
    file += bytes(-len(file) % TRACK)
    order = [0, *range(14, 0, -1), 15]
    return b"".join(file[track + SECTOR * sector : track + SECTOR * (sector + 1)]
                    for track in range(0, len(file), TRACK)
                    for sector in order)


def volume(contents, boot=b"", end=6, blocks=0, files=0, entries=b"", name=b"DISK"):
    """A volume of this name: two boot blocks; four of its directory, which says that it ends before
    this block, and how many blocks and files there are; and what follows."""
    head = struct.pack("<3H8s2H", 0, end, 0, bytes([len(name)]) + name, blocks, files).ljust(
        26, b"\0")
    return boot.ljust(2 * BLOCK, b"\0") + (head + entries).ljust(4 * BLOCK, b"\0") + contents


def of_later_release(host):
    """The sample host with the version of release III.0 in the word of its segment."""
    return changed(host, (256, bytes(32)), (258, (3 << 13 | 1).to_bytes(2, "little")))


def uuencoded(file):
    """As `uuencode` writes it."""
    lines = [binascii.b2a_uu(file[at : at + 45]) for at in range(0, len(file), 45)]
    return b"begin 644 demo.code\n" + b"".join(lines) + b"`\nend\n"


def hex_dump(file):
    """As `xxd` writes it."""
    pairs = lambda line: b" ".join(binascii.hexlify(line[k : k + 2])
                                   for k in range(0, len(line), 2))
    return b"".join(b"%08x: %-39s  ................\n" % (at, pairs(file[at : at + 16]))
                    for at in range(0, len(file), 16))
