"""Files that are no code files as they are given, and the code file that comes of each: written
after the descriptions of the forms, and of the tools that print dumps."""
import base64
import gzip
import struct


def mac_binary(content):
    header = bytearray(128)
    header[1:12] = b"\x0aPROGRAM X "
    header[65:73] = b"CODEPSYS"
    header[83:91] = struct.pack(">II", len(content), 300)
    return bytes(header) + content.ljust(-(-len(content) // 128) * 128, b"\0") + b"resource" * 48


def apple_single(content):
    name = b"PROGRAM"
    first = 26 + 2 * 12
    entries = struct.pack(">IIIIII", 3, first, len(name), 1, first + len(name), len(content))
    return struct.pack(">II16xH", 0x00051600, 0x00020000, 2) + entries + name + content


def disk_copy(content):
    header = (
        b"\x04DISK".ljust(64, b"\0")
        + struct.pack(">IIII", len(content), 12, 0, 0)
        + b"\x01\x22\x01\x00"
    )
    return header + content + bytes(12)


def two_img(content):
    return (
        b"2IMGTEST"
        + struct.pack("<HHIIIII", 64, 1, 1, 0, len(content) // 512, 64, len(content))
        + bytes(32)
        + content
    )


def swapped(content):
    return b"".join(content[k + 1 : k + 2] + content[k : k + 1] for k in range(0, len(content), 2))


def lines_of(content, written, last, star=True):
    """The lines of a dump, 16 bytes each: one like the line before is a star, or left out after
    it."""
    lines, before, starred = [], None, False
    for at in range(0, len(content), 16):
        part = content[at : at + 16]
        if star and part == before and at + 16 < len(content):
            if not starred:
                lines.append("*")
            starred = True
            continue
        lines.append(written(at, part))
        before, starred = part, False
    return "\n".join([*lines, *([last(len(content))] if last else [])]).encode() + b"\n"


def letters(part):
    return "".join(chr(byte) if 32 <= byte < 127 else "." for byte in part)


def words(part):
    return [
        part[k] + 256 * (part[k + 1] if k + 1 < len(part) else 0) for k in range(0, len(part), 2)
    ]


def xxd(content):
    pairs = lambda part: " ".join(part[k : k + 2].hex() for k in range(0, len(part), 2))
    return lines_of(
        content, lambda at, part: f"{at:08x}: {pairs(part):<39}  {letters(part)}", None, star=False
    )


def hexdump_c(content):
    bytes_of = lambda part: "  ".join(
        " ".join(f"{byte:02x}" for byte in half) for half in (part[:8], part[8:])
    )
    return lines_of(
        content,
        lambda at, part: f"{at:08x}  {bytes_of(part):<48}  |{letters(part)}|",
        lambda size: f"{size:08x}",
    )


def hexdump(content):
    return lines_of(
        content,
        lambda at, part: f"{at:07x} " + " ".join(f"{word:04x}" for word in words(part)),
        lambda size: f"{size:07x}",
    )


def od(content):
    return lines_of(
        content,
        lambda at, part: f"{at:07o} " + " ".join(f"{word:06o}" for word in words(part)),
        lambda size: f"{size:07o}",
    )


def od_bytes(content):
    return lines_of(
        content,
        lambda at, part: f"{at:07o} " + " ".join(f"{byte:02x}" for byte in part),
        lambda size: f"{size:07o}",
    )


def od_octal(content):
    return lines_of(
        content,
        lambda at, part: f"{at:07o} " + " ".join(f"{byte:03o}" for byte in part),
        lambda size: f"{size:07o}",
    )


def digits(content):
    return "\n".join(content[k : k + 30].hex() for k in range(0, len(content), 30)).encode() + b"\n"


HEADER, TEXT = ("Use it without its header", "without its header"), (
    "Use it turned back",
    "turned back",
)
# the name, what makes the file, what the page says of it, its button, and what stands behind the
# name of what comes of it
FORMS = [
    ("library.bin", mac_binary, "is behind a header of MacBinary", *HEADER),
    ("library.as", apple_single, "is a file of AppleSingle", *HEADER),
    ("library.dc", disk_copy, "is behind a header of DiskCopy 4.2", *HEADER),
    ("library.2mg", two_img, "is behind a header of 2IMG", *HEADER),
    (
        "library.128",
        lambda content: b"\xee" * 128 + content,
        "is behind a header of 128 bytes",
        *HEADER,
    ),
    (
        "library.512",
        lambda content: b"\xee" * 512 + content,
        "is behind a header of 512 bytes",
        *HEADER,
    ),
    (
        "library.swapped",
        swapped,
        "has the two bytes of each pair exchanged",
        "Use it with its bytes exchanged",
        "with its bytes exchanged",
    ),
    ("library.code.gz", gzip.compress, "is a gzip file", "Use it unpacked", "unpacked"),
    ("library.xxd", xxd, "is a dump", *TEXT),
    ("library.hexdump", hexdump_c, "is a dump", *TEXT),
    ("library.words", hexdump, "is a dump", *TEXT),
    ("library.od", od, "is a dump", *TEXT),
    ("library.odx", od_bytes, "is a dump", *TEXT),
    ("library.odo", od_octal, "is a dump", *TEXT),
    ("library.hex", digits, "is a text of hexadecimal digits", *TEXT),
    ("library.b64", base64.encodebytes, "is a text in base64", *TEXT),
    (
        "library.b64.crlf",
        lambda content: base64.encodebytes(content).replace(b"\n", b"\r\n"),
        "is a text in base64",
        *TEXT,
    ),
]
