#!/usr/bin/env python3
"""Makes a linked file without a linker: from its inputs, and from what `pslink map --references
--json HOST LIB..` prints of them. So a build can check a link. Usage: relink.py DOCUMENT OUT HOST
LIB.., where DOCUMENT has that text. The status is 0 if OUT is the file that is made so; otherwise
it is 1, and a line is printed of each part that differs or does not fit."""
import json
import pathlib
import sys
import typing

BLOCK = 512
# offsets in the dictionary: the names, the kinds, the end of the text addresses
NAMES, KINDS, TEXTS_END = 64, 192, 256


class Part(typing.NamedTuple):
    """A part of a linked file: its place there, its bytes, and what it is called."""

    start: int
    content: bytearray
    title: str


class Unfit(Exception):
    """Why no file can be made."""


def whole(code):
    """A code with zeros to its last block's end."""
    return code + bytes(-len(code) % BLOCK)


def relinked(document, files):
    """The parts of the linked file, from the document and the bytes of the host and of each
    library; and what in the document does not fit them."""
    host, misfits = files[0], []
    order = "little" if any(host[KINDS : KINDS + 32 : 2]) else "big"
    names = [host[place : place + 8] for place in range(NAMES, KINDS, 8)]
    codes, pairs, block = {}, bytearray(NAMES), 1
    for segment in document["segments"]:
        slot, title = segment["slot"], f"slot {segment['slot']:02} {segment['name'].strip()}"
        if segment["file"] >= len(files):
            raise Unfit(
                f"{title} is of file {segment['file']}, and the files given are 0 to "
                f"{len(files) - 1}")
        file, entry = files[segment["file"]], 4 * segment["entry"]
        start = BLOCK * int.from_bytes(file[entry : entry + 2], order)
        size = int.from_bytes(file[entry + 2 : entry + 4], order)
        codes[slot] = Part(BLOCK * block, bytearray(file[start : start + size]), title)
        if (segment["block"], segment["length"]) != (block, size):
            misfits.append(
                f"{title}: block {segment['block']} and length {segment['length']}, and not "
                f"{block} and {size}")
        pairs[4 * slot : 4 * slot + 4] = block.to_bytes(2, order) + size.to_bytes(2, order)
        names[slot] = bytes.fromhex(segment["name_hex"])
        block += len(whole(codes[slot].content)) // BLOCK
    misfits += [line for stored in document["references"] for line in store(stored, codes)]
    dictionary = bytes(pairs) + b"".join(names) + bytes(TEXTS_END - KINDS) + host[TEXTS_END:BLOCK]
    return [Part(0, bytearray(dictionary), "the dictionary"),
            *(part for _, part in sorted(codes.items()))], misfits


def store(stored, codes):
    """Puts into a code what the link stores at a place of it. What does not fit is said."""
    slot, place = stored["slot"], stored["at"]
    if slot not in codes:
        yield (f"slot {slot:02} {stored['name'].strip()} at {place}: the document has no such "
               "segment")
        return
    start, code, title = codes[slot]
    was, now = bytes.fromhex(stored["was"]), bytes.fromhex(stored["is"])
    there = code[place : place + len(was)]
    if there != was or len(now) != len(was) or stored["offset"] != start + place:
        yield f"{title} at {place}: {there.hex()} is there, at {start + place} of the file"
    code[place : place + len(now)] = now


def content_of(parts):
    """The bytes of the file that has these parts."""
    return b"".join(bytes(whole(part.content)) for part in parts)


def others(parts, linked, out):
    """Of each part of which this file has other bytes, how many and where the first is."""
    end = len(content_of(parts))
    compared = [(part.title, part.start, whole(part.content),
                 linked[part.start : part.start + len(whole(part.content))]) for part in parts]
    for title, start, made, there in [*compared,
                                      ("after the last segment", end, b"", linked[end:])]:
        places = [place
                  for place in range(max(len(made), len(there)))
                  if made[place : place + 1] != there[place : place + 1]]
        if places:
            yield (f"{title}: {len(places)} other bytes, the first at {places[0]}, which is "
                   f"{start + places[0]} of {out}")


def content_at(path):
    try:
        return pathlib.Path(path).read_bytes()
    except OSError as error:
        raise Unfit(f"cannot read {path}: {error.strerror}")


def document_at(path):
    """The document at a path, if it has the lists that are needed."""
    try:
        document = json.loads(content_at(path).decode())
    except ValueError:
        raise Unfit(f"{path} is no document of JSON")
    if not isinstance(document, dict) or not {"segments", "references"} <= set(document):
        raise Unfit(f"{path} is not what map prints with --references and --json")
    return document


def main(path, out, *paths):
    try:
        parts, misfits = relinked(document_at(path), [content_at(each) for each in paths])
        lines = misfits + list(others(parts, content_at(out), out))
    except Unfit as reason:
        lines = [str(reason)]
    for line in lines:
        print(f"relink: {line}")
    return 1 if lines else 0


if __name__ == "__main__":
    if len(sys.argv) < 4:
        sys.exit("usage: relink.py DOCUMENT OUT HOST LIB..")
    sys.exit(main(*sys.argv[1:]))
