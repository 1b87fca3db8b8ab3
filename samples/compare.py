#!/usr/bin/env python3
"""Says whether LINKED, which another linker made of HOST and LIB.., is a right link of them; if
not, the first difference. Usage: compare.py [--pslink PROGRAM] [--all] HOST LINKED [LIB]..; the
status is 0 if it is right, 1 if it is wrong, 2 if that cannot be said, since pslink refuses the
files or one cannot be read.

There is no linker in this script. `pslink map --references --json HOST LIB..` prints which segments
are linked, where in their codes a link stores something, and the values of public variables. All
else is looked up in LINKED.

These may differ from the file that pslink writes, and each that does is printed:
- the order of the codes in the file, gaps between them and what fills these, and the length of the
file; - text addresses, bytes 256 to 511 of the dictionary, and names and addresses of empty slots;
- the slot of a unit that the host does not name;
- the base offsets of private variables, and how far the data size of the program's outer block
grows: each variable has one base
  offset for all its references, and words of its own, between the program's own data and the end of
  the data size.

All else must be as pslink does it. Of that some are choices of pslink: a private variable belongs
to one segment; definitions of units have no effect; an operand gets the sum of its displacement and
a value, in two bytes with bit 7 set; the offsets of references begin at the segment's first byte;
the kind of each slot is 0. A linker that chose otherwise is said to be wrong.

Where another way to count the references fits the bytes that LINKED changed better than that of
pslink, as from one byte earlier, a line says so, also where pslink refuses the files with 31 to 33.

What cannot be seen: a wrong displacement in the only reference of a private variable reads as
another base offset."""
import argparse
import json
import pathlib
import re
import subprocess
import sys
import typing

sys.dont_write_bytecode = True
BLOCK, SLOTS = 512, 16
# offsets in the dictionary: the names, the kinds, the text addresses, the rest
NAMES, KINDS, TEXTS, TAIL = 64, 192, 224, 256


class Entry(typing.NamedTuple):
    """What a dictionary says of a slot. `start` is the offset of its code in the file."""

    start: int
    length: int
    name: bytes
    kind: int
    text: int

    @property
    def end(self):
        return self.start + self.length


class CodeFile:
    """A code file in a byte order: its bytes and the entries of its slots."""

    def __init__(self, content, order):
        self.content, self.order = content, order
        self.entries = [self.entry(slot) for slot in range(SLOTS)]

    def word(self, at):
        return int.from_bytes(self.content[at : at + 2], self.order)

    def entry(self, slot):
        name = self.content[NAMES + 8 * slot : NAMES + 8 * slot + 8]
        start, length = BLOCK * self.word(4 * slot), self.word(4 * slot + 2)
        return Entry(start, length, name, self.word(KINDS + 2 * slot), self.word(TEXTS + 2 * slot))

    def code(self, slot):
        entry = self.entries[slot]
        return self.content[entry.start : entry.end]


class Segment:
    """A segment of the link: its slots in the link of pslink and in LINKED, its name, its code
    before and after, and what a link stores in it. Of an added unit that is not found in LINKED,
    `there` is None."""

    def __init__(self, described, stored, files, linked, there):
        self.slot, self.there = described["slot"], there
        self.name, self.title = bytes.fromhex(described["name_hex"]), described["name"].strip()
        self.before = files[described["file"]].code(described["entry"])
        self.after = b"" if there is None else linked.code(there)
        self.stored = stored

    def can_be_compared(self):
        return len(self.before) == len(self.after)

    def at(self, place):
        return f"slot {self.there:02} {self.title} at {place}"


class Link:
    """A link as pslink prints it in `document`, the bytes of its files, and the bytes that another
    linker made of them."""

    def __init__(self, document, files, linked):
        order = "little" if any(files[0][KINDS:TEXTS:2]) else "big"
        read = [CodeFile(each, order) for each in files]
        self.document, self.host, self.linked = document, read[0], CodeFile(linked, order)
        taken = {each["slot"] for each in document["segments"] if not each["added"]}
        self.segments = []
        for each in document["segments"]:
            found = self.slots_of(each, taken)
            stored = [line for line in document["references"] if line["slot"] == each["slot"]]
            self.segments.append(Segment(each, stored, read, self.linked,
                                         found[0] if len(found) == 1 else None))
        self.there = {segment.slot: segment.there for segment in self.segments}
        self.offsets = {}
        for variable, offset in self.base_offsets():
            self.offsets.setdefault(variable, offset)

    def slots_of(self, described, taken):
        """The slots that a segment may have in LINKED: that of the host, or those that have the
        name of an added unit."""
        if not described["added"]:
            return [described["slot"]]
        name = bytes.fromhex(described["name_hex"])
        return [slot
                for slot, entry in enumerate(self.linked.entries)
                if slot not in taken and entry.length and entry.name == name]

    def base_offsets(self):
        """For each reference to a private variable its segment's slot and its name, and the base
        offset that LINKED uses there. Of each variable `offsets` has that of the first
        reference."""
        for segment in filter(Segment.can_be_compared, self.segments):
            for line in segment.stored:
                if kind_of(line) == "PRIVREF":
                    yield (segment.slot, line["record"]["name_hex"]), value_used(segment, line)

    def data_sizes(self):
        """The data size of the program's outer block before the link and in LINKED, or None if the
        code cannot be compared."""
        for segment in filter(Segment.can_be_compared, self.segments):
            for line in segment.stored:
                if line["stores"] == "data size":
                    at = line["at"]
                    return tuple(int.from_bytes(code[at : at + 2], self.linked.order)
                                 for code in (segment.before, segment.after))
        return None


def kind_of(line):
    """The kind of the record of a place where a link stores something, or None if no record is the
    reason."""
    return line["record"] and line["record"]["kind"]


def displacement(code, at):
    """The number in an operand of two bytes: the first has its high bits, below bit 7."""
    return code[at] % 128 * 256 + code[at + 1]


def value_used(segment, line):
    """What LINKED has added to the displacement of an operand."""
    return displacement(segment.after, line["at"]) - displacement(segment.before, line["at"])


# What is wrong
# --------------------------------------------------------------------------------------------------------


def differences(link):
    """What is wrong in LINKED, in words: first of its dictionary, then of its codes, then of its
    private variables."""
    if len(link.linked.content) < BLOCK:
        yield f"it has {len(link.linked.content)} bytes, and a segment dictionary has {BLOCK}"
        return
    yield from differences_of_added_units(link)
    here = {segment.there: segment for segment in link.segments}
    for slot, entry in enumerate(link.linked.entries):
        yield from differences_of_entry(link, slot, entry, here.get(slot))
    yield from overlaps(link)
    for segment in filter(Segment.can_be_compared, link.segments):
        yield from differences_of_code(link, segment)
    if link.data_sizes() is not None:
        yield from differences_of_privates(link, *link.data_sizes())


def differences_of_added_units(link):
    for segment in link.segments:
        if segment.there is None:
            slots = [slot
                     for slot, entry in enumerate(link.linked.entries)
                     if entry.length and entry.name == segment.name]
            where = "slots " + " and ".join(f"{slot:02}" for slot in slots) if slots else "no slot"
            yield f"{segment.title}, a unit that the host does not name, is in {where}"


def differences_of_entry(link, slot, entry, segment):
    """Of the entry of a slot, in which LINKED has this segment or none."""
    if segment is None:
        if entry.length:
            yield (f"slot {slot:02} has a code of {entry.length} bytes, and no segment is linked "
                   "there")
    else:
        if entry.name != segment.name:
            yield f"slot {slot:02} has the name {shown(entry.name)}, and not {shown(segment.name)}"
        if entry.length != len(segment.before):
            yield (f"slot {slot:02} {segment.title} has the length {entry.length}, and not "
                   f"{len(segment.before)}")
        elif entry.start == 0 or entry.end > len(link.linked.content):
            yield (f"slot {slot:02} {segment.title} has the address {entry.start // BLOCK}, where "
                   "its code is not in the file")
    if entry.kind:
        yield f"slot {slot:02} has the kind {entry.kind}, and not 0"


def shown(name):
    return repr(name.decode("latin-1"))


def used(link):
    """The entries of the codes and their slots, by their places in the file."""
    slots = [segment.there for segment in link.segments if segment.there is not None]
    return sorted(((link.linked.entries[slot], slot) for slot in slots),
                  key=lambda code: (code[0].start, code[1]))


def overlaps(link):
    codes = used(link)
    for (before, slot), (after, other) in zip(codes, codes[1:]):
        if after.start < before.end:
            yield f"the codes of slots {slot:02} and {other:02} overlap"


def differences_of_code(link, segment):
    """The bytes of a code that are neither those of its file nor what a link stores there, by their
    places."""
    found, stored = [], set()
    for line in segment.stored:
        stored.update(range(line["at"], line["at"] + len(line["was"]) // 2))
        found += [(line["at"], text) for text in differences_of_stored(link, segment, line)]
    others = [at
              for at, byte in enumerate(segment.before)
              if byte != segment.after[at] and at not in stored]
    if others:
        first = others[0]
        more = f"; other bytes that differ: {len(others) - 1}" if others[1:] else ""
        found.append((first,
                      f"the byte is {segment.after[first]:02X}, and not "
                      f"{segment.before[first]:02X}{more}"))
    for at, text in sorted(found):
        yield f"{segment.at(at)}: {text}"


def differences_of_stored(link, segment, line):
    """Of a place where a link stores something. Of the data size and of base offsets more is said
    with the private variables."""
    at, byte, kind = line["at"], segment.after[line["at"]], kind_of(line)
    if line["stores"] == "number" and byte != segment.there:
        yield f"the segment number is {byte}, and not {segment.there}"
    if kind is None:
        return
    title = line["record"]["name"].strip()
    if kind == "UNITREF":
        slot = link.there[bytes.fromhex(line["is"])[0]]
        if slot is not None and byte != slot:
            yield f"the unit {title} is called by the segment number {byte}, and not {slot}"
    elif byte < 128:
        yield f"the operand that refers to {title} has no bit 7, so it is not of two bytes"
    elif kind == "PUBLREF":
        used_value, value = (
            value_used(segment, line),
            displacement(bytes.fromhex(line["is"]), 0) - displacement(segment.before, at))
        if used_value != value:
            yield f"{title} is used with the value {used_value}, and not {value}"
    else:
        offset, first = value_used(segment, line), link.offsets[segment.slot,
                                                                line["record"]["name_hex"]]
        if offset != first:
            yield f"{title} is used with the base offset {offset}, and elsewhere with {first}"


def differences_of_privates(link, size_before, size):
    """Of the places of the private variables, and of the data size that has to hold them."""
    words = {(each["slot"], each["name_hex"]): each["words"] for each in link.document["privates"]}
    title = {(each["slot"],
              each["name_hex"]): f"{each['name'].strip()} of slot {link.there[each['slot']]:02}"
             for each in link.document["privates"]
             if link.there[each["slot"]] is not None}
    total, grown = sum(words.values()), size - size_before
    first = link.document["next"] - total
    end = first + grown // 2
    if grown < 2 * total or grown % 2:
        yield f"the data size grows by {grown} bytes, and the private variables have {2 * total}"
        return
    for key, start in link.offsets.items():
        if start < first:
            yield (f"{title[key]} has the base offset {start}, where the program's own data is, "
                   f"which ends at {first}")
        elif start + words[key] > end:
            yield (f"{title[key]} has {words[key]} words from the base offset {start} on, and the "
                   f"data size ends at {end}")
    places = sorted((start, start + words[key], key)
                    for key, start in link.offsets.items()
                    if words[key])
    for (_, last, one), (start, _, other) in zip(places, places[1:]):
        if start < last:
            yield f"{title[one]} and {title[other]} share the word of base offset {start}"
    unused = max((size for key, size in words.items() if key not in link.offsets), default=0)
    starts, ends = ([start for start, _, _ in places] + [end],
                    [first] + [last for _, last, _ in places])
    if unused > max(start - last for start, last in zip(starts, ends)):
        yield f"no {unused} words are left together for a private variable that has no reference"


# What may be otherwise
# ------------------------------------------------------------------------------------------------


def choices(link):
    """What a right LINKED has otherwise than the file that pslink writes, in words."""
    for segment in link.segments:
        if segment.there != segment.slot:
            yield (f"{segment.title}, which the host does not name, is in slot {segment.there:02}, "
                   f"and not {segment.slot:02}")
    slots = [slot for _, slot in used(link)]
    if slots != sorted(slots):
        yield "the codes are in the order of the slots " + " ".join(f"{slot:02}" for slot in slots)
    yield from choices_of_filling(link)
    yield from choices_of_entries(link)
    if link.linked.content[TAIL:BLOCK] != link.host.content[TAIL:BLOCK]:
        yield "bytes 256 to 511 of the dictionary are not those of the host"
    yield from choices_of_privates(link)


def choices_of_entries(link):
    taken, entries = {segment.there for segment in link.segments}, list(
        enumerate(link.linked.entries))
    empty = [(slot, entry) for slot, entry in entries if slot not in taken]
    for what, slots in [
        ("there are text addresses in the slots", [slot for slot, entry in entries if entry.text]),
        ("there are addresses in the empty slots", [slot for slot, entry in empty if entry.start]),
        ("the names are not those of the host in the empty slots",
         [slot for slot, entry in empty if entry.name != link.host.entries[slot].name]),
    ]:
        if slots:
            yield what + "".join(f" {slot:02}" for slot in slots)


def choices_of_filling(link):
    content, usual, at, filled = link.linked.content, BLOCK * link.document["blocks"], BLOCK, False
    for entry, _ in used(link):
        filled = filled or any(content[at : entry.start])
        at = entry.end
    if len(content) != usual:
        yield f"the file has {len(content)} bytes, and not {usual}"
    if filled or any(content[at:]):
        yield "there are bytes between or after the codes that are not 0"


def choices_of_privates(link):
    offsets = {(each["slot"], each["name_hex"]): each["offset"]
               for each in link.document["privates"]}
    moved = sum(link.offsets[key] != offsets[key] for key in link.offsets)
    if moved:
        yield f"private variables with another base offset: {moved}"
    _, size = link.data_sizes()
    if size != link.document["data"]:
        yield f"the data size is {size}, and {link.document['data']} is enough"


# How references are counted
# -------------------------------------------------------------------------------------------


# Where the operand of a reference is, by each way to count: the code has so many bytes, and so many
# bytes of the file are before it. The first is the way of pslink.
WAYS = {
    "the references": lambda reference, length, before: reference,
    "the references less 1": lambda reference, length, before: reference - 1,
    "the references plus 1": lambda reference, length, before: reference + 1,
    "two times the references": lambda reference, length, before: 2 * reference,
    "the end of the code less the references": lambda reference, length, before: length - reference,
    "the references less the bytes before the code": lambda reference, length, before: reference
    - before,
}
FROM_PROCEDURE = "the references, from the start of a procedure"


class Counted:
    """The references to variables of a segment, and its code before and after."""

    def __init__(self, references, order, start, before, after):
        self.references, self.order, self.start, self.before, self.after = (
            references, order, start, before, after)
        # (the segment number may change too)
        self.changed = {at for at, byte in enumerate(before[:-2]) if byte != after[at]}

    def word(self, at):
        return int.from_bytes(self.before[at : at + 2], self.order)

    def procedures(self):
        """Where each procedure is entered."""
        for number in range(1, self.before[-1] + 1):
            at = len(self.before) - 2 - 2 * number
            table = at - self.word(at)
            if self.word(at) and table >= 2:
                yield table - 2 - self.word(table - 2)

    def places(self, way):
        if way == FROM_PROCEDURE:
            return {start + reference
                    for start in self.procedures()
                    for reference in self.references}
        return {WAYS[way](reference, len(self.before), self.start) for reference in self.references}

    def covered(self, way):
        """How many of the changed bytes are in an operand that has bit 7, as a link leaves it."""
        marked = {at
                  for at in self.places(way)
                  if 0 <= at < len(self.after) - 1 and self.after[at] >= 128}
        return len(self.changed & {byte for at in marked for byte in (at, at + 1)})


def counted(program, paths, linked):
    """The segments of the files that are in LINKED by their names and lengths, and have references
    to variables."""
    order = "little" if any(content_of(paths[0])[KINDS:TEXTS:2]) else "big"
    there = CodeFile(linked, order)
    codes = {(entry.name, entry.length): linked[entry.start : entry.end]
             for entry in there.entries
             if entry.length}
    for path in paths:
        file = CodeFile(content_of(path), order)
        for slot in printed(program, "show", "--json", "--", path)["slots"] or []:
            entry, code = file.entries[slot["slot"]], file.code(slot["slot"])
            after = codes.get((entry.name, entry.length), b"")
            records = [record
                       for record in slot["records"] or []
                       if record["kind"] in ("PUBLREF", "PRIVREF")]
            references = [reference for record in records for reference in record["references"]]
            if references and len(code) == len(after) > 1:
                yield Counted(references, order, entry.start, code, after)


def way_of(program, paths, linked):
    """The line that says how LINKED counts references, where that is clearly not as pslink does."""
    segments = list(counted(program, paths, linked))
    changed = sum(len(segment.changed) for segment in segments)
    covered = {way: sum(segment.covered(way) for segment in segments)
               for way in [*WAYS, FROM_PROCEDURE]}
    best = max(covered, key=covered.get)
    if 15 * changed <= 16 * covered[best] and covered[best] > covered["the references"]:
        yield f"the bytes that LINKED changed are at {best}: {covered[best]} of {changed}"


# The program
# ----------------------------------------------------------------------------------------------------------


class Unsaid(Exception):
    """Why it cannot be said whether a link is right."""

    def __init__(self, reason, lines=()):
        super().__init__(reason)
        self.lines = lines


def printed(program, *arguments):
    """The document that pslink prints."""
    try:
        done = subprocess.run([program, *arguments], stdout=subprocess.PIPE, stderr=subprocess.PIPE)
    except OSError as error:
        raise Unsaid(f"cannot run {program}: {error.strerror}")
    if done.returncode:
        lines = (done.stderr.decode(errors="replace").splitlines()
                 or [f"{program} ends with status {done.returncode}"])
        raise Unsaid(lines[0])
    return json.loads(done.stdout.decode())


def content_of(path):
    try:
        return pathlib.Path(path).read_bytes()
    except OSError as error:
        raise Unsaid(f"cannot read {path}: {error.strerror}")


def compared(given):
    """The lines that say how a link is, and the status."""
    paths, linked = [given.host, *given.lib], content_of(given.linked)
    try:
        document = printed(given.pslink, "map", "--references", "--json", "--", *paths)
    except Unsaid as reason:
        if not re.search(r"refused 3[123] ", str(reason)):
            raise
        raise Unsaid(str(reason), list(way_of(given.pslink, paths, linked)))
    link = Link(document, [content_of(path) for path in paths], linked)
    wrong = list(differences(link))
    if not wrong:
        return [*(f"chosen otherwise: {line}" for line in choices(link)), "a right link"], 0
    way = list(way_of(given.pslink, paths, linked))
    if given.all:
        return [*(f"wrong: {line}" for line in wrong), *way, "a wrong link"], 1
    more = [f"differences: {len(wrong)}; --all prints them"] if wrong[1:] else []
    return [f"a wrong link: {wrong[0]}", *more, *way], 1


def main():
    parser = argparse.ArgumentParser(description=__doc__.splitlines()[0],
                                     epilog="The first lines of this script say what LINKED may "
                                            "choose.")
    parser.add_argument("--pslink", metavar="PROGRAM", default="pslink",
                        help="where pslink is, if it is not on the path")
    parser.add_argument("--all", action="store_true",
                        help="print each difference, and not the first alone")
    parser.add_argument("host", metavar="HOST", help="the unlinked program")
    parser.add_argument("linked", metavar="LINKED", help="the file that another linker made")
    parser.add_argument("lib", metavar="LIB", nargs="*", help="the libraries, in their order")
    try:
        lines, status = compared(parser.parse_intermixed_args())
    except Unsaid as reason:
        print(f"compare: {reason}", file=sys.stderr)
        print("".join(f"{line}\n" for line in reason.lines), end="")
        return 2
    print(*lines, sep="\n")
    return status


if __name__ == "__main__":
    sys.exit(main())
