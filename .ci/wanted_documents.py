"""The documents that `pslink --json` prints, made of the files alone: by the linker of linker.py,
and by docs/JSON.md and docs/OUTPUT.md. Nothing here is what pslink prints."""
import types

import linker
from linker import (CONSTDEF, EMPTY, EOFMARK, HOST, OTHER, PLAIN, PRIVREF, PUBLDEF, PUBLREF, UNIT,
                    UNITREF, WANTED, Fault)

UNREAD = range(19, 24)  # the faults of a record that cannot be read
REFUSED_KINDS = {2: 7, 4: 8, 5: 9, 6: 9, 7: 9}
UNKNOWN_KIND = 10
READABLE = {0, *range(32, 127), *range(128, 256)}
LETTERS = {8: "b", 9: "t", 10: "n", 12: "f", 13: "r", 34: '"', 92: "\\"}


# JSON.md, Forms -----------------------------------------------------------------------------------


class Lines(list):
    """A list whose items begin a line each, and so does its closing bracket."""


def string(text):
    def escaped(character):
        code = ord(character)
        if code in LETTERS:
            return f"\\{LETTERS[code]}"
        return f"\\u{code:04X}" if code < 32 or 127 <= code < 160 else character

    return f'"{"".join(map(escaped, text))}"'


def written(value):
    """The text of a value."""
    if isinstance(value, Lines):
        return "[" + ",".join(f"\n{written(item)}" for item in value) + "\n]"
    if isinstance(value, list):
        return "[" + ",".join(map(written, value)) + "]"
    if isinstance(value, dict):
        return "{" + ",".join(f"{string(key)}:{written(item)}" for key, item in value.items()) + "}"
    if isinstance(value, str):
        return string(value)
    return {None: "null", True: "true", False: "false"}[value] if value is None or isinstance(
        value, bool) else str(value)


def named(name):
    return {"name": linker.printed(name), "name_hex": name.hex().upper()}


def fault_of(fault, name):
    """A fault, and the name of what it is about."""
    names = {"name": None, "name_hex": None} if name is None else named(name)
    return {"number": fault.number, "reason": fault.name, **fault.parts, **names}


def refusal_document(files, out, fault):
    """JSON.md, Refusals: the document of the files at these paths, which were to be linked to `out`
    if it is not None, for a fault."""
    path = {"path": str(files[fault["file"]])}
    return {**path, "fault": fault} if out is None else {**path, "out": str(out), "fault": fault}


# A link -------------------------------------------------------------------------------------------


class Tried(linker.Link):
    """A link of files, up to the fault that stops it, if one does."""

    def __init__(self, host, libraries):
        self.segments, self.units, self.fault = [], {}, None
        try:
            super().__init__(host, libraries)
        except Fault as fault:
            self.fault = fault

    def refusal(self):
        return fault_of(self.fault, self.name())

    def name(self):
        """What the fault is about: the name in its record; else that of its slot in the host or,
        where the slot is empty, of the unit that is added there."""
        slot, record = self.fault.parts["slot"], self.fault.parts["record"]
        if slot is None:
            return None
        segment = next((one for one in self.segments if one.slot == slot), None)
        if record is not None and self.fault.number not in UNREAD:
            return segment.records[record].name
        own = self.host.slots[slot]
        if own.role != EMPTY:
            return own.name
        return segment.name if segment else self.next_unit()

    def next_unit(self):
        """The name that is requested first among those of no unit."""
        queue = []
        for segment in self.segments:
            self.request(queue, segment)
        return queue[0][0]

    def blocks(self):
        return len(self.file()[0]) // linker.BLOCK

    def link_document(self):
        return {"segments": len(self.segments), "private_words": self.words,
                "blocks": self.blocks()}

    def verdict(self):
        """What the document of a check begins with."""
        if self.fault:
            return {"links": False, "fault": self.refusal()}
        return {"links": True, **self.link_document(), "fault": None}

    def map_document(self, with_references):
        _, starts = self.file()
        segments = Lines(self.segment_item(one, starts[one.slot]) for one in self.segments)
        definitions = Lines(
            {"kind": "public" if record.type == PUBLDEF else "constant", **named(name),
             "value": record.value}
            for name, record in self.definitions.items())
        privates = Lines(
            {"slot": slot, **named(name), "offset": offset, "words": words}
            for slot, name, offset, words in self.privates)
        document = {"segments": segments, "definitions": definitions, "privates": privates}
        document |= {"next": self.next, "data": self.data, "blocks": self.blocks()}
        if with_references:
            document["references"] = Lines(
                item for one in self.segments if one.is_resolved for item in self.stored_items(
                    one, starts[one.slot]))
        return document

    @staticmethod
    def segment_item(one, block):
        place = {"file": one.file.number, "entry": one.entry.index, "block": block}
        return {"slot": one.slot, **named(one.name), **place, "length": len(one.code),
                "added": one.added}

    def places(self, one):
        """What a link stores in a code: the word for it, the place, how many bytes, and the
        record."""
        yield "number", len(one.code) - 2, 1, None
        if one is self.program:
            yield "data size", one.tables[1] - 8, 2, None
        for record in one.records:
            for reference in record.references if record.type in linker.FORMATS else ():
                yield "reference", reference, 1 if record.type == UNITREF else 2, record

    def stored_items(self, one, block):
        """The items of what a link stores in a code, by place."""
        for place in sorted(self.places(one), key=lambda place: place[1]):
            yield self.stored_item(one, block, *place)

    @staticmethod
    def stored_item(one, block, word, place, width, record):
        before = linker.code_of(one.entry, one.slot)
        was, now = (bytes(code[place : place + width]).hex().upper() for code in (before, one.code))
        item = {"stores": word, "slot": one.slot, **named(one.name), "at": place,
                "offset": linker.BLOCK * block + place, "was": was, "is": now}
        of_record = record and {"kind": linker.RECORDS[record.type], **named(record.name),
                                "index": record.index}
        return {**item, "record": of_record}


# A file by itself ---------------------------------------------------------------------------------


def opened(data):
    """The file, and its byte order, which is little where no kind says it."""
    if len(data) < linker.BLOCK:
        raise Fault(1, 0)
    order = linker.order_of(data)
    if order == "mixed":
        raise Fault(2, 0)
    return linker.CodeFile(data, 0, order or "little")


def read_to_list(data):
    """OUTPUT.md, List, ORDER: the file, read in the order in which a slot with a name has its code,
    where no kind says it."""
    if linker.order_of(data) is None and len(data) >= linker.BLOCK:
        little, big = (linker.CodeFile(data, 0, order) for order in ("little", "big"))
        return big if has_code(big) and not has_code(little) else little
    return opened(data)


def has_code(file):
    """A slot with a name has its code in the file."""
    named_slots = [slot for slot in file.slots if slot.is_filled and slot.name not in linker.BLANK]
    return any(fault_of_step(linker.code_of, slot, slot.index) is None for slot in named_slots)


def show_document(data):
    """OUTPUT.md, Show."""
    file = opened(data)
    units = {slot.name for slot in file.slots if slot.role in (UNIT, WANTED)}
    return {"order": linker.order_of(data) or "unknown",
            "slots": Lines(shown(slot, units) for slot in file.slots)}


def shown(slot, units):
    words = {"kind": slot.kind, "address": slot.address, "length": slot.length, "text": slot.text}
    item = {"slot": slot.index, **named(slot.name), **words, "fault": None, "records": None}
    if slot.role not in (HOST, UNIT):
        return item
    try:
        linker.code_of(slot, slot.index)
    except Fault as fault:
        return {**item, "fault": fault_of(fault, slot.name), "records": []}
    return {**item, "records": Lines(shown_records(slot, units))}


def shown_records(slot, units):
    index = 0
    try:
        for record in linker.records_of(slot, slot.index):
            yield {"record": index, "kind": linker.RECORDS[record.type],
                   **shown_record(record, units)}
            index += 1
    except Fault as fault:
        yield {"record": index, "kind": "fault", "fault": fault_of(fault, slot.name)}


def shown_record(record, units):
    if record.type == EOFMARK:
        return {"next": record.value}
    if record.type in (PUBLDEF, CONSTDEF):
        return {**named(record.name), "value": record.value}
    words = {"words": record.size} if record.type == PRIVREF else {}
    item = {**named(record.name), **words, "references": list(record.references)}
    return {**item, "unlisted": record.name not in units} if record.type == UNITREF else item


def is_code_file(file):
    """OUTPUT.md, List: an entry has a kind up to 7 and a name of bytes that ASCII prints, zeros and
    bytes above 127; where all kinds are 0, one with a name has its code."""
    if not any(slot.kind for slot in file.slots):
        return has_code(file)
    named_slots = [slot for slot in file.slots if slot.is_filled and slot.name not in linker.BLANK]
    return any(slot.kind <= 7 and READABLE.issuperset(slot.name) for slot in named_slots)


def fault_of_step(step, *arguments):
    """The fault of a step, or None."""
    try:
        step(*arguments)
    except Fault as fault:
        return fault
    return None


def contents_of(file):
    """PURPOSE: what a code file is for, by the kinds of the slots that say it."""
    kinds = {slot.kind for slot in file.slots if slot.is_filled or slot.role == WANTED}
    if not is_code_file(file) or not kinds:
        return None
    if linker.HOSTSEG in kinds:
        return "host"
    if linker.LINKED in kinds:
        return "linked" if kinds == {linker.LINKED} else "mixed"
    return "library"


def type_of(data, types):
    """TYPE: one of these by bytes; of any other file that is tried, what is no code file has one
    byte throughout, or no known form."""
    if data in types:
        return types[data]
    if len(set(data)) == 1:
        return f"a file of the byte {data[0]:02X} alone"
    is_code = fault_of_step(opened, data) is None and is_code_file(read_to_list(data))
    return None if is_code else "no code file of a known form"


def list_item(path, data, with_units, types):
    """OUTPUT.md, List: the item of a file, or of a path where none can be read."""
    if data is None:
        return {"path": path, "length": None, "type": None, "order": None, "contents": None,
                "fault": None, "segments": Lines()}
    item = {"path": path, "length": len(data), "type": type_of(data, types), "order": None,
            "contents": None, "fault": None}
    slots = []
    if fault := fault_of_step(opened, data):
        item["fault"] = fault_of(fault, None)
    else:
        file = read_to_list(data)
        item |= {"order": file.order, "contents": contents_of(file)}
        slots = [] if item["type"] else [slot for slot in file.slots if slot.role != EMPTY]
    item["segments"] = Lines(listed(slot) for slot in slots)
    if with_units:
        item["units"] = Lines(
            {"slot": slot.index, **named(slot.name), "fault": by_itself(slot)}
            for slot in slots
            if slot.role == UNIT)
    return item


def list_document(files, with_units, types):
    """The document of files, each a path and its bytes; `types` has what those with these bytes are
    that are no code files."""
    return {"files": Lines(list_item(path, data, with_units, types) for path, data in files)}


def listed(slot):
    """The item of a slot that is not empty."""
    item = {"slot": slot.index, **named(slot.name), "kind": slot.kind}
    if slot.role == WANTED:
        return {**item, "role": "wanted", "length": None, "fault": None, "uses": []}
    if slot.role == OTHER:
        fault = Fault(REFUSED_KINDS.get(slot.kind, UNKNOWN_KIND), 0, slot.index)
        return {**item, "role": None, "length": slot.length, "fault": fault_of(fault, slot.name),
                "uses": []}
    item |= {"role": {PLAIN: "linked", HOST: "host", UNIT: "unit"}[slot.role],
             "length": slot.length}
    try:
        records = linker.Segment(slot.index, slot, slot.name).records
    except Fault as fault:
        return {**item, "fault": fault_of(fault, slot.name), "uses": []}
    return {**item, "fault": None,
            "uses": [named(record.name) for record in records if record.type == UNITREF]}


def by_itself(slot):
    """OUTPUT.md, Units by themselves: the first fault of a unit in a link with a host that would
    define each name, with the base offset 1."""
    link = linker.Link.__new__(linker.Link)
    link.program = types.SimpleNamespace(records=[types.SimpleNamespace(value=1)])
    try:
        unit = linker.Segment(slot.index, slot, slot.name)
        public = types.SimpleNamespace(type=PUBLDEF, value=1)
        link.segments, link.units = [unit], {record.name: 0 for record in unit.records}
        link.definitions = {
            record.name: public for record in unit.records if record.type == PUBLREF}
        link.allot()
        link.resolve(unit)
    except Fault as fault:
        return fault_of(fault, slot.name)
    return None
