"""The lines that the documents of `pslink --json` make by docs/OUTPUT.md: those that the command
prints without the flag."""
import linker

PRINTED = range(32, 127)


def name_of(item):
    """The name of an item as a line prints it, from its bytes; or null."""
    return item["name_hex"] and linker.printed(bytes.fromhex(item["name_hex"]))


def map_lines(document):
    for item in document["segments"]:
        yield (f"segment {item['slot']:02} {name_of(item)} file {item['file']} entry "
               f"{item['entry']:02} block {item['block']}"
               f" length {item['length']}{' added' if item['added'] else ''}")
    for item in document["definitions"]:
        yield f"{item['kind']} {name_of(item)} value {item['value']}"
    for item in document["privates"]:
        yield (f"private {item['slot']:02} {name_of(item)} offset {item['offset']} words "
               f"{item['words']}")
    yield f"next {document['next']} data {document['data']} blocks {document['blocks']}"
    for item in document.get("references", []):
        line = (f"{item['stores']} {item['slot']:02} {name_of(item)} at {item['at']} file "
                f"{item['offset']} was {item['was']} is {item['is']}")
        record = item["record"]
        yield line + (
            f" {record['kind']} {name_of(record)} record {record['index']}" if record else "")


def record_line(item):
    line = f"{item['record']} "
    if item["kind"] == "fault":
        return f"{line}fault {item['fault']['number']} {item['fault']['reason']}"
    line += item["kind"] + (f" {name_of(item)}" if "name" in item else "")
    line += "".join(f" {word} {item[word]}" for word in ("words", "value", "next") if word in item)
    if "references" in item:
        line += " at" + "".join(f" {place}" for place in item["references"])
    return line + (" unlisted" if item.get("unlisted") else "")


def show_lines(document):
    yield f"order {document['order']}"
    for item in document["slots"]:
        yield f"slot {item['slot']:02} {name_of(item)}" + "".join(
            f" {word} {item[word]}" for word in ("kind", "address", "length", "text"))
    for item in document["slots"]:
        if item["records"] is not None:
            yield f"links {item['slot']:02}"
        if item["fault"]:
            yield f"fault {item['fault']['number']} {item['fault']['reason']}"
        yield from map(record_line, item["records"] or [])


def quoted(name):
    """A name in a line for a person: without blanks at its end, and in quotes where ASCII does not
    print it."""
    name = name.rstrip(b" ")
    if name and all(byte in PRINTED for byte in name):
        return name.decode()
    return '"' + "".join(chr(byte) if byte in PRINTED else f"\\x{byte:02x}" for byte in name) + '"'


def not_linked_lines(document):
    """The lines of records that are not linked: of the first 16, and how many more there are."""
    for item in document["unsupported"][:16]:
        segment, name = (quoted(bytes.fromhex(part["name_hex"]))
                         for part in (item["segment"], item))
        of_format = f", of format {item['format']}" if item["format"] is not None else ""
        yield (f"not linked: {item['path']}, segment {segment}, record {item['record']}: "
               f"{item['kind']} {name}{of_format}")
    if more := document["unsupported"][16:]:
        yield f"not linked: {len(more)} more record{'s' if len(more) > 1 else ''}"


def check_lines(document):
    """The line of the verdict, those of records that are not linked, those of segments with
    references, and those of what is found."""
    fault = document["fault"]
    if document["links"]:
        yield from (f"links: {line}" for line in link_lines(document))
    if document["links"] == (fault is not None):
        yield "either the files link or there is a fault"
    if fault:
        yield from refusal_lines(document)
    yield from not_linked_lines(document)
    for item in document["references"]:
        name = quoted(bytes.fromhex(item["segment"]["name_hex"]))
        yield (f"references of {name}: {item['operands']} of {item['references']} lead to "
               f"operands, {item['zeros']} of them to 80 00")
    for item in document["findings"]:
        segment = f", segment {quoted(bytes.fromhex(item['segment']['name_hex']))}" if item[
            "segment"] else ""
        record = f", record {item['record']}" if item["record"] is not None else ""
        yield f"{item['weight']}: {item['path']}{segment}{record}: {item['text']}"


def link_lines(document):
    yield (f"segments {document['segments']} private words {document['private_words']} blocks "
           f"{document['blocks']}")


def refusal_lines(document):
    """The line on standard error of the fault of a refusal."""
    fault = document["fault"]
    parts = "".join(
        f" {part} {fault[part]}"
        for part in ("kind", "file", "slot", "record", "reference")
        if fault[part] is not None)
    yield f"pslink: refused {fault['number']} {fault['reason']}{parts}"


def refusal(fault):
    """What a line ends with for a fault."""
    if not fault:
        return ""
    return f", refused {fault['number']} {fault['reason']}" + (
        f" record {fault['record']}" if fault["record"] is not None else "")


def listed_path(path):
    """A path as each of its lines begins with it."""
    return "".join(
        "?" if ord(character) < 32 or ord(character) == 127 else character for character in path)


def list_lines(document):
    for file in document["files"]:
        path, type_words = listed_path(file["path"]), f", {file['type']}" if file["type"] else ""
        if file["length"] is None:
            continue  # it could not be read
        if file["order"] is None:
            yield f"{path}: {file['length']} bytes{type_words}{refusal(file['fault'])}"
        else:
            yield (f"{path}: {file['order']}-endian, {file['length']} bytes, "
                   f"{file['contents'] or 'no segment'}{type_words}")
        for item in file["segments"]:
            line = (f"{path}: slot {item['slot']:02} {name_of(item)} "
                    f"{item['role'] or 'kind ' + str(item['kind'])}")
            line += f", {item['length']} bytes" if item["length"] is not None else ""
            yield (line + "".join(f", uses {name_of(used).rstrip(' ')}" for used in item["uses"])
                   + refusal(item["fault"]))
        for item in file.get("units", []):
            reference = item["fault"] and item["fault"]["reference"]
            words = refusal(item["fault"]) + (
                f" reference {reference}" if reference is not None else "")
            yield (f"{path}: slot {item['slot']:02} {name_of(item)} by "
                   f"itself{words if item['fault'] else ', no fault'}")
