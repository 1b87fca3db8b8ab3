#!/usr/bin/env python3
"""Names that the library answers, of each set of files of .ci/report and some of those that it
generates: that of what a fault is about beside the words of the report, where a record was read its
name, and else that of the segment; and those of units, and the type of each file, beside the
document of the list. And the names of faults and the sentences on each beside the tables of
docs/LINKING.md and of pslink(1). Prints what is otherwise. Usage: fault_names.py LIBRARY"""
import ctypes
import json
import pathlib
import re
import runpy
import sys

ROOT = pathlib.Path(__file__).resolve().parents[2]
sys.dont_write_bytecode = True
sys.path[:0] = [str(ROOT / name) for name in ("bench", "samples", ".ci")]
NAMES = re.compile(r"^\| (\d+) \| ([A-Z]\w+) \|", re.M)
REMEDIES = re.compile(r"^\| (\d+) \|.*\| ([^|]*) \|$", re.M)
SENTENCES = re.compile(r"^(\d+)\|T\{\n\\fB(\w+)\\fR: (.*?)\nT\}$", re.M | re.S)
RECORD = re.compile(r"^  record \d+: [A-Z]+ (.*)$", re.M)
SEGMENT = re.compile(r"^  segment (.*), of slot \d\d of the host$", re.M)
# records that are not linked or not read: what the fault is about is their segment
UNLINKED = 19, 21, 22, 23
ROOM = 1 << 20
SOME = 100  # generated sets
CHECK, LIST, FINDINGS, WANTED, HAD, TYPE, JSON = 3, 4, 6, 7, 8, 9, 256
NAME, MEANING, REMEDY = 0, 1, 2


class File(ctypes.Structure):
    """pslink_file"""
    _fields_ = [("name", ctypes.c_char_p), ("bytes", ctypes.c_char_p), ("length", ctypes.c_size_t)]


class Answer(ctypes.Structure):
    """pslink_answer"""
    _fields_ = [("status", ctypes.c_uint32), ("fault", ctypes.c_uint32),
                *((part, ctypes.c_ssize_t) for part in ("file", "record", "reference")),
                *((part, ctypes.c_int32) for part in ("slot", "kind")),
                ("name", ctypes.c_uint8 * 9),
                *((part, ctypes.c_uint32)
                  for part in ("segments", "private_words", "blocks", "warnings")),
                ("size", ctypes.c_size_t), ("reserved", ctypes.c_uint32 * 8)]

    def name_told(self):
        """The name of what the fault is about, eight bytes, or None."""
        return bytes(self.name)[:8] if any(self.name) else None


def made(library, what, room, host, libraries):
    """What a text of these files is, and the answer."""
    names = [b"HOST", *(b"LIB%d" % number for number in range(1, 1 + len(libraries)))]
    files = (File * len(names))(*((name, data, len(data))
                                  for name, data in zip(names, (host, *libraries))))
    answer = Answer()
    library.pslink_text(ctypes.c_uint32(what), files, ctypes.c_size_t(len(names)), room,
                        ctypes.c_size_t(ROOM), ctypes.byref(answer))
    return room.raw[: answer.size], answer


def linked(library, room, host, libraries):
    """The answer of a link."""
    files = (File * (1 + len(libraries)))(*((None, data, len(data)) for data in (host, *libraries)))
    answer = Answer()
    library.pslink_link(files, ctypes.c_size_t(len(files)), room, ctypes.c_size_t(ROOM),
                        ctypes.byref(answer))
    return answer


def shown(name):
    """A name as a report shows it."""
    return bytes(byte if 32 <= byte < 127 else 63 for byte in name).decode().rstrip() or '""'


def told(report, fault):
    """The name that a report tells of this fault: that of the record, if it was read, or of the
    segment, or none."""
    found = fault not in UNLINKED and RECORD.search(report) or SEGMENT.search(report)
    return found and found[1]


def name_to_tell(library, room, host, verdict):
    """The name that a report has to tell: nothing is said of the segments of a host that is
    something else than a code file."""
    is_else = (verdict.file == 0
               and json.loads(made(library, LIST | JSON, room, host, ())[0])["files"][0][
                   "type"] is not None)
    return shown(verdict.name_told()) if verdict.name_told() and not is_else else None


def differences(library, room, host, libraries):
    report, verdict = made(library, CHECK, room, host, libraries)
    others = [made(library, what, room, host, libraries)[1]
              for what in (CHECK | JSON, FINDINGS, FINDINGS | JSON)]
    one = linked(library, room, host, libraries)
    parts = [(it.fault, it.file, it.record, it.reference, it.slot, it.kind, bytes(it.name),
              it.segments, it.private_words, it.blocks)
             for it in (one, verdict, *others)]
    if (any(it.status != 0 for it in (verdict, *others))
            or (one.status == 1) != (verdict.fault != 0)):
        yield (f"status {verdict.status}, {one.status} of a link, fault {verdict.fault} of its "
               "verdict")
    elif len(set(parts)) != 1:
        yield (f"a link has {parts[0]}, its verdict {parts[1]}, and those of the document and of "
               f"what is found {parts[2:]}")
    elif {it.warnings for it in (verdict, *others)} != {
            len(re.findall(rb"^warning: ", report, re.M))}:
        yield (f"{verdict.warnings} warnings are told, and {[it.warnings for it in others]} of the "
               "document and of what is found")
    elif verdict.name[8] != 0:
        yield f"the name {bytes(verdict.name)} is not closed"
    elif verdict.fault and (
            told(report.decode(), verdict.fault) != name_to_tell(library, room, host, verdict)):
        yield (f"fault {verdict.fault} has the name {bytes(verdict.name)}, and the report says "
               f"{told(report.decode(), verdict.fault)}")


def once(names):
    """These names, each once."""
    return list(dict.fromkeys(names))


def unit_differences(library, room, host, libraries):
    """The units of the first file beside its list: a file that cannot be opened is refused for
    that, a linked file and one that is something else than a code file have no names. Else the host
    has the units in its slots, and wants those that its slots want, each once, and then others, at
    most ten, that segments of these files use and no slot of the host has."""
    def units(which):
        names, answer = made(library, which, room, host, libraries)
        return (([names[at : at + 8] for at in range(0, len(names), 8)], answer)
                if answer.status == 0
                else (None, answer))
    files = json.loads(made(library, LIST | JSON, room, host, libraries)[0])["files"]
    segments = files[0]["segments"]
    (wanted, of_wanted), (had, of_had) = units(WANTED), units(HAD)
    if files[0]["fault"] is not None:
        told = [(it.status, it.fault, it.file) for it in (of_wanted, of_had)]
        if told != [(1, files[0]["fault"]["number"], 0)] * 2:
            yield f"a file that cannot be opened has the answers {told}"
        return
    of_role = lambda *roles: [bytes.fromhex(one["name_hex"])
                              for one in segments
                              if one["role"] in roles]
    by_slot = once(of_role("wanted"))
    if wanted is None or had is None or had != of_role("unit") or wanted[: len(by_slot)] != by_slot:
        yield f"the units {wanted} are wanted and {had} had"
        return
    used = {bytes.fromhex(name["name_hex"])
            for file in files
            for one in file["segments"]
            for name in one["uses"]}
    others = wanted[len(by_slot) :]
    # of a library that is something else the list has no segments, and a link reads them
    are_used = set(others) <= used or any(file["type"] is not None for file in files[1:])
    if (wanted != once(wanted)
            or not are_used
            or set(others) & set(of_role("unit", "wanted"))
            or len(others) > 10):
        yield f"the units {wanted} are wanted"
    if wanted and not of_role("host", "unit", "wanted"):
        yield f"a file with nothing to link wants {wanted}"


def type_differences(library, room, host, libraries):
    """The type of each file beside its list: a file that the list calls something else, or of which
    it says that it has no segment, is `other`. Of the first file the libraries say nothing."""
    files = json.loads(made(library, LIST | JSON, room, host, libraries)[0])["files"]
    for data, others, told in [(host, libraries, files[0]),
                               *((data, (), file) for data, file in zip(libraries, files[1:]))]:
        line, answer = made(library, TYPE, room, data, others)
        is_code = told["type"] is None and told["contents"] is not None
        if (answer.status, line.decode("latin-1")) != (
                0, f"{told['contents']} {told['order']}\n" if is_code else "other\n"):
            yield f"a file has the type {line}, of status {answer.status}, and its list {told}"


def below(heading):
    """What docs/LINKING.md has below this heading."""
    return (ROOT / "docs/LINKING.md").read_text().split(f"### {heading}\n", 1)[1].split("\n#", 1)[0]


def fault_differences(library):
    """What a number has another name or other sentences than in the tables, or has any without a
    row of it."""
    page = below("When each fault occurs")
    names = {int(number): name for number, name in NAMES.findall(page)}
    remedies = {int(number): remedy for number, remedy in REMEDIES.findall(page)}
    manual = (ROOT / "man/pslink.1").read_text().split("\n.SH DIAGNOSTICS\n", 1)[1].split(
        "\n.SH ", 1)[0].replace("\\-", "-")
    rows = {int(number): (name, " ".join(text.split()))
            for number, name, text in SENTENCES.findall(manual)}
    if not names or names.keys() != rows.keys() or names.keys() != remedies.keys():
        yield (f"one table has the faults {sorted(names)}, and another {sorted(rows)} or "
               f"{sorted(remedies)}")
    library.pslink_fault.restype = ctypes.c_char_p
    for number in range(256):
        name, meaning, remedy = [(library.pslink_fault(number, part) or b"").decode().replace(
            " in pslink(1)", "")
                                 for part in (NAME, MEANING, REMEDY)]
        if (name, remedy) != (names.get(number, ""), remedies.get(number, "")):
            yield f"fault {number} has the name {name} and the remedy {remedy}"
        if (name, f"{meaning} {remedy}".strip()) != rows.get(number, ("", "")):
            yield f"fault {number} has the sentences {meaning} {remedy}"


def main():
    library = ctypes.CDLL(str(pathlib.Path(sys.argv[1]).resolve()))
    room = ctypes.create_string_buffer(ROOM)
    sets = {(bytes(host), tuple(map(bytes, libraries))): None
            for host, libraries in runpy.run_path(str(ROOT / ".ci/report"))["sets"](SOME)}
    found = [] if len(sets) >= 450 else [f"there are {len(sets)} sets of files"]
    found += fault_differences(library)
    for number, (host, libraries) in enumerate(sets):
        for differ in (differences, unit_differences, type_differences):
            found += [f"set {number}: {line}" for line in differ(library, room, host, libraries)]
    for line in found[:20]:
        print(line)
    return 1 if found else 0


sys.exit(main())
