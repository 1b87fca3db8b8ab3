#!/usr/bin/env python3
"""The Python package as a caller meets it: what it takes as a file, what it raises, that a refusal
comes back from a pool of processes, that threads may call at once, what its hints are, that it is
installed without a network, and how it finds the shared object.
Prints what is otherwise. Usage: package.py LIBRARY OTHERS FOLDER: the folder of libpslink.so.3;
that of `other`, `old`, `first` and `later`, which have one of another interface, one that is too
old, and two of this interface, of `same`, `more` and `less`, which have one that asks for room each
time, of `unknown`, which has one with a status of its own, and of `escapes`, which has one with a
finding; and a new folder"""
import array
import ast
import base64
import builtins
import concurrent.futures
import copy
import ctypes
import hashlib
import importlib.util
import inspect
import json
import mmap
import multiprocessing
import os
import pathlib
import pickle
import re
import shutil
import subprocess
import sys
import tracemalloc
import typing
import zipfile

ROOT = pathlib.Path(__file__).resolve().parents[2]
PACKAGE = ROOT / "bindings/python"
sys.dont_write_bytecode = True
sys.path[:0] = [str(PACKAGE), str(ROOT / "vectors")]
BUILT, OTHERS, FOLDER = (pathlib.Path(path).resolve() for path in sys.argv[1:4])
os.environ["PSLINK_LIBRARY"] = str(BUILT / "libpslink.so.3")
import pslink  # noqa: E402
from descriptions.links import unit_of  # noqa: E402
from descriptions.model import File, unit_ref, written  # noqa: E402

HOST, LIBRARY, USING, USED, BOTH = (ROOT / f"samples/{name}.code"
                                    for name in ("host", "library", "using", "used", "two_units"))
BIG_LIBRARY = ROOT / "samples/big_library.code"
UTIL, AUX = "UTIL", "AUX"
NAMED = {UTIL: b"UTIL    ", AUX: b"AUX     "}
# where the library says how many words the private variable of record 1 has
WORDS_OF_STATE = (1024 + 32 + 14)
MISSING = ("refused 13 MissingUnit file 0 slot 7", 13, "MissingUnit", 0, str(HOST), None, 7, None,
           None, UTIL)
found = []


def check(is_well, what):
    if not is_well:
        found.append(what)


def raised(error, call, *arguments):
    """The error of this type that a call raises, or None."""
    try:
        call(*arguments)
    except error as it:
        return it
    return None


def parts(fault):
    return (str(fault), fault.number, fault.name, fault.file, fault.path, fault.kind, fault.slot,
            fault.record, fault.reference, fault.about)


def of_files():
    host, library = HOST.read_bytes(), LIBRARY.read_bytes()
    linked = pslink.link(host, [library])
    check(type(linked) is bytes and len(linked) == 1536, "a linked file is no bytes of its length")
    same = {
        "paths": (HOST, [LIBRARY]), "names": (str(HOST), [str(LIBRARY)]),
        "bytearrays": (bytearray(host), [bytearray(library)]),
        "views": (memoryview(host), (memoryview(library),)),
        "arrays": (array.array("H", host), iter([array.array("B", library)])),
        "pairs": (("a", HOST), [("b", library)]),
        "pairs of paths": (("a", host), iter([("b", str(LIBRARY))])),
        "every second byte": (memoryview(b"".join(bytes([byte, 0]) for byte in host))[::2],
                              [library]),
    }
    for what, (one, all_) in same.items():
        check(pslink.link(one, all_) == linked, f"{what} are linked to another file")
    with open(HOST, "rb") as stream:
        with mmap.mmap(stream.fileno(), 0, access=mmap.ACCESS_READ) as mapped:
            check(pslink.link(mapped, [BytesPath()]) == linked,
                  "a mapped file is linked to another file")
    check(pslink.link(Longer(host), [library]) == linked,
          "a length is trusted that is not that of the bytes")
    check(pslink.link_with_summary(host, [library]) == (linked, (2, 4, 3)),
          "the summary is another")
    check(pslink.map(HOST, [LIBRARY]).encode() == (ROOT / "samples/host.map").read_bytes(),
          "the map is another")
    check(pslink.show(LIBRARY) == pslink.show(library)
          and pslink.show(library).startswith("order little\n"), "the show is another")
    wrong = [
        (pslink.link, host, library), (pslink.link, host, bytearray(library)),
        (pslink.link, host, memoryview(library)),
        (pslink.link, host, str(LIBRARY)), (pslink.link, host, LIBRARY), (pslink.link, host, 5),
        (pslink.link, host, [5]),
        (pslink.link, None, []), (pslink.link, 1000, []), (pslink.link, [host], []),
        (pslink.map, host, library),
        (pslink.map, host, [None]), (pslink.show, 1000), (pslink.show, None), (pslink.show, [1, 2]),
        (pslink.show, (host,)), (pslink.show, (b"name", host)), (pslink.show, ("a", "b", host)),
        (pslink.show, ("a", None)),
        (pslink.show, ("a", ("b", host))), (pslink.check, host, [("a", 5)]),
    ]
    for call, *arguments in wrong:
        check(raised(TypeError, call, *arguments),
              f"{call.__name__}{arguments!r:.60} is no TypeError")
    check(raised(FileNotFoundError, pslink.link, "not there"),
          "a path that is not there is no FileNotFoundError")
    check(raised(IsADirectoryError, pslink.link, "/"), "a folder is no IsADirectoryError")


def of_reports():
    host, library = HOST.read_bytes(), LIBRARY.read_bytes()
    report = pslink.check(host, [library])
    check(report.text.startswith("file 0 file 0: 1536 bytes, little-endian\nfile 1 file 1: 1536 "
                                 "bytes"), f"a report is {report.text}")
    check("\nlinks: segments 2 private words 4 blocks 3\n" in report.text,
          "the report has no line of the verdict")
    check(report[1:] == (None, (2, 4, 3), ()) and report.ok and report.verdict == (2, 4, 3),
          f"what goes with a report is {report[1:]}")
    check(report.warnings == report.notes == [], f"a report of the pair has {report.findings}")
    report = pslink.check(HOST)
    check(report.text.startswith(f"file 0 {HOST}: ") and parts(report.fault) == MISSING,
          f"the report of a path is {report}")
    check((report.warnings, report.summary, report.ok) == ([], None, False),
          f"what goes with a refusal is {report[1:]}")
    check(report.verdict is report.fault, "the verdict of a refusal is none")
    check(parts(pickle.loads(pickle.dumps(report)).fault) == MISSING,
          "a report that was pickled is another")
    # (its private variable has two words, and the operand is the third)
    warned = library[:WORDS_OF_STATE] + b"\2" + library[WORDS_OF_STATE + 1 :]
    report = pslink.check(("\N{FLOPPY DISK}", host), [("two", warned)])
    check((len(report.warnings), report.notes, report.fault, report.ok) == (1, [], None, True),
          f"a warning is {report[1:]}")
    check(report.findings == tuple(report.warnings), f"what is found is {report.findings}")
    check("file 0 \N{FLOPPY DISK}: " in report.text
          and "\nwarning: two, segment UTIL, record 1: " in report.text,
          f"its text is {report.text}")
    check(pslink.check(host, [library]) and not pslink.check(host),
          "a report is true otherwise than where it is ok")
    check(pslink.check(host) == pslink.check(host) != pslink.check(host, [library]),
          "two reports are equal otherwise than by what they hold")
    check(raised(TypeError, pslink.check, host, library), "one library is a list for a report")
    for name in (b"two", 2, None, ["two"]):
        check(raised(TypeError, pslink.check, host, [(name, library)]),
              f"a name that is {name!r} is no TypeError")
    check(raised(ValueError, pslink.check, host, [("a\0b", library)]),
          "a name with a null character is no ValueError")
    undecoded = pslink.check(("\udcff", host), [("two", library)])
    check(undecoded.text.startswith("file 0 \\udcff: "),
          f"a name that no text is has the report {undecoded.text:.40}")


def of_refusals():
    fault = raised(pslink.Refused, pslink.link, HOST)
    check(parts(fault) == MISSING, f"the refusal is {parts(fault)}")
    for how, again in (("pickled", pickle.loads(pickle.dumps(fault))), ("copied", copy.copy(fault)),
                       ("copied", copy.deepcopy(fault))):
        check(type(again) is pslink.Refused and parts(again) == MISSING,
              f"{how} it is {parts(again)}")
    with concurrent.futures.ProcessPoolExecutor(2) as pool:
        fault = raised(pslink.Refused, pool.submit(pslink.link, HOST).result, 60)
        check(fault and parts(fault) == MISSING, "a refusal of a process is another")
    with multiprocessing.Pool(2) as pool:
        fault = raised(pslink.Refused, pool.apply_async(pslink.link, [HOST]).get, 60)
        check(fault and parts(fault) == MISSING, "a refusal of a pool is another")
    check(pslink.fault_name(13) == "MissingUnit"
          and [pslink.fault_name(n) for n in (-1, 0, 100, 255, 256, 1 << 40)] == [""] * 6,
          "the name of a fault is another")
    check(fault.meaning == pslink.fault_meaning(13) and fault.remedy == pslink.fault_remedy(13),
          "the sentences of a refusal are others")
    check(fault.remedy == "Give the library that has it. If you gave it, see DAMAGED FILES in "
                          "pslink(1).", f"what to do is {fault.remedy}")
    check(pslink.fault_meaning(28) == "The host program defines no such name.",
          f"fault 28 means {pslink.fault_meaning(28)}")
    for sentence in (pslink.fault_meaning, pslink.fault_remedy):
        check([sentence(n) for n in (-1, 0, 100, 255, 256, 1 << 40)] == [""] * 6,
              f"{sentence.__name__} has a sentence of no fault")
    named = raised(pslink.Refused, pslink.link, HOST.read_bytes(),
                   [("two", LIBRARY.read_bytes()[:511])])
    check((named.file, named.path, named.about) == (1, "two", None),
          f"the file at fault is {named.file}, {named.path}")
    named = raised(pslink.Refused, pslink.show, b"")
    check((named.file, named.path) == (0, "file 0"),
          f"the file at fault is {named.file}, {named.path}")
    # (two that differ in what they are about alone: in slot 7 the host wants another unit)
    of_util, of_aux, again = (raised(pslink.Refused, pslink.link, host) for host in (
                                  HOST.read_bytes(), changed(HOST, at120=b"AUX     "),
                                  HOST.read_bytes()))
    check((of_util.about, of_aux.about) == (UTIL, AUX) and of_util != of_aux,
          f"refusals about {of_util.about} and {of_aux.about} are equal")
    check(of_util == again and len({of_util, of_aux, again}) == 2,
          "equal refusals are not equal, or have other hashes")


def changed(file, **changes):
    """The bytes of a file, with others at these places."""
    new = bytearray(file.read_bytes())
    for place, data in changes.items():
        new[int(place[2:]) : int(place[2:]) + len(data)] = data
    return bytes(new)


def unit(name, *uses):
    """A library with the unit of this name, whose records request these."""
    return written(File({2: unit_of(name, ["D7"], [unit_ref(other, []) for other in uses])}))


def of_what_is_at_fault():
    """The name of what a fault is about: nothing, a segment, a wanted unit, a requested one, and a
    symbol. (The entry of UTIL is slot 2 of the library, its kind at 196, and the name of its first
    record at 1024; the host has the same places.)"""
    host, library = HOST.read_bytes(), LIBRARY.read_bytes()
    cases = [
        (1, None, b"", []), (2, None, changed(HOST, at192=b"\1\1"), []),
        (10, "ODD", changed(HOST, at8=host[4:8], at80=b"ODD     ", at196=b"\x08"), [library]),
        (11, "DEMO", changed(HOST, at6=b"\x03"), [library]), (13, UTIL, host, []),
        (13, AUX, host, [USING]),
        (14, UTIL, host, [changed(LIBRARY, at196=b"\x04")]),
        (15, UTIL, host, [changed(LIBRARY, at4=library[8:12], at72=NAMED[UTIL], at194=b"\x03")]),
        (28, "XOUNT", host, [changed(LIBRARY, at1024=b"X")]),
    ]
    for number, about, one, libs in cases:
        fault = raised(pslink.Refused, pslink.link, one, libs)
        said = (fault.number, fault.about) if fault else None
        check(said == (number, about), f"fault {number} is {fault} about {fault and fault.about}")
        report = pslink.check(one, libs)
        check(report.fault == fault,
              f"the verdict of fault {number} is {report.fault} about "
              f"{report.fault and report.fault.about}")


def of_bytes_of_names():
    """A name is without the blanks at its end, and else all of it, each byte a character. (Slot 7
    of the host has its name at 120, slot 2 of the library at 80; its slot 3 has the same code by a
    name that is printed, and a private variable has two words where the operand is the third.)"""
    slot = dict(at12=LIBRARY.read_bytes()[8:12], at88=b"OTHER   ", at198=b"\3")
    names = {b" UTIL\t  ": " UTIL\t", b"\0UTIL   ": "\0UTIL", b"UT\0\xffL   ": "UT\0\xffL",
             b"UT\xc9L    ": "UT\xc9L", bytes(7) + b" ": "\0" * 7,
             b"\tA  B\r\n ": "\tA  B\r\n"}
    for data, name in names.items():
        host, library = changed(HOST, at120=data), changed(LIBRARY, at80=data, **slot,
                                                           **{f"at{WORDS_OF_STATE}": b"\2"})
        fault = raised(pslink.Refused, pslink.link, host)
        check((fault.number, fault.about) == (13, name),
              f"fault 13 of {data} is {fault} about {fault.about!r}")
        check(pslink.units_wanted(host) == [name],
              f"the host wants {pslink.units_wanted(host)}, and not {data}")
        check(pslink.units_had(library) == [name, "OTHER"],
              f"the library has {pslink.units_had(library)}, and not {data}")
        warned = pslink.check(host, [library]).warnings
        check(warned and warned[0][2:4] == (name, 1), f"the warning in {data} is {warned}")


def of_paths_of_findings():
    """The path of a finding is the name that was given: with each character on which a terminal
    would act, a quote, a backslash, and others, also above U+FFFF."""
    padded = LIBRARY.read_bytes() + b"\x1a\x1a"
    for character in [*map(chr, range(1, 32)), *map(chr, range(127, 160)),
                      *'"\\/\u200b\u2028\u2029\uffff\U0001f4be\U0010ffff']:
        path = f"a{character}b"
        paths = [finding.path for finding in pslink.check(HOST, [(path, padded)]).findings]
        check(paths == [path], f"the path {path!r} of a finding is {paths}")


def of_names_of_units():
    """The names of the units that a host wants, each once, and of those that a file has. (Slot 8
    has its name at 128, its kind at 208.)"""
    linked, nameless = pslink.link(HOST, [LIBRARY]), bytes([1]) * 128
    wants_both, wants_one_twice = (changed(HOST, at128=NAMED[name], at208=b"\3")
                                   for name in (AUX, UTIL))
    names = [
        ("the host", HOST, [], [UTIL]), ("the host", HOST, [LIBRARY], [UTIL]),
        ("the host", HOST, [USING], [UTIL, AUX]),
        ("the host", HOST, [USING, USED], [UTIL, AUX]), ("a host with its units", BOTH, [], []),
        ("a host of two slots, one of which the other's unit uses", wants_both, [USING],
         [UTIL, AUX]),
        ("a host of two slots", wants_both, [], [UTIL, AUX]),
        ("a host of two slots with one name", wants_one_twice, [], [UTIL]),
        ("a host of two slots with one name", wants_one_twice, [LIBRARY], [UTIL]),
        ("a linked file", linked, [LIBRARY], []),
        ("a host in which no name can be read", changed(HOST, at64=nameless), [LIBRARY], []),
    ]
    # (as far as a link reads: a unit that is found after one that is missing is not read, nor one
    # whose records cannot be)
    missing_first, missing_last = unit(UTIL, "MISS", AUX), unit(UTIL, AUX, "MISS")
    unread = changed(USING, at1064=b"\x55")
    names += [
        ("the host of a unit that is missing, and then one", HOST,
         [missing_first, unit(AUX, "ZZZ")], [UTIL, "MISS", AUX]),
        ("the host of a unit, and then one that is missing", HOST, [missing_last, unit(AUX, "ZZZ")],
         [UTIL, AUX, "MISS", "ZZZ"]),
        ("the host of a unit whose second record cannot be read", HOST, [unread, USED], [UTIL]),
    ]
    for what, one, libs, wanted in names:
        check(pslink.units_wanted(one, libs) == wanted,
              f"{what} wants {pslink.units_wanted(one, libs)} beside {libs}")
    of_file = [
        ("the host", HOST, []), ("the library", LIBRARY, [UTIL]),
        ("the library that uses", USING, [UTIL]), ("the library that is used", USED, [AUX]),
        ("a linked file", linked, []),
        ("a library in which no name can be read", changed(LIBRARY, at64=nameless), []),
    ]
    for what, file, had in of_file:
        check(pslink.units_had(file) == had, f"{what} has {pslink.units_had(file)}")
    check(sorted(pslink.units_had(BOTH)) == [AUX, UTIL],
          f"{BOTH.name} has {pslink.units_had(BOTH)}")
    for call in (pslink.units_wanted, pslink.units_had):
        check(raised(pslink.Refused, call, b"").number == 1,
              f"{call.__name__} takes a file of nothing")
        check(raised(pslink.Refused, call, changed(HOST, at192=b"\1\1")).number == 2,
              f"{call.__name__} takes a file of both orders")


def of_types():
    """What each file is for, and its byte order, whatever its bytes are. (A library with a linked
    segment has its slot 3, with the code of slot 2.)"""
    library = LIBRARY.read_bytes()
    mixed = changed(LIBRARY, at12=library[8:12], at88=b"OTHER   ")
    of_file = [
        ("the host", HOST, ("host", "little")), ("the library", LIBRARY, ("library", "little")),
        ("a host with its units", BOTH, ("host", "little")),
        ("a linked file", pslink.link(HOST, [LIBRARY]), ("linked", "little")),
        ("a library with a linked segment", mixed, ("mixed", "little")),
        ("the big-endian host", ROOT / "samples/big_host.code", ("host", "big")),
        ("the big-endian library", BIG_LIBRARY, ("library", "big")),
        ("a file of nothing", b"", (None, None)),
        ("a text", ("DEMO.TEXT", b"PROGRAM DEMO;\n"), (None, None)),
        ("a short file", library[:511], (None, None)),
        ("a file of both orders", changed(LIBRARY, at192=b"\1\1"), (None, None)),
    ]
    for what, file, wanted in of_file:
        found_type = pslink.file_type(file)
        check(type(found_type) is pslink.FileType and found_type == wanted,
              f"{what} is {found_type}")
        check((found_type.contents, found_type.order) == wanted,
              f"{what} has the parts {found_type}")
    check(raised(FileNotFoundError, pslink.file_type, "not there"),
          "a path that is not there has a type")


def of_texts():
    """What each text is, and which are none."""
    files = HOST, [LIBRARY]
    text = pslink.text
    check(text("map", *files) == pslink.map(*files) and text("show", HOST) == pslink.show(HOST),
          "the text of a map or a show is another")
    named = ("one", HOST), [("two", LIBRARY)]
    check(text("check", *named) == pslink.check(*named).text, "the text of a report is another")
    check(text("references", *files).startswith(pslink.map(*files)),
          "a map with references has no map")
    check(text("list", *named).startswith("one: little-endian, 1536 bytes, host\n"),
          "a list names its files otherwise")
    check(text("list", HOST).startswith(f"{HOST}: "), "a list of a path names it otherwise")
    for what in typing.get_args(pslink.Text):
        json.loads(text(what, *files, json=True))
    document = json.loads(text("check", HOST, [changed(LIBRARY, at530=b"\3")], json=True))
    check([finding["weight"] for finding in document["findings"]] == ["note"],
          f"what is found is {document['findings']}")
    # (padding, a procedure of another number, a private variable of two words, and an operand
    # without its bit 7)
    odd = changed(LIBRARY, at513=b"\0", at530=b"\3", **{f"at{WORDS_OF_STATE}": b"\2"}) + b"\x1a\x1a"
    findings = (
        ("harmless", "two\n", None, None, "its last 2 bytes are 1A: it was padded, as by CP/M"),
        ("note", "two\n", UTIL, None,
         "the attribute table of procedure 1 says that it is procedure 3: the code may be damaged"),
        ("warning", "two\n", UTIL, 1, "the operand at byte 4 is word 2 of a variable that has 2"),
        ("note", "two\n", UTIL, 0,
         "the operand at byte 1 may be damaged: its bit 7 is clear, and a compiler sets it"),
    )
    report = pslink.check(("\N{FLOPPY DISK}", HOST), [("two\n", odd)])
    check(report.findings == findings, f"what is found is {report.findings}")
    check((report.warnings, report.notes) == ([findings[2]], [findings[1], findings[3]]),
          f"of these are warnings {report.warnings}, and notes {report.notes}")
    check(pslink.check(*files).findings == () and text("findings", *files) == "",
          "something is found in the pair")
    lines = text("findings", ("one", HOST), [("two", odd)])
    ending = lines + "copy or compile again: two; see WARNINGS in pslink(1)\n"
    check(pslink.check(("one", HOST), [("two", odd)]).text.endswith(ending)
          and len(lines.splitlines()) == 4, "the lines of what is found are others")
    check(parts(raised(pslink.Refused, text, "map", HOST)) == MISSING,
          "the text of a map is of files that are refused")
    units = [file["units"] for file in json.loads(text("units", *files, json=True))["files"]]
    by_itself = {"slot": 2, "name": "UTIL    ", "name_hex": "5554494C20202020", "fault": None}
    check(units == [[], [by_itself]], f"the units by themselves are {units}")
    check(raised(ValueError, text, "plan", HOST), "there is a text of another name")
    parts_of_release = [int(part) for part in pslink.__version__.split(".")]
    check(pslink.release_number() == sum(
        part * 100**power for part, power in zip(parts_of_release, (2, 1, 0))),
          "the number of the release is another")


def of_threads():
    linked = pslink.link(HOST, [LIBRARY])
    with concurrent.futures.ThreadPoolExecutor(8) as pool:
        results = list(pool.map(
            lambda turn: pslink.link(HOST, [LIBRARY]) if turn % 2 else pslink.map(HOST, [LIBRARY]),
            range(400)))
    check(all(result == linked for result in results[1::2]), "a thread has another result")


def of_room():
    """A small link makes no room for the longest linked file: a link of the sample pair, of three
    blocks, takes less memory than sixty have."""
    host, library = HOST.read_bytes(), LIBRARY.read_bytes()
    tracemalloc.start()
    pslink.link(host, [library])
    _, most = tracemalloc.get_traced_memory()
    tracemalloc.stop()
    check(3 * 512 <= most < 60 * 512, f"a link of the sample pair takes {most} bytes")


def of_names():
    names = {}
    exec("from pslink import *", names)
    check("map" not in names and names["link"] is pslink.link,
          "import * takes Python's own map away, or gives no link")


def of_hints():
    """The hints can be asked for, and the syntax and the hints are those of Python 3.8."""
    for name in pslink.__all__:
        it = getattr(pslink, name)
        if inspect.isfunction(it) or inspect.isclass(it):
            check(typing.get_type_hints(it.__init__ if name == "Refused" else it),
                  f"{name} has no hints")
    types = {bytes, bytearray, memoryview, array.array, mmap.mmap, ctypes.Array, str, os.PathLike}
    types |= {typing.Tuple[str, typing.Union[tuple(types)]]}
    check(set(typing.get_args(pslink.File)) == types, f"a file is {pslink.File}")
    for source in sorted(PACKAGE.rglob("*.py")):
        tree = ast.parse(source.read_text(), feature_version=(3, 8))
        hints = [getattr(node, field, None)
                 for node in ast.walk(tree)
                 for field in ("annotation", "returns")]
        for node in (node for hint in hints if hint for node in ast.walk(hint)):
            newer = (isinstance(node, ast.BinOp)
                     or (isinstance(node, ast.Subscript)
                         and getattr(node.value, "id", "") in dir(builtins)))
            check(not newer,
                  f"{source.name}, line {getattr(node, 'lineno', 0)}: Python 3.8 has no such hint")


class BytesPath:
    """A path of bytes."""

    def __fspath__(self):
        return os.fsencode(LIBRARY)


class Longer(bytes):
    """Bytes that say another length than they have."""

    def __len__(self):
        return super().__len__() + 64


def imported(code="import pslink; print(pslink.link(*eval(input())) != b'', pslink.__file__)",
             **env):
    """What a program says at last that imports the installed package, with these variables
    alone."""
    env = {"PATH": os.environ["PATH"], "HOME": str(FOLDER), "PYTHONPATH": str(FOLDER / "site"),
           **env}
    done = subprocess.run(
        [sys.executable, "-B", "-c", code],
        input=repr((str(HOST), [str(LIBRARY)])), capture_output=True, text=True, env=env,
        cwd=FOLDER, timeout=60,
    )
    return (done.stdout + done.stderr).strip().splitlines()[-1]


# An import in an interpreter of its own, which may start no other program.
ISOLATED = """
try:
    import _interpreters
    one, run = _interpreters.create("isolated"), _interpreters.exec
except ImportError:
    import _xxsubinterpreters
    one, run = _xxsubinterpreters.create(isolated=True), _xxsubinterpreters.run_string
run(one, "try: import pslink\\nexcept ImportError: print('ImportError')")
"""


def of_editable(build_backend, source):
    """What `pip install -e` installs is the folder of the sources."""
    zipfile.ZipFile(FOLDER / build_backend.build_editable(FOLDER)).extractall(FOLDER / "editable")
    code = (f"import site; site.addsitedir({str(FOLDER / 'editable')!r}); import pslink; "
            "print(pslink.__file__)")
    said = imported(code, PYTHONPATH="", PSLINK_LIBRARY=str(BUILT / "libpslink.so.3"))
    check(said == f"{source}/pslink/__init__.py", f"installed as editable: {said}")


def of_wheel(path):
    """A wheel of an archive is for the systems that its library is for, has it and what a reader of
    it looks for, and each file with its digest and size in RECORD."""
    check(re.fullmatch(r"pslink-[\d.]+-py3-none-manylinux_2_17_x86_64[.]manylinux2014_x86_64[.]whl",
                       path.name), f"the wheel of the archive is {path.name}")
    with zipfile.ZipFile(path) as wheel:
        files = {name: wheel.read(name) for name in wheel.namelist()}
    info = f"pslink-{pslink.__version__}.dist-info"
    library = (BUILT / "libpslink.so.3").read_bytes()
    check(files.get("pslink/libpslink.so.3") == library, "the wheel has not the library")
    lines = [f"{name},sha256={base64.urlsafe_b64encode(hashlib.sha256(data).digest()).decode()}"
             .rstrip("=") + f",{len(data)}" for name, data in files.items()
             if name != f"{info}/RECORD"]
    check(files[f"{info}/RECORD"].decode().splitlines() == [*lines, f"{info}/RECORD,,"],
          "RECORD has other digests or sizes")
    metadata = files[f"{info}/METADATA"].decode()
    for line in ("Author: ", "License: MIT\n", "Requires-Python: >=3.8\n", "\n\n# pslink\n"):
        check(line in metadata, f"METADATA has no {line!r}")
    check(not any(str(FOLDER).encode() in data for data in files.values()),
          "the wheel has the path of its builder")


def of_archive():
    """In an archive that is unpacked the package finds the shared object of the folder `lib`
    beside: where it lies; what is installed from there has it. PSLINK_LIBRARY comes before that,
    and where there is no such folder the system's loader."""
    archive = FOLDER / "an archive"
    shutil.copytree(PACKAGE, archive / "bindings/python",
                    ignore=shutil.ignore_patterns("__pycache__"))
    (archive / "lib").mkdir()
    shutil.copy(BUILT / "libpslink.so.3", archive / "lib")
    beside = {"PYTHONPATH": str(archive / "bindings/python")}
    there = f"True {archive}/bindings/python/pslink/__init__.py"
    check(imported(**beside) == there, f"beside the archive: {imported(**beside)}")
    check(imported(**beside, PSLINK_LIBRARY="libc.so.6").startswith("ImportError: "),
          "PSLINK_LIBRARY does not come first")
    make = "import build_backend, sys; print(build_backend.build_wheel(sys.argv[1]))"
    words = [sys.executable, "-B", "-c", make, str(FOLDER)]
    wheel = subprocess.run(words, capture_output=True, text=True, cwd=archive / "bindings/python",
                           check=True).stdout.strip()
    of_wheel(FOLDER / wheel)
    zipfile.ZipFile(FOLDER / wheel).extractall(FOLDER / "of archive")
    shutil.rmtree(archive)
    said = imported(PYTHONPATH=str(FOLDER / "of archive"))
    check(said == f"True {FOLDER}/of archive/pslink/__init__.py",
          f"installed from the archive: {said}")


def of_installing():
    source = FOLDER / "source"
    shutil.copytree(PACKAGE, source, ignore=shutil.ignore_patterns("__pycache__"))
    sys.path.insert(0, str(source))
    import build_backend

    if importlib.util.find_spec("pip"):
        pip = [sys.executable, "-m", "pip", "--disable-pip-version-check", "--quiet", "install",
               "--no-index", "--root-user-action=ignore"]
        done = subprocess.run([*pip, "--target", FOLDER / "site", source], capture_output=True,
                              text=True)
        check(done.returncode == 0, f"pip: {done.stderr[-300:]}")
    else:
        print("left out: library: the package in Python by pip, since pip is not there")
        zipfile.ZipFile(FOLDER / build_backend.build_wheel(FOLDER)).extractall(FOLDER / "site")
    of_editable(build_backend, source)
    there = f"True {FOLDER}/site/pslink/__init__.py"
    config = FOLDER / "pkgconfig"
    config.mkdir()
    (config / "pslink.pc").write_text(f"libdir={BUILT}\nName: pslink\nDescription: "
                                      "pslink\nVersion: 0\nLibs:\n")
    ways = {
        "by PSLINK_LIBRARY": {"PSLINK_LIBRARY": str(BUILT / "libpslink.so.3")},
        "by the loader": {"LD_LIBRARY_PATH": str(BUILT)},
        **({"by pkg-config": {"PKG_CONFIG_PATH": str(config)}} if shutil.which("pkg-config")
           else {}),
    }
    if "by pkg-config" not in ways:
        print("left out: library: the package in Python by pkg-config, since pkg-config is not "
              "there")
    for what, env in ways.items():
        check(imported(**env) == there, f"{what}: {imported(**env)}")
    check(imported(ISOLATED) == "ImportError",
          f"an isolated interpreter without a library: {imported(ISOLATED)}")
    wrong = {
        "of something else": "libc.so.6",
        "that is not there": str(FOLDER / "not there"), "that is none": str(HOST),
    }  # fmt: skip
    # (also where the loader finds another)
    for what, path in wrong.items():
        said = imported(PSLINK_LIBRARY=path, LD_LIBRARY_PATH=str(BUILT))
        check(said.startswith("ImportError: "), f"a library {what}: {said}")
    of_other_releases()


def of_other_releases():
    """A library is taken by its interface, whatever its release; none that is too old is."""
    release = pslink.release_number()
    for name, number in (("first", 300), ("later", release + 100)):
        said = imported("import pslink; print(pslink.release_number())",
                        PSLINK_LIBRARY=str(OTHERS / name / "libpslink.so.3"))
        check(said == str(number), f"a library of release {number} and this interface: {said}")
    wrong = {
        "other": f", of release {release + 100}, has another interface: its symbols lack the node "
                 "PSLINK_3",
        "old": " is too old: it is of release 299, and this package calls those from 300 on",
    }
    for name, why in wrong.items():
        path = OTHERS / name / "libpslink.so.3"
        said = imported(PSLINK_LIBRARY=str(path))
        check(said == f"ImportError: {path}{why}", f"the {name} library: {said}")


def of_other_answers():
    """A library that asks for room each time is asked twice, and then that is an error, as a status
    that no release has is; and a path of a finding has each escape of JSON."""
    for name, status in (("same", 5), ("more", 5), ("less", 5), ("unknown", 77)):
        for call in ("link", "check", "units_wanted"):
            said = imported(f"import pslink; pslink.{call}(b'')",
                            PSLINK_LIBRARY=str(OTHERS / name / "libpslink.so.3"))
            check(said == f"RuntimeError: pslink: the library answered {status}",
                  f"{call} over the library of {name}: {said}")
    code = "import pslink; one, = pslink.check(b'').findings; print(ascii(one.path + one.text))"
    said = imported(code, PSLINK_LIBRARY=str(OTHERS / "escapes/libpslink.so.3"))
    wanted = 'a"\\/\b\f\n\r\t\0\1\x1f\xe9\u2028\uffff\U0001f4beb\U0001f4be'
    check(said == ascii(wanted), f"the escapes of JSON are read as {said}")


def main():
    for part in (of_files, of_reports, of_refusals, of_what_is_at_fault, of_bytes_of_names,
                 of_paths_of_findings, of_names_of_units, of_types, of_texts, of_names, of_hints,
                 of_threads, of_room, of_archive, of_installing, of_other_answers):
        part()
    for line in found:
        print(line)
    return 1 if found else 0


if __name__ == "__main__":
    sys.exit(main())
