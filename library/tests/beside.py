#!/usr/bin/env python3
"""Answers of the library beside those of the program, through C and through Python: the samples, in
each text and form; the single files of .ci/damage; the sets of files of .ci/report, of those that
it generates some, with their reports, and some of them in each text; and the longest linked file,
500 libraries, a fault in library 300, and a map and a show of more than 64 KiB, whose answers are
worked out here too. Leaves these files in FOLDER, for .ci/library to measure. Prints what is
otherwise. Usage: beside.py PSLINK PROGRAM LINKED FOLDER: the program, program.c as it was built,
and to what the sample pair is linked"""
import dataclasses
import json
import pathlib
import runpy
import sys

ROOT = pathlib.Path(__file__).resolve().parents[2]
sys.dont_write_bytecode = True
sys.path[:0] = [str(ROOT / name) for name in ("library/tests", "vectors", ".ci")]
PSLINK, PROGRAM, LINKED, FOLDER = (pathlib.Path(path).resolve() for path in sys.argv[1:5])
import program  # noqa: E402
from commands import Commands  # noqa: E402
from descriptions import model as m  # noqa: E402
from descriptions.links import program as host_program, unit_of, wanting  # noqa: E402

SAMPLES = {path.stem: path.read_bytes() for path in (ROOT / "samples").glob("*.code")}
HOST, LIBRARY = SAMPLES["host"], SAMPLES["library"]
LONGEST_CODE = 64 * m.BLOCK - 2
OPERANDS = 32_000
SOME = 100  # generated sets
# what a text has beside map, show and check, with the program's words for it
TEXTS = ["map --json", "map --references", "map --references --json", "show --json", "check --json",
         "list", "list --json", "check --unit", "check --unit --json"]
SAMPLE_SETS = ["host library", "big_host big_library", "host using used", "two_units", "nine",
               "procedures library", "host", "library host"]


def longest(is_linked):
    """A host of sixteen codes of 64 blocks each, or what it is linked to."""
    body = (bytes(range(256)) * 128)[: LONGEST_CODE - 15]
    slots = {slot: m.Segment(f"SEG{slot:05}", m.LINKED, [m.Procedure([bytes([slot]), body])])
             for slot in range(16)}
    if not is_linked:
        slots[0] = dataclasses.replace(slots[0], kind=m.HOSTSEG, records=[m.eof_mark(8)])
    return m.written(m.File(slots))


def long_pair():
    """A host of many definitions, and a library whose unit is full of operands."""
    host = host_program(*(m.publ_def(f"{number:08}", 3) for number in range(5000)))
    unit = unit_of("UTIL", [bytes(OPERANDS)], [m.unit_ref("UTIL", range(OPERANDS))])
    return [m.written(m.File(slots)) for slots in (wanting("UTIL", host=host), {2: unit})]


def long_cases():
    """For each long case: its name, its files, and for each command the status, the output, what is
    on error output, and the linked file, each None where it is compared with the program alone."""
    none = bytes(m.BLOCK)
    yield ("the longest linked file", [longest(False)],
           {"link": (0, "segments 16 private words 0 blocks 1025\n", "", longest(True))})
    yield ("500 libraries", [HOST, *[none] * 499, LIBRARY],
           {"link": (0, "segments 2 private words 4 blocks 3\n", "", LINKED.read_bytes())})
    fault = (1, "", "pslink: refused 1 ShortFile file 300\n", None)
    yield ("a fault in library 300", [HOST, *[none] * 299, none[1:], LIBRARY],
           {"link": fault, "map": fault})
    # (a line of a public has 24 bytes, and one of a record as many at least)
    yield ("a long map and a long show", long_pair(), {})


def without_refusal(command, answer):
    """The answer of the program without the document of a refusal, which names the fault of the
    line: the library has its parts."""
    if answer.status != 1 or "--json" not in command or not answer.printed.startswith('{"path":'):
        return answer
    fault = json.loads(answer.printed)["fault"]
    is_same = answer.error.startswith(f"pslink: refused {fault['number']} {fault['reason']} ")
    return answer._replace(printed="") if is_same else answer


def differences(pslink, others, what, command, files, wanted=None):
    """What the program answers otherwise than is wanted, and others than the program. Python is
    given the bytes of the files."""
    word, *flags = command.split()
    host, *libraries = files[:1] if word == "show" else files
    answer = without_refusal(command, pslink(word, host, libraries, *flags))
    if wanted is not None and answer != wanted:
        yield f"{what}: {command}: the program answers {str(answer)[:300]}"
    names = ["HOST", *(f"LIB{k}" for k in range(1, 1 + len(libraries)))]
    found = {language: run(word, host, libraries, *flags) for language, run in others.items()}
    found["Python"] = program.answer(word, host, libraries, names, flags)
    # (such a text is all that the library answers of them, whatever the program ends with)
    is_text_alone = command in ("check --json", "list", "list --json", "check --unit",
                                "check --unit --json")
    for language, one in found.items():
        if (one[1:] if is_text_alone else one) != (answer[1:] if is_text_alone else answer):
            yield (f"{what}: {command}: {language} answers {str(one)[:300]}, and the program "
                   f"{str(answer)[:300]}")


def of_samples(*linkers):
    for names in SAMPLE_SETS:
        files = [SAMPLES[name] for name in names.split()]
        for command in ("link", "map", "check", "check --strict", *TEXTS):
            yield from differences(*linkers, names, command, files)
    for path in [*(ROOT / "samples").glob("*.code"), *(ROOT / "samples").glob("*.map")]:
        yield from differences(*linkers, path.name, "show", [path.read_bytes()])


def of_damage(*linkers):
    """The files that came to harm or are given in place of others, whose reports .ci/damage has."""
    damage = runpy.run_path(str(ROOT / ".ci/damage"))
    tables = damage["rows"](), damage["wrong_files"](LINKED.read_bytes())
    sets = [[host, *libraries]
            for table in tables
            for _, _, host, libraries in damage["cases_of"](table)]
    if len(sets) < damage["SINGLE"]:
        yield f".ci/damage has {len(sets)} sets of files"
    for number, files in enumerate(sets):
        for command in ("link", "check"):
            yield from differences(*linkers, f"files {number} of .ci/damage", command, files)
    for file in {file for files in sets for file in files}:
        yield from differences(*linkers, "a file of .ci/damage", "show", [file])


def of_report(*linkers):
    """The sets of files that .ci/report runs the program on, without most of those that it
    generates: what is between the library's functions and a caller does not depend on them."""
    sets = {(bytes(host), tuple(map(bytes, libraries))): None
            for host, libraries in runpy.run_path(str(ROOT / ".ci/report"))["sets"](SOME)}
    if len(sets) < 450:
        yield f".ci/report has {len(sets)} sets of files"
    for number, (host, libraries) in enumerate(sets):
        for command in ("link", "map", "check --strict"):
            yield from differences(*linkers, f"files {number} of .ci/report", command,
                                   [host, *libraries])
        for command in TEXTS if number % 10 == 0 else ():
            yield from differences(*linkers, f"files {number} of .ci/report", command,
                                   [host, *libraries])
    for file in {file for host, libraries in sets for file in [host, *libraries]}:
        yield from differences(*linkers, "a file of .ci/report", "show", [file])


def of_long_files(*linkers):
    for what, files, wanted in long_cases():
        for command in ("link", "map", "check", "show"):
            yield from differences(*linkers, what, command, files, wanted.get(command))
        for k, file in enumerate(files):
            (FOLDER / f"{what.replace(' ', '_')}.{k:03}").write_bytes(file)
    for command, least in (("map", 5000 * 24), ("show", 5000 * 24)):
        size = len(program.answer(command, files[0], files[1:])[1])
        if size < least or size <= 65536:
            yield f"a long {command} has {size} bytes"


def main():
    by_paths = ROOT / "library/tests/program.py"
    with Commands(PSLINK) as pslink, Commands(PROGRAM, serves=True) as in_c, Commands(
            by_paths, serves=True) as python:
        by_each = {"C": in_c, "Python, given paths,": python}
        found = [*of_samples(pslink, by_each), *of_damage(pslink, by_each)]
        found += [*of_report(pslink, {"C": in_c}), *of_long_files(pslink, {"C": in_c})]
    for line in found:
        print(line)
    return 1 if found else 0


sys.exit(main())
