"""Files for `check`, one or more for each fault, with what a report says of them: among them the
records that are not linked. For .ci/report."""

from report_files import (
    AUX, AUX_FILE, AUX_UNIT, BIG_HOST, BIG_LIBRARY, BLANK_LIBRARY, CODE, COMPILE, COUNT, COUNTED,
    DEMO, DISK, END, EXCHANGED, HOST, LATER, LATER_HOST, LATER_NATIVE_HOST, LEFT, LEFT_TO_LIBRARY,
    LIBRARIES, LIBRARY, LINKED, LINKS, LONG, LOST_CODE, NATIVE_HOST, NOT_LINKED, NOT_READ, NO_CODE,
    OTHER_UNIT, OWN, PROGRAM, READ_TWICE, REQUESTED, SEVEN, SMALLER, STATE, TOOL, TWICE_READ,
    TWO_UNITS, TWO_WANTED, USED, USING, UTIL, WANTED, ZEROS, again, code_file, counted, dead_unit,
    entry, full_host, give, host_and, host_with, in_other_order, library_and, native, native_host,
    not_linked, of_bytes, past_mark, short_unit, tools, unit_named, unit_with, whole, with_run,
    word,
)
from descriptions import model as m
from descriptions.links import program
from damaged_files import changed, swapped


def unsupported():
    """Records that are not linked, as faults() has them."""
    unit = lambda *records: [unit_with([*records, END])]
    left = lambda name: (f"  The compiler left {LEFT_TO_LIBRARY[name]} to SYSTEM.LIBRARY, and "
                         "pslink does not link that. Link this program by the p-System's Linker, "
                         "or write it without.")
    lines = lambda first, *records: [UTIL, f"  record {first[0]}: {first[1]}",
                                     *not_linked(first, *records)]
    many = lambda count: unit(*(native(f"P{k}") for k in range(count)))
    first_many = not_linked(*((k, f"EXTPROC P{k}") for k in range(16)))
    in_aux = code_file({3: unit_named("AUX", [native("SWAP", 10), END])})
    return [
        # each type, also where another one is before it, and in the other byte order
        *((21 if kind < 11 else 22, HOST, unit(native("SWAP", kind)), lines((0, f"{word} SWAP")))
          for kind, word in NOT_LINKED.items()),
        (21, HOST, unit(COUNT, *(native(f"N{kind}", kind) for kind in NOT_LINKED)),
         lines(*((1 + k, f"{word} N{kind}") for k, (kind, word) in enumerate(NOT_LINKED.items())))),
        (21, BIG_HOST, [changed(BIG_LIBRARY, (LINKS + 8, b"\0\2"))], lines((0, "GLOBREF COUNT"))),
        # references in the format of native code
        (21, HOST, [changed(LIBRARY, (LINKS + 10, b"\0"))],
         lines((0, "PUBLREF COUNT, of format 0"))),
        (21, HOST, unit(m.Record("AUX", 1, [0, 1], [1]), native("SWAP")),
         lines((0, "UNITREF AUX, of format 0"), (1, "EXTPROC SWAP"))),
        # records behind lists of references, and behind words that say how many there were in such
        # a list
        (21, HOST,
         unit(m.Record("LONG", 2, [2, 9], [*range(9)]), m.Record("EIGHT", 13, [2, 8], [*range(8)]),
              native("LAST")),
         lines((0, "GLOBREF LONG"), (1, "SEPPREF EIGHT"), (2, "EXTPROC LAST"))),
        (21, HOST,
         unit(m.Record("CONST", 5, [2, 1], [1]), m.Record("SEPF", 14, [2, 17], [*range(17)]),
              native("LAST")),
         lines((0, "CONSTREF CONST"), (1, "SEPFREF SEPF"), (2, "EXTPROC LAST"))),
        (21, HOST,
         unit(native("DEF", 6, 300), native("PROC", 9, 5), native("FUNC", 12, 9), native("LAST")),
         lines((0, "GLOBDEF DEF"), (1, "EXTPROC PROC"), (2, "SEPFUNC FUNC"), (3, "EXTPROC LAST"))),
        # records between them that can be read; none behind one that is damaged, in a list that is
        # cut, and behind the end mark
        (21, HOST, unit(native("ONE"), COUNT, STATE, m.publ_def("OWN", 1), native("TWO")),
         [*lines((0, "EXTPROC ONE"), (4, "EXTPROC TWO"))]),
        (21, HOST, unit(native("ONE"), native("NONE", 15), native("TWO")),
         lines((0, "EXTPROC ONE"))),
        (21, HOST, unit(native("ONE"), m.Record("COUNT", 3, [1, 0]), native("TWO")),
         lines((0, "EXTPROC ONE"))),
        (21, HOST, unit(native("ONE"), native("CUT", 2, 5000), native("TWO")),
         lines((0, "EXTPROC ONE"), (1, "GLOBREF CUT"))),
        (21, HOST, unit(native("ONE"), END, native("TWO")), lines((0, "EXTPROC ONE"))),
        # so many that the last are counted
        *((21, HOST, many(count), [UTIL, "  record 0: EXTPROC P0", *first_many, *rest])
          for count, rest in ((16, []), (17, ["not linked: 1 more record"]),
                              (18, ["not linked: 2 more records"]))),
        # a name that ASCII does not print
        (21, HOST, unit(native(b"\1BC     ")), lines((0, 'EXTPROC "\\x01BC"'))),
        # records of all segments of the link: of the program, of a unit in place, of one that is
        # wanted and of one that is added
        (21, NATIVE_HOST, unit(native("SWAP")),
         [DEMO, "  record 1: EXTPROC FWRITERE",
          *not_linked((1, "EXTPROC FWRITERE"), path="HOST", segment="DEMO"),
          *not_linked((0, "EXTPROC SWAP"))], left("FWRITERE")),
        (21, host_and({8: unit_named("AUX", [native("SWAP"), END])}), [LIBRARY],
         [AUX, "  record 0: EXTPROC SWAP",
          *not_linked((0, "EXTPROC SWAP"), path="HOST", segment="AUX")]),
        (21, HOST, [USING, in_aux],
         [AUX, "  record 0: EXTFUNC SWAP",
          *not_linked((0, "EXTFUNC SWAP"), path="LIB2", segment="AUX")]),
        # beside another fault, which comes first; none of a segment that is linked already
        (13, TWO_WANTED, [in_aux],
         [UTIL, "  LIB1 has AUX", *not_linked((0, "EXTFUNC SWAP"), segment="AUX")], *WANTED),
        (13, host_and({9: m.Segment("TOOLS", m.LINKED, LONG, [native("SWAP"), END])}), [],
         [UTIL, "  no library is given"], *WANTED),
        # nothing is said of the segments of a host of another release
        (21, LATER_NATIVE_HOST, [LIBRARY], [f"  it is {LATER}"], *NO_CODE, COMPILE),
        # what the compiler left to the library of the p-System, also beside another sign of damage;
        # and names of which each has one more letter or one less
        *((21 if kind < 11 else 22, HOST, unit(native(name, kind)), lines((0, f"{word} {name}")),
           left(name))
          for name in LEFT_TO_LIBRARY
          for kind, word in NOT_LINKED.items()
          if kind in (9, 10, 11, 13)),
        (21, HOST, [changed(unit_with([native("DECOPS"), END]), (600, b"\r\n" * 32))],
         [*lines((0, "EXTPROC DECOPS")),
          "note: LIB1: each 0A in it comes after a 0D: its line ends may have been converted"],
         left("DECOPS")),
        *((21, HOST, unit(native(name)), lines((0, f"EXTPROC {name}")))
          for name in ("FSEEKS", "SEEK", "FREADRE", "DECOP", "DECOPSS")),
    ]


def faults():
    """For each fault: its number, the host, its libraries, the lines of its explanation after that
    of the file, and the two sentences that it ends with, where they are others than those of the
    number."""
    unit = lambda *changes: [changed(LIBRARY, *changes)]
    near = "differs from UTIL in small letters, high bits or padding alone"
    extent = "bytes of code, from byte"
    large_demo = program(data=65534)
    cases = [
        (1, HOST, [LIBRARY[:511]], ["  it has 511 bytes, and is no code file of a known form"],
         again("LIB1")),
        (2, HOST, unit((193, b"\1")),
         ["  it is no code file of a known form; the host is little-endian"], again("LIB1")),
        (3, HOST, unit((196, b"\0\3")), ["  it is big-endian; the host is little-endian"],
         "  Compile LIB1 for the machine of the host."),
        # a library of the other byte order that is no code file
        (3, HOST, unit((196, b"\0\x09")), ["  it is big-endian; the host is little-endian"],
         again("LIB1")),
        (4, LIBRARY, [], ["  it has units, and no host program"],
         "  Give the compiled program as the host, and HOST after it, as a library."),
        (4, USING, [USED, LIBRARY[:535]], ["  it has units, and no host program"],
         "  Give the compiled program as the host, and HOST after it, as a library."),
        (4, LIBRARY, [HOST], ["  it has units, and no host program", "  LIB1 has a host program"],
         "  Exchange the two: give LIB1 as the host, and HOST after it."),
        (4, bytes(2048), [HOST],
         ["  it is a file of the byte 00 alone", "  LIB1 has a host program"],
         "  Exchange the two: give LIB1 as the host, and HOST after it."),
        (4, LINKED, [LIBRARY], ["  all of its segments are linked"],
         "  Give the unlinked host in place of HOST, the file that the compiler made."),
        (4, LINKED, [HOST, LIBRARY],
         ["  all of its segments are linked", "  LIB1 has a host program"],
         "  Give LIB1 as the host, and leave HOST out: it is linked already."),
        # sectors of 128 bytes in another order: all kinds are 0, and no code is where its entry
        # says
        *((4, in_other_order(HOST), libraries,
           ["  its kinds are all 0, and none of its codes ends with a procedure dictionary", *more,
            *LOST_CODE], again("HOST"))
          for libraries, *more in (([LIBRARY],), ([HOST], "  LIB1 has a host program"))),
        (5, changed(HOST, *entry(3, "OTHER", 1, 1, 18)), [LIBRARY],
         ["  segment OTHER, of slot 03 of the host", "  the earlier one is slot 01, DEMO",
          "note: HOST, segment OTHER: its code has segment number 1, and its slot is 3: the code "
          "may be another one",
          "warning: HOST, segment OTHER: its bytes in the file overlap those of slot 01"]),
        (3, swapped(HOST), [LIBRARY],
         ["  it is little-endian; the host is big-endian",
          "note: HOST: it may be a code file whose bytes are exchanged in pairs"],
         "  Exchange the bytes again: (set -C; dd conv=swab if=HOST > HOST.whole). Then give "
         "HOST.whole."),
        (4, library_and({9: tools(LONG)}), [], ["  it has units, and no host program"],
         "  Give the compiled program as the host, and HOST after it, as a library."),
        (6, host_and({7: unit_named("UTIL"), 8: m.Segment("AUX"), 9: m.Segment("UTIL")}),
         [AUX_FILE],
         ["  segment UTIL, of slot 09 of the host", "  the earlier one is slot 07, UTIL"]),
        (6, changed(HOST, *entry(8, "UTIL", 3, 0, 0)), [LIBRARY],
         ["  segment UTIL, of slot 08 of the host", "  the earlier one is slot 07, UTIL"]),
        # an earlier unit whose name begins with the same letter
        (6, changed(HOST, *entry(2, "UAUX", 3, 0, 0), *entry(8, "UTIL", 3, 0, 0)), [LIBRARY],
         ["  segment UTIL, of slot 08 of the host", "  the earlier one is slot 07, UTIL"]),
        (7, changed(HOST, (194, b"\2")), [LIBRARY], [DEMO]),
        (8, changed(HOST, (194, b"\4")), [LIBRARY], [DEMO]),
        (9, changed(HOST, (194, b"\5")), [LIBRARY], [DEMO, "  its kind is 5"]),
        (10, changed(HOST, (194, b"\x08")), [LIBRARY], ["  it is no code file of a known form"],
         *NO_CODE, again("HOST")),
        (10, changed(HOST, *entry(3, "OTHER", 8, 9, 18)), [LIBRARY],
         ["  segment OTHER, of slot 03 of the host", "  its kind is 8"]),
        # hosts of release III.0: nothing is said of their segments, but of a library that is no
        # code file and of one that is refused
        (13, LATER_HOST, [bytes(2048)],
         [f"  it is {LATER}", "note: LIB1: it may be a file of the byte 00 alone"], *NO_CODE,
         COMPILE),
        (13, LATER_HOST, [USING],
         [UTIL, "  record 0: UNITREF AUX", "  LIB1 has UTIL", f"note: HOST: it may be {LATER}"],
         REQUESTED[0], COMPILE),
        # what the explanation says of a library that is no code file is not said again
        (13, LATER_HOST, [USING, bytes(2048)],
         [UTIL, "  record 0: UNITREF AUX", "  LIB1 has UTIL",
          "  LIB2 is a file of the byte 00 alone", f"note: HOST: it may be {LATER}"], REQUESTED[0],
         COMPILE),
        (3, LATER_HOST, [changed(LIBRARY, (196, b"\0\3"))],
         ["  it is big-endian; the host is little-endian", f"note: HOST: it may be {LATER}"],
         COMPILE),
        (11, HOST, unit((10, word(23))),
         [UTIL, f"  entry 02 has 23 {extent} 512 to 535; the file has 1536"]),
        (12, changed(HOST, (4, word(0))), [LIBRARY],
         [DEMO, f"  entry 01 has 18 {extent} 0 to 18; the file has 1536"]),
        (13, HOST, [], [UTIL, "  no library is given"], *WANTED),
        (13, HOST, [LIBRARY.replace(b"UTIL", b"util")],
         [UTIL, f"  LIB1 has util (which {near})",
          "note: LIB1: the name util has small letters, and other names have capitals: it may not "
          "be found"], *WANTED),
        (13, HOST, [LIBRARY.replace(b"UTIL    ", b"UTIL\0\0\0\0")],
         [UTIL, f'  LIB1 has "UTIL\\x00\\x00\\x00\\x00" (which {near})',
          'note: LIB1: the name "UTIL\\x00\\x00\\x00\\x00" is padded with zeros where blanks are '
          'expected: it may not be found'], *WANTED),
        (13, HOST,
         [code_file({3: AUX_UNIT, 5: OTHER_UNIT}),
          code_file({1: m.Segment("DEMO", m.LINKED, PROGRAM)})],
         [UTIL, "  LIB1 has AUX, OTHER", "  LIB2 has no unit"], *WANTED),
        (13, HOST, [bytes(2048), LIBRARY.replace(b"UTIL", b"TOOL")],
         [UTIL, "  LIB1 is a file of the byte 00 alone", "  LIB2 has TOOL"], WANTED[0],
         "  Copy LIB1 again: nothing of the code file is in it."),
        # the first library that is no code file is not always the first one; what a library only
        # wants it has not
        (13, HOST, [TOOL, bytes(2048)],
         [UTIL, "  LIB1 has TOOL", "  LIB2 is a file of the byte 00 alone"], WANTED[0],
         "  Copy LIB2 again: nothing of the code file is in it."),
        (13, HOST, [changed(TOOL, *entry(5, "UTIL", 3, 0, 0))], [UTIL, "  LIB1 has TOOL"], *WANTED),
        (14, HOST, [changed(TOOL, *entry(5, "UTIL", 2, 9, 24), *entry(6, "UTIL", 3, 0, 0))],
         [UTIL, "  entry 05 has the name, of kind 2: a segment procedure"],
         "  Give the unit's library before LIB1, or remove that segment from LIB1."),
        (13, HOST, [USING], [UTIL, "  record 0: UNITREF AUX", "  LIB1 has UTIL"], *REQUESTED),
        (13, HOST, [USING, AUX_FILE.replace(b"AUX", b"Aux")],
         [UTIL, "  record 0: UNITREF AUX", "  LIB1 has UTIL",
          "  LIB2 has Aux (which differs from AUX in small letters, high bits or padding alone)",
          "note: LIB2: the name Aux has small letters, and other names have capitals: it may not "
          "be found"], *REQUESTED),
        (13, HOST, [BLANK_LIBRARY], [UTIL, '  record 0: UNITREF ""', '  LIB1 has UTIL, ""'],
         REQUESTED[0], give('""')),
        *((13, HOST, [AUX_FILE] * count,
           [UTIL, *(f"  LIB{k} has AUX" for k in range(1, 17)), *rest], *WANTED)
          for count, rest in ((16, []), (17, ["  there is 1 more library"]),
                              (18, ["  there are 2 more libraries"]))),
        (14, HOST, unit((196, b"\4")),
         [UTIL, "  entry 02 has the name, of kind 4: a separate segment"],
         "  Give the unit's library before LIB1, or remove that segment from LIB1."),
        *((14, HOST, unit((196, bytes([kind]))),
           [UTIL,
            f"  entry 02 has the name, of kind {kind}: an intrinsic unit of Apple Pascal, or its "
            "data"],
           "  Compile it as a regular unit of II.0, or give the library of such a unit before "
           "LIB1.")
          for kind in (5, 6, 7)),
        *((14, HOST, unit((196, bytes([kind]))),
           [UTIL, f"  entry 02 has the name, of kind {kind}: {word}", *rest],
           "  Give the unit's library before LIB1, or remove that segment from LIB1.")
          for kind, word, *rest in ((1, "a host program"), (2, "a segment procedure"),
                                    (8, "no kind of II.0",
                                     "note: LIB1: it may be no code file of a known form"))),
        (14, HOST, [in_other_order(LIBRARY)],
         [UTIL, "  entry 02 has the name, of kind 0: a linked segment"], again("LIB1")),
        (14, HOST, [LINKED], [UTIL, "  entry 07 has the name, of kind 0: a linked segment"],
         "  LIB1 is linked already: leave it out."),
        (15, HOST, unit(*entry(5, "UTIL", 3, 1, 24)),
         [UTIL, "  entry 02 has the name, of kind 3: a unit",
          "  entry 05 has the name, of kind 3: a unit",
          "warning: LIB1, segment UTIL: its bytes in the file overlap those of slot 02"]),
        (16, HOST, [LIBRARY[:535]],
         [UTIL, f"  entry 02 has 24 {extent} 512 to 536; the file has 535"]),
        (17, HOST, unit((CODE + 23, b"\xc8")),
         [UTIL, "  its procedure dictionary would have 402 bytes"]),
        (17, HOST, unit((CODE + 20, word(13))),
         [UTIL, "  the table of procedure 1 lies outside the code"]),
        (17, HOST, unit((CODE + 20, word(500))),
         [UTIL, "  the table of procedure 1 lies outside the code"]),
        (17, changed(HOST, (CODE + 14, word(0))), [LIBRARY],
         [DEMO, "  it has no table of procedure 1, the outer block"]),
        (17, HOST, [changed(dead_unit(), (CODE + 1054, word(5000)))],
         [UTIL, "  the table of procedure 1 lies outside the code",
          "  bytes 512 to 1023 of its code are all E5: they may not have been read"]),
        (18, HOST, unit((CODE + 18, b"\0")),
         [UTIL, "  the table of procedure 1 has the number 0, native code"]),
        # a run of one byte at the end of a code
        (17, HOST, [with_run(896, 1046, 0xFF)],
         [UTIL, "  the table of procedure 1 lies outside the code",
          "  bytes 896 to 1045 of its code are all FF: they may not have been read"]),
        # beside a library that has no byte above 7F by right
        (17, HOST,
         [changed(LIBRARY, (CODE + 23, b"\xc8")),
          short_unit(b"\1\0\2\0").replace(b"UTIL", b"TOOL")],
         [UTIL, "  its procedure dictionary would have 402 bytes"]),
        # where another sign of damage stands, the file is to be copied first
        (18, HOST, unit((CODE + 18, b"\0"), TWICE_READ),
         [UTIL, "  the table of procedure 1 has the number 0, native code", READ_TWICE],
         whole("use the procedure as the compiler left it, in P-code.")),
        (18, native_host(), [LIBRARY],
         [DEMO, "  the table of procedure 2 has the number 0, native code",
          "  bytes 512 to 1023 of its code are all 00: they may not have been read"], *NOT_READ),
        (18, swapped(HOST), [swapped(LIBRARY)],
         ["  it is a code file whose bytes are exchanged in pairs",
          "note: LIB1: it may be a code file whose bytes are exchanged in pairs"], *NO_CODE,
         "  Exchange the bytes again: (set -C; dd conv=swab if=HOST > HOST.whole). Then give "
         "HOST.whole."),
        # a library whose bytes are exchanged, of a host that is a code file
        (18, BIG_HOST, [EXCHANGED],
         ["  segment UTIL, of slot 07 of the host",
          "  the table of procedure 1 has the number 0, native code"],
         "  The bytes of the code are exchanged in pairs.",
         "  Exchange the bytes again: (set -C; dd conv=swab if=LIB1 > LIB1.whole). Then give "
         "LIB1.whole."),
        (19, HOST, [LIBRARY[:1103]], [UTIL, f"  record 2: 15 {LEFT}"]),
        (19, HOST, [LIBRARY[:1044]],
         [UTIL, f"  record 0: PUBLREF COUNT, and its word A is 2; 20 {LEFT}"]),
        (20, HOST, unit((LINKS + 8, b"\x0f")),
         [UTIL, f"  record 0: type 15, and its word A is 2; 512 {LEFT}"]),
        (20, HOST, [changed(LIBRARY[: LINKS + 16], (LINKS + 8, b"\x0f"))],
         [UTIL, f"  record 0: type 15, and its word A is 2; 16 {LEFT}"]),
        (21, HOST, unit((LINKS + 8, b"\2")),
         [UTIL, "  record 0: GLOBREF COUNT", *not_linked((0, "GLOBREF COUNT"))]),
        (21, HOST, unit((LINKS + 8, b"\2"), (600, b"\r\n" * 32)),
         [UTIL, "  record 0: GLOBREF COUNT", *not_linked((0, "GLOBREF COUNT")),
          "note: LIB1: each 0A in it comes after a 0D: its line ends may have been converted"],
         whole("write the external procedure in Pascal, in a unit.")),
        (22, HOST, unit((LINKS + 8, b"\x0b")),
         [UTIL, "  record 0: SEPPROC COUNT", *not_linked((0, "SEPPROC COUNT"))]),
        (23, HOST, unit((LINKS + 32 + 10, b"\1")),
         [UTIL, f"  record 1: PRIVREF STATE, and its word A is 1; 480 {LEFT}"]),
        # words of records in the other byte order
        (20, BIG_HOST, [changed(BIG_LIBRARY, (LINKS + 8, b"\0\x0f"))],
         [UTIL, f"  record 0: type 15, and its word A is 2; 512 {LEFT}"]),
        (23, BIG_HOST, [changed(BIG_LIBRARY, (LINKS + 32 + 10, b"\0\1"))],
         [UTIL, f"  record 1: PRIVREF STATE, and its word A is 1; 480 {LEFT}"]),
        *unsupported(),
        (24, host_with([m.publ_def("COUNT", 3), m.const_def("COUNT", 1), m.eof_mark(8)]), [LIBRARY],
         [DEMO, "  record 1: CONSTDEF COUNT", "  the earlier one is record 0: PUBLDEF COUNT"]),
        (25, HOST, [unit_with([STATE, m.priv_ref("STATE", 1, []), END])],
         [UTIL, "  record 1: PRIVREF STATE", "  the earlier one is record 0: PRIVREF STATE"]),
        (26, HOST, [unit_with([m.priv_ref("FIRST", 2, []), m.priv_ref("STATE", 32758, []), END])],
         [UTIL, "  record 1: PRIVREF STATE", "  it takes 32758 words from base offset 10 on"]),
        (27, host_and({1: large_demo}), [LIBRARY],
         [DEMO, "  the program's own data have 65534 bytes, and the private variables 8",
          "warning: HOST, segment DEMO: the end mark 8 is below half the data size of 65534 "
          "bytes"]),
        # a private variable of the last slot, and a data size in the other byte order
        *((27, code_file({1: large_demo, 15: m.Segment("UTIL")}, order), [library],
           [DEMO, "  the program's own data have 65534 bytes, and the private variables 8",
            "warning: HOST, segment DEMO: the end mark 8 is below half the data size of 65534 "
            "bytes"])
          for order, library in LIBRARIES.items()),
        (28, HOST, [unit_with([m.publ_ref("Count", [1]), END])],
         [UTIL, "  record 0: PUBLREF Count", "  the host has PUBLDEF COUNT, record 0",
          "note: LIB1, segment UTIL, record 0: the name Count has small letters, and other names "
          "have capitals: it may not be found"]),
        (28, HOST, [unit_with([m.publ_ref("OTHER", [1]), END]), LIBRARY, LIBRARY],
         [UTIL, "  record 0: PUBLREF OTHER"]),
        (28, HOST, [unit_with([m.publ_ref("OWN", [1]), m.publ_def("OWN", 1), END])],
         [UTIL, "  record 0: PUBLREF OWN",
          "  the unit itself has a PUBLDEF of it, record 1, which is not used: the host program "
          "has to define it",
          "warning: LIB1, segment UTIL, record 1: the unit refers to OWN and defines it itself: "
          "only the host program defines variables"]),
        # a definition of nearly the name is any record of the host; a unit's constant is no
        # variable
        (28, host_with([m.publ_def("OTHER", 3), m.publ_def("COUNT", 4), m.eof_mark(8)]),
         [unit_with([m.publ_ref("Count", [1]), END])],
         [UTIL, "  record 0: PUBLREF Count", "  the host has PUBLDEF COUNT, record 1",
          "note: LIB1, segment UTIL, record 0: the name Count has small letters, and other names "
          "have capitals: it may not be found"]),
        (28, HOST, [unit_with([m.publ_ref("OWN", [1]), m.const_def("OWN", 1), END])],
         [UTIL, "  record 0: PUBLREF OWN"]),
        # names that differ in one letter: at most four, and no constant of a unit
        (28, HOST, [unit_with([m.publ_ref("COUNTS", [1]), END])],
         [UTIL, "  record 0: PUBLREF COUNTS", "  the host has PUBLDEF COUNT, record 0"]),
        (28, HOST, [unit_with([m.publ_ref("COUNTER", [1]), END])],
         [UTIL, "  record 0: PUBLREF COUNTER"]),
        (28, host_with([m.publ_def("COUNTA", 3), m.eof_mark(8)]),
         [unit_with([m.publ_ref("countb", [1]), END])],
         [UTIL, "  record 0: PUBLREF countb", "  the host has PUBLDEF COUNTA, record 0",
          "note: LIB1, segment UTIL, record 0: the name countb has small letters, and other names "
          "have capitals: it may not be found"]),
        (28, host_with([*(m.publ_def(f"X{k}", k) for k in range(1, 7)), m.eof_mark(8)]),
         [unit_with([m.publ_ref("X0", [1]), END])],
         [UTIL, "  record 0: PUBLREF X0",
          *(f"  the host has PUBLDEF X{k}, record {k - 1}" for k in range(1, 5))]),
        (29, host_with([m.publ_def("COUNTS", 3), m.const_def("COUNT", 3), m.eof_mark(8)]),
         [LIBRARY], [UTIL, "  record 0: PUBLREF COUNT", "  the host has CONSTDEF COUNT, record 1"]),
        (29, host_with([m.const_def("COUNT", 3), m.eof_mark(8)]), [LIBRARY],
         [UTIL, "  record 0: PUBLREF COUNT", "  the host has CONSTDEF COUNT, record 0"]),
        (31, HOST, [unit_with([m.publ_ref("COUNT", [1, 23]), END])],
         [UTIL, "  record 0: PUBLREF COUNT",
          "  reference 1: byte 23 of the code, where these bytes stand: 01",
          "  the code has 24 bytes"]),
        (31, HOST, [unit_with([m.publ_ref("COUNT", [24]), END])],
         [UTIL, "  record 0: PUBLREF COUNT",
          "  reference 0: byte 24 of the code, where these bytes stand: none",
          "  the code has 24 bytes"]),
        (32, HOST, [unit_with([m.publ_ref("COUNT", [9]), END])],
         [UTIL, "  record 0: PUBLREF COUNT",
          "  reference 0: byte 9 of the code, where these bytes stand: 00 00",
          "  it lies in the table of procedure 1",
          "note: LIB1, segment UTIL, record 0: the operand at byte 9 may be damaged: its bit 7 is "
          "clear, and a compiler sets it"]),
        # the last byte of a table, and the first of the procedure dictionary
        (32, HOST, [unit_with([m.publ_ref("COUNT", [19]), END])],
         [UTIL, "  record 0: PUBLREF COUNT",
          "  reference 0: byte 19 of the code, where these bytes stand: 00 02",
          "  it lies in the table of procedure 1",
          "note: LIB1, segment UTIL, record 0: the operand at byte 19 may be damaged: its bit 7 is "
          "clear, and a compiler sets it"]),
        (32, HOST, [unit_with([m.unit_ref("UTIL", [20]), END])],
         [UTIL, "  record 0: UNITREF UTIL",
          "  reference 0: byte 20 of the code, where these bytes stand: 02",
          "  it lies in the procedure dictionary"]),
        (32, HOST, [unit_with([m.unit_ref("UTIL", [23]), END])],
         [UTIL, "  record 0: UNITREF UTIL",
          "  reference 0: byte 23 of the code, where these bytes stand: 01",
          "  it lies in the procedure dictionary"]),
        (33, HOST, [unit_with([COUNT, m.priv_ref("STATE", 3, [4, 2]), END])],
         [UTIL, "  record 1: PRIVREF STATE",
          "  reference 1: byte 2 of the code, where these bytes stand: 00 AB",
          "  the earlier one is reference 0 of record 0, COUNT",
          "warning: LIB1, segment UTIL, record 1: the operand at byte 2 is word 171 of a variable "
          "that has 3",
          "note: LIB1, segment UTIL, record 1: the operand at byte 2 may be damaged: its bit 7 is "
          "clear, and a compiler sets it"]),
        (33, HOST, [unit_with([m.publ_ref("COUNT", [4, 1]), m.priv_ref("STATE", 3, [2]), END])],
         [UTIL, "  record 1: PRIVREF STATE",
          "  reference 0: byte 2 of the code, where these bytes stand: 00 AB",
          "  the earlier one is reference 1 of record 0, COUNT",
          "warning: LIB1, segment UTIL, record 1: the operand at byte 2 is word 171 of a variable "
          "that has 3",
          "note: LIB1, segment UTIL, record 1: the operand at byte 2 may be damaged: its bit 7 is "
          "clear, and a compiler sets it"]),
        (33, HOST, [unit_with([m.publ_ref("COUNT", [4, 1, 1]), END])],
         [UTIL, "  record 0: PUBLREF COUNT",
          "  reference 2: byte 1 of the code, where these bytes stand: 80 00",
          "  the earlier one is reference 1 of record 0, COUNT"]),
        # references that are counted otherwise: from block 0 of the file, back from the end of a
        # code of 34 bytes, from procedures
        (31, HOST,
         [unit_with([m.publ_ref("COUNT", [513, 516, 519, 522]), END], [of_bytes(1, ZEROS)])],
         [UTIL, "  record 0: PUBLREF COUNT",
          "  reference 0: byte 513 of the code, where these bytes stand: none",
          "  the code has 28 bytes", counted(4, "from block 0 of the file", 0)], COUNTED),
        (33, HOST,
         [unit_with([m.publ_ref("COUNT", [1, 4, 1, 4]), END],
                    [of_bytes(1, "A5 80 00 AB 80 00"), of_bytes(2, "A5 80 00 AB 80 00")])],
         [UTIL, "  record 0: PUBLREF COUNT",
          "  reference 2: byte 1 of the code, where these bytes stand: 80 00",
          "  the earlier one is reference 0 of record 0, COUNT",
          counted(4, "from the start of the procedure", 2)], COUNTED),
        (34, HOST, unit((CODE + 1, b"\xff\xfd")),
         [UTIL, "  record 0: PUBLREF COUNT",
          "  reference 0: byte 1 of the code, where these bytes stand: FF FD",
          "  its displacement is 32765, and the value 3", past_mark(1, 32765)], SMALLER),
        # what cannot be read is not told of: the end mark of a host, and what it defines behind
        # such a record
        (20, host_with([m.publ_def("COUNT", 3), m.Record("COUNT", 15, [2]), m.eof_mark(4)]),
         [LIBRARY], [DEMO, f"  record 1: type 15, and its word A is 2; 496 {LEFT}"]),
        (20, host_with([m.Record("OTHER", 15, [2]), m.publ_def("OWN", 3), m.eof_mark(8)]),
         [unit_with([*OWN, END])],
         [DEMO, f"  record 0: type 15, and its word A is 2; 512 {LEFT}",
          "harmless: LIB1, segment UTIL, record 1: the unit defines OWN, which has no effect: only "
          "the host program defines variables"]),
        # a definition that is missed behind one that is not
        (28, HOST, [unit_with([m.publ_def("MORE", 1), *OWN, m.publ_def("OTHER", 1), END])],
         [UTIL, "  record 1: PUBLREF OWN",
          "  the unit itself has a PUBLDEF of it, record 2, which is not used: the host program "
          "has to define it",
          "warning: LIB1, segment UTIL, record 2: the unit refers to OWN and defines it itself: "
          "only the host program defines variables",
          "harmless: LIB1, segment UTIL, record 0: the unit defines MORE, which has no effect: "
          "only the host program defines variables"]),
        # a file that was sent as 7 bits, also the length of its code
        (17, HOST, [SEVEN],
         [UTIL, "  its procedure dictionary would have 176 bytes",
          "note: LIB1: none of its bytes is above 7F: it may have been sent as 7 bits"]),
        (3, HOST, [LIBRARY, BIG_LIBRARY], ["  it is big-endian; the host is little-endian"],
         "  Compile LIB2 for the machine of the host."),
        (34, HOST, unit((CODE + 4, b"\xff\xff")),
         [UTIL, "  record 1: PRIVREF STATE",
          "  reference 0: byte 4 of the code, where these bytes stand: FF FF",
          "  its displacement is 32767, and the value 8",
          "warning: LIB1, segment UTIL, record 1: the operand at byte 4 is word 32767 of a "
          "variable that has 4"], SMALLER),
        (34, BIG_HOST, [changed(BIG_LIBRARY, (CODE + 4, b"\xff\xff"))],
         [UTIL, "  record 1: PRIVREF STATE",
          "  reference 0: byte 4 of the code, where these bytes stand: FF FF",
          "  its displacement is 32767, and the value 8",
          "warning: LIB1, segment UTIL, record 1: the operand at byte 4 is word 32767 of a "
          "variable that has 4"], SMALLER),
        (34, TWO_WANTED, [changed(TWO_UNITS, (CODE + 1024 + 4, b"\xff\xff"))],
         [AUX, "  record 1: PRIVREF STATE",
          "  reference 0: byte 4 of the code, where these bytes stand: FF FF",
          "  its displacement is 32767, and the value 12",
          "warning: LIB1, segment AUX, record 1: the operand at byte 4 is word 32767 of a variable "
          "that has 4"], SMALLER),
        # data of a program that are so large
        (34, host_with([m.publ_def("COUNT", 32760), m.eof_mark(32800)]),
         [changed(unit_with([COUNT, END]), (CODE + 1, b"\x80\x09"))],
         [UTIL, "  record 0: PUBLREF COUNT",
          "  reference 0: byte 1 of the code, where these bytes stand: 80 09",
          "  its displacement is 9, and the value 32760"]),
        # beside a library of which a note is told, and that is not the file of the fault
        (34, host_with([m.publ_def("COUNT", 32760), m.eof_mark(32800)]),
         [changed(unit_with([COUNT, END]), (CODE + 1, b"\x80\x09")), DISK],
         [UTIL, "  record 0: PUBLREF COUNT",
          "  reference 0: byte 1 of the code, where these bytes stand: 80 09",
          "  its displacement is 9, and the value 32760",
          "note: LIB2: it may be a disk image, of the volume DISK"]),
        (35, full_host(), [USING, USED], [UTIL, "  record 0: UNITREF AUX"]),
    ]
    for number, host, libraries, lines, *ends in cases:
        yield number, host, libraries, lines, ends


# What else a file may be
# ------------------------------------------------------------------------------------------------
