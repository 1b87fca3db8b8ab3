"""Link information: words that are ignored, types and formats by both of their bytes, lists, and
where files end; definitions, private variables and values at their bounds."""
from .cases import Fault
from .links import (DEMO, UTIL, linked, one_unit, private, program, public, refused, unit, unit_of,
                    using, wanting)
from .model import (CONSTDEF, EOFMARK, HOSTSEG, PRIVREF, PUBLDEF, PUBLREF, UNITREF, UNITSEG, File,
                    Procedure, Record, Segment, const_def, priv_ref, publ_def, publ_ref, unit_ref)

REFERENCES = {"publref": (PUBLREF, [2, 0, 0]), "privref": (PRIVREF, [2, 0, 4]),
              "unitref": (UNITREF, [1, 0, 0])}


def of_util(*records, parts=()):
    return {2: unit_of("UTIL", parts, records)}


# Words and names that have no meaning -------------------------------------------------------------


def ignored():
    parts = ["CD", unit("UTIL"), "01", "A5", public(), "AB", private("OWN")]
    for order in ("little", "big"):
        records = [
            Record("COUNT", PUBLDEF, [3, 65535, 65535]), Record("LIMIT", CONSTDEF, [100, 9, 17]),
            Record("ZERO", PUBLDEF, [0, 1, 1]), Record("UTIL", UNITREF, [1, 1, 65535], [1]),
            Record("COUNT", PUBLREF, [2, 1, 258], [4]), Record("OWN", PRIVREF, [2, 1, 2], [7]),
            Record("UTIL", UNITREF, [1, 0, 7], []), Record("ENDMARK", EOFMARK, [8, 65535, 65535])]
        host = {1: Segment("DEMO", HOSTSEG, [Procedure([*parts, "C1 00"], data=10)], records),
                7: Segment("UTIL")}
        unit_records = [Record("NOTHING", CONSTDEF, [0, 65535, 65535]),
                        Record("UTIL", UNITREF, [1, 1, 9], [1]),
                        Record("COUNT", PUBLREF, [2, 1, 8], [4]), Record("COUNT", 0, [2, 3, 4])]
        library = {2: Segment(
            "UTIL", UNITSEG, [Procedure(["CD", unit("UTIL"), "01", "A5", public(), "AD 00"])],
            unit_records)}
        yield linked(
            f"words-without-meaning-{order}-endian",
            "The words of each kind of record to which the format gives no " "meaning are not 0.",
            host, [library], [DEMO, UTIL], [(1, "OWN", 8, 2)], 10, 14, order)
    records = [publ_def("COUNT", 3), Record("COUNT", EOFMARK, [8]), Record("COUNT", PUBLDEF, [5]),
               Record("COUNT", 9, [5])]
    host = {1: Segment("DEMO", HOSTSEG, [Procedure(["D7 D7 C1 00"], data=10)], records)}
    yield linked(
        "after-the-end-mark-of-the-program",
        "The end mark of the host program has the name of a definition, and " "records follow it.",
        host, [], [DEMO])
    yield linked(
        "end-mark-of-the-program-of-zeros",
        "The end mark of the host program is sixteen zero bytes: private variables " "begin at 0.",
        {1: program(priv_ref("OWN", 2, [1]), parts=["AB", private("OWN", 1), "D7"], next_free=0),
         7: Segment("UTIL")},
        [of_util(priv_ref("STATE", 1, []))], [DEMO, UTIL], [(1, "OWN", 0, 2), (7, "STATE", 2, 1)],
        3, 16)
    values = [publ_def("A", 0), publ_def("B", 1), publ_def("C", 2), const_def("D", 0),
              const_def("E", 1), const_def("F", 2)]
    parts = ["A5", public("A", 1), "A5", public("B", 1), "A5", public("C", 1)]
    records = [publ_ref(name, [1 + 3 * k]) for k, name in enumerate("ABC")]
    yield one_unit(
        "values-0-to-2",
        "Definitions with the values 0, 1 and 2, which would be formats in a reference record.",
        parts, records, host=program(*values))


# Types and formats --------------------------------------------------------------------------------


def wrong(name, kind, number, type=None, format=None, count=1, order="little"):
    """UTIL has, after a good record, one with this type or format, and with this many
    references."""
    right, words = REFERENCES[kind]
    words = [words[0] if format is None else format, count, words[2]]
    record = Record(
        "COUNT", right if type is None else type, words, [1] if count else [], fault=number)
    what = f"format {format}" if type is None else f"type {type}"
    about = f"A {kind.upper()} has {what}{'' if count else ' and no reference'}."
    return refused(
        name, about, wanting("UTIL"), [of_util(publ_ref("COUNT", []), record, parts=["A5 80 00"])],
        Fault(number, 1, 7, 1), order)


def types_and_formats():
    for kind, formats in [("publref", (1, 3, 256, 258, 512, 65535)),
                          ("privref", (1, 4, 256, 258, 514, 32770)),
                          ("unitref", (2, 3, 256, 257, 512, 32769))]:
        for format in formats:
            yield wrong(f"23-{kind}-{format}", kind, 23, format=format)
        for format in (0, 3):
            yield wrong(
                f"{23 if format else 21}-{kind}-{format}-no-reference", kind, 23 if format else 21,
                format=format, count=0)
        yield wrong(
            f"23-{kind}-258-big-endian", kind, 23, format=257 if kind == "unitref" else 258,
            order="big")
        yield wrong(
            f"23-{kind}-swapped-big-endian", kind, 23, format=256 if kind == "unitref" else 512,
            order="big")
    for type in (16, 31, 257, 259, 260, 263, 265, 267, 768, 32771):
        yield wrong(f"20-type-{type}", "publref", 20, type=type)
    for type in (15, 255):
        yield wrong(f"20-type-{type}-no-reference", "publref", 20, type=type, count=0)
    for type in (2, 5, 6, 9, 10):
        yield wrong(f"21-type-{type}-no-reference", "unitref", 21, type=type, count=0)
    for type in (11, 12, 13, 14):
        yield wrong(f"22-type-{type}-no-reference", "unitref", 22, type=type, count=0)
    for number, type in [(20, 15), (21, 9), (22, 12)]:
        record = Record("COUNT", type, [0, 65535, 0], [], fault=number)
        yield refused(
            f"{number}-before-format-and-list",
            f"A record of type {type} has format 0, and 65535 in the place of the " f"references.",
            wanting("UTIL"), [of_util(record)], Fault(number, 1, 7, 0), folder="orders")
    for number, format in [(21, 0), (23, 1)]:
        for kind in ("privref", "unitref"):
            if (number, kind) == (23, "unitref"):
                format = 2
            type = REFERENCES[kind][0]
            record = Record("COUNT", type, [format, 65535, 4], [], fault=number)
            yield refused(
                f"{number}-before-19-{kind}",
                f"A {kind.upper()} has format {format} and 65535 references, of which the file "
                f"has not all.",
                wanting("UTIL"), [of_util(record)], Fault(number, 1, 7, 0), folder="orders")


# Lists, and where files end -----------------------------------------------------------------------


def lists():
    for count in (7, 16, 17, 256, 257, 4097):
        parts = [unit("UTIL", k % 256) for k in range(count)]
        other = [unit("UTIL", 200), unit("UTIL", 201)]
        yield one_unit(
            f"list-of-{count}", f"A list of {count} references, and a record after it.",
            [*parts, *other],
            [unit_ref("UTIL", list(range(count))), unit_ref("UTIL", [count, count + 1])])
    for count in (32768, 65528, 65535):
        for kind, maker in [("publref", publ_ref("COUNT", [])),
                            ("privref", priv_ref("STATE", 4, [])),
                            ("unitref", unit_ref("UTIL", []))]:
            if count == 65535 and kind == "publref":
                continue
            maker.words[1], maker.fault = count, 19
            yield refused(
                f"19-{kind}-{count}",
                f"A {kind.upper()} has {count} references, of which the file has not all.",
                wanting("UTIL"), [of_util(maker)], Fault(19, 1, 7, 0))
    # UTIL's code ends at byte 538 and its information begins at 1024: a UNITREF of nine with a list
    # of 32 bytes, and the end mark at 1072
    nine = unit_of("UTIL", [unit("UTIL") for _ in range(9)], [unit_ref("UTIL", list(range(9)))])
    for cut, record, about in [(1072, 1, "after the list of the UNITREF"),
                               (1071, 0, "one byte before the end of that list"),
                               (1058, 0, "after the nine references, before the end of their list"),
                               (1040, 0, "after the UNITREF, before its list"),
                               (1039, 0, "one byte before the end of the UNITREF"),
                               (1087, 1, "one byte before the end of the end mark"),
                               (1082, 1, "after the type of the end mark"),
                               (1023, 0, "one byte before the link information"),
                               (538, 0, "with the code")]:
        yield refused(f"19-cut-at-{cut}", f"The library ends {about}.", wanting("UTIL"),
                      [File({2: nine}, cut=cut, stops={2: (record, 19)})],
                      Fault(19, 1, 7, record))
    yield linked(
        "cut-at-1088", "The library ends with the end mark, after a list of two pieces.",
        wanting("UTIL"), [File({2: nine}, cut=1088)], [DEMO, UTIL])
    demo = program(priv_ref("OWN", 1, [1]), parts=["AB", private("OWN"), "D7"])
    # DEMO's information begins at 1024: COUNT, OWN with a list of 16 bytes, and the end mark
    yield linked(
        "host-cut-after-the-end-mark", "The host ends with the end mark of its program.",
        File({1: demo}, cut=1088), [], [DEMO], [(1, "OWN", 8, 1)], 9, 12)
    yield refused(
        "19-end-mark-demo", "The host ends one byte before the end of its program's end mark.",
        File({1: demo}, cut=1087, stops={1: (2, 19)}), [], Fault(19, 0, 1, 2))
    yield linked(
        "program-in-slot-15-big-endian",
        "The program is in slot 15 of a big-endian host, with a private variable.", {15: demo}, [],
        [(15, 0, 15)], [(15, "OWN", 8, 1)], 9, 12, "big")
    yield refused(
        "16-host-of-512-bytes", "The host has its dictionary alone.",
        File({1: demo}, cut=512, stops={1: (None, 16)}), [], Fault(16, 0, 1))
    yield refused(
        "19-before-20", "The library ends after the type of a record, which is 15.",
        wanting("UTIL"),
        [File(of_util(Record("COUNT", 15, [1, 2, 3])), cut=1034, stops={2: (0, 19)})],
        Fault(19, 1, 7, 0), folder="orders")
    # the last block is full of records: the end mark is in the next
    records = [publ_def(f"NAME{k}", k) for k in range(31)]
    yield one_unit(
        "end-mark-of-a-block", "The end mark is the last record of a block.", [], records)
    yield refused(
        "19-full-block", "The library's last block is full of records, without an end mark.",
        wanting("UTIL"),
        [File(of_util(*records, publ_def("LAST", 1)), cut=1536, stops={2: (32, 19)})],
        Fault(19, 1, 7, 32))


def late():
    """Records and references whose index has more than one byte."""
    before = [publ_def(f"{k:08}", 5) for k in range(256)]

    def at_256(number, about, record, reference=None, parts=("A5", public("COUNT"))):
        return refused(
            f"{number}-record-256", f"Record 256 of UTIL {about}.", wanting("UTIL"),
            [of_util(*before, record, parts=parts)], Fault(number, 1, 7, 256, reference))

    yield at_256(13, "requests what no library has", unit_ref("NOBODY", []))
    yield at_256(20, "has type 15", Record("COUNT", 15, [1, 2, 3], fault=20))
    yield at_256(28, "has a name without a definition", publ_ref("CUONT", []))
    yield at_256(31, "refers to a place past the code", publ_ref("COUNT", [999]), 0)
    doubled = [*before[:255], priv_ref("STATE", 1, [])]
    yield refused(
        "25-record-256", "Record 256 of UTIL has the name of a private variable before it.",
        wanting("UTIL"), [of_util(*doubled, priv_ref("STATE", 1, []))], Fault(25, 1, 7, 256))
    yield refused(
        "26-record-256", "Record 256 of UTIL has 32760 private words, from 8 on.", wanting("UTIL"),
        [of_util(*before, priv_ref("STATE", 32760, []))], Fault(26, 1, 7, 256))
    host = program(*before[:255], publ_def("COUNT", 3))
    yield refused(
        "24-record-256", "Record 256 of the host program defines COUNT a second time.", {1: host},
        [], Fault(24, 0, 1, 256))
    wide = ["A5", public("COUNT"), *(unit("UTIL") for _ in range(256))]
    for number, place, about in [(33, 1, "shares a byte with the first"), (32, 263, "is reserved"),
                                 (31, 9999, "is past the code")]:
        references = [1, *range(3, 258), place]
        record = unit_ref("UTIL", references)
        yield refused(
            f"{number}-reference-256", f"Reference 256 of a UNITREF {about}.", wanting("UTIL"),
            [of_util(record, parts=wide)], Fault(number, 1, 7, 0, 256))
    parts = [part for _ in range(256) for part in ("A5", public("COUNT"))]
    references = [1 + 3 * k for k in range(256)]
    yield refused(
        "34-reference-256",
        "Reference 256 of a PUBLREF has the displacement 32765, and COUNT is 3.", wanting("UTIL"),
        [of_util(
             publ_ref("COUNT", [*references, 769]), parts=[*parts, "A5", public("COUNT", 32765)])],
        Fault(34, 1, 7, 0, 256))


# Private variables, the data size, and values -----------------------------------------------------


def privates():
    def case(name, about, words, next_free, fault=Fault(26, 1, 7, 0), **fields):
        return refused(
            name, about, wanting("UTIL", host=program(next_free=next_free, **fields)),
            [of_util(*(priv_ref(f"STATE{k}", one, []) for k, one in enumerate(words)))], fault)

    yield case(
        "26-32768", "The end mark is 32760, and a private variable of 8 words would end at 32768.",
        [8], 32760)
    yield case(
        "26-words-32768", "The end mark is 0, and a private variable has 32768 words.", [32768], 0)
    yield case(
        "26-words-65535", "The end mark is 0, and a private variable has 65535 words.", [65535], 0)
    yield case(
        "26-words-65535-from-1",
        "The end mark is 1, and a private variable has 65535 words: 65536 together.", [65535], 1)
    yield case(
        "26-words-65528",
        "The end mark is 8, and a private variable has 65528 words: 65536 together.", [65528], 8)
    yield (case(
               "26-no-words-at-32768", "The end mark is 32768, and a private variable has 0 words.",
               [0], 32768))
    yield (case(
               "26-no-words-at-65535", "The end mark is 65535, and a private variable has 0 words.",
               [0], 65535))
    yield (case(
               "26-word-at-65535", "The end mark is 65535, and a private variable has one word.",
               [1], 65535))
    yield case(
        "26-one-after-32767",
        "The end mark is 32760; a private variable of 7 words ends at 32767, and one word follows.",
        [7, 1], 32760, Fault(26, 1, 7, 1))
    yield (case(
               "26-none-then-one",
               "The end mark is 32767; of private variables of 0 words and of one, the second does "
               "not fit.",
               [0, 1], 32767, Fault(26, 1, 7, 1)))
    yield one_unit("privates-of-0-1-and-0-words", "Private variables of 0, 1 and 0 words.", [],
                   [priv_ref("A", 0, []), priv_ref("B", 1, []), priv_ref("C", 0, [])],
                   privates=[(7, "A", 8, 0), (7, "B", 8, 1), (7, "C", 9, 0)],
                   next_free=9, data=12)
    yield case(
        "27-from-65535", "The data size is 65535, and one private word would make it 65537.", [1],
        8, Fault(27, 0, 1), data=65535)
    yield case(
        "27-words-32759", "The data size is 18, and 32759 private words would make it 65536.",
        [32759], 8, Fault(27, 0, 1), data=18)
    yield case(
        "27-two",
        "The data size is 65532, and two private variables of one word would make it 65536.",
        [1, 1], 8, Fault(27, 0, 1), data=65532)
    for size in (32766, 32768):
        for order in ("little", "big"):
            yield one_unit(
                f"data-{size}-{order}-endian",
                f"The data size grows from {size - 6} to {size + 2}.", [],
                [priv_ref("STATE", 4, [])], host=program(data=size - 6),
                privates=[(7, "STATE", 8, 4)], next_free=12, data=size + 2, order=order)
    host = {**wanting("UTIL", host=program(data=65000)),
            8: unit_of("AUX", (), [priv_ref("STATE", 200, [])])}
    yield refused(
        "27-of-two-units",
        "The data size is 65000, and private variables of 200 words in two units would make it "
        "65800.",
        host, [of_util(priv_ref("STATE", 200, []))], Fault(27, 0, 1))
    host = {0: unit_of("LOW", (), [priv_ref("STATE", 100, [])]), 5: program(data=65500)}
    yield refused(
        "27-slot-5", "The program is in slot 5, and its data size of 65500 would be 65700.", host,
        [], Fault(27, 0, 5))
    # one name in every segment, and what is allotted when a unit has several
    host = {0: unit_of("LOW", ["AB", private(displacement=1)], [priv_ref("STATE", 2, [1])]),
            4: program(priv_ref("STATE", 3, [1]), parts=["AB", private(displacement=1), "D7"]),
            7: Segment("UTIL")}
    several = [priv_ref("LAST", 1, [4]), publ_def("X", 1), priv_ref("STATE", 4, [1]),
               priv_ref("MIDDLE", 2, [7])]
    parts = ["AB", private(), "AB", private("LAST"), "AB", private("MIDDLE", 1)]
    for end, order in (("", "little"), ("-big-endian", "big")):
        yield linked(
            f"privates-by-slot-and-record{end}",
            "Private variables of a unit in slot 0, the program in 4 and a wanted unit, by "
            "slot and record.",
            host, [of_util(*several, parts=parts)], [(0, 0, 0), (4, 0, 4), UTIL],
            [(0, "STATE", 8, 2), (4, "STATE", 10, 3), (7, "LAST", 13, 1), (7, "STATE", 14, 4),
             (7, "MIDDLE", 18, 2)],
            20, 34, order)
    yield refused("25-no-words", "A unit has a private variable of 0 words twice.", wanting("UTIL"),
                  [of_util(priv_ref("STATE", 0, []), priv_ref("STATE", 0, []))], Fault(25, 1, 7, 1))
    yield refused(
        "25-third", "The third of a unit's private variables has the name of the first.",
        wanting("UTIL"),
        [of_util(
             priv_ref("A", 1, []), priv_ref("B", 1, []), publ_def("A", 1), priv_ref("A", 1, []))],
        Fault(25, 1, 7, 3))
    yield refused(
        "25-more", "An added unit has a private variable twice.", wanting("UTIL"),
        [{2: using("UTIL", "MORE"),
          3: unit_of("MORE", (), [priv_ref("A", 1, []), priv_ref("A", 1, [])])}],
        Fault(25, 1, 8, 1))


def values():
    """Definitions and operands at the bounds of 15 and 16 bits."""
    def case(name, about, value, displacement, mark=0x80):
        return refused(
            name, about, wanting("UTIL", host=program(publ_def("VALUE", value))),
            [of_util(publ_ref("VALUE", [1]), parts=["A5", public("VALUE", displacement, mark)])],
            Fault(34, 1, 7, 0, 0))

    yield case("34-value-32768", "A definition of 32768, and the displacement 0.", 32768, 0)
    yield case("34-value-65535", "A definition of 65535, and the displacement 0.", 65535, 0)
    yield case(
        "34-value-65535-and-1", "A definition of 65535, and the displacement 1: 65536 together.",
        65535, 1)
    yield (case(
               "34-value-65535-and-32767", "A definition of 65535, and the displacement 32767.",
               65535, 32767))
    yield case("34-value-1", "A definition of 1, and the displacement 32767.", 1, 32767)
    yield case(
        "34-value-1-without-the-bit",
        "A definition of 1, and the displacement 32767 without bit 7.", 1, 32767, 0)
    yield one_unit(
        "value-65535-without-references", "A PUBLREF without references to a definition of 65535.",
        [], [publ_ref("VALUE", [])], host=program(publ_def("VALUE", 65535)))
    for order in ("little", "big"):
        pairs = [(0, 0, 0), (0, 0, 0x80), (255, 1, 0), (1, 255, 0x80), (128, 127, 0), (256, 512, 0),
                 (0, 32767, 0), (32767, 0, 0x80), (0x1234, 0x0FCD, 0), (127, 1, 0),
                 (16384, 16383, 0x80)]
        host = program(*(publ_def(f"V{k}", value) for k, (value, _, _) in enumerate(pairs)))
        parts = [part for k, (_, displacement, mark) in enumerate(pairs) for part in (
                     "A5", public(f"V{k}", displacement, mark))]
        records = [publ_ref(f"V{k}", [1 + 3 * k]) for k in range(len(pairs))]
        yield one_unit(
            f"sums-{order}-endian",
            "Values and displacements with and without bit 7, whose sums carry or not.", parts,
            records, host=host, order=order)
    for place in (28, 32767, 32768, 65534, 65535):
        yield refused(
            f"31-at-{place}", f"A PUBLREF refers to byte {place}.", wanting("UTIL"),
            [of_util(publ_ref("COUNT", [place]))], Fault(31, 1, 7, 0, 0))
    for place in (16, 65535):
        yield refused(
            f"31-unit-at-{place}", f"A UNITREF refers to byte {place} of 16.", wanting("UTIL"),
            [of_util(unit_ref("UTIL", [place]))], Fault(31, 1, 7, 0, 0))
    yield refused(
        "31-at-16", "A PUBLREF refers to byte 16, the first after the code.", wanting("UTIL"),
        [of_util(publ_ref("COUNT", [16]))], Fault(31, 1, 7, 0, 0))


def cases():
    for made in (ignored, types_and_formats, lists, late, privates, values):
        yield from made()
