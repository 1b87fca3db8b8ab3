"""Files of megabytes: more records than sixteen bits count, the largest codes with an operand at
each place, and hundreds of libraries. They are no part of the cases that are kept: .ci/vectors
writes them and runs pslink over them."""
from .cases import Fault
from .links import DEMO, linked, one_unit, private, program, public, refused, unit, unit_of, wanting
from .model import (HOSTSEG, UNITSEG, Procedure, Segment, eof_mark, priv_ref, publ_def, publ_ref,
                    unit_ref)

MANY = 65_536  # records, so that the next one has an index that sixteen bits do not hold
NUMBERS = [f"{k:08}" for k in range(MANY - 1)]
VARIABLES = [*(priv_ref(name, 0, []) for name in NUMBERS), priv_ref("STATE", 4, [4])]
UTIL_PARTS = ["A5", public("COUNT"), "AB", private()]  # a code of 22 bytes
# bytes of operands in the largest code of a segment to be linked, which has 32766
OPERANDS = 32_752


def definitions(*more):
    """A host program of so many definitions, of which COUNT is the first, and these records."""
    return program(*(publ_def(name, k % 1000) for k, name in enumerate(NUMBERS)), *more)


def many_records():
    """COUNT is 3, the value of 00065534 is 534, and private variables begin at 8."""
    parts = ["A5", public(NUMBERS[-1], 2), "AB", private()]
    yield one_unit(
        "many-records", f"{MANY} definitions and as many private variables.", parts,
        [publ_ref(NUMBERS[-1], [1]), *VARIABLES], host=definitions(), next_free=12, data=18,
        privates=[*((7, name, 8, 0) for name in NUMBERS), (7, "STATE", 8, 4)])
    # record 0 is COUNT, so that the definition after all others is record 65536
    yield refused(
        "24-late", "The last of many definitions has the name COUNT too.",
        wanting("UTIL", host=definitions(publ_def("COUNT", 4))), [{2: unit_of("UTIL")}],
        Fault(24, 0, 1, MANY))
    for number, about, record, reference in [
        (25, "private variables has the name of the one before", priv_ref("STATE", 4, []), None),
        (28, "records has a name without a definition", publ_ref("CUONT", [1]), None),
        (31, "records refers to the last byte of the code", publ_ref("COUNT", [21]), 0),
        (13, "records names a unit that is missing", unit_ref("NOBODY", []), None),
    ]:
        yield refused(
            f"{number}-late", f"The last of many {about}.", wanting("UTIL"),
            [{2: unit_of("UTIL", UTIL_PARTS, [*VARIABLES, record])}],
            Fault(number, 1, 7, MANY, reference))


def name_of(slot):
    return f"UNIT{chr(ord('A') + slot)}"


def largest_units(references):
    """Units of one code, of which each byte before the table refers to the last of them."""
    parts = [unit(name_of(15), 0xEE) for _ in range(OPERANDS)]
    records = [unit_ref(name_of(15), list(references)), eof_mark(0)]
    first = Segment(name_of(1), UNITSEG, [Procedure(parts)], records)
    return {1: first, **{slot: Segment(name_of(slot), UNITSEG, shares=1) for slot in range(2, 16)}}


def largest_codes():
    parts = [public(displacement=k) for k in range(OPERANDS // 2)]
    records = [publ_def("COUNT", 3), publ_ref("COUNT", list(range(0, OPERANDS, 2))), eof_mark(8)]
    demo = Segment("DEMO", HOSTSEG, [Procedure(parts, parameters=4, data=10)], records)
    host = {0: demo, **{slot: Segment(name_of(slot), UNITSEG) for slot in range(1, 16)}}
    other = {2: unit_of("OTHER")}
    yield linked(
        "largest-codes",
        "Sixteen segments of 32766 bytes, an operand at each place, and two hundred libraries.",
        host, [other, largest_units(range(OPERANDS))],
        [(0, 0, 0), *((slot, 200, slot) for slot in range(1, 16))], given=[1] * 199 + [2])
    yield refused(
        "32-late", "A UNITREF of 65535 references: reference 32752 is the first byte of the table.",
        host, [largest_units(range(65_535))], Fault(32, 1, 1, 0, 32_752))


def late_libraries():
    """The 257th library has UTIL; those before it are one file."""
    other, given = {2: unit_of("OTHER")}, [1] * 256 + [2]
    util = unit_of("UTIL", ["A5", public()], [publ_ref("COUNT", [1])])
    yield linked(
        "libraries-257", "The unit is in the 257th library.", wanting("UTIL"), [other, {2: util}],
        [DEMO, (7, 257, 2)], given=given)
    yield refused(
        "14-late", "The unit of the 257th library has kind 5.", wanting("UTIL"),
        [other, {2: Segment("UTIL", 5, util.procedures, util.records)}], Fault(14, 257, 7, kind=5),
        given=given)
    yield refused(
        "31-late-library", "The unit of the 257th library refers to the last byte of its code.",
        wanting("UTIL"), [other, {2: unit_of("UTIL", ["A5", public()], [publ_ref("COUNT", [19])])}],
        Fault(31, 257, 7, 0, 0), given=given)


def cases():
    yield from many_records()
    yield from largest_codes()
    yield from late_libraries()
