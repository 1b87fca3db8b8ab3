"""Cases that are made of big-endian files too. What is expected is the same: of a link all but the
order of the words, and of a fault every part. None of these cases types bytes whose order would be
another."""
import dataclasses

NAMES = """
    faults/1-host-in-place faults/10-kind-128-no-address faults/13-blanks-for-zeros
    faults/13-half-blank faults/13-names-alike faults/13-program
    faults/13-zeros-for-blanks faults/14-before-the-asking faults/15-first-of-two
    faults/15-no-address faults/16-address-32769 faults/16-first-of-two
    faults/17-procedure-200 faults/19-cut-at-1072 faults/19-no-information-demo-in-place
    faults/19-unitref-32768 faults/2-of-one-pair faults/20-type-32771
    faults/21-type-10-no-reference faults/21-unitref-0-no-reference
    faults/22-type-11-no-reference faults/23-unitref-32769 faults/24-after-other-records
    faults/24-constant-and-public faults/24-record-256 faults/24-two-constants
    faults/26-words-65535-from-1 faults/27-slot-5 faults/31-at-32768
    faults/32-byte-12-demo faults/32-byte-5 faults/32-byte-7 faults/32-byte-9
    faults/33-reference-256 faults/34-value-65535 faults/34-value-65535-and-32767
    faults/6-blank-zeros links/added-below-the-program links/added-beside-its-name
    links/added-between links/added-by-first-record links/added-in-a-slot-of-zeros
    links/added-in-slots-of-some-kinds links/added-of-names-of-the-host
    links/added-of-the-name-of-a-plain-segment links/bytes-in-names
    links/definitions-without-a-name links/dictionary-of-255-is-the-code
    links/end-mark-of-a-unit links/host-before-libraries links/library-of-512-bytes
    links/name-one-zero-blank-requested links/name-one-zero-blank-wanted
    links/names-alike-defined links/names-alike-in-the-host links/names-alike-of-privates
    links/names-that-differ-after-a-zero-byte links/unit-without-a-name
    links/value-65535-without-references links/wanted-and-empty links/words-32767
    links/zeros-as-end-mark orders/11-before-12-tools orders/12-before-13-of-a-later-slot
    orders/12-before-16 orders/13-blank-before-35 orders/13-by-slot
    orders/13-by-slot-of-the-asking orders/17-of-no-body-before-18-demo
    orders/19-before-20 orders/20-before-14-of-a-later-name
    orders/22-before-format-and-list orders/23-before-19-unitref orders/24-before-25
    orders/26-before-25-of-its-name orders/28-from-the-program-on
    orders/28-from-the-wanted-on orders/33-before-31-in-a-list
    orders/34-before-28-in-a-record orders/34-before-29-in-a-record
    orders/34-before-32-in-a-list orders/35-before-11 orders/35-before-13-of-a-later-name
    orders/35-before-15 orders/5-before-11 pairs/17-count-demo-before-15-wanted
    pairs/4-no-segment-before-1-first pairs/6-wanted-before-7-slot-13
    pairs/7-slot-3-before-4-other-kind pairs/7-slot-3-before-5-slot-12
    pairs/9-slot-5-before-10-slot-15 pairs/9-slot-5-before-8-slot-14
""".split()


def cases(every):
    """These of all cases, turned."""
    named = {case.name: case for case in every if case.name in NAMES}
    for name in NAMES:
        host, *libraries = (dataclasses.replace(file, order="big") for file in named[name].files())
        yield dataclasses.replace(
            named[name], name=f"{name}-big-endian",
            about=f"{named[name].about} The files are big-endian.", host=host, libraries=libraries)
