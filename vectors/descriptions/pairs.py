"""Sets of files with two faults each. The first of a pair is reported, because it comes first in
the order of faults (docs/LINKING.md, The order of faults); each of the two changes is in faults.py,
and with that change alone the files have that fault alone."""
from .cases import Case
from .faults import CHANGES, files

# For each step of the order: the change whose fault is reported, and those whose faults come later.
PAIRS = {
    # the host alone, then its slots, then the libraries
    "1-host": ["2-first"],
    "2-host": ["1-first"],
    "4-unknown": ["2-first"],
    "5-slot-2": ["7-slot-3", "6-wanted"],
    "6-low": ["5-slot-12"],
    "6-wanted": ["7-slot-13", "10-slot-15", "4-no-segment", "9-slot-14"],
    "6-unit": ["8-slot-14"],
    "7-slot-3": ["5-slot-12", "6-wanted", "8-slot-14", "4-other-kind"],
    "8-slot-4": ["7-slot-13", "6-unit", "9-slot-14"],
    "9-slot-5": ["8-slot-14", "10-slot-15"],
    "10-slot-6": ["9-slot-14", "6-wanted", "1-first"],
    "4-no-segment": ["1-first", "13-wanted"],
    "1-first": ["2-second", "11-odd-demo", "3-second"],
    "2-first": ["1-second", "17-count-demo", "11-odd-demo"],
    "3-first": ["1-second", "2-second", "12-demo", "13-wanted"],
    "3-second": ["11-odd-demo"],
    # the slots that are not empty, ascending
    "11-odd-demo": ["13-wanted"],
    "11-odd-util": ["16-util"],
    "11-long-tools": ["12-tools"],
    "12-demo": ["15-wanted", "11-long-tools"],
    "13-wanted": ["11-short-aux", "17-count-aux"],
    "14-kind-5": ["16-aux", "18-aux", "11-odd-util"],
    "15-wanted": ["12-tools", "20-aux"],
    "16-demo": ["14-kind-5"],
    "16-util": ["22-aux"],
    "17-count-demo": ["15-wanted", "18-aux"],
    "17-count-util": ["19-util"],
    "18-util": ["17-count-aux", "20-util"],
    "19-demo": ["18-util", "13-wanted"],
    "19-util": ["20-util", "16-tools"],
    "20-demo": ["17-count-util"],
    "20-util": ["23-unit-util", "12-tools", "24"],
    "21-demo": ["23-util", "20-util"],
    "22-demo": ["16-util"],
    "23-util": ["21-util", "22-aux", "13-requested-by-aux"],
    # the requested names
    "17-count-aux": ["13-requested"],
    "22-aux": ["35"],
    "16-tools": ["14-added"],
    "13-requested-by-demo": ["35", "18-more"],
    "13-requested": ["24"],
    "14-added": ["24", "25-util"],
    "15-added": ["28-util"],
    "35": ["24", "26-util"],
    "11-odd-more": ["27"],
    "17-count-more": ["19-more"],
    "18-more": ["25-demo"],
    "19-more": ["27"],
    "21-more": ["28-demo"],
    # definitions, private variables, data
    "24": ["25-demo", "26-util", "27", "28-demo"],
    "25-demo": ["26-util"],
    "25-util": ["27"],
    "26-demo": ["25-util"],
    "26-more": ["28-demo"],
    "27": ["28-demo", "29-util"],
    # references
    "28-demo": ["31-util", "29-util", "33-util", "28-util"],
    "28-util": ["34-private", "32-aux", "31-util"],
    "29-demo": ["28-util", "34-util"],
    "29-util": ["33-unit"],
    "31-util": ["28-next"],
    "31-demo": ["28-util", "32-util"],
    "32-demo": ["31-util"],
    "32-util": ["33-unit", "34-private"],
    "33-util": ["31-unit", "28-aux", "28-next"],
    "33-demo": ["34-util"],
    "34-demo": ["33-util"],
    "34-util": ["33-util", "29-aux", "28-next"],
}


def numbers(pair):
    return tuple(CHANGES[name].fault.number for name in pair)


def cases():
    for first, others in PAIRS.items():
        for later in others:
            reported, second = CHANGES[first], CHANGES[later]
            given = files(reported.two_libraries or second.two_libraries)
            second.change(given)
            reported.change(given)
            about = f"{reported.about} {second.about}"
            yield Case(
                f"pairs/{first}-before-{later}", about, given.host, given.libraries(),
                reported.fault, second.fault)
