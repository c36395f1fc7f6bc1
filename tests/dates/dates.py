"""Every day from 2000 to 2099 against the dates of Python's datetime.

    dates.py times           the times on standard output, six octets each: seconds, zone
    dates.py compare LINES   what `testing dates` made of them, line by line
    dates.py faults LINES    the same with faults planted into the lines, each of which must be noticed
"""
import struct
import sys
from datetime import datetime, timedelta, timezone
from itertools import zip_longest

FIRST, LAST = datetime(2000, 1, 1), datetime(2099, 12, 31, 23, 59, 59)
DAY, SECOND = timedelta(days=1), timedelta(seconds=1)
OFFSETS = (-720, -90, 0, 840)
# seconds and zones past what the clock and an offset may be
OUTSIDE = ((3155760000, 720), (4294967295, 720), (0, 1561), (3155759999, 65535))


def moments():
    """Each day's first and last second, with each offset."""
    for offset in OFFSETS:
        day = FIRST
        while day <= LAST:
            yield day, offset
            yield day + DAY - SECOND, offset
            day += DAY


def expected():
    """Each time, and its line. The digits of a date are those of its octets in hex; only the sign is a character's code."""
    for moment, offset in moments():
        local = moment.replace(tzinfo=timezone(timedelta(minutes=offset)))
        digits = local.strftime("%y%m%d%H%M%S%z").replace("+", "2B").replace("-", "2D")
        time = (moment - FIRST) // SECOND, offset + 720
        yield time, "%s %d %d\n" % (digits, *time)
    for time in OUTSIDE:
        yield time, "none\n"


def compare(table, found):
    """How many lines are as they must be, and what is to be said of the others."""
    passed, wrong = 0, []
    for row, line in zip_longest(table, found):
        if row and line == row[1]:
            passed += 1
        else:
            wrong.append("second %d, zone %d: expected %r, found %r" % (*row[0], row[1], line) if row else "a line too many: %r" % line)
    return passed, wrong


# ---- faults: each is an edit of the lines, which the comparison must notice at so many of them


def swapped(old, new):
    """Wherever a line begins with the first, it begins with the second."""
    return lambda found: [new + line[len(old):] if line.startswith(old) else line for line in found]


def at(place, change):
    return lambda found: [change(line) if n == place % len(found) else line for n, line in enumerate(found)]


def later(line):
    digits, second, zone = line.split()
    return "%s %d %s\n" % (digits, int(second) + 1, zone)


FAULTS = (
    ("29 February 2000 is 1 March", swapped("000229", "000301"), 8),
    ("29 February 2096 is 1 March", swapped("960229", "960301"), 8),
    ("31 January 2001 is 1 February", swapped("010131", "010201"), 8),
    ("1 March 2099 is still February", swapped("990301", "990229"), 8),
    ("the end of 2099 is the end of 2098", swapped("991231235959", "981231235959"), 4),
    ("no offset is minus none", lambda found: [line.replace("2B0000", "2D0000") for line in found], 73050),
    ("an offset of -90 is 90", lambda found: [line.replace("2D0130", "2B0130") for line in found], 73050),
    ("hex in lower case", lambda found: [line.lower() for line in found], 292200),
    ("read back a second late", at(1, later), 1),
    ("read back in another zone", at(0, lambda line: line.replace(" 0\n", " 1\n")), 1),
    ("a time in range is none", at(-len(OUTSIDE) - 1, lambda line: "none\n"), 1),
    ("a time out of range has octets", at(-1, lambda line: "000000000000000000 0 0\n"), 1),
    ("the last line is missing", lambda found: found[:-1], 1),
    ("a line too many", lambda found: found + found[-1:], 1),
    ("the last line feed is missing", at(-1, lambda line: line[:-1]), 1),
    ("no lines", lambda found: [], 292204),
)


def plant(table, found):
    failed = 0
    for what, fault, count in FAULTS:
        _, wrong = compare(table, fault(found))
        noticed = len(wrong) == count
        failed += not noticed
        print("%-7s %s: %d lines differ; %s" % ("ok" if noticed else "FAILED", what, len(wrong), (wrong or ["none"])[0]))
    return len(FAULTS) - failed, failed


def main(words):
    if words == ["times"]:
        for time, _ in expected():
            sys.stdout.buffer.write(struct.pack(">IH", *time))
        return 0
    if len(words) != 2 or words[0] not in ("compare", "faults"):
        print(__doc__, file=sys.stderr)
        return 2
    table = list(expected())
    with open(words[1], newline="") as file:
        found = list(file)
    passed, wrong = compare(table, found)
    failed = len(wrong)
    for said in wrong[:5]:
        print(said)
    if words[0] == "faults" and failed == 0:
        passed, failed = plant(table, found)
    print("%d passed, %d failed" % (passed, failed))
    return 1 if failed else 0


if __name__ == "__main__":
    sys.exit(main(sys.argv[1:]))
