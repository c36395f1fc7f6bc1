"""M-CDRs outside the rules, each breaking one rule that is named; see `outside.py`."""

import mm_values
import outside
from mm_good import causes, place, record
from mm_rules import DETACHES, broken, broken_values
from outside import (HIGH_NUMBERS, IMSI_BREAKERS, NODE_ID_BREAKERS, all_zones, falling_time, other_zone, put,
                     shared_breakers, simply)
from plain import NO_CHANGE, PLACES, Change, places
from rules import LAST

LATE = (LAST + 1, LAST + 2, 2**32 - 1)
OTHER_CAUSES = (16, 17, 18, 1, 2, 3, 5, 15, 21, 128, 255)


def used(r):
    return r.places[: r.count]


def last_time(r):
    return r.places[r.count - 1].time if r.count else r.opening


def places_of(r):
    return [(r.lac, r.rac)] + [(c.lac, c.rac) for c in used(r)]


def other_cause(rng, r):
    r.cause, r.number = rng.choice(OTHER_CAUSES), 2


def no_number(rng, r):
    r.cause, r.number = causes(r.count)[-1], 0


def first_number(rng, r):
    r.cause, r.number = rng.choice(DETACHES), 1


def fill(rng, r, count):
    """As many changes, more of them at the time of the last."""
    visited, moved = places_of(r), used(r)
    while len(moved) < count:
        visited.append(place(rng, visited))
        moved.append(Change(*visited[-1], last_time(r), r.zone))
    r.count, r.places = count, places(moved, NO_CHANGE)


def many_changes(rng, r):
    fill(rng, r, PLACES)
    r.count = rng.choice((16, 17, 31, 128, 255))


def many_under_19(rng, r):
    fill(rng, r, PLACES)
    r.cause, r.number, r.duration = 19, 2, last_time(r) - r.opening
    r.count = rng.choice((16, 17, 255))


def few_under_19(rng, r):
    """Most often fourteen."""
    r.number, r.cause = r.number or 1, 19
    fill(rng, r, rng.choice((14, 14, 13, r.count)))
    r.duration = last_time(r) - r.opening


def fifteen_otherwise(rng, r):
    fill(rng, r, PLACES)
    r.cause, r.number = rng.choice((*DETACHES, 20)), 2


def unused_place(rng, r):
    c = r.places[rng.choice((r.count, 14, rng.randrange(r.count, 15)))]
    setattr(c, rng.choice(("lac", "rac", "time", "zone")), rng.choice((1, 2, 255)))


def same_place(choose):
    """A change to the place in force: `choose` picks it of those there are."""
    def break_it(rng, r):
        i = choose(rng, range(r.count))
        r.places[i].lac, r.places[i].rac = places_of(r)[i]
    return break_it


def early_closing(rng, r):
    whole = last_time(r) - r.opening
    r.duration = rng.choice((whole - 1, whole - 1, rng.randrange(whole), 0))


def late_under_19(rng, r):
    if r.cause != 19:
        raise ValueError
    r.duration += rng.choice((1, 1, 2, 256, rng.randrange(1, LAST - last_time(r) + 1)))


def late_closing(rng, r):
    """2^32 less the opening comes to 0 in 32 bits."""
    r.duration = rng.choice((LAST - r.opening + 1, LAST - r.opening + 2, 2**32 - max(1, r.opening), 2**32 - 1))


def late_change(rng, r):
    r.places[r.count - 1].time = rng.choice(LATE)


def late_change_and_closing(rng, r):
    late_change(rng, r)
    r.duration = last_time(r) - r.opening


def late_opening(rng, r):
    r.opening, r.duration = rng.choice(LATE), 0
    for c in used(r):
        c.time = r.opening


AT_MOST = "is at most the last second of 2099"
CHANGES_AT_MOST = "times of changes are at most the last second of 2099"

# What is broken, the breaker, and whether values of CDR.asn1 can say it.
BREAKERS = [
    *IMSI_BREAKERS,
    *NODE_ID_BREAKERS,
    ("offset is from -720 to 840 minutes", all_zones, False),
    ("cause is 0, 4, 19 or 20", other_cause, True),
    ("number is at most 10^15", simply("number", HIGH_NUMBERS), True),
    ("number is absent only with cause 0 or 4", no_number, True),
    ("number is never 1 with cause 0 or 4", first_number, True),
    ("at most 15 changes", many_changes, False),
    ("at most 15 changes; cause 19 only with fifteen changes", many_under_19, False),
    ("unused places of changes are zero", unused_place, False),
    ("every change is to another place than the one before", same_place(lambda rng, n: n[0]), True),
    ("every change is to another place than the one before", same_place(lambda rng, n: n[-1]), True),
    ("every change is to another place than the one before", same_place(lambda rng, n: rng.choice(n)), True),
    ("times do not fall, from the opening on", falling_time, True),
    ("one offset throughout", other_zone, True),
    ("cause 19 only with fifteen changes", few_under_19, True),
    ("fifteen changes only with cause 19", fifteen_otherwise, True),
    ("closing is not before the last change", early_closing, True),
    ("closing is not after the last change under 19", late_under_19, True),
    (f"closing {AT_MOST}", late_closing, True),
    # Nothing can follow what is late in order and in range: two at once.
    (f"{CHANGES_AT_MOST}; closing is not before the last change", late_change, False),
    (f"{CHANGES_AT_MOST}; closing {AT_MOST}", late_change_and_closing, False),
    (f"opening {AT_MOST}; closing {AT_MOST}", late_opening, False),
    (f"opening {AT_MOST}; {CHANGES_AT_MOST}; closing {AT_MOST}", late_opening, False),
]


# Breakers of values


def without(name):
    def break_it(rng, f):
        del f[name]
    return break_it


def with_cell(rng, f):
    rng.choice(mm_values.changes(f))["cellId"] = rng.choice(("x:0000", "x:0001", "x:FFFF"))


def sixteen(rng, f):
    """The last two changes again by turns, at the last one's time: all else stays within the rules."""
    held = mm_values.changes(f)
    again = [{**c, "changeTime": held[-1]["changeTime"]} for c in held[-2:]]
    if f["causeForRecClosing"] == "maxChangeCond" or len(again) < 2:
        raise ValueError
    for i in range(rng.choice((16, 16, 17, 40)) - len(held)):
        held.append(again[i % 2])


VALUE_BREAKERS = shared_breakers("changeLocation") + [
    ("record type is 20", put("recordType", "sgsnPDPRecord", "ggsnPDPRecord", "sgsnSMORecord", 23, 255, -1, 20 + 256)),
    ("the routing area stands", without("routingArea")),
    ("the location area stands", without("locationAreaCode")),
    ("the list of changes is not empty where it stands", put("changeLocation", [])),
    ("at most 15 changes are listed", sixteen),
    ("no change has a cell", with_cell),
    ("the duration stands", without("duration")),
    ("the duration is 0 or more", put("duration", -1, -128, -129, -(2**31), -(2**32))),
    ("no SGSN change", put("sgsnChange", True, False)),
    (f"closing {AT_MOST}", put("duration", LAST + 1, 2**32, 2**40, 2**63, 2**64, 2**64 + 1)),
    ("cause is 0, 4, 19 or 20", put("causeForRecClosing", "volumeLimit", "timeLimit", "sGSNChange", -1, 1, 5, 21, 256,
                                    260, 276, 2**32 + 20)),
]


def blocks(rng, each):
    return outside.blocks(rng, each, breakers=BREAKERS, make=record, judge=broken)


def wrong_values(rng, each):
    return outside.wrong_values(rng, each, breakers=BREAKERS, value_breakers=VALUE_BREAKERS, make=record,
                                of_record=mm_values.of_record, judge=broken_values)
