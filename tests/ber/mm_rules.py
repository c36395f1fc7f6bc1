"""The rules of an M-CDR, a rule a line, each with its name, as in `rules.py`.

Written from W4 of the requests and from document 01, not from our program.
"""

import mm_values
from plain import NO_CHANGE
from rules import LAST, judged, shared, shared_values, unkept

DETACHES = (0, 4)


def rules(r):
    c = r.places[: r.count]
    places = [(r.lac, r.rac)] + [(x.lac, x.rac) for x in c]
    times = [r.opening] + [x.time for x in c]
    closing = r.opening + r.duration
    return shared(r) + [
        ("cause is 0, 4, 19 or 20", r.cause in (0, 4, 19, 20)),
        ("number is absent only with cause 0 or 4", r.number != 0 or r.cause in DETACHES),
        ("number is never 1 with cause 0 or 4", not (r.number == 1 and r.cause in DETACHES)),
        ("at most 15 changes", 0 <= r.count <= 15),
        ("unused places of changes are zero", all(x == NO_CHANGE for x in r.places[r.count :])),
        ("every change is to another place than the one before", all(a != b for a, b in zip(places, places[1:]))),
        ("times do not fall, from the opening on", all(a <= b for a, b in zip(times, times[1:]))),
        ("times of changes are at most the last second of 2099", all(0 <= x.time <= LAST for x in c)),
        ("one offset throughout", all(x.zone == r.zone for x in c)),
        ("cause 19 only with fifteen changes", r.cause != 19 or r.count == 15),
        ("fifteen changes only with cause 19", r.count != 15 or r.cause == 19),
        ("closing is not before the last change", closing >= times[-1]),
        ("closing is not after the last change under 19", r.cause != 19 or closing <= times[-1]),
        ("closing is at most the last second of 2099", closing <= LAST),
    ]


def value_rules(f):
    """Of the fields `f` of an M-CDR: what the plain form cannot even hold."""
    changes = mm_values.changes(f)
    return shared_values(f, mm_values.stamps(f)) + [
        ("record type is 20", f["recordType"] == "sgsnMMRecord"),
        ("the routing area stands", "routingArea" in f),
        ("the location area stands", "locationAreaCode" in f),
        ("the list of changes is not empty where it stands", f.get("changeLocation") != []),
        ("at most 15 changes are listed", len(changes) <= 15),
        ("no change has a cell", not any("cellId" in c for c in changes)),
        ("the duration stands", "duration" in f),
        ("the duration is 0 or more", f.get("duration", 0) >= 0),
        ("no SGSN change", "sgsnChange" not in f),
    ]


def broken(record):
    return unkept(rules(record))


def broken_values(fields):
    return judged(fields, value_rules, mm_values.to_record, rules)
