"""An M-CDR as values of CDR.asn1."""

from plain import NO_CHANGE, Change, MMRecord, places
from values import hexed, moment, octets, of_shared, stamp, to_shared


def of_lac(lac):
    return hexed(lac.to_bytes(2, "big"))


def of_rac(rac):
    return hexed(bytes([rac]))


def of_change(c):
    return {"locationAreaCode": of_lac(c.lac), "routingAreaCode": of_rac(c.rac), "changeTime": stamp(c.time, c.zone)}


def of_record(r):
    """The list is left out where there is no change."""
    fields = {
        **of_shared(r),
        "recordType": "sgsnMMRecord",
        "routingArea": of_rac(r.rac),
        "locationAreaCode": of_lac(r.lac),
        "duration": r.duration,
    }
    if r.count:
        fields["changeLocation"] = [of_change(c) for c in r.places[: r.count]]
    return ["sgsnMMRecord", fields]


def changes(fields):
    return fields.get("changeLocation", [])


def stamps(fields):
    return [fields["recordOpeningTime"]] + [c["changeTime"] for c in changes(fields)]


def number(text):
    return int.from_bytes(octets(text), "big")


def to_change(c):
    time, zone = moment(c["changeTime"])
    return Change(number(c["locationAreaCode"]), number(c["routingAreaCode"]), time, zone)


def to_record(fields):
    """Of fields that keep `mm_rules.value_rules`."""
    moves = [to_change(c) for c in changes(fields)]
    return MMRecord(
        **to_shared(fields),
        lac=number(fields["locationAreaCode"]),
        rac=number(fields["routingArea"]),
        duration=fields["duration"],
        count=len(moves),
        places=places(moves, NO_CHANGE),
    )
