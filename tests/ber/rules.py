"""Document 01's "Record within the rules", a rule a line, each with its name.

`broken` works on the plain form; `broken_values` on the values that Erlang
decoded, which can say more than the plain form holds. Written from document
01, and from the requests W1 for which container has its QoS and W5 for the
letters of an APN, not from our program.
"""

import values
from plain import BLANK

LAST = 3_155_759_999
NUMBERS = 10**15
RELEASES = (0, 4, 18)
LETTERS = frozenset(b"abcdefghijklmnopqrstuvwxyz0123456789.-")
CAPITALS = b"ABCDEFGHIJKLMNOPQRSTUVWXYZ"


def halves(imsi):
    return [half for octet in imsi for half in (octet & 15, octet >> 4)]


def digits(imsi):
    """How many of its halves, from the first on, are digits."""
    return next((i for i, half in enumerate(halves(imsi)) if half > 9), 16)


def shared(r):
    """Of both kinds of records."""
    node, after_node = r.node_id[: r.node_id_length], r.node_id[r.node_id_length :]
    return [
        ("IMSI has 6 to 15 digits", 6 <= digits(r.imsi) <= 15),
        ("every half after the IMSI's digits is F", all(h == 15 for h in halves(r.imsi)[digits(r.imsi):])),
        ("opening is at most the last second of 2099", 0 <= r.opening <= LAST),
        ("offset is from -720 to 840 minutes", 0 <= r.zone <= 1560),
        ("number is at most 10^15", 0 <= r.number <= NUMBERS),
        ("node ID has at most 20 characters", 0 <= r.node_id_length <= 20),
        ("node ID is characters 20 to 7E", all(0x20 <= x <= 0x7E for x in node)),
        ("octets after the node ID are zero", not any(after_node)),
    ]


def rules(r):
    c = r.places[: r.count]
    pairs = list(zip(c, c[1:]))
    times = [r.opening] + [x.time for x in c]
    apn, after_apn = r.apn[: r.apn_length], r.apn[r.apn_length :]
    return shared(r) + [
        ("network initiation is 0 or 1", r.network in (0, 1)),
        ("charging ID fits four octets", 0 <= r.charging_id < 2**32),
        ("APN has 1 to 63 characters", 1 <= r.apn_length <= 63),
        ("APN is letters, digits, '.' and '-'", all(x in LETTERS or x in CAPITALS for x in apn)),
        ("APN has no capitals", not any(x in CAPITALS for x in apn)),
        ("octets after the APN are zero", not any(after_apn)),
        ("SGSN change is 0 or 1", r.change in (0, 1)),
        ("cause is 0, 4, 16, 17, 18, 19 or 20", r.cause in (0, 4, 16, 17, 18, 19, 20)),
        ("number is absent only with cause 0, 4 or 18", r.number != 0 or r.cause in RELEASES),
        ("number is never 1 with cause 0, 4 or 18", not (r.number == 1 and r.cause in RELEASES)),
        ("SGSN change only with number absent or 1", not (r.change == 1 and r.number > 1)),
        ("1 to 15 containers", 1 <= r.count <= 15),
        ("unused container places are zero", all(x == BLANK for x in r.places[r.count :])),
        ("reliability is 0 to 5", all(0 <= x.qos[0] <= 5 for x in c)),
        ("delay is 0 to 3", all(0 <= x.qos[1] <= 3 for x in c)),
        ("precedence is 0 to 3", all(0 <= x.qos[2] <= 3 for x in c)),
        ("peak is 0 to 9", all(0 <= x.qos[3] <= 9 for x in c)),
        ("mean is 0 to 18", all(0 <= x.qos[4] <= 18 for x in c)),
        ("uplink is below 2^40", all(0 <= x.uplink < 2**40 for x in c)),
        ("downlink is below 2^40", all(0 <= x.downlink < 2**40 for x in c)),
        ("the last container has condition 2", not c or c[-1].condition == 2),
        ("every container before the last has condition 0 or 1", all(x.condition in (0, 1) for x in c[:-1])),
        ("times do not fall, from the opening on", all(a <= b for a, b in zip(times, times[1:]))),
        ("container times are at most the last second of 2099", all(0 <= x.time <= LAST for x in c)),
        ("one offset throughout", all(x.zone == r.zone for x in c)),
        ("QoS differs after condition 0", all(a.qos != b.qos for a, b in pairs if a.condition == 0)),
        ("QoS is the same after condition 1", all(a.qos == b.qos for a, b in pairs if a.condition == 1)),
    ]


def shared_values(f, stamps):
    """Of the fields `f` of either kind, with these time stamps: what the plain form cannot even hold."""
    wrong = values.stamp_faults(stamps)
    return [
        ("IMSI takes half its digits, rounded up", f["servedIMSI"][-2:] != "FF"),
        ("no IMEI", "servedIMEI" not in f),
        ("SGSN address is four binary octets", values.address(f["sgsnAddress"]) is not None),
        ("no classmark", "msClassmark" not in f),
        ("no cell identity", "cellIdentity" not in f),
        ("time stamps are BCD", "digit" not in wrong),
        ("dates and times of day exist", "date" not in wrong),
        ("a time stamp's sign is 2B or 2D", "sign" not in wrong),
        ("an offset of zero has the sign 2B", "zero" not in wrong),
        ("an offset's minutes are at most 59", "minutes" not in wrong),
        ("a time stamp's offset is from -720 to 840 minutes", "range" not in wrong),
        ("no diagnostics", "diagnostics" not in f),
        ("number is 1 or more where it stands", f.get("recordSequenceNumber", 1) >= 1),
        ("node ID is not empty where it stands", f.get("nodeID", "s:20") not in ("s:", [])),
        ("node ID has at most 20 characters where it stands", len(f.get("nodeID", "")) <= len("s:") + 2 * 20),
        ("no extensions", "recordExtensions" not in f),
    ]


def value_rules(f):
    """Of the fields `f` of an S-CDR."""
    containers = f["listOfTrafficVolumes"]
    with_qos = ["qosNegotiated" in c for c in containers]
    after_0 = [c["changeCondition"] == "qoSChange" for c in containers[:-1]]
    return shared_values(f, values.stamps(f)) + [
        ("record type is 18", f["recordType"] == "sgsnPDPRecord"),
        ("network initiation is TRUE where it stands", f.get("networkInitiation", True) is True),
        ("no anonymous access indicator", "anonymousAccessIndicator" not in f),
        ("no routing area", "routingArea" not in f),
        ("no location area", "locationAreaCode" not in f),
        ("GGSN address is four binary octets", values.address(f["ggsnAddressUsed"]) is not None),
        ("served address is four binary octets", values.served(f["servedPDPAddress"]) is not None),
        ("at most 15 containers", len(containers) <= 15),
        ("no container has the QoS requested", not any("qosRequested" in c for c in containers)),
        ("the first container has its QoS", all(with_qos[:1])),
        ("a container after condition 0 has its QoS", all(has for new, has in zip(after_0, with_qos[1:]) if new)),
        ("no other container has a QoS", not any(has for new, has in zip(after_0, with_qos[1:]) if not new)),
        ("duration is the last container's time minus the opening", values.duration_fits(f)),
        ("SGSN change is TRUE where it stands", f.get("sgsnChange", True) is True),
    ]


def unkept(list_of_rules):
    return [name for name, kept in list_of_rules if not kept]


def broken(record):
    return unkept(rules(record))


def judged(fields, of_values, to_record, of_record):
    """The rules that the fields break; the record, where they break none."""
    names = unkept(of_values(fields))
    if names:
        return names, None
    record = to_record(fields)
    names = unkept(of_record(record))
    return names, None if names else record


def broken_values(fields):
    return judged(fields, value_rules, values.to_record, rules)
