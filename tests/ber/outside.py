"""S-CDRs outside the rules, each breaking one rule that is named; and what M-CDRs share.

A breaker changes a record within the rules, in place. `blocks` gives plain
forms; `wrong_values` gives values that Erlang can encode, for the reader.
"""

import values
from good import APN_LETTERS, CLOSINGS, PRINTED, TOPS, profile, record
from plain import BLANK, PLACES, copy
from rules import CAPITALS, LAST, NUMBERS, RELEASES, broken, broken_values, digits

QOS_RULES = ("reliability is 0 to 5", "delay is 0 to 3", "precedence is 0 to 3", "peak is 0 to 9",
             "mean is 0 to 18")
NOT_APN = bytes(x for x in range(256) if x not in APN_LETTERS + CAPITALS)
NOT_PRINTED = bytes(x for x in range(256) if x not in PRINTED)
NOT_CAUSES = bytes(x for x in range(256) if x not in RELEASES + CLOSINGS)


def with_half(imsi, place, half):
    octets = bytearray(imsi)
    shift = 4 * (place % 2)
    octets[place // 2] = octets[place // 2] & ~(15 << shift) & 255 | half << shift
    return bytes(octets)


def with_octet(octets, place, octet):
    return octets[:place] + bytes([octet]) + octets[place + 1 :]


def few_digits(rng, r):
    for place in range(rng.randrange(6), 16):
        r.imsi = with_half(r.imsi, place, 15)


def sixteen_digits(rng, r):
    for place in range(digits(r.imsi), 16):
        r.imsi = with_half(r.imsi, place, rng.randrange(10))


def half_in_imsi(rng, r):
    """A to E anywhere from the seventh half on, or F before a digit."""
    count = digits(r.imsi)
    if count > 7 and rng.random() < 0.4:
        r.imsi = with_half(r.imsi, rng.randrange(6, count - 1), 15)
    else:
        r.imsi = with_half(r.imsi, rng.randrange(6, 16), rng.randrange(10, 15))


def digit_after_imsi(rng, r):
    r.imsi = with_half(r.imsi, rng.randrange(digits(r.imsi) + 1, 16), rng.randrange(10))


def no_apn(rng, r):
    r.apn_length, r.apn = 0, bytes(63)


def long_apn(rng, r):
    r.apn_length, r.apn = rng.choice((64, 65, 127, 128, 255)), bytes(rng.choices(APN_LETTERS, k=63))


def apn_letter(rng, r):
    r.apn = with_octet(r.apn, rng.randrange(r.apn_length), rng.choice(NOT_APN))


def apn_capital(capital):
    def break_it(rng, r):
        place = rng.choice((0, r.apn_length - 1, rng.randrange(r.apn_length)))
        r.apn = with_octet(r.apn, place, capital)
    return break_it


def apn_in_capitals(rng, r):
    r.apn = r.apn.upper()


def after_apn(rng, r):
    r.apn = with_octet(r.apn, rng.choice((r.apn_length, 62, rng.randrange(r.apn_length, 63))), rng.randrange(1, 256))


def all_zones(rng, r):
    r.zone = rng.choice((1561, 1562, 2000, 32768, 65535))
    for c in r.places[: r.count]:
        c.zone = r.zone


def late_opening(rng, r):
    r.opening = rng.choice((LAST + 1, 2**32 - 1))


def late_throughout(rng, r):
    r.opening = rng.choice((LAST + 1, 2**32 - 1))
    for c in r.places[: r.count]:
        c.time = r.opening


def cause(rng, r):
    r.cause, r.number, r.change = rng.choice(NOT_CAUSES), 2, 0


HIGH_NUMBERS = (NUMBERS + 1, NUMBERS + 2, 2**50, 2**62, 2**63, 2**64 - 1)


def high_number(rng, r):
    r.number, r.change = rng.choice(HIGH_NUMBERS), 0


def no_number(rng, r):
    r.cause, r.number = rng.choice(CLOSINGS), 0


def first_number(rng, r):
    r.cause, r.number = rng.choice(RELEASES), 1


def later_change(rng, r):
    r.change, r.number = 1, rng.choice((2, 3, 127, 128, NUMBERS))


def long_node_id(rng, r):
    r.node_id_length, r.node_id = rng.choice((21, 22, 63, 128, 255)), bytes(rng.choices(PRINTED, k=20))


def node_id_letter(rng, r):
    r.node_id = with_octet(r.node_id, rng.randrange(r.node_id_length), rng.choice(NOT_PRINTED))


def after_node_id(rng, r):
    r.node_id = with_octet(r.node_id, rng.choice((r.node_id_length, 19, rng.randrange(r.node_id_length, 20))), rng.randrange(1, 256))


def no_container(rng, r):
    r.count, r.places = 0, [BLANK] * PLACES


def many_containers(rng, r):
    r.count = rng.choice((16, 17, 31, 128, 255))


def unused_place(rng, r):
    c = r.places[rng.choice((r.count, 14, rng.randrange(r.count, 15)))]
    which = rng.randrange(6)
    if which == 0:
        place = rng.randrange(5)
        c.qos = tuple(rng.randint(1, TOPS[i]) if i == place else 0 for i in range(5))
    else:
        name = ("uplink", "downlink", "condition", "time", "zone")[which - 1]
        setattr(c, name, rng.choice((1, 2, 255)))


def qos(place):
    def break_it(rng, r):
        """In a run of containers that have to have the same profile."""
        value = rng.choice((TOPS[place] + 1, TOPS[place] + 2, 127, 128, 255))
        i = j = rng.randrange(r.count)
        while i > 0 and r.places[i - 1].condition == 1:
            i -= 1
        while j < r.count - 1 and r.places[j].condition == 1:
            j += 1
        for c in r.places[i : j + 1]:
            c.qos = c.qos[:place] + (value,) + c.qos[place + 1 :]
    return break_it


def volume(name, choices):
    def break_it(rng, r):
        setattr(rng.choice(r.places[: r.count]), name, rng.choice(choices))
    return break_it


HIGH = (2**40, 2**40 + 1, 2**48, 2**63 - 1, 2**63, 2**64 - 1)


def last_condition(rng, r):
    r.places[r.count - 1].condition = rng.choice((0, 1, 3, 4, 128, 255))


def early_closure(rng, r):
    i = rng.randrange(r.count - 1)
    r.places[i].condition = rng.choice((2, 2, 3, 255))


def falling_time(rng, r):
    times = [r.opening] + [c.time for c in r.places[: r.count]]
    i = rng.choice([i for i in range(1, len(times)) if times[i - 1] > 0])
    r.places[i - 1].time = rng.choice((times[i - 1] - 1, rng.randrange(times[i - 1])))


def late_time(rng, r):
    r.places[r.count - 1].time = rng.choice((LAST + 1, LAST + 2, 2**32 - 1))


def other_zone(rng, r):
    c = rng.choice(r.places[: r.count])
    c.zone = rng.choice([z for z in (r.zone + 1, r.zone - 1, 720, 0, 1560) if 0 <= z <= 1560 and z != r.zone])


def same_after_0(rng, r):
    """The profile after the last condition 0 goes back to the one before."""
    i = rng.choice([i for i in range(r.count - 1) if r.places[i].condition == 0])
    j = i + 1
    while True:
        r.places[j].qos = r.places[i].qos
        if r.places[j].condition != 1:
            break
        j += 1


def other_after_1(rng, r):
    """One value of the profile moves by one after a condition 1."""
    i = rng.choice([i for i in range(r.count - 1) if r.places[i].condition == 1])
    c, place = r.places[i + 1], rng.randrange(5)
    value = c.qos[place] + (1 if c.qos[place] < TOPS[place] else -1)
    c.qos = c.qos[:place] + (value,) + c.qos[place + 1 :]


def simply(name, choices):
    def break_it(rng, r):
        setattr(r, name, rng.choice(choices))
    return break_it


IMSI_BREAKERS = [
    ("IMSI has 6 to 15 digits", few_digits, False),
    ("IMSI has 6 to 15 digits", sixteen_digits, True),
    ("every half after the IMSI's digits is F", half_in_imsi, True),
    ("every half after the IMSI's digits is F", digit_after_imsi, True),
]
NODE_ID_BREAKERS = [
    ("node ID has at most 20 characters", long_node_id, False),
    ("node ID is characters 20 to 7E", node_id_letter, True),
    ("octets after the node ID are zero", after_node_id, False),
]

# What is broken, the breaker, and whether values of CDR.asn1 can say it. (A QoS that differs after condition 1
# is not written; where it is all the same, it is one too many.)
BREAKERS = [
    ("network initiation is 0 or 1", simply("network", (2, 3, 128, 255)), False),
    *IMSI_BREAKERS,
    ("APN has 1 to 63 characters", no_apn, False),
    ("APN has 1 to 63 characters", long_apn, False),
    ("APN is letters, digits, '.' and '-'", apn_letter, True),
    *(("APN has no capitals", apn_capital(capital), True) for capital in CAPITALS),
    ("APN has no capitals", apn_in_capitals, True),
    ("octets after the APN are zero", after_apn, False),
    ("offset is from -720 to 840 minutes", all_zones, False),
    ("SGSN change is 0 or 1", simply("change", (2, 3, 128, 255)), False),
    ("cause is 0, 4, 16, 17, 18, 19 or 20", cause, True),
    ("number is at most 10^15", high_number, True),
    ("number is absent only with cause 0, 4 or 18", no_number, True),
    ("number is never 1 with cause 0, 4 or 18", first_number, True),
    ("SGSN change only with number absent or 1", later_change, True),
    *NODE_ID_BREAKERS,
    ("1 to 15 containers", no_container, False),
    ("1 to 15 containers", many_containers, False),
    ("unused container places are zero", unused_place, False),
    *((rule, qos(place), False) for place, rule in enumerate(QOS_RULES)),
    ("uplink is below 2^40", volume("uplink", HIGH), True),
    ("downlink is below 2^40", volume("downlink", HIGH), True),
    ("the last container has condition 2", last_condition, True),
    ("every container before the last has condition 0 or 1", early_closure, True),
    ("times do not fall, from the opening on", falling_time, True),
    ("container times are at most the last second of 2099", late_time, False),
    ("one offset throughout", other_zone, True),
    ("QoS differs after condition 0", same_after_0, True),
    ("QoS is the same after condition 1", other_after_1, False),
    # No container can follow a late opening in order and in range: two at once.
    ("opening is at most the last second of 2099; times do not fall, from the opening on",
     late_opening, False),
    ("opening is at most the last second of 2099; "
     "container times are at most the last second of 2099", late_throughout, False),
]


# Breakers of values


def put(name, *choices):
    def break_it(rng, f):
        f[name] = rng.choice(choices)
    return break_it


def put_in_container(name, *choices):
    def break_it(rng, f):
        rng.choice(f["listOfTrafficVolumes"])[name] = rng.choice(choices)
    return break_it


def later(rng, f, condition):
    """A container after one that ended with the condition, and the profile in force before it."""
    held = f["listOfTrafficVolumes"]
    i = rng.choice([i for i, c in enumerate(held[:-1]) if c["changeCondition"] == condition])
    return held[i + 1], next(c["qosNegotiated"] for c in held[i::-1] if "qosNegotiated" in c)


def no_first_qos(rng, f):
    del f["listOfTrafficVolumes"][0]["qosNegotiated"]


def no_qos_after_0(rng, f):
    del later(rng, f, "qoSChange")[0]["qosNegotiated"]


def same_qos_again(rng, f):
    c, before = later(rng, f, "tariffTime")
    c["qosNegotiated"] = before


def other_qos_again(rng, f):
    """As after a condition 0, but after a condition 1."""
    c, before = later(rng, f, "tariffTime")
    c["qosNegotiated"] = values.of_qos(profile(rng, values.to_qos(before)))


def requested(rng, f):
    held = f["listOfTrafficVolumes"]
    rng.choice(held)["qosRequested"] = held[0]["qosNegotiated"]


def sixteen(rng, f):
    """More of a container that ended by tariff, each with the QoS it has: all else stays within the rules."""
    held = f["listOfTrafficVolumes"]
    i = rng.choice([i for i, c in enumerate(held) if c["changeCondition"] == "tariffTime"])
    more = {name: value for name, value in held[i].items() if name != "qosNegotiated"}
    held[i + 1 : i + 1] = [more] * (rng.choice((16, 16, 17, 40)) - len(held))


def padded_imsi(rng, f):
    if len(f["servedIMSI"]) > len("x:") + 2 * 7:
        raise ValueError
    f["servedIMSI"] += "FF"


def stamped(held, *edits):
    """Puts digits into the opening, into the last time stamp of the list that is held, or into all of them."""
    def break_it(rng, f):
        place, digits = rng.choice(edits)
        place += len("x:")
        write = lambda text: text[:place] + digits + text[place + len(digits) :]
        which = rng.choice((0, 1, 2))
        if which != 0:
            f["recordOpeningTime"] = write(f["recordOpeningTime"])
        if which != 1:
            for c in f.get(held, [])[-1 if which == 0 else 0 :]:
                c["changeTime"] = write(c["changeTime"])
    return break_it


def no_list(rng, f):
    f["listOfTrafficVolumes"], f["duration"] = [], 0


def duration(rng, f):
    d = f["duration"]
    f["duration"] = rng.choice((d + 1, d - 1, -d - 1, d + 256, d + 2**32, d + 3600))


IPV6 = ["iPBinaryAddress", ["iPBinV6Address", "x:" + "00" * 16]]
TEXT = ["iPTextRepresentedAddress", ["iPTextV4Address", "s:31302E302E302E31"]]
TEXT6 = ["iPTextRepresentedAddress", ["iPTextV6Address", "s:" + "3A" * 15]]


def shared_breakers(held):
    """Of values of both kinds, `held` being the name of the list in which time stamps stand."""
    return [
        ("IMSI takes half its digits, rounded up", padded_imsi),
        ("no IMEI", put("servedIMEI", "x:0011223344556677")),
        ("SGSN address is four binary octets", put("sgsnAddress", IPV6, TEXT, TEXT6)),
        ("no classmark", put("msClassmark", "x:", "x:330000")),
        ("no cell identity", put("cellIdentity", "x:0001")),
        ("time stamps are BCD", stamped(held, (0, "A"), (1, "F"), (2, "0A"), (5, "B"), (7, "A"), (9, "C"), (11, "F"), (17, "A"), (19, "F"))),
        ("dates and times of day exist", stamped(held, (2, "00"), (2, "13"), (2, "20"), (4, "00"), (2, "0230"), (0, "010229"), (2, "0431"), (4, "32"), (6, "24"), (8, "60"), (10, "60"), (10, "99"))),
        ("a time stamp's sign is 2B or 2D", stamped(held, (12, "2C"), (12, "00"), (12, "2A"), (12, "FF"))),
        ("an offset of zero has the sign 2B", stamped(held, (12, "2D0000"))),
        ("an offset's minutes are at most 59", stamped(held, (12, "2B0060"), (12, "2B0099"), (12, "2D0060"), (12, "2D1160"))),
        ("a time stamp's offset is from -720 to 840 minutes", stamped(held, (12, "2B1401"), (12, "2B1500"), (12, "2D1201"), (12, "2D1400"), (12, "2B9959"))),
        ("no diagnostics", put("diagnostics", ["gsm0408Cause", 0], ["ccittQ767Cause", 16])),
        ("number is 1 or more where it stands", put("recordSequenceNumber", 0, -1, -10**15)),
        ("node ID is not empty where it stands", put("nodeID", "s:")),
        ("node ID has at most 20 characters where it stands", put("nodeID", "s:" + "41" * 21, "s:" + "41" * 128)),
        ("no extensions", put("recordExtensions", [])),
    ]


VALUE_BREAKERS = shared_breakers("listOfTrafficVolumes") + [
    ("record type is 18", put("recordType", "ggsnPDPRecord", "moCallRecord", "termCAMELIntRecord", 23, 255, -1, 18 + 256)),
    ("network initiation is TRUE where it stands", put("networkInitiation", False)),
    ("no anonymous access indicator", put("anonymousAccessIndicator", True, False)),
    ("no routing area", put("routingArea", "x:01")),
    ("no location area", put("locationAreaCode", "x:0001")),
    ("GGSN address is four binary octets", put("ggsnAddressUsed", IPV6, TEXT, TEXT6)),
    ("served address is four binary octets", put("servedPDPAddress", ["iPAddress", IPV6], ["iPAddress", TEXT], ["iPAddress", TEXT6], ["eTSIAddress", "x:0A000001"])),
    ("at most 15 containers", sixteen),
    ("no container has the QoS requested", requested),
    ("the first container has its QoS", no_first_qos),
    ("a container after condition 0 has its QoS", no_qos_after_0),
    ("no other container has a QoS", same_qos_again),
    ("no other container has a QoS", other_qos_again),
    ("duration is the last container's time minus the opening", duration),
    ("SGSN change is TRUE where it stands", put("sgsnChange", False)),
    ("1 to 15 containers", no_list),
    ("uplink is below 2^40", put_in_container("dataVolumeGPRSUplink", -1, -128, -129, -(2**39), 2**64)),
    ("downlink is below 2^40", put_in_container("dataVolumeGPRSDownlink", -1, -128, -129, -(2**39), 2**64)),
    ("cause is 0, 4, 16, 17, 18, 19 or 20", put("causeForRecClosing", -1, 1, 3, 5, 15, 21, 256, 260, 272, 2**32)),
]


# Sets


def one(rng, rule, breaker, judge, make):
    """Tries until the breaker broke what it says and nothing else."""
    for _ in range(2000):
        candidate = make(rng)
        try:
            breaker(rng, candidate)
            if "; ".join(judge(candidate)) == rule:
                return candidate
        except (IndexError, ValueError):
            pass
    raise SystemExit(f"no record breaks just this: {rule}")


def blocks(rng, each, *, breakers=BREAKERS, make=record, judge=broken):
    """(rule, record) `each` times a breaker."""
    return [(rule, one(rng, rule, breaker, judge, lambda rng: copy(make(rng))))
            for rule, breaker, _ in breakers for _ in range(each)]


def wrong_values(rng, each, *, breakers=BREAKERS, value_breakers=VALUE_BREAKERS, make=record,
                 of_record=values.of_record, judge=broken_values):
    """(rule, values) that Erlang can encode."""
    made = []
    for rule, breaker, sayable in breakers:
        for _ in range(each if sayable else 0):
            r = one(rng, rule, breaker, lambda r: judge(of_record(r)[1])[0], lambda rng: copy(make(rng)))
            made.append((rule, of_record(r)))
    for rule, breaker in value_breakers:
        for _ in range(each):
            made.append((rule, one(rng, rule, lambda rng, v: breaker(rng, v[1]), lambda v: judge(v[1])[0],
                                   lambda rng: of_record(make(rng)))))
    return made
