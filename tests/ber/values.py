"""A record as values of CDR.asn1, as coder.erl reads and shows them: what is common, and S-CDRs."""

from datetime import datetime, timedelta

from plain import Container, Record, filled, places

START = datetime(2000, 1, 1)

CAUSES = {
    "normalRelease": 0, "abnormalRelease": 4, "volumeLimit": 16, "timeLimit": 17,
    "sGSNChange": 18, "maxChangeCond": 19, "managementIntervention": 20,
}
CONDITIONS = ["qoSChange", "tariffTime", "recordClosure"]
QOS = {
    "reliability": [
        "unspecifiedReliability", "acknowledgedGTP", "unackGTPAcknowLLC",
        "unackGTPLLCAcknowRLC", "unackGTPLLCRLC", "unacknowUnprotectedData",
    ],
    "delay": ["delayClass1", "delayClass2", "delayClass3", "delayClass4"],
    "precedence": ["unspecified", "highPriority", "normalPriority", "lowPriority"],
    "peakThroughput": [
        "unspecified", "upTo100OctetPs", "upTo200OctetPs", "upTo400OctetPs", "upTo800OctetPs",
        "upTo1600OctetPs", "upTo3200OctetPs", "upTo6400OctetPs", "upTo12800OctetPs",
        "upTo25600OctetPs",
    ],
    "meanThroughput": ["bestEffort"] + [
        f"mean{size}octetPh" for size in (
            100, 200, 500, 1000, 2000, 5000, 10000, 20000, 50000, 100000, 200000, 500000,
            1000000, 2000000, 5000000, 10000000, 20000000, 50000000,
        )
    ],
}
CAUSE_NAMES = {number: name for name, number in CAUSES.items()}


def octets(text):
    """The octets of "x:HEX" or "s:HEX"; an empty string is shown as []."""
    return bytes.fromhex(text[2:]) if text else b""


def hexed(data):
    return "x:" + data.hex().upper()


# Time stamps


def stamp(seconds, zone):
    moment = START + timedelta(seconds=seconds)
    offset = zone - 720
    size = abs(offset)
    digits = moment.strftime("%y%m%d%H%M%S") + ("2D" if offset < 0 else "2B")
    return f"x:{digits}{size // 60:02}{size % 60:02}"


def stamp_fault(text):
    """What is wrong with one time stamp, or None."""
    date, sign, zone = text[2:14], text[14:16], text[16:20]
    if not (date + zone).isdecimal():
        return "digit"
    try:
        datetime(2000 + int(date[:2]), *(int(date[i : i + 2]) for i in range(2, 12, 2)))
    except ValueError:
        return "date"
    if sign not in ("2B", "2D"):
        return "sign"
    if sign == "2D" and zone == "0000":
        return "zero"
    if zone[2:] > "59":
        return "minutes"
    if int(zone[:2]) * 60 + int(zone[2:]) > (840 if sign == "2B" else 720):
        return "range"
    return None


def stamp_faults(texts):
    return {stamp_fault(text) for text in set(texts)} - {None}


def moment(text):
    """Seconds and zone of a right time stamp."""
    year, month, day, hour, minute, second = (int(text[i : i + 2]) for i in range(2, 14, 2))
    past = datetime(2000 + year, month, day, hour, minute, second) - START
    offset = int(text[16:18]) * 60 + int(text[18:20])
    return past.days * 86400 + past.seconds, 720 + (offset if text[14:16] == "2B" else -offset)


# Addresses


def address(value):
    """The octets of an IPv4 address in binary, else None."""
    if value[0] == "iPBinaryAddress" and value[1][0] == "iPBinV4Address":
        return octets(value[1][1])
    return None


def of_address(data):
    return ["iPBinaryAddress", ["iPBinV4Address", hexed(data)]]


# What both kinds of records have


def of_imsi(imsi):
    return hexed(imsi.rstrip(b"\xff"))


def of_shared(r):
    fields = {
        "servedIMSI": of_imsi(r.imsi),
        "sgsnAddress": of_address(r.sgsn),
        "recordOpeningTime": stamp(r.opening, r.zone),
        "causeForRecClosing": CAUSE_NAMES.get(r.cause, r.cause),
    }
    if r.number:
        fields["recordSequenceNumber"] = r.number
    if r.node_id_length:
        fields["nodeID"] = "s:" + r.node_id[: r.node_id_length].hex().upper()
    return fields


def to_shared(fields):
    node_id = octets(fields.get("nodeID", "s:"))
    opening, zone = moment(fields["recordOpeningTime"])
    cause = fields["causeForRecClosing"]
    return dict(
        imsi=octets(fields["servedIMSI"]).ljust(8, b"\xff"),
        sgsn=address(fields["sgsnAddress"]),
        opening=opening,
        zone=zone,
        cause=CAUSES.get(cause, cause),
        number=fields.get("recordSequenceNumber", 0),
        node_id_length=len(node_id),
        node_id=filled(node_id, 20),
    )


# S-CDRs


def stamps(fields):
    return [fields["recordOpeningTime"]] + [c["changeTime"] for c in fields["listOfTrafficVolumes"]]


def duration_fits(fields):
    """Not judged where there is no right time to judge it by."""
    if not fields["listOfTrafficVolumes"] or stamp_faults(stamps(fields)):
        return True
    all_stamps = stamps(fields)
    return fields["duration"] == moment(all_stamps[-1])[0] - moment(all_stamps[0])[0]


def served(value):
    return address(value[1]) if value[0] == "iPAddress" else None


def of_qos(qos):
    return {name: names[x] for (name, names), x in zip(QOS.items(), qos)}


def of_container(c, before):
    """With its QoS where it is new: in the first, and after condition 0."""
    fields = {
        "dataVolumeGPRSUplink": c.uplink,
        "dataVolumeGPRSDownlink": c.downlink,
        "changeCondition": CONDITIONS[c.condition],
        "changeTime": stamp(c.time, c.zone),
    }
    if before is None or before.condition == 0:
        fields["qosNegotiated"] = of_qos(c.qos)
    return fields


def of_record(r):
    containers = r.places[: r.count]
    fields = {
        **of_shared(r),
        "recordType": "sgsnPDPRecord",
        "chargingID": r.charging_id,
        "ggsnAddressUsed": of_address(r.ggsn),
        "accessPointName": "s:" + r.apn[: r.apn_length].hex().upper(),
        "pdpType": hexed(r.pdp_type),
        "servedPDPAddress": ["iPAddress", of_address(r.address)],
        "listOfTrafficVolumes": [of_container(c, before) for before, c in zip([None] + containers, containers)],
        "duration": containers[-1].time - r.opening,
    }
    if r.network:
        fields["networkInitiation"] = True
    if r.change:
        fields["sgsnChange"] = True
    return ["sgsnPDPRecord", fields]


def to_qos(fields):
    return tuple(names.index(fields[name]) for name, names in QOS.items())


def to_container(c, before):
    """Without a QoS of its own it has that of the container before."""
    time, zone = moment(c["changeTime"])
    return Container(
        qos=to_qos(c["qosNegotiated"]) if "qosNegotiated" in c else before.qos,
        uplink=c["dataVolumeGPRSUplink"],
        downlink=c["dataVolumeGPRSDownlink"],
        condition=CONDITIONS.index(c["changeCondition"]),
        time=time,
        zone=zone,
    )


def to_record(fields):
    """Of fields that keep `rules.value_rules`."""
    apn = octets(fields["accessPointName"])
    containers = []
    for c in fields["listOfTrafficVolumes"]:
        containers.append(to_container(c, containers[-1] if containers else None))
    return Record(
        **to_shared(fields),
        network=int("networkInitiation" in fields),
        charging_id=fields["chargingID"],
        ggsn=address(fields["ggsnAddressUsed"]),
        apn_length=len(apn),
        apn=filled(apn, 63),
        pdp_type=octets(fields["pdpType"]),
        address=served(fields["servedPDPAddress"]),
        change=int("sgsnChange" in fields),
        count=len(containers),
        places=places(containers),
    )
