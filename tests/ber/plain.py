"""The plain forms of records: a block of 549 octets for an S-CDR, of 191 for an M-CDR."""

import struct
from dataclasses import dataclass, field, replace

PLACES = 15


def filled(octets, size):
    return octets + bytes(max(0, size - len(octets)))


def copy(r, **changes):
    return replace(r, **{"places": [replace(c) for c in r.places], **changes})


# S-CDRs

HEAD = struct.Struct(">B8s4sI4sB63s2s4sIHBBQB20sB")
PLACE = struct.Struct(">5sQQBIH")
SIZE = HEAD.size + PLACES * PLACE.size
assert SIZE == 549

FIELDS = [("network initiation", 1), ("IMSI", 8), ("SGSN address", 4), ("charging ID", 4), ("GGSN address", 4),
          ("APN length", 1), ("APN", 63), ("PDP type", 2), ("PDP address", 4), ("opening time", 4),
          ("opening zone", 2), ("SGSN change", 1), ("cause", 1), ("number", 8), ("node ID length", 1),
          ("node ID", 20), ("container count", 1)] + [
    (f"container {i + 1} {name}", size) for i in range(PLACES) for name, size in (
        ("QoS", 5), ("uplink", 8), ("downlink", 8), ("condition", 1), ("time", 4), ("zone", 2))]


@dataclass
class Container:
    qos: tuple = (0, 0, 0, 0, 0)  # reliability, delay, precedence, peak, mean
    uplink: int = 0
    downlink: int = 0
    condition: int = 0
    time: int = 0
    zone: int = 0


BLANK = Container()


@dataclass
class Record:
    network: int = 0
    imsi: bytes = bytes(8)
    sgsn: bytes = bytes(4)
    charging_id: int = 0
    ggsn: bytes = bytes(4)
    apn_length: int = 0
    apn: bytes = bytes(63)
    pdp_type: bytes = bytes(2)
    address: bytes = bytes(4)
    opening: int = 0
    zone: int = 0
    change: int = 0
    cause: int = 0
    number: int = 0
    node_id_length: int = 0
    node_id: bytes = bytes(20)
    count: int = 0
    places: list = field(default_factory=list)


def places(used, blank=BLANK):
    return list(used) + [blank] * (PLACES - len(used))


def pack(r):
    return HEAD.pack(
        r.network, r.imsi, r.sgsn, r.charging_id, r.ggsn, r.apn_length, r.apn, r.pdp_type,
        r.address, r.opening, r.zone, r.change, r.cause, r.number, r.node_id_length, r.node_id,
        r.count,
    ) + b"".join(
        PLACE.pack(bytes(c.qos), c.uplink, c.downlink, c.condition, c.time, c.zone)
        for c in r.places
    )


# M-CDRs

MM_HEAD = struct.Struct(">8s4sHBIHIBQB20sB")
MM_PLACE = struct.Struct(">HBIH")
MM_SIZE = MM_HEAD.size + PLACES * MM_PLACE.size
assert MM_SIZE == 191

MM_FIELDS = [("IMSI", 8), ("SGSN address", 4), ("LAC", 2), ("RAC", 1), ("opening time", 4), ("opening zone", 2),
             ("duration", 4), ("cause", 1), ("number", 8), ("node ID length", 1), ("node ID", 20),
             ("change count", 1)] + [
    (f"change {i + 1} {name}", size) for i in range(PLACES) for name, size in (
        ("LAC", 2), ("RAC", 1), ("time", 4), ("zone", 2))]


@dataclass
class Change:
    lac: int = 0
    rac: int = 0
    time: int = 0
    zone: int = 0


NO_CHANGE = Change()


@dataclass
class MMRecord:
    imsi: bytes = bytes(8)
    sgsn: bytes = bytes(4)
    lac: int = 0
    rac: int = 0
    opening: int = 0
    zone: int = 0
    duration: int = 0
    cause: int = 0
    number: int = 0
    node_id_length: int = 0
    node_id: bytes = bytes(20)
    count: int = 0
    places: list = field(default_factory=list)


def pack_mm(r):
    return MM_HEAD.pack(
        r.imsi, r.sgsn, r.lac, r.rac, r.opening, r.zone, r.duration, r.cause, r.number, r.node_id_length,
        r.node_id, r.count,
    ) + b"".join(MM_PLACE.pack(c.lac, c.rac, c.time, c.zone) for c in r.places)
