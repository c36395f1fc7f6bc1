"""S-CDRs within the rules: the boundaries of every field, then seeded ones; and what M-CDRs share."""

from datetime import datetime

from plain import Container, Record, copy, filled, places
from rules import LAST, LETTERS, NUMBERS, RELEASES

APN_LETTERS = bytes(sorted(LETTERS))
PRINTED = bytes(range(0x20, 0x7F))
TOPS = (5, 3, 3, 9, 18)  # the highest value of each QoS field
CLOSINGS = (16, 17, 19, 20)
CHARGING_IDS = [0, 1, 127, 128, 255, 256, 32767, 32768, 65535, 65536, 2**23 - 1, 2**23, 2**24 - 1,
                2**24, 2**31 - 1, 2**31, 2**32 - 1]
VOLUMES = sorted({0, 1, 2**40 - 1} | {v for k in range(1, 6) for n in (8 * k - 1, 8 * k)
                                      for v in (2**n - 1, 2**n) if v < 2**40})
RECORD_NUMBERS = sorted({1, 2, 3, NUMBERS - 1, NUMBERS} | {
    v for k in range(1, 7) for n in (8 * k - 1, 8 * k) for v in (2**n - 1, 2**n)
    if 2 <= v <= NUMBERS})
DURATIONS = [0, 1, 127, 128, 255, 256, 32767, 32768, 65535, 65536, 2**23 - 1, 2**23, 2**24 - 1,
             2**24, 2**31 - 1, 2**31, LAST - 1, LAST]
CONDITIONS = {"condition 0 alone": {0}, "condition 1 alone": {1}, "conditions 0 and 1": {0, 1}}
ZONES = [0, 1, 59, 60, 61, 719, 720, 721, 779, 780, 1559, 1560]
ADDRESSES = [bytes(4), b"\xff" * 4, b"\x80\x04\x00\x00", b"\x0a\x00\x00\x01", b"\x7f\xff\xff\xff"]


def seconds(*date):
    return int((datetime(*date) - datetime(2000, 1, 1)).total_seconds())


MOMENTS = [0, 1, 59, 60, 3599, 3600, 86399, 86400, LAST - 1, LAST] + [
    seconds(year, *rest) + more
    for year in (2000, 2001, 2003, 2004, 2096, 2097, 2099)
    for rest in ((2, 28), (3, 1), (12, 31)) for more in (0, 86399, 86400) if
    seconds(year, *rest) + more <= LAST]
MONTHS = [seconds(year, month, 1) for year in range(2000, 2100) for month in range(1, 13)]
LENGTHS = (127, 128, 255, 256)


# What both kinds of records have


def number_of_bits(rng, most):
    """Any size is as likely as another."""
    return rng.getrandbits(rng.randrange(1, most + 1))


def imsi(rng, digits=None):
    digits = digits or rng.randrange(6, 16)
    halves = [rng.randrange(10) for _ in range(digits)] + [15] * (16 - digits)
    return bytes(halves[i] | halves[i + 1] << 4 for i in range(0, 16, 2))


def some_zone(rng):
    return rng.choice((rng.choice(ZONES), 720, rng.randint(0, 1560)))


def numbered(rng, cause, number, releases, closings):
    """A cause and a number that go together; what is given stays."""
    if cause is None:
        cause = rng.choice(closings if number == 1 else releases if number == 0 else releases + closings)
    if number is None:
        any_number = min(NUMBERS, max(2, number_of_bits(rng, 50)))
        number = rng.choice((0, 0, 2, any_number) if cause in releases else (1, 1, 2, any_number))
    return cause, number


def some_length(rng):
    """Of a node ID."""
    return rng.choice((0, rng.randrange(21)))


def named(rng, length):
    return dict(node_id_length=length, node_id=filled(bytes(rng.choices(PRINTED, k=length)), 20))


def moments(rng, opening, count, duration):
    if opening is None and duration is None:
        opening = rng.choice((rng.randint(0, LAST), rng.choice(MOMENTS), rng.choice(MONTHS)))
    elif opening is None:
        opening = rng.randint(0, LAST - duration)
    if duration is None:
        duration = rng.choice((0, rng.randrange(0, 400), number_of_bits(rng, 32), LAST - opening))
        duration = min(duration, LAST - opening)
    return opening, sorted(rng.randint(opening, opening + duration) for _ in range(count - 1)) + [
        opening + duration]


def shared_boundaries():
    yield from ({"zone": x} for x in ZONES)
    yield from ({"imsi_digits": n} for n in range(6, 16) for _ in range(8))
    yield from ({"node_id_length": n} for n in range(21))


def shared_wanted(r, duration, length):
    yield from (f"number {x}" for x in RECORD_NUMBERS if r.number == x)
    yield from (f"duration {x}" for x in DURATIONS if duration == x)
    yield f"IMSI of {sum(h < 10 for o in r.imsi for h in (o & 15, o >> 4))} digits"
    yield f"node ID of {r.node_id_length}"
    yield f"cause {r.cause} and {'no' if r.number == 0 else 'the first' if r.number == 1 else 'a later'} number"
    yield f"offset {r.zone - 720}"
    yield from (f"time {x}" for x in MOMENTS if r.opening == x)
    yield from (f"record of {x} octets inside" for x in LENGTHS if length == x)


def shared_names(releases, closings):
    names = [f"number {x}" for x in RECORD_NUMBERS] + [f"duration {x}" for x in DURATIONS]
    names += [f"IMSI of {n} digits" for n in range(6, 16)] + [f"node ID of {n}" for n in range(21)]
    names += [f"cause {c} and {n} number" for c in releases for n in ("no", "a later")]
    names += [f"cause {c} and {n} number" for c in closings for n in ("the first", "a later")]
    names += [f"offset {x}" for x in range(-720, 841)] + [f"time {x}" for x in MOMENTS]
    return names + [f"record of {x} octets inside" for x in LENGTHS]


# S-CDRs


def profile(rng, before=None, same=False):
    """A QoS profile: the one before, or one that differs, often in one value only."""
    if same:
        return before
    while True:
        qos = [rng.randint(0, top) for top in TOPS]
        if before and rng.random() < 0.5:
            place = rng.randrange(5)
            qos = list(before[:place]) + [qos[place]] + list(before[place + 1 :])
        if tuple(qos) != before:
            return tuple(qos)


def of_octets(rng, size):
    """A volume that takes so many octets as a shortest integer, 1 to 6."""
    return rng.randrange(2 ** (8 * size - 9) if size > 1 else 0, min(2 ** (8 * size - 1), 2**40))


def spread(rng, containers, octets):
    """Gives the volumes of all containers together so many octets."""
    sizes = [1] * (2 * len(containers))
    for _ in range(octets - len(sizes)):
        sizes[rng.choice([i for i, size in enumerate(sizes) if size < 6])] += 1
    for c in containers:
        c.uplink, c.downlink = of_octets(rng, sizes.pop()), of_octets(rng, sizes.pop())


def record(rng, *, containers=None, conditions=None, opening=None, duration=None, times=None, zone=None,
           cause=None, number=None, change=None, apn_length=None, node_id_length=None, imsi_digits=None,
           uplink=None, downlink=None, volume_octets=None, qos=None, **others):
    """`conditions` are those of all containers but the last."""
    if conditions is not None:
        containers = len(conditions) + 1
    count = containers or (len(times) if times else rng.choice((1, 1, 1, 1, 2, 2, 3, 3, 4, 5, 7, 15)))
    if conditions is None:
        conditions = rng.choices(rng.choice(((0,), (1,), (0, 1), (0, 1))), k=count - 1)
    if times:
        opening = times[0] if opening is None else opening
    else:
        opening, times = moments(rng, opening, count, duration)
    zone = some_zone(rng) if zone is None else zone

    held = []
    for i, condition in enumerate([*conditions, 2]):
        before = held[-1] if held else None
        held.append(Container(
            qos=profile(rng, before.qos, before.condition == 1) if before else qos or profile(rng),
            uplink=number_of_bits(rng, 40) if rng.random() < 0.9 else 0,
            downlink=number_of_bits(rng, 40) if rng.random() < 0.9 else 0,
            condition=condition, time=times[i], zone=zone))
    if volume_octets:
        spread(rng, held, volume_octets)
    marked = rng.choice(held)
    marked.uplink = marked.uplink if uplink is None else uplink
    marked.downlink = marked.downlink if downlink is None else downlink

    cause, number = numbered(rng, cause, number, RELEASES, CLOSINGS)
    if change is None:
        change = rng.randrange(2) if number <= 1 else 0

    apn_length = apn_length or rng.choice((1, rng.randrange(1, 20), rng.randrange(1, 64)))
    if node_id_length is None:
        node_id_length = some_length(rng)
    fields = dict(
        network=rng.randrange(2), imsi=imsi(rng, imsi_digits), sgsn=rng.randbytes(4),
        charging_id=number_of_bits(rng, 32), ggsn=rng.randbytes(4), apn_length=apn_length,
        apn=filled(bytes(rng.choices(APN_LETTERS, k=apn_length)), 63), pdp_type=rng.randbytes(2),
        address=rng.randbytes(4), opening=opening, zone=zone, change=change, cause=cause,
        number=number, **named(rng, node_id_length), count=count, places=places(held))
    return Record(**{**fields, **others})


def sample():
    """Document 01, "One session, whole", and its octets."""
    octets = bytes.fromhex("""
        A0 6D 80 01 12 83 08 00 01 01 21 43 65 87 F9
        A5 06 80 04 0A 00 00 01 8A 01 01 AB 06 80 04 0A 00 00 02
        8C 01 61 8D 02 F1 21 AE 08 A0 06 80 04 0A 00 00 03
        AF 29 30 27 A2 0F 80 01 01 81 01 03 82 01 02 83 01 04
        84 01 00 83 02 01 90 84 02 02 57 85 01 02
        86 09 00 01 01 00 00 06 2B 00 00
        90 09 00 01 01 00 00 00 2B 00 00 91 01 06 93 01 00""")
    return Record(
        imsi=bytes.fromhex("00010121436587F9"), sgsn=bytes([10, 0, 0, 1]), charging_id=1,
        ggsn=bytes([10, 0, 0, 2]), apn_length=1, apn=filled(b"a", 63), pdp_type=b"\xf1\x21",
        address=bytes([10, 0, 0, 3]), zone=720, count=1,
        places=places([Container((1, 3, 2, 4, 0), 400, 599, 2, 6, 720)])), octets


def boundaries():
    """What to hold fast in a record, a boundary each."""
    yield from ({"charging_id": x} for x in CHARGING_IDS)
    for x in VOLUMES:
        yield from ({name: x, "containers": n} for name in ("uplink", "downlink") for n in (1, 3))
    for x in RECORD_NUMBERS:
        yield from ({"number": x, "cause": c} for c in RELEASES + CLOSINGS
                    if x > 1 or c in CLOSINGS)
    for c in RELEASES + CLOSINGS:
        for change in (0, 1):
            yield {"cause": c, "number": 0 if c in RELEASES else 1, "change": change, "network": 1 - change}
            yield {"cause": c, "number": 0 if c in RELEASES else 1, "change": change, "network": change}
    for x in DURATIONS:
        yield from ({"duration": x, "containers": n} for n in (1, 2, 15))
    yield from ({"opening": x, "containers": n} for x in MOMENTS for n in (1, 4))
    yield from ({"opening": 0, "times": [0] * n} for n in range(1, 16))
    yield from ({"opening": LAST, "times": [LAST] * n} for n in range(1, 16))
    yield from shared_boundaries()
    for letter in APN_LETTERS:
        yield {"apn_length": 2, "apn": filled(bytes([letter, 0x2E]), 63), "containers": 1}
    for letter in PRINTED:
        yield {"node_id_length": 2, "node_id": filled(bytes([letter, 0x20]), 20), "containers": 1}
    for name in ("sgsn", "ggsn", "address"):
        yield from ({name: x} for x in ADDRESSES)
    yield from ({"pdp_type": bytes.fromhex(x)} for x in ("0000", "FFFF", "F121", "80FF"))
    for place, top in enumerate(TOPS):
        for x in range(top + 1):
            yield {"qos": tuple(x if i == place else 0 for i in range(5)), "containers": 1}
            yield {"qos": tuple(x if i == place else t for i, t in enumerate(TOPS))}
    # Lengths in one, two and three octets. A container is 37 octets and its volumes, after condition 1 it is 20.
    for lengths, lists in ((range(125, 131), ((0, 0), (1, 1, 1), (1, 0, 1))),
                           (range(253, 259), ((0,) * 5, (1,) * 7, (0, 1, 0, 1, 0, 1)))):
        yield from ({"conditions": c, "volume_octets": x - 37 * (len(c) + 1) + 17 * c.count(1)}
                    for c in lists for x in lengths for _ in range(2))
    # The profile new everywhere, nowhere, by turns, and at one place of fifteen, or not new there.
    for n in range(1, 15):
        yield from ({"conditions": c} for c in ((0,) * n, (1,) * n, ((0, 1) * n)[:n], ((1, 0) * n)[:n]))
        yield from ({"conditions": (x,) * (n - 1) + (1 - x,) + (x,) * (14 - n)} for x in (0, 1))
    for x in (0, 1):
        yield {"conditions": (x,) * 14, "volume_octets": 180, "apn_length": 63, "node_id_length": 20, "imsi_digits": 15,
               "charging_id": 2**32 - 1, "number": NUMBERS, "network": 1, "opening": 0, "duration": LAST}
    yield {"containers": 1, "volume_octets": 2, "apn_length": 1, "node_id_length": 0, "imsi_digits": 6,
           "charging_id": 0, "number": 0, "network": 0, "change": 0, "duration": 0}
    yield from ({"apn_length": n} for n in range(1, 64))
    yield from ({"containers": n} for n in range(1, 16))


def sweeps():
    """Every offset; every month, its first second and the one before; every length."""
    yield from ({"zone": x, "containers": 1, "apn_length": 1} for x in range(1561))
    for first in MONTHS:
        before = max(0, first - 1)
        yield {"opening": before, "times": [before, first]}
    yield from ({"containers": n, "apn_length": a} for n in range(1, 16) for a in range(1, 64, 1 if n < 6 else 7))


def stretched(rng):
    """Records that grow by an octet, past 127/128 and past 255/256 octets inside."""
    for conditions in ((), (0,) * 3, (1,) * 5):
        octets = 3 * len(conditions) + 3
        base = record(rng, conditions=conditions, volume_octets=octets, node_id_length=0, duration=0)
        for size in range(1, 64):
            yield copy(base, apn_length=size, apn=filled(bytes(rng.choices(APN_LETTERS, k=size)), 63))


def at_boundaries(rng):
    """The sample, and records at every boundary."""
    return [sample()[0]] + [record(rng, **held) for held in boundaries()] + list(stretched(rng))


def records(rng, count):
    """`count` records, or some more where boundaries and sweeps take more."""
    made = at_boundaries(rng) + [record(rng, **held) for held in sweeps()]
    return made + [record(rng) for _ in range(count - len(made))]


# Records to damage: what they are like, and their most octets.
TO_DAMAGE = [
    (lambda r: r.network and r.change and r.number == 1 and r.node_id_length and r.count == 1, 170),
    (lambda r: r.count == 2 and r.places[0].condition == 0, 190),
    (lambda r: r.count == 2 and r.places[0].condition == 1 and r.node_id_length, 220),
    (lambda r: r.count == 1 and r.charging_id >= 2**31 and r.number > 2**31 and not r.node_id_length, 150),
    (lambda r: [c.condition for c in r.places[: r.count]] == [0, 1, 2] and r.network and r.zone < 720, 256),
    (lambda r: r.count == 1 and r.change and r.number == 0 and r.zone == 720, 140),
]


def full(r):
    """Fifteen containers, one without a QoS among them: more of it break no other rule."""
    return r.count == 15 and any(a.condition == b.condition == 1 for a, b in zip(r.places, r.places[1:]))


def wanted(r, length, list_length):
    """Names of the boundaries that a record with these lengths meets."""
    c = r.places[: r.count]
    yield from shared_wanted(r, c[-1].time - r.opening, length)
    yield from (f"charging ID {x}" for x in CHARGING_IDS if r.charging_id == x)
    yield from (f"uplink {x}" for x in VOLUMES if any(y.uplink == x for y in c))
    yield from (f"downlink {x}" for x in VOLUMES if any(y.downlink == x for y in c))
    yield f"APN of {r.apn_length}"
    yield f"{r.count} containers"
    seen = {x.condition for x in c[:-1]}
    yield from (f"{r.count} containers with {name}" for name, held in CONDITIONS.items() if seen == held)
    yield f"SGSN change {r.change} with cause {r.cause}"
    yield from (f"containers of {x} octets" for x in LENGTHS if list_length == x)


def all_wanted():
    names = shared_names(RELEASES, CLOSINGS) + [f"charging ID {x}" for x in CHARGING_IDS]
    names += [f"{way} {x}" for way in ("uplink", "downlink") for x in VOLUMES]
    names += [f"APN of {n}" for n in range(1, 64)] + [f"{n} containers" for n in range(1, 16)]
    names += [f"{n} containers with {name}" for name, held in CONDITIONS.items() for n in range(len(held) + 1, 16)]
    names += [f"SGSN change {x} with cause {c}" for x in (0, 1) for c in RELEASES + CLOSINGS]
    return names + [f"containers of {x} octets" for x in LENGTHS]
