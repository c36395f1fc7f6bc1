"""M-CDRs within the rules: the boundaries of every field, then seeded ones."""

from good import (ADDRESSES, DURATIONS, MOMENTS, MONTHS, PRINTED, RECORD_NUMBERS, imsi, moments, named, numbered,
                  shared_boundaries, shared_names, shared_wanted, some_length, some_zone)
from mm_rules import DETACHES
from plain import NO_CHANGE, Change, MMRecord, filled, places
from rules import LAST, NUMBERS

CAUSES = (*DETACHES, 19, 20)
LACS = [0, 1, 127, 128, 255, 256, 32767, 32768, 65279, 65280, 65534, 65535]
RACS = [0, 1, 127, 128, 254, 255]
COUNTS = (0, 0, 0, 1, 1, 1, 2, 2, 3, 4, 5, 7, 11, 14, 15)
MOVES = ("the LAC alone changes", "the RAC alone changes", "a change back to the place before",
         "two changes at one time", "a change that is all zero in the block")


def place(rng, before):
    """Another place than the last one before it: the LAC or the RAC alone may differ, and it may have been there."""
    while True:
        lac = rng.choice((rng.choice(LACS), rng.getrandbits(16)))
        rac = rng.choice((rng.choice(RACS), rng.getrandbits(8)))
        if before:
            last = before[-1]
            lac, rac = rng.choice(((lac, rac), (last[0], rac), (lac, last[1]), rng.choice(before)))
        if not before or (lac, rac) != before[-1]:
            return lac, rac


def causes(changes):
    return (19,) if changes == 15 else (*DETACHES, 20)


def record(rng, *, changes=None, cause=None, number=None, opening=None, duration=None, times=None, zone=None,
           visited=None, node_id_length=None, imsi_digits=None, **others):
    """`times` are those of the changes, then the closing (under 19 the last change is it); `visited` are the first
    places."""
    if changes is None:
        changes = 15 if cause == 19 else rng.choice(COUNTS if cause is None and number != 0 else COUNTS[:-1])
    cause = 19 if changes == 15 else cause
    cause, number = numbered(rng, cause, number, DETACHES, (20,))
    if times:
        opening = times[0] if opening is None else opening
    else:
        opening, times = moments(rng, opening, changes + (cause != 19), duration)
    zone = some_zone(rng) if zone is None else zone
    visited = list(visited or ())
    while len(visited) < changes + 1:
        visited.append(place(rng, visited))
    moved = [Change(lac, rac, time, zone) for (lac, rac), time in zip(visited[1:], times)][:changes]
    fields = dict(
        imsi=imsi(rng, imsi_digits), sgsn=rng.randbytes(4), lac=visited[0][0], rac=visited[0][1], opening=opening,
        zone=zone, duration=times[-1] - opening, cause=cause, number=number,
        **named(rng, some_length(rng) if node_id_length is None else node_id_length),
        count=changes, places=places(moved, NO_CHANGE))
    return MMRecord(**{**fields, **others})


def sample():
    """A record written out by hand from 001 and W4. It opens on 29 February 2000 at 00:00:00, an hour and a half behind
    universal time, moves at 5 and 127 seconds, and is closed by detach at 128."""
    octets = bytes.fromhex("""
        A2 61 80 01 14 81 08 00 01 01 21 43 65 87 F9
        A3 06 80 04 0A 00 00 01 85 01 03 86 02 01 02
        A8 28 30 12 80 02 01 02 81 01 04 83 09 00 02 29 00 00 05 2D 01 30
        30 12 80 02 FF FE 81 01 04 83 09 00 02 29 00 02 07 2D 01 30
        89 09 00 02 29 00 00 00 2D 01 30
        8A 02 00 80 8C 01 00 8E 01 02 8F 04 4D 56 20 37""")
    return MMRecord(
        imsi=bytes.fromhex("00010121436587F9"), sgsn=bytes([10, 0, 0, 1]), lac=0x0102, rac=3, opening=5_097_600,
        zone=720 - 90, duration=128, cause=0, number=2, node_id_length=4, node_id=filled(b"MV 7", 20), count=2,
        places=places([Change(0x0102, 4, 5_097_605, 720 - 90), Change(0xFFFE, 4, 5_097_727, 720 - 90)],
                      NO_CHANGE)), octets


def boundaries():
    """What to hold fast in a record, a boundary each."""
    for n in (1, 14, 15):
        yield from ({"changes": n, "visited": v} for x in LACS for v in ([(x, 7)], [(x ^ 1, 7), (x, 7)]))
        yield from ({"changes": n, "visited": v} for x in RACS for v in ([(7, x)], [(7, x ^ 1), (7, x)]))
    for n in range(16):
        yield from ({"changes": n, "cause": c} for c in causes(n))
        yield {"changes": n, "visited": [(0x8000, i) for i in range(n + 1)]}
        yield {"changes": n, "visited": [(i << 8, 255) for i in range(n + 1)]}
        yield {"changes": n, "visited": [(i % 2, 1 - i % 2) for i in range(n + 1)]}
        yield {"changes": n, "visited": [(0, (i + 1) % 2) for i in range(n + 1)], "times": [0] * (n + 1), "zone": 0}
    for x in RECORD_NUMBERS:
        yield from ({"number": x, "cause": c} for c in CAUSES if x > 1 or c not in DETACHES)
    yield from ({"number": 0, "cause": c, "changes": n} for c in DETACHES for n in range(15))
    for x in DURATIONS:
        yield from ({"duration": x, "changes": n} for n in (0, 1, 14, 15))
    yield from ({"opening": x, "changes": n} for x in MOMENTS for n in (0, 3))
    yield from ({"times": [x] * (n + (n < 15)), "changes": n} for x in (0, 951_782_400, LAST) for n in range(16))
    for cause in (*DETACHES, 20):
        for n in (1, 2, 14):
            yield from ({"cause": cause, "changes": n, "opening": LAST - 9, "times": [LAST - 1] * n + [LAST - 1 + more]}
                        for more in (0, 1))
    yield from ({"opening": LAST - x, "duration": x, "changes": n} for x in (0, 1, 127, 128) for n in (0, 1, 15))
    yield from shared_boundaries()
    for letter in PRINTED:
        yield {"node_id_length": 2, "node_id": filled(bytes([letter, 0x20]), 20), "changes": 0}
    yield from ({"sgsn": x} for x in ADDRESSES)
    # Records of 127 and 128, and of 255 and 256 octets inside: a change is 20 octets.
    for n in (4, 10):
        yield from ({"changes": n, "cause": 4, "number": 0, "duration": 0, "imsi_digits": 6, "node_id_length": x}
                    for x in range(21))
    yield {"changes": 15, "node_id_length": 20, "imsi_digits": 15, "number": NUMBERS, "opening": 0, "duration": LAST}
    yield {"changes": 0, "node_id_length": 0, "imsi_digits": 6, "number": 0, "duration": 0}


def sweeps():
    """Every offset; every month, its first second and the one before; every length."""
    yield from ({"zone": x, "changes": x % 3} for x in range(1561))
    for first in MONTHS:
        before = max(0, first - 1)
        yield {"opening": before, "times": [first, first], "changes": 1}
    yield from ({"changes": n, "node_id_length": x} for n in range(16) for x in range(21))


def at_boundaries(rng):
    """The sample, and records at every boundary."""
    return [sample()[0]] + [record(rng, **held) for held in boundaries()]


def records(rng, count):
    """`count` records, or some more where boundaries and sweeps take more."""
    made = at_boundaries(rng) + [record(rng, **held) for held in sweeps()]
    return made + [record(rng) for _ in range(count - len(made))]


# Records to damage: what they are like, and their most octets.
TO_DAMAGE = [
    (lambda r: r.count == 1 and r.cause == 20 and r.number == 1 and r.node_id_length and r.zone > 720, 120),
    (lambda r: r.count == 0 and r.cause == 4 and r.number == 0 and r.zone == 720, 90),
    (lambda r: r.count == 0 and r.cause == 20 and r.number > 2**31 and r.duration > 2**23 and not r.node_id_length, 90),
    (lambda r: r.count == 2 and r.cause == 0 and r.number > 1 and r.opening + r.duration == LAST and r.zone < 720, 130),
    (lambda r: r.count == 3 and r.number == 0 and r.duration > r.places[2].time - r.opening, 150),
    (lambda r: r.count == 7 and r.duration > 128 and r.node_id_length, 256),
]


def full(r):
    return r.count == 15


def wanted(r, length, list_length):
    """Names of the boundaries that a record with these lengths meets."""
    c = r.places[: r.count]
    closing = r.opening + r.duration
    yield from shared_wanted(r, r.duration, length)
    yield from (f"LAC {x} at the opening" for x in LACS if r.lac == x)
    yield from (f"RAC {x} at the opening" for x in RACS if r.rac == x)
    yield from (f"a change to LAC {x}" for x in LACS if any(y.lac == x for y in c))
    yield from (f"a change to RAC {x}" for x in RACS if any(y.rac == x for y in c))
    yield f"{r.count} changes with cause {r.cause}"
    yield f"{r.count} changes, {list_length} octets"
    if closing == LAST:
        yield f"closing at the end of 2099 with cause {r.cause}"
    if c and closing - c[-1].time in (0, 1):
        yield f"closing {closing - c[-1].time} s after the last change with cause {r.cause}"
    if closing == r.opening:
        yield f"{r.count} changes and no time"
    yield from moves(r, c)


def moves(r, c):
    seen = [(r.lac, r.rac)] + [(x.lac, x.rac) for x in c]
    pairs = list(zip(seen, seen[1:]))
    found = (any(a[1] == b[1] for a, b in pairs), any(a[0] == b[0] for a, b in pairs),
             any(a == b for a, b in zip(seen, seen[2:])), any(a.time == b.time for a, b in zip(c, c[1:])),
             NO_CHANGE in c)
    yield from (name for name, here in zip(MOVES, found) if here)


def all_wanted():
    names = shared_names(DETACHES, (19, 20)) + list(MOVES)
    names += [f"LAC {x} at the opening" for x in LACS] + [f"RAC {x} at the opening" for x in RACS]
    names += [f"a change to LAC {x}" for x in LACS] + [f"a change to RAC {x}" for x in RACS]
    names += [f"{n} changes with cause {c}" for n in range(16) for c in causes(n)]
    names += [f"{n} changes, {20 * n} octets" for n in range(16)] + [f"{n} changes and no time" for n in range(16)]
    names += [f"closing at the end of 2099 with cause {c}" for c in CAUSES]
    names += [f"closing {x} s after the last change with cause {c}" for c in CAUSES for x in (0, 1)
              if (c, x) != (19, 1)]
    return names
