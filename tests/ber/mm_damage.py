"""Damages to an M-CDR's list of changes, its times and its ending, each with the fields around it in order."""

import values
from damage import Field, Shape, child, tlv
from rules import LAST, NUMBERS

# Fields that an M-CDR has, or that 001 gives it.
UNKNOWN = ("82080011223344556677 82020001 8400 8403330000 850101 86020001 87020001 A800 8B01FF 8B0100 8A00 8A0100 "
           "AD0380010A 8D00 8E0102 8E0101 8F00 8F0141 9000 B000 B00A300806032A03048201 800114 810321F3F5")


def part(octets, f, tag):
    """The octets of the field with this tag in another, or none."""
    kid = child(octets, f, tag)
    return octets[kid.start : kid.end] if kid else b""


def integer(value):
    """Shortest two's complement of a number that is not below zero."""
    return value.to_bytes(value.bit_length() // 8 + 1, "big")


def with_fields(octets, new):
    """The fields of an M-CDR put in by their tags, in their order; an empty one is left out."""
    whole = Field(octets, 0, None)
    held = {octets[k.start]: octets[k.start : k.end] for k in whole.kids} | new
    return tlv(octets[0], b"".join(held[tag] for tag in sorted(held, key=lambda tag: tag & 0x1F)))


def moment(octets, f):
    return values.moment("x:" + octets[f.body : f.end].hex().upper())


def stamp(time, zone):
    return bytes.fromhex(values.stamp(time, zone)[len("x:") :])


class Moved:
    """What an M-CDR within the rules says of places and times."""

    def __init__(self, octets):
        whole = Field(octets, 0, None)
        held = child(octets, whole, 0xA8)
        kids = held.kids if held else []
        body = lambda tag: octets[child(octets, whole, tag).body : child(octets, whole, tag).end]
        self.octets = octets
        self.opening, self.zone = moment(octets, child(octets, whole, 0x89))
        self.closing = self.opening + int.from_bytes(body(0x8A), "big")
        self.start = body(0x86), body(0x85)
        self.moves = [(part(octets, c, 0x80)[2:], part(octets, c, 0x81)[2:], moment(octets, child(octets, c, 0x83))[0])
                      for c in kids]

    def last(self):
        return self.moves[-1][2] if self.moves else self.opening

    def listed(self, moves):
        body = b"".join(tlv(0x30, tlv(0x80, lac) + tlv(0x81, rac) + tlv(0x83, stamp(time, self.zone)))
                        for lac, rac, time in moves)
        return {0xA8: tlv(0xA8, body) if moves else b""}

    def record(self, moves, ending={}):
        """With these changes, and with the fields of another ending."""
        return with_fields(self.octets, self.listed(moves) | ending)

    def closed(self, cause, closing, number=None):
        """The fields of another ending."""
        new = {0x8C: tlv(0x8C, integer(cause)), 0x8A: tlv(0x8A, integer(max(0, closing - self.opening)))}
        return new if number is None else new | {0x8E: tlv(0x8E, integer(number)) if number else b""}


def changes(octets):
    """Changes left out, doubled, and added by turns between two places up to a fifteenth, a sixteenth and more; closed
    as it was, and with 19 at the last one or a second off."""
    m = Moved(octets)
    for i in range(len(m.moves)):
        rest = m.moves[:i] + m.moves[i + 1 :]
        yield "change left out", m.record(rest)
        yield "change doubled", m.record(m.moves[: i + 1] + m.moves[i:])
        yield "change left out", m.record(rest, m.closed(20, m.closing, 2))
    lac, rac = m.moves[-1][:2] if m.moves else m.start
    other = bytes([lac[0] ^ 1]) + lac[1:]
    for total in (1, 13, 14, 15, 16, 17, 31):
        more = [((other, lac)[i % 2], rac, m.last()) for i in range(total - len(m.moves))]
        name = "changes added" if total < 16 else "sixteenth change"
        if more:
            yield name, m.record(m.moves + more)
        for cause, after in ((19, 0), (19, 1), (19, -1), (20, 0), (0, 1)):
            yield name, m.record((m.moves + more)[:total], m.closed(cause, m.last() + after, 2))


def places(octets):
    """A change to the place before it, or to its LAC or its RAC alone; to one left earlier, to 0, and with its LAC
    turned; and the opening where the first change goes."""
    m = Moved(octets)
    seen = [m.start] + [move[:2] for move in m.moves]
    for i, (lac, rac, time) in enumerate(m.moves):
        for new in (seen[i], (seen[i][0], rac), (lac, seen[i][1]), seen[i - 1], (b"\0\0", b"\0"), (lac[::-1], rac)):
            yield "change to another place", m.record(m.moves[:i] + [(*new, time)] + m.moves[i + 1 :])
    if m.moves:
        first = m.moves[0][:2]
        yield "opening at another place", with_fields(octets, {0x85: tlv(0x85, first[1]), 0x86: tlv(0x86, first[0])})
        yield "opening at another place", with_fields(octets, {0x85: tlv(0x85, first[1])})
        yield "opening at another place", with_fields(octets, {0x86: tlv(0x86, first[0])})


def times(octets):
    """A change at the time before or after it, a second off these, and at the clock's ends; the opening moved."""
    m = Moved(octets)
    row = [m.opening] + [move[2] for move in m.moves] + [m.closing]
    for i, (lac, rac, _) in enumerate(m.moves):
        before, after = row[i], row[i + 2]
        for time in {before - 1, before, before + 1, after - 1, after, after + 1, m.closing, m.closing + 1, 0, LAST}:
            if 0 <= time <= LAST:
                yield "change at another time", m.record(m.moves[:i] + [(lac, rac, time)] + m.moves[i + 1 :])
    for time in {row[1], row[1] + 1, m.opening - 1, m.opening + 1, 0, LAST}:
        if 0 <= time <= LAST:
            yield "opening at another time", with_fields(octets, {0x89: tlv(0x89, stamp(time, m.zone))})


def endings(octets):
    """Other durations, and every cause with every sort of number."""
    m = Moved(octets)
    for closing in (m.last() - 1, m.last(), m.last() + 1, LAST - 1, LAST, LAST + 1, m.opening, m.opening + 2**32):
        for cause in (0, 19, 20):
            yield "other ending", with_fields(octets, m.closed(cause, closing, 2))
    for cause in (0, 1, 4, 16, 17, 18, 19, 20, 21):
        for number in (0, 1, 2, NUMBERS, NUMBERS + 1):
            yield "other ending", with_fields(octets, m.closed(cause, m.closing, number))


SHAPE = Shape(0xA2, (), UNKNOWN, (changes, places, times, endings))
