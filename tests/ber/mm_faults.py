"""Faults in M-CDRs, planted by faults.py."""

from compare import AGAIN, BACK, DAMAGED, DECODES, ITSELF, REFUSES, WRITES
from damage import Field, mended, tlv
from edits import (Fault, bare, cut_off, edited, fields, if_sound, in_fields, in_line, in_read, length_128, length_255,
                   longer, missing_answer, no_83, no_leap_day, plus_sign, plus_zero, put_after, put_last,
                   short_lengths, short_number, turned, unpadded)
from mm_damage import Moved, with_fields
from mm_rules import DETACHES
from plain import MM_HEAD, MM_PLACE, NO_CHANGE, Change, MMRecord, pack_mm
from rules import LAST

OCTETS = {WRITES, DECODES}
STAMPS = ((0xA8, 0x30, 0x83), (0x89,))
NUMBERS = ((0x8A,), (0x8C,), (0x8E,))
CHANGES = (0xA8, 0x30)


# Edits of the writer's octets


def swapped_tags(change):
    """The RAC under 80 and the LAC under 81."""
    return tlv(0x80, change[6:7]) + tlv(0x81, change[2:4]) + change[7:]


def other_tag(change):
    """The time under 82."""
    return change[:7] + b"\x82" + change[8:]


def short_lac(lac):
    return lac.lstrip(b"\0") or b"\0"


def places_left(octets):
    """Each change with the place that is left, not the one moved to."""
    m = Moved(octets)
    seen = [m.start] + [move[:2] for move in m.moves]
    return m.record([(*seen[i], move[2]) for i, move in enumerate(m.moves)])


def fourteen(octets):
    m = Moved(octets)
    return m.record(m.moves[:14]) if len(m.moves) == 15 else octets


def other_cause(cause):
    return b"\x14" if cause == b"\x13" else cause


# Edits of blocks


def of_block(block):
    return MMRecord(*MM_HEAD.unpack(block[: MM_HEAD.size]),
                    [Change(*place) for place in MM_PLACE.iter_unpack(block[MM_HEAD.size :])])


def in_block(edit):
    """An edit of a record in place as an edit of blocks."""
    def change(block):
        r = of_block(block)
        edit(r)
        return pack_mm(r)
    return change


def used(r):
    return r.places[: r.count]


def seen(r):
    return [(r.lac, r.rac)] + [(c.lac, c.rac) for c in used(r)]


def last_time(r):
    return used(r)[-1].time if r.count else r.opening


def turned_lacs(r):
    """The octets of every LAC the other way round."""
    turn = lambda lac: lac >> 8 | (lac & 255) << 8
    r.lac = turn(r.lac)
    for c in used(r):
        c.lac = turn(c.lac)


def to_last_change(r):
    r.duration = max(0, last_time(r) - r.opening)


def no_first_number(r):
    if r.number == 1 and r.cause in DETACHES:
        r.number = 0


def no_spare_characters(r):
    r.node_id = r.node_id[: r.node_id_length].ljust(20, b"\0")


def no_spare_places(r):
    r.places[r.count :] = [NO_CHANGE] * len(r.places[r.count :])


def always_moved(r):
    """A change to the place in force goes elsewhere."""
    places = seen(r)
    for i, c in enumerate(used(r)):
        if (c.lac, c.rac) == places[i]:
            c.lac, c.rac = next(p for p in ((c.lac, x) for x in range(256)) if p not in places[i : i + 3])


def late_enough(r):
    r.duration = max(r.duration, last_time(r) - r.opening)


def early_enough(r):
    r.duration = min(r.duration, max(0, LAST - r.opening))


def no_19(r):
    if r.cause == 19 and r.count < 15:
        r.cause = 20


def refused_where(bad):
    """24 for records within the rules."""
    return lambda block, line: "24" if line != "24" and bad(of_block(block)) else line


def goes_back(r):
    return len(set(seen(r))) <= r.count


def waits_nowhere(r):
    times = [c.time for c in used(r)]
    return len(set(times)) < len(times)


def closes_at_once(r):
    return r.count and r.cause != 19 and r.opening + r.duration == last_time(r)


# Edits before the reader


def cause_of(octets):
    return octets[fields(octets, 0x8C)[0].body]


def no_empty_list(octets):
    return edited(octets, lambda tag, body: tlv(tag, body) if body else b"", 0xA8)


def without(*path):
    return lambda octets: edited(octets, lambda tag, body: b"", *path)


def no_sixteenth(octets):
    """Two of sixteen changes let go, which no other rule misses."""
    m = Moved(octets)
    return m.record(m.moves[:14]) if len(m.moves) == 16 and cause_of(octets) != 19 else octets


def any_place(octets):
    """A change to the place in force goes elsewhere."""
    m = Moved(octets)
    places, new = [m.start] + [move[:2] for move in m.moves], list(m.moves)
    for i, (lac, rac, time) in enumerate(m.moves):
        if (lac, rac) == places[i]:
            new[i] = next(p for p in ((lac, bytes([x])) for x in range(256)) if p not in places[i : i + 3]) + (time,)
    return octets if new == m.moves else m.record(new)


def any_times(octets):
    m = Moved(octets)
    times = [m.opening] + [move[2] for move in m.moves]
    return octets if times == sorted(times) else m.record(
        [(lac, rac, max(times[: i + 2])) for i, (lac, rac, _) in enumerate(m.moves)])


def with_closing(choose):
    """Another duration, where `choose` gives another closing for these places and times and this cause."""
    def edit(octets):
        m = Moved(octets)
        cause, closing = cause_of(octets), choose(m, cause_of(octets))
        return octets if closing in (None, m.closing) else with_fields(octets, m.closed(cause, closing))
    return edit


def at_last(m, cause):
    return m.last() if cause == 19 and m.closing > m.last() else None


def not_before_last(m, cause):
    return max(m.closing, m.last())


def not_past_2099(m, cause):
    return min(m.closing, LAST)


def with_cause(choose):
    """Another cause, at the same closing or under 19 at the last change."""
    def edit(octets):
        m = Moved(octets)
        cause = choose(m, cause_of(octets))
        return octets if cause is None else with_fields(octets, m.closed(cause, m.last() if cause == 19 else m.closing))
    return edit


def any_19(m, cause):
    return 20 if cause == 19 and len(m.moves) < 15 else None


def fifteen_any(m, cause):
    return 19 if cause != 19 and len(m.moves) == 15 else None


def limits(m, cause):
    return 20 if cause in (16, 17, 18) else None


def any_number(octets):
    """Management's record may go without its number."""
    return octets if cause_of(octets) in DETACHES else put_after(0x8C, b"\x8e\x01\x01")(octets)


def no_first(octets):
    first = cause_of(octets) in DETACHES and fields(octets, 0x8E) and octets.find(b"\x8e\x01\x01") > 0
    return without(0x8E)(octets) if first else octets


def any_order(octets):
    whole = Field(octets, 0, None)
    kids = sorted((octets[k.start : k.end] for k in whole.kids), key=lambda field: field[0] & 0x1F)
    return mended(octets, whole, whole.body, whole.end, b"".join(kids))


# Edits of what the reader answers


def other_digit(block):
    """The sixth digit of the IMSI one higher, or 0 after 9."""
    high, low = divmod(block[2], 16)
    return block[:2] + bytes([(high + 1) % 10 * 16 + low]) + block[3:]


def small_number(r):
    """Numbers in 32 bits."""
    r.number &= 2**32 - 1


def no_zones(r):
    """The offset in the opening alone."""
    for c in used(r):
        c.zone = 0


def no_full_list(octets, line):
    return "20" if line != "20" and of_block(bytes.fromhex(line)).count == 15 else line


FAULTS = [
    Fault("the outer tag A0", OCTETS, written=in_line(lambda octets: b"\xa0" + octets[1:])),
    Fault("record type 18", OCTETS, written=in_line(in_fields(lambda body: b"\x12", (0x80,)))),
    Fault("the address under A3 without its inner 80", OCTETS, written=in_line(bare(0xA3))),
    Fault("LAC before RAC", {WRITES, AGAIN}, written=in_line(turned(0x85, 0x86))),
    Fault("LACs without their leading 00", OCTETS, written=in_line(in_fields(short_lac, (0x86,), (*CHANGES, 0x80)))),
    Fault("LACs with their octets turned by writer and reader alike", OCTETS | {DAMAGED}, block=in_block(turned_lacs),
          read=in_read(in_block(turned_lacs))),
    Fault("RAC and LAC of a change under each other's tag", OCTETS, written=in_line(in_fields(swapped_tags, CHANGES))),
    Fault("the time of a change under 82", OCTETS, written=in_line(in_fields(other_tag, CHANGES))),
    Fault("changes with the place that is left", OCTETS, written=in_line(places_left)),
    Fault("an empty list of changes written", OCTETS, written=in_line(put_after(0x86, b"\xa8\x00"))),
    Fault("the fifteenth change not listed", OCTETS, written=in_line(fourteen)),
    Fault("cause 20 for 19", OCTETS, written=in_line(in_fields(other_cause, (0x8C,)))),
    Fault("the duration to the last change", OCTETS | {BACK}, block=in_block(to_last_change)),
    Fault("duration one too high", OCTETS, written=in_line(longer(0x8A))),
    Fault("duration in four octets with its top bit set", OCTETS, written=in_line(short_number(0x8A))),
    Fault("number 1 on a sole record", OCTETS, written=in_line(put_after(0x8C, b"\x8e\x01\x01"))),
    Fault("the number before the cause", {WRITES, AGAIN}, written=in_line(turned(0x8C, 0x8E))),
    Fault("an empty node ID written", OCTETS, written=in_line(put_last(b"\x8f\x00"))),
    Fault("length 128 in one octet", OCTETS, written=in_line(length_128)),
    Fault("lengths from 128 on in three octets", {WRITES, AGAIN}, written=in_line(length_255)),
    Fault("offsets below zero with the sign 2B", OCTETS, written=in_line(in_fields(plus_sign, *STAMPS))),
    Fault("29 February written as 1 March", OCTETS, written=in_line(in_fields(no_leap_day, *STAMPS))),
    Fault("octets where 24 is due: number 1 with a detach", {REFUSES}, block=in_block(no_first_number)),
    Fault("octets where 24 is due: octets after the node ID", {REFUSES}, block=in_block(no_spare_characters)),
    Fault("octets where 24 is due: unused places", {REFUSES}, block=in_block(no_spare_places)),
    Fault("octets where 24 is due: a change to the place in force", {REFUSES}, block=in_block(always_moved)),
    Fault("octets where 24 is due: closing before the last change", {REFUSES}, block=in_block(late_enough)),
    Fault("octets where 24 is due: closing after 2099", {REFUSES}, block=in_block(early_enough)),
    Fault("octets where 24 is due: cause 19 with fewer changes", {REFUSES}, block=in_block(no_19)),
    Fault("24 for fifteen changes", OCTETS, written=refused_where(lambda r: r.count == 15)),
    Fault("24 for a change that is all zero in the block", OCTETS,
          written=refused_where(lambda r: NO_CHANGE in used(r))),
    Fault("24 for a change back to an earlier place", OCTETS, written=refused_where(goes_back)),
    Fault("24 for two changes at one time", OCTETS, written=refused_where(waits_nowhere)),
    Fault("24 for a detach at the last change's time", OCTETS, written=refused_where(closes_at_once)),
    Fault("an answer of the writer left out", {WRITES, DECODES, ITSELF}, lines=missing_answer("write-mm")),
    Fault("the reader takes a padded integer", {DAMAGED}, octets=if_sound(in_fields(unpadded, *NUMBERS))),
    Fault("the reader takes octets after the record", {DAMAGED}, octets=if_sound(cut_off)),
    Fault("the reader takes long-form lengths", {DAMAGED}, octets=if_sound(short_lengths)),
    Fault("the reader takes lengths from 256 on in 83 and three octets", {DAMAGED}, octets=if_sound(no_83)),
    Fault("the reader takes fields in any order", {DAMAGED}, octets=if_sound(any_order)),
    Fault("the reader takes the offset 2D 00 00", {DAMAGED}, octets=if_sound(in_fields(plus_zero, *STAMPS))),
    Fault("the reader takes an empty list of changes", {DAMAGED}, octets=if_sound(no_empty_list)),
    Fault("the reader takes a sixteenth change", {DAMAGED}, octets=if_sound(no_sixteenth)),
    Fault("the reader takes a cell", {DAMAGED}, octets=if_sound(without(*CHANGES, 0x82))),
    Fault("the reader takes an SGSN change", {DAMAGED}, octets=if_sound(without(0x8B))),
    Fault("the reader takes a record without its RAC", {DAMAGED}, octets=if_sound(put_after(0xA3, b"\x85\x01\x00"))),
    Fault("the reader takes a record without its LAC", {DAMAGED},
          octets=if_sound(put_after(0x85, b"\x86\x02\x00\x00"))),
    Fault("the reader takes a record without its duration", {DAMAGED},
          octets=if_sound(put_after(0x89, b"\x8a\x01\x00"))),
    Fault("the reader takes a change to the place in force", {DAMAGED}, octets=if_sound(any_place)),
    Fault("the reader takes times that fall", {DAMAGED}, octets=if_sound(any_times)),
    Fault("the reader takes a closing before the last change", {DAMAGED},
          octets=if_sound(with_closing(not_before_last))),
    Fault("the reader takes a closing after the last change under 19", {DAMAGED},
          octets=if_sound(with_closing(at_last))),
    Fault("the reader takes a closing after 2099", {DAMAGED}, octets=if_sound(with_closing(not_past_2099))),
    Fault("the reader takes 19 with fewer changes", {DAMAGED}, octets=if_sound(with_cause(any_19))),
    Fault("the reader takes fifteen changes with another cause", {DAMAGED}, octets=if_sound(with_cause(fifteen_any))),
    Fault("the reader takes causes 16, 17 and 18", {DAMAGED}, octets=if_sound(with_cause(limits))),
    Fault("the reader takes management's record without its number", {DAMAGED}, octets=if_sound(any_number)),
    Fault("the reader takes number 1 with a detach", {DAMAGED}, octets=if_sound(no_first)),
    Fault("the reader answers another IMSI digit", {BACK, DAMAGED}, read=in_read(other_digit)),
    Fault("the reader answers numbers in 32 bits", {BACK}, read=in_read(in_block(small_number))),
    Fault("the reader answers changes without their offset", {BACK, DAMAGED}, read=in_read(in_block(no_zones))),
    Fault("the reader answers the duration to the last change", {BACK, DAMAGED},
          read=in_read(in_block(to_last_change))),
    Fault("the reader refuses fifteen changes", {BACK}, read=no_full_list),
]

# Faults in the module, to see that the record written out by hand holds it.
MODULE_FAULTS = [
    ("the module with RAC and LAC of the record swapped",
     ("[5] RoutingAreaCode OPTIONAL,\n    locationAreaCode            [6]",
      "[6] RoutingAreaCode OPTIONAL,\n    locationAreaCode            [5]")),
    ("the module with the time of a change under 82",
     ("cellId                      [2] CellId OPTIONAL,\n    changeTime                  [3] TimeStamp",
      "cellId                      [3] CellId OPTIONAL,\n    changeTime                  [2] TimeStamp")),
    ("the module with M-CDRs under A1", ("sgsnMMRecord                [2]", "sgsnMMRecord                [1]")),
]
