"""Edits of octets for planted faults: finding fields in them, and what both kinds of records share."""

from damage import Field, mended, tlv


# Finding fields in octets


def fields(octets, *path):
    """The fields with the last tag of the path, below those with the tags before it."""
    found = [Field(octets, 0, None)]
    for tag in path:
        found = [kid for f in found for kid in f.kids if octets[kid.start] == tag]
    return found


def sound(octets):
    """The tree of a record that may be damaged, or None."""
    def fits(f):
        at = f.body
        for kid in f.kids:
            if kid.start != at or kid.end > f.end or not fits(kid):
                return False
            at = kid.end
        return at == f.end or not f.kids
    try:
        tree = Field(octets, 0, None)
        return tree if tree.end <= len(octets) and fits(tree) else None
    except (IndexError, RecursionError):
        return None


def edited(octets, edit, *path):
    """Every field at the path edited: edit gives octets for a tag and contents."""
    for i in reversed(range(len(fields(octets, *path)))):
        # The lengths around a field change with it, so the tree is read again each time. Editing goes from the last
        # on: those before keep their number.
        f = fields(octets, *path)[i]
        octets = mended(octets, f.parent, f.start, f.end, edit(octets[f.start], octets[f.body : f.end]))
    return octets


def in_line(edit):
    """An edit of octets as an edit of a line of our writer."""
    def change(block, line):
        return line if line == "24" else edit(bytes.fromhex(line)).hex().upper()
    return change


def if_sound(edit):
    """An edit of octets before our reader, where they have a tree at all."""
    def change(octets):
        if sound(octets) is None:
            return octets
        try:
            return edit(octets)
        except (AttributeError, IndexError, ValueError, StopIteration):
            return octets
    return change


# Edits of the writer's octets


def bare(tag):
    """An address without the tag inside."""
    return lambda octets: edited(octets, lambda tag, body: tlv(tag, body[2:]), tag)


def put_after(tag, new):
    """A field after the one with this tag, where it is missing."""
    def edit(octets):
        if fields(octets, new[0]):
            return octets
        return edited(octets, lambda tag, body: tlv(tag, body) + new, tag)
    return edit


def put_last(new):
    def edit(octets):
        whole = Field(octets, 0, None)
        return octets if fields(octets, new[0]) else mended(octets, whole, whole.end, whole.end, new)
    return edit


def longer(tag):
    """A number one too high."""
    def one_more(tag, body):
        value = int.from_bytes(body, "big") + 1
        return tlv(tag, value.to_bytes(value.bit_length() // 8 + 1, "big"))
    return lambda octets: edited(octets, one_more, tag)


def short_number(tag):
    """A number of four octets with its top bit set written without the 00 before it."""
    return lambda octets: edited(octets, lambda tag, body: tlv(tag, body[1:] if len(body) == 5 else body), tag)


def length_128(octets):
    """The length 128 as 80 alone."""
    for f in Field(octets, 0, None).all():
        if f.end - f.body == 128:
            return octets[: f.start + 1] + b"\x80" + octets[f.body :]
    return octets


def length_255(octets):
    """Lengths from 128 on in three octets."""
    for f in Field(octets, 0, None).all():
        if 128 <= f.end - f.body < 256:
            new = octets[f.start : f.start + 1] + b"\x82\x00" + octets[f.start + 2 : f.end]
            return mended(octets, f.parent, f.start, f.end, new)
    return octets


def in_fields(edit, *paths):
    """The contents of all fields at these paths edited."""
    def change(octets):
        for path in paths:
            octets = edited(octets, lambda tag, body: tlv(tag, edit(body)), *path)
        return octets
    return change


def plus_sign(stamp):
    return stamp[:6] + b"\x2b" + stamp[7:]


def no_leap_day(stamp):
    return stamp[:1] + b"\x03\x01" + stamp[3:] if stamp[1:3] == b"\x02\x29" else stamp


def turned(first, second):
    """Two fields of the record that stand one after the other change places."""
    def edit(octets):
        if not fields(octets, second):
            return octets
        a, b = fields(octets, first)[0], fields(octets, second)[0]
        return mended(octets, a.parent, a.start, b.end, octets[b.start : b.end] + octets[a.start : a.end])
    return edit


# Edits before and after the reader


def unpadded(body):
    while len(body) > 1 and body[0] == 0 and body[1] < 128:
        body = body[1:]
    return body


def cut_off(octets):
    return octets[: Field(octets, 0, None).end]


def short_lengths(octets):
    def again(f):
        body = b"".join(again(kid) for kid in f.kids) if f.kids else octets[f.body : f.end]
        return tlv(octets[f.start], body)
    tree = Field(octets, 0, None)
    return again(tree) + octets[tree.end :]


def no_83(octets):
    """A length from 256 on in 83 and three octets put right."""
    for f in Field(octets, 0, None).all():
        if octets[f.start + 1] == 0x83 and f.end - f.body >= 256:
            return mended(octets, f.parent, f.start, f.end, tlv(octets[f.start], octets[f.body : f.end]))
    return octets


def plus_zero(stamp):
    return stamp.replace(b"\x2d\x00\x00", b"\x2b\x00\x00", 1)


def in_read(edit):
    """An edit of blocks as an edit of a line of our reader."""
    def change(octets, line):
        return line if line == "20" else edit(bytes.fromhex(line)).hex().upper()
    return change


def missing_answer(how):
    return lambda asked, lines: lines[:300] + lines[301:] if asked == how else lines


class Fault:
    def __init__(self, name, sorts, block=None, written=None, octets=None, read=None, lines=None):
        self.name, self.sorts = name, sorts
        self.block, self.written, self.octets, self.read, self.lines = block, written, octets, read, lines
