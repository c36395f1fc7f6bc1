"""Damaged records: octets changed, cut, doubled, put in; and fields and lengths
changed with the lengths around them mended. A damaged record may well be a
record within the rules again."""


class Field:
    """One value in a record: its tag, length and contents, by place."""

    def __init__(self, octets, start, parent):
        self.start, self.parent, self.kids = start, parent, []
        length, at = octets[start + 1], start + 2
        if length >= 0x80:
            at += length - 0x80
            length = int.from_bytes(octets[start + 2 : at], "big")
        self.body, self.end = at, at + length
        if octets[start] & 0x20:
            while at < self.end:
                self.kids.append(Field(octets, at, self))
                at = self.kids[-1].end

    def all(self):
        yield self
        for kid in self.kids:
            yield from kid.all()


def length_of(size):
    if size < 0x80:
        return bytes([size])
    octets = size.to_bytes((size.bit_length() + 7) // 8, "big")
    return bytes([0x80 + len(octets)]) + octets


def tlv(tag, body):
    return bytes([tag]) + length_of(len(body)) + body


def mended(octets, parent, start, end, new):
    """Puts `new` for the octets from start to end, and mends the lengths around."""
    while parent:
        body = octets[parent.body : start] + new + octets[end : parent.end]
        new, start, end = tlv(octets[parent.start], body), parent.start, parent.end
        parent = parent.parent
    return octets[:start] + new + octets[end:]


def changed(octets, choose):
    for i, old in enumerate(octets):
        for new in choose(old):
            yield "octet changed", octets[:i] + bytes([new]) + octets[i + 1 :]


def every(old):
    return (x for x in range(256) if x != old)


def several(old):
    return {old ^ 1, old ^ 0x80, old ^ 0x20, old ^ 0x10, (old + 1) & 255, 0, 0xFF} - {old}


def cut(octets):
    for i in range(len(octets)):
        yield "cut", octets[:i]
        yield "beginning cut off", octets[i + 1 :]
    for i in range(len(octets)):
        yield "octet left out", octets[:i] + octets[i + 1 :]


def put_in(octets):
    for i in range(len(octets)):
        yield "octet doubled", octets[: i + 1] + octets[i:]
        for new in (0, 0x80, 0xFF):
            yield "octet put in", octets[:i] + bytes([new]) + octets[i:]


def after(octets):
    for more in (b"\x00", b"\x00\x00", b"\xff", b"\xc3\x5a", octets[:1], octets[:2], octets):
        yield "octets after the record", octets + more
    for mark in (b"\xc3\x5a", b"\xc3", b"\x00", b"\x30\x82"):
        yield "octets before the record", mark + octets


LONG_LENGTHS = [
    lambda n: b"\x81" + n.to_bytes(1, "big") if n < 256 else None,
    lambda n: b"\x82" + n.to_bytes(2, "big"),
    lambda n: b"\x83" + n.to_bytes(3, "big"),
    lambda n: b"\x84" + n.to_bytes(4, "big"),
    lambda n: b"\x88" + n.to_bytes(8, "big"),
]


def lengths(octets, f):
    tag, body = octets[f.start : f.start + 1], octets[f.body : f.end]
    for form in LONG_LENGTHS:
        if form(len(body)) not in (None, length_of(len(body))):
            yield "long-form length", tag + form(len(body)) + body
    yield "indefinite length", tag + b"\x80" + body + b"\x00\x00"
    yield "indefinite length", tag + b"\x80" + body
    yield "wrong length", tag + length_of(len(body) + 1) + body
    if body:
        yield "wrong length", tag + length_of(len(body) - 1) + body
    yield "wrong length", tag + bytes([len(body) & 0xFF]) + body
    yield "wrong length", tag + b"\xff" + body


def tags(octets, f):
    old = octets[f.start]
    for new in {old ^ 0x20, old ^ 0x40, old ^ 0x80, old ^ 1, old ^ 2, (old + 1) & 255, old - 1, old ^ 0x10}:
        yield "other tag", bytes([new]) + octets[f.start + 1 : f.end]
    yield "tag in long form", bytes([old | 0x1F, old & 0x1F]) + octets[f.start + 1 : f.end]


NUMBERS = [bytes.fromhex(x) for x in (
    "00 01 02 03 04 05 06 0A 10 11 12 13 14 15 7F 80 FE FF 0000 0001 0012 007F 0080 00FF 0100 7FFF 8000 FF7F FF80 "
    "FFFF 000080 7FFFFF 800000 7FFFFFFF 80000000 FFFFFFFF 00FFFFFFFF 0080000000 0100000000 7FFFFFFFFF "
    "FFFFFFFFFF 00FFFFFFFFFF 008000000000 010000000000 038D7EA4C67FFF 038D7EA4C68000 038D7EA4C68001 "
    "00038D7EA4C68000 7FFFFFFFFFFFFFFF 8000000000000000 00FFFFFFFFFFFFFFFF 010000000000000000 "
    "00010000000000000000").split()]


def contents(octets, f, flags):
    """Other contents of a value that holds no others; `flags` are the tags of those that are TRUE."""
    tag, body = octets[f.start], octets[f.body : f.end]
    yield "padded with 00", tlv(tag, b"\x00" + body)
    yield "padded with FF", tlv(tag, b"\xff" + body)
    yield "padded with 00", tlv(tag, b"\x00\x00" + body)
    yield "contents longer", tlv(tag, body + b"\x00")
    yield "contents longer", tlv(tag, body + b"\xff")
    yield "contents longer", tlv(tag, body + body[-1:])
    yield "contents shorter", tlv(tag, body[1:])
    yield "contents shorter", tlv(tag, body[:-1])
    yield "contents empty", tlv(tag, b"")
    yield "contents long", tlv(tag, body * 9)
    yield "contents in pieces", tlv(tag | 0x20, tlv(0x04, body))
    yield "contents in pieces", tlv(tag | 0x20, tlv(0x04, body[:1]) + tlv(0x04, body[1:]))
    yield "contents in pieces", tlv(tag | 0x20, tlv(tag, body))
    if tag in flags:
        for true in (0x01, 0x00, 0x7F, 0x80, 0xFE):
            yield "TRUE in another form", tlv(tag, bytes([true]))
    if len(body) < 8:
        for other in NUMBERS:
            yield "other number", tlv(tag, other)


# Fields of no kind; and fields that an S-CDR has, or that 001 gives it.
NO_FIELDS = ("00 9700 9800 9F1F00 9F2000 BF1F00 0500 0000 3000 02010C 0101FF 0C0141 A000 80 C000 "
             "A10F800101810103820102830104840100")
UNKNOWN = ("8101FF 810100 820100 8201FF 84080011223344556677 8600 8603330000 870101 88020001 89020001 9201FF 920100 "
           "9400 B40380010A B700 B70A300806032A03048201 950102 950101 9600 960141")


def strange(octets, f, unknown):
    """An unknown, unwanted or second field before this one."""
    own = octets[f.start : f.end]
    for other in unknown:
        yield "unknown or unwanted field", other + own


def family(octets, f):
    own = octets[f.start : f.end]
    yield "field missing", b""
    yield "field twice", own + own
    yield "field three times", own * 3
    yield "field inside a field", tlv(octets[f.start] | 0x20, own)
    yield "field inside a field", tlv(0xA0, own)
    yield "field inside a field", tlv(0x30, own)
    if f.kids:
        yield "fields without their frame", octets[f.body : f.end]
        yield "field empty", tlv(octets[f.start], b"")


def order(octets, f):
    """Two of the fields in this one change places."""
    kids = f.kids
    for i, a in enumerate(kids):
        for b in kids[i + 1 :]:
            swapped = (octets[b.start : b.end] + octets[a.end : b.start] + octets[a.start : a.end])
            yield "fields in other order", mended(octets, f, a.start, b.end, swapped)
    if len(kids) > 2:
        turned = b"".join(octets[k.start : k.end] for k in reversed(kids))
        yield "fields in other order", mended(octets, f, f.body, f.end, turned)
        first, last = kids[0], kids[-1]
        yield "fields in other order", mended(octets, f, f.body, f.end, octets[last.start : last.end] + octets[f.body : last.start])
        yield "fields in other order", mended(octets, f, f.body, f.end, octets[first.end : f.end] + octets[first.start : first.end])


def fields(octets, shape):
    """Every damage to each field, the lengths around it mended."""
    for f in Field(octets, 0, None).all():
        ways = [lengths(octets, f), tags(octets, f), family(octets, f), strange(octets, f, shape.unknown)]
        if not f.kids:
            ways.append(contents(octets, f, shape.flags))
        for way in ways:
            for name, new in way:
                yield name, mended(octets, f.parent, f.start, f.end, new)
        yield from order(octets, f)


def long_fields(octets):
    """Other lengths of the fields whose length takes more than one octet."""
    for f in Field(octets, 0, None).all():
        if f.end - f.body >= 128:
            for name, new in lengths(octets, f):
                yield name, mended(octets, f.parent, f.start, f.end, new)


def child(octets, f, tag):
    return next((k for k in f.kids if octets[k.start] == tag), None)


def containers(octets):
    """Containers left out, doubled and added up to a sixteenth and more."""
    whole = Field(octets, 0, None)
    held = child(octets, whole, 0xAF)
    for i, c in enumerate(held.kids):
        own = octets[c.start : c.end]
        yield "container left out", mended(octets, held, c.start, c.end, b"")
        if len(held.kids) < 15:
            yield "container doubled", mended(octets, held, c.start, c.end, own + own)
        for total in (15, 16, 17, 31):
            more = total - len(held.kids)
            if more > 0:
                name = "sixteenth container" if total > 15 else "container doubled"
                yield name, mended(octets, held, c.start, c.end, own * (more + 1))


def profiles(octets):
    """The QoS of a container left out, put in, or moved to the next one; conditions 0 and 1 taken for each
    other, with the next container as it was, without a QoS, and with one."""
    whole = Field(octets, 0, None)
    held = child(octets, whole, 0xAF)
    parts = [{octets[k.start]: octets[k.start : k.end] for k in c.kids} for c in held.kids]

    def with_parts(*edits):
        new = [dict(part) for part in parts]
        for i, tag, part in edits:
            new[i][tag] = part
        body = b"".join(tlv(0x30, b"".join(c.get(tag, b"") for tag in (0xA2, 0x83, 0x84, 0x85, 0x86))) for c in new)
        return mended(octets, held, held.body, held.end, body)

    for i, part in enumerate(parts):
        own = part.get(0xA2) or own
        other = own[:-1] + bytes([(own[-1] + 1) % 19])
        if 0xA2 in part:
            yield "QoS left out", with_parts((i, 0xA2, b""))
        else:
            yield "QoS put in", with_parts((i, 0xA2, own))
            yield "QoS put in", with_parts((i, 0xA2, other))
        if i + 1 == len(parts):
            return
        if 0xA2 in part:
            yield "QoS moved on", with_parts((i, 0xA2, b""), (i + 1, 0xA2, own))
        turned = i, 0x85, part[0x85][:2] + bytes([1 - part[0x85][2]])
        yield "condition turned", with_parts(turned)
        for new in (b"", own, other):
            yield "condition turned", with_parts(turned, (i + 1, 0xA2, new))


def twice(rng, octets, count):
    """Two octets changed, or an octet of a record with a damaged field."""
    for _ in range(count):
        new = bytearray(octets)
        for _ in range(2):
            new[rng.randrange(len(new))] = rng.choice((rng.randrange(256), 0, 1, 0x80, 0xFF))
        yield "two octets changed", bytes(new)


def across(rng, octets, other, count):
    """A field of one record in the place of a field of another."""
    ours, theirs = (list(Field(x, 0, None).all()) for x in (octets, other))
    for _ in range(count):
        f, g = rng.choice(ours), rng.choice(theirs)
        same = [h for h in theirs if other[h.start] == octets[f.start]]
        if rng.random() < 0.8 and same:
            g = rng.choice(same)
        yield "field of another record", mended(octets, f.parent, f.start, f.end, other[g.start : g.end])


def noise(rng, count, outer):
    yield "no record at all", b""
    for size in (1, 2, 3, 1024, 1025, 65535):
        yield "no record at all", bytes(size)
        yield "no record at all", bytes([outer]) * size
    for _ in range(count):
        yield "no record at all", rng.randbytes(rng.randrange(1, 200))
        yield "no record at all", tlv(outer, rng.randbytes(rng.randrange(1, 200)))


def capital(rng, octets):
    """One letter of the APN as a capital: the module takes it, and the rule alone refuses it."""
    apn = child(octets, Field(octets, 0, None), 0x8C)
    letters = [i for i in range(apn.body, apn.end) if 0x61 <= octets[i] <= 0x7A]
    if letters:
        i = rng.choice((letters[0], letters[-1], rng.choice(letters)))
        yield "a letter of the APN as a capital", "APN has no capitals", octets[:i] + bytes([octets[i] - 0x20]) + octets[i + 1 :]


class Shape:
    """What damage knows of a kind of record: its outer tag, the tags of what is TRUE, fields that are not its own or
    too many, the damages to its list, and those to every record, with the rule that they break."""

    def __init__(self, outer, flags, unknown, lists, each=()):
        self.outer, self.flags, self.lists, self.each = outer, flags, lists, each
        self.unknown = [bytes.fromhex(x) for x in (unknown + " " + NO_FIELDS).split()]

    def of_list(self, octets):
        for damage in self.lists:
            yield from damage(octets)

    def of_each(self, rng, octets):
        for damage in self.each:
            yield from damage(rng, octets)


SHAPE = Shape(0xA0, (0x81, 0x92), UNKNOWN, (containers, profiles), (capital,))


def damaged(rng, shape, sample, bases, full, others, whole):
    """(damage, octets), no octets twice: `sample` in every way, `bases` in several; of the `full` ones, with fifteen
    places taken, the list and the long lengths only; and `others`, which are records of another kind."""
    made = {}

    def keep(pairs):
        for name, octets in pairs:
            if len(octets) < 65536:
                made.setdefault(octets, name)

    keep(changed(sample, every if whole else several))
    keep(noise(rng, 300 if whole else 30, shape.outer))
    for other in others:
        keep([("record of another kind", other), ("record of another kind", bytes([shape.outer]) + other[1:])])
    for base in [sample] + bases:
        keep(changed(base, several))
        keep(cut(base))
        keep(put_in(base))
        keep(after(base))
        keep(fields(base, shape))
        keep(shape.of_list(base))
        keep(twice(rng, base, 800 if whole else 80))
        keep(across(rng, base, rng.choice(bases or [sample]), 400 if whole else 40))
    for base in full:
        keep(long_fields(base))
        keep(shape.of_list(base))
    for base in [sample] + bases + full:
        made.pop(base, None)
    return [(name, octets) for octets, name in made.items()]
