"""Plants faults into our program's answers and sees each stopped.

usage: faults.py FOLDER COMMAND...            plants all of them
       faults.py --as NUMBER COMMAND... HOW   our program with one of them

A fault sits between the comparison and our program: it changes a block before
our writer sees it, the line that our writer answers, the octets before our
reader sees them, or the line that our reader answers. Here are the faults in
S-CDRs; those in M-CDRs are in mm_faults.py.
"""

import os
import re
import subprocess
import sys
import tempfile

import kinds
import mm_faults
import values
from compare import AGAIN, BACK, DAMAGED, DECODES, ITSELF, REFUSES, SAMPLE, SORTS, WRITES, framed, label
from damage import mended, tlv
from edits import (Fault, bare, cut_off, edited, fields, if_sound, in_fields, in_line, in_read, length_128, length_255,
                   longer, missing_answer, no_83, no_leap_day, plus_sign, plus_zero, put_after, put_last,
                   short_lengths, short_number, turned, unpadded)
from plain import HEAD, PLACE, SIZE

HERE = os.path.dirname(os.path.abspath(__file__))
OCTETS = {WRITES, DECODES}
STAMPS = ((0xAF, 0x30, 0x86), (0x90,))
NUMBERS = ((0x8A,), (0x91,), (0x95,), (0xAF, 0x30, 0x83), (0xAF, 0x30, 0x84))
TRUE = ((0x81,), (0x92,))
APN = (0x8C,)


# Edits of the writer's octets


def with_profiles(octets, choose):
    """The A2 of each container as `choose` wants it, by the A2 there (empty for none), the last one before it, and
    the condition of the container before (None in the first)."""
    held, body, last, condition = fields(octets, 0xAF)[0], b"", b"", None
    for c in held.kids:
        head = c.kids[0]
        own = octets[head.start : head.end] if octets[head.start] == 0xA2 else b""
        new = choose(own, last, condition)
        body += octets[c.start : c.end] if new == own else tlv(0x30, new + octets[c.body + len(own) : c.end])
        last, condition = own or last, next(octets[k.body] for k in c.kids if octets[k.start] == 0x85)
    return octets if body == octets[held.body : held.end] else mended(octets, held, held.body, held.end, body)


def every_profile(octets):
    return with_profiles(octets, lambda own, last, condition: own or last)


def first_profile_only(octets):
    return with_profiles(octets, lambda own, last, condition: own if condition is None else b"")


# Edits of blocks


def each_container(block, edit):
    head, rest = block[: HEAD.size], block[HEAD.size :]
    return head + b"".join(
        edit(rest[i : i + PLACE.size]) for i in range(0, len(rest), PLACE.size))


def swapped_volumes(block):
    return each_container(block, lambda c: c[:5] + c[13:21] + c[5:13] + c[21:])


def swapped_qos(block):
    return each_container(block, lambda c: bytes([c[0], c[2], c[1]]) + c[3:])


def swapped_addresses(block):
    return block[:9] + block[17:21] + block[13:17] + block[9:13] + block[21:]


def number_of(block):
    return int.from_bytes(block[99:107], "big")


def no_first_number(block):
    """Number 1 with a release taken for none: octets where 24 is due."""
    if number_of(block) == 1 and block[98] in (0, 4, 18):
        return block[:99] + bytes(8) + block[107:]
    return block


def no_unused(block):
    """Octets after the node ID not looked at."""
    size = min(20, block[107])
    return block[: 108 + size] + bytes(20 - size) + block[128:]


def small_apn(block):
    """Capitals in the APN lowered."""
    return block[:22] + block[22:85].lower() + block[85:]


def full_refused(block, line):
    return "24" if block[128] == 15 else line


# Edits before and after the reader


def right_duration(octets):
    """The duration that the times give, whatever stands there."""
    text = lambda f: "x:" + octets[f.body : f.end].hex().upper()
    opening = values.moment(text(fields(octets, 0x90)[0]))[0]
    last = values.moment(text(fields(octets, 0xAF, 0x30, 0x86)[-1]))[0]
    value = last - opening
    return edited(octets, lambda tag, body: tlv(tag, value.to_bytes(value.bit_length() // 8 + 1, "big")), 0x91) \
        if value >= 0 else octets


def small_z(body):
    return body.replace(b"Z", b"z")


def any_true(body):
    return b"\xff" if len(body) == 1 and body != b"\x00" else body


def as_spelled(octets, line):
    """The APN as it stands in the octets."""
    if line == "20":
        return line
    f, block = fields(octets, 0x8C)[0], bytes.fromhex(line)
    apn = octets[f.body : f.end]
    return (block[:22] + apn + block[22 + len(apn) :]).hex().upper()


def fifteen(octets):
    """The sixteenth container let go: one that ended by tariff and has no QoS, which no other rule misses."""
    held = fields(octets, 0xAF)[0]
    if len(held.kids) != 16:
        return octets
    spare = next(c for c in held.kids if octets[c.body] != 0xA2 and octets[c.start : c.end].find(b"\x85\x01\x01") > 0)
    return mended(octets, held, spare.start, spare.end, b"")


def no_spare_profile(octets):
    return with_profiles(octets, lambda own, last, condition: own if condition in (None, 0) else b"")


OTHERS = [tlv(0xA2, b"".join(tlv(0x80 + i, bytes([x])) for i in range(5))) for x in (0, 1)]


def any_profile(octets):
    """Some profile where one is missing."""
    other = lambda last: OTHERS[last == OTHERS[0]]
    return with_profiles(octets, lambda own, last, condition: own or (other(last) if condition in (None, 0) else b""))


def any_cause(octets):
    """A record closed by a limit may go without its number."""
    if fields(octets, 0x95) or octets[fields(octets, 0x93)[0].body] not in (16, 17, 19, 20):
        return octets
    return edited(octets, lambda tag, body: tlv(tag, body) + b"\x95\x01\x01", 0x93)


def without_its_number(octets, line):
    """.. and is shown without it."""
    changed = if_sound(any_cause)(octets) != octets
    return line[:198] + "0" * 16 + line[214:] if changed and line != "20" else line


def first_profile_throughout(octets, line):
    """A QoS that is not written filled in from the first container."""
    if line == "20":
        return line
    block = bytes.fromhex(line)
    places = [block[i : i + PLACE.size] for i in range(HEAD.size, SIZE, PLACE.size)]
    for i in range(1, block[HEAD.size - 1]):
        if places[i - 1][21] == 1:
            places[i] = places[0][:5] + places[i][5:]
    return (block[: HEAD.size] + b"".join(places)).hex().upper()


def other_digit(octets, line):
    """The sixth digit of the IMSI one higher, or 0 after 9."""
    return line if line == "20" else line[:6] + str((int(line[6]) + 1) % 10) + line[7:]


def other_number(octets, line):
    """Numbers in 32 bits."""
    return line if line == "20" else line[:198] + "0" * 8 + line[206:]


def no_full_list(octets, line):
    return "20" if line[256:258] == "0F" else line


FAULTS = [
    Fault("charging ID in four octets with its top bit set", OCTETS, written=in_line(short_number(0x8A))),
    Fault("an address under A5 without its inner 80", OCTETS, written=in_line(bare(0xA5))),
    Fault("the served address without the A0 around it", OCTETS, written=in_line(bare(0xAE))),
    Fault("uplink and downlink swapped by the writer", OCTETS | {BACK}, block=swapped_volumes),
    Fault("uplink and downlink swapped by writer and reader alike", OCTETS | {DAMAGED}, block=swapped_volumes,
          read=in_read(swapped_volumes)),
    Fault("delay and precedence swapped", OCTETS | {BACK}, block=swapped_qos),
    Fault("SGSN and GGSN address swapped", OCTETS | {BACK}, block=swapped_addresses),
    Fault("the QoS in the first container only", OCTETS | {BACK}, written=in_line(first_profile_only)),
    Fault("the QoS in every container", OCTETS | {BACK}, written=in_line(every_profile)),
    Fault("number 1 on a sole record", OCTETS, written=in_line(put_after(0x93, b"\x95\x01\x01"))),
    Fault("duration one too high", OCTETS, written=in_line(longer(0x91))),
    Fault("length 128 in one octet", OCTETS, written=in_line(length_128)),
    Fault("lengths from 128 on in three octets", {WRITES, AGAIN}, written=in_line(length_255)),
    Fault("TRUE as 01", {WRITES, AGAIN}, written=in_line(in_fields(lambda body: b"\x01", *TRUE))),
    Fault("an empty node ID written", OCTETS, written=in_line(put_last(b"\x96\x00"))),
    Fault("offsets below zero with the sign 2B", OCTETS, written=in_line(in_fields(plus_sign, *STAMPS))),
    Fault("29 February written as 1 March", OCTETS, written=in_line(in_fields(no_leap_day, *STAMPS))),
    Fault("the first letter of the APN as a capital", OCTETS | {BACK}, written=in_line(in_fields(bytes.capitalize, APN))),
    Fault("the number before the cause", {WRITES, AGAIN}, written=in_line(turned(0x93, 0x95))),
    Fault("octets where 24 is due: number 1 with a release", {REFUSES}, block=no_first_number),
    Fault("octets where 24 is due: octets after the node ID", {REFUSES}, block=no_unused),
    Fault("octets where 24 is due: capitals in the APN", {REFUSES}, block=small_apn),
    Fault("24 for fifteen containers", OCTETS, written=full_refused),
    Fault("an answer of the writer left out", {WRITES, DECODES, ITSELF}, lines=missing_answer("write")),
    Fault("the reader takes a padded integer", {DAMAGED}, octets=if_sound(in_fields(unpadded, *NUMBERS))),
    Fault("the reader takes octets after the record", {DAMAGED}, octets=if_sound(cut_off)),
    Fault("the reader takes any duration", {DAMAGED}, octets=if_sound(right_duration)),
    Fault("the reader takes TRUE as 01", {DAMAGED}, octets=if_sound(in_fields(any_true, *TRUE))),
    Fault("the reader takes a sixteenth container", {DAMAGED}, octets=if_sound(fifteen)),
    Fault("the reader takes a QoS too many", {DAMAGED}, octets=if_sound(no_spare_profile)),
    Fault("the reader takes containers without a QoS", {DAMAGED}, octets=if_sound(any_profile)),
    Fault("the reader takes long-form lengths", {DAMAGED}, octets=if_sound(short_lengths)),
    Fault("the reader takes lengths from 256 on in 83 and three octets", {DAMAGED}, octets=if_sound(no_83)),
    Fault("the reader takes the offset 2D 00 00", {DAMAGED}, octets=if_sound(in_fields(plus_zero, *STAMPS))),
    Fault("the reader takes capitals in the APN", {DAMAGED}, octets=if_sound(in_fields(bytes.lower, APN)), read=as_spelled),
    Fault("the reader takes Z in the APN", {DAMAGED}, octets=if_sound(in_fields(small_z, APN)), read=as_spelled),
    Fault("the reader lowers capitals in the APN", {DAMAGED}, octets=if_sound(in_fields(bytes.lower, APN))),
    Fault("the reader takes a limit's record without its number", {DAMAGED}, octets=if_sound(any_cause), read=without_its_number),
    Fault("the reader fills the QoS in from the first container", {BACK}, read=first_profile_throughout),
    Fault("the reader answers another IMSI digit", {BACK, DAMAGED}, read=other_digit),
    Fault("the reader answers numbers in 32 bits", {BACK}, read=other_number),
    Fault("the reader refuses fifteen containers", {BACK}, read=no_full_list),
]

# Faults in the module, to see that document 01's printed octets hold it.
MODULE_FAULTS = [
    ("the module with explicit tags", ("IMPLICIT TAGS", "EXPLICIT TAGS")),
    ("the module with delay and precedence swapped",
     ("delay                       [1] QoSDelay,\n    precedence                  [2] QoSPrecedence",
      "delay                       [2] QoSDelay,\n    precedence                  [1] QoSPrecedence")),
]


# Our program with a fault

# Each fault with the kind of record it is about.
ALL = [(kinds.S_CDR, fault) for fault in FAULTS] + [(kinds.M_CDR, fault) for fault in mm_faults.FAULTS]
ALL_MODULES = [(kinds.S_CDR, *fault) for fault in MODULE_FAULTS] + [
    (kinds.M_CDR, *fault) for fault in mm_faults.MODULE_FAULTS]


def split(data, size):
    """Blocks of this size; or records, each after its length, where there is no size."""
    if size:
        return [data[i : i + size] for i in range(0, len(data), size)]
    parts, at = [], 0
    while at < len(data):
        size = int.from_bytes(data[at : at + 2], "big")
        parts.append(data[at + 2 : at + 2 + size])
        at += 2 + size
    return parts


def stand_between(kind, fault, command, how):
    writes = how == kind.write
    given = split(sys.stdin.buffer.read(), kind.size if writes else None)
    change, answer = (fault.block, fault.written) if writes else (fault.octets, fault.read)
    seen = [change(x) for x in given] if change else given
    data = b"".join(seen) if writes else framed(seen)
    run = subprocess.run(command + [how], input=data, stdout=subprocess.PIPE, check=True)
    lines = run.stdout.decode().split("\n")[:-1]
    if answer:
        lines = [answer(x, line) for x, line in zip(given, lines)]
    if fault.lines:
        lines = fault.lines(how, lines)
    sys.stdout.write("".join(line + "\n" for line in lines))


# All of them


def compared(kind, folder, command):
    """How the comparison on the smaller set ended: its code, counts, the sorts that failed, and text."""
    run = subprocess.run(
        [sys.executable, os.path.join(HERE, "compare.py"), "--small", "--kind", kind.name, folder] + command,
        stdout=subprocess.PIPE, stderr=subprocess.STDOUT, text=True)
    last = re.fullmatch(r"(\d+) passed, (\d+) failed", run.stdout.rstrip("\n").rpartition("\n")[2])
    said = lambda sort: re.search(r"FAILED \d+ times: " + re.escape(label(kind, sort)) + "$", run.stdout, re.M)
    found = {sort for sort in SORTS + (ITSELF,) if said(sort)}
    return run.returncode, last and tuple(int(x) for x in last.groups()), found, run.stdout


def faulty_module(place, old, new):
    with open(os.path.join(HERE, "CDR.asn1")) as file:
        text = file.read()
    if old not in text:
        sys.exit(f"not in the module: {old}")
    module = os.path.join(place, "CDR.asn1")
    with open(module, "w") as file:
        file.write(text.replace(old, new))
    subprocess.run(["erlc", "-b", "ber", "+undec_rest", "+maps", "-o", place, module], check=True)
    subprocess.run(["erlc", "-o", place, os.path.join(HERE, "coder.erl")], check=True)


def without_fault(kind, folder, command):
    code, counts, _, text = compared(kind, folder, command)
    if code or not counts or counts[1]:
        print(text)
        sys.exit(f"without a fault the comparison of {kind.name}s fails: faults show nothing")
    print(f"without a fault: {counts[0]} comparisons of {kind.name}s, none fails")


class Judge:
    def __init__(self):
        self.passed, self.failed, self.seen = 0, 0, set()

    def judge(self, kind, name, sorts, result):
        code, counts, found, text = result
        # A filter that breaks down shows nothing: the test itself fails then.
        if code == 1 and counts and counts[1] and sorts <= found and (ITSELF in found) == (ITSELF in sorts):
            self.passed += 1
            self.seen.update((kind.name, sort) for sort in found)
            print(f"stopped: {kind.name}: {name} ({counts[1]} of {sum(counts)} fail)")
        else:
            self.failed += 1
            print(f"NOT STOPPED: {kind.name}: {name}\n  ended with {code}, {counts}, failed: {sorted(found)}\n"
                  f"  wanted: {sorted(sorts)}")
            print("\n".join("  | " + line for line in text.splitlines()[-20:]))

    def all_seen(self):
        for kind in kinds.ALL:
            for sort in SORTS:
                if (kind.name, sort) not in self.seen:
                    self.failed += 1
                    print(f"NO FAULT made this fail: {label(kind, sort)}")


def main(folder, command):
    for kind in kinds.ALL:
        without_fault(kind, folder, command)
    every, judge = int(os.environ.get("EVERY", "1")), Judge()
    for number, (kind, fault) in enumerate(ALL):
        if number % every == 0:
            between = [sys.executable, os.path.abspath(__file__), "--as", str(number)] + command
            judge.judge(kind, fault.name, fault.sorts, compared(kind, folder, between))
    for kind, name, (old, new) in ALL_MODULES[::every]:
        with tempfile.TemporaryDirectory() as place:
            faulty_module(place, old, new)
            judge.judge(kind, name, {SAMPLE}, compared(kind, place, command))
    if every == 1:
        judge.all_seen()
    print(f"{judge.passed} passed, {judge.failed} failed")
    return 1 if judge.failed else 0


if __name__ == "__main__":
    if sys.argv[1] == "--as":
        stand_between(*ALL[int(sys.argv[2])], sys.argv[3:-1], sys.argv[-1])
    else:
        sys.exit(main(sys.argv[1], sys.argv[2:]))
