"""Compares our program with Erlang's ASN.1 compiler; see README.md.

usage: compare.py [--small] [--seed N] [--kind S-CDR|M-CDR] FOLDER COMMAND...

FOLDER holds the compiled CDR.asn1 and coder.erl. COMMAND is our program: it
gets one more argument, `write` or `read`, and for M-CDRs `write-mm` or `read-mm`.
"""

import argparse
import collections
import json
import os
import random
import resource
import subprocess
import sys
import tempfile

import damage
import kinds

SAMPLE = "Erlang encodes the sample to the octets that are written down"
WRITES = "our octets are those that Erlang encodes"
DECODES = "Erlang decodes our octets to the same values, with nothing left over"
AGAIN = "Erlang encodes these values to our octets again"
BACK = "our octets give the block back"
REFUSES = "24 where a rule is broken"
DAMAGED = "a damaged record is taken exactly where it is a record within the rules"
ITSELF = "the test itself is as it should be"
WRITER, READER = (WRITES, DECODES, AGAIN, REFUSES), (BACK, DAMAGED)
SORTS = (SAMPLE, WRITES, DECODES, AGAIN, BACK, REFUSES, DAMAGED)
SHOWN = 3


def label(kind, sort):
    """The sort of comparison with the kind of record, or with what our program was asked."""
    who = kind.write if sort in WRITER else kind.read if sort in READER else kind.name
    return f"{who}: {sort}"


class Tally:
    """Counts comparisons with one kind of record and keeps the first differences of each sort."""

    def __init__(self, kind):
        self.kind = kind
        self.passed, self.failed = collections.Counter(), collections.Counter()
        self.shown = collections.defaultdict(list)

    def compare(self, sort, fits, *story):
        if fits:
            self.passed[sort] += 1
            return
        self.failed[sort] += 1
        if len(self.shown[sort]) < SHOWN:
            self.shown[sort].append([part() if callable(part) else part for part in story])

    def counted(self):
        for sort in SORTS:
            print(f"  {self.passed[sort]:7} passed {self.failed[sort]:6} failed  {label(self.kind, sort)}")

    def failures(self):
        for sort, stories in self.shown.items():
            print(f"\nFAILED {self.failed[sort]} times: {label(self.kind, sort)}")
            for story in stories:
                print("  -", "\n    ".join(str(part) for part in story))


def end(tallies):
    for tally in tallies:
        tally.failures()
    passed, failed = (sum(sum(counts.values()) for counts in all_counts) for all_counts in (
        [t.passed for t in tallies], [t.failed for t in tallies]))
    if failed:
        print()
    print(f"{passed} passed, {failed} failed")
    return 1 if failed else 0


# The two programs


def erlang(folder, how, lines):
    with tempfile.TemporaryDirectory() as place:
        given, answers = os.path.join(place, "given"), os.path.join(place, "answers")
        with open(given, "w") as file:
            file.writelines(line + "\n" for line in lines)
        subprocess.run(
            ["erl", "+S", "1:1", "-noshell", "-pa", folder, "-run", "coder", "main", how, given, answers],
            check=True, env={**os.environ, "ERL_CRASH_DUMP_SECONDS": "0"}, stdin=subprocess.DEVNULL)
        with open(answers) as file:
            found = file.read().split("\n")[:-1]
    if len(found) != len(lines):
        sys.exit(f"Erlang answered {len(found)} lines for {len(lines)}")
    return found


def ours(tally, command, how, data, count):
    """Our program's lines, as many as were asked for; None where there is not one."""
    with tempfile.TemporaryFile() as given:
        given.write(data)
        given.seek(0)
        try:
            run = subprocess.run(command + [how], stdin=given, stdout=subprocess.PIPE, timeout=900)
        except (OSError, subprocess.TimeoutExpired) as wrong:
            sys.exit(f"our program does not run: {wrong}")
    lines = run.stdout.decode("ascii", "replace").split("\n")
    last = lines.pop()
    if not lines:
        tally.compare(ITSELF, False, f"our program has no answer to `{how}`: it ended with {run.returncode} and wrote "
                      f"{last[:40]!r} for {count} inputs; no {tally.kind.name} is compared")
        return None
    if run.returncode or last or len(lines) != count:
        tally.compare(
            ITSELF, False, f"our program, `{how}`, ended with {run.returncode} and wrote {len(lines)} whole "
            f"lines for {count}" + (f", then {last[:40]!r}" if last else ""))
    return (lines + ["nothing"] * count)[:count]


class Decoded:
    """A line of `coder.erl decode`."""

    def __init__(self, line):
        word, rest = line.split(" ", 1)
        self.taken = word == "taken"
        if self.taken:
            self.left, self.again, self.values = rest.split(" ", 2)
        else:
            self.why = rest


# Showing a difference


def leaves(text):
    """The values that hold no others, as "tags around it and its own: octets"."""
    octets, shown = bytes.fromhex(text), []
    for f in damage.Field(octets, 0, None).all():
        if not f.kids:
            tags, g = [], f
            while g:
                tags.insert(0, f"{octets[g.start]:02X}")
                g = g.parent
            shown.append(f"{' '.join(tags)}: {octets[f.start + 1 : f.end].hex().upper()}")
    return shown


def differ(wanted, found):
    """Where two rows of hex differ first."""
    if wanted == found:
        return "no difference"
    try:
        for a, b in zip(leaves(wanted), leaves(found)):
            if a != b:
                return f"first different field: wanted {a}, found {b}"
    except (IndexError, ValueError, RecursionError):
        pass
    place = next((i for i, (a, b) in enumerate(zip(wanted, found)) if a != b), min(len(wanted), len(found))) // 2
    start = max(0, place - 8)
    return (f"first different octet {place}: wanted ..{wanted[2 * start : 2 * place + 24]}.., "
            f"found ..{found[2 * start : 2 * place + 24]}..")


def differ_values(wanted, found):
    if wanted[0] != found[0]:
        return f"wanted {wanted[0]}, found {found[0]}"
    a, b = wanted[1], found[1]
    names = [n for n in sorted(a.keys() | b.keys()) if a.get(n) != b.get(n)]
    return "; ".join(f"{n}: wanted {a.get(n, 'nothing')}, found {b.get(n, 'nothing')}" for n in names)[:600]


def short(text, most=700):
    return text if len(text) <= most else text[:most] + ".."


def named(kind, block):
    """The fields of a block in hex, with their names."""
    at = 0
    for name, size in kind.fields:
        yield name, block[at : at + 2 * size]
        at += 2 * size


def show_block(kind, block):
    return short("; ".join(f"{name} {text}" for name, text in named(kind, block.hex().upper()) if text.strip("0")))


def differ_blocks(kind, wanted, found):
    if len(found) != 2 * kind.size:
        return f"found {short(found, 80)}"
    return "; ".join(f"{name}: wanted {a}, found {b}" for (name, a), (_, b) in zip(
        named(kind, wanted), named(kind, found)) if a != b)[:600]


# The comparisons


def compare_good(tally, records, blocks, encoded, written, decoded, back):
    kind = tally.kind
    for r, block, wanted, found, line, again in zip(records, blocks, encoded, written, decoded, back):
        story = lambda: "record " + short(json.dumps(kind.values.of_record(r)[1], sort_keys=True))
        tally.compare(WRITES, found == wanted, lambda: differ(wanted, found), story)
        if line is None:
            tally.compare(DECODES, False, f"no octets: our program wrote {short(found, 80)}", story)
            tally.compare(AGAIN, False, f"no octets: our program wrote {short(found, 80)}", story)
        else:
            d = Decoded(line)
            if not d.taken:
                tally.compare(DECODES, False, f"Erlang refuses our octets: {d.why}", f"octets {short(found)}", story)
            else:
                made, got = kind.values.of_record(r), json.loads(d.values)
                tally.compare(DECODES, got == made and d.left == "-",
                              lambda: f"left over {d.left}; {differ_values(made, got)}", story)
            tally.compare(AGAIN, d.taken and d.again == found,
                          lambda: differ(found, d.again) if d.taken else f"Erlang refuses our octets: {d.why}", story)
        wanted_block = block.hex().upper()
        tally.compare(BACK, again == wanted_block, lambda: differ_blocks(kind, wanted_block, again), story)


def verdict(kind, octets, line):
    """Why the octets are no record within the rules, or the block they are."""
    d = Decoded(line)
    if not d.taken:
        return ["Erlang refuses it"], None
    if d.left != "-":
        return ["Erlang leaves octets over"], None
    if d.again == "!":
        return ["Erlang decodes it and cannot encode it"], None
    if d.again != octets:
        return ["Erlang encodes its values to other octets"], None
    names, record = kind.broken_values(json.loads(d.values))
    return names, None if names else kind.pack(record).hex().upper()


def compare_damaged(tally, inputs, decoded, answers):
    """Tables of how the inputs were damaged and why they are no records."""
    kind = tally.kind
    ways, taken, why = collections.Counter(), collections.Counter(), collections.Counter()
    for (name, expected, octets), line, answer in zip(inputs, decoded, answers):
        text = octets.hex().upper()
        reasons, block = verdict(kind, text, line)
        ways[name] += 1
        why.update(reasons)
        if block:
            taken[name] += 1
        if expected and reasons != [expected]:
            tally.compare(ITSELF, False, f"values made to break: {expected}", f"were judged: {reasons}", short(text))
        if block:
            says = "reader refuses a record within the rules" if answer == "20" else "reader answers other values"
            tally.compare(DAMAGED, answer == block, f"{says} ({name})",
                          lambda: differ_blocks(kind, block, answer), f"octets {short(text)}")
        else:
            says = "reader takes what is no record within the rules" if len(answer) == 2 * kind.size else \
                "reader answers neither 20 nor a block"
            tally.compare(DAMAGED, answer == "20", f"{says} ({name}): {'; '.join(reasons)}",
                          lambda: f"Erlang: {short(line, 300)}", f"answer {short(answer, 80)}",
                          f"octets {short(text)}")
    return ways, taken, why


def list_length(kind, octets):
    held = damage.child(octets, damage.Field(octets, 0, None), kind.list_tag)
    return held.end - held.body if held else 0


def check_boundaries(tally, records, encoded):
    kind, met, longest = tally.kind, collections.Counter(), 0
    for r, text in zip(records, encoded):
        octets = bytes.fromhex(text)
        whole = damage.Field(octets, 0, None)
        longest = max(longest, len(octets))
        met.update(kind.good.wanted(r, whole.end - whole.body, list_length(kind, octets)))
    names = kind.good.all_wanted()
    for name in names:
        if not met[name]:
            tally.compare(ITSELF, False, f"no record meets the boundary: {name}")
    if longest > 1024:
        tally.compare(ITSELF, False, f"a record passes 1,024 octets: {longest}")
    print(f"{len(records)} {kind.name}s within the rules" + (
        f"; all {len(names)} boundaries asked for among them" if all(met[n] for n in names) else ""))
    print(f"longest record {longest} octets, shortest {min(len(t) for t in encoded) // 2}")


def check_rules(tally, record, hit):
    for name in tally.kind.names(record):
        if name not in hit and name not in tally.kind.spared:
            tally.compare(ITSELF, False, f"no input breaks the rule: {name}")


def bases(rng, kind, records, encoded, whole):
    """Short and middling records of every shape to damage."""
    def pick(fits, most):
        found = [t for r, t in zip(records, encoded) if len(t) // 2 <= most and fits(r)]
        return bytes.fromhex(rng.choice(found)) if found else None
    shapes = kind.good.TO_DAMAGE
    made = [pick(*shape) for shape in (shapes if whole else shapes[:1])]
    return [x for x in made if x]


def full_lists(rng, kind, records, encoded, count):
    """Records with all fifteen places taken, to which a sixteenth is added."""
    found = [t for r, t in zip(records, encoded) if kind.good.full(r)]
    return [bytes.fromhex(t) for t in rng.sample(found, min(count, len(found)))]


def framed(inputs):
    return b"".join(len(octets).to_bytes(2, "big") + octets for octets in inputs)


def octets_of(line):
    """The octets of a line of hex, else None."""
    try:
        data = bytes.fromhex(line)
    except ValueError:
        return None
    return data if len(data) > 1 and len(data) < 65536 and line == data.hex().upper() else None


def table(title, counter):
    print(f"\n{title}")
    for name, count in sorted(counter.items(), key=lambda x: (-x[1], x[0])):
        print(f"  {count:7} {name}")


class Made:
    """What is made for one kind of record, and what Erlang encodes of it."""

    def __init__(self, tally, folder, seed, whole):
        kind, rng = tally.kind, random.Random(seed)
        self.rng, self.whole = rng, whole
        self.records = kind.good.records(rng, kind.records) if whole else kind.good.at_boundaries(rng)
        for r in self.records:
            if kind.rules.broken(r):
                tally.compare(ITSELF, False, f"made to keep the rules, breaks {kind.rules.broken(r)}")
        self.wrong_blocks = kind.outside.blocks(rng, 100 if whole else 3)
        self.wrong_values = kind.outside.wrong_values(rng, 60 if whole else 3)
        self.blocks = [kind.pack(r) for r in self.records]
        others = kinds.others(kind, random.Random(seed), 300 if whole else 30)
        lines = [json.dumps(v, separators=(",", ":")) for v in [kind.values.of_record(r) for r in self.records] + [
            v for _, v in self.wrong_values] + others]
        answers = erlang(folder, "encode", lines)
        count, more = len(self.records), len(self.records) + len(self.wrong_values)
        self.encoded, self.wrong_encoded, self.others = answers[:count], answers[count:more], answers[more:]

    def check(self, tally):
        """By a wrong module nothing can be judged."""
        sample = tally.kind.good.sample()[1].hex().upper()
        tally.compare(SAMPLE, self.encoded[0] == sample, lambda: differ(sample, self.encoded[0]))
        for line in self.encoded:
            if line.startswith("refused"):
                tally.compare(ITSELF, False, f"Erlang cannot encode a record within the rules: {line}")
        return not tally.failed

    def inputs(self, tally):
        """(damage, the rule that is broken if it is known, octets) for our reader, made from Erlang's octets."""
        kind, rng, made = tally.kind, self.rng, []
        for (rule, _), line in zip(self.wrong_values, self.wrong_encoded):
            octets = octets_of(line)
            if octets is None:
                tally.compare(ITSELF, False, f"Erlang does not encode values made to break: {rule}", line)
            else:
                made.append(("a value that breaks a rule", rule, octets))
        for line in self.encoded:
            made.extend(kind.shape.of_each(rng, bytes.fromhex(line)))
        some = bases(rng, kind, self.records, self.encoded, self.whole)
        full = full_lists(rng, kind, self.records, self.encoded, 20 if self.whole else 2)
        others = [octets_of(line) for line in self.others]
        return made + [(name, None, octets) for name, octets in damage.damaged(
            rng, kind.shape, kind.good.sample()[1], some, full, others, self.whole)]


def compare_kind(tally, given):
    """Compares all records of one kind, and prints what was compared."""
    kind, whole = tally.kind, not given.small
    made = Made(tally, given.folder, given.seed, whole)
    if not made.check(tally):
        return
    outside = [kind.pack(r) for _, r in made.wrong_blocks]
    count = len(made.blocks)
    lines = ours(tally, given.command, kind.write, b"".join(made.blocks + outside), count + len(outside))
    if lines is None:
        return
    written, refused = lines[:count], lines[count:]

    # What to read: our octets, and damaged ones.
    inputs = made.inputs(tally)
    own = [octets_of(line) for line in written]
    to_read = [o if o is not None else bytes.fromhex(t) for o, t in zip(own, made.encoded)]
    everything = to_read + [octets for _, _, octets in inputs]
    read = ours(tally, given.command, kind.read, framed(everything), len(everything))
    if read is None:
        return
    decoded = erlang(given.folder, "decode", [octets.hex() for octets in everything])

    seen = [line if o is not None else None for line, o in zip(decoded, own)]
    compare_good(tally, made.records, made.blocks, made.encoded, written, seen, read[:count])
    for (rule, r), line in zip(made.wrong_blocks, refused):
        tally.compare(REFUSES, line == "24", f"broken: {rule}", f"our program wrote {short(line)}",
                      lambda: f"block {show_block(kind, kind.pack(r))}")
    ways, taken, why = compare_damaged(tally, inputs, decoded[count:], read[count:])

    if whole:
        check_boundaries(tally, made.records, made.encoded)
        check_rules(tally, made.records[0], set(why) | {p for rule, _ in made.wrong_blocks for p in rule.split("; ")})
    table(f"Blocks outside the rules, by the rule they break ({kind.write} answers 24):",
          collections.Counter(rule for rule, _ in made.wrong_blocks))
    table("Damaged records, by damage:", ways)
    table(f"Damaged records that are records within the rules all the same ({kind.read} takes them):", taken)
    table(f"Damaged records that are none, and why (one may break several rules; {kind.read} answers 20):", why)
    print(f"\n{sum(ways.values())} damaged {kind.name}s, {len({octets for _, _, octets in inputs})} of them different, "
          f"{sum(taken.values())} taken\n")


def main():
    options = argparse.ArgumentParser()
    options.add_argument("--small", action="store_true")
    options.add_argument("--seed", type=int, default=1215)
    options.add_argument("--kind", choices=[k.name for k in kinds.ALL])
    options.add_argument("folder")
    options.add_argument("command", nargs=argparse.REMAINDER)
    given = options.parse_args()
    tallies = [Tally(kind) for kind in kinds.ALL if given.kind in (None, kind.name)]
    for tally in tallies:
        compare_kind(tally, given)
    print("Comparisons:")
    for tally in tallies:
        tally.counted()
    own_time, others = (resource.getrusage(x) for x in (resource.RUSAGE_SELF, resource.RUSAGE_CHILDREN))
    print(f"\n{own_time.ru_utime + own_time.ru_stime:.0f} s of CPU here, "
          f"{others.ru_utime + others.ru_stime:.0f} s in Erlang and our program")
    return end(tallies)


if __name__ == "__main__":
    sys.exit(main())
