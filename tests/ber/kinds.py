"""The two kinds of records, and where to find what the comparison asks of each."""

from dataclasses import dataclass
from types import ModuleType
from typing import Callable

import damage
import good
import mm_damage
import mm_good
import mm_outside
import mm_rules
import mm_values
import outside
import plain
import rules
import values


@dataclass(frozen=True)
class Kind:
    name: str
    choice: str  # its name in 001's CallEventRecord
    write: str  # what our program is asked
    read: str
    size: int  # of a block
    fields: list  # of a block, with their sizes
    pack: Callable
    values: ModuleType
    rules: ModuleType
    good: ModuleType
    outside: ModuleType
    shape: damage.Shape
    list_tag: int
    records: int  # how many are made, at least
    spared: tuple = ()  # rules that no input can break

    def own(self):
        return f"the record is an {self.name}"

    def broken_values(self, decoded):
        """The rules that values break; the record, where they break none."""
        return self.rules.broken_values(decoded[1]) if decoded[0] == self.choice else ([self.own()], None)

    def names(self, record):
        """Of all its rules."""
        of_values = self.rules.value_rules(self.values.of_record(record)[1])
        return [self.own()] + [name for name, _ in self.rules.rules(record) + of_values]


S_CDR = Kind(
    name="S-CDR", choice="sgsnPDPRecord", write="write", read="read", size=plain.SIZE, fields=plain.FIELDS,
    pack=plain.pack, values=values, rules=rules, good=good, outside=outside, shape=damage.SHAPE, list_tag=0xAF,
    records=12_000,
    spared=("charging ID fits four octets",))  # a block has four octets for it, and 001 gives its range
M_CDR = Kind(
    name="M-CDR", choice="sgsnMMRecord", write="write-mm", read="read-mm", size=plain.MM_SIZE, fields=plain.MM_FIELDS,
    pack=plain.pack_mm, values=mm_values, rules=mm_rules, good=mm_good, outside=mm_outside, shape=mm_damage.SHAPE,
    list_tag=0xA8, records=10_000)
ALL = (S_CDR, M_CDR)


def others(kind, rng, count):
    """Values of records of the other kinds."""
    return [k.values.of_record(k.good.record(rng)) for k in ALL if k is not kind for _ in range(count)]
