# SPDX-License-Identifier: Apache-2.0 OR GPL-2.0-or-later
"""How a descriptor is told."""
from __future__ import annotations

from dataclasses import dataclass, field

from converter.records import Record
from converter.telling import Telling
from converter.worlds import Kind

CONTIGUOUS, NON_SECURE, INDEX = 1 << 52, 1 << 5, 7 << 2


def without_contiguous(value: int) -> int:
    """A leaf of stage 1 with its Contiguous bit in the place of NS, which counts for break-before-make as well."""
    return value & ~(CONTIGUOUS | NON_SECURE) | (NON_SECURE if value & CONTIGUOUS else 0)


def is_table(level: int, value: int) -> bool:
    return level < 3 and value & 3 == 3


def is_leaf(level: int, value: int) -> bool:
    return bool(value & 1) and (level == 3 or not value & 2)


@dataclass
class Descriptors:
    """A descriptor by its meaning: AttrIndx is the least index that has the same attributes in the MAIR of each PE, and
    the Contiguous bit is told on condition."""

    telling: Telling
    attributes: dict[str, bytes] = field(default_factory=dict)
    least: list[int] = field(default_factory=lambda: list(range(8)))
    contiguous_at_stage2: int = 0

    def set_attributes(self, pe: str, value: int) -> None:
        self.attributes[pe] = value.to_bytes(8, "little")
        each = list(zip(*self.attributes.values()))
        self.least = [each.index(one) for one in each]

    def by_attributes(self, value: int) -> int:
        index = (value & INDEX) >> 2
        self.telling.told["AttrIndx"] += self.telling.started and self.least[index] != index
        return value & ~INDEX | self.least[index] << 2

    def tell(self, line: str, value: int, level: int, kind: Kind, record: Record | None = None, mark: str = "") -> None:
        """A write of a descriptor in a table of this level and kind."""
        leaf, is_stage1 = is_leaf(level, value), kind != Kind.VTTBR_EL2
        if leaf and is_stage1:
            value = self.by_attributes(value)
        other = value if not leaf else without_contiguous(value) if is_stage1 else value & ~CONTIGUOUS
        if other == value:
            self.telling.emit(f"{line} 0x{value:x}{mark}", record)
            return
        self.contiguous_at_stage2 += self.telling.started and not is_stage1
        self.telling.emit(f"{line} 0x{value:x}{mark}", record, {"contiguous": False})
        self.telling.emit(f"{line} 0x{other:x}{mark}", record, self.telling.normalised("contiguous"))
