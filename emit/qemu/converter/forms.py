# SPDX-License-Identifier: Apache-2.0 OR GPL-2.0-or-later
"""What the header of a log says of its roots."""
from __future__ import annotations

import re
from collections.abc import Sequence
from typing import NamedTuple

from converter import normalisations

ASID_IN_TTBR1 = 22  # TCR.A1
HEADER = re.compile(r"bbmlog \d+ (?:hyp \d+ ([012]) ([012]) (\d+)|kernel \d+ ([012]) ([012]) (ttbr[01]))( |$)")


class Start(NamedTuple):
    """Of which form a root is: the level at which it starts, less than 0 for 52 bits of address, and the number of its
    pages."""

    level: int
    pages: int

    def __str__(self) -> str:
        return f"at level {self.level} with {self.pages} page" + "s" * (self.pages != 1)


class Form(NamedTuple):
    """For each kind of root its start level, the number of pages of a root of stage 2, and the register that names the
    ASID (None in the world Hyp)."""

    levels: tuple[int, int]
    pages: int
    asid: str | None

    def of_kinds(self) -> dict[str, Start]:
        """How roots start, by the words of the kinds."""
        kinds = ("el2", "s2") if self.asid is None else ("ttbr0", "ttbr1")
        return {kind: Start(level, pages) for kind, level, pages in zip(kinds, self.levels, (1, self.pages))}

    def header(self, pes: int, words: Sequence[str]) -> str:
        world, last = ("hyp", self.pages) if self.asid is None else ("kernel", self.asid)
        return " ".join(map(str, ["bbmlog", normalisations.LATEST, world, pes, *self.levels, last, *words]))


def form_of(header: str) -> Form | None:
    """The form that a header has, or None."""
    found = HEADER.match(header)
    if not found:
        return None
    el2, s2, pages, lower, upper, asid, _ = found.groups()
    return Form((int(el2), int(s2)), int(pages), None) if pages else Form((int(lower), int(upper)), 1, asid)


def stage1_level(size: int) -> int:
    """The start level by TxSZ, for addresses of at most 48 bits."""
    return 4 - (64 - max(size, 16) - 12 + 8) // 9


def stage1_levels(control: int) -> tuple[int, int]:
    """The start levels of the lower and of the upper range, by TCR."""
    return stage1_level(control & 63), stage1_level(control >> 16 & 63)


def asid_register(control: int) -> str:
    return "ttbr1" if control >> ASID_IN_TTBR1 & 1 else "ttbr0"


def stage2_start(control: int) -> Start | None:
    """How a root of stage 2 starts, by VTCR_EL2, or None where it has a value that no log has."""
    bits, level = 64 - (control & 63), 2 - (control >> 6 & 3)
    pages = 1 << max(0, bits - (12 + 9 * (4 - level)))
    return Start(level, pages) if 0 <= level <= 2 and pages <= (16 if level else 1) else None
