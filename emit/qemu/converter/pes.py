# SPDX-License-Identifier: Apache-2.0 OR GPL-2.0-or-later
"""What the PEs have in their registers, as they wrote them last."""
from __future__ import annotations

from collections import defaultdict
from dataclasses import dataclass, field

from converter.worlds import BASE, Stage2


@dataclass
class Pes:
    # By the PE, the values of root registers by name, and by both the line of the trace that wrote them.
    registers: defaultdict[str, dict[str, int]] = field(default_factory=lambda: defaultdict(dict))
    written_at: dict[tuple[str, str], int] = field(default_factory=dict)
    controls: dict[str, int] = field(default_factory=dict)
    mmu_on: dict[str, bool] = field(default_factory=dict)
    # What a PE's HCR_EL2 says of stage 2, once it was written, and whether a PE ever was in a host with VHE.
    stage2: dict[str, Stage2] = field(default_factory=dict)
    was_host: bool = False

    def base(self, pe: str, name: str | None) -> int:
        """The page that a root register names, or 0."""
        return self.registers[pe].get(name or "", 0) & BASE

    def loaded_at(self, root: int) -> list[str]:
        """The PEs whose VTTBR_EL2 names a root."""
        return [pe for pe, values in self.registers.items() if values.get("vttbr_el2", 0) & BASE == root]

    def is_named(self, root: int) -> bool:
        """Whether a PE that isn't in a host with VHE, which lets VTTBR_EL2 stand as it is, has a root loaded."""
        return any(not self.is_host(pe) for pe in self.loaded_at(root))

    def turn_stage2(self, pe: str, now: Stage2) -> Stage2:
        """Takes what a PE's HCR_EL2 says of stage 2 from now on. Answers what it said before: off, at the reset."""
        was, self.stage2[pe] = self.stage2.get(pe, Stage2.OFF), now
        self.was_host = self.was_host or now is Stage2.HOST
        return was

    def walks_stage2(self, pe: str) -> bool:
        return self.stage2.get(pe) is Stage2.ON

    def is_host(self, pe: str) -> bool:
        """Whether a PE is in a host with VHE."""
        return self.stage2.get(pe) is Stage2.HOST

    def may_be_host(self, pe: str) -> bool:
        """Whether a PE is in a host with VHE, or isn't known not to be."""
        return pe not in self.stage2 or self.is_host(pe)
