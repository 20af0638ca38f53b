# SPDX-License-Identifier: Apache-2.0 OR GPL-2.0-or-later
"""The worlds of which a log can be made, and what the registers of control say of them."""
from __future__ import annotations

from dataclasses import dataclass
from enum import Enum, IntEnum

BASE = 0xfffffffff000  # the address of a table, in a descriptor and in a root register
VM, TGE, E2H = 1, 1 << 27, 1 << 34  # of HCR_EL2


class Kind(IntEnum):
    """The register through which a tree was found, as enum kind of bbm_trace.c has it."""

    TTBR0_EL1 = 1
    TTBR1_EL1 = 2
    TTBR0_EL2 = 3
    TTBR1_EL2 = 4
    VTTBR_EL2 = 5


class Stage2(Enum):
    """What HCR_EL2 says of walks of stage 2: VM, or that E2H and TGE are both 1, where VM counts as 0, whatever it
    is."""

    OFF = "off"
    ON = "on"
    HOST = "host"


@dataclass(frozen=True)
class Told:
    """How a root register is told: by which word, and the kind of its trees."""

    word: str
    kind: Kind


@dataclass(frozen=True)
class World:
    """What belongs to a world: the form of its header, the words of its roots by their kind, its root registers, the EL
    that maintains them, and what is first loaded in it."""

    name: str
    form: str
    kinds: dict[Kind, str]
    registers: dict[str, Told]
    el: int
    first: str

    @property
    def is_hyp(self) -> bool:
        """Whether its logs are of the world Hyp of the checker."""
        return self.form == "hyp"

    @property
    def has_el2(self) -> bool:
        """Whether a log has EL2's own root beside stage 2."""
        return self.is_hyp and Kind.TTBR0_EL2 in self.kinds

    @property
    def control(self) -> str:
        """The register with the sizes of its address spaces."""
        return f"tcr_el{self.el}"

    @property
    def attributes(self) -> str:
        """The register with its memory attributes."""
        return f"mair_el{self.el}"

    @property
    def upper(self) -> str | None:
        """The register of its upper range."""
        return next((name for name, told in self.registers.items() if told.word == "ttbr1_el1"), None)


# In the order in which a snapshot has them: where TTBR1_EL1 names the ASID, a lower root that is loaded before it would
# also be held under ASID 0. The two of EL2 don't depend on each other.
KERNEL_REGISTERS = {"ttbr1_el1": Told("ttbr1_el1", Kind.TTBR1_EL1), "ttbr0_el1": Told("ttbr0_el1", Kind.TTBR0_EL1)}
HOST_REGISTERS = {"ttbr1_el2": Told("ttbr1_el1", Kind.TTBR1_EL2), "ttbr0_el2": Told("ttbr0_el1", Kind.TTBR0_EL2)}
STAGE2_REGISTERS = {"vttbr_el2": Told("vttbr_el2", Kind.VTTBR_EL2)}
HYP_REGISTERS = {"ttbr0_el2": Told("ttbr0_el2", Kind.TTBR0_EL2), **STAGE2_REGISTERS}
WORLDS = {world.name: world for world in (
    World("kernel", "kernel", {Kind.TTBR0_EL1: "ttbr0", Kind.TTBR1_EL1: "ttbr1"}, KERNEL_REGISTERS, 1, "process"),
    World("vhe", "kernel", {Kind.TTBR0_EL2: "ttbr0", Kind.TTBR1_EL2: "ttbr1"}, HOST_REGISTERS, 2, "process"),
    World("hyp", "hyp", {Kind.TTBR0_EL2: "el2", Kind.VTTBR_EL2: "s2"}, HYP_REGISTERS, 2, "guest"),
    World("stage2", "hyp", {Kind.VTTBR_EL2: "s2"}, STAGE2_REGISTERS, 2, "guest"),
)}


def is_host(hcr: int) -> bool:
    """Whether EL2 and EL0 are one regime of a host, EL2&0, by HCR_EL2: then TLBIs of stage 1 are of that, and not of
    EL1&0."""
    return hcr & (E2H | TGE) == E2H | TGE


def stage2_by(hcr: int) -> Stage2:
    if is_host(hcr):
        return Stage2.HOST
    return Stage2.ON if hcr & VM else Stage2.OFF
