# SPDX-License-Identifier: Apache-2.0
"""The words of the log, and what each says by itself (docs/FORMAT.md): no rule, and no judgement.

Which TLBI or DSB would do is tried, and the program says whether it does. These tables say in which order.
"""
from __future__ import annotations

from dataclasses import dataclass

BROADCAST = "is"
LAST_LEVEL = {"vale2": "vae2", "ipas2le1": "ipas2e1", "vale1": "vae1", "vaale1": "vaae1",
              "rvale2": "rvae2", "ripas2le1": "ripas2e1", "rvale1": "rvae1", "rvaale1": "rvaae1"}
# For each operation those that take more, from less to more.
WIDER = {
    "vae2": ["alle2"], "rvae2": ["alle2"],
    "ipas2e1": ["vmalls12e1", "alle1"], "ripas2e1": ["vmalls12e1", "alle1"],
    "vmalle1": ["vmalls12e1", "alle1"], "vmalls12e1": ["alle1"],
    "vae1": ["vaae1", "aside1", "vmalle1"], "rvae1": ["rvaae1", "aside1", "vmalle1"],
    "vaae1": ["vmalle1"], "rvaae1": ["vmalle1"], "aside1": ["vmalle1"],
}
# At stage 2 what takes the combined entries, behind that which takes those of stage 2 by address.
SECOND_STEP = "vmalle1is"
WIDEST = {"el2": "alle2", "s2": "alle1", "ttbr0": "vmalle1", "ttbr1": "vmalle1"}
WITH_OPERAND = {"vae2", "ipas2e1", "vae1", "vaae1", "aside1", *LAST_LEVEL, *LAST_LEVEL.values()}
BY_ASID = {"vae1", "vale1", "aside1", "rvae1", "rvale1"}
KIND_OF_REGISTER = {"ttbr0_el2": "el2", "vttbr_el2": "s2", "ttbr0_el1": "ttbr0", "ttbr1_el1": "ttbr1"}
KINDS = {"hyp": ["el2", "s2"], "kernel": ["ttbr0", "ttbr1"]}

# The barrier that publishes and the one that completes, as they are put in; then what an option is changed to.
PUBLISHING, COMPLETING = "ishst", "ish"
OPTIONS = ["ishst", "ish"]

VA_BITS = (1 << 44) - 1
IPA_BITS = (1 << 36) - 1
RANGE_BITS = (1 << 37) - 1
PAGE_SHIFT = 12
HINT = 0xF << 44
GRANULE_4K = 1 << 46
RANGE_HINT = 3 << 37
ASID_SHIFT = 48
# The highest 16 bits of an upper address.
SIGN = 0xFFFF


def base_of(operation: str) -> str:
    """The operation without the suffix of its broadcast form."""
    return operation.removesuffix(BROADCAST)


def is_broadcast(operation: str) -> bool:
    return operation.endswith(BROADCAST)


def is_of_el2(operation: str) -> bool:
    """Whether the operation is of the EL2 regime, and not of EL1 and stage 2."""
    return base_of(operation).endswith("e2")


def is_of_tag(operation: str) -> bool:
    """Whether the operation takes all under a tag."""
    return base_of(operation) not in WITH_OPERAND or base_of(operation) == "aside1"


def is_range(operation: str) -> bool:
    return operation.startswith("r")


@dataclass(frozen=True)
class Operand:
    """The operand of a TLBI for a page or a range, by its fields."""

    operation: str
    value: int

    @property
    def asid(self) -> int:
        return self.value >> ASID_SHIFT

    @property
    def hint(self) -> int | None:
        """The level that the operand says, None where it has no hint."""
        level = self.value >> 37 & 3 if is_range(self.operation) else self.value >> 44 & 3
        granule = is_range(self.operation) or self.value >> 46 & 3 == 1
        return level if granule and level else None

    @property
    def bits(self) -> int:
        """Those of the address."""
        return RANGE_BITS if is_range(self.operation) else IPA_BITS if "ipas2" in self.operation else VA_BITS

    @property
    def address(self) -> int:
        return (self.value & self.bits) << PAGE_SHIFT

    @property
    def page(self) -> str:
        """The address as a text; an upper one has all its digits."""
        top = self.bits + 1 << PAGE_SHIFT - 1
        is_upper = self.address & top and "ipas2" not in self.operation and not is_of_el2(self.operation)
        return hex(self.address | (1 << 64) - top if is_upper else self.address)

    @property
    def granule(self) -> int:
        """The TG field of a range, bits 47:46."""
        return self.value >> 46 & 3

    @property
    def pages(self) -> int:
        """How many pages it names."""
        if not is_range(self.operation):
            return 1
        return ((self.value >> 39 & 31) + 1) << 5 * (self.value >> 44 & 3) + 1

    def at(self, address: int) -> int:
        """The operand with another address."""
        return self.value & ~self.bits | address >> PAGE_SHIFT & self.bits

    def without_hint(self) -> int:
        return self.value & ~(RANGE_HINT if is_range(self.operation) else HINT)

    def hinted(self, level: int) -> int:
        if is_range(self.operation):
            return self.value & ~RANGE_HINT | level << 37
        return self.value & ~HINT | GRANULE_4K | level << 44

    def aligned(self) -> int:
        """The operand of a range with the address at which an entry of its hint's level begins."""
        return self.at(self.address & -(1 << 39 - 9 * self.hint)) if is_range(self.operation) and self.hint else self.value

    def of_asid(self, asid: int) -> int:
        return self.value & (1 << ASID_SHIFT) - 1 | asid << ASID_SHIFT

    def longer(self) -> list[int]:
        """The operands of longer ranges, from the shortest on."""
        if not is_range(self.operation):
            return []
        scale, count = self.value >> 44 & 3, self.value >> 39 & 31
        same = [self.value & ~(31 << 39) | more << 39 for more in range(count + 1, 32)]
        rest = self.value & ~(3 << 44 | 31 << 39)
        return same + [rest | bigger << 44 | more << 39 for bigger in range(scale + 1, 4) for more in (0, 1, 3, 7, 15, 31)]


def shifted(value: int) -> int:
    """An address that was given in the place of its page number."""
    return value >> PAGE_SHIFT & VA_BITS
