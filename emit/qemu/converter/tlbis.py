# SPDX-License-Identifier: Apache-2.0 OR GPL-2.0-or-later
"""The operation of a TLBI, by its instruction word, and the worlds that it belongs to."""
from __future__ import annotations

import re

from converter.worlds import World


def by_address(prefix: str) -> dict[int, str]:
    return {1: prefix + "vae1", 3: prefix + "vaae1", 5: prefix + "vale1", 7: prefix + "vaale1"}


SCOPES = {1: "os", 2: "is", 3: "is", 5: "os", 6: "", 7: ""}
OF_EL1 = {**by_address(""), 0: "vmalle1", 2: "aside1"}
RANGES_OF_EL1 = by_address("r")
OF_EL2 = {0: "alle2", 1: "vae2", 4: "alle1", 5: "vale2", 6: "vmalls12e1"}
RANGES_OF_EL2 = {1: "rvae2", 5: "rvale2"}
BY_IPA = {(0, 1): "ipas2e1is", (0, 5): "ipas2le1is", (0, 2): "ripas2e1is", (0, 6): "ripas2le1is",
          (4, 1): "ipas2e1", (4, 5): "ipas2le1", (4, 2): "ripas2e1", (4, 6): "ripas2le1"}
WITHOUT_OPERAND = re.compile("vmalle1|alle1|alle2|vmalls12e1")
BY_ASID = re.compile("aside|r?vae|r?vale")
OF_STAGE1_OF_EL1 = re.compile("aside1|r?vaa?l?e1")
AT_EL2 = re.compile("r?vae2|r?vale2|alle2")


def tlbi_name(word: int) -> str:
    """The operation of an instruction word, by its fields. One that no log has a word for has another name."""
    op1, crn, crm, op2 = word >> 16 & 7, word >> 12 & 15, word >> 8 & 15, word >> 5 & 7
    ranges, name = crm not in (1, 3, 7), None
    if op1 == 0 and crm in SCOPES:
        name = (RANGES_OF_EL1 if ranges else OF_EL1).get(op2)
    elif op1 == 4 and crm in (0, 4):
        return BY_IPA.get((crm, op2), f"op1_4_crm{crm}_op2_{op2}") + ("nxs" if crn == 9 else "")
    elif op1 == 4 and crm in SCOPES:
        name = (RANGES_OF_EL2 if ranges else OF_EL2).get(op2)
    if not name:
        return f"op1_{op1}_crm{crm}_op2_{op2}"
    return name + SCOPES[crm] + ("nxs" if crn == 9 else "")


def has_word(name: str) -> bool:
    """Whether a log has a word for an operation."""
    return not name.endswith(("os", "nxs")) and not name.startswith("op1")


def has_operand(name: str) -> bool:
    return not WITHOUT_OPERAND.match(name)


def range_operand(asid: int, address: int, pages: int) -> int:
    """The operand of a range TLBI by address for so many pages of 4 KiB from an address on, any level, where one has
    such: (NUM + 1) << (5 * SCALE + 1) pages."""
    scale = max(0, (pages.bit_length() - 2) // 5)
    number = (pages >> (5 * scale + 1)) - 1
    return asid << 48 | 1 << 46 | scale << 44 | number << 39 | address >> 12 & (1 << 37) - 1


def is_by_asid(name: str) -> bool:
    return BY_ASID.match(name) is not None


def is_of_el2(name: str) -> bool:
    return AT_EL2.match(name) is not None


def is_of_stage2(name: str) -> bool:
    return "ipas2" in name or "s12" in name or name.startswith("alle1")


def is_of_world(world: World, name: str, el: int, is_host: bool) -> bool:
    """Whether a TLBI at an EL is one of a world, by whether its PE is in a host with VHE, or isn't known not to be. A
    log of the world Hyp has no word for one that takes stage 1 of EL1&0 by address or by ASID."""
    if world.has_el2:
        return el == 2 and not OF_STAGE1_OF_EL1.match(name)
    if world.is_hyp:
        return el == 2 and (is_of_stage2(name) or (name.startswith("vmalle1") and not is_host))
    if el != world.el or is_of_stage2(name) or is_of_el2(name):
        return False
    return el == 1 or is_host
