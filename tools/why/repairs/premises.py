# SPDX-License-Identifier: Apache-2.0
"""What a word of the header would change that is a premise about the kernel or its processor, by the program."""
from __future__ import annotations

from dataclasses import dataclass

from why.asking.holding import OF_PLACES
from why.log.lines import header_of
from why.repairs.changes import Kind, Swap, one
from why.repairs.study import Repair, Repairer


@dataclass(frozen=True)
class Premise:
    """A word, the rules that it bears upon, the heading of what is told, and when it is right to say, by docs/LOGGING.md."""

    word: str
    rules: tuple[str, ...]
    heading: str
    when: str


UNFLUSHED = Premise(
    "unflushed", ("root-in-use",), "If the kernel flushes later, by bbm",
    "That is right to say where the kernel flushes a VMID or ASID before another root gets it, and no walk of a root goes on once the "
    "root was given up (docs/LOGGING.md, \"Roots that are given up\").")
INORDER = Premise(
    "inorder", ("tag-conflict", *OF_PLACES), "If a PE's root registers come into use in order, by bbm",
    "The word is a premise: the root registers of a PE come into use in the order in which it wrote them (docs/LOGGING.md, \"Two "
    "registers and one ISB\").")
PREMISES = (UNFLUSHED, INORDER)


def under(premise: Premise, repairer: Repairer) -> Repair | None:
    """The log of version 5 with the word; None where its header says that or can't, where another rule refuses it, or where it gets
    no further so."""
    header = header_of(repairer.log.header)
    may_say = header.asids_of_ttbr1 if premise is INORDER else True
    change = one(Swap(1, str(header.saying(premise.word)), Kind.HEADER))
    if repairer.scene.refusal.name not in premise.rules or premise.word in header.words or not may_say or not repairer.gets_past(change):
        return None
    return repairer.in_front(change, repairer.log.last_event)
