# SPDX-License-Identifier: Apache-2.0
"""Repairs in words, by the lines and labels of the log that was given."""
from __future__ import annotations

import re

from why.log import words
from why.repairs.changes import Change, Edit, Kind, Move, Put, Swap
from why.log.lines import Event, Log, event_of, header_of
from why.asking.program import Verdict
from why.repairs.study import Repair

CONTIGUOUS = 1 << 52


def fault_of_operand(old: Event, new: Event, kind: Kind) -> str:
    was, is_now = words.Operand(old.operation, old.operand), words.Operand(new.operation, new.operand)
    by_asid = words.base_of(new.operation) in words.BY_ASID and was.asid != is_now.asid
    if kind is Kind.ADDRESS and was.address != is_now.address:
        return f"names the page {was.page}, and this is about {is_now.page}" + (f" under ASID {is_now.asid}" if by_asid else "")
    if kind in (Kind.ADDRESS, Kind.TAG):
        return f"names ASID {was.asid}, and {'this' if words.is_of_tag(old.operation) else 'the place'} is under ASID {is_now.asid}"
    if kind is Kind.HINT and words.is_range(old.operation) and was.granule != is_now.granule:
        return f"has {was.granule} in its TG field, bits 47:46, and 1 is the granule of 4 KiB"
    if kind is Kind.HINT:
        return f"has the level hint {was.hint}" if was.hint is not None else "has a hint for another granule"
    if kind is Kind.RANGE:
        return f"has {was.pages} pages ({is_now.pages} are needed)"
    if was.value != was.aligned():
        return f"begins at {was.page}, inside an entry of its level hint {was.hint}"
    if old.operand >> 44 and words.shifted(old.operand) == new.operand:
        return "has the address where its page number belongs"
    return "has an operand that no TLBI has"


def reach_of(event: Event, shares: bool) -> str:
    """Which PEs a TLBI that isn't broadcast reaches; none where PEs may share their TLBs."""
    return "no PE where the header has `cnp`" if shares else f"PE {event.pe} alone"


def told_swap(old: Event, new: Event, kind: Kind, shares: bool) -> str:
    """What is wrong with a line, and what would do in its place."""
    quoted, instead = f"`{old.plain}`", f"`{new.plain}`"
    if kind is Kind.BROADCAST:
        return f"{quoted} reaches {reach_of(old, shares)}; `{new.operation}`"
    if kind is Kind.OPTION:
        option = old.rest[0]
        fault = "waits for loads alone" if option.endswith("ld") else f"reaches PE {old.pe} alone" if option.startswith("nsh") else \
            "completes no TLBI" if option.endswith("st") else "isn't enough"
        return f"{quoted} {fault}; `{new.rest[0]}`"
    if kind is Kind.PE:
        return f"{quoted} is by PE {old.pe}; {instead}"
    if kind in (Kind.ADDRESS, Kind.HINT, Kind.TAG, Kind.RANGE, Kind.OPERAND):
        return f"{quoted} {fault_of_operand(old, new, kind)}; `{new.rest[1]}`"
    if kind is Kind.OPERATION and words.is_of_el2(old.operation) != words.is_of_el2(new.operation):
        return f"{quoted} is for another regime; `{' '.join(new.rest)}`"
    if kind is Kind.OPERATION:
        reach = f" and reaches {reach_of(old, shares)}" if not words.is_broadcast(old.operation) else ""
        last = words.base_of(old.operation) in words.LAST_LEVEL
        return f"{quoted} takes {'the last level alone' if last else 'too little'}{reach}; `{' '.join(new.rest)}`"
    if kind is Kind.VALUE:
        return f"{quoted} {fault_of_value(old, new)}; {instead}"
    return f"{quoted} names another {'page' if kind is Kind.PLACE else kind.value} than is right; {instead}"


def fault_of_value(old: Event, new: Event) -> str:
    differs = old.value ^ new.value
    if differs == CONTIGUOUS:
        return "has the Contiguous bit, bit 52, set"
    if differs == 1 << 11:
        return "is for every ASID: bit 11 (nG) is clear"
    if differs == 1 and old.word == "msr":
        return "sets CnP, bit 0"
    if old.word == "msr" and not differs & (1 << 48) - 1:
        return f"names {'VMID' if old.rest[0] == 'vttbr_el2' else 'ASID'} {old.value >> 48}, which another root has"
    if old.word == "w" and old.next_page is not None and new.next_page is not None and differs < 1 << 48:
        return f"links the page {hex(old.next_page)}"
    return "doesn't fit"


def what_of(texts: list[str]) -> str:
    """The changes of these texts, in a word."""
    return {1: "it", 2: "both"}.get(len(texts), "all of it")


class Teller:
    """Tells the changes of one log."""

    def __init__(self, log: Log):
        self.log, self.header = log, header_of(log.header)

    def edit(self, edit: Edit) -> str:
        line = self.log.line(edit.at)
        if edit.kind is Kind.HEADER:
            new = header_of(edit.text)
            said = [f"`{word}`" for word in new.words if word not in self.header.words]
            fault = f"lacks {' and '.join(said)}" if self.header.world == new.world else "isn't the world of this log"
            return f"line 1: `{self.log.header}` {fault}; `{edit.text}`"
        if isinstance(edit, Swap):
            new = event_of(edit.text)
            told = f"`{line.event.plain}` {edit.why}; `{' '.join(new.rest)}`" if edit.why else told_swap(line.event, new, edit.kind, self.header.shares)
            return f"{line.name}: {told}"
        if isinstance(edit, Move):
            goal = f"before {self.log.line(edit.after + 1).name}" if edit.after < edit.at else f"behind {self.log.line(edit.after).name}"
            return f"{line.name}: `{line.event.plain}` moved {goal}"
        return f"{line.name}: `{line.event.plain}` left out"

    def puts(self, after: int, edits: list[Put]) -> str:
        """Events that are put in at one position."""
        where = f"between {after} and {after + 1}" if after + 1 <= self.log.last_event else f"behind line {after}"
        return f"{where}: " + ", ".join(f"`{edit.text}`" for edit in edits)

    def change(self, change: Change) -> list[str]:
        """The change, in the order of the log: a text for each line, and for each position at which events are put in."""
        groups: dict[int, list[Put]] = {}
        for edit in change.edits:
            if isinstance(edit, Put):
                groups.setdefault(edit.after, []).append(edit)
        told = [(edit.at, self.edit(edit)) for edit in change.edits if not isinstance(edit, Put)]
        told += [(after + 0.5, self.puts(after, edits)) for after, edits in groups.items()]
        return [text for _, text in sorted(told)]

    def repair(self, repair: Repair) -> list[str]:
        """The change, and what the program says of the whole log with it; its line has another number in the log that was given."""
        texts = self.change(repair.change)
        if len(texts) == 1 and isinstance(repair.change.edits[0], Swap):
            texts = [f"{texts[0]} would do"]
        what = what_of(texts)
        texts += [edit.why for edit in repair.change.edits if isinstance(edit, Put) and edit.why] + [repair.note] * bool(repair.note)
        if repair.whole.accepted:
            return [*texts, f"with {what} the whole log is accepted"]
        refusal = repair.whole.refusal
        answer = f"{refusal.titled} at {hex(refusal.at)}" if refusal else re.sub(r" line \d+", "", repair.whole.first)
        return [*texts, f"with {what} the whole log gets to {self.log.line(repair.next_line).name}: {answer}"]

    def stopped(self, furthest: Repair, refusal: Verdict) -> list[str]:
        """A change that passes the rule that refuses, and what refuses then; nothing where that is told by no rule."""
        then = furthest.whole.refusal
        if then is None:
            return []
        line = self.log.line(furthest.next_line)
        where = "the same line" if line.at == refusal.line else line.name
        texts = self.change(furthest.change)
        stops = f"{then.titled} refuses {where}, at {hex(then.at)}"
        return [*texts, f"with {what_of(texts)} rule {refusal.rule} is past, and then {stops}"]
