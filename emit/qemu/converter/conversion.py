# SPDX-License-Identifier: Apache-2.0 OR GPL-2.0-or-later
"""The conversion of a trace, line by line."""
from __future__ import annotations

from collections.abc import Callable
from typing import NamedTuple

from converter.ending import unreadable
from converter.facts import Facts
from converter.forms import Form
from converter.pes import Pes
from converter.records import Record
from converter.registers import ASID_BIT, Registers
from converter.telling import Sink, Telling
from converter.tlbis import has_operand, has_word, is_by_asid, is_of_world, tlbi_name
from converter.trees import Trees

DSB = {15: "sy", 14: "st", 13: "ld", 11: "ish", 10: "ishst", 9: "ishld", 7: "nsh", 6: "nshst", 5: "nshld", 3: "osh",
       2: "oshst", 1: "oshld"}
SPECULATION = (0, 4)  # SSBB and PSSBB, whose encodings are those of DSBs


class Plan(NamedTuple):
    """What has to be known before a conversion: the form of roots, and whether the log begins late, with a snapshot."""

    form: Form
    begins_late: bool


class Conversion:
    """Takes the lines of a trace in order, and hands each line of the log on, whatever normalisations are made: with
    the number of the line it comes from, and the condition on which it is told."""

    def __init__(self, facts: Facts, plan: Plan, out: Sink) -> None:
        self.world, self.facts, self.form = facts.world, facts, plan.form
        self.telling, self.pes = Telling(facts.symbols, out, not plan.begins_late), Pes()
        self.trees = trees = Trees(facts, plan.form, self.telling, self.pes)
        self.registers = Registers(facts, plan.form, self.telling, self.pes, trees)
        self.takers: dict[str, Callable[[Record], None]] = {
            "b": self.take_dsb, "x": self.take_dsb_nxs, "i": self.take_isb, "t": self.take_tlbi,
            "m": self.registers.take, "n": trees.take_new_table, "c": trees.take_contents, "r": trees.take_root,
            "a": trees.take_linked_again,
            "w": trees.take_write, "d": trees.take_dead_root, "u": trees.take_reuse, "k": self.take_lock,
            "l": self.take_unlock, "g": trees.take_lock_of_root, "v": trees.take_end_of_root, "#": lambda _: None}

    def take(self, index: int, line: str) -> None:
        self.telling.index = index
        if not self.telling.started and index == self.facts.start:
            self.start()
        try:
            self.takers[line[0]](Record(line))
        except (LookupError, TypeError, ValueError) as error:
            raise unreadable(index, line) from error

    def start(self) -> None:
        """The log begins late, with tables and registers as they stand."""
        self.telling.started = True
        self.telling.made["snapshot"] += 1
        self.registers.start()

    def take_dsb(self, record: Record) -> None:
        if record.number(0) in SPECULATION:
            self.telling.leave_out("SSBB or PSSBB, which is no DSB")
        else:
            self.telling.emit(f"dsb {record.pe} {DSB.get(record.number(0), 'sy')}")

    def take_dsb_nxs(self, _: Record) -> None:
        # (counted before the log begins too)
        self.telling.left_out["DSB nXS"] += 1

    def take_isb(self, record: Record) -> None:
        self.registers.take_exception(record)
        self.telling.emit(f"isb {record.pe}")

    def take_lock(self, record: Record) -> None:
        self.telling.emit(f"lock {record.pe} {record.word(0)}", record)

    def take_unlock(self, record: Record) -> None:
        self.telling.emit(f"unlock {record.pe} {record.word(0)}", record)

    def take_tlbi(self, record: Record) -> None:
        name, operand = tlbi_name(record.value(0)), record.value(1)
        if not is_of_world(self.world, name, record.el, self.pes.may_be_host(record.pe)):
            self.telling.leave_out(f"TLBI {name} at EL{record.el}, of another regime")
            return
        if not has_word(name):
            self.telling.leave_out(f"TLBI {name}, for which a log has no word: a sequence that relies on it is refused")
            return
        is_odd = not self.world.is_hyp and operand & ASID_BIT and is_by_asid(name)
        told = f" 0x{operand:x}" if has_operand(name) else ""
        self.telling.emit(f"tlbi {record.pe} {name}{told}", record, self.telling.unless("kpti") if is_odd else None)
