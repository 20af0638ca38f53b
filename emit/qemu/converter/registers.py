# SPDX-License-Identifier: Apache-2.0 OR GPL-2.0-or-later
"""Writes of registers, and what a log has of them."""
from __future__ import annotations

from converter.facts import Facts
from converter.forms import Form
from converter.pes import Pes
from converter.records import Record
from converter.telling import Condition, Telling
from converter.trees import Trees
from converter.worlds import BASE, Stage2, stage2_by

ASID_BIT = 1 << 48
NO_UPPER_WALKS = 1 << 23  # TCR.EPD1
# T1SZ of the upper ranges that a log has; with less than the first walks start at level -1, or there are none.
FULL_UPPER, UPPER_SIZES = 16, (25, 34)
NULL_PAGE = 0  # the base of a VTTBR_EL2 by which no walk is made: of a machine of QEMU it is no memory


class Registers:
    def __init__(self, facts: Facts, form: Form, telling: Telling, pes: Pes, trees: Trees) -> None:
        self.world, self.form, self.telling, self.pes, self.trees = facts.world, form, telling, pes, trees
        # The normalisations for which the null page was told, with None where it is told whatever is allowed; T1SZ of
        # other upper ranges than a log has, and whether a root register has CnP.
        self.has_null: set[str | None] = set()
        self.upper_sizes: set[int] = set()
        self.has_cnp = False

    def take(self, record: Record) -> None:
        pe, name, value = record.pe, record.word(0), record.value(1)
        if not record.was_trapped():
            self.take_control(record, pe, name, value)
        if name not in self.world.registers:
            return
        if record.el != self.world.el:
            self.telling.leave_out(f"MSR {name} at EL{record.el}, of another regime")
            return
        before = self.pes.registers[pe].get(name)
        self.pes.registers[pe][name], self.pes.written_at[pe, name] = value, self.telling.index
        self.tell(record, name, value, before, self.telling.unless("mmu-off") if self.is_off(pe, name) else {})

    def take_control(self, record: Record, pe: str, name: str, value: int) -> None:
        """A register that says how others are meant."""
        if name == "hcr_el2":
            self.turn_stage2(record, pe, stage2_by(value))
        if name == "sctlr_el2" and self.world.has_el2:
            self.turn_mmu(record, pe, bool(value & 1))
        if name == self.world.attributes:
            self.trees.descriptors.set_attributes(pe, value)
        if name == self.world.control:
            self.pes.controls[pe] = value
            self.note_upper_size(pe)

    def is_off(self, pe: str, name: str) -> bool:
        """Whether a register belongs to an EL whose MMU is off."""
        return name == "ttbr0_el2" and self.world.is_hyp and not self.pes.mmu_on.get(pe)

    # ---- how a value is told

    def told_values(self, name: str, value: int, before: int | None) -> list[tuple[int, Condition]]:
        """A value of a root register as it is told, with the condition of each."""
        self.has_cnp = self.has_cnp or bool(self.telling.started and value & 1)
        if value & 1 and self.world.is_hyp:
            return [(value, self.telling.unless("no-cnp")), (value & ~1, {"no-cnp": True})]
        if self.world.registers[name].word != "ttbr1_el1" or not self.telling.started:
            return [(value, {})]
        folded = self.of_first(value)
        if before is not None and folded == self.of_first(before):
            return [(value, self.telling.unless("kpti"))]
        if folded == value:
            return [(value, {})]
        return [(value, self.telling.unless("kpti")), (folded, {"kpti": True})]

    def of_first(self, value: int) -> int:
        """A value of TTBR1_EL1 with the first of the upper roots, and the even one of a pair of ASIDs."""
        if self.trees.first_upper is not None and not self.trees.is_null(value):
            value = value & ~BASE | self.trees.first_upper
        return value & ~ASID_BIT

    def tell(self, record: Record, name: str, value: int, before: int | None, condition: Condition) -> None:
        pe, told = record.pe, self.world.registers[name]
        root = self.trees.roots.get(value & BASE)
        if self.telling.started and root and (root.kind == told.kind or root.is_null) and not root.is_declared:
            self.trees.declare(value & BASE, pe)
        self.note_asid(pe)
        self.note_upper_size(pe)
        if name == "vttbr_el2" and value & BASE:
            self.tell_vttbr(record, value)
            return
        switches = not self.world.is_hyp and (told.word == "ttbr1_el1" or (root and root.is_null))
        behind = self.telling.normalised("isb-between-ttbrs") if switches else {}
        for one, of_value in self.told_values(name, value, before):
            self.telling.emit(f"msr {pe} {told.word} 0x{one:x}", record, {**condition, **of_value})
            if behind:
                self.telling.emit(f"isb {pe} @isb-between-ttbrs", condition={**condition, **of_value, **behind})

    def tell_as_it_stands(self, pe: str, name: str, value: int) -> None:
        """A register at the start of the log, with an ISB behind, so that the 0 from before is out of use."""
        told, root = self.world.registers[name], self.trees.roots.get(value & BASE)
        if root is None or (root.kind != told.kind and not root.is_null):
            return
        if not root.is_declared:
            self.trees.declare(value & BASE, pe)
        self.note_upper_size(pe)
        condition = {"mmu-off": False} if self.is_off(pe, name) else {}
        for one, of_value in self.told_values(name, value, None):
            self.telling.emit(f"msr {pe} {told.word} 0x{one:x} @snapshot", condition={**condition, **of_value})
        self.telling.emit(f"isb {pe} @snapshot", condition=condition)

    def start(self) -> None:
        """The registers as they stand, as the first lines of the log, with their trees."""
        for pe, values in sorted(self.pes.registers.items(), key=lambda pair: int(pair[0])):
            for name in self.world.registers:
                self.tell_as_it_stands(pe, name, values.get(name, 0))

    # ---- VTTBR_EL2 by which no walk is made

    def tell_vttbr(self, record: Record, value: int) -> None:
        """A write of VTTBR_EL2."""
        condition: Condition = {}
        if self.pes.is_host(record.pe):
            self.tell_idle(record, value, None, condition)
            return
        for name in self.idle_by(record.pe):
            self.tell_idle(record, value, name, {**condition, **self.telling.normalised(name)})
            condition = {**condition, name: False}
        self.tell_values(record, value, condition)

    def tell_values(self, record: Record, value: int, condition: Condition) -> None:
        for one, of_value in self.told_values("vttbr_el2", value, None):
            self.telling.emit(f"msr {record.pe} vttbr_el2 0x{one:x}", record, {**condition, **of_value})

    def tell_idle(self, record: Record, value: int, name: str | None, condition: Condition) -> None:
        """A value with a null page as its base, by a normalisation, or, for None, since the architecture says so."""
        self.tell_null(record.pe, name)
        self.telling.told["VTTBR_EL2"] += self.telling.started and name is None
        self.tell_values(record, value & ~BASE | NULL_PAGE, condition)

    def idle_by(self, pe: str) -> list[str]:
        """The normalisations by each of which a root in VTTBR_EL2 has a null page in its place."""
        is_off, is_used = not self.pes.walks_stage2(pe), self.trees.is_used(pe)
        return ["stage2-off"] * is_off + ["out-of-context"] * (not is_used)

    def take_exception(self, record: Record) -> None:
        """An exception to EL2: a value with which EL2 never returns is out of use, though it may stand there for
        long."""
        pe = record.pe
        value = self.pes.registers[pe].get("vttbr_el2", 0)
        if not (value & BASE and record.came_from_below()) or self.pes.is_host(pe) or self.trees.is_used(pe):
            return
        self.tell_null(pe, "out-of-context")
        for null, of_value in self.told_values("vttbr_el2", value & ~BASE | NULL_PAGE, None):
            condition = {**of_value, **self.telling.normalised("out-of-context")}
            self.telling.emit(f"msr {pe} vttbr_el2 0x{null:x} @out-of-context", condition=condition)

    def tell_null(self, pe: str, name: str | None) -> None:
        """The null page, before the first value that names it."""
        if not self.telling.started or not self.has_null.isdisjoint((name, None)):
            return
        condition = {other: False for other in self.has_null if other} | ({name: True} if name else {})
        self.has_null.add(name)
        self.telling.emit(f"init {pe} 0x{NULL_PAGE:x} @null", condition=condition)
        self.telling.emit(f"null {pe} 0x{NULL_PAGE:x} @null", condition=condition)

    def turn_stage2(self, record: Record, pe: str, now: Stage2) -> None:
        """HCR_EL2 is about to change: VTTBR_EL2 is told as it is with it."""
        was, value = self.pes.turn_stage2(pe, now), self.pes.registers[pe].get("vttbr_el2", 0)
        if now is was or not value & BASE or not self.world.is_hyp:
            return
        condition: Condition = {}
        if Stage2.OFF in (was, now):
            # With stage2-off OFF is told as HOST is, and without it as ON is: the change to the other one alone is told.
            is_made = Stage2.HOST not in (was, now)
            condition = self.telling.normalised("stage2-off") if is_made else self.telling.unless("stage2-off")
        if now is Stage2.HOST:
            self.tell_idle(record, value, None, condition)
        elif was is Stage2.ON:
            self.tell_idle(record, value, "stage2-off", condition)
        elif self.trees.is_used(pe):
            self.tell_values(record, value, condition)
        else:
            self.tell_values(record, value, {**condition, "out-of-context": False})

    def turn_mmu(self, record: Record, pe: str, on: bool) -> None:
        if on != self.pes.mmu_on.get(pe, False):
            self.pes.mmu_on[pe] = on
            value = self.pes.registers[pe].get("ttbr0_el2")
            if value is not None:
                self.tell(record, "ttbr0_el2", value if on else 0, None, self.telling.normalised("mmu-off"))

    # ---- what is noted of roots

    def note_asid(self, pe: str) -> None:
        """Under which ASID the lower root of a PE is loaded now."""
        if self.form.asid is None:
            return
        values = {self.world.registers[name].word: value for name, value in self.pes.registers[pe].items()}
        root = self.trees.roots.get(values.get("ttbr0_el1", 0) & BASE)
        if root:
            root.asids.add(values.get(self.form.asid + "_el1", 0) >> 48)

    def note_upper_size(self, pe: str) -> None:
        """TCR's T1SZ, where a PE walks an upper root of the log by it."""
        root = self.trees.roots.get(self.pes.base(pe, self.world.upper))
        control = self.pes.controls.get(pe, NO_UPPER_WALKS)
        size = control >> 16 & 63
        is_walked = root and root.is_declared and not root.is_null and not control & NO_UPPER_WALKS
        if is_walked and size > FULL_UPPER and size not in UPPER_SIZES:
            self.upper_sizes.add(size)
