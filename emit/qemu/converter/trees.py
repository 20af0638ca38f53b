# SPDX-License-Identifier: Apache-2.0 OR GPL-2.0-or-later
"""The tables and roots of a trace, and what a log has of them."""
from __future__ import annotations

from collections import Counter
from dataclasses import dataclass, field

from converter.descriptors import Descriptors, is_table
from converter.ending import Status, Unjudged
from converter.facts import Facts
from converter.forms import Form, Start
from converter.pes import Pes
from converter.records import Record
from converter.telling import Telling
from converter.tlbis import range_operand
from converter.worlds import BASE, Kind

PAGE_SIZE, LEVELS = 4096, 4


def size_shift(level: int) -> int:
    """How many bits of an address are below what an entry of a table at a level stands for."""
    return 39 - 9 * level


@dataclass
class Table:
    """A page that is known as a table: its place in a tree, and its entries, until the log has them."""

    level: int
    kind: Kind
    root: int
    # The page of the table that links it, and at which index, as it was last.
    parent: tuple[int, int] | None = None
    entries: dict[int, int] = field(default_factory=dict)
    is_told: bool = False
    is_empty: bool = True


@dataclass
class Root:
    kind: Kind
    start: Start
    is_null: bool
    is_declared: bool = False
    asids: set[int] = field(default_factory=set)


class Trees:
    """Without a snapshot each table is told when it becomes known; with one, a root from before when it is declared."""

    def __init__(self, facts: Facts, form: Form, telling: Telling, pes: Pes) -> None:
        self.world, self.facts, self.guests, self.form = facts.world, facts, facts.guests, form
        self.telling, self.pes, self.descriptors = telling, pes, Descriptors(telling)
        self.tables: dict[int, Table] = {}
        self.roots: dict[int, Root] = {}
        self.locks: dict[int, str] = {}
        self.given_up: set[int] = set()
        # The page that was named last, and the PE at which it became a table; the first of the upper roots.
        self.named: tuple[int, str] = (0, "")
        self.first_upper: int | None = None
        # Forms of roots that the header doesn't have, and how many writes of stage 2 tables the log has.
        self.other_forms: Counter[tuple[str, Start]] = Counter()
        self.stage2_writes = 0

    # ---- tables

    def take_new_table(self, record: Record) -> None:
        page, level, kind, root = record.value(0), record.number(1), record.kind(2), record.value(3)
        self.named, before = (page, record.pe), self.tables.get(page)
        if before and before.is_told:
            self.note_other_use(record, before)
            self.flush_moved(record, page, before)
        table = self.tables[page] = Table(level, kind, root)
        if not self.telling.started or kind not in self.world.kinds:
            return
        if root not in self.roots or self.roots[root].is_declared:
            table.is_told = True
            self.telling.emit(f"init {record.pe} 0x{page:x}", record)

    def take_contents(self, record: Record) -> None:
        page, pe = self.named
        table = self.tables[page]
        index, value = int(record.fields[1]), int(record.fields[2], 16)
        table.is_empty = False
        self.note_link(page, table, index, value)
        if table.is_told:
            self.descriptors.tell(f"w {pe} 0x{page + 8 * index:x}", value, table.level, table.kind, mark=" @contents")
        else:
            table.entries[index] = value

    def take_write(self, record: Record) -> None:
        place, value = record.value(0), record.value(1)
        page = place & ~(PAGE_SIZE - 1)
        self.refuse_null(page)
        table = self.tables.get(page)
        if table is None:
            return
        self.note_link(page, table, place >> 3 & 511, value)
        if table.kind == Kind.VTTBR_EL2 and not self.may_live(record, table):
            self.note_other_use(record, table)
        if table.is_told and table.root in self.given_up:
            self.telling.leave_out("store to a table of a root that was given up")
        elif table.is_told:
            self.stage2_writes += self.telling.started and table.kind == Kind.VTTBR_EL2
            self.descriptors.tell(f"w {record.pe} 0x{place:x}", value, table.level, table.kind, record)
        else:
            table.entries[place >> 3 & 511] = value

    def may_live(self, record: Record, table: Table) -> bool:
        """Whether a store to a table of stage 2 may be one to that of a living guest."""
        return record.code in self.guests.table_code or self.pes.is_named(table.root)

    def refuse_null(self, page: int) -> None:
        """Ends where a page is written that was told as a null one. The whole trace shows it beforehand."""
        root = self.roots.get(page)
        if root and root.is_null:
            raise Unjudged(Status.OTHER_FORMS, f"the root 0x{page:x} was empty when it was loaded, so the log has it "
                           "as a null page, and now it is written. Without --follow it can be judged")

    def take_linked_again(self, record: Record) -> None:
        page, kind, root = record.value(0), record.kind(2), record.value(3)
        if page == root and page in self.roots:
            self.load_as(page, kind)
        elif kind in self.world.kinds:
            self.telling.leave_out("link to a page that is a table already: its contents aren't told again")

    def take_reuse(self, record: Record) -> None:
        page = record.value(0)
        table = self.tables.pop(page, None)
        if table and table.is_told:
            self.note_other_use(record, table)
            self.telling.emit(f"init {record.pe} 0x{page:x}", record)

    def tell_tree(self, page: int, pe: str) -> None:
        """A page, what it holds, and all below it, as they stand now."""
        table = self.tables.get(page)
        if table is None or table.is_told:
            return
        table.is_told = True
        for value in table.entries.values():
            if is_table(table.level, value):
                self.tell_tree(value & BASE, pe)
        self.telling.emit(f"init {pe} 0x{page:x} @snapshot")
        for index, value in sorted(table.entries.items()):
            if value:
                line = f"w {pe} 0x{page + 8 * index:x}"
                self.descriptors.tell(line, value, table.level, table.kind, mark=" @snapshot")
        table.entries.clear()

    # ---- roots

    def take_root(self, record: Record) -> None:
        page, kind = record.value(0), record.kind(2)
        self.given_up.discard(page)
        # The table that the kernel keeps empty is never stored to.
        is_null = not self.world.is_hyp and self.tables[page].is_empty and page not in self.facts.written
        self.roots[page] = Root(kind, Start(record.number(1), record.number(3)), is_null)
        if self.telling.started and kind in self.world.kinds and not is_null:
            self.declare(page, record.pe)

    def take_lock_of_root(self, record: Record) -> None:
        self.locks[record.value(0)] = record.word(1)

    def load_as(self, page: int, kind: Kind) -> None:
        """A root is loaded by another register than before, and all that is below it is of that kind from now on."""
        self.roots[page].kind = kind
        for table in self.tables.values():
            if table.root == page:
                table.kind = kind

    def is_null(self, value: int) -> bool:
        root = self.roots.get(value & BASE)
        return root is not None and root.is_null

    def declare(self, page: int, pe: str) -> None:
        root = self.roots[page]
        root.is_declared = True
        for number in range(root.start.pages):
            self.tell_tree(page + PAGE_SIZE * number, pe)
        if root.is_null:
            self.telling.emit(f"null {pe} 0x{page:x}")
            return
        word = self.world.kinds[root.kind]
        if self.first_upper is None and word == "ttbr1":
            self.first_upper = page
        if self.form.of_kinds()[word] != root.start:
            self.other_forms[word, root.start] += 1
        self.telling.emit(f"root {pe} {word} {self.locks.get(page, '-')} 0x{page:x}")

    def take_dead_root(self, record: Record) -> None:
        self.give_up(record, record.value(0))

    def take_end_of_root(self, record: Record) -> None:
        page = record.value(0)
        if self.roots.pop(page, None):
            self.telling.emit(f"unroot {record.pe} 0x{page:x}", record)

    def give_up(self, record: Record, page: int) -> None:
        root = self.roots.pop(page, None)
        if root and root.kind == Kind.VTTBR_EL2:
            self.given_up.add(page)
        if root and root.is_declared and not root.is_null:
            self.telling.told["unroot"] += self.telling.started
            self.telling.emit(f"unroot {record.pe} 0x{page:x}", record)

    def note_other_use(self, record: Record, table: Table) -> None:
        """A table of stage 2 is used for something else, or stored to by code that stores to no table of a living
        guest. Where no PE uses its root, and none ever loads it again, the root was given up."""
        is_root_known = self.guests.is_whole and table.root in self.roots
        if table.kind != Kind.VTTBR_EL2 or not table.is_told or not is_root_known:
            return
        used = any(self.pes.walks_stage2(pe) and self.is_used(pe) for pe in self.pes.loaded_at(table.root))
        if not used and not self.guests.is_loaded_after(table.root, self.telling.index):
            self.give_up(record, table.root)

    def is_used(self, pe: str) -> bool:
        """Whether a PE is, or comes, below EL2 with its present value of VTTBR_EL2."""
        return self.guests.is_used_after(self.pes.written_at.get((pe, "vttbr_el2")), self.telling.index)

    # ---- tables that move

    def note_link(self, page: int, table: Table, index: int, value: int) -> None:
        """An entry of a table: which table it links, if any."""
        linked = self.tables.get(value & BASE) if is_table(table.level, value) else None
        if linked:
            linked.parent = page, index

    def address_of(self, page: int) -> int | None:
        """The first input address that a table translates, in the lower range, or None where its tree isn't known."""
        table, address, above = self.tables.get(page), 0, 0
        while table and table.parent and above <= LEVELS:
            parent, index = table.parent
            table, above = self.tables.get(parent), above + 1
            address += index << size_shift(table.level) if table else 0
        return address if table and not table.parent else None

    def flush_moved(self, record: Record, page: int, table: Table) -> None:
        """A page is linked at another place as it is, as where a kernel moves a whole table of a program's stack: what
        its old place translated is flushed, for each ASID of its root, and nothing else."""
        root, address = self.roots.get(table.root), self.address_of(page)
        if root is None or address is None or not root.asids:
            return
        name, pe = "moved-tables", record.pe
        condition, even = self.telling.normalised(name), {asid & ~1 for asid in root.asids}
        self.telling.emit(f"dsb {pe} ishst @{name}", condition=condition)
        for asid in sorted(root.asids | even):
            of_pair = {} if asid in root.asids & even else {"kpti": asid in even}
            operand = range_operand(asid, address, 1 << size_shift(table.level) + 9 - 12)
            self.telling.emit(f"tlbi {pe} rvae1is 0x{operand:x} @{name}", condition={**condition, **of_pair})
        self.telling.emit(f"dsb {pe} ish @{name}", condition=condition)
