# SPDX-License-Identifier: Apache-2.0 OR GPL-2.0-or-later
"""What a whole trace shows of guests beforehand: which values of VTTBR_EL2 are used, and how long their tables live."""
from __future__ import annotations

from bisect import bisect_right
from collections import defaultdict
from dataclasses import dataclass, field

from converter.records import Record
from converter.worlds import BASE, is_host


@dataclass(frozen=True)
class Store:
    """A store to a table of stage 2: its line, the table's root, and the writes of VTTBR_EL2 that a PE had loaded it
    by."""

    index: int
    root: int
    loads: tuple[int, ...]


@dataclass
class Guests:
    """`is_whole` says that the whole trace is looked at; else nothing is known beforehand."""

    is_whole: bool
    # The line by which a PE wrote VTTBR_EL2 last, the root that it names, and whether the PE is in a host with VHE.
    loads: dict[str, int] = field(default_factory=dict)
    named: dict[str, int] = field(default_factory=dict)
    hosts: dict[str, bool] = field(default_factory=dict)
    # For each of these lines the last at which the PE was below EL2 with that value.
    used: dict[int | None, int] = field(default_factory=dict)
    # For each root the lines at which VTTBR_EL2 names it (True), or at which it begins or ends.
    life: defaultdict[int, list[tuple[int, bool]]] = field(default_factory=lambda: defaultdict(list))
    # The pages of code that store to tables of living guests, and such stores of others.
    table_code: set[int] = field(default_factory=set)
    stores: defaultdict[int, list[Store]] = field(default_factory=lambda: defaultdict(list))

    def add_root(self, index: int, root: int) -> None:
        """A root begins, or ends."""
        self.life[root].append((index, False))

    def add_load(self, index: int, pe: str, value: int) -> None:
        """VTTBR_EL2 is written."""
        self.loads[pe], self.named[pe] = index, value & BASE
        self.life[value & BASE].append((index, True))

    def add_hcr(self, pe: str, value: int) -> None:
        self.hosts[pe] = is_host(value)

    def add_use(self, index: int, record: Record) -> None:
        """A PE is, or was until now, below EL2, with the value of VTTBR_EL2 that it has. A program of a host with VHE,
        at EL0 of its regime EL2&0, has none of it in use."""
        if (record.fields[2] in "01" or record.came_from_below()) and not self.hosts.get(record.pe):
            self.used[self.loads.get(record.pe)] = index

    def add_store(self, index: int, code: int, root: int) -> None:
        """A store to a table of stage 2. The guest lives where a PE has its root loaded, or loads it afterwards. A host
        with VHE lets VTTBR_EL2 stand when the guest is dead: there it lives where the PE comes below EL2 with that
        value afterwards."""
        having = [pe for pe, base in self.named.items() if base == root]
        if any(not self.hosts.get(pe) for pe in having):
            self.table_code.add(code)
        elif code not in self.table_code:
            self.stores[code].append(Store(index, root, tuple(self.loads[pe] for pe in having)))

    def end(self) -> None:
        """The whole trace was taken: it shows which roots were loaded behind a store."""
        for code, stores in self.stores.items():
            if any(self.lives_behind(store) for store in stores):
                self.table_code.add(code)

    def lives_behind(self, store: Store) -> bool:
        is_loaded = self.is_loaded_after(store.root, store.index)
        return is_loaded or any(self.used.get(load, -1) > store.index for load in store.loads)

    def is_loaded_after(self, root: int, index: int) -> bool:
        """Whether a root is loaded again before its page has another use."""
        life = self.life[root]
        at = bisect_right(life, (index, True))
        return at < len(life) and life[at][1]

    def is_used_after(self, load: int | None, index: int) -> bool:
        """Whether the value of VTTBR_EL2 that was written at a line is in use behind another one; true where it isn't
        known."""
        return not self.is_whole or self.used.get(load, -1) > index
