# SPDX-License-Identifier: Apache-2.0
"""What maps or mapped the page that rule 18 reports: a leaf that is held, one that was held since the last `init` of the page, or one
that the refused line puts into a tree.

The log's writes give the candidates, the leaves of stage 2 trees whose outputs have the page. Of those that may still be held the
program is asked by made writes, right before the refused line and right before the page's last `init`.
"""
from __future__ import annotations

from dataclasses import dataclass
from functools import cached_property

from why.asking.holding import MISSING, TOLD, Held
from why.asking.places import PAGE, Asker, Place
from why.asking.program import Program, Verdict
from why.asking.reuses import SPANS, Leaf, Leaves, Where
from why.log.lines import ADDRESS_BITS, Before, Line, Log
from why.telling.style import ranges

TABLE_MAPPED = "table-mapped"
# Bit 1 of S2AP.
WRITABLE = 1 << 7
READ_ONLY = "without write permission"


@dataclass(frozen=True)
class Over:
    """A leaf that maps the page, its level, and the line that put it into a tree."""

    leaf: Leaf
    level: int
    since: int


class LeavesOver(Leaves):
    """The leaves of stage 2 trees that map one page, as they come into a tree; the last `init` of the page, and the line that made it
    a table."""

    def __init__(self, front, page: int):
        self.page, self.over, self.begun, self.table = page, [], 0, 0
        super().__init__(front)

    def begin(self, at: int, page: int) -> None:
        super().begin(at, page)
        if page == self.page:
            self.begun, self.table = at, 0

    def make(self, at: int, place: int, value: int, where: Where) -> None:
        super().make(at, place, value, where)
        leaf = self.leaf_at.get(place)
        span = SPANS.get(where.level, 0)
        if leaf and leaf.value == value and (value & ADDRESS_BITS) >> PAGE + span == self.page >> span:
            self.over.append(Over(leaf, where.level, at))

    def attach(self, at: int, page: int, where: Where) -> None:
        super().attach(at, page, where)
        if page == self.page:
            self.table = at

    def reuse(self, at: int, page: int) -> None:
        """No reuse is looked for."""

    @property
    def last(self) -> list[Over]:
        """Those whose places had no other valid value since."""
        return [one for one in self.over if self.leaf_at.get(one.leaf.place) is one.leaf]


class Mapping:
    """What maps or mapped the page that a refusal reports."""

    def __init__(self, program: Program, log: Log, refusal: Verdict):
        self.program, self.log, self.refusal = program, log, refusal
        self.page = refusal.at >> PAGE
        self.leaves = LeavesOver(Before(log, refusal.line - 1), self.page)

    @cached_property
    def name(self) -> str:
        return f"the page {hex(self.page << PAGE)}"

    def held_before(self, last: int, leaves: LeavesOver) -> list[tuple[Over, Place]]:
        """The leaves that are held behind a line, with their phases."""
        over = {one.leaf.place: one for one in leaves.last}
        found = Asker(self.program, Before(self.log, last), leaves.tables).found([Place(place) for place in over], TOLD)
        return [(over[place.place], place) for place in found]

    def told(self, one: Over, place: Place, leaves: LeavesOver, when: str) -> Held:
        """A leaf that is held, or was when the page was made zero: by the line that cleared it, else by that which wrote it."""
        cleared = leaves.tables.cleared_at(place.place)
        wrote = self.log.line(one.leaf.line)
        line = self.log.line(cleared) if cleared else wrote
        pes = {phase: [pe for pe, now in enumerate(place.phases) if now == phase] for phase in MISSING}
        missing = "; ".join(text.format(f"PE {ranges(pes[phase])}") for phase, text in MISSING.items() if pes[phase])
        done = f"; cleared by {line.name}" if cleared else ""
        return Held(line, f"{self.leaf(one)}, written by {wrote.name}, {when}{done}: {missing}", place.place, place.phases)

    def leaf(self, one: Over) -> str:
        return f"{hex(one.leaf.place)}, a leaf of level {one.level}" + (f" {READ_ONLY}" if not one.leaf.value & WRITABLE else "")

    @property
    def begun(self) -> Line:
        """The last `init` of the page."""
        return self.log.line(self.leaves.begun)

    def at_refused(self) -> list[Held]:
        """The leaves that are held right before the refused line."""
        when = f"maps {self.name}" + (f", which {self.begun.name} made zero last" if self.leaves.begun else "")
        return [self.told(one, place, self.leaves, when) for one, place in self.held_before(self.refusal.line - 1, self.leaves)]

    def at_init(self) -> list[Held]:
        """The leaves that were held when the page was made zero last."""
        leaves = LeavesOver(Before(self.log, self.leaves.begun - 1), self.page)
        when = f"mapped {self.name} when {self.begun.name} made it zero"
        return [self.told(one, place, leaves, when) for one, place in self.held_before(self.leaves.begun - 1, leaves)]

    def since_init(self) -> list[Held]:
        """The leaves that were put into a tree since, and aren't held any more."""
        found = [one for one in self.leaves.over if one.since > self.leaves.begun][-TOLD:]
        when = f"mapped {self.name} since {self.begun.name} made it zero"
        return [Held(line, f"{self.leaf(one)}, written by {line.name}, {when}", one.leaf.place)
                for one in found for line in [self.log.line(one.leaf.line)]]

    def put(self) -> list[Held]:
        """The leaves that the refused line puts into a tree, with what made the page a table."""
        refused = self.log.line(self.refusal.line)
        leaves = LeavesOver(Before(self.log, refused.at), self.page)
        found = [one for one in leaves.over if one.since == refused.at][-TOLD:]
        table = self.log.line(leaves.table or refused.at)
        made = "which the same line makes a table" if table == refused else f"a table by {table.name}"
        written = lambda one: f", written by {self.log.line(one.leaf.line).name}" if one.leaf.line != refused.at else ""
        return [Held(table, f"{self.leaf(one)}{written(one)}: {refused.name} puts it into a tree, and it maps {self.name}, {made}")
                for one in found]

    def search(self) -> list[Held]:
        """What maps the page, else what mapped it since its last `init`; of a page that is a table already, and where there is nothing
        else, what the refused line makes map it."""
        if self.leaves.table and (found := self.put()):
            return found
        was_mapped = lambda: self.at_init() or self.since_init() if self.leaves.begun else []
        return self.at_refused() or was_mapped() or self.put()


def mapping_at(program: Program, log: Log, refusal: Verdict) -> list[Held]:
    """What rule 18 refuses a line for."""
    return Mapping(program, log, refusal).search()
