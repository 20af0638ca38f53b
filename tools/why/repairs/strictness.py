# SPDX-License-Identifier: Apache-2.0
"""Whether a refusal is one of those by which `bbm` is stricter than the architecture (docs/BREAK_BEFORE_MAKE.md),
each by what the program says is held."""
from __future__ import annotations

from why.asking.holding import OF_PLACES, Held, Places
from why.asking.mapping import READ_ONLY
from why.asking.places import Place
from why.asking.program import Program, Verdict
from why.log import words
from why.log.lines import Line, Log
from why.repairs.scene import Scene

LINK = "docs/BREAK_BEFORE_MAKE.md#where-it-is-stricter-than-the-architecture"
# The list's words for each case.
LEAF_AND_TABLE = "{} took the leaves below {}, which bbm says were held before it and aren't now, and not the table: by the architecture one " \
    "TLBI by address takes both, and bbm wants a second one for the table"
CHILDREN = "{} takes a part of the range below {}, and there more is held: bbm wants a TLBI for the whole range of a table"
OWN_PE = "of {} nothing is held at PE {}, which flushed its own TLB, and no other PE ever loaded the root: bbm wants a flush at each PE"
ROLLOVER = "nothing of the root is held at PE {}, which loads the tag: the architecture asks no more of a PE whose TLB is its own, and bbm " \
    "wants a flush at each PE that had the tag"
PERMISSIONS = "no guest can write the page through what maps it, a leaf {}: bbm doesn't look at permissions"


def by_address(line: Line) -> bool:
    operation = words.base_of(line.event.operation)
    return operation not in words.LAST_LEVEL and not words.is_of_tag(operation)


class Strictness:
    """Names the cases of one refusal, by what is held."""

    def __init__(self, program: Program, log: Log, refusal: Verdict, scene: Scene, held: list[Held]):
        self.program, self.log, self.refusal, self.scene, self.held = program, log, refusal, scene, held

    def held_below(self, place: int, last: int) -> bool:
        """Whether something below a place is held behind a line, by the program."""
        places = Places(self.program, self.log, self.refusal, last)
        inside = [there for there, _ in places.inside(place)] if place >> 12 in places.tables.pages else []
        return bool(inside) and bool(places.asker.found([Place(there) for there in inside], 1))

    def of_table(self, one: Held) -> list[str]:
        """A table that its TLBI by address left."""
        place, since = one.place, one.line.at
        flushes = [line for line in self.scene.in_window("tlbi") if by_address(line) and line.at > since]
        if not flushes or self.log.event(self.refusal.line).place == place and self.refusal.name != "break-before-make":
            return []
        if self.held_below(place, self.refusal.line - 1):
            return [CHILDREN.format(flushes[-1].name, hex(place))]
        return [LEAF_AND_TABLE.format(flushes[-1].name, hex(place))] if self.held_below(place, flushes[0].at - 1) else []

    def of_own_pe(self, one: Held) -> list[str]:
        """A root that no PE loaded but the one that flushed its own TLB."""
        done = [pe for pe, phase in enumerate(one.phases) if phase == "cleansed"]
        spot = self.scene.spot(one.place)
        registers = [self.log.event(at) for at in range(2, self.refusal.line) if self.log.bytes_of(at).startswith(b"msr ")]
        loaded = {event.pe for event in registers if spot and event.base == spot.root}
        is_local = any(not words.is_broadcast(line.event.operation) for line in self.scene.in_window("tlbi"))
        return [OWN_PE.format(hex(one.place), done[0])] if is_local and len(done) == 1 and loaded == {*done} else []

    def of_rollover(self) -> list[str]:
        pe, pes = self.scene.event.pe, {one.line.event.pe for one in self.held}
        loaded = {line.event.pe for line in self.scene.of_word("msr") if line.event.base == self.refusal.at}
        is_own = self.scene.header.is_kernel and pe in loaded and pes and pe not in pes
        return [ROLLOVER.format(pe)] if is_own and all("no TLBI" in one.told for one in self.held) else []

    def named(self) -> list[str]:
        if self.refusal.name == "tag-conflict":
            return self.of_rollover()
        if self.scene.is_about_leaves:
            return [PERMISSIONS.format(READ_ONLY)] if self.held and all(READ_ONLY in one.told for one in self.held) else []
        if self.refusal.name not in OF_PLACES:
            return []
        places = [one for one in self.held if one.place is not None]
        found = [text for one in places[:1] for text in self.of_table(one)]
        return found or [text for one in places[:1] for text in self.of_own_pe(one)]
