# SPDX-License-Identifier: Apache-2.0
"""What the pages of a log's trees translate, as its own words tell it: the kind of the tree, the level, the first
input address, the root with its lock, and the tags under which registers loaded that. It judges nothing; it names
what a line speaks of.
"""
from __future__ import annotations

from collections import defaultdict
from dataclasses import dataclass

from why.asking.places import INSIDE, LAST_LEVEL, PAGE, Tables
from why.log import words
from why.log.lines import ADDRESS_BITS, Event, event_of, header_of

# How many bits of an address a table of each start level translates.
BITS_OF_START = {0: 48, 1: 39, 2: 30}
ALL_BITS = 64
OF_TREES = frozenset((b"init", b"w", b"root", b"msr", b"lock", b"unlock", b"unroot"))
REGISTER_OF_ASIDS = "ttbr1_el1"


def bits_of(level: int) -> int:
    """How many bits of an address an entry of this level translates."""
    return 39 - 9 * level


@dataclass(frozen=True)
class Spot:
    """What a page of a tree is, or a place in it: the kind, the level, the first input address, the page of the root,
    and its lock."""

    kind: str
    level: int
    address: int
    root: int
    lock: str | None


class Trees:
    """The trees of a front part, with all that was in one: a page keeps what it was until it is made zero or linked
    anew."""

    def __init__(self, front, recorded: bool = False):
        self.header = header_of(front.header)
        self.tables = Tables(front.header)
        self.where: dict[int, Spot] = {}
        self.tags: dict[int, list[int]] = defaultdict(list)
        self.registers: dict[tuple[int, str], int] = {}
        self.written: dict[int, Spot | None] | None = {} if recorded else None
        for at, line in front.lines():
            self.take(at, line)

    def take(self, at: int, line: bytes) -> None:
        word = line.split(b" ", 1)[0]
        if word not in OF_TREES:
            return
        event = event_of(line.decode("latin-1"))
        if event.word == "msr":
            self.load(event)
            return
        self.tables.take(at, line)
        if event.word == "init":
            self.where.pop(event.page >> PAGE, None)
        elif event.word == "root":
            self.declare(event)
        elif event.word == "w":
            self.write(at, event)

    def declare(self, event: Event) -> None:
        kind, start = event.rest[0], self.header.start_of(event.rest[0])
        upper = (1 << ALL_BITS) - (1 << BITS_OF_START.get(start, 0)) if kind == "ttbr1" else 0
        for number, page in enumerate(self.tables.pages_of_root(kind, event.page)):
            first = upper + (number << BITS_OF_START.get(start, 0))
            self.attach(page, Spot(kind, start, first, event.page, event.lock))

    def write(self, at: int, event: Event) -> None:
        spot = self.spot(event.place)
        if self.written is not None:
            self.written[at] = spot
        if spot and event.next_page is not None and spot.level < LAST_LEVEL:
            self.link(event.next_page >> PAGE, spot, event.place)

    def link(self, page: int, above: Spot, _place: int) -> None:
        """A page hangs at a place that translates this."""
        self.attach(page, Spot(above.kind, above.level + 1, above.address, above.root, above.lock))

    def attach(self, page: int, spot: Spot) -> None:
        if self.where.get(page) == spot:
            return
        self.where[page] = spot
        table = self.tables.pages.get(page)
        for inside, value in enumerate(table.values if table and spot.level < LAST_LEVEL else ()):
            if value & 3 == 3:
                self.link((value & ADDRESS_BITS) >> PAGE, self.inside(spot, inside), page << PAGE | inside << 3)

    def load(self, event: Event) -> None:
        """A register write: the tags under which its root may be read."""
        register = event.rest[0]
        self.registers[event.pe, register] = event.value
        is_split = self.header.asids_of_ttbr1 and register in ("ttbr0_el1", REGISTER_OF_ASIDS)
        lower = self.registers.get((event.pe, "ttbr0_el1"), 0) if is_split else event.value
        tag = (self.registers.get((event.pe, REGISTER_OF_ASIDS), 0) if is_split else event.value) >> words.ASID_SHIFT
        root = lower & ADDRESS_BITS
        if root:
            self.tags[root] = [*(old for old in self.tags[root] if old != tag), tag]

    def inside(self, page: Spot, inside: int) -> Spot:
        return Spot(page.kind, page.level, page.address + (inside << bits_of(page.level)), page.root, page.lock)

    def spot(self, place: int) -> Spot | None:
        """What a place translates; None where its page was in no tree."""
        page = self.where.get(place >> PAGE)
        return page and self.inside(page, (place & INSIDE) >> 3)

    def spot_at(self, at: int, place: int) -> Spot | None:
        """What the place of a line translated there, or where that wasn't known yet what it does behind all."""
        return (self.written or {}).get(at) or self.spot(place)

    def tag_of(self, pe: int) -> int | None:
        """The VMID of a PE; None where none was loaded."""
        value = self.registers.get((pe, "vttbr_el2"))
        return None if value is None else value >> words.ASID_SHIFT

    def last_value(self, place: int) -> int:
        """The last valid value of a place since its page was made zero; 0 where it had none."""
        table = self.tables.pages.get(place >> PAGE)
        value = table.values[(place & INSIDE) >> 3] if table else 0
        return value and value | 1
