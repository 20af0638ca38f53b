# SPDX-License-Identifier: Apache-2.0
"""What a refusal is about, as the log's own words tell it: the places, their input addresses, roots, locks, tags and
PEs.

It goes by the writes that stand in the small log. It chooses what is tried; the program judges each try.
"""
from __future__ import annotations

import itertools
from dataclasses import dataclass, field, replace
from functools import cached_property

from why.log.lines import ADDRESS_BITS, PAGE_BYTES, Event, Header, Line, Lines, Locks
from why.asking.program import Verdict
from why.log.words import KIND_OF_REGISTER

# How many lines on each side are looked at where there are more.
NEAR = 4
PES_TRIED = 4
BITS_OF_START = {0: 48, 1: 39, 2: 30}


@dataclass(frozen=True)
class Spot:
    """A place that hangs below a root: the kind of its tree, its level, and the first address that it translates."""

    place: int
    kind: str
    level: int
    address: int
    root: int


@dataclass
class Scene:
    """The lines at hand, the refused one last, and those that come behind it in the log that was given; the places
    that hold a value there, and that of them to which the scene is narrowed; and who holds each lock, where that is
    known of the whole log."""

    header: Header
    lines: Lines
    later: Lines
    refusal: Verdict
    near_tags: list[int] = field(default_factory=list)
    held: tuple[int, ...] = ()
    focus: int | None = None
    holding: dict[str, int] | None = None

    @cached_property
    def links(self) -> dict[int, int]:
        """For each page that a write links the place, the last one."""
        return {line.event.next_page: line.event.place for line in self.lines[:-1] if line.event.next_page is not None}

    @cached_property
    def numbers(self) -> list[int]:
        return [line.at for line in self.lines]

    @property
    def refused(self) -> Line:
        return self.lines[-1]

    @property
    def event(self) -> Event:
        return self.refused.event

    @property
    def reported(self) -> int:
        """The page that is reported, or that of the place."""
        return self.refusal.at & ~(PAGE_BYTES - 1)

    def of_word(self, *words: str) -> list[Line]:
        return [line for line in self.lines if line.event.word in words]

    @cached_property
    def roots(self) -> dict[int, tuple[str, str | None]]:
        """Each page of a declared root, with its kind and lock."""
        found = {}
        for line in self.lines[:-1]:
            if line.event.word != "root":
                continue
            kind = line.event.rest[0]
            found.update(dict.fromkeys(self.header.pages_at(kind, line.event.page), (kind, line.event.lock)))
        return found

    @cached_property
    def holders(self) -> dict[str, int]:
        """Which PE took each lock last and didn't give it back; by the lines at hand, where that isn't known of all."""
        if self.holding is not None:
            return self.holding
        locks = Locks()
        for line in self.lines[:-1]:
            locks.take(line.event)
        return locks.held

    @property
    def locks(self) -> list[str]:
        """The locks of the roots above the places, or of the root that is given up; else those of all roots."""
        named = [self.roots[spot.root][1] for spot in self.spots]
        named += [self.roots[self.event.page][1]] if self.event.page in self.roots else []
        return list(dict.fromkeys(lock for lock in (named or [lock for _, lock in self.roots.values()]) if lock))

    def under_locks(self, *texts: str) -> list[str]:
        """These events by the refused line's PE, which takes the locks that nobody holds before them, and gives them
        back."""
        free = [f"{self.event.pe} {lock}" for lock in self.locks if lock not in self.holders]
        return [*(f"lock {lock}" for lock in free), *texts, *(f"unlock {lock}" for lock in free[::-1])]

    def way_up(self, place: int) -> list[int]:
        """The place, that which links its page, and so on to a place of a root; shorter where that isn't known."""
        way = [place]
        while (page := way[-1] & ~(PAGE_BYTES - 1)) not in self.roots:
            above = self.links.get(page)
            if above is None or above in way:
                break
            way.append(above)
        return way

    def spot(self, place: int) -> Spot | None:
        """Where a place translates; None where no root is known above it."""
        way = self.way_up(place)
        top = way[-1] & ~(PAGE_BYTES - 1)
        if top not in self.roots:
            return None
        kind = self.roots[top][0]
        if kind not in (("ttbr0", "ttbr1") if self.header.is_kernel else ("el2", "s2")):
            return None
        start = self.header.start_of(kind)
        joined = self.header.pages_of(kind)
        number = top // PAGE_BYTES % joined
        address = number << BITS_OF_START[start]
        for depth, step in enumerate(reversed(way)):
            address += (step % PAGE_BYTES // 8) << 39 - 9 * (start + depth)
        if kind == "ttbr1":
            address += (1 << 64) - (1 << BITS_OF_START[start])
        return Spot(place, kind, start + len(way) - 1, address, top - number * PAGE_BYTES)

    @cached_property
    def places(self) -> list[int]:
        """The places that the refusal is about: the refused one, those that link the pages it names, and those
        above; or the one to which the scene is narrowed. Of a page that is mapped those of the leaves."""
        if self.focus is not None:
            return [self.focus]
        if self.is_about_leaves and self.held:
            return [*self.held]
        event = self.event
        first = [event.place] if event.word == "w" else []
        pages = [event.page, event.next_page, self.reported or None]
        linking = [self.links[page] for page in pages if page in self.links]
        above = [place for place in first if self.refusal.name == "limbo-make" for place in self.way_up(place)[1:]]
        return list(dict.fromkeys([*first, *linking, *above]))

    @cached_property
    def narrowed(self) -> list[Scene]:
        """A scene for each further place that holds a value."""
        return [replace(self, focus=place) for place in self.held if place not in self.places]

    @cached_property
    def spots(self) -> list[Spot]:
        return [spot for place in self.places if (spot := self.spot(place))]

    @property
    def is_about_left(self) -> bool:
        """Whether rule 12 reports a root that was given up."""
        return self.refusal.name == "tag-conflict" and any(line.event.page == self.refusal.at for line in self.of_word("unroot"))

    @property
    def is_about_leaves(self) -> bool:
        """Whether rule 18 reports a page that a leaf maps."""
        return self.refusal.name == "table-mapped"

    @cached_property
    def kinds(self) -> list[str]:
        """The kinds of the trees that the refusal is about; first that of the root that left a tag."""
        named = [spot.kind for spot in self.spots]
        if self.is_about_left and self.reported in self.roots:
            named.append(self.roots[self.reported][0])
        if self.event.word == "msr":
            named.append(KIND_OF_REGISTER.get(self.event.rest[0], "el2"))
        if self.event.page in self.roots:
            named.append(self.roots[self.event.page][0])
        if self.event.word == "root":
            named.append(self.event.rest[0])
        return list(dict.fromkeys(named))

    @cached_property
    def tags(self) -> list[int]:
        """The VMIDs and ASIDs of the register writes that name a root, that of the refused line first, and those of
        the log that was given."""
        lines = [self.refused, *self.of_word("msr")]
        values = [line.event.value for line in lines if line.event.word == "msr" and line.event.value & ADDRESS_BITS]
        return list(dict.fromkeys([*(value >> 48 for value in values), *self.near_tags]))

    @cached_property
    def last_write(self) -> Line | None:
        """The last write before the refused line at a place that the refusal is about: the break, where there is
        one."""
        written = [line for line in self.lines[:-1] if line.event.word == "w" and line.event.place in self.places]
        return written[-1] if written else None

    @cached_property
    def lacks_break(self) -> bool:
        """Whether a valid value is replaced that no line cleared. Its clear belongs to the refused line then."""
        if self.refusal.name != "break-before-make":
            return False
        at_place = [line for line in self.lines[:-1] if line.event.word == "w" and line.event.place == self.event.place]
        return bool(at_place) and bool(at_place[-1].event.value & 1)

    @cached_property
    def window(self) -> Lines:
        """The lines from the last write of the place on, without the refused one; else all lines."""
        since = self.last_write.at if self.last_write else 0
        if self.event.word in ("msr", "unroot"):
            since = 0
        return tuple(line for line in self.lines[:-1] if line.at >= since)

    def in_window(self, *words: str) -> list[Line]:
        return [line for line in self.window if line.event.word in words]

    def near(self, *words: str) -> list[Line]:
        """Of these lines of the window the first ones, behind the break, and the last ones, before the refused line.
        Where nothing was written the last ones come first."""
        lines = self.in_window(*words)
        if self.last_write is None:
            return lines[:-2 * NEAR - 1:-1]
        return lines if len(lines) <= 2 * NEAR else [*lines[:NEAR], *lines[-NEAR:]]

    @cached_property
    def pes(self) -> list[int]:
        """The PEs whose events count: that of the last write of the place, of the refused line, and of what is
        between."""
        first = [self.last_write.event.pe] if self.last_write else []
        between = [line.event.pe for line in self.in_window("tlbi", "dsb")]
        return list(dict.fromkeys([*first, self.event.pe, *between[::-1]]))[:PES_TRIED]

    @cached_property
    def named(self) -> set[int | None]:
        """The pages that the lines name."""
        return {page for line in (*self.lines, *self.later) for page in (line.event.page, line.event.next_page, line.event.base)}

    def unused_output(self, span: int) -> int:
        """The first output of so many bytes in which no page is that a line names."""
        used = {page // span for page in self.named if page is not None}
        return next(at for at in itertools.count(span, span) if at // span not in used)

    def unused_pages(self, count: int) -> list[int]:
        """Pages that no line names, from the least that one does on."""
        named = self.named
        first = min((page for page in named if page), default=0x4000_0000)
        if first + (len(named) + count) * PAGE_BYTES >= 1 << 48:
            first = 0x4000_0000
        return [*itertools.islice((page for page in itertools.count(first, PAGE_BYTES) if page not in named), count)]
