# SPDX-License-Identifier: Apache-2.0
"""Which lines of a log name what a refused line speaks of: the pages on the way to its place, their root, its lock and
tags.

This only says which lines are tried first. Whether they are refused alike the program says.
"""
from __future__ import annotations

from bisect import bisect_right
from collections import defaultdict
from collections.abc import Iterable, Iterator
from dataclasses import dataclass, field
from functools import cached_property
from typing import NamedTuple

from why.log.lines import ADDRESS_BITS, Event, Log, Numbers, header_of, number

BARRIERS = (b"dsb", b"tlbi", b"isb")
LOCKS_KEPT = 64
PAGE, TAG = 12, 48
TAGS_TRIED = 8
NOT_FRESH = 6
LOADED = 200
NEVER = 1 << 60
# So many locks of a PE may be taken inside of each other.
NESTED = 8
# How many lines of each kind are near a line, and how many of the last ones count.
BEFORE, BEHIND, FLUSHES, FOCUSED, LOADS, TRIED_LOCKS, WAY, LEAVES = 6, 6, 3, 4, 16, 8, 256, 8
# How many barriers of a critical section count; and of how many register writes before a TLBI how many of its PE.
INSIDE, NEAR_LOADS, OF_ONE_PE = 64, 256, 2
# So far a critical section goes, in lines; which bits number a page; and so many of the last links of one count.
LONGEST, PAGES, LINKS = 4096, (1 << 36) - 1, 3
# With so many of the last lines, whole, the doubling begins.
DOUBLED = 1024
# The bits of a page's number inside a block of each level.
OF_BLOCKS = (9, 18)


class Write(NamedTuple):
    at: int
    place: int
    value: int


class Section(NamedTuple):
    """A critical section of a PE: its `lock` and its `unlock`."""

    begin: int
    end: int


class Register(NamedTuple):
    """A register write: its line, its PE as the line has it, and the value."""

    at: int
    pe: bytes
    value: int

    @property
    def page(self) -> int:
        return (self.value & ADDRESS_BITS) >> PAGE


@dataclass
class OfPage:
    """The lines that make a page zero, declare it, write in it and link it."""

    inits: list[int] = field(default_factory=list)
    declared: list[int] = field(default_factory=list)
    writes: list[Write] = field(default_factory=list)
    links: list[Write] = field(default_factory=list)


@dataclass
class Way:
    """The pages that matter, and the lines that put them where they are."""

    pages: set = field(default_factory=set)
    lines: set = field(default_factory=set)


class Index:
    """Where the lines before and at the refused one stand, by what they name. A page goes by its number, address /
    4096."""

    def __init__(self, log: Log, refusal):
        self.log, self.refusal, self.last = log, refusal, refusal.line
        self.header = header_of(log.header)
        self.pages: dict[int, OfPage] = defaultdict(OfPage)
        self.registers: list[Register] = []
        self.others: dict[bytes, list[int]] = defaultdict(list)
        self.open: dict[tuple[bytes, bytes], int] = {}
        self.critical: dict[bytes, list[Section]] = defaultdict(list)
        for at in range(2, self.last):
            self.note(at)
        self.holders = {lock.decode("latin-1"): int(pe) for pe, lock in self.open}
        self.note(self.last)

    def fields(self, at: int) -> list[bytes]:
        return self.log.bytes_of(at).split(b" ")

    def note(self, at: int) -> None:
        word, *fields = self.fields(at)
        if word == b"w":
            write = Write(at, number(fields[1]), number(fields[2]))
            self.pages[write.place >> PAGE].writes.append(write)
            if write.value & 3 == 3:
                self.pages[(write.value & ADDRESS_BITS) >> PAGE].links.append(write)
        elif word == b"init":
            self.pages[number(fields[1]) >> PAGE].inits.append(at)
        elif word in (b"root", b"unroot", b"null"):
            page = [name for name in fields if not name.startswith(b"@")][-1]
            self.pages[number(page) >> PAGE].declared.append(at)
        elif word == b"msr":
            self.registers.append(Register(at, fields[0], number(fields[2])))
        else:
            self.others[word].append(at)
            if word in (b"lock", b"unlock"):
                self.note_lock(at, word, fields)

    def note_lock(self, at: int, word: bytes, fields: list[bytes]) -> None:
        pe, lock = fields[:2]
        begun = self.open.pop((pe, lock), None)
        if word == b"lock":
            self.open[pe, lock] = at
            self.critical[pe].append(Section(at, NEVER))
        elif begun is not None:
            sections = self.critical[pe]
            which = bisect_right(sections, Section(begun, NEVER)) - 1
            sections[which] = Section(begun, at)

    @property
    def refused(self) -> Event:
        return self.log.event(self.last)

    def begun(self, page: int) -> int:
        """The line of the last `init` of a page, 0 where there is none. That of the refused line doesn't count, and
        of a root that was given up, and left a tag, none behind that."""
        before = self.given_up if page == self.refusal.at >> PAGE and self.given_up else self.last
        return max((at for at in self.pages[page].inits if at < before), default=0)

    @cached_property
    def given_up(self) -> int:
        """The last line that gave the root up which left the tag that is reported; 0 where that isn't reported."""
        page = self.refusal.at >> PAGE
        lines = [at for at in self.pages[page].declared if self.fields(at)[0] == b"unroot" and at < self.last]
        return max(lines, default=0) if self.refusal.name == "tag-conflict" else 0

    def of_words(self, *words: bytes) -> list[int]:
        return sorted(at for word in words for at in self.others[word])

    @cached_property
    def named(self) -> list[int]:
        """The pages that the refused line names, that which it reports, and that of the root that a register write
        names. The page to which a written value leads matters where the rules before that of pages don't refuse the
        line."""
        line, at = self.refused, self.refusal.at
        linked = line.next_page if self.refusal.rule >= NOT_FRESH else None
        named = [line.page, linked, line.base, at if at >> PAGE else None, *(write.place for write in self.mapping)]
        return [page >> PAGE for page in named if page is not None and page >> PAGE < 1 << 36]

    @cached_property
    def mapping(self) -> list[Write]:
        """Of a page that is reported as mapped, the last writes of values that may be leaves which map it."""
        if self.refusal.name != "table-mapped":
            return []
        page = self.refusal.at >> PAGE
        has = lambda value: (value & ADDRESS_BITS) >> PAGE == page if value & 2 else \
            any((value & ADDRESS_BITS) >> PAGE + bits == page >> bits for bits in OF_BLOCKS)
        return sorted(write for of in self.pages.values() for write in of.writes
                      if write.value & 1 and write.at < self.last and has(write.value))[-LEAVES:]

    # ---- ways

    @cached_property
    def way(self) -> Way:
        return self.climb(True)

    def climb(self, last_link_alone: bool) -> Way:
        way = Way()
        self.climb_from(way, [*self.named], last_link_alone)
        return way

    def climb_from(self, way: Way, waiting: list[int], last_link_alone: bool) -> None:
        """From these pages up: the lines that made each page zero and declared it, and the writes that linked it."""
        joined = self.header.pages_of("s2")
        while waiting:
            page = waiting.pop()
            if page in way.pages:
                continue
            way.pages.add(page)
            begun, first = self.begun(page), page - page % joined
            waiting.extend(range(first, first + joined) if any(self.pages[first + i].declared for i in range(joined)) else ())
            way.lines.update(at for at in (*self.pages[page].inits, *self.pages[page].declared) if at >= begun)
            links = [link for link in self.pages[page].links if link.at >= begun and link.at != self.last]
            for link in links[-1:] if last_link_alone else links:
                way.lines.update(self.written_at(link.place, link.at if last_link_alone else 0))
                waiting.append(link.place >> PAGE)

    def descend(self, way: Way, pages: list[int]) -> None:
        """From these pages down: all that was written in them, and in the pages that they link."""
        waiting, seen = [*pages], set()
        while waiting:
            page = waiting.pop()
            if page in seen or not self.pages[page].inits:
                continue
            seen.add(page)
            begun = self.begun(page)
            inside = [write for write in self.pages[page].writes if write.at >= begun]
            way.lines.update(at for at in (*self.pages[page].inits, *(write.at for write in inside)) if at >= begun)
            waiting.extend((write.value & ADDRESS_BITS) >> PAGE for write in inside if write.value & 3 == 3)

    def written_at(self, place: int, since: int = 0) -> list[int]:
        """The writes of a place since the `init` of its page, and from a line on."""
        begun = max(since, self.begun(place >> PAGE))
        return [write.at for write in self.pages[place >> PAGE].writes if write.place == place and write.at >= begun]

    def written_from(self, place: int, since: int) -> list[int]:
        """A write of a place, and the next one there."""
        writes = self.pages[place >> PAGE].writes
        return [write.at for write in writes if write.place == place and write.at >= since][:2]

    def made_before(self, place: int, at: int) -> int | None:
        """The last line before one that wrote a valid value at a place."""
        made = [write.at for write in self.pages[place >> PAGE].writes if write.place == place and write.value & 1 and write.at < at]
        return made[-1] if made else None

    def of_refused(self, last_alone: bool) -> list[int]:
        """The writes of the refused line's place: those from the last valid one before it on, or all since its
        page's `init`; and those of the leaves that map the page which is reported."""
        place = self.refused.place
        of_leaves = [at for write in self.mapping for at in self.written_at(write.place, write.at)]
        return of_leaves if place is None else [*of_leaves, *self.written_at(place, last_alone and self.made_before(place, self.last) or 0)]

    def window_of(self, way: Way) -> int:
        """The line from which on barriers and TLBIs can matter: the last valid write of the refused place, or of the
        way to it; the first of the leaves that map the page which is reported."""
        if self.mapping:
            return self.mapping[0].at
        if self.refused.place is not None:
            return self.made_before(self.refused.place, self.last) or self.last
        return min((at for at in way.lines if at < self.last), default=2)

    # ---- registers and locks

    def registers_near(self, way: Way, most: int = 0) -> list[Register]:
        """The register writes that name a page of the way as it is now or none, all or so many of the last, each
        with those next to it by the same PE: an ASID may stand in the one before."""
        by_pe, found = defaultdict(list), {}
        for register in self.registers:
            by_pe[register.pe].append(register)
        begun = {page: self.begun(page) for page in way.pages}
        for written in by_pe.values():
            found |= {register: written[max(0, i - 1):i + 2] for i, register in enumerate(written)
                      if register.page in begun and register.at >= begun[register.page]}
        return sorted({near for register in sorted(found)[-most:] for near in found[register] if near.at < self.last})

    def with_its_root(self, register: Register) -> list[int]:
        """A register write with the lines that make its root, and the next `isb` of its PE."""
        at, page = register.at, self.pages[register.page]
        behind = bisect_right(self.others[b"isb"], at)
        synced = [later for later in self.others[b"isb"][behind:behind + 64] if self.fields(later)[1] == register.pe]
        zeroed = [line for line in page.inits if line < at][-1:]
        declared = [line for line in page.declared if zeroed and zeroed[0] < line < at and self.fields(line)[0] != b"unroot"]
        return [at, *zeroed, *declared, *synced[:1]]

    def tags(self, way: Way, most: int = 0) -> set[int]:
        """The register writes that give the roots of the way their tags, all or so many of the last, each with the
        lines that make its root, and the next `isb` of its PE."""
        return {line for register in self.registers_near(way)[-most:] for line in self.with_its_root(register)}

    def tags_near(self) -> list[int]:
        """The ASIDs and VMIDs of the register writes that name a page of the way, and of those next to them by the
        same PE, since an ASID may stand in the other register; the last ones first."""
        values = [register.value for register in self.registers_near(self.way)]
        return list(dict.fromkeys(value >> TAG for value in values[::-1] if value))[:TAGS_TRIED]

    def loading(self) -> list[int]:
        """The last lines that load the roots of the way."""
        return sorted(self.tags(self.way, LOADED))

    def locks(self, way: Way) -> set[int]:
        """The last lines of the locks of the roots on the way, and of the lock that the refused line names, from a
        `lock` on."""
        wanted = {lock for at in way.lines if (lock := self.log.event(at).lock)} | {self.refused.lock}
        named = [at for at in self.of_words(b"lock", b"unlock") if self.log.event(at).lock in wanted][-LOCKS_KEPT:]
        while named and self.log.event(named[0]).word == "unlock" and named[0] != self.last:
            named.pop(0)
        return set(named)

    # ---- critical sections, and what the refused line links

    def sections_of(self, at: int) -> list[Section]:
        """The critical sections of its PE in which a line stands."""
        sections = self.critical[self.fields(at)[1]]
        behind = bisect_right(sections, Section(at, NEVER))
        return [one for one in sections[max(0, behind - NESTED):behind] if one.end >= at]

    def held_around(self, lines: Iterable[int]) -> set[int]:
        """The `lock` before each of these lines and the `unlock` behind it, of its PE."""
        found = {at for line in lines for one in self.sections_of(line) for at in one}
        return {at for at in found if at <= self.last}

    def writes_of(self, lines: Iterable[int]) -> list[int]:
        return [at for at in lines if self.fields(at)[0] in (b"w", b"unroot")]

    @cached_property
    def linked(self) -> set[int]:
        """What makes the page that the refused line links fit to be linked, whichever rule refuses it: it counts
        behind a repair."""
        way, page = Way(), self.refused.next_page
        self.descend(way, [page >> PAGE] if page is not None else [])
        return way.lines

    # ---- what is tried

    def slices(self, broken: int) -> Iterator[Numbers]:
        """Lines to try, from few to many, with barriers and TLBIs from where a place was broken on. The refused line
        is the last of each."""
        barriers = self.of_words(*BARRIERS)
        yield self.sections_alone(broken)
        others = {*self.of_words(*self.others), *(register.at for register in self.registers)}
        others |= {at for page in self.pages.values() for at in (*page.inits, *page.declared)}
        for last_link_alone, down in ((True, False), (True, True), (False, True)):
            way = self.climb(last_link_alone)
            way.lines.update(self.of_refused(last_link_alone), self.linked)
            if down:
                self.descend(way, self.named)
            since = min(broken, self.window_of(way))
            near = {at for at in barriers if at >= since}
            kept = way.lines | near | self.tags(way) | {self.last}
            held = self.held_around(self.writes_of(way.lines))
            yield sorted(kept | held)
            yield sorted(kept | held | self.locks(way))
        yield sorted(way.lines | others | {self.last})
        back = DOUBLED
        while back < self.last:
            since = max(2, self.last - back)
            yield sorted(way.lines | {*range(since, self.last + 1)} | self.needed_before(since))
            back *= 2

    def sections_alone(self, broken: int) -> Numbers:
        """The way with its locks, the critical sections of the break and of the refused line, whole, and the last
        register writes."""
        way = self.climb(True)
        way.lines.update(self.of_refused(True), self.linked)
        whole = self.whole_sections([*self.of_refused(True), *self.written_near(broken), self.last])
        lines = way.lines | whole | self.way_of(whole)
        return sorted(lines | self.held_around(self.writes_of(lines)) | self.tags(way, LOADS) | {self.last})

    def written_near(self, at: int) -> list[int]:
        """The line, where it is a write before the refused one."""
        return [at] if at < self.last and self.fields(at)[0] == b"w" else []

    def needed_before(self, since: int) -> set[int]:
        """Of the lines before one what those from there on go by: the pages, locks and registers that they name,
        whole."""
        pages = {page for at in range(max(2, since), self.last + 1) for page in self.pages_in(at)}
        way = Way()
        self.climb_from(way, [*pages], True)
        self.descend(way, [*pages])
        way.lines.update(register.at for register in self.registers if register.at < since)
        way.lines.update(at for at in self.others[b"isb"] if at < since)
        way.lines.update(at for of in self.pages.values() for at in of.declared if of.declared)
        way.lines.update(at for of in self.pages.values() if of.declared for at in of.inits)
        return way.lines | self.held_around([*self.writes_of(way.lines), *range(max(2, since), self.last + 1)])

    def pages_in(self, at: int) -> list[int]:
        event = self.log.event(at)
        return [page >> PAGE for page in (event.page, event.next_page, event.base) if page]

    @cached_property
    def core(self) -> set[int]:
        """The lines without which nothing is refused alike."""
        return self.way.lines | {*self.of_refused(True), self.last}

    def about(self, at: int, refusal) -> set[int]:
        """What a line before the refused one goes by that lines to try lack, where the program refuses it there: its
        critical section, whole; the places and the page that are reported, with the sections that wrote there; and
        for a register its last writes."""
        word, pe = self.fields(at)[:2]
        lines = self.whole_sections([at])
        page = (refusal.at >> PAGE) & PAGES
        begun = max((line for line in self.pages[page].inits if line < at), default=0)
        of_page = self.pages[page]
        lines.update(line for line in (*of_page.inits, *of_page.declared) if begun <= line <= at)
        for link in [link for link in of_page.links if link.at < at][-LINKS:]:
            lines.update(self.whole_sections(self.written_from(link.place, link.at)))
        if refusal.at % (1 << PAGE):
            lines.update(self.whole_sections(line for line in self.written_at(refusal.at) if line <= at))
        if word in (b"msr", b"tlbi", b"unroot"):
            before = [register for register in self.registers if register.at <= at][-LOADED:]
            lines.update(line for register in before for line in self.with_its_root(register))
        return {line for line in lines | self.way_of(lines) if line <= self.last}

    def whole_sections(self, lines: Iterable[int]) -> set[int]:
        """These lines with all that their PEs do in the critical sections around them."""
        found = {*lines}
        for at in [*found]:
            pe = self.fields(at)[1]
            for one in self.sections_of(at):
                last = min(one.end, self.last, one.begin + LONGEST)
                found.update(line for line in range(one.begin, last + 1) if self.fields(line)[1] == pe)
        return found

    def way_of(self, lines: Iterable[int]) -> set[int]:
        """What the pages go by in which these lines write, from the last `init` on, with its sections."""
        way = Way()
        self.climb_from(way, [page for at in lines for page in self.pages_in(at)], True)
        return way.lines | self.held_around(self.writes_of(way.lines))

    def candidates(self, held: list[int]) -> list[int]:
        """The lines near by that may have been meant to help, or that say what the refusal is about: those of the
        way, writes of the same places, the barriers and TLBIs in their critical sections and around them, around the
        refused line and around those of what is held, the register writes that give the root its tags, and the last
        lines of the locks."""
        way = self.climb(True)
        way.lines.update(self.of_refused(True), self.linked, *map(self.of_held, held))
        changed = sorted(at for at in way.lines if self.fields(at)[0] in (b"w", b"unroot") and at < self.last)
        registers = self.registers_near(way, LOADS)
        is_write = self.refused.word in ("w", "init")
        focus = [*changed[-FOCUSED:], *held, *([] if is_write else [register.at for register in registers]), self.last]
        barriers = self.of_words(*(BARRIERS[:2] if is_write else BARRIERS))
        chosen = {at for centre in focus for at in (*self.around(barriers, centre), *self.inside(barriers, centre))}
        taken = sorted(self.locks(way))[-TRIED_LOCKS:]
        given = {at for register in (*registers, *self.loads_of(chosen)) for at in self.with_its_root(register)}
        lines = {*chosen, *focus, *taken, *given, *self.linked, *sorted(way.lines)[-WAY:]}
        return sorted({at for at in lines | self.held_around(self.writes_of(lines)) if at < self.last} | {self.last})

    def inside(self, barriers: list[int], centre: int) -> list[int]:
        """The barriers and TLBIs in the critical sections of a line, behind it."""
        ends = [one.end for one in self.sections_of(centre)]
        first = bisect_right(barriers, centre)
        pe, last = self.fields(centre)[1], min(max(ends, default=0), self.last)
        return [at for at in barriers[first:bisect_right(barriers, last)] if self.fields(at)[1] == pe][:INSIDE]

    def loads_of(self, lines: Iterable[int]) -> list[Register]:
        """The last register write of the PE before each TLBI of these lines."""
        found = set()
        for at in lines:
            word, pe = self.fields(at)[:2]
            if word == b"tlbi":
                before = self.registers[:bisect_right(self.registers, (at,))]
                found.update([register for register in before[:-NEAR_LOADS:-1] if register.pe == pe][:OF_ONE_PE])
        return sorted(found)[-LOADS:]

    def of_held(self, at: int) -> list[int]:
        """A line that wrote at a place which holds a value, and the writes there from the last valid one before it
        on."""
        line = self.log.event(at)
        if line.word == "msr":
            return self.with_its_root(next(register for register in self.registers if register.at == at))
        since = line.place is not None and self.made_before(line.place, at) or at
        return [at] if line.place is None else [before for before in self.written_at(line.place, since) if before <= at]

    def around(self, barriers: list[int], centre: int) -> list[int]:
        """The barriers and TLBIs next to a line: those of its PE, and the next TLBIs of any."""
        pe, middle = self.fields(centre)[1], bisect_right(barriers, centre)
        before, behind = barriers[max(0, middle - 64):middle], barriers[middle:middle + 256]
        own = lambda lines: [at for at in lines if self.fields(at)[1] == pe]
        flushes = lambda lines: [at for at in lines if self.fields(at)[0] == b"tlbi"]
        return [*own(before)[-BEFORE:], *own(behind)[:BEHIND], *flushes(before)[-FLUSHES:], *flushes(behind)[:FLUSHES]]
