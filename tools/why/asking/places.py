# SPDX-License-Identifier: Apache-2.0
"""`pending`: the places whose old descriptor a TLB may still hold at the end of an accepted log.

The log's writes give the candidates: places that had a valid value since the `init` of their page and have none now. First their
pages are made zero behind the log, all in one log, but for those to which the values that are there lead from a root: where that is
accepted the page is in no tree, and none of its places holds anything. Then each place of the others is asked of the program by a
made write behind the log, again all in one log: one that is accepted says that its place holds nothing, and changes no other
candidate; one that break-before-make refuses says that it does, and `explain` tells the phases; then the asking goes on behind it.
So there are as many runs as places that are found, and some more.

A made write links a page of its own that was just made zero: so it is valid at every level, of another core than what the place
held, and breaks no rule where the place holds nothing. Where the log left too few pages that can be made zero, it links
one that isn't. Rule 6 refuses that where the place holds nothing and isn't at level 3. It comes behind break-before-make,
so this says the same, at the cost of a run.
"""
from __future__ import annotations

from array import array
from collections.abc import Callable, Iterator
from concurrent.futures import ThreadPoolExecutor
from dataclasses import dataclass, field, replace
from functools import cached_property
from itertools import count, islice

from why.log.lines import ADDRESS_BITS, Before, Event, Header, Locks, Log, event_of, header_of
from why.asking.program import Answer, Program, Unable

BREAK_BEFORE_MAKE, NO_LOCK, PAGE_IN_USE = 4, 2, 10
LIMIT_OF_PAGES = 16384
# So many candidates are asked about in one run.
AT_ONCE = 8192
JOBS = 2
LINK = 0x803
PAGE, INSIDE, PLACES = 12, 4095, 512
LAST_LEVEL = 3
# With what the lines begin that are looked at: `w`, and `init`, `lock`, `root`, `unlock` and `unroot`.
WRITE, OF_A_TREE = b"w"[0], frozenset(b"ilru")
# At these levels bits 01 are those of a block.
WITH_BLOCKS = (1, 2)


@dataclass(frozen=True)
class Place:
    """A place that may hold a value, and the line that cleared its last valid one, 0 where none did; and where it does hold one, by
    the program, its phase at each PE."""

    place: int
    cleared: int = 0
    phases: tuple[str, ...] = ()


class Table:
    """For each place of a page its last valid value since the `init` of the page, with bit 0 clear where it was cleared, and the
    line that cleared it last. Bits 01 are taken for valid, unless they come upon bits 11: those are cleared by them."""

    __slots__ = ("values", "cleared")

    def __init__(self):
        self.values, self.cleared = array("Q", bytes(8 * PLACES)), array("I", bytes(4 * PLACES))

    def write(self, at: int, inside: int, value: int) -> None:
        old = self.values[inside]
        if value & 3 == 3:
            self.values[inside], self.cleared[inside] = value, 0
        elif value & 1 and old & 3 != 3:
            self.values[inside] = value
        elif old & 1:
            self.values[inside], self.cleared[inside] = old & ~1, at

    def without_value(self, level: int | None) -> Iterator[tuple[int, int]]:
        """The places whose present value isn't valid at this level, or may not be where the level isn't known, and the lines."""
        is_block = level in WITH_BLOCKS
        return ((inside, at) for inside, at in enumerate(self.cleared) if at and not (is_block and self.values[inside] & 1))


@dataclass
class Tables:
    """What a log wrote: each page that was made zero, with what its places had since; None where they had no valid value. And
    the roots that are declared, with the levels at which walks start."""

    header_text: str
    pages: dict[int, Table | None] = field(default_factory=dict)
    locks: Locks = field(default_factory=Locks)
    roots: dict[int, int] = field(default_factory=dict)

    @cached_property
    def header(self) -> Header:
        return header_of(self.header_text)

    def take(self, at: int, line: bytes) -> None:
        if line[0] == WRITE:
            _, _, place, value = line.split(b" ", 4)[:4]
            self.write(at, int(place, 16), int(value, 16))
        elif line[0] in OF_A_TREE and line.startswith(b"init "):
            self.pages[int(line.split(b" ", 3)[2], 16) >> PAGE] = None
        elif line[0] in OF_A_TREE and not line.startswith(b"isb "):
            self.declare(event_of(line.decode("latin-1")))

    def write(self, at: int, place: int, value: int) -> None:
        table = self.pages.get(place >> PAGE)
        if table is None and value & 1:
            table = self.pages[place >> PAGE] = Table()
        if table is not None:
            table.write(at, (place & INSIDE) >> 3, value)

    def declare(self, event: Event) -> None:
        self.locks.take(event)
        if event.word == "root":
            self.roots.update(dict.fromkeys(self.pages_of_root(event.rest[0], event.page), self.header.start_of(event.rest[0])))
        elif event.word == "unroot":
            self.roots.pop(event.page >> PAGE, None)

    def pages_of_root(self, kind: str, address: int) -> range:
        first = address >> PAGE
        return range(first, first + self.header.pages_of(kind))

    def cleared_at(self, place: int) -> int:
        """The line that cleared the last valid value of a place; 0 where none did."""
        table = self.pages.get(place >> PAGE)
        inside = (place & INSIDE) >> 3
        return 0 if table is None or table.values[inside] & 1 else table.cleared[inside]

    def reached(self) -> dict[int, int]:
        """The pages to which the values that are there lead from the roots, each with its level."""
        found, waiting = {}, list(self.roots.items())
        while waiting:
            page, level = waiting.pop()
            if page in found or level > LAST_LEVEL:
                continue
            found[page] = level
            table = self.pages.get(page)
            waiting += [((value & ADDRESS_BITS) >> PAGE, level + 1) for value in table.values if value & 3 == 3] if table else []
        return found


def tables_of(front) -> Tables:
    tables = Tables(front.header)
    take, counted = tables.take, frozenset((WRITE, *OF_A_TREE))
    for at, line in front.lines():
        if line[0] in counted:
            take(at, line)
    return tables


class Asker:
    """Asks about candidates behind the front part of a log."""

    def __init__(self, program: Program, front, tables: Tables):
        self.program, self.front = program, front
        named, held = tables.locks.named, tables.locks.held
        self.taken = [b"lock 0 %s" % lock.encode() for lock in named if lock not in held]
        # PE 0, which takes the free locks, and those that hold one
        self.writers = list(dict.fromkeys([0, *(pe for lock, pe in held.items() if lock in named)]))
        self.zeroed = tables.pages.keys()
        room = min(AT_ONCE, LIMIT_OF_PAGES - len(self.zeroed))
        # pages that the log never made zero
        unused = (page << PAGE for page in count(1) if page not in self.zeroed)
        self.fresh = [*islice(unused, room)]
        self.never_zeroed = next(unused)

    def answer_to(self, tail: list[bytes], command: str) -> tuple[Answer, int]:
        """The answer to the log with these lines behind it, and which of them it refuses: their number where none is. An
        answer that neither accepts nor refuses says nothing about a place."""
        answer = self.program.feed((command,), self.front.with_tail([*self.taken, *tail]))
        if answer.accepted:
            return answer, len(tail)
        if not answer.refusal:
            raise Unable(answer.status, f"what was asked behind the log's end has no answer: {answer.first}")
        return answer, answer.refusal.line - self.front.events - len(self.taken) - 2

    def in_trees(self, pages: list[int]) -> set[int]:
        """Those of the pages that an `init` behind the log may not make zero: pages of trees, and null pages. A page that
        the log never made zero is neither, and to ask about it would take one of the pages that are left."""
        found, left = set(), [page for page in pages if page in self.zeroed]
        while left:
            answer, position = self.answer_to([b"init 0 0x%x" % (page << PAGE) for page in left], "check")
            if answer.refusal and answer.refusal.rule == PAGE_IN_USE:
                found.add(left[position])
            left = left[position + 1:]
        return found

    def asked(self, candidates: list[Place], pe: int) -> tuple[Answer, int]:
        """The answer to a log with a made write for each, and which of them it refuses: their number where none is. The
        first ones link pages that are made zero, as many as there are, and the others one that isn't."""
        write = lambda candidate, page: b"w %d 0x%x 0x%x" % (pe, candidate.place, page | LINK)
        tail: list[bytes] = []
        for candidate, page in zip(candidates, self.fresh):
            tail += [b"init 0 0x%x" % page, write(candidate, page)]
        pairs = len(tail) // 2
        tail += [write(candidate, self.never_zeroed) for candidate in candidates[pairs:]]
        answer, row = self.answer_to(tail, "explain")
        return answer, row // 2 if row < 2 * pairs else row - pairs

    def next_writer(self, position: int, writer: int) -> int:
        """Who writes next, where this one had no lock at the candidate of this position: the first one anew, unless the
        candidate was just tried with it."""
        tried = position == 0 or writer == 0
        return (writer + 1) % len(self.writers) if tried else 0

    def found(self, candidates: list[Place], most: int = LIMIT_OF_PAGES * PLACES) -> list[Place]:
        """Those of the candidates that hold a value, at most so many."""
        found, left, writer = [], candidates, 0
        while left and len(found) < most:
            now = left[:AT_ONCE]
            answer, position = self.asked(now, self.writers[writer])
            refusal = answer.refusal
            if refusal and refusal.rule == NO_LOCK and not (position == 0 and writer + 1 == len(self.writers)):
                left, writer = left[position:], self.next_writer(position, writer)
                continue
            if refusal and refusal.rule == BREAK_BEFORE_MAKE:
                found.append(replace(now[position], phases=answer.phases))
            left, writer = left[position + 1 if position < len(now) else len(now):], 0
        return found


def phases_after(program: Program, log: Log, last: int, place: int) -> tuple[str, ...]:
    """How far a place has come at each PE behind a line; none where it holds nothing."""
    before = Before(log, last)
    return next((one.phases for one in Asker(program, before, tables_of(before)).found([Place(place)])), ())


def stale_places(program: Program, front) -> list[Place]:
    """The places that hold an old value behind the front part of an accepted log, in order."""
    tables = tables_of(front)
    asker = Asker(program, front, tables)
    levels = tables.reached()
    cleared = {page: list(table.without_value(levels.get(page))) for page, table in sorted(tables.pages.items()) if table}
    alone = [page for page, places in cleared.items() if places and page not in levels]
    out = set(alone).difference(*in_jobs(asker.in_trees, alone))
    candidates = [Place(page << PAGE | inside << 3, at) for page in cleared if page not in out for inside, at in cleared[page]]
    return [place for found in in_jobs(asker.found, candidates) for place in found if "live" not in place.phases]


def in_jobs(ask: Callable, items: list) -> list:
    """What is answered of the items, each job a part of them, in order."""
    shares = [items[i * len(items) // JOBS:(i + 1) * len(items) // JOBS] for i in range(JOBS)]
    try:
        with ThreadPoolExecutor(JOBS) as pool:
            return list(pool.map(ask, shares))
    except RuntimeError as fault:
        # Python says so where there is no memory for a thread.
        raise MemoryError from fault
