# SPDX-License-Identifier: Apache-2.0
"""Whether a refusal is real: whether in some run of the TLBs one keeps what the refused line needs gone.

For rule 4 the program's `counterrun` says it of a block or page: its run is a proof, and where it has none no PE
stands open to the place (docs/MACHINE.md). Tables, walks that go on behind a flush, and rules 12 and 18 are tried
here: `follow` judges each run. Why there is none is asked by changes of the log, after which the rule counts a flush.
"""
from __future__ import annotations

from collections.abc import Iterator
from dataclasses import dataclass, replace
from enum import Enum
from functools import cache, cached_property
from itertools import combinations

from why.asking.least import BREAK_BEFORE_MAKE, Shrinker
from why.asking.mapping import LeavesOver
from why.asking.places import LAST_LEVEL, PAGE, phases_after
from why.asking.program import Program, Verdict
from why.asking.runs import MOST_EVENTS, Beyond, Told, run_of
from why.asking.walks import End, Read, Reader, Walk, Walks
from why.log import words
from why.log.lines import ADDRESS_BITS, PAGE_BYTES, Before, Line, Lines, Locks, Log, Numbers, written

TAG_CONFLICT, TABLE_MAPPED = 12, 18
# The rules of which it is said.
ASKED = (BREAK_BEFORE_MAKE, TAG_CONFLICT, TABLE_MAPPED)
# `follow` takes no more events and steps together, and a run has up to so many steps.
MOST = MOST_EVENTS - 10
UNTOLD = ("live", "broken")


class Word(Enum):
    REAL = "real"
    STRICT = "strict"
    UNKNOWN = "unknown"


class Cause(Enum):
    """Why no run is there: of rule 4 the first five, of rule 12 the next two, and of rule 18 the last."""

    WALK = "walk"
    TOLD = "told"
    ALONE = "alone"
    CHILDREN = "children"
    ASID = "asid"
    EMPTY = "empty"
    FLUSHED = "flushed"
    UNREAD = "unread"


@dataclass(frozen=True)
class Danger:
    """Whether a refusal is real, with the run or the causes; of how many events it was asked, and how many there
    are; why it isn't known where it isn't; and whether no register write loads the root."""

    word: Word
    causes: tuple[Cause, ...] = ()
    told: Told | None = None
    asked: int = 0
    events: int = 0
    why: str = ""
    is_unloaded: bool = False


# ---- of rule 4

# The TLBIs by ASID, and those for every ASID that take as much.
FOR_ALL = {"vae1": "vaae1", "vale1": "vaale1", "rvae1": "rvaae1", "rvale1": "rvaale1"}


def for_all(line: Line) -> Line:
    """A TLBI for one ASID as one for every ASID."""
    event = line.event
    base = words.base_of(event.operation or "")
    suffix = (event.operation or "")[len(base):]
    if base in FOR_ALL:
        operand = event.operand & (1 << words.ASID_SHIFT) - 1
        return Line(line.at, f"tlbi {event.pe} {FOR_ALL[base]}{suffix} {hex(operand)}")
    return Line(line.at, f"tlbi {event.pe} vmalle1{suffix}") if base == "aside1" else line


class Reasons:
    """What keeps the rule from counting the flushes that took a walk: each cause is a change of the log."""

    def __init__(self, walks: Walks, walk: Walk, place: int):
        self.walks, self.walk, self.place = walks, walk, place

    def kept(self, line: Line, causes: frozenset[Cause], is_numbered: bool) -> Iterator[Line]:
        """A line as it is without the causes; none where it isn't there then. Another VMID or ASID is that of the walk
        where `is_numbered` says so, and else isn't there."""
        event, number = line.event, self.walk.reader.number
        is_child = event.word == "w" and event.place & -PAGE_BYTES == self.next_page and event.value & 1
        is_other = event.word == "msr" and words.KIND_OF_REGISTER.get(event.rest[0]) == self.tagging and event.value \
            and event.value >> words.ASID_SHIFT != number
        if Cause.CHILDREN in causes and is_child:
            return
        if Cause.ALONE in causes and is_other:
            value = event.value & (1 << words.ASID_SHIFT) - 1 | number << words.ASID_SHIFT
            yield from [Line(line.at, f"msr {event.pe} {event.rest[0]} {hex(value)}")] * is_numbered
            return
        yield for_all(line) if Cause.ASID in causes and event.word == "tlbi" else line

    @cached_property
    def next_page(self) -> int | None:
        """The page of the table that the place held."""
        value, above = self.walk.reads[-1].value, len(self.walk.reads) - 1
        level = self.walks.header.start_of(self.walk.reader.kind) + above
        return value & ADDRESS_BITS if value & 2 and level < LAST_LEVEL else None

    @cached_property
    def tagging(self) -> str | None:
        """The kind of the register that has the VMID or ASID of the walk; None where its tag has none."""
        kind = self.walk.reader.kind
        of_lower = "ttbr1" if self.walks.header.asids_of_ttbr1 else "ttbr0"
        return {"s2": "s2", "ttbr0": of_lower}.get(kind)

    def break_there(self) -> list[Line]:
        """A clear of the place and its publication, by the PE that has its lock; the publication alone where it is
        cleared."""
        front = self.walks.lines[:self.walk.last]
        last = next(line for line in front[::-1] if line.event.place == self.place)
        locks = Locks()
        for line in front:
            locks.take(line.event)
        declared = [line.event for line in front if line.event.word == "root"]
        lock = next((event.lock for event in declared if event.page == self.walk.reader.root), None)
        pe = locks.held.get(lock, last.event.pe)
        free = [f"{pe} {lock}"] if lock and lock not in locks.held else []
        if not last.event.value & 1:
            return [Line(0, f"dsb {last.event.pe} {words.COMPLETING}")]
        clear = [*(f"lock {one}" for one in free), f"w {pe} {hex(self.place)} 0x0", *(f"unlock {one}" for one in free)]
        return [Line(0, text) for text in (*clear, f"dsb {pe} {words.COMPLETING}")]

    def changed(self, causes: frozenset[Cause], is_numbered: bool) -> bytes:
        lines = [list(self.kept(line, causes, is_numbered)) for line in self.walks.lines]
        if Cause.TOLD in causes:
            lines.insert(self.walk.last, self.break_there())
        return written(self.walks.text, [line for part in lines for line in part])

    def is_counted(self, causes: frozenset[Cause]) -> bool:
        """Whether nothing of the place is left at the PE of the walk, in the log without these causes."""
        choices = (False, True) if Cause.ALONE in causes else (False,)
        return any(self.is_gone(self.changed(causes, is_numbered)) for is_numbered in choices)

    def is_gone(self, log: bytes) -> bool:
        answer, last = self.walks.program.explain(log), log.count(b"\n") - 1
        refusal = answer.refusal
        if not refusal or refusal.line != last:
            return answer.accepted
        if refusal.rule == BREAK_BEFORE_MAKE:
            return answer.phases[self.walk.reader.pe] == "cleansed"
        return refusal.rule > BREAK_BEFORE_MAKE

    @cached_property
    def applicable(self) -> list[Cause]:
        can = {Cause.TOLD: True, Cause.ALONE: self.tagging is not None, Cause.CHILDREN: self.next_page is not None,
               Cause.ASID: self.walk.reader.kind == "ttbr1"}
        return [cause for cause, it_can in can.items() if it_can]

    def fewest(self) -> tuple[Cause, ...]:
        """The fewest causes without which it is counted; none where that isn't found."""
        for count in range(1, len(self.applicable) + 1):
            for causes in combinations(self.applicable, count):
                if self.is_counted(frozenset(causes)):
                    return causes
        return ()


class Broken:
    """A refusal by rule 4, over the lines that were asked."""

    def __init__(self, program: Program, walks: Walks, phases: tuple[str, ...]):
        self.program, self.walks, self.phases = program, walks, phases
        self.place = walks.lines[-1].event.place
        self.taken: list[Walk] = []

    @cached_property
    def since(self) -> int:
        """Behind how many events the last valid value was written there. Bits 01 are valid, unless they come upon
        bits 11."""
        found, held = 0, 0
        for row, line in enumerate(self.walks.lines[:-1], 1):
            value = line.event.value if line.event.place == self.place else 0
            if value & 1 and (value & 2 or held & 3 != 3):
                found, held = row, value
        return found

    def is_untold(self, row: int, pe: int) -> bool:
        """Whether a PE isn't told of the break behind so many events."""
        phases = phases_after(self.program, self.walks.log, row + 1, self.place)
        return not phases or phases[pe] in UNTOLD

    def until(self, pe: int) -> int:
        """The last moment at which a PE isn't told of the break."""
        low, high = self.since, len(self.walks.lines) - 1
        if self.phases[pe] in UNTOLD:
            return high
        while high - low > 1:
            middle = (low + high) // 2
            low, high = (middle, high) if self.is_untold(middle, pe) else (low, middle)
        return low

    def ways(self) -> Iterator[tuple[Read, ...]]:
        """The ways to the place, and below it."""
        ways = self.walks.ways_to(self.place)
        yield from ways
        for way in ways:
            yield from self.walks.some(self.walks.below(way))

    def run(self) -> Walk | None:
        """A walk that leaves an entry which conflicts. Those that leave none are kept."""
        until = cache(self.until)
        for way in self.ways():
            for reader in self.walks.readers(way):
                walk = self.kept(reader, way, until(reader.pe)) if self.phases[reader.pe] != "cleansed" else None
                if walk:
                    return walk
        return None

    def kept(self, reader: Reader, way: tuple[Read, ...], until: int) -> Walk | None:
        """The walk of a reader that leaves its entry: made at once, or begun before and gone on with at the last
        moment."""
        found = self.walks.last_of(reader, way, self.since, until)
        if found and found.end is End.CONFLICT:
            return found.walk
        if found and way[-1].place == self.place:
            self.taken.append(found.walk)
        later = self.walks.last_of(reader, way, 0, until, until) if len(way) > 1 else None
        return later.walk if later and later.end is End.CONFLICT else None

    def causes(self) -> tuple[Cause, ...]:
        """Why there is none, by the walk that comes nearest."""
        found = [Reasons(self.walks, walk, self.place).fewest() for walk in self.taken]
        return min(filter(None, found), key=len, default=()) if found else (Cause.WALK,)


# ---- of the rules that name no place

def of_tag(walks: Walks) -> tuple[Walk | None, tuple[Cause, ...]]:
    """The walk through another root that leaves an entry under a tag of the refused register write."""
    kind = words.KIND_OF_REGISTER[walks.lines[-1].event.rest[0]]
    kinds = {kind} if kind in ("el2", "s2") else {"ttbr0", "ttbr1"}
    is_made = False
    for reader in walks.moments:
        if reader.kind not in kinds:
            continue
        for way in walks.some(walks.ways_of(reader.root, reader.kind)):
            found = walks.last_of(reader, way, 1, len(walks.before))
            if found and found.end is End.CONFLICT:
                return found.walk, ()
            is_made |= found is not None
    return None, (Cause.FLUSHED if is_made else Cause.EMPTY,)


def of_leaf(walks: Walks, refusal: Verdict) -> tuple[Walk | None, tuple[Cause, ...]]:
    """The walk to a leaf that maps the page of a table, or did since the last `init` of that."""
    leaves = LeavesOver(Before(walks.log, len(walks.lines) + 1), refusal.at >> PAGE)
    begun = max(0, leaves.begun - 1)
    is_made = False
    for one in {(over.leaf.place, over.leaf.value): over for over in leaves.over}.values():
        for way in walks.ways(Read(one.leaf.place, one.leaf.value)):
            for reader in walks.readers(way):
                found = walks.last_of(reader, way, 1, len(walks.before))
                if found and found.end is not End.TAKEN:
                    return found.walk, ()
                if found and found.row > begun:
                    return replace(found.walk, gone=found.row), ()
                is_made |= found is not None
    return None, () if is_made else (Cause.UNREAD,)


# ---- which lines are asked

def asked_lines(shrinker: Shrinker) -> Numbers | None:
    """All lines up to the refused one, where the program takes so many; else of those that are tried for the small
    log the first which are refused alike, with the lines that load the roots. None where these are too many."""
    last = shrinker.refusal.line
    if last - 1 <= MOST:
        return range(2, last + 1)
    for numbers in shrinker.fronts(last):
        wide = sorted({*numbers, *shrinker.index.loading()})
        if len(wide) > MOST:
            return None
        if shrinker.holds(wide):
            return wide
    return None


# ---- the whole

class Asking:
    """What is asked of one refusal."""

    def __init__(self, program: Program, log: Log, refusal: Verdict, shrinker: Shrinker | None = None):
        self.program, self.log, self.refusal = program, log, refusal
        self.shrinker = shrinker or Shrinker(program, log, refusal)

    def danger(self) -> Danger:
        of_rule = {BREAK_BEFORE_MAKE: self.of_place, TAG_CONFLICT: self.of_tag, TABLE_MAPPED: self.of_leaf}
        asked = asked_lines(self.shrinker)
        if asked is None:
            return Danger(Word.UNKNOWN, why=f"more than {MOST} events are about it")
        try:
            return of_rule[self.refusal.rule](self.log.lines(asked))
        except Beyond as limit:
            return Danger(Word.UNKNOWN, why=str(limit))

    def said(self, walks: Walks, walk: Walk | None, causes: tuple[Cause, ...]) -> Danger:
        """What is said where the run or the causes are known; nothing of the kind where not all walks were tried."""
        asked = len(walks.lines), self.refusal.line - 1
        if walk:
            return Danger(Word.REAL, (), Told(walks.lines, walks.run_of(walk)), *asked)
        if walks.is_cut:
            return Danger(Word.UNKNOWN, (), None, *asked, why="more walks are possible than are tried")
        return Danger(Word.STRICT, causes, None, *asked)

    def of_place(self, lines: Lines) -> Danger:
        run = run_of(self.program, written(self.log.header, lines))
        if run:
            return Danger(Word.REAL, (), Told(lines, run), len(lines), self.refusal.line - 1)
        walks = Walks(self.program, self.log.header, lines)
        broken = Broken(self.program, walks, self.shrinker.phases)
        walk = broken.run()
        danger = self.said(walks, walk, () if walk or walks.is_cut else broken.causes())
        return replace(danger, is_unloaded=not any(map(walks.readers, broken.ways())))

    def of_tag(self, lines: Lines) -> Danger:
        walks = Walks(self.program, self.log.header, lines)
        return self.said(walks, *of_tag(walks))

    def of_leaf(self, lines: Lines) -> Danger:
        walks = Walks(self.program, self.log.header, lines, is_taken=True)
        return self.said(walks, *of_leaf(walks, self.refusal))


def danger_of(program: Program, log: Log, refusal: Verdict, shrinker: Shrinker | None = None) -> Danger | None:
    """Whether a refusal is real; None for the rules of which nothing is said."""
    return Asking(program, log, refusal, shrinker).danger() if refusal.rule in ASKED else None
