# SPDX-License-Identifier: Apache-2.0
"""Walks that TLBs may make in a log, and whether what they leave is there at its end.

The log's writes and register writes say which walks are tried, and when each may be made last. That a walk can be made,
and that its entry is there where the last line comes, the program's `follow` says of the run with its steps.
"""
from __future__ import annotations

import re
from collections import defaultdict
from collections.abc import Iterator
from dataclasses import dataclass, replace
from enum import Enum
from functools import cached_property
from typing import NamedTuple

from why.asking.leaving import REGISTER_OF_KIND, Tags
from why.asking.places import LAST_LEVEL
from why.asking.program import Program
from why.asking.runs import Run, answer_within
from why.log import words
from why.log.lines import ADDRESS_BITS, PAGE_BYTES, Lines, Log, header_of, joined

# Before one of these a walk may be made that can't be made behind it: what a PE may read gets less by these alone.
ENDING = ("dsb", "isb", "unroot")
# So many runs of one log are tried, and so many walks below a table or of a root.
TRIES, BELOW = 400, 32
FOLLOWED = re.compile(r"run \d+ steps(?: conflict line (\d+))?|bad step line (\d+)")


class End(Enum):
    """How a run ends: with a conflict at the last line, with none there, at a step of the walk that can't be made,
    or at a DSB that answers a TLBI which takes the entry."""

    CONFLICT = "conflict"
    KEPT = "kept"
    IMPOSSIBLE = "impossible"
    TAKEN = "taken"


@dataclass(frozen=True)
class Read:
    place: int
    value: int

    def __str__(self) -> str:
        return f"{hex(self.place)} {hex(self.value)}"


@dataclass(frozen=True)
class Reader:
    """A PE that may read a root, by its first page, under a VMID or ASID."""

    pe: int
    kind: str
    root: int
    number: int


@dataclass(frozen=True)
class Walk:
    """A walk of a reader, made behind so many events; its last read behind `late` events where that has a number.
    Behind `joined` events the entry is joined with a walk of stage 1, and behind `gone` it is dropped, if ever."""

    reader: Reader
    reads: tuple[Read, ...]
    row: int
    late: int | None = None
    joined: int | None = None
    gone: int | None = None

    @property
    def last(self) -> int:
        return self.row if self.late is None else self.late

    def steps(self) -> dict[int, list[str]]:
        """The steps of the TLB, by the number of events before them."""
        found, count, reader = defaultdict(list), len(self.reads), self.reader
        first = count if self.late is None else count - 1
        found[self.row] += [f"m start {reader.pe} {reader.kind} {reader.number} {self.reads[0]}",
                            *(f"m extend {entry} {self.reads[entry]}" for entry in range(1, first))]
        found[self.last] += [f"m extend {entry} {self.reads[entry]}" for entry in range(first, count)]
        found[self.last] += [f"m drop {entry}" for entry in range(1, count)]
        if self.joined is not None:
            found[self.joined] += [f"m combine {count}", f"m drop {count}"]
        if self.gone is not None:
            found[self.gone].append(f"m drop {count + (self.joined is not None)}")
        return found


class Tried(NamedTuple):
    """How the run of a walk ends, and behind how many events."""

    end: End
    row: int
    walk: Walk


class Walks:
    """The walks of a log up to a line, that line its last; or behind it where `is_taken` says so. `is_cut` says that
    not all were tried."""

    def __init__(self, program: Program, header: str, lines: Lines, is_taken: bool = False):
        self.program, self.text, self.lines = program, header, lines
        self.header = header_of(header)
        self.before = lines if is_taken else lines[:-1]
        self.tries, self.is_cut = 0, False

    @cached_property
    def log(self) -> Log:
        return Log(joined(text.encode("latin-1") for text in (self.text, *(line.text for line in self.lines))))

    # ---- what may be read

    @cached_property
    def written(self) -> dict[int, list[int]]:
        """The values with bit 0 of each place, the newest first."""
        found: dict[int, dict[int, None]] = defaultdict(dict)
        for line in self.before[::-1]:
            if line.event.word == "w" and line.event.value & 1:
                found[line.event.place][line.event.value] = None
        return {place: [*values] for place, values in found.items()}

    @cached_property
    def links(self) -> dict[int, list[Read]]:
        """What may lead to a page."""
        found = defaultdict(list)
        for place, values in self.written.items():
            for value in values:
                if value & 2:
                    found[value & ADDRESS_BITS].append(Read(place, value))
        return found

    @cached_property
    def inside(self) -> dict[int, list[Read]]:
        """What may be read in a page."""
        found = defaultdict(list)
        for place, values in sorted(self.written.items()):
            found[place & -PAGE_BYTES] += [Read(place, value) for value in values]
        return found

    @cached_property
    def roots(self) -> dict[int, tuple[int, str]]:
        """For each page of a root its first page, and the kind."""
        declared = [(line.event.page, line.event.rest[0]) for line in self.before if line.event.word == "root"]
        return {page: (root, kind) for root, kind in declared for page in self.header.pages_at(kind, root)}

    def ways(self, read: Read, depth: int = LAST_LEVEL) -> Iterator[tuple[Read, ...]]:
        """The reads that lead from a root to one, and that."""
        page = read.place & -PAGE_BYTES
        if page in self.roots:
            yield (read,)
        for above in self.links[page] if depth else ():
            yield from ((*way, read) for way in self.ways(above, depth - 1))

    def ways_to(self, place: int) -> list[tuple[Read, ...]]:
        return [way for value in self.written.get(place, ()) for way in self.ways(Read(place, value))]

    def below(self, reads: tuple[Read, ...]) -> Iterator[tuple[Read, ...]]:
        """The ways that go on behind these reads."""
        _, kind = self.roots[reads[0].place & -PAGE_BYTES]
        if not reads[-1].value & 2 or self.header.start_of(kind) + len(reads) > LAST_LEVEL:
            return
        for read in self.inside.get(reads[-1].value & ADDRESS_BITS, ()):
            yield (*reads, read)
            yield from self.below((*reads, read))

    def ways_of(self, root: int, kind: str) -> Iterator[tuple[Read, ...]]:
        """The ways from the pages of a root."""
        for page in self.header.pages_at(kind, root):
            for read in self.inside.get(page, ()):
                yield (read,)
                yield from self.below((read,))

    # ---- when

    @cached_property
    def moments(self) -> dict[Reader, list[int]]:
        """For each reader after how many events it may be that it reads its root, where that may end with the next."""
        tags, found = Tags(self.header), defaultdict(list)
        for row, line in enumerate(self.before):
            if line.event.word in ENDING:
                self.note(tags, row, found)
            tags.take(line.at, line.text.encode("latin-1"))
        self.note(tags, len(self.before), found)
        return found

    def note(self, tags: Tags, row: int, found: dict[Reader, list[int]]) -> None:
        for pe in {pe for pe, _ in tags.registers.values}:
            for kind in words.KINDS[self.header.world]:
                for load, number in tags.loads_at(pe, kind):
                    root = load.value & ADDRESS_BITS
                    numbers = self.asids(tags, pe) if kind == "ttbr1" else [number]
                    readers = [Reader(pe, kind, root, number) for number in numbers if tags.roots.get(root) == kind]
                    for reader in readers:
                        if found[reader][-1:] != [row]:
                            found[reader].append(row)

    def asids(self, tags: Tags, pe: int) -> list[int]:
        """The ASIDs that are current at a PE."""
        register = REGISTER_OF_KIND["ttbr1" if self.header.asids_of_ttbr1 else "ttbr0"]
        return list(dict.fromkeys(load.value >> words.ASID_SHIFT for load in tags.registers.of(pe, register)))

    # ---- what the program says

    def parts(self, walk: Walk) -> list[str]:
        """The lines of the run: the log with the steps of a walk."""
        steps, parts = walk.steps(), [self.text]
        for row, line in enumerate(self.lines):
            parts += [*steps.get(row, ()), line.event.plain]
        return [*parts, *steps.get(len(self.lines), ())]

    def followed(self, walk: Walk) -> Tried:
        parts = self.parts(walk)
        self.tries += 1
        run = "\n".join([*parts, f"end {len(self.lines)}\n"])
        answer = answer_within(self.program, "follow", run.encode("latin-1"))
        conflict, bad = FOLLOWED.match(answer.first).groups()
        at = int(conflict or bad or len(parts))
        row = sum(not part.startswith("m ") for part in parts[1:at - 1])
        if bad:
            return Tried(End.IMPOSSIBLE if parts[at - 1].startswith("m ") else End.TAKEN, row, walk)
        return Tried(End.CONFLICT if conflict and row == len(self.lines) - 1 else End.KEPT, row, walk)

    def tried(self, walk: Walk) -> Tried:
        """How the run ends; an entry of stage 2 that would have to be gone is joined right before that."""
        found = self.followed(walk)
        if found.end is not End.TAKEN or walk.reader.kind != "s2" or found.row < walk.last:
            return found
        return self.followed(replace(walk, joined=found.row))

    def last_of(self, reader: Reader, reads: tuple[Read, ...], since: int, until: int, late: int | None = None
                ) -> Tried | None:
        """The walk that a reader makes last between two moments; None where it can make none. The last read may be made
        later."""
        for row in [row for row in self.moments[reader] if since <= row <= until][::-1]:
            if self.tries >= TRIES:
                self.is_cut = True
                return None
            found = self.tried(Walk(reader, reads, row, late))
            if found.end is not End.IMPOSSIBLE:
                return found
        return None

    def some(self, ways: Iterator[tuple[Read, ...]]) -> Iterator[tuple[Read, ...]]:
        """The first of these ways."""
        for count, way in enumerate(ways):
            if count == BELOW:
                self.is_cut = True
                return
            yield way

    def readers(self, reads: tuple[Read, ...]) -> list[Reader]:
        """Who may begin such a walk."""
        root, kind = self.roots[reads[0].place & -PAGE_BYTES]
        return [reader for reader in self.moments if (reader.root, reader.kind) == (root, kind)]

    def run_of(self, walk: Walk) -> Run:
        return Run(tuple(self.parts(walk)[1:]), len(self.lines) - 1)
