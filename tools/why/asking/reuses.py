# SPDX-License-Identifier: Apache-2.0
"""`pending --pages`: pages that become a table while a TLB may still reach them through a stage 2 leaf.

The log's writes give the candidates: each `init`, `root` and link of a page that the last valid value of a place in a stage 2 tree
maps; of the same page and leaf the first. Each is asked of the program by a made write at the leaf's place, right before the reuse:
one that break-before-make refuses says that the leaf is still valid or may still be held. The made writes of one run stand at their
reuses in one log, which ends before any of their places is written again; one that isn't the first there is asked anew before it
counts. A leaf that is still valid at a reuse was so at the reuses before it, so of these the last is asked first.

A log that says `isolated` is refused by rule 18 where a page becomes a table so. What is found in an accepted one are pages that are
made zero while a leaf maps them, and become no table before a further `init`.
"""
from __future__ import annotations

from collections import defaultdict
from collections.abc import Iterator
from dataclasses import dataclass

from why.log.lines import ADDRESS_BITS
from why.asking.places import BREAK_BEFORE_MAKE, LAST_LEVEL, PAGE, WITH_BLOCKS, Tables
from why.asking.program import Program, Unable
from why.log.stream import Front

# The bits of a page's number inside what a leaf of each level maps.
SPANS = {1: 18, 2: 9, 3: 0}
AT_THE_END = 1 << 40
# another address, so that a value of the same type has another core
OTHER = 1 << 40


@dataclass(frozen=True)
class Leaf:
    """A leaf of a stage 2 tree: its place and value, the line that wrote it, and the lock of its root."""

    place: int
    value: int
    line: int
    lock: str | None


@dataclass
class Reuse:
    """A page that a line makes a table, and a leaf that maps it, the last of its place; the line that cleared the leaf, 0 where
    none did; how many bytes stand before the line, which lines write at the leaf's place there, and which line of the log does
    so next."""

    page: int
    line: int
    leaf: Leaf
    cleared: int
    offset: int
    made: list[bytes]
    until: int = AT_THE_END
    phases: tuple[str, ...] = ()


@dataclass(frozen=True)
class Where:
    """What a page of a tree is: the kind, the level, and the lock of its root."""

    kind: str
    level: int
    lock: str | None


class Leaves:
    """The last leaves of the places of stage 2 trees, by what they map, and the reuses of that."""

    def __init__(self, front: Front):
        self.tables = Tables(front.header)
        self.where: dict[int, Where] = {}
        self.lines: dict[int, dict[int, int]] = defaultdict(dict)
        self.leaf_at: dict[int, Leaf] = {}
        self.mapping: dict[tuple[int, int], dict[int, Leaf]] = defaultdict(dict)
        self.told: dict[tuple[Leaf, int], None] = {}
        self.open: dict[int, list[Reuse]] = defaultdict(list)
        self.reuses: list[Reuse] = []
        self.offset = len(front.header) + 1
        for at, line in front.lines():
            self.take(at, line)
            self.offset += len(line) + 1

    def take(self, at: int, line: bytes) -> None:
        word, *fields = line.split(b" ")
        if word == b"init":
            self.begin(at, int(fields[1], 16) >> PAGE)
        self.tables.take(at, line)
        if word == b"w":
            self.write(at, int(fields[1], 16), int(fields[2], 16))
        elif word == b"root":
            kind, lock = fields[1].decode(), fields[2].decode()
            for page in self.tables.pages_of_root(kind, int(fields[3], 16)):
                self.attach(at, page, Where(kind, self.tables.header.start_of(kind), None if lock == "-" else lock))

    def begin(self, at: int, page: int) -> None:
        """An `init`: the page is in no tree, so what was written in it maps nothing."""
        self.reuse(at, page)
        self.where.pop(page, None)
        for place in self.lines.pop(page, {}):
            self.unmap(place)

    def write(self, at: int, place: int, value: int) -> None:
        for reuse in self.open.pop(place, ()):
            reuse.until = at
        where = self.where.get(place >> PAGE)
        if value & 1 and (where is None or where.kind == "s2"):
            self.lines[place >> PAGE][place] = at
        if value & 1 and where:
            self.make(at, place, value, where)

    def make(self, at: int, place: int, value: int, where: Where) -> None:
        """A value with bit 0 at a place of a tree, from this line on: a link, or a leaf."""
        if value & 2 and where.level < LAST_LEVEL:
            self.unmap(place)
            self.attach(at, (value & ADDRESS_BITS) >> PAGE, Where(where.kind, where.level + 1, where.lock))
        elif where.kind == "s2" and (value & 2 or where.level in WITH_BLOCKS):
            self.unmap(place)
            leaf = self.leaf_at[place] = Leaf(place, value, self.lines[place >> PAGE].get(place, at), where.lock)
            self.mapping[self.key(leaf, where.level)][place] = leaf

    def key(self, leaf: Leaf, level: int) -> tuple[int, int]:
        return level, (leaf.value & ADDRESS_BITS) >> PAGE + SPANS[level]

    def unmap(self, place: int) -> None:
        leaf = self.leaf_at.pop(place, None)
        for level in SPANS if leaf else ():
            self.mapping[self.key(leaf, level)].pop(place, None)

    def attach(self, at: int, page: int, where: Where) -> None:
        """A page becomes one of a tree, and so do those to which its values lead."""
        self.reuse(at, page)
        self.where[page] = where
        table = self.tables.pages.get(page)
        for inside, value in enumerate(table.values if table else ()):
            if value & 1:
                self.make(at, page << PAGE | inside << 3, value, where)
        if where.kind != "s2":
            self.lines.pop(page, None)

    def reuse(self, at: int, page: int) -> None:
        for level, bits in SPANS.items():
            for leaf in self.mapping.get((level, page >> bits), {}).values():
                if (leaf, page) not in self.told:
                    self.told[leaf, page] = None
                    new = Reuse(page, at, leaf, self.tables.cleared_at(leaf.place), self.offset, self.made(leaf))
                    self.reuses.append(new)
                    self.open[leaf.place].append(new)

    def made(self, leaf: Leaf) -> list[bytes]:
        """A write of another value at a leaf's place, by the PE that has its lock; else under the lock."""
        holder = self.tables.locks.held.get(leaf.lock)
        write = "w %d 0x%x 0x%x" % (holder or 0, leaf.place, leaf.value ^ OTHER)
        lines = [write] if leaf.lock is None or holder is not None else [f"lock 0 {leaf.lock}", write, f"unlock 0 {leaf.lock}"]
        return [line.encode() for line in lines]


class Asker:
    """Asks about reuses in one log."""

    def __init__(self, program: Program, front: Front):
        self.program, self.front = program, front

    def log(self, reuses: list[Reuse]) -> Iterator[bytes]:
        """The log up to the last of these reuses, with the made writes of each before it."""
        at = count = 0
        for reuse in reuses:
            yield from self.front.asked(reuse.offset, at)
            yield b"".join(line + b"\n" for line in reuse.made)
            at, count = reuse.offset, count + len(reuse.made)
        yield b"end %d\n" % (reuses[-1].line - 2 + count)

    def refused(self, reuses: list[Reuse]) -> tuple[int | None, tuple[str, ...]]:
        """Which of the made writes is refused first, and the phases where the leaf is held there; their number where none is, and
        None where a line of the log is refused behind one."""
        answer = self.program.feed(("explain",), self.log(reuses))
        if answer.accepted:
            return len(reuses), ()
        if not answer.refusal:
            raise Unable(answer.status, f"what was asked at a reuse has no answer: {answer.first}")
        count = 0
        for position, reuse in enumerate(reuses):
            if reuse.line + count <= answer.refusal.line < reuse.line + count + len(reuse.made):
                return position, answer.phases if answer.refusal.rule == BREAK_BEFORE_MAKE else ()
            count += len(reuse.made)
        return None, ()

    def ask(self, reuses: list[Reuse]) -> None:
        """Gives each reuse the phases of its leaf; none where nothing is held."""
        left, most = reuses, len(reuses)
        while left:
            now = self.together(left[:most])
            position, phases = self.refused(now)
            if position is None:
                most = 1
                continue
            if position == 0:
                now[0].phases = phases
            left, most = left[max(1, position):], len(reuses)

    def together(self, reuses: list[Reuse]) -> list[Reuse]:
        """The first of these before whose last no place of another is written again."""
        until = AT_THE_END
        for count, reuse in enumerate(reuses):
            if reuse.line > until:
                return reuses[:count]
            until = min(until, reuse.until)
        return reuses


def reused_pages(program: Program, front: Front) -> list[Reuse]:
    """The reuses of an accepted log at which the leaf is still valid or may still be held, in order."""
    found = Leaves(front).reuses
    last = {reuse.leaf: reuse for reuse in found if not reuse.cleared}
    asker = Asker(program, front)
    asker.ask([reuse for reuse in found if reuse.cleared or reuse is last[reuse.leaf]])
    before = [reuse for reuse in found if not reuse.cleared and reuse is not last[reuse.leaf]]
    for reuse in before:
        reuse.phases = last[reuse.leaf].phases
    asker.ask([reuse for reuse in before if not reuse.phases])
    return [reuse for reuse in found if reuse.phases]
