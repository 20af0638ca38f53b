# SPDX-License-Identifier: Apache-2.0
"""`pending --unlocks`: the places that a PE cleared under a lock and whose flush isn't answered where it gives that
lock back.

The log's writes give the candidates: at each `unlock` the places of the lock's trees that were cleared since the
`lock` and have no valid value now, each once. Each is asked of the program by a made write right before the `unlock`:
one that break-before-make refuses says that the place is held. Of the candidates with the same two labels, that of the
`unlock` and that of the clear, the first that is held is told.

As many as can are asked in one run. So the made write has the leaf that the log itself writes at the place next, which
may stand behind the question then: it writes what is there. For that each leaf has to have another output than the one
before it at its place. So every other one gets another output, where the log is accepted so too. What a leaf maps is
judged by no rule under the header for questions. Where the log writes no such leaf next, the run ends before it does.
"""
from __future__ import annotations

from collections import Counter, defaultdict
from collections.abc import Iterator
from dataclasses import dataclass
from itertools import count
from typing import NamedTuple

from why.asking.places import BREAK_BEFORE_MAKE, LAST_LEVEL, PAGE, WITH_BLOCKS
from why.asking.program import Program
from why.asking.reuses import AT_THE_END, OTHER, Asker
from why.asking.trees import Spot, Trees, bits_of
from why.log.lines import ADDRESS_BITS, Event, event_of
from why.log.stream import Front

# The attributes of a made leaf, with nG, and the bits of a block, a page and a table.
ATTRIBUTES, BLOCK, LINK = 0xF00, 1, 3
# So many places keep their outputs where the log isn't accepted otherwise; then all do.
MOST_KEPT = 64


class Piece(NamedTuple):
    """Bytes in the place of so many others of the log."""

    offset: int
    size: int
    data: bytes


@dataclass
class Unlock:
    """A place that was cleared under a lock and the line that gives the lock back; how many bytes stand before that
    line, which lines ask about the place there, and before which line the run has to end. `plain` and `next_line` are
    these where outputs are as they were. Where it is held the phases, and of how many candidates with the same labels
    it is the first."""

    place: int
    spot: Spot
    cleared: int
    cleared_label: str
    line: int
    label: str
    pe: int
    old: int
    lock: str
    offset: int
    made: list[bytes]
    plain: list[bytes]
    until: int = AT_THE_END
    next_line: int = AT_THE_END
    phases: tuple[str, ...] = ()
    alike: int = 1

    @property
    def group(self) -> tuple:
        """What those have that are told as one: the labels, and without that of the clear the place."""
        return self.label, self.cleared_label or self.place


class Clear(NamedTuple):
    """The line that cleared a place, its label, and what the place translates."""

    at: int
    label: str
    spot: Spot


def is_leaf(value: int, level: int) -> bool:
    return value & 3 == (LINK if level == LAST_LEVEL else BLOCK) and (level == LAST_LEVEL or level in WITH_BLOCKS)


def output_of(value: int, level: int) -> int:
    return value & ADDRESS_BITS & -(1 << bits_of(level))


class Unlocks(Trees):
    """The candidates of a front part, and the lines with other outputs, by their places."""

    def __init__(self, front: Front):
        self.above: dict[int, int] = {}
        self.open: dict[str, dict[int, Clear]] = defaultdict(dict)
        self.asked: dict[int, dict[int, list[Unlock]]] = defaultdict(lambda: defaultdict(list))
        self.turned: dict[int, dict[int, int]] = defaultdict(dict)
        self.pieces: dict[int, list[Piece]] = defaultdict(list)
        self.found: list[Unlock] = []
        self.offset, self.line, self.was_valid = len(front.header) + 1, b"", False
        super().__init__(front)
        unused = (page << PAGE for page in count(1) if page not in self.tables.pages)
        self.fresh = next(unused)

    def take(self, at: int, line: bytes) -> None:
        self.line = line
        if line.startswith(b"unlock "):
            self.unlock(at, event_of(line.decode("latin-1")))
        elif line.startswith(b"init "):
            self.begin(at, event_of(line.decode("latin-1")).page >> PAGE)
        elif line.startswith(b"w "):
            place = int(line.split(b" ", 3)[2], 16)
            self.was_valid = bool(self.last_value(place)) and not self.tables.cleared_at(place)
        super().take(at, line)
        self.offset += len(line) + 1

    def begin(self, at: int, page: int) -> None:
        """An `init`: what was written in the page is gone."""
        self.above.pop(page, None)
        self.turned.pop(page, None)
        for clears in self.open.values():
            for place in [place for place in clears if place >> PAGE == page]:
                del clears[place]
        for asked in self.asked.pop(page, {}).values():
            for one in asked:
                one.until = one.next_line = min(one.until, at)

    def write(self, at: int, event: Event) -> None:
        place, spot, old = event.place, self.spot(event.place), self.last_value(event.place)
        value = self.with_output(event, spot.level) if spot else event.value
        for one in self.asked[place >> PAGE].pop(place, []):
            one.next_line = at
            level = one.spot.level
            if is_leaf(value, level) and output_of(value, level) != output_of(one.old, level):
                one.made = [b"w %d 0x%x 0x%x" % (one.pe, place, value)]
            else:
                one.until = at
        super().write(at, event)
        if spot is None or spot.lock is None or spot.lock not in self.tables.locks.held:
            return
        is_valid = event.value & 1 and (event.value & 2 or spot.level in WITH_BLOCKS)
        self.open[spot.lock].pop(place, None)
        if not is_valid and old:
            self.open[spot.lock][place] = Clear(at, event.label, spot)

    def with_output(self, event: Event, level: int) -> int:
        """The value of a write, a leaf with another output where those of its place have that now: from every other one
        on that comes where none was."""
        if not is_leaf(event.value, level):
            return event.value
        turned = self.turned[event.place >> PAGE]
        if not self.was_valid:
            turned[event.place] = OTHER - turned.get(event.place, 0)
        value = event.value ^ turned.get(event.place, 0)
        if value != event.value:
            fields = self.line.split(b" ")
            data = b" ".join([*fields[:3], b"0x%x" % value, *fields[4:]])
            self.pieces[event.place].append(Piece(self.offset, len(self.line), data))
        return value

    def link(self, page: int, above: Spot, place: int) -> None:
        super().link(page, above, place)
        self.above[page] = place

    def is_attached(self, place: int) -> bool:
        """Whether no link above a place is cleared. What hangs below one goes by that."""
        seen = set()
        while (page := place >> PAGE) in self.above and page not in seen:
            seen.add(page)
            place = self.above[page]
            if self.tables.cleared_at(place):
                return False
        return True

    def unlock(self, at: int, event: Event) -> None:
        for place, clear in self.open.pop(event.lock, {}).items():
            if self.is_attached(place):
                made = [line.encode() for line in self.made(event.pe, place, clear.spot)]
                old = self.last_value(place) ^ self.turned[place >> PAGE].get(place, 0)
                new = Unlock(place, clear.spot, clear.at, clear.label, at, event.label, event.pe, old, event.lock,
                             self.offset, made, made)
                self.asked[place >> PAGE][place].append(new)
                self.found.append(new)

    def made(self, pe: int, place: int, spot: Spot) -> list[str]:
        """A write of a leaf with an output that the place never had; where no leaf can be that of a link."""
        if spot.level != LAST_LEVEL and spot.level not in WITH_BLOCKS:
            return [f"init {pe} {{fresh}}", f"w {pe} {hex(place)} {{link}}"]
        output = output_of(self.last_value(place), spot.level) ^ OTHER << 1
        return [f"w {pe} {hex(place)} {hex(output | ATTRIBUTES | (LINK if spot.level == LAST_LEVEL else BLOCK))}"]

    def questions(self) -> list[Unlock]:
        """The candidates, a page for those that link one."""
        pages = {b"{fresh}": b"0x%x" % self.fresh, b"{link}": b"0x%x" % (self.fresh | LINK)}
        filled = lambda lines: [b" ".join(pages.get(part, part) for part in line.split(b" ")) for line in lines]
        for one in self.found:
            one.made, one.plain = filled(one.made), filled(one.plain)
        return self.found


class GroupAsker(Asker):
    """Asks until one of each group is found."""

    def __init__(self, program: Program, front: Front, unlocks: Unlocks):
        super().__init__(program, front)
        self.unlocks, self.pieces, self.asked = unlocks, unlocks.pieces, unlocks.questions()
        self.keep_outputs()

    def keep_outputs(self) -> None:
        """Leaves the outputs of places as they were, until the log is accepted with the others."""
        for _ in range(MOST_KEPT):
            refusal = self.program.feed(("check",), self.stream([], self.front.size, self.front.events)).refusal
            if refusal is None:
                return
            if refusal.rule != BREAK_BEFORE_MAKE or refusal.at not in self.pieces:
                break
            self.keep(refusal.at)
        for place in [*self.pieces]:
            self.keep(place)

    def keep(self, place: int) -> None:
        del self.pieces[place]
        for one in self.asked:
            if one.place == place:
                one.made, one.until = one.plain, one.next_line

    def stream(self, put: list[Piece], size: int, events: int) -> Iterator[bytes]:
        """The first bytes of the log, so many, with other outputs and with these pieces, and the count of its
        events."""
        changed = [piece for pieces in self.pieces.values() for piece in pieces if piece.offset < size]
        at = len(self.front.header) + 1
        yield from self.front.asked(at)
        for piece in sorted([*changed, *put]):
            yield from self.front.source.again(piece.offset, at)
            yield piece.data
            at = piece.offset + piece.size
        yield from self.front.source.again(size, at)
        yield b"end %d\n" % events

    def log(self, reuses: list[Unlock]) -> Iterator[bytes]:
        put = [Piece(one.offset, 0, b"".join(line + b"\n" for line in one.made)) for one in reuses]
        return self.stream(put, reuses[-1].offset, reuses[-1].line - 2 + sum(len(one.made) for one in reuses))

    def found(self) -> list[Unlock]:
        left, most, found = self.asked, len(self.asked), []
        while left:
            now = self.together(left[:most])
            position, phases = self.refused(now)
            if position is None and len(now) > 1:
                most = 1
                continue
            if position == 0 and phases:
                now[0].phases = phases
                found.append(now[0])
                left = [one for one in left if one.group != now[0].group]
            else:
                left = left[max(1, position or 1):]
            most = len(self.asked)
        return found


def held_at_unlocks(program: Program, front: Front) -> list[Unlock]:
    """The places of an accepted log that are held where a lock is given back: of those with the same labels the
    first."""
    asker = GroupAsker(program, front, Unlocks(front))
    often = Counter(one.group for one in asker.asked)
    found = asker.found()
    for one in found:
        one.alike = often[one.group]
    return found
