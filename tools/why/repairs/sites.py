# SPDX-License-Identifier: Apache-2.0
"""Where the source line of a change comes again in a log: one that is wrong in the source is wrong at each line that
it logged.

A line goes by its label and word; one without a label by the last labelled line of its PE before it, and the words
from there on. What a change does at one line is made at each such line by the fields of that one. Whether that is
right the program says.
"""
from __future__ import annotations

import contextlib
from bisect import bisect_left, bisect_right
from collections import defaultdict
from collections.abc import Iterator
from dataclasses import dataclass, replace
from functools import cached_property
from itertools import chain, islice

from why.asking.trees import Spot, Trees
from why.log import words
from why.log.lines import Before, Event, Log, event_of
from why.repairs.changes import Change, Drop, Edit, Kind, Move, Put, Swap, position_of
from why.repairs.sections import own

# So many lines of a PE are looked at for a label before a line, and for the goal of one that is moved.
BACK, AWAY = 8, 64
HINTS = words.HINT | words.RANGE_HINT


class Unlike(Exception):
    """What a change does at its line can't be said of the fields of another one."""


@dataclass(frozen=True)
class Shape:
    """The label of a line, and the words of its PE from there to the line; the last is that of the line."""

    label: str
    words: tuple[str, ...]


@dataclass(frozen=True)
class Cause:
    """Where a change is made: its line, the shape of that, and whether it is what comes behind the line."""

    at: int
    shape: Shape
    is_behind: bool

    @property
    def label(self) -> str:
        return self.shape.label

    @property
    def word(self) -> str:
        return self.shape.words[-1]


def shape_of(log: Log, at: int) -> Shape | None:
    """The shape of a line; None where no label is near."""
    found: list[str] = []
    for event in chain([log.event(at)], (event for _, event in islice(own(log, at, -1, log.last_event), BACK))):
        found.insert(0, event.word)
        if event.label:
            return Shape(event.label, tuple(found))
    return None


def anchor_of(log: Log, edit: Edit) -> int:
    """The line whose shape says where an edit is made: its own, or for a put event the last of its PE before."""
    if not isinstance(edit, Put):
        return edit.at
    pe = event_of(edit.text).pe
    for at in range(edit.after, 1, -1):
        if log.event(at).pe == pe:
            return at
    return edit.after


class Sites:
    """The lines of a log by their shapes."""

    def __init__(self, log: Log):
        self.log = log

    @cached_property
    def labelled(self) -> dict[tuple[str, str], list[int]]:
        """The lines with a label, by that and their word."""
        found = defaultdict(list)
        for at in range(2, self.log.last_event + 1):
            line = self.log.bytes_of(at)
            if b" @" in line:
                word, _, rest = line.partition(b" ")
                found[rest.rpartition(b" @")[2].decode("latin-1"), word.decode("latin-1")].append(at)
        return found

    @cached_property
    def trees(self) -> Trees:
        return Trees(Before(self.log, self.log.last_event), recorded=True)

    def of_shape(self, shape: Shape) -> Iterator[int]:
        """The lines of a shape, in order."""
        for at in self.labelled[shape.label, shape.words[0]]:
            behind = islice(own(self.log, at, 1, self.log.last_event), len(shape.words) - 1)
            row = [(at, ""), *((number, event.label) for number, event in behind)]
            said = [self.log.event(number).word for number, _ in row]
            if tuple(said) == shape.words and not any(label for _, label in row[1:]):
                yield row[-1][0]

    # ---- a change at another line

    def at_site(self, change: Change, anchors: list[int], row: list[int]) -> Change:
        """The change at lines that are like its own; without what stands there already. Fails where it can't be said
        of them."""
        made = [self.edit_at(edit, anchor, site) for edit, anchor, site in zip(change.edits, anchors, row)]
        return Change(tuple(edit for edit in made if edit))

    def edit_at(self, edit: Edit, anchor: int, site: int) -> Edit | None:
        if isinstance(edit, Drop):
            return Drop(site)
        if isinstance(edit, Move):
            return Move(site, self.goal(edit, site))
        if isinstance(edit, Swap):
            return self.swapped(edit, self.log.event(anchor), self.log.event(site), site)
        if self.behind(anchor) != self.behind(site):
            return None
        return replace(edit, after=site, text=self.put(event_of(edit.text), anchor, site))

    def behind(self, at: int) -> tuple[str, str] | None:
        """The word and label of the next line of a line's PE: where that is another one, what is put in may stand
        there."""
        event = next(own(self.log, at, 1, self.log.last_event), (0, None))[1]
        return event and (event.word, event.label)

    def swapped(self, edit: Swap, old: Event, here: Event, site: int) -> Swap | None:
        new = event_of(edit.text)
        if new.pe != old.pe or new.word != old.word or edit.at == 1:
            raise Unlike
        rest = tuple(field_of(*fields) for fields in zip(old.rest, new.rest, here.rest))
        if len(rest) != len(new.rest) or old.operation and here.operation != old.operation:
            raise Unlike
        if rest == here.rest:
            return None
        return replace(edit, at=site, text=str(Event(here.word, here.pe, rest, here.label)))

    def goal(self, edit: Move, site: int) -> int:
        """Behind which line one is moved: the next line of its PE in that direction which is like the one that it was
        moved past."""
        step = 1 if edit.after > edit.at else -1
        mark = self.log.event(edit.after if step > 0 else edit.after + 1)
        if mark.pe != self.log.event(edit.at).pe:
            raise Unlike
        for number, event in islice(own(self.log, site, step, self.log.last_event), AWAY):
            if (event.word, event.label) == (mark.word, mark.label):
                return number if step > 0 else number - 1
        raise Unlike

    def put(self, event: Event, anchor: int, site: int) -> str:
        """An event that is put in, by the PE of another line, and for the place that this PE wrote last there."""
        here = self.log.event(site)
        if event.word not in ("dsb", "isb", "dmb", "tlbi") or event.pe != self.log.event(anchor).pe:
            raise Unlike
        rest = event.rest
        if event.operand is not None:
            rest = (event.operation, hex(self.operand(words.Operand(event.operation, event.operand), anchor, site)))
        return Event(event.word, here.pe, rest).plain

    def operand(self, operand: words.Operand, anchor: int, site: int) -> int:
        """The operand for the place that the PE of a line wrote last there, as it is for that of another line."""
        first, other = self.written(anchor), self.written(site)
        if (first.level, first.kind) != (other.level, other.kind):
            raise Unlike
        moved = operand.at(operand.address + other.address - first.address)
        by_asid = words.base_of(operand.operation) in words.BY_ASID
        tags = self.trees.tags.get(other.root, ())
        return words.Operand(operand.operation, moved).of_asid(tags[-1]) if by_asid and tags else moved

    def written(self, at: int) -> Spot:
        """What the place translates that the PE of a line wrote last, up to that line."""
        before = chain([(at, self.log.event(at))], islice(own(self.log, at, -1, self.log.last_event), AWAY))
        found = next((self.trees.spot_at(number, event.place) for number, event in before if event.word == "w"), None)
        if found is None:
            raise Unlike
        return found


def field_of(old: str, new: str, here: str) -> str:
    """What a field becomes at another line: the same word, the same bits of a hint, or a number that is as far away.
    Where it hasn't that word or those bits it stays."""
    if old == new:
        return here
    if not old.startswith("0x"):
        return new if here == old else here
    was, is_now, there = int(old, 16), int(new, 16), int(here, 16)
    differs = was ^ is_now
    if not differs & ~HINTS or bin(differs).count("1") == 1:
        return hex(there & ~differs | is_now & differs) if not (there ^ was) & differs else here
    return hex(there + is_now - was & (1 << 64) - 1)


def cause_of(log: Log, change: Change) -> Cause | None:
    """Where a change is made first; None where no label says so, or it is the header."""
    for edit in sorted(change.edits, key=position_of):
        at = anchor_of(log, edit)
        shape = shape_of(log, at) if edit.kind is not Kind.HEADER and 1 < at <= log.last_event else None
        if shape:
            return Cause(at, shape, isinstance(edit, Put))
    return None


def everywhere(log: Log, change: Change, own_cause: Cause) -> list[Change]:
    """The change at each other line that is like its own: a change for each. Where it can't be said of a line that is
    left out."""
    sites, anchors = Sites(log), [anchor_of(log, edit) for edit in change.edits]
    shapes = [shape_of(log, anchor) for anchor in anchors]
    pe = log.event(own_cause.at).pe
    if any(shape is None for shape in shapes) or any(log.event(anchor).pe != pe for anchor in anchors):
        return []
    found = []
    for row in rows_of(sites, shapes, anchors, own_cause):
        with contextlib.suppress(Unlike):
            found.append(sites.at_site(change, anchors, row))
    return [one for one in found if one.edits]


def rows_of(sites: Sites, shapes: list[Shape], anchors: list[int], own_cause: Cause) -> Iterator[list[int]]:
    """For each other line that is like the first the lines of its PE that stand to it as those of the change: the
    next ones of their shapes."""
    by_pe: list[dict[int, list[int]]] = [defaultdict(list) for _ in shapes]
    for found, shape in zip(by_pe, shapes):
        for at in sites.of_shape(shape):
            found[sites.log.event(at).pe].append(at)
    for pe, lines in by_pe[anchors.index(own_cause.at)].items():
        for site in lines:
            row = [nearest(found[pe], site, anchor - own_cause.at) for found, anchor in zip(by_pe, anchors)]
            if None not in row and not set(row) & set(anchors):
                yield row


def nearest(lines: list[int], site: int, away: int) -> int | None:
    """Of these lines the one next to a line on the side on which `away` is."""
    if away == 0:
        return site
    at = bisect_right(lines, site) if away > 0 else bisect_left(lines, site) - 1
    return lines[at] if 0 <= at < len(lines) else None
